//! The numbers that stand for something by themselves: refusals, errors, lengths, mosts, kinds, fates.

use crate::sources::{Definitions, Header};
use builder::{layout, ErrorKind, Fate, Refusal};
use treefile::records::{domain, node, stmt, FORM, MISSING, MOSTS, RECORD_BYTES, TRAILER};

/// A name of the header, its number in Rust, and the definition's name.
type Tie<'t> = (&'t str, u64, &'t str);

fn check(header: &Header, defined: &Definitions, ties: &[Tie]) {
    for (name, number, definition) in ties {
        assert_eq!(header.number(name), *number, "{name} in Rust");
        let due = defined.number(definition);
        assert_eq!(header.number(name), due, "{name} as {definition}");
    }
}

/// `NoSuchThing` as `NO_SUCH_THING`.
fn in_capitals(name: &str) -> String {
    let mut capitals = String::new();
    for letter in name.chars() {
        if letter.is_uppercase() && !capitals.is_empty() {
            capitals.push('_');
        }
        capitals.push(letter.to_ascii_uppercase());
    }
    capitals
}

/// `NoSuchThing` as `no_such_thing`.
fn as_definition(name: &str) -> String {
    in_capitals(name).to_lowercase()
}

pub fn refusals_and_errors(header: &Header, defined: &Definitions) {
    for (place, refusal) in Refusal::ALL.iter().enumerate() {
        assert_eq!(refusal.number() as usize, place + 1);
        assert_eq!(Refusal::of_number(refusal.number()), Some(*refusal));
        let name = format!("{refusal:?}");
        // what is over its most has a name of its own: counts of the file, and sizes of the flattened model
        let definition = match refusal {
            Refusal::OverMost => "count_over_most".to_string(),
            Refusal::TooBig => "over_most".to_string(),
            _ => as_definition(&name),
        };
        let number = u64::from(refusal.number());
        check(
            header,
            defined,
            &[(&in_capitals(&name), number, &definition)],
        );
    }
    for (place, kind) in ErrorKind::ALL.iter().enumerate() {
        assert_eq!(kind.number() as usize, place + 1);
        assert_eq!(ErrorKind::of_number(kind.number()), Some(*kind));
        assert_eq!(kind.is_named(), kind.words().contains("NAME"), "{kind:?}");
        let name = in_capitals(&format!("Error{kind:?}"));
        let definition = as_definition(&format!("{kind:?}"));
        check(
            header,
            defined,
            &[(&name, u64::from(kind.number()), &definition)],
        );
    }
    assert_eq!([0, 11].map(Refusal::of_number), [None; 2]);
    assert_eq!([0, 18].map(ErrorKind::of_number), [None; 2]);
}

/// The tree file, as the format's other description in Rust has it.
pub fn tree_file(header: &Header, defined: &Definitions) {
    let sections = [
        ("TEXT", "most_text", ""),
        ("NAMES", "most_names", "name_length"),
        ("NODES", "most_nodes", "node_length"),
        ("DEPENDENTS", "most_deps", "dep_length"),
        ("UNKNOWNS", "most_unknowns", "unknown_length"),
        ("STATEMENTS", "most_stmts", "file_stmt_length"),
        ("MODELS", "most_models", "model_length"),
    ];
    let mut longest = 4 * defined.number("trailer_length");
    for (i, (section, most, length)) in sections.into_iter().enumerate() {
        let name = format!("FILE_MOST_{section}");
        check(header, defined, &[(&name, u64::from(MOSTS[i]), most)]);
        let bytes = RECORD_BYTES[i] as u64;
        if section != "TEXT" {
            let name = format!("FILE_{}_WORDS", section.trim_end_matches('S'));
            check(header, defined, &[(&name, bytes / 4, length)]);
        }
        longest += defined.number(most) * bytes;
    }
    assert_eq!(header.number("FILE_MOST_BYTES"), longest);
    let trailer = TRAILER as u64 / 4;
    let ties = [
        ("MISSING", u64::from(MISSING), "missing_word"),
        ("FILE_FORM", u64::from(FORM), "file_form"),
        ("FILE_TRAILER_WORDS", trailer, "trailer_length"),
        ("DOMAIN_NONE", u64::from(domain::NONE), "no_domain"),
        ("DOMAIN_RANGE", u64::from(domain::RANGE), "range_domain"),
        ("DOMAIN_NAMED", u64::from(domain::NAMED), "named_domain"),
    ];
    check(header, defined, &ties);
}

/// The area's lengths and mosts.
pub fn area(header: &Header, defined: &Definitions) {
    use layout::*;
    let ties = [
        ("HEADER_WORDS", HEADER_WORDS, "header_length"),
        ("NODE_WORDS", NODE_WORDS, "node_length"),
        ("STATEMENT_WORDS", STATEMENT_WORDS, "stmt_length"),
        ("VARIABLE_WORDS", VARIABLE_WORDS, "variable_length"),
        ("DEPENDENT_WORDS", DEPENDENT_WORDS, "dep_length"),
        ("ERROR_WORDS", ERROR_WORDS, "error_length"),
        ("MOST_NODES", MOST_NODES, "most_nodes"),
        ("MOST_STATEMENTS", MOST_STATEMENTS, "most_stmts"),
        ("MOST_VARIABLES", MOST_VARIABLES, "most_variables"),
        ("MOST_DEPENDENTS", MOST_DEPENDENTS, "most_deps"),
        ("MOST_LISTED_ERRORS", MOST_LISTED_ERRORS, "most_listed"),
        ("MOST_INSTANCES", MOST_INSTANCES, "most_instances"),
        ("MOST_BYTES", MOST_BYTES, "most_bytes"),
        ("FILE_MOST_NAMES", MOST_NAMES, "most_names"),
        ("MISSING", layout::MISSING as usize, "missing_word"),
    ];
    let in_words = |(name, number, definition)| (name, number as u64, definition);
    check(header, defined, &ties.map(in_words));
    judge(header);
}

/// The same as the judge's reader has them.
fn judge(header: &Header) {
    use area::layout::{HEADER_WORDS, MOSTS, MOST_BYTES, MOST_INSTANCES, RECORD_WORDS};
    for section in area::Section::ALL {
        let record = section.record().to_uppercase();
        let i = section as usize;
        let words = header.place(&format!("{record}_WORDS"));
        assert_eq!(words, RECORD_WORDS[i], "{record}");
        let listed = if record == "ERROR" { "LISTED_" } else { "" };
        let most = header.place(&format!("MOST_{listed}{record}S"));
        assert_eq!(most, MOSTS[i], "{record}");
        assert_eq!(header.place(&format!("HEADER_{record}S")), i);
    }
    assert_eq!(header.place("HEADER_WORDS"), HEADER_WORDS);
    assert_eq!(header.place("MOST_INSTANCES"), MOST_INSTANCES);
    assert_eq!(header.place("MOST_BYTES"), MOST_BYTES);
    let fates = ["INITIAL_CONDITION", "HELD", "REPLACED", "LEFT_OVER"];
    let fates = fates.map(|fate| header.number(&format!("FATE_{fate}")) as u32);
    use area::fate::{CONDITION, HELD, LEFT_OVER, REPLACED};
    assert_eq!(fates, [CONDITION, HELD, REPLACED, LEFT_OVER]);
}

/// The longest answer has all of its mosts.
pub fn longest_answer(header: &Header, defined: &Definitions) {
    let sections = [
        ("node_length", "most_nodes"),
        ("stmt_length", "most_stmts"),
        ("variable_length", "most_variables"),
        ("dep_length", "most_deps"),
        ("error_length", "most_listed"),
    ];
    let words = sections.map(|(length, most)| defined.number(length) * defined.number(most));
    let words = defined.number("header_length") + words.iter().sum::<u64>();
    assert_eq!(header.number("MOST_BYTES"), 4 * words);
}

pub fn kinds_and_fates(header: &Header, defined: &Definitions) {
    let of = |fate: Fate| u64::from(fate.number());
    let initial = of(Fate::InitialCondition(1));
    let ties = [
        ("EQUATION", u64::from(stmt::EQUATION), "equation_kind"),
        ("RATE_EQUATION", u64::from(stmt::RATE), "rate_kind"),
        ("SUBMODEL", u64::from(stmt::SUBMODEL), "submodel_kind"),
        ("NAME", u64::from(node::NAME), "name_kind"),
        ("NUMBER_NODE", u64::from(node::NUMBER), "number_kind"),
        ("BINARY", u64::from(node::BINARY), "binary_kind"),
        ("UNARY", u64::from(node::UNARY), "unary_kind"),
        ("CALL", u64::from(node::CALL), "call_kind"),
        ("ARGUMENT", u64::from(node::ARGUMENT), "argument_kind"),
        ("FATE_INITIAL_CONDITION", initial, "initial_fate"),
        ("FATE_HELD", of(Fate::Held(1)), "held_fate"),
        ("FATE_REPLACED", of(Fate::Replaced(1)), "replaced_fate"),
        ("FATE_LEFT_OVER", of(Fate::LeftOver), "left_over_fate"),
    ];
    check(header, defined, &ties);
}
