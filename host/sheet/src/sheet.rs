//! A whole sheet: heading, statements, variables, errors, what is not used, totals.

use crate::entries;
use crate::place::{place, Text};
use crate::sizes::{counted, grouped};
use crate::statements_in::{statements_in, StatementsIn};
use builder::{Answer, Equation, Fate, Refusal, Span};
use treefile::records::stmt;
use treefile::text::print_name;
use treefile::File;

/// What was built.
pub struct Case<'a> {
    /// What the sheet calls the model's file.
    pub title: &'a str,
    pub file: &'a File,
    /// The tree file's length.
    pub bytes: usize,
    pub root: &'a [u8],
    /// The text that the spans point into, where it is at hand.
    pub source: Option<&'a Text<'a>>,
}

/// A printed sheet.
#[derive(Clone, Debug, PartialEq, Eq)]
pub struct Sheet {
    pub text: String,
    /// Accepted, no errors, and the totals are equal.
    pub is_clean: bool,
}

/// The sheet of a refused build.
pub fn refused(title: &str, root: &[u8], refusal: Refusal) -> Sheet {
    let text = format!(
        "WITNESS SHEET\n  model      {} of {title}\n  result     REFUSED by {}: {}\n  to mend    {}\n",
        print_name(root),
        refusal.number(),
        refusal.sentence(),
        refusal.mender(),
    );
    Sheet {
        text,
        is_clean: false,
    }
}

/// The sheet of an accepted build; an error where the answer cannot be this file's.
pub fn accepted(case: &Case, answer: &Answer) -> Result<Sheet, String> {
    let into = statements_in(case.file, case.root)
        .ok_or("the answer is not this file's: its build would be refused")?;
    belongs(case, answer, &into)?;
    let origins = entries::origins(case, &into.equations);
    let numbers = 0..answer.statements.len();
    let statements: String = numbers
        .map(|s| entries::statement(case, answer, &origins, s))
        .collect();
    let variables: String = (0..answer.variables.len() as u32)
        .map(|v| entries::variable(case, answer, v))
        .collect();
    let (totals, equal) = totals(answer, &into);
    let text = [
        heading(case, answer),
        format!("STATEMENTS OUT, numbered from 1 in the order of flattening\n{statements}"),
        format!("VARIABLES, variable 0 is time\n{variables}"),
        errors(case, answer),
        not_used(case, answer),
        totals,
    ];
    Ok(Sheet {
        text: text.join("\n"),
        is_clean: equal && answer.is_clean(),
    })
}

fn heading(case: &Case, answer: &Answer) -> String {
    let errors = match answer.error_count {
        0 => "no errors".to_string(),
        n => counted(n as usize, "error").to_uppercase(),
    };
    let [_, _, replaced, left] = answer.fates();
    let unused = match replaced + left {
        0 => "every statement used".to_string(),
        n => format!("{} NOT USED", counted(n, "statement")),
    };
    format!(
        "WITNESS SHEET\n  model      {} of {}\n  result     accepted, {errors}, {unused}\n  tree file  {} bytes\n  answer     {} bytes, {}\n  time       {}\n",
        print_name(case.root),
        case.title,
        grouped(case.bytes),
        grouped(answer.bytes),
        counted(answer.instances as usize, "instance"),
        entries::bounds(answer.time),
    )
}

fn errors(case: &Case, answer: &Answer) -> String {
    if answer.is_clean() {
        return "ERRORS: none\n".to_string();
    }
    let listed = answer.errors.len();
    let total = answer.error_count as usize;
    let entries = answer.errors.iter().enumerate();
    let entries: String = entries.map(|(i, e)| entries::error(case, i, e)).collect();
    let more = match total - listed {
        0 => String::new(),
        n => format!("       and {n} more, counted and not listed\n"),
    };
    format!("ERRORS: {}\n{entries}{more}", grouped(total))
}

/// Replaced and left-over statements, once more by themselves.
fn not_used(case: &Case, answer: &Answer) -> String {
    let numbers = 0..answer.statements.len();
    let lines: String = numbers
        .filter_map(|s| why_not_used(case, answer, s))
        .collect();
    match lines.is_empty() {
        true => "NOT USED: no statement\n".to_string(),
        false => format!("NOT USED\n{lines}"),
    }
}

fn why_not_used(case: &Case, answer: &Answer, number: usize) -> Option<String> {
    let statement = &answer.statements[number];
    let name = |number: usize| {
        let here = place(case.source, answer.statements[number].span);
        format!("statement {} ({here})", number + 1)
    };
    let why = match statement.fate {
        Fate::Replaced(v) => {
            let state = entries::variable_name(case, answer, v);
            let by = entries::replaced_by(answer, number)
                .map_or("a later one".into(), |by| name(by as usize));
            format!("is a rate equation of {state} that is NOT USED: {by} replaces it")
        }
        Fate::LeftOver => "is NOT USED: it is left over".to_string(),
        _ => return None,
    };
    Some(format!("  {} {why}\n", name(number)))
}

/// The two numbers to read, and whether they are equal.
fn totals(answer: &Answer, into: &StatementsIn) -> (String, bool) {
    let (equations, out) = (into.equations.len(), answer.statements.len());
    let [initial, held, replaced, left] = answer.fates();
    let instances = answer.instances as usize;
    let equal = equations == out && into.instances() == instances;
    let missing = match into.missing {
        0 => String::new(),
        n => format!(", {n} of them of a missing model"),
    };
    let verdict = if equal { "EQUAL" } else { "NOT EQUAL" };
    let text = format!(
        "TOTALS\n\
         \x20 statements in   {equations:>5}  counted in the tree file: {} in all instances less {}{missing}\n\
         \x20 statements out  {out:>5}  = {} + {held} held + {replaced} replaced + {left} left over\n\
         \x20 instances       {:>5}  counted in the tree file, {instances} in the answer\n\
         \x20 Every equation of every instance comes out once, with one fate, so in and out are to be the same number: {verdict}\n",
        counted(into.records(), "statement"),
        counted(into.submodels + into.missing, "submodel statement"),
        counted(initial, "initial condition"),
        into.instances(),
    );
    (text, equal)
}

/// Whether every name is one of the file's and each flattened statement has the kind, the span and the state of the
/// statement that it comes from.
fn belongs(case: &Case, answer: &Answer, into: &StatementsIn) -> Result<(), String> {
    let names = answer
        .largest_name()
        .is_none_or(|n| (n as usize) < case.file.names.len());
    let pairs = into.equations.iter().zip(&answer.statements);
    let odd = pairs.into_iter().position(|(origin, statement)| {
        let from = &case.file.stmts[origin.stmt];
        let span = (!from.span.is_missing()).then_some(Span {
            start: from.span.start,
            end: from.span.end,
        });
        let same = match statement.equation {
            Equation::Plain { .. } => from.kind == stmt::EQUATION,
            Equation::Rate { name, .. } => from.kind == stmt::RATE && from.name == name,
        };
        !same || span != statement.span
    });
    match (names, odd) {
        (false, _) => {
            Err("the answer is not this file's: it has names that the file has not".to_string())
        }
        (_, Some(i)) => Err(format!(
            "the answer is not this file's: statement {} is another",
            i + 1
        )),
        _ => Ok(()),
    }
}
