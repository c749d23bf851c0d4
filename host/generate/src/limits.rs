//! Files with a section of a wanted length, around its most.

use crate::blowups;
use crate::make;
use crate::prng::Random;
use treefile::records::MOSTS;
use treefile::source::{Domain, Source, Stmt, Unknown};

fn numbered(letter: &str, i: usize) -> Vec<u8> {
    format!("{letter}{i}").into_bytes()
}

fn x(dependents: &[&[u8]]) -> Unknown {
    make::unknown(b"x", dependents, Domain::None)
}

fn condition(places: usize) -> Stmt {
    let zero = || make::arg(make::number(0.0));
    let left = make::call(b"x", (0..places).map(|_| zero()).collect());
    make::equation(left, make::number(1.0))
}

fn root(unknowns: Vec<Unknown>, stmts: Vec<Stmt>) -> Source {
    Source {
        models: vec![make::model(b"root", unknowns, stmts)],
    }
}

/// Models whose file has exactly so many records in a section (from 0: text, names, nodes, dependents, unknowns,
/// statements, models). The count is 10 or more.
pub fn section(section: usize, count: usize) -> Source {
    let decay = || make::rate(b"x", make::name(b"x"));
    match section {
        0 => {
            let long = vec![b'n'; count - 6];
            root(
                vec![x(&[b"t"]), make::unknown(&long, &[], Domain::None)],
                vec![decay(), condition(1)],
            )
        }
        1 => names(count),
        2 => {
            let right = make::chain(make::name(b"x"), count - 4);
            root(
                vec![x(&[b"t"])],
                vec![make::rate(b"x", right), condition(1)],
            )
        }
        3 => root(vec![x(&vec![&b"t"[..]; count])], vec![decay()]),
        4 => {
            let mut unknowns = vec![x(&[b"t"])];
            let more = (1..count).map(|i| make::unknown(&numbered("y", i), &[], Domain::None));
            unknowns.extend(more);
            root(unknowns, vec![decay(), condition(1)])
        }
        5 => {
            let mut stmts: Vec<Stmt> = (1..count).map(|_| decay()).collect();
            stmts.push(condition(1));
            root(vec![x(&[b"t"])], stmts)
        }
        _ => Source {
            models: blowups::deep_chain(count),
        },
    }
}

/// A root with exactly so many names in its file; those that nothing declares are passed over as dependents.
fn names(count: usize) -> Source {
    let more: Vec<Vec<u8>> = (3..count).map(|i| numbered("d", i)).collect();
    let mut dependents: Vec<&[u8]> = more.iter().map(|d| &d[..]).collect();
    dependents.push(b"t");
    root(
        vec![x(&dependents)],
        vec![make::rate(b"x", make::name(b"x")), condition(1)],
    )
}

/// The largest file: every section at its most. It builds without an error.
pub fn largest() -> Source {
    let short = nearly_largest(0);
    nearly_largest(MOSTS[0] as usize - short.assemble().text.len())
}

/// The largest file but for its text, with a name that is so many bytes longer than it must be.
fn nearly_largest(longer: usize) -> Source {
    // The chain has 97 nodes, 64 unknowns with 32 dependents, 33 statements and 35 names.
    let mut models = blowups::deep_chain(32);
    let mut passed_over: Vec<Vec<u8>> = (0..156).map(|i| numbered("d", i)).collect();
    passed_over[155].extend(vec![b'n'; longer]);
    let root = &mut models[0];
    root.unknowns.remove(0);
    root.stmts.truncate(1);
    for i in 0..65 {
        let count = if i == 0 { 992 - 64 * 15 } else { 15 };
        let listed = (0..count).map(|k| &passed_over[(i * 15 + k) % 156][..]);
        let dependents: Vec<&[u8]> = listed.collect();
        root.unknowns
            .push(make::unknown(&numbered("y", i), &dependents, Domain::None));
    }
    let decay = || make::rate(b"x", make::name(b"x"));
    root.stmts.extend((0..223).map(|_| decay()));
    let right = make::chain(make::name(b"x"), 1024 - 97 - 223);
    root.stmts.push(make::rate(b"x", right));
    Source { models }
}

/// The model with the largest answer: 1,024 nodes, 256 statements, 129 variables, 1,024 dependents, over 256 errors.
pub fn largest_answer() -> Source {
    let names: Vec<Vec<u8>> = (0..128).map(|i| numbered("y", i)).collect();
    let mut unknowns = Vec::new();
    for (i, name) in names.iter().enumerate() {
        let dependents: Vec<&[u8]> = (1..=8).map(|k| &names[(i + k) % 128][..]).collect();
        unknowns.push(make::unknown(name, &dependents, Domain::None));
    }
    let nowhere = || make::name(b"nowhere");
    let stmts =
        (0..256).map(|_| make::equation(nowhere(), make::binary(b'+', nowhere(), nowhere())));
    root(unknowns, stmts.collect())
}

/// A file with a section one under, at or one over its most.
pub fn any(random: &mut Random) -> Source {
    let chosen = random.below(MOSTS.len());
    section(chosen, MOSTS[chosen] as usize + random.below(3) - 1)
}

#[cfg(test)]
mod tests {
    use super::*;
    use treefile::File;

    #[test]
    fn sections_have_the_wanted_length() {
        for (at, most) in MOSTS.iter().enumerate() {
            for count in [most - 1, *most, most + 1] {
                let file = section(at, count as usize).assemble();
                assert_eq!(file.counts()[at], count as usize, "section {at}");
                assert!(file.keeps_layout());
                let over = count > *most;
                assert_eq!(File::open(&file.to_bytes()).is_err(), over);
            }
        }
    }

    #[test]
    fn the_largest_file_is_full() {
        let file = largest().assemble();
        assert_eq!(file.counts(), MOSTS.map(|most| most as usize));
        assert!(File::open(&file.to_bytes()).is_ok());
    }

    #[test]
    fn the_largest_answer_has_every_record() {
        let file = largest_answer().assemble();
        assert_eq!(file.counts()[2..6], [1024, 1024, 128, 256]);
        assert!(File::open(&file.to_bytes()).is_ok());
    }
}
