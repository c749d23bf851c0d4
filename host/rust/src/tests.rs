//! A call of `ModelInfo::build` that differs from its steps in anything is noticed.

use crate::convert::Converter;
use crate::run::{call, maps, run_beside};
use crate::steps::{Watch, Watched};
use crate::texts::Texts;
use report::{agree, Ending, Info, Maps, Panic, Request};
use treefile::File;

/// Three statements are left for three states, of both kinds; x has a condition; u is reserved, t and k are declared.
const PAIRED: &str =
    "model root(u, t -> (0, 9), k, x(t, k), y(t), z(t)) { x = k; y = 1; dot(q) = z; x(0, k) = p }";
/// Two statements are left for one state.
const LEFT: &str = "model root(x(t), y(t)) { dot(x) = y; x(0) = 1; y = x; x = y }";

/// No statement is left for three states.
const LACKING: &str = "model root(x(t), y(t), z(t)) { x(0) = 1 }";

fn opened(text: &str) -> File {
    let source = treefile::text::parse(text).expect("a text");
    File::open(&source.assemble().to_bytes()).expect("a file")
}

/// What the call and the steps give for a text.
fn both(text: &str) -> (Info, Watched) {
    let file = opened(text);
    let texts = Texts::of(&file);
    let models = Converter {
        file: &file,
        texts: &texts,
        spans: Request::PLAIN.spans,
    }
    .models();
    let watch = Watch {
        root: "root",
        models: &models,
        texts: &texts,
        request: &Request::PLAIN,
    };
    let Ending::Built(called) = call(&watch) else {
        panic!("{text}");
    };
    (called, watch.steps().expect("a root"))
}

fn agrees(call: &Info, steps: &Watched, maps: Maps) -> bool {
    let (call, steps) = (call.clone(), steps.info.clone());
    agree(&Ending::Built(call), &Ending::Built(steps), maps).is_ok()
}

/// The first cell with this name that is in the map.
fn cell(info: &Info, name: &str) -> usize {
    let mut entries = info.variables.iter();
    entries.find(|(key, _)| key == name).expect("a variable").1
}

type Spoil = fn(&mut Info);

const SPOILED: [(&str, Spoil); 23] = [
    ("name", |i| i.name.push('x')),
    ("time", |i| i.time = cell(i, "x")),
    ("unknowns", |i| i.unknowns.rotate_left(1)),
    ("definitions", |i| i.definitions.push(1)),
    ("a key", |i| i.variables[0].0.push('x')),
    ("a variable", |i| drop(i.variables.pop())),
    ("stmts", |i| {
        let held = i.cells[cell(i, "x")].equation.clone();
        i.stmts.extend(held);
    }),
    ("a cell's name", |i| i.cells[1].name.push('x')),
    ("a cell's number", |i| i.cells[1].number = None),
    ("a gradient", |i| i.cells[1].time_gradient_name.push('x')),
    ("dim", |i| i.cells[1].dim += 1),
    ("a bound", |i| i.cells[0].bounds[1] += 1),
    ("an equation", |i| {
        let x = cell(i, "x");
        i.cells[x].equation.as_mut().expect("held").span.end += 1;
    }),
    ("no equation", |i| {
        let x = cell(i, "x");
        i.cells[x].equation = None;
    }),
    ("an expression", |i| {
        i.cells[1].expression = Some(Vec::new())
    }),
    ("dependents", |i| {
        let x = cell(i, "x");
        i.cells[x].dependents.pop();
    }),
    ("a time index", |i| {
        let x = cell(i, "x");
        i.cells[x].time_index = Some(7);
    }),
    ("a condition", |i| {
        let x = cell(i, "x");
        i.cells[x].init_conditions[0].is_dirichlet = false;
    }),
    ("no error", |i| drop(i.errors.remove(0))),
    ("an error's span", |i| i.errors[0].error.span.0 += 1),
    ("an error's text", |i| i.errors[0].text.push('x')),
    ("a second text", |i| {
        i.errors[0].secondary_texts.push(String::new())
    }),
    ("the last pass", |i| {
        match i.errors.iter().position(|m| m.error.kind > 15) {
            Some(last) => i.errors.truncate(last),
            None => {
                let mut more = i.errors[0].clone();
                more.error.kind = 16;
                i.errors.push(more);
            }
        }
    }),
];

#[test]
fn each_spoiled_field_differs() {
    for text in [PAIRED, LEFT] {
        let (call, steps) = both(text);
        assert!(agrees(&call, &steps, maps(&steps.paired)), "{text}");
        for (what, spoil) in SPOILED {
            let mut spoiled = call.clone();
            spoil(&mut spoiled);
            assert_ne!(spoiled, call, "{what}");
            let agrees = agrees(&spoiled, &steps, maps(&steps.paired));
            assert!(!agrees, "{what} of {text}");
        }
    }
}

/// What hangs on the order of the map makes no difference, whichever order comes up.
#[test]
fn every_order_agrees() {
    for (text, paired) in [(PAIRED, 3), (LEFT, 0), (LACKING, 0)].repeat(100) {
        let (call, steps) = both(text);
        assert_eq!(steps.paired.len(), paired);
        assert!(agrees(&call, &steps, maps(&steps.paired)), "{text}");
    }
}

/// The map's order is held to where it is kept, and only there.
#[test]
fn another_order_of_the_map() {
    let (_, steps) = both(LEFT);
    let mut turned = steps.info.clone();
    turned.variables.reverse();
    assert!(agrees(&steps.info, &steps, Maps::Ordered));
    assert!(!agrees(&turned, &steps, Maps::Ordered));
    assert!(agrees(&turned, &steps, Maps::Hashed { paired: &[] }));
}

#[test]
fn a_run_fails_where_its_call_differs() {
    let run_with = |text, call| run_beside(&opened(text), b"root", &Request::PLAIN, call);
    let other: fn(&Watch) -> Ending = |watch| match call(watch) {
        Ending::Built(mut info) => {
            info.errors.clear();
            Ending::Built(info)
        }
        Ending::NotFound(text) => Ending::NotFound(text + "."),
        Ending::Panicked(_) => Ending::Panicked(Panic::Other("elsewhere".to_string())),
    };
    let texts = [
        PAIRED,
        LEFT,
        "model other() { }",
        "model root(x(x)) { }",
        "model M() { } model root() { M(0) }",
        "model root(x(t)) { x() = 1 }",
    ];
    for text in texts {
        assert!(run_with(text, call).is_ok(), "{text}");
        let differs = run_with(text, other).expect_err(text);
        assert!(differs.starts_with("ModelInfo::build and its steps differ: "));
    }
}
