//! The layout cases: small files with each word damaged in turn, cut files, and files at each most and one above. Their
//! answer is the layout's verdict alone: 2, 3, 4, or 0 where the file keeps the layout.

use crate::pack::Case;
use treefile::records::{domain, node, stmt, MISSING, MOSTS};
use treefile::{File, Model, Name, Node, Span, Stmt, Unknown};

/// One with a rate equation and an initial condition, one with a submodel statement, a keyword and domains.
const SMALL: [&str; 2] = [
    treefile::examples::P1,
    "model M(s -> (0, 1)) { s = 1 } model r(x(t) -> R) { M(s = x) }",
];

/// All layout cases.
pub fn cases() -> Vec<Case> {
    let mut files = Vec::new();
    for text in SMALL {
        let file = small(text);
        let bytes = file.to_bytes();
        files.extend(damaged_words(&bytes, file.text.len()));
        files.extend(damaged_text(&bytes, file.text.len()));
        files.extend(cut(&bytes));
        files.push(bytes);
    }
    for (section, most) in MOSTS.iter().enumerate() {
        files.push(filled(section, *most as usize).to_bytes());
        files.push(filled(section, *most as usize + 1).to_bytes());
    }
    files.into_iter().map(case).collect()
}

fn case(file: Vec<u8>) -> Case {
    let number = verdict(&file);
    Case {
        file,
        root: Vec::new(),
        number,
        area: Vec::new(),
    }
}

/// 0 where a file keeps the layout, else the refusal.
fn verdict(bytes: &[u8]) -> u32 {
    File::open(bytes).err().unwrap_or(0)
}

fn small(text: &str) -> File {
    treefile::text::parse(text).expect("a text").assemble()
}

/// Each word behind the text with two values, and a third where one gives another verdict.
fn damaged_words(bytes: &[u8], text: usize) -> Vec<Vec<u8>> {
    let mut files = Vec::new();
    for at in (text..bytes.len()).step_by(4) {
        let with = |word: u32| {
            let mut file = bytes.to_vec();
            file[at..at + 4].copy_from_slice(&word.to_le_bytes());
            file
        };
        let old = u32::from_le_bytes(bytes[at..at + 4].try_into().expect("four bytes"));
        let more = [with(old.wrapping_add(1)), with(old ^ MISSING)];
        let seen = [verdict(&more[0]), verdict(&more[1])];
        let others = [0, 1, old.wrapping_sub(1), MISSING, old ^ 0x100, 5];
        let third = others
            .iter()
            .filter(|word| **word != old)
            .map(|word| with(*word));
        let third = third
            .into_iter()
            .find(|file| !seen.contains(&verdict(file)));
        files.extend(more);
        files.extend(third);
    }
    files
}

/// Each byte of the text made equal to its neighbour, so that names may become equal.
fn damaged_text(bytes: &[u8], text: usize) -> Vec<Vec<u8>> {
    let with = |at: usize| {
        let mut file = bytes.to_vec();
        file[at] = bytes[(at + 1) % text];
        file
    };
    (0..text).map(with).collect()
}

/// Files that are too short or too long.
fn cut(bytes: &[u8]) -> Vec<Vec<u8>> {
    let length = bytes.len();
    let shorter = [
        0,
        1,
        31,
        32,
        33,
        length / 2,
        length - 32,
        length - 31,
        length - 4,
        length - 1,
    ];
    let mut files: Vec<Vec<u8>> = shorter.iter().map(|most| bytes[..*most].to_vec()).collect();
    files.extend([1, 4, 8, 32].map(|first| bytes[first..].to_vec()));
    files.extend([1, 4].map(|more| [bytes, &vec![0; more]].concat()));
    files.extend([1, 4].map(|more| [&vec![0; more], bytes].concat()));
    let before_trailer = length - treefile::records::TRAILER;
    files.extend([1, 4].map(|more| {
        [
            &bytes[..before_trailer],
            &vec![0; more],
            &bytes[before_trailer..],
        ]
        .concat()
    }));
    files
}

/// A file that keeps the layout but for the count of one section.
fn filled(section: usize, count: usize) -> File {
    let mut file = File::default();
    let n = |wanted: usize, otherwise: usize| if section == wanted { count } else { otherwise };
    file.text = vec![b'a'; n(0, 260)];
    for i in 0..n(1, 1) {
        let (start, len) = if i < 256 { (0, i as u32 + 1) } else { (0, 257) };
        file.names.push(Name { start, len });
    }
    add_model(&mut file, n(4, 1), n(3, 1), n(5, 1), n(2, 0));
    for _ in 1..n(6, 1) {
        let model = Model {
            first_unknown: file.unknowns.len() as u32,
            ..file.models[0]
        };
        let first_stmt = file.stmts.len() as u32;
        file.models.push(Model {
            unknowns: 0,
            stmts: 0,
            first_stmt,
            ..model
        });
    }
    file
}

/// A model with so many unknowns, dependents of the first one, and rate equations. The first right side is a chain of
/// signs that brings the nodes to the count wanted.
fn add_model(file: &mut File, unknowns: usize, dependents: usize, stmts: usize, nodes: usize) {
    file.dependents = vec![0; dependents];
    for i in 0..unknowns {
        let first = if i == 0 { 0 } else { dependents as u32 };
        let count = if i == 0 { dependents as u32 } else { 0 };
        let name = 0;
        let (domain, lower, upper, span) = (domain::NONE, 0, 0, Span::MISSING);
        file.unknowns.push(Unknown {
            name,
            first,
            count,
            domain,
            lower,
            upper,
            span,
        });
    }
    for i in 0..stmts {
        let more = if i == 0 {
            nodes.saturating_sub(stmts)
        } else {
            0
        };
        add_signs(file, more);
        let right = file.nodes.len() as u32 - 1;
        file.stmts.push(Stmt {
            kind: stmt::RATE,
            name: 0,
            left: 0,
            right,
            span: Span::MISSING,
        });
    }
    let (unknowns, stmts) = (unknowns as u32, stmts as u32);
    let model = Model {
        name: 0,
        first_unknown: 0,
        unknowns,
        first_stmt: 0,
        stmts,
        span: Span::MISSING,
    };
    file.models.push(model);
}

/// A number under so many signs.
fn add_signs(file: &mut File, signs: usize) {
    let leaf = Node {
        kind: node::NUMBER,
        name: 0,
        op: 0,
        size: 1,
        span: Span::MISSING,
        number: 0,
    };
    file.nodes.push(leaf);
    for i in 0..signs {
        let size = i as u32 + 2;
        file.nodes.push(Node {
            kind: node::UNARY,
            op: b'-' as u32,
            size,
            ..leaf
        });
    }
}
