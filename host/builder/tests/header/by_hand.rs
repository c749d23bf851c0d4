//! A model, and what records of its answer hold, worked out by hand.

use crate::sources::Header;
use crate::typed::span;
use treefile::{File, Span};

/// Every kind of node, of flattened statement and of fate comes up; variables are t, y, a, b, k, x, w.
const TEXT: &str = "model M(s) { s = 3 }
model root(t -> (0x3fe0000011111111, 0x4024000022222222), y(t), a, b, k -> NonNegative,
           x(a, k, t) -> (0x3ff0000033333333, 0x4000000044444444), w(k)) {
    dot(x) = -k;
    dot(x) = x(a, k, t) / q;
    x(a, 2, 0x3fe0000011111111) = f(k = a);
    w = 0x40080000aaaaaaaa;
    w = 5;
    M(y)
}";
/// The statement of the file whose span is missing: w = 5.
const UNPLACED: usize = 5;

/// A section, a record's number, and its fields in the header's order.
pub type Row = (&'static str, usize, Vec<u64>);

/// The model as a tree file.
pub struct Model(File);

impl Model {
    pub fn new() -> Model {
        let source = treefile::text::parse(TEXT).expect("a text");
        let mut file = source.assemble();
        file.stmts[UNPLACED].span = Span::MISSING;
        Model(file)
    }

    pub fn bytes(&self) -> Vec<u8> {
        self.0.to_bytes()
    }

    fn name(&self, name: &str) -> u64 {
        self.0.find_name(name.as_bytes()).expect("a name").into()
    }

    /// Records of every kind, with all of their fields.
    pub fn by_hand(&self, header: &Header) -> Vec<Row> {
        let lead = [27, 6, 7, 5, 3, 2, 0x3fe0000011111111, 0x4024000022222222];
        let not_found = header.number("ERROR_CALL_NOT_FOUND");
        let error = [not_found, span_of("f(k = a)"), self.name("f") + 1];
        let mut rows = vec![("HEADER", 0, lead.into()), ("ERROR", 1, error.into())];
        rows.extend(self.nodes(header));
        rows.extend(self.statements(header));
        rows.extend(self.variables());
        rows
    }

    fn nodes(&self, header: &Header) -> [Row; 5] {
        let n = |kind| header.number(kind);
        let (minus, slash) = (b'-'.into(), b'/'.into());
        let (k, x) = (self.name("k"), self.name("x"));
        let [sign, call, quotient, keyword, number] = [
            "-k",
            "x(a, k, t)",
            "x(a, k, t) / q",
            "k = a",
            "0x40080000aaaaaaaa",
        ]
        .map(span_of);
        let rows = [
            (1, [n("UNARY"), 0, minus, 2, sign, 0]),
            (8, [n("CALL"), x, 3, 7, call, 0]),
            (10, [n("BINARY"), 0, slash, 9, quotient, 0]),
            (19, [n("ARGUMENT"), k + 1, 0, 2, keyword, 0]),
            (22, [n("NUMBER_NODE"), 0, 0, 1, number, 0x40080000aaaaaaaa]),
        ];
        rows.map(|(i, fields)| ("NODE", i, fields.into()))
    }

    fn statements(&self, header: &Header) -> [Row; 4] {
        let [rate, plain] = ["RATE_EQUATION", "EQUATION"].map(|kind| header.number(kind));
        let fate = |fate| header.number(&format!("FATE_{fate}"));
        let (x, missing) = (self.name("x"), header.number("MISSING"));
        let first = span_of("dot(x) = -k");
        let second = span_of("dot(x) = x(a, k, t) / q");
        let third = span_of("x(a, 2, 0x3fe0000011111111) = f(k = a)");
        let fifth = span(missing, missing);
        let rows = [
            (0, [rate, x, 0, 1, first, fate("REPLACED"), 5]),
            (1, [rate, x, 0, 10, second, fate("HELD"), 5]),
            (2, [plain, 0, 17, 20, third, fate("INITIAL_CONDITION"), 5]),
            (4, [plain, 0, 23, 24, fifth, fate("LEFT_OVER"), 0]),
        ];
        rows.map(|(i, fields)| ("STATEMENT", i, fields.into()))
    }

    fn variables(&self) -> [Row; 3] {
        let [t, x, w] = ["t", "x", "w"].map(|name| self.name(name) + 1);
        let infinity = f64::INFINITY.to_bits();
        let least = f64::NEG_INFINITY.to_bits();
        let (lower, upper) = (0x3ff0000033333333, 0x4000000044444444);
        let rows = [
            (0, [t, 0, 0, 0, 0, 0, 0, 1, 0, infinity]),
            (5, [x, 1, 3, 1, 3, 2, 1, 1, lower, upper]),
            (6, [w, 1, 0, 4, 1, 0, 0, 0, least, infinity]),
        ];
        rows.map(|(i, fields)| ("VARIABLE", i, fields.into()))
    }
}

/// The span of a part of the text, the last that reads so.
fn span_of(part: &str) -> u64 {
    let start = TEXT.rfind(part).expect("a part of the text") as u64;
    span(start, start + part.len() as u64)
}
