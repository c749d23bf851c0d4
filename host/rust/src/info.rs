//! A `ModelInfo` as plain data, with everything that it holds.

use crate::continuous::builder::{self, access, BoundaryCondition, ModelInfo, Output};
use crate::extract::{bits, error, flat, span, tree};
use crate::texts::Texts;
use report::{Boundary, Cell, Info, Message};
use std::cell::RefCell;
use std::rc::Rc;

type Shared<'s> = Rc<RefCell<builder::Variable<'s>>>;

/// Everything that a `ModelInfo` holds.
pub fn info<'s>(info: &ModelInfo<'s>, texts: &Texts) -> Info {
    let map = access::variables(info);
    let found = Found::of(info, &map);
    let keys = access::keys(info).into_iter().map(str::to_string);
    Info {
        name: info.name.to_string(),
        cells: found.0.iter().map(|c| found.cell(c, texts)).collect(),
        time: found.number(&info.time),
        unknowns: found.numbers(&info.unknowns),
        definitions: found.numbers(&info.definitions),
        variables: keys.zip(found.numbers(&map)).collect(),
        stmts: info.stmts.iter().map(|stmt| flat(stmt, texts)).collect(),
        errors: info.errors.iter().map(|e| message(e, texts)).collect(),
    }
}

/// The numbers of these variables among the cells of an info.
pub fn numbers<'s>(info: &ModelInfo<'s>, variables: &[Shared<'s>]) -> Vec<usize> {
    Found::of(info, &access::variables(info)).numbers(variables)
}

/// The variables of an info, each once, in an order that does not hang on the map's.
struct Found<'s>(Vec<Shared<'s>>);

impl<'s> Found<'s> {
    fn of(info: &ModelInfo<'s>, map: &[Shared<'s>]) -> Found<'s> {
        let mut found = Found(Vec::new());
        let declared = info.unknowns.iter().chain(&info.definitions);
        for cell in std::iter::once(&info.time).chain(declared).chain(map) {
            if found.place(cell).is_none() {
                found.0.push(cell.clone());
            }
        }
        found
    }

    fn place(&self, cell: &Shared<'s>) -> Option<usize> {
        self.0.iter().position(|other| Rc::ptr_eq(other, cell))
    }

    fn number(&self, cell: &Shared<'s>) -> usize {
        self.place(cell).expect("a variable of the info")
    }

    fn numbers(&self, cells: &[Shared<'s>]) -> Vec<usize> {
        cells.iter().map(|cell| self.number(cell)).collect()
    }

    fn cell(&self, cell: &Shared<'s>, texts: &Texts) -> Cell {
        let v = cell.borrow();
        let boundaries = v.init_conditions.iter();
        Cell {
            name: v.name.to_string(),
            number: texts.number(v.name),
            time_gradient_name: v.time_gradient_name.clone(),
            dim: v.dim,
            bounds: bits(v.bounds),
            equation: v.equation.as_ref().map(|equation| flat(equation, texts)),
            expression: v.expression.as_ref().map(|tree_of| tree(tree_of, texts)),
            dependents: self.numbers(&v.dependents),
            time_index: v.time_index,
            init_conditions: boundaries.map(|b| self.boundary(b, texts)).collect(),
        }
    }

    fn boundary(&self, boundary: &BoundaryCondition<'s>, texts: &Texts) -> Boundary {
        Boundary {
            variable: self.number(&boundary.variable),
            location: boundary.location.to_bits(),
            equation: tree(&boundary.equation, texts),
            is_dirichlet: boundary.is_dirichlet,
        }
    }
}

fn message(output: &Output, texts: &Texts) -> Message {
    let spans = output.secondary_refs.iter().map(|own| span(Some(*own)));
    Message {
        error: error(output, texts),
        text: output.text.clone(),
        secondary_texts: output.secondary_txts.clone(),
        secondary_spans: spans.map(|span| (span.start, span.end)).collect(),
    }
}
