//! From models as trees to the records of a file.

use super::{Arg, Domain, Expr, ExprKind, Model, Place, Source, Stmt, StmtKind, Unknown};
use crate::records::{self, domain, node, stmt, File, Name, Node, Span};
use std::collections::HashMap;

impl Source {
    /// The file with these models. Each distinct name is kept once, in order of first use, and the text is the names'
    /// bytes one after another. A name must have a byte or more; the mosts are not looked at.
    pub fn assemble(&self) -> File {
        let mut maker = Maker::default();
        for model in &self.models {
            maker.model(model);
        }
        maker.file
    }
}

#[derive(Default)]
struct Maker {
    file: File,
    numbers: HashMap<Vec<u8>, u32>,
}

fn span(place: Place) -> Span {
    match place {
        Some((start, end)) => Span { start, end },
        None => Span::MISSING,
    }
}

impl Maker {
    fn name(&mut self, bytes: &[u8]) -> u32 {
        assert!(!bytes.is_empty(), "a name must have a byte or more");
        if let Some(number) = self.numbers.get(bytes) {
            return *number;
        }
        let number = self.file.names.len() as u32;
        self.file.names.push(Name {
            start: self.file.text.len() as u32,
            len: bytes.len() as u32,
        });
        self.file.text.extend_from_slice(bytes);
        self.numbers.insert(bytes.to_vec(), number);
        number
    }

    fn model(&mut self, model: &Model) {
        let name = self.name(&model.name);
        let first_unknown = self.file.unknowns.len() as u32;
        let first_stmt = self.file.stmts.len() as u32;
        for unknown in &model.unknowns {
            self.unknown(unknown);
        }
        for stmt in &model.stmts {
            self.stmt(stmt);
        }
        self.file.models.push(records::Model {
            name,
            first_unknown,
            unknowns: model.unknowns.len() as u32,
            first_stmt,
            stmts: model.stmts.len() as u32,
            span: span(model.span),
        });
    }

    fn unknown(&mut self, unknown: &Unknown) {
        let name = self.name(&unknown.name);
        let first = self.file.dependents.len() as u32;
        for dependent in &unknown.dependents {
            let number = self.name(dependent);
            self.file.dependents.push(number);
        }
        let (domain, lower, upper) = match &unknown.domain {
            Domain::None => (domain::NONE, 0, 0),
            Domain::Range(lower, upper) => (domain::RANGE, *lower, *upper),
            Domain::Named(bytes) => (domain::NAMED, u64::from(self.name(bytes)), 0),
        };
        self.file.unknowns.push(records::Unknown {
            name,
            first,
            count: unknown.dependents.len() as u32,
            domain,
            lower,
            upper,
            span: span(unknown.span),
        });
    }

    fn stmt(&mut self, stmt: &Stmt) {
        let (kind, name, left, right) = match &stmt.kind {
            StmtKind::Equation(left, right) => {
                let left = self.expr(left);
                (stmt::EQUATION, 0, left, self.expr(right))
            }
            StmtKind::Rate(name, right) => {
                let name = self.name(name);
                (stmt::RATE, name, 0, self.expr(right))
            }
            StmtKind::Submodel(call) => (stmt::SUBMODEL, 0, 0, self.expr(call)),
        };
        self.file.stmts.push(records::Stmt {
            kind,
            name,
            left,
            right,
            span: span(stmt.span),
        });
    }

    /// Lays out a tree, children before their parent, and answers its top node.
    fn expr(&mut self, expr: &Expr) -> u32 {
        let first = self.file.nodes.len() as u32;
        let (kind, name, op, number) = match &expr.kind {
            ExprKind::Name(name) => (node::NAME, self.name(name), 0, 0),
            ExprKind::Number(bits) => (node::NUMBER, 0, 0, *bits),
            ExprKind::Binary(op, left, right) => {
                self.expr(left);
                self.expr(right);
                (node::BINARY, 0, u32::from(*op), 0)
            }
            ExprKind::Unary(op, child) => {
                self.expr(child);
                (node::UNARY, 0, u32::from(*op), 0)
            }
            ExprKind::Call(name, args) => {
                let name = self.name(name);
                for arg in args {
                    self.arg(arg);
                }
                (node::CALL, name, args.len() as u32, 0)
            }
        };
        self.node(first, [kind, name, op], number, expr.span)
    }

    fn arg(&mut self, arg: &Arg) {
        let first = self.file.nodes.len() as u32;
        let name = match &arg.keyword {
            Some(keyword) => self.name(keyword) + 1,
            None => 0,
        };
        self.expr(&arg.value);
        self.node(first, [node::ARGUMENT, name, 0], 0, arg.span);
    }

    /// Puts a parent behind its children, the first node of its tree being `first`.
    fn node(&mut self, first: u32, words: [u32; 3], number: u64, place: Place) -> u32 {
        let [kind, name, op] = words;
        let top = self.file.nodes.len() as u32;
        self.file.nodes.push(Node {
            kind,
            name,
            op,
            size: top - first + 1,
            span: span(place),
            number,
        });
        top
    }
}
