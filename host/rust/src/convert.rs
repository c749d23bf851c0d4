//! From a tree file to the original's trees.

use crate::ast::{
    Ast, AstKind, Binop, Call, CallArg, Equation, Model, Monop, Range, RateEquation, StringSpan,
    Submodel, Unknown,
};
use crate::texts::Texts;
use report::{Origin, Spans};
use treefile::records::{domain, node, stmt};
use treefile::{File, Span};

/// A file to be turned into trees.
pub struct Converter<'s> {
    pub file: &'s File,
    pub texts: &'s Texts<'s>,
    pub spans: Spans,
}

impl<'s> Converter<'s> {
    /// The models in order.
    pub fn models(&self) -> Vec<Ast<'s>> {
        (0..self.file.models.len()).map(|m| self.model(m)).collect()
    }

    fn model(&self, m: usize) -> Ast<'s> {
        let model = &self.file.models[m];
        let unknowns =
            model.first_unknown as usize..(model.first_unknown + model.unknowns) as usize;
        let stmts = model.first_stmt as usize..(model.first_stmt + model.stmts) as usize;
        let kind = AstKind::Model(Model {
            name: self.texts.text(model.name),
            unknowns: unknowns.map(|u| Box::new(self.unknown(u))).collect(),
            statements: stmts.map(|s| Box::new(self.stmt(s))).collect(),
        });
        self.ast(kind, Origin::Model(m), model.span)
    }

    fn unknown(&self, u: usize) -> Ast<'s> {
        let unknown = &self.file.unknowns[u];
        let codomain = match unknown.domain {
            domain::NONE => None,
            domain::RANGE => Some(AstKind::Range(Range {
                lower: f64::from_bits(unknown.lower),
                upper: f64::from_bits(unknown.upper),
            })),
            _ => Some(AstKind::new_name(self.texts.text(unknown.lower as u32))),
        };
        let dependents = self.file.dependents_of(unknown);
        let kind = AstKind::Unknown(Unknown {
            name: self.texts.text(unknown.name),
            dependents: dependents.iter().map(|d| self.texts.text(*d)).collect(),
            codomain: codomain.map(|kind| Box::new(Ast { kind, span: None })),
        });
        self.ast(kind, Origin::Unknown(u), unknown.span)
    }

    fn stmt(&self, s: usize) -> Ast<'s> {
        let stmt = &self.file.stmts[s];
        let right = stmt.right as usize;
        let kind = match stmt.kind {
            stmt::EQUATION => AstKind::Equation(Equation {
                lhs: Box::new(self.expr(stmt.left as usize)),
                rhs: Box::new(self.expr(right)),
            }),
            stmt::RATE => AstKind::RateEquation(RateEquation {
                name: self.texts.text(stmt.name),
                rhs: Box::new(self.expr(right)),
            }),
            _ => AstKind::Submodel(Submodel {
                name: self.texts.text(self.file.nodes[right].name),
                local_name: "",
                args: self.arguments(right),
            }),
        };
        self.ast(kind, Origin::Stmt(s), stmt.span)
    }

    fn expr(&self, i: usize) -> Ast<'s> {
        let node = &self.file.nodes[i];
        let text = |name| self.texts.text(name);
        let op = node.op as u8 as char;
        let kind = match node.kind {
            node::NAME => AstKind::new_name(text(node.name)),
            node::NUMBER => AstKind::new_num(f64::from_bits(node.number)),
            node::BINARY => AstKind::Binop(Binop {
                op,
                left: self.boxed(i - 1 - self.size(i - 1)),
                right: self.boxed(i - 1),
            }),
            node::UNARY => AstKind::Monop(Monop {
                op,
                child: self.boxed(i - 1),
            }),
            node::CALL => AstKind::Call(Call {
                fn_name: text(node.name),
                args: self.arguments(i),
                is_tangent: false,
            }),
            _ => AstKind::CallArg(CallArg {
                name: node.name.checked_sub(1).map(text),
                expression: self.boxed(i - 1),
            }),
        };
        self.ast(kind, Origin::Node(i), node.span)
    }

    fn boxed(&self, i: usize) -> Box<Ast<'s>> {
        Box::new(self.expr(i))
    }

    fn size(&self, i: usize) -> usize {
        self.file.nodes[i].size as usize
    }

    /// The arguments of a call, boxed one by one, as the original wants them.
    #[allow(clippy::vec_box)]
    fn arguments(&self, call: usize) -> Vec<Box<Ast<'s>>> {
        let mut end = call;
        let last_first = (0..self.file.nodes[call].op).map(|_| {
            let argument = self.boxed(end - 1);
            end -= self.size(end - 1);
            argument
        });
        let mut arguments: Vec<_> = last_first.collect();
        arguments.reverse();
        arguments
    }

    fn ast(&self, kind: AstKind<'s>, origin: Origin, own: Span) -> Ast<'s> {
        let span = match self.spans {
            Spans::Own => own,
            Spans::Origins => origin.to_span(),
        };
        let present = (!span.is_missing()).then_some(StringSpan {
            pos_start: span.start as usize,
            pos_end: span.end as usize,
        });
        Ast {
            kind,
            span: present,
        }
    }
}
