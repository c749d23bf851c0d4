//! From the text form to models.

use super::tokens::{tokens, Placed, Token};
use super::Error;
use crate::source::{Arg, Domain, Expr, ExprKind, Model, Place, Source, Stmt, StmtKind, Unknown};

/// How deep expressions may be nested in a text.
const DEEPEST: usize = 1_200;
/// How many nodes a text may have: four times as many as a file.
const MOST_NODES: usize = 4_096;

/// The models of a text, with their places as spans.
pub fn parse(text: &str) -> Result<Source, Error> {
    let mut parser = Parser {
        text,
        tokens: tokens(text)?,
        at: 0,
        depth: 0,
        nodes: 0,
    };
    let mut models = Vec::new();
    while *parser.token() != Token::End {
        models.push(parser.model()?);
    }
    Ok(Source { models })
}

struct Parser<'a> {
    text: &'a str,
    tokens: Vec<Placed>,
    at: usize,
    depth: usize,
    nodes: usize,
}

fn precedence(token: &Token) -> u8 {
    match token {
        Token::Symbol(b'+' | b'-') => 1,
        Token::Symbol(b'*' | b'/') => 2,
        _ => 0,
    }
}

/// The place from the start of one expression to the end of another.
fn join(left: Place, right: Place) -> Place {
    Some((left?.0, right?.1))
}

impl Parser<'_> {
    /// The token `k` places on; past the last one, the last one.
    fn ahead(&self, k: usize) -> &Placed {
        &self.tokens[(self.at + k).min(self.tokens.len() - 1)]
    }

    fn token(&self) -> &Token {
        &self.ahead(0).token
    }

    fn is_symbol(&self, k: usize, symbol: u8) -> bool {
        self.ahead(k).token == Token::Symbol(symbol)
    }

    fn is_word(&self, word: &[u8]) -> bool {
        matches!(self.token(), Token::Word(name) if name == word)
    }

    fn start(&self) -> usize {
        self.ahead(0).start
    }

    /// The place from `start` to the end of the token before the current one.
    fn since(&self, start: usize) -> Place {
        let end = match self.at.checked_sub(1) {
            Some(before) => self.tokens[before].end,
            None => start,
        };
        Some((start as u32, end as u32))
    }

    fn error<T>(&self, message: impl Into<String>) -> Result<T, Error> {
        Err(Error::at(self.text, self.start(), message))
    }

    fn wanted<T>(&self, what: &str) -> Result<T, Error> {
        self.error(format!("{what} is wanted here, not {}", self.token()))
    }

    fn symbol(&mut self, symbol: u8) -> Result<(), Error> {
        if self.is_symbol(0, symbol) {
            self.at += 1;
            Ok(())
        } else {
            self.wanted(&format!("`{}`", char::from(symbol)))
        }
    }

    /// Steps over a symbol if it is there.
    fn takes(&mut self, symbol: u8) -> bool {
        let there = self.is_symbol(0, symbol);
        self.at += usize::from(there);
        there
    }

    fn name(&mut self) -> Result<Vec<u8>, Error> {
        match self.token() {
            Token::Word(name) | Token::Quoted(name) => {
                let name = name.clone();
                self.at += 1;
                Ok(name)
            }
            _ => self.wanted("a name"),
        }
    }

    /// A list in parentheses, separated by commas.
    fn list<T>(&mut self, one: fn(&mut Self) -> Result<T, Error>) -> Result<Vec<T>, Error> {
        self.symbol(b'(')?;
        let mut found = Vec::new();
        if self.takes(b')') {
            return Ok(found);
        }
        loop {
            found.push(one(self)?);
            if !self.takes(b',') {
                self.symbol(b')')?;
                return Ok(found);
            }
        }
    }

    fn model(&mut self) -> Result<Model, Error> {
        let start = self.start();
        if !self.is_word(b"model") {
            return self.wanted("`model`");
        }
        self.at += 1;
        let name = self.name()?;
        let unknowns = self.list(Self::unknown)?;
        self.symbol(b'{')?;
        let mut stmts = Vec::new();
        while !self.is_symbol(0, b'}') {
            stmts.push(self.stmt()?);
            if !self.takes(b';') {
                break;
            }
        }
        self.symbol(b'}')?;
        Ok(Model {
            name,
            unknowns,
            stmts,
            span: self.since(start),
        })
    }

    fn unknown(&mut self) -> Result<Unknown, Error> {
        let start = self.start();
        let name = self.name()?;
        let dependents = if self.is_symbol(0, b'(') {
            self.list(Self::name)?
        } else {
            Vec::new()
        };
        let domain = if *self.token() == Token::Arrow {
            self.at += 1;
            self.domain()?
        } else {
            Domain::None
        };
        Ok(Unknown {
            name,
            dependents,
            domain,
            span: self.since(start),
        })
    }

    fn domain(&mut self) -> Result<Domain, Error> {
        if !self.takes(b'(') {
            return Ok(Domain::Named(self.name()?));
        }
        let lower = self.bound()?;
        self.symbol(b',')?;
        let upper = self.bound()?;
        self.symbol(b')')?;
        Ok(Domain::Range(lower, upper))
    }

    /// The bits of a bound, with its sign.
    fn bound(&mut self) -> Result<u64, Error> {
        let sign = if self.takes(b'-') { 1 << 63 } else { 0 };
        if sign == 0 {
            self.takes(b'+');
        }
        let bits = match self.token() {
            Token::Number(bits) => *bits,
            Token::Word(word) if word == b"inf" => f64::INFINITY.to_bits(),
            Token::Word(word) if word == b"nan" => super::print::PLAIN_NAN,
            _ => return self.wanted("a number"),
        };
        self.at += 1;
        Ok(bits ^ sign)
    }

    fn stmt(&mut self) -> Result<Stmt, Error> {
        let start = self.start();
        let kind = if self.is_rate() {
            self.at += 2;
            let name = self.name()?;
            self.at += 2;
            StmtKind::Rate(name, self.expr(1)?)
        } else {
            let left = self.expr(1)?;
            if self.takes(b'=') {
                StmtKind::Equation(left, self.expr(1)?)
            } else if matches!(left.kind, ExprKind::Call(..)) {
                StmtKind::Submodel(left)
            } else {
                return self.wanted("`=`");
            }
        };
        Ok(Stmt {
            kind,
            span: self.since(start),
        })
    }

    /// Whether a left side `dot(NAME)` and its `=` stand here.
    fn is_rate(&self) -> bool {
        let named = matches!(self.ahead(2).token, Token::Word(_) | Token::Quoted(_));
        self.is_word(b"dot")
            && self.is_symbol(1, b'(')
            && named
            && self.is_symbol(3, b')')
            && self.is_symbol(4, b'=')
    }

    /// An expression whose operators outside parentheses have at least this precedence.
    fn expr(&mut self, least: u8) -> Result<Expr, Error> {
        let mut left = self.operand()?;
        while let Token::Symbol(op) = *self.token() {
            let own = precedence(self.token());
            if own < least {
                break;
            }
            self.at += 1;
            let right = self.expr(own + 1)?;
            let span = join(left.span, right.span);
            let kind = ExprKind::Binary(op, Box::new(left), Box::new(right));
            left = self.made(kind, span)?;
        }
        Ok(left)
    }

    fn operand(&mut self) -> Result<Expr, Error> {
        self.depth += 1;
        if self.depth > DEEPEST {
            return self.error(format!("expressions are nested over {DEEPEST} deep"));
        }
        let start = self.start();
        let operand = match self.token() {
            Token::Symbol(b'(') => {
                self.at += 1;
                let mut inner = self.expr(1)?;
                self.symbol(b')')?;
                inner.span = self.since(start);
                Ok(inner)
            }
            Token::Symbol(op @ (b'+' | b'-')) => {
                let op = *op;
                self.at += 1;
                let child = self.operand()?;
                let span = Some((start as u32, child.span.map_or(0, |s| s.1)));
                self.made(ExprKind::Unary(op, Box::new(child)), span)
            }
            _ => self.leaf_or_call(),
        };
        self.depth -= 1;
        operand
    }

    fn leaf_or_call(&mut self) -> Result<Expr, Error> {
        let start = self.start();
        let kind = match self.token() {
            Token::Number(bits) => {
                let bits = *bits;
                self.at += 1;
                ExprKind::Number(bits)
            }
            Token::Word(_) | Token::Quoted(_) => {
                let name = self.name()?;
                if self.is_symbol(0, b'(') {
                    ExprKind::Call(name, self.list(Self::arg)?)
                } else {
                    ExprKind::Name(name)
                }
            }
            _ => return self.wanted("an expression"),
        };
        let span = self.since(start);
        self.made(kind, span)
    }

    fn arg(&mut self) -> Result<Arg, Error> {
        let start = self.start();
        let keyword = if self.is_symbol(1, b'=') {
            let name = self.name()?;
            self.symbol(b'=')?;
            Some(name)
        } else {
            None
        };
        let value = self.expr(1)?;
        self.count_node()?;
        Ok(Arg {
            keyword,
            value,
            span: self.since(start),
        })
    }

    fn made(&mut self, kind: ExprKind, span: Place) -> Result<Expr, Error> {
        self.count_node()?;
        Ok(Expr { kind, span })
    }

    fn count_node(&mut self) -> Result<(), Error> {
        self.nodes += 1;
        if self.nodes > MOST_NODES {
            return self.error(format!("the text has over {MOST_NODES} nodes"));
        }
        Ok(())
    }
}
