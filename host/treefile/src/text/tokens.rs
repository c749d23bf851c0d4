//! A text cut into names, numbers and symbols.

use super::Error;
use std::fmt;

#[derive(Clone, Debug, PartialEq)]
pub(super) enum Token {
    /// A name as it stands.
    Word(Vec<u8>),
    /// A name in quotes.
    Quoted(Vec<u8>),
    /// The 64 bits of a number.
    Number(u64),
    Symbol(u8),
    Arrow,
    End,
}

impl fmt::Display for Token {
    fn fmt(&self, f: &mut fmt::Formatter) -> fmt::Result {
        match self {
            Token::Word(name) | Token::Quoted(name) => {
                write!(f, "the name `{}`", String::from_utf8_lossy(name))
            }
            Token::Number(_) => write!(f, "a number"),
            Token::Symbol(byte) => write!(f, "`{}`", char::from(*byte)),
            Token::Arrow => write!(f, "`->`"),
            Token::End => write!(f, "the end"),
        }
    }
}

/// A token and its place in the text.
#[derive(Clone, Debug)]
pub(super) struct Placed {
    pub(super) token: Token,
    pub(super) start: usize,
    pub(super) end: usize,
}

/// The tokens of a text; the last one is [`Token::End`].
pub(super) fn tokens(text: &str) -> Result<Vec<Placed>, Error> {
    let mut cutter = Cutter { text, at: 0 };
    let mut found = Vec::new();
    loop {
        cutter.skip_blanks();
        let start = cutter.at;
        let token = cutter.token()?;
        let last = token == Token::End;
        found.push(Placed {
            token,
            start,
            end: cutter.at,
        });
        if last {
            return Ok(found);
        }
    }
}

struct Cutter<'a> {
    text: &'a str,
    at: usize,
}

/// Whether a byte can begin a name.
pub(super) fn begins_name(byte: u8) -> bool {
    byte.is_ascii_alphabetic() || byte == b'_'
}

/// Whether a byte can stand in a name.
pub(super) fn in_name(byte: u8) -> bool {
    begins_name(byte) || byte.is_ascii_digit()
}

impl Cutter<'_> {
    fn rest(&self) -> &[u8] {
        &self.text.as_bytes()[self.at..]
    }

    fn error<T>(&self, message: impl Into<String>) -> Result<T, Error> {
        Err(Error::at(self.text, self.at, message))
    }

    /// Steps over the bytes that satisfy a test and answers how many there were.
    fn skip(&mut self, test: impl Fn(u8) -> bool) -> usize {
        let rest = self.rest();
        let count = rest.iter().position(|b| !test(*b)).unwrap_or(rest.len());
        self.at += count;
        count
    }

    fn skip_blanks(&mut self) {
        loop {
            self.skip(|b| b.is_ascii_whitespace());
            if self.rest().first() != Some(&b'#') {
                return;
            }
            self.skip(|b| b != b'\n');
        }
    }

    fn token(&mut self) -> Result<Token, Error> {
        match self.rest() {
            [] => Ok(Token::End),
            [b'-', b'>', ..] => {
                self.at += 2;
                Ok(Token::Arrow)
            }
            [b'0', b'x', ..] => self.bits(),
            [b'"', ..] => self.quoted(),
            [byte, ..] if byte.is_ascii_digit() => self.decimal(),
            [byte, ..] if begins_name(*byte) => {
                let start = self.at;
                self.skip(in_name);
                Ok(Token::Word(self.text.as_bytes()[start..self.at].to_vec()))
            }
            [byte, ..] if b"(){}=;,+-*/".contains(byte) => {
                let symbol = *byte;
                self.at += 1;
                Ok(Token::Symbol(symbol))
            }
            _ => self.error("no token begins with this character"),
        }
    }

    fn bits(&mut self) -> Result<Token, Error> {
        let start = self.at;
        self.at += 2;
        let digits = self.skip(in_name);
        match u64::from_str_radix(&self.text[start + 2..self.at], 16) {
            Ok(bits) if digits == 16 => Ok(Token::Number(bits)),
            _ => {
                self.at = start;
                self.error("`0x` needs exactly 16 hexadecimal digits")
            }
        }
    }

    fn decimal(&mut self) -> Result<Token, Error> {
        let start = self.at;
        self.skip(|b| b.is_ascii_digit());
        if self.rest().first() == Some(&b'.') {
            self.at += 1;
            if self.skip(|b| b.is_ascii_digit()) == 0 {
                return self.error("a digit must follow the point");
            }
        }
        if matches!(self.rest(), [b'e' | b'E', ..]) {
            self.at += 1;
            if matches!(self.rest(), [b'+' | b'-', ..]) {
                self.at += 1;
            }
            if self.skip(|b| b.is_ascii_digit()) == 0 {
                return self.error("a digit must follow the exponent's mark");
            }
        }
        if self.rest().first().is_some_and(|b| in_name(*b)) {
            return self.error("a name must not touch a number before it");
        }
        match self.text[start..self.at].parse::<f64>() {
            Ok(number) => Ok(Token::Number(number.to_bits())),
            Err(_) => self.error("no number"),
        }
    }

    fn quoted(&mut self) -> Result<Token, Error> {
        let start = self.at;
        self.at += 1;
        let mut name = Vec::new();
        loop {
            match self.rest() {
                [b'"', ..] => break,
                [b'\\', ..] => name.push(self.escape()?),
                [] | [b'\n', ..] => return self.error("a quoted name must end in its line"),
                [byte, ..] => {
                    name.push(*byte);
                    self.at += 1;
                }
            }
        }
        if name.is_empty() {
            self.at = start;
            return self.error("a name must have a byte or more");
        }
        self.at += 1;
        Ok(Token::Quoted(name))
    }

    fn escape(&mut self) -> Result<u8, Error> {
        if let [b'\\', b'x', high, low, ..] = self.rest() {
            let digit = |b: u8| char::from(b).to_digit(16);
            if let (Some(high), Some(low)) = (digit(*high), digit(*low)) {
                self.at += 4;
                return Ok((high * 16 + low) as u8);
            }
        }
        self.error("an escape is `\\x` and two hexadecimal digits")
    }
}
