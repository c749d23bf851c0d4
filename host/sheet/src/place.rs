//! Places in a model's source text.

use builder::Span;

/// A source text, for lines, columns and the text at a span.
pub struct Text<'a>(pub &'a str);

impl Text<'_> {
    /// Line and column of a byte, both from 1; a column counts characters.
    pub fn line_and_column(&self, byte: u32) -> Option<(usize, usize)> {
        let before = self.0.get(..byte as usize)?;
        let line_start = before.rfind('\n').map_or(0, |at| at + 1);
        let line = before.matches('\n').count() + 1;
        Some((line, before[line_start..].chars().count() + 1))
    }

    /// The text at a span, on one line.
    pub fn at(&self, span: Span) -> Option<String> {
        let text = self.0.get(span.start as usize..span.end as usize)?;
        Some(text.split_whitespace().collect::<Vec<_>>().join(" "))
    }
}

/// Line and column where the source is at hand, else the bytes.
pub(crate) fn place(source: Option<&Text>, span: Option<Span>) -> String {
    let Some(span) = span else {
        return "no place".to_string();
    };
    match source.and_then(|text| text.line_and_column(span.start)) {
        Some((line, column)) => format!("line {line}, column {column}"),
        None => format!("bytes {} to {}", span.start, span.end),
    }
}
