//! Words of an area, and what is made of several of them.

use crate::layout::MISSING;
use crate::records::{Bounds, Span};

/// Words taken one after another from bytes that are long enough.
pub(crate) struct Words<'a>(&'a [u8]);

impl<'a> Words<'a> {
    pub(crate) fn new(bytes: &'a [u8]) -> Self {
        Words(bytes)
    }

    pub(crate) fn word(&mut self) -> u32 {
        let (word, rest) = self.0.split_first_chunk().expect("the length was tested");
        self.0 = rest;
        u32::from_le_bytes(*word)
    }

    pub(crate) fn words<const N: usize>(&mut self) -> [u32; N] {
        std::array::from_fn(|_| self.word())
    }

    pub(crate) fn long(&mut self) -> u64 {
        let [low, high] = self.words();
        u64::from(high) << 32 | u64::from(low)
    }

    pub(crate) fn bounds(&mut self) -> Bounds {
        Bounds {
            lower: f64::from_bits(self.long()),
            upper: f64::from_bits(self.long()),
        }
    }

    /// A span, none where it is missing; nothing where its end stands before its start.
    pub(crate) fn span(&mut self) -> Option<Option<Span>> {
        match self.words() {
            [MISSING, MISSING] => Some(None),
            [start, end] if start <= end => Some(Some(Span { start, end })),
            _ => None,
        }
    }
}
