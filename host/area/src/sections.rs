//! An answer's bytes as words, section by section. No field is looked at but the header's counts.

use crate::layout::{Section, HEADER_WORDS, MOST_LISTED};
use std::slice::ChunksExact;

/// An answer's words.
pub struct Sections {
    words: Vec<u32>,
    /// The first word of each section behind the header, and the end.
    starts: [usize; 6],
}

impl Sections {
    /// The words of an answer; `None` where its sections do not fill it.
    pub fn read(answer: &[u8]) -> Option<Sections> {
        let words: Vec<u32> = answer
            .chunks_exact(4)
            .map(|b| u32::from_le_bytes([b[0], b[1], b[2], b[3]]))
            .collect();
        if words.len() < HEADER_WORDS || !answer.len().is_multiple_of(4) {
            return None;
        }
        let mut starts = [HEADER_WORDS; 6];
        for section in Section::ALL {
            let most = match section {
                Section::Errors => MOST_LISTED,
                _ => words.len(),
            };
            let i = section as usize;
            let count = (words[i] as usize).min(most);
            starts[i + 1] = starts[i] + count * section.record_words();
        }
        (starts[5] == words.len()).then_some(Sections { words, starts })
    }

    /// The header's words.
    pub fn header(&self) -> &[u32] {
        &self.words[..HEADER_WORDS]
    }

    /// The counts of nodes, statements, variables, dependents, all errors, and instances.
    pub fn counts(&self) -> [usize; 6] {
        std::array::from_fn(|i| self.words[i] as usize)
    }

    fn records(&self, section: Section) -> ChunksExact<'_, u32> {
        let i = section as usize;
        let words = &self.words[self.starts[i]..self.starts[i + 1]];
        words.chunks_exact(section.record_words())
    }

    pub fn nodes(&self) -> ChunksExact<'_, u32> {
        self.records(Section::Nodes)
    }

    pub fn stmts(&self) -> ChunksExact<'_, u32> {
        self.records(Section::Stmts)
    }

    pub fn variables(&self) -> ChunksExact<'_, u32> {
        self.records(Section::Variables)
    }

    pub fn dependents(&self) -> &[u32] {
        &self.words[self.starts[3]..self.starts[4]]
    }

    /// The errors that are listed.
    pub fn errors(&self) -> ChunksExact<'_, u32> {
        self.records(Section::Errors)
    }

    /// The byte at which word k of record i of a section stands.
    pub fn byte(&self, section: Section, i: usize, k: usize) -> usize {
        4 * (self.starts[section as usize] + i * section.record_words() + k)
    }

    /// Where a byte stands, in words.
    pub fn place(&self, byte: usize) -> String {
        let word = byte / 4;
        if word < HEADER_WORDS {
            return format!("word {word} of the header");
        }
        let holds = |section: &Section| word < self.starts[*section as usize + 1];
        match Section::ALL.into_iter().find(holds) {
            None => format!("byte {byte}, behind the answer,"),
            Some(section) => {
                let (within, words) =
                    (word - self.starts[section as usize], section.record_words());
                let (record, i) = (section.record(), within / words);
                format!("word {} of {record} {i}", within % words)
            }
        }
    }
}
