//! A text for each name of a file. Names of letters, digits and underscores keep theirs; every other name gets one that
//! no such name has, so that messages can be taken apart without doubt.

use std::borrow::Cow;
use std::collections::HashMap;
use treefile::File;

/// The texts of a file's names, and back.
pub struct Texts<'f> {
    texts: Vec<Cow<'f, str>>,
    numbers: HashMap<String, u32>,
}

impl<'f> Texts<'f> {
    /// The texts of this file's names, and back.
    pub fn of(file: &'f File) -> Texts<'f> {
        let mut texts = Texts::one_way(file);
        let owned = texts.texts.iter().map(|text| text.to_string());
        texts.numbers = owned.zip(0..).collect();
        texts
    }

    /// The texts of this file's names, and no way back: no text has a number.
    pub fn one_way(file: &'f File) -> Texts<'f> {
        let text = |n| plain(file.name(n)).map_or_else(|| format!("#{n}").into(), Cow::from);
        Texts {
            texts: (0..file.names.len() as u32).map(text).collect(),
            numbers: HashMap::new(),
        }
    }

    /// The text of a name.
    pub fn text(&self, name: u32) -> &str {
        &self.texts[name as usize]
    }

    /// The name with this text.
    pub fn number(&self, text: &str) -> Option<u32> {
        self.numbers.get(text).copied()
    }

    /// The text of a root name, which need not be a name of the file.
    pub fn root(&self, file: &File, root: &[u8]) -> String {
        match (0..file.names.len()).find(|&n| file.name(n as u32) == root) {
            Some(n) => self.texts[n].to_string(),
            None => plain(root).unwrap_or("#").to_string(),
        }
    }
}

/// The bytes as text, if they are letters, digits and underscores only and at least one.
fn plain(bytes: &[u8]) -> Option<&str> {
    let fits = |b: &u8| b.is_ascii_alphanumeric() || *b == b'_';
    let text = std::str::from_utf8(bytes).ok()?;
    (!bytes.is_empty() && bytes.iter().all(fits)).then_some(text)
}
