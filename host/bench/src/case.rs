//! What is measured: tree files with their root names, each built once in a row.

use area::layout::MOST_BYTES;
use area::Sections;
use generate::Case;
use treefile::source::Source;
use treefile::File;

/// A class of files, measured together.
pub struct Class {
    pub label: String,
    pub cases: Vec<Case>,
}

impl Class {
    /// A class of one file with the root name `root`.
    pub fn of(label: impl Into<String>, source: &Source) -> Class {
        let case = Case {
            bytes: source.assemble().to_bytes(),
            root: b"root".to_vec(),
            label: "measured",
        };
        Class {
            label: label.into(),
            cases: vec![case],
        }
    }

    /// What the files and their answers hold, summed up.
    pub fn sizes(&self) -> Sizes {
        let mut sizes = Sizes::default();
        let mut area = vec![0; MOST_BYTES];
        for case in &self.cases {
            let returned = builder_sys::build(&case.bytes, &case.root, &mut area);
            let answer = Sections::read(&area[..builder_sys::used(returned) as usize]);
            let counts = answer.map_or([0; 6], |answer| answer.counts());
            let file = File::open(&case.bytes).unwrap_or_default();
            sizes.bytes += case.bytes.len();
            sizes.stmts += file.stmts.len();
            sizes.nodes += file.nodes.len();
            sizes.flat_nodes += counts[0];
            sizes.flat_stmts += counts[1];
            sizes.instances += counts[5];
        }
        sizes
    }
}

/// Sizes of files, and of what they are flattened to.
#[derive(Clone, Copy, Debug, Default)]
pub struct Sizes {
    pub bytes: usize,
    pub stmts: usize,
    pub nodes: usize,
    pub flat_stmts: usize,
    pub flat_nodes: usize,
    pub instances: usize,
}
