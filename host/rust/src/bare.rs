//! The original with nothing around it but what it needs: a tree file read, its trees made, and one build.

use crate::continuous::builder::ModelInfo;
use crate::convert::Converter;
use crate::steps::release;
use crate::texts::Texts;
use report::{Request, Step};
use std::hint::black_box;
use treefile::File;

/// Reads a tree file, makes the original's trees of it and builds the model of the root name. `told` hears of the end of
/// each step; what was made is freed behind the last. False where the file is refused or no model has the root name.
pub fn bare(bytes: &[u8], root: &[u8], mut told: impl FnMut(Step)) -> bool {
    let Ok(file) = File::open(bytes) else {
        return false;
    };
    told(Step::Read);
    let texts = Texts::one_way(&file);
    let root = texts.root(&file, root);
    let models = Converter {
        file: &file,
        texts: &texts,
        spans: Request::PLAIN.spans,
    }
    .models();
    told(Step::Made);
    let built = black_box(ModelInfo::build(&root, &models));
    told(Step::Built);
    built.as_ref().map(release).is_ok()
}
