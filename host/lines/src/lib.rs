//! What the proved programs `lines` and `area_cases` are held to: lines and columns counted anew, texts of models spaced
//! at random, and areas changed at random. Nothing here depends on the Rattle code but the running of its programs.

mod change;
mod count;
mod models;
mod pack;
mod programs;
mod spaced;

pub use change::changed;
pub use count::{place, printed};
pub use models::{area_of, text_and_area};
pub use pack::{case, pack};
pub use programs::{judged, lines, lines_of, program, Judged};
pub use spaced::spaced;
