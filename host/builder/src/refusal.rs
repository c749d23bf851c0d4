//! Who is turned away, why, and who can mend it.

use std::fmt;

/// Why a build was refused. The area then holds zeros only.
#[derive(Clone, Copy, Debug, PartialEq, Eq, Hash)]
pub enum Refusal {
    ShortArea,
    NoForm,
    OverMost,
    BrokenLayout,
    NoRoot,
    ModelCycle,
    SelfListedUnknown,
    ArgumentBeyond,
    TooBig,
    ShortLeftSide,
}

/// Who can mend what was refused.
#[derive(Clone, Copy, Debug, PartialEq, Eq, Hash)]
pub enum Mender {
    Caller,
    FileMaker,
    ModelAuthor,
}

impl Refusal {
    /// Every refusal; number n stands at n - 1.
    pub const ALL: [Refusal; 10] = [
        Refusal::ShortArea,
        Refusal::NoForm,
        Refusal::OverMost,
        Refusal::BrokenLayout,
        Refusal::NoRoot,
        Refusal::ModelCycle,
        Refusal::SelfListedUnknown,
        Refusal::ArgumentBeyond,
        Refusal::TooBig,
        Refusal::ShortLeftSide,
    ];

    /// The refusal with this number, 1 to 10.
    pub fn of_number(number: u32) -> Option<Refusal> {
        let place = number.checked_sub(1)?;
        Refusal::ALL.get(place as usize).copied()
    }

    /// The number that `build` returns for it.
    pub fn number(self) -> u32 {
        self as u32 + 1
    }

    /// What was found, in a sentence.
    pub fn sentence(self) -> &'static str {
        match self {
            Refusal::ShortArea => "The answer area is shorter than the answer.",
            Refusal::NoForm => "The file is shorter than 32 bytes, or its trailer does not say form 1.",
            Refusal::OverMost => {
                "A count in the file's trailer is over its most (text 4,096, names 256, nodes 1,024, dependents 1,024, \
                 unknowns 128, statements 256, models 32)."
            }
            Refusal::BrokenLayout => {
                "The file's length does not fit its counts, or one of its records breaks the layout."
            }
            Refusal::NoRoot => "No model of the file has the root name.",
            Refusal::ModelCycle => "A model is reached from itself through submodel statements.",
            Refusal::SelfListedUnknown => {
                "An unknown that is t or unreserved lists itself among its dependents."
            }
            Refusal::ArgumentBeyond => {
                "A submodel statement has a positional argument whose number, keywords counted, is not below its \
                 model's count of unknowns."
            }
            Refusal::TooBig => {
                "The flattened model is over 1,024 instances, 1,024 nodes or 256 statements."
            }
            Refusal::ShortLeftSide => {
                "The left side of an equation calls a variable with too few arguments to reach its time."
            }
        }
    }

    /// Who can mend it.
    pub fn mender(self) -> Mender {
        match self.number() {
            1 | 5 => Mender::Caller,
            2..=4 => Mender::FileMaker,
            _ => Mender::ModelAuthor,
        }
    }
}

impl fmt::Display for Refusal {
    fn fmt(&self, f: &mut fmt::Formatter) -> fmt::Result {
        write!(f, "{} To be mended by {}.", self.sentence(), self.mender())
    }
}

impl std::error::Error for Refusal {}

impl fmt::Display for Mender {
    fn fmt(&self, f: &mut fmt::Formatter) -> fmt::Result {
        f.write_str(match self {
            Mender::Caller => "the caller",
            Mender::FileMaker => "the maker of the file",
            Mender::ModelAuthor => "the model's author",
        })
    }
}
