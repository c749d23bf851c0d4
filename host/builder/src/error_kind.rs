//! The errors that an answer lists, in words.

/// What an error is about. Its span and its name say where and of what.
#[derive(Clone, Copy, Debug, PartialEq, Eq, Hash)]
pub enum ErrorKind {
    UnknownDomain,
    ReservedName,
    SubmodelMissing,
    PositionalAfterKeyword,
    NameNotFound,
    CountAgainstTable,
    KeywordInBuiltIn,
    CountAgainstVariable,
    NoSuchDependent,
    PositionalAfterNamed,
    CallNotFound,
    WrongStart,
    RateInvalid,
    Underdetermined,
    Overdetermined,
    NoInitialCondition,
    AlgebraicInitialCondition,
}

impl ErrorKind {
    /// Every kind; number n stands at n - 1.
    pub const ALL: [ErrorKind; 17] = [
        ErrorKind::UnknownDomain,
        ErrorKind::ReservedName,
        ErrorKind::SubmodelMissing,
        ErrorKind::PositionalAfterKeyword,
        ErrorKind::NameNotFound,
        ErrorKind::CountAgainstTable,
        ErrorKind::KeywordInBuiltIn,
        ErrorKind::CountAgainstVariable,
        ErrorKind::NoSuchDependent,
        ErrorKind::PositionalAfterNamed,
        ErrorKind::CallNotFound,
        ErrorKind::WrongStart,
        ErrorKind::RateInvalid,
        ErrorKind::Underdetermined,
        ErrorKind::Overdetermined,
        ErrorKind::NoInitialCondition,
        ErrorKind::AlgebraicInitialCondition,
    ];

    /// The kind with this number, 1 to 17.
    pub fn of_number(number: u32) -> Option<ErrorKind> {
        let place = number.checked_sub(1)?;
        ErrorKind::ALL.get(place as usize).copied()
    }

    /// The number in the area.
    pub fn number(self) -> u32 {
        self as u32 + 1
    }

    /// Whether an error of this kind bears a name.
    pub fn is_named(self) -> bool {
        !matches!(
            self,
            ErrorKind::PositionalAfterKeyword
                | ErrorKind::PositionalAfterNamed
                | ErrorKind::Underdetermined
                | ErrorKind::Overdetermined
        )
    }

    /// What is wrong. `NAME` stands for the error's name where it bears one.
    pub fn words(self) -> &'static str {
        match self {
            ErrorKind::UnknownDomain => "there is no domain NAME",
            ErrorKind::ReservedName => "NAME is a reserved name and cannot be declared",
            ErrorKind::SubmodelMissing => "there is no model NAME",
            ErrorKind::PositionalAfterKeyword => {
                "a submodel's positional argument stands behind a keyword"
            }
            ErrorKind::NameNotFound => "NAME is no variable",
            ErrorKind::CountAgainstTable => "function NAME has the wrong number of arguments",
            ErrorKind::KeywordInBuiltIn => "a built-in function takes no keyword, and NAME is one",
            ErrorKind::CountAgainstVariable => {
                "variable NAME is called with another number of arguments than it has dependents"
            }
            ErrorKind::NoSuchDependent => "the variable called has no dependent NAME",
            ErrorKind::PositionalAfterNamed => {
                "a variable's positional argument stands behind a named one"
            }
            ErrorKind::CallNotFound => "NAME is no function and no variable",
            ErrorKind::WrongStart => {
                "NAME is given a value at another time than time's lower bound"
            }
            ErrorKind::RateInvalid => {
                "a rate equation is given for NAME, which is not a state that depends on time"
            }
            ErrorKind::Underdetermined => {
                "underdetermined: fewer equations are left than states lack one"
            }
            ErrorKind::Overdetermined => {
                "overdetermined: more equations are left than states lack one"
            }
            ErrorKind::NoInitialCondition => {
                "state NAME holds a rate equation and has no initial condition"
            }
            ErrorKind::AlgebraicInitialCondition => {
                "NAME holds no rate equation and yet has an initial condition"
            }
        }
    }
}
