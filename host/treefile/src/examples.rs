//! The worked examples of the description, in the text form.

/// A worked example and what its build answers.
#[derive(Clone, Copy, Debug)]
pub struct Example {
    pub label: &'static str,
    pub text: &'static str,
    /// The root model's name.
    pub root: &'static str,
    /// The refusal, or 0 where the build is accepted.
    pub refusal: u32,
    /// The kinds of the errors, in order.
    pub errors: &'static [u32],
    /// The fate of each flattened statement, in order.
    pub fates: &'static [u32],
}

/// One state with its rate equation and its initial condition: clean.
pub const P1: &str = "model root(x(t)) { dot(x) = -x; x(0) = 1 }";
/// The condition stands elsewhere than at time's lower bound.
pub const P2: &str = "model root(x(t)) { dot(x) = -x; x(1) = 1 }";
/// The second rate equation replaces the first.
pub const P3: &str = "model root(x(t)) { dot(x) = -x; dot(x) = -x; x(0) = 1 }";
/// A unary minus is no number, so there is no initial condition.
pub const P4: &str = "model root(x(t), t -> (-1, inf)) { dot(x) = -x; x(-1) = 1 }";
/// The number -0.0 equals the lower bound 0.
pub const P5: &str = "model root(x(t)) { dot(x) = -x; x(0x8000000000000000) = 1 }";
/// A rate equation of a state that does not depend on time.
pub const P6: &str = "model root(x(y), y(x)) { dot(x) = 1 }";
/// A name of the argument table that is no built-in.
pub const P7: &str = "model root(x(t)) { dot(x) = log10(x, x); x(0) = 1 }";
/// A submodel's equation becomes an initial condition by substitution.
pub const P8: &str = "model M(s, x(t)) { x(s) = 1 }\nmodel root(x(t)) { M(0); dot(x) = -x }";
/// A model that is reached from itself.
pub const P9: &str = "model M() { M() }";
/// An unreserved unknown that lists itself.
pub const P10_UNRESERVED: &str = "model root(x(x)) { }";
/// A reserved unknown that lists itself.
pub const P10_RESERVED: &str = "model root(u(u)) { }";
/// A positional argument numbered 2, from 0, where the submodel has two unknowns.
pub const P11: &str = "model M(s, x(t)) { x(s) = 1 }\nmodel root(x(t)) { M(0, 0, 0); dot(x) = -x }";
/// A left side too short to reach its time index.
pub const P12: &str = "model root(x(t)) { x() = 1 }";

const fn accepted(
    label: &'static str,
    text: &'static str,
    errors: &'static [u32],
    fates: &'static [u32],
) -> Example {
    Example {
        label,
        text,
        root: "root",
        refusal: 0,
        errors,
        fates,
    }
}

const fn refused(
    label: &'static str,
    text: &'static str,
    root: &'static str,
    refusal: u32,
) -> Example {
    Example {
        label,
        text,
        root,
        refusal,
        errors: &[],
        fates: &[],
    }
}

/// Every worked example, in order.
pub const ALL: [Example; 13] = [
    accepted("P1", P1, &[], &[2, 1]),
    accepted("P2", P2, &[12, 15, 16], &[2, 4]),
    accepted("P3", P3, &[], &[3, 2, 1]),
    accepted("P4", P4, &[15, 16], &[2, 4]),
    accepted("P5", P5, &[], &[2, 1]),
    accepted("P6", P6, &[13, 14], &[4]),
    accepted("P7", P7, &[6, 11], &[2, 1]),
    accepted("P8", P8, &[], &[1, 2]),
    refused("P9", P9, "M", 6),
    refused("P10 x(x)", P10_UNRESERVED, "root", 7),
    accepted("P10 u(u)", P10_RESERVED, &[2], &[]),
    refused("P11", P11, "root", 8),
    refused("P12", P12, "root", 10),
];
