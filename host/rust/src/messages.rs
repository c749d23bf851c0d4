//! The kind of an error, 1 to 17, and the name in it, from the shape of the original's message.

/// Kind and name; kind 0 where no shape fits.
pub fn parse(message: &str) -> (u32, Option<&str>) {
    FIXED
        .iter()
        .find_map(|(kind, text)| (message == *text).then_some((*kind, None)))
        .or_else(|| {
            COUNTS
                .iter()
                .find(|(_, start)| message.starts_with(start))
                .map(|(kind, _)| (*kind, None))
        })
        .or_else(|| NAMED.iter().find_map(|shape| shape.fit(message)))
        .or_else(|| INITIAL.fit(message))
        .or_else(|| WRONG_COUNT.fit(message.split_once(") ")?.1))
        .unwrap_or((0, None))
}

/// A message with a name between two texts.
struct Shape {
    kind: u32,
    before: &'static str,
    after: &'static str,
}

impl Shape {
    /// The name is what follows `before`, up to the first character that no name has; `after` must follow somewhere.
    fn fit<'m>(&self, message: &'m str) -> Option<(u32, Option<&'m str>)> {
        let rest = message.strip_prefix(self.before)?;
        let in_name = |c: char| c.is_ascii_alphanumeric() || c == '_' || c == '#';
        let end = rest.find(|c| !in_name(c)).unwrap_or(rest.len());
        let fits = end > 0 && rest[end..].ends_with(self.after);
        fits.then_some((self.kind, Some(&rest[..end])))
    }
}

const fn shape(kind: u32, before: &'static str, after: &'static str) -> Shape {
    Shape {
        kind,
        before,
        after,
    }
}

const FIXED: [(u32, &str); 3] = [
    (4, "positional argument found after keyword argument"),
    (7, "keyword args not allowed for built-in funcitons"),
    (10, "indexed call arg found after named arg"),
];

const COUNTS: [(u32, &str); 2] = [
    (14, "Model is underdetermined, "),
    (15, "Model is overdetermined, "),
];

const NAMED: [Shape; 10] = [
    shape(1, "Unknown domain ", ""),
    shape(2, "Name ", " is reserved"),
    shape(3, "Submodel name ", " not found"),
    shape(5, "name ", " not found"),
    shape(6, "function '", ""),
    shape(9, "named arg ", ""),
    shape(11, "Function or variable ", " not found"),
    shape(
        12,
        "Did you mean to set an initial condition here? equation should be ",
        " = ...",
    ),
    shape(
        13,
        "Rate equation invalid: variable ",
        " does not depend on time",
    ),
    shape(
        17,
        "overdetermined initial condition, algebraic variable ",
        " should not have an initial condition",
    ),
];

/// Behind "incorrect number of arguments (N) ".
const WRONG_COUNT: Shape = shape(8, "for dependent variable ", "");

const INITIAL: Shape = shape(16, "", " does not have an inital condition");
