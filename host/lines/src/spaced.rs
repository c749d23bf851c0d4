//! The text of a model, spaced at random, so that places in it are on lines of every length.

use generate::prng::Random;

const GAPS: [&str; 9] = [
    " ",
    "  ",
    "\n",
    "\n\n",
    "\r\n",
    "\t",
    "\n    ",
    " # why\n",
    " # größer\n",
];

/// The text with other gaps: each space and newline outside quotes may become another gap.
pub fn spaced(random: &mut Random, text: &str) -> String {
    let mut found = String::new();
    let mut quoted = false;
    for c in text.chars() {
        quoted ^= c == '"';
        if !quoted && c.is_whitespace() && random.chance(60) {
            found.push_str(GAPS[random.below(GAPS.len())]);
        } else {
            found.push(c);
        }
    }
    found
}
