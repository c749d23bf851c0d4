//! Random models, with their texts and the areas of their builds.

use crate::spaced;
use generate::prng::Random;
use treefile::source::Source;
use treefile::{text, File};

/// The used bytes of a build that is accepted.
pub fn area_of(file: &[u8], root: &[u8]) -> Option<Vec<u8>> {
    let mut area = vec![0; builder::layout::MOST_BYTES];
    let used = builder::build_into(file, root, &mut area).ok()?;
    area.truncate(used);
    Some(area)
}

/// The text of a random model, its spaces changed, with the area of its build where that is accepted.
pub fn text_and_area(seed: u64) -> Option<(String, Vec<u8>)> {
    let case = generate::small_case(seed, 4000);
    let file = File::open(&case.bytes).ok()?;
    let printed = text::print(&Source::of_file(&file));
    let text = spaced(&mut Random::new(seed), &printed);
    let again = text::parse(&text).expect("only spaces differ");
    let area = area_of(&again.assemble().to_bytes(), &case.root)?;
    Some((text, area))
}
