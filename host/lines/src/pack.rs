//! Recorded areas, the standard input of `area_cases`: each two words, its length and 1 where it keeps its layout, else
//! 0, and the area.

use crate::change::{put, word, VALUES};
use crate::models::area_of;
use builder::Answer;
use treefile::examples::{P2, P6};
use treefile::text;

/// Small areas, and each of them with one word changed in three ways, cut short by a byte, and longer by one.
fn areas() -> Vec<Vec<u8>> {
    let mut areas = vec![Vec::new(), vec![0; 39], vec![0; 40], vec![0; 70]];
    for model in [P2, P6] {
        let file = text::parse(model).expect("a text").assemble().to_bytes();
        let area = area_of(&file, b"root").expect("accepted");
        for at in (0..area.len()).step_by(4) {
            let old = word(&area, at);
            let third = VALUES[at / 4 % VALUES.len()];
            for new in [old.wrapping_add(1), old.wrapping_sub(1), third] {
                let mut changed = area.clone();
                put(&mut changed, at, new);
                areas.push(changed);
            }
        }
        areas.push(area[..area.len() - 1].to_vec());
        areas.extend([0, 1].map(|byte| [&area[..], &[byte]].concat()));
        areas.push(area);
    }
    areas
}

/// An area as the program reads it, with the verdict that it is to give.
pub fn case(area: &[u8], keeps: bool) -> Vec<u8> {
    let head = [area.len() as u32, u32::from(keeps)].map(u32::to_le_bytes);
    [head.as_flattened(), area].concat()
}

/// The recorded areas with the verdicts of `Answer::read`.
pub fn pack() -> Vec<u8> {
    let cases = areas()
        .into_iter()
        .map(|area| case(&area, Answer::read(&area).is_ok()));
    cases.flatten().collect()
}
