//! One call of the builder with file, root name and area against forbidden pages.

use crate::pages::{Pages, Side};
use generate::prng::Random;
use generate::Case;

/// The longest file, root name and area that are lent.
pub const FILE: usize = 96 << 10;
pub const ROOT: usize = 8 << 10;
pub const AREA: usize = 60 << 10;

/// Pages for the three slices of a call.
pub struct Bench {
    file: Pages,
    root: Pages,
    area: Pages,
    /// What the area's pages hold before a call: bytes of any value but 0, so that one that was not cleared shows.
    garbage: Vec<u8>,
}

/// What a call gave.
pub struct Given<'b> {
    /// 0 where the build is accepted, else the refusal.
    pub number: u32,
    pub used: usize,
    /// The whole area.
    pub area: &'b [u8],
}

impl Bench {
    /// A bench; the seed decides the garbage.
    pub fn new(seed: u64) -> Bench {
        let mut random = Random::new(seed);
        let garbage = (0..AREA).map(|_| random.bits() as u8 | 1).collect();
        Bench {
            file: Pages::new(FILE),
            root: Pages::new(ROOT),
            area: Pages::new(AREA),
            garbage,
        }
    }

    /// Builds a case into an area of a length, all three slices at a side of their pages. An error is a byte of the
    /// area's pages outside the area that was touched.
    pub fn build(&mut self, case: &Case, length: usize, side: Side) -> Result<Given<'_>, String> {
        let place = self.area.place(length, side);
        let file = self.file.lend(&case.bytes, side);
        let root = self.root.lend(&case.root, side);
        let pages = self.area.all();
        pages.copy_from_slice(&self.garbage);
        let returned = builder_sys::build(file, root, &mut pages[place.clone()]);
        if pages[..place.start] != self.garbage[..place.start] {
            return Err(format!("a byte before the area of {length} is touched"));
        }
        if pages[place.end..] != self.garbage[place.end..] {
            return Err(format!("a byte behind the area of {length} is touched"));
        }
        Ok(Given {
            number: builder_sys::number(returned),
            used: builder_sys::used(returned) as usize,
            area: &pages[place],
        })
    }
}
