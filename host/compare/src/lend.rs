//! One call of the builder, its area lent from the middle of a longer buffer that holds garbage.

use generate::prng::Random;

/// The most bytes before and behind the area.
const AROUND: usize = 64;

/// What a call gave.
#[derive(Clone, Debug, PartialEq, Eq)]
pub struct Given {
    /// 0 where the build is accepted, else the refusal.
    pub number: u32,
    pub used: usize,
    /// The whole area.
    pub area: Vec<u8>,
}

/// Builds into an area of a length. An error is a byte outside the area that was touched.
pub fn lend(file: &[u8], root: &[u8], length: usize, random: &mut Random) -> Result<Given, String> {
    let (before, behind) = (random.between(1, AROUND), random.between(1, AROUND));
    let garbage = garbage(random, before + length + behind);
    let mut buffer = garbage.clone();
    let end = before + length;
    let returned = builder_sys::build(file, root, &mut buffer[before..end]);
    if buffer[..before] != garbage[..before] {
        return Err(format!("a byte before the area of {length} is touched"));
    }
    if buffer[end..] != garbage[end..] {
        return Err(format!("a byte behind the area of {length} is touched"));
    }
    Ok(given(returned, buffer[before..end].to_vec()))
}

/// The same with no area at all: no bytes, and a pointer to nothing.
pub fn lend_nothing(file: &[u8], root: &[u8]) -> Given {
    given(builder_sys::build(file, root, &mut []), Vec::new())
}

fn given(returned: u64, area: Vec<u8>) -> Given {
    Given {
        number: builder_sys::number(returned),
        used: builder_sys::used(returned) as usize,
        area,
    }
}

/// Bytes of any value but 0, so that one that was not cleared shows.
fn garbage(random: &mut Random, length: usize) -> Vec<u8> {
    let mut bytes = Vec::with_capacity(length + 8);
    while bytes.len() < length {
        bytes.extend((random.bits() | 0x0101_0101_0101_0101).to_le_bytes());
    }
    bytes.truncate(length);
    bytes
}
