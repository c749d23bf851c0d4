//! The form of a file of recorded cases. For each case four words (32 bits, little-endian): the file's length, the root
//! name's length, the number (0 where it is accepted, else the refusal) and the bytes used of the answer area; then the
//! file, the root name and the used part of the area.

use oracle::Answer;

/// A recorded case.
#[derive(Clone, Debug, PartialEq, Eq)]
pub struct Case {
    pub file: Vec<u8>,
    pub root: Vec<u8>,
    /// 0 where the build is accepted, else the refusal.
    pub number: u32,
    /// The used part of the answer area.
    pub area: Vec<u8>,
}

impl Case {
    /// A file and a root name with their answer, or why there is none.
    pub fn of(file: Vec<u8>, root: Vec<u8>, answer: Answer) -> Result<Case, String> {
        let (number, area) = match answer {
            Answer::Refused(number) => (number, Vec::new()),
            Answer::Area(area) => (0, area),
            Answer::Unknown(reason) => return Err(reason),
        };
        Ok(Case {
            file,
            root,
            number,
            area,
        })
    }
}

/// The bytes of a pack.
pub fn write(cases: &[Case]) -> Vec<u8> {
    let mut out = Vec::new();
    for case in cases {
        let lengths = [case.file.len() as u32, case.root.len() as u32];
        for word in [lengths[0], lengths[1], case.number, case.area.len() as u32] {
            out.extend(word.to_le_bytes());
        }
        out.extend(&case.file);
        out.extend(&case.root);
        out.extend(&case.area);
    }
    out
}

/// The cases of a pack. Panics where the bytes are no pack.
pub fn read(bytes: &[u8]) -> Vec<Case> {
    let mut cases = Vec::new();
    let mut rest = bytes;
    while !rest.is_empty() {
        let [file, root, number, used] = [(); 4].map(|()| word(&mut rest));
        cases.push(Case {
            file: take(&mut rest, file as usize),
            root: take(&mut rest, root as usize),
            number,
            area: take(&mut rest, used as usize),
        });
    }
    cases
}

fn word(rest: &mut &[u8]) -> u32 {
    u32::from_le_bytes(take(rest, 4).try_into().expect("four bytes"))
}

fn take(rest: &mut &[u8], length: usize) -> Vec<u8> {
    assert!(length <= rest.len(), "a pack that ends early");
    let (front, behind) = rest.split_at(length);
    *rest = behind;
    front.to_vec()
}
