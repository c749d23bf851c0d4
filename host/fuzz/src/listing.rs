//! Where the basic blocks begin in a listing of machine code, as `objdump -d` prints it.

use std::collections::BTreeSet;

/// The beginning of a block: its function, how far from the function's beginning it is, and its first byte.
pub struct Block<'l> {
    pub function: &'l str,
    pub offset: usize,
    pub first: u8,
}

/// An instruction of the listing.
struct Instruction<'l> {
    offset: usize,
    first: u8,
    text: &'l str,
}

/// The blocks of every function in a listing.
pub fn blocks(listing: &str) -> Vec<Block<'_>> {
    let mut found = Vec::new();
    let (mut function, mut body) = ("", Vec::new());
    for line in listing.lines().chain(["0 <>:"]) {
        if let Some(name) = heading(line) {
            found.extend(begins(&body).into_iter().map(|(offset, first)| Block {
                function,
                offset,
                first,
            }));
            (function, body) = (name, Vec::new());
        } else if let Some(instruction) = instruction(line) {
            body.push(instruction);
        }
    }
    found
}

/// The function's name in a line like `0000000000000000 <build>:`.
fn heading(line: &str) -> Option<&str> {
    let (_, name) = line.strip_suffix(">:")?.split_once(" <")?;
    Some(name)
}

/// A line of the offset, the bytes and the text, parted by tabs: `22:`, `74 7b`, `je 9f <build+0x9f>`. Where the bytes take
/// a second line, that one has no text.
fn instruction(line: &str) -> Option<Instruction<'_>> {
    let mut parts = line.splitn(3, '\t');
    let offset = parts.next()?.trim().strip_suffix(':')?;
    let first = parts.next()?.get(..2)?;
    Some(Instruction {
        offset: usize::from_str_radix(offset, 16).ok()?,
        first: u8::from_str_radix(first, 16).ok()?,
        text: parts.next()?,
    })
}

/// Where the blocks of a function begin: at its beginning, behind each jump or return, and where a jump leads.
fn begins(body: &[Instruction]) -> Vec<(usize, u8)> {
    let mut starts: BTreeSet<usize> = body.iter().take(1).map(|i| i.offset).collect();
    for (i, instruction) in body.iter().enumerate() {
        let jump = instruction.text.starts_with('j');
        if jump || instruction.text.starts_with("ret") {
            starts.extend(body.get(i + 1).map(|next| next.offset));
        }
        let target = instruction.text.split_whitespace().nth(1);
        let target = target.and_then(|target| usize::from_str_radix(target, 16).ok());
        starts.extend(target.filter(|_| jump));
    }
    let padding = |text: &str| text.contains("nop") || text.starts_with("xchg   %ax,%ax");
    let code = body.iter().filter(|i| !padding(i.text));
    let begins = code.filter(|i| starts.contains(&i.offset));
    begins.map(|i| (i.offset, i.first)).collect()
}

#[cfg(test)]
mod tests {
    use super::*;

    const LISTING: &str = "
0000000000000000 <build>:
   0:\t55                   \tpush   %rbp
   1:\t74 0a                \tje     d <build+0xd>
   3:\t48 b8 00 00 00 00 00 \tmovabs $0x0,%rax
   a:\t00 00 00 
   d:\tc3                   \tret
   e:\t66 90                \txchg   %ax,%ax

0000000000000000 <other>:
   0:\teb fe                \tjmp    0 <other>
   2:\t0f 0b                \tud2
";

    #[test]
    fn blocks_begin_behind_jumps_and_where_they_lead() {
        let found = blocks(LISTING);
        let found: Vec<_> = found
            .iter()
            .map(|b| (b.function, b.offset, b.first))
            .collect();
        let due = [
            ("build", 0, 0x55),
            ("build", 3, 0x48),
            ("build", 13, 0xC3),
            ("other", 0, 0xEB),
            ("other", 2, 0x0F),
        ];
        assert_eq!(found, due);
    }
}
