//! The check and the settling depth of a chart in plain Rust: the records are read into structs once, and the classes of the blocks are refined
//! in rounds, until one parts nothing. Nothing here is shared with the library.

use crate::sheets::Refusal;

const BARRED: u8 = 255;

/// No label: a run writes it for a barred action.
const SKIPPED: u16 = 65_535;

fn refuse<T>(number: u8, returned: usize) -> Result<T, Refusal> {
    Err(Refusal { number, returned })
}

struct Block<'a> {
    place: usize,
    label: u16,
    targets: &'a [u8],
}

impl<'a> Block<'a> {
    fn read(place: usize, record: &'a [u8]) -> Self {
        Block { place, label: u16::from_le_bytes([record[0], record[1]]), targets: &record[2..] }
    }

    /// The targets, each with its place.
    fn placed(&self) -> impl Iterator<Item = (usize, u8)> + '_ {
        (self.place + 2..).zip(self.targets.iter().copied())
    }

    /// The targets that two blocks have for the same action.
    fn beside(&self, other: &Block<'a>) -> impl Iterator<Item = (u8, u8)> + 'a {
        self.targets.iter().copied().zip(other.targets.iter().copied())
    }
}

/// The blocks; refusals 1 to 3.
fn read(bytes: &[u8]) -> Result<Vec<Block<'_>>, Refusal> {
    let [b'B', b'C', b'H', 1, 0, actions, count, records @ ..] = bytes else { return refuse(1, 0) };
    if !(1..=8).contains(actions) {
        return refuse(2, 5);
    }
    if *count == 0 {
        return refuse(2, 6);
    }
    let size = 2 + *actions as usize;
    if records.len() != *count as usize * size {
        return refuse(3, bytes.len());
    }
    let placed = (7..).step_by(size).zip(records.chunks_exact(size));
    Ok(placed.map(|(place, record)| Block::read(place, record)).collect())
}

/// Refusal 4.
fn check_fields(blocks: &[Block]) -> Result<(), Refusal> {
    for block in blocks {
        if block.label == SKIPPED {
            return refuse(4, block.place);
        }
        if let Some((place, _)) = block.placed().find(|(_, t)| *t != BARRED && *t as usize >= blocks.len()) {
            return refuse(4, place);
        }
    }
    Ok(())
}

/// Refusal 12: each block but the first is named by an earlier one, and new names come in order.
fn check_numbers(blocks: &[Block]) -> Result<(), Refusal> {
    let mut named = 1;
    for (i, block) in blocks.iter().enumerate() {
        if i >= named {
            return refuse(12, block.place);
        }
        for (place, target) in block.placed().filter(|(_, t)| *t != BARRED) {
            if target as usize > named {
                return refuse(12, place);
            }
            named += usize::from(target as usize == named);
        }
    }
    Ok(())
}

/// By number the least block of each block's class. 255 stands for itself: it is no block, and what is barred is a class of its own.
type Classes = [u8; 256];

fn by_labels(blocks: &[Block]) -> Classes {
    let mut classes = [BARRED; 256];
    for (i, block) in blocks.iter().enumerate() {
        let first = blocks[..i].iter().position(|earlier| earlier.label == block.label);
        classes[i] = first.unwrap_or(i) as u8;
    }
    classes
}

/// Refusal 13: the blocks of one label bar what the first of them bars.
fn check_bars(blocks: &[Block], classes: &Classes) -> Result<(), Refusal> {
    let first = |i: usize| &blocks[classes[i] as usize];
    let differs = |i: &usize| blocks[*i].beside(first(*i)).any(|(t, u)| (t == BARRED) != (u == BARRED));
    match (0..blocks.len()).find(differs) {
        Some(i) => refuse(13, blocks[i].place),
        None => Ok(()),
    }
}

/// One round: two blocks stay together if they were, and if each action leads them together. The least block of a class stays in it, so a block's
/// new class is looked for from the old one on.
fn refine(blocks: &[Block], classes: &Classes) -> Classes {
    let class = |k: u8| classes[k as usize];
    let lead_together = |i: usize, j: usize| blocks[i].beside(&blocks[j]).all(|(t, u)| class(t) == class(u));
    let mut refined = *classes;
    for i in 0..blocks.len() {
        let old = classes[i] as usize;
        refined[i] = (old..i).find(|j| classes[*j] == classes[i] && lead_together(i, *j)).unwrap_or(i) as u8;
    }
    refined
}

/// The settling depth, the number of rounds that part something; refusals 1 to 4 and 12 to 14.
pub fn depth(bytes: &[u8]) -> Result<usize, Refusal> {
    let blocks = read(bytes)?;
    check_fields(&blocks)?;
    check_numbers(&blocks)?;
    let mut classes = by_labels(&blocks);
    check_bars(&blocks, &classes)?;
    let mut depth = 0;
    loop {
        let refined = refine(&blocks, &classes);
        if refined == classes {
            break;
        }
        classes = refined;
        depth += 1;
    }
    match (0..blocks.len()).find(|i| classes[*i] as usize != *i) {
        Some(i) => refuse(14, blocks[i].place),
        None => Ok(depth),
    }
}
