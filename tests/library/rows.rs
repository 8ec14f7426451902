//! Charts whose blocks stand in a row, by parameters: their settling depth is known, some of them take as many rounds of refinement as there can
//! be, and some are refused only at their last record. Then pairs of rings that read alike as long as can be. The long ones are measured in bench/.

use crate::generate::encode_chart;

const BARRED: u8 = 255;

fn row(count: usize, label: impl Fn(usize) -> u16, targets: impl Fn(usize) -> Vec<u8>) -> Vec<u8> {
    encode_chart(&(0..count).map(|i| (label(i), targets(i))).collect::<Vec<_>>())
}

/// The targets of block i of so many: an advancing action leads to the next block, if there is one, and all else stays.
fn advance(i: usize, count: usize, actions: usize, advances: impl Fn(usize) -> bool) -> Vec<u8> {
    (0..actions).map(|a| if advances(a) && i + 1 < count { i as u8 + 1 } else { i as u8 }).collect()
}

/// One label but for the last block: the depth is two less than the number of blocks, as much as there can be.
pub fn chain(count: usize, actions: usize, advances: impl Fn(usize) -> bool) -> Vec<u8> {
    row(count, |i| if i + 1 < count { 1 } else { 2 }, |i| advance(i, count, actions, &advances))
}

/// One label but for the first block, to which the last action leads back step by step; the first leads on. As deep as a chain, and the last two
/// blocks are told apart last.
pub fn chain_back(count: usize, actions: usize) -> Vec<u8> {
    let label = |i: usize| if i == 0 { 2 } else { 1 };
    row(count, label, |i| {
        let mut targets = advance(i, count, actions, |a| a == 0);
        targets[actions - 1] = i.saturating_sub(1) as u8;
        targets
    })
}

/// No label twice: the depth is 0.
pub fn different(count: usize, actions: usize) -> Vec<u8> {
    row(count, |i| i as u16, |i| advance(i, count, actions, |a| a == 0))
}

/// A gate that is raised by its first action and lowered by its second, up to its ends, where it has labels of their own. An end is told by as
/// many actions as it is away, so two blocks side by side in the middle need half the way: (count - 2) / 2.
pub fn gate(count: usize) -> Vec<u8> {
    let last = count - 1;
    let label = |i: usize| match i {
        0 => 10,
        _ if i < last => 20,
        _ => 30,
    };
    row(count, label, |i| vec![if i < last { i as u8 + 1 } else { BARRED }, if i > 0 { i as u8 - 1 } else { BARRED }])
}

/// A ring: an action advances by its steps, each to the next block, or from the last one back to the block at an index.
pub fn ring(labels: &[u16], back: usize, actions: usize, steps: impl Fn(usize) -> usize) -> Vec<u8> {
    let next = |i: usize| if i + 1 < labels.len() { i + 1 } else { back };
    let target = |i: usize, a: usize| (0..steps(a)).fold(i, |at, _| next(at)) as u8;
    row(labels.len(), |i| labels[i], |i| (0..actions).map(|a| target(i, a)).collect())
}

/// Labels that have two numbers as periods, two fewer than both numbers together: those are equal that a period makes equal, and no others. If the
/// numbers have no common divisor, there are two different ones; one label more, and all would be equal (Fine and Wilf).
fn twice_periodic(one: usize, other: usize) -> Vec<u16> {
    let count = one + other - 2;
    let mut labels: Vec<u16> = (0..count as u16).collect();
    for period in [one, other].repeat(count) {
        for i in period..count {
            let least = labels[i].min(labels[i - period]);
            (labels[i], labels[i - period]) = (least, least);
        }
    }
    labels
}

/// The labels of two rings of so many blocks, which have no common divisor. As many entries read alike as both have blocks, less two: so many steps part
/// them, and no fewer.
pub fn rings(one: usize, other: usize) -> (Vec<u16>, Vec<u16>) {
    let labels = twice_periodic(one, other);
    (labels[..one].to_vec(), labels[..other].to_vec())
}

/// The labels of two rows of so many blocks, three or more: the end of the one leads back to block 0, of the other to block 1. From block 1 on they are
/// rings of so many blocks and of one fewer, and before it stands the label that the longer period gives. So they read alike for an entry more than such
/// rings, as long as two charts of so many blocks can and still part.
pub fn late_rings(count: usize) -> Vec<u16> {
    let labels = twice_periodic(count, count - 1);
    [&labels[count - 1..count], &labels[..count - 1]].concat()
}

/// A chain by the last action, whose end leads by the first to one block more, that does what block 0 does: refused 14 there, after all rounds.
pub fn refused_14(count: usize, actions: usize) -> Vec<u8> {
    let (end, twin) = (count - 2, count - 1);
    let label = |i: usize| if i == end { 2 } else { 1 };
    row(count, label, |i| match i {
        _ if i == end => (0..actions).map(|a| if a == 0 { twin } else { end } as u8).collect(),
        _ if i == twin => (0..actions).map(|a| if a + 1 == actions { 1 } else { twin } as u8).collect(),
        _ => advance(i, count, actions, |a| a + 1 == actions),
    })
}

/// One label, and the last action barred at the last block alone: refused 13 there.
pub fn refused_13(count: usize, actions: usize) -> Vec<u8> {
    let mut out = row(count, |_| 1, |i| advance(i, count, actions, |a| a == 0));
    *out.last_mut().expect("a target") = BARRED;
    out
}
