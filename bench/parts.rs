//! The benchmark of where two charts part: `pilfstera_part`, checking both and searching all pairs of blocks in plain Rust, and the two checks alone.

use crate::measure::{plain, Benchmark, Column, Outcome, Told};
use crate::{pilfstera, rows};

/// Two charts.
pub struct Pair {
    first: Vec<u8>,
    second: Vec<u8>,
}

/// Stand for a length where the charts are equal in behaviour, and where they are checked and nothing more.
const EQUAL: usize = usize::MAX;
const CHECKED: usize = usize::MAX - 1;

// Instructions are counted within the library's exports, and within the plain search, which calls one of them, by its name. The sequence is left
// where the other benchmarks have a chart.

fn by_library(pair: &Pair, out: &mut Outcome) -> bool {
    let length = pilfstera::part(&pair.first, &pair.second, &mut out.chart);
    out.answer = length.map(|length| length.unwrap_or(EQUAL)).map_err(plain);
    true
}

/// Whether both charts are accepted.
fn checked(pair: &Pair, out: &mut Outcome) -> bool {
    let both = pilfstera::check_chart(&pair.first).and_then(|()| pilfstera::check_chart(&pair.second));
    out.answer = both.map(|()| CHECKED).map_err(plain);
    both.is_ok()
}

/// What a run writes for an action at a block, and the block where it goes on.
fn act(chart: &[u8], block: usize, action: usize) -> ([u8; 2], usize) {
    let record = |k: usize| &chart[7 + k * (2 + usize::from(chart[5]))..];
    match record(block)[2 + action] {
        255 => ([255; 2], block),
        target => ([record(target.into())[0], record(target.into())[1]], target.into()),
    }
}

/// Where a pair of blocks stands in the queue of those met, and by which action: so the sequence is read back from its end.
struct Met {
    blocks: (usize, usize),
    from: usize,
    by: usize,
}

/// Breadth first over pairs of blocks, each of which is met once.
fn search(pair: &Pair, sequence: &mut [u8]) -> Option<usize> {
    let (first, second) = (&pair.first[..], &pair.second[..]);
    if first[7..9] != second[7..9] {
        return Some(0);
    }
    let (mut queue, mut at) = (vec![Met { blocks: (0, 0), from: 0, by: 0 }], 0);
    let mut met = vec![[false; 256]; first[6].into()];
    met[0][0] = true;
    while at < queue.len() {
        let (i, j) = queue[at].blocks;
        for by in 0..usize::from(first[5]) {
            let ((entry, to), (other, with)) = (act(first, i, by), act(second, j, by));
            if entry != other {
                return Some(read_back(&queue, at, by, sequence));
            }
            if !met[to][with] {
                met[to][with] = true;
                queue.push(Met { blocks: (to, with), from: at, by });
            }
        }
        at += 1;
    }
    None
}

/// Writes the sequence that leads to a pair, and one action more; its length.
fn read_back(queue: &[Met], mut at: usize, last: usize, sequence: &mut [u8]) -> usize {
    let mut actions = vec![last as u8];
    while at > 0 {
        actions.push(queue[at].by as u8);
        at = queue[at].from;
    }
    actions.reverse();
    sequence[..actions.len()].copy_from_slice(&actions);
    actions.len()
}

#[no_mangle]
#[inline(never)]
fn by_searching_pairs(pair: &Pair, out: &mut Outcome) -> bool {
    if checked(pair, out) {
        out.answer = Ok(search(pair, &mut out.chart).unwrap_or(EQUAL));
    }
    true
}

fn by_checking(pair: &Pair, out: &mut Outcome) -> bool {
    checked(pair, out);
    true
}

fn pair(first: Vec<u8>, second: Vec<u8>) -> Box<Pair> {
    Box::new(Pair { first, second })
}

fn equal(chart: Vec<u8>) -> Box<Pair> {
    pair(chart.clone(), chart)
}

/// The chart beside itself with a byte of its last record changed, counted from the end.
fn changed(chart: Vec<u8>, behind: usize, byte: u8) -> Box<Pair> {
    let (mut second, at) = (chart.clone(), chart.len() - behind);
    second[at] = byte;
    pair(chart, second)
}

/// Chains are parted by their last blocks. Rings read alike as long as can be, so that as many pairs are met as there can be of classes that become
/// one; where actions advance by one to eight, the checks take few rounds. Labels that all differ are the cheapest to check, and all blocks are met.
fn inputs() -> Vec<(&'static str, Box<Pair>)> {
    let (one, other) = rows::rings(254, 255);
    let late = rows::late_rings(255);
    let rings = |actions: usize, steps: fn(usize) -> usize| pair(rows::ring(&late, 0, actions, steps), rows::ring(&late, 1, actions, steps));
    vec![
        ("1 block, 1 action, barred in one", changed(rows::chain(1, 1, |_| true), 1, 255)),
        ("255 blocks, chains, other ends", changed(rows::chain(255, 1, |_| true), 3, 3)),
        ("255 blocks, chains by the last of 8 actions, other ends", changed(rows::chain(255, 8, |a| a == 7), 10, 3)),
        ("255 blocks, chains by all 8 actions, other ends", changed(rows::chain(255, 8, |_| true), 10, 3)),
        ("254 and 255 blocks, rings, 507 actions", pair(rows::ring(&one, 0, 1, |_| 1), rows::ring(&other, 0, 1, |_| 1))),
        ("255 blocks, rings, 508 actions", rings(1, |_| 1)),
        ("255 blocks, rings by the last of 8 actions, 508 actions", rings(8, |a| a / 7)),
        ("255 blocks, rings by all 8 actions, 508 actions", rings(8, |_| 1)),
        ("255 blocks, rings by one to eight, 64 actions", rings(8, |a| a + 1)),
        ("255 blocks, gate, equal", equal(rows::gate(255))),
        ("255 blocks, chain by all 8 actions, equal", equal(rows::chain(255, 8, |_| true))),
        ("255 blocks, 8 actions, labels that all differ, equal", equal(rows::different(255, 8))),
        ("255 blocks, 8 actions, labels that all differ, other ends", changed(rows::different(255, 8), 9, 1)),
        ("255 blocks, 8 actions, another label at block 0", pair(rows::different(255, 8), rows::chain(255, 8, |_| true))),
        ("refused 14 at the last of 255 blocks, 8 actions, of the second", pair(rows::gate(255), rows::refused_14(255, 8))),
    ]
}

pub fn benchmark() -> Benchmark<Pair> {
    Benchmark {
        name: "parts",
        inputs: inputs(),
        versions: &[("by_searching_pairs", by_searching_pairs), ("pilfstera_part", by_library), ("pilfstera_check_chart", by_checking)],
        // checking says no more than that both are accepted, and is there for its time alone; nor does it raise a place
        agree: |first, other| other == first || other.answer == Ok(CHECKED) || other.answer.is_err() && first.answer.is_err(),
        told: Told::Least,
        columns: &[
            ("Library", Column::Of(1)),
            ("by searching", Column::Of(0)),
            ("ratio", Column::Ratio(1, 0)),
            ("the two checks", Column::Of(2)),
            ("ratio", Column::Ratio(1, 2)),
        ],
    }
}
