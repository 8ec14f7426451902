//! Charts, read straight from document 01: the chart rules, blocks told apart pair by pair, the settling depth, and the reading of an action
//! sequence.

use crate::sheets::{Reading, Refusal, SKIPPED};
use std::collections::{HashSet, VecDeque};

const BARRED: u8 = 255;

pub struct Record {
    pub place: usize,
    pub label: u16,
    pub targets: Vec<u8>,
}

pub struct Chart {
    pub actions: usize,
    pub records: Vec<Record>,
    /// The settling depth, which an accepted chart has; 0 until it is accepted.
    pub depth: usize,
}

fn refuse<T>(number: u8, returned: usize) -> Result<T, Refusal> {
    Err(Refusal { number, returned })
}

/// Refusals 1, 2 and 3.
fn read(bytes: &[u8]) -> Result<Chart, Refusal> {
    if bytes.len() < 7 || bytes[..5] != *b"BCH\x01\x00" {
        return refuse(1, 0);
    }
    if !(1..=8).contains(&bytes[5]) {
        return refuse(2, 5);
    }
    if bytes[6] == 0 {
        return refuse(2, 6);
    }
    let actions = bytes[5] as usize;
    if bytes.len() != 7 + bytes[6] as usize * (2 + actions) {
        return refuse(3, bytes.len());
    }
    let record = |(i, r): (usize, &[u8])| Record {
        place: 7 + i * (2 + actions),
        label: u16::from_le_bytes([r[0], r[1]]),
        targets: r[2..].to_vec(),
    };
    let records = bytes[7..].chunks(2 + actions).enumerate().map(record).collect();
    Ok(Chart { actions, records, depth: 0 })
}

/// All targets with their places, in file order.
fn targets(chart: &Chart) -> impl Iterator<Item = (usize, u8)> + '_ {
    chart.records.iter().flat_map(|r| r.targets.iter().enumerate().map(|(a, t)| (r.place + 2 + a, *t)))
}

/// The first target above the least number that is not yet named.
fn misnumbered(chart: &Chart) -> Option<usize> {
    let mut named = [false; 257];
    named[0] = true;
    for (place, target) in targets(chart).filter(|(_, t)| *t != BARRED) {
        let next = named.iter().position(|n| !n).expect("some number is unnamed");
        if target as usize > next {
            return Some(place);
        }
        named[target as usize] = true;
    }
    None
}

/// The first record after block 0 that no earlier one names.
fn unnamed(chart: &Chart) -> Option<usize> {
    let records = &chart.records;
    let names = |i: usize| records[..i].iter().any(|r| r.targets.iter().any(|t| *t as usize == i && *t != BARRED));
    (1..records.len()).find(|i| !names(*i)).map(|i| records[i].place)
}

/// The first byte of the earliest record that clashes with an earlier one.
fn later(chart: &Chart, clash: impl Fn(usize, usize) -> bool) -> Option<usize> {
    (0..chart.records.len()).find(|j| (0..*j).any(|i| clash(i, *j))).map(|j| chart.records[j].place)
}

fn bars(record: &Record) -> Vec<bool> {
    record.targets.iter().map(|t| *t == BARRED).collect()
}

/// What a reading has for an action at a block, and the block where it goes on.
pub fn act(chart: &Chart, block: usize, action: usize) -> (u16, usize) {
    match chart.records[block].targets[action] {
        BARRED => (SKIPPED, block),
        target => (chart.records[target as usize].label, target as usize),
    }
}

/// The entries of the reading of an action sequence from a block.
fn entries(chart: &Chart, mut block: usize, actions: &[u8]) -> Vec<u16> {
    let mut entries = vec![chart.records[block].label];
    for a in actions {
        let (entry, next) = act(chart, block, *a as usize);
        entries.push(entry);
        block = next;
    }
    entries
}

/// For each two blocks the length of the shortest sequence that reads differently from them, if there is one. The search is breadth-first over
/// pairs of blocks. It begins at those whose labels differ, which need no action, and at those where one action writes different entries. Where
/// it writes the same, a sequence for the two blocks to which it leads is one for the two before, with this action in front.
fn shortest(chart: &Chart) -> Vec<Vec<Option<usize>>> {
    let count = chart.records.len();
    let mut before = vec![vec![Vec::new(); count]; count];
    let (mut at_once, mut by_one) = (Vec::new(), Vec::new());
    for i in 0..count {
        for j in 0..count {
            if chart.records[i].label != chart.records[j].label {
                at_once.push((i, j, 0));
            }
            for a in 0..chart.actions {
                let ((entry, to), (other, with)) = (act(chart, i, a), act(chart, j, a));
                if entry != other {
                    by_one.push((i, j, 1));
                } else {
                    before[to][with].push((i, j));
                }
            }
        }
    }
    let mut lengths = vec![vec![None; count]; count];
    let mut queue: VecDeque<_> = at_once.into_iter().chain(by_one).collect();
    while let Some((i, j, length)) = queue.pop_front() {
        if lengths[i][j].is_none() {
            lengths[i][j] = Some(length);
            queue.extend(before[i][j].iter().map(|(k, l)| (*k, *l, length + 1)));
        }
    }
    lengths
}

/// Refusals 1 to 4 and 12 to 14, and the chart. Its settling depth is the greatest of the shortest lengths, 0 for one block.
pub fn check(bytes: &[u8]) -> Result<Chart, Refusal> {
    let chart = read(bytes)?;
    let count = chart.records.len();
    let unfit = targets(&chart).find(|(_, t)| *t != BARRED && *t as usize >= count).map(|(place, _)| place);
    let skipped = chart.records.iter().find(|r| r.label == SKIPPED).map(|r| r.place);
    if let Some(place) = unfit.into_iter().chain(skipped).min() {
        return refuse(4, place);
    }
    if let Some(place) = misnumbered(&chart).into_iter().chain(unnamed(&chart)).min() {
        return refuse(12, place);
    }
    let records = &chart.records;
    if let Some(place) = later(&chart, |i, j| records[i].label == records[j].label && bars(&records[i]) != bars(&records[j])) {
        return refuse(13, place);
    }
    let lengths = shortest(&chart);
    if let Some(place) = later(&chart, |i, j| lengths[i][j].is_none()) {
        return refuse(14, place);
    }
    let depth = lengths.into_iter().flatten().flatten().max().unwrap_or(0);
    Ok(Chart { depth, ..chart })
}

/// The settling depth by its words alone: what all sequences of no action, of one, of two and so on read from each block, until it is another from each.
/// Nothing where that is more than so many entries.
pub fn depth_by_listing(chart: &Chart, most: usize) -> Option<usize> {
    let (count, actions) = (chart.records.len(), 0..chart.actions as u8);
    let (mut length, mut sequences, mut read) = (0, vec![Vec::new()], vec![Vec::new(); count]);
    while count * (read[0].len() + sequences.len() * (length + 1)) <= most {
        for (block, all) in read.iter_mut().enumerate() {
            sequences.iter().for_each(|sequence| all.extend(entries(chart, block, sequence)));
        }
        if read.iter().collect::<HashSet<_>>().len() == count {
            return Some(length);
        }
        sequences = sequences.iter().flat_map(|s| actions.clone().map(move |a| [s.as_slice(), &[a]].concat())).collect();
        length += 1;
    }
    None
}

/// The reading of an action sequence from block 0 of an accepted chart.
pub fn reading(chart: &Chart, actions: &[u8]) -> Reading {
    let entries = entries(chart, 0, actions);
    // no label is what a barred action writes, so the entries tell the first
    let barred = entries.iter().position(|e| *e == SKIPPED).map(|i| i - 1);
    Reading { entries, barred }
}
