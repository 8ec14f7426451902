//! The way to a block: of every accepted sheet whose configurations are listed, of what is refused, and of chains whose ways are known.

use crate::generate::{encode, region};
use crate::library::{self, raw, way_room, LONGEST_WAY};
use crate::sheets::{self, bound_size, end, Configuration, Made, Move, Refusal, Rule, Sheet};
use crate::{plain, range, same, told, Test};

/// Up to so many sequences of fewer actions than there are blocks, all of them are tried in order.
const LISTED: usize = 20_000;

/// Up to so many blocks, the way to each is asked for.
const MOST_BLOCKS: usize = 12;

/// The sequence that comes next, by length and then by action numbers.
pub fn advance(sequence: &mut Vec<u8>, actions: usize) {
    let Some(at) = sequence.iter().rposition(|a| usize::from(*a) + 1 < actions) else {
        *sequence = vec![0; sequence.len() + 1];
        return;
    };
    sequence[at] += 1;
    sequence[at + 1..].fill(0);
}

/// How many sequences have fewer than so many actions, if that is at most `LISTED`.
pub fn sequences(actions: usize, blocks: usize) -> Option<usize> {
    let mut count = 0usize;
    for length in 0..blocks {
        count += actions.checked_pow(length as u32).filter(|n| *n <= LISTED)?;
    }
    (count <= LISTED).then_some(count)
}

/// Whether a configuration is in the box that record `block` of a list has.
fn listed(sheet: &Sheet, list: &[u8], block: usize, (state, values): &Configuration) -> bool {
    let size = bound_size(sheet.version);
    let record = &list[block * (1 + 2 * size * sheet.counters)..];
    let bound = |i: usize| {
        let bytes = &record[1 + i * size..][..size];
        let high = if bytes[size - 1] < 128 { 0 } else { -1i64 };
        bytes.iter().rev().fold(high, |n, b| n << 8 | i64::from(*b))
    };
    record[0] == *state && values.iter().enumerate().all(|(v, x)| bound(2 * v) <= *x && *x <= bound(2 * v + 1))
}

impl Test {
    /// One call, as C calls it and by the safe function, in a buffer of noise that goes on behind its end.
    fn way(&mut self, sheet: &[u8], block: usize, room: usize, expected: Result<&[u8], Refusal>) {
        let noise = self.rng.bytes(room + 40);
        let mut left = noise.clone();
        if let Ok(way) = expected {
            left[..way.len()].copy_from_slice(way);
        }
        let (mut raw_actions, mut returned) = (noise.clone(), self.noise());
        let number = raw::way(sheet, block, &mut raw_actions[..room], &mut returned);
        let answer = expected.map(|way| way.len());
        let what = format!("way to block {block}, room {room}");
        same(&what, sheet, (number, returned), told(answer));
        same(&format!("actions, {what}"), sheet, &raw_actions, &left);
        let mut actions = noise;
        same(&format!("safe {what}"), sheet, library::way(sheet, block, &mut actions[..room]).map_err(plain), answer);
        same(&format!("actions, safe {what}"), sheet, &actions, &left);
        self.count(match expected {
            Ok(way) => format!("way: {}", range(way.len(), LONGEST_WAY)),
            Err(refusal) => format!("way: refused {}", refusal.number),
        });
    }

    /// Any block of a sheet that is refused or has too many blocks, in any buffer: whatever else is wrong, that refusal comes first.
    pub fn way_refused(&mut self, sheet: &[u8], refusal: Refusal) {
        let (any, room) = (self.noise(), self.rng.below(300));
        for block in [0, any, usize::MAX] {
            self.way(sheet, block, 0, Err(refusal));
            self.way(sheet, block, room, Err(refusal));
        }
    }

    /// The ways to the blocks of an accepted sheet, to all of them where there are few; the numbers that no block has; buffers of every kind.
    pub fn ways(&mut self, bytes: &[u8], sheet: &Sheet, made: &Made, ways: &[Vec<u8>]) {
        let (blocks, needed) = (made.blocks, way_room(made.blocks));
        let some = [0, 1 + self.rng.below(blocks), self.rng.below(blocks), blocks - 1];
        let all = blocks <= MOST_BLOCKS || self.rng.one_in(100);
        let asked: Vec<usize> = if all { (0..blocks).collect() } else { some.map(|k| k.min(blocks - 1)).to_vec() };
        self.count(if all { "ways to all blocks" } else { "ways to some blocks" });
        for block in asked {
            let way = &ways[block][..];
            let rooms = self.lengths(needed);
            for room in rooms {
                let short = Err(Refusal { number: 10, returned: needed });
                self.way(bytes, block, room, if room < needed { short } else { Ok(way) });
            }
            self.led(bytes, sheet, made, block, way);
        }
        let (any, room) = (blocks.max(self.noise()), self.rng.below(300));
        for block in [blocks, blocks.max(255), 256, 1 << 16, 1 << 32, 1 << 63, any, usize::MAX] {
            self.way(bytes, block, 0, Err(Refusal { number: 15, returned: blocks }));
            self.way(bytes, block, room, Err(Refusal { number: 15, returned: blocks }));
        }
        self.count(if blocks == 1 { "way on a chart of 1 block" } else { "way on a chart of 2 blocks or more" });
        self.listed_ways(bytes, sheet, made, ways);
    }

    /// What a way does: a run of it on the sheet bars nothing and reads the block's label last, and it ends in the box that the list has.
    fn led(&mut self, bytes: &[u8], sheet: &Sheet, made: &Made, block: usize, way: &[u8]) {
        same("a way of actions that the sheet has", bytes, way.iter().all(|a| usize::from(*a) < sheet.actions), true);
        same("a way of at most as many actions as there are other blocks", bytes, way.len() <= way_room(made.blocks), true);
        same("the end of a way in its box", bytes, listed(sheet, &made.list, block, &end(sheet, way)), true);
        let mut entries = vec![0; way.len() + 1];
        let run = library::run_sheet(bytes, way, &mut entries).map(|run| (run.entries, run.barred)).map_err(plain);
        same("a run of a way", bytes, run, Ok((way.len() + 1, None)));
        let record = 7 + block * (2 + sheet.actions);
        same("the label at the end of a way", bytes, entries[way.len()].to_le_bytes(), [made.chart[record], made.chart[record + 1]]);
    }

    /// All sequences of fewer actions than there are blocks, in order: the first that leads into the box of a block is the way to it.
    fn listed_ways(&mut self, bytes: &[u8], sheet: &Sheet, made: &Made, ways: &[Vec<u8>]) {
        let Some(count) = sequences(sheet.actions, made.blocks) else { return };
        let (mut sequence, mut first) = (Vec::new(), vec![(None, 0); made.blocks]);
        for _ in 0..count {
            let x = end(sheet, &sequence);
            let block = (0..made.blocks).find(|k| listed(sheet, &made.list, *k, &x)).expect("a block");
            let (way, others) = &mut first[block];
            match way {
                None => *way = Some(sequence.clone()),
                Some(way) => *others += usize::from(way.len() == sequence.len()),
            }
            advance(&mut sequence, sheet.actions);
        }
        for (block, (way, others)) in first.into_iter().enumerate() {
            same(&format!("way to block {block} by all sequences"), bytes, way.as_ref(), Some(&ways[block]));
            let several = if others > 0 { ", of several" } else { "" };
            self.count(format!("way by all sequences: {}{several}", range(ways[block].len(), LONGEST_WAY)));
        }
    }

    /// A sheet whose way to a block is known.
    fn known_way(&mut self, what: &str, sheet: &Sheet, block: usize, way: &[u8]) {
        let bytes = encode(sheet);
        let (made, ways) = sheets::check_but_landing(&bytes).and_then(|s| sheets::make_with_ways(&s)).expect("an accepted sheet");
        let blocks = made.blocks;
        same(&format!("{what}, listed"), &bytes, &ways[block][..], way);
        let needed = way_room(blocks);
        let short = Err(Refusal { number: 10, returned: needed });
        (0..needed).filter(|room| needed < 20 || *room == 0 || room + 1 == needed).for_each(|room| self.way(&bytes, block, room, short));
        [needed, needed + 1, 1000].into_iter().for_each(|room| self.way(&bytes, block, room, Ok(way)));
        self.way(&bytes, blocks, 0, Err(Refusal { number: 15, returned: blocks }));
        self.count(what);
    }
}

/// So many values of one counter, from 0 on. Each action adds its step, and is barred where that leads past the last value; one without a step
/// leads back to 0.
fn chain(count: i64, steps: &[Option<i64>]) -> Sheet {
    let rule = |high: i64, step: Option<i64>| match step {
        Some(by) => (high + by < count).then_some(Rule::Carry { source: 0, factor: 1, offset: by }),
        None => Some(Rule::Set(0)),
    };
    let to = |rule| Move { target: 0, rules: vec![rule] };
    let most = steps.iter().flatten().max().expect("a step");
    let ends = [(0, count - 1 - most)].into_iter().chain((count - most..count).map(|x| (x, x)));
    let moves = |high: i64| steps.iter().map(|step| rule(high, *step).map(to)).collect();
    let regions = ends.zip(1..).map(|((low, high), label)| region(label, 0, vec![(low, high)], moves(high))).collect();
    Sheet { version: 1, counters: 1, actions: steps.len(), start: (0, vec![0]), regions }
}

/// Chains of a few blocks, and of as many as there can be, by one action or another, by several, and with ways back.
pub fn test(test: &mut Test) {
    for count in [2usize, 3, 17, 254, 255] {
        let (last, length) = (count - 1, count as i64);
        for actions in [1, 2, 8] {
            for advancing in [0, actions - 1] {
                let steps: Vec<Option<i64>> = (0..actions).map(|a| (a == advancing).then_some(1)).collect();
                let what = format!("way along a chain of {count} blocks");
                test.known_way(&what, &chain(length, &steps), last, &vec![advancing as u8; last]);
                test.known_way(&what, &chain(length, &steps), 1, &[advancing as u8]);
                test.known_way(&what, &chain(length, &steps), 0, &[]);
            }
        }
        let all = chain(length, &[Some(1); 8]);
        test.known_way("way by the first of eight actions that do the same", &all, last, &vec![0; last]);
    }
    // to 9 by four twos and a one, which comes first where its action number is the lesser; blocks are then numbered by value, else pair by pair
    let ones_first = chain(30, &[Some(1), Some(2)]);
    test.known_way("way by steps of one and of two", &ones_first, 9, &[0, 1, 1, 1, 1]);
    let twos_first = chain(30, &[Some(2), Some(1)]);
    test.known_way("way by steps of two and of one", &twos_first, 10, &[0, 0, 0, 0, 1]);
}

/// What must have come.
pub fn kinds() -> Vec<String> {
    let lengths = ["0", "1", "2", "3 to 5", "6 to 50", "51 to 253", "254"];
    let mut all: Vec<String> = lengths.iter().map(|range| format!("way: {range}")).collect();
    all.extend(["0", "1", "2", "3 to 5", "6 to 50"].map(|range| format!("way by all sequences: {range}")));
    all.extend(["1", "2", "3 to 5"].map(|range| format!("way by all sequences: {range}, of several")));
    all.extend([1, 2, 3, 4, 5, 6, 7, 8, 9, 10, 15].map(|number| format!("way: refused {number}")));
    all.extend(["way on a chart of 1 block", "way on a chart of 2 blocks or more", "ways to all blocks"].map(String::from));
    all
}

