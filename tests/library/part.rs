//! Where two charts part: each pair of charts is held to a search over all pairs of blocks, breadth first, and small ones to all sequences in order.
//! The sequence that parts them is run on both. There are random charts and such with a small change, equal ones, refused ones on either side, and
//! rows that part as late as can be.

use crate::charts::{self, act, Chart};
use crate::generate::{self, encode_chart};
use crate::library::{self, part_room, raw};
use crate::machines::Machine;
use crate::sheets::{Refusal, SKIPPED};
use crate::way::{advance, sequences};
use crate::{hex, plain, range, rows, same, Test};
use std::collections::VecDeque;
use std::fmt::Debug;

const BARRED: u8 = 255;

/// Up to so many sequences are tried in order.
const LISTED: usize = 2_000;

/// The longest sequence that parts two charts: both have 255 blocks, of which two or more have different labels.
const LONGEST: usize = 508;

/// Document 02's number of bytes that suffices for any two charts: that of include/pilfstera.rs is under test.
const ROOM: usize = 509;

/// Bytes, taken for a chart, and what their check gives.
struct Side {
    bytes: Vec<u8>,
    checked: Result<Chart, Refusal>,
}

impl Side {
    fn of(bytes: Vec<u8>) -> Self {
        let checked = charts::check(&bytes);
        Side { bytes, checked }
    }
}

/// Two charts, in the order in which they are handed in.
#[derive(Clone, Copy)]
struct Pair<'a> {
    first: &'a Side,
    second: &'a Side,
}

/// The sequence that parts two charts, or nothing where they are equal in behaviour; or the refusal.
type Answer = Result<Option<Vec<u8>>, Refusal>;

/// The shortest sequence whose readings differ, and of several the first in dictionary order. Pairs of blocks are met in the order of the first
/// sequences that lead to them, by length and then by action numbers, and each is met once.
fn parting(first: &Chart, second: &Chart) -> Option<Vec<u8>> {
    if first.records[0].label != second.records[0].label {
        return Some(Vec::new());
    }
    let mut met = vec![vec![false; second.records.len()]; first.records.len()];
    let mut queue = VecDeque::from([(0, 0, Vec::new())]);
    met[0][0] = true;
    while let Some((i, j, sequence)) = queue.pop_front() {
        for a in 0..first.actions {
            let longer = || [&sequence[..], &[a as u8]].concat();
            let ((entry, to), (other, with)) = (act(first, i, a), act(second, j, a));
            if entry != other {
                return Some(longer());
            }
            if !met[to][with] {
                met[to][with] = true;
                queue.push_back((to, with, longer()));
            }
        }
    }
    None
}

impl<'a> Pair<'a> {
    fn turned(self) -> Pair<'a> {
        Pair { first: self.second, second: self.first }
    }

    /// Both charts, or the refusal of a check that comes before that of the buffer.
    fn charts(self) -> Result<(&'a Chart, &'a Chart), Refusal> {
        let Pair { first, second } = self;
        let one = first.checked.as_ref().map_err(|refusal| *refusal)?;
        let other = second.checked.as_ref().map_err(|r| Refusal { number: r.number, returned: first.bytes.len() + r.returned })?;
        if one.actions != other.actions {
            return Err(Refusal { number: 16, returned: 5 });
        }
        Ok((one, other))
    }

    /// Stops where the two are not the same, with both charts.
    fn same<T: PartialEq + Debug>(self, what: &str, library: T, expected: T) {
        if library != expected {
            same(&format!("{what}\nfirst chart {}, then the second", hex(&self.first.bytes)), &self.second.bytes, library, expected);
        }
    }
}

impl Test {
    /// One call, as C calls it and by the safe function, in a buffer of noise that goes on behind its end.
    fn part(&mut self, pair: Pair, room: usize, expected: &Answer) {
        let (first, second) = (&pair.first.bytes[..], &pair.second.bytes[..]);
        let (noise, before) = (self.rng.bytes(room + 40), self.noise());
        let (mut left, mut equal_left) = (noise.clone(), before.to_le_bytes());
        let mut equal = equal_left;
        if let Ok(sequence) = expected {
            let written = sequence.as_deref().unwrap_or(&[]);
            left[..written.len()].copy_from_slice(written);
            equal_left[raw::EQUAL] = u8::from(sequence.is_none());
        }
        let (mut raw_actions, mut returned) = (noise.clone(), self.noise());
        let number = raw::part(first, second, &mut raw_actions[..room], &mut returned, &mut equal);
        let told = expected.as_ref().map_or_else(|r| (r.number, r.returned), |s| (0, s.as_ref().map_or(0, Vec::len)));
        pair.same(&format!("part, room {room}"), (number, returned), told);
        pair.same(&format!("whether equal, and the bytes beside that, room {room}"), equal, equal_left);
        pair.same(&format!("actions, room {room}"), &raw_actions, &left);
        let mut actions = noise;
        let safe = library::part(first, second, &mut actions[..room]).map_err(plain);
        pair.same(&format!("safe part, room {room}"), safe, expected.as_ref().map(|s| s.as_ref().map(Vec::len)).map_err(|r| *r));
        pair.same(&format!("actions, safe part, room {room}"), &actions, &left);
        self.count(match expected {
            Ok(None) => "call for two charts: equal".into(),
            Ok(Some(_)) => "call for two charts: apart".into(),
            Err(refusal) => format!("call for two charts: refused {}", refusal.number),
        });
    }

    /// Two charts in this order, in buffers of every kind; how that came out is counted.
    fn parts_so(&mut self, pair: Pair) -> Answer {
        let (one, other) = match pair.charts() {
            Ok(both) => both,
            Err(refusal) => {
                let room = self.rng.below(ROOM + 40);
                [0, room, ROOM].into_iter().for_each(|room| self.part(pair, room, &Err(refusal)));
                self.count(match (refusal.number, &pair.first.checked, &pair.second.checked) {
                    (16, ..) => "part: refused 16".into(),
                    (number, Ok(_), _) => format!("part: refused {number} of the second"),
                    (number, _, Ok(_)) => format!("part: refused {number} of the first"),
                    (number, _, Err(other)) => format!("part: refused {number} of the first, the second is refused {}", other.number),
                });
                return Err(refusal);
            }
        };
        let (sequence, needed) = (parting(one, other), one.records.len() + other.records.len() - 1);
        same("part_room", &[], part_room(one.records.len(), other.records.len()), needed);
        let (answer, short) = (Ok(sequence), Err(Refusal { number: 10, returned: needed }));
        for room in self.lengths(needed) {
            self.part(pair, room, if room < needed { &short } else { &answer });
        }
        answer
    }

    /// Two charts in both orders: what parts them is the same, and is run on both.
    fn parts(&mut self, pair: Pair) -> Answer {
        let (answer, turned) = (self.parts_so(pair), self.parts_so(pair.turned()));
        let (Ok(sequence), Ok((one, other))) = (&answer, pair.charts()) else { return answer };
        pair.same("what parts the charts in the other order", &turned, &answer);
        match sequence {
            Some(sequence) => {
                self.count(format!("part: {}", range(sequence.len(), LONGEST)));
                self.parted(pair, sequence);
            }
            None => {
                self.count(format!("part: equal, {} blocks", range(one.records.len(), 255)));
                pair.same("charts that are equal in behaviour, byte for byte", &pair.first.bytes, &pair.second.bytes);
            }
        }
        self.listed_parts(pair, one, other, sequence);
        answer
    }

    /// What a sequence does that parts two charts: runs of it read differently, and runs of all that is shorter the same.
    fn parted(&mut self, pair: Pair, sequence: &[u8]) {
        let run = |side: &Side, count: usize| {
            let mut entries = vec![0; count + 1];
            let ran = library::run_chart(&side.bytes, &sequence[..count], &mut entries).map(|run| run.entries).map_err(plain);
            pair.same("a run of what parts the charts", ran, Ok(count + 1));
            entries
        };
        let (read, other) = (run(pair.first, sequence.len()), run(pair.second, sequence.len()));
        pair.same("whether the last entries differ", read.last() != other.last(), true);
        pair.same("the entries before", &read[..sequence.len()], &other[..sequence.len()]);
        for count in [0, sequence.len() / 2, sequence.len().saturating_sub(1)].into_iter().filter(|count| *count < sequence.len()) {
            pair.same("runs of less", run(pair.first, count), run(pair.second, count));
        }
        let skipped = [&read, &other].map(|entries| *entries.last().expect("an entry") == SKIPPED);
        self.count(match skipped {
            [false, false] => "part: by two labels",
            [true, _] => "part: by what the first bars",
            [_, true] => "part: by what the second bars",
        });
    }

    /// All sequences in order, up to the one that parts the charts, or all that have fewer actions than both have blocks: none before it parts them.
    fn listed_parts(&mut self, pair: Pair, one: &Chart, other: &Chart, sequence: &Option<Vec<u8>>) {
        let blocks = one.records.len() + other.records.len();
        let lengths = sequence.as_ref().map_or(blocks, |sequence| sequence.len() + 1);
        let Some(count) = sequences(one.actions, lengths).filter(|count| *count <= LISTED) else { return };
        let (mut tried, mut first) = (Vec::new(), None);
        let entries = |chart, tried: &[u8]| charts::reading(chart, tried).entries;
        for _ in 0..count {
            if entries(one, &tried) != entries(other, &tried) {
                first = Some(tried);
                break;
            }
            advance(&mut tried, one.actions);
        }
        pair.same("what parts the charts, by all sequences", &first, sequence);
        self.count(match &first {
            Some(first) => format!("part by all sequences: {}", range(first.len(), LONGEST)),
            None => "part by all sequences: equal".into(),
        });
    }

    /// Two charts whose answer is known.
    fn known_part(&mut self, what: &str, first: &[u8], second: &[u8], expected: Option<&[u8]>) {
        let (first, second) = (Side::of(first.to_vec()), Side::of(second.to_vec()));
        let pair = Pair { first: &first, second: &second };
        let answer = self.parts(pair);
        pair.same(what, answer.as_ref().map(|sequence| sequence.as_deref()), Ok(expected));
        let needed = pair.charts().map_or(0, |(one, other)| one.records.len() + other.records.len() - 1);
        let short = Err(Refusal { number: 10, returned: needed });
        (0..needed).filter(|room| needed < 20 || [254, 255, 256].contains(room)).for_each(|room| self.part(pair, room, &short));
        [needed + 1, 1000].into_iter().for_each(|room| self.part(pair, room, &answer));
    }
}

/// The chart with a label in the place of that of block k.
fn relabelled(chart: &[u8], k: usize, label: u16) -> Vec<u8> {
    let (mut out, at) = (chart.to_vec(), 7 + k * (2 + usize::from(chart[5])));
    out[at..at + 2].copy_from_slice(&label.to_le_bytes());
    out
}

/// Chains of one label but for the last block, which has another: as long as each other, and of different lengths. Chains that differ in what the last
/// block bars. Rings that read alike as long as can be.
fn rows_apart(test: &mut Test) {
    for count in [1, 2, 3, 17, 254, 255] {
        for actions in [1, 2, 8] {
            for advancing in [0, actions - 1] {
                let (chain, to_end) = (rows::chain(count, actions, |a| a == advancing), vec![advancing as u8; count - 1]);
                test.known_part("chains with other ends", &chain, &relabelled(&chain, count - 1, 3), Some(&to_end));
                test.known_part("a chain and itself", &chain, &chain, None);
                if count > 1 {
                    let shorter = rows::chain(count - 1, actions, |a| a == advancing);
                    test.known_part("a chain and a shorter one", &chain, &shorter, Some(&to_end[1..]));
                }
                let mut barred = chain.clone();
                *barred.last_mut().expect("a target") = BARRED;
                let beyond = [&to_end[..], &[actions as u8 - 1]].concat();
                test.known_part("chains of which one bars the last action at its end", &chain, &barred, Some(&beyond));
            }
            let all = rows::chain(count, actions, |_| true);
            test.known_part("chains by all actions", &all, &relabelled(&all, count - 1, 3), Some(&vec![0; count - 1]));
        }
    }
    for (p, q) in [(2, 3), (3, 4), (3, 5), (5, 8), (7, 31), (100, 101), (127, 128), (2, 255), (128, 255), (253, 254), (254, 255)] {
        let (one, other) = rows::rings(p, q);
        for (actions, advancing) in [(1, 0), (8, 7)] {
            let [first, second] = [&one, &other].map(|labels| rows::ring(labels, 0, actions, |a| usize::from(a == advancing)));
            test.known_part("rings", &first, &second, Some(&vec![advancing as u8; p + q - 2]));
        }
    }
    for count in [3, 4, 5, 50, 127, 128, 129, 254, 255] {
        let labels = rows::late_rings(count);
        for (actions, advancing) in [(1, 0), (8, 7)] {
            let [first, second] = [0, 1].map(|back| rows::ring(&labels, back, actions, |a| usize::from(a == advancing)));
            test.known_part("rings that begin alike", &first, &second, Some(&vec![advancing as u8; 2 * count - 2]));
        }
        let [first, second] = [0, 1].map(|back| rows::ring(&labels, back, 8, |_| 1));
        test.known_part("rings that begin alike, by all actions", &first, &second, Some(&vec![0; 2 * count - 2]));
        // by one to three steps: as many threes as can be, and before them what is left
        let [first, second] = [0, 1].map(|back| rows::ring(&labels, back, 3, |a| a + 1));
        let (threes, left) = ((2 * count - 3) / 3, (2 * count - 3) % 3);
        let steps = [&[left as u8][..], &vec![2; threes]].concat();
        test.known_part("rings that begin alike, by one to three", &first, &second, Some(&steps));
    }
}

/// One block: what is barred parts the charts, by one action, which is as many as both have blocks, less one. Labels part them by none.
fn one_block(test: &mut Test) {
    let block = |label: u16, actions: usize, bars: usize| {
        encode_chart(&[(label, (0..actions).map(|a| if bars >> a & 1 == 1 { BARRED } else { 0 }).collect())])
    };
    for actions in [1, 2, 3, 8] {
        let step = if actions < 8 { 1 } else { 15 };
        for bars in (0..1 << actions).step_by(step) {
            for other in (0..1 << actions).step_by(step) {
                let first = (0..actions).find(|a| (bars ^ other) >> a & 1 == 1).map(|a| vec![a as u8]);
                test.known_part("one block", &block(7, actions, bars), &block(7, actions, other), first.as_deref());
                test.known_part("one block, other labels", &block(7, actions, bars), &block(263, actions, other), Some(&[]));
            }
        }
    }
    test.known_part("labels that differ in the lower byte", &block(0, 1, 0), &block(1, 1, 0), Some(&[]));
    test.known_part("labels 0 and 65,534", &block(0, 1, 0), &block(65_534, 1, 0), Some(&[]));
}

/// Charts of 255 blocks that are equal.
fn equal(test: &mut Test) {
    let chain_back = rows::chain_back(255, 8);
    for chart in [rows::different(255, 8), chain_back, rows::gate(255), rows::chain(255, 8, |a| a % 2 == 1)] {
        test.known_part("equal charts of 255 blocks", &chart, &chart, None);
        let same = Side::of(chart);
        test.part(Pair { first: &same, second: &same }, ROOM, &Ok(None));
    }
}

/// A walk that is longer by the lower action number and shorter by the higher, and one that is as long by several.
fn in_order(test: &mut Test) {
    // from block 0 both actions lead to a block of label 1, and there each chart has its own end by either action
    let forked = |ends: [u16; 4]| {
        let inner = [(1, vec![1, 2]), (1, vec![3, 4]), (1, vec![5, 6])];
        let ends = ends.iter().zip(3..).map(|(label, k)| (*label, vec![k, k]));
        encode_chart(&inner.into_iter().chain(ends).collect::<Vec<_>>())
    };
    let all = [2, 3, 4, 5];
    for k in 0..4 {
        for l in k..4 {
            let mut other = all;
            (other[k], other[l]) = (8, 9);
            let first = [(k / 2) as u8, (k % 2) as u8];
            test.known_part("ends by two actions, of which some differ", &forked(all), &forked(other), Some(&first));
        }
    }
    // action 0 leads to block 2 by way of two others, action 1 at once
    let hasty = |end: u16| encode_chart(&[(1, vec![1, 2]), (2, vec![3, 1]), (end, vec![2, 2]), (3, vec![2, 3])]);
    test.known_part("the shorter by the higher action", &hasty(4), &hasty(5), Some(&[1]));
}

/// Every chart of so many blocks and actions with labels 1 and 2 that is accepted.
fn small(count: usize, actions: usize) -> Vec<Side> {
    let targets: Vec<u8> = (0..count as u8).chain([BARRED]).collect();
    let (labellings, choices) = (1 << count, targets.len().pow((count * actions) as u32));
    let chart = |labels: usize, chosen: usize| {
        let target = |k: usize| targets[chosen / targets.len().pow(k as u32) % targets.len()];
        let block = |i: usize| (1 + (labels >> i & 1) as u16, (0..actions).map(|a| target(i * actions + a)).collect());
        encode_chart(&(0..count).map(block).collect::<Vec<_>>())
    };
    let all = (0..labellings).flat_map(|labels| (0..choices).map(move |chosen| Side::of(chart(labels, chosen))));
    all.filter(|side| side.checked.is_ok()).collect()
}

/// All pairs of small charts.
fn all_small(test: &mut Test) {
    for sizes in [&[(1, 1), (2, 1), (3, 1), (4, 1)][..], &[(1, 2), (2, 2)]] {
        let sides: Vec<Side> = sizes.iter().flat_map(|(count, actions)| small(*count, *actions)).collect();
        for (k, first) in sides.iter().enumerate() {
            for second in &sides[k..] {
                let _ = test.parts(Pair { first, second });
                test.count("part: all small charts");
            }
        }
    }
}

/// A random accepted chart beside itself and beside one that differs a little: in a target, in what a label bars, in a label, by some damage.
fn random(test: &mut Test, count: usize) {
    let mut before = Side::of(Machine::random(&mut test.rng).chart());
    for _ in 0..count {
        let machine = Machine::random(&mut test.rng);
        let first = Side::of(machine.chart());
        let (blocks, label) = (usize::from(first.bytes[6]), test.rng.pick(&[0, 1, 5, 65_280, 65_281, 261, 40_000]));
        let (k, at) = (test.rng.below(blocks), 7 + test.rng.below(first.bytes.len() - 7));
        let mut target = first.bytes.clone();
        target[at] = test.rng.below(blocks) as u8;
        let changed = [
            ("itself", first.bytes.clone()),
            ("another target of a machine", machine.clone().with_target(&mut test.rng).chart()),
            ("another bar of a machine", machine.with_bar(&mut test.rng).chart()),
            ("another byte of a record", target),
            ("another label of a block", relabelled(&first.bytes, k, label)),
            ("a random damage", generate::damaged(&mut test.rng, &first.bytes)),
        ];
        for (what, bytes) in changed {
            let second = Side::of(bytes);
            let came = match test.parts(Pair { first: &first, second: &second }) {
                Ok(None) => "equal",
                Ok(Some(_)) => "apart",
                Err(_) => "refused",
            };
            test.count(format!("part, {what}: {came}"));
        }
        let _ = test.parts(Pair { first: &first, second: &before });
        before = first;
    }
}

/// Small charts, accepted or not, any two of them beside each other.
fn random_small(test: &mut Test, count: usize) {
    let sides: Vec<Side> = (0..count).map(|_| Side::of(generate::chart(&mut test.rng))).collect();
    for (k, first) in sides.iter().enumerate() {
        let near = &sides[k.saturating_sub(3)..=k];
        near.iter().for_each(|second| drop(test.parts(Pair { first, second })));
    }
}

/// Charts that are refused with a number at a place: each refusal at its first place and at its last.
fn refused() -> Vec<(u8, usize, Vec<u8>)> {
    let least = encode_chart(&[(7, vec![0])]);
    let with = |chart: &[u8], at: usize, byte: u8| {
        let mut out = chart.to_vec();
        out[at] = byte;
        out
    };
    let two = encode_chart(&[(7, vec![1, 0]), (8, vec![0, 0])]);
    let long = rows::different(254, 8);
    let (last, end) = (long.len() - 10, long.len() - 1);
    vec![
        (1, 0, Vec::new()),
        (1, 0, least[..6].to_vec()),
        (1, 0, with(&least, 0, b'M')),
        (1, 0, with(&long, 4, 1)),
        (2, 5, with(&least, 5, 0)),
        (2, 5, with(&long, 5, 9)),
        (2, 6, with(&least, 6, 0)),
        (3, 7, least[..7].to_vec()),
        (3, 11, [&least[..], &[0]].concat()),
        (3, end, long[..end].to_vec()),
        (3, end + 2, [&long[..], &[0]].concat()),
        (4, 7, relabelled(&least, 0, 65_535)),
        (4, 9, with(&least, 9, 1)),
        (4, last, relabelled(&long, 253, 65_535)),
        (4, end, with(&long, end, 254)),
        (12, 9, encode_chart(&[(7, vec![2]), (8, vec![1]), (9, vec![1])])),
        (12, 11, with(&two, 9, 0)),
        (12, last, with(&long, last - 8, 252)),
        (12, last - 11, with(&with(&long, last - 18, 251), last - 11, 253)),
        (13, 11, with(&relabelled(&two, 1, 7), 14, BARRED)),
        (13, 2_547, rows::refused_13(255, 8)),
        (14, 11, relabelled(&two, 1, 7)),
        (14, 2_547, rows::refused_14(255, 8)),
    ]
}

/// Every two of some accepted charts, of different numbers of actions, and of those that are refused: the first check in order that fails gives the
/// refusal, in buffers that suffice and in short ones.
fn in_turn(test: &mut Test) {
    let accepted = [rows::chain(1, 1, |_| true), rows::chain(3, 2, |a| a == 0), rows::chain(3, 3, |a| a == 0), rows::different(255, 8)];
    let mut sides: Vec<Side> = accepted.into_iter().map(Side::of).collect();
    for (number, returned, bytes) in refused() {
        let side = Side::of(bytes);
        same("the independent check", &side.bytes, side.checked.as_ref().map(|_| ()).map_err(|r| *r), Err(Refusal { number, returned }));
        sides.push(side);
    }
    for (k, first) in sides.iter().enumerate() {
        for second in &sides[k..] {
            let _ = test.parts(Pair { first, second });
            test.count("part: each two in turn");
        }
    }
}

/// A second chart of a length past 32 bits, up to the end of 64 bits, of which there is only the header: the number returned is raised by the first's
/// length, and is capped where the sum does not fit. A first chart of such a length returns that.
fn far(test: &mut Test) {
    let (header, unmarked, uncounted) = (b"BCH\x01\x00\x01\x01", b"BCH\x01\x01\x01\x01", b"BCH\x01\x00\x09\x01");
    for first in [rows::chain(1, 1, |_| true), rows::chain(3, 2, |a| a == 0), rows::different(255, 8)] {
        let (most, own) = (usize::MAX, first.len());
        let near = [most - own - 2, most - own - 1, most - own, most - own + 1, most - own + 2];
        let lengths = [1 << 16, 1 << 31, u32::MAX as usize - own, 1 << 32, (1 << 32) + 10, (1 << 63) - own, (1 << 63) - 1, 1 << 63, most - 1, most];
        for length in near.into_iter().chain(lengths) {
            let (capped, raised) = (length.saturating_add(own), |place: usize| own + place);
            let cases = [
                ("the second", &first[..], own, header, length, (3, capped)),
                ("the second, no chart", &first, own, unmarked, length, (1, raised(0))),
                ("the second, a count", &first, own, uncounted, length, (2, raised(5))),
                ("the first", header, length, header, 7, (3, length)),
                ("both", header, length, header, length, (3, length)),
                ("the first, a count", uncounted, length, header, length, (2, 5)),
            ];
            for (of, first, first_length, second, second_length, told) in cases {
                let (noise, before) = (test.rng.bytes(ROOM), test.noise().to_le_bytes());
                let (mut actions, mut equal, mut returned) = (noise.clone(), before, test.noise());
                let number = raw::part_of(first, first_length, second, second_length, &mut actions, &mut returned, &mut equal);
                let what = format!("a length past what there is of {of}: {first_length} and {second_length}");
                same(&what, first, (number, returned), told);
                same(&format!("what is left, {what}"), first, (actions, equal), (noise, before));
                test.count(format!("part: refused {number} with a length past what there is"));
            }
            test.count(if length.checked_add(own).is_some() { "part: a length that is raised" } else { "part: a length that is capped" });
        }
    }
}

pub fn test(test: &mut Test, count: usize) {
    rows_apart(test);
    one_block(test);
    equal(test);
    in_order(test);
    all_small(test);
    random(test, count / 2);
    random_small(test, count / 2);
    in_turn(test);
    far(test);
}

/// What must have come.
pub fn kinds() -> Vec<String> {
    let numbers = [1, 2, 3, 4, 12, 13, 14];
    let ranges = |what: &str, ranges: &[&str]| ranges.iter().map(|range| format!("{what}{range}")).collect::<Vec<_>>();
    let of = |n: u8| ["first", "second"].map(|chart| format!("part: refused {n} of the {chart}"));
    let both = |n: u8| numbers.map(|other| format!("part: refused {n} of the first, the second is refused {other}"));
    let mut all: Vec<String> = numbers.into_iter().flat_map(of).chain(numbers.into_iter().flat_map(both)).collect();
    all.extend(ranges("part: ", &["0", "1", "2", "3 to 5", "6 to 50", "51 to 507", "508"]));
    all.extend(ranges("part by all sequences: ", &["0", "1", "2", "3 to 5", "6 to 50", "51 to 507", "508", "equal"]));
    all.extend(["1", "2", "3 to 5", "6 to 50", "51 to 254", "255"].map(|blocks| format!("part: equal, {blocks} blocks")));
    all.extend(["another target of a machine", "another bar of a machine", "another byte of a record"].map(|what| format!("part, {what}: apart")));
    all.extend(["another target of a machine", "another bar of a machine"].map(|what| format!("part, {what}: equal")));
    all.extend(["another byte of a record", "another label of a block", "a random damage"].map(|what| format!("part, {what}: refused")));
    let others = [
        "call for two charts: refused 10",
        "part: refused 16",
        "part: refused 1 with a length past what there is",
        "part: refused 2 with a length past what there is",
        "part: refused 3 with a length past what there is",
        "part: a length that is raised",
        "part: a length that is capped",
        "part: by two labels",
        "part: by what the first bars",
        "part: by what the second bars",
        "part, itself: equal",
        "part, another label of a block: apart",
        "part: all small charts",
        "part: each two in turn",
    ];
    all.extend(others.map(String::from));
    all
}
