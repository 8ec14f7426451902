//! Two logs of the same run: the first index at which they differ, and the rest of the longer. Every pair is held to a comparison in full,
//! and every rest to the place in the caller's own log where it must begin.

use crate::library::{self, chart_length, raw, run_room, Run, LONGEST_CHART, LONGEST_LIST};
use crate::random::Random;
use crate::{same, Test};
use std::fmt::Debug;
use std::hint::black_box;

/// What stands in the place of the rest before a call: parts of another log.
static ANOTHER: [u16; 40] = [10; 40];

/// More than a million entries, and more than 20 bits count.
const LONG: usize = (1 << 20) + 77;

/// How logs lie or come about, to be counted apart.
const PLAIN: &str = "logs";
const ONE_BUFFER: &str = "logs in one buffer";
const LONG_ONES: &str = "long logs";
const RUNS: &str = "logs of runs";

/// Two logs, laid beside each other.
#[derive(Clone, Copy)]
struct Pair<'a> {
    first: &'a [u16],
    second: &'a [u16],
}

impl<'a> Pair<'a> {
    /// Every index that both logs have and at which they differ: both are compared in full.
    fn differences(self) -> Vec<usize> {
        let entries = self.first.iter().zip(self.second).enumerate();
        entries.filter(|(_, (one, other))| one != other).map(|(index, _)| index).collect()
    }

    fn index(self) -> usize {
        self.differences().into_iter().min().unwrap_or(self.first.len().min(self.second.len()))
    }

    fn rest(self) -> &'a [u16] {
        let Pair { first, second } = self;
        if first.starts_with(second) {
            &first[second.len()..]
        } else if second.starts_with(first) {
            &second[first.len()..]
        } else {
            &first[first.len()..]
        }
    }

    /// Stops where the two are not the same, with the logs, of long ones the beginnings.
    fn same<T: PartialEq + Debug>(self, what: &str, library: T, expected: T) {
        if library != expected {
            let shown = |log: &[u16]| format!("{} entries at {:?}: {:?}", log.len(), log.as_ptr(), &log[..log.len().min(400)]);
            same(&format!("{what}\nfirst  {}\nsecond {}", shown(self.first), shown(self.second)), &[], library, expected);
        }
    }

    /// What the pair is like, in a few words.
    fn met(self) -> String {
        let (first, second, differences) = (self.first.len(), self.second.len(), self.differences());
        let left = |count: usize| if count == 1 { "1 entry left" } else { "more left" };
        let Some(index) = differences.first() else {
            return match (first, second) {
                (0, 0) => "both empty".into(),
                (0, _) => "the first empty".into(),
                (_, 0) => "the second empty".into(),
                _ if first < second => format!("the first is the beginning, {}", left(second - first)),
                _ if first > second => format!("the second is the beginning, {}", left(first - second)),
                _ => "equal".into(),
            };
        };
        let again = if differences.len() > 1 { "and again" } else { "alone" };
        match index + 1 {
            1 => format!("differ at index 0 {again}"),
            next if next < first.min(second) => format!("differ between {again}"),
            _ if first < second => "differ at the last index of the first".into(),
            _ if first > second => "differ at the last index of the second".into(),
            _ => "differ at the last index of both".into(),
        }
    }

    /// How the entries at the first difference, if there is one, are apart, and which extremes both logs have before.
    fn entries_met(self) -> Vec<&'static str> {
        let index = self.index();
        let mut all = Vec::new();
        if let (Some(one), Some(other)) = (self.first.get(index), self.second.get(index)) {
            all.push(match one ^ other {
                0x8000 => "apart in the top bit",
                bits if bits & 0x00FF == 0 => "apart in the high byte",
                bits if bits & 0xFF00 == 0 => "apart in the low byte",
                0xFFFF if one % 0xFFFF == 0 => "apart as 0 and 65,535",
                _ => "apart in both bytes",
            });
            all.extend((one.abs_diff(*other) == 1).then_some("apart by 1"));
        }
        let alike = &self.first[..index];
        all.extend(alike.contains(&0).then_some("0 in both"));
        all.extend(alike.contains(&65535).then_some("65,535 in both"));
        all
    }
}

/// What pairs must have been like. Long ones and those of runs begin alike, so they differ as the first five.
const ALIKE: [&str; 5] = [
    "equal",
    "the first is the beginning, 1 entry left",
    "the second is the beginning, 1 entry left",
    "the first is the beginning, more left",
    "the second is the beginning, more left",
];
const DIFFER: [&str; 7] = [
    "differ at the last index of both",
    "differ between alone",
    "differ between and again",
    "differ at the last index of the first",
    "differ at the last index of the second",
    "differ at index 0 alone",
    "differ at index 0 and again",
];

/// What their entries must have been like.
const ENTRIES: [&str; 8] = [
    "apart in the top bit",
    "apart in the high byte",
    "apart in the low byte",
    "apart as 0 and 65,535",
    "apart in both bytes",
    "apart by 1",
    "0 in both",
    "65,535 in both",
];

/// Place and length of the rest, as C asks for it in the place of another log. What lies beside that is left as it was.
fn raw_rest(first: &[u16], second: &[u16], before: &[u16]) -> (*const u16, usize) {
    let [above, rest, below] = raw::rest(first, second, before);
    let kept = (before.as_ptr(), before.len());
    same("what lies beside the rest", &[], (above, below), (kept, kept));
    rest
}

impl Test {
    /// Both questions about two logs as they lie, as C asks them, with another log in the place of the rest, and by the safe functions. The
    /// logs stay as they were. Gives the index.
    fn beside(&mut self, how: &str, first: &[u16], second: &[u16]) -> usize {
        // that nobody alters a shared slice may be taken for granted by the compiler, not here
        let pair = Pair { first: black_box(first), second: black_box(second) };
        let (index, rest) = (pair.index(), pair.rest());
        let (place, entries, copies) = ((rest.as_ptr(), rest.len()), rest.to_vec(), (first.to_vec(), second.to_vec()));
        pair.same("first difference", raw::first_difference(first, second), index);
        pair.same("safe first difference", library::first_difference(first, second), index);
        let before = &ANOTHER[self.rng.below(ANOTHER.len())..];
        pair.same("place and length of the rest", raw_rest(first, second, before), place);
        let safe = library::rest(first, second);
        pair.same("place and length of the safe rest", (safe.as_ptr(), safe.len()), place);
        pair.same("entries of the rest", black_box(safe), &entries);
        pair.same("the logs after the calls", (black_box(first), black_box(second)), (&copies.0, &copies.1));
        self.count(format!("{how}: {}", pair.met()));
        pair.entries_met().into_iter().for_each(|what| self.count(format!("entries of logs: {what}")));
        *self.kinds.entry("entries of logs: compared".into()).or_default() += first.len().min(second.len()).min(index + 1);
        index
    }

    /// The same, and once more with copies that lie in longer buffers and go on alike there: whoever reads past an end meets no difference.
    fn logs(&mut self, how: &str, first: &[u16], second: &[u16]) -> usize {
        let index = self.beside(how, first, second);
        let longer = if first.len() < second.len() { second } else { first };
        let noise = log(&mut self.rng, EVERY, 8);
        let (one_at, other_at) = (self.rng.below(4), self.rng.below(4));
        let laid = |log: &[u16], at: usize| [&noise[..at], log, &longer[log.len()..], &noise[4..]].concat();
        let (one, other) = (laid(first, one_at), laid(second, other_at));
        self.beside(how, &one[one_at..][..first.len()], &other[other_at..][..second.len()]);
        index
    }
}

/// What must have come.
pub fn kinds() -> Vec<String> {
    let mut all = ENTRIES.map(|what| format!("entries of logs: {what}")).to_vec();
    let empty = ["both empty", "the first empty", "the second empty"];
    for how in [PLAIN, ONE_BUFFER] {
        all.extend(ALIKE.iter().chain(&DIFFER).chain(&empty).map(|what| format!("{how}: {what}")));
    }
    for how in [LONG_ONES, RUNS] {
        all.extend(ALIKE.iter().chain(&DIFFER[..5]).map(|what| format!("{how}: {what}")));
    }
    all
}

/// Answers found by hand, each with the log that the rest is of and where it begins: the comparison in full is held to them too.
fn known(test: &mut Test) {
    let cases: [(&[u16], &[u16], usize, (usize, usize)); 12] = [
        (&[10, 10, 20], &[10, 10, 30], 2, (0, 3)),
        (&[10, 10, 20], &[10, 10, 30, 20], 2, (0, 3)),
        (&[10, 10, 30, 20], &[10, 10, 20], 2, (0, 4)),
        (&[20, 10, 10], &[30, 10, 10, 10], 0, (0, 3)),
        (&[10, 10], &[10, 10, 30, 20], 2, (1, 2)),
        (&[10, 10, 30, 20], &[10, 10], 2, (0, 2)),
        (&[10, 10, 20], &[10, 10, 20], 3, (0, 3)),
        (&[], &[], 0, (0, 0)),
        (&[], &[65535], 0, (1, 0)),
        (&[65535, 0], &[], 0, (0, 0)),
        (&[10, 65535, 65535], &[10, 65535, 65535, 0], 3, (1, 3)),
        (&[10, 65535, 20], &[10, 0, 20], 1, (0, 3)),
    ];
    for (first, second, index, (log, start)) in cases {
        let (pair, rest) = (Pair { first, second }, &[first, second][log][start..]);
        pair.same("the comparison in full", (pair.index(), pair.rest().as_ptr_range()), (index, rest.as_ptr_range()));
        test.logs(PLAIN, first, second);
    }
}

/// In the place of labels to choose from: all numbers of 16 bits.
const EVERY: &[u16] = &[];

/// Labels to choose from: a few, both ends of either byte, all, or a single one, so that no entry tells its place.
fn palettes(rng: &mut Random) -> [Vec<u16>; 4] {
    let single = rng.next() as u16;
    [
        vec![10, 20, 30, 65535],
        vec![0, 1, 255, 256, 32767, 32768, 65534, 65535],
        EVERY.to_vec(),
        vec![rng.pick(&[0, 65535, 32768, single])],
    ]
}

fn log(rng: &mut Random, labels: &[u16], length: usize) -> Vec<u16> {
    let label = |_| if labels.is_empty() { rng.next() as u16 } else { rng.pick(labels) };
    (0..length).map(label).collect()
}

/// Another entry, apart from this one in a bit, in a byte, in both, or by 1.
fn changed(rng: &mut Random, entry: u16) -> u16 {
    let byte = 1 + rng.below(255) as u16;
    match rng.below(6) {
        0 => entry ^ 0x8000,
        1 => entry ^ byte << 8,
        2 => entry ^ byte,
        3 => entry.wrapping_add(1),
        4 => entry.wrapping_sub(1),
        _ => !entry,
    }
}

/// What two logs may have behind a common beginning: nothing, one or more entries in one of them, or entries that differ, with nothing
/// behind, the same, the same but for one entry, or any others. Each comes the other way round as well.
fn tails(rng: &mut Random, labels: &[u16]) -> Vec<[Vec<u16>; 2]> {
    let (length, other_length) = (2 + rng.below(40), 2 + rng.below(40));
    let (more, other) = (log(rng, labels, length), log(rng, labels, other_length));
    let (mut again, at) = (more.clone(), rng.below(length));
    again[at] = changed(rng, again[at]);
    let one = log(rng, labels, 1);
    let apart = vec![changed(rng, one[0])];
    let behind = |entry: &[u16], tail: &[u16]| [entry, tail].concat();
    let tails = [
        [vec![], vec![]],
        [vec![], one.clone()],
        [vec![], more.clone()],
        [one.clone(), apart.clone()],
        [one.clone(), behind(&apart, &more)],
        [behind(&one, &more), behind(&apart, &more)],
        [behind(&one, &more), behind(&apart, &again)],
        [behind(&one, &more), behind(&apart, &other)],
    ];
    tails.into_iter().flat_map(|[tail, other]| [[tail.clone(), other.clone()], [other, tail]]).collect()
}

/// A common beginning of this length, and all that may come behind.
fn beginning(test: &mut Test, labels: &[u16], length: usize) {
    let common = log(&mut test.rng, labels, length);
    for [first, second] in tails(&mut test.rng, labels) {
        let asked = test.logs(PLAIN, &[&common[..], &first].concat(), &[&common[..], &second].concat());
        same("index behind a common beginning", &[], asked >= length, true);
    }
}

/// Common beginnings of every length up to 300, and of some where a count of 12 or 16 bits ends.
fn beginnings(test: &mut Test) {
    for length in 0..=300 {
        palettes(&mut test.rng).iter().for_each(|labels| beginning(test, labels, length));
    }
    for length in [4_095, 4_096, 65_534, 65_535, 65_536, 65_537] {
        beginning(test, EVERY, length);
    }
}

/// Every pair of logs of up to four entries of three labels.
fn short(test: &mut Test) {
    let labels = [0, 256, 65535];
    let mut all: Vec<Vec<u16>> = vec![vec![]];
    for length in 1..=4 {
        let last: Vec<_> = all.iter().filter(|log| log.len() == length - 1).cloned().collect();
        all.extend(last.iter().flat_map(|log| labels.map(|label| [&log[..], &[label]].concat())));
    }
    for first in &all {
        for second in &all {
            test.logs(PLAIN, first, second);
        }
    }
}

/// Parts of one buffer that repeats itself, or does so but for one entry: a log beside itself, beside its own beginning or end, beside the
/// same moved on by one or by a period, and any two parts.
fn one_buffer(test: &mut Test, count: usize) {
    for _ in 0..count {
        let (period, length) = (1 + test.rng.below(3), 4 + test.rng.below(60));
        let labels = log(&mut test.rng, EVERY, period);
        let mut buffer: Vec<u16> = labels.iter().copied().cycle().take(length + period).collect();
        if test.rng.one_in(2) {
            let any = test.rng.below(length);
            let at = test.rng.pick(&[any, length + period - 1]);
            buffer[at] = changed(&mut test.rng, buffer[at]);
        }
        let mut part = || {
            let ends = (test.rng.below(length + 1), test.rng.below(length + 1));
            ends.0.min(ends.1)..ends.0.max(ends.1)
        };
        let (any, other) = (part(), part());
        let (whole, middle) = (0..length, any.start);
        let parts = [
            (whole.clone(), whole.clone()),
            (whole.clone(), 0..middle),
            (whole.clone(), middle..length),
            (whole.clone(), 1..length + 1),
            (whole, period..length + period),
            (0..middle, middle..length),
            (middle..middle, length..length),
            (any, other),
        ];
        for (one, other) in parts {
            test.beside(ONE_BUFFER, &buffer[one.clone()], &buffer[other.clone()]);
            test.beside(ONE_BUFFER, &buffer[other], &buffer[one]);
        }
    }
}

/// Logs that are equal, of which one is the beginning of the other, with one entry left, half of them or almost all, or that differ once or
/// twice, in the middle, at the last entry or behind 20 bits; where they differ, one may end there.
fn long(test: &mut Test) {
    let whole = log(&mut test.rng, EVERY, LONG);
    test.logs(LONG_ONES, &whole, &whole);
    for length in [1, LONG / 2, LONG - 1] {
        test.logs(LONG_ONES, &whole, &whole[..length]);
        test.logs(LONG_ONES, &whole[..length], &whole);
    }
    for places in [&[LONG - 1][..], &[LONG / 2], &[LONG / 2, LONG - 1], &[1 << 20]] {
        let (mut other, first) = (whole.clone(), places[0]);
        places.iter().for_each(|at| other[*at] = changed(&mut test.rng, other[*at]));
        for (one, other) in [(&whole[..], &other[..]), (&whole[..=first], &other), (&whole, &other[..=first])] {
            same("index of the first change", &[], test.logs(LONG_ONES, one, other), first);
        }
    }
}

/// What lies behind the first difference has no influence: the same lengths with noise there give the same index and the same rest, other
/// lengths the same index and the empty rest of the first.
fn no_influence(test: &mut Test, count: usize) {
    for _ in 0..count {
        let (at, one_behind, other_behind) = (test.rng.below(40), test.rng.below(20), test.rng.below(20));
        let mut first = log(&mut test.rng, &[10, 20], at + 1 + one_behind);
        let mut second = [&first[..=at], &log(&mut test.rng, &[10, 20], other_behind)].concat();
        second[at] = changed(&mut test.rng, second[at]);
        let asked = (test.beside(PLAIN, &first, &second), raw_rest(&first, &second, &ANOTHER));
        for _ in 0..4 {
            let behind = first[at + 1..].iter_mut().chain(&mut second[at + 1..]);
            behind.for_each(|entry| *entry = test.rng.next() as u16);
            let again = (test.beside(PLAIN, &first, &second), raw_rest(&first, &second, &ANOTHER));
            Pair { first: &first, second: &second }.same("index and rest with noise behind", again, asked);
        }
        for (one_behind, other_behind) in [(0, 0), (0, 1 + test.rng.below(30)), (1 + test.rng.below(30), 0)] {
            let one = [&first[..=at], &log(&mut test.rng, EVERY, one_behind)].concat();
            let other = [&second[..=at], &log(&mut test.rng, EVERY, other_behind)].concat();
            let (again, rest) = (test.logs(PLAIN, &one, &other), raw_rest(&one, &other, &ANOTHER));
            let pair = Pair { first: &one, second: &other };
            pair.same("index and rest with others behind", (again, rest), (asked.0, (one.as_ptr_range().end, 0)));
        }
        nothing_kept(test, &mut first, &mut second, at);
    }
}

/// Two logs that were asked about and differ at an index are asked about again where they lie: with an earlier difference, then with none.
fn nothing_kept(test: &mut Test, first: &mut [u16], second: &mut [u16], at: usize) {
    let (earlier, shorter) = (test.rng.below(at + 1), first.len().min(second.len()));
    first[earlier] = changed(&mut test.rng, second[earlier]);
    same("index with an earlier difference", &[], test.beside(PLAIN, first, second), earlier);
    first[..shorter].copy_from_slice(&second[..shorter]);
    same("index with no difference", &[], test.beside(PLAIN, first, second), shorter);
}

type RunFunction = fn(&[u8], &[u8], &mut [u16]) -> Result<Run, library::Refusal>;

/// The log that the library writes of a run on an accepted sheet or chart.
fn written(run: RunFunction, bytes: &[u8], actions: &[u8]) -> Vec<u16> {
    let mut entries = vec![0; run_room(actions.len())];
    let ran = run(bytes, actions, &mut entries).map(|run| run.entries);
    same("entries of a run", bytes, ran, Ok(entries.len()));
    entries
}

/// Logs of runs on a sheet and on its chart: of the same actions, of the first of them, and with one action changed.
fn runs(test: &mut Test, count: usize) {
    for i in 0..count {
        let sheet = test.accepted_sheet(1 + (i % 2) as u8);
        let (mut chart, mut list) = ([0; LONGEST_CHART], [0; LONGEST_LIST]);
        let Ok(blocks) = library::make(&sheet, &mut chart, &mut list) else { continue };
        let (chart, count) = (&chart[..chart_length(blocks, sheet[6].into())], sheet[6]);
        let length = 1 + test.rng.below(40);
        let actions: Vec<u8> = (0..length).map(|_| test.rng.below(count.into()) as u8).collect();
        let whole = written(library::run_sheet, &sheet, &actions);
        let bench = written(library::run_chart, chart, &actions);
        same("a run on a sheet beside that on its chart", &sheet, test.logs(RUNS, &whole, &bench), length + 1);
        for at in [test.rng.below(length), length - 1] {
            let part = written(library::run_chart, chart, &actions[..at]);
            same("a run beside its beginning", &sheet, test.logs(RUNS, &whole, &part), at + 1);
            same("a beginning beside the run", &sheet, test.logs(RUNS, &part, &whole), at + 1);
            let mut other = actions.clone();
            other[at] = (other[at] + 1) % count;
            let strayed = written(library::run_chart, chart, &other);
            same("runs that part at an action", &sheet, test.logs(RUNS, &whole, &strayed) > at, true);
            same("runs that part, one cut", &sheet, test.logs(RUNS, &whole[..at + 2], &strayed) > at, true);
            same("runs that part, the other cut", &sheet, test.logs(RUNS, &whole, &strayed[..at + 2]) > at, true);
        }
    }
}

pub fn test(test: &mut Test, count: usize) {
    known(test);
    short(test);
    beginnings(test);
    one_buffer(test, count / 4);
    long(test);
    no_influence(test, count / 4);
    runs(test, count / 10);
}
