//! Holds the static library to an independent implementation that lists every configuration, on random sheets and charts of every kind,
//! its ways to blocks to all sequences in order, where two charts part to a search over all pairs of blocks, its set-points to a search, its
//! counts for counters that go round to lists of what increments reach, and its answers about two logs to a comparison in full. Both are held to
//! answers at extremes that are written down. It stops at the first difference, with the bytes in hexadecimal, and fails if some kind of answer
//! never came.

mod charts;
mod depth;
mod generate;
mod go_round;
mod hard;
mod known;
mod library;
mod logs;
mod machines;
mod part;
mod partition;
mod random;
mod rows;
mod set_point;
mod sheets;
mod versions;
mod way;
mod wrapper;

use charts::Chart;
use library::raw;
use random::Random;
use sheets::{Made, Reading, Refusal, Sheet, SKIPPED};
use std::collections::BTreeMap;
use std::process::exit;

/// Above so many configurations a damaged sheet is compared no further than refusals 1 to 7.
const MOST_CONFIGURATIONS: u64 = 200_000;

struct Test {
    rng: Random,
    kinds: BTreeMap<String, usize>,
}

fn hex(bytes: &[u8]) -> String {
    bytes.iter().map(|b| format!("{b:02X}")).collect::<Vec<_>>().join(" ")
}

/// Stops where the two are not the same.
fn same<T: PartialEq + std::fmt::Debug>(what: &str, bytes: &[u8], library: T, expected: T) {
    if library != expected {
        println!("differs: {what}\nlibrary  {library:?}\nexpected {expected:?}\nbytes {}", hex(bytes));
        exit(1);
    }
}

/// An answer as C sees it: 0 and a value, or a refusal.
fn told(answer: Result<usize, Refusal>) -> (u8, usize) {
    answer.map_or_else(|r| (r.number, r.returned), |value| (0, value))
}

/// A number from 0 to `most`, in a few words.
fn range(number: usize, most: usize) -> String {
    match number {
        0..=2 => number.to_string(),
        3..=5 => "3 to 5".into(),
        6..=50 => "6 to 50".into(),
        _ if number < most => format!("51 to {}", most - 1),
        _ => most.to_string(),
    }
}

/// A refusal of the safe functions, to be compared with one of the independent implementation.
fn plain(refusal: library::Refusal) -> Refusal {
    Refusal { number: refusal.number, returned: refusal.returned }
}

/// What a run met, in a few words.
fn course(reading: &Reading) -> &'static str {
    let Some(first) = reading.barred else { return "nothing barred" };
    let skipped = reading.entries.iter().filter(|e| **e == SKIPPED).count();
    match reading.entries.len() {
        4096.. if skipped >= 1000 && skipped < 4000 => "of some 4,096 actions, 1,000 or more barred",
        _ if reading.entries[first + 2..].iter().any(|e| *e != SKIPPED) => "barred, then moved on",
        _ => "barred to its end",
    }
}

impl Test {
    fn count(&mut self, kind: impl Into<String>) {
        *self.kinds.entry(kind.into()).or_default() += 1;
    }

    fn noise(&mut self) -> usize {
        self.rng.next() as usize
    }

    /// Zero, one short, exact, longer.
    fn lengths(&mut self, needed: usize) -> [usize; 4] {
        [0, needed.saturating_sub(1), needed, needed + 1 + self.rng.below(20)]
    }

    /// What the check of a sheet or a chart gives: the safe function says the same as C sees.
    fn check(&mut self, kind: &str, bytes: &[u8]) -> (u8, usize) {
        let raw_check = if kind == "sheet" { raw::check_sheet } else { raw::check_chart };
        let check = if kind == "sheet" { library::check_sheet } else { library::check_chart };
        let mut returned = self.noise();
        let number = raw_check(bytes, &mut returned);
        same(&format!("safe check of a {kind}"), bytes, told(check(bytes).map(|()| 0).map_err(plain)), (number, returned));
        (number, returned)
    }

    /// One making, as C calls it and by the safe function, in buffers of noise that go on behind their ends.
    fn make(&mut self, sheet: &[u8], expected: &Result<Made, Refusal>, chart_room: usize, list_room: usize) {
        let (chart, list) = (self.rng.bytes(chart_room + 40), self.rng.bytes(list_room + 40));
        let answer = match expected {
            Err(refusal) => Err(*refusal),
            Ok(made) if made.chart.len() > chart_room => Err(Refusal { number: 10, returned: made.chart.len() }),
            Ok(made) if made.list.len() > list_room => Err(Refusal { number: 10, returned: made.list.len() }),
            Ok(made) => Ok(made),
        };
        let (mut chart_left, mut list_left) = (chart.clone(), list.clone());
        if let Ok(made) = answer {
            chart_left[..made.chart.len()].copy_from_slice(&made.chart);
            list_left[..made.list.len()].copy_from_slice(&made.list);
        }
        let short = matches!(expected, Ok(made) if made.chart.len() > chart_room);
        match answer {
            Ok(_) => self.count("make: done"),
            Err(Refusal { number: 10, .. }) if short => self.count("make: refused 10 for the chart"),
            Err(Refusal { number: 10, .. }) => self.count("make: refused 10 for the list"),
            Err(refusal) => self.count(format!("make: refused {}", refusal.number)),
        }
        let (mut raw_chart, mut raw_list, mut returned) = (chart.clone(), list.clone(), self.noise());
        let number = raw::make(sheet, &mut raw_chart[..chart_room], &mut raw_list[..list_room], &mut returned);
        let (mut chart, mut list) = (chart, list);
        let safe = library::make(sheet, &mut chart[..chart_room], &mut list[..list_room]);
        let answer = answer.map(|made| made.blocks);
        same("answer of make", sheet, (number, returned), told(answer));
        same("answer of the safe make", sheet, safe.map_err(plain), answer);
        for (chart, list) in [(raw_chart, raw_list), (chart, list)] {
            same("chart", sheet, &chart, &chart_left);
            same("box list", sheet, &list, &list_left);
        }
    }

    /// One run, on a sheet or a chart, as C calls it and by the safe function, in a buffer of noise that goes on behind its end.
    fn run(&mut self, kind: &str, bytes: &[u8], actions: &[u8], room: usize, expected: &Result<Reading, Refusal>) {
        let noise: Vec<u16> = (0..room + 10).map(|_| self.rng.next() as u16).collect();
        let (mut left, mut barred_left) = (noise.clone(), self.noise());
        let (mut raw_entries, mut barred, mut returned) = (noise.clone(), barred_left, self.noise());
        if let Ok(reading) = expected {
            left[..reading.entries.len()].copy_from_slice(&reading.entries);
            barred_left = reading.barred.unwrap_or(actions.len());
        }
        let raw_run = if kind == "sheet" { raw::run_sheet } else { raw::run_chart };
        let number = raw_run(bytes, actions, &mut raw_entries[..room], &mut returned, &mut barred);
        let what = format!("run on a {kind}, room {room}, actions {}", hex(actions));
        same(&what, bytes, (number, returned), told(expected.as_ref().map(|_| actions.len() + 1).map_err(|r| *r)));
        same(&format!("barred index, {what}"), bytes, barred, barred_left);
        same(&format!("entries, {what}"), bytes, &raw_entries, &left);
        let run = if kind == "sheet" { library::run_sheet } else { library::run_chart };
        let mut entries = noise;
        let safe = run(bytes, actions, &mut entries[..room]).map(|run| (run.entries, run.barred)).map_err(plain);
        let ran = expected.as_ref().map(|reading| (actions.len() + 1, reading.barred)).map_err(|refusal| *refusal);
        same(&format!("safe {what}"), bytes, safe, ran);
        same(&format!("entries, safe {what}"), bytes, &entries, &left);
    }

    /// A sequence of actions, most of them below the number of actions.
    fn sequence(&mut self, count: usize) -> Vec<u8> {
        let length = match self.rng.below(60) {
            0 => self.rng.pick(&[4095, 4096, 4097, 5000]),
            _ => self.rng.below(14),
        };
        let mut actions: Vec<u8> = (0..length).map(|_| self.rng.below(count) as u8).collect();
        if length > 0 && self.rng.one_in(6) {
            let at = self.rng.below(length);
            actions[at] = self.rng.pick(&[count as u8, 255]);
        }
        actions
    }

    /// Runs of an accepted sheet, on it and on its chart, if it has one; or of an accepted chart alone.
    fn runs(&mut self, on: &[(&str, &[u8])], count: usize, read: impl Fn(&[u8]) -> Reading) {
        for _ in 0..4 {
            let actions = self.sequence(count);
            for room in self.lengths(actions.len() + 1) {
                let expected = sheets::check_run(&actions, count, room).map(|()| read(&actions));
                for (kind, bytes) in on {
                    self.run(kind, bytes, &actions, room, &expected);
                    self.count(match &expected {
                        Ok(reading) => format!("run on a {kind}: {}", course(reading)),
                        Err(refusal) => format!("run on a {kind}: refused {}", refusal.number),
                    });
                }
            }
        }
    }

    /// A run of what is refused: whatever else is wrong, that refusal comes first.
    fn run_refused(&mut self, kind: &str, bytes: &[u8], refusal: Refusal) {
        let (actions, room) = (self.sequence(9), self.rng.below(20));
        self.run(kind, bytes, &actions, room, &Err(refusal));
        self.count(format!("run on a refused {kind}: refused {}", refusal.number));
    }

    /// Check, chart, box list and runs of any bytes, taken for a sheet; of a version 1 sheet those of the same sheet in version 2 too, if it
    /// passes refusals 1 to 4. How far that came, in a word.
    fn sheet(&mut self, bytes: &[u8]) -> &'static str {
        let came = self.sheet_alone(bytes);
        if let Some(wide) = versions::widened(bytes) {
            self.both(bytes, &wide);
            same("how far the sheet in version 2 came", &wide, self.sheet_alone(&wide), came);
        }
        came
    }

    fn sheet_alone(&mut self, bytes: &[u8]) -> &'static str {
        let (number, returned) = self.check("sheet", bytes);
        let read = sheets::check_but_landing(bytes);
        if read.as_ref().is_ok_and(|s| sheets::configurations(s) > MOST_CONFIGURATIONS) {
            same("refusals 1 to 7", bytes, number == 0 || number == 8, true);
            self.count("skipped but for refusals 1 to 7: too many configurations");
            return "skipped";
        }
        let checked = read.and_then(|s| sheets::check_landing(&s).map(|()| s));
        same("check of a sheet", bytes, (number, returned), told(checked.as_ref().map(|_| 0).map_err(|r| *r)));
        match checked {
            Ok(sheet) => self.accepted(bytes, &sheet),
            Err(refusal) => {
                self.count(format!("sheet: refused {}", refusal.number));
                if refusal.number > 1 && bytes[3] == 2 {
                    self.count(format!("sheet of version 2: refused {}", versions::refused_field(bytes, refusal)));
                }
                let (chart_room, list_room) = (self.rng.below(60), self.rng.below(60));
                self.make(bytes, &Err(refusal), chart_room, list_room);
                self.run_refused("sheet", bytes, refusal);
                self.way_refused(bytes, refusal);
                "refused by the check"
            }
        }
    }

    fn accepted(&mut self, bytes: &[u8], sheet: &Sheet) -> &'static str {
        self.count(format!("sheet: accepted, counters {}", sheet.counters));
        versions::used(sheet).into_iter().for_each(|what| self.count(what));
        let read = |actions: &[u8]| sheets::reading(sheet, actions);
        let (expected, ways) = match sheets::make_with_ways(sheet) {
            Ok((made, ways)) => (Ok(made), ways),
            Err(refusal) => (Err(refusal), Vec::new()),
        };
        let Ok(made) = &expected else {
            self.make(bytes, &expected, 3000, 7000);
            self.make(bytes, &expected, 0, 0);
            self.runs(&[("sheet", bytes)], sheet.actions, read);
            self.way_refused(bytes, Refusal { number: 9, returned: 0 });
            return "refused 9";
        };
        self.count(match made.blocks {
            1 => "chart of 1 block",
            2..=4 => "chart of 2 to 4 blocks",
            5..=254 => "chart of 5 to 254 blocks",
            _ => "chart of 255 blocks",
        });
        for chart_room in self.lengths(made.chart.len()) {
            for list_room in self.lengths(made.list.len()) {
                self.make(bytes, &expected, chart_room, list_room);
            }
        }
        wrapper::lengths(bytes, sheet, made.blocks);
        let checked = self.checked_chart(&made.chart);
        same("check of the chart made", bytes, checked.map(|_| ()), Ok(()));
        self.runs(&[("sheet", bytes), ("chart", &made.chart)], sheet.actions, read);
        self.ways(bytes, sheet, made, &ways);
        "charted"
    }

    /// Check and settling depth of any bytes, taken for a chart.
    fn checked_chart(&mut self, bytes: &[u8]) -> Result<Chart, Refusal> {
        let checked = charts::check(bytes);
        let told_check = self.check("chart", bytes);
        same("check of a chart", bytes, told_check, told(checked.as_ref().map(|_| 0).map_err(|r| *r)));
        self.depth(bytes, &checked);
        checked
    }

    /// Check, settling depth and runs of any bytes, taken for a chart.
    fn chart(&mut self, bytes: &[u8]) {
        match self.checked_chart(bytes) {
            Ok(chart) => {
                self.count("chart: accepted");
                self.runs(&[("chart", bytes)], chart.actions, |actions| charts::reading(&chart, actions));
            }
            Err(refusal) => {
                let record = 2 + usize::from(bytes.get(5).copied().unwrap_or(0));
                let of = match refusal.number {
                    12 if (refusal.returned - 7) % record == 0 => " at a record",
                    12 => " at a target",
                    _ => "",
                };
                self.count(format!("chart: refused {}{of}", refusal.number));
                self.run_refused("chart", bytes, refusal);
            }
        }
    }

    /// An accepted sheet, its bytes.
    fn accepted_sheet(&mut self, version: u8) -> Vec<u8> {
        loop {
            let bytes = generate::encode(&generate::sheet(&mut self.rng, version));
            if sheets::check_but_landing(&bytes).is_ok_and(|s| sheets::check_landing(&s).is_ok()) {
                return bytes;
            }
        }
    }
}

/// The sample sheet's chart, and the answers that document 01 names, with the places of the version: the independent implementation is held to
/// them too.
fn named(test: &mut Test, version: u8) {
    let one_counter = |start, regions: &[_]| generate::one_counter(version, start, regions);
    let doubled = |start, offset, low| one_counter(start, &[(0, 7, Some((2, offset))), (low, 15, None)]);
    let counted = |start, last| one_counter(start, &[(0, last - 1, Some((1, 1))), (last, last, None)]);
    let refused = |number, returned| Err(Refusal { number, returned });
    let (first_move, second_region) = if version == 1 { (18, 27) } else { (24, 33) };
    let cases = [
        (doubled(2, 1, 8), Ok(3)),
        (doubled(2, 2, 8), refused(8, first_move)),
        (doubled(2, 1, 7), refused(6, second_region)),
        (doubled(16, 1, 8), refused(7, 8)),
        (one_counter(2, &[(-8, 7, Some((-1, -1)))]), Ok(1)),
        (one_counter(0, &[(0, 1000, Some((2, 0))), (1001, 2000, None)]), Ok(1)),
        (counted(0, 254), Ok(255)),
        (counted(0, 255), refused(9, 0)),
        (counted(1, 255), Ok(255)),
    ];
    for (bytes, expected) in &cases {
        let made = sheets::check_but_landing(bytes).and_then(|s| sheets::make(&s));
        same("the independent implementation", bytes, made.as_ref().map(|m| m.blocks).map_err(|r| *r), *expected);
        test.sheet(bytes);
    }
    let sample = sheets::check_but_landing(&cases[0].0).and_then(|s| sheets::make(&s));
    let chart = sample.map(|made| hex(&made.chart));
    same("the sample sheet's chart", &cases[0].0, chart, Ok("42 43 48 01 00 01 03 0A 00 01 0A 00 02 14 00 FF".into()));
}

/// Where the records of a sheet or a chart stand: the place of the first, how long one is, how many there are.
struct Records {
    first: usize,
    size: usize,
    count: usize,
}

/// Bytes, and the number and place of the refusal that document 01's table gives them.
type Refused = (Vec<u8>, u8, usize);

/// The label 65,535 in the first and in the last record: alone, beside faults of other numbers, with a fault of refusal 4 behind it and, for the
/// last record, before it. `spoil` makes such a fault behind the label of the record at a place, and says where.
fn skipped_labels(bytes: &[u8], records: &Records, spoil: impl Fn(&mut [u8], usize) -> usize) -> Vec<Refused> {
    let (first, last) = (records.first, records.first + (records.count - 1) * records.size);
    let labelled = |places: &[usize]| {
        let mut out = bytes.to_vec();
        places.iter().for_each(|at| out[*at..*at + 2].fill(255));
        out
    };
    let mut all = vec![(labelled(&[first, last]), 4, first)];
    for at in [first, last] {
        let (alone, mut version, mut long, mut behind) = (labelled(&[at]), labelled(&[at]), labelled(&[at]), labelled(&[at]));
        version[3] = 9;
        long.push(0);
        spoil(&mut behind, at);
        all.extend([(alone, 4, at), (version, 1, 0), (long, 3, bytes.len() + 1), (behind, 4, at)]);
    }
    if first < last {
        let mut before = labelled(&[last]);
        let place = spoil(&mut before, first);
        all.push((before, 4, place));
    }
    all
}

/// The same on accepted sheets and on their charts. The fault behind a label is low above high in a sheet, and in a chart a target that is no block.
fn refused_labels(test: &mut Test, count: usize) {
    for i in 0..count {
        let bytes = test.accepted_sheet(1 + (i % 2) as u8);
        let sheet = sheets::check_but_landing(&bytes).expect("accepted");
        let (form, actions) = (generate::form_of(&bytes), sheet.actions);
        let regions = Records { first: form.first, size: form.region, count: sheet.regions.len() };
        for (changed, number, returned) in skipped_labels(&bytes, &regions, generate::cross) {
            same("label 65,535 of a sheet", &changed, test.check("sheet", &changed), (number, returned));
            test.sheet(&changed);
            test.count("label 65,535 in a sheet");
        }
        let Ok(made) = sheets::make(&sheet) else { continue };
        if made.blocks > 254 {
            continue;
        }
        let aimless = |out: &mut [u8], at: usize| {
            let target = at + 1 + actions;
            out[target] = 254;
            target
        };
        for (changed, number, returned) in skipped_labels(&made.chart, &Records { first: 7, size: 2 + actions, count: made.blocks }, aimless) {
            same("label 65,535 of a chart", &changed, test.check("chart", &changed), (number, returned));
            test.chart(&changed);
            test.count("label 65,535 in a chart");
        }
    }
}

fn random_sheets(test: &mut Test, version: u8, count: usize) {
    for i in 0..count {
        let bytes = generate::encode(&generate::sheet(&mut test.rng, version));
        test.sheet(&bytes);
        let accepted = test.accepted_sheet(version);
        let damaged = generate::damaged(&mut test.rng, &accepted);
        test.sheet(&damaged);
        let refused = generate::refused(&mut test.rng, &accepted, 1 + (i % 8) as u8);
        test.sheet(&refused);
    }
}

/// The chart of an accepted sheet, damaged.
fn damaged_chart(test: &mut Test, accepted: &[u8]) {
    let sheet = sheets::check_but_landing(accepted).expect("accepted");
    if let Ok(made) = sheets::make(&sheet) {
        let damaged = generate::damaged(&mut test.rng, &made.chart);
        test.chart(&damaged);
    }
}

/// Sheets of about 255 blocks, and the charts of some of them, damaged.
fn grids(test: &mut Test, count: usize) {
    for i in 0..count {
        let grid = generate::encode(&generate::grid(&mut test.rng));
        test.sheet(&grid);
        if i % 4 == 0 {
            damaged_chart(test, &grid);
        }
    }
}

/// So many sheets of each of the kinds that are measured, with short ranges.
fn hard_sheets(test: &mut Test, count: usize) {
    for (kind, small) in hard::SMALL {
        for _ in 0..count {
            let bytes = generate::encode(&small(&mut test.rng));
            let came = test.sheet(&bytes);
            test.count(format!("{kind}: {came}"));
        }
    }
}

fn random_charts(test: &mut Test, count: usize) {
    for _ in 0..count {
        let bytes = generate::chart(&mut test.rng);
        test.chart(&bytes);
        let damaged = generate::damaged(&mut test.rng, &bytes);
        test.chart(&damaged);
        let accepted = test.accepted_sheet(1);
        damaged_chart(test, &accepted);
    }
}

/// Every kind of answer that must have come.
fn kinds() -> Vec<String> {
    let numbers = |what: &str, numbers: &[u8]| numbers.iter().map(|n| format!("{what}{n}")).collect::<Vec<_>>();
    let mut all = numbers("sheet: refused ", &[1, 2, 3, 4, 5, 6, 7, 8]);
    all.extend(numbers("sheet: accepted, counters ", &[1, 2, 3]));
    all.extend(numbers("make: refused ", &[1, 2, 3, 4, 5, 6, 7, 8, 9]));
    all.extend(numbers("chart: refused ", &[1, 2, 3, 4, 13, 14]));
    all.extend(numbers("run on a refused sheet: refused ", &[1, 2, 3, 4, 5, 6, 7, 8]));
    all.extend(numbers("run on a refused chart: refused ", &[1, 2, 3, 4, 12, 13, 14]));
    all.extend(numbers("run on a sheet: refused ", &[3, 10, 11]));
    all.extend(numbers("run on a chart: refused ", &[3, 10, 11]));
    all.extend(versions::kinds());
    all.extend(depth::kinds());
    all.extend(known::kinds());
    all.extend(way::kinds());
    all.extend(part::kinds());
    all.extend(set_point::kinds());
    all.extend(go_round::kinds());
    all.extend(logs::kinds());
    let hard = hard::SMALL.iter().flat_map(|(kind, _)| ["charted", "refused 9"].map(|came| format!("{kind}: {came}")));
    all.extend(hard);
    let others = [
        "make: done",
        "make: refused 10 for the chart",
        "make: refused 10 for the list",
        "chart of 1 block",
        "chart of 2 to 4 blocks",
        "chart of 5 to 254 blocks",
        "chart of 255 blocks",
        "chart: accepted",
        "chart: refused 12 at a record",
        "chart: refused 12 at a target",
        "label 65,535 in a sheet",
        "label 65,535 in a chart",
    ];
    all.extend(others.map(String::from));
    let courses = ["nothing barred", "barred to its end", "barred, then moved on", "of some 4,096 actions, 1,000 or more barred"];
    all.extend(courses.iter().flat_map(|course| ["sheet", "chart"].map(|kind| format!("run on a {kind}: {course}"))));
    all
}

/// Sheets: what each gives, and runs on them and on their charts.
fn test_sheets(test: &mut Test, count: usize) {
    wrapper::test();
    [1, 2].iter().for_each(|version| named(test, *version));
    known::test(test);
    refused_labels(test, count / 20);
    versions::test(test, count / 20);
    random_sheets(test, 1, count);
    random_sheets(test, 2, count / 2);
    grids(test, count / 40);
}

/// Charts of every kind, hard sheets, and what else is asked of charts, rules, counters and logs.
fn test_charts(test: &mut Test, count: usize) {
    random_charts(test, count);
    depth::test(test, count);
    hard_sheets(test, count / 60);
    way::test(test);
    part::test(test, count);
    set_point::test(test, count);
    go_round::test(test, count);
    logs::test(test, count);
}

/// Both halves at once, each with random numbers of its own: how often each kind of answer came.
fn test_both(count: usize, seed: u64) -> BTreeMap<String, usize> {
    let halves: [fn(&mut Test, usize); 2] = [test_sheets, test_charts];
    let begin = |(half, seed): (fn(&mut Test, usize), u64)| {
        std::thread::spawn(move || {
            let mut test = Test { rng: Random(seed), kinds: BTreeMap::new() };
            half(&mut test, count);
            test.kinds
        })
    };
    let begun: Vec<_> = halves.into_iter().zip(seed..).map(begin).collect();
    let mut all = BTreeMap::new();
    for half in begun {
        for (kind, times) in half.join().expect("a half that came to its end") {
            *all.entry(kind).or_insert(0) += times;
        }
    }
    all
}

fn main() {
    let numbers: Vec<u64> = std::env::args().skip(1).map(|a| a.parse().expect("a number")).collect();
    let [count, seed] = numbers[..] else { panic!("usage: library COUNT SEED") };
    let came = test_both(count as usize, seed);
    for (kind, times) in &came {
        println!("{times:8} {kind}");
    }
    let missing: Vec<String> = kinds().into_iter().filter(|k| !came.contains_key(k)).collect();
    if !missing.is_empty() {
        println!("never came: {}", missing.join("; "));
        exit(1);
    }
}
