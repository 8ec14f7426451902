//! The two versions of the sheet. A version 1 sheet that is written as version 2 is answered alike: the same chart, the same boxes with wider
//! bounds, the same runs, refusals at the places of version 2. What version 2 alone has is tried at its limits, and one beyond.

use crate::generate::{cross, encode, form, form_of, one_counter, put32, range, region};
use crate::hard;
use crate::library::{self, bound_size, run_sheet, LONGEST_CHART, LONGEST_LIST};
use crate::sheets::{self, Made, Move, Refusal, Region, Rule, Sheet};
use crate::{plain, same, Test};

const FULL: (i64, i64) = range(2);
const LIMIT: i64 = FULL.1;
const OFFSET_LIMIT: i64 = 200_000_000;

/// 1,048,576 values, a power of two: those of two counters are none by the lower 32 bits of their number.
const POWER: (i64, i64) = (-524_288, 524_287);

/// A version 1 sheet that passes refusals 1 to 4, written as version 2.
pub fn widened(bytes: &[u8]) -> Option<Vec<u8>> {
    let sheet = sheets::read(bytes).ok()?;
    (sheet.version == 1).then(|| encode(&Sheet { version: 2, ..sheet }))
}

/// Where version 2 has what a refusal from 5 on returns the place of: start state, region or move record.
fn moved(narrow: &[u8], place: usize) -> usize {
    let (old, new) = (form_of(narrow), form(2, narrow[5] as usize, narrow[6] as usize));
    if place < old.first {
        return place;
    }
    let (i, within) = ((place - old.first) / old.region, (place - old.first) % old.region);
    new.first + i * new.region + if within == 0 { 0 } else { within + new.moves - old.moves }
}

/// The records of a box list: states and bounds.
fn records(list: &[u8], version: u8, blocks: usize, counters: usize) -> Vec<(u8, Vec<i64>)> {
    let size = bound_size(version);
    let bound = |b: &[u8]| match b {
        [a, b] => i64::from(i16::from_le_bytes([*a, *b])),
        _ => i64::from(i32::from_le_bytes([b[0], b[1], b[2], b[3]])),
    };
    let record = |r: &[u8]| (r[0], r[1..].chunks(size).map(bound).collect());
    list.chunks(1 + 2 * size * counters).take(blocks).map(record).collect()
}

/// What the library makes of a sheet in buffers that suffice.
fn made(sheet: &[u8]) -> (Result<usize, Refusal>, Vec<u8>, Vec<u8>) {
    let (mut chart, mut list) = (vec![0; LONGEST_CHART], vec![0; LONGEST_LIST]);
    (library::make(sheet, &mut chart, &mut list).map_err(plain), chart, list)
}

/// The number of the refusal of a version 2 sheet, and of refusal 4 the kind of field that it has the place of.
pub fn refused_field(bytes: &[u8], refusal: Refusal) -> String {
    match refusal.number {
        4 => format!("4 at {}", field(bytes, refusal.returned)),
        number => number.to_string(),
    }
}

fn field(bytes: &[u8], place: usize) -> &'static str {
    let form = form_of(bytes);
    if place < form.first {
        return "start value";
    }
    let within = (place - form.first) % form.region;
    let at = place - within + 3;
    let value = |k: usize| i32::from_le_bytes([0, 1, 2, 3].map(|i| bytes[at + 4 * k + i]));
    match within {
        0 => "label",
        _ if within < form.moves && (within - 3) % 8 == 0 => "low",
        _ if within < form.moves && i64::from(value((within - 3) / 4)).abs() > LIMIT => "high",
        _ if within < form.moves => "high below low",
        _ => match (within - form.moves) % form.move_size {
            0 => "kind of a move",
            1 => "target",
            k => ["kind", "source", "factor", "offset"][(k - 2) % 7],
        },
    }
}

/// What an accepted sheet has that version 1 cannot have.
pub fn used(sheet: &Sheet) -> Vec<&'static str> {
    let ends = || sheet.regions.iter().flat_map(|r| r.bounds.iter()).flat_map(|(low, high)| [*low, *high]);
    let rules = sheet.regions.iter().flat_map(|r| &r.moves).flat_map(|(_, m)| m).flat_map(|m| &m.rules);
    let mut offsets = rules.map(|rule| match rule {
        Rule::Set(offset) | Rule::Carry { offset, .. } => offset.abs(),
    });
    let has = [
        (ends().any(|end| !(-32_768..=32_767).contains(&end)), USED[0]),
        (ends().any(|end| end == -LIMIT), USED[1]),
        (ends().any(|end| end == LIMIT), USED[2]),
        (offsets.any(|offset| offset > 4_000_000), USED[3]),
    ];
    has.into_iter().filter(|(test, _)| *test).map(|(_, what)| what).collect()
}

const USED: [&str; 4] = [
    "sheet: accepted, bounds past 16 bits",
    "sheet: accepted, a bound of -1,000,000",
    "sheet: accepted, a bound of 1,000,000",
    "sheet: accepted, offsets past 4,000,000",
];

/// What must have come of version 2.
pub fn kinds() -> Vec<String> {
    let numbers = ["2", "3", "5", "6", "7", "8"].map(String::from);
    let fields = [
        "start value",
        "label",
        "low",
        "high",
        "high below low",
        "kind of a move",
        "target",
        "kind",
        "source",
        "factor",
        "offset",
    ];
    let refused = numbers.into_iter().chain(fields.map(|field| format!("4 at {field}")));
    let refused = refused.map(|what| format!("sheet of version 2: refused {what}"));
    let others =
        ["charted in both versions alike", "read as version 1: refused by the check", "read as version 2: refused by the check"];
    refused.chain(USED.into_iter().chain(others).map(String::from)).collect()
}

impl Test {
    /// The library on a version 1 sheet and on the same sheet in version 2.
    pub fn both(&mut self, narrow: &[u8], wide: &[u8]) {
        let (number, returned) = self.check("sheet", narrow);
        let place = if number == 0 { 0 } else { moved(narrow, returned) };
        same("check of the sheet in version 2", wide, self.check("sheet", wide), (number, place));
        let ((old, old_chart, old_list), (new, new_chart, new_list)) = (made(narrow), made(wide));
        let number = |answer: &Result<usize, Refusal>| answer.map_err(|refusal| refusal.number);
        same("make of the sheet in version 2", wide, number(&new), number(&old));
        same("chart of the sheet in version 2", wide, new_chart, old_chart);
        let Ok(blocks) = new else { return };
        let boxes = |list: &[u8], version: u8| records(list, version, blocks, wide[5] as usize);
        same("boxes of the sheet in version 2", wide, boxes(&new_list, 2), boxes(&old_list, 1));
        let actions: Vec<u8> = (0..20).map(|_| self.rng.below(wide[6] as usize) as u8).collect();
        let (mut old, mut new) = ([0; 21], [0; 21]);
        let ran = run_sheet(narrow, &actions, &mut old);
        same("run on the sheet in version 2", wide, run_sheet(wide, &actions, &mut new), ran);
        same("entries of the sheet in version 2", wide, new, old);
        self.count("charted in both versions alike");
    }

    /// A sheet too large to be listed, whose answer is known.
    fn known(&mut self, what: &str, bytes: &[u8], expected: &Result<Made, Refusal>) {
        let checked = match expected {
            Err(Refusal { number: 9, .. }) | Ok(_) => (0, 0),
            Err(refusal) => (refusal.number, refusal.returned),
        };
        same(what, bytes, self.check("sheet", bytes), checked);
        let rooms = expected.as_ref().map_or([(0, 0), (LONGEST_CHART, LONGEST_LIST)], |made| {
            let (chart, list) = (made.chart.len(), made.list.len());
            [(chart, list), (chart, list - 1)]
        });
        rooms.into_iter().for_each(|(chart, list)| self.make(bytes, expected, chart, list));
        self.count(format!("known: {what}"));
    }
}

fn carry(source: usize, factor: i64, offset: i64) -> Rule {
    Rule::Carry { source, factor, offset }
}

/// A chart of one action, and its box list in version 2: of each block label, target and the box in state 0.
fn one_action(blocks: &[(u8, u8, &[(i64, i64)])]) -> Made {
    let (mut chart, mut list) = (vec![b'B', b'C', b'H', 1, 0, 1, blocks.len() as u8], Vec::new());
    for (label, target, ranges) in blocks {
        chart.extend([*label, 0, *target]);
        list.push(0);
        let ends = ranges.iter().flat_map(|(low, high)| [*low, *high]);
        list.extend(ends.flat_map(|end| (end as i32).to_le_bytes()));
    }
    Made { chart, list, blocks: blocks.len() }
}

/// A region of three counters and one action in state 0: label, ranges, and the rules if the action is open.
type Row = (u16, [(i64, i64); 3], Option<[Rule; 3]>);

/// A version 2 sheet of such regions.
fn three_counters(start: [i64; 3], rows: Vec<Row>) -> Vec<u8> {
    let open = |rules: [Rule; 3]| Move { target: 0, rules: rules.into() };
    let at = |(label, ranges, rules): Row| region(label, 0, ranges.into(), vec![rules.map(open)]);
    let regions: Vec<Region> = rows.into_iter().map(at).collect();
    encode(&Sheet { version: 2, counters: 3, actions: 1, start: (0, start.into()), regions })
}

/// The place of a region's first move in a version 2 sheet of three counters and one action.
fn first_move(i: usize) -> usize {
    let form = form(2, 3, 1);
    form.first + i * form.region + form.moves
}

/// One region of one range in each counter. By a turn, and by a turn that mirrors, each value of a counter comes from one of another, so
/// everything lands, and all read alike: one block. With one offset more or less a value of one counter leads out, with all of the others:
/// refusal 8.
fn one_region(test: &mut Test, range: (i64, i64)) {
    let turn = |factor: i64, offsets: [i64; 3]| [0, 1, 2].map(|v| carry((v + 1) % 3, factor, offsets[v]));
    let sheet = |factor, offsets| three_counters([range.0, range.1, 0], vec![(7, [range; 3], Some(turn(factor, offsets)))]);
    for (factor, offset) in [(1, 0), (-1, range.0 + range.1)] {
        test.known("three wide ranges", &sheet(factor, [offset; 3]), &Ok(one_action(&[(7, 0, &[range; 3])])));
        for (v, step) in [(0, 1), (0, -1), (1, 1), (1, -1), (2, 1), (2, -1)] {
            let mut offsets = [offset; 3];
            offsets[v] += step;
            let refused = Err(Refusal { number: 8, returned: first_move(0) });
            test.known("three wide ranges, shifted by one", &sheet(factor, offsets), &refused);
        }
    }
}

/// All values of three counters but the corner where each is 1,000,000, in three regions; the first, where counter 0 is below, goes to -x. Of its
/// 2,000,000 x 2,000,001 x 2,000,001 configurations only the lowest corner then leads out. With the corner as a fourth region that one goes there,
/// and is alone in that: two blocks.
fn corner(test: &mut Test) {
    let (below, top) = ((-LIMIT, LIMIT - 1), (LIMIT, LIMIT));
    let mirror = || Some([0, 1, 2].map(|v| carry(v, -1, 0)));
    let most = || vec![(1, [below, FULL, FULL], mirror()), (2, [top, below, FULL], None), (3, [top, top, below], None)];
    let start = [-LIMIT; 3];
    let refused = Err(Refusal { number: 8, returned: first_move(0) });
    test.known("one configuration leads out", &three_counters(start, most()), &refused);
    let whole = most().into_iter().chain([(4, [top; 3], None)]).collect();
    let blocks = one_action(&[(1, 1, &[(-LIMIT, -LIMIT); 3]), (4, 255, &[top; 3])]);
    test.known("every configuration lands", &three_counters(start, whole), &Ok(blocks));
}

/// Two regions, counter 0 below 0 or not, and a turn of the counters: the sign of each is told, and from - + + there are three blocks. Where
/// counter 0 has no region for 0, the first region leads there from 0 in counter 1.
fn halves(test: &mut Test) {
    let (below, above) = ((-LIMIT, -1), (0, LIMIT));
    let turn = || Some([1, 2, 0].map(|source| carry(source, 1, 0)));
    let sheet = |start, other| three_counters(start, vec![(1, [below, FULL, FULL], turn()), (2, [other, FULL, FULL], turn())]);
    let blocks = one_action(&[(1, 1, &[below, above, above]), (2, 2, &[above, above, below]), (2, 0, &[above, below, above])]);
    test.known("halves of three full ranges", &sheet([-1, 0, LIMIT], above), &Ok(blocks));
    let refused = Err(Refusal { number: 8, returned: first_move(0) });
    test.known("halves with a hole", &sheet([-1, 1, 1], (1, LIMIT)), &refused);
}

/// A ring whose counter is multiplied once a lap: from 0 only 0 is reached, and any other value of a place leaves the range after some laps, however
/// wide it is. So the chart is that of a narrow range, which can be listed, and so are the boxes but that of the last place, which has all values.
fn doubling(test: &mut Test, end: i64, factor: i64, mirrored: bool) {
    let small = hard::doubling(end, factor.abs(), factor, mirrored);
    let listed = sheets::make(&small).expect("a chart");
    let mut list = Vec::new();
    for (state, bounds) in records(&listed.list, 1, listed.blocks, 2) {
        list.push(state);
        let whole = bounds[2..] == [-factor.abs(), factor.abs()];
        let wide = if whole { [bounds[0], bounds[1], -LIMIT, LIMIT] } else { [bounds[0], bounds[1], bounds[2], bounds[3]] };
        list.extend(wide.into_iter().flat_map(|bound| (bound as i32).to_le_bytes()));
    }
    let wide = encode(&Sheet { version: 2, ..hard::doubling(end, LIMIT, factor, mirrored) });
    test.known("doubling over the full range", &wide, &Ok(Made { list, ..listed }));
}

/// Sheets that work the refinement hard, over full ranges. Counters that are raised by one until they are at 1,000,000 tell more than 255 values.
fn hard_sheets(test: &mut Test) {
    for (end, factor, mirrored) in [(1, 2, false), (20, -2, true), (60, 3, false), (250, 2, false), (250, -2, true)] {
        doubling(test, end, factor, mirrored);
    }
    let refused = Err(Refusal { number: 9, returned: 0 });
    let twin = Sheet { version: 2, ..hard::twin(126, FULL, &[(1, 37), (2, 56)]) };
    test.known("twin over the full range", &encode(&twin), &refused);
    let hub = Sheet { version: 2, ..hard::hub(40, FULL, FULL, 2) };
    test.known("hub over the full range", &encode(&hub), &refused);
}

/// Every field of a version 2 sheet that has a limit, as its place and its limit; a label has none below 65,535.
fn limited(bytes: &[u8]) -> Vec<(usize, i64)> {
    let (form, counters, actions, regions) = (form_of(bytes), bytes[5] as usize, bytes[6] as usize, bytes[7] as usize);
    let mut all: Vec<(usize, i64)> = (0..counters).map(|v| (9 + 4 * v, LIMIT)).collect();
    for at in (0..regions).map(|i| form.first + i * form.region) {
        all.extend((0..2 * counters).map(|k| (at + 3 + 4 * k, LIMIT)));
        let rules = (0..actions * counters).map(|k| at + form.moves + k / counters * form.move_size + 2 + 7 * (k % counters));
        all.extend(rules.map(|rule| (rule + 3, OFFSET_LIMIT)));
    }
    all
}

/// Refusal 4 of an accepted version 2 sheet in which a field, or two, is one beyond its limit: at the earlier of the two. With a field at its limit
/// the independent implementation says what comes.
fn beyond(test: &mut Test, bytes: &[u8]) {
    let fields = limited(bytes);
    for (at, limit) in &fields {
        for sign in [1, -1] {
            let (mut one, mut both, mut at_limit) = (bytes.to_vec(), bytes.to_vec(), bytes.to_vec());
            put32(&mut one, *at, sign * (limit + 1));
            same("a field beyond its limit", &one, test.check("sheet", &one), (4, *at));
            let (other, other_limit) = test.rng.pick(&fields);
            put32(&mut both, other, other_limit + 1);
            put32(&mut both, *at, sign * (limit + 1));
            same("two fields beyond their limits", &both, test.check("sheet", &both), (4, other.min(*at)));
            put32(&mut at_limit, *at, sign * limit);
            let tried = if test.rng.one_in(8) { one } else { at_limit };
            test.sheet(&tried);
        }
    }
}

/// The faults that are no number's limit, beside one that is: low above high and the label 65,535.
fn beside(test: &mut Test, bytes: &[u8]) {
    let form = form_of(bytes);
    let fields = limited(bytes);
    for at in (0..bytes[7] as usize).map(|i| form.first + i * form.region) {
        let (mut crossed, mut labelled) = (bytes.to_vec(), bytes.to_vec());
        let high = cross(&mut crossed, at);
        labelled[at..at + 2].fill(255);
        for (mut changed, place) in [(crossed, high), (labelled, at)] {
            same("low above high, or label 65,535", &changed, test.check("sheet", &changed), (4, place));
            let (other, limit) = test.rng.pick(&fields);
            put32(&mut changed, other, -limit - 1);
            // the other field may be low or high of the crossed range, and is then refused for itself, at its own place
            same("the same and a limit", &changed, test.check("sheet", &changed), (4, place.min(other)));
        }
    }
}

/// Version bytes that no version has; those of the other version, which asks for another length; and the same with that length, where the bytes
/// mean something else.
fn version_bytes(test: &mut Test, bytes: &[u8]) {
    for version in [[0, 0], [3, 0], [255, 0], [1, 1], [2, 1], [1, 255], [2, 2], [0, 1], [0, 2]] {
        let mut changed = bytes.to_vec();
        changed[3..5].copy_from_slice(&version);
        same("version bytes", &changed, test.check("sheet", &changed), (1, 0));
        test.sheet(&changed);
    }
    let mut other = bytes.to_vec();
    other[3] = 3 - bytes[3];
    same("the other version", &other, test.check("sheet", &other), (3, bytes.len()));
    let form = form_of(&other);
    other.resize(form.first + other[7] as usize * form.region, 0);
    let came = test.sheet(&other);
    test.count(format!("read as version {}: {came}", other[3]));
}

/// An offset of 4,000,001, which version 1 refuses, and its like below 0: where by factor 100 they take an end of version 1's range.
fn past_version_1(test: &mut Test) {
    for (from, offset, to) in [(-32_768, 4_000_001, 723_201), (32_767, -4_000_001, -723_301)] {
        let sheet = |version: u8, to: i64| one_counter(version, from, &[(from, from, Some((100, offset))), (to, to, None)]);
        let narrow = sheet(1, 0);
        same("offset 4,000,001 in version 1", &narrow, test.check("sheet", &narrow), (4, 23));
        test.sheet(&narrow);
        let blocks = one_action(&[(10, 1, &[(from, from)]), (20, 255, &[(to, to)])]);
        test.known("offset 4,000,001 in version 2", &sheet(2, to), &Ok(blocks));
        test.sheet(&sheet(2, to));
    }
}

pub fn test(test: &mut Test, count: usize) {
    one_region(test, FULL);
    one_region(test, POWER);
    corner(test);
    halves(test);
    hard_sheets(test);
    past_version_1(test);
    for i in 0..count {
        let bytes = test.accepted_sheet(1 + (i % 2) as u8);
        version_bytes(test, &bytes);
    }
    for _ in 0..count / 4 {
        let bytes = test.accepted_sheet(2);
        if bytes.len() < 800 {
            beyond(test, &bytes);
            beside(test, &bytes);
        }
    }
}
