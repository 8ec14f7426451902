//! What include/pilfstera.rs has of its own: the words of a refusal, the lengths and limits, and what a run, a way, two charts, a set-point and a
//! counter that goes round answer. Each is held to what the library answers, or to documents 01 and 02.

use crate::generate::{encode, one_counter, region};
use crate::library::{
    bound_size, chart_length, check_sheet, go_round, list_length, make, part, part_room, run_chart, run_room, run_sheet, set_point,
    way, way_room, Refusal, Run, SetPoint, CARRY, LEAST_MODULUS, LONGEST_CHART, LONGEST_LIST, LONGEST_PART, LONGEST_SEQUENCE,
    LONGEST_SHEET, LONGEST_WAY, MOST_ACTIONS, MOST_BLOCKS, MOST_COUNTERS, MOST_FACTOR, MOST_INCREMENTS, MOST_MODULUS, MOST_OFFSET,
    MOST_REGIONS, MOST_VALUE, SET, SKIPPED, VERSION_1_LONGEST_LIST, VERSION_1_LONGEST_SHEET,
};
use crate::rows;
use crate::same;
use crate::sheets::{self, Move, Rule, Sheet};
use std::collections::BTreeSet;
use std::error::Error;

fn refused<T>(number: u8, returned: usize) -> Result<T, Refusal> {
    Err(Refusal { number, returned })
}

/// Each refusal's number, and what its words must say of the reason and of the number returned, from document 01's table and, for 15, 16, 19 and
/// 22, document 02. No refusal has another number.
const WORDS: [(u8, &str, &str); 18] = [
    (1, "shorter than its header, or its mark or version", "no place"),
    (2, "count is outside its limits", "first such count stands there"),
    (3, "length differs from what the counts give, or is above 4,096 actions", "that is the actual length"),
    (4, "value that is not allowed", "first such field stands there"),
    (5, "label is repeated", "later label stands there"),
    (6, "regions share a configuration", "later region stands there"),
    (7, "start is in no region", "start state stands there"),
    (8, "open move leads out of all regions", "move record stands there"),
    (9, "more than 255 blocks", "no place"),
    (10, "buffer is too short", "that is the length needed"),
    (11, "lacks an action", "that is the index"),
    (12, "not numbered as first named", "target or record"),
    (13, "one label bar different actions", "later record stands there"),
    (14, "told apart by no sequence", "later record stands there"),
    (15, "no block of this number", "that is the number of blocks"),
    (16, "charts have different numbers of actions", "number of actions stands there"),
    (19, "no carry with allowed factor and offset, or the wanted value is beyond its bounds", "no place"),
    (22, "modulus, the number of increments, the start, an increment or the wanted value is outside its limits", "no place"),
];

/// The words behind a refusal's number and place.
fn words(number: u8) -> String {
    let refusal = Refusal { number, returned: 4321 };
    let text = refusal.to_string();
    let error: Box<dyn Error> = Box::new(refusal);
    same("a refusal as an error", &[number], error.to_string(), text.clone());
    let Some(rest) = text.strip_prefix(&format!("refused {number} at 4321: ")) else {
        panic!("refusal {number} begins otherwise: {text}");
    };
    rest.into()
}

fn refusals() {
    let mut seen = BTreeSet::new();
    for (number, wrong, told) in WORDS {
        let text = words(number);
        let says = text.split_once("; ").is_some_and(|(why, what)| why.contains(wrong) && what.contains(told));
        same(&format!("{wrong}; {told} in the words: {text}"), &[number], says, true);
        same("words that no earlier refusal has", &[number], seen.insert(text), true);
    }
    let unknown = words(0);
    same("words of a number that no refusal has", &[0], seen.contains(&unknown), false);
    let others = (0..=255).filter(|number| WORDS.iter().all(|(known, ..)| known != number));
    others.for_each(|number| same("words of an unknown number", &[number], words(number), unknown.clone()));
    let refusal = Refusal { number: 8, returned: 18 };
    let copied = refusal;
    same("a refusal and its copy", &[], refusal, copied);
    same("refusals of two numbers", &[], refusal == Refusal { number: 7, ..refusal }, false);
    same("refusals at two places", &[], refusal == Refusal { returned: 19, ..refusal }, false);
    same("a refusal for debugging", &[], format!("{refusal:?}"), "Refusal { number: 8, returned: 18 }".into());
}

/// The lengths of an accepted sheet's chart and box list are those that the library asks for.
pub fn lengths(bytes: &[u8], sheet: &Sheet, blocks: usize) {
    let (chart, list) = (chart_length(blocks, sheet.actions), list_length(sheet.version, blocks, sheet.counters));
    same("chart_length", bytes, make(bytes, &mut [], &mut []), refused(10, chart));
    same("list_length", bytes, make(bytes, &mut vec![0; chart], &mut []), refused(10, list));
    let block_0 = if blocks == 1 { Ok(0) } else { refused(10, way_room(blocks)) };
    same("way_room", bytes, way(bytes, 0, &mut []), block_0);
}

/// 32 regions along the first of 3 counters and 8 actions, the first of which adds one up to 254. The last region has the last value alone,
/// so every value is a block of its own.
fn longest(version: u8) -> Sheet {
    let carry = |source, offset| Rule::Carry { source, factor: 1, offset };
    let step = || Move { target: 0, rules: vec![carry(0, 1), carry(1, 0), carry(2, 0)] };
    let ends = |i: i64| match i {
        31 => (254, 254),
        30 => (240, 253),
        _ => (8 * i, 8 * i + 7),
    };
    let moves = |i: i64| (0..8).map(|a| (a == 0 && i < 31).then(step)).collect();
    let regions = (0..32).map(|i| region(i as u16, 0, vec![ends(i), (0, 0), (0, 0)], moves(i))).collect();
    Sheet { version, counters: 3, actions: 8, start: (0, vec![0; 3]), regions }
}

/// The constants are the library's limits: what is at the limit is done, and one more is refused. The longest are those of version 2.
fn limits(version: u8) {
    let (longest_sheet, longest_list) = match version {
        1 => (VERSION_1_LONGEST_SHEET, VERSION_1_LONGEST_LIST),
        _ => (LONGEST_SHEET, LONGEST_LIST),
    };
    let sheet = longest(version);
    let bytes = encode(&sheet);
    same("the longest sheet", &bytes, bytes.len(), longest_sheet);
    same("check of the longest sheet", &bytes, check_sheet(&bytes), Ok(()));
    same("LONGEST_CHART", &bytes, make(&bytes, &mut [], &mut []), refused(10, LONGEST_CHART));
    same("the longest list", &bytes, make(&bytes, &mut [0; LONGEST_CHART], &mut []), refused(10, longest_list));
    let made = |room| make(&bytes, &mut [0; LONGEST_CHART], &mut [0; LONGEST_LIST][..room]);
    same("a list one byte short", &bytes, made(longest_list - 1), refused(10, longest_list));
    same("blocks of the longest chart", &bytes, made(longest_list), Ok(MOST_BLOCKS));
    same("bound_size", &bytes, bound_size(version), sheets::bound_size(version));
    lengths(&bytes, &sheet, MOST_BLOCKS);
    counts(&bytes, version);
    sequences(&bytes);
    ways(&bytes);
}

/// The longest sheet's counts, and the most blocks.
fn counts(bytes: &[u8], version: u8) {
    for (place, most) in [(5, MOST_COUNTERS), (6, MOST_ACTIONS), (7, MOST_REGIONS)] {
        same("a count at its limit", bytes, usize::from(bytes[place]), most);
        let mut more = bytes.to_vec();
        more[place] += 1;
        same("a count past its limit", &more, check_sheet(&more), refused(2, place));
    }
    let counted =
        |blocks: usize| one_counter(version, 1, &[(1, blocks as i64 - 1, Some((1, 1))), (blocks as i64, blocks as i64, None)]);
    let made = |blocks| make(&counted(blocks), &mut [0; LONGEST_CHART], &mut [0; LONGEST_LIST]);
    same("MOST_BLOCKS", &counted(MOST_BLOCKS), made(MOST_BLOCKS), Ok(MOST_BLOCKS));
    same("a block more", &counted(MOST_BLOCKS + 1), made(MOST_BLOCKS + 1), refused(9, 0));
}

/// The ways to the first and the last block of the longest sheet, which has one action that leads on, in the room that is needed and one less.
fn ways(bytes: &[u8]) {
    let last = MOST_BLOCKS - 1;
    same("way_room of the most blocks", bytes, way_room(MOST_BLOCKS), LONGEST_WAY);
    for (block, length) in [(0, 0), (last, LONGEST_WAY)] {
        let mut actions = [9; LONGEST_WAY];
        same("a way in a buffer one byte short", bytes, way(bytes, block, &mut actions[1..]), refused(10, LONGEST_WAY));
        same("a way in a buffer that suffices", bytes, way(bytes, block, &mut actions), Ok(length));
        same("its actions", bytes, actions.iter().filter(|a| **a == 0).count(), length);
    }
    for block in [MOST_BLOCKS, usize::MAX] {
        same("a way to no block", bytes, way(bytes, block, &mut []), refused(15, MOST_BLOCKS));
    }
}

/// Runs on the longest sheet, of the longest sequence and one more.
fn sequences(bytes: &[u8]) {
    let (actions, mut entries) = ([0; LONGEST_SEQUENCE + 1], [0; run_room(LONGEST_SEQUENCE + 1)]);
    let ran = Run { entries: run_room(LONGEST_SEQUENCE), barred: Some(254) };
    same("LONGEST_SEQUENCE", bytes, run_sheet(bytes, &actions[1..], &mut entries), Ok(ran));
    let (read, rest) = entries.split_at(run_room(LONGEST_SEQUENCE));
    same("the actions that were barred", bytes, read[255..].iter().all(|e| *e == SKIPPED), true);
    same("the label before them, and the entry behind", bytes, (read[254], rest), (31, [0].as_slice()));
    same("an action more", bytes, run_sheet(bytes, &actions, &mut entries), refused(3, LONGEST_SEQUENCE + 1));
    for count in [0, 1, 2, LONGEST_SEQUENCE] {
        same("run_room", bytes, run_sheet(bytes, &actions[..count], &mut entries[..count]), refused(10, run_room(count)));
    }
}

/// Runs of the sample sheet and of its chart: P9 as document 02 has it, shorter ones and a longer one.
fn runs() {
    let read = [10, 10, 20, SKIPPED, SKIPPED];
    let sheet = one_counter(1, 2, &[(0, 7, Some((2, 1))), (8, 15, None)]);
    let (mut chart, mut list) = ([0; chart_length(3, 1)], [0; list_length(1, 3, 1)]);
    same("the sample chart", &sheet, make(&sheet, &mut chart, &mut list), Ok(3));
    for count in 0..5 {
        let (actions, mut entries) = (vec![0; count], vec![0; run_room(count)]);
        let expected = Ok(Run { entries: count + 1, barred: (count > 2).then_some(2) });
        same("a run on the sample sheet", &sheet, run_sheet(&sheet, &actions, &mut entries), expected);
        same("what it read", &sheet, &entries[..], &read[..=count]);
        entries.fill(0);
        same("a run on the sample chart", &chart, run_chart(&chart, &actions, &mut entries), expected);
        same("what it read", &chart, &entries[..], &read[..=count]);
    }
    let last = one_counter(1, 8, &[(0, 7, Some((2, 1))), (8, 15, None)]);
    same("a run barred at once", &last, run_sheet(&last, &[0], &mut [0; 2]), Ok(Run { entries: 2, barred: Some(0) }));
}

/// What two charts answer: a length, none, or the refusal. Two of the most blocks need the longest buffer, and one byte less is refused.
fn parts() {
    let (one, other) = (rows::chain(3, 2, |a| a == 1), rows::chain(2, 2, |a| a == 1));
    let mut actions = [9; part_room(3, 2)];
    same("charts that part", &one, part(&one, &other, &mut actions), Ok(Some(1)));
    same("where they part", &one, actions, [1, 9, 9, 9]);
    same("charts that are equal", &one, part(&one, &one, &mut [0; part_room(3, 3)]), Ok(None));
    same("charts that part at once", &one, part(&one, &rows::different(2, 2), &mut actions), Ok(Some(0)));
    same("a buffer one byte short", &one, part(&one, &other, &mut actions[1..]), refused(10, part_room(3, 2)));
    same("other numbers of actions", &one, part(&one, &rows::chain(2, 1, |_| true), &mut []), refused(16, 5));
    same("no first chart", &one, part(&one[1..], &other[1..], &mut []), refused(1, 0));
    same("no second chart", &one, part(&one, &other[1..], &mut []), refused(1, one.len()));
    let most = rows::different(MOST_BLOCKS, 1);
    same("part_room of the most blocks", &most, part_room(MOST_BLOCKS, MOST_BLOCKS), LONGEST_PART);
    same("LONGEST_PART", &most, part(&most, &most, &mut [0; LONGEST_PART]), Ok(None));
    same("one byte less", &most, part(&most, &most, &mut [0; LONGEST_PART - 1]), refused(10, LONGEST_PART));
}

/// The kinds and limits of a rule, and what a set-point answers. A number at its limit is answered, on either side of 0; one beyond is not.
fn set_points() {
    let point = |old, remainder| Ok(SetPoint { old, remainder });
    let asked = |[factor, offset, wanted]: [i64; 3]| set_point(CARRY, factor, offset, wanted);
    same("a set-point", &[], asked([3, 5, 16]), point(3, 2));
    same("a set-point of a set rule", &[], set_point(SET, 3, 5, 16), refused(19, 0));
    same("kinds of a rule", &[], (SET, CARRY), (0, 1));
    let numbers = [("MOST_FACTOR", MOST_FACTOR), ("MOST_OFFSET", MOST_OFFSET), ("MOST_VALUE", MOST_VALUE)];
    for (place, (name, most)) in numbers.into_iter().enumerate() {
        for side in [-1, 1] {
            let with = |number: i64| {
                let mut numbers = [1, 0, 0];
                numbers[place] = side * number;
                asked(numbers)
            };
            let old = [0, -side * most, side * most][place];
            same(name, &[], with(most), point(old, 0));
            same(&format!("one beyond {name}"), &[], with(most + 1), refused(19, 0));
        }
    }
    let answer = SetPoint { old: -7, remainder: 2 };
    let copied = answer;
    same("a set-point and its copy", &[], answer, copied);
    same("set-points of two old values", &[], answer == SetPoint { old: 7, ..answer }, false);
    same("set-points of two remainders", &[], answer == SetPoint { remainder: 0, ..answer }, false);
    same("a set-point for debugging", &[], format!("{answer:?}"), "SetPoint { old: -7, remainder: 2 }".into());
}

/// The limits of a counter that goes round, and what is answered: counts, none, or the refusal. What is at a limit is answered, and one beyond
/// is not.
fn go_rounds() {
    same("counts", &[], go_round(12, 1, 3, &[8, 3]), Ok(Some([1, 2, 0, 0, 0, 0, 0, 0])));
    same("counts that are all 0", &[], go_round(12, 1, 1, &[8, 3]), Ok(Some([0; MOST_INCREMENTS])));
    same("no counts", &[], go_round(12, 1, 2, &[8, 6]), Ok(None));
    let from_0 = |modulus| go_round(modulus, 0, 0, &[0]);
    for modulus in [LEAST_MODULUS, MOST_MODULUS] {
        let most = modulus - 1;
        same("a modulus at its limit", &[], go_round(modulus, 0, most, &[1]), Ok(Some([most, 0, 0, 0, 0, 0, 0, 0])));
        let apart =
            [go_round(modulus, modulus, 0, &[1]), go_round(modulus, 0, modulus, &[1]), go_round(modulus, 0, 0, &[modulus])];
        same("start, wanted value or increment at the modulus", &[], apart, [refused(22, 0); 3]);
    }
    same("one below LEAST_MODULUS", &[], from_0(LEAST_MODULUS - 1), refused(22, 0));
    same("one beyond MOST_MODULUS", &[], from_0(MOST_MODULUS + 1), refused(22, 0));
    let many = [1; MOST_INCREMENTS + 1];
    same("MOST_INCREMENTS", &[], go_round(12, 3, 3, &many[1..]), Ok(Some([0; MOST_INCREMENTS])));
    same("one more", &[], go_round(12, 3, 3, &many), refused(22, 0));
    same("no increments", &[], go_round(12, 3, 3, &[]), refused(22, 0));
}

pub fn test() {
    refusals();
    [1, 2].into_iter().for_each(limits);
    runs();
    parts();
    set_points();
    go_rounds();
}
