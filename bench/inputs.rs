//! The sheets that are measured. Every counter has its whole range, 65,536 values in version 1 and 2,000,001 in version 2, but where the name
//! has fewer and where it is a place. Those of version 2 are called wide.

use crate::generate::{encode, range, region};
use crate::hard;
use crate::sheets::{Move, Region, Rule, Sheet};

const WHOLE: (i64, i64) = range(1);
const LOW: i64 = WHOLE.0;
const HIGH: i64 = WHOLE.1;
const WIDE: (i64, i64) = range(2);
const WIDE_LOW: i64 = WIDE.0;
const WIDE_HIGH: i64 = WIDE.1;

fn carry(source: usize, factor: i64, offset: i64) -> Rule {
    Rule::Carry { source, factor, offset }
}

/// The move that adds a step to one counter.
fn add(counters: usize, v: usize, step: i64, target: u8) -> Move {
    Move { target, rules: (0..counters).map(|w| carry(w, 1, if v == w { step } else { 0 })).collect() }
}

fn sheet(version: u8, counters: usize, actions: usize, start: Vec<i64>, regions: Vec<Region>) -> Vec<u8> {
    encode(&Sheet { version, counters, actions, start: (0, start), regions })
}

/// A sheet of version 2.
fn wide(sheet: Sheet) -> Vec<u8> {
    encode(&Sheet { version: 2, ..sheet })
}

/// One region, mirrored by its one action: one block.
fn mirrored() -> Vec<u8> {
    let m = Move { target: 0, rules: vec![carry(0, -1, -1)] };
    sheet(1, 1, 1, vec![2], vec![region(1, 0, vec![WHOLE], vec![Some(m)])])
}

/// Action v adds a step to counter v, until that leads out of the range: there it is barred.
fn grid(version: u8, steps: &[i64], start: i64) -> Vec<u8> {
    let (counters, (low, high)) = (steps.len(), range(version));
    let regions = (0..1 << counters).map(|mask: u16| {
        let at_end = |v: usize| mask >> v & 1 == 1;
        let side = |v: usize| if at_end(v) { (high - steps[v] + 1, high) } else { (low, high - steps[v]) };
        let moves = (0..counters).map(|v| if at_end(v) { None } else { Some(add(counters, v, steps[v], 0)) });
        region(mask, 0, (0..counters).map(side).collect(), moves.collect())
    });
    sheet(version, counters, counters, vec![start; counters], regions.collect())
}

/// The longest sheet: 32 regions along the first of three counters, and 8 actions. The first adds 7,843 to it, up to its end; each other
/// sets it to one of the 255 values that are reached so, and takes the two other counters to -x of each other.
fn longest() -> Vec<u8> {
    const STEP: i64 = 7_843;
    let start = WIDE_HIGH + 1 - 255 * STEP;
    let edge = |i: i64| start + 8 * STEP * i;
    let side = |i: i64| match i {
        0 => (WIDE_LOW, edge(1) - 1),
        30 => (edge(30), WIDE_HIGH - STEP),
        31 => (WIDE_HIGH - STEP + 1, WIDE_HIGH),
        _ => (edge(i), edge(i + 1) - 1),
    };
    let look = |a: i64| Move { target: 0, rules: vec![Rule::Set(edge(4 * a)), carry(2, -1, 0), carry(1, -1, 0)] };
    let moves = |i: i64| (0..8).map(|a| if a > 0 { Some(look(a)) } else { (i < 31).then(|| add(3, 0, STEP, 0)) }).collect();
    let regions = (0..32).map(|i| region(i as u16, 0, vec![side(i), WIDE, WIDE], moves(i))).collect();
    sheet(2, 3, 8, vec![start, WIDE_LOW, WIDE_HIGH], regions)
}

/// Three whole ranges in eight regions, each counter below 0 or not. Action a takes the counters that its bits name to -x, so that everything
/// lands; but the last move of all takes counter 2 to -x - 1, and so one value of it out of all regions.
fn leads_out() -> Vec<u8> {
    let bit = |mask: usize, v: usize| mask >> v & 1 == 1;
    let mirror = |a: usize, beyond: i64| {
        let rule = |v: usize| carry(v, if bit(a, v) { -1 } else { 1 }, if v == 2 { beyond } else { 0 });
        Some(Move { target: 0, rules: (0..3).map(rule).collect() })
    };
    let regions = (0..8).map(|mask| {
        let side = |v: usize| if bit(mask, v) { (0, WIDE_HIGH) } else { (WIDE_LOW, -1) };
        let moves = (0..8).map(|a| mirror(a, if mask == 7 && a == 7 { -1 } else { 0 })).collect();
        region(mask as u16, 0, (0..3).map(side).collect(), moves)
    });
    sheet(2, 3, 8, vec![0; 3], regions.collect())
}

/// One action: it adds one to counter 0, and keeps the others.
fn one_of(counters: usize) -> Vec<u8> {
    let ranges = |first| [first].into_iter().chain(vec![WHOLE; counters - 1]).collect();
    let inner = region(1, 0, ranges((LOW, HIGH - 1)), vec![Some(add(counters, 0, 1, 0))]);
    let end = region(2, 0, ranges((HIGH, HIGH)), vec![None]);
    sheet(1, counters, 1, vec![LOW; counters], vec![inner, end])
}

/// One action: it leads through a ring of states, and adds one to counter 0 on leaving the last.
fn ring(states: u8) -> Vec<u8> {
    let last = states - 1;
    let keep = |s: u8| region(u16::from(s), s, vec![WHOLE], vec![Some(add(1, 0, 0, s + 1))]);
    let mut regions: Vec<Region> = (0..last).map(keep).collect();
    regions.push(region(100, last, vec![(LOW, HIGH - 1)], vec![Some(add(1, 0, 1, 0))]));
    regions.push(region(101, last, vec![(HIGH, HIGH)], vec![None]));
    sheet(1, 1, 1, vec![LOW], regions)
}

/// One action and three states: in state v it adds one to counter v, and leads to the next state.
fn in_turn() -> Vec<u8> {
    let mut regions = Vec::new();
    for v in 0..3u8 {
        let ranges = |own| (0..3).map(|w| if w == v { own } else { WHOLE }).collect();
        let m = add(3, v as usize, 1, (v + 1) % 3);
        regions.push(region(u16::from(v), v, ranges((LOW, HIGH - 1)), vec![Some(m)]));
        regions.push(region(10 + u16::from(v), v, ranges((HIGH, HIGH)), vec![None]));
    }
    sheet(1, 3, 1, vec![LOW; 3], regions)
}

/// So many values from the lowest on.
fn values(count: i64) -> (i64, i64) {
    (LOW, LOW + count - 1)
}

/// A ring of 253 rows whose two counters have these values each, 8 actions.
fn twin(values: (i64, i64)) -> Sheet {
    hard::twin(126, values, &[(1, 37), (1, 77), (2, 21), (2, 56), (2, 101)])
}

/// A chain of 254 rows that look at a hub with 7 actions; the hub's counter has these values.
fn hub(values: (i64, i64)) -> Sheet {
    hard::hub(253, values, values, 7)
}

/// The sheet with a factor of 2 in a state that nothing reaches: many more passes go by before boxes are known to be exact.
fn with_factor(mut sheet: Sheet) -> Sheet {
    let double = Move { target: 99, rules: vec![carry(0, 2, 0), carry(1, 1, 0), carry(2, 1, 0)] };
    let moves = [Some(double)].into_iter().chain((1..sheet.actions).map(|_| None)).collect();
    sheet.regions.push(region(99, 99, vec![(0, 0); 3], moves));
    sheet
}

/// The sheet of three counters with a last action by which every configuration of state 0 stays where it is: a row that leads to itself is one
/// deeper a pass, however deep the others are.
fn staying(mut sheet: Sheet) -> Sheet {
    for region in sheet.regions.iter_mut().filter(|region| region.state == 0) {
        let (place, _) = region.moves.pop().expect("an action");
        region.moves.push((place, Some(add(3, 0, 0, 0))));
    }
    sheet
}

/// A ring of 251 rows, whose counter of -span..span is doubled once a lap.
fn doubling(span: i64) -> Sheet {
    hard::doubling(250, span, 2, false)
}

/// A chain of 254 rows, all of which look at row 126 with one of 8 actions.
fn looked_at() -> Vec<u8> {
    encode(&hard::looked_at(253, &[126, 0, 0, 0, 0]))
}

/// Each with its name; the steps of a grid are chosen so that the blocks come out as named.
pub fn all() -> Vec<(&'static str, Vec<u8>)> {
    vec![
        ("1 block, 1 counter", mirrored()),
        ("16 blocks, 1 counter", grid(1, &[4096], LOW)),
        ("64 blocks, 1 counter", grid(1, &[1024], LOW)),
        ("255 blocks, 1 counter", grid(1, &[257], LOW + 1)),
        ("255 blocks, 1 counter by one", grid(1, &[1], HIGH - 254)),
        ("255 blocks, 2 counters", grid(1, &[4369, 3855], LOW + 1)),
        ("255 blocks, 3 counters", grid(1, &[21845, 13107, 3855], LOW + 1)),
        ("252 blocks, doubled once a lap", encode(&doubling(HIGH))),
        ("254 blocks, 8 actions, all look at one", looked_at()),
        ("refused 9, 1 counter by one", one_of(1)),
        ("refused 9, ring of 31 states", ring(31)),
        ("refused 9, 3 counters, one by one", one_of(3)),
        ("refused 9, 3 counters, in turn", in_turn()),
        ("refused 9, 3 counters, 3 actions", grid(1, &[1, 1, 1], LOW)),
        ("refused 9, twin of 1,024 values", encode(&twin(values(1024)))),
        ("refused 9, twin of 4,096 values", encode(&twin(values(4096)))),
        ("refused 9, twin of 65,536 values", encode(&twin(WHOLE))),
        ("refused 9, twin of 65,536 values, a factor", encode(&with_factor(twin(WHOLE)))),
        ("refused 9, hub of 1,024 values", encode(&hub(values(1024)))),
        ("refused 9, hub of 16,384 values", encode(&hub(values(16384)))),
        ("refused 9, hub of 65,536 values", encode(&hub(WHOLE))),
        ("refused 9, hub of 65,536 values, a factor", encode(&with_factor(hub(WHOLE)))),
        ("refused 9, staying hub of 65,536 values, a factor", encode(&with_factor(staying(hub(WHOLE))))),
        ("255 blocks, 1 counter, wide", grid(2, &[7843], WIDE_LOW + 36)),
        ("255 blocks, 3 counters, wide", grid(2, &[666_667, 400_000, 117_647], WIDE_LOW + 2)),
        ("255 blocks, longest sheet, wide", longest()),
        ("252 blocks, doubled once a lap, wide", wide(doubling(WIDE_HIGH))),
        ("refused 8, 3 counters, wide", leads_out()),
        ("refused 9, 3 counters, 3 actions, wide", grid(2, &[1, 1, 1], WIDE_LOW)),
        ("refused 9, twin of 2,000,001 values, wide", wide(twin(WIDE))),
        ("refused 9, twin of 2,000,001 values, a factor, wide", wide(with_factor(twin(WIDE)))),
        ("refused 9, hub of 2,000,001 values, wide", wide(hub(WIDE))),
        ("refused 9, hub of 2,000,001 values, a factor, wide", wide(with_factor(hub(WIDE)))),
        ("refused 9, staying hub of 2,000,001 values, a factor, wide", wide(with_factor(staying(hub(WIDE))))),
    ]
}
