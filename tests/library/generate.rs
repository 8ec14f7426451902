//! Random sheets of both versions, and charts: mostly accepted ones, ones that are to be refused with a given number, and damaged ones.

use crate::random::Random;
use crate::sheets::{bound_size, limits, Move, Region, Rule, Sheet};

/// A number in so many bytes.
fn put(out: &mut Vec<u8>, value: i64, size: usize) {
    out.extend(&value.to_le_bytes()[..size]);
}

fn put_move(out: &mut Vec<u8>, counters: usize, m: &Option<Move>) {
    let Some(m) = m else {
        out.resize(out.len() + 2 + 7 * counters, 0);
        return;
    };
    out.extend([1, m.target]);
    for rule in &m.rules {
        let (head, offset) = match rule {
            Rule::Set(offset) => ([0, 0, 0], offset),
            Rule::Carry { source, factor, offset } => ([1, *source as u8, *factor as u8], offset),
        };
        out.extend(head);
        put(out, *offset, 4);
    }
}

pub fn encode(sheet: &Sheet) -> Vec<u8> {
    let (mut out, size) = (b"MSH".to_vec(), bound_size(sheet.version));
    out.extend([sheet.version, 0, sheet.counters as u8, sheet.actions as u8, sheet.regions.len() as u8, sheet.start.0]);
    sheet.start.1.iter().for_each(|v| put(&mut out, *v, size));
    for region in &sheet.regions {
        put(&mut out, i64::from(region.label), 2);
        out.push(region.state);
        for (low, high) in &region.bounds {
            put(&mut out, *low, size);
            put(&mut out, *high, size);
        }
        region.moves.iter().for_each(|(_, m)| put_move(&mut out, sheet.counters, m));
    }
    out
}

/// Where the fields of a sheet stand, by its version and counts.
pub struct Form {
    /// Bytes of a bound or start value, of a move record and of a region record.
    pub bound: usize,
    pub move_size: usize,
    pub region: usize,
    /// The place of the first region, and how far behind its own place a region has its moves.
    pub first: usize,
    pub moves: usize,
}

pub fn form(version: u8, counters: usize, actions: usize) -> Form {
    let (bound, move_size) = (bound_size(version), 2 + 7 * counters);
    let moves = 3 + 2 * bound * counters;
    Form { bound, move_size, region: moves + actions * move_size, first: 9 + bound * counters, moves }
}

/// The form of a sheet that passed refusals 1 to 3.
pub fn form_of(bytes: &[u8]) -> Form {
    form(bytes[3], bytes[5] as usize, bytes[6] as usize)
}

/// A region; its place and those of its moves are the encoding's.
pub fn region(label: u16, state: u8, bounds: Vec<(i64, i64)>, moves: Vec<Option<Move>>) -> Region {
    Region { place: 0, label, state, bounds, moves: moves.into_iter().map(|m| (0, m)).collect() }
}

/// A sheet of one counter, one action and one state: regions of low, high and the carry rule, if any.
pub fn one_counter(version: u8, start: i64, regions: &[(i64, i64, Option<(i64, i64)>)]) -> Vec<u8> {
    let carry = |(factor, offset)| Move { target: 0, rules: vec![Rule::Carry { source: 0, factor, offset }] };
    let numbered = regions.iter().zip(1..);
    let regions = numbered.map(|((low, high, m), i)| region(10 * i, 0, vec![(*low, *high)], vec![m.map(carry)])).collect();
    encode(&Sheet { version, counters: 1, actions: 1, start: (0, vec![start]), regions })
}

type Bounds = Vec<(i64, i64)>;

/// The lowest and the highest value of a counter.
pub const fn range(version: u8) -> (i64, i64) {
    match version {
        1 => (-32_768, 32_767),
        _ => (-1_000_000, 1_000_000),
    }
}

/// The box of a control state. Version 1 has it near 0 or at an end of the range, version 2 anywhere, and at an end more often.
fn area(rng: &mut Random, version: u8, counters: usize) -> Bounds {
    let (first, last) = range(version);
    let widest = match counters {
        1 => rng.pick(&[30, 30, 30, 300]),
        2 => 8,
        _ => 4,
    };
    let side = |_| {
        let width = rng.between(0, widest);
        let low = match rng.below(if version == 1 { 20 } else { 8 }) {
            0 if counters == 1 && rng.one_in(20) => return if version == 1 { (first, last) } else { (-50_000, 50_000) },
            0 => first,
            1 => last - width,
            _ if version == 1 => rng.between(-12, 12),
            2 => rng.between(-32_790, -32_760),
            3 => rng.between(32_740, 32_790),
            _ => rng.between(first, last - width),
        };
        (low, low + width)
    };
    (0..counters).map(side).collect()
}

/// The box, cut along one counter into at most so many parts.
fn cut(rng: &mut Random, whole: &Bounds, most: usize) -> Vec<Bounds> {
    let v = rng.below(whole.len());
    let (mut parts, mut rest) = (Vec::new(), whole.clone());
    while parts.len() + 1 < most && rest[v].0 < rest[v].1 && !rng.one_in(most) {
        let at = rng.between(rest[v].0, rest[v].1 - 1);
        let mut part = rest.clone();
        part[v].1 = at;
        rest[v].0 = at + 1;
        parts.push(part);
    }
    parts.push(rest);
    parts
}

/// A rule that takes the old bounds into the new range.
fn rule(rng: &mut Random, old: &Bounds, new: (i64, i64)) -> Rule {
    let source = rng.below(old.len());
    let (low, high) = old[source];
    let factor: i64 = rng.pick(&[1, 1, 1, -1, -1, 2, -2, 3, -3, 5, -7, 100, -100]);
    let slack = new.1 - new.0 - factor.abs() * (high - low);
    if slack < 0 || rng.one_in(4) {
        return Rule::Set(rng.between(new.0, new.1));
    }
    let offset = new.0 - (factor * low).min(factor * high) + rng.between(0, slack);
    Rule::Carry { source, factor, offset }
}

fn open_move(rng: &mut Random, old: &Bounds, areas: &[(u8, Bounds)], loose: bool) -> Option<Move> {
    if rng.one_in(4) {
        return None;
    }
    let (target, wanted) = &areas[rng.below(areas.len())];
    let mut rules: Vec<Rule> = wanted.iter().map(|range| rule(rng, old, *range)).collect();
    if loose && rng.one_in(6) {
        let v = rng.below(rules.len());
        let (Rule::Set(offset) | Rule::Carry { offset, .. }) = &mut rules[v];
        *offset += rng.pick(&[-2, -1, 1, 2]);
    }
    Some(Move { target: *target, rules })
}

/// A label that no region has yet: any but 65,535, the last one more often.
fn fresh_label(rng: &mut Random, regions: &[Region]) -> u16 {
    loop {
        let label = match rng.below(12) {
            0 => 65534,
            1..=4 => rng.below(65535) as u16,
            _ => rng.below(100) as u16,
        };
        if regions.iter().all(|r| r.label != label) {
            return label;
        }
    }
}

/// A sheet whose control states have a box each, cut into regions. Most are accepted.
pub fn sheet(rng: &mut Random, version: u8) -> Sheet {
    let counters = rng.pick(&[1, 1, 1, 2, 2, 3]);
    let actions = 1 + if rng.one_in(12) { rng.below(8) } else { rng.below(3) };
    let (first, most) = (rng.byte(), rng.pick(&[4, 4, 4, 10, 32]));
    let count = 1 + if most < 32 { rng.below(3) as u8 } else { 0 };
    let areas: Vec<(u8, Bounds)> = (0..count).map(|i| (first.wrapping_add(i * 37), area(rng, version, counters))).collect();
    let (loose, holed) = (rng.one_in(4), rng.one_in(15));
    let mut regions = Vec::new();
    for (state, whole) in &areas {
        for part in cut(rng, whole, most) {
            let moves = (0..actions).map(|_| open_move(rng, &part, &areas, loose)).collect();
            let label = fresh_label(rng, &regions);
            regions.push(region(label, *state, part, moves));
        }
    }
    if holed && regions.len() > 1 {
        regions.remove(rng.below(regions.len()));
    }
    let home = &regions[rng.below(regions.len())];
    let start = (home.state, home.bounds.iter().map(|(low, high)| rng.between(*low, *high)).collect());
    Sheet { version, counters, actions, start, regions }
}

/// A grid of one or two counters, where action v takes counter v to its end one by one: about 255 blocks.
pub fn grid(rng: &mut Random) -> Sheet {
    let counters = 1 + rng.below(2);
    let ends: Vec<i64> = (0..counters).map(|_| if counters == 1 { rng.between(250, 260) } else { rng.between(14, 17) }).collect();
    let sign = rng.pick(&[1, -1]);
    let step = |v: usize| {
        let carry = |w: usize| Rule::Carry { source: w, factor: 1, offset: if v == w { sign } else { 0 } };
        Move { target: 7, rules: (0..counters).map(carry).collect() }
    };
    let ordered = |a: i64, b: i64| (a.min(b), a.max(b));
    let mut regions = Vec::new();
    for mask in 0..1 << counters {
        let at_end = |v: usize| mask >> v & 1 == 1;
        let side = |v: usize| if at_end(v) { (sign * ends[v], sign * ends[v]) } else { ordered(0, sign * (ends[v] - 1)) };
        let moves = (0..counters).map(|v| if at_end(v) { None } else { Some(step(v)) }).collect();
        regions.push(region(500 + mask, 7, (0..counters).map(side).collect(), moves));
    }
    let start = (7, (0..counters).map(|_| sign * rng.between(0, 1)).collect());
    Sheet { version: 1, counters, actions: counters, start, regions }
}

/// One byte changed, some cut off, left out or put in.
pub fn damaged(rng: &mut Random, bytes: &[u8]) -> Vec<u8> {
    let mut out = bytes.to_vec();
    let at = rng.below(out.len());
    match rng.below(12) {
        0 => out.truncate(at),
        1 => {
            let count = 1 + rng.below(3);
            out.extend(rng.bytes(count));
        }
        2 => drop(out.remove(at)),
        3 => out.insert(at, rng.byte()),
        4..=6 => out[at] ^= 1 << rng.below(8),
        7..=9 => out[at] = out[at].wrapping_add(rng.pick(&[1, 255])),
        _ => out[at] = rng.byte(),
    }
    out
}

/// Where a random rule of a random move of a random region stands: the places of region, move and rule.
fn places(rng: &mut Random, bytes: &[u8]) -> (usize, usize, usize) {
    let (form, counters, actions, regions) = (form_of(bytes), bytes[5] as usize, bytes[6] as usize, bytes[7] as usize);
    let at = form.first + rng.below(regions) * form.region;
    let move_at = at + form.moves + rng.below(actions) * form.move_size;
    (at, move_at, move_at + 2 + 7 * rng.below(counters))
}

/// Puts a number of 32 bits at a place.
pub fn put32(bytes: &mut [u8], at: usize, value: i64) {
    bytes[at..at + 4].copy_from_slice(&(value as i32).to_le_bytes());
}

/// Low 5 above high 4 in a region's first range; the place of high.
pub fn cross(bytes: &mut [u8], region_at: usize) -> usize {
    let (low, high) = (region_at + 3, region_at + 3 + form_of(bytes).bound);
    bytes[low..2 * high - low].fill(0);
    (bytes[low], bytes[high]) = (5, 4);
    high
}

/// A start value or a bound of version 2 at its limit or beyond, in the region at a place.
fn spoil_bound(rng: &mut Random, bytes: &mut [u8], region_at: usize) {
    let counters = bytes[5] as usize;
    let place = match rng.below(3) {
        0 => 9 + 4 * rng.below(counters),
        _ => region_at + 3 + 4 * rng.below(2 * counters),
    };
    let near = rng.pick(&[1_000_000, 1_000_001, 1_000_002, i64::from(i32::MAX)]);
    put32(bytes, place, if rng.one_in(2) { near } else { -near });
}

/// A field with a value that is not allowed, of whatever kind the place has.
fn spoil_field(rng: &mut Random, bytes: &mut [u8]) {
    let (at, move_at, rule_at) = places(rng, bytes);
    if bytes[3] == 2 && rng.one_in(3) {
        spoil_bound(rng, bytes, at);
    } else if rng.one_in(8) {
        bytes[at..at + 2].fill(255);
    } else if rng.one_in(4) {
        cross(bytes, at);
    } else if rng.one_in(4) {
        bytes[move_at] = rng.pick(&[2, 3, 255]);
    } else if rng.one_in(3) {
        bytes[rule_at] = rng.pick(&[2, 128]);
    } else if bytes[move_at] == 0 {
        bytes[rule_at + rng.below(7)] = rng.pick(&[1, 255]);
    } else if rng.one_in(3) {
        bytes[rule_at + 1] = rng.pick(&[bytes[5], 255]);
    } else if rng.one_in(2) {
        bytes[rule_at + 2] = if bytes[rule_at] == 0 { 1 } else { rng.pick(&[0, 101, 155, 128]) };
    } else {
        let beyond = limits(bytes[3]).1 + 1;
        put32(bytes, rule_at + 3, rng.pick(&[beyond, -beyond, i64::from(i32::MIN), i64::from(i32::MAX)]));
    }
}

/// An accepted sheet's bytes, changed so that a refusal with the number is likely.
pub fn refused(rng: &mut Random, accepted: &[u8], number: u8) -> Vec<u8> {
    let mut out = accepted.to_vec();
    let (form, (later, _, rule_at)) = (form_of(&out), places(rng, &out));
    let (first, box_size) = (form.first, form.moves - 2);
    match number {
        1 if rng.one_in(2) => out.truncate(rng.below(9)),
        1 => out[rng.below(5)] ^= 1 << rng.below(8),
        2 => out[5 + rng.below(3)] = rng.pick(&[0, 33, 255]),
        3 if rng.one_in(2) => out.truncate(9 + rng.below(accepted.len() - 9)),
        3 => out.push(rng.byte()),
        4 => spoil_field(rng, &mut out),
        5 => out.copy_within(first..first + 2, later),
        6 => out.copy_within(first + 2..first + 2 + box_size, later + 2),
        7 => out[8] = out[8].wrapping_add(1 + rng.byte() % 36),
        _ if rng.one_in(4) => put32(&mut out, rule_at + 3, rng.pick(&[1, -1]) * limits(accepted[3]).1),
        _ => out[rule_at + 4] ^= 0x40,
    }
    out
}

/// A chart of blocks by label and targets, where 255 is barred.
pub fn encode_chart(blocks: &[(u16, Vec<u8>)]) -> Vec<u8> {
    let mut out = b"BCH\x01\x00".to_vec();
    out.extend([blocks[0].1.len() as u8, blocks.len() as u8]);
    for (label, targets) in blocks {
        put(&mut out, i64::from(*label), 2);
        out.extend(targets);
    }
    out
}

/// Small charts: accepted ones, and ones that break a rule here or there.
pub fn chart(rng: &mut Random) -> Vec<u8> {
    let (actions, count) = (1 + rng.below(3), 1 + rng.below(7));
    let mut out = b"BCH\x01\x00".to_vec();
    out.extend([actions as u8, count as u8]);
    let (first, labels, mut next) = (rng.pick(&[0, 0, 0, 65531]), 1 + rng.below(5), 1);
    let masks = 1 << (actions - rng.below(2));
    let bars: Vec<usize> = (0..labels).map(|_| rng.below(masks)).collect();
    for i in 0..count {
        let label = rng.below(labels);
        put(&mut out, first + label as i64, 2);
        for a in 0..actions {
            let barred = (bars[label] >> a & 1 == 1) != rng.one_in(40);
            let needed = a + 1 == actions && next == i + 1;
            let target = match rng.below(40) {
                _ if barred => 255,
                0 => rng.below(count + 2),
                k if next < count && (needed || k < 15) => next,
                _ => rng.below(next),
            };
            next += usize::from(target == next);
            out.push(target as u8);
        }
    }
    out
}
