//! Sheets, read straight from document 01 and by no method of the library: every configuration is listed, the partition of all of
//! them is refined by labels and targets until nothing changes, and the blocks are those that the start reaches. What version 2 of the sheet
//! changes is document 02's.

use crate::partition::{reach, refine, NONE as BARRED};
use std::collections::{HashMap, HashSet, VecDeque};

#[derive(Clone, Copy, PartialEq, Eq, Debug)]
pub struct Refusal {
    pub number: u8,
    pub returned: usize,
}

pub fn refuse<T>(number: u8, returned: usize) -> Result<T, Refusal> {
    Err(Refusal { number, returned })
}

pub enum Rule {
    Set(i64),
    Carry { source: usize, factor: i64, offset: i64 },
}

pub struct Move {
    pub target: u8,
    pub rules: Vec<Rule>,
}

pub struct Region {
    pub place: usize,
    pub label: u16,
    pub state: u8,
    pub bounds: Vec<(i64, i64)>,
    /// Each with its place; a barred one has no move.
    pub moves: Vec<(usize, Option<Move>)>,
}

pub type Configuration = (u8, Vec<i64>);

pub struct Sheet {
    pub version: u8,
    pub counters: usize,
    pub actions: usize,
    pub start: Configuration,
    pub regions: Vec<Region>,
}

/// What a reading has in the place of a label where an action is barred.
pub const SKIPPED: u16 = 65535;

/// What a reading gives: the label of the start and an entry for each action, and the index of the first barred action, if any.
#[derive(PartialEq, Eq, Debug, Clone)]
pub struct Reading {
    pub entries: Vec<u16>,
    pub barred: Option<usize>,
}

/// A chart, its box list, and the number of blocks.
pub struct Made {
    pub chart: Vec<u8>,
    pub list: Vec<u8>,
    pub blocks: usize,
}

/// Bytes of a bound or a start value of a version.
pub fn bound_size(version: u8) -> usize {
    match version {
        1 => 2,
        2 => 4,
        _ => panic!("no version {version}"),
    }
}

/// How far from 0 a version has bounds and start values, and offsets. No number of 16 bits is out of its bounds.
pub fn limits(version: u8) -> (i64, i64) {
    match version {
        1 => (32_768, 4_000_000),
        2 => (1_000_000, 200_000_000),
        _ => panic!("no version {version}"),
    }
}

/// Reads numbers one after another.
struct Cursor<'a> {
    bytes: &'a [u8],
    at: usize,
    version: u8,
}

impl Cursor<'_> {
    fn unsigned(&mut self, size: usize) -> u64 {
        let part = &self.bytes[self.at..self.at + size];
        self.at += size;
        part.iter().rev().fold(0, |n, b| n << 8 | u64::from(*b))
    }

    fn signed(&mut self, size: usize) -> i64 {
        let shift = 64 - 8 * size as u32;
        (self.unsigned(size) << shift) as i64 >> shift
    }

    fn byte(&mut self) -> u8 {
        self.unsigned(1) as u8
    }

    /// A bound or a start value.
    fn bound(&mut self) -> Result<i64, Refusal> {
        let at = self.at;
        let value = self.signed(bound_size(self.version));
        allowed(value.abs() <= limits(self.version).0, at)?;
        Ok(value)
    }
}

/// Refusal 4 at a place, unless the test holds.
fn allowed(test: bool, place: usize) -> Result<(), Refusal> {
    if test {
        Ok(())
    } else {
        refuse(4, place)
    }
}

fn read_rule(c: &mut Cursor, counters: usize) -> Result<Rule, Refusal> {
    let at = c.at;
    let (kind, source, factor, offset) = (c.byte(), c.byte() as usize, c.signed(1), c.signed(4));
    allowed(kind < 2, at)?;
    let carry = kind == 1;
    allowed(if carry { source < counters } else { source == 0 }, at + 1)?;
    allowed((factor != 0) == carry && factor.abs() <= 100, at + 2)?;
    allowed(offset.abs() <= limits(c.version).1, at + 3)?;
    Ok(if carry { Rule::Carry { source, factor, offset } } else { Rule::Set(offset) })
}

/// The fields of a barred move are zero; the place of one that is not.
fn read_barred(c: &mut Cursor, counters: usize) -> Result<(), Refusal> {
    let sizes = [1].into_iter().chain([1, 1, 1, 4].into_iter().cycle().take(4 * counters));
    for size in sizes {
        let at = c.at;
        allowed(c.unsigned(size) == 0, at)?;
    }
    Ok(())
}

fn read_move(c: &mut Cursor, counters: usize) -> Result<Option<Move>, Refusal> {
    let at = c.at;
    let kind = c.byte();
    allowed(kind < 2, at)?;
    if kind == 0 {
        read_barred(c, counters)?;
        return Ok(None);
    }
    let target = c.byte();
    let rules = (0..counters).map(|_| read_rule(c, counters)).collect::<Result<_, _>>()?;
    Ok(Some(Move { target, rules }))
}

fn read_region(c: &mut Cursor, counters: usize, actions: usize) -> Result<Region, Refusal> {
    let place = c.at;
    let (label, state) = (c.unsigned(2) as u16, c.byte());
    allowed(label != SKIPPED, place)?;
    let mut bounds = Vec::new();
    for _ in 0..counters {
        let (low, at) = (c.bound()?, c.at);
        let high = c.bound()?;
        allowed(low <= high, at)?;
        bounds.push((low, high));
    }
    let mut moves = Vec::new();
    for _ in 0..actions {
        moves.push((c.at, read_move(c, counters)?));
    }
    Ok(Region { place, label, state, bounds, moves })
}

/// Refusals 1 to 4, and the sheet.
pub fn read(bytes: &[u8]) -> Result<Sheet, Refusal> {
    if bytes.len() < 9 || !(bytes.starts_with(b"MSH\x01\x00") || bytes.starts_with(b"MSH\x02\x00")) {
        return refuse(1, 0);
    }
    for (place, most) in [(5, 3), (6, 8), (7, 32)] {
        if bytes[place] == 0 || bytes[place] > most {
            return refuse(2, place);
        }
    }
    let (version, counters, actions, count) = (bytes[3], bytes[5] as usize, bytes[6] as usize, bytes[7] as usize);
    let size = bound_size(version);
    if bytes.len() != 9 + size * counters + count * (3 + 2 * size * counters + actions * (2 + 7 * counters)) {
        return refuse(3, bytes.len());
    }
    let mut c = Cursor { bytes, at: 9, version };
    let start = (bytes[8], (0..counters).map(|_| c.bound()).collect::<Result<_, _>>()?);
    let regions = (0..count).map(|_| read_region(&mut c, counters, actions)).collect::<Result<_, _>>()?;
    Ok(Sheet { version, counters, actions, start, regions })
}

fn inside(region: &Region, x: &Configuration) -> bool {
    region.state == x.0 && region.bounds.iter().zip(&x.1).all(|((low, high), v)| low <= v && v <= high)
}

/// Two boxes share a configuration just if the lowest corner of what they have in common is in both.
fn share(a: &Region, b: &Region) -> bool {
    let corner = a.bounds.iter().zip(&b.bounds).map(|(p, q)| p.0.max(q.0)).collect();
    let x = (a.state, corner);
    inside(a, &x) && inside(b, &x)
}

/// Refusals 5, 6 and 7.
fn check_regions(sheet: &Sheet) -> Result<(), Refusal> {
    let regions = &sheet.regions;
    for (number, clash) in [(5, (|a, b| a.label == b.label) as fn(&Region, &Region) -> bool), (6, share)] {
        for (j, later) in regions.iter().enumerate() {
            if regions[..j].iter().any(|earlier| clash(earlier, later)) {
                return refuse(number, later.place);
            }
        }
    }
    if !regions.iter().any(|r| inside(r, &sheet.start)) {
        return refuse(7, 8);
    }
    Ok(())
}

fn landing(m: &Move, values: &[i64]) -> Configuration {
    let value = |rule: &Rule| match *rule {
        Rule::Set(offset) => offset,
        Rule::Carry { source, factor, offset } => factor * values[source] + offset,
    };
    (m.target, m.rules.iter().map(value).collect())
}

fn volume(region: &Region) -> u64 {
    region.bounds.iter().map(|(low, high)| (high - low + 1) as u64).product()
}

/// How many configurations the regions have, repeats counted.
pub fn configurations(sheet: &Sheet) -> u64 {
    sheet.regions.iter().map(volume).sum()
}

/// All configurations of a sheet by number, region after region, and where each action leads.
struct Listed<'a> {
    sheet: &'a Sheet,
    first: Vec<usize>,
    all: Vec<(u8, [i64; 3])>,
    /// For each configuration and action the number of the next configuration, or BARRED.
    next: Vec<u32>,
}

fn list_region(region: &Region, all: &mut Vec<(u8, [i64; 3])>) {
    let range = |v: usize| region.bounds.get(v).map_or(0..=0, |(low, high)| *low..=*high);
    for x in range(0) {
        for y in range(1) {
            all.extend(range(2).map(|z| (region.state, [x, y, z])));
        }
    }
}

impl Listed<'_> {
    fn number(&self, x: &Configuration) -> Option<usize> {
        let r = self.sheet.regions.iter().position(|r| inside(r, x))?;
        let bounds = &self.sheet.regions[r].bounds;
        let within = bounds.iter().zip(&x.1).fold(0, |n, ((low, high), v)| n * (high - low + 1) + (v - low));
        Some(self.first[r] + within as usize)
    }

    /// Fills `next`; refusal 8.
    fn follow(&mut self) -> Result<(), Refusal> {
        let (sheet, actions) = (self.sheet, self.sheet.actions);
        self.next = vec![BARRED; self.all.len() * actions];
        for (r, region) in sheet.regions.iter().enumerate() {
            for (a, (place, m)) in region.moves.iter().enumerate() {
                let Some(m) = m else { continue };
                for k in self.first[r]..self.first[r + 1] {
                    let x = landing(m, &self.all[k].1);
                    let Some(to) = self.number(&x) else { return refuse(8, *place) };
                    self.next[k * actions + a] = to as u32;
                }
            }
        }
        Ok(())
    }
}

fn list(sheet: &Sheet) -> Result<Listed<'_>, Refusal> {
    let mut listed = Listed { sheet, first: vec![0], all: Vec::new(), next: Vec::new() };
    for region in &sheet.regions {
        list_region(region, &mut listed.all);
        listed.first.push(listed.all.len());
    }
    listed.follow()?;
    Ok(listed)
}

/// The part of each configuration: labels, refined by targets. The configurations of a region bar the same actions.
fn parts(listed: &Listed) -> Vec<u32> {
    let mut labels: Vec<u32> = Vec::with_capacity(listed.all.len());
    for (r, region) in listed.sheet.regions.iter().enumerate() {
        labels.resize(listed.first[r + 1], u32::from(region.label));
    }
    refine(&labels, &listed.next, listed.sheet.actions)
}

/// Low and high of each counter in each block. Every block is a box, so it has as many members as its box has configurations.
fn boxes(listed: &Listed, part: &[u32], block: &HashMap<u32, usize>) -> Vec<[(i64, i64); 3]> {
    let mut found = vec![([(i64::MAX, i64::MIN); 3], 0); block.len()];
    for (k, (_, values)) in listed.all.iter().enumerate() {
        let Some(i) = block.get(&part[k]) else { continue };
        let (ends, members) = &mut found[*i];
        *members += 1;
        for (end, v) in ends.iter_mut().zip(values) {
            *end = (end.0.min(*v), end.1.max(*v));
        }
    }
    for (ends, members) in &found {
        assert_eq!(*members, ends.iter().map(|(low, high)| high - low + 1).product::<i64>(), "a block that is no box");
    }
    found.into_iter().map(|(ends, _)| ends).collect()
}

/// The way to each block: configurations are gone through as sequences lead to them, by length and then by action numbers, until each block has
/// one. What a sequence leads to a second time leads to nothing sooner.
fn ways(listed: &Listed, part: &[u32], start: usize, block: &HashMap<u32, usize>) -> Vec<Vec<u8>> {
    let (mut found, mut left) = (vec![None; block.len()], block.len());
    let (mut seen, mut queue) = (HashSet::from([start]), VecDeque::from([(start, Vec::new())]));
    while let (Some((k, way)), 1..) = (queue.pop_front(), left) {
        for (a, to) in listed.next[k * listed.sheet.actions..][..listed.sheet.actions].iter().enumerate() {
            if *to != BARRED && seen.insert(*to as usize) {
                queue.push_back((*to as usize, [&way[..], &[a as u8]].concat()));
            }
        }
        let slot = &mut found[block[&part[k]]];
        if slot.is_none() {
            *slot = Some(way);
            left -= 1;
        }
    }
    found.into_iter().map(|way| way.expect("each block is reached")).collect()
}

fn write(listed: &Listed, part: &[u32], order: &[usize], block: &HashMap<u32, usize>) -> Made {
    let (sheet, actions) = (listed.sheet, listed.sheet.actions);
    let mut chart = b"BCH\x01\x00".to_vec();
    chart.extend([actions as u8, order.len() as u8]);
    let (ends, mut list, size) = (boxes(listed, part, block), Vec::new(), bound_size(sheet.version));
    for (i, k) in order.iter().enumerate() {
        let region = &sheet.regions[listed.first.partition_point(|f| f <= k) - 1];
        chart.extend(region.label.to_le_bytes());
        for to in &listed.next[k * actions..(k + 1) * actions] {
            chart.push(if *to == BARRED { 255 } else { block[&part[*to as usize]] as u8 });
        }
        list.push(region.state);
        for (low, high) in &ends[i][..sheet.counters] {
            list.extend(&low.to_le_bytes()[..size]);
            list.extend(&high.to_le_bytes()[..size]);
        }
    }
    Made { chart, list, blocks: order.len() }
}

/// Refusals 1 to 7, and the sheet.
pub fn check_but_landing(bytes: &[u8]) -> Result<Sheet, Refusal> {
    let sheet = read(bytes)?;
    check_regions(&sheet)?;
    Ok(sheet)
}

/// Refusal 8, of a sheet that passed 1 to 7.
pub fn check_landing(sheet: &Sheet) -> Result<(), Refusal> {
    list(sheet).map(|_| ())
}

/// Refusals 8 and 9, of a sheet that passed 1 to 7, and what is found by the part of each configuration, a configuration of each block, and the
/// block of each part that has one.
fn charted<T>(sheet: &Sheet, find: impl Fn(&Listed, &[u32], &[usize], &HashMap<u32, usize>) -> T) -> Result<T, Refusal> {
    let listed = list(sheet)?;
    let part = parts(&listed);
    let start = listed.number(&sheet.start).expect("the start is in a region");
    let (order, block) = reach(start, &part, &listed.next, sheet.actions);
    if order.len() > 255 {
        return refuse(9, 0);
    }
    Ok(find(&listed, &part, &order, &block))
}

/// Chart and box list.
pub fn make(sheet: &Sheet) -> Result<Made, Refusal> {
    charted(sheet, write)
}

/// The same, and the way to each block.
pub fn make_with_ways(sheet: &Sheet) -> Result<(Made, Vec<Vec<u8>>), Refusal> {
    charted(sheet, |listed, part, order, block| (write(listed, part, order, block), ways(listed, part, order[0], block)))
}

/// Where an action sequence leads from the start of an accepted sheet. A barred action changes nothing.
pub fn end(sheet: &Sheet, actions: &[u8]) -> Configuration {
    actions.iter().fold(sheet.start.clone(), |x, a| {
        let region = sheet.regions.iter().find(|r| inside(r, &x)).expect("a region");
        region.moves[*a as usize].1.as_ref().map_or(x.clone(), |m| landing(m, &x.1))
    })
}

/// The reading of an action sequence from the start of an accepted sheet.
pub fn reading(sheet: &Sheet, actions: &[u8]) -> Reading {
    let at = |x: &Configuration| sheet.regions.iter().find(|r| inside(r, x)).expect("a region");
    let mut x = sheet.start.clone();
    let (mut entries, mut barred) = (vec![at(&x).label], None);
    for (i, a) in actions.iter().enumerate() {
        match &at(&x).moves[*a as usize].1 {
            None => {
                entries.push(SKIPPED);
                barred = barred.or(Some(i));
            }
            Some(m) => {
                x = landing(m, &x.1);
                entries.push(at(&x).label);
            }
        }
    }
    Reading { entries, barred }
}

/// What a run refuses of its sequence and its buffer: 3, 11, 10.
pub fn check_run(actions: &[u8], count: usize, room: usize) -> Result<(), Refusal> {
    if actions.len() > 4096 {
        return refuse(3, actions.len());
    }
    if let Some(i) = actions.iter().position(|a| *a as usize >= count) {
        return refuse(11, i);
    }
    if room < actions.len() + 1 {
        return refuse(10, actions.len() + 1);
    }
    Ok(())
}
