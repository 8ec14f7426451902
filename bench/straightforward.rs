//! The same algorithm in plain Rust, written from its idea: the sheet is read into structs once, and each reached representative has a row
//! with a box that shrinks to its class. Nothing here is shared with the library.

use crate::sheets::Refusal;

fn refuse<T>(number: u8, returned: usize) -> Result<T, Refusal> {
    Err(Refusal { number, returned })
}

#[derive(Clone, Copy, PartialEq)]
struct Range {
    low: i32,
    high: i32,
}

impl Range {
    fn has(self, value: i32) -> bool {
        self.low <= value && value <= self.high
    }

    fn meet(self, other: Range) -> Range {
        Range { low: self.low.max(other.low), high: self.high.min(other.high) }
    }

    fn size(self) -> i64 {
        (i64::from(self.high) - i64::from(self.low) + 1).max(0)
    }
}

const EMPTY: Range = Range { low: 1, high: 0 };
const ZERO: Range = Range { low: 0, high: 0 };

/// A range for each of three counters; one that the sheet lacks stays at 0.
type Ranges = [Range; 3];

#[derive(Clone, Copy)]
enum Rule {
    Set(i32),
    Carry { source: usize, factor: i32, offset: i32 },
}

#[derive(Clone, Copy)]
struct Move {
    target: u8,
    rules: [Rule; 3],
}

struct Region {
    label: u16,
    state: u8,
    ranges: Ranges,
    moves: Vec<Option<Move>>,
}

#[derive(Clone, Copy)]
struct Configuration {
    state: u8,
    values: [i32; 3],
}

struct Sheet {
    version: Version,
    counters: usize,
    actions: usize,
    start: Configuration,
    regions: Vec<Region>,
}

/// What a version of the sheet sets: the bytes of a bound or start value, the greatest of them, and the greatest offset.
#[derive(Clone, Copy)]
struct Version {
    size: usize,
    greatest: i32,
    greatest_offset: i32,
}

const NARROW: Version = Version { size: 2, greatest: 32_768, greatest_offset: 4_000_000 };
const WIDE: Version = Version { size: 4, greatest: 1_000_000, greatest_offset: 200_000_000 };

impl Version {
    /// The bound or start value at a place; refusal 4.
    fn bound(self, bytes: &[u8], at: usize) -> Result<i32, Refusal> {
        let value = match self.size {
            2 => i32::from(i16::from_le_bytes([bytes[at], bytes[at + 1]])),
            _ => signed32(bytes, at),
        };
        if (-self.greatest..=self.greatest).contains(&value) {
            Ok(value)
        } else {
            refuse(4, at)
        }
    }

    /// Bytes of a region record before its moves.
    fn head(self, counters: usize) -> usize {
        3 + 2 * self.size * counters
    }
}

fn divide_down(n: i32, by: i32) -> i32 {
    if by > 0 {
        n.div_euclid(by)
    } else {
        (-n).div_euclid(-by)
    }
}

fn divide_up(n: i32, by: i32) -> i32 {
    -divide_down(-n, by)
}

impl Move {
    fn apply(&self, x: &Configuration) -> Configuration {
        let value = |rule: &Rule| match *rule {
            Rule::Set(offset) => offset,
            Rule::Carry { source, factor, offset } => factor * x.values[source] + offset,
        };
        Configuration { state: self.target, values: [value(&self.rules[0]), value(&self.rules[1]), value(&self.rules[2])] }
    }

    /// What of the ranges the move takes into the wanted ones.
    fn preimage(&self, wanted: &Ranges, mut ranges: Ranges) -> Ranges {
        for (rule, want) in self.rules.iter().zip(wanted) {
            match *rule {
                Rule::Set(offset) if want.has(offset) => {}
                Rule::Set(_) => return [EMPTY; 3],
                Rule::Carry { source, factor, offset } => {
                    let (low, high) = (want.low - offset, want.high - offset);
                    let (low, high) = if factor > 0 { (low, high) } else { (high, low) };
                    let old = Range { low: divide_up(low, factor), high: divide_down(high, factor) };
                    ranges[source] = ranges[source].meet(old);
                }
            }
        }
        ranges
    }
}

impl Region {
    fn has(&self, x: &Configuration) -> bool {
        self.state == x.state && within(&self.ranges, x)
    }
}

fn within(ranges: &Ranges, x: &Configuration) -> bool {
    ranges.iter().zip(&x.values).all(|(range, value)| range.has(*value))
}

fn volume(ranges: &Ranges) -> i64 {
    ranges.iter().map(|r| r.size()).product()
}

fn signed32(bytes: &[u8], at: usize) -> i32 {
    i32::from_le_bytes([bytes[at], bytes[at + 1], bytes[at + 2], bytes[at + 3]])
}

fn read_rule(bytes: &[u8], at: usize, counters: usize, greatest: i32) -> Result<Rule, Refusal> {
    let (kind, source, factor) = (bytes[at], bytes[at + 1] as usize, i32::from(bytes[at + 2] as i8));
    let offset = signed32(bytes, at + 3);
    let wrong = match kind {
        0 if source != 0 => Some(1),
        0 if factor != 0 => Some(2),
        1 if source >= counters => Some(1),
        1 if factor == 0 || !(-100..=100).contains(&factor) => Some(2),
        0 | 1 if !(-greatest..=greatest).contains(&offset) => Some(3),
        0 | 1 => None,
        _ => Some(0),
    };
    match wrong {
        Some(field) => refuse(4, at + field),
        None if kind == 0 => Ok(Rule::Set(offset)),
        None => Ok(Rule::Carry { source, factor, offset }),
    }
}

fn read_move(bytes: &[u8], at: usize, counters: usize, greatest: i32) -> Result<Option<Move>, Refusal> {
    match bytes[at] {
        0 => match bytes[at + 1..at + 2 + 7 * counters].iter().position(|b| *b != 0) {
            None => Ok(None),
            // the place of an offset is that of its first byte
            Some(k) if k > 0 && (k - 1) % 7 > 3 => refuse(4, at + 1 + k - ((k - 1) % 7 - 3)),
            Some(k) => refuse(4, at + 1 + k),
        },
        1 => {
            let mut rules = [Rule::Set(0); 3];
            for (v, rule) in rules[..counters].iter_mut().enumerate() {
                *rule = read_rule(bytes, at + 2 + 7 * v, counters, greatest)?;
            }
            Ok(Some(Move { target: bytes[at + 1], rules }))
        }
        _ => refuse(4, at),
    }
}

fn read_region(bytes: &[u8], at: usize, version: Version, counters: usize, actions: usize) -> Result<Region, Refusal> {
    let label = u16::from_le_bytes([bytes[at], bytes[at + 1]]);
    if label == 65535 {
        return refuse(4, at);
    }
    let mut ranges = [ZERO; 3];
    for (v, range) in ranges[..counters].iter_mut().enumerate() {
        let place = at + 3 + 2 * version.size * v;
        *range = Range { low: version.bound(bytes, place)?, high: version.bound(bytes, place + version.size)? };
        if range.low > range.high {
            return refuse(4, place + version.size);
        }
    }
    let first = at + version.head(counters);
    let at_move = |a: usize| read_move(bytes, first + a * (2 + 7 * counters), counters, version.greatest_offset);
    let moves = (0..actions).map(at_move).collect::<Result<_, _>>()?;
    Ok(Region { label, state: bytes[at + 2], ranges, moves })
}

/// The sheet, and the size of a region record; refusals 1 to 4.
fn read(bytes: &[u8]) -> Result<(Sheet, usize), Refusal> {
    let version = match bytes {
        [b'M', b'S', b'H', 1, 0, _, _, _, _, ..] => NARROW,
        [b'M', b'S', b'H', 2, 0, _, _, _, _, ..] => WIDE,
        _ => return refuse(1, 0),
    };
    if let Some(k) = [3, 8, 32].iter().zip(&bytes[5..8]).position(|(most, n)| n < &1 || n > most) {
        return refuse(2, 5 + k);
    }
    let (counters, actions, count) = (bytes[5] as usize, bytes[6] as usize, bytes[7] as usize);
    let (first, size) = (9 + version.size * counters, version.head(counters) + actions * (2 + 7 * counters));
    if bytes.len() != first + count * size {
        return refuse(3, bytes.len());
    }
    let mut values = [0; 3];
    for (v, value) in values[..counters].iter_mut().enumerate() {
        *value = version.bound(bytes, 9 + version.size * v)?;
    }
    let at_region = |i: usize| read_region(bytes, first + i * size, version, counters, actions);
    let regions = (0..count).map(at_region).collect::<Result<_, _>>()?;
    Ok((Sheet { version, counters, actions, start: Configuration { state: bytes[8], values }, regions }, size))
}

/// Refusals 5 to 8. Regions are disjoint, so all configurations of a region land just if the volumes of the preimages add up to its own.
fn check(sheet: &Sheet, size: usize) -> Result<(), Refusal> {
    let (regions, place) = (&sheet.regions, |i: usize| 9 + sheet.version.size * sheet.counters + i * size);
    if let Some(j) = (0..regions.len()).find(|j| regions[..*j].iter().any(|r| r.label == regions[*j].label)) {
        return refuse(5, place(j));
    }
    let meets = |a: &Region, b: &Region| a.state == b.state && a.ranges.iter().zip(&b.ranges).all(|(p, q)| p.meet(*q).size() > 0);
    if let Some(j) = (0..regions.len()).find(|j| regions[..*j].iter().any(|r| meets(r, &regions[*j]))) {
        return refuse(6, place(j));
    }
    if !regions.iter().any(|r| r.has(&sheet.start)) {
        return refuse(7, 8);
    }
    for (i, region) in regions.iter().enumerate() {
        for (a, m) in region.moves.iter().enumerate() {
            let Some(m) = m else { continue };
            let targets = regions.iter().filter(|r| r.state == m.target);
            let landed: i64 = targets.map(|r| volume(&m.preimage(&r.ranges, region.ranges))).sum();
            if landed != volume(&region.ranges) {
                return refuse(8, place(i) + sheet.version.head(sheet.counters) + a * (2 + 7 * sheet.counters));
            }
        }
    }
    Ok(())
}

/// How often the difference of two values of a counter can be multiplied by a factor other than 1 and -1 while both are in its range: 0
/// where the sheet has no such factor, else the doublings that fill its widest range.
fn doublings(sheet: &Sheet) -> u32 {
    let rules = sheet.regions.iter().flat_map(|r| r.moves.iter().flatten()).flat_map(|m| &m.rules);
    if rules.into_iter().all(|rule| !matches!(rule, Rule::Carry { factor, .. } if factor.abs() != 1)) {
        return 0;
    }
    let widest = sheet.regions.iter().flat_map(|r| r.ranges).map(Range::size).max().unwrap_or(1);
    (widest as u64).next_power_of_two().trailing_zeros()
}

const NO_ROW: u8 = 255;

/// No row is said to be deeper.
const DEEPEST: u32 = 65_535;

/// A row that is new when all others are deeper than this comes late.
const LATE: u32 = 15;

/// Why a table is not finished: there are more than 255 blocks, or it took all the turns that were allowed.
enum Stop {
    TooMany,
    TooLong,
}

/// A reached configuration, with a box that holds its class.
struct Row {
    at: Configuration,
    region: usize,
    ranges: Ranges,
    targets: [u8; 8],
    /// A bit for each action, up where it may be unstable.
    flags: u8,
    /// No sequence of at most so many actions tells the members of the box apart; kept from the first late row on.
    depth: u32,
    /// No row before this one has it as a target; used in passes alone.
    first_source: usize,
    /// The rows that have this one as a target, and whether this one is on the work list or has its turn; kept with a work list alone.
    sources: Vec<u8>,
    listed: bool,
}

impl Row {
    fn new(sheet: &Sheet, at: Configuration) -> Row {
        let region = sheet.regions.iter().position(|r| r.has(&at)).expect("an accepted sheet");
        let (ranges, flags) = (sheet.regions[region].ranges, u8::MAX >> (8 - sheet.actions));
        Row { at, region, ranges, targets: [NO_ROW; 8], flags, depth: 0, first_source: 255, sources: Vec::new(), listed: true }
    }

    fn has(&self, x: &Configuration) -> bool {
        self.at.state == x.state && within(&self.ranges, x)
    }

    /// Raises the flags of the actions that have row i as a target.
    fn flag(&mut self, i: usize, actions: usize) {
        for (a, target) in self.targets[..actions].iter().enumerate() {
            self.flags |= u8::from(*target == i as u8) << a;
        }
    }
}

/// The rows. Those of which a flag is up are found in one of two ways: by passes over all rows, as the library does it, or by a work list
/// and each row's list of sources.
struct Table<'a, const LISTS: bool> {
    sheet: &'a Sheet,
    rows: Vec<Row>,
    /// Whether rows keep their own depths: a row came late.
    own_depths: bool,
    work: Vec<u8>,
    turns_left: u64,
}

impl<const LISTS: bool> Table<'_, LISTS> {
    /// The row that holds x: the one that did so last time, if it still does. A new one if there is none, but no 256th.
    fn find(&mut self, x: Configuration, last: u8) -> Result<usize, Stop> {
        if self.rows.get(last as usize).is_some_and(|row| row.has(&x)) {
            return Ok(last as usize);
        }
        if let Some(j) = self.rows.iter().position(|row| row.has(&x)) {
            return Ok(j);
        }
        if self.rows.len() == 255 {
            return Err(Stop::TooMany);
        }
        self.work.push(self.rows.len() as u8);
        self.rows.push(Row::new(self.sheet, x));
        Ok(self.rows.len() - 1)
    }

    fn lead(&mut self, i: usize, a: usize, j: usize) {
        let old = self.rows[i].targets[a];
        self.rows[i].targets[a] = j as u8;
        self.rows[j].first_source = self.rows[j].first_source.min(i);
        if LISTS && old != j as u8 {
            if old != NO_ROW && !self.rows[i].targets.contains(&old) {
                self.rows[old as usize].sources.retain(|k| *k as usize != i);
            }
            if !self.rows[j].sources.contains(&(i as u8)) {
                self.rows[j].sources.push(i as u8);
            }
        }
    }

    /// Flags the actions that have row i as a target.
    fn flag_sources(&mut self, i: usize) {
        let actions = self.sheet.actions;
        if !LISTS {
            let first = self.rows[i].first_source.min(self.rows.len());
            self.rows[first..].iter_mut().for_each(|row| row.flag(i, actions));
            return;
        }
        for n in 0..self.rows[i].sources.len() {
            let k = self.rows[i].sources[n];
            let row = &mut self.rows[k as usize];
            row.flag(i, actions);
            if !row.listed {
                row.listed = true;
                self.work.push(k);
            }
        }
    }

    /// Takes row i by each action whose flag is up, and cuts it. In passes a turn ends where a row is new.
    fn turn(&mut self, i: usize) -> Result<(), Stop> {
        self.turns_left = self.turns_left.checked_sub(1).ok_or(Stop::TooLong)?;
        let (sheet, rows) = (self.sheet, self.rows.len());
        for (a, m) in sheet.regions[self.rows[i].region].moves.iter().enumerate() {
            if self.rows[i].flags >> a & 1 == 0 {
                continue;
            }
            self.rows[i].flags &= !(1 << a);
            let Some(m) = m else { continue };
            let next = m.apply(&self.rows[i].at);
            let j = self.find(next, self.rows[i].targets[a])?;
            self.lead(i, a, j);
            let cut = m.preimage(&self.rows[j].ranges, self.rows[i].ranges);
            if cut != self.rows[i].ranges {
                self.rows[i].ranges = cut;
                self.flag_sources(i);
            }
            if !LISTS && self.rows.len() > rows {
                return Ok(());
            }
        }
        if self.own_depths {
            self.deepen(i);
        }
        Ok(())
    }

    /// After its turn row i is one deeper than all that it leads to.
    fn deepen(&mut self, i: usize) {
        let led = self.rows[i].targets.iter().filter(|j| **j != NO_ROW).map(|j| self.rows[*j as usize].depth);
        let least = led.min().unwrap_or(DEEPEST);
        self.rows[i].depth = self.rows[i].depth.max(least + 1).min(DEEPEST);
    }

    fn stabilize(&mut self) -> Result<(), Stop> {
        if !LISTS {
            return self.passes();
        }
        while let Some(i) = self.work.pop() {
            self.turn(i as usize)?;
            let row = &mut self.rows[i as usize];
            row.listed = row.flags != 0;
            if row.listed {
                self.work.push(i);
            }
        }
        Ok(())
    }

    /// Passes until no flag is up, or until there are more than 255 rows, or will be. A pass without a new row makes all rows one deeper.
    /// If there are at most 255 blocks, rows that are all 255 deep have each of them, so no row is new after that; and rows that are all as
    /// deep as the sheet's bound are the blocks, so no box is cut and no flag raised after that.
    fn passes(&mut self) -> Result<(), Stop> {
        let bound = 2 * self.sheet.counters as u32 * (1 + doublings(self.sheet));
        let (mut depth, mut before) = (0, 0);
        while self.rows.iter().any(|row| row.flags != 0) {
            let rows = self.rows.len();
            if before >= 255.max(bound * rows as u32) {
                return Err(Stop::TooMany);
            }
            before = depth;
            if self.own_depths {
                before = before.max(self.rows.iter().map(|row| row.depth).min().unwrap_or(0));
            }
            self.pass()?;
            if self.rows.len() == rows {
                depth = before + 1;
                continue;
            }
            if before >= 255 {
                return Err(Stop::TooMany);
            }
            if before > LATE {
                self.own_depths = true;
                self.rows[..rows].iter_mut().for_each(|row| row.depth = row.depth.max(before));
            }
            depth = 0;
        }
        Ok(())
    }

    /// Turns of rows of which a flag is up, from the last to the first, up to a new row.
    fn pass(&mut self) -> Result<(), Stop> {
        let rows = self.rows.len();
        for i in (0..rows).rev() {
            if self.rows[i].flags != 0 {
                self.turn(i)?;
            }
            if self.rows.len() > rows {
                break;
            }
        }
        Ok(())
    }
}

fn refine<const LISTS: bool>(sheet: &Sheet, turns: u64) -> Result<Vec<Row>, Stop> {
    let mut table =
        Table::<LISTS> { sheet, rows: vec![Row::new(sheet, sheet.start)], own_depths: false, work: vec![0], turns_left: turns };
    table.stabilize()?;
    Ok(table.rows)
}

/// The rows in the chart's order, and the number of each.
fn number(rows: &[Row], actions: usize) -> (Vec<usize>, Vec<u8>) {
    let (mut order, mut numbers) = (vec![0], vec![NO_ROW; rows.len()]);
    numbers[0] = 0;
    let mut at = 0;
    while at < order.len() {
        for j in rows[order[at]].targets[..actions].iter().filter(|j| **j != NO_ROW) {
            let j = *j as usize;
            if numbers[j] == NO_ROW {
                numbers[j] = order.len() as u8;
                order.push(j);
            }
        }
        at += 1;
    }
    (order, numbers)
}

fn write(sheet: &Sheet, rows: &[Row], chart: &mut [u8], list: &mut [u8]) {
    let (order, numbers) = number(rows, sheet.actions);
    chart[..7].copy_from_slice(&[b'B', b'C', b'H', 1, 0, sheet.actions as u8, rows.len() as u8]);
    let size = sheet.version.size;
    let records = chart[7..].chunks_mut(2 + sheet.actions).zip(list.chunks_mut(1 + 2 * size * sheet.counters));
    for (i, (record, entry)) in order.iter().zip(records) {
        let row = &rows[*i];
        record[..2].copy_from_slice(&sheet.regions[row.region].label.to_le_bytes());
        for (byte, j) in record[2..].iter_mut().zip(&row.targets) {
            *byte = if *j == NO_ROW { 255 } else { numbers[*j as usize] };
        }
        entry[0] = row.at.state;
        for (bytes, range) in entry[1..].chunks_mut(2 * size).zip(&row.ranges) {
            bytes[..size].copy_from_slice(&range.low.to_le_bytes()[..size]);
            bytes[size..].copy_from_slice(&range.high.to_le_bytes()[..size]);
        }
    }
}

fn answer(sheet: &Sheet, rows: &[Row], chart: &mut [u8], list: &mut [u8]) -> Result<usize, Refusal> {
    let record = 1 + 2 * sheet.version.size * sheet.counters;
    for (needed, room) in [(7 + rows.len() * (2 + sheet.actions), chart.len()), (rows.len() * record, list.len())] {
        if room < needed {
            return refuse(10, needed);
        }
    }
    write(sheet, rows, chart, list);
    Ok(rows.len())
}

/// Chart and box list of a sheet, from the front of two buffers: the number of blocks, or a refusal; nothing where it takes more than so
/// many turns.
pub fn make<const LISTS: bool>(bytes: &[u8], chart: &mut [u8], list: &mut [u8], turns: u64) -> Option<Result<usize, Refusal>> {
    let checked = read(bytes).and_then(|(sheet, size)| check(&sheet, size).map(|()| sheet));
    let sheet = match checked {
        Ok(sheet) => sheet,
        Err(refusal) => return Some(Err(refusal)),
    };
    match refine::<LISTS>(&sheet, turns) {
        Ok(rows) => Some(answer(&sheet, &rows, chart, list)),
        Err(Stop::TooMany) => Some(refuse(9, 0)),
        Err(Stop::TooLong) => None,
    }
}
