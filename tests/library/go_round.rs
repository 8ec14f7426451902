//! Counters that go round: how often to use each increment, so that a counter comes from its start to a wanted value modulo a number. Every
//! call is held to lists of all values that the increments behind each place reach, small ones to a search among all counts as well, and
//! every "none" to a divisor found by trying. Euclid's algorithm and inverses play no part here.

use crate::library::{self, raw};
use crate::random::Random;
use crate::sheets::Refusal;
use crate::{plain, same, told, Test};
use std::hint::black_box;

/// Document 02's limits: those of include/pilfstera.rs are under test.
const LEAST_MODULUS: u64 = 2;
const MOST_MODULUS: u64 = 65_536;
const MOST_INCREMENTS: usize = 8;

type Counts = [u64; MOST_INCREMENTS];

/// Counts, or none; or the refusal.
type Answer = Result<Option<Counts>, Refusal>;

const REFUSED: Answer = Err(Refusal { number: 22, returned: 0 });

/// What a call hands in.
#[derive(Clone, Copy, PartialEq, Eq, Debug)]
struct Call<'a> {
    modulus: u64,
    start: u64,
    wanted: u64,
    increments: &'a [u64],
}

impl Call<'_> {
    /// What is outside its limits.
    fn faults(self) -> Vec<String> {
        let (modulus, count) = (self.modulus, self.increments.len());
        let alone = [
            (modulus < LEAST_MODULUS, "a modulus below its limits"),
            (modulus > MOST_MODULUS, "a modulus above its limits"),
            (count == 0, "no increments"),
            (count > MOST_INCREMENTS, "too many increments"),
            (self.start >= modulus, "a start"),
            (self.wanted >= modulus, "a wanted value"),
        ];
        let mut all: Vec<String> = alone.iter().filter(|(is, _)| *is).map(|(_, what)| what.to_string()).collect();
        let beyond = (0..count).filter(|i| self.increments[*i] >= modulus);
        all.extend(beyond.map(|i| format!("increment {} of {count}", i + 1)));
        all
    }

    /// What the counter shows when each increment was used so often.
    fn shown(self, counts: &[u64]) -> u64 {
        let used = self.increments.iter().zip(counts).map(|(increment, count)| u128::from(*increment) * u128::from(*count));
        ((u128::from(self.start) + used.sum::<u128>()) % u128::from(self.modulus)) as u64
    }

    /// The first counts by trying all of them in dictionary order.
    fn searched(self) -> Option<Counts> {
        let mut counts = [0; MOST_INCREMENTS];
        while self.shown(&counts) != self.wanted {
            // the last count that can rise does so, and those behind it begin anew
            let rising = (0..self.increments.len()).rev().find(|i| counts[*i] + 1 < self.modulus)?;
            counts[rising] += 1;
            counts[rising + 1..].fill(0);
        }
        Some(counts)
    }

    /// What a fitter reads from counts. How they were found plays no part here.
    fn law(self, counts: &[u64]) {
        same("what the counter shows", &[], (self, self.shown(counts)), (self, self.wanted));
        same("counts below the modulus", &[], (self, counts.iter().all(|count| *count < self.modulus)), (self, true));
        let behind = &counts[self.increments.len()..];
        same("counts past the last increment", &[], (self, behind.iter().all(|count| *count == 0)), (self, true));
    }

    /// What the call met, in a few words for each thing.
    fn met(self, expected: &Answer) -> Vec<String> {
        let (length, above) = (self.increments.len(), |count: &&u64| **count > 0);
        let Ok(answer) = expected else {
            return match &self.faults()[..] {
                [fault] => vec![format!("refused for {fault}")],
                _ => vec!["refused for more than one thing".into()],
            };
        };
        let Some(counts) = answer else { return vec![format!("{length} of 8 increments, none")] };
        let shape = match (counts[0], counts.iter().filter(above).count()) {
            (_, 0) => "all counts 0",
            (0, 1) => "a later count alone",
            (_, 1) => "the first count alone",
            (0, _) => "more counts, the first 0",
            (_, 8) => "all eight counts",
            _ => "more counts with the first",
        };
        let mut all = vec![format!("{length} of 8 increments, {shape}")];
        let most = self.modulus > 2 && counts.contains(&(self.modulus - 1));
        all.extend(most.then_some("a count one less than the modulus".into()));
        all
    }
}

/// What must have come.
pub fn kinds() -> Vec<String> {
    let refused = ["a modulus below its limits", "a modulus above its limits", "no increments", "too many increments"];
    let others = ["a start", "a wanted value", "more than one thing"];
    let mut all: Vec<String> = refused.iter().chain(&others).map(|why| format!("refused for {why}")).collect();
    for length in 1..=MOST_INCREMENTS {
        all.extend((1..=length).map(|place| format!("refused for increment {place} of {length}")));
        let mut shapes = vec!["none", "all counts 0", "the first count alone"];
        shapes.extend((length > 1).then_some(["a later count alone", "more counts with the first"]).into_iter().flatten());
        shapes.extend((length > 2).then_some("more counts, the first 0"));
        all.extend(shapes.iter().map(|shape| format!("{length} of 8 increments, {shape}")));
    }
    all.extend(["8 of 8 increments, all eight counts", "a count one less than the modulus"].map(String::from));
    all.into_iter().map(|what| format!("going round: {what}")).collect()
}

/// A counter with its increments, within the limits, and all that they reach.
struct Dial<'a> {
    modulus: u64,
    increments: &'a [u64],
    /// Behind each number of increments passed over, from 0 to all: whether the others bring the counter from 0 to a value.
    reached: Vec<Vec<bool>>,
    /// The greatest number that divides the modulus and all increments.
    divisor: u64,
}

/// The values reached, and all that are when one increment more is used as often as one likes.
fn reached_with(increment: u64, mut reached: Vec<bool>) -> Vec<bool> {
    let modulus = reached.len();
    let mut left: Vec<usize> = (0..modulus).filter(|value| reached[*value]).collect();
    while let Some(value) = left.pop() {
        let next = (value + increment as usize) % modulus;
        if !reached[next] {
            reached[next] = true;
            left.push(next);
        }
    }
    reached
}

impl<'a> Dial<'a> {
    fn new(modulus: u64, increments: &'a [u64]) -> Dial<'a> {
        let mut reached: Vec<Vec<bool>> = vec![(0..modulus).map(|value| value == 0).collect()];
        for increment in increments.iter().rev() {
            reached.insert(0, reached_with(*increment, reached[0].clone()));
        }
        let divides = |number: &u64| modulus % number == 0 && increments.iter().all(|increment| increment % number == 0);
        let divisor = (1..=modulus).rev().find(divides).expect("1 divides all");
        Dial { modulus, increments, reached, divisor }
    }

    /// The first counts in dictionary order: each in its turn is the least that leaves a way for the increments behind.
    fn first(&self, start: u64, wanted: u64) -> Option<Counts> {
        let (modulus, mut counts) = (self.modulus, [0; MOST_INCREMENTS]);
        let mut way = (wanted + modulus - start) % modulus;
        if !self.reached[0][way as usize] {
            return None;
        }
        for (i, increment) in self.increments.iter().enumerate() {
            while !self.reached[i + 1][way as usize] {
                way = (way + modulus - increment) % modulus;
                counts[i] += 1;
            }
        }
        Some(counts)
    }
}

impl Test {
    /// One call, as C makes it, with noise in what is written and beside it, and by the safe function. The increments stay as they were.
    fn go_round(&mut self, call: Call, expected: Answer) {
        let Call { modulus, start, wanted, increments } = call;
        let (noise, copies) = ([(); 3 * MOST_INCREMENTS].map(|()| self.rng.next()), increments.to_vec());
        let (mut room, mut returned) = (noise, self.noise());
        let number = raw::go_round(modulus, start, wanted, increments, &mut room, &mut returned);
        let stored = expected.map(|counts| counts.map_or(0, |_| MOST_INCREMENTS));
        same("answer of going round", &[], (call, (number, returned)), (call, told(stored)));
        let (mut left, middle) = (noise, MOST_INCREMENTS..2 * MOST_INCREMENTS);
        if let Ok(Some(counts)) = expected {
            call.law(&room[middle.clone()]);
            left[middle].copy_from_slice(&counts);
        }
        same("counts, and what lies beside them", &[], (call, room), (call, left));
        let safe = library::go_round(modulus, start, wanted, increments).map_err(plain);
        same("safe going round", &[], (call, safe), (call, expected));
        // that nobody alters a shared slice may be taken for granted by the compiler, not here
        same("increments after the calls", &[], black_box(increments), &copies);
        call.met(&expected).into_iter().for_each(|what| self.count(format!("going round: {what}")));
    }

    /// A call within the limits.
    fn turn(&mut self, dial: &Dial, start: u64, wanted: u64) {
        let call = Call { modulus: dial.modulus, start, wanted, increments: dial.increments };
        let expected = dial.first(start, wanted);
        let apart = start % dial.divisor != wanted % dial.divisor;
        same("none by the divisor", &[], (call, expected.is_none()), (call, apart));
        self.go_round(call, Ok(expected));
    }

    /// Any call.
    fn turn_any(&mut self, call: Call) {
        if call.faults().is_empty() {
            self.turn(&Dial::new(call.modulus, call.increments), call.start, call.wanted);
        } else {
            self.go_round(call, REFUSED);
        }
    }
}

/// A call by its numbers in a row: modulus, start, wanted value, then the increments.
fn call(numbers: &[u64]) -> Call<'_> {
    Call { modulus: numbers[0], start: numbers[1], wanted: numbers[2], increments: &numbers[3..] }
}

/// Counts found by hand, or none: the search, where it is short, and the lists are held to them too.
fn known(test: &mut Test) {
    let cases: [(&[u64], Option<&[u64]>); 18] = [
        (&[12, 1, 3, 8, 3], Some(&[1, 2])),
        (&[12, 1, 4, 8, 3], Some(&[0, 1])),
        (&[12, 1, 4, 3, 8], Some(&[1, 0])),
        (&[12, 1, 2, 8, 6], None),
        (&[12, 1, 1, 8, 6], Some(&[0, 0])),
        (&[12, 11, 0, 1], Some(&[1])),
        (&[12, 0, 11, 1], Some(&[11])),
        (&[12, 0, 9, 3, 1], Some(&[0, 9])),
        (&[12, 0, 6, 4], None),
        (&[12, 7, 7, 0, 0], Some(&[0, 0])),
        (&[12, 7, 8, 0, 0], None),
        (&[10, 0, 5, 0, 5], Some(&[0, 1])),
        (&[6, 0, 5, 2, 3], Some(&[1, 1])),
        (&[2, 1, 0, 1, 1, 1, 1, 1, 1, 1, 1], Some(&[0, 0, 0, 0, 0, 0, 0, 1])),
        (&[256, 0, 255, 1, 2, 4, 8, 16, 32, 64, 128], Some(&[1, 1, 1, 1, 1, 1, 1, 1])),
        (&[65_536, 0, 65_535, 1, 2, 4, 8, 16, 32, 64, 128], Some(&[1, 1, 1, 1, 1, 1, 1, 511])),
        (&[65_536, 65_535, 65_534, 1], Some(&[65_535])),
        (&[65_521, 65_520, 0, 65_520], Some(&[65_520])),
    ];
    for (numbers, found) in cases {
        let (call, length) = (call(numbers), numbers.len() - 3);
        let counts = found.map(|found| [found, &[0; MOST_INCREMENTS][length..]].concat().try_into().expect("eight counts"));
        if length < 3 {
            same("the search", &[], (call, call.searched()), (call, counts));
        }
        let first = Dial::new(call.modulus, call.increments).first(call.start, call.wanted);
        same("the lists", &[], (call, first), (call, counts));
        test.turn_any(call);
    }
}

/// Every row of so many numbers below a modulus.
fn rows(modulus: u64, length: usize) -> Vec<Vec<u64>> {
    let mut all = vec![vec![]];
    for _ in 0..length {
        all = all.iter().flat_map(|row| (0..modulus).map(move |number| [&row[..], &[number]].concat())).collect();
    }
    all
}

/// Every call with a small modulus and a few increments, and with the least of them every number of increments.
fn small(test: &mut Test) {
    for (modulus, most) in [(2, 8), (3, 6), (4, 4), (5, 3), (6, 3)] {
        for increments in (1..=most).flat_map(|length| rows(modulus, length)) {
            let dial = Dial::new(modulus, &increments);
            for start in 0..modulus {
                for wanted in 0..modulus {
                    let call = Call { modulus, start, wanted, increments: &increments };
                    same("search and lists", &[], (call, call.searched()), (call, dial.first(start, wanted)));
                    test.turn(&dial, start, wanted);
                }
            }
        }
    }
}

/// Moduli with many divisors, and primes.
const DIVIDED: [u64; 14] = [12, 30, 60, 210, 360, 840, 2_520, 5_040, 30_030, 46_368, 50_400, 55_440, 59_049, 65_520];
const PRIMES: [u64; 12] = [2, 3, 5, 7, 13, 97, 251, 257, 1_009, 32_749, 65_519, 65_521];

/// A modulus up to a limit.
fn modulus(rng: &mut Random, most: u64) -> u64 {
    let chosen = match rng.below(5) {
        0 => rng.pick(&PRIMES),
        1 | 2 => rng.pick(&DIVIDED),
        3 => 2 << rng.below(16),
        _ => LEAST_MODULUS + rng.next() % (most - 1),
    };
    if chosen <= most {
        chosen
    } else {
        modulus(rng, most)
    }
}

/// Divisors of a modulus that fall from the last to the first, mostly by as little as they can, down to 1.
fn falling(rng: &mut Random, divisors: &[u64], modulus: u64, length: usize) -> Vec<u64> {
    let (mut last, mut all) = (modulus, Vec::new());
    for _ in 0..length {
        let below: Vec<u64> = divisors.iter().copied().filter(|divisor| *divisor < last && last % divisor == 0).collect();
        last = match below.last() {
            None => 1,
            Some(_) if rng.one_in(5) => rng.pick(&below),
            Some(greatest) => *greatest,
        };
        all.push(last);
    }
    all.reverse();
    all
}

/// So many increments: any, multiples of one divisor of the modulus, of a divisor each, or of divisors that fall, so that each increment
/// leads where those behind it do not. Now and then some are 0, or all are extremes.
fn increments(rng: &mut Random, modulus: u64, length: usize) -> Vec<u64> {
    let divisors: Vec<u64> = (1..modulus).filter(|number| modulus % number == 0).collect();
    let bases = match rng.below(4) {
        0 => vec![1; length],
        1 => vec![rng.pick(&divisors); length],
        2 => (0..length).map(|_| rng.pick(&divisors)).collect(),
        _ => falling(rng, &divisors, modulus, length),
    };
    let (zeros, extremes) = (rng.one_in(5), rng.one_in(8));
    let increment = |base: u64| match rng.below(3) {
        0 if zeros => 0,
        _ if extremes => rng.pick(&[0, 1, 2 % modulus, modulus / 2, modulus - 1]),
        1 => base,
        _ => base * (1 + rng.next() % (modulus / base)) % modulus,
    };
    bases.into_iter().map(increment).collect()
}

/// Calls of one counter with its increments: start and wanted value equal, an increment or a use of each apart either way, any way that can
/// be gone, the longest one up and down, and any other.
fn turns(test: &mut Test, modulus: u64, increments: &[u64]) {
    let dial = Dial::new(modulus, increments);
    let gone: u64 = increments.iter().map(|increment| increment * (test.rng.next() % modulus) % modulus).sum();
    let each: u64 = increments.iter().sum();
    let (first, last) = (increments[0], increments[increments.len() - 1]);
    for way in [0, first, last, each, gone, test.rng.next() % modulus].map(|way| way % modulus) {
        let start = test.rng.next() % modulus;
        test.turn(&dial, start, (start + way) % modulus);
        test.turn(&dial, start, (start + modulus - way) % modulus);
    }
    test.turn(&dial, 0, modulus - 1);
    test.turn(&dial, modulus - 1, 0);
}

/// So many counters with a modulus up to a limit, with every number of increments in turn.
fn random(test: &mut Test, count: usize, most: u64) {
    for i in 0..count {
        let modulus = modulus(&mut test.rng, most);
        let increments = increments(&mut test.rng, modulus, 1 + i % MOST_INCREMENTS);
        turns(test, modulus, &increments);
    }
}

/// The greatest moduli with eight increments, so many of each; and divisors of 65,536 that fall one by one.
fn greatest(test: &mut Test, count: usize) {
    for modulus in [MOST_MODULUS, MOST_MODULUS - 1, 65_521, 65_520] {
        for _ in 0..count {
            let increments = increments(&mut test.rng, modulus, MOST_INCREMENTS);
            turns(test, modulus, &increments);
        }
    }
    for power in 0..=8 {
        turns(test, MOST_MODULUS, &[0, 1, 2, 3, 4, 5, 6, 7].map(|i| 1 << (power + i)));
        turns(test, MOST_MODULUS, &[7, 6, 5, 4, 3, 2, 1, 0].map(|i| 1 << (power + i)));
    }
}

/// Rows in which each number is the sum of the two before make Euclid's algorithm as long as it gets. Each modulus is a number of such a row
/// or a multiple, and the increments are those before it, the nearest alone, last or first, or with 0 behind it.
fn slow(test: &mut Test) {
    for (first, second) in [(1, 1), (1, 3), (1, 4), (2, 5)] {
        let mut row = vec![first, second];
        while row[row.len() - 1] <= MOST_MODULUS {
            let (&modulus, before) = row.split_last().expect("numbers");
            for factor in [1, 2, 12].into_iter().filter(|factor| modulus > 1 && factor * modulus <= MOST_MODULUS) {
                let down: Vec<u64> = before.iter().rev().take(MOST_INCREMENTS).map(|number| factor * number).collect();
                let (up, nearest): (Vec<u64>, u64) = (down.iter().rev().copied().collect(), down[0]);
                for increments in [&up[..], &down, &[nearest], &[nearest, 0], &[0, nearest]] {
                    turns(test, factor * modulus, increments);
                }
            }
            row.push(row[row.len() - 2] + modulus);
        }
    }
}

/// Increments that are 0 in every set of places.
fn zeros(test: &mut Test) {
    for length in 1..=MOST_INCREMENTS {
        for set in 0..1 << length {
            let modulus = test.rng.pick(&[12, 36, 64, 97, 210]);
            let mut increments = increments(&mut test.rng, modulus, length);
            (0..length).filter(|place| set >> place & 1 == 1).for_each(|place| increments[place] = 0);
            turns(test, modulus, &increments);
        }
    }
}

/// The numbers of a call that is fine, in a row.
fn fine(rng: &mut Random, modulus: u64, length: usize) -> Vec<u64> {
    [modulus].into_iter().chain((0..length + 2).map(|_| rng.next() % modulus)).collect()
}

/// A call with other numbers in some places.
fn turn_with(test: &mut Test, numbers: &[u64], places: &[usize], number: u64) {
    let mut numbers = numbers.to_vec();
    places.iter().for_each(|place| numbers[*place] = number);
    test.turn_any(call(&numbers));
}

/// Each number of a call that is fine, but the modulus, at its limits and beyond, about the ends of 64 bits, and fine but for upper bits.
fn each_number(test: &mut Test, modulus: u64, length: usize) {
    let numbers = fine(&mut test.rng, modulus, length);
    for place in 1..numbers.len() {
        let number = numbers[place];
        let ends = [i64::MAX as u64, 1 << 63, u64::MAX - modulus, u64::MAX - 1, u64::MAX, number.wrapping_sub(modulus)];
        for number in [0, modulus - 1, modulus, modulus + 1, modulus + number].into_iter().chain(ends) {
            turn_with(test, &numbers, &[place], number);
        }
        for power in (16..64).map(|bits| 1 << bits) {
            [power, power + number, power + modulus - 1].into_iter().for_each(|n| turn_with(test, &numbers, &[place], n));
        }
    }
}

/// Moduli about their limits, about the ends of 64 bits, and fine but for upper bits, with numbers that are below them or all 0.
fn each_modulus(test: &mut Test, length: usize) {
    let ends = [i64::MAX as u64, 1 << 63, u64::MAX - 11, u64::MAX - 1, u64::MAX];
    let powers =
        (16..64).map(|bits| 1 << bits).flat_map(|power| [power - 1, power, power + 1, power + 2, power + 12, power + 65_536]);
    for modulus in (0..20).chain(65_530..65_545).chain(ends).chain(powers) {
        let mut numbers = vec![0; length + 3];
        turn_with(test, &numbers, &[0], modulus);
        numbers[1..].fill(1);
        turn_with(test, &numbers, &[0], modulus);
        numbers[1] = 0;
        turn_with(test, &numbers, &[0], modulus);
    }
}

/// No increments, or too many, also so many that they are few where upper bits are dropped; all fine, or any.
fn each_length(test: &mut Test) {
    for length in [0].into_iter().chain(9..=24).chain(254..=266).chain([4_096, 4_097]).chain(65_535..=65_545) {
        let mut numbers = fine(&mut test.rng, 12, length);
        test.turn_any(call(&numbers));
        numbers[3..].fill_with(|| test.rng.next());
        test.turn_any(call(&numbers));
    }
}

/// Two numbers that are not allowed at once, and all of them.
fn more_faults(test: &mut Test, length: usize) {
    let numbers = fine(&mut test.rng, 360, length);
    for one in 0..numbers.len() {
        for other in one + 1..numbers.len() {
            [65_537, u64::MAX].into_iter().for_each(|number| turn_with(test, &numbers, &[one, other], number));
        }
    }
    let all: Vec<usize> = (0..numbers.len()).collect();
    [0, 1, 65_537, u64::MAX].into_iter().for_each(|number| turn_with(test, &numbers, &all, number));
}

/// Increments among other numbers, before and behind them, that are allowed as well, and then are not.
fn among_others(test: &mut Test, length: usize) {
    for modulus in [12, 97, 360] {
        let mut numbers: Vec<u64> = (0..2 + 3 * MOST_INCREMENTS).map(|_| test.rng.next() % modulus).collect();
        let (first, end) = (2 + MOST_INCREMENTS, 2 + MOST_INCREMENTS + length);
        for _ in 0..2 {
            test.turn_any(Call { modulus, start: numbers[0], wanted: numbers[1], increments: &numbers[first..end] });
            numbers[2..first].fill(test.rng.next());
            numbers[end..].fill(test.rng.next());
        }
    }
}

/// Random calls within the limits with one or two numbers changed to some of any length.
fn changed(test: &mut Test, count: usize) {
    for i in 0..count {
        let modulus = modulus(&mut test.rng, 1_000);
        let mut numbers = fine(&mut test.rng, modulus, 1 + i % MOST_INCREMENTS);
        for _ in 0..=test.rng.below(2) {
            let place = test.rng.below(numbers.len());
            numbers[place] = test.rng.next() >> test.rng.below(64);
        }
        test.turn_any(call(&numbers));
    }
}

pub fn test(test: &mut Test, count: usize) {
    known(test);
    small(test);
    random(test, count, 400);
    random(test, count / 5, MOST_MODULUS);
    greatest(test, count / 200);
    slow(test);
    zeros(test);
    for length in 1..=MOST_INCREMENTS {
        [2, 12, 65_521, MOST_MODULUS].into_iter().for_each(|modulus| each_number(test, modulus, length));
        each_modulus(test, length);
        more_faults(test, length);
        among_others(test, length);
    }
    each_length(test);
    changed(test, count);
}
