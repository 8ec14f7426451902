//! The benchmark of counters that go round: `pilfstera_go_round`, plain Rust by Euclid's algorithm, and plain Rust that lists every value that
//! increments reach.

use crate::measure::{plain, Benchmark, Column, Outcome, Told};
use crate::pilfstera::{self, LEAST_MODULUS, MOST_INCREMENTS, MOST_MODULUS};
use crate::sheets::Refusal;

/// What a call hands in.
pub struct Turn {
    modulus: u64,
    start: u64,
    wanted: u64,
    increments: Vec<u64>,
}

impl Turn {
    fn is_allowed(&self) -> bool {
        let below = |number: &u64| *number < self.modulus;
        (LEAST_MODULUS..=MOST_MODULUS).contains(&self.modulus)
            && (1..=MOST_INCREMENTS).contains(&self.increments.len())
            && [self.start, self.wanted].iter().chain(&self.increments).all(below)
    }

    /// How far the wanted value is from the start, going up.
    fn way(&self) -> u64 {
        (self.wanted + self.modulus - self.start) % self.modulus
    }
}

/// Stores counts, or none; or the refusal where there is no answer.
fn store(out: &mut Outcome, answer: Option<Option<[u64; MOST_INCREMENTS]>>) {
    out.answer = match answer {
        None => Err(Refusal { number: 22, returned: 0 }),
        Some(None) => Ok(0),
        Some(Some(counts)) => {
            out.counts = counts;
            Ok(MOST_INCREMENTS)
        }
    };
}

// Instructions are counted within the library's export, and within the plain versions by their names.

fn by_library(turn: &Turn, out: &mut Outcome) -> bool {
    match pilfstera::go_round(turn.modulus, turn.start, turn.wanted, &turn.increments) {
        Ok(counts) => store(out, Some(counts)),
        Err(refusal) => out.answer = Err(plain(refusal)),
    }
    true
}

/// The greatest common divisor of two numbers, and what the first is to be multiplied by to give it modulo the second.
fn divisor(number: u64, modulus: u64) -> (u64, u64) {
    let (mut high, mut low) = (modulus as i64, (number % modulus) as i64);
    let (mut of_high, mut of_low) = (0, 1);
    while low != 0 {
        let quotient = high / low;
        (high, low) = (low, high - quotient * low);
        (of_high, of_low) = (of_low, of_high - quotient * of_low);
    }
    (high as u64, of_high.rem_euclid(modulus as i64) as u64)
}

/// Each tail's divisor with the modulus is found once, from the last increment on; then each count is the least modulo what those behind it
/// cannot bring.
#[no_mangle]
#[inline(never)]
fn by_euclid(turn: &Turn, out: &mut Outcome) -> bool {
    if !turn.is_allowed() {
        store(out, None);
        return true;
    }
    let length = turn.increments.len();
    let (mut way, mut counts) = (turn.way(), [0; MOST_INCREMENTS]);
    let (mut divisors, mut factors) = ([turn.modulus; MOST_INCREMENTS + 1], [0; MOST_INCREMENTS]);
    for i in (0..length).rev() {
        (divisors[i], factors[i]) = divisor(turn.increments[i], divisors[i + 1]);
    }
    let reached = way % divisors[0] == 0;
    for i in (0..length).filter(|_| reached) {
        counts[i] = way / divisors[i] * factors[i] % (divisors[i + 1] / divisors[i]);
        way = (way + turn.modulus * turn.modulus - counts[i] * turn.increments[i]) % turn.modulus;
    }
    store(out, Some(reached.then_some(counts)));
    true
}

/// The values reached, and all that are when one increment more is used as often as one likes.
fn reached_with(increment: u64, reached: &[bool]) -> Vec<bool> {
    let mut more = reached.to_vec();
    for first in (0..reached.len()).filter(|value| reached[*value]) {
        let mut next = (first + increment as usize) % reached.len();
        while !more[next] {
            more[next] = true;
            next = (next + increment as usize) % reached.len();
        }
    }
    more
}

#[no_mangle]
#[inline(never)]
fn by_lists(turn: &Turn, out: &mut Outcome) -> bool {
    if !turn.is_allowed() {
        store(out, None);
        return true;
    }
    let (modulus, mut counts) = (turn.modulus, [0; MOST_INCREMENTS]);
    // from the whole row of increments to none, once the order is turned
    let mut tails: Vec<Vec<bool>> = vec![(0..modulus).map(|value| value == 0).collect()];
    turn.increments.iter().rev().for_each(|increment| tails.push(reached_with(*increment, &tails[tails.len() - 1])));
    tails.reverse();
    let mut way = turn.way() as usize;
    let reached = tails[0][way];
    for i in (0..turn.increments.len()).filter(|_| reached) {
        while !tails[i + 1][way] {
            way = (way + (modulus - turn.increments[i]) as usize) % modulus as usize;
            counts[i] += 1;
        }
    }
    store(out, Some(reached.then_some(counts)));
    true
}

fn turn(modulus: u64, start: u64, wanted: u64, increments: &[u64]) -> Box<Turn> {
    Box::new(Turn { modulus, start, wanted, increments: increments.to_vec() })
}

/// Fibonacci numbers make Euclid's algorithm long. Behind the last increment the divisor is the modulus, so it is longest with 28,657 there;
/// the divisor is then 1, and each other increment takes two divisions more: no input takes more than that one. Divisors of 62,500 fall by a
/// factor of 5, then of 2, those of 65,536 by 2.
fn inputs() -> Vec<(&'static str, Box<Turn>)> {
    let fibonacci = [987, 1_597, 2_584, 4_181, 6_765, 10_946, 17_711, 28_657];
    let last = [46_367, 46_366, 46_365, 46_364, 46_363, 46_362, 46_361, 28_657];
    let fives = [1, 2, 12, 60, 300, 1_500, 7_500, 37_500];
    let odd = [40_503, 25_033, 15_471, 9_563, 5_911, 3_653, 2_257, 1_395];
    let rising = [256, 512, 1_024, 2_048, 4_096, 8_192, 16_384, 32_768];
    let falling = [32_768, 16_384, 8_192, 4_096, 2_048, 1_024, 512, 256];
    let powers = [1, 2, 4, 8, 16, 32, 64, 128];
    vec![
        ("modulus 360, 2 increments", turn(360, 350, 25, &[90, 7])),
        ("modulus 360, 2 increments, two counts", turn(360, 350, 25, &[7, 90])),
        ("modulus 360, 2 increments, none", turn(360, 350, 25, &[90, 8])),
        ("modulus 360, 8 increments that are 0", turn(360, 350, 350, &[0; 8])),
        ("modulus 46,368, increment 28,657", turn(46_368, 0, 28_656, &[28_657])),
        ("modulus 46,368, 8 Fibonacci numbers", turn(46_368, 0, 28_656, &fibonacci)),
        ("modulus 46,368, 28,657 last of 8", turn(46_368, 0, 28_656, &last)),
        ("modulus 62,500, 8 falling divisors", turn(62_500, 1, 0, &fives)),
        ("modulus 65,536, 8 odd increments", turn(65_536, 1, 0, &odd)),
        ("modulus 65,536, 1 to 128 by doubling", turn(65_536, 1, 0, &powers)),
        ("modulus 65,536, 256 to 32,768 by doubling", turn(65_536, 256, 0, &rising)),
        ("modulus 65,536, 32,768 to 256 by halving", turn(65_536, 256, 0, &falling)),
        ("modulus 65,536, 8 increments, none", turn(65_536, 0, 65_535, &falling)),
        ("refused for the modulus", turn(65_537, 0, 1, &powers)),
        ("refused for the last of 8 increments", turn(128, 0, 1, &powers)),
    ]
}

pub fn benchmark() -> Benchmark<Turn> {
    Benchmark {
        name: "go_round",
        inputs: inputs(),
        versions: &[("by_lists", by_lists), ("by_euclid", by_euclid), ("pilfstera_go_round", by_library)],
        agree: |first, other| first == other,
        told: Told::Middle,
        columns: &[
            ("Library", Column::Of(2)),
            ("by Euclid", Column::Of(1)),
            ("ratio", Column::Ratio(2, 1)),
            ("by lists", Column::Of(0)),
            ("ratio", Column::Ratio(2, 0)),
        ],
    }
}
