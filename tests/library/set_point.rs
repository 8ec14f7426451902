//! Set-points: the old value with which a carry rule comes to a wanted value, or just below. Every call is held to a search among all
//! remainders that there can be, and every answer to what a fitter reads from it; some answers are written down.

use crate::library::{self, raw, SetPoint};
use crate::random::Random;
use crate::sheets::{refuse, Refusal};
use crate::{plain, same, told, Test};

/// Document 02's limits: those of include/pilfstera.rs are under test.
const FACTOR_LIMIT: i64 = 100;
const OFFSET_LIMIT: i64 = 200_000_000;
const VALUE_LIMIT: i64 = 1_000_000;

/// The numbers of a call in their order, and the limit of each.
const NUMBERS: [&str; 3] = ["a factor", "an offset", "a wanted value"];
const LIMITS: [i64; 3] = [FACTOR_LIMIT, OFFSET_LIMIT, VALUE_LIMIT];

const ENDS: [i64; 3] = [i64::MIN, i64::MIN + 1, i64::MAX];

/// Numbers that are answered, with factors, offsets and wanted values of either sign, some just within their limits.
const FINE: [[i64; 3]; 6] =
    [[3, 5, 16], [-3, 5, 16], [7, -199_999_999, 999_999], [-99, 199_999_999, -999_999], [1, 0, 0], [-1, -40, -1]];

/// A factor, and old value and remainder for each of some offsets and wanted values.
type Answers<const N: usize> = (i64, [(i64, i64); N]);

/// Offset and wanted value, at and beside multiples of 1, 3 and 100, with distances on both sides of zero.
const NEAR: [(i64, i64); 11] = [(0, -6), (0, -5), (0, -4), (0, -1), (0, 0), (0, 1), (0, 4), (0, 5), (0, 6), (5, 16), (-5, -16)];
const NEAR_ANSWERS: [Answers<11>; 6] = [
    (1, [(-6, 0), (-5, 0), (-4, 0), (-1, 0), (0, 0), (1, 0), (4, 0), (5, 0), (6, 0), (11, 0), (-11, 0)]),
    (-1, [(6, 0), (5, 0), (4, 0), (1, 0), (0, 0), (-1, 0), (-4, 0), (-5, 0), (-6, 0), (-11, 0), (11, 0)]),
    (3, [(-2, 0), (-2, 1), (-2, 2), (-1, 2), (0, 0), (0, 1), (1, 1), (1, 2), (2, 0), (3, 2), (-4, 1)]),
    (-3, [(2, 0), (2, 1), (2, 2), (1, 2), (0, 0), (0, 1), (-1, 1), (-1, 2), (-2, 0), (-3, 2), (4, 1)]),
    (100, [(-1, 94), (-1, 95), (-1, 96), (-1, 99), (0, 0), (0, 1), (0, 4), (0, 5), (0, 6), (0, 11), (-1, 89)]),
    (-100, [(1, 94), (1, 95), (1, 96), (1, 99), (0, 0), (0, 1), (0, 4), (0, 5), (0, 6), (0, 11), (1, 89)]),
];

/// Offset and wanted value at their limits, in all signs.
const FAR: [(i64, i64); 4] =
    [(200_000_000, 1_000_000), (200_000_000, -1_000_000), (-200_000_000, 1_000_000), (-200_000_000, -1_000_000)];
const FAR_ANSWERS: [Answers<4>; 6] = [
    (1, [(-199_000_000, 0), (-201_000_000, 0), (201_000_000, 0), (199_000_000, 0)]),
    (-1, [(199_000_000, 0), (201_000_000, 0), (-201_000_000, 0), (-199_000_000, 0)]),
    (7, [(-28_428_572, 4), (-28_714_286, 2), (28_714_285, 5), (28_428_571, 3)]),
    (-7, [(28_428_572, 4), (28_714_286, 2), (-28_714_285, 5), (-28_428_571, 3)]),
    (100, [(-1_990_000, 0), (-2_010_000, 0), (2_010_000, 0), (1_990_000, 0)]),
    (-100, [(1_990_000, 0), (2_010_000, 0), (-2_010_000, 0), (-1_990_000, 0)]),
];

/// What is refused: each number one beyond its limit, factor 0, and the ends of 64 bits.
const REFUSED: [[i64; 3]; 14] = [
    [101, 0, 0],
    [-101, 0, 0],
    [0, 0, 0],
    [1, 200_000_001, 0],
    [1, -200_000_001, 0],
    [1, 0, 1_000_001],
    [1, 0, -1_000_001],
    [i64::MAX, 0, 0],
    [i64::MIN, 0, 0],
    [1, i64::MAX, 0],
    [1, i64::MIN, 0],
    [1, 0, i64::MAX],
    [1, 0, i64::MIN],
    [-1, i64::MIN, i64::MAX],
];

/// Offset and wanted value of set rules: these are refused whatever they set.
const SETS: [(i64, i64); 6] =
    [(0, 0), (16, 16), (-200_000_000, 1_000_000), (200_000_001, 0), (i64::MAX, i64::MAX), (i64::MIN, 0)];

/// What a call hands in: the kind of the rule, and factor, offset and wanted value.
#[derive(Clone, Copy, PartialEq, Eq, Debug)]
struct Call {
    kind: u8,
    numbers: [i64; 3],
}

/// A call for a carry rule.
fn carry(factor: i64, offset: i64, wanted: i64) -> Call {
    Call { kind: 1, numbers: [factor, offset, wanted] }
}

impl Call {
    /// The same with another number in a place.
    fn with(self, place: usize, number: i64) -> Call {
        let mut numbers = self.numbers;
        numbers[place] = number;
        Call { numbers, ..self }
    }

    /// The places of the numbers that are not allowed, and 3 for the kind.
    fn faults(self) -> Vec<usize> {
        let allowed = |place| match place {
            3 => self.kind == 1,
            _ => (-LIMITS[place]..=LIMITS[place]).contains(&self.numbers[place]) && (place > 0 || self.numbers[0] != 0),
        };
        (0..4).filter(|place| !allowed(*place)).collect()
    }

    /// What the call gives: the pair that is searched, or refusal 19.
    fn expected(self) -> Result<SetPoint, Refusal> {
        if self.faults().is_empty() {
            Ok(self.searched())
        } else {
            refuse(19, 0)
        }
    }

    /// The pair by trying every remainder, from 0 on, until the rest is a multiple of the factor.
    fn searched(self) -> SetPoint {
        let [factor, offset, wanted] = self.numbers.map(i128::from);
        let remainder = (0..factor.abs()).find(|r| (wanted - offset - r) % factor == 0).expect("a remainder");
        SetPoint { old: ((wanted - offset - remainder) / factor) as i64, remainder: remainder as i64 }
    }

    /// What a fitter reads from an answer, and that no other pair near by has an allowed remainder. The search plays no part here.
    fn law(self, answer: SetPoint) {
        let [factor, offset, wanted] = self.numbers.map(i128::from);
        let (old, remainder) = (i128::from(answer.old), i128::from(answer.remainder));
        let gives = |old: i128| factor * old + offset;
        same("an answer within its bounds", &[], (self, old.abs() <= 201_000_000, remainder <= 99), (self, true, true));
        same("what the old value gives", &[], (self, gives(old)), (self, wanted - remainder));
        let next = factor.signum();
        same("the next old value gives more", &[], (self, gives(old + next) > wanted), (self, true));
        same("the one before does not", &[], (self, gives(old - next) <= wanted), (self, true));
        let pairs = (old - 3..=old + 3).map(|x| (x, wanted - gives(x)));
        let allowed: Vec<_> = pairs.filter(|(_, r)| (0..factor.abs()).contains(r)).collect();
        same("pairs near by", &[], (self, allowed), (self, vec![(old, remainder)]));
    }

    /// What the call met, in a few words.
    fn met(self, expected: &Result<SetPoint, Refusal>) -> String {
        let [factor, offset, wanted] = self.numbers;
        let Ok(answer) = expected else {
            return match self.faults()[..] {
                [3] => "refused for its kind".into(),
                [0] if factor == 0 => "refused for factor 0".into(),
                [place] if self.numbers[place] < 0 => format!("refused for {} below its limits", NUMBERS[place]),
                [place] => format!("refused for {} above its limits", NUMBERS[place]),
                _ => "refused for more than one number".into(),
            };
        };
        let sign = |number: i64| ["negative", "no", "positive"][(number.signum() + 1) as usize];
        let remainder = match answer.remainder {
            0 => "0",
            r if r == factor.abs() - 1 => "at its greatest",
            _ => "between",
        };
        format!("{} factor, {} distance, remainder {remainder}", sign(factor), sign(wanted - offset))
    }
}

impl Test {
    /// One call, as C makes it, with noise in the numbers that are written, and by the safe function.
    fn set_point(&mut self, call: Call) {
        let expected = call.expected();
        let (kind, [factor, offset, wanted]) = (call.kind, call.numbers);
        let noise = SetPoint { old: self.rng.next() as i64, remainder: self.rng.next() as i64 };
        let (mut returned, mut written) = (self.noise(), noise);
        let number = raw::set_point(kind, factor, offset, wanted, &mut returned, &mut written.old, &mut written.remainder);
        same("answer of a set-point", &[], (call, (number, returned)), (call, told(expected.map(|_| 0))));
        if number == 0 {
            call.law(written);
        }
        same("old value and remainder", &[], (call, written), (call, expected.unwrap_or(noise)));
        let safe = library::set_point(kind, factor, offset, wanted).map_err(plain);
        same("safe set-point", &[], (call, safe), (call, expected));
        self.count(format!("set-point: {}", call.met(&expected)));
    }
}

/// What must have come.
pub fn kinds() -> Vec<String> {
    let mut all = ["its kind", "factor 0", "more than one number"].map(|why| format!("refused for {why}")).to_vec();
    for what in NUMBERS {
        all.extend(["below", "above"].map(|side| format!("refused for {what} {side} its limits")));
    }
    for factor in ["negative", "positive"] {
        all.push(format!("{factor} factor, no distance, remainder 0"));
        for distance in ["negative", "positive"] {
            let remainders = ["0", "between", "at its greatest"];
            all.extend(remainders.map(|remainder| format!("{factor} factor, {distance} distance, remainder {remainder}")));
        }
    }
    all.push("known answer".into());
    all.into_iter().map(|what| format!("set-point: {what}")).collect()
}

/// A carry rule of each factor, asked for each wanted value with its offset, and the answer.
fn answered<const N: usize, const M: usize>(asked: [(i64, i64); N], factors: [Answers<N>; M]) -> Vec<(Call, Result<SetPoint, Refusal>)> {
    let of_factor = |(factor, answers): Answers<N>| {
        let answer = move |((offset, wanted), (old, remainder))| (carry(factor, offset, wanted), Ok(SetPoint { old, remainder }));
        asked.into_iter().zip(answers).map(answer)
    };
    factors.into_iter().flat_map(of_factor).collect()
}

/// Calls whose answers are known, with every sign: the search is held to them too.
fn known(test: &mut Test) {
    let mut all = answered(NEAR, NEAR_ANSWERS);
    all.extend(answered(FAR, FAR_ANSWERS));
    all.extend(answered([(5, 14), (5, 4), (5, 2)], [(3, [(3, 0), (-1, 2), (-1, 0)]), (-3, [(-3, 0), (1, 2), (1, 0)])]));
    all.extend(REFUSED.map(|[factor, offset, wanted]| (carry(factor, offset, wanted), refuse(19, 0))));
    // the factor of a set rule in a sheet, and one that a carry rule may have
    for factor in [0, 1] {
        all.extend(SETS.map(|(offset, wanted)| (Call { kind: 0, numbers: [factor, offset, wanted] }, refuse(19, 0))));
    }
    for (call, known) in all {
        same("the search", &[], (call, call.expected()), (call, known));
        test.set_point(call);
        test.count("set-point: known answer");
    }
}

fn factors() -> impl Iterator<Item = i64> {
    (-FACTOR_LIMIT..=FACTOR_LIMIT).filter(|factor| *factor != 0)
}

/// Every factor, with all distances from offset to wanted value about some of its multiples, small ones and up to the ends of the distance.
/// There most wanted values ask for an offset that is refused.
fn multiples(test: &mut Test) {
    for factor in factors() {
        let (last, about) = ((OFFSET_LIMIT + VALUE_LIMIT) / factor, factor.abs() + 1);
        for multiple in (-3..=3).chain([-last, -last / 3, last / 2, last]) {
            for distance in multiple * factor - about..=multiple * factor + about {
                for wanted in [-VALUE_LIMIT, 0, VALUE_LIMIT, test.rng.between(-VALUE_LIMIT, VALUE_LIMIT)] {
                    test.set_point(carry(factor, wanted - distance, wanted));
                }
            }
        }
    }
}

/// Both limits, one less, and about 0.
fn extremes(limit: i64) -> [i64; 7] {
    [-limit, 1 - limit, -1, 0, 1, limit - 1, limit]
}

/// All extremes of offset and wanted value with a factor.
fn corners(test: &mut Test, factor: i64) {
    for offset in extremes(OFFSET_LIMIT) {
        for wanted in extremes(VALUE_LIMIT) {
            test.set_point(carry(factor, offset, wanted));
        }
    }
}

/// One number of a call that is fine: its extremes and beyond, the ends of 64 bits, and numbers that are fine where upper bits are dropped.
fn one_number(test: &mut Test, call: Call, place: usize) {
    let (fine, limit) = (call.numbers[place], LIMITS[place]);
    for number in extremes(limit).into_iter().chain([-limit - 1, limit + 1]).chain(ENDS) {
        test.set_point(call.with(place, number));
    }
    for power in (7..64).map(|bits| 1i64 << bits) {
        for number in [power, power.wrapping_neg(), fine.wrapping_add(power), fine.wrapping_sub(power)] {
            test.set_point(call.with(place, number));
        }
    }
}

/// The numbers of a fine call, each as it is and one beyond on both sides, in all places at once; and the ends of 64 bits likewise.
fn all_numbers(test: &mut Test, call: Call) {
    let beyond = [0, 1, 2].map(|place| [call.numbers[place], -LIMITS[place] - 1, LIMITS[place] + 1]);
    for [factors, offsets, values] in [beyond, [ENDS; 3]] {
        for factor in factors {
            for offset in offsets {
                values.into_iter().for_each(|wanted| test.set_point(carry(factor, offset, wanted)));
            }
        }
    }
}

/// Every other kind, with numbers that are fine and with noise.
fn other_kinds(test: &mut Test, fine: [i64; 3]) {
    for kind in (0..=255).filter(|kind| *kind != 1) {
        let noise = fine.map(|_| test.rng.next() as i64);
        [fine, noise].into_iter().for_each(|numbers| test.set_point(Call { kind, numbers }));
    }
}

/// A number within a limit, now and then small or close to the limit.
fn allowed(rng: &mut Random, limit: i64) -> i64 {
    match rng.below(4) {
        0 => rng.pick(&[-1, 1]) * (limit - rng.between(0, 3)),
        1 => rng.between(-9, 9),
        _ => rng.between(-limit, limit),
    }
}

/// Random calls within the limits, and the same with one or two places changed: a number of any length, or another kind.
fn random(test: &mut Test, count: usize) {
    for _ in 0..count {
        let mut call = Call { kind: 1, numbers: LIMITS.map(|limit| allowed(&mut test.rng, limit)) };
        test.set_point(call);
        for _ in 0..=test.rng.below(2) {
            match test.rng.below(4) {
                3 => call.kind = test.rng.byte(),
                place => call.numbers[place] = test.rng.next() as i64 >> test.rng.below(64),
            }
        }
        test.set_point(call);
    }
}

pub fn test(test: &mut Test, count: usize) {
    known(test);
    multiples(test);
    (-FACTOR_LIMIT..=FACTOR_LIMIT).for_each(|factor| corners(test, factor));
    for fine in FINE {
        let call = Call { kind: 1, numbers: fine };
        (0..3).for_each(|place| one_number(test, call, place));
        all_numbers(test, call);
        other_kinds(test, fine);
    }
    random(test, 2 * count);
}
