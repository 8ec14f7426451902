//! Sheets that work the refinement hard, by parameters: counter 0 is a place in a ring or a chain, and what the others have is known only
//! after many steps. With long ranges they are measured in bench/, with short ones every configuration can be listed.

use crate::generate::region;
use crate::random::Random;
use crate::sheets::{Move, Region, Rule, Sheet};

type Range = (i64, i64);

fn carry(source: usize, factor: i64, offset: i64) -> Rule {
    Rule::Carry { source, factor, offset }
}

fn keep(v: usize) -> Rule {
    carry(v, 1, 0)
}

fn to(target: u8, rules: Vec<Rule>) -> Option<Move> {
    Some(Move { target, rules })
}

fn barred(actions: usize) -> Vec<Option<Move>> {
    (0..actions).map(|_| None).collect()
}

/// A look at another place: what counters 1 and 2 had is forgotten, they get the old place, counted from the low ends.
fn look(target: u8, place: Rule, first_low: i64, second_low: i64) -> Option<Move> {
    to(target, vec![place, carry(0, 1, first_low), carry(0, 1, second_low)])
}

/// A ring through the places 0 to `end` of states 1 and 2, that runs against the order of the rows. A lap raises counter 1 by one on its way
/// from state 1 to 2, and counter 2 on its way back, until one of them is at its high end. Each look is one more action.
pub fn twin(end: i64, (low, high): Range, looks: &[(u8, i64)]) -> Sheet {
    let (inner, last) = ((low, high - 1), end - 1);
    let seen = |target: u8, place: Rule| look(target, place, low, low);
    let at = |label: u16, state: u8, places: Range, own: [Option<Move>; 3]| {
        let moves = own.into_iter().chain(looks.iter().map(|(state, place)| seen(*state, Rule::Set(*place))));
        region(label, state, vec![places, inner, inner], moves.collect())
    };
    let way = |label: u16, state: u8| {
        let down = to(state, vec![carry(0, 1, -1), keep(1), keep(2)]);
        at(label, state, (1, last), [down, seen(state, carry(0, 1, 1)), seen(state, carry(0, -1, end))])
    };
    let raise = |target: u8, first, second| to(target, vec![Rule::Set(last), carry(1, 1, first), carry(2, 1, second)]);
    let foot = |label: u16, state: u8, other: u8, on: Option<Move>| {
        at(label, state, (0, 0), [seen(other, Rule::Set(1)), on, seen(other, Rule::Set(1))])
    };
    let top = |label: u16, state: u8| at(label, state, (end, end), [(); 3].map(|()| seen(1, Rule::Set(0))));
    let over = |label: u16, state: u8, first: Range, second: Range| {
        region(label, state, vec![(last, last), first, second], barred(3 + looks.len()))
    };
    let regions = vec![
        way(1, 1),
        way(2, 2),
        foot(3, 1, 2, raise(2, 1, 0)),
        foot(4, 2, 1, to(3, vec![Rule::Set(0), keep(1), keep(2)])),
        foot(9, 3, 1, raise(1, 0, 1)),
        top(5, 1),
        top(6, 2),
        over(7, 2, (high, high), inner),
        over(8, 1, inner, (high, high)),
    ];
    Sheet { version: 1, counters: 3, actions: 3 + looks.len(), start: (2, vec![0, low, low]), regions }
}

/// A chain of the places 0 to `end` in state 0, each a new row only after many passes, and a hub in state 1 that all of them look at with
/// so many actions. The hub's own action raises counter 1 by one, so that each pass cuts the hub's row.
pub fn hub(end: i64, first: Range, second: Range, looks: usize) -> Sheet {
    let (low, high) = first;
    let with = |own: Option<Move>, place: fn() -> Rule| -> Vec<Option<Move>> {
        [own].into_iter().chain((0..looks).map(|_| look(1, place(), low, second.0))).collect()
    };
    let on = to(0, vec![carry(0, 1, 1), keep(1), keep(2)]);
    let raise = to(1, vec![keep(0), carry(1, 1, 1), keep(2)]);
    let regions = vec![
        region(1, 0, vec![(0, end - 1), first, second], with(on, || Rule::Set(0))),
        region(2, 0, vec![(end, end), first, second], with(None, || Rule::Set(0))),
        region(3, 1, vec![(0, 0), (low, high - 1), second], with(raise, || keep(0))),
        region(4, 1, vec![(0, 0), (high, high), second], barred(1 + looks)),
    ];
    Sheet { version: 1, counters: 3, actions: 1 + looks, start: (0, vec![0, low, second.0]), regions }
}

/// A ring of the places 0 to `end` that runs against the order of the rows. On leaving place 0, counter 1 is multiplied by the factor, so
/// that its 0 is told from the others of -span..span after some laps; on the way it is kept, or mirrored at each place.
pub fn doubling(end: i64, span: i64, factor: i64, mirrored: bool) -> Sheet {
    let (whole, part) = ((-span, span), span / factor.abs());
    let at = |label: u16, places: Range, values: Range, moves: Vec<Option<Move>>| region(label, 0, vec![places, values], moves);
    let clear = |place: Rule| to(0, vec![place, Rule::Set(0)]);
    let down = to(0, vec![carry(0, 1, -1), carry(1, if mirrored { -1 } else { 1 }, 0)]);
    let again = to(0, vec![Rule::Set(end), carry(1, factor, 0)]);
    let mut regions = vec![
        at(1, (1, end), whole, vec![down, clear(carry(0, 1, 1))]),
        at(2, (0, 0), (-part, part), vec![clear(Rule::Set(1)), again]),
    ];
    if part < span {
        regions.push(at(3, (0, 0), (part + 1, span), barred(2)));
        regions.push(at(4, (0, 0), (-span, -part - 1), barred(2)));
    }
    regions.push(at(5, (end + 1, end + 1), whole, vec![clear(keep(0)), clear(keep(0))]));
    Sheet { version: 1, counters: 2, actions: 2, start: (0, vec![0, 0]), regions }
}

/// One counter from 0 to `end`, where everything is barred: it is raised by one, mirrored, raised by one again, and set to each place that
/// is looked at: every row looks at these.
pub fn looked_at(end: i64, looks: &[i64]) -> Sheet {
    let one = |rule: Rule| to(0, vec![rule]);
    let own = [one(carry(0, 1, 1)), one(carry(0, -1, end)), one(carry(0, 1, 1))];
    let moves = own.into_iter().chain(looks.iter().map(|place| one(Rule::Set(*place))));
    let regions: Vec<Region> =
        vec![region(1, 0, vec![(0, end - 1)], moves.collect()), region(2, 0, vec![(end, end)], barred(3 + looks.len()))];
    Sheet { version: 1, counters: 1, actions: 3 + looks.len(), start: (0, vec![0]), regions }
}

fn small_twin(rng: &mut Random) -> Sheet {
    let (end, low) = (rng.between(3, 5), rng.between(-20, 5));
    let high = low + end + rng.between(1, 8);
    let looks: Vec<(u8, i64)> = (0..rng.below(3)).map(|_| (rng.pick(&[1, 2]), rng.between(1, end - 2))).collect();
    twin(end, (low, high), &looks)
}

fn small_hub(rng: &mut Random) -> Sheet {
    let (long, low) = (rng.one_in(12), rng.between(-40, 5));
    let end = if long { rng.between(1, 2) } else { rng.between(1, 20) };
    let high = low + if long { rng.between(252, 256) } else { end + rng.between(0, 8) };
    hub(end, (low, high), (low, low + end), 1 + rng.below(3))
}

/// One in six goes on for more than 255 passes after its last row was new.
fn small_doubling(rng: &mut Random) -> Sheet {
    let (factor, mirrored) = (rng.pick(&[2, 2, -2, 3, -3, 1, -1]), rng.one_in(2));
    if rng.one_in(6) {
        return doubling(rng.between(56, 64), rng.between(32, 36), rng.pick(&[2, -2]), mirrored);
    }
    if rng.one_in(6) {
        return doubling(rng.between(252, 256), rng.between(1, 4), factor, mirrored);
    }
    doubling(rng.between(1, 20), rng.between(1, 120), factor, mirrored)
}

fn small_looked_at(rng: &mut Random) -> Sheet {
    let (end, most) = if rng.one_in(10) { (rng.between(254, 257), 1) } else { (rng.between(2, 60), 5) };
    let looks: Vec<i64> = (0..rng.below(most + 1)).map(|_| rng.between(0, end)).collect();
    looked_at(end, &looks)
}

/// The kinds by name, each with random parameters so small that every configuration can be listed.
pub const SMALL: [(&str, fn(&mut Random) -> Sheet); 4] =
    [("twin", small_twin), ("hub", small_hub), ("doubling", small_doubling), ("looked-at chain", small_looked_at)];
