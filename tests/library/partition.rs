//! The coarsest partition of numbers that refines a given one and that partial functions respect, and its parts in the order in which a walk
//! from one number names them. A part is split by the preimages of the others; of the two halves of a part only the smaller is tried as a
//! splitter again (Hopcroft), so that many rounds cost little.

use std::collections::HashMap;

/// Where a function is not defined.
pub const NONE: u32 = u32::MAX;

/// For each number those that a function leads to it.
struct Preimages {
    first: Vec<u32>,
    from: Vec<u32>,
}

fn preimages(count: usize, next: impl Fn(usize) -> u32) -> Preimages {
    let mut first = vec![0; count + 1];
    let defined = || (0..count).filter(|k| next(*k) != NONE);
    defined().for_each(|k| first[next(k) as usize] += 1);
    let mut sum = 0;
    for f in &mut first {
        sum += *f;
        *f = sum;
    }
    let mut from = vec![0; sum as usize];
    for k in defined() {
        let f = &mut first[next(k) as usize];
        *f -= 1;
        from[*f as usize] = k as u32;
    }
    Preimages { first, from }
}

impl Preimages {
    fn of(&self, k: u32) -> &[u32] {
        &self.from[self.first[k as usize] as usize..self.first[k as usize + 1] as usize]
    }
}

struct Partition {
    /// All numbers, part after part, and the place of each.
    members: Vec<u32>,
    place: Vec<u32>,
    part: Vec<u32>,
    /// Of each part: its first member, how many there are, and how many of the first of them are taken.
    parts: Vec<(usize, usize, usize)>,
}

impl Partition {
    /// Parts are the runs of equal names.
    fn of_runs(names: &[u32]) -> Self {
        let count = names.len() as u32;
        let mut parts = Vec::new();
        let mut part = Vec::new();
        for run in names.chunk_by(|a, b| a == b) {
            parts.push((part.len(), run.len(), 0));
            part.resize(part.len() + run.len(), parts.len() as u32 - 1);
        }
        Partition { members: (0..count).collect(), place: (0..count).collect(), part, parts }
    }

    fn members(&self, part: u32) -> &[u32] {
        let (first, count, _) = self.parts[part as usize];
        &self.members[first..first + count]
    }

    /// Takes a number; its part, if nothing of it was taken before.
    fn take(&mut self, k: u32) -> Option<u32> {
        let part = self.part[k as usize];
        let (first, _, taken) = &mut self.parts[part as usize];
        let (from, to) = (self.place[k as usize] as usize, *first + *taken);
        let other = self.members[to];
        self.members.swap(from, to);
        (self.place[k as usize], self.place[other as usize]) = (to as u32, from as u32);
        *taken += 1;
        (*taken == 1).then_some(part)
    }

    /// Parts what was taken from the rest; the smaller half is a new part, if the other has a member.
    fn split(&mut self, part: u32) -> Option<u32> {
        let (first, count, taken) = self.parts[part as usize];
        let (front, back) = ((first, taken, 0), (first + taken, count - taken, 0));
        self.parts[part as usize].2 = 0;
        if taken == count {
            return None;
        }
        let (small, large) = if taken <= count - taken { (front, back) } else { (back, front) };
        let new = self.parts.len() as u32;
        self.parts[part as usize] = large;
        self.parts.push(small);
        for k in &self.members[small.0..small.0 + small.1] {
            self.part[*k as usize] = new;
        }
        Some(new)
    }
}

/// The part of each number: those of the runs of equal names, refined until each function leads the members of a part into one part.
/// On a run each function is defined everywhere or nowhere. Function a leads k to `next[k * functions + a]`.
pub fn refine(names: &[u32], next: &[u32], functions: usize) -> Vec<u32> {
    let mut partition = Partition::of_runs(names);
    let inverses: Vec<Preimages> = (0..functions).map(|a| preimages(names.len(), |k| next[k * functions + a])).collect();
    let mut splitters: Vec<u32> = (0..partition.parts.len() as u32).collect();
    while let Some(splitter) = splitters.pop() {
        let members = partition.members(splitter).to_vec();
        for inverse in &inverses {
            let taken = members.iter().flat_map(|k| inverse.of(*k)).filter_map(|k| partition.take(*k)).collect::<Vec<u32>>();
            splitters.extend(taken.into_iter().filter_map(|part| partition.split(part)));
        }
    }
    partition.part
}

/// Numbers that stand for the parts that the functions lead to from a start, as first named, and the place there of each such part.
pub fn reach(start: usize, part: &[u32], next: &[u32], functions: usize) -> (Vec<usize>, HashMap<u32, usize>) {
    let (mut order, mut place) = (vec![start], HashMap::from([(part[start], 0)]));
    let mut at = 0;
    while at < order.len() {
        for to in &next[order[at] * functions..][..functions] {
            if *to != NONE && !place.contains_key(&part[*to as usize]) {
                place.insert(part[*to as usize], order.len());
                order.push(*to as usize);
            }
        }
        at += 1;
    }
    (order, place)
}
