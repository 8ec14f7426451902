//! Random accepted charts of up to 255 blocks: nodes with labels and targets, of which those that behave alike are one block. A machine that is
//! changed a little gives a chart that differs a little, and late, or not at all.

use crate::generate::encode_chart;
use crate::partition::{reach, refine, NONE};
use crate::random::Random;

/// Where an action may lead from a node, to one of so many: the first four lead to all nodes in time, or to most.
const STEPS: [fn(&mut Random, usize, usize) -> usize; 6] = [
    |rng, _, count| rng.below(count),
    |rng, i, count| (i + rng.below(4)).saturating_sub(1).min(count - 1),
    |_, i, count| (i + 1) % count,
    |_, i, count| (i + 1).min(count - 1),
    |_, i, count| count - 1 - i,
    |_, i, _| i,
];

/// The labels of so many nodes, where equal ones stand side by side. There are many, a few, or two; some differ in the upper byte alone.
fn labels(rng: &mut Random, count: usize) -> Vec<u32> {
    let ((mut label, by), often) = (rng.pick(&[(0, 1), (65_280, 1), (5, 256)]), rng.pick(&[1, 3, 30, 255]));
    let mut all = vec![label];
    for i in 1..count {
        if i + 1 == count || rng.one_in(often) {
            label += by;
        }
        all.push(label);
    }
    all
}

/// Where each action leads from each node. An action has its own kind of step, from which some nodes stray; nodes of one label bar the same.
fn targets(rng: &mut Random, labels: &[u32], actions: usize) -> Vec<u32> {
    let mut steps: Vec<_> = (0..actions).map(|_| rng.pick(&STEPS)).collect();
    steps[rng.below(actions)] = rng.pick(&STEPS[..4]);
    let stray = rng.pick(&[10, 100, 1000]);
    let mut next = Vec::new();
    for run in labels.chunk_by(|a, b| a == b) {
        let (begin, bars) = (next.len() / actions, if rng.one_in(3) { rng.byte() & rng.byte() } else { 0 });
        for i in begin..begin + run.len() {
            next.extend(steps.iter().enumerate().map(|(a, step)| match bars >> a & 1 {
                1 => NONE,
                _ if rng.one_in(stray) => rng.below(labels.len()) as u32,
                _ => step(rng, i, labels.len()) as u32,
            }));
        }
    }
    next
}

#[derive(Clone)]
pub struct Machine {
    actions: usize,
    labels: Vec<u32>,
    next: Vec<u32>,
    start: usize,
}

impl Machine {
    pub fn random(rng: &mut Random) -> Self {
        let (actions, most) = (rng.pick(&[1, 2, 2, 3, 8]), rng.pick(&[6, 40, 40, 120, 255]));
        let count = 1 + rng.below(most);
        let labels = labels(rng, count);
        let next = targets(rng, &labels, actions);
        let start = if rng.one_in(4) { rng.below(count) } else { 0 };
        Machine { actions, labels, next, start }
    }

    pub fn chart(&self) -> Vec<u8> {
        let Machine { actions, labels, next, start } = self;
        let part = refine(labels, next, *actions);
        let (order, place) = reach(*start, &part, next, *actions);
        let target = |to: &u32| if *to == NONE { 255 } else { place[&part[*to as usize]] as u8 };
        let block = |k: &usize| (labels[*k] as u16, next[k * actions..][..*actions].iter().map(target).collect());
        encode_chart(&order.iter().map(block).collect::<Vec<_>>())
    }

    /// One target another, if the action is open.
    pub fn with_target(mut self, rng: &mut Random) -> Self {
        let (at, count) = (rng.below(self.next.len()), self.labels.len());
        if self.next[at] != NONE {
            self.next[at] = rng.below(count) as u32;
        }
        self
    }

    /// An action that all nodes of one label bar is open there, or the other way round.
    pub fn with_bar(mut self, rng: &mut Random) -> Self {
        let (k, a, count) = (rng.below(self.labels.len()), rng.below(self.actions), self.labels.len());
        let barred = self.next[k * self.actions + a] == NONE;
        for i in (0..count).filter(|i| self.labels[*i] == self.labels[k]) {
            self.next[i * self.actions + a] = if barred { rng.below(count) as u32 } else { NONE };
        }
        self
    }
}

pub fn chart(rng: &mut Random) -> Vec<u8> {
    Machine::random(rng).chart()
}
