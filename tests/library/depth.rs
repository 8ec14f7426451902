//! The settling depth: of every chart that is checked, of random accepted charts, and of rows whose depth is known.

use crate::charts::{self, Chart};
use crate::library::{self, raw};
use crate::sheets::Refusal;
use crate::{generate, machines, plain, range, rows, same, told, Test};
use std::collections::BTreeSet;

/// The greatest depth that a chart can have.
const DEEPEST: usize = 253;

/// Up to so many entries, all that is read from the blocks of a chart is listed.
const LISTED: usize = 50_000;

impl Test {
    /// The settling depth of any bytes, taken for a chart, whose check gave this: as C calls it and by the safe function.
    pub fn depth(&mut self, bytes: &[u8], checked: &Result<Chart, Refusal>) {
        let expected = match checked {
            Ok(chart) => {
                self.settled(bytes, chart);
                Ok(chart.depth)
            }
            Err(refusal) => {
                self.count(format!("depth: refused {}", refusal.number));
                Err(*refusal)
            }
        };
        let mut returned = self.noise();
        let number = raw::depth(bytes, &mut returned);
        same("depth", bytes, (number, returned), told(expected));
        same("safe depth", bytes, library::depth(bytes).map_err(plain), expected);
    }

    /// The depth of an accepted chart, held to its bound, and to the list of all readings where that is short.
    fn settled(&mut self, bytes: &[u8], chart: &Chart) {
        let (depth, blocks) = (chart.depth, chart.records.len());
        if let Some(listed) = charts::depth_by_listing(chart, LISTED) {
            same("depth by all sequences", bytes, listed, depth);
            self.count(format!("depth by all sequences: {}", range(depth, DEEPEST)));
        }
        let bound = blocks - chart.records.iter().map(|r| r.label).collect::<BTreeSet<_>>().len();
        same("depth within its bound", bytes, depth <= bound, true);
        self.count(if depth == bound { "depth at its bound" } else { "depth below its bound" });
        self.count(format!("depth: {}", range(depth, DEEPEST)));
        match blocks {
            1 => self.count("depth of 1 block"),
            255 => self.count(format!("depth of 255 blocks: {}", range(depth, DEEPEST))),
            _ => {}
        }
    }

    /// A chart whose answer is known.
    pub fn known_depth(&mut self, what: &str, bytes: &[u8], expected: Result<usize, Refusal>) {
        let checked = self.checked_chart(bytes);
        same(what, bytes, checked.map(|chart| chart.depth), expected);
    }
}

/// What must have come.
pub fn kinds() -> Vec<String> {
    let depths = |what: &str, ranges: &[&str]| ranges.iter().map(|range| format!("{what}{range}")).collect::<Vec<_>>();
    let mut all = depths("depth: ", &["0", "1", "2", "3 to 5", "6 to 50", "51 to 252", "253"]);
    all.extend(depths("depth by all sequences: ", &["0", "1", "2", "3 to 5", "6 to 50"]));
    all.extend(depths("depth of 255 blocks: ", &["0", "6 to 50", "51 to 252", "253"]));
    all.extend(depths("random chart of 6 blocks or more: depth ", &["0", "1", "2", "3 to 5", "6 to 50", "51 to 252"]));
    all.extend([1, 2, 3, 4, 12, 13, 14].map(|number| format!("depth: refused {number}")));
    all.extend(["depth at its bound", "depth below its bound", "depth of 1 block"].map(String::from));
    all
}

/// Rows of a few blocks, and of as many as there can be.
fn known(test: &mut Test) {
    for count in [1usize, 2, 3, 4, 50, 254, 255] {
        let deepest = Ok(count.saturating_sub(2));
        for actions in [1, 2, 8] {
            test.known_depth("labels that all differ", &rows::different(count, actions), Ok(0));
            for advancing in [0, actions - 1] {
                test.known_depth("a chain by one action", &rows::chain(count, actions, |a| a == advancing), deepest);
            }
            test.known_depth("a chain by all actions", &rows::chain(count, actions, |_| true), deepest);
        }
        for actions in [2, 8] {
            test.known_depth("a chain back", &rows::chain_back(count, actions), deepest);
        }
    }
    for count in [2, 3, 4, 5, 6, 7, 50, 254, 255] {
        test.known_depth("a gate", &rows::gate(count), Ok((count - 2) / 2));
    }
    for (count, actions) in [(3, 2), (4, 2), (50, 3), (255, 8)] {
        let last = 7 + (count - 1) * (2 + actions);
        let refused = |number| Err(Refusal { number, returned: last });
        test.known_depth("a twin at the end", &rows::refused_14(count, actions), refused(14));
        test.known_depth("a bar at the end", &rows::refused_13(count, actions), refused(13));
    }
}

fn damaged(test: &mut Test, bytes: &[u8]) {
    let damaged = generate::damaged(&mut test.rng, bytes);
    let _ = test.checked_chart(&damaged);
}

/// Random accepted charts, and the same damaged.
fn random(test: &mut Test, count: usize) {
    for _ in 0..count {
        let bytes = machines::chart(&mut test.rng);
        let depth = test.checked_chart(&bytes).map(|chart| chart.depth);
        same("whether a random chart is accepted", &bytes, depth.is_ok(), true);
        if let (Ok(depth), 6..) = (depth, bytes[6]) {
            test.count(format!("random chart of 6 blocks or more: depth {}", range(depth, DEEPEST)));
        }
        damaged(test, &bytes);
    }
}

pub fn test(test: &mut Test, count: usize) {
    known(test);
    random(test, count);
    for _ in 0..count / 80 {
        damaged(test, &rows::gate(255));
        damaged(test, &rows::chain(255, 8, |a| a == 7));
    }
}
