//! The benchmark of ways to blocks: `pilfstera_way`, making the chart and searching it in plain Rust, and making the chart alone.

use crate::measure::{plain, Benchmark, Column, Outcome, Told};
use crate::{inputs, pilfstera};

/// A sheet, and a block of its chart.
pub struct Asked {
    sheet: Vec<u8>,
    block: usize,
}

// Instructions are counted within the library's exports, and within the plain search, which calls one of them, by its name. The way is left
// where the other benchmarks have a chart.

fn by_library(asked: &Asked, out: &mut Outcome) -> bool {
    out.answer = pilfstera::way(&asked.sheet, asked.block, &mut out.chart).map_err(plain);
    true
}

/// A chart in a buffer of its own, and the number of blocks.
fn charted(sheet: &[u8], chart: &mut [u8], out: &mut Outcome) -> Option<usize> {
    match pilfstera::make(sheet, chart, &mut out.list) {
        Ok(blocks) => Some(blocks),
        Err(refusal) => {
            out.answer = Err(plain(refusal));
            None
        }
    }
}

/// Breadth first over the chart's targets, with the way to each block that was found.
#[no_mangle]
#[inline(never)]
fn by_searching(asked: &Asked, out: &mut Outcome) -> bool {
    let mut chart = [0; pilfstera::LONGEST_CHART];
    let Some(blocks) = charted(&asked.sheet, &mut chart, out) else { return true };
    let actions = usize::from(chart[5]);
    let (mut ways, mut queue, mut at) = (vec![None; blocks], vec![0], 0);
    ways[0] = Some(Vec::new());
    while let (None, Some(block)) = (&ways[asked.block], queue.get(at).copied()) {
        for (a, to) in chart[9 + block * (2 + actions)..][..actions].iter().enumerate() {
            let to = usize::from(*to);
            if to != 255 && ways[to].is_none() {
                let before: &Vec<u8> = ways[block].as_ref().expect("a way to what is in the queue");
                ways[to] = Some([&before[..], &[a as u8]].concat());
                queue.push(to);
            }
        }
        at += 1;
    }
    let way = ways[asked.block].as_ref().expect("a way to each block");
    out.chart[..way.len()].copy_from_slice(way);
    out.answer = Ok(way.len());
    true
}

fn by_making(asked: &Asked, out: &mut Outcome) -> bool {
    let mut chart = [0; pilfstera::LONGEST_CHART];
    charted(&asked.sheet, &mut chart, out);
    true
}

/// The way to the last block of each sheet that is measured, whose name begins with the number of its blocks; where it is refused, block 0 is
/// asked for. No call of the library stands here, for its instructions would be counted.
fn asked() -> Vec<(&'static str, Box<Asked>)> {
    let last = |name: &str| name.split(' ').next().and_then(|word| word.parse::<usize>().ok()).map_or(0, |blocks| blocks - 1);
    let quick = inputs::all().into_iter().filter(|(name, _)| !name.contains("hub") && !name.contains("twin"));
    quick.map(|(name, sheet)| (name, Box::new(Asked { block: last(name), sheet }))).collect()
}

pub fn benchmark() -> Benchmark<Asked> {
    Benchmark {
        name: "ways",
        inputs: asked(),
        versions: &[("pilfstera_way", by_library), ("by_searching", by_searching), ("pilfstera_make", by_making)],
        // making gives no way, and is there for its time alone; a list is no part of a way
        agree: |first, other| other.answer == Ok(0) || (other.answer, &other.chart) == (first.answer, &first.chart),
        told: Told::Least,
        columns: &[
            ("Library", Column::Of(0)),
            ("by searching", Column::Of(1)),
            ("ratio", Column::Ratio(0, 1)),
            ("making alone", Column::Of(2)),
            ("ratio", Column::Ratio(0, 2)),
        ],
    }
}
