//! The benchmark of charts: `pilfstera_check_chart`, `pilfstera_depth`, and a plain Rust version of the rounds that both need.

use crate::measure::{boxed, plain, Benchmark, Column, Outcome, Told};
use crate::{charts, pilfstera, rounds};

/// Stands for the depth where a chart is accepted and no depth is told.
const ACCEPTED: usize = usize::MAX;

// Instructions are counted within the library's exports, and within the plain version by its name.

fn check_by_library(chart: &[u8], out: &mut Outcome) -> bool {
    out.answer = pilfstera::check_chart(chart).map(|()| ACCEPTED).map_err(plain);
    true
}

fn depth_by_library(chart: &[u8], out: &mut Outcome) -> bool {
    out.answer = pilfstera::depth(chart).map_err(plain);
    true
}

#[no_mangle]
#[inline(never)]
fn by_rounds(chart: &[u8], out: &mut Outcome) -> bool {
    out.answer = rounds::depth(chart);
    true
}

pub fn benchmark() -> Benchmark<[u8]> {
    Benchmark {
        name: "charts",
        inputs: boxed(charts::all()),
        versions: &[("by_rounds", by_rounds), ("pilfstera_check_chart", check_by_library), ("pilfstera_depth", depth_by_library)],
        agree: |first, other| first == other || (first.answer.is_ok() && other.answer == Ok(ACCEPTED)),
        told: Told::Least,
        columns: &[
            ("check", Column::Of(1)),
            ("depth", Column::Of(2)),
            ("(c)", Column::Of(0)),
            ("check to (c)", Column::Ratio(1, 0)),
            ("depth to (c)", Column::Ratio(2, 0)),
        ],
    }
}
