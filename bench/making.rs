//! The benchmark of making charts: `pilfstera_make`, a straightforward Rust version of its algorithm, and listing every configuration.

use crate::measure::{boxed, plain, Benchmark, Column, Outcome, Told};
use crate::{inputs, pilfstera, sheets, straightforward};

/// Listing is left out above so many configurations.
const MOST_CONFIGURATIONS: u64 = 20_000_000;

/// The straightforward versions are left out above so many turns of a row.
const MOST_TURNS: u64 = 20_000_000;

// Each version is a function of its own name, so that instructions can be counted within it alone. That of the library is its export.

fn by_library(sheet: &[u8], out: &mut Outcome) -> bool {
    out.answer = pilfstera::make(sheet, &mut out.chart, &mut out.list).map_err(plain);
    true
}

/// False where it would take too long, as in the two below.
#[no_mangle]
#[inline(never)]
fn by_passes(sheet: &[u8], out: &mut Outcome) -> bool {
    let made = straightforward::make::<false>(sheet, &mut out.chart, &mut out.list, MOST_TURNS);
    made.map(|answer| out.answer = answer).is_some()
}

#[no_mangle]
#[inline(never)]
fn by_work_list(sheet: &[u8], out: &mut Outcome) -> bool {
    let made = straightforward::make::<true>(sheet, &mut out.chart, &mut out.list, MOST_TURNS);
    made.map(|answer| out.answer = answer).is_some()
}

#[no_mangle]
#[inline(never)]
fn by_listing(bytes: &[u8], out: &mut Outcome) -> bool {
    let sheet = sheets::check_but_landing(bytes).expect("an accepted sheet");
    if sheets::configurations(&sheet) > MOST_CONFIGURATIONS {
        return false;
    }
    out.answer = sheets::make(&sheet).map(|made| {
        out.chart[..made.chart.len()].copy_from_slice(&made.chart);
        out.list[..made.list.len()].copy_from_slice(&made.list);
        made.blocks
    });
    true
}

pub fn benchmark() -> Benchmark<[u8]> {
    Benchmark {
        name: "sheets",
        inputs: boxed(inputs::all()),
        versions: &[
            ("pilfstera_make", by_library),
            ("by_passes", by_passes),
            ("by_work_list", by_work_list),
            ("by_listing", by_listing),
        ],
        agree: |first, other| first == other,
        told: Told::Least,
        columns: &[
            ("Library", Column::Of(0)),
            ("(a)", Column::Of(1)),
            ("ratio", Column::Ratio(0, 1)),
            ("(a')", Column::Of(2)),
            ("ratio", Column::Ratio(0, 2)),
            ("(b)", Column::Of(3)),
            ("ratio", Column::Ratio(0, 3)),
        ],
    }
}
