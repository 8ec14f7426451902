//! The benchmark of logs: `pilfstera_first_difference`, plain Rust that stops at the first difference, and comparing both in full.

use crate::measure::{Benchmark, Column, Outcome, Told};
use crate::pilfstera;

/// Two logs laid beside each other.
pub struct Logs {
    first: Vec<u16>,
    second: Vec<u16>,
}

// Instructions are counted within the library's export, and within the plain versions by their names.

fn by_library(logs: &Logs, out: &mut Outcome) -> bool {
    out.answer = Ok(pilfstera::first_difference(&logs.first, &logs.second));
    true
}

#[no_mangle]
#[inline(never)]
fn by_stopping(logs: &Logs, out: &mut Outcome) -> bool {
    let shorter = logs.first.len().min(logs.second.len());
    out.answer = Ok(logs.first.iter().zip(&logs.second).position(|(a, b)| a != b).unwrap_or(shorter));
    true
}

#[no_mangle]
#[inline(never)]
fn in_full(logs: &Logs, out: &mut Outcome) -> bool {
    let shorter = logs.first.len().min(logs.second.len());
    let differing = (0..shorter).filter(|i| logs.first[*i] != logs.second[*i]);
    out.answer = Ok(differing.min().unwrap_or(shorter));
    true
}

/// A log of so many labels beside itself, with another label at an index if there is one.
fn logs(length: usize, changed: Option<usize>) -> Box<Logs> {
    let first: Vec<u16> = (0..length).map(|i| (i % 97) as u16).collect();
    let mut second = first.clone();
    if let Some(index) = changed {
        second[index] = 97;
    }
    Box::new(Logs { first, second })
}

/// A log beside its own beginning.
fn beginning(length: usize, begun: usize) -> Box<Logs> {
    let mut logs = logs(length, None);
    logs.second.truncate(begun);
    logs
}

pub fn benchmark() -> Benchmark<Logs> {
    const MILLION: usize = 1_000_000;
    Benchmark {
        name: "logs",
        inputs: vec![
            ("empty", logs(0, None)),
            ("4,097 entries, equal", logs(4097, None)),
            ("1,000,000 entries, equal", logs(MILLION, None)),
            ("1,000,000 entries, differing at the last", logs(MILLION, Some(MILLION - 1))),
            ("1,000,000 entries, differing at index 1,000", logs(MILLION, Some(1000))),
            ("1,000,000 entries, differing at the first", logs(MILLION, Some(0))),
            ("1,000,000 entries beside the first 4,097", beginning(MILLION, 4097)),
        ],
        versions: &[("in_full", in_full), ("by_stopping", by_stopping), ("pilfstera_first_difference", by_library)],
        agree: |first, other| first == other,
        told: Told::Least,
        columns: &[
            ("Library", Column::Of(2)),
            ("stopping", Column::Of(1)),
            ("ratio", Column::Ratio(2, 1)),
            ("in full", Column::Of(0)),
            ("ratio", Column::Ratio(2, 0)),
        ],
    }
}
