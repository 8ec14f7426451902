//! What the listing program must write for the sheet on standard input, by the independent implementation that lists every configuration.
//! Nothing is written, and the exit status is 2, where there are too many of them.

#[path = "../library/partition.rs"]
mod partition;
#[path = "../library/sheets.rs"]
#[allow(dead_code)]
mod sheets;

use sheets::{Made, Refusal, Sheet};
use std::io::Read;
use std::process::exit;

const MOST_CONFIGURATIONS: u64 = 20_000_000;

/// The listing program hands on so many bytes.
const MOST_BYTES: u64 = 6774;

fn small(sheet: Sheet) -> Result<Sheet, Refusal> {
    if sheets::configurations(&sheet) > MOST_CONFIGURATIONS {
        exit(2);
    }
    Ok(sheet)
}

/// A bound of 2 or 4 bytes.
fn bound(bytes: &[u8]) -> i32 {
    match bytes {
        [a, b] => i16::from_le_bytes([*a, *b]).into(),
        [a, b, c, d] => i32::from_le_bytes([*a, *b, *c, *d]),
        _ => panic!("a bound of {} bytes", bytes.len()),
    }
}

/// The lines of a chart and its box list.
fn print(made: &Made, version: u8, counters: usize, actions: usize) {
    println!("chart {} blocks {actions} actions", made.blocks);
    let size = sheets::bound_size(version);
    let records = made.chart[7..].chunks(2 + actions).zip(made.list.chunks(1 + 2 * size * counters));
    for (i, (block, area)) in records.enumerate() {
        print!("{i} label {} state {}", u16::from_le_bytes([block[0], block[1]]), area[0]);
        for (v, ends) in area[1..].chunks(2 * size).enumerate() {
            print!(" x{v} {}..{}", bound(&ends[..size]), bound(&ends[size..]));
        }
        for (a, target) in block[2..].iter().enumerate() {
            let shown = if *target == 255 { "-".into() } else { target.to_string() };
            print!(" a{a} {shown}");
        }
        println!();
    }
}

fn main() {
    let mut bytes = Vec::new();
    std::io::stdin().take(MOST_BYTES).read_to_end(&mut bytes).expect("standard input");
    let made = sheets::check_but_landing(&bytes).and_then(small).and_then(|sheet| sheets::make(&sheet));
    match made {
        Ok(made) => print(&made, bytes[3], bytes[5] as usize, bytes[6] as usize),
        Err(refusal) => println!("refused {} at {}", refusal.number, refusal.returned),
    }
}
