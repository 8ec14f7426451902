//! Writes the lengths and limits of include/pilfstera.rs, taken in by `include!`, the refusal of an empty sheet without its words, the ways
//! to two blocks of the sample sheet and the refusal of a third, the depth of the sample chart, where it parts from another, from itself and
//! from none, the set-points of a carry rule and of a set rule, the counts of a counter that goes round, none and its refusal, and what is
//! told of two logs.

mod pilfstera {
    include!("../../include/pilfstera.rs");
}

use pilfstera::*;

fn main() {
    let chart = [0u8; chart_length(MOST_BLOCKS, MOST_ACTIONS)];
    let narrow = [0u8; list_length(1, MOST_BLOCKS, MOST_COUNTERS)];
    let wide = [0u8; list_length(2, MOST_BLOCKS, MOST_COUNTERS)];
    let entries = [SKIPPED; run_room(LONGEST_SEQUENCE)];
    println!("{LONGEST_SHEET} {LONGEST_CHART} {LONGEST_LIST} {LONGEST_SEQUENCE}");
    println!("{VERSION_1_LONGEST_SHEET} {VERSION_1_LONGEST_LIST}");
    println!("{MOST_BLOCKS} {MOST_ACTIONS} {MOST_COUNTERS} {MOST_REGIONS}");
    println!("{} {} {} {}", chart.len(), narrow.len(), wide.len(), entries.len());
    println!("{LONGEST_WAY} {}", [0u8; way_room(MOST_BLOCKS)].len());
    println!("{LONGEST_PART} {}", [0u8; part_room(MOST_BLOCKS, MOST_BLOCKS)].len());
    println!("{} {}", bound_size(1), bound_size(2));
    println!("{}", entries[0]);
    println!("{SET} {CARRY} {MOST_FACTOR} {MOST_OFFSET} {MOST_VALUE}");
    println!("{LEAST_MODULUS} {MOST_MODULUS} {MOST_INCREMENTS}");
    if let Err(Refusal { number, returned }) = check_sheet(&[]) {
        println!("refused {number} at {returned}");
    }
    let first = b"MSH\x01\x00\x01\x01\x02\x00\x02\x00\x0A\x00\x00\x00\x00\x07\x00\x01\x00\x01\x00\x02\x01\x00\x00\x00";
    let sheet = [&first[..], b"\x14\x00\x00\x08\x00\x0F\x00", &[0; 9]].concat();
    let mut actions = [9; way_room(3)];
    if let Ok(length) = way(&sheet, 0, &mut actions) {
        println!("way of {length}");
    }
    if let Ok(length) = way(&sheet, 2, &mut actions) {
        println!("way of {length}: {} {}", actions[0], actions[1]);
    }
    if let Err(Refusal { number, returned }) = way(&sheet, usize::MAX, &mut []) {
        println!("refused {number} at {returned}");
    }
    let sample = b"BCH\x01\x00\x01\x03\x0A\x00\x01\x0A\x00\x02\x14\x00\xFF";
    if let Ok(depth) = depth(sample) {
        println!("depth {depth}");
    }
    let another = b"BCH\x01\x00\x01\x03\x0A\x00\x01\x0A\x00\x02\x1E\x00\xFF";
    let mut actions = [9; part_room(3, 3)];
    if let Ok(Some(length)) = part(sample, another, &mut actions) {
        println!("part after {length}: {} {}", actions[0], actions[1]);
    }
    if let Ok(None) = part(sample, sample, &mut actions) {
        println!("equal, 0");
    }
    if let Err(Refusal { number, returned }) = part(sample, &[], &mut []) {
        println!("refused {number} at {returned}");
    }
    if let Ok(SetPoint { old, remainder }) = set_point(CARRY, 3, 5, 16) {
        println!("old value {old}, remainder {remainder}");
    }
    if let Err(Refusal { number, returned }) = set_point(SET, 3, 5, 16) {
        println!("refused {number} at {returned}");
    }
    if let Ok(Some(counts)) = go_round(12, 1, 3, &[8, 3]) {
        println!("counts, {}: {} {} .. {}", counts.len(), counts[0], counts[1], counts[7]);
    }
    if let Ok(None) = go_round(12, 1, 3, &[8]) {
        println!("none");
    }
    if let Err(Refusal { number, returned }) = go_round(12, 1, 12, &[8, 3]) {
        println!("refused {number} at {returned}");
    }
    let (log, other) = ([10, 10, 20, SKIPPED], [10, 10, 30]);
    println!("first difference {}", first_difference(&log, &other));
    let left = rest(&other[..2], &log);
    println!("rest of {}: {} {}", left.len(), left[0], left[1]);
}
