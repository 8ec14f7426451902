//! The charts that are measured: rows by parameters, which take the rounds longest, and the chart of a sheet that is measured too.

use crate::{inputs, pilfstera, rows};

/// The chart of the sheet with a name.
fn of_sheet(name: &str) -> Vec<u8> {
    let (_, sheet) = inputs::all().into_iter().find(|(sheet, _)| *sheet == name).expect("a sheet that is measured");
    let (mut chart, mut list) = (vec![0; pilfstera::LONGEST_CHART], vec![0; pilfstera::LONGEST_LIST]);
    let blocks = pilfstera::make(&sheet, &mut chart, &mut list).expect("a chart");
    chart.truncate(pilfstera::chart_length(blocks, chart[5] as usize));
    chart
}

/// Each with its name.
pub fn all() -> Vec<(&'static str, Vec<u8>)> {
    vec![
        ("1 block, 1 action", rows::chain(1, 1, |_| true)),
        ("2 blocks, 1 action", rows::chain(2, 1, |_| true)),
        ("255 blocks, 3 counters", of_sheet("255 blocks, 3 counters")),
        ("255 blocks, 8 actions, labels that all differ", rows::different(255, 8)),
        ("255 blocks, gate", rows::gate(255)),
        ("255 blocks, chain by the first of 8 actions", rows::chain(255, 8, |a| a == 0)),
        ("255 blocks, chain by the last of 8 actions", rows::chain(255, 8, |a| a == 7)),
        ("255 blocks, chain by all 8 actions", rows::chain(255, 8, |_| true)),
        ("255 blocks, chain back by the last of 8 actions", rows::chain_back(255, 8)),
        ("refused 13 at the last of 255 blocks, 8 actions", rows::refused_13(255, 8)),
        ("refused 14 at the last of 255 blocks, 8 actions", rows::refused_14(255, 8)),
    ]
}
