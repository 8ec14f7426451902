//! Reads a sheet from standard input and writes its chart as hexadecimal, or the refusal in words.
use std::io::Read;
use std::process::ExitCode;

#[path = "../include/pilfstera.rs"]
mod pilfstera;

fn main() -> ExitCode {
    let mut sheet = Vec::new();
    let limit = pilfstera::LONGEST_SHEET as u64 + 1;
    std::io::stdin().take(limit).read_to_end(&mut sheet).expect("standard input");
    let (mut chart, mut list) = ([0; pilfstera::LONGEST_CHART], [0; pilfstera::LONGEST_LIST]);
    match pilfstera::make(&sheet, &mut chart, &mut list) {
        Ok(blocks) => {
            let length = pilfstera::chart_length(blocks, chart[5] as usize);
            println!("{}", chart[..length].iter().map(|b| format!("{b:02X}")).collect::<Vec<_>>().join(" "));
            ExitCode::SUCCESS
        }
        Err(refusal) => {
            println!("{refusal}");
            ExitCode::FAILURE
        }
    }
}
