//! Measures the static library against independent implementations in Rust, and prints two tables for making charts, two for ways to blocks, two for
//! checking charts and for their depth, two for where two charts part, two for counters that go round, and two for comparing logs. Run by `bench/run`;
//! with the name of a benchmark it runs that one alone.

mod charts;
mod checking;
mod go_round;
mod inputs;
mod logs;
mod making;
mod measure;
mod parts;
mod rounds;
mod straightforward;
mod ways;

#[path = "../tests/library/generate.rs"]
#[allow(dead_code)]
mod generate;
#[path = "../tests/library/hard.rs"]
#[allow(dead_code)]
mod hard;
#[path = "../tests/library/partition.rs"]
mod partition;
#[path = "../include/pilfstera.rs"]
mod pilfstera;
#[path = "../tests/library/random.rs"]
#[allow(dead_code)]
mod random;
#[path = "../tests/library/rows.rs"]
#[allow(dead_code)]
mod rows;
#[path = "../tests/library/sheets.rs"]
#[allow(dead_code)]
mod sheets;

use measure::Benchmark;

/// Prints a benchmark's tables, or calls one of its versions on one of its inputs.
fn run<I: ?Sized>(benchmark: Benchmark<I>, call: Option<(usize, usize)>) {
    match call {
        None => benchmark.print(),
        Some((input, version)) => benchmark.call(input, version),
    }
}

fn named(name: &str, call: Option<(usize, usize)>) {
    match name {
        "sheets" => run(making::benchmark(), call),
        "ways" => run(ways::benchmark(), call),
        "charts" => run(checking::benchmark(), call),
        "parts" => run(parts::benchmark(), call),
        "go_round" => run(go_round::benchmark(), call),
        "logs" => run(logs::benchmark(), call),
        _ => panic!("no benchmark {name}: sheets, ways, charts, parts, go_round or logs"),
    }
}

fn main() {
    let words: Vec<String> = std::env::args().skip(1).collect();
    let number = |word: &String| word.parse().expect("a number");
    match &words[..] {
        [] => ["sheets", "ways", "charts", "parts", "go_round", "logs"].into_iter().for_each(|name| named(name, None)),
        [name] => named(name, None),
        [name, input, version] => named(name, Some((number(input), number(version)))),
        _ => panic!("usage: bench [sheets | ways | charts | parts | go_round | logs]"),
    }
}
