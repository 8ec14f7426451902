//! Measures versions of a function on inputs and prints two tables, of the processor time and of the instructions of a call. What the versions gave
//! is compared before anything is timed.

use crate::pilfstera::{self, LONGEST_CHART, LONGEST_LIST, MOST_INCREMENTS};
use crate::sheets::Refusal;
use std::process::Command;
use std::time::{Duration, Instant};

/// A call that takes longer is not repeated.
const REPEATED: Duration = Duration::from_secs(5);

/// Instructions are counted where a call takes less than this; counting is some fifty times slower.
const COUNTED: Duration = Duration::from_millis(1500);

/// What a version gave: a number or a refusal, and the buffers as it left them.
#[derive(PartialEq)]
pub struct Outcome {
    pub answer: Result<usize, Refusal>,
    pub chart: Vec<u8>,
    pub list: Vec<u8>,
    pub counts: [u64; MOST_INCREMENTS],
}

/// Room for any chart and box list, and for counts. They are cleared once, and not between the calls that are timed.
fn cleared() -> Outcome {
    Outcome { answer: Ok(0), chart: vec![0; LONGEST_CHART], list: vec![0; LONGEST_LIST], counts: [0; MOST_INCREMENTS] }
}

/// A refusal of the library, to be compared with one of another version.
pub fn plain(refusal: pilfstera::Refusal) -> Refusal {
    Refusal { number: refusal.number, returned: refusal.returned }
}

/// A version takes an input; it gives false where it would take too long.
pub type Version<I> = fn(&I, &mut Outcome) -> bool;

/// Inputs that are bytes.
pub fn boxed(inputs: Vec<(&'static str, Vec<u8>)>) -> Vec<(&'static str, Box<[u8]>)> {
    inputs.into_iter().map(|(name, bytes)| (name, bytes.into_boxed_slice())).collect()
}

/// What stands in a column: the number of a version, or the ratio of one to another.
pub enum Column {
    Of(usize),
    Ratio(usize, usize),
}

/// Which of the times of a call stands in the table. The least is that of the call alone; the middle one is for calls so short that the least
/// goes by chance.
#[derive(Clone, Copy)]
pub enum Told {
    Least,
    Middle,
}

pub struct Benchmark<I: ?Sized + 'static> {
    /// The word for it on the command line.
    pub name: &'static str,
    /// The inputs, each with its name.
    pub inputs: Vec<(&'static str, Box<I>)>,
    /// The versions, each with the name of the function within which its instructions are counted.
    pub versions: &'static [(&'static str, Version<I>)],
    /// Whether another version gave what the first gave.
    pub agree: fn(&Outcome, &Outcome) -> bool,
    pub told: Told,
    pub columns: &'static [(&'static str, Column)],
}

#[repr(C)]
struct Timespec {
    seconds: i64,
    nanoseconds: i64,
}

extern "C" {
    fn clock_gettime(clock: i32, time: *mut Timespec) -> i32;
}

/// The processor time that this thread has taken: what else runs on the machine is not in it.
fn now() -> Duration {
    const THREAD_CPU_TIME: i32 = 3;
    let mut time = Timespec { seconds: 0, nanoseconds: 0 };
    // SAFETY: a live Timespec, laid out as C has it on 64-bit Linux.
    assert_eq!(unsafe { clock_gettime(THREAD_CPU_TIME, &mut time) }, 0);
    Duration::new(time.seconds as u64, time.nanoseconds as u32)
}

/// The time of so many calls; nothing where they were left out.
fn calls<I: ?Sized>(version: Version<I>, input: &I, out: &mut Outcome, count: u32) -> Option<Duration> {
    let begin = now();
    for _ in 0..count {
        if !version(std::hint::black_box(input), std::hint::black_box(out)) {
            return None;
        }
    }
    Some(now() - begin)
}

/// The least or the middle time of a call, over a second of batches of at least a millisecond. A call that takes longer than REPEATED is not
/// repeated. A batch of less than half the middle time is left out: the clock of a virtual processor may stand still.
fn time<I: ?Sized>(version: Version<I>, input: &I, out: &mut Outcome, first: Duration, told: Told) -> Option<Duration> {
    if first > REPEATED {
        return Some(first);
    }
    let begin = Instant::now();
    let mut each = vec![first, calls(version, input, out, 1)?];
    let batch = 1 + (Duration::from_millis(1).as_nanos() / begin.elapsed().as_nanos().max(1)) as u32;
    while begin.elapsed() < Duration::from_secs(1) {
        each.push(calls(version, input, out, batch)? / batch);
    }
    each.sort();
    let middle = each[each.len() / 2];
    match told {
        Told::Least => each.into_iter().find(|time| *time >= middle / 2),
        Told::Middle => Some(middle),
    }
}

fn shown_time(seconds: f64) -> String {
    match seconds {
        s if s < 1e-6 => format!("{:.0} ns", s * 1e9),
        s if s < 1e-3 => format!("{:.1} us", s * 1e6),
        s if s < 1.0 => format!("{:.2} ms", s * 1e3),
        s => format!("{s:.2} s"),
    }
}

fn shown_count(count: f64) -> String {
    match count {
        n if n < 1e3 => format!("{n}"),
        n if n < 1e6 => format!("{:.0} k", n / 1e3),
        n => format!("{:.1} M", n / 1e6),
    }
}

fn shown_ratio(of: f64, to: f64) -> String {
    if of < 0.01 * to {
        format!("1/{:.0}", to / of)
    } else {
        format!("{:.2}", of / to)
    }
}

impl<I: ?Sized> Benchmark<I> {
    /// Calls a version once, for its instructions to be counted.
    pub fn call(&self, input: usize, version: usize) {
        self.versions[version].1(&self.inputs[input].1, &mut cleared());
    }

    /// The instructions of one call, counted by valgrind within the version's function; nothing where valgrind fails.
    fn instructions(&self, input: usize, version: usize) -> Option<u64> {
        let run = Command::new("valgrind")
            .args(["--tool=callgrind", "--callgrind-out-file=/dev/null"])
            .arg(format!("--toggle-collect={}", self.versions[version].0))
            .arg(std::env::current_exe().ok()?)
            .args([self.name, &input.to_string(), &version.to_string()])
            .output()
            .ok()?;
        let text = String::from_utf8_lossy(&run.stderr).into_owned();
        let line = text.lines().find(|l| l.contains("Collected"))?;
        line.split_whitespace().last()?.parse().ok()
    }

    /// Each version's time, once all of them gave the same result.
    fn times(&self, name: &str, input: &I) -> Vec<Option<Duration>> {
        let mut outcomes: Vec<Outcome> = self.versions.iter().map(|_| cleared()).collect();
        let mut firsts = Vec::new();
        for (k, (function, version)) in self.versions.iter().enumerate() {
            firsts.push(calls(*version, input, &mut outcomes[k], 1));
            let agree = firsts[k].is_none() || (self.agree)(&outcomes[0], &outcomes[k]);
            assert!(agree, "{name}: {function} differs from {}", self.versions[0].0);
        }
        let timed = |k: usize| time(self.versions[k].1, input, &mut outcomes[k], firsts[k]?, self.told);
        (0..self.versions.len()).map(timed).collect()
    }

    /// A line of a table, from the numbers of the versions.
    fn line(&self, name: &str, numbers: &[Option<f64>], shown: fn(f64) -> String) -> String {
        let cell = |column: &Column| match *column {
            Column::Of(k) => numbers[k].map(shown),
            Column::Ratio(of, to) => numbers[of].zip(numbers[to]).map(|(of, to)| shown_ratio(of, to)),
        };
        let cells = self.columns.iter().map(|(_, column)| format!(" {} |", cell(column).unwrap_or("-".into())));
        format!("| {name} |{}", cells.collect::<String>())
    }

    /// A line of each table: times, and instructions.
    fn measure(&self, input: usize) -> (String, String) {
        let (name, given) = &self.inputs[input];
        let times = self.times(name, given);
        let count = |k: usize| if times[k]? < COUNTED { self.instructions(input, k) } else { None };
        let counts: Vec<Option<f64>> = (0..times.len()).map(|k| count(k).map(|n| n as f64)).collect();
        let seconds: Vec<Option<f64>> = times.iter().map(|t| t.map(|t| t.as_secs_f64())).collect();
        let first = self.line(name, &seconds, shown_time);
        println!("{first}");
        (first, self.line(name, &counts, shown_count))
    }

    /// Prints both tables.
    pub fn print(&self) {
        let heads: String = self.columns.iter().map(|(head, _)| format!(" {head} |")).collect();
        let head = format!("| Input |{heads}\n|---|{}", "---|".repeat(self.columns.len()));
        println!("Processor time of a call, {}\n\n{head}", self.name);
        let lines: Vec<(String, String)> = (0..self.inputs.len()).map(|input| self.measure(input)).collect();
        println!("\nInstructions of a call, {}\n\n{head}", self.name);
        lines.iter().for_each(|(_, second)| println!("{second}"));
        println!();
    }
}
