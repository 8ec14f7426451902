//! Checks, depths and runs at their extremes, each with its answer as a number: every refusal at its first and last place, 1 and 255 blocks, the most
//! rounds, 0 to 4,097 actions, barred at once, at the end and in between. The independent implementation is held to the answers too.

use crate::generate::encode_chart;
use crate::sheets::{self, refuse, Reading, Refusal, SKIPPED};
use crate::{charts, same, Test};

const BARRED: u8 = 255;

/// A name, the bytes of a chart, and the answer.
type Case<T> = (&'static str, Vec<u8>, Result<T, Refusal>);

/// A name, the bytes of a sheet or a chart, the actions, the room for entries, and the answer.
type Run = (&'static str, Vec<u8>, Vec<u8>, usize, Result<Reading, Refusal>);

/// A chain: action 0 leads from each block to the next, and is barred in the last, which has another label. All other actions stay.
fn chain(count: u8, actions: usize) -> Vec<u8> {
    let block = |i: u8| {
        let (label, target) = if i + 1 < count { (10, i + 1) } else { (20, BARRED) };
        (label, [&[target], &vec![i; actions - 1][..]].concat())
    };
    encode_chart(&(0..count).map(block).collect::<Vec<_>>())
}

/// The same bytes but for one.
fn changed(bytes: &[u8], at: usize, byte: u8) -> Vec<u8> {
    let mut out = bytes.to_vec();
    out[at] = byte;
    out
}

/// The record at a place with the label 65,535.
fn skipped(bytes: &[u8], at: usize) -> Vec<u8> {
    changed(&changed(bytes, at, 255), at + 1, 255)
}

/// A chain of 255 blocks, where nothing tells block 254 from block 253.
fn twins() -> Vec<u8> {
    let named = changed(&chain(255, 8), 2530, 254);
    changed(&changed(&named, 2539, BARRED), 2537, 20)
}

/// Refusals 1 to 3.
fn headers() -> Vec<Case<()>> {
    let c = chain(3, 1);
    vec![
        ("chain of 3", c.clone(), Ok(())),
        ("no bytes", c[..0].to_vec(), refuse(1, 0)),
        ("6 bytes", c[..6].to_vec(), refuse(1, 0)),
        ("mark, first byte", changed(&c, 0, 65), refuse(1, 0)),
        ("version, last byte", changed(&c, 4, 1), refuse(1, 0)),
        ("no actions", changed(&c, 5, 0), refuse(2, 5)),
        ("9 actions", changed(&c, 5, 9), refuse(2, 5)),
        ("no blocks", changed(&c, 6, 0), refuse(2, 6)),
        ("header alone", c[..7].to_vec(), refuse(3, 7)),
        ("one byte short", c[..15].to_vec(), refuse(3, 15)),
        ("one byte long", [&c[..], &[0]].concat(), refuse(3, 17)),
    ]
}

/// Refusal 4 for a label, alone and with another fault: before it, behind it, and before it but of a later number.
fn labels() -> Vec<Case<()>> {
    let c = chain(3, 1);
    let (aimless, unnamed) = (changed(&c, 12, 3), changed(&c, 12, 1));
    vec![
        ("label 65535, first record", skipped(&c, 7), refuse(4, 7)),
        ("label 65535, last record", skipped(&c, 13), refuse(4, 13)),
        ("label 65535 and a target before it", skipped(&aimless, 13), refuse(4, 12)),
        ("label 65535 and a target behind it", skipped(&aimless, 10), refuse(4, 10)),
        ("label 65535 and a block not named", skipped(&unnamed, 13), refuse(4, 13)),
        ("label 65534", changed(&skipped(&c, 13), 13, 254), Ok(())),
        ("label 65535, record 254", skipped(&chain(255, 8), 2547), refuse(4, 2547)),
    ]
}

/// Refusals 4 for a target and 12 to 14 at their first places, and single blocks.
fn first_places() -> Vec<Case<()>> {
    let (c, one) = (chain(3, 1), chain(1, 1));
    vec![
        ("first target", changed(&c, 9, 3), refuse(4, 9)),
        ("last target", changed(&c, 15, 254), refuse(4, 15)),
        ("first target above 1", changed(&c, 9, 2), refuse(12, 9)),
        ("block 1 not named", changed(&c, 9, 0), refuse(12, 10)),
        ("block 2 not named", changed(&c, 12, 1), refuse(12, 13)),
        ("bars, 2 blocks", changed(&chain(2, 1), 10, 10), refuse(13, 10)),
        ("alike, 2 blocks", encode_chart(&[(10, vec![1]), (10, vec![1])]), refuse(14, 10)),
        ("1 block, barred", one.clone(), Ok(())),
        ("1 block, to itself", changed(&one, 9, 0), Ok(())),
        ("1 block, to 1", changed(&one, 9, 1), refuse(4, 9)),
    ]
}

/// The same at their last places.
fn last_places() -> Vec<Case<()>> {
    let (c, most, twins) = (chain(254, 8), chain(255, 8), twins());
    vec![
        ("chain of 254, 8 actions", c.clone(), Ok(())),
        ("last target 254", changed(&c, 2546, 254), refuse(4, 2546)),
        ("chain of 255, 8 actions: most rounds", most.clone(), Ok(())),
        ("block 254 not named", changed(&most, 2539, 253), refuse(12, 2547)),
        ("bars of block 254", changed(&most, 2547, 10), refuse(13, 2547)),
        ("block 254 like 253", twins.clone(), refuse(14, 2547)),
        ("block 254 unlike 253", changed(&twins, 2547, 30), Ok(())),
        ("one byte short", twins[..2556].to_vec(), refuse(3, 2556)),
    ]
}

/// None to tell apart, labels that tell all, chains, where each round parts one block, a label of its own in the middle, and charts that are refused.
fn depths() -> Vec<Case<usize>> {
    let labels = changed(&chain(3, 1), 10, 30);
    vec![
        ("depth, 1 block", chain(1, 1), Ok(0)),
        ("depth, 2 labels", chain(2, 1), Ok(0)),
        ("depth, chain of 3", chain(3, 1), Ok(1)),
        ("depth, 3 labels", labels.clone(), Ok(0)),
        ("depth, one byte short", labels[..15].to_vec(), refuse(3, 15)),
        ("depth, chain of 255, 1 action", chain(255, 1), Ok(253)),
        ("depth, chain of 255, 8 actions", chain(255, 8), Ok(253)),
        ("depth, chain of 255, parted in the middle", changed(&chain(255, 8), 1277, 30), Ok(126)),
        ("depth, block 254 like 253", twins(), refuse(14, 2547)),
    ]
}

/// The sheet of 43 bytes. Its chart is the chain of three blocks.
const SHORT: &[u8] = b"MSH\x01\0\x01\x01\x02\0\x02\0\
    \x0A\0\0\0\0\x07\0\x01\0\x01\0\x02\x01\0\0\0\
    \x14\0\0\x08\0\x0F\0\0\0\0\0\0\0\0\0\0";

/// Version 2: one action takes -1,000,000 to 1,000,000, and back.
const WIDE: &[u8] = b"MSH\x02\0\x01\x01\x02\0\xC0\xBD\xF0\xFF\
    \x0A\0\0\xC0\xBD\xF0\xFF\xC0\xBD\xF0\xFF\x01\0\x01\0\xFF\0\0\0\0\
    \x14\0\0\x40\x42\x0F\0\x40\x42\x0F\0\x01\0\x01\0\xFF\0\0\0\0";

/// Three counters, one action by which each takes the next one's value, two regions: the first counter 0..1 or 2..9, the others 0..9; start 1, 2, 3.
const TURNING: &[u8] = b"MSH\x01\0\x03\x01\x02\0\x01\0\x02\0\x03\0\
    \x0A\0\0\0\0\x01\0\0\0\x09\0\0\0\x09\0\x01\0\x01\x01\x01\0\0\0\0\x01\x02\x01\0\0\0\0\x01\0\x01\0\0\0\0\
    \x14\0\0\x02\0\x09\0\0\0\x09\0\0\0\x09\0\x01\0\x01\x01\x01\0\0\0\0\x01\x02\x01\0\0\0\0\x01\0\x01\0\0\0\0";

/// One counter, 0 or 1, and two actions, each of which is barred where it leads, and not in the other value.
const SKIPPING: &[u8] = b"MSH\x01\0\x01\x02\x02\0\0\0\
    \x0A\0\0\0\0\0\0\x01\0\0\0\0\x01\0\0\0\0\0\0\0\0\0\0\0\0\
    \x14\0\0\x01\0\x01\0\0\0\0\0\0\0\0\0\0\x01\0\0\0\0\0\0\0\0";

fn read(entries: &[u16], barred: Option<usize>) -> Result<Reading, Refusal> {
    Ok(Reading { entries: entries.to_vec(), barred })
}

/// As many entries as a run can have: the first ones, then some again and again.
fn longest(first: &[u16], again: &[u16]) -> Vec<u16> {
    first.iter().chain(again.iter().cycle()).take(4097).copied().collect()
}

/// A chain of three blocks, barred in the last, or its sheet.
fn on_chain(bytes: &[u8]) -> [Run; 6] {
    let all = longest(&[10, 10, 20], &[SKIPPED]);
    [
        ("no action", vec![], 4100, read(&[10], None)),
        ("1 action", vec![0], 4100, read(&[10, 10], None)),
        ("3 actions, the last one barred", vec![0; 3], 4100, read(&[10, 10, 20, SKIPPED], Some(2))),
        ("4096 actions, all but two barred", vec![0; 4096], 4097, read(&all, Some(2))),
        ("3 actions, room for 3", vec![0; 3], 3, refuse(10, 4)),
        ("no action, no room", vec![], 0, refuse(10, 1)),
    ]
    .map(|(name, actions, room, expected)| (name, bytes.to_vec(), actions, room, expected))
}

/// What is refused where nothing is barred: a buffer and a sequence at their extremes, and actions that a sheet or a chart of one action lacks, the
/// last of the longest sequence and the first.
fn refused_runs(bytes: &[u8]) -> [Run; 4] {
    [
        ("4096 actions, room for 4096", vec![0; 4096], 4096, refuse(10, 4097)),
        ("4097 actions", vec![0; 4097], 4100, refuse(3, 4097)),
        ("last action not below 1", changed(&[0; 4096], 4095, 1), 1, refuse(11, 4095)),
        ("first action not below 1", vec![1, 0, 0], 1, refuse(11, 0)),
    ]
    .map(|(name, actions, room, expected)| (name, bytes.to_vec(), actions, room, expected))
}

/// Two blocks or values, and two actions, each of which is barred where it leads, and not in the other.
fn skipping(bytes: &[u8]) -> Run {
    ("actions 0, 0, 1, the second one barred", bytes.to_vec(), vec![0, 0, 1], 4100, read(&[10, 20, SKIPPED, 10], Some(1)))
}

fn chart_runs() -> Vec<Run> {
    let (three, one) = (chain(3, 1), encode_chart(&[(10, vec![BARRED])]));
    let ring = encode_chart(&[(10, vec![1]), (20, vec![0])]);
    let mut all = on_chain(&three).to_vec();
    all.extend([
        ("chart one byte short", three[..15].to_vec(), vec![0; 4097], 0, refuse(3, 15)),
        ("barred at once", one, vec![0], 4100, read(&[10, SKIPPED], Some(0))),
        ("4096 actions", ring.clone(), vec![0; 4096], 4097, read(&longest(&[], &[10, 20]), None)),
        skipping(&encode_chart(&[(10, vec![1, BARRED]), (20, vec![BARRED, 0])])),
    ]);
    all.extend(refused_runs(&ring));
    all
}

/// Start 8 of the short sheet is barred, and start 16 is in no region.
fn sheet_runs() -> Vec<Run> {
    let wide = |name, count, room, entries: &[u16]| (name, WIDE.to_vec(), vec![0; count], room, read(entries, None));
    let turning = |name, count, room, entries: &[u16]| (name, TURNING.to_vec(), vec![0; count], room, read(entries, None));
    let mut all = on_chain(SHORT).to_vec();
    all.extend([
        ("sheet one byte short", SHORT[..42].to_vec(), vec![0; 4097], 0, refuse(3, 42)),
        ("barred at once", changed(SHORT, 9, 8), vec![0], 4100, read(&[20, SKIPPED], Some(0))),
        ("start 16", changed(SHORT, 9, 16), vec![0; 4097], 4100, refuse(7, 8)),
        wide("3 actions between -1000000 and 1000000", 3, 4100, &[10, 20, 10, 20]),
        wide("4096 actions between -1000000 and 1000000", 4096, 4097, &longest(&[], &[10, 20])),
        turning("3 actions", 3, 4100, &[10, 20, 20, 10]),
        turning("4096 actions", 4096, 4097, &longest(&[], &[10, 20, 20])),
        skipping(SKIPPING),
    ]);
    all.extend(refused_runs(TURNING));
    all
}

/// What the independent implementation says of a run.
fn expected(kind: &str, bytes: &[u8], actions: &[u8], room: usize) -> Result<Reading, Refusal> {
    if kind == "chart" {
        let chart = charts::check(bytes)?;
        sheets::check_run(actions, chart.actions, room)?;
        return Ok(charts::reading(&chart, actions));
    }
    let sheet = sheets::check_but_landing(bytes)?;
    sheets::check_landing(&sheet)?;
    sheets::check_run(actions, sheet.actions, room)?;
    Ok(sheets::reading(&sheet, actions))
}

/// What must have come.
pub fn kinds() -> [String; 4] {
    ["check of a chart", "depth", "run on a chart", "run on a sheet"].map(|what| format!("known answer: {what}"))
}

pub fn test(test: &mut Test) {
    for (name, bytes, known) in [headers(), labels(), first_places(), last_places()].into_iter().flatten() {
        same(name, &bytes, test.checked_chart(&bytes).map(|_| ()), known);
        test.count("known answer: check of a chart");
    }
    for (name, bytes, known) in depths() {
        test.known_depth(name, &bytes, known);
        test.count("known answer: depth");
    }
    for (kind, runs) in [("chart", chart_runs()), ("sheet", sheet_runs())] {
        for (name, bytes, actions, room, known) in runs {
            same(name, &bytes, &expected(kind, &bytes, &actions, room), &known);
            test.run(kind, &bytes, &actions, room, &known);
            test.count(format!("known answer: run on a {kind}"));
        }
    }
}
