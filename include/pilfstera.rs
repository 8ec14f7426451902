// Pilfstera for Rust programs: safe functions over slices, for what `tools/static-library` writes into target/staticlib. A program takes
// this file in as a module, by its path from the program's own file,
//
//     #[path = "../include/pilfstera.rs"]
//     mod pilfstera;
//
// or by `mod pilfstera { include!("../include/pilfstera.rs"); }`, and is linked with `-L target/staticlib -l static=pilfstera`. It needs
// rustc 1.82 or later. A sheet's chart is then made and run so, with `sheet` the bytes of the sheet:
//
//     use pilfstera::{chart_length, make, run_chart, run_room, LONGEST_CHART, LONGEST_LIST};
//
//     fn show(sheet: &[u8]) -> Result<(), pilfstera::Refusal> {
//         let (mut chart, mut list) = ([0; LONGEST_CHART], [0; LONGEST_LIST]);
//         let blocks = make(sheet, &mut chart, &mut list)?;
//         let chart = &chart[..chart_length(blocks, chart[5] as usize)];
//         let mut entries = [0; run_room(3)];
//         let run = run_chart(chart, &[0, 0, 0], &mut entries)?;
//         println!("{blocks} blocks; actions 0, 0, 0 read {:?}, first barred: {:?}", &entries[..run.entries], run.barred);
//         Ok(())
//     }

#[allow(unused_imports)]
pub use self::library::*;

// Everything stands in a module, since a file that is taken in by `include!` cannot say for itself that parts of it may stay unused.
#[allow(dead_code)]
mod library {
    use std::error::Error;
    use std::fmt;
    use std::slice;

    /// Bytes of the longest sheet of either version, that of 32 regions, 8 actions and 3 counters. A reader of sheets may stop one byte past
    /// it: whatever is longer is refused.
    pub const LONGEST_SHEET: usize = 6773;

    /// Bytes of the longest chart: a buffer of this length suffices for every sheet.
    pub const LONGEST_CHART: usize = 2557;

    /// Bytes of the longest box list of either version: a buffer of this length suffices for every sheet.
    pub const LONGEST_LIST: usize = 6375;

    /// Bytes of the longest sheet of version 1, for callers that meet no other.
    pub const VERSION_1_LONGEST_SHEET: usize = 6383;

    /// Bytes of the longest box list of a version 1 sheet.
    pub const VERSION_1_LONGEST_LIST: usize = 3315;

    /// Actions in the longest sequence that a run takes.
    pub const LONGEST_SEQUENCE: usize = 4096;

    /// The most blocks that a chart has. They are numbered from 0, and 255 in the place of a target says that the action is barred.
    pub const MOST_BLOCKS: usize = 255;

    /// The most actions that a sheet or a chart has. They are numbered from 0.
    pub const MOST_ACTIONS: usize = 8;

    /// The most counters that a sheet has.
    pub const MOST_COUNTERS: usize = 3;

    /// The most regions that a sheet has.
    pub const MOST_REGIONS: usize = 32;

    /// Bytes of a chart. The number of actions is byte 6 of the sheet and byte 5 of the chart.
    pub const fn chart_length(blocks: usize, actions: usize) -> usize {
        7 + blocks * (2 + actions)
    }

    /// Bytes of a bound, in a sheet of a version and in its box list: 2 for version 1, 4 for version 2. The version is byte 3 of an accepted
    /// sheet.
    pub const fn bound_size(version: u8) -> usize {
        if version == 1 {
            2
        } else {
            4
        }
    }

    /// Bytes of a box list. Version and number of counters are bytes 3 and 5 of the sheet.
    pub const fn list_length(version: u8, blocks: usize, counters: usize) -> usize {
        blocks * (1 + 2 * bound_size(version) * counters)
    }

    /// What a run writes in the place of a label for an action that is barred. No label is this number: as one it is refused 4.
    pub const SKIPPED: u16 = 65535;

    /// The entries that a run writes: one for the start, and one for each action.
    pub const fn run_room(actions: usize) -> usize {
        actions + 1
    }

    /// Bytes of the longest way to a block: a buffer of this length suffices for every sheet and block.
    pub const LONGEST_WAY: usize = 254;

    /// Bytes that the buffer for a way needs on a chart of so many blocks, whichever block is asked for. A chart has at least one.
    pub const fn way_room(blocks: usize) -> usize {
        blocks - 1
    }

    /// Bytes of a buffer that suffices for where any two charts part.
    pub const LONGEST_PART: usize = 509;

    /// Bytes that the buffer for where two charts part needs, by their numbers of blocks, also where they are equal in behaviour. A chart has
    /// at least one.
    pub const fn part_room(first_blocks: usize, second_blocks: usize) -> usize {
        first_blocks + second_blocks - 1
    }

    /// The kind of a rule that sets, as in a sheet's rule record: it gives one value whatever the old one was.
    pub const SET: u8 = 0;

    /// The kind of a rule that carries: it gives factor * x + offset for the old value x.
    pub const CARRY: u8 = 1;

    /// The most that the factor of a carry rule is without its sign. No factor is 0.
    pub const MOST_FACTOR: i64 = 100;

    /// The most that the offset of a carry rule is without its sign, as in version 2 of the sheet.
    pub const MOST_OFFSET: i64 = 200_000_000;

    /// The most that a wanted value is without its sign: the limit of a bound in version 2 of the sheet.
    pub const MOST_VALUE: i64 = 1_000_000;

    /// The least that the modulus of a counter that goes round is. Start, wanted value and increments are below the modulus.
    pub const LEAST_MODULUS: u64 = 2;

    /// The most that the modulus of a counter that goes round is.
    pub const MOST_MODULUS: u64 = 65_536;

    /// The most increments of a counter that goes round. There is at least one.
    pub const MOST_INCREMENTS: usize = 8;

    /// Why a call was turned back. It altered no buffer. As text it says so in words.
    #[derive(Clone, Copy, PartialEq, Eq, Debug)]
    pub struct Refusal {
        /// The refusal's number, 1 to 16, 19 or 22: the first check that failed.
        pub number: u8,
        /// By number: 2, 4 to 8 and 12 to 14 the place in the sheet or chart, in bytes from 0; 3 the actual length, 10 the length needed,
        /// 11 the index of the action, 15 the number of blocks, 16 the place of a chart's number of actions, 5; 1, 9, 19 and 22 nothing, and
        /// 0. Of the second of two charts, what 1 to 4 and 12 to 14 return is raised by the first's length, to [`usize::MAX`] at most, which
        /// the words leave out.
        pub returned: usize,
    }

    impl Refusal {
        /// What is wrong, and what the number returned says of it.
        fn words(self) -> (&'static str, &'static str) {
            match self.number {
                1 => ("the sheet or chart is shorter than its header, or its mark or version is wrong", "no place is told"),
                2 => ("a count is outside its limits", "the first such count stands there"),
                3 => ("the length differs from what the counts give, or is above 4,096 actions", "that is the actual length"),
                4 => ("a field has a value that is not allowed", "the first such field stands there"),
                5 => ("a label is repeated", "the later label stands there"),
                6 => ("two regions share a configuration", "the later region stands there"),
                7 => ("the start is in no region", "the start state stands there"),
                8 => ("an open move leads out of all regions", "its move record stands there"),
                9 => ("there are more than 255 blocks", "no place is told"),
                10 => ("a buffer is too short", "that is the length needed, in entries of the buffer"),
                11 => ("the sheet or chart lacks an action of the sequence", "that is the index of the first such action"),
                12 => ("the blocks are not numbered as first named", "the target or record that shows it stands there"),
                13 => ("two blocks of one label bar different actions", "the later record stands there"),
                14 => ("two blocks are told apart by no sequence", "the later record stands there"),
                15 => ("the sheet's chart has no block of this number", "that is the number of blocks"),
                16 => ("the two charts have different numbers of actions", "the number of actions stands there in each"),
                19 => (
                    "the rule is no carry with allowed factor and offset, or the wanted value is beyond its bounds",
                    "no place is told",
                ),
                22 => (
                    "the modulus, the number of increments, the start, an increment or the wanted value is outside its limits",
                    "no place is told",
                ),
                _ => ("no refusal has this number", "what is returned has no meaning"),
            }
        }
    }

    impl fmt::Display for Refusal {
        fn fmt(&self, f: &mut fmt::Formatter<'_>) -> fmt::Result {
            let (wrong, told) = self.words();
            write!(f, "refused {} at {}: {wrong}; {told}", self.number, self.returned)
        }
    }

    impl Error for Refusal {}

    /// What a run did.
    #[derive(Clone, Copy, PartialEq, Eq, Debug)]
    pub struct Run {
        /// How many entries were written, from the front of the buffer: the label of the start, and one for each action.
        pub entries: usize,
        /// The index, from 0, of the first barred action; nothing where none was barred.
        pub barred: Option<usize>,
    }

    /// An old value of a carry rule, and how far below the wanted value it leads.
    #[derive(Clone, Copy, PartialEq, Eq, Debug)]
    pub struct SetPoint {
        /// The old value x, at most 201,000,000 without its sign. It need not lie in any region.
        pub old: i64,
        /// What the wanted value is above factor * x + offset, from 0 to one less than the factor without its sign, so at most 99.
        pub remainder: i64,
    }

    // A log as the library stores it: so many entries, from a pointer on.
    #[repr(C)]
    pub(super) struct Log {
        pub(super) entries: *const u16,
        pub(super) length: usize,
    }

    // The library's exports as include/pilfstera.h has them: a slice is a pointer and a length.
    unsafe extern "C" {
        pub(super) fn pilfstera_check_sheet(sheet: *const u8, length: usize, returned: *mut usize) -> u8;
        pub(super) fn pilfstera_make(
            sheet: *const u8,
            length: usize,
            chart: *mut u8,
            chart_room: usize,
            list: *mut u8,
            list_room: usize,
            returned: *mut usize,
        ) -> u8;
        pub(super) fn pilfstera_check_chart(chart: *const u8, length: usize, returned: *mut usize) -> u8;
        pub(super) fn pilfstera_depth(chart: *const u8, length: usize, returned: *mut usize) -> u8;
        pub(super) fn pilfstera_run_sheet(
            sheet: *const u8,
            length: usize,
            actions: *const u8,
            count: usize,
            entries: *mut u16,
            room: usize,
            returned: *mut usize,
            barred: *mut usize,
        ) -> u8;
        pub(super) fn pilfstera_run_chart(
            chart: *const u8,
            length: usize,
            actions: *const u8,
            count: usize,
            entries: *mut u16,
            room: usize,
            returned: *mut usize,
            barred: *mut usize,
        ) -> u8;
        pub(super) fn pilfstera_way(
            sheet: *const u8,
            length: usize,
            block: usize,
            actions: *mut u8,
            room: usize,
            returned: *mut usize,
        ) -> u8;
        pub(super) fn pilfstera_part(
            first: *const u8,
            first_length: usize,
            second: *const u8,
            second_length: usize,
            actions: *mut u8,
            room: usize,
            returned: *mut usize,
            equal: *mut u8,
        ) -> u8;
        pub(super) fn pilfstera_set_point(
            kind: u8,
            factor: i64,
            offset: i64,
            wanted: i64,
            returned: *mut usize,
            old: *mut i64,
            remainder: *mut i64,
        ) -> u8;
        pub(super) fn pilfstera_go_round(
            modulus: u64,
            start: u64,
            wanted: u64,
            increments: *const u64,
            count: usize,
            counts: *mut u64,
            returned: *mut usize,
        ) -> u8;
        pub(super) fn pilfstera_first_difference(
            first: *const u16,
            first_length: usize,
            second: *const u16,
            second_length: usize,
        ) -> usize;
        pub(super) fn pilfstera_rest(
            first: *const u16,
            first_length: usize,
            second: *const u16,
            second_length: usize,
            rest: *mut Log,
        );
    }

    type BytesFunction = unsafe extern "C" fn(*const u8, usize, *mut usize) -> u8;
    type RunFunction = unsafe extern "C" fn(*const u8, usize, *const u8, usize, *mut u16, usize, *mut usize, *mut usize) -> u8;

    /// The value where the library gave 0, else the refusal.
    fn answer<T>(number: u8, returned: usize, value: T) -> Result<T, Refusal> {
        if number == 0 {
            Ok(value)
        } else {
            Err(Refusal { number, returned })
        }
    }

    /// What a function gives that takes a sheet or a chart and nothing else.
    fn ask(function: BytesFunction, bytes: &[u8]) -> Result<usize, Refusal> {
        let mut returned = 0;
        // SAFETY: both checks and the depth take a slice's pointer and length, and a number of our own to write; they ask nothing of the
        // bytes.
        let number = unsafe { function(bytes.as_ptr(), bytes.len(), &mut returned) };
        answer(number, returned, returned)
    }

    fn run(function: RunFunction, bytes: &[u8], actions: &[u8], entries: &mut [u16]) -> Result<Run, Refusal> {
        let (mut returned, mut barred) = (0, 0);
        // SAFETY: both runs take three slices by pointer and length, and two numbers of our own to write. What is written is borrowed
        // apart from all else, and they ask nothing of what the slices hold.
        let number = unsafe {
            function(
                bytes.as_ptr(),
                bytes.len(),
                actions.as_ptr(),
                actions.len(),
                entries.as_mut_ptr(),
                entries.len(),
                &mut returned,
                &mut barred,
            )
        };
        // an index is below the number of actions, which stands for none
        let barred = (barred < actions.len()).then_some(barred);
        answer(number, returned, Run { entries: returned, barred })
    }

    /// Accepts a sheet, or refuses it with 1 to 8.
    pub fn check_sheet(sheet: &[u8]) -> Result<(), Refusal> {
        ask(pilfstera_check_sheet, sheet).map(|_| ())
    }

    /// Makes a sheet's chart and box list, and gives the number of blocks; refusals 1 to 10. Both are written from the front of their
    /// buffers, in [`chart_length`] and [`list_length`] bytes, and what lies behind is left as it was. Where both buffers are too short
    /// the chart's length is told. The list has bounds of [`bound_size`] bytes; the chart has none, so that sheets that behave alike give
    /// the same chart, whatever their versions.
    pub fn make(sheet: &[u8], chart: &mut [u8], list: &mut [u8]) -> Result<usize, Refusal> {
        let mut returned = 0;
        // SAFETY: three slices by pointer and length, and a number of our own to write. What is written is borrowed apart from all else,
        // and nothing is asked of what the slices hold.
        let number = unsafe {
            pilfstera_make(
                sheet.as_ptr(),
                sheet.len(),
                chart.as_mut_ptr(),
                chart.len(),
                list.as_mut_ptr(),
                list.len(),
                &mut returned,
            )
        };
        answer(number, returned, returned)
    }

    /// Accepts a chart just if it obeys the chart rules, or refuses it with 1 to 4 or 12 to 14. The slice ends where the chart ends.
    pub fn check_chart(chart: &[u8]) -> Result<(), Refusal> {
        ask(pilfstera_check_chart, chart).map(|_| ())
    }

    /// The settling depth d of a chart, the length of the sequences that a bench plan needs: every two blocks are told apart by some
    /// sequence of at most d actions, and where d is above 0, some two of them by none shorter. A sequence tells two blocks apart if what
    /// a run writes from the one differs from what it writes from the other, where the first entry is the block's own label. For N blocks,
    /// d is at most N less the number of different labels, so never above 253; it is 0 for one block, and where no two blocks have the same
    /// label. It refuses what [`check_chart`] does.
    pub fn depth(chart: &[u8]) -> Result<usize, Refusal> {
        ask(pilfstera_depth, chart)
    }

    /// Runs a sequence of actions from a sheet's start and writes the label there, then an entry for each action: the label where it leads,
    /// or [`SKIPPED`] where it is barred. A barred action changes nothing, and the run goes on. It refuses what [`check_sheet`] does, then a
    /// sequence above [`LONGEST_SEQUENCE`] with 3, an action that the sheet lacks with 11, and a buffer of fewer than [`run_room`] entries
    /// with 10. What lies behind the entries written is left as it was.
    pub fn run_sheet(sheet: &[u8], actions: &[u8], entries: &mut [u16]) -> Result<Run, Refusal> {
        run(pilfstera_run_sheet, sheet, actions, entries)
    }

    /// Runs a sequence of actions from a chart's block 0, as [`run_sheet`] does from a sheet's start; it refuses what [`check_chart`] does,
    /// then the sequence and the buffer likewise. A sheet and its chart read the same.
    pub fn run_chart(chart: &[u8], actions: &[u8], entries: &mut [u16]) -> Result<Run, Refusal> {
        run(pilfstera_run_chart, chart, actions, entries)
    }

    /// The way to a block of a sheet's chart, the action sequence that brings a controller there from its start: the shortest that leads from
    /// the start to a configuration of the block, and of several the one that comes first in dictionary order by action number. It is written
    /// from the front of the buffer, a byte for each action, and what lies behind is left as it was; its length is given, 0 for block 0. Blocks
    /// are numbered from 0, as in the chart and the box list that [`make`] gives for the same sheet. It refuses what [`check_sheet`] does, then
    /// 9, then 15 a block that the chart lacks, whatever its number, then 10 a buffer of fewer than [`way_room`] bytes, also where the way is
    /// shorter. No way is longer, and none has a barred action: a run of it on the sheet ends inside the box that the list has for the block.
    pub fn way(sheet: &[u8], block: usize, actions: &mut [u8]) -> Result<usize, Refusal> {
        let mut returned = 0;
        // SAFETY: two slices by pointer and length, and a number of our own to write. What is written is borrowed apart from all else, and
        // nothing is asked of what the slices hold or of the block.
        let number = unsafe {
            pilfstera_way(sheet.as_ptr(), sheet.len(), block, actions.as_mut_ptr(), actions.len(), &mut returned)
        };
        answer(number, returned, returned)
    }

    /// Where two charts part: `None` where they are equal in behaviour, so that no sequence of whatever length reads differently on the two,
    /// else the length of the shortest action sequence whose readings differ, and of several the one that comes first in dictionary order by
    /// action number. It is written from the front of the buffer, a byte for each action, and what lies behind is left as it was. A reading is
    /// what [`run_chart`] writes, with [`SKIPPED`] for a barred action; the last entries of the two readings differ, and no others. The length
    /// is 0 where the blocks 0 have different labels, which the empty sequence reads. Each slice ends where its chart ends. It refuses what
    /// [`check_chart`] does, of the first chart, then of the second, whose places count on from the end of the first; then 16 charts with
    /// different numbers of actions, then 10 a buffer of fewer than [`part_room`] bytes, also where the sequence is shorter or the charts are
    /// equal. No sequence is longer.
    pub fn part(first: &[u8], second: &[u8], actions: &mut [u8]) -> Result<Option<usize>, Refusal> {
        let (mut returned, mut equal) = (0, 0);
        // SAFETY: three slices by pointer and length, and two numbers of our own to write. What is written is borrowed apart from all else,
        // and nothing is asked of what the slices hold.
        let number = unsafe {
            pilfstera_part(
                first.as_ptr(),
                first.len(),
                second.as_ptr(),
                second.len(),
                actions.as_mut_ptr(),
                actions.len(),
                &mut returned,
                &mut equal,
            )
        };
        answer(number, returned, (equal == 0).then_some(returned))
    }

    /// The set-point of a rule, the old value that brings a counter to a wanted reading or just below it: the one old value x and remainder
    /// r with wanted - offset = factor * x + r and r from 0 to one less than the factor without its sign, for a negative factor and a
    /// negative wanted value too. With x the rule gives wanted - r. For a positive factor no greater old value stays at or below the wanted
    /// value, for a negative factor no smaller one. So a carry with factor 3 and offset 5 and the wanted value 16 give x = 3 and r = 2,
    /// since 3 * 3 + 5 = 14 is 2 below. It refuses with 19 every kind but [`CARRY`], whatever the other numbers are, a factor that is 0 or
    /// beyond [`MOST_FACTOR`], an offset beyond [`MOST_OFFSET`], and a wanted value beyond [`MOST_VALUE`], on either side of 0. Any numbers
    /// may be handed in. The source of the rule plays no part. It takes a fixed number of steps.
    pub fn set_point(kind: u8, factor: i64, offset: i64, wanted: i64) -> Result<SetPoint, Refusal> {
        let (mut returned, mut old, mut remainder) = (0, 0, 0);
        // SAFETY: four numbers of which nothing is asked, and three of our own to write.
        let number = unsafe { pilfstera_set_point(kind, factor, offset, wanted, &mut returned, &mut old, &mut remainder) };
        answer(number, returned, SetPoint { old, remainder })
    }

    /// How often to use each of some increments, so that a counter that goes round, modulo a number, comes from its start to a wanted value:
    /// counts from 0 to one less than the modulus, for which the start and the sum of each count times its increment give the wanted value
    /// modulo that number; of all that do, those that come first in dictionary order. There is one for each increment, in their order, then
    /// 0. It is `None` where no counts lead to the wanted value, just if wanted value and start differ modulo the greatest common divisor of
    /// the modulus and all increments. So the modulus 12, the start 1, the wanted value 3 and the increments `[8, 3]` give 1 and 2, since
    /// 1 + 1 * 8 + 2 * 3 = 15, which is 3 modulo 12; and the wanted value 2 gives `None` with `[8, 6]`. It refuses with 22 a modulus below
    /// [`LEAST_MODULUS`] or above [`MOST_MODULUS`], no increments or more than [`MOST_INCREMENTS`], and a start, a wanted value or an
    /// increment that is not below the modulus. Any numbers may be handed in. It takes at most 36 steps of Euclid's algorithm, whatever the
    /// modulus.
    pub fn go_round(
        modulus: u64,
        start: u64,
        wanted: u64,
        increments: &[u64],
    ) -> Result<Option<[u64; MOST_INCREMENTS]>, Refusal> {
        let (mut returned, mut counts) = (0, [0; MOST_INCREMENTS]);
        let (increments, count) = (increments.as_ptr(), increments.len());
        // SAFETY: three numbers and a slice by pointer and length, of which nothing is asked, and eight numbers and one of our own to write.
        let number = unsafe { pilfstera_go_round(modulus, start, wanted, increments, count, counts.as_mut_ptr(), &mut returned) };
        // the number of counts stored, which is 0 for none
        answer(number, returned, (returned > 0).then_some(counts))
    }

    /// Two logs of the same run, laid beside each other: the first index at which they differ, or the length of the shorter log where they
    /// differ at no index that both have. So they differ just if the index is below both lengths. `[10, 10, 20]` and `[10, 10, 30, 20]`
    /// give 2; `[10, 10]` and `[10, 10, 30]` give 2 as well, the length of the first. It refuses nothing: logs of any lengths, 0 too, and
    /// any entries, [`SKIPPED`] too, are answered. It takes one comparison for each index up to the first difference; what lies behind is
    /// not read and has no influence.
    pub fn first_difference(first: &[u16], second: &[u16]) -> usize {
        // SAFETY: two slices by pointer and length, which are only read; nothing is asked of what they hold.
        unsafe { pilfstera_first_difference(first.as_ptr(), first.len(), second.as_ptr(), second.len()) }
    }

    /// What is left of the longer of two logs where the other is its beginning, as the part of the caller's own log from the length of the
    /// shorter on. Equal logs, and logs that differ, give the empty rest of the first, the one at its end. So `[10, 10]` and
    /// `[10, 10, 30, 20]` give the last two entries of the second. Whether logs differ or are equal is told by [`first_difference`]. It
    /// refuses nothing, and compares and reads no more than [`first_difference`] does.
    pub fn rest<'a>(first: &'a [u16], second: &'a [u16]) -> &'a [u16] {
        let mut rest = Log { entries: first.as_ptr(), length: 0 };
        // SAFETY: two slices by pointer and length, which are only read, and a log of our own to write, which holds an empty one before;
        // nothing is asked of what the slices hold.
        unsafe { pilfstera_rest(first.as_ptr(), first.len(), second.as_ptr(), second.len(), &mut rest) };
        // SAFETY: by the library's contract what is stored is a tail of one of the two slices, from within it or from its end on, and both
        // live for 'a.
        unsafe { slice::from_raw_parts(rest.entries, rest.length) }
    }
}
