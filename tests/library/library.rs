//! The static library's twelve functions: the safe ones of include/pilfstera.rs, and in `raw` each as a C program calls it. The file is
//! included, not named by its path, so that its declarations of the C functions are in reach here.

include!("../../include/pilfstera.rs");

/// For calls with noise in what is stored through pointers: the safe functions have numbers and a log of their own there.
pub mod raw {
    use super::{
        pilfstera_check_chart, pilfstera_check_sheet, pilfstera_depth, pilfstera_first_difference, pilfstera_go_round,
        pilfstera_make, pilfstera_part, pilfstera_rest, pilfstera_run_chart, pilfstera_run_sheet, pilfstera_set_point, pilfstera_way,
        Log,
    };

    pub fn check_sheet(sheet: &[u8], returned: &mut usize) -> u8 {
        // SAFETY: a slice's pointer and length, and a live number; the function has no `requires`.
        unsafe { pilfstera_check_sheet(sheet.as_ptr(), sheet.len(), returned) }
    }

    pub fn check_chart(chart: &[u8], returned: &mut usize) -> u8 {
        // SAFETY: as above.
        unsafe { pilfstera_check_chart(chart.as_ptr(), chart.len(), returned) }
    }

    pub fn depth(chart: &[u8], returned: &mut usize) -> u8 {
        // SAFETY: as above.
        unsafe { pilfstera_depth(chart.as_ptr(), chart.len(), returned) }
    }

    pub fn run_sheet(sheet: &[u8], actions: &[u8], entries: &mut [u16], returned: &mut usize, barred: &mut usize) -> u8 {
        // SAFETY: as above; the buffer and the two numbers are borrowed apart.
        unsafe {
            pilfstera_run_sheet(
                sheet.as_ptr(),
                sheet.len(),
                actions.as_ptr(),
                actions.len(),
                entries.as_mut_ptr(),
                entries.len(),
                returned,
                barred,
            )
        }
    }

    pub fn run_chart(chart: &[u8], actions: &[u8], entries: &mut [u16], returned: &mut usize, barred: &mut usize) -> u8 {
        // SAFETY: as above.
        unsafe {
            pilfstera_run_chart(
                chart.as_ptr(),
                chart.len(),
                actions.as_ptr(),
                actions.len(),
                entries.as_mut_ptr(),
                entries.len(),
                returned,
                barred,
            )
        }
    }

    pub fn make(sheet: &[u8], chart: &mut [u8], list: &mut [u8], returned: &mut usize) -> u8 {
        // SAFETY: as above.
        unsafe {
            pilfstera_make(sheet.as_ptr(), sheet.len(), chart.as_mut_ptr(), chart.len(), list.as_mut_ptr(), list.len(), returned)
        }
    }

    pub fn way(sheet: &[u8], block: usize, actions: &mut [u8], returned: &mut usize) -> u8 {
        // SAFETY: as above.
        unsafe { pilfstera_way(sheet.as_ptr(), sheet.len(), block, actions.as_mut_ptr(), actions.len(), returned) }
    }

    /// Where `part` stores whether the charts are equal.
    pub const EQUAL: usize = 3;

    pub fn part(first: &[u8], second: &[u8], actions: &mut [u8], returned: &mut usize, equal: &mut [u8; 8]) -> u8 {
        part_of(first, first.len(), second, second.len(), actions, returned, equal)
    }

    /// The charts have these lengths, of which the slices may be the beginnings.
    pub fn part_of(
        first: &[u8],
        first_length: usize,
        second: &[u8],
        second_length: usize,
        actions: &mut [u8],
        returned: &mut usize,
        equal: &mut [u8; 8],
    ) -> u8 {
        let (room, equal) = (actions.len(), &mut equal[EQUAL]);
        // SAFETY: as above. Where a length is above its slice's, the slice has the whole header, and the length is another than its counts
        // give, or the header is refused: no byte behind it is read.
        unsafe {
            pilfstera_part(
                first.as_ptr(),
                first_length,
                second.as_ptr(),
                second_length,
                actions.as_mut_ptr(),
                room,
                returned,
                equal,
            )
        }
    }

    pub fn set_point(
        kind: u8,
        factor: i64,
        offset: i64,
        wanted: i64,
        returned: &mut usize,
        old: &mut i64,
        remainder: &mut i64,
    ) -> u8 {
        // SAFETY: three live numbers, borrowed apart; the function has no `requires`.
        unsafe { pilfstera_set_point(kind, factor, offset, wanted, returned, old, remainder) }
    }

    /// The counts are stored in the middle third of `room`.
    pub fn go_round(modulus: u64, start: u64, wanted: u64, increments: &[u64], room: &mut [u64; 24], returned: &mut usize) -> u8 {
        let (increments, count) = (increments.as_ptr(), increments.len());
        // SAFETY: a slice's pointer and length, eight live numbers and one more, borrowed apart; the function has no `requires`.
        unsafe { pilfstera_go_round(modulus, start, wanted, increments, count, room.as_mut_ptr().add(8), returned) }
    }

    pub fn first_difference(first: &[u16], second: &[u16]) -> usize {
        // SAFETY: the pointers and lengths of two slices; the function has no `requires`.
        unsafe { pilfstera_first_difference(first.as_ptr(), first.len(), second.as_ptr(), second.len()) }
    }

    /// The rest is stored in the middle of three logs, each of which is `before`: pointers and lengths of the three.
    pub fn rest(first: &[u16], second: &[u16], before: &[u16]) -> [(*const u16, usize); 3] {
        let mut logs = [(); 3].map(|()| Log { entries: before.as_ptr(), length: before.len() });
        // SAFETY: as above, and a live log.
        unsafe { pilfstera_rest(first.as_ptr(), first.len(), second.as_ptr(), second.len(), logs.as_mut_ptr().add(1)) };
        logs.map(|log| (log.entries, log.length))
    }
}
