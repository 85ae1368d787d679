//! The proved book, by the static library that `link/coralauger.h` describes.

use crate::calls::{Answer, Best, Call, Day, Fill, Run};

mod c {
    use super::*;

    extern "C" {
        pub fn coralauger_run(
            calls: *const Call,
            call_count: usize,
            answers: *mut Answer,
            answer_places: usize,
            fills: *mut Fill,
            fill_places: usize,
        ) -> Run;

        pub fn coralauger_protect(calls: *const Call, call_count: usize, best: *mut Best, best_places: usize) -> usize;

        pub fn coralauger_answer_day(day: *const u8, day_bytes: usize, answers: *mut u8, answer_places: usize) -> Day;
    }
}

/// Makes the calls on an empty book.
pub fn run(calls: &[Call], answers: &mut [Answer], fills: &mut [Fill]) -> Run {
    // SAFETY: the slices are as long as is said, and do not overlap.
    unsafe {
        c::coralauger_run(
            calls.as_ptr(),
            calls.len(),
            answers.as_mut_ptr(),
            answers.len(),
            fills.as_mut_ptr(),
            fills.len(),
        )
    }
}

/// Makes quote calls and writes the protected quotes after each.
pub fn protect(calls: &[Call], best: &mut [Best]) -> usize {
    // SAFETY: as above.
    unsafe { c::coralauger_protect(calls.as_ptr(), calls.len(), best.as_mut_ptr(), best.len()) }
}

/// Answers a day file.
pub fn answer_day(day: &[u8], answers: &mut [u8]) -> Day {
    // SAFETY: as above.
    unsafe { c::coralauger_answer_day(day.as_ptr(), day.len(), answers.as_mut_ptr(), answers.len()) }
}
