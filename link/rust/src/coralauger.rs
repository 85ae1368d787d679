//! The proved book, by its C interface: `link/coralauger.h` says what each function does.

use std::fmt::{self, Display, Formatter};

/// A call; a field that it does not use is not read.
#[repr(C)]
#[derive(Clone, Copy, Default)]
pub struct Call {
    pub call: u8,
    pub side: u8,
    pub kind: u8,
    pub has_offset: bool,
    pub who: u32,
    pub price: u32,
    pub offset: u32,
    pub shares: u32,
    pub number: u32,
    pub away: u32,
}

/// An answer; all but the refusal is 0 if the call was refused.
#[repr(C)]
#[derive(Clone, Copy, Default)]
pub struct Answer {
    pub refusal: u32,
    pub number: u32,
    pub shares: u32,
    pub cancelled: u32,
    pub waiting: u32,
    pub fills: usize,
}

#[repr(C)]
#[derive(Clone, Copy, Default)]
pub struct Fill {
    pub number: u32,
    pub price: u32,
    pub shares: u32,
}

/// The protected bid and the protected offer; 0 where there is none.
#[repr(C)]
#[derive(Clone, Copy, Default)]
pub struct Best {
    pub bid: u32,
    pub offer: u32,
}

/// Why the answers of a run or a day end where they do.
#[derive(Clone, Copy, PartialEq, Eq)]
pub struct End(u32);

impl End {
    pub const DONE: End = End(0);
    pub const NO_MEMORY: End = End(1);
    pub const NO_SUCH_CALL: End = End(2);
    pub const SHORT_LIST: End = End(3);
}

impl Display for End {
    fn fmt(&self, formatter: &mut Formatter<'_>) -> fmt::Result {
        formatter.write_str(match *self {
            End::DONE => "done",
            End::NO_MEMORY => "no memory",
            End::NO_SUCH_CALL => "no such call",
            End::SHORT_LIST => "a list is too short",
            _ => "?",
        })
    }
}

/// Why the answers end where they do, how many calls are answered, and how many fills their answers have.
#[derive(Clone, Copy)]
pub struct Run {
    pub end: End,
    pub calls: usize,
    pub fills: usize,
}

/// How a day ended, and how many bytes its answers have; without memory none.
#[derive(Clone, Copy)]
pub struct Day {
    pub end: End,
    pub bytes: usize,
}

mod c {
    use super::{Answer, Best, Call, Fill};

    #[repr(C)]
    pub struct Run {
        pub end: u32,
        pub calls: usize,
        pub fills: usize,
    }

    #[repr(C)]
    pub struct Day {
        pub end: u32,
        pub bytes: usize,
    }

    extern "C" {
        pub fn coralauger_run(
            calls: *const Call,
            call_count: usize,
            answers: *mut Answer,
            answer_places: usize,
            fills: *mut Fill,
            fill_places: usize,
        ) -> Run;

        pub fn coralauger_protect(calls: *const Call, call_count: usize, best: *mut Best, best_places: usize) -> usize;

        pub fn coralauger_answer_day(day: *const u8, day_bytes: usize, answers: *mut u8, answer_places: usize) -> Day;
    }
}

/// Makes the calls on an empty book.
pub fn run(calls: &[Call], answers: &mut [Answer], fills: &mut [Fill]) -> Run {
    let (call_count, answer_places, fill_places) = (calls.len(), answers.len(), fills.len());
    // SAFETY: the places of the three slices can be read and written, as many as is said, and do not overlap.
    let run = unsafe {
        c::coralauger_run(
            calls.as_ptr(),
            call_count,
            answers.as_mut_ptr(),
            answer_places,
            fills.as_mut_ptr(),
            fill_places,
        )
    };
    Run { end: End(run.end), calls: run.calls, fills: run.fills }
}

/// Makes the quote calls at the front of a list, and gives the protected quotes after each.
pub fn protect<'a>(calls: &[Call], best: &'a mut [Best]) -> &'a [Best] {
    // SAFETY: as above.
    let written = unsafe { c::coralauger_protect(calls.as_ptr(), calls.len(), best.as_mut_ptr(), best.len()) };
    &best[..written]
}

/// Answers a day file.
pub fn answer_day(day: &[u8], answers: &mut [u8]) -> Day {
    // SAFETY: as above.
    let day = unsafe { c::coralauger_answer_day(day.as_ptr(), day.len(), answers.as_mut_ptr(), answers.len()) };
    Day { end: End(day.end), bytes: day.bytes }
}
