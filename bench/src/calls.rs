//! Calls, answers and fills as `link/coralauger.h` has them, byte for byte.

use crate::terms::Refusal;

/// A call; a field that it does not use is not read.
#[repr(C)]
#[derive(Clone, Copy, Default, PartialEq, Eq, Debug)]
pub struct Call {
    pub call: u8,
    pub side: u8,
    pub kind: u8,
    pub has_offset: bool,
    pub who: u32,
    pub price: u32,
    pub offset: u32,
    pub shares: u32,
    pub number: u32,
    pub away: u32,
}

impl Call {
    /// A call that stands for nothing, for the fields that another does not use.
    const NONE: Call = Call {
        call: 0,
        side: 0,
        kind: 0,
        has_offset: false,
        who: 0,
        price: 0,
        offset: 0,
        shares: 0,
        number: 0,
        away: 0,
    };

    /// An order; without an offset it is 0 here.
    pub const fn enter(member: u32, side: u8, kind: u8, price: u32, offset: u32, shares: u32) -> Call {
        let has_offset = offset > 0;
        Call { call: b'E', side, kind, has_offset, who: member, price, offset, shares, ..Call::NONE }
    }

    pub const fn cancel(member: u32, number: u32) -> Call {
        Call { call: b'C', who: member, number, ..Call::NONE }
    }

    pub const fn retail(member: u32, side: u8, kind: u8, price: u32, shares: u32) -> Call {
        Call { call: b'R', side, kind, who: member, price, shares, ..Call::NONE }
    }

    pub const fn draw(number: u32) -> Call {
        Call { call: b'D', number, ..Call::NONE }
    }

    pub const fn give_back(number: u32, shares: u32, away: u32) -> Call {
        Call { call: b'B', number, shares, away, ..Call::NONE }
    }

    pub const fn tell(centre: u32, side: u8, price: u32, size: u32) -> Call {
        Call { call: b'T', side, who: centre, price, shares: size, ..Call::NONE }
    }

    pub const fn move_phase(kind: u8) -> Call {
        Call { call: b'P', kind, ..Call::NONE }
    }

    pub const fn approve(member: u32) -> Call {
        Call { call: b'A', who: member, ..Call::NONE }
    }

    pub const fn withdraw(member: u32) -> Call {
        Call { call: b'W', who: member, ..Call::NONE }
    }

    pub const fn declare(centre: u32) -> Call {
        Call { call: b'X', who: centre, ..Call::NONE }
    }

    pub const fn lift(centre: u32) -> Call {
        Call { call: b'L', who: centre, ..Call::NONE }
    }

    pub fn offset(&self) -> Option<u32> {
        self.has_offset.then_some(self.offset)
    }
}

/// An answer; all but the refusal is 0 if the call was refused.
#[repr(C)]
#[derive(Clone, Copy, Default, PartialEq, Eq, Debug)]
pub struct Answer {
    pub refusal: u32,
    pub number: u32,
    pub shares: u32,
    pub cancelled: u32,
    pub waiting: u32,
    pub fills: usize,
}

impl Answer {
    /// The call was made, and there is nothing more to say.
    pub const MADE: Answer = Answer { refusal: 0, number: 0, shares: 0, cancelled: 0, waiting: 0, fills: 0 };

    pub fn counted(number: u32, shares: u32) -> Answer {
        Answer { number, shares, ..Answer::MADE }
    }

    pub fn refused(refusal: Refusal) -> Answer {
        Answer { refusal: refusal as u32, ..Answer::MADE }
    }
}

#[repr(C)]
#[derive(Clone, Copy, Default, PartialEq, Eq, Debug)]
pub struct Fill {
    pub number: u32,
    pub price: u32,
    pub shares: u32,
}

pub const DONE: u32 = 0;
pub const NO_MEMORY: u32 = 1;
pub const NO_SUCH_CALL: u32 = 2;
pub const SHORT_LIST: u32 = 3;

/// Why the answers end where they do, how many calls are answered, and how many fills their answers have.
#[repr(C)]
#[derive(Clone, Copy, Default, PartialEq, Eq, Debug)]
pub struct Run {
    pub end: u32,
    pub calls: usize,
    pub fills: usize,
}

/// The protected bid and the protected offer; 0 where there is none.
#[repr(C)]
#[derive(Clone, Copy, Default, PartialEq, Eq, Debug)]
pub struct Best {
    pub bid: u32,
    pub offer: u32,
}

/// How many bytes the answers to a day file have, and how it ended.
#[repr(C)]
#[derive(Clone, Copy, Default, PartialEq, Eq, Debug)]
pub struct Day {
    pub end: u32,
    pub bytes: usize,
}
