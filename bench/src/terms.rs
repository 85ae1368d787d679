//! The ranges of docs/QUOTES.md, and the refusals and faults of docs/REFUSALS.md and docs/DAYFILE.md.

pub const MIN_PRICE: u32 = 1;
pub const MAX_PRICE: u32 = 10_000_000;
pub const MIN_OFFSET: u32 = 1;
pub const MAX_OFFSET: u32 = 100_000;
pub const MIN_SHARES: u32 = 1;
pub const MAX_SHARES: u32 = 1_000_000;
pub const FIRST_MEMBER: u32 = 1;
pub const LAST_MEMBER: u32 = 64;
pub const MAX_QUOTE_SIZE: u32 = 1_000_000;
pub const LAST_ORDER_NUMBER: u32 = 500_000;
/// The market centres are 0 to 31.
pub const CENTRES: u32 = 32;
/// The smallest size of a quote that is shown.
pub const LOT: u32 = 100;
/// From this price on a hidden or displayed order needs a whole cent, and below it no RPI Order is eligible.
pub const DOLLAR: u32 = 1_000;
pub const CENT: u32 = 10;
/// So many orders can rest.
pub const MAX_ORDERS: usize = 256;
/// So many slips can wait or be drawn.
pub const MAX_SLIPS: usize = 32;

/// A day file has at most so many bytes.
pub const MAX_FILE: usize = 65_536;
/// A line has at most so many bytes, without its byte 10.
pub const MAX_LINE: usize = 120;
pub const FIELDS: usize = 8;
pub const MAX_DIGITS: usize = 9;
pub const NAMES_LINE: &[u8] = b"call,who,side,kind,price,offset,shares,ref";
pub const ANSWERS_LINE: &[u8] = b"line,code,ref,price,shares\n";

/// A refusal of the book, with its number.
#[derive(Clone, Copy, PartialEq, Eq, Debug)]
pub enum Refusal {
    OutOfRange = 1,
    NotWholeCent = 2,
    OffsetNotRpi = 3,
    WrongPhase = 4,
    NotApproved = 5,
    BookFull = 7,
    NumbersExhausted = 8,
    NoSuchOrder = 9,
    SlipsFull = 10,
    NoWaitingSlip = 11,
    NoDrawnSlip = 12,
    MoreThanSlip = 13,
}

/// What is wrong with a file or a line, with its number.
#[derive(Clone, Copy, PartialEq, Eq, Debug)]
pub enum Wrong {
    NoNamesLine = 20,
    NotALine = 21,
    BlankOrFilled = 22,
    NotALetter = 23,
    NotANumber = 24,
    FileTooLong = 25,
}

/// A fault and its place.
#[derive(Clone, Copy, PartialEq, Eq, Debug)]
pub struct Fault {
    pub wrong: Wrong,
    pub place: usize,
}
