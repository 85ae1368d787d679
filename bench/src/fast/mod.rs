//! The fast book: three queues a side, kept sorted from entry on. Nothing is sorted or allocated at a Retail Order.

pub mod book;
mod line;
pub mod list;
pub mod queue;
pub mod quotes;

use crate::calls::Fill;
use crate::terms::{Fault, Refusal, Wrong, ANSWERS_LINE, MAX_FILE, MAX_ORDERS, NAMES_LINE};
use book::Book;
use line::Call;

/// Room for the answer lines of one line, taken over all lines of a day: an entry has one line and later at most one fill
/// that empties its order, a Retail Order at most one fill that does not and two lines more.
const ROOM: usize = 3 * 48;

/// What a day file is answered.
pub fn answer_day(day: &[u8]) -> Vec<u8> {
    if day.len() > MAX_FILE {
        return file_fault(Wrong::FileTooLong);
    }
    let (first, mut rest) = cut(day);
    if first != NAMES_LINE {
        return file_fault(Wrong::NoNamesLine);
    }
    let lines = 2 + rest.iter().filter(|byte| **byte == b'\n').count();
    let mut answers = Answers { bytes: Vec::with_capacity(ANSWERS_LINE.len() + ROOM * lines), line: 1 };
    answers.bytes.extend_from_slice(ANSWERS_LINE);
    let mut book = Book::new();
    let mut fills = [Fill::default(); MAX_ORDERS];
    while !rest.is_empty() {
        let line;
        (line, rest) = cut(rest);
        answers.line += 1;
        match line::read(line) {
            Err(fault) => answers.fault(fault),
            Ok(call) => {
                if let Err(refusal) = make(&mut book, &mut fills, &call, &mut answers) {
                    answers.refusal(refusal);
                }
            }
        }
    }
    answers.bytes
}

/// The first line, and what stands after its byte 10.
fn cut(bytes: &[u8]) -> (&[u8], &[u8]) {
    match bytes.iter().position(|byte| *byte == b'\n') {
        Some(end) => (&bytes[..end], &bytes[end + 1..]),
        None => (bytes, &[]),
    }
}

fn file_fault(wrong: Wrong) -> Vec<u8> {
    let mut answers = Answers { bytes: ANSWERS_LINE.to_vec(), line: 1 };
    answers.fault(Fault { wrong, place: 0 });
    answers.bytes
}

/// Makes a call and writes its answer lines; a refused call writes none.
fn make(book: &mut Book, fills: &mut [Fill; MAX_ORDERS], call: &Call, answers: &mut Answers) -> Result<(), Refusal> {
    match *call {
        Call::Enter(ref entry) => {
            let number = book.enter(entry)?;
            answers.counted(b'E', number, entry.shares);
        }
        Call::Cancel { member, number } => {
            let left = book.cancel(member, number)?;
            answers.counted(b'C', number, left);
        }
        Call::Retail(ref order) => {
            let taken = book.retail(order, fills)?;
            for fill in &fills[..taken.fills] {
                answers.fill(fill);
            }
            answers.counted(b'R', taken.number, taken.filled);
            let left = order.shares - taken.filled;
            if left > 0 {
                answers.counted(if order.routable { b'S' } else { b'K' }, taken.number, left);
            }
        }
        Call::Slip { number, away } => {
            let left = book.draw_and_return(number, away)?;
            answers.counted(b'B', number, away);
            if left > 0 {
                answers.counted(b'K', number, left);
            }
        }
        Call::Tell { centre, side, price, size } => {
            book.quotes.tell(centre, side, price, size)?;
            answers.letter(b'T');
        }
        Call::Declare(centre) => {
            book.quotes.except(centre, true)?;
            answers.letter(b'X');
        }
        Call::Lift(centre) => {
            book.quotes.except(centre, false)?;
            answers.letter(b'L');
        }
        Call::Approve(member) => {
            book.approve(member)?;
            answers.letter(b'A');
        }
        Call::Withdraw(member) => {
            book.withdraw(member)?;
            answers.letter(b'W');
        }
        Call::Phase(change) => {
            book.move_phase(change)?;
            answers.letter(b'P');
        }
        Call::Identifier => answers.identifier(book.interest()),
    }
    Ok(())
}

/// The answers so far, and the number of the line that is answered.
struct Answers {
    bytes: Vec<u8>,
    line: u32,
}

impl Answers {
    fn letter(&mut self, code: u8) {
        self.start(code);
        self.bytes.extend_from_slice(b",,\n");
    }

    fn identifier(&mut self, sides: u32) {
        self.start(b'I');
        self.number(sides);
        self.bytes.extend_from_slice(b",,\n");
    }

    fn refusal(&mut self, refusal: Refusal) {
        self.start(b'N');
        self.number(refusal as u32);
        self.bytes.extend_from_slice(b",,\n");
    }

    fn fault(&mut self, fault: Fault) {
        self.counted(b'N', fault.wrong as u32, fault.place as u32);
    }

    fn counted(&mut self, code: u8, number: u32, shares: u32) {
        self.start(code);
        self.number(number);
        self.bytes.extend_from_slice(b",,");
        self.number(shares);
        self.bytes.push(b'\n');
    }

    fn fill(&mut self, fill: &Fill) {
        self.start(b'F');
        self.number(fill.number);
        self.bytes.push(b',');
        self.number(fill.price);
        self.bytes.push(b',');
        self.number(fill.shares);
        self.bytes.push(b'\n');
    }

    /// The line's number and the letter, each with the comma after it.
    fn start(&mut self, code: u8) {
        self.number(self.line);
        self.bytes.extend_from_slice(&[b',', code, b',']);
    }

    /// A number's decimal digits.
    fn number(&mut self, mut number: u32) {
        let mut digits = [0u8; 10];
        let mut first = digits.len();
        loop {
            first -= 1;
            digits[first] = b'0' + (number % 10) as u8;
            number /= 10;
            if number == 0 {
                break;
            }
        }
        self.bytes.extend_from_slice(&digits[first..]);
    }
}
