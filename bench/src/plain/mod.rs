//! The plain book: it keeps its orders in one list, and filters and sorts them at each Retail Order.

pub mod book;
mod line;
pub mod list;

use crate::terms::{Fault, Refusal, Wrong, ANSWERS_LINE, MAX_FILE, NAMES_LINE};
use book::{Book, Change, Kind, Remainder, Retail, RetailType, Side};
use line::Said;

/// One answer line, without the number of the line that is answered.
struct Answer {
    code: char,
    reference: Option<u32>,
    price: Option<u32>,
    shares: Option<u32>,
}

/// What a day file is answered.
pub fn answer_day(day: &[u8]) -> Vec<u8> {
    let mut answers = ANSWERS_LINE.to_vec();
    if day.len() > MAX_FILE {
        write(&mut answers, 1, &[fault_answer(Fault { wrong: Wrong::FileTooLong, place: 0 })]);
        return answers;
    }
    let lines = lines_of(day);
    if lines.first() != Some(&NAMES_LINE) {
        write(&mut answers, 1, &[fault_answer(Fault { wrong: Wrong::NoNamesLine, place: 0 })]);
        return answers;
    }
    let mut book = Book::new();
    for (index, line) in lines.iter().enumerate().skip(1) {
        write(&mut answers, index + 1, &answer_line(&mut book, line));
    }
    answers
}

/// The lines of a day; after a byte 10 at its end begins none.
fn lines_of(day: &[u8]) -> Vec<&[u8]> {
    let mut lines: Vec<&[u8]> = day.split(|byte| *byte == b'\n').collect();
    if lines.last().is_some_and(|line| line.is_empty()) {
        lines.pop();
    }
    lines
}

fn answer_line(book: &mut Book, line: &[u8]) -> Vec<Answer> {
    match line::read(line) {
        Err(fault) => vec![fault_answer(fault)],
        Ok(said) => match call(book, &said) {
            Err(refusal) => vec![Answer { code: 'N', reference: Some(refusal as u32), price: None, shares: None }],
            Ok(answers) => answers,
        },
    }
}

/// Makes the call of a line.
fn call(book: &mut Book, said: &Said) -> Result<Vec<Answer>, Refusal> {
    match said.call {
        b'E' => {
            let number = book.enter(said.who, side(said), kind(said), said.price, said.offset, said.shares)?;
            Ok(vec![counted('E', number, said.shares)])
        }
        b'C' => {
            let left = book.cancel(said.who, said.reference)?;
            Ok(vec![counted('C', said.reference, left)])
        }
        b'R' => {
            let retail = book.retail(said.who, side(said), retail_type(said), said.price, said.shares)?;
            Ok(retail_answers(&retail))
        }
        b'S' => {
            let left = book.draw_and_return(said.reference, said.shares)?;
            let mut answers = vec![counted('B', said.reference, said.shares)];
            if left > 0 {
                answers.push(counted('K', said.reference, left));
            }
            Ok(answers)
        }
        b'I' => {
            let sides = u32::from(book.has_interest(Side::Buy)) + 2 * u32::from(book.has_interest(Side::Sell));
            Ok(vec![Answer { code: 'I', reference: Some(sides), price: None, shares: None }])
        }
        _ => {
            match said.call {
                b'T' => book.quotes.tell(said.who, side(said), said.price, said.shares)?,
                b'X' => book.quotes.declare(said.who)?,
                b'L' => book.quotes.lift(said.who)?,
                b'A' => book.approve(said.who)?,
                b'W' => book.withdraw(said.who)?,
                _ => book.move_phase(change(said))?,
            }
            Ok(vec![Answer { code: char::from(said.call), reference: None, price: None, shares: None }])
        }
    }
}

fn side(said: &Said) -> Side {
    if said.side == b'B' {
        Side::Buy
    } else {
        Side::Sell
    }
}

fn kind(said: &Said) -> Kind {
    match said.kind {
        b'R' => Kind::Rpi,
        b'H' => Kind::Hidden,
        _ => Kind::Displayed,
    }
}

fn retail_type(said: &Said) -> RetailType {
    match said.kind {
        b'1' => RetailType::Type1,
        b'2' => RetailType::Type2NotRoutable,
        _ => RetailType::Type2Routable,
    }
}

fn change(said: &Said) -> Change {
    match said.kind {
        b'O' => Change::Opening,
        b'H' => Change::Halting,
        _ => Change::Closing,
    }
}

fn retail_answers(retail: &Retail) -> Vec<Answer> {
    let mut answers: Vec<Answer> = retail
        .fills
        .iter()
        .map(|fill| Answer {
            code: 'F',
            reference: Some(fill.number),
            price: Some(fill.price),
            shares: Some(fill.shares),
        })
        .collect();
    answers.push(counted('R', retail.number, retail.filled));
    match retail.remainder {
        Remainder::Nothing => {}
        Remainder::Cancelled(shares) => answers.push(counted('K', retail.number, shares)),
        Remainder::OnSlip(shares) => answers.push(counted('S', retail.number, shares)),
    }
    answers
}

/// An answer with a number and shares.
fn counted(code: char, number: u32, shares: u32) -> Answer {
    Answer { code, reference: Some(number), price: None, shares: Some(shares) }
}

fn fault_answer(fault: Fault) -> Answer {
    Answer { code: 'N', reference: Some(fault.wrong as u32), price: None, shares: Some(fault.place as u32) }
}

fn write(answers: &mut Vec<u8>, line: usize, of_line: &[Answer]) {
    for answer in of_line {
        let text = format!(
            "{line},{},{},{},{}\n",
            answer.code,
            number_or_blank(answer.reference),
            number_or_blank(answer.price),
            number_or_blank(answer.shares)
        );
        answers.extend_from_slice(text.as_bytes());
    }
}

fn number_or_blank(number: Option<u32>) -> String {
    number.map_or(String::new(), |number| number.to_string())
}
