//! Lists of calls on the fast book, in the words of `link/coralauger.h`. Nothing is allocated.

use super::book::{Book, Change, Entry, RetailOrder, Side};
use super::quotes::{price, Quotes};
use crate::calls::*;
use crate::terms::{Refusal, MAX_ORDERS};

/// Makes the calls on an empty book, as `coralauger_run` does.
pub fn run(calls: &[Call], answers: &mut [Answer], fills: &mut [Fill]) -> Run {
    let mut book = Book::new();
    let mut filled = 0;
    for (place, call) in calls.iter().enumerate() {
        let own = &mut fills[filled..];
        let has_room = place < answers.len() && own.len() >= MAX_ORDERS;
        let made = if has_room { make(&mut book, call, own) } else { None };
        let Some(answer) = made else {
            let end = if !has_room && is_known(call) { SHORT_LIST } else { NO_SUCH_CALL };
            return Run { end, calls: place, fills: filled };
        };
        answers[place] = answer;
        filled += answer.fills;
    }
    Run { end: DONE, calls: calls.len(), fills: filled }
}

/// Makes quote calls and writes the protected quotes after each, as `coralauger_protect` does.
pub fn protect(calls: &[Call], best: &mut [Best]) -> usize {
    let mut quotes = Quotes::new();
    let mut written = 0;
    for (call, best) in calls.iter().zip(best) {
        // A refused call changes nothing.
        if !matches!(call.call, b'T' | b'X' | b'L') || quote(&mut quotes, call).is_none() {
            break;
        }
        *best = Best { bid: protected(&quotes, Side::Buy), offer: protected(&quotes, Side::Sell) };
        written += 1;
    }
    written
}

fn protected(quotes: &Quotes, of: Side) -> u32 {
    quotes.protected(of).map_or(0, |rank| price(of, rank))
}

/// Makes a call if its letters are known; its fills stand at the front of the list, which has a place for each order that
/// can rest.
#[inline]
pub fn make(book: &mut Book, call: &Call, fills: &mut [Fill]) -> Option<Answer> {
    let answer = match call.call {
        b'E' => book.enter(&entry(call)?).map(|number| Answer::counted(number, call.shares)),
        b'C' => book.cancel(call.who, call.number).map(|left| Answer::counted(call.number, left)),
        b'R' => retail(book, &retail_order(call)?, fills),
        b'D' => book.draw(call.number).map(|shares| Answer::counted(call.number, shares)),
        b'B' => give_back(book, call),
        b'P' => book.move_phase(change(call)?).map(|()| Answer::MADE),
        b'A' => book.approve(call.who).map(|()| Answer::MADE),
        b'W' => book.withdraw(call.who).map(|()| Answer::MADE),
        b'T' | b'X' | b'L' => quote(&mut book.quotes, call)?.map(|()| Answer::MADE),
        _ => return None,
    };
    Some(answer.unwrap_or_else(Answer::refused))
}

#[cold]
fn is_known(call: &Call) -> bool {
    match call.call {
        b'E' => entry(call).is_some(),
        b'R' => retail_order(call).is_some(),
        b'P' => change(call).is_some(),
        b'T' => side(call).is_some(),
        letter => b"CDBAWXL".contains(&letter),
    }
}

fn quote(quotes: &mut Quotes, call: &Call) -> Option<Result<(), Refusal>> {
    Some(match call.call {
        b'T' => quotes.tell(call.who, side(call)?, call.price, call.shares),
        letter => quotes.except(call.who, letter == b'X'),
    })
}

fn entry(call: &Call) -> Option<Entry> {
    let (rpi, displayed) = match call.kind {
        b'R' => (true, false),
        b'H' => (false, false),
        b'D' => (false, true),
        _ => return None,
    };
    let (member, side, limit, shares) = (call.who, side(call)?, call.price, call.shares);
    Some(Entry { member, side, rpi, displayed, limit, offset: call.offset(), shares })
}

fn retail_order(call: &Call) -> Option<RetailOrder> {
    let (type_1, routable) = match call.kind {
        b'1' => (true, false),
        b'2' => (false, false),
        b'3' => (false, true),
        _ => return None,
    };
    Some(RetailOrder { member: call.who, side: side(call)?, type_1, routable, limit: call.price, shares: call.shares })
}

fn side(call: &Call) -> Option<Side> {
    match call.side {
        b'B' => Some(Side::Buy),
        b'S' => Some(Side::Sell),
        _ => None,
    }
}

fn change(call: &Call) -> Option<Change> {
    match call.kind {
        b'O' => Some(Change::Opening),
        b'H' => Some(Change::Halting),
        b'C' => Some(Change::Closing),
        _ => None,
    }
}

fn retail(book: &mut Book, order: &RetailOrder, fills: &mut [Fill]) -> Result<Answer, Refusal> {
    let taken = book.retail(order, fills)?;
    let left = order.shares - taken.filled;
    let (cancelled, waiting) = if order.routable { (0, left) } else { (left, 0) };
    Ok(Answer { cancelled, waiting, fills: taken.fills, ..Answer::counted(taken.number, taken.filled) })
}

fn give_back(book: &mut Book, call: &Call) -> Result<Answer, Refusal> {
    let cancelled = book.give_back(call.number, call.shares, call.away)?;
    Ok(Answer { cancelled, ..Answer::counted(call.number, call.away) })
}
