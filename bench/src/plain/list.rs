//! Lists of calls on the plain book, in the words of `link/coralauger.h`.

use super::book::{Book, Change, Kind, Quotes, Remainder, Retail, RetailType, Side};
use crate::calls::*;
use crate::terms::{Refusal, MAX_ORDERS};

/// Makes the calls on an empty book, as `coralauger_run` does.
pub fn run(calls: &[Call], answers: &mut [Answer], fills: &mut [Fill]) -> Run {
    let mut book = Book::new();
    let mut filled = 0;
    for (place, call) in calls.iter().enumerate() {
        let Some(meaning) = meaning(call) else {
            return Run { end: NO_SUCH_CALL, calls: place, fills: filled };
        };
        if place == answers.len() || fills.len() - filled < MAX_ORDERS {
            return Run { end: SHORT_LIST, calls: place, fills: filled };
        }
        answers[place] = make(&mut book, &meaning, &mut fills[filled..]).unwrap_or_else(Answer::refused);
        filled += answers[place].fills;
    }
    Run { end: DONE, calls: calls.len(), fills: filled }
}

/// Makes quote calls and writes the protected quotes after each, as `coralauger_protect` does.
pub fn protect(calls: &[Call], best: &mut [Best]) -> usize {
    let mut quotes = Quotes::default();
    let quote_calls = calls.iter().map_while(|call| match meaning(call) {
        Some(Meaning::Quote(call)) => Some(call),
        _ => None,
    });
    let mut written = 0;
    for (call, best) in quote_calls.zip(best) {
        // A refused call changes nothing.
        let _ = tell_or_except(&mut quotes, &call);
        let price = |of| quotes.protected(of).unwrap_or(0);
        *best = Best { bid: price(Side::Buy), offer: price(Side::Sell) };
        written += 1;
    }
    written
}

/// What the letters of a call mean.
enum Meaning {
    Enter { member: u32, side: Side, kind: Kind, limit: u32, offset: Option<u32>, shares: u32 },
    Cancel { member: u32, number: u32 },
    Retail { member: u32, side: Side, of_type: RetailType, limit: u32, shares: u32 },
    Draw(u32),
    GiveBack { number: u32, shares: u32, away: u32 },
    Phase(Change),
    Approve(u32),
    Withdraw(u32),
    Quote(QuoteCall),
}

enum QuoteCall {
    Tell { centre: u32, side: Side, price: u32, size: u32 },
    Declare(u32),
    Lift(u32),
}

/// None if a letter that the call uses is unknown.
fn meaning(call: &Call) -> Option<Meaning> {
    let Call { who, price, shares, number, away, .. } = *call;
    Some(match call.call {
        b'E' => {
            let (side, kind) = (side(call.side)?, kind(call.kind)?);
            Meaning::Enter { member: who, side, kind, limit: price, offset: call.offset(), shares }
        }
        b'C' => Meaning::Cancel { member: who, number },
        b'R' => {
            let (side, of_type) = (side(call.side)?, retail_type(call.kind)?);
            Meaning::Retail { member: who, side, of_type, limit: price, shares }
        }
        b'D' => Meaning::Draw(number),
        b'B' => Meaning::GiveBack { number, shares, away },
        b'P' => Meaning::Phase(change(call.kind)?),
        b'A' => Meaning::Approve(who),
        b'W' => Meaning::Withdraw(who),
        b'T' => Meaning::Quote(QuoteCall::Tell { centre: who, side: side(call.side)?, price, size: shares }),
        b'X' => Meaning::Quote(QuoteCall::Declare(who)),
        b'L' => Meaning::Quote(QuoteCall::Lift(who)),
        _ => return None,
    })
}

fn side(letter: u8) -> Option<Side> {
    match letter {
        b'B' => Some(Side::Buy),
        b'S' => Some(Side::Sell),
        _ => None,
    }
}

fn kind(letter: u8) -> Option<Kind> {
    match letter {
        b'R' => Some(Kind::Rpi),
        b'H' => Some(Kind::Hidden),
        b'D' => Some(Kind::Displayed),
        _ => None,
    }
}

fn retail_type(letter: u8) -> Option<RetailType> {
    match letter {
        b'1' => Some(RetailType::Type1),
        b'2' => Some(RetailType::Type2NotRoutable),
        b'3' => Some(RetailType::Type2Routable),
        _ => None,
    }
}

fn change(letter: u8) -> Option<Change> {
    match letter {
        b'O' => Some(Change::Opening),
        b'H' => Some(Change::Halting),
        b'C' => Some(Change::Closing),
        _ => None,
    }
}

/// Makes a call and writes its fills to the front of the list.
fn make(book: &mut Book, call: &Meaning, fills: &mut [Fill]) -> Result<Answer, Refusal> {
    match *call {
        Meaning::Enter { member, side, kind, limit, offset, shares } => {
            return Ok(Answer::counted(book.enter(member, side, kind, limit, offset, shares)?, shares));
        }
        Meaning::Cancel { member, number } => return Ok(Answer::counted(number, book.cancel(member, number)?)),
        Meaning::Retail { member, side, of_type, limit, shares } => {
            return Ok(retail_answer(&book.retail(member, side, of_type, limit, shares)?, fills));
        }
        Meaning::Draw(number) => return Ok(Answer::counted(number, book.draw(number)?)),
        Meaning::GiveBack { number, shares, away } => {
            let cancelled = book.give_back(number, shares, away)?;
            return Ok(Answer { cancelled, ..Answer::counted(number, away) });
        }
        Meaning::Phase(change) => book.move_phase(change)?,
        Meaning::Approve(member) => book.approve(member)?,
        Meaning::Withdraw(member) => book.withdraw(member)?,
        Meaning::Quote(ref call) => tell_or_except(&mut book.quotes, call)?,
    }
    Ok(Answer::MADE)
}

fn retail_answer(retail: &Retail, fills: &mut [Fill]) -> Answer {
    for (place, fill) in fills.iter_mut().zip(&retail.fills) {
        *place = Fill { number: fill.number, price: fill.price, shares: fill.shares };
    }
    let (cancelled, waiting) = match retail.remainder {
        Remainder::Nothing => (0, 0),
        Remainder::Cancelled(shares) => (shares, 0),
        Remainder::OnSlip(shares) => (0, shares),
    };
    Answer { cancelled, waiting, fills: retail.fills.len(), ..Answer::counted(retail.number, retail.filled) }
}

fn tell_or_except(quotes: &mut Quotes, call: &QuoteCall) -> Result<(), Refusal> {
    match *call {
        QuoteCall::Tell { centre, side, price, size } => quotes.tell(centre, side, price, size),
        QuoteCall::Declare(centre) => quotes.declare(centre),
        QuoteCall::Lift(centre) => quotes.lift(centre),
    }
}
