//! Books to be measured, by seed: a list of calls that makes a market around one bid and one offer.

use crate::calls::{Answer, Call, Fill};
use crate::fast::book::Book;
use crate::fast::list;
use crate::random::Random;
use crate::terms::*;
use std::collections::BTreeMap;

pub const BID: u32 = 10_000;
pub const OFFER: u32 = 10_050;
/// Each resting order has so many shares.
pub const SHARES: u32 = 100;
/// The member that sends Retail Orders.
const SENDER: u32 = 1;

/// The side that Retail Orders meet, and their limits.
#[derive(Clone, Copy)]
pub struct Met {
    pub buys: bool,
}

impl Met {
    /// A Retail Order that meets this side.
    pub fn retail(self, kind: u8, limit: u32, shares: u32) -> Call {
        Call::retail(SENDER, if self.buys { b'S' } else { b'B' }, kind, limit, shares)
    }

    /// The limit of a Retail Order that meets whatever betters the quote.
    pub fn everything(self) -> u32 {
        self.before_quote(-1_000)
    }

    /// A limit that is better than every resting order.
    pub fn nothing(self) -> u32 {
        self.before_quote(30)
    }

    /// The limit that parts the orders of `passing`.
    pub fn between(self) -> u32 {
        self.before_quote(10)
    }

    /// A price that betters the quote of this side by so many mills.
    fn before_quote(self, mills: i32) -> u32 {
        if self.buys {
            BID.wrapping_add_signed(mills)
        } else {
            OFFER.wrapping_add_signed(-mills)
        }
    }
}

/// A list of calls, with the book that they make.
pub struct Market {
    pub calls: Vec<Call>,
    book: Book,
    /// The entry of each resting order, by number.
    resting: BTreeMap<u32, Call>,
    fills: [Fill; MAX_ORDERS],
}

impl Market {
    /// An open book, with 8 to 32 centres that have told quotes; those of centre 0 are protected.
    fn new(random: &mut Random) -> Market {
        let (calls, resting, fills) = (Vec::new(), BTreeMap::new(), [Fill::default(); MAX_ORDERS]);
        let mut market = Market { calls, book: Book::new(), resting, fills };
        market.push(Call::approve(SENDER));
        market.push(Call::move_phase(b'O'));
        market.push(Call::tell(0, b'B', BID, 200));
        market.push(Call::tell(0, b'S', OFFER, 200));
        for centre in 1..random.of(8..=32) {
            market.push(Call::tell(centre, b'B', BID - random.of(0..=20), quoted_size(random)));
            market.push(Call::tell(centre, b'S', OFFER + random.of(0..=20), quoted_size(random)));
        }
        market
    }

    /// Half buys, half sells; of each a third RPI Orders with a fixed limit, a third with an offset, a third hidden or
    /// displayed, at prices from 5 or 10 mills behind the quote of their side to 25 before it.
    fn of_seed(size: usize, seed: u64) -> Market {
        let random = &mut Random::new(seed);
        let mut market = Market::new(random);
        for place in 0..size {
            let (side, met) = side_of(place);
            let member = random.of(FIRST_MEMBER..=LAST_MEMBER);
            let mills = random.of(0..=30) as i32 - 5;
            let limit = met.before_quote(mills);
            let whole_cent = met.before_quote(mills.div_euclid(10) * 10);
            market.push(match place / 2 % 3 {
                0 => Call::enter(member, side, b'R', limit, 0, SHARES),
                1 => Call::enter(member, side, b'R', limit, random.of(1..=25), SHARES),
                _ => Call::enter(member, side, random.pick(b"HD"), whole_cent, 0, SHARES),
            });
        }
        market
    }

    /// The market of the first seed after this one whose sides have enough orders for the fills that are measured at
    /// this size.
    pub fn mixed(size: usize, seed: u64) -> Market {
        let least = if size < MAX_ORDERS { 6 } else { 64 };
        (0..)
            .map(|retry| Market::of_seed(size, seed + (retry << 32)))
            .find(|market| [true, false].iter().all(|buys| market.eligible(Met { buys: *buys }) >= least))
            .expect("enough orders")
    }

    /// Half buys, half sells, all of them RPI Orders. Of the side that is met so many have an offset: half of these have a
    /// ceiling or floor that is good enough for the customer while the quote with the offset is not, half the reverse. The
    /// others have a fixed limit that is not good enough.
    pub fn passing(size: usize, passed: usize, seed: u64, met: Met) -> Market {
        let random = &mut Random::new(seed);
        let mut market = Market::new(random);
        for place in 0..size {
            let (side, own) = side_of(place);
            let member = random.of(FIRST_MEMBER..=LAST_MEMBER);
            let (mills, offset) = if own.buys != met.buys || place / 2 >= passed {
                (random.of(0..=18), 0)
            } else if place / 2 % 2 == 0 {
                (random.of(25..=35), random.of(1..=5))
            } else {
                (random.of(0..=18), random.of(20..=40))
            };
            let limit = own.before_quote(mills as i32 - 10);
            market.push(Call::enter(member, side, b'R', limit, offset, SHARES));
        }
        market
    }

    /// Writes a call down and makes it; what a Retail Order fills it has to fill whole, unless it is the last call.
    pub fn push(&mut self, call: Call) -> Answer {
        let answer = list::make(&mut self.book, &call, &mut self.fills).expect("known letters");
        match call.call {
            b'E' => _ = self.resting.insert(answer.number, call),
            b'C' => _ = self.resting.remove(&call.number),
            _ => {}
        }
        self.calls.push(call);
        answer
    }

    /// Enters the orders again that the last Retail Order took, with so many fills.
    pub fn replace(&mut self, fills: usize) {
        for place in 0..fills {
            let number = self.fills[place].number;
            let entry = self.resting.remove(&number).expect("the order rested");
            self.push(entry);
        }
    }

    /// The number and the entry of some order that rests.
    pub fn any_order(&self, random: &mut Random) -> (u32, Call) {
        let place = random.below(self.resting.len());
        let (number, entry) = self.resting.iter().nth(place).expect("an order rests");
        (*number, *entry)
    }

    /// How many orders of a side a Retail Order of Type 1 could meet.
    fn eligible(&self, met: Met) -> usize {
        let mut calls = self.calls.clone();
        calls.push(met.retail(b'1', met.everything(), MAX_SHARES));
        let mut answers = vec![Answer::default(); calls.len()];
        let mut fills = [Fill::default(); MAX_ORDERS];
        list::run(&calls, &mut answers, &mut fills);
        answers[calls.len() - 1].fills
    }
}

/// Buys and sells take turns.
fn side_of(place: usize) -> (u8, Met) {
    if place.is_multiple_of(2) {
        (b'B', Met { buys: true })
    } else {
        (b'S', Met { buys: false })
    }
}

/// A centre of those that every market has, but 0, tells a quote that is not better than the protected one.
pub fn any_tell(random: &mut Random) -> Call {
    let centre = random.of(1..=7);
    let size = quoted_size(random);
    if random.once_in(2) {
        Call::tell(centre, b'B', BID - random.of(0..=20), size)
    } else {
        Call::tell(centre, b'S', OFFER + random.of(0..=20), size)
    }
}

/// Odd lots among them.
fn quoted_size(random: &mut Random) -> u32 {
    random.of(1..=10) * 50
}
