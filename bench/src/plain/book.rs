//! The book and its quotes, as docs/RULES.md and docs/QUOTES.md say them.

use crate::terms::*;
use std::collections::{BTreeMap, BTreeSet};

#[derive(Clone, Copy, PartialEq, Eq, PartialOrd, Ord)]
pub enum Side {
    Buy,
    Sell,
}

impl Side {
    fn other(self) -> Side {
        match self {
            Side::Buy => Side::Sell,
            Side::Sell => Side::Buy,
        }
    }
}

#[derive(Clone, Copy, PartialEq, Eq)]
pub enum Kind {
    Rpi,
    Hidden,
    Displayed,
}

#[derive(Clone, Copy, PartialEq, Eq)]
pub enum RetailType {
    Type1,
    Type2NotRoutable,
    Type2Routable,
}

#[derive(Clone, Copy, PartialEq, Eq)]
enum Phase {
    Early,
    Open,
    Halted,
    Closed,
}

#[derive(Clone, Copy, PartialEq, Eq)]
pub enum Change {
    Opening,
    Halting,
    Closing,
}

/// A resting order.
struct Order {
    number: u32,
    member: u32,
    side: Side,
    kind: Kind,
    limit: u32,
    offset: Option<u32>,
    shares: u32,
}

/// A slip that waits or is drawn.
struct Slip {
    number: u32,
    shares: u32,
    drawn: bool,
}

pub struct Fill {
    pub number: u32,
    pub price: u32,
    pub shares: u32,
}

pub enum Remainder {
    Nothing,
    Cancelled(u32),
    OnSlip(u32),
}

/// The answer to a Retail Order.
pub struct Retail {
    pub number: u32,
    pub fills: Vec<Fill>,
    pub filled: u32,
    pub remainder: Remainder,
}

/// The told table and the excepted centres.
#[derive(Default)]
pub struct Quotes {
    /// The price and the size by centre and side; a bid stands under `Buy`.
    told: BTreeMap<(u32, Side), (u32, u32)>,
    excepted: BTreeSet<u32>,
}

impl Quotes {
    pub fn tell(&mut self, centre: u32, side: Side, price: u32, size: u32) -> Result<(), Refusal> {
        let price_is_wrong = size > 0 && !is_price(price);
        if !is_centre(centre) || size > MAX_QUOTE_SIZE || price_is_wrong {
            return Err(Refusal::OutOfRange);
        }
        if size == 0 {
            self.told.remove(&(centre, side));
        } else {
            self.told.insert((centre, side), (price, size));
        }
        Ok(())
    }

    pub fn declare(&mut self, centre: u32) -> Result<(), Refusal> {
        refuse_unless(is_centre(centre), Refusal::OutOfRange)?;
        self.excepted.insert(centre);
        Ok(())
    }

    pub fn lift(&mut self, centre: u32) -> Result<(), Refusal> {
        refuse_unless(is_centre(centre), Refusal::OutOfRange)?;
        self.excepted.remove(&centre);
        Ok(())
    }

    /// The protected bid (`Buy`) or offer (`Sell`): the best that is shown.
    pub fn protected(&self, of: Side) -> Option<u32> {
        let shown = self
            .told
            .iter()
            .filter(|((centre, side), (_, size))| *side == of && *size >= LOT && !self.excepted.contains(centre))
            .map(|(_, (price, _))| *price);
        match of {
            Side::Buy => shown.max(),
            Side::Sell => shown.min(),
        }
    }
}

pub struct Book {
    pub quotes: Quotes,
    orders: Vec<Order>,
    slips: Vec<Slip>,
    approved: BTreeSet<u32>,
    phase: Phase,
    last_number: u32,
}

impl Book {
    /// An empty book, before the opening, with no quote told.
    pub fn new() -> Book {
        Book {
            quotes: Quotes::default(),
            orders: Vec::new(),
            slips: Vec::new(),
            approved: BTreeSet::new(),
            phase: Phase::Early,
            last_number: 0,
        }
    }

    /// Enters an order and gives its number.
    pub fn enter(
        &mut self,
        member: u32,
        side: Side,
        kind: Kind,
        limit: u32,
        offset: Option<u32>,
        shares: u32,
    ) -> Result<u32, Refusal> {
        let in_range = is_member(member) && is_price(limit) && offset.is_none_or(is_offset) && is_shares(shares);
        refuse_unless(in_range, Refusal::OutOfRange)?;
        let whole_cent = kind == Kind::Rpi || limit < DOLLAR || limit.is_multiple_of(CENT);
        refuse_unless(whole_cent, Refusal::NotWholeCent)?;
        refuse_unless(offset.is_none() || kind == Kind::Rpi, Refusal::OffsetNotRpi)?;
        refuse_unless(self.phase != Phase::Closed, Refusal::WrongPhase)?;
        refuse_unless(self.orders.len() < MAX_ORDERS, Refusal::BookFull)?;
        refuse_unless(self.last_number < LAST_ORDER_NUMBER, Refusal::NumbersExhausted)?;
        self.last_number += 1;
        let number = self.last_number;
        self.orders.push(Order { number, member, side, kind, limit, offset, shares });
        Ok(number)
    }

    /// Cancels an order and gives the shares that were left.
    pub fn cancel(&mut self, member: u32, number: u32) -> Result<u32, Refusal> {
        refuse_unless(is_member(member), Refusal::OutOfRange)?;
        let place = self.orders.iter().position(|order| order.number == number && order.member == member);
        let order = self.orders.remove(place.ok_or(Refusal::NoSuchOrder)?);
        Ok(order.shares)
    }

    pub fn move_phase(&mut self, change: Change) -> Result<(), Refusal> {
        self.phase = match (self.phase, change) {
            (Phase::Early | Phase::Halted, Change::Opening) => Phase::Open,
            (Phase::Open, Change::Halting) => Phase::Halted,
            (Phase::Early | Phase::Open | Phase::Halted, Change::Closing) => Phase::Closed,
            _ => return Err(Refusal::WrongPhase),
        };
        Ok(())
    }

    pub fn approve(&mut self, member: u32) -> Result<(), Refusal> {
        refuse_unless(is_member(member), Refusal::OutOfRange)?;
        self.approved.insert(member);
        Ok(())
    }

    pub fn withdraw(&mut self, member: u32) -> Result<(), Refusal> {
        refuse_unless(is_member(member), Refusal::OutOfRange)?;
        self.approved.remove(&member);
        Ok(())
    }

    /// Fills a Retail Order from the other side.
    pub fn retail(
        &mut self,
        member: u32,
        side: Side,
        of_type: RetailType,
        limit: u32,
        shares: u32,
    ) -> Result<Retail, Refusal> {
        let routable = of_type == RetailType::Type2Routable;
        refuse_unless(is_member(member) && is_price(limit) && is_shares(shares), Refusal::OutOfRange)?;
        refuse_unless(self.phase == Phase::Open, Refusal::WrongPhase)?;
        refuse_unless(self.approved.contains(&member), Refusal::NotApproved)?;
        refuse_unless(self.last_number < LAST_ORDER_NUMBER, Refusal::NumbersExhausted)?;
        refuse_unless(!routable || self.slips.len() < MAX_SLIPS, Refusal::SlipsFull)?;
        self.last_number += 1;
        let number = self.last_number;
        let fills = self.fills(side.other(), of_type, limit, shares);
        let filled = fills.iter().map(|fill| fill.shares).sum();
        for fill in &fills {
            for order in self.orders.iter_mut().filter(|order| order.number == fill.number) {
                order.shares -= fill.shares;
            }
        }
        self.orders.retain(|order| order.shares > 0);
        let remainder = match shares - filled {
            0 => Remainder::Nothing,
            left if routable => {
                self.slips.push(Slip { number, shares: left, drawn: false });
                Remainder::OnSlip(left)
            }
            left => Remainder::Cancelled(left),
        };
        Ok(Retail { number, fills, filled, remainder })
    }

    /// Draws the slip of a number, which waits, and gives its shares.
    pub fn draw(&mut self, number: u32) -> Result<u32, Refusal> {
        let place = self.slips.iter().position(|slip| slip.number == number && !slip.drawn);
        let slip = &mut self.slips[place.ok_or(Refusal::NoWaitingSlip)?];
        slip.drawn = true;
        Ok(slip.shares)
    }

    /// Takes a drawn slip of these shares back; gives what is cancelled of it.
    pub fn give_back(&mut self, number: u32, shares: u32, away: u32) -> Result<u32, Refusal> {
        let place = self.slips.iter().position(|slip| slip.number == number && slip.shares == shares && slip.drawn);
        let place = place.ok_or(Refusal::NoDrawnSlip)?;
        refuse_unless(away <= shares, Refusal::MoreThanSlip)?;
        self.slips.remove(place);
        Ok(shares - away)
    }

    /// Draws the slip of a number and returns it; gives what is cancelled of it.
    pub fn draw_and_return(&mut self, number: u32, away: u32) -> Result<u32, Refusal> {
        let place = self.slips.iter().position(|slip| slip.number == number && !slip.drawn);
        let place = place.ok_or(Refusal::NoWaitingSlip)?;
        refuse_unless(away <= self.slips[place].shares, Refusal::MoreThanSlip)?;
        let slip = self.slips.remove(place);
        Ok(slip.shares - away)
    }

    /// Whether some RPI Order of a side is eligible without the Retail limit.
    pub fn has_interest(&self, side: Side) -> bool {
        let quote = self.quotes.protected(side);
        // The Retail limit that refuses nothing: the lowest for a Retail sell, the highest for a Retail buy.
        let any = match side {
            Side::Buy => i64::MIN,
            Side::Sell => i64::MAX,
        };
        self.orders.iter().filter(|order| order.side == side && order.kind == Kind::Rpi).any(|order| {
            ranked_price(order, quote).is_some_and(|price| eligible(order, price, quote, RetailType::Type1, any))
        })
    }

    /// The fills that orders of a side give to a Retail Order, in their sequence.
    fn fills(&self, met: Side, of_type: RetailType, limit: u32, shares: u32) -> Vec<Fill> {
        let quote = self.quotes.protected(met);
        let mut sequence: Vec<(i64, &Order)> = self
            .orders
            .iter()
            .filter(|order| order.side == met)
            .filter_map(|order| ranked_price(order, quote).map(|price| (price, order)))
            .filter(|(price, order)| eligible(order, *price, quote, of_type, i64::from(limit)))
            .collect();
        sequence.sort_by_key(|(price, order)| {
            let best_first = if met == Side::Buy { -price } else { *price };
            (best_first, order.kind != Kind::Displayed, order.number)
        });
        let mut left = shares;
        let mut fills = Vec::new();
        for (price, order) in sequence {
            let given = left.min(order.shares);
            if given > 0 {
                fills.push(Fill { number: order.number, price: price as u32, shares: given });
                left -= given;
            }
        }
        fills
    }
}

impl Default for Book {
    fn default() -> Book {
        Book::new()
    }
}

/// The ranked price of an order at the protected quote of its own side.
fn ranked_price(order: &Order, quote: Option<u32>) -> Option<i64> {
    let limit = i64::from(order.limit);
    let Some(offset) = order.offset.map(i64::from) else {
        return Some(limit);
    };
    let quote = i64::from(quote?);
    Some(match order.side {
        Side::Buy => limit.min(quote + offset),
        Side::Sell => limit.max(quote - offset),
    })
}

/// Whether a Retail Order meets an order with this ranked price.
fn eligible(order: &Order, price: i64, quote: Option<u32>, of_type: RetailType, limit: i64) -> bool {
    let quote = quote.map(i64::from);
    let (within_limit, betters, meets) = match order.side {
        Side::Buy => (price >= limit, quote.is_some_and(|bid| price > bid), quote.is_none_or(|bid| price >= bid)),
        Side::Sell => {
            (price <= limit, quote.is_some_and(|offer| price < offer), quote.is_none_or(|offer| price <= offer))
        }
    };
    match (order.kind, of_type) {
        (Kind::Rpi, _) => within_limit && betters && price >= i64::from(DOLLAR),
        (_, RetailType::Type1) => within_limit && betters,
        _ => within_limit && meets,
    }
}

fn refuse_unless(good: bool, refusal: Refusal) -> Result<(), Refusal> {
    if good {
        Ok(())
    } else {
        Err(refusal)
    }
}

fn is_member(member: u32) -> bool {
    (FIRST_MEMBER..=LAST_MEMBER).contains(&member)
}

fn is_price(price: u32) -> bool {
    (MIN_PRICE..=MAX_PRICE).contains(&price)
}

fn is_offset(offset: u32) -> bool {
    (MIN_OFFSET..=MAX_OFFSET).contains(&offset)
}

fn is_shares(shares: u32) -> bool {
    (MIN_SHARES..=MAX_SHARES).contains(&shares)
}

fn is_centre(centre: u32) -> bool {
    centre < CENTRES
}
