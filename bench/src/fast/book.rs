//! The book of three queues a side, as docs/RULES.md describes it.

use super::queue::{Queue, Slot};
use super::quotes::{price, rank, Quotes};
use crate::calls::Fill;
use crate::terms::*;

#[derive(Clone, Copy, PartialEq, Eq)]
pub enum Side {
    Buy,
    Sell,
}

#[derive(Clone, Copy, PartialEq, Eq)]
enum Phase {
    Early,
    Open,
    Halted,
    Closed,
}

#[derive(Clone, Copy)]
pub enum Change {
    Opening,
    Halting,
    Closing,
}

/// An order as it comes; it is hidden if it is neither RPI nor displayed.
pub struct Entry {
    pub member: u32,
    pub side: Side,
    pub rpi: bool,
    pub displayed: bool,
    pub limit: u32,
    pub offset: Option<u32>,
    pub shares: u32,
}

/// A Retail Order as it comes; it is Type 2 if not Type 1.
pub struct RetailOrder {
    pub member: u32,
    pub side: Side,
    pub type_1: bool,
    pub routable: bool,
    pub limit: u32,
    pub shares: u32,
}

/// The answer to a Retail Order: its number, how many fills stand in the list, and their shares.
pub struct Taken {
    pub number: u32,
    pub fills: usize,
    pub filled: u32,
}

/// A resting order; the offset is 0 where it has none.
#[derive(Clone, Copy)]
struct Order {
    /// Its place by limit, display and number.
    key: u64,
    limit: i32,
    offset: i32,
    shares: u32,
    number: u32,
    member: u32,
    side: Side,
    rpi: bool,
    displayed: bool,
}

const NO_ORDER: Order = Order {
    key: 0,
    limit: 0,
    offset: 0,
    shares: 0,
    number: 0,
    member: 0,
    side: Side::Buy,
    rpi: false,
    displayed: false,
};

/// A slip that waits or is drawn.
#[derive(Clone, Copy)]
struct Slip {
    number: u32,
    shares: u32,
    drawn: bool,
}

const NO_SLIP: Slip = Slip { number: 0, shares: 0, drawn: false };

/// The sequence of fills as one number: rank, then display, then number.
fn key(rank: i32, displayed: bool, number: u32) -> u64 {
    (rank as u64) << 33 | u64::from(!displayed) << 32 | u64::from(number)
}

/// The sequence of the third queue: the largest offset first, then lower numbers.
fn offset_key(order: &Order) -> u64 {
    ((MAX_OFFSET as i32 - order.offset) as u64) << 32 | u64::from(order.number)
}

/// The three queues of a side.
struct Queues {
    without_offset: Queue,
    by_limit: Queue,
    by_offset: Queue,
}

impl Queues {
    const fn new() -> Queues {
        Queues { without_offset: Queue::new(), by_limit: Queue::new(), by_offset: Queue::new() }
    }
}

/// Which ranks a Retail Order meets at the protected quote that it looks at.
struct Meets {
    quote: Option<i32>,
    rpi_from: i32,
    rpi_to: i32,
    other_to: i32,
}

impl Meets {
    /// No limit asks for RPI interest alone.
    fn new(met: Side, quote: Option<i32>, type_1: bool, limit: Option<i32>) -> Meets {
        let worst = limit.unwrap_or(i32::MAX);
        let better = quote.map_or(i32::MIN, |quote| worst.min(quote - 1));
        let dollar = rank(met, DOLLAR);
        let (rpi_from, rpi_to) = match met {
            Side::Buy => (i32::MIN, better.min(dollar)),
            Side::Sell => (dollar, better),
        };
        let other_to = match limit {
            None => i32::MIN,
            Some(_) if type_1 => better,
            Some(limit) => quote.map_or(limit, |quote| limit.min(quote)),
        };
        Meets { quote, rpi_from, rpi_to, other_to }
    }

    fn rpi(&self, rank: i32) -> bool {
        self.rpi_from <= rank && rank <= self.rpi_to
    }

    fn order(&self, order: &Order) -> bool {
        if order.rpi {
            self.rpi(order.limit)
        } else {
            order.limit <= self.other_to
        }
    }
}

/// The next order of a queue that counts, and its ranked price.
#[derive(Clone, Copy)]
struct Head {
    key: u64,
    rank: i32,
    slot: Slot,
}

/// Behind every order.
const NO_HEAD: Head = Head { key: u64::MAX, rank: 0, slot: 0 };

/// The walk down the queues of a side: how far it has come in each, and their heads.
struct Walk<'a> {
    orders: &'a [Order; MAX_ORDERS],
    queues: &'a Queues,
    meets: Meets,
    places: [usize; 3],
    heads: [Head; 3],
}

impl<'a> Walk<'a> {
    fn new(orders: &'a [Order; MAX_ORDERS], queues: &'a Queues, meets: Meets) -> Walk<'a> {
        let mut walk = Walk { orders, queues, meets, places: [0; 3], heads: [NO_HEAD; 3] };
        walk.step(0);
        walk.step(1);
        walk.step(2);
        walk
    }

    /// Goes on to the next head of a queue.
    fn step(&mut self, queue: usize) {
        self.heads[queue] = match queue {
            0 => self.without_offset(),
            1 => self.by_limit(),
            _ => self.by_offset(),
        };
    }

    fn without_offset(&mut self) -> Head {
        let slots = self.queues.without_offset.slots();
        let last = self.meets.rpi_to.max(self.meets.other_to);
        while let Some(slot) = slots.get(self.places[0]) {
            let order = &self.orders[usize::from(*slot)];
            if order.limit > last {
                break;
            }
            self.places[0] += 1;
            if self.meets.order(order) {
                return Head { key: order.key, rank: order.limit, slot: *slot };
            }
        }
        NO_HEAD
    }

    /// An order counts here if its ranked price is its ceiling or floor.
    fn by_limit(&mut self) -> Head {
        let Some(quote) = self.meets.quote else { return NO_HEAD };
        let slots = self.queues.by_limit.slots();
        while let Some(slot) = slots.get(self.places[1]) {
            let order = &self.orders[usize::from(*slot)];
            if order.limit > self.meets.rpi_to {
                break;
            }
            self.places[1] += 1;
            if order.limit >= quote - order.offset && self.meets.rpi(order.limit) {
                return Head { key: order.key, rank: order.limit, slot: *slot };
            }
        }
        NO_HEAD
    }

    /// An order counts here if the quote with its offset is its ranked price, and not its ceiling or floor.
    fn by_offset(&mut self) -> Head {
        let Some(quote) = self.meets.quote else { return NO_HEAD };
        let slots = self.queues.by_offset.slots();
        while let Some(slot) = slots.get(self.places[2]) {
            let order = &self.orders[usize::from(*slot)];
            let rank = quote - order.offset;
            if rank > self.meets.rpi_to {
                break;
            }
            self.places[2] += 1;
            if rank > order.limit && self.meets.rpi(rank) {
                return Head { key: key(rank, order.displayed, order.number), rank, slot: *slot };
            }
        }
        NO_HEAD
    }
}

impl Iterator for Walk<'_> {
    type Item = Head;

    /// The eligible orders, in the sequence of fills.
    fn next(&mut self) -> Option<Head> {
        let mut first = 0;
        for queue in 1..3 {
            if self.heads[queue].key < self.heads[first].key {
                first = queue;
            }
        }
        let head = self.heads[first];
        if head.key == NO_HEAD.key {
            return None;
        }
        self.step(first);
        Some(head)
    }
}

pub struct Book {
    pub quotes: Quotes,
    orders: [Order; MAX_ORDERS],
    /// The slots that no order has are the first ones here.
    free: [Slot; MAX_ORDERS],
    free_slots: usize,
    buys: Queues,
    sells: Queues,
    /// The slots of the orders that the last Retail Order met, fill by fill.
    met: [Slot; MAX_ORDERS],
    slips: [Slip; MAX_SLIPS],
    slip_count: usize,
    /// Bit n is member n + 1.
    approved: u64,
    phase: Phase,
    last_number: u32,
}

impl Book {
    /// An empty book, before the opening, with no quote told.
    pub fn new() -> Book {
        let mut free = [0; MAX_ORDERS];
        // The last of them is given first, and a search begins at slot 0.
        for (slot, place) in free.iter_mut().rev().enumerate() {
            *place = slot as Slot;
        }
        Book {
            quotes: Quotes::new(),
            orders: [NO_ORDER; MAX_ORDERS],
            free,
            free_slots: MAX_ORDERS,
            buys: Queues::new(),
            sells: Queues::new(),
            met: [0; MAX_ORDERS],
            slips: [NO_SLIP; MAX_SLIPS],
            slip_count: 0,
            approved: 0,
            phase: Phase::Early,
            last_number: 0,
        }
    }

    /// Enters an order and gives its number.
    pub fn enter(&mut self, entry: &Entry) -> Result<u32, Refusal> {
        self.refuse_entry(entry)?;
        self.last_number += 1;
        self.free_slots -= 1;
        let slot = self.free[self.free_slots];
        let number = self.last_number;
        let limit = rank(entry.side, entry.limit);
        self.orders[usize::from(slot)] = Order {
            key: key(limit, entry.displayed, number),
            limit,
            offset: entry.offset.unwrap_or(0) as i32,
            shares: entry.shares,
            number,
            member: entry.member,
            side: entry.side,
            rpi: entry.rpi,
            displayed: entry.displayed,
        };
        let (orders, queues) = self.side_mut(entry.side);
        if entry.offset.is_some() {
            queues.by_limit.insert(slot, |slot| orders[usize::from(slot)].key);
            queues.by_offset.insert(slot, |slot| offset_key(&orders[usize::from(slot)]));
        } else {
            queues.without_offset.insert(slot, |slot| orders[usize::from(slot)].key);
        }
        Ok(number)
    }

    fn refuse_entry(&self, entry: &Entry) -> Result<(), Refusal> {
        let offset_in_range = entry.offset.is_none_or(|offset| (MIN_OFFSET..=MAX_OFFSET).contains(&offset));
        if !is_member(entry.member) || !is_price(entry.limit) || !offset_in_range || !is_shares(entry.shares) {
            Err(Refusal::OutOfRange)
        } else if !entry.rpi && entry.limit >= DOLLAR && !entry.limit.is_multiple_of(CENT) {
            Err(Refusal::NotWholeCent)
        } else if !entry.rpi && entry.offset.is_some() {
            Err(Refusal::OffsetNotRpi)
        } else if self.phase == Phase::Closed {
            Err(Refusal::WrongPhase)
        } else if self.free_slots == 0 {
            Err(Refusal::BookFull)
        } else if self.last_number == LAST_ORDER_NUMBER {
            Err(Refusal::NumbersExhausted)
        } else {
            Ok(())
        }
    }

    /// Cancels an order and gives the shares that were left.
    pub fn cancel(&mut self, member: u32, number: u32) -> Result<u32, Refusal> {
        if !is_member(member) {
            return Err(Refusal::OutOfRange);
        }
        // A free slot has no shares.
        let slot = self.orders.iter().position(|order| order.number == number && order.shares > 0);
        let slot = slot.ok_or(Refusal::NoSuchOrder)?;
        let order = self.orders[slot];
        if order.member != member {
            return Err(Refusal::NoSuchOrder);
        }
        let (orders, queues) = self.side_mut(order.side);
        if order.offset > 0 {
            queues.by_limit.remove(slot as Slot, |slot| orders[usize::from(slot)].key);
            queues.by_offset.remove(slot as Slot, |slot| offset_key(&orders[usize::from(slot)]));
        } else {
            queues.without_offset.remove(slot as Slot, |slot| orders[usize::from(slot)].key);
        }
        self.orders[slot].shares = 0;
        self.free[self.free_slots] = slot as Slot;
        self.free_slots += 1;
        Ok(order.shares)
    }

    pub fn move_phase(&mut self, change: Change) -> Result<(), Refusal> {
        self.phase = match (change, self.phase) {
            (Change::Opening, Phase::Early | Phase::Halted) => Phase::Open,
            (Change::Halting, Phase::Open) => Phase::Halted,
            (Change::Closing, Phase::Early | Phase::Open | Phase::Halted) => Phase::Closed,
            _ => return Err(Refusal::WrongPhase),
        };
        Ok(())
    }

    pub fn approve(&mut self, member: u32) -> Result<(), Refusal> {
        self.approved |= member_bit(member).ok_or(Refusal::OutOfRange)?;
        Ok(())
    }

    pub fn withdraw(&mut self, member: u32) -> Result<(), Refusal> {
        self.approved &= !member_bit(member).ok_or(Refusal::OutOfRange)?;
        Ok(())
    }

    /// Fills a Retail Order from the other side; its fills stand at the front of the list, which has a place for each.
    pub fn retail(&mut self, order: &RetailOrder, fills: &mut [Fill]) -> Result<Taken, Refusal> {
        self.refuse_retail(order)?;
        self.last_number += 1;
        let met = match order.side {
            Side::Buy => Side::Sell,
            Side::Sell => Side::Buy,
        };
        let limit = Some(rank(met, order.limit));
        let meets = Meets::new(met, self.quotes.protected(met), order.type_1, limit);
        let (count, left, walked) = self.write_fills(met, meets, order.shares, fills);
        self.settle(met, &fills[..count], walked);
        let number = self.last_number;
        if order.routable && left > 0 {
            self.slips[self.slip_count] = Slip { number, shares: left, drawn: false };
            self.slip_count += 1;
        }
        Ok(Taken { number, fills: count, filled: order.shares - left })
    }

    /// Writes the fills, and notes whom they are from; gives how many there are, the shares left over, and how far the
    /// walk has come in each queue.
    fn write_fills(&mut self, met: Side, meets: Meets, shares: u32, fills: &mut [Fill]) -> (usize, u32, [usize; 3]) {
        let queues = match met {
            Side::Buy => &self.buys,
            Side::Sell => &self.sells,
        };
        let mut left = shares;
        let mut count = 0;
        let mut walk = Walk::new(&self.orders, queues, meets);
        for head in walk.by_ref() {
            let resting = &self.orders[usize::from(head.slot)];
            let shares = left.min(resting.shares);
            fills[count] = Fill { number: resting.number, price: price(met, head.rank), shares };
            self.met[count] = head.slot;
            count += 1;
            left -= shares;
            if left == 0 {
                break;
            }
        }
        (count, left, walk.places)
    }

    fn refuse_retail(&self, order: &RetailOrder) -> Result<(), Refusal> {
        let member = member_bit(order.member).ok_or(Refusal::OutOfRange)?;
        if !is_price(order.limit) || !is_shares(order.shares) {
            Err(Refusal::OutOfRange)
        } else if self.phase != Phase::Open {
            Err(Refusal::WrongPhase)
        } else if self.approved & member == 0 {
            Err(Refusal::NotApproved)
        } else if self.last_number == LAST_ORDER_NUMBER {
            Err(Refusal::NumbersExhausted)
        } else if order.routable && self.slip_count == MAX_SLIPS {
            Err(Refusal::SlipsFull)
        } else {
            Ok(())
        }
    }

    /// Takes the fills off the book: an order that is filled whole leaves its queues. It is among the places that the walk
    /// has come past, also in the queue where it does not count, as it stands there by a better price or the same.
    fn settle(&mut self, met: Side, fills: &[Fill], walked: [usize; 3]) {
        let mut left_first = false;
        let mut left_others = false;
        for (fill, slot) in fills.iter().zip(&self.met) {
            let order = &mut self.orders[usize::from(*slot)];
            order.shares -= fill.shares;
            if order.shares == 0 {
                left_first |= order.offset == 0;
                left_others |= order.offset > 0;
                self.free[self.free_slots] = *slot;
                self.free_slots += 1;
            }
        }
        let (orders, queues) = self.side_mut(met);
        if left_first {
            queues.without_offset.keep(walked[0], |slot| orders[usize::from(slot)].shares > 0);
        }
        if left_others {
            queues.by_limit.keep(walked[1], |slot| orders[usize::from(slot)].shares > 0);
            queues.by_offset.keep(walked[2], |slot| orders[usize::from(slot)].shares > 0);
        }
    }

    /// Draws the slip of a number, which waits, and gives its shares.
    pub fn draw(&mut self, number: u32) -> Result<u32, Refusal> {
        let place = self.waiting_slip(number)?;
        self.slips[place].drawn = true;
        Ok(self.slips[place].shares)
    }

    /// Takes a drawn slip of these shares back; gives what is cancelled of it.
    pub fn give_back(&mut self, number: u32, shares: u32, away: u32) -> Result<u32, Refusal> {
        let is_meant = |slip: &Slip| slip.drawn && slip.number == number && slip.shares == shares;
        let place = self.slips[..self.slip_count].iter().position(is_meant).ok_or(Refusal::NoDrawnSlip)?;
        self.spend(place, away)
    }

    /// Draws the slip of a number and returns it; gives what is cancelled of it.
    pub fn draw_and_return(&mut self, number: u32, away: u32) -> Result<u32, Refusal> {
        let place = self.waiting_slip(number)?;
        self.spend(place, away)
    }

    fn waiting_slip(&self, number: u32) -> Result<usize, Refusal> {
        let waits = |slip: &Slip| !slip.drawn && slip.number == number;
        self.slips[..self.slip_count].iter().position(waits).ok_or(Refusal::NoWaitingSlip)
    }

    /// Forgets a slip, if it has the shares that were executed away; gives the rest of them.
    fn spend(&mut self, place: usize, away: u32) -> Result<u32, Refusal> {
        let left = self.slips[place].shares.checked_sub(away).ok_or(Refusal::MoreThanSlip)?;
        self.slip_count -= 1;
        self.slips[place] = self.slips[self.slip_count];
        Ok(left)
    }

    /// The sides with RPI interest: 1 for buy, and 2 for sell.
    pub fn interest(&self) -> u32 {
        u32::from(self.has_interest(Side::Buy)) | u32::from(self.has_interest(Side::Sell)) << 1
    }

    /// The number that was given last, 0 before any.
    pub fn last_number(&self) -> u32 {
        self.last_number
    }

    fn has_interest(&self, side: Side) -> bool {
        let meets = Meets::new(side, self.quotes.protected(side), true, None);
        Walk::new(&self.orders, self.side(side), meets).next().is_some()
    }

    fn side(&self, side: Side) -> &Queues {
        match side {
            Side::Buy => &self.buys,
            Side::Sell => &self.sells,
        }
    }

    fn side_mut(&mut self, side: Side) -> (&[Order; MAX_ORDERS], &mut Queues) {
        match side {
            Side::Buy => (&self.orders, &mut self.buys),
            Side::Sell => (&self.orders, &mut self.sells),
        }
    }
}

impl Default for Book {
    fn default() -> Book {
        Book::new()
    }
}

fn member_bit(member: u32) -> Option<u64> {
    is_member(member).then(|| 1 << (member - FIRST_MEMBER))
}

fn is_member(member: u32) -> bool {
    (FIRST_MEMBER..=LAST_MEMBER).contains(&member)
}

fn is_price(price: u32) -> bool {
    (MIN_PRICE..=MAX_PRICE).contains(&price)
}

fn is_shares(shares: u32) -> bool {
    (MIN_SHARES..=MAX_SHARES).contains(&shares)
}
