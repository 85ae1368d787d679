//! The quotes, with the best that is shown of each side kept from call to call.

use super::book::Side;
use crate::terms::{Refusal, CENTRES, LOT, MAX_PRICE, MAX_QUOTE_SIZE, MIN_PRICE};

/// A price as a rank among the prices of a side: the lower of two ranks is the better price for a Retail Order that meets
/// the side. So the highest buy has the lowest rank, and the lowest sell.
pub fn rank(side: Side, price: u32) -> i32 {
    match side {
        Side::Buy => MAX_PRICE as i32 - price as i32,
        Side::Sell => price as i32,
    }
}

/// The price of a rank.
pub fn price(side: Side, rank: i32) -> u32 {
    match side {
        Side::Buy => (MAX_PRICE as i32 - rank) as u32,
        Side::Sell => rank as u32,
    }
}

/// The rank of no quote, after all others.
const NONE: i32 = i32::MAX;

/// One side: the rank that each centre was told with a lot or more, less the excepted ones the rank that it shows, and the
/// best of these.
struct Table {
    told: [i32; CENTRES as usize],
    shown: [i32; CENTRES as usize],
    best: i32,
}

impl Table {
    const fn new() -> Table {
        Table { told: [NONE; CENTRES as usize], shown: [NONE; CENTRES as usize], best: NONE }
    }

    fn show(&mut self, centre: usize, excepted: bool) {
        self.shown[centre] = if excepted { NONE } else { self.told[centre] };
        self.best = self.shown.iter().fold(NONE, |best, rank| best.min(*rank));
    }
}

pub struct Quotes {
    bids: Table,
    offers: Table,
    /// Bit n is centre n.
    excepted: u32,
}

impl Default for Quotes {
    fn default() -> Self {
        Self::new()
    }
}

impl Quotes {
    pub const fn new() -> Quotes {
        Quotes { bids: Table::new(), offers: Table::new(), excepted: 0 }
    }

    pub fn tell(&mut self, centre: u32, side: Side, price: u32, size: u32) -> Result<(), Refusal> {
        let price_is_good = size == 0 || (MIN_PRICE..=MAX_PRICE).contains(&price);
        if centre >= CENTRES || size > MAX_QUOTE_SIZE || !price_is_good {
            return Err(Refusal::OutOfRange);
        }
        let excepted = self.is_excepted(centre);
        let table = match side {
            Side::Buy => &mut self.bids,
            Side::Sell => &mut self.offers,
        };
        table.told[centre as usize] = if size >= LOT { rank(side, price) } else { NONE };
        table.show(centre as usize, excepted);
        Ok(())
    }

    /// Declares an exception of a centre, or lifts it.
    pub fn except(&mut self, centre: u32, excepted: bool) -> Result<(), Refusal> {
        if centre >= CENTRES {
            return Err(Refusal::OutOfRange);
        }
        self.excepted = self.excepted & !(1 << centre) | u32::from(excepted) << centre;
        self.bids.show(centre as usize, excepted);
        self.offers.show(centre as usize, excepted);
        Ok(())
    }

    /// The rank of the protected bid (`Buy`) or offer (`Sell`).
    pub fn protected(&self, of: Side) -> Option<i32> {
        let best = match of {
            Side::Buy => self.bids.best,
            Side::Sell => self.offers.best,
        };
        (best != NONE).then_some(best)
    }

    fn is_excepted(&self, centre: u32) -> bool {
        self.excepted >> centre & 1 == 1
    }
}
