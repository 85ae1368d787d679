//! What is measured: lists of calls, each with the operation after it, and lists of blocks of calls that leave a book as it
//! was. A seed makes the same lists for every book.

use crate::calls::Call;
use crate::market::{any_tell, Market, Met, SHARES};
use crate::random::Random;

#[derive(Clone, Copy, PartialEq, Eq, Debug)]
pub enum Scenario {
    Entry,
    Cancel,
    Tell,
    /// A tell in a list of tells, for `coralauger_protect`.
    Best,
    Declare,
    /// A Retail Order with so many fills.
    Retail(u32),
    /// A Retail Order without a fill, that has to pass over so many orders.
    Passing(u32),
    Draw,
    Return,
    Refused,
    /// Nothing: a list of no calls.
    New,
}

impl Scenario {
    /// As in `retail-6`.
    pub fn named(name: &str) -> Option<Scenario> {
        let (word, number) = name.split_once('-').unwrap_or((name, "0"));
        let number = number.parse().ok()?;
        Some(match word {
            "entry" => Scenario::Entry,
            "cancel" => Scenario::Cancel,
            "tell" => Scenario::Tell,
            "best" => Scenario::Best,
            "declare" => Scenario::Declare,
            "retail" => Scenario::Retail(number),
            "passing" => Scenario::Passing(number),
            "draw" => Scenario::Draw,
            "return" => Scenario::Return,
            "refused" => Scenario::Refused,
            "new" => Scenario::New,
            _ => return None,
        })
    }

    fn market(self, size: usize, seed: u64, met: Met) -> Market {
        match self {
            Scenario::Passing(passed) => Market::passing(size, passed as usize, seed, met),
            _ => Market::mixed(size, seed),
        }
    }
}

/// A list of calls, of which the first so many make the book.
pub struct List {
    pub calls: Vec<Call>,
    pub before: usize,
}

/// The book of a seed, with the operation after it; so many orders rest when it is made, or when an entry is.
pub fn operation(scenario: Scenario, size: usize, seed: u64) -> List {
    let random = &mut Random::new(!seed);
    let met = Met { buys: seed.is_multiple_of(2) };
    let mut market = scenario.market(size, seed, met);
    let slip = match scenario {
        Scenario::Draw | Scenario::Return => market.push(met.retail(b'3', met.nothing(), SHARES)).number,
        _ => 0,
    };
    let last = match scenario {
        // The last entry of the market is the operation.
        Scenario::Entry => market.calls.pop().expect("an entry"),
        Scenario::Cancel => {
            let (number, entry) = market.any_order(random);
            Call::cancel(entry.who, number)
        }
        Scenario::Tell | Scenario::Best => any_tell(random),
        Scenario::Declare => Call::declare(random.of(0..=7)),
        Scenario::Retail(0) => met.retail(b'1', met.nothing(), SHARES),
        // The last fill takes half of what its order has.
        Scenario::Retail(fills) => met.retail(b'1', met.everything(), fills * SHARES - SHARES / 2),
        Scenario::Passing(_) => met.retail(b'1', met.between(), SHARES),
        Scenario::Draw => Call::draw(slip),
        Scenario::Return => {
            market.push(Call::draw(slip));
            Call::give_back(slip, SHARES, 40)
        }
        Scenario::Refused => Call::withdraw(0),
        Scenario::New => return List { calls: Vec::new(), before: 0 },
    };
    list(scenario, market.calls, |calls| calls.push(last))
}

/// So many blocks after the book of a seed, each of which leaves as many orders of the same terms as before.
pub fn blocks(scenario: Scenario, size: usize, seed: u64, count: usize) -> List {
    let random = &mut Random::new(!seed);
    let met = Met { buys: seed.is_multiple_of(2) };
    let mut market = scenario.market(size, seed, met);
    let before = market.calls.len();
    for _ in 0..count {
        block(scenario, &mut market, met, random);
    }
    let blocks = market.calls.split_off(before);
    list(scenario, market.calls, |calls| calls.extend(blocks))
}

fn block(scenario: Scenario, market: &mut Market, met: Met, random: &mut Random) {
    match scenario {
        Scenario::Entry | Scenario::Cancel => {
            let (number, entry) = market.any_order(random);
            market.push(Call::cancel(entry.who, number));
            market.push(entry);
        }
        Scenario::Tell | Scenario::Best => _ = market.push(any_tell(random)),
        Scenario::Declare => {
            let centre = random.of(1..=7);
            market.push(Call::declare(centre));
            market.push(Call::lift(centre));
        }
        Scenario::Retail(0) => _ = market.push(met.retail(b'1', met.nothing(), SHARES)),
        Scenario::Retail(fills) => {
            let answer = market.push(met.retail(b'1', met.everything(), fills * SHARES));
            market.replace(answer.fills);
        }
        Scenario::Passing(_) => _ = market.push(met.retail(b'1', met.between(), SHARES)),
        Scenario::Draw | Scenario::Return => {
            let slip = market.push(met.retail(b'3', met.nothing(), SHARES)).number;
            market.push(Call::draw(slip));
            market.push(Call::give_back(slip, SHARES, 40));
        }
        Scenario::Refused => _ = market.push(Call::withdraw(0)),
        Scenario::New => {}
    }
}

/// The calls that make a book, and those after them; of `Best` the tells alone.
fn list(scenario: Scenario, mut calls: Vec<Call>, add: impl FnOnce(&mut Vec<Call>)) -> List {
    let keeps = |call: &Call| scenario != Scenario::Best || call.call == b'T';
    calls.retain(keeps);
    let before = calls.len();
    add(&mut calls);
    List { calls, before }
}
