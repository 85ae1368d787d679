//! A queue of resting orders: the slots of the orders in a sequence that is kept from entry on.

use crate::terms::MAX_ORDERS;

/// The slot of an order in the book.
pub type Slot = u8;

pub struct Queue {
    slots: [Slot; MAX_ORDERS],
    length: usize,
}

impl Default for Queue {
    fn default() -> Self {
        Self::new()
    }
}

impl Queue {
    pub const fn new() -> Queue {
        Queue { slots: [0; MAX_ORDERS], length: 0 }
    }

    pub fn slots(&self) -> &[Slot] {
        &self.slots[..self.length]
    }

    /// Puts a slot where its key belongs.
    pub fn insert(&mut self, slot: Slot, key: impl Fn(Slot) -> u64) {
        let place = self.place(key(slot), key);
        self.slots.copy_within(place..self.length, place + 1);
        self.slots[place] = slot;
        self.length += 1;
    }

    /// Takes out a slot that stands here.
    pub fn remove(&mut self, slot: Slot, key: impl Fn(Slot) -> u64) {
        let place = self.place(key(slot), key);
        self.slots.copy_within(place + 1..self.length, place);
        self.length -= 1;
    }

    /// Leaves of the first places only the slots that are to stay, and all after them, in their sequence.
    pub fn keep(&mut self, places: usize, stays: impl Fn(Slot) -> bool) {
        let mut kept = 0;
        for place in 0..places {
            let slot = self.slots[place];
            self.slots[kept] = slot;
            kept += usize::from(stays(slot));
        }
        self.slots.copy_within(places..self.length, kept);
        self.length -= places - kept;
    }

    /// The first place whose key is not below this one.
    fn place(&self, key: u64, key_of: impl Fn(Slot) -> u64) -> usize {
        self.slots().partition_point(|slot| key_of(*slot) < key)
    }
}
