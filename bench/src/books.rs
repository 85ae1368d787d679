//! The books that can be measured side by side, under one interface.

use crate::calls::{Answer, Best, Call, Fill, Run};
use crate::{fast, plain};

pub struct Book {
    pub name: &'static str,
    pub run: fn(&[Call], &mut [Answer], &mut [Fill]) -> Run,
    pub protect: fn(&[Call], &mut [Best]) -> usize,
}

#[cfg(feature = "linked")]
const PROVED: Book = Book { name: "proved", run: crate::linked::run, protect: crate::linked::protect };
const FAST: Book = Book { name: "fast", run: fast::list::run, protect: fast::list::protect };
const PLAIN: Book = Book { name: "plain", run: plain::list::run, protect: plain::list::protect };

#[cfg(feature = "linked")]
pub const BOOKS: &[Book] = &[PROVED, FAST, PLAIN];
#[cfg(not(feature = "linked"))]
pub const BOOKS: &[Book] = &[FAST, PLAIN];
