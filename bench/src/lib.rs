//! Two more books that answer day files, and days made by seed, to compare them with the proved book.
//!
//! Everything here is written from the documents in `docs/` alone.

pub mod books;
pub mod calls;
pub mod fast;
pub mod generate;
#[cfg(feature = "linked")]
pub mod linked;
pub mod market;
pub mod plain;
pub mod random;
pub mod scenarios;
pub mod streams;
pub mod terms;
