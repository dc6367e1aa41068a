//! Every call of document 01 in plain Rust, written from that page alone. Nothing here is proved:
//! it is what the proved library is compared with, so it is meant to be read, not to be fast.
//!
//! Each call takes the buffers that a caller lends, as the library's does. With a refusal nothing
//! is written, but for the walk's rows with 14; a buffer longer than needed keeps its tail.
#![forbid(unsafe_code)]

mod book;
mod check;
mod gate;
mod listing;
mod network;
mod side;
mod split;
mod walk;

pub use book::{read, Book, Counts, Mark, Module, Net, BOOK_BYTES};
pub use check::check;
pub use gate::{Band, Gate};
pub use listing::listing;
pub use side::{change, price};
pub use split::split;
pub use walk::{walk, Walked};

#[cfg(test)]
mod tried;

/// A row of the table "When the desk says no", 1 to 13, with its place.
#[derive(Clone, Copy, Debug, PartialEq, Eq)]
pub struct Refusal {
    pub number: u8,
    pub place: usize,
}

/// The refusal of this number at a place.
fn at(number: u8, place: usize) -> Refusal {
    Refusal { number, place }
}

/// The refusal of this number, which has no place.
fn refused(number: u8) -> Refusal {
    at(number, 0)
}
