//! The calls over buffers of the caller's own, for those who keep them from call to call.
//!
//! A buffer may be longer than needed: the rest of it is neither read nor written. One that is
//! shorter is refused with [`Refusal::Buffer`]. With any refusal the buffers are as they were.
#![forbid(unsafe_code)]

use crate::raw::{self, Answer};
use crate::{Counts, Gate, Refusal};

/// The bytes of one row of a walk.
pub const ROW_BYTES: usize = 12;

/// How a walk over lent buffers ends.
#[derive(Clone, Copy, Debug, PartialEq, Eq)]
pub enum Walked {
    /// The side and the rows are written.
    Done {
        /// The last price.
        price: u32,
        /// The count of rows.
        rounds: usize,
    },
    /// No module was left to pin: the rows are written, the side is as it was.
    Stuck {
        /// The count of rows.
        rounds: usize,
    },
}

/// The values of an answer, or its refusal.
fn values(answer: Answer) -> Result<[i64; 5], Refusal> {
    let [number, place, _, values @ ..] = answer;
    if number == 0 {
        return Ok(values);
    }
    Err(Refusal::of(number, place).expect("a refusal of the table"))
}

/// A value that is a count or a price.
fn whole<N: TryFrom<i64>>(value: i64) -> N {
    N::try_from(value).ok().expect("counts and prices fit")
}

/// Checks 1 to 6; answers the counts.
pub fn read(book: &[u8]) -> Result<Counts, Refusal> {
    let [modules, nets, pins, ..] = values(raw::read(book))?;
    Ok(Counts {
        modules: whole(modules),
        nets: whole(nets),
        pins: whole(pins),
    })
}

/// The price of a given side: needs a bit a module.
pub fn price(book: &[u8], side: &[u8]) -> Result<u32, Refusal> {
    let [price, ..] = values(raw::price(book, side))?;
    Ok(whole(price))
}

/// The price after moving one free module to the other side, less the price before.
pub fn change(book: &[u8], side: &[u8], module: u32) -> Result<i64, Refusal> {
    let [change, ..] = values(raw::change(book, side, module))?;
    Ok(change)
}

/// Writes near, far and flow, and answers the price. Needs a bit a module of near and of far, and
/// a number a pin of flow.
pub fn split(
    book: &[u8],
    near: &mut [u8],
    far: &mut [u8],
    flow: &mut [i32],
) -> Result<u32, Refusal> {
    let [price, ..] = values(raw::split(book, near, far, flow))?;
    Ok(whole(price))
}

/// Accepts a fair flow and a separating side where value, price and claim are equal.
pub fn check(book: &[u8], side: &[u8], flow: &[i32], price: u32) -> Result<(), Refusal> {
    values(raw::check(book, side, flow, price)).map(drop)
}

/// Writes a row a round, and the side found. Needs a bit a module of side, and of rows
/// [`ROW_BYTES`] for each free module of the book and once more.
pub fn walk(book: &[u8], gate: Gate, side: &mut [u8], rows: &mut [u8]) -> Result<Walked, Refusal> {
    let answer = raw::walk(book, gate.raw(), side, rows);
    let [.., price, rounds, _, _, _] = answer;
    let rounds = whole(rounds);
    match values(answer) {
        Ok(_) => Ok(Walked::Done {
            price: whole(price),
            rounds,
        }),
        Err(Refusal::Stuck) => Ok(Walked::Stuck { rounds }),
        Err(refusal) => Err(refusal),
    }
}
