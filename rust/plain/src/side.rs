//! Sides as rows of bits: the price of a side, and what a move changes. Checks 8 to 10.

use crate::book::{Book, Mark, Net};
use crate::{refused, Refusal};

/// Which modules are inside.
pub type Side = Vec<bool>;

/// Whether module m is inside: bit m mod 8 of byte m div 8.
fn bit(bytes: &[u8], m: usize) -> bool {
    bytes[m / 8] >> (m % 8) & 1 == 1
}

/// The side as a row of bits, spare bits 0.
pub fn bits(side: &Side) -> Vec<u8> {
    let mut bytes = vec![0; side.len().div_ceil(8)];
    for (m, &inside) in side.iter().enumerate() {
        bytes[m / 8] |= u8::from(inside) << (m % 8);
    }
    bytes
}

/// Check 9, on bytes that are enough: every meter module inside, no maker module, no spare bit.
pub fn separating(book: &Book, bytes: &[u8]) -> Result<Side, Refusal> {
    let spare = (book.modules.len()..8 * book.side_bytes()).any(|m| bit(bytes, m));
    let side: Side = (0..book.modules.len()).map(|m| bit(bytes, m)).collect();
    let parted = book
        .modules
        .iter()
        .zip(&side)
        .all(|(module, &inside)| match module.mark {
            Mark::Free => true,
            Mark::Meter => inside,
            Mark::Maker => !inside,
        });
    if parted && !spare {
        Ok(side)
    } else {
        Err(refused(9))
    }
}

/// Checks 8 and 9 on a given side.
fn given(book: &Book, bytes: &[u8]) -> Result<Side, Refusal> {
    if bytes.len() < book.side_bytes() {
        return Err(refused(8));
    }
    separating(book, bytes)
}

/// A pin inside and a pin outside.
pub fn crosses(side: &Side, net: &Net) -> bool {
    net.pins.iter().any(|&m| side[m]) && net.pins.iter().any(|&m| !side[m])
}

/// The sum of weights of the nets that cross, each net once.
pub fn price_of(book: &Book, side: &Side) -> u32 {
    let crossing = book.nets.iter().filter(|net| crosses(side, net));
    crossing.map(|net| net.weight).sum()
}

/// The sum of areas of the modules inside.
pub fn area_of(book: &Book, side: &Side) -> u32 {
    let inside = book.modules.iter().zip(side).filter(|(_, &inside)| inside);
    inside.map(|(module, _)| module.area).sum()
}

/// The price of a given side.
pub fn price(book: &[u8], side: &[u8]) -> Result<u32, Refusal> {
    let book = Book::of(book)?;
    let side = given(&book, side)?;
    Ok(price_of(&book, &side))
}

/// The move: the price after one free module goes to the other side, less the price before.
pub fn change(book: &[u8], side: &[u8], module: u32) -> Result<i64, Refusal> {
    let book = Book::of(book)?;
    let mut side = given(&book, side)?;
    let m = module as usize;
    if !book
        .modules
        .get(m)
        .is_some_and(|module| module.mark == Mark::Free)
    {
        return Err(refused(10));
    }
    let before = i64::from(price_of(&book, &side));
    side[m] = !side[m];
    Ok(i64::from(price_of(&book, &side)) - before)
}
