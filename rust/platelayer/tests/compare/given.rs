//! What a caller gives beside a book: sides, flows, claims, gates, and buffers of every length.

use crate::dice::Dice;
use plain::{Book, Mark};

/// A buffer's length: as needed, longer, or shorter.
pub fn length(dice: &mut Dice, need: usize) -> usize {
    match dice.below(10) {
        0 => dice.below(need.max(1)),
        1 => need.max(1) - 1,
        2..=4 => need + dice.between(1, 40),
        _ => need,
    }
}

/// Brings a buffer to a length; what is added is random.
fn resized(dice: &mut Dice, mut bytes: Vec<u8>, length: usize) -> Vec<u8> {
    let more = length.saturating_sub(bytes.len());
    bytes.truncate(length);
    bytes.extend(dice.bytes(more));
    bytes
}

/// A side for a book: most separate, some lack a meter, hold a maker or set a spare bit.
pub fn side(dice: &mut Dice, book: &Book, cheapest: &[Vec<u8>]) -> Vec<u8> {
    let need = book.side_bytes();
    let mut bytes = dice.bytes(need);
    for (m, module) in book.modules.iter().enumerate() {
        let bit = 1 << (m % 8);
        match module.mark {
            Mark::Free => {}
            Mark::Meter => bytes[m / 8] |= bit,
            Mark::Maker => bytes[m / 8] &= !bit,
        }
    }
    let used = book.modules.len() % 8;
    let spare = if used == 0 { 0 } else { 0xFFu8 << used };
    bytes[need - 1] &= !spare;
    match dice.below(12) {
        0 => {
            let m = dice.below(book.modules.len());
            bytes[m / 8] ^= 1 << (m % 8);
        }
        1 => bytes[need - 1] |= spare & dice.number() as u8,
        2 => bytes = dice.bytes(need),
        3..=6 if !cheapest.is_empty() => bytes = dice.among(cheapest),
        _ => {}
    }
    let length = length(dice, need);
    resized(dice, bytes, length)
}

/// A flow for a book, from some that are fair and greatest: kept, or damaged.
pub fn flow(dice: &mut Dice, book: &Book, greatest: &[Vec<i32>]) -> Vec<i32> {
    let pins = book.counts().pins;
    let mut flow = dice.among(greatest);
    let p = dice.below(pins.max(1));
    match dice.below(12) {
        _ if pins == 0 => {}
        0 => flow = vec![0; pins],
        1 => flow = (0..pins).map(|_| dice.below(5) as i32 - 2).collect(),
        2 => flow[p] = dice.among(&[i32::MIN, i32::MAX, i32::MIN + 1, 65535, -65536]),
        3 => flow[p] = flow[p].wrapping_add(dice.among(&[1, -1])),
        4 => flow.iter_mut().for_each(|number| *number = -*number),
        5 | 6 => shift(dice, book, &mut flow),
        7 => wrapping(dice, book, &mut flow),
        8 => flow = dice.numbers(pins),
        _ => {}
    }
    let length = length(dice, pins);
    let more = length.saturating_sub(pins);
    flow.truncate(length);
    flow.extend(dice.numbers(more));
    flow
}

/// Where the pins of a random net start, and how many it has.
fn some_net(dice: &mut Dice, book: &Book) -> (usize, usize) {
    let n = dice.below(book.nets.len());
    let start = book.nets[..n].iter().map(|net| net.pins.len()).sum();
    (start, book.nets[n].pins.len())
}

/// One pin of a net sends more and another less: the net still adds to 0.
fn shift(dice: &mut Dice, book: &Book, flow: &mut [i32]) {
    let (start, count) = some_net(dice, book);
    let (a, b) = (start + dice.below(count), start + dice.below(count));
    let by = dice.among(&[1, 1, 2, 65535, i32::MAX]);
    flow[a] = flow[a].wrapping_add(by);
    flow[b] = flow[b].wrapping_sub(by);
}

/// A net whose numbers add to 0 in 32 bits alone.
fn wrapping(dice: &mut Dice, book: &Book, flow: &mut [i32]) {
    let (start, count) = some_net(dice, book);
    flow[start..start + count].fill(0);
    let numbers = match count {
        1 => [0, 0, 0],
        2 => [i32::MIN, i32::MIN, 0],
        _ => dice.among(&[
            [i32::MAX, i32::MAX, 2],
            [i32::MIN, i32::MIN, 0],
            [i32::MAX, i32::MIN, 1],
        ]),
    };
    flow[start..start + count.min(3)].copy_from_slice(&numbers[..count.min(3)]);
}

/// A claimed price: the right one, or one that is off, by the wrap of a sign too.
pub fn claim(dice: &mut Dice, right: u32) -> u32 {
    match dice.below(8) {
        0 => right.wrapping_add(1),
        1 => right.wrapping_sub(1),
        2 => right.wrapping_neg(),
        3 => dice.among(&[0, 1, u32::MAX, 1 << 31]),
        _ => right,
    }
}

/// A module to move: one of the book's, one past them, or any number.
pub fn module(dice: &mut Dice, book: &Book) -> u32 {
    let count = book.modules.len() as u32;
    match dice.below(12) {
        0 => dice.among(&[count, count + 1, 256, 65535, 65536, 1 << 31, u32::MAX]),
        1 => dice.number() as u32,
        _ => dice.below(book.modules.len()) as u32,
    }
}

const TOP: f64 = 16777216.0;
const TINY: f64 = 5e-324;

/// A gate as the desk takes it, for a book of this total area: of every kind, good and bad. Some
/// have an end within a rounding of the area `aim`.
pub fn gate(dice: &mut Dice, total: u32, aim: u32) -> (u32, f64, f64) {
    match dice.below(18) {
        0 => (0, dice.double(), dice.double()),
        1 => (dice.among(&[3, 4, 256, 1 << 31, u32::MAX]), 0.5, 0.5),
        2..=4 => share(dice),
        5 => (1, odd_number(dice), odd_number(dice)),
        6 => (2, odd_number(dice), odd_number(dice)),
        7..=9 => aimed_share(dice, total, aim),
        _ => bounds(dice, total),
    }
}

/// A share one of whose ends is the area aimed for, but for the rounding of each operation.
fn aimed_share(dice: &mut Dice, total: u32, aim: u32) -> (u32, f64, f64) {
    let e = dice.fraction();
    let slack = dice.among(&[1.0 - e, 1.0 + e]);
    (1, f64::from(aim) / (slack * f64::from(total)), e)
}

/// Shares in 256ths and any others, mostly good.
fn share(dice: &mut Dice) -> (u32, f64, f64) {
    let in_256ths = |number: usize| number as f64 / 256.0;
    match dice.below(8) {
        0 => (1, dice.fraction(), dice.fraction()),
        1 => (
            1,
            dice.among(&[TINY, f64::MIN_POSITIVE, 1.0 - f64::EPSILON]),
            dice.fraction(),
        ),
        2 => (
            1,
            dice.fraction(),
            dice.among(&[0.0, -0.0, TINY, 1.0 - f64::EPSILON, 1.0]),
        ),
        3 => (1, dice.among(&[0.0, -0.0, 1.0, -0.5, 2.0]), 0.25),
        _ => (
            1,
            in_256ths(dice.between(1, 255)),
            in_256ths(dice.among(&[0, 1, 8, 64, 128, 255])),
        ),
    }
}

/// Bounds around some part of a total area.
fn bounds(dice: &mut Dice, total: u32) -> (u32, f64, f64) {
    let low = dice.below(total as usize + 1) as f64;
    match dice.below(8) {
        0 => (2, low, low),
        1 => (2, low, TOP),
        2 => (2, dice.among(&[0.0, -0.0]), low),
        3 => (2, low + 0.5, low + 0.5),
        4 => (
            2,
            low,
            dice.among(&[low - 1.0, TOP + 2.0, TOP * (1.0 + f64::EPSILON)]),
        ),
        5 => (2, f64::from(total) + 1.0, TOP),
        _ => (2, low, low + dice.below(total as usize / 4 + 2) as f64),
    }
}

/// A double that is no bound at all, or just one.
fn odd_number(dice: &mut Dice) -> f64 {
    let any = dice.double();
    dice.among(&[
        f64::NAN,
        f64::INFINITY,
        f64::NEG_INFINITY,
        -1.0,
        -TINY,
        -0.0,
        0.0,
        TINY,
        1.0,
        TOP,
        any,
    ])
}
