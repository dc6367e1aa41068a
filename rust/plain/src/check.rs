//! The checker of a flow, a side and a price. Checks 8, 9 and 11 to 13.

use crate::book::{Book, Mark};
use crate::side::{price_of, separating};
use crate::{at, refused, Refusal};

/// Accepts a fair flow and a separating side where value, price and claim are equal.
pub fn check(book: &[u8], side: &[u8], flow: &[i32], price: u32) -> Result<(), Refusal> {
    let book = Book::of(book)?;
    let pins = book.counts().pins;
    if side.len() < book.side_bytes() || flow.len() < pins {
        return Err(refused(8));
    }
    let side = separating(&book, side)?;
    let flow: Vec<i64> = flow[..pins]
        .iter()
        .map(|&number| i64::from(number))
        .collect();
    check_nets(&book, &flow)?;
    let sums = module_sums(&book, &flow);
    check_modules(&book, &sums)?;
    let marked = book
        .modules
        .iter()
        .zip(&sums)
        .filter(|(module, _)| module.mark == Mark::Meter);
    let value: i64 = marked.map(|(_, sum)| sum).sum();
    if value == i64::from(price) && price_of(&book, &side) == price {
        Ok(())
    } else {
        Err(refused(13))
    }
}

/// Check 11: the numbers of a net add to 0, and those above zero to at most its weight.
fn check_nets(book: &Book, flow: &[i64]) -> Result<(), Refusal> {
    let mut rest = flow;
    for (n, net) in book.nets.iter().enumerate() {
        let (numbers, others) = rest.split_at(net.pins.len());
        let sent: i64 = numbers.iter().filter(|&&number| number > 0).sum();
        if numbers.iter().sum::<i64>() != 0 || sent > i64::from(net.weight) {
            return Err(at(11, n));
        }
        rest = others;
    }
    Ok(())
}

/// What each module sends, less what it takes, over all its pins.
fn module_sums(book: &Book, flow: &[i64]) -> Vec<i64> {
    let mut sums = vec![0; book.modules.len()];
    let pins = book.nets.iter().flat_map(|net| &net.pins);
    for (&m, number) in pins.zip(flow) {
        sums[m] += number;
    }
    sums
}

/// Check 12: the numbers of a free module add to 0.
fn check_modules(book: &Book, sums: &[i64]) -> Result<(), Refusal> {
    for (m, (module, &sum)) in book.modules.iter().zip(sums).enumerate() {
        if module.mark == Mark::Free && sum != 0 {
            return Err(at(12, m));
        }
    }
    Ok(())
}
