//! The split: near side, far side, price and flow. Check 8.

use crate::book::Book;
use crate::network::greatest;
use crate::side::{bits, price_of};
use crate::{refused, Refusal};

/// Writes the near side, the far side and a flow of equal value; answers the lowest price.
pub fn split(
    book: &[u8],
    near: &mut [u8],
    far: &mut [u8],
    flow: &mut [i32],
) -> Result<u32, Refusal> {
    let book = Book::of(book)?;
    let (bytes, pins) = (book.side_bytes(), book.counts().pins);
    if near.len() < bytes || far.len() < bytes || flow.len() < pins {
        return Err(refused(8));
    }
    let found = greatest(&book, &book.marks());
    near[..bytes].copy_from_slice(&bits(&found.near));
    far[..bytes].copy_from_slice(&bits(&found.far));
    for (place, &number) in flow.iter_mut().zip(&found.flow) {
        *place = i32::try_from(number).expect("no pin carries more than a weight");
    }
    Ok(price_of(&book, &found.near))
}
