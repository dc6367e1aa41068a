//! The listing: what the program prints for its standard input.

use std::fmt::Write;

use crate::book::{Book, BOOK_BYTES};
use crate::network::greatest;
use crate::side::{area_of, price_of, Side};

/// The whole text, every line ended by a line feed.
pub fn listing(input: &[u8]) -> String {
    if input.len() > BOOK_BYTES {
        return "refused 2 at 0\n".to_string();
    }
    match Book::of(input) {
        Ok(book) => text(&book),
        Err(refusal) => format!("refused {} at {}\n", refusal.number, refusal.place),
    }
}

fn text(book: &Book) -> String {
    let found = greatest(book, &book.marks());
    let price = price_of(book, &found.near);
    let (near, far) = (
        part(book, "near", &found.near),
        part(book, "far", &found.far),
    );
    format!("price {price}\n{near}{far}")
}

/// The side's head, then its modules one a line, rising.
fn part(book: &Book, name: &str, side: &Side) -> String {
    let inside: Vec<usize> = (0..side.len()).filter(|&m| side[m]).collect();
    let mut text = format!(
        "{name} {} modules area {}\n",
        inside.len(),
        area_of(book, side)
    );
    for m in inside {
        writeln!(text, "{m}").expect("a String takes any text");
    }
    text
}
