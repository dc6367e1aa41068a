//! The library against plain Rust, call by call, on many books with a fixed seed.
//!
//! `PLATELAYER_BOOKS` asks for another count of books, `PLATELAYER_SEED` for another seed.
#![forbid(unsafe_code)]

mod books;
mod calls;
mod damage;
mod dice;
mod given;
mod safe;
mod tally;

use dice::Dice;
use tally::Tally;

/// Fair books and damaged ones, together.
const BOOKS: usize = 24_000;
const SEED: u64 = 1996;
/// One fair book in so many is as large as a card can be.
const RARITY: usize = 120;

fn asked(name: &str) -> Option<u64> {
    let text = std::env::var(name).ok()?;
    Some(text.parse().expect("a number"))
}

fn dice() -> Dice {
    Dice(asked("PLATELAYER_SEED").unwrap_or(SEED))
}

#[test]
fn the_library_answers_as_plain_rust_does() {
    let mut dice = dice();
    let mut tally = Tally::default();
    for _ in 0..asked("PLATELAYER_BOOKS").map_or(BOOKS, |count| count as usize) {
        if dice.one_in(3) {
            let book = damage::damaged(&mut dice);
            calls::all_on_any_bytes(&mut dice, &book, &mut tally);
        } else {
            let book = books::fair(&mut dice, RARITY);
            calls::all_on_a_book(&mut dice, &book, &mut tally);
        }
        tally.books += 1;
    }
    tally.print();
    tally.assert_all_reached();
}

#[test]
fn the_safe_calls_answer_as_plain_rust_does() {
    let mut dice = dice();
    for _ in 0..1000 {
        let book = books::fair(&mut dice, RARITY);
        safe::all(&mut dice, &book);
        let book = damage::damaged(&mut dice);
        safe::all(&mut dice, &book);
    }
}
