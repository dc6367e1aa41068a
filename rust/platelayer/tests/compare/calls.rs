//! Each call on the same input, by the library and in plain Rust; answers and buffers are equal.

use crate::dice::Dice;
use crate::given;
use crate::tally::Tally;
use plain::{Book, Refusal, Walked};
use platelayer::raw::{self, Answer};

/// A pin's number is at most the greatest weight, whichever way it goes.
const MOST: i32 = 65535;

/// The answer of the desk: number, place, second place, values, zeros.
fn answer(number: i64, place: i64, values: &[i64]) -> Answer {
    let mut answer = [0; 8];
    (answer[0], answer[1]) = (number, place);
    answer[3..3 + values.len()].copy_from_slice(values);
    answer
}

/// The answer that a result in plain Rust stands for.
fn expected<const N: usize>(result: Result<[i64; N], Refusal>) -> Answer {
    match result {
        Ok(values) => answer(0, 0, &values),
        Err(refusal) => answer(refusal.number.into(), refusal.place as i64, &[]),
    }
}

pub fn read(book: &[u8], tally: &mut Tally) {
    let wanted = plain::read(book).map(|c| [c.modules, c.nets, c.pins].map(|count| count as i64));
    let got = raw::read(book);
    assert_eq!(got, expected(wanted), "read of {book:?}");
    tally.count("read", &got);
}

pub fn price(book: &[u8], side: &[u8], tally: &mut Tally) {
    let wanted = plain::price(book, side).map(|price| [price.into()]);
    let got = raw::price(book, side);
    assert_eq!(got, expected(wanted), "price of {side:?} in {book:?}");
    tally.count("price", &got);
}

pub fn change(book: &[u8], side: &[u8], module: u32, tally: &mut Tally) {
    let wanted = plain::change(book, side, module).map(|change| [change]);
    let got = raw::change(book, side, module);
    assert_eq!(
        got,
        expected(wanted),
        "move of {module} by {side:?} in {book:?}"
    );
    tally.count("move", &got);
}

pub fn check(book: &[u8], side: &[u8], flow: &[i32], price: u32, tally: &mut Tally) {
    let wanted = plain::check(book, side, flow, price).map(|()| []);
    let got = raw::check(book, side, flow, price);
    assert_eq!(
        got,
        expected(wanted),
        "check of {side:?}, {flow:?}, {price} in {book:?}"
    );
    tally.count("check", &got);
}

/// Three lent buffers.
#[derive(Clone, PartialEq, Eq, Debug)]
pub struct Lent {
    pub near: Vec<u8>,
    pub far: Vec<u8>,
    pub flow: Vec<i32>,
}

impl Lent {
    /// Buffers of these lengths, marked with random bytes.
    pub fn marked(dice: &mut Dice, near: usize, far: usize, flow: usize) -> Lent {
        Lent {
            near: dice.bytes(near),
            far: dice.bytes(far),
            flow: dice.numbers(flow),
        }
    }
}

/// The split: sides, price and tails are equal. Of the flow only its value is settled, so the
/// library's is held to both checkers.
pub fn split(book: &[u8], lent: &Lent, tally: &mut Tally) -> Lent {
    let (mut ours, mut theirs) = (lent.clone(), lent.clone());
    let Lent { near, far, flow } = &mut ours;
    let wanted = plain::split(book, near, far, flow).map(|price| [price.into()]);
    let Lent { near, far, flow } = &mut theirs;
    let got = raw::split(book, near, far, flow);
    assert_eq!(got, expected(wanted), "split of {book:?}");
    tally.count("split", &got);
    if got[0] != 0 {
        assert_eq!(theirs, *lent, "refused, and written to: {book:?}");
        return theirs;
    }
    assert_eq!(theirs.near, ours.near, "near of {book:?}");
    assert_eq!(theirs.far, ours.far, "far of {book:?}");
    let pins = plain::read(book).expect("a book that was split").pins;
    assert_eq!(
        theirs.flow[pins..],
        lent.flow[pins..],
        "the flow's tail: {book:?}"
    );
    let flow = &theirs.flow[..pins];
    assert!(
        flow.iter().all(|number| (-MOST..=MOST).contains(number)),
        "{flow:?} of {book:?}"
    );
    let price = got[3] as u32;
    for side in [&theirs.near, &theirs.far] {
        assert_eq!(
            plain::check(book, side, flow, price),
            Ok(()),
            "{flow:?} of {book:?}"
        );
        assert_eq!(
            raw::check(book, side, flow, price),
            answer(0, 0, &[]),
            "{flow:?} of {book:?}"
        );
    }
    theirs
}

/// The walk: answer, side and rows are equal, byte for byte.
pub fn walk(book: &[u8], gate: (u32, f64, f64), side: &[u8], rows: &[u8], tally: &mut Tally) {
    let mut ours = (side.to_vec(), rows.to_vec());
    let mut theirs = ours.clone();
    let wanted = plain::walk(book, gate, &mut ours.0, &mut ours.1);
    let wanted = match wanted {
        Ok(Walked::Stuck { rounds }) => answer(14, 0, &[0, rounds as i64]),
        Ok(Walked::Done { price, rounds }) => answer(0, 0, &[price.into(), rounds as i64]),
        Err(refusal) => expected::<0>(Err(refusal)),
    };
    let got = raw::walk(book, gate, &mut theirs.0, &mut theirs.1);
    assert_eq!(got, wanted, "walk of {gate:?} in {book:?}");
    assert_eq!(theirs, ours, "side and rows of {gate:?} in {book:?}");
    match got[0] {
        0 => {}
        14 => assert_eq!(theirs.0, side, "stuck, and the side written to: {book:?}"),
        _ => assert_eq!(
            (&theirs.0[..], &theirs.1[..]),
            (side, rows),
            "refused: {book:?}"
        ),
    }
    tally.count("walk", &got);
}

/// Every call on a book that most likely does not read.
pub fn all_on_any_bytes(dice: &mut Dice, book: &[u8], tally: &mut Tally) {
    let lengths = [dice.below(40), dice.below(40), dice.below(80)];
    let side = dice.bytes(lengths[0]);
    let flow = dice.numbers(lengths[2]);
    read(book, tally);
    price(book, &side, tally);
    change(book, &side, dice.below(8) as u32, tally);
    check(book, &side, &flow, dice.below(4) as u32, tally);
    let lent = Lent::marked(dice, lengths[0], lengths[1], lengths[2]);
    split(book, &lent, tally);
    let gate = given::gate(dice, 1000, 10);
    let rows = dice.below(400);
    let rows = dice.bytes(rows);
    walk(book, gate, &side, &rows, tally);
}

/// Every call on a book that reads, with sides, flows, claims, gates and buffers good and bad.
pub fn all_on_a_book(dice: &mut Dice, bytes: &[u8], tally: &mut Tally) {
    let book = Book::of(bytes).expect("a fair book");
    let (need, pins) = (book.side_bytes(), book.counts().pins);
    read(bytes, tally);
    let exact = Lent::marked(dice, need, need, pins);
    let found = split(bytes, &exact, tally);
    let lengths = [need, need, pins].map(|need| given::length(dice, need));
    let lent = Lent::marked(dice, lengths[0], lengths[1], lengths[2]);
    split(bytes, &lent, tally);

    let lowest = plain::price(bytes, &found.near).expect("near is a side");
    let mut own = exact;
    plain::split(bytes, &mut own.near, &mut own.far, &mut own.flow).expect("room enough");
    let sides = [found.near, found.far];
    let flows = [found.flow, own.flow];
    for _ in 0..3 {
        let side = given::side(dice, &book, &sides);
        price(bytes, &side, tally);
        change(bytes, &side, given::module(dice, &book), tally);
        let flow = given::flow(dice, &book, &flows);
        check(bytes, &side, &flow, given::claim(dice, lowest), tally);
    }
    let aim = area(&book, &sides[0]);
    walks_on_a_book(dice, bytes, &book, aim, tally);
}

/// The area of a side that is a row of bits.
fn area(book: &Book, side: &[u8]) -> u32 {
    let modules = book.modules.iter().enumerate();
    let inside = modules.filter(|(m, _)| side[m / 8] >> (m % 8) & 1 == 1);
    inside.map(|(_, module)| module.area).sum()
}

fn walks_on_a_book(dice: &mut Dice, bytes: &[u8], book: &Book, aim: u32, tally: &mut Tally) {
    let free = book
        .marks()
        .iter()
        .filter(|&&mark| mark == plain::Mark::Free)
        .count();
    for _ in 0..2 {
        let gate = given::gate(dice, book.total_area(), aim);
        let side = given::length(dice, book.side_bytes());
        let rows = given::length(dice, 12 * (free + 1));
        let (side, rows) = (dice.bytes(side), dice.bytes(rows));
        walk(bytes, gate, &side, &rows, tally);
    }
}
