//! The balancing walk. Checks 7, 8 and 14.

use std::cmp::Ordering;

use crate::book::{Book, Mark};
use crate::gate::{Band, Gate};
use crate::network::greatest;
use crate::side::{area_of, bits, crosses, price_of, Side};
use crate::{refused, Refusal};

const ROW_BYTES: usize = 12;
const NO_MODULE: usize = 65535;

/// How a walk ends.
#[derive(Clone, Copy, Debug, PartialEq, Eq)]
pub enum Walked {
    /// A side was found.
    Done { price: u32, rounds: usize },
    /// No module was left to pin: 14.
    Stuck { rounds: usize },
}

/// What a round did.
#[derive(Clone, Copy, PartialEq, Eq)]
enum Way {
    Stopped = 0,
    ToMeter = 1,
    ToMaker = 2,
    Ended = 3,
}

struct Round {
    x: Side,
    price: u32,
    area: u32,
    taken: Option<usize>,
    way: Way,
}

impl Round {
    fn row(&self) -> Vec<u8> {
        let mut row = Vec::new();
        row.extend(self.price.to_le_bytes());
        row.extend(self.area.to_le_bytes());
        row.extend((self.taken.unwrap_or(NO_MODULE) as u16).to_le_bytes());
        row.extend((self.way as u16).to_le_bytes());
        row
    }
}

/// Walks until the near side's area is within the gate of the desk's three numbers. Writes a row
/// a round, and the side if one is found.
pub fn walk(
    book: &[u8],
    (kind, a, b): (u32, f64, f64),
    side: &mut [u8],
    rows: &mut [u8],
) -> Result<Walked, Refusal> {
    let book = Book::of(book)?;
    let gate = Gate::of(kind, a, b).ok_or(refused(7))?;
    let bytes = book.side_bytes();
    let free = book
        .marks()
        .iter()
        .filter(|&&mark| mark == Mark::Free)
        .count();
    if side.len() < bytes || rows.len() < ROW_BYTES * (free + 1) {
        return Err(refused(8));
    }
    let rounds = all_rounds(&book, gate.band(book.total_area()));
    for (place, round) in rows.chunks_exact_mut(ROW_BYTES).zip(&rounds) {
        place.copy_from_slice(&round.row());
    }
    let last = rounds.last().expect("every walk has a round");
    let rounds = rounds.len();
    if last.way == Way::Ended {
        return Ok(Walked::Stuck { rounds });
    }
    side[..bytes].copy_from_slice(&bits(&last.x));
    let price = last.price;
    Ok(Walked::Done { price, rounds })
}

/// The rounds of a walk, from the book's marks on.
fn all_rounds(book: &Book, band: Option<Band>) -> Vec<Round> {
    let mut marks = book.marks();
    let mut rounds = Vec::new();
    loop {
        let round = one_round(book, &marks, band);
        let (inside, mark) = match round.way {
            Way::ToMeter => (true, Mark::Meter),
            Way::ToMaker => (false, Mark::Maker),
            Way::Stopped | Way::Ended => {
                rounds.push(round);
                return rounds;
            }
        };
        for (m, pinned) in marks.iter_mut().enumerate() {
            if round.x[m] == inside || round.taken == Some(m) {
                *pinned = mark;
            }
        }
        rounds.push(round);
    }
}

/// One round: the near side for the modules now pinned, and what is to be done about its area.
fn one_round(book: &Book, marks: &[Mark], band: Option<Band>) -> Round {
    let x = greatest(book, marks).near;
    let (price, area) = (price_of(book, &x), area_of(book, &x));
    let (taken, way) = match band.map_or(Ordering::Equal, |band| band.place(area)) {
        Ordering::Equal => (None, Way::Stopped),
        Ordering::Less => (choice(book, marks, &x, false), Way::ToMeter),
        Ordering::Greater => (choice(book, marks, &x, true), Way::ToMaker),
    };
    let ended = way != Way::Stopped && taken.is_none();
    let way = if ended { Way::Ended } else { way };
    Round {
        x,
        price,
        area,
        taken,
        way,
    }
}

/// The module taken: the lowest free one on that side with a pin on a net that X cuts; if none
/// has, the lowest free one on that side.
fn choice(book: &Book, marks: &[Mark], x: &Side, inside: bool) -> Option<usize> {
    let free = |m: &usize| marks[*m] == Mark::Free && x[*m] == inside;
    let on_a_cut = |m: &usize| {
        book.nets
            .iter()
            .any(|net| crosses(x, net) && net.pins.contains(m))
    };
    let modules = 0..marks.len();
    modules
        .clone()
        .filter(free)
        .find(on_a_cut)
        .or_else(|| modules.clone().find(free))
}
