//! The calls that make their own buffers, against plain Rust.

use crate::dice::Dice;
use crate::given;
use platelayer::{Gate, Refusal, Row, Side, Walk, Way};

/// A refusal as number and place.
fn said<T>(result: Result<T, Refusal>) -> Result<T, (u32, u32)> {
    result.map_err(|refusal| (refusal.number(), refusal.place()))
}

/// The same of a result in plain Rust.
fn wanted<T>(result: Result<T, plain::Refusal>) -> Result<T, (u32, u32)> {
    result.map_err(|refusal| (refusal.number.into(), refusal.place as u32))
}

pub fn all(dice: &mut Dice, book: &[u8]) {
    let counts = wanted(plain::read(book));
    let got = said(platelayer::read(book));
    assert_eq!(
        got.map(|c| (c.modules, c.nets, c.pins)),
        counts.map(|c| (c.modules, c.nets, c.pins))
    );
    let Ok(counts) = counts else {
        assert_eq!(said(platelayer::split(book)).err(), got.err());
        assert_eq!(said(platelayer::walk(book, Gate::Open)).err(), got.err());
        return;
    };
    let mut near = vec![0; counts.modules.div_ceil(8)];
    let mut far = near.clone();
    let mut flow = vec![0; counts.pins];
    let price = plain::split(book, &mut near, &mut far, &mut flow).expect("a fair book");
    let split = platelayer::split(book).expect("a fair book");
    assert_eq!(
        (split.price, split.near.as_bytes(), split.far.as_bytes()),
        (price, &near[..], &far[..])
    );
    assert_eq!(
        platelayer::check(book, &split.far, &split.flow, price),
        Ok(())
    );
    let side = Side::of_bytes(dice.bytes(near.len()));
    assert_eq!(
        said(platelayer::price(book, &side)),
        wanted(plain::price(book, side.as_bytes()))
    );
    let module = dice.below(counts.modules) as u32;
    let change = plain::change(book, split.near.as_bytes(), module);
    assert_eq!(
        said(platelayer::change(book, &split.near, module)),
        wanted(change)
    );
    walks(dice, book, counts.modules);
}

/// The gate that the desk's three numbers are, if they are one of the three.
fn gate(kind: u32, a: f64, b: f64) -> Option<Gate> {
    match kind {
        0 => Some(Gate::Open),
        1 => Some(Gate::Share { r: a, e: b }),
        2 => Some(Gate::Bounds { low: a, high: b }),
        _ => None,
    }
}

fn walks(dice: &mut Dice, book: &[u8], modules: usize) {
    let total = plain::Book::of(book).expect("a fair book").total_area();
    let given = given::gate(dice, total, total / 2);
    let Some(gate) = gate(given.0, given.1, given.2) else {
        return;
    };
    let mut side = vec![0; modules.div_ceil(8)];
    let mut rows = vec![0; 12 * modules];
    let walked = wanted(plain::walk(book, given, &mut side, &mut rows));
    let got = said(platelayer::walk(book, gate));
    match (&got, walked) {
        (Err(got), Err(wanted)) => assert_eq!(*got, wanted),
        (
            Ok(Walk::Done {
                side: found,
                price: paid,
                rows: got,
            }),
            Ok(plain::Walked::Done { price, rounds }),
        ) => {
            assert_eq!((found.as_bytes(), *paid), (&side[..], price));
            assert_eq!(bytes(got), rows[..12 * rounds]);
        }
        (Ok(Walk::Stuck { rows: got }), Ok(plain::Walked::Stuck { rounds })) => {
            assert_eq!(bytes(got), rows[..12 * rounds]);
        }
        (got, wanted) => panic!("{got:?} in place of {wanted:?}"),
    }
}

/// Rows as the walk writes them.
fn bytes(rows: &[Row]) -> Vec<u8> {
    let mut bytes = Vec::new();
    for row in rows {
        let (taken, way) = match row.way {
            Way::Stopped => (65535, 0u16),
            Way::ToMeter(m) => (m, 1),
            Way::ToMaker(m) => (m, 2),
            Way::Ended => (65535, 3),
        };
        bytes.extend(row.price.to_le_bytes());
        bytes.extend(row.area.to_le_bytes());
        bytes.extend(taken.to_le_bytes());
        bytes.extend(way.to_le_bytes());
    }
    bytes
}
