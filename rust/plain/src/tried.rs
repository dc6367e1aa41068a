//! "Tried at the desk", every row; and the split against every side there is.

use crate::book::{Book, Mark};
use crate::side::{bits, price_of, Side};
use crate::*;

const BRIDGE: [u8; 72] = [
    0x03, 0x00, // count
    0x01, 0x00, 0x20, 0x00, 0x00, 0x00, 0x10, 0x00, 0x00, 0x00, // modules
    0x02, 0x00, 0x30, 0x00, 0x00, 0x00, 0x0C, 0x00, 0x00, 0x00, // nets
    0x03, 0x00, 0x3C, 0x00, 0x00, 0x00, 0x0C, 0x00, 0x00, 0x00, // pins
    0x03, 0x00, 0x01, 0x00, 0x02, 0x00, 0x00, 0x00, 0x02, 0x00, 0x00, 0x00, 0x04, 0x00, 0x02, 0x00,
    0x02, 0x00, 0x02, 0x00, 0x01, 0x00, 0x02, 0x00, 0x02, 0x00, 0x02, 0x00, //
    0x00, 0x00, 0x01, 0x00, 0x01, 0x00, 0x02, 0x00, 0x02, 0x00, 0x03, 0x00,
];
const BRIDGE_FLOW: [i32; 6] = [1, -1, 1, -1, 1, -1];
const BOUNDS: u32 = 2;
const SHARE: u32 = 1;

/// A book of areas with marks, and of weights with pins.
fn book(modules: &[(u16, u16)], nets: &[(u16, &[u16])]) -> Vec<u8> {
    let pins: usize = nets.iter().map(|net| net.1.len()).sum();
    let mut bytes = vec![3, 0];
    let mut start = 32;
    for (kind, length) in [
        (1u16, 4 * modules.len()),
        (2, 4 * nets.len()),
        (3, 2 * pins),
    ] {
        bytes.extend(kind.to_le_bytes());
        bytes.extend((start as u32).to_le_bytes());
        bytes.extend((length as u32).to_le_bytes());
        start += length;
    }
    let pairs = nets.iter().map(|net| (net.0, net.1.len() as u16));
    for (first, second) in modules.iter().copied().chain(pairs) {
        bytes.extend(first.to_le_bytes());
        bytes.extend(second.to_le_bytes());
    }
    for pin in nets.iter().flat_map(|net| net.1) {
        bytes.extend(pin.to_le_bytes());
    }
    bytes
}

fn bridge() -> Vec<u8> {
    let modules = [(3, 1), (2, 0), (2, 0), (4, 2)];
    book(&modules, &[(2, &[0, 1]), (1, &[1, 2]), (2, &[2, 3])])
}

fn chain() -> Vec<u8> {
    let modules = [(3, 1), (2, 0), (2, 0), (4, 2)];
    book(&modules, &[(1, &[0, 1]), (1, &[1, 2]), (1, &[2, 3])])
}

fn fan() -> Vec<u8> {
    book(&[(1, 1), (1, 0), (1, 2)], &[(1, &[0, 1, 2])])
}

/// Price, near and far, as the split writes them; its own flow is accepted with either side.
fn split_of(book: &[u8]) -> (u32, u8, u8) {
    let pins = read(book).unwrap().pins;
    let (mut near, mut far, mut flow) = ([0], [0], vec![0; pins]);
    let price = split(book, &mut near, &mut far, &mut flow).unwrap();
    assert_eq!(check(book, &near, &flow, price), Ok(()));
    assert_eq!(check(book, &far, &flow, price), Ok(()));
    (price, near[0], far[0])
}

/// How a walk ends, its side, and its rows.
fn walk_of(book: &[u8], gate: (u32, f64, f64)) -> (Walked, u8, Vec<[u32; 4]>) {
    let (mut side, mut rows) = ([0xAA], [0; 36]);
    let walked = walk(book, gate, &mut side, &mut rows).unwrap();
    let (Walked::Done { rounds, .. } | Walked::Stuck { rounds }) = walked;
    let number = |bytes: &[u8]| {
        bytes
            .iter()
            .rev()
            .fold(0, |sum, &byte| 256 * sum + u32::from(byte))
    };
    let row = |row: &[u8]| {
        [
            number(&row[..4]),
            number(&row[4..8]),
            number(&row[8..10]),
            number(&row[10..]),
        ]
    };
    (
        walked,
        side[0],
        rows.chunks(12).take(rounds).map(row).collect(),
    )
}

#[test]
fn the_page_and_the_maker_agree_on_bridge() {
    assert_eq!(bridge(), BRIDGE);
    assert_eq!(
        read(&BRIDGE),
        Ok(Counts {
            modules: 4,
            nets: 3,
            pins: 6
        })
    );
}

#[test]
fn bridge_split_and_flow() {
    assert_eq!(split_of(&BRIDGE), (1, 0b0011, 0b0011));
    assert_eq!(check(&BRIDGE, &[0b0011], &BRIDGE_FLOW, 1), Ok(()));
}

#[test]
fn bridge_wrong_claim_and_wrong_flow() {
    assert_eq!(check(&BRIDGE, &[0b0011], &BRIDGE_FLOW, 2), Err(refused(13)));
    let wrong = [2, -1, 1, -1, 1, -1];
    assert_eq!(check(&BRIDGE, &[0b0011], &wrong, 1), Err(at(11, 0)));
}

#[test]
fn chain_and_fan() {
    assert_eq!(split_of(&chain()), (1, 0b0001, 0b0111));
    assert_eq!(split_of(&fan()), (1, 0b001, 0b011));
}

#[test]
fn bridge_moves() {
    assert_eq!(change(&BRIDGE, &[0b0011], 1), Ok(1));
    assert_eq!(change(&BRIDGE, &[0b0001], 1), Ok(-1));
    assert_eq!(change(&BRIDGE, &[0b0011], 0), Err(refused(10)));
    assert_eq!(change(&BRIDGE, &[0b0011], 4), Err(refused(10)));
}

#[test]
fn chain_walks() {
    let rows = vec![[1, 3, 1, 1], [1, 5, 65535, 0]];
    let two = Walked::Done {
        price: 1,
        rounds: 2,
    };
    assert_eq!(
        walk_of(&chain(), (BOUNDS, 5.0, 7.0)),
        (two, 0b0011, rows.clone())
    );
    assert_eq!(walk_of(&chain(), (SHARE, 0.5, 0.25)), (two, 0b0011, rows));
    let band = Gate::of(SHARE, 0.5, 0.25).unwrap().band(11);
    assert_eq!(
        band,
        Some(Band {
            low: 4.125,
            high: 6.875
        })
    );
    let rows = vec![[1, 3, 1, 1], [1, 5, 2, 1], [1, 7, 65535, 3]];
    let stuck = Walked::Stuck { rounds: 3 };
    assert_eq!(walk_of(&chain(), (BOUNDS, 6.0, 6.0)), (stuck, 0xAA, rows));
}

#[test]
fn bridge_walk() {
    let rows = vec![[1, 5, 1, 2], [2, 3, 65535, 0]];
    let two = Walked::Done {
        price: 2,
        rounds: 2,
    };
    assert_eq!(walk_of(&BRIDGE, (BOUNDS, 3.0, 4.0)), (two, 0b0001, rows));
}

#[test]
fn no_nets() {
    let book = book(&[(1, 0), (1, 1), (1, 0), (1, 2), (1, 1)], &[]);
    assert_eq!(split_of(&book), (0, 0b10010, 0b10111));
}

#[test]
fn counts_areas_and_ends() {
    let marked = |count| {
        let mut modules = vec![(1, 0); count];
        (modules[0].1, modules[1].1) = (1, 2);
        modules
    };
    let counts = Counts {
        modules: 256,
        nets: 0,
        pins: 0,
    };
    assert_eq!(read(&book(&marked(256), &[])), Ok(counts));
    assert_eq!(read(&book(&marked(257), &[])), Err(refused(2)));
    let mut modules = marked(4);
    let bad_pin: [(u16, &[u16]); 1] = [(1, &[0, 4])];
    assert_eq!(read(&book(&modules, &bad_pin)), Err(at(5, 1)));
    modules[2].0 = 0;
    assert_eq!(read(&book(&modules, &bad_pin)), Err(at(3, 2)));
    assert_eq!(read(&book(&modules, &[])), Err(at(3, 2)));
    let mut longer = BRIDGE.to_vec();
    longer.push(0);
    assert_eq!(read(&longer), Err(refused(1)));
}

#[test]
fn listings() {
    let lines = [
        "price 1",
        "near 2 modules area 5",
        "0",
        "1",
        "far 2 modules area 5",
        "0",
        "1",
        "",
    ];
    assert_eq!(listing(&BRIDGE), lines.join("\n"));
    assert_eq!(listing(&[]), "refused 1 at 0\n");
    assert_eq!(listing(&[0; BOOK_BYTES]), "refused 1 at 0\n");
    assert_eq!(listing(&[0; BOOK_BYTES + 1]), "refused 2 at 0\n");
    let falling = book(&[(1, 1), (1, 2)], &[(1, &[0]), (1, &[1]), (1, &[1, 0])]);
    assert_eq!(listing(&falling), "refused 5 at 3\n");
}

/// Every separating side of a book.
fn every_side(book: &Book) -> Vec<Side> {
    let sides = (0..1u32 << book.modules.len()).map(|row| {
        let inside = |m: usize| row >> m & 1 == 1;
        (0..book.modules.len()).map(inside).collect::<Side>()
    });
    let parted = |side: &Side| {
        let right = |(m, module): (usize, &Module)| match module.mark {
            Mark::Free => true,
            Mark::Meter => side[m],
            Mark::Maker => !side[m],
        };
        book.modules.iter().enumerate().all(right)
    };
    sides.filter(parted).collect()
}

#[test]
fn near_and_far_are_what_all_cheapest_sides_share_and_hold() {
    let mut state = 1u64;
    let mut roll = |below: u64| {
        state = state
            .wrapping_mul(6364136223846793005)
            .wrapping_add(1442695040888963407);
        (state >> 33) % below
    };
    for _ in 0..2000 {
        let count = 2 + roll(6);
        let mut modules: Vec<(u16, u16)> = (0..count).map(|_| (1, (roll(5) % 3) as u16)).collect();
        (modules[0].1, modules[1].1) = (1, 2);
        let nets: Vec<(u16, Vec<u16>)> = (0..roll(8))
            .map(|_| {
                let pins: Vec<u16> = (0..count as u16).filter(|_| roll(3) == 0).collect();
                (
                    1 + roll(4) as u16,
                    if pins.is_empty() { vec![0] } else { pins },
                )
            })
            .collect();
        let nets: Vec<(u16, &[u16])> = nets.iter().map(|net| (net.0, &net.1[..])).collect();
        let bytes = book(&modules, &nets);
        let card = Book::of(&bytes).unwrap();
        let sides = every_side(&card);
        let lowest = sides
            .iter()
            .map(|side| price_of(&card, side))
            .min()
            .unwrap();
        let cheapest = sides.iter().filter(|side| price_of(&card, side) == lowest);
        let cheapest: Vec<u8> = cheapest.map(|side| bits(side)[0]).collect();
        let shared = cheapest.iter().fold(0xFF, |all, side| all & side);
        let held = cheapest.iter().fold(0, |all, side| all | side);
        assert_eq!(split_of(&bytes), (lowest, shared, held));
    }
}
