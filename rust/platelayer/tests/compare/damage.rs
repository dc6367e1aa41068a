//! Damaged books: faults among the numbers, faults among the bytes, counts past a limit, and any bytes at all.

use crate::books::{contents, fair_draft, Draft, MAKER, METER};
use crate::dice::Dice;

/// A book that is most likely refused.
pub fn damaged(dice: &mut Dice) -> Vec<u8> {
    let size = dice.among(&[2, 4, 7, 9, 12, 20]);
    let mut draft = fair_draft(dice, size);
    match dice.below(9) {
        0..=3 => {
            for _ in 0..dice.between(1, 3) {
                damage_draft(dice, &mut draft);
            }
            draft.bytes()
        }
        4 => at_a_limit(dice).bytes(),
        5..=6 => damage_bytes(dice, draft.bytes()),
        7 => ragged(dice),
        _ => {
            let count = dice.below(100);
            dice.bytes(count)
        }
    }
}

/// One fault among the numbers of a book.
fn damage_draft(dice: &mut Dice, draft: &mut Draft) {
    let m = dice.below(draft.modules.len());
    let n = dice.below(draft.nets.len().max(1));
    let p = dice.below(draft.pins.len().max(1));
    match dice.below(10) {
        0 => draft.modules[m].0 = 0,
        1 => draft.modules[m].1 = dice.among(&[3, 4, 256, 65535]),
        2 => lose(draft, METER),
        3 => lose(draft, MAKER),
        4 if !draft.nets.is_empty() => draft.nets[n].0 = 0,
        5 if !draft.nets.is_empty() => draft.nets[n].1 = 0,
        6 if !draft.nets.is_empty() => {
            let count = draft.nets[n].1;
            draft.nets[n].1 = dice.among(&[count.saturating_add(1), count.max(2) - 1, 65535]);
        }
        7 if !draft.pins.is_empty() => {
            let count = draft.modules.len() as u16;
            draft.pins[p] = dice.among(&[count, count + 1, 255, 256, 65535]);
        }
        8 if draft.pins.len() > 1 => draft.pins[p] = draft.pins[p.max(1) - 1],
        9 if draft.pins.len() > 1 => draft.pins.swap(p, p.max(1) - 1),
        _ => draft.pins.push(0),
    }
}

/// No module keeps this mark.
fn lose(draft: &mut Draft, mark: u16) {
    for module in &mut draft.modules {
        if module.1 == mark {
            module.1 = 0;
        }
    }
}

/// Counts at a limit or one past it.
fn at_a_limit(dice: &mut Dice) -> Draft {
    let modules = dice.among(&[0, 1, 2, 3, 255, 256, 257]);
    let nets = dice.among(&[0, 1, 511, 512, 513]);
    let mut draft = Draft::of_modules(modules);
    for module in draft.modules.iter_mut().take(2) {
        module.1 = METER;
    }
    if let Some(last) = draft.modules.last_mut() {
        last.1 = MAKER;
    }
    draft.nets = vec![(1, 1); nets];
    draft.pins = vec![0; nets];
    if nets > 0 && modules > 3 {
        let pins = dice.among(&[nets, 2047, 2048, 2049]);
        spread(&mut draft, pins);
    }
    draft
}

/// Nets of the first modules, with as many pins in all as asked for.
fn spread(draft: &mut Draft, pins: usize) {
    let nets = draft.nets.len();
    draft.pins.clear();
    for n in 0..nets {
        let count = pins / nets + usize::from(n < pins % nets);
        draft.nets[n].1 = count as u16;
        draft
            .pins
            .extend((0..count as u16).map(|pin| pin % draft.modules.len() as u16));
    }
}

/// One fault among the bytes of a book.
fn damage_bytes(dice: &mut Dice, mut bytes: Vec<u8>) -> Vec<u8> {
    let place = dice.below(bytes.len());
    match dice.below(9) {
        0 => bytes[place] ^= 1 << dice.below(8),
        1 => bytes[place] = dice.number() as u8,
        2 => bytes[dice.below(32)] ^= 1 << dice.below(8),
        3 => bytes.truncate(place),
        4 => {
            let count = dice.between(1, 4);
            bytes.extend(dice.bytes(count));
        }
        5 => drop(bytes.remove(place)),
        6 => bytes.truncate(32),
        7 => {
            let field = dice.among(&[4, 8, 14, 18, 24, 28]);
            let off = dice.among(&[1, 2, 4, u32::MAX, 1 << 31, u32::MAX - 3]);
            raise(&mut bytes, field, off);
        }
        _ => wrap(dice, &mut bytes),
    }
    bytes
}

/// Contents that fit the bodies, whose lengths need not be multiples of 4, 4 and 2.
fn ragged(dice: &mut Dice) -> Vec<u8> {
    let lengths = [8, 4, 4].map(|least| least + dice.below(7));
    let mut bytes = contents(lengths);
    bytes.extend(dice.bytes(lengths.iter().sum()));
    bytes
}

/// Adds to the number of four bytes at a place, modulo 2^32.
fn raise(bytes: &mut [u8], place: usize, by: u32) {
    let field: [u8; 4] = bytes[place..place + 4].try_into().expect("four bytes");
    let raised = u32::from_le_bytes(field).wrapping_add(by);
    bytes[place..place + 4].copy_from_slice(&raised.to_le_bytes());
}

/// Contents in which every start and the end come out right, but only modulo 2^32.
fn wrap(dice: &mut Dice, bytes: &mut [u8]) {
    let by = dice.among(&[1u32 << 31, 1 << 30, 4, 8]);
    raise(bytes, 8, by);
    raise(bytes, 14, by);
    raise(bytes, 18, 0u32.wrapping_sub(by));
}
