//! Fair books of many shapes.

use crate::dice::Dice;

pub const METER: u16 = 1;
pub const MAKER: u16 = 2;
const MOST_MODULES: usize = 256;
const MOST_NETS: usize = 512;
const MOST_PINS: usize = 2048;

/// The numbers of a book's bodies, which need not be fair.
#[derive(Clone)]
pub struct Draft {
    /// Area and mark.
    pub modules: Vec<(u16, u16)>,
    /// Weight and pin count.
    pub nets: Vec<(u16, u16)>,
    pub pins: Vec<u16>,
}

impl Draft {
    /// A draft of free modules of area 1 and no nets.
    pub fn of_modules(count: usize) -> Draft {
        Draft {
            modules: vec![(1, 0); count],
            nets: Vec::new(),
            pins: Vec::new(),
        }
    }

    /// Adds a net of the pins' modules, each once, unless it would pass a limit.
    fn add(&mut self, mut pins: Vec<usize>) {
        pins.sort_unstable();
        pins.dedup();
        let room = self.nets.len() < MOST_NETS && self.pins.len() + pins.len() <= MOST_PINS;
        if room && !pins.is_empty() {
            self.nets.push((1, pins.len() as u16));
            self.pins.extend(pins.iter().map(|&m| m as u16));
        }
    }

    pub fn bytes(&self) -> Vec<u8> {
        let (modules, nets) = (4 * self.modules.len(), 4 * self.nets.len());
        let mut bytes = contents([modules, nets, 2 * self.pins.len()]);
        for (first, second) in self.modules.iter().chain(&self.nets) {
            bytes.extend(first.to_le_bytes());
            bytes.extend(second.to_le_bytes());
        }
        bytes.extend(self.pins.iter().flat_map(|pin| pin.to_le_bytes()));
        bytes
    }
}

/// The contents of a book whose bodies have these lengths.
pub fn contents(lengths: [usize; 3]) -> Vec<u8> {
    let mut bytes = vec![3, 0];
    let mut start = 32;
    for (kind, length) in (1u16..).zip(lengths) {
        bytes.extend(kind.to_le_bytes());
        bytes.extend((start as u32).to_le_bytes());
        bytes.extend((length as u32).to_le_bytes());
        start += length;
    }
    bytes
}

/// A fair book. One in `rarity` is as large as a card can be, most are small.
pub fn fair(dice: &mut Dice, rarity: usize) -> Vec<u8> {
    let size = if dice.one_in(rarity) {
        MOST_MODULES
    } else {
        dice.among(&[4, 7, 7, 9, 9, 12, 20, 33])
    };
    fair_draft(dice, size).bytes()
}

pub fn fair_draft(dice: &mut Dice, size: usize) -> Draft {
    let mut draft = shape(dice, size);
    areas(dice, &mut draft);
    weights(dice, &mut draft);
    marks(dice, &mut draft);
    draft
}

/// Modules and nets of one of the shapes, with about `size` modules.
fn shape(dice: &mut Dice, size: usize) -> Draft {
    let count = dice.between(2.max(size / 2), size.max(2));
    match dice.below(10) {
        0 => circuit(dice, size, 2 * size, 8 * size),
        1 => chain(dice, count),
        2 => grid(dice, size),
        3 => huge_net(dice, count),
        4 => Draft::of_modules(count),
        5 => one_pin_nets(dice, count),
        6 => parallel(dice, count),
        7 => layers(dice, count),
        8 => circuit(dice, count, count + count / 2, 3 * count),
        _ => anything(dice, count),
    }
}

/// Nets of a few pins, most of them close together, as in a circuit.
fn circuit(dice: &mut Dice, modules: usize, nets: usize, pins: usize) -> Draft {
    let mut draft = Draft::of_modules(modules.max(2));
    let count = draft.modules.len();
    for _ in 0..nets {
        let middle = dice.below(count);
        let mut net = vec![middle];
        for _ in 0..dice.among(&[1, 1, 1, 2, 2, 3, 5, 9]) {
            let near = (middle + dice.below(9)) % count;
            net.push(if dice.one_in(6) {
                dice.below(count)
            } else {
                near
            });
        }
        if draft.pins.len() + net.len() <= pins {
            draft.add(net);
        }
    }
    while draft.pins.len() < pins.min(MOST_PINS) && draft.nets.len() < nets.min(MOST_NETS) {
        let pin = dice.below(count);
        draft.add(vec![pin]);
    }
    draft
}

/// Each module to the next, with a few short cuts.
fn chain(dice: &mut Dice, count: usize) -> Draft {
    let mut draft = Draft::of_modules(count);
    for m in 1..count {
        draft.add(vec![m - 1, m]);
        if dice.one_in(8) {
            let other = dice.below(count);
            draft.add(vec![m, other]);
        }
    }
    draft
}

/// A grid of modules, each with its right and its lower neighbour.
fn grid(dice: &mut Dice, size: usize) -> Draft {
    let wide = (size as f64).sqrt() as usize;
    let high = size / wide.max(1);
    let mut draft = Draft::of_modules((wide * high).max(2));
    for m in 0..wide * high {
        let right = (m % wide + 1 < wide).then_some(m + 1);
        let below = (m + wide < wide * high).then_some(m + wide);
        if dice.one_in(4) {
            draft.add([Some(m), right, below].into_iter().flatten().collect());
        } else {
            for other in [right, below].into_iter().flatten() {
                draft.add(vec![m, other]);
            }
        }
    }
    draft
}

/// One net with a pin on every module, and a few small ones.
fn huge_net(dice: &mut Dice, count: usize) -> Draft {
    let mut draft = Draft::of_modules(count);
    draft.add((0..count).collect());
    for _ in 0..dice.below(6) {
        let net = vec![dice.below(count), dice.below(count)];
        draft.add(net);
    }
    draft
}

/// Nets of one pin among others.
fn one_pin_nets(dice: &mut Dice, count: usize) -> Draft {
    let mut draft = Draft::of_modules(count);
    for _ in 0..2 * count {
        let mut net = vec![dice.below(count)];
        if dice.one_in(3) {
            net.push(dice.below(count));
        }
        draft.add(net);
    }
    draft
}

/// As many nets as there may be, between two modules or three.
fn parallel(dice: &mut Dice, count: usize) -> Draft {
    let mut draft = Draft::of_modules(count);
    let ends = [dice.below(count), dice.below(count)];
    let nets = if count > 100 { MOST_NETS } else { count };
    for _ in 0..nets {
        let mut net = ends.to_vec();
        if dice.one_in(2) {
            net.push(dice.below(count));
        }
        draft.add(net);
    }
    draft
}

/// Layers of three modules, each layer wired to the next: many ways of equal length.
fn layers(dice: &mut Dice, count: usize) -> Draft {
    let mut draft = Draft::of_modules(count);
    for m in 0..count.saturating_sub(3) {
        let next = m / 3 * 3 + 3;
        for _ in 0..2 {
            let to = (next + dice.below(3)).min(count - 1);
            let also = (next + dice.below(3)).min(count - 1);
            draft.add(if dice.one_in(2) {
                vec![m, to]
            } else {
                vec![m, to, also]
            });
        }
    }
    draft
}

/// Nets over any modules.
fn anything(dice: &mut Dice, count: usize) -> Draft {
    let mut draft = Draft::of_modules(count);
    let share = dice.between(2, 5);
    for _ in 0..dice.below(2 * count) {
        let net = (0..count.min(40)).filter(|_| dice.one_in(share)).collect();
        draft.add(net);
    }
    draft
}

fn areas(dice: &mut Dice, draft: &mut Draft) {
    let most = dice.among(&[1, 1, 4, 100, 65535]);
    let least = if dice.one_in(4) { most } else { 1 };
    for module in &mut draft.modules {
        module.0 = dice.between(least, most) as u16;
    }
}

fn weights(dice: &mut Dice, draft: &mut Draft) {
    let most = dice.among(&[1, 1, 3, 9, 65535]);
    let least = if dice.one_in(3) { most } else { 1 };
    let ends = dice.one_in(6);
    for net in &mut draft.nets {
        let any = dice.between(least, most) as u16;
        net.0 = if ends {
            dice.among(&[1, 2, 65534, 65535])
        } else {
            any
        };
    }
}

/// At least one meter and one maker: at the ends, anywhere, or many of each.
fn marks(dice: &mut Dice, draft: &mut Draft) {
    let count = draft.modules.len();
    let share = dice.among(&[0, 0, 0, 2, 4, 10]);
    for module in &mut draft.modules {
        if share > 0 && dice.one_in(share) {
            module.1 = dice.among(&[METER, MAKER]);
        }
    }
    let (first, last) = if dice.one_in(2) {
        (0, count - 1)
    } else {
        (dice.below(count), dice.below(count))
    };
    let last = if first == last {
        (first + 1) % count
    } else {
        last
    };
    draft.modules[first].1 = METER;
    draft.modules[last].1 = MAKER;
}
