//! The book: its layout, and checks 1 to 6.

use crate::{at, refused, Refusal};

const LEAST_MODULES: usize = 2;
const MODULES: usize = 256;
const NETS: usize = 512;
const PINS: usize = 2048;
const CONTENTS: usize = 32;

/// The most bytes that a book within the limits has.
pub const BOOK_BYTES: usize = CONTENTS + 4 * MODULES + 4 * NETS + 2 * PINS;

#[derive(Clone, Copy, Debug, PartialEq, Eq)]
pub enum Mark {
    Free,
    Meter,
    Maker,
}

#[derive(Clone, Copy, Debug)]
pub struct Module {
    pub area: u32,
    pub mark: Mark,
}

#[derive(Clone, Debug)]
pub struct Net {
    pub weight: u32,
    /// Module numbers, strictly rising.
    pub pins: Vec<usize>,
}

/// What a book says, once it has passed checks 1 to 6.
#[derive(Clone, Debug)]
pub struct Book {
    pub modules: Vec<Module>,
    pub nets: Vec<Net>,
}

/// What the reader answers.
#[derive(Clone, Copy, Debug, PartialEq, Eq)]
pub struct Counts {
    pub modules: usize,
    pub nets: usize,
    pub pins: usize,
}

/// The reader: checks 1 to 6, and the counts.
pub fn read(bytes: &[u8]) -> Result<Counts, Refusal> {
    Ok(Book::of(bytes)?.counts())
}

impl Book {
    /// Checks 1 to 6, each over the whole book before the next.
    pub fn of(bytes: &[u8]) -> Result<Book, Refusal> {
        let bodies = Bodies::of(bytes).ok_or(refused(1))?;
        bodies.check_counts()?;
        bodies.check_modules()?;
        bodies.check_nets()?;
        bodies.check_pins()?;
        bodies.check_marks()?;
        Ok(bodies.book())
    }

    pub fn counts(&self) -> Counts {
        Counts {
            modules: self.modules.len(),
            nets: self.nets.len(),
            pins: self.nets.iter().map(|net| net.pins.len()).sum(),
        }
    }

    /// The bytes that a side of this book takes.
    pub fn side_bytes(&self) -> usize {
        self.modules.len().div_ceil(8)
    }

    pub fn total_area(&self) -> u32 {
        self.modules.iter().map(|module| module.area).sum()
    }

    pub fn marks(&self) -> Vec<Mark> {
        self.modules.iter().map(|module| module.mark).collect()
    }
}

/// The three bodies as numbers, before any of them has been looked at.
struct Bodies {
    /// Area and mark.
    modules: Vec<(u16, u16)>,
    /// Weight and pin count.
    nets: Vec<(u16, u16)>,
    pins: Vec<u16>,
}

fn u16_at(bytes: &[u8], start: usize) -> u16 {
    u16::from_le_bytes([bytes[start], bytes[start + 1]])
}

fn u32_at(bytes: &[u8], start: usize) -> u32 {
    u32::from(u16_at(bytes, start)) + 65536 * u32::from(u16_at(bytes, start + 2))
}

fn pairs(body: &[u8]) -> Vec<(u16, u16)> {
    let pair = |part: &[u8]| (u16_at(part, 0), u16_at(part, 2));
    body.chunks_exact(4).map(pair).collect()
}

impl Bodies {
    /// Check 1: nothing where the contents, starts, lengths or end differ from the layout.
    fn of(bytes: &[u8]) -> Option<Bodies> {
        if bytes.len() < CONTENTS || u16_at(bytes, 0) != 3 {
            return None;
        }
        let mut bodies = Vec::new();
        let mut next = CONTENTS as u64;
        for (entry, (kind, multiple)) in [(1, 4), (2, 4), (3, 2)].into_iter().enumerate() {
            let here = 2 + 10 * entry;
            let start = u64::from(u32_at(bytes, here + 2));
            let length = u64::from(u32_at(bytes, here + 6));
            if u16_at(bytes, here) != kind || start != next || length % multiple != 0 {
                return None;
            }
            next = start + length;
            bodies.push((start, next));
        }
        if next != bytes.len() as u64 {
            return None;
        }
        let body = |kind: usize| &bytes[bodies[kind - 1].0 as usize..bodies[kind - 1].1 as usize];
        Some(Bodies {
            modules: pairs(body(1)),
            nets: pairs(body(2)),
            pins: body(3).chunks_exact(2).map(|pin| u16_at(pin, 0)).collect(),
        })
    }

    /// Check 2.
    fn check_counts(&self) -> Result<(), Refusal> {
        let modules = (LEAST_MODULES..=MODULES).contains(&self.modules.len());
        if modules && self.nets.len() <= NETS && self.pins.len() <= PINS {
            Ok(())
        } else {
            Err(refused(2))
        }
    }

    /// Check 3.
    fn check_modules(&self) -> Result<(), Refusal> {
        for (m, &(area, mark)) in self.modules.iter().enumerate() {
            if area == 0 || mark > 2 {
                return Err(at(3, m));
            }
        }
        Ok(())
    }

    /// Check 4: a zero in any net first, then the sum of the pin counts.
    fn check_nets(&self) -> Result<(), Refusal> {
        for (n, &(weight, count)) in self.nets.iter().enumerate() {
            if weight == 0 || count == 0 {
                return Err(at(4, n));
            }
        }
        let counted: usize = self.nets.iter().map(|&(_, count)| usize::from(count)).sum();
        if counted == self.pins.len() {
            Ok(())
        } else {
            Err(at(4, self.nets.len()))
        }
    }

    /// Check 5: rising starts afresh in each net.
    fn check_pins(&self) -> Result<(), Refusal> {
        let mut p = 0;
        for &(_, count) in &self.nets {
            let mut last = None;
            for _ in 0..count {
                let pin = self.pins[p];
                if usize::from(pin) >= self.modules.len() || last.is_some_and(|last| pin <= last) {
                    return Err(at(5, p));
                }
                last = Some(pin);
                p += 1;
            }
        }
        Ok(())
    }

    /// Check 6.
    fn check_marks(&self) -> Result<(), Refusal> {
        let has = |mark| self.modules.iter().any(|module| module.1 == mark);
        if has(1) && has(2) {
            Ok(())
        } else {
            Err(refused(6))
        }
    }

    /// The book, of bodies that have passed every check.
    fn book(&self) -> Book {
        let module = |&(area, mark): &(u16, u16)| Module {
            area: u32::from(area),
            mark: [Mark::Free, Mark::Meter, Mark::Maker][usize::from(mark)],
        };
        let mut pins = self.pins.iter().map(|&pin| usize::from(pin));
        let net = |&(weight, count): &(u16, u16)| Net {
            weight: u32::from(weight),
            pins: pins.by_ref().take(usize::from(count)).collect(),
        };
        Book {
            modules: self.modules.iter().map(module).collect(),
            nets: self.nets.iter().map(net).collect(),
        }
    }
}
