//! The gate, and the worked-out gate. Check 7.

use std::cmp::Ordering;

/// The most that a bound may be.
const TOP: f64 = 16777216.0;

#[derive(Clone, Copy, Debug, PartialEq)]
pub enum Gate {
    Open,
    Share { r: f64, e: f64 },
    Bounds { low: f64, high: f64 },
}

/// The worked-out gate; an open gate has none.
#[derive(Clone, Copy, Debug, PartialEq)]
pub struct Band {
    pub low: f64,
    pub high: f64,
}

impl Gate {
    /// The gate that the desk's three numbers say, where it is a good one: 0 open, 1 a share of
    /// a and b, 2 bounds a and b.
    pub fn of(kind: u32, a: f64, b: f64) -> Option<Gate> {
        match kind {
            0 => Some(Gate::Open),
            1 if a > 0.0 && a < 1.0 && (0.0..1.0).contains(&b) => Some(Gate::Share { r: a, e: b }),
            2 if 0.0 <= a && a <= b && b <= TOP => Some(Gate::Bounds { low: a, high: b }),
            _ => None,
        }
    }

    /// Works a gate out for a total area.
    pub fn band(self, total_area: u32) -> Option<Band> {
        let w = f64::from(total_area);
        match self {
            Gate::Open => None,
            Gate::Share { r, e } => Some(Band {
                low: ((1.0 - e) * r) * w,
                high: ((1.0 + e) * r) * w,
            }),
            Gate::Bounds { low, high } => Some(Band { low, high }),
        }
    }
}

impl Band {
    /// Where an area lies: below low, within with the ends included, or above high.
    pub fn place(self, area: u32) -> Ordering {
        let area = f64::from(area);
        if area < self.low {
            Ordering::Less
        } else if area > self.high {
            Ordering::Greater
        } else {
            Ordering::Equal
        }
    }
}
