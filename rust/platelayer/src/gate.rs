//! The gate that a walk aims for.
#![forbid(unsafe_code)]

/// What area the meter's side may have.
#[derive(Clone, Copy, Debug, PartialEq)]
pub enum Gate {
    /// Any area will do.
    Open,
    /// The share r of the total area, give or take e of that share: 0 < r < 1 and 0 <= e < 1.
    Share {
        /// The share aimed for.
        r: f64,
        /// The slack.
        e: f64,
    },
    /// From low to high: 0 <= low <= high <= 16777216.
    Bounds {
        /// The least area.
        low: f64,
        /// The greatest area.
        high: f64,
    },
}

impl Gate {
    /// The gate as the library takes it: its kind, and two doubles.
    pub(crate) fn raw(self) -> (u32, f64, f64) {
        match self {
            Gate::Open => (0, 0.0, 0.0),
            Gate::Share { r, e } => (1, r, e),
            Gate::Bounds { low, high } => (2, low, high),
        }
    }
}
