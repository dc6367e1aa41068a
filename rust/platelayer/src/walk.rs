//! The balancing walk, with its rows as values.
#![forbid(unsafe_code)]

use crate::lent::{self, Walked, ROW_BYTES};
use crate::{Gate, Refusal, Side};

/// What a round did.
#[derive(Clone, Copy, Debug, PartialEq, Eq)]
pub enum Way {
    /// The area was within the gate.
    Stopped,
    /// The near side and this module were pinned to the meter.
    ToMeter(u16),
    /// All outside the near side and this module were pinned to the maker.
    ToMaker(u16),
    /// There was no module left to pin.
    Ended,
}

/// One round of a walk.
#[derive(Clone, Copy, Debug, PartialEq, Eq)]
pub struct Row {
    /// The price of this round's near side.
    pub price: u32,
    /// Its area.
    pub area: u32,
    /// What was done about it.
    pub way: Way,
}

/// How a walk ends, with its rows.
#[derive(Clone, Debug, PartialEq, Eq)]
pub enum Walk {
    /// A side with an area within the gate was found.
    Done {
        /// The side.
        side: Side,
        /// Its price.
        price: u32,
        /// A row a round.
        rows: Vec<Row>,
    },
    /// No module was left to pin.
    Stuck {
        /// A row a round.
        rows: Vec<Row>,
    },
}

impl Walk {
    /// The rows of the walk, found or not.
    pub fn rows(&self) -> &[Row] {
        match self {
            Walk::Done { rows, .. } | Walk::Stuck { rows } => rows,
        }
    }

    /// The side found and its price; a walk that found none is [`Refusal::Stuck`].
    pub fn found(self) -> Result<(Side, u32), Refusal> {
        match self {
            Walk::Done { side, price, .. } => Ok((side, price)),
            Walk::Stuck { .. } => Err(Refusal::Stuck),
        }
    }
}

/// Pins modules round by round until the near side's area is within the gate.
///
/// ```
/// use platelayer::{Gate, Refusal, Row, Way};
/// # let chain = include_bytes!("../../../books/chain.book");
/// let walk = platelayer::walk(chain, Gate::Bounds { low: 5.0, high: 7.0 })?;
/// let first = Row { price: 1, area: 3, way: Way::ToMeter(1) };
/// let second = Row { price: 1, area: 5, way: Way::Stopped };
/// assert_eq!(walk.rows(), [first, second]);
/// let (side, price) = walk.found()?;
/// assert_eq!((side.modules().collect::<Vec<_>>(), price), (vec![0, 1], 1));
///
/// let walk = platelayer::walk(chain, Gate::Bounds { low: 6.0, high: 6.0 })?;
/// assert_eq!(walk.rows().iter().map(|row| row.area).collect::<Vec<_>>(), [3, 5, 7]);
/// assert_eq!(walk.found(), Err(Refusal::Stuck));
/// # Ok::<(), platelayer::Refusal>(())
/// ```
pub fn walk(book: &[u8], gate: Gate) -> Result<Walk, Refusal> {
    let modules = lent::read(book)?.modules;
    let mut side = vec![0; Side::bytes_for(modules)];
    // Two modules are marked, so there is room here for each free one and once more.
    let mut rows = vec![0; ROW_BYTES * (modules - 1)];
    let walked = lent::walk(book, gate, &mut side, &mut rows)?;
    let (Walked::Done { rounds, .. } | Walked::Stuck { rounds }) = walked;
    let rows = rows.chunks_exact(ROW_BYTES).take(rounds).map(row).collect();
    Ok(match walked {
        Walked::Done { price, .. } => Walk::Done {
            side: Side::of_bytes(side),
            price,
            rows,
        },
        Walked::Stuck { .. } => Walk::Stuck { rows },
    })
}

/// The row that twelve bytes are.
fn row(bytes: &[u8]) -> Row {
    let short = |start: usize| u16::from_le_bytes([bytes[start], bytes[start + 1]]);
    let long = |start: usize| u32::from(short(start)) + 65536 * u32::from(short(start + 2));
    let taken = short(8);
    Row {
        price: long(0),
        area: long(4),
        way: match short(10) {
            0 => Way::Stopped,
            1 => Way::ToMeter(taken),
            2 => Way::ToMaker(taken),
            3 => Way::Ended,
            way => unreachable!("way {way} of a row"),
        },
    }
}
