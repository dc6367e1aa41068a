//! Platelayer decides which modules of a controller card sit on the meter's side of the line.
//!
//! A *book* is the card's netlist as bytes. [`split`] finds the cheapest line between the meter
//! modules and the maker modules, [`walk`] one whose meter side has an area within a gate, and
//! [`check`] lets anybody see that no cheaper line exists, whoever drew it. The work is done by a
//! library in which every function is proved to meet its contract.
//!
//! ```
//! // The book "Bridge": four modules in a row, module 0 the meter, module 3 the maker.
//! let bridge = [
//!     3, 0, // three bodies
//!     1, 0, 32, 0, 0, 0, 16, 0, 0, 0, // modules: from 32, 16 bytes
//!     2, 0, 48, 0, 0, 0, 12, 0, 0, 0, // nets: from 48, 12 bytes
//!     3, 0, 60, 0, 0, 0, 12, 0, 0, 0, // pins: from 60, 12 bytes
//!     3, 0, 1, 0, 2, 0, 0, 0, 2, 0, 0, 0, 4, 0, 2, 0, // area and mark
//!     2, 0, 2, 0, 1, 0, 2, 0, 2, 0, 2, 0, // weight and pin count
//!     0, 0, 1, 0, 1, 0, 2, 0, 2, 0, 3, 0, // module numbers, net after net
//! ];
//! let split = platelayer::split(&bridge)?;
//! assert_eq!(split.price, 1);
//! assert_eq!(split.near.modules().collect::<Vec<_>>(), [0, 1]);
//! assert_eq!(split.far, split.near);
//!
//! // A third party needs the book, the side, the flow and the price, and nobody's word.
//! platelayer::check(&bridge, &split.near, &split.flow, split.price)?;
//! # Ok::<(), platelayer::Refusal>(())
//! ```
//!
//! [`lent`] has the same calls over buffers of the caller's own, and [`raw`] the numbers as the
//! library answers them.
//!
//! Unsafe code stands in one file, `raw`. The others forbid it; the crate as a whole can only deny
//! it, since what a crate forbids no module of it can allow.
#![deny(unsafe_code)]
#![warn(missing_docs)]

mod gate;
pub mod lent;
#[allow(unsafe_code)]
pub mod raw;
mod refusal;
mod side;
mod walk;

pub use gate::Gate;
pub use refusal::Refusal;
pub use side::Side;
pub use walk::{walk, Row, Walk, Way};

/// How large a card is.
#[derive(Clone, Copy, Debug, PartialEq, Eq)]
pub struct Counts {
    /// The count of modules, 2 to 256.
    pub modules: usize,
    /// The count of nets, at most 512.
    pub nets: usize,
    /// The count of pins, at most 2,048.
    pub pins: usize,
}

/// The cheapest lines of a book.
#[derive(Clone, Debug, PartialEq, Eq)]
pub struct Split {
    /// The lowest price of a separating side.
    pub price: u32,
    /// The cheapest side that lies inside all cheapest sides.
    pub near: Side,
    /// The cheapest side that holds all of them.
    pub far: Side,
    /// A fair flow worth the price, one number for each pin.
    pub flow: Vec<i32>,
}

/// Reads a book: checks 1 to 6, and the counts.
///
/// ```
/// # let bridge = include_bytes!("../../../books/bridge.book");
/// let counts = platelayer::read(bridge)?;
/// assert_eq!((counts.modules, counts.nets, counts.pins), (4, 3, 6));
/// # Ok::<(), platelayer::Refusal>(())
/// ```
pub fn read(book: &[u8]) -> Result<Counts, Refusal> {
    lent::read(book)
}

/// The price of a side: the summed weight of the nets with a pin inside and a pin outside.
///
/// ```
/// use platelayer::Side;
/// # let bridge = include_bytes!("../../../books/bridge.book");
/// assert_eq!(platelayer::price(bridge, &Side::holding(4, [0, 1])), Ok(1));
/// assert_eq!(platelayer::price(bridge, &Side::holding(4, [0])), Ok(2));
/// ```
pub fn price(book: &[u8], side: &Side) -> Result<u32, Refusal> {
    lent::price(book, side.as_bytes())
}

/// What moving one free module to the other side changes: the price after, less the price before.
///
/// ```
/// use platelayer::{Refusal, Side};
/// # let bridge = include_bytes!("../../../books/bridge.book");
/// assert_eq!(platelayer::change(bridge, &Side::holding(4, [0, 1]), 1), Ok(1));
/// assert_eq!(platelayer::change(bridge, &Side::holding(4, [0]), 1), Ok(-1));
/// assert_eq!(platelayer::change(bridge, &Side::holding(4, [0]), 0), Err(Refusal::Move));
/// ```
pub fn change(book: &[u8], side: &Side, module: u32) -> Result<i64, Refusal> {
    lent::change(book, side.as_bytes(), module)
}

/// The cheapest lines: near, far, their price, and a flow that shows there is no cheaper one.
///
/// ```
/// # let chain = include_bytes!("../../../books/chain.book");
/// let split = platelayer::split(chain)?;
/// assert_eq!(split.price, 1);
/// assert_eq!(split.near.modules().collect::<Vec<_>>(), [0]);
/// assert_eq!(split.far.modules().collect::<Vec<_>>(), [0, 1, 2]);
/// # Ok::<(), platelayer::Refusal>(())
/// ```
pub fn split(book: &[u8]) -> Result<Split, Refusal> {
    let counts = read(book)?;
    let mut near = vec![0; Side::bytes_for(counts.modules)];
    let mut far = near.clone();
    let mut flow = vec![0; counts.pins];
    let price = lent::split(book, &mut near, &mut far, &mut flow)?;
    Ok(Split {
        price,
        near: Side::of_bytes(near),
        far: Side::of_bytes(far),
        flow,
    })
}

/// Accepts exactly when the flow is fair, the side separates, and the flow's value, the side's
/// price and the claimed price are equal.
///
/// ```
/// use platelayer::{Refusal, Side};
/// # let bridge = include_bytes!("../../../books/bridge.book");
/// let side = Side::holding(4, [0, 1]);
/// let flow = [1, -1, 1, -1, 1, -1];
/// assert_eq!(platelayer::check(bridge, &side, &flow, 1), Ok(()));
/// assert_eq!(platelayer::check(bridge, &side, &flow, 2), Err(Refusal::Values));
/// ```
pub fn check(book: &[u8], side: &Side, flow: &[i32], price: u32) -> Result<(), Refusal> {
    lent::check(book, side.as_bytes(), flow, price)
}
