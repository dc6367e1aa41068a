//! A side as a row of bits.
#![forbid(unsafe_code)]

/// Which modules are on the meter's side: module m at bit m mod 8 of byte m div 8.
///
/// ```
/// use platelayer::Side;
///
/// let side = Side::holding(4, [0, 1]);
/// assert_eq!(side.as_bytes(), [0b0011]);
/// assert!(side.holds(1) && !side.holds(2));
/// assert_eq!(side.modules().collect::<Vec<_>>(), [0, 1]);
/// ```
#[derive(Clone, Debug, PartialEq, Eq, Hash)]
pub struct Side(Vec<u8>);

impl Side {
    /// The bytes that a side takes on a card of this many modules.
    pub fn bytes_for(modules: usize) -> usize {
        modules.div_ceil(8)
    }

    /// The side of a card of this many modules that holds the given ones.
    ///
    /// # Panics
    /// Where one of them is not below the count.
    pub fn holding(modules: usize, inside: impl IntoIterator<Item = usize>) -> Side {
        let mut bytes = vec![0; Side::bytes_for(modules)];
        for m in inside {
            assert!(m < modules, "module {m} of {modules}");
            bytes[m / 8] |= 1 << (m % 8);
        }
        Side(bytes)
    }

    /// The side that these bytes are. A call refuses it where it does not fit its book.
    pub fn of_bytes(bytes: Vec<u8>) -> Side {
        Side(bytes)
    }

    /// The bytes of the row.
    pub fn as_bytes(&self) -> &[u8] {
        &self.0
    }

    /// Whether module m is inside.
    pub fn holds(&self, m: usize) -> bool {
        self.0
            .get(m / 8)
            .is_some_and(|byte| byte >> (m % 8) & 1 == 1)
    }

    /// The modules inside, rising.
    pub fn modules(&self) -> impl Iterator<Item = usize> + '_ {
        (0..8 * self.0.len()).filter(|&m| self.holds(m))
    }
}
