//! When the desk says no.
#![forbid(unsafe_code)]

use std::error::Error;
use std::fmt;

/// A refusal of document 01's table, with its place where it has one.
///
/// ```
/// use platelayer::Refusal;
///
/// let refusal = platelayer::read(&[]).unwrap_err();
/// assert_eq!(refusal, Refusal::Layout);
/// assert_eq!((refusal.number(), refusal.place()), (1, 0));
/// assert!(refusal.to_string().ends_with("or the book is cut short: refused 1 at 0"));
/// ```
#[derive(Clone, Copy, Debug, PartialEq, Eq, Hash)]
pub enum Refusal {
    /// 1: the contents, starts, lengths or end differ from the layout, or the book is cut short.
    Layout,
    /// 2: a count of modules, nets or pins is outside the limits.
    Counts,
    /// 3: this module's area is 0 or its mark is above 2.
    Module(u32),
    /// 4: this net's weight or pin count is 0; or, at the number of nets, the pin counts don't add
    /// up to the pins present.
    Net(u32),
    /// 5: the pin at this index of the pin body names no module, or doesn't rise within its net.
    Pin(u32),
    /// 6: there is no meter module or no maker module.
    Marks,
    /// 7: the gate is bad.
    Gate,
    /// 8: a lent buffer is shorter than the call needs.
    Buffer,
    /// 9: a given side lacks a meter module, holds a maker module or has a spare bit set.
    Side,
    /// 10: a move names no module or a marked one.
    Move,
    /// 11: the flow breaks the net rule at this net.
    NetRule(u32),
    /// 12: the flow breaks the module rule at this module.
    ModuleRule(u32),
    /// 13: flow value, price of the side and claimed price aren't all equal.
    Values,
    /// 14: the walk has no module left to pin.
    Stuck,
}

impl Refusal {
    /// The refusal of this number at this place; nothing for a number that is none's.
    pub fn of(number: i64, place: i64) -> Option<Refusal> {
        let place = u32::try_from(place).ok()?;
        Some(match number {
            1 => Refusal::Layout,
            2 => Refusal::Counts,
            3 => Refusal::Module(place),
            4 => Refusal::Net(place),
            5 => Refusal::Pin(place),
            6 => Refusal::Marks,
            7 => Refusal::Gate,
            8 => Refusal::Buffer,
            9 => Refusal::Side,
            10 => Refusal::Move,
            11 => Refusal::NetRule(place),
            12 => Refusal::ModuleRule(place),
            13 => Refusal::Values,
            14 => Refusal::Stuck,
            _ => return None,
        })
    }

    /// Its number in the table.
    pub fn number(self) -> u32 {
        match self {
            Refusal::Layout => 1,
            Refusal::Counts => 2,
            Refusal::Module(_) => 3,
            Refusal::Net(_) => 4,
            Refusal::Pin(_) => 5,
            Refusal::Marks => 6,
            Refusal::Gate => 7,
            Refusal::Buffer => 8,
            Refusal::Side => 9,
            Refusal::Move => 10,
            Refusal::NetRule(_) => 11,
            Refusal::ModuleRule(_) => 12,
            Refusal::Values => 13,
            Refusal::Stuck => 14,
        }
    }

    /// Its place, 0 where it has none.
    pub fn place(self) -> u32 {
        match self {
            Refusal::Module(place)
            | Refusal::Net(place)
            | Refusal::Pin(place)
            | Refusal::NetRule(place)
            | Refusal::ModuleRule(place) => place,
            _ => 0,
        }
    }

    /// What document 01 says of it.
    pub fn sentence(self) -> &'static str {
        match self {
            Refusal::Layout => "the contents, starts, lengths or end differ from the layout, or the book is cut short",
            Refusal::Counts => "a count of modules, nets or pins is outside the limits",
            Refusal::Module(_) => "an area is 0 or a mark is above 2",
            Refusal::Net(_) => "a weight or pin count is 0, or the pin counts don't add up to the pins present",
            Refusal::Pin(_) => "a pin names no module, or doesn't rise within its net",
            Refusal::Marks => "there is no meter module or no maker module",
            Refusal::Gate => "the gate is bad",
            Refusal::Buffer => "a lent buffer is shorter than this call needs",
            Refusal::Side => "a given side lacks a meter module, holds a maker module or has a spare bit set",
            Refusal::Move => "a move names no module or a marked one",
            Refusal::NetRule(_) => "the flow breaks the net rule",
            Refusal::ModuleRule(_) => "the flow breaks the module rule",
            Refusal::Values => "flow value, price of the side and claimed price aren't all equal",
            Refusal::Stuck => "the walk has no module left to pin",
        }
    }
}

impl fmt::Display for Refusal {
    /// The sentence, then number and place.
    fn fmt(&self, out: &mut fmt::Formatter) -> fmt::Result {
        let (number, place) = (self.number(), self.place());
        write!(out, "{}: refused {number} at {place}", self.sentence())
    }
}

impl Error for Refusal {}

#[cfg(test)]
mod tests {
    use super::Refusal;

    #[test]
    fn every_number_of_the_table_is_one_refusal() {
        let table: Vec<Refusal> = (1..=14).map(|n| Refusal::of(n, 7).unwrap()).collect();
        for (refusal, number) in table.iter().zip(1..) {
            let has_place = [3, 4, 5, 11, 12].contains(&number);
            assert_eq!(refusal.number(), number);
            assert_eq!(refusal.place(), if has_place { 7 } else { 0 });
            let alike = table
                .iter()
                .filter(|other| other.sentence() == refusal.sentence());
            assert_eq!(alike.count(), 1);
        }
        assert_eq!(
            (Refusal::of(0, 0), Refusal::of(15, 0), Refusal::of(3, -1)),
            (None, None, None)
        );
    }
}
