//! Refusals, by the numbers of the rulebook's table.

use crate::board::block_name;
use std::fmt;

/// Why a call has no answer: the rows of the rulebook's table "Numbers handed back".
///
/// Rows 7 and 8 have two cases each, as an audit says where, and a look-up does not.
///
/// ```
/// use slider::{Refusal, Tables};
///
/// let refusal = Tables::build_with(42, 1000, 63).unwrap_err();
/// assert_eq!(refusal, Refusal::NoRoom { block: 0 });
/// assert_eq!((refusal.number(), refusal.block(), refusal.subset()), (4, Some(0), None));
/// assert_eq!(refusal.to_string(), "refusal 4: no room in the table for block 0 (bishop a1)");
/// ```
#[derive(Clone, Copy, Debug, PartialEq, Eq, Hash)]
#[allow(missing_docs)] // a block and a subset are what their names say
pub enum Refusal {
    /// 1: the kind is above 1.
    Kind,
    /// 2: the square is above 63, or a name cannot be read.
    Square,
    /// 3: table and marks differ in length.
    LengthsDiffer,
    /// 4: a build finds no room for a block.
    NoRoom { block: usize },
    /// 5: the budget is spent, and no candidate has passed.
    Spent { block: usize },
    /// 6: a lent multiplier collides.
    Collides { block: usize },
    /// 7, in a look-up: the index is at or past the table's length.
    Index,
    /// 7, in an audit.
    IndexAt { block: usize, subset: usize },
    /// 8, in a look-up: the record's shift is outside 52 to 59.
    Shift,
    /// 8, in an audit: the record's mask or shift is wrong.
    RecordAt { block: usize },
    /// 9: not 128 multipliers, or not 107,648 PEXT entries.
    Length,
    /// 10: the budget is above 16,777,216.
    Budget,
    /// 11: an audit finds a slot that does not give the walk.
    SlotAt { block: usize, subset: usize },
}

/// What a refusal hands back: its number, and the block and the subset where it has them.
type Values = (u8, Option<usize>, Option<usize>);

impl Refusal {
    const fn values(self) -> Values {
        match self {
            Refusal::Kind => (1, None, None),
            Refusal::Square => (2, None, None),
            Refusal::LengthsDiffer => (3, None, None),
            Refusal::NoRoom { block } => (4, Some(block), None),
            Refusal::Spent { block } => (5, Some(block), None),
            Refusal::Collides { block } => (6, Some(block), None),
            Refusal::Index => (7, None, None),
            Refusal::IndexAt { block, subset } => (7, Some(block), Some(subset)),
            Refusal::Shift => (8, None, None),
            Refusal::RecordAt { block } => (8, Some(block), None),
            Refusal::Length => (9, None, None),
            Refusal::Budget => (10, None, None),
            Refusal::SlotAt { block, subset } => (11, Some(block), Some(subset)),
        }
    }

    /// The number in the rulebook's table, 1 to 11.
    pub const fn number(self) -> u8 {
        self.values().0
    }

    /// The block, 0 to 127, where the refusal carries one.
    pub const fn block(self) -> Option<usize> {
        self.values().1
    }

    /// The subset's number, where the refusal carries one.
    pub const fn subset(self) -> Option<usize> {
        self.values().2
    }

    /// The refusal that a look-up means by a number, as a batch hands it back; `None` for 0 and for numbers that no look-up gives.
    ///
    /// ```
    /// assert_eq!(slider::Refusal::of_look_up(0), None);
    /// assert_eq!(slider::Refusal::of_look_up(2), Some(slider::Refusal::Square));
    /// ```
    pub fn of_look_up(number: u64) -> Option<Refusal> {
        numbered(number, &[Refusal::Kind, Refusal::Square, Refusal::Index, Refusal::Shift, Refusal::Length])
    }

    /// What a build or a search means by a number and a block.
    pub(crate) fn of_build(number: u64, block: u64) -> Option<Refusal> {
        let block = block as usize;
        let plain = [Refusal::Kind, Refusal::Square, Refusal::LengthsDiffer, Refusal::Length, Refusal::Budget];
        let carrying = [Refusal::NoRoom { block }, Refusal::Spent { block }, Refusal::Collides { block }];
        numbered(number, &plain).or_else(|| numbered(number, &carrying))
    }

    /// What an audit means by a number, a block and a subset.
    pub(crate) fn of_audit(number: u64, block: u64, subset: u64) -> Option<Refusal> {
        let (block, subset) = (block as usize, subset as usize);
        numbered(number, &[Refusal::IndexAt { block, subset }, Refusal::RecordAt { block }, Refusal::SlotAt { block, subset }])
    }
}

fn numbered(number: u64, of: &[Refusal]) -> Option<Refusal> {
    of.iter().copied().find(|refusal| u64::from(refusal.number()) == number)
}

/// `given` where the library's number is 0; else the refusal, which `read` knows.
#[inline]
pub(crate) fn said<T>(number: u64, given: T, read: impl FnOnce() -> Option<Refusal>) -> Result<T, Refusal> {
    match number {
        0 => Ok(given),
        _ => Err(read().unwrap_or_else(|| panic!("the library's contracts rule out {number} here"))),
    }
}

impl fmt::Display for Refusal {
    fn fmt(&self, f: &mut fmt::Formatter) -> fmt::Result {
        write!(f, "refusal {}: ", self.number())?;
        match *self {
            Refusal::Kind => write!(f, "the kind is neither 0 (rook) nor 1 (bishop)"),
            Refusal::Square => write!(f, "there is no such square"),
            Refusal::LengthsDiffer => write!(f, "table and marks differ in length"),
            Refusal::NoRoom { block } => write!(f, "no room in the table for {}", block_name(block)),
            Refusal::Spent { block } => write!(f, "the budget is spent, and no candidate has passed for {}", block_name(block)),
            Refusal::Collides { block } => write!(f, "the lent multiplier of {} collides", block_name(block)),
            Refusal::Index => write!(f, "the look-up's index is past the table's end"),
            Refusal::IndexAt { block, subset } => {
                write!(f, "the index of subset {subset} of {} is past the table's end", block_name(block))
            }
            Refusal::Shift => write!(f, "the record's shift is outside 52 to 59"),
            Refusal::RecordAt { block } => write!(f, "the mask or the shift of {} is wrong", block_name(block)),
            Refusal::Length => write!(f, "not 128 multipliers, or not 107648 PEXT entries"),
            Refusal::Budget => write!(f, "the budget is above 16777216"),
            Refusal::SlotAt { block, subset } => {
                write!(f, "the slot of subset {subset} of {} does not give the walk", block_name(block))
            }
        }
    }
}

impl std::error::Error for Refusal {}
