//! Sets of squares.

use crate::{board, Kind, Square};
use std::fmt;
use std::iter::FusedIterator;
use std::ops::{BitAnd, BitAndAssign, BitOr, BitOrAssign, BitXor, BitXorAssign, Not, Sub, SubAssign};

/// A set of squares in 64 bits: bit s is square s.
///
/// ```
/// use slider::{Bitboard, Square};
///
/// let corners: Bitboard = [Square::A1, Square::H1, Square::A8, Square::H8].into_iter().collect();
/// assert_eq!(corners, Bitboard(0x8100_0000_0000_0081));
/// assert_eq!((corners.len(), corners.contains(Square::H1), corners.contains(Square::D4)), (4, true, false));
///
/// let left = corners - Bitboard::from(Square::A1);
/// assert_eq!(left.into_iter().collect::<Vec<_>>(), [Square::H1, Square::A8, Square::H8]);
/// assert_eq!(format!("{left:016X}"), "8100000000000080");
/// ```
#[derive(Clone, Copy, Default, PartialEq, Eq, PartialOrd, Ord, Hash)]
#[repr(transparent)]
pub struct Bitboard(pub u64);

impl Bitboard {
    /// No square.
    pub const EMPTY: Bitboard = Bitboard(0);
    /// All 64 squares.
    pub const FULL: Bitboard = Bitboard(u64::MAX);

    /// How many squares the set has.
    #[must_use]
    pub const fn len(self) -> usize {
        self.0.count_ones() as usize
    }

    /// Has it no square?
    #[inline]
    #[must_use]
    pub const fn is_empty(self) -> bool {
        self.0 == 0
    }

    /// Has it this square?
    #[inline]
    #[must_use]
    pub const fn contains(self, square: Square) -> bool {
        self.0 >> square.number() & 1 == 1
    }
}

impl From<Square> for Bitboard {
    #[inline]
    fn from(square: Square) -> Bitboard {
        Bitboard(square.bit())
    }
}

impl From<u64> for Bitboard {
    #[inline]
    fn from(bits: u64) -> Bitboard {
        Bitboard(bits)
    }
}

impl From<Bitboard> for u64 {
    #[inline]
    fn from(set: Bitboard) -> u64 {
        set.0
    }
}

// ---- what a piece sees: the functions of the same names

/// ```
/// use slider::{Bitboard, Kind, Square};
///
/// assert_eq!(Bitboard::walk(Kind::Rook, Square::D4, Bitboard(0x0000_0800_0A00_0000)), Bitboard(0x0000_0808_F608_0808));
/// assert_eq!(Bitboard::subset(Kind::Rook, Square::A1, 65), Bitboard(0x102));
/// ```
impl Bitboard {
    /// The squares that a piece sees from a square of the empty board.
    #[must_use]
    pub fn rays(kind: Kind, square: Square) -> Bitboard {
        Bitboard(board::rays(kind, square))
    }

    /// The rays without the squares whose blockers change nothing ([`mask`](crate::mask)).
    #[must_use]
    pub fn mask(kind: Kind, square: Square) -> Bitboard {
        Bitboard(board::mask(kind, square))
    }

    /// Subset i of the mask ([`subset`](crate::subset)).
    #[must_use]
    pub fn subset(kind: Kind, square: Square, i: u64) -> Bitboard {
        Bitboard(board::subset(kind, square, i))
    }

    /// The attack set, without a table: from the square in each direction up to and including the first blocker.
    #[inline]
    #[must_use]
    pub fn walk(kind: Kind, square: Square, blockers: Bitboard) -> Bitboard {
        Bitboard(board::walk(kind, square, blockers.0))
    }
}

// ---- set operations

impl Not for Bitboard {
    type Output = Bitboard;

    #[inline]
    fn not(self) -> Bitboard {
        Bitboard(!self.0)
    }
}

macro_rules! operators {
    ($($trait:ident $method:ident $assign_trait:ident $assign:ident: |$a:ident, $b:ident| $bits:expr;)+) => {$(
        impl $trait for Bitboard {
            type Output = Bitboard;

            #[inline]
            fn $method(self, other: Bitboard) -> Bitboard {
                let ($a, $b) = (self.0, other.0);
                Bitboard($bits)
            }
        }

        impl $assign_trait for Bitboard {
            #[inline]
            fn $assign(&mut self, other: Bitboard) {
                *self = $trait::$method(*self, other);
            }
        }
    )+};
}

operators! {
    BitAnd bitand BitAndAssign bitand_assign: |a, b| a & b;
    BitOr bitor BitOrAssign bitor_assign: |a, b| a | b;
    BitXor bitxor BitXorAssign bitxor_assign: |a, b| a ^ b;
    Sub sub SubAssign sub_assign: |a, b| a & !b;
}

// ---- squares of a set

/// The squares of a [`Bitboard`], a1 first.
#[derive(Clone, Debug)]
pub struct Squares(Bitboard);

impl Iterator for Squares {
    type Item = Square;

    #[inline]
    fn next(&mut self) -> Option<Square> {
        let Bitboard(left) = self.0;
        if left == 0 {
            return None;
        }
        self.0 = Bitboard(left & (left - 1));
        Some(Square::of(left.trailing_zeros().into()))
    }

    fn size_hint(&self) -> (usize, Option<usize>) {
        (self.0.len(), Some(self.0.len()))
    }
}

impl ExactSizeIterator for Squares {}
impl FusedIterator for Squares {}

impl IntoIterator for Bitboard {
    type Item = Square;
    type IntoIter = Squares;

    fn into_iter(self) -> Squares {
        Squares(self)
    }
}

impl FromIterator<Square> for Bitboard {
    fn from_iter<I: IntoIterator<Item = Square>>(squares: I) -> Bitboard {
        squares.into_iter().fold(Bitboard::EMPTY, |set, square| set | square.into())
    }
}

// ---- text

/// A board of eight lines, rank 8 first: X is a square of the set.
///
/// ```
/// let king = slider::Bitboard::from(slider::Square::E1);
/// assert!(king.to_string().ends_with("\n. . . . . . . .\n. . . . X . . ."));
/// ```
impl fmt::Display for Bitboard {
    fn fmt(&self, f: &mut fmt::Formatter) -> fmt::Result {
        let sign = |square: &Square| if self.contains(*square) { "X" } else { "." };
        let rank = |squares: &[Square]| squares.iter().map(sign).collect::<Vec<_>>().join(" ");
        f.write_str(&Square::ALL.chunks(8).rev().map(rank).collect::<Vec<_>>().join("\n"))
    }
}

impl fmt::Debug for Bitboard {
    fn fmt(&self, f: &mut fmt::Formatter) -> fmt::Result {
        write!(f, "Bitboard(0x{:016X})", self.0)
    }
}

impl fmt::UpperHex for Bitboard {
    fn fmt(&self, f: &mut fmt::Formatter) -> fmt::Result {
        fmt::UpperHex::fmt(&self.0, f)
    }
}

impl fmt::LowerHex for Bitboard {
    fn fmt(&self, f: &mut fmt::Formatter) -> fmt::Result {
        fmt::LowerHex::fmt(&self.0, f)
    }
}
