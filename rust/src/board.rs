//! Kinds and blocks; rays, masks, subsets and the walk.

use crate::ffi::{self, Batch, SliderAnswer};
use crate::refusal::said;
use crate::{Refusal, Square};
use std::fmt;

/// Rook or bishop, with the library's numbers.
#[derive(Clone, Copy, Debug, PartialEq, Eq, PartialOrd, Ord, Hash)]
#[repr(u8)]
pub enum Kind {
    /// Along ranks and files.
    Rook = 0,
    /// Along diagonals.
    Bishop = 1,
}

impl Kind {
    /// Both kinds.
    pub const ALL: [Kind; 2] = [Kind::Rook, Kind::Bishop];
}

impl TryFrom<u8> for Kind {
    type Error = Refusal;

    fn try_from(number: u8) -> Result<Kind, Refusal> {
        match number {
            0 => Ok(Kind::Rook),
            1 => Ok(Kind::Bishop),
            _ => Err(Refusal::Kind),
        }
    }
}

impl From<Kind> for u8 {
    #[inline]
    fn from(kind: Kind) -> u8 {
        kind as u8
    }
}

impl fmt::Display for Kind {
    fn fmt(&self, f: &mut fmt::Formatter) -> fmt::Result {
        f.pad(match self {
            Kind::Rook => "rook",
            Kind::Bishop => "bishop",
        })
    }
}

// ---- blocks

/// The number of a block: bishop on s is s, rook on s is 64 + s.
///
/// ```
/// use slider::{block, Kind};
///
/// assert_eq!(block(Kind::Rook, "a1".parse()?), 64);
/// # Ok::<(), slider::Refusal>(())
/// ```
#[inline]
pub fn block(kind: Kind, square: Square) -> usize {
    let from = match kind {
        Kind::Bishop => 0,
        Kind::Rook => 64,
    };
    from + usize::from(square.number())
}

/// Kind and square of a block below 128.
pub fn of_block(block: usize) -> Option<(Kind, Square)> {
    match block {
        0..=63 => Some((Kind::Bishop, Square::ALL[block])),
        64..=127 => Some((Kind::Rook, Square::ALL[block - 64])),
        _ => None,
    }
}

pub(crate) fn block_name(block: usize) -> String {
    match of_block(block) {
        Some((kind, square)) => format!("block {block} ({kind} {square})"),
        None => format!("block {block}"),
    }
}

// ---- what a piece sees

impl SliderAnswer {
    /// The value, or a refusal that carries nothing.
    #[inline]
    pub(crate) fn said(self) -> Result<u64, Refusal> {
        said(self.number, self.value, || Refusal::of_look_up(self.number))
    }

    /// The value of a call that is proved not to be refused for these arguments.
    #[inline]
    pub(crate) fn sure(self) -> u64 {
        debug_assert_eq!(self.number, 0);
        self.value
    }
}

/// The squares that a piece sees from a square of the empty board.
pub fn rays(kind: Kind, square: Square) -> u64 {
    ffi::rays(kind.into(), square.number()).sure()
}

/// The rays without the squares whose blockers change nothing: the board's edge for a bishop, the ends of its own rank and file for a
/// rook.
pub fn mask(kind: Kind, square: Square) -> u64 {
    ffi::mask(kind.into(), square.number()).sure()
}

/// How many subsets the mask has: 2 to the number of its squares.
pub fn size(kind: Kind, square: Square) -> usize {
    ffi::size(kind.into(), square.number()).sure() as usize
}

/// 64 less the number of the mask's squares, 52 to 59.
pub fn shift(kind: Kind, square: Square) -> u8 {
    ffi::shift(kind.into(), square.number()).sure() as u8
}

/// Subset i of the mask: it has the j-th smallest square where bit j of i is set. Bits past the mask's count have no effect.
///
/// ```
/// use slider::{mask, size, subset, Kind};
///
/// let a1 = "a1".parse()?;
/// assert_eq!(subset(Kind::Rook, a1, 65), 0x102);
/// assert_eq!(subset(Kind::Rook, a1, size(Kind::Rook, a1) as u64 - 1), mask(Kind::Rook, a1));
/// # Ok::<(), slider::Refusal>(())
/// ```
pub fn subset(kind: Kind, square: Square, i: u64) -> u64 {
    ffi::subset(kind.into(), square.number(), i).sure()
}

/// The attack set: from the square in each direction up to and including the first blocker. It needs no table.
///
/// Proved of every kind, square and blocker set: a square is attacked exactly when it is on the rays with no blocker strictly between.
///
/// ```
/// use slider::{walk, Kind};
///
/// assert_eq!(walk(Kind::Rook, "d4".parse()?, 0x0000_0800_0A00_0000), 0x0000_0808_F608_0808);
/// # Ok::<(), slider::Refusal>(())
/// ```
#[inline]
pub fn walk(kind: Kind, square: Square, blockers: u64) -> u64 {
    ffi::walk(kind.into(), square.number(), blockers).sure()
}

/// Walks of many queries in one call: query i is `kinds[i]`, `squares[i]`, `blockers[i]`, as plain numbers of any value. As many are
/// answered as every slice has; the answer is how many. `numbers[i]` is 0, or the refusal's number ([`Refusal::of_look_up`]); `moves[i]`
/// is the set, or 0. What the slices have past that stays as it is.
///
/// ```
/// let (mut numbers, mut moves) = ([9; 3], [9; 3]);
/// let answered = slider::walk_batch(&[0, 1, 2], &[0, 0, 0], &[0x102, 0x200, 0], &mut numbers, &mut moves);
/// assert_eq!((answered, numbers, moves), (3, [0, 0, 1], [0x102, 0x200, 0]));
/// ```
pub fn walk_batch(kinds: &[u8], squares: &[u8], blockers: &[u64], numbers: &mut [u64], moves: &mut [u64]) -> usize {
    Batch { kinds, squares, blockers, numbers, moves }.walk() as usize
}
