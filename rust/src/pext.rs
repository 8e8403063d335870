//! PEXT tables: 107,648 entries of 16 bits, the blocks in the order rook a1, bishop a1, rook b1, bishop b1, ..

use crate::error::zeros;
use crate::ffi::{self, Batch};
use crate::refusal::said;
use crate::{Bitboard, Kind, NoMemory, Refusal, Square};
use std::fmt;
use std::ops::Range;

/// Entries of a PEXT table.
pub const ENTRIES: usize = 107_648;

/// Fills lent entries; it answers how many.
///
/// # Errors
///
/// Refusal 9, and nothing is changed.
pub fn fill(entries: &mut [u16]) -> Result<u64, Refusal> {
    ffi::pext_fill(entries).said()
}

/// One look-up, for any 107,648 entries.
///
/// # Errors
///
/// Refusal 9.
#[inline]
pub fn moves(kind: Kind, square: Square, blockers: u64, entries: &[u16]) -> Result<u64, Refusal> {
    ffi::pext_moves(kind.into(), square.number(), blockers, entries).said()
}

/// Where a block lies in a table.
///
/// # Errors
///
/// Refusal 9.
///
/// ```
/// use slider::{pext, Kind, Refusal};
///
/// let entries = vec![0; pext::ENTRIES];
/// assert_eq!(pext::place(Kind::Bishop, "a1".parse()?, &entries), Ok(4096..4160));
/// assert_eq!(pext::place(Kind::Bishop, "a1".parse()?, &entries[1..]), Err(Refusal::Length));
/// # Ok::<(), Refusal>(())
/// ```
pub fn place(kind: Kind, square: Square, entries: &[u16]) -> Result<Range<usize>, Refusal> {
    let place = ffi::pext_place(kind.into(), square.number(), entries);
    let from = place.offset as usize;
    said(place.number, from..from + place.size as usize, || Refusal::of_look_up(place.number))
}

/// Many look-ups in one call, for any entries; slices and answers as in [`walk_batch`](crate::walk_batch).
pub fn moves_batch(
    entries: &[u16],
    kinds: &[u8],
    squares: &[u8],
    blockers: &[u64],
    numbers: &mut [u64],
    moves: &mut [u64],
) -> usize {
    Batch { kinds, squares, blockers, numbers, moves }.pext(entries) as usize
}

/// A filled table in memory of its own.
///
/// Proved of what is filled: every look-up is the walk, for each kind, square and blocker set. So a look-up here is never refused.
///
/// ```
/// use slider::{pext, walk, Bitboard, Kind, Square};
///
/// let table = pext::Table::fill();
/// let h8 = "h8".parse()?;
/// assert_eq!(table.moves(Kind::Rook, h8, 0), 0x7F80_8080_8080_8080);
/// assert_eq!(table.moves(Kind::Bishop, h8, u64::MAX), walk(Kind::Bishop, h8, u64::MAX));
/// assert_eq!(table.attacks(Kind::Rook, Square::H8, Bitboard::EMPTY), Bitboard(0x7F80_8080_8080_8080));
/// # Ok::<(), slider::Refusal>(())
/// ```
#[derive(Clone, PartialEq, Eq)]
pub struct Table {
    entries: Vec<u16>,
}

impl Table {
    /// Fills a table. Without memory for it the program ends.
    pub fn fill() -> Table {
        Table::try_fill().unwrap_or_else(|error| panic!("{error}"))
    }

    /// Fills a table.
    ///
    /// # Errors
    ///
    /// No memory.
    pub fn try_fill() -> Result<Table, NoMemory> {
        let mut entries = zeros(ENTRIES)?;
        fill(&mut entries).expect("the length is right");
        Ok(Table { entries })
    }

    /// The attack set.
    #[inline]
    pub fn moves(&self, kind: Kind, square: Square, blockers: u64) -> u64 {
        ffi::pext_moves(kind.into(), square.number(), blockers, &self.entries).sure()
    }

    /// The attack set: [`moves`](Table::moves) over [`Bitboard`].
    #[inline]
    #[must_use]
    pub fn attacks(&self, kind: Kind, square: Square, blockers: Bitboard) -> Bitboard {
        Bitboard(self.moves(kind, square, blockers.0))
    }

    /// Attack sets of many queries in one call; slices and answers as in [`walk_batch`](crate::walk_batch).
    pub fn moves_batch(&self, kinds: &[u8], squares: &[u8], blockers: &[u64], numbers: &mut [u64], moves: &mut [u64]) -> usize {
        moves_batch(&self.entries, kinds, squares, blockers, numbers, moves)
    }

    /// The entries of one block: entry i is the walk of subset i, extracted through the rays.
    ///
    /// ```
    /// use slider::{pext::Table, Kind};
    ///
    /// assert_eq!(Table::fill().block(Kind::Rook, "a1".parse()?)[65], 129);
    /// # Ok::<(), slider::Refusal>(())
    /// ```
    pub fn block(&self, kind: Kind, square: Square) -> &[u16] {
        &self.entries[place(kind, square, &self.entries).expect("the length is right")]
    }

    /// All entries.
    pub fn entries(&self) -> &[u16] {
        &self.entries
    }
}

impl fmt::Debug for Table {
    fn fmt(&self, f: &mut fmt::Formatter) -> fmt::Result {
        f.debug_struct("Table").field("entries", &self.entries.len()).finish()
    }
}
