//! Magic tables in lent memory: search, builds, look-ups, audit.

use crate::ffi::{self, Batch, SliderBuild, SliderRecords};
use crate::refusal::said;
use crate::{block, Bitboard, Kind, Refusal, Square};
use std::fmt;

/// Blocks of a set of tables: 64 bishops, then 64 rooks.
pub const BLOCKS: usize = 128;
/// So many slots suffice for every build.
pub const ALL_SLOTS: usize = 107_648;
/// The largest budget that a build or a search takes.
pub const MAX_BUDGET: u64 = 16_777_216;
/// A stack on which every call of this package runs, in bytes: a thread that builds or searches should have so much. Measured, a build
/// from a seed needs 244 KiB, one from multipliers 148 KiB, a search 104 KiB. A thread of the standard library has 2 MiB unless it is
/// told otherwise.
pub const STACK: usize = 512 * 1024;

/// What a look-up needs of a block.
#[derive(Clone, Copy, Debug, Default, PartialEq, Eq, Hash)]
#[repr(C)]
#[allow(missing_docs)] // the rulebook's words
pub struct Record {
    pub multiplier: u64,
    pub mask: u64,
    pub offset: u32,
    pub shift: u8,
}

// ---- search

/// What the search of one block found.
#[derive(Clone, Copy, Debug, PartialEq, Eq, Hash)]
pub struct Found {
    /// The first candidate that passes.
    pub multiplier: u64,
    /// Its position among the seed's candidates, from 1.
    pub count: u64,
}

/// The first candidate from a seed that passes for one block, within a budget of attempts.
///
/// # Errors
///
/// Refusals 10 and 5.
///
/// ```
/// use slider::{search, Kind, Refusal, MAX_BUDGET};
///
/// let c1 = "c1".parse()?;
/// let found = search(Kind::Bishop, c1, 42, MAX_BUDGET)?;
/// assert_eq!(search(Kind::Bishop, c1, 42, found.count), Ok(found));
/// assert_eq!(search(Kind::Bishop, c1, 42, found.count - 1), Err(Refusal::Spent { block: 2 }));
/// # Ok::<(), Refusal>(())
/// ```
pub fn search(kind: Kind, square: Square, seed: u64, budget: u64) -> Result<Found, Refusal> {
    let found = ffi::search(kind.into(), square.number(), seed, budget);
    let taken = Found { multiplier: found.multiplier, count: found.count };
    said(found.number, taken, || Refusal::of_build(found.number, found.block))
}

// ---- builds

/// How a build in lent memory ended. After a refusal everything but the outcome is zero.
#[derive(Clone, Debug, PartialEq, Eq)]
pub struct Build {
    /// Built, or refused.
    pub outcome: Result<(), Refusal>,
    /// Slots in use, from the table's start.
    pub used: usize,
    /// In block order.
    pub records: [Record; BLOCKS],
    /// Attempts of each block; 0 in a build from lent multipliers.
    pub counts: [u64; BLOCKS],
}

impl From<SliderBuild> for Build {
    fn from(b: SliderBuild) -> Build {
        let outcome = said(b.number, (), || Refusal::of_build(b.number, b.block));
        Build { outcome, used: b.used as usize, records: b.records, counts: b.counts }
    }
}

/// Builds in lent memory, whatever it held before. After refusals 10 and 3 it is as before the call, after 4 and 5 all zero.
///
/// Proved: it succeeds exactly when each block, in block order, fits at its first free place and has a passing candidate within the
/// budget; it takes the first. [`slots`](crate::slots) gives memory to lend.
///
/// ```
/// let (mut table, mut marks) = (vec![7; 200], vec![7; 200]);
/// let build = slider::build(42, slider::MAX_BUDGET, &mut table, &mut marks);
/// assert_eq!(build.outcome.unwrap_err().number(), 4);
/// assert_eq!((table, marks, build.used), (vec![0; 200], vec![0; 200], 0));
/// ```
pub fn build(seed: u64, budget: u64, table: &mut [u64], marks: &mut [u64]) -> Build {
    ffi::build(seed, budget, table, marks).into()
}

/// Builds in lent memory from 128 multipliers in block order. After refusals 9 and 3 the memory is as before the call, after 4 and 6
/// all zero.
pub fn build_lent(multipliers: &[u64], table: &mut [u64], marks: &mut [u64]) -> Build {
    ffi::build_lent(multipliers, table, marks).into()
}

// ---- look-ups

/// One look-up by its formula, for any record and any table.
///
/// # Errors
///
/// Refusals 8 and 7.
#[inline]
pub fn moves(kind: Kind, square: Square, blockers: u64, record: Record, table: &[u64]) -> Result<u64, Refusal> {
    ffi::moves(kind.into(), square.number(), blockers, record, table).said()
}

/// The look-up in what a build made or an audit accepted: it is proved not to be refused.
#[inline]
pub(crate) fn looked_up(records: &[Record; BLOCKS], table: &[u64], kind: Kind, square: Square, blockers: Bitboard) -> Bitboard {
    let record = records[block(kind, square)];
    Bitboard(ffi::moves(kind.into(), square.number(), blockers.0, record, table).sure())
}

/// Many look-ups in one call, by any records and any table; slices and answers as in [`walk_batch`](crate::walk_batch).
///
/// A call copies the records, 3 KiB, and lists the rays of all blocks before it answers: 235 ns, measured with an older kit. Then a query
/// takes half of what a call of [`moves`] takes, so a batch pays from some 80 queries on (docs/SPEED.md).
pub fn moves_batch(
    records: &[Record; BLOCKS],
    table: &[u64],
    kinds: &[u8],
    squares: &[u8],
    blockers: &[u64],
    numbers: &mut [u64],
    moves: &mut [u64],
) -> usize {
    Batch { kinds, squares, blockers, numbers, moves }.magic(SliderRecords { records: *records }, table) as usize
}

// ---- audit

/// Audits any records over any table: the reach, which is the end of block 127, or the first fault.
///
/// After acceptance every look-up is the walk, whoever built the table; [`Audited`] holds what was accepted.
///
/// # Errors
///
/// Refusals 8, 7 and 11, with block and subset.
///
/// ```
/// use slider::{audit, Refusal, Tables};
///
/// let tables = Tables::build(42)?;
/// let mut damaged = tables.table().to_vec();
/// assert_eq!(audit(tables.records(), &damaged), tables.audit());
///
/// damaged[tables.records()[3].offset as usize] ^= 1 << 12; // the slot of d1's bishop without blockers loses e2
/// assert_eq!(audit(tables.records(), &damaged), Err(Refusal::SlotAt { block: 3, subset: 0 }));
/// # Ok::<(), Refusal>(())
/// ```
pub fn audit(records: &[Record; BLOCKS], table: &[u64]) -> Result<u64, Refusal> {
    let verdict = ffi::audit(SliderRecords { records: *records }, table);
    said(verdict.number, verdict.reach, || Refusal::of_audit(verdict.number, verdict.block, verdict.subset))
}

/// Records and a table that an audit has accepted, whoever built them. While they are borrowed nobody changes them.
///
/// Proved of what is accepted: every look-up is the walk, for each kind, square and blocker set. So a look-up here is never refused.
///
/// ```
/// use slider::{Audited, Bitboard, Kind, Square, Tables};
///
/// let built = Tables::build(42)?;
/// let (records, table) = (*built.records(), built.table().to_vec()); // as they come from anywhere
/// let audited = Audited::of(&records, &table)?;
/// let blockers = Bitboard(0x0000_0800_0A00_0000);
/// assert_eq!(audited.attacks(Kind::Rook, Square::D4, blockers), Bitboard::walk(Kind::Rook, Square::D4, blockers));
/// # Ok::<(), slider::Refusal>(())
/// ```
#[derive(Clone, Copy, PartialEq, Eq)]
pub struct Audited<'a> {
    records: &'a [Record; BLOCKS],
    table: &'a [u64],
    reach: u64,
}

impl<'a> Audited<'a> {
    /// What [`audit`] accepts.
    ///
    /// # Errors
    ///
    /// Those of [`audit`].
    pub fn of(records: &'a [Record; BLOCKS], table: &'a [u64]) -> Result<Audited<'a>, Refusal> {
        audit(records, table).map(|reach| Audited { records, table, reach })
    }

    /// The attack set.
    #[inline]
    #[must_use]
    pub fn attacks(self, kind: Kind, square: Square, blockers: Bitboard) -> Bitboard {
        looked_up(self.records, self.table, kind, square, blockers)
    }

    /// The reach: the end of block 127.
    #[must_use]
    pub fn reach(self) -> u64 {
        self.reach
    }
}

impl fmt::Debug for Audited<'_> {
    fn fmt(&self, f: &mut fmt::Formatter) -> fmt::Result {
        f.debug_struct("Audited").field("slots", &self.table.len()).field("reach", &self.reach).finish_non_exhaustive()
    }
}
