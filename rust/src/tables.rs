//! Magic tables in memory of their own.

use crate::error::zeros;
use crate::magic::{audit, build, build_lent, looked_up, moves, moves_batch};
use crate::{block, Audited, Bitboard, Build, Error, Kind, Record, Refusal, Square, ALL_SLOTS, BLOCKS, MAX_BUDGET};
use std::fmt;

/// A built set of tables. There is none but from a build that succeeded.
///
/// Proved of what is built: every look-up is the walk, for each kind, square and blocker set. So a look-up here is never refused.
///
/// ```
/// use slider::{walk, Bitboard, Kind, Square, Tables};
///
/// let tables = Tables::build(42)?;
/// let d4 = "d4".parse()?;
/// assert_eq!(tables.moves(Kind::Rook, d4, 0x0000_0800_0A00_0000)?, 0x0000_0808_F608_0808);
/// assert_eq!(tables.moves(Kind::Bishop, d4, 0)?, walk(Kind::Bishop, d4, 0));
/// assert_eq!(tables.attacks(Kind::Bishop, Square::D4, Bitboard::EMPTY).0, walk(Kind::Bishop, d4, 0));
/// assert!(tables.audit().is_ok());
///
/// // the same again from its multipliers, in no more slots than it uses
/// let multipliers: Vec<u64> = tables.records().iter().map(|record| record.multiplier).collect();
/// let again = Tables::from_multipliers(&multipliers, tables.used())?;
/// assert_eq!(again.records(), tables.records());
/// # Ok::<(), slider::Refusal>(())
/// ```
#[derive(Clone, PartialEq, Eq)]
pub struct Tables {
    table: Vec<u64>,
    marks: Vec<u64>,
    records: [Record; BLOCKS],
    counts: [u64; BLOCKS],
    used: usize,
}

impl Tables {
    /// From a seed, with the largest budget and as many slots as any build needs. The same tables on every machine. Without memory for
    /// them the program ends.
    ///
    /// # Errors
    ///
    /// Refusal 5.
    pub fn build(seed: u64) -> Result<Tables, Refusal> {
        refused(Tables::try_build(seed))
    }

    /// From a seed, with at most `budget` candidates a block and `slots` slots. Without memory for them the program ends.
    ///
    /// # Errors
    ///
    /// Refusals 10, 4 and 5; 10 whatever memory there is.
    pub fn build_with(seed: u64, budget: u64, slots: usize) -> Result<Tables, Refusal> {
        refused(Tables::try_build_with(seed, budget, slots))
    }

    /// From 128 multipliers in block order. Without memory for the slots the program ends.
    ///
    /// # Errors
    ///
    /// Refusals 9, 4 and 6; 9 whatever memory there is.
    pub fn from_multipliers(multipliers: &[u64], slots: usize) -> Result<Tables, Refusal> {
        refused(Tables::try_from_multipliers(multipliers, slots))
    }

    /// [`build`](Tables::build), where memory that cannot be had is an error.
    ///
    /// # Errors
    ///
    /// Refusal 5; no memory.
    pub fn try_build(seed: u64) -> Result<Tables, Error> {
        Tables::try_build_with(seed, MAX_BUDGET, ALL_SLOTS)
    }

    /// [`build_with`](Tables::build_with), where memory that cannot be had is an error.
    ///
    /// # Errors
    ///
    /// Refusal 10; then no memory; then refusals 4 and 5.
    pub fn try_build_with(seed: u64, budget: u64, slots: usize) -> Result<Tables, Error> {
        Tables::own(slots, |table, marks| build(seed, budget, table, marks))
    }

    /// [`from_multipliers`](Tables::from_multipliers), where memory that cannot be had is an error.
    ///
    /// # Errors
    ///
    /// Refusal 9; then no memory; then refusals 4 and 6.
    pub fn try_from_multipliers(multipliers: &[u64], slots: usize) -> Result<Tables, Error> {
        Tables::own(slots, |table, marks| build_lent(multipliers, table, marks))
    }

    fn own(slots: usize, build: impl Fn(&mut [u64], &mut [u64]) -> Build) -> Result<Tables, Error> {
        judged(&build)?;
        let (mut table, mut marks) = (zeros(slots)?, zeros(slots)?);
        let Build { outcome, used, records, counts } = build(&mut table, &mut marks);
        outcome?;
        Ok(Tables { table, marks, records, counts, used })
    }

    /// The attack set. It is never refused: a built set passes its audit.
    ///
    /// # Errors
    ///
    /// None.
    #[inline]
    pub fn moves(&self, kind: Kind, square: Square, blockers: u64) -> Result<u64, Refusal> {
        moves(kind, square, blockers, self.records[block(kind, square)], &self.table)
    }

    /// The attack set, over [`Bitboard`].
    #[inline]
    #[must_use]
    pub fn attacks(&self, kind: Kind, square: Square, blockers: Bitboard) -> Bitboard {
        looked_up(&self.records, &self.table, kind, square, blockers)
    }

    /// Attack sets of many queries in one call; slices and answers as in [`walk_batch`](crate::walk_batch), cost as in [`moves_batch`].
    ///
    /// ```
    /// let tables = slider::Tables::build(42)?;
    /// let (mut numbers, mut moves) = ([9; 3], [9; 3]);
    /// let answered = tables.moves_batch(&[0, 1, 1], &[0, 0, 64], &[0x102, 0x200, 0], &mut numbers, &mut moves);
    /// assert_eq!((answered, numbers, moves), (3, [0, 0, 2], [0x102, 0x200, 0]));
    /// # Ok::<(), slider::Refusal>(())
    /// ```
    pub fn moves_batch(&self, kinds: &[u8], squares: &[u8], blockers: &[u64], numbers: &mut [u64], moves: &mut [u64]) -> usize {
        moves_batch(&self.records, &self.table, kinds, squares, blockers, numbers, moves)
    }

    /// The audit of these records over this table: the reach.
    ///
    /// # Errors
    ///
    /// None: a built set is proved to be accepted. What the audit answers is passed on as it is, for those who want to see it.
    pub fn audit(&self) -> Result<u64, Refusal> {
        audit(&self.records, &self.table)
    }

    /// The same audit, and what it accepts.
    ///
    /// # Errors
    ///
    /// Those of [`audit`](Tables::audit).
    pub fn audited(&self) -> Result<Audited<'_>, Refusal> {
        Audited::of(&self.records, &self.table)
    }

    /// All slots, also those past [`used`](Tables::used), which are 0.
    pub fn table(&self) -> &[u64] {
        &self.table
    }

    /// The marks of the slots: whose rays have a walk there.
    pub fn marks(&self) -> &[u64] {
        &self.marks
    }

    /// The records, in block order.
    pub fn records(&self) -> &[Record; BLOCKS] {
        &self.records
    }

    /// Attempts of each block; 0 in a build from multipliers.
    pub fn counts(&self) -> &[u64; BLOCKS] {
        &self.counts
    }

    /// Slots in use, from the table's start.
    pub fn used(&self) -> usize {
        self.used
    }
}

/// Without memory the program ends, as `vec!` ends it.
fn refused(tables: Result<Tables, Error>) -> Result<Tables, Refusal> {
    tables.map_err(|error| match error {
        Error::Refused(refusal) => refusal,
        Error::NoMemory(error) => panic!("{error}"),
    })
}

/// The arguments' own refusals, before any memory is asked for: with empty loans the library judges them, and refuses an allowed build
/// for want of room alone.
fn judged(build: impl Fn(&mut [u64], &mut [u64]) -> Build) -> Result<(), Refusal> {
    match build(&mut [], &mut []).outcome {
        Err(Refusal::NoRoom { .. }) => Ok(()),
        outcome => outcome,
    }
}

impl fmt::Debug for Tables {
    fn fmt(&self, f: &mut fmt::Formatter) -> fmt::Result {
        f.debug_struct("Tables").field("slots", &self.table.len()).field("used", &self.used).finish_non_exhaustive()
    }
}
