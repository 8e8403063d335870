//! Memory, and what there is to say where it cannot be had.

use crate::Refusal;
use std::fmt;

/// The memory for so many elements cannot be had. This is no refusal: the proved library asks for no memory of its own.
#[derive(Clone, Copy, Debug, PartialEq, Eq, Hash)]
pub struct NoMemory {
    elements: usize,
}

impl fmt::Display for NoMemory {
    fn fmt(&self, f: &mut fmt::Formatter) -> fmt::Result {
        write!(f, "the memory for {} slots cannot be had", self.elements)
    }
}

impl std::error::Error for NoMemory {}

/// Why there are no tables: the library refuses the arguments, or the memory cannot be had.
///
/// The library judges first, so what it refuses is refused whatever memory there is.
///
/// ```
/// use slider::{Error, Refusal, Tables, MAX_BUDGET};
///
/// assert_eq!(Tables::try_build_with(42, MAX_BUDGET + 1, usize::MAX), Err(Error::Refused(Refusal::Budget)));
/// assert!(matches!(Tables::try_build_with(42, MAX_BUDGET, usize::MAX), Err(Error::NoMemory(_))));
/// ```
#[derive(Clone, Copy, Debug, PartialEq, Eq, Hash)]
#[non_exhaustive]
pub enum Error {
    /// Refused, with the number of the rulebook's table.
    Refused(Refusal),
    /// The memory cannot be had.
    NoMemory(NoMemory),
}

impl Error {
    /// The refusal, if it is one.
    #[must_use]
    pub const fn refusal(self) -> Option<Refusal> {
        match self {
            Error::Refused(refusal) => Some(refusal),
            Error::NoMemory(_) => None,
        }
    }
}

impl From<Refusal> for Error {
    fn from(refusal: Refusal) -> Error {
        Error::Refused(refusal)
    }
}

impl From<NoMemory> for Error {
    fn from(error: NoMemory) -> Error {
        Error::NoMemory(error)
    }
}

impl fmt::Display for Error {
    fn fmt(&self, f: &mut fmt::Formatter) -> fmt::Result {
        match self {
            Error::Refused(refusal) => refusal.fmt(f),
            Error::NoMemory(error) => error.fmt(f),
        }
    }
}

impl std::error::Error for Error {}

/// Zeros in memory of their own.
pub(crate) fn zeros<T: Clone + Default>(elements: usize) -> Result<Vec<T>, NoMemory> {
    let mut list = Vec::new();
    list.try_reserve_exact(elements).map_err(|_| NoMemory { elements })?;
    list.resize(elements, T::default());
    Ok(list)
}

/// Memory to lend to a build: so many slots, all 0.
///
/// # Errors
///
/// [`NoMemory`], where `vec![0; slots]` would end the program.
pub fn slots(count: usize) -> Result<Vec<u64>, NoMemory> {
    zeros(count)
}
