//! Which squares a rook or a bishop attacks: rays, masks, the walk, magic and PEXT tables, builds and an audit, over a library whose
//! every function is proved to meet its contract (crates/slider_c in this repository; `rust/library` proves it and writes the archive).
//!
//! A set of squares is a `u64`: bit s is square s, a1 is 0, h1 is 7, a8 is 56. A call that can be refused answers a [`Refusal`]; where
//! [`Kind`] and [`Square`] rule refusals out, the answer is plain.
//!
//! ```
//! use slider::{pext, walk, Kind, Square, Tables};
//!
//! let tables = Tables::build(42)?; // the same tables on every machine
//! let pext = pext::Table::fill();
//!
//! let d4: Square = "d4".parse()?;
//! let blockers = 0x0000_0800_0A00_0000; // b4, d4 itself and d6
//! let attacked = tables.moves(Kind::Rook, d4, blockers)?;
//! assert_eq!(attacked, 0x0000_0808_F608_0808);
//! assert_eq!(attacked, pext.moves(Kind::Rook, d4, blockers));
//! assert_eq!(attacked, walk(Kind::Rook, d4, blockers));
//! # Ok::<(), slider::Refusal>(())
//! ```
//!
//! **Sets with names.** [`Bitboard`] is such a set as a type of its own: its squares can be asked for, gone through and shown. It has
//! `rays`, `mask`, `subset` and `walk`; tables have `attacks`, which is `moves` over it. Where it is proved that a look-up is not refused,
//! the answer of `attacks` is plain.
//!
//! ```
//! use slider::{Bitboard, Kind, Square, Tables};
//!
//! let tables = Tables::try_build(42)?; // memory that cannot be had is an error here, too
//! let occupied = Bitboard(0x0000_0800_0A00_0000); // b4, d4 itself and d6
//! let attacked = tables.attacks(Kind::Rook, Square::D4, occupied);
//! assert!(attacked.contains(Square::D6) && !attacked.contains(Square::D7));
//! println!("{attacked}"); // a board of eight lines
//! for square in attacked {
//!     println!("{square}");
//! }
//!
//! // three engines, one answer
//! let pext = slider::pext::Table::try_fill()?;
//! assert_eq!(attacked, pext.attacks(Kind::Rook, Square::D4, occupied));
//! assert_eq!(attacked, Bitboard::walk(Kind::Rook, Square::D4, occupied));
//! assert_eq!(attacked, Bitboard(0x0000_0808_F608_0808));
//! # Ok::<(), slider::Error>(())
//! ```
//!
//! **Memory.** Names that begin with `try_` answer [`NoMemory`] where memory cannot be had; the others end the program there, as `vec!`
//! does. [`slots`] gives memory to lend.
//!
//! **Stack.** Builds and searches need more than the smallest stacks have: [`STACK`] is enough for every call, with a margin.
//!
//! **Threads.** The library keeps nothing between calls; every type here may be shared and sent.
#![deny(unsafe_code)]
#![warn(missing_docs, clippy::undocumented_unsafe_blocks)]

mod bitboard;
mod board;
mod error;
#[allow(unsafe_code)]
mod ffi;
mod identity;
mod magic;
pub mod pext;
mod refusal;
mod square;
mod tables;

pub use bitboard::{Bitboard, Squares};
pub use board::{block, mask, of_block, rays, shift, size, subset, walk, walk_batch, Kind};
pub use error::{slots, Error, NoMemory};
pub use identity::{Identity, IDENTITY};
pub use magic::{
    audit, build, build_lent, moves, moves_batch, search, Audited, Build, Found, Record, ALL_SLOTS, BLOCKS, MAX_BUDGET, STACK,
};
pub use refusal::Refusal;
pub use square::Square;
pub use tables::Tables;

#[doc(hidden)] // for the program `slider`
pub use ffi::is_terminal;
