//! The library's exports, and all of the package's unsafe code.
//!
//! Declarations say what crates/slider_c/src/lib.rt says, structs what crates/slider/src/lib.rt says; tests/exports.rs compares the texts. A slice crosses as
//! pointer and length. Three things make every call below sound; 1 and 2 are the exports' proved contracts, 3 is this file's to keep:
//!
//! 1. an export takes any numbers, any records and any lengths, for it has no `requires`;
//! 2. it reads and writes nothing but what it is lent, and keeps no pointer after it has returned;
//! 3. pointer and length are those of one slice that is borrowed for the call, shared or exclusively as the export asks.

use crate::{Record, BLOCKS};

#[repr(C)]
pub struct SliderAnswer {
    pub number: u64,
    pub value: u64,
}

#[repr(C)]
pub struct SliderVerdict {
    pub number: u64,
    pub block: u64,
    pub subset: u64,
    pub reach: u64,
}

#[repr(C)]
pub struct SliderFound {
    pub number: u64,
    pub block: u64,
    pub multiplier: u64,
    pub count: u64,
}

#[repr(C)]
pub struct SliderBuild {
    pub number: u64,
    pub block: u64,
    pub used: u64,
    pub records: [Record; BLOCKS],
    pub counts: [u64; BLOCKS],
}

#[repr(C)]
pub struct SliderRecords {
    pub records: [Record; BLOCKS],
}

#[repr(C)]
pub struct SliderPlace {
    pub number: u64,
    pub offset: u64,
    pub size: u64,
}

#[repr(C)]
pub struct SliderName {
    pub number: u64,
    pub letter: u8,
    pub digit: u8,
}

#[repr(C)]
pub struct SliderStep {
    pub number: u64,
    pub off: u64,
    pub square: u64,
}

#[rustfmt::skip]
extern "C" {
    fn slider_rays(kind: u8, sq: u8) -> SliderAnswer;
    fn slider_mask(kind: u8, sq: u8) -> SliderAnswer;
    fn slider_size(kind: u8, sq: u8) -> SliderAnswer;
    fn slider_shift(kind: u8, sq: u8) -> SliderAnswer;
    fn slider_subset(kind: u8, sq: u8, i: u64) -> SliderAnswer;
    fn slider_walk(kind: u8, sq: u8, blockers: u64) -> SliderAnswer;
    fn slider_square(name: *const u8, name_len: usize) -> SliderAnswer;
    fn slider_name(sq: u8) -> SliderName;
    fn slider_up(sq: u8) -> SliderStep;
    fn slider_down(sq: u8) -> SliderStep;
    fn slider_left(sq: u8) -> SliderStep;
    fn slider_right(sq: u8) -> SliderStep;
    fn slider_pext_fill(table: *mut u16, table_len: usize) -> SliderAnswer;
    fn slider_pext_moves(kind: u8, sq: u8, blockers: u64, table: *const u16, table_len: usize) -> SliderAnswer;
    fn slider_pext_place(kind: u8, sq: u8, table: *const u16, table_len: usize) -> SliderPlace;
    fn slider_search(kind: u8, sq: u8, seed: u64, budget: u64) -> SliderFound;
    fn slider_build(seed: u64, budget: u64, table: *mut u64, table_len: usize, marks: *mut u64, marks_len: usize) -> SliderBuild;
    fn slider_build_lent(multipliers: *const u64, multipliers_len: usize, table: *mut u64, table_len: usize, marks: *mut u64, marks_len: usize) -> SliderBuild;
    fn slider_moves(kind: u8, sq: u8, blockers: u64, magic: Record, table: *const u64, table_len: usize) -> SliderAnswer;
    fn slider_audit(set: SliderRecords, table: *const u64, table_len: usize) -> SliderVerdict;
    fn slider_moves_batch(set: SliderRecords, table: *const u64, table_len: usize, kinds: *const u8, kinds_len: usize, squares: *const u8, squares_len: usize, blockers: *const u64, blockers_len: usize, numbers: *mut u64, numbers_len: usize, moves: *mut u64, moves_len: usize) -> u64;
    fn slider_pext_moves_batch(table: *const u16, table_len: usize, kinds: *const u8, kinds_len: usize, squares: *const u8, squares_len: usize, blockers: *const u64, blockers_len: usize, numbers: *mut u64, numbers_len: usize, moves: *mut u64, moves_len: usize) -> u64;
    fn slider_walk_batch(kinds: *const u8, kinds_len: usize, squares: *const u8, squares_len: usize, blockers: *const u64, blockers_len: usize, numbers: *mut u64, numbers_len: usize, moves: *mut u64, moves_len: usize) -> u64;
}

// ---- numbers alone

macro_rules! numbers_alone {
    ($($name:ident = $export:ident($($arg:ident: $type:ty),+) -> $answer:ty;)+) => {$(
        #[inline]
        pub fn $name($($arg: $type),+) -> $answer {
            // SAFETY: by 1. Numbers go in and come out, nothing is lent.
            unsafe { $export($($arg),+) }
        }
    )+};
}

numbers_alone! {
    rays = slider_rays(kind: u8, sq: u8) -> SliderAnswer;
    mask = slider_mask(kind: u8, sq: u8) -> SliderAnswer;
    size = slider_size(kind: u8, sq: u8) -> SliderAnswer;
    shift = slider_shift(kind: u8, sq: u8) -> SliderAnswer;
    subset = slider_subset(kind: u8, sq: u8, i: u64) -> SliderAnswer;
    walk = slider_walk(kind: u8, sq: u8, blockers: u64) -> SliderAnswer;
    name = slider_name(sq: u8) -> SliderName;
    up = slider_up(sq: u8) -> SliderStep;
    down = slider_down(sq: u8) -> SliderStep;
    left = slider_left(sq: u8) -> SliderStep;
    right = slider_right(sq: u8) -> SliderStep;
    search = slider_search(kind: u8, sq: u8, seed: u64, budget: u64) -> SliderFound;
}

// ---- with loans

pub fn square(name: &[u8]) -> SliderAnswer {
    // SAFETY: by 1 to 3. `name` is read.
    unsafe { slider_square(name.as_ptr(), name.len()) }
}

pub fn pext_fill(table: &mut [u16]) -> SliderAnswer {
    // SAFETY: by 1 to 3. `table` is written, within its length; any 16 bits are a u16.
    unsafe { slider_pext_fill(table.as_mut_ptr(), table.len()) }
}

#[inline]
pub fn pext_moves(kind: u8, sq: u8, blockers: u64, table: &[u16]) -> SliderAnswer {
    // SAFETY: by 1 to 3. `table` is read.
    unsafe { slider_pext_moves(kind, sq, blockers, table.as_ptr(), table.len()) }
}

pub fn pext_place(kind: u8, sq: u8, table: &[u16]) -> SliderPlace {
    // SAFETY: by 1 to 3. `table` is lent for its length.
    unsafe { slider_pext_place(kind, sq, table.as_ptr(), table.len()) }
}

pub fn build(seed: u64, budget: u64, table: &mut [u64], marks: &mut [u64]) -> SliderBuild {
    // SAFETY: by 1 to 3. `table` and `marks` are written, and as two exclusive borrows they do not overlap.
    unsafe { slider_build(seed, budget, table.as_mut_ptr(), table.len(), marks.as_mut_ptr(), marks.len()) }
}

#[rustfmt::skip]
pub fn build_lent(multipliers: &[u64], table: &mut [u64], marks: &mut [u64]) -> SliderBuild {
    // SAFETY: by 1 to 3, as `build`; `multipliers` is read, and no exclusive borrow overlaps a shared one.
    unsafe {
        slider_build_lent(multipliers.as_ptr(), multipliers.len(), table.as_mut_ptr(), table.len(), marks.as_mut_ptr(), marks.len())
    }
}

#[inline]
pub fn moves(kind: u8, sq: u8, blockers: u64, magic: Record, table: &[u64]) -> SliderAnswer {
    // SAFETY: by 1 to 3. `table` is read, at no place past its length, whatever the record says (refusal 7).
    unsafe { slider_moves(kind, sq, blockers, magic, table.as_ptr(), table.len()) }
}

pub fn audit(set: SliderRecords, table: &[u64]) -> SliderVerdict {
    // SAFETY: by 1 to 3. `table` is read.
    unsafe { slider_audit(set, table.as_ptr(), table.len()) }
}

// ---- batches

/// The slices of a batch: query i is the i-th of the first three, its answer goes to the i-th of the last two.
pub struct Batch<'a> {
    pub kinds: &'a [u8],
    pub squares: &'a [u8],
    pub blockers: &'a [u64],
    pub numbers: &'a mut [u64],
    pub moves: &'a mut [u64],
}

macro_rules! ask {
    ($export:ident($($lent:expr),*), $batch:expr) => {
        // SAFETY: by 1 to 3. `numbers` and `moves` are written, each an exclusive borrow of its own; the rest is read.
        unsafe {
            $export(
                $($lent,)*
                $batch.kinds.as_ptr(), $batch.kinds.len(),
                $batch.squares.as_ptr(), $batch.squares.len(),
                $batch.blockers.as_ptr(), $batch.blockers.len(),
                $batch.numbers.as_mut_ptr(), $batch.numbers.len(),
                $batch.moves.as_mut_ptr(), $batch.moves.len(),
            )
        }
    };
}

impl Batch<'_> {
    pub fn magic(self, set: SliderRecords, table: &[u64]) -> u64 {
        ask!(slider_moves_batch(set, table.as_ptr(), table.len()), self)
    }

    pub fn pext(self, table: &[u16]) -> u64 {
        ask!(slider_pext_moves_batch(table.as_ptr(), table.len()), self)
    }

    pub fn walk(self) -> u64 {
        ask!(slider_walk_batch(), self)
    }
}

// ---- the C library

/// Is this file descriptor a terminal? (`std` can tell from Rust 1.70 on.)
pub fn is_terminal(descriptor: i32) -> bool {
    extern "C" {
        fn isatty(descriptor: i32) -> i32;
    }
    // SAFETY: a number goes in and comes out; any descriptor is allowed, also one that is not open.
    unsafe { isatty(descriptor) == 1 }
}
