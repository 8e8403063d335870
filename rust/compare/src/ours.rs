//! The library's exports (crates/slider_c/src/lib.rt), declared and wrapped. A slice crosses as pointer and length. Each export takes any
//! numbers, any records and any lengths, so each wrapper is safe.

pub const ALL: usize = 107_648;
pub const LIMIT: u64 = 16_777_216;

#[repr(C)]
#[derive(Clone, Copy, PartialEq, Eq, Debug)]
pub struct Answer {
    pub number: u64,
    pub value: u64,
}

#[repr(C)]
#[derive(Clone, Copy, PartialEq, Eq, Debug)]
pub struct Verdict {
    pub number: u64,
    pub block: u64,
    pub subset: u64,
    pub reach: u64,
}

#[repr(C)]
#[derive(Clone, Copy, PartialEq, Eq, Debug)]
pub struct Found {
    pub number: u64,
    pub block: u64,
    pub multiplier: u64,
    pub count: u64,
}

#[repr(C)]
#[derive(Clone, Copy, PartialEq, Eq, Debug)]
pub struct Record {
    pub multiplier: u64,
    pub mask: u64,
    pub offset: u32,
    pub shift: u8,
}

pub type Records = [Record; 128];

#[repr(C)]
#[derive(Clone)]
pub struct Build {
    pub number: u64,
    pub block: u64,
    pub used: u64,
    pub records: Records,
    pub counts: [u64; 128],
}

#[repr(C)]
pub struct Set {
    pub records: Records,
}

#[repr(C)]
#[derive(Clone, Copy, PartialEq, Eq, Debug)]
pub struct Place {
    pub number: u64,
    pub offset: u64,
    pub size: u64,
}

#[repr(C)]
#[derive(Clone, Copy, PartialEq, Eq, Debug)]
pub struct Name {
    pub number: u64,
    pub letter: u8,
    pub digit: u8,
}

#[repr(C)]
#[derive(Clone, Copy, PartialEq, Eq, Debug)]
pub struct Step {
    pub number: u64,
    pub off: u64,
    pub square: u64,
}

/// As they are, for null pointers.
#[rustfmt::skip]
pub mod raw {
    use super::*;
    extern "C" {
        pub fn slider_rays(kind: u8, sq: u8) -> Answer;
        pub fn slider_mask(kind: u8, sq: u8) -> Answer;
        pub fn slider_size(kind: u8, sq: u8) -> Answer;
        pub fn slider_shift(kind: u8, sq: u8) -> Answer;
        pub fn slider_subset(kind: u8, sq: u8, i: u64) -> Answer;
        pub fn slider_walk(kind: u8, sq: u8, blockers: u64) -> Answer;
        pub fn slider_square(name: *const u8, name_len: usize) -> Answer;
        pub fn slider_name(sq: u8) -> Name;
        pub fn slider_up(sq: u8) -> Step;
        pub fn slider_down(sq: u8) -> Step;
        pub fn slider_left(sq: u8) -> Step;
        pub fn slider_right(sq: u8) -> Step;
        pub fn slider_pext_fill(table: *mut u16, table_len: usize) -> Answer;
        pub fn slider_pext_moves(kind: u8, sq: u8, blockers: u64, table: *const u16, table_len: usize) -> Answer;
        pub fn slider_pext_place(kind: u8, sq: u8, table: *const u16, table_len: usize) -> Place;
        pub fn slider_search(kind: u8, sq: u8, seed: u64, budget: u64) -> Found;
        pub fn slider_build(seed: u64, budget: u64, table: *mut u64, table_len: usize, marks: *mut u64, marks_len: usize) -> Build;
        pub fn slider_build_lent(multipliers: *const u64, multipliers_len: usize, table: *mut u64, table_len: usize, marks: *mut u64, marks_len: usize) -> Build;
        pub fn slider_moves(kind: u8, sq: u8, blockers: u64, magic: Record, table: *const u64, table_len: usize) -> Answer;
        pub fn slider_audit(set: Set, table: *const u64, table_len: usize) -> Verdict;
        pub fn slider_walk_batch(kinds: *const u8, kinds_len: usize, squares: *const u8, squares_len: usize, blockers: *const u64, blockers_len: usize, numbers: *mut u64, numbers_len: usize, moves: *mut u64, moves_len: usize) -> u64;
        pub fn slider_pext_moves_batch(table: *const u16, table_len: usize, kinds: *const u8, kinds_len: usize, squares: *const u8, squares_len: usize, blockers: *const u64, blockers_len: usize, numbers: *mut u64, numbers_len: usize, moves: *mut u64, moves_len: usize) -> u64;
        pub fn slider_moves_batch(set: Set, table: *const u64, table_len: usize, kinds: *const u8, kinds_len: usize, squares: *const u8, squares_len: usize, blockers: *const u64, blockers_len: usize, numbers: *mut u64, numbers_len: usize, moves: *mut u64, moves_len: usize) -> u64;
    }
}

macro_rules! numbers_alone {
    ($($name:ident = $export:ident($($arg:ident: $type:ty),+) -> $answer:ty;)+) => {$(
        pub fn $name($($arg: $type),+) -> $answer {
            unsafe { raw::$export($($arg),+) }
        }
    )+};
}

numbers_alone! {
    rays = slider_rays(kind: u8, sq: u8) -> Answer;
    mask = slider_mask(kind: u8, sq: u8) -> Answer;
    size = slider_size(kind: u8, sq: u8) -> Answer;
    shift = slider_shift(kind: u8, sq: u8) -> Answer;
    subset = slider_subset(kind: u8, sq: u8, i: u64) -> Answer;
    walk = slider_walk(kind: u8, sq: u8, blockers: u64) -> Answer;
    name = slider_name(sq: u8) -> Name;
    up = slider_up(sq: u8) -> Step;
    down = slider_down(sq: u8) -> Step;
    left = slider_left(sq: u8) -> Step;
    right = slider_right(sq: u8) -> Step;
    search = slider_search(kind: u8, sq: u8, seed: u64, budget: u64) -> Found;
}

pub fn square(name: &[u8]) -> Answer {
    unsafe { raw::slider_square(name.as_ptr(), name.len()) }
}

pub fn pext_fill(table: &mut [u16]) -> Answer {
    unsafe { raw::slider_pext_fill(table.as_mut_ptr(), table.len()) }
}

pub fn pext_moves(kind: u8, sq: u8, blockers: u64, table: &[u16]) -> Answer {
    unsafe { raw::slider_pext_moves(kind, sq, blockers, table.as_ptr(), table.len()) }
}

pub fn pext_place(kind: u8, sq: u8, table: &[u16]) -> Place {
    unsafe { raw::slider_pext_place(kind, sq, table.as_ptr(), table.len()) }
}

pub fn build(seed: u64, budget: u64, table: &mut [u64], marks: &mut [u64]) -> Build {
    unsafe { raw::slider_build(seed, budget, table.as_mut_ptr(), table.len(), marks.as_mut_ptr(), marks.len()) }
}

pub fn build_lent(list: &[u64], table: &mut [u64], marks: &mut [u64]) -> Build {
    unsafe {
        raw::slider_build_lent(list.as_ptr(), list.len(), table.as_mut_ptr(), table.len(), marks.as_mut_ptr(), marks.len())
    }
}

pub fn moves(kind: u8, sq: u8, blockers: u64, magic: Record, table: &[u64]) -> Answer {
    unsafe { raw::slider_moves(kind, sq, blockers, magic, table.as_ptr(), table.len()) }
}

pub fn audit(records: &Records, table: &[u64]) -> Verdict {
    unsafe { raw::slider_audit(Set { records: *records }, table.as_ptr(), table.len()) }
}

// ---- batches

/// What a batch asks.
#[derive(Clone, Default)]
pub struct Queries {
    pub kinds: Vec<u8>,
    pub squares: Vec<u8>,
    pub blockers: Vec<u64>,
}

impl Queries {
    pub fn push(&mut self, kind: u8, sq: u8, blockers: u64) {
        self.kinds.push(kind);
        self.squares.push(sq);
        self.blockers.push(blockers);
    }

    pub fn len(&self) -> usize {
        self.kinds.len()
    }

    pub fn get(&self, i: usize) -> (u8, u8, u64) {
        (self.kinds[i], self.squares[i], self.blockers[i])
    }
}

/// How a batch is answered.
pub enum By<'a> {
    Walk,
    Pext(&'a [u16]),
    Magic(&'a Records, &'a [u64]),
}

pub fn batch(by: &By, q: &Queries, numbers: &mut [u64], moves: &mut [u64]) -> u64 {
    macro_rules! ask {
        ($export:ident($($lent:expr),*)) => {
            unsafe {
                raw::$export(
                    $($lent,)*
                    q.kinds.as_ptr(), q.kinds.len(),
                    q.squares.as_ptr(), q.squares.len(),
                    q.blockers.as_ptr(), q.blockers.len(),
                    numbers.as_mut_ptr(), numbers.len(),
                    moves.as_mut_ptr(), moves.len(),
                )
            }
        };
    }
    match by {
        By::Walk => ask!(slider_walk_batch()),
        By::Pext(table) => ask!(slider_pext_moves_batch(table.as_ptr(), table.len())),
        By::Magic(records, table) => ask!(slider_moves_batch(Set { records: **records }, table.as_ptr(), table.len())),
    }
}

/// The same query alone.
pub fn one(by: &By, kind: u8, sq: u8, blockers: u64) -> Answer {
    match by {
        By::Walk => walk(kind, sq, blockers),
        By::Pext(table) => pext_moves(kind, sq, blockers, table),
        By::Magic(records, table) => {
            let block = if kind == 0 { 64 + sq as usize } else { sq as usize };
            moves(kind, sq, blockers, records[block % 128], table)
        }
    }
}
