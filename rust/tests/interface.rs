//! What programs that use this package are compiled against: signatures, fields, cases. None of it may change or go.
#![allow(clippy::type_complexity)] // a signature is what it is

use slider::*;
use std::fmt::{Debug, Display};
use std::hash::Hash;
use std::ops::Range;

#[test]
fn functions() {
    let _: [fn(Kind, Square) -> u64; 2] = [rays, mask];
    let _: fn(Kind, Square) -> usize = size;
    let _: fn(Kind, Square) -> u8 = shift;
    let _: fn(Kind, Square, u64) -> u64 = subset;
    let _: fn(Kind, Square, u64) -> u64 = walk;
    let _: fn(Kind, Square) -> usize = block;
    let _: fn(usize) -> Option<(Kind, Square)> = of_block;
    let _: fn(Kind, Square, u64, u64) -> Result<Found, Refusal> = search;
    let _: fn(u64, u64, &mut [u64], &mut [u64]) -> Build = build;
    let _: fn(&[u64], &mut [u64], &mut [u64]) -> Build = build_lent;
    let _: fn(Kind, Square, u64, Record, &[u64]) -> Result<u64, Refusal> = moves;
    let _: fn(&[Record; BLOCKS], &[u64]) -> Result<u64, Refusal> = audit;
    let _: fn(i32) -> bool = is_terminal;
    type Batch = fn(&[u8], &[u8], &[u64], &mut [u64], &mut [u64]) -> usize;
    let _: Batch = walk_batch;
    type MagicBatch = fn(&[Record; BLOCKS], &[u64], &[u8], &[u8], &[u64], &mut [u64], &mut [u64]) -> usize;
    let _: MagicBatch = moves_batch;

    let _: fn(&mut [u16]) -> Result<u64, Refusal> = pext::fill;
    let _: fn(Kind, Square, u64, &[u16]) -> Result<u64, Refusal> = pext::moves;
    let _: fn(Kind, Square, &[u16]) -> Result<Range<usize>, Refusal> = pext::place;
    type PextBatch = fn(&[u16], &[u8], &[u8], &[u64], &mut [u64], &mut [u64]) -> usize;
    let _: PextBatch = pext::moves_batch;
    let _: [usize; 3] = [BLOCKS, ALL_SLOTS, pext::ENTRIES];
    let _: u64 = MAX_BUDGET;
}

#[test]
fn methods() {
    let _: fn(u64) -> Result<Tables, Refusal> = Tables::build;
    let _: fn(u64, u64, usize) -> Result<Tables, Refusal> = Tables::build_with;
    let _: fn(&[u64], usize) -> Result<Tables, Refusal> = Tables::from_multipliers;
    let _: fn(&Tables, Kind, Square, u64) -> Result<u64, Refusal> = Tables::moves;
    let _: fn(&Tables, &[u8], &[u8], &[u64], &mut [u64], &mut [u64]) -> usize = Tables::moves_batch;
    let _: fn(&Tables) -> Result<u64, Refusal> = Tables::audit;
    let _: [fn(&Tables) -> &[u64]; 2] = [Tables::table, Tables::marks];
    let _: fn(&Tables) -> &[Record; BLOCKS] = Tables::records;
    let _: fn(&Tables) -> &[u64; BLOCKS] = Tables::counts;
    let _: fn(&Tables) -> usize = Tables::used;

    let _: fn() -> pext::Table = pext::Table::fill;
    let _: fn(&pext::Table, Kind, Square, u64) -> u64 = pext::Table::moves;
    let _: fn(&pext::Table, &[u8], &[u8], &[u64], &mut [u64], &mut [u64]) -> usize = pext::Table::moves_batch;
    let _: fn(&pext::Table, Kind, Square) -> &[u16] = pext::Table::block;
    let _: fn(&pext::Table) -> &[u16] = pext::Table::entries;

    let _: [fn(Square) -> u8; 3] = [Square::number, Square::rank, Square::file];
    let _: fn(Square) -> u64 = Square::bit;
    let _: [fn(Square) -> Option<Square>; 4] = [Square::up, Square::down, Square::left, Square::right];
    assert_eq!(Square::all().rev().len(), 64);

    let _: fn(Refusal) -> u8 = Refusal::number;
    let _: [fn(Refusal) -> Option<usize>; 2] = [Refusal::block, Refusal::subset];
    let _: fn(u64) -> Option<Refusal> = Refusal::of_look_up;
}

#[test]
fn traits() {
    fn number<T: TryFrom<u8, Error = Refusal> + Into<u8>>() {}
    fn value<T: Copy + Debug + Eq + Hash>() {}
    fn shown<T: Display + Ord>() {}
    fn error<T: std::error::Error>() {}
    fn own<T: Clone + Debug + Eq>() {}
    fn read<T: std::str::FromStr<Err = Refusal>>() {}
    number::<Kind>();
    number::<Square>();
    value::<Kind>();
    value::<Square>();
    value::<Refusal>();
    value::<Record>();
    value::<Found>();
    shown::<Kind>();
    shown::<Square>();
    read::<Square>();
    error::<Refusal>();
    own::<Build>();
    own::<Tables>();
    own::<pext::Table>();
    assert_eq!(Record::default(), Record { multiplier: 0, mask: 0, offset: 0, shift: 0 });
    assert_eq!((Kind::Rook as u8, Kind::Bishop as u8), (0, 1));
    assert_eq!(format!("{:?} {:?}", Square::try_from(27).unwrap(), Kind::Rook), "Square(27) Rook");
}

/// Structs are made and taken apart by their fields, and a match over all cases needs no other.
#[test]
fn fields_and_cases() {
    let Found { multiplier, count } = Found { multiplier: 1, count: 2 };
    let record = Record { multiplier, mask: 3_u64, offset: 4_u32, shift: 52_u8 };
    let Record { multiplier: _, mask: _, offset: _, shift: _ } = record;
    let built = Build { outcome: Err(Refusal::Length), used: 0_usize, records: [record; BLOCKS], counts: [count; BLOCKS] };
    let Build { outcome, used: _, records: _, counts: _ } = built;
    let carried = match outcome.unwrap_err() {
        Refusal::Kind | Refusal::Square | Refusal::LengthsDiffer | Refusal::Index | Refusal::Shift => 0,
        Refusal::Length | Refusal::Budget => 1,
        Refusal::NoRoom { block } | Refusal::Spent { block } | Refusal::Collides { block } | Refusal::RecordAt { block } => {
            block
        }
        Refusal::IndexAt { block, subset } | Refusal::SlotAt { block, subset } => block + subset,
    };
    assert_eq!(carried, 1);
    let other = match Kind::Rook {
        Kind::Rook => Kind::Bishop,
        Kind::Bishop => Kind::Rook,
    };
    assert_eq!(other, Kind::Bishop);
}
