//! Sets as a type, what an audit has accepted, and memory that cannot be had: beside library.rs, with the board's rules as there.

use slider::*;

/// SplitMix64, for queries.
struct Random(u64);

impl Random {
    fn next(&mut self) -> u64 {
        self.0 = self.0.wrapping_add(0x9E37_79B9_7F4A_7C15);
        let mut z = self.0;
        z = (z ^ (z >> 30)).wrapping_mul(0xBF58_476D_1CE4_E5B9);
        z = (z ^ (z >> 27)).wrapping_mul(0x94D0_49BB_1331_11EB);
        z ^ (z >> 31)
    }

    /// Sets of several densities.
    fn set(&mut self) -> Bitboard {
        Bitboard(match self.next() % 4 {
            0 => self.next(),
            1 => self.next() & self.next(),
            2 => self.next() & self.next() & self.next(),
            _ => self.next() | self.next(),
        })
    }
}

fn blocks() -> impl Iterator<Item = (Kind, Square)> {
    (0..BLOCKS).map(|block| of_block(block).unwrap())
}

/// The squares from one on in each of the four directions of a kind, by rank and file.
fn lines(kind: Kind, square: Square) -> [Vec<Square>; 4] {
    let directions = match kind {
        Kind::Rook => [(0, 1), (0, -1), (1, 0), (-1, 0)],
        Kind::Bishop => [(1, 1), (1, -1), (-1, 1), (-1, -1)],
    };
    directions.map(|(up, right)| {
        let at = |n: i8| (square.rank() as i8 + n * up, square.file() as i8 + n * right);
        let on = |&(rank, file): &(i8, i8)| (0..8).contains(&rank) && (0..8).contains(&file);
        (1..8).map(at).take_while(on).map(|(rank, file)| Square::try_from((8 * rank + file) as u8).unwrap()).collect()
    })
}

fn plain_walk(kind: Kind, square: Square, blockers: Bitboard) -> Bitboard {
    let mut set = Bitboard::EMPTY;
    for line in lines(kind, square) {
        for place in line {
            set |= place.into();
            if blockers.contains(place) {
                break;
            }
        }
    }
    set
}

#[test]
fn squares_have_names() {
    assert_eq!((Square::A1.number(), Square::H1.number(), Square::A8.number(), Square::H8.number()), (0, 7, 56, 63));
    assert!(Square::all().eq(Square::ALL));
    for (n, square) in (0..64).zip(Square::ALL) {
        assert_eq!((square.number(), square.rank(), square.file()), (n, n / 8, n % 8));
        assert_eq!((Bitboard::from(square).0, square.bit()), (1 << n, 1 << n));
    }
    assert_eq!(Kind::ALL, [Kind::Rook, Kind::Bishop]);
    assert_eq!(format!("[{:4}] [{:>4}]", Square::D4, Kind::Rook), "[d4  ] [rook]");
}

/// Against a list of squares, one by one.
#[test]
fn bitboards_are_sets() {
    let mut random = Random(11);
    let sets: Vec<Bitboard> = [Bitboard::EMPTY, Bitboard::FULL]
        .into_iter()
        .chain(Square::ALL.map(Bitboard::from))
        .chain((0..200).map(|_| random.set()))
        .collect();
    for (i, &a) in sets.iter().enumerate() {
        let squares: Vec<Square> = Square::ALL.into_iter().filter(|square| a.0 >> square.number() & 1 == 1).collect();
        assert_eq!(a.into_iter().collect::<Vec<_>>(), squares);
        assert_eq!((a.len(), a.is_empty(), a.into_iter().len()), (squares.len(), squares.is_empty(), squares.len()));
        assert_eq!((squares.iter().copied().collect::<Bitboard>(), u64::from(a), Bitboard::from(a.0)), (a, a.0, a));
        assert!(Square::ALL.into_iter().all(|square| a.contains(square) == squares.contains(&square)));
        let lines: Vec<String> = a.to_string().lines().map(|line| line.replace(' ', "")).collect();
        assert_eq!((lines.len(), lines.iter().all(|line| line.len() == 8)), (8, true));
        assert!(Square::ALL.into_iter().all(|square| {
            let sign = lines[7 - usize::from(square.rank())].as_bytes()[usize::from(square.file())];
            sign == if a.contains(square) { b'X' } else { b'.' }
        }));
        let b = sets[(i * 7 + 3) % sets.len()];
        assert_eq!(((a & b).0, (a | b).0, (a ^ b).0, (a - b).0, (!a).0), (a.0 & b.0, a.0 | b.0, a.0 ^ b.0, a.0 & !b.0, !a.0));
        let mut c = [a; 4];
        c[0] &= b;
        c[1] |= b;
        c[2] ^= b;
        c[3] -= b;
        assert_eq!(c, [a & b, a | b, a ^ b, a - b]);
    }
    let set = Bitboard(0xFF);
    assert_eq!(
        (format!("{set:?}"), format!("{set:x}"), format!("{set:04X}")),
        ("Bitboard(0x00000000000000FF)".into(), "ff".into(), "00FF".into())
    );
}

#[test]
fn rays_masks_and_subsets_of_sets() {
    let mut slots = 0;
    for (kind, square) in blocks() {
        let lines = lines(kind, square);
        assert_eq!(Bitboard::rays(kind, square), lines.iter().flatten().copied().collect());
        // the last square of a line is an edge square, and its blocker changes nothing
        let inner: Bitboard = lines.iter().flat_map(|line| &line[..line.len().saturating_sub(1)]).copied().collect();
        assert_eq!(Bitboard::mask(kind, square), inner, "{kind} {square}");
        assert_eq!((size(kind, square), shift(kind, square)), (1 << inner.len(), 64 - inner.len() as u8));
        slots += size(kind, square);
        for i in [0, 1, 5, size(kind, square) as u64 - 1, u64::MAX] {
            let wanted = (0..12).filter(|j| i >> j & 1 == 1).filter_map(|j| inner.into_iter().nth(j)).collect();
            assert_eq!(Bitboard::subset(kind, square, i), wanted);
        }
    }
    assert_eq!(slots, ALL_SLOTS);
}

/// Walk, PEXT look-up, magic look-up and the look-up in what an audit has accepted are one, for all subsets of all masks and for any 64
/// bits.
#[test]
fn four_answers_are_one() {
    let (tables, pext) = (Tables::try_build(0xaea0_b056_15e9_7b6c).unwrap(), pext::Table::try_fill().unwrap());
    let audited = tables.audited().unwrap();
    let check = |kind, square, blockers| {
        let wanted = plain_walk(kind, square, blockers);
        assert_eq!(Bitboard::walk(kind, square, blockers), wanted, "{kind} {square} {blockers:016X}");
        assert_eq!(pext.attacks(kind, square, blockers), wanted, "{kind} {square} {blockers:016X}");
        assert_eq!(tables.attacks(kind, square, blockers), wanted, "{kind} {square} {blockers:016X}");
        assert_eq!(audited.attacks(kind, square, blockers), wanted, "{kind} {square} {blockers:016X}");
    };
    let mut random = Random(7);
    for (kind, square) in blocks() {
        for i in 0..size(kind, square) as u64 {
            check(kind, square, Bitboard::subset(kind, square, i));
        }
        for blockers in [Bitboard::EMPTY, Bitboard::FULL, square.into()].into_iter().chain((0..200).map(|_| random.set())) {
            check(kind, square, blockers);
        }
    }
}

/// Judged by the library before any memory is asked for; then memory that cannot be had is an error of its own, and no panic.
#[test]
fn arguments_before_memory() {
    let multipliers = [1; BLOCKS];
    for slots in [0, 1 << 44, usize::MAX / 8, usize::MAX] {
        for budget in [MAX_BUDGET + 1, u64::MAX] {
            assert_eq!(Tables::try_build_with(42, budget, slots), Err(Error::Refused(Refusal::Budget)), "{slots} slots");
        }
        for list in [&[][..], &[1, 2], &multipliers[1..]] {
            assert_eq!(Tables::try_from_multipliers(list, slots), Err(Error::Refused(Refusal::Length)), "{slots} slots");
        }
    }
    for count in [1 << 44, usize::MAX / 8, usize::MAX] {
        let error = Tables::try_build_with(42, MAX_BUDGET, count).unwrap_err();
        assert_eq!((error.refusal(), error.to_string()), (None, format!("the memory for {count} slots cannot be had")));
        assert_eq!(Tables::try_from_multipliers(&multipliers, count), Err(error));
        assert_eq!(slots(count).map_err(Error::from), Err(error));
    }
    assert_eq!(slots(3), Ok(vec![0; 3]));
    assert_eq!(Tables::try_build_with(42, 0, 0), Err(Error::Refused(Refusal::NoRoom { block: 0 })));
    assert_eq!(Tables::try_from_multipliers(&multipliers, 0), Err(Error::Refused(Refusal::NoRoom { block: 0 })));
    // the names without `try_` refuse as early
    for slots in [0, 1 << 44, usize::MAX / 8, usize::MAX] {
        assert_eq!(Tables::build_with(42, MAX_BUDGET + 1, slots), Err(Refusal::Budget), "{slots} slots");
        assert_eq!(Tables::from_multipliers(&[1, 2], slots), Err(Refusal::Length), "{slots} slots");
    }
    let error: Box<dyn std::error::Error> = Error::Refused(Refusal::Budget).into();
    assert_eq!(error.to_string(), Refusal::Budget.to_string());
}

#[test]
fn limits_of_a_build_that_may_lack_memory() {
    let seed = 0x6fd4_ce64_c83f_5143;
    let full = Tables::try_build(seed).unwrap();
    let most = *full.counts().iter().max().unwrap();
    let refused = |tables: Result<Tables, Error>| tables.unwrap_err().refusal().unwrap();
    assert_eq!(Tables::try_build_with(seed, most, full.used()).unwrap().records(), full.records());
    assert_eq!(refused(Tables::try_build_with(seed, most - 1, ALL_SLOTS)), Refusal::Spent { block: 108 });
    assert_eq!(refused(Tables::try_build_with(seed, MAX_BUDGET, full.used() - 1)), Refusal::NoRoom { block: 127 });
    assert_eq!(refused(Tables::try_build_with(seed, u64::MAX, 0)), Refusal::Budget);
    let multipliers = full.records().map(|record| record.multiplier);
    assert_eq!(Tables::try_from_multipliers(&multipliers, ALL_SLOTS).unwrap().records(), full.records());
    assert_eq!(refused(Tables::try_from_multipliers(&multipliers, full.used() - 1)), Refusal::NoRoom { block: 127 });
}

#[test]
fn what_an_audit_accepts() {
    let tables = Tables::build(1).unwrap();
    let (records, table) = (tables.records(), tables.table());
    let end = u64::from(records[127].offset) + 4096;
    assert_eq!(tables.audited().unwrap().reach(), end);
    assert_eq!(Audited::of(records, &table[..tables.used()]).unwrap().reach(), end);
    assert_eq!(Audited::of(records, &[]), Err(Refusal::IndexAt { block: 0, subset: 0 }));
    assert_eq!(Audited::of(&[Record::default(); BLOCKS], table), Err(Refusal::RecordAt { block: 0 }));
    let mut damaged = *records;
    damaged[64].multiplier ^= 1 << 40;
    assert_eq!(Audited::of(&damaged, table).map(Audited::reach), audit(&damaged, table));
    assert!(matches!(Audited::of(&damaged, table), Err(Refusal::SlotAt { block: 64, .. })));
}

/// Every type may be shared and sent.
#[test]
fn shared_and_sent() {
    fn both<T: Send + Sync>() {}
    both::<Tables>();
    both::<Bitboard>();
    both::<Audited>();
    both::<pext::Table>();
    both::<Error>();
}
