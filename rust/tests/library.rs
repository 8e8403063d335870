//! The library through its safe interface, against the board's rules written anew here.

use slider::*;

/// SplitMix64, for queries.
struct Random(u64);

impl Random {
    fn next(&mut self) -> u64 {
        self.0 = self.0.wrapping_add(0x9E37_79B9_7F4A_7C15);
        let mut z = self.0;
        z = (z ^ (z >> 30)).wrapping_mul(0xBF58_476D_1CE4_E5B9);
        z = (z ^ (z >> 27)).wrapping_mul(0x94D0_49BB_1331_11EB);
        z ^ (z >> 31)
    }

    /// Sets of several densities.
    fn set(&mut self) -> u64 {
        match self.next() % 4 {
            0 => self.next(),
            1 => self.next() & self.next(),
            2 => self.next() & self.next() & self.next(),
            _ => self.next() | self.next(),
        }
    }
}

fn blocks() -> impl Iterator<Item = (Kind, Square)> {
    (0..BLOCKS).map(|block| of_block(block).unwrap())
}

/// The squares from one on in each of the four directions of a kind, by rank and file.
fn lines(kind: Kind, square: Square) -> [Vec<Square>; 4] {
    let directions = match kind {
        Kind::Rook => [(0, 1), (0, -1), (1, 0), (-1, 0)],
        Kind::Bishop => [(1, 1), (1, -1), (-1, 1), (-1, -1)],
    };
    directions.map(|(up, right)| {
        let at = |n: i8| (square.rank() as i8 + n * up, square.file() as i8 + n * right);
        let on = |&(rank, file): &(i8, i8)| (0..8).contains(&rank) && (0..8).contains(&file);
        (1..8).map(at).take_while(on).map(|(rank, file)| Square::try_from((8 * rank + file) as u8).unwrap()).collect()
    })
}

fn plain_walk(kind: Kind, square: Square, blockers: u64) -> u64 {
    let mut set = 0;
    for line in lines(kind, square) {
        for place in line {
            set |= place.bit();
            if blockers & place.bit() != 0 {
                break;
            }
        }
    }
    set
}

#[test]
fn squares_and_their_names() {
    assert_eq!(Square::all().len(), 64);
    for (n, square) in (0..64).zip(Square::all()) {
        assert_eq!((square.number(), square.rank(), square.file(), square.bit()), (n, n / 8, n % 8, 1 << n));
        assert_eq!((Square::try_from(n), u8::from(square)), (Ok(square), n));
        let name = format!("{}{}", (b'a' + n % 8) as char, n / 8 + 1);
        assert_eq!((square.to_string(), name.parse()), (name.clone(), Ok(square)));
        assert_eq!(format!("{name} and what follows").parse(), Ok(square));
        let step = |allowed: bool, to: i8| allowed.then(|| Square::try_from((n as i8 + to) as u8).unwrap());
        assert_eq!((square.up(), square.down()), (step(n < 56, 8), step(n > 7, -8)));
        assert_eq!((square.left(), square.right()), (step(n % 8 > 0, -1), step(n % 8 < 7, 1)));
    }
    for n in 64..=255 {
        assert_eq!(Square::try_from(n), Err(Refusal::Square));
    }
    for name in ["", "a", "1", "a0", "a9", "i1", "`1", "A1", "1a", " a1", "é1"] {
        assert_eq!(name.parse::<Square>(), Err(Refusal::Square), "{name:?}");
    }
}

#[test]
fn kinds_and_blocks() {
    assert_eq!((Kind::try_from(0), Kind::try_from(1)), (Ok(Kind::Rook), Ok(Kind::Bishop)));
    assert!((2..=255).all(|n| Kind::try_from(n) == Err(Refusal::Kind)));
    for (number, (kind, square)) in blocks().enumerate() {
        assert_eq!(block(kind, square), number);
        assert_eq!(kind, if number < 64 { Kind::Bishop } else { Kind::Rook });
    }
    assert_eq!(of_block(128), None);
}

#[test]
fn rays_masks_and_subsets() {
    let mut slots = 0;
    for (kind, square) in blocks() {
        let set = |squares: &[Square]| squares.iter().fold(0, |set, square| set | square.bit());
        let lines = lines(kind, square);
        assert_eq!(rays(kind, square), lines.iter().fold(0, |all, line| all | set(line)));
        // the last square of a line is an edge square, and its blocker changes nothing
        let inner = lines.iter().fold(0, |all, line| all | set(&line[..line.len().saturating_sub(1)]));
        assert_eq!(mask(kind, square), inner, "{kind} {square}");
        assert_eq!((size(kind, square), shift(kind, square)), (1 << inner.count_ones(), 64 - inner.count_ones() as u8));
        slots += size(kind, square);
        for i in [0, 1, 5, size(kind, square) as u64 - 1, u64::MAX] {
            let nth = |j: u64| Square::all().filter(|s| inner & s.bit() != 0).nth(j as usize).map_or(0, Square::bit);
            let wanted = (0..12).filter(|j| i >> j & 1 == 1).fold(0, |set, j| set | nth(j));
            assert_eq!(subset(kind, square, i), wanted);
        }
    }
    assert_eq!(slots, ALL_SLOTS);
}

/// Demand 2 by runs: walk, PEXT look-up and magic look-up are one, for all subsets of all masks and for any 64 bits.
#[test]
fn three_engines_are_one() {
    let (tables, pext) = (Tables::build(0xaea0_b056_15e9_7b6c).unwrap(), pext::Table::fill());
    let check = |kind, square, blockers| {
        let wanted = plain_walk(kind, square, blockers);
        assert_eq!(walk(kind, square, blockers), wanted, "{kind} {square} {blockers:016X}");
        assert_eq!(pext.moves(kind, square, blockers), wanted, "{kind} {square} {blockers:016X}");
        assert_eq!(tables.moves(kind, square, blockers), Ok(wanted), "{kind} {square} {blockers:016X}");
    };
    let mut random = Random(7);
    for (kind, square) in blocks() {
        for i in 0..size(kind, square) as u64 {
            check(kind, square, subset(kind, square, i));
        }
        for blockers in [0, u64::MAX, square.bit()].into_iter().chain((0..200).map(|_| random.set())) {
            check(kind, square, blockers);
        }
    }
}

/// Demand 3 by runs: exactly from the largest count and the used length on, with the same tables whatever the memory held.
#[test]
fn limits_of_a_build() {
    let seed = 0x6fd4_ce64_c83f_5143;
    let full = Tables::build(seed).unwrap();
    let most = *full.counts().iter().max().unwrap();
    assert_eq!((full.used(), most), (104_959, 417_735));

    let least = Tables::build_with(seed, most, full.used()).unwrap();
    assert_eq!((least.records(), least.counts(), least.used()), (full.records(), full.counts(), full.used()));
    assert_eq!((least.table(), least.marks()), (&full.table()[..full.used()], &full.marks()[..full.used()]));
    assert!(full.table()[full.used()..].iter().chain(&full.marks()[full.used()..]).all(|&slot| slot == 0));
    assert_eq!(Tables::build_with(seed, most - 1, ALL_SLOTS).unwrap_err(), Refusal::Spent { block: 108 });
    assert_eq!(Tables::build_with(seed, MAX_BUDGET, full.used() - 1).unwrap_err(), Refusal::NoRoom { block: 127 });
    assert_eq!(Tables::build_with(seed, MAX_BUDGET + 1, ALL_SLOTS).unwrap_err(), Refusal::Budget);
    assert_eq!(Tables::build_with(seed, u64::MAX, 0).unwrap_err(), Refusal::Budget);

    let mut random = Random(1);
    let mut garbage = || (0..200_000).map(|_| random.next()).collect::<Vec<_>>();
    let (mut table, mut marks) = (garbage(), garbage());
    let again = build(seed, most, &mut table, &mut marks);
    assert_eq!(
        (again.outcome, &again.records, &again.counts, again.used),
        (Ok(()), full.records(), full.counts(), full.used())
    );
    assert_eq!((&table[..ALL_SLOTS], &marks[..ALL_SLOTS]), (full.table(), full.marks()));
    assert!(table[ALL_SLOTS..].iter().chain(&marks[ALL_SLOTS..]).all(|&slot| slot == 0));
}

#[test]
fn refused_builds() {
    let (zeros, counts) = ([Record::default(); BLOCKS], [0; BLOCKS]);
    let multipliers = [0; BLOCKS];
    type Run<'a> = &'a dyn Fn(&mut [u64], &mut [u64]) -> Build;
    let cases: [(&str, usize, usize, Run, Refusal); 10] = [
        ("unequal", 64, 63, &|t, m| build(0, 0, t, m), Refusal::LengthsDiffer),
        ("unequal, one empty", 0, 9, &|t, m| build(0, MAX_BUDGET, t, m), Refusal::LengthsDiffer),
        ("budget before lengths", 64, 63, &|t, m| build(0, MAX_BUDGET + 1, t, m), Refusal::Budget),
        ("no slots", 0, 0, &|t, m| build(0, 0, t, m), Refusal::NoRoom { block: 0 }),
        ("63 slots", 63, 63, &|t, m| build(0, MAX_BUDGET, t, m), Refusal::NoRoom { block: 0 }),
        ("64 slots, no budget", 64, 64, &|t, m| build(0, 0, t, m), Refusal::Spent { block: 0 }),
        ("127 multipliers", 64, 63, &|t, m| build_lent(&multipliers[1..], t, m), Refusal::Length),
        ("no multipliers", 64, 64, &|t, m| build_lent(&[], t, m), Refusal::Length),
        ("lent, unequal", 64, 63, &|t, m| build_lent(&multipliers, t, m), Refusal::LengthsDiffer),
        ("lent, colliding", 64, 64, &|t, m| build_lent(&multipliers, t, m), Refusal::Collides { block: 0 }),
    ];
    for (what, slots, marks, run, refusal) in cases {
        let (mut table, mut marks) = (vec![0xA5; slots], vec![0x5A; marks]);
        let (table_before, marks_before) = (table.clone(), marks.clone());
        let built = run(&mut table, &mut marks);
        assert_eq!((built.outcome, built.records, built.counts, built.used), (Err(refusal), zeros, counts, 0), "{what}");
        if refusal.block().is_some() {
            assert!(table.iter().chain(&marks).all(|&slot| slot == 0), "{what}");
        } else {
            assert_eq!((table, marks), (table_before, marks_before), "{what}");
        }
    }
}

#[test]
fn one_block_searches_are_the_builds() {
    let tables = Tables::build(1).unwrap();
    for (number, (kind, square)) in blocks().enumerate() {
        let (record, count) = (tables.records()[number], tables.counts()[number]);
        let found = Found { multiplier: record.multiplier, count };
        assert_eq!(search(kind, square, 1, MAX_BUDGET), Ok(found));
        assert_eq!(search(kind, square, 1, count - 1), Err(Refusal::Spent { block: number }));
        assert_eq!((record.mask, record.shift), (mask(kind, square), shift(kind, square)));
    }
    assert_eq!(search(Kind::Rook, "a1".parse().unwrap(), 1, MAX_BUDGET + 1), Err(Refusal::Budget));
}

#[test]
fn lent_multipliers_build_the_same() {
    let tables = Tables::build(0xaea0_b056_15e9_7b6c).unwrap();
    let multipliers = tables.records().map(|record| record.multiplier);
    let again = Tables::from_multipliers(&multipliers, ALL_SLOTS).unwrap();
    assert_eq!((again.table(), again.marks(), again.records()), (tables.table(), tables.marks(), tables.records()));
    assert_eq!((again.counts(), again.used()), (&[0; BLOCKS], tables.used()));
    assert_eq!(Tables::from_multipliers(&multipliers[1..], ALL_SLOTS).unwrap_err(), Refusal::Length);
    assert_eq!(Tables::from_multipliers(&multipliers, tables.used() - 1).unwrap_err(), Refusal::NoRoom { block: 127 });
}

#[test]
fn look_ups_refuse_8_before_7() {
    let d4: Square = "d4".parse().unwrap();
    let record = Record { multiplier: 0, mask: 0, offset: 0, shift: 52 };
    assert_eq!(moves(Kind::Rook, d4, 0, record, &[u64::MAX]), Ok(rays(Kind::Rook, d4)));
    assert_eq!(moves(Kind::Rook, d4, 0, record, &[]), Err(Refusal::Index));
    assert_eq!(moves(Kind::Rook, d4, 0, Record { offset: 1, ..record }, &[0]), Err(Refusal::Index));
    assert_eq!(moves(Kind::Rook, d4, 0, Record { offset: u32::MAX, ..record }, &[0]), Err(Refusal::Index));
    for shift in (0..52).chain(60..=255) {
        assert_eq!(moves(Kind::Rook, d4, 0, Record { shift, ..record }, &[]), Err(Refusal::Shift), "{shift}");
    }
}

#[test]
fn audits() {
    let tables = Tables::build(1).unwrap();
    let (records, table) = (tables.records(), tables.table());
    let end = u64::from(records[127].offset) + 4096;
    assert_eq!(tables.audit(), Ok(end));
    assert_eq!(audit(records, &table[..tables.used()]), Ok(end));
    assert_eq!(audit(records, &[]), Err(Refusal::IndexAt { block: 0, subset: 0 }));
    assert_eq!(audit(&[Record::default(); BLOCKS], table), Err(Refusal::RecordAt { block: 0 }));
    let damaged = |number: usize, damage: fn(&mut Record)| {
        let mut records = *records;
        damage(&mut records[number]);
        audit(&records, table)
    };
    assert_eq!(damaged(90, |r| r.mask ^= 1), Err(Refusal::RecordAt { block: 90 }));
    assert_eq!(damaged(127, |r| r.shift += 1), Err(Refusal::RecordAt { block: 127 }));
    assert_eq!(damaged(64, |r| r.offset = u32::MAX), Err(Refusal::IndexAt { block: 64, subset: 0 }));
    assert!(matches!(damaged(64, |r| r.multiplier ^= 1 << 40), Err(Refusal::SlotAt { block: 64, .. })));
    // each slot of a block that a subset reaches, one bit of its rays flipped: the first subset to reach it is named
    let d4 = "d4".parse().unwrap();
    let record = records[block(Kind::Rook, d4)];
    for i in [0, 1, 100, 1023] {
        let index = (record.multiplier.wrapping_mul(subset(Kind::Rook, d4, i)) >> record.shift) as usize;
        let mut table = table.to_vec();
        table[record.offset as usize + index] ^= 1 << 26; // c4
        match audit(records, &table) {
            Err(Refusal::SlotAt { block, subset }) => {
                assert!(block == 91 && subset as u64 <= i, "block {block}, subset {subset}")
            }
            other => panic!("{other:?}"),
        }
    }
}

#[test]
fn pext_tables() {
    let table = pext::Table::fill();
    let mut dirty = vec![0xA5A5; pext::ENTRIES];
    assert_eq!(pext::fill(&mut dirty), Ok(107_648));
    assert_eq!(dirty, table.entries());
    for length in [0, 1, 107_647, 107_649] {
        let mut entries = vec![0xA5A5; length];
        assert_eq!(pext::fill(&mut entries), Err(Refusal::Length));
        assert!(entries.iter().all(|&entry| entry == 0xA5A5));
        assert_eq!(pext::moves(Kind::Rook, Square::try_from(0).unwrap(), 0, &entries), Err(Refusal::Length));
    }
    for (kind, name, offset) in [
        (Kind::Rook, "a1", 0),
        (Kind::Bishop, "a1", 4096),
        (Kind::Rook, "b1", 4160),
        (Kind::Bishop, "b1", 6208),
        (Kind::Rook, "c1", 6240),
        (Kind::Rook, "h8", 103_488),
        (Kind::Bishop, "h8", 107_584),
    ] {
        let square = name.parse().unwrap();
        assert_eq!(pext::place(kind, square, table.entries()), Ok(offset..offset + size(kind, square)));
        assert_eq!(table.block(kind, square), &table.entries()[offset..offset + size(kind, square)]);
    }
}

/// As many as the shortest slice has; refused queries too; what is past the end stays.
#[test]
fn batches() {
    let (tables, pext) = (Tables::build(1).unwrap(), pext::Table::fill());
    let mut random = Random(3);
    let count = 5000;
    let kinds: Vec<u8> =
        (0..count).map(|i| if i % 97 == 0 { 2 + (random.next() % 254) as u8 } else { (random.next() % 2) as u8 }).collect();
    let squares: Vec<u8> =
        (0..count).map(|i| if i % 89 == 0 { random.next() as u8 } else { (random.next() % 64) as u8 }).collect();
    let blockers: Vec<u64> = (0..count).map(|_| random.set()).collect();
    let wanted: Vec<(u64, u64)> = (0..count)
        .map(|i| match (Kind::try_from(kinds[i]), Square::try_from(squares[i])) {
            (Ok(kind), Ok(square)) => (0, plain_walk(kind, square, blockers[i])),
            (Err(refusal), _) | (_, Err(refusal)) => (refusal.number().into(), 0),
        })
        .collect();
    assert!([1, 2].iter().all(|&number| wanted.contains(&(number, 0))));

    type Engine<'a> = &'a dyn Fn(&[u8], &[u8], &[u64], &mut [u64], &mut [u64]) -> usize;
    let engines: [Engine; 3] = [
        &|k, s, b, n, m| tables.moves_batch(k, s, b, n, m),
        &|k, s, b, n, m| pext.moves_batch(k, s, b, n, m),
        &|k, s, b, n, m| walk_batch(k, s, b, n, m),
    ];
    for (at, engine) in engines.iter().enumerate() {
        for lengths in [
            [count; 5],
            [7, 8, 9, 10, 11],
            [8, 7, 9, 10, 11],
            [9, 8, 7, 10, 11],
            [9, 9, 9, 7, 9],
            [9, 9, 9, 9, 7],
            [0, 1, 1, 1, 1],
            [1, 1, 1, 1, 0],
        ] {
            let (mut numbers, mut moves) = (vec![99; lengths[3]], vec![99; lengths[4]]);
            let answered =
                engine(&kinds[..lengths[0]], &squares[..lengths[1]], &blockers[..lengths[2]], &mut numbers, &mut moves);
            assert_eq!(answered, *lengths.iter().min().unwrap(), "engine {at}, {lengths:?}");
            for i in 0..answered {
                assert_eq!((numbers[i], moves[i]), wanted[i], "engine {at}, query {i}");
            }
            assert!(numbers[answered..].iter().chain(&moves[answered..]).all(|&slot| slot == 99), "engine {at}, {lengths:?}");
        }
    }

    // 8, 7 and 9 in a batch
    let (mut numbers, mut moves) = ([0; 2], [9; 2]);
    let mut records = *tables.records();
    records[64].shift = 60;
    moves_batch(&records, &[], &[0, 1], &[0, 0], &[0, 0], &mut numbers, &mut moves);
    assert_eq!((numbers, moves), ([8, 7], [0, 0]));
    pext::moves_batch(&[0; 5], &[0, 2], &[0, 0], &[0, 0], &mut numbers, &mut moves);
    assert_eq!((numbers, moves), ([9, 1], [0, 0]));
    assert_eq!(numbers.map(Refusal::of_look_up), [Some(Refusal::Length), Some(Refusal::Kind)]);
}

#[test]
fn refusals_have_their_numbers_and_words() {
    let (block, subset) = (64, 5);
    let all = [
        (Refusal::Kind, 1, None, None, "refusal 1: the kind is neither 0 (rook) nor 1 (bishop)"),
        (Refusal::Square, 2, None, None, "refusal 2: there is no such square"),
        (Refusal::LengthsDiffer, 3, None, None, "refusal 3: table and marks differ in length"),
        (Refusal::NoRoom { block }, 4, Some(64), None, "refusal 4: no room in the table for block 64 (rook a1)"),
        (
            Refusal::Spent { block },
            5,
            Some(64),
            None,
            "refusal 5: the budget is spent, and no candidate has passed for block 64 (rook a1)",
        ),
        (Refusal::Collides { block }, 6, Some(64), None, "refusal 6: the lent multiplier of block 64 (rook a1) collides"),
        (Refusal::Index, 7, None, None, "refusal 7: the look-up's index is past the table's end"),
        (
            Refusal::IndexAt { block, subset },
            7,
            Some(64),
            Some(5),
            "refusal 7: the index of subset 5 of block 64 (rook a1) is past the table's end",
        ),
        (Refusal::Shift, 8, None, None, "refusal 8: the record's shift is outside 52 to 59"),
        (Refusal::RecordAt { block }, 8, Some(64), None, "refusal 8: the mask or the shift of block 64 (rook a1) is wrong"),
        (Refusal::Length, 9, None, None, "refusal 9: not 128 multipliers, or not 107648 PEXT entries"),
        (Refusal::Budget, 10, None, None, "refusal 10: the budget is above 16777216"),
        (
            Refusal::SlotAt { block, subset },
            11,
            Some(64),
            Some(5),
            "refusal 11: the slot of subset 5 of block 64 (rook a1) does not give the walk",
        ),
    ];
    for (refusal, number, block, subset, text) in all {
        assert_eq!((refusal.number(), refusal.block(), refusal.subset()), (number, block, subset));
        let error: Box<dyn std::error::Error> = refusal.into();
        assert_eq!(error.to_string(), text);
    }
    let looked_up = [
        None,
        Some(Refusal::Kind),
        Some(Refusal::Square),
        None,
        None,
        None,
        None,
        Some(Refusal::Index),
        Some(Refusal::Shift),
        Some(Refusal::Length),
        None,
        None,
    ];
    assert_eq!([0, 1, 2, 3, 4, 5, 6, 7, 8, 9, 10, 11].map(Refusal::of_look_up), looked_up);
}

/// Builds and look-ups from several threads at once: the library keeps nothing between calls.
#[test]
fn threads() {
    let tables = Tables::build(1).unwrap();
    std::thread::scope(|scope| {
        for seed in 0..3 {
            let tables = &tables;
            scope.spawn(move || {
                assert_eq!(Tables::build(1).unwrap(), *tables);
                let mut random = Random(seed);
                for (kind, square) in blocks() {
                    let blockers = random.set();
                    assert_eq!(tables.moves(kind, square, blockers), Ok(walk(kind, square, blockers)));
                }
            });
        }
    });
}
