//! Magic look-ups, one at a time and in batches, in our builds, in builds from the original's multipliers and in the original's own tables,
//! against get_rook_moves and get_bishop_moves; any record and any table, against the rulebook.
use crate::anew;
use crate::builds::anew_records;
use crate::ours::{self, By, Queries, Record, Records, ALL, LIMIT};
use crate::random::Random;
use crate::tally::Report;
use crate::theirs::{self, kind_square, Original};
use crate::walks;
use std::collections::BTreeMap;
use std::sync::Mutex;

#[derive(Clone)]
pub struct Tables {
    pub name: String,
    pub records: Records,
    pub table: Vec<u64>,
    pub marks: Vec<u64>,
}

/// Our build from a seed, made once.
pub fn built(seed: u64) -> Tables {
    static MADE: Mutex<BTreeMap<u64, Tables>> = Mutex::new(BTreeMap::new());
    let make = || {
        let (mut table, mut marks) = (vec![!0; ALL], vec![!0; ALL]);
        let b = ours::build(seed, LIMIT, &mut table, &mut marks);
        assert_eq!(b.number, 0);
        Tables { name: format!("seed {seed:#x}"), records: b.records, table, marks }
    };
    MADE.lock().unwrap().entry(seed).or_insert_with(make).clone()
}

pub fn lent(name: &str, multipliers: &[u64]) -> Tables {
    let (mut table, mut marks) = (vec![!0; ALL], vec![!0; ALL]);
    let b = ours::build_lent(multipliers, &mut table, &mut marks);
    assert_eq!(b.number, 0);
    Tables { name: name.into(), records: b.records, table, marks }
}

pub fn run(r: &mut Report, o: &Original, n: u64, seed: u64, small: bool) {
    let mut random = Random::new(seed);
    let q = walks::queries(&mut random, n);
    let want: Vec<u64> = (0..q.len()).map(|i| theirs::moves(q.kinds[i], q.squares[i], q.blockers[i])).collect();
    let image = &o.images[0];
    let all = [
        built(42),
        built(0xAEA0_B056_15E9_7B6C),
        lent("the original's multipliers", &image.multipliers()),
        Tables {
            name: "the original's own records and table".into(),
            records: image.records,
            table: image.moves.clone(),
            marks: vec![],
        },
    ];
    for tables in &all[if small { 3 } else { 0 }..] {
        let by = By::Magic(&tables.records, &tables.table);
        let mut t = [
            r.start(&format!("{}: all subsets, also with squares off the mask: the answers", tables.name)),
            r.start(&format!("{}: any 64 bits: get_rook_moves, get_bishop_moves", tables.name)),
            r.start(&format!("{}: the same in batches", tables.name)),
        ];
        for block in 0..128 {
            let (kind, sq) = kind_square(block);
            for (question, answer) in o.questions[block].iter().zip(&o.answers[block]) {
                for b in [*question, question | random.next() & !o.masks[block]] {
                    let say = || format!("kind {kind}, square {sq}, blockers {b:#x}");
                    t[0].said(ours::one(&by, kind, sq, b), Ok(*answer), say);
                }
            }
        }
        for i in 0..q.len() {
            let (kind, sq, b) = q.get(i);
            t[1].said(ours::one(&by, kind, sq, b), Ok(want[i]), || walks::say(&q, i));
        }
        walks::in_batches(&mut t[2], &by, &q, &want);
        r.ends(t);
    }
    any_record(r, &mut random, n / 2);
    batches_of_any(r, &mut random, n / 20);
}

/// Shifts from 50 to 61 mostly, offsets around the table's end mostly.
fn record(random: &mut Random, len: usize) -> Record {
    let near = |random: &mut Random, n: u64| random.below(n + 1);
    Record {
        multiplier: random.next(),
        mask: random.next() & random.next(),
        offset: match random.below(8) {
            0 => random.next() as u32,
            1 => u32::MAX - random.below(5_000) as u32,
            _ => near(random, len as u64) as u32,
        },
        shift: match random.below(8) {
            0 => random.next() as u8,
            _ => 50 + random.below(12) as u8,
        },
    }
}

/// A kind and a square, one time in eight out of range.
fn block(random: &mut Random) -> (u8, u8) {
    match random.below(8) {
        0 => (random.next() as u8, (random.next() >> 8) as u8),
        _ => (random.below(2) as u8, random.below(64) as u8),
    }
}

fn any_record(r: &mut Report, random: &mut Random, n: u64) {
    let mut t = r.start("rulebook: any record, any table, any kind and square: the value, or 1, 2, 8, 7");
    let garbage = random.words(20_000);
    let mut met = BTreeMap::new();
    for _ in 0..n {
        let len = match random.below(4) {
            0 => random.below(5),
            1 => random.below(5_000),
            _ => random.below(20_001),
        } as usize;
        let (record, (kind, sq), b) = (record(random, len), block(random), random.next());
        let records =
            anew::Record { multiplier: record.multiplier, mask: record.mask, offset: record.offset, shift: record.shift };
        let theirs = anew::look_up(kind, sq, b, &records, &garbage[..len]).map_err(|n| n as u64);
        *met.entry(theirs.err().unwrap_or(0)).or_insert(0) += 1;
        let say = || format!("kind {kind}, square {sq}, blockers {b:#x}, {record:?}, {len} slots");
        t.said(ours::moves(kind, sq, b, record, &garbage[..len]), theirs, say);
    }
    r.say(|| format!("             look-ups with any record: numbers met (look-ups): {}", crate::builds::met(&met)));
    r.end(t);
}

/// Batches that mix answers and refusals, with slices of five lengths.
fn batches_of_any(r: &mut Report, random: &mut Random, n: u64) {
    let mut t = [
        r.start("batches with unequal slices: as many queries as the shortest has"),
        r.start("rulebook: batches of walks, any kinds and squares: or 1, 2; the rest as before"),
        r.start("rulebook: batches by PEXT, any table, some of a wrong length: or 1, 2, 9; the rest as before"),
        r.start("rulebook: batches by magic, any records, any table: or 1, 2, 8, 7; the rest as before"),
    ];
    let entries: Vec<u16> = (0..ALL).map(|_| random.next() as u16).collect();
    let slots = random.words(20_000);
    let mut asked = 0;
    while asked < n {
        let mut q = Queries::default();
        let most = random.below(400);
        for _ in 0..most {
            let (kind, sq) = block(random);
            q.push(kind, sq, random.next());
        }
        // as long, or cut
        let mut cut = || if random.below(3) == 0 { random.below(most + 1) } else { most } as usize;
        let lengths = [cut(), cut(), cut(), cut(), cut()];
        q.kinds.truncate(lengths[0]);
        q.squares.truncate(lengths[1]);
        q.blockers.truncate(lengths[2]);
        let fewest = *lengths.iter().min().unwrap();
        let len = random.below(20_001) as usize;
        let records: Records = std::array::from_fn(|_| record(random, len));
        let wrong = random.below(4) == 0;
        let pext = &entries[..if wrong { random.below(ALL as u64) as usize } else { ALL }];
        let list = anew_records(&records);
        let bys = [By::Walk, By::Pext(pext), By::Magic(&records, &slots[..len])];
        for (k, by) in bys.iter().enumerate() {
            let (mut numbers, mut moves) = (random.words(lengths[3]), random.words(lengths[4]));
            let before = (numbers.clone(), moves.clone());
            let answered = ours::batch(by, &q, &mut numbers, &mut moves);
            t[0].same(answered, fewest as u64, || format!("lengths {lengths:?}"));
            for i in 0..fewest {
                let (kind, sq, b) = q.get(i);
                let theirs = match by {
                    _ if kind > 1 => Err(1),
                    _ if sq > 63 => Err(2),
                    By::Walk => Ok(anew::walk(kind, sq, b)),
                    By::Pext(table) => anew::pext_look_up(kind, sq, b, table).map_err(|n| n as u64),
                    By::Magic(_, table) => {
                        anew::look_up(kind, sq, b, &list[theirs::block(kind, sq)], table).map_err(|n| n as u64)
                    }
                };
                t[1 + k].said(ours::Answer { number: numbers[i], value: moves[i] }, theirs, || walks::say(&q, i));
            }
            for i in fewest..lengths[3] {
                t[1 + k].same(numbers[i], before.0[i], || format!("number {i} of a batch of {fewest}"));
            }
            for i in fewest..lengths[4] {
                t[1 + k].same(moves[i], before.1[i], || format!("answer {i} of a batch of {fewest}"));
            }
        }
        asked += 3 * fewest as u64 + 1;
    }
    r.ends(t);
}
