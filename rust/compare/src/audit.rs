//! The audit: it accepts every build, and refuses one that is damaged, with the number, block and subset of the independent builder's audit.
use crate::builds::{anew_audit, met, verdicts, FEW};
use crate::magic::{built, lent, Tables};
use crate::ours::{self, Record, Records, ALL};
use crate::random::Random;
use crate::tally::Report;
use crate::theirs::Original;
use std::collections::{BTreeMap, BTreeSet};

/// What is wrong with a build: records, words XORed into slots, the table's length.
struct Damage {
    records: Records,
    flips: Vec<(usize, u64)>,
    len: usize,
}

/// A way to damage a build, and the numbers that the audit may answer.
struct Sort {
    name: &'static str,
    numbers: &'static [u64],
    apply: fn(&mut Damage, &Tables, &Original, &mut Random),
}

const SORTS: [Sort; 11] = [
    Sort { name: "nothing changed: accepted", numbers: &[0], apply: |_, _, _, _| () },
    Sort { name: "one bit of a slot, within the rays of a block that reaches it: 11", numbers: &[11], apply: bit_seen },
    Sort {
        name: "one bit of a slot, outside all rays of the blocks that reach it: accepted",
        numbers: &[0],
        apply: bit_unseen,
    },
    Sort { name: "a changed mask: 8", numbers: &[8], apply: mask },
    Sort { name: "a changed shift: 8", numbers: &[8], apply: shift },
    Sort { name: "a changed offset: 7 or 11", numbers: &[7, 11], apply: offset },
    Sort { name: "a table one slot short of a reached one: 7", numbers: &[7], apply: cut },
    Sort {
        name: "a changed multiplier: 7 or 11, or accepted where no product changes",
        numbers: &[7, 11, 0],
        apply: multiplier,
    },
    Sort { name: "the records of two blocks exchanged: 7, 8 or 11", numbers: &[7, 8, 11], apply: exchange },
    Sort { name: "two to four of these damages: 7, 8 or 11", numbers: &[7, 8, 11], apply: several },
    Sort { name: "any records: 7, 8 or 11", numbers: &[7, 8, 11], apply: any },
];

/// The slot that a question of a block reaches, both chosen at random.
fn reached(tables: &Tables, o: &Original, random: &mut Random) -> (usize, usize) {
    let block = random.below(128) as usize;
    let question = o.questions[block][random.below(o.questions[block].len() as u64) as usize];
    let r = tables.records[block];
    (block, r.offset as usize + (r.multiplier.wrapping_mul(question) >> r.shift) as usize)
}

fn bit_seen(d: &mut Damage, tables: &Tables, o: &Original, random: &mut Random) {
    let (block, slot) = reached(tables, o, random);
    d.flips.push((slot, random.bit_of(o.rays[block])));
}

/// The marks of a build are the rays of the blocks that reach a slot. A slot that none reaches may hold anything.
fn bit_unseen(d: &mut Damage, tables: &Tables, o: &Original, random: &mut Random) {
    let slot = if random.below(4) == 0 { random.below(ALL as u64) as usize } else { reached(tables, o, random).1 };
    if tables.marks[slot] != !0 {
        d.flips.push((slot, random.bit_of(!tables.marks[slot])));
    }
}

fn mask(d: &mut Damage, _: &Tables, _: &Original, random: &mut Random) {
    let mask = &mut d.records[random.below(128) as usize].mask;
    let before = *mask;
    *mask = match random.below(4) {
        0 => random.next(),
        1 => 0,
        _ => before ^ 1 << random.below(64),
    };
    if *mask == before {
        *mask = !before;
    }
}

fn shift(d: &mut Damage, _: &Tables, _: &Original, random: &mut Random) {
    let shift = &mut d.records[random.below(128) as usize].shift;
    let before = *shift;
    *shift = match random.below(4) {
        0 => random.next() as u8,
        1 => 52 + random.below(8) as u8,
        2 => before + 1,
        _ => before - 1,
    };
    if *shift == before {
        *shift = 0;
    }
}

fn offset(d: &mut Damage, _: &Tables, _: &Original, random: &mut Random) {
    let offset = &mut d.records[random.below(128) as usize].offset;
    let before = *offset;
    *offset = match random.below(6) {
        0 => random.next() as u32,
        1 => ALL as u32 - random.below(4_096) as u32,
        2 => before.wrapping_sub(1),
        3 => before + 1,
        _ => random.below(ALL as u64) as u32,
    };
    if *offset == before {
        *offset = u32::MAX;
    }
}

/// The last reached slot one time in four, else any.
fn cut(d: &mut Damage, tables: &Tables, o: &Original, random: &mut Random) {
    let last = || tables.marks.iter().rposition(|m| *m != 0).unwrap();
    d.len = if random.below(4) == 0 { last() } else { reached(tables, o, random).1 };
}

fn multiplier(d: &mut Damage, _: &Tables, _: &Original, random: &mut Random) {
    let multiplier = &mut d.records[random.below(128) as usize].multiplier;
    *multiplier ^= if random.below(2) == 0 { 1 << random.below(64) } else { random.next() };
}

fn exchange(d: &mut Damage, _: &Tables, _: &Original, random: &mut Random) {
    let first = random.below(128) as usize;
    d.records.swap(first, (first + 1 + random.below(127) as usize) % 128);
}

fn several(d: &mut Damage, tables: &Tables, o: &Original, random: &mut Random) {
    for _ in 0..2 + random.below(3) {
        let sort = [bit_seen, mask, shift, offset, cut][random.below(5) as usize];
        sort(d, tables, o, random);
    }
}

fn any(d: &mut Damage, _: &Tables, _: &Original, random: &mut Random) {
    let right = d.records;
    let from = random.below(128) as usize;
    for b in from..128 {
        d.records[b] = Record { multiplier: random.next(), offset: random.below(ALL as u64) as u32, ..right[b] };
        if random.below(4) == 0 {
            d.records[b].mask = random.next();
            d.records[b].shift = random.next() as u8;
        }
    }
}

pub fn run(r: &mut Report, o: &Original, random: &mut Random, trials: u64) {
    let mut sets: Vec<Tables> = FEW.into_iter().map(built).collect();
    sets.push(lent(o.images[1].name, &o.images[1].multipliers()));
    for (k, sort) in SORTS.iter().enumerate() {
        let trials = match k {
            0 => sets.len() as u64,
            1..=6 => trials,
            _ => trials / 2 + 1,
        };
        let mut t = [r.start(sort.name), r.start("  number, block, subset, reach: the independent builder's audit")];
        let mut numbers = BTreeMap::new();
        let mut places = BTreeSet::new();
        for i in 0..trials {
            let k = i as usize % sets.len();
            let mut d = Damage { records: sets[k].records, flips: vec![], len: ALL };
            (sort.apply)(&mut d, &sets[k], o, random);
            let turn = |table: &mut [u64]| d.flips.iter().for_each(|(slot, bits)| table[*slot] ^= bits);
            turn(&mut sets[k].table);
            let ours = ours::audit(&d.records, &sets[k].table[..d.len]);
            let theirs = anew_audit(&d.records, &sets[k].table[..d.len]);
            turn(&mut sets[k].table);
            let say = || format!("{}, flips {:x?}, {} slots", sets[k].name, d.flips, d.len);
            let wanted = sort.numbers.iter().find(|n| **n == ours.number).unwrap_or(&sort.numbers[0]);
            t[0].same(ours.number, *wanted, say);
            verdicts(&mut t[1], ours, theirs, say);
            *numbers.entry(theirs.number).or_insert(0) += 1;
            places.insert((theirs.block, theirs.subset));
        }
        r.say(|| format!("             {}: numbers met (trials): {}; {} places", sort.name, met(&numbers), places.len()));
        r.ends(t);
    }
}
