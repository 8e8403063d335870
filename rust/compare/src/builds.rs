//! Both builds and the search of one block, against `anew`, a builder written from the rulebook alone.
use crate::anew;
use crate::ours::{self, Found, Record, Records, Verdict, ALL, LIMIT};
use crate::random::Random;
use crate::tally::{Report, Tally};
use std::collections::{BTreeMap, BTreeSet};
use std::sync::Mutex;

const SEEDS: [u64; 13] = [
    0,
    1,
    2,
    3,
    5,
    7,
    42,
    0xFFFF_FFFF_FFFF_FFFF,
    0x9E37_79B9_7F4A_7C15,
    0xDEAD_BEEF_CAFE_F00D,
    0x0123_4567_89AB_CDEF,
    0xAEA0_B056_15E9_7B6C,
    0x6FD4_CE64_C83F_5143,
];
/// Seeds on which one rule decides, found by trying: a candidate that doesn't collide is skipped with 5 ones in the product (21, 893,
/// 1513), the first passing one has 6 (75, 127), or a place is refused for the last slot of its range alone (177, 3070).
const RULES: [u64; 7] = [21, 893, 1_513, 75, 127, 177, 3_070];
/// Blocks of these seeds, with the positions of a skipped candidate without collision (0: none) and of the first passing one.
const SKIPPED: [(u64, u8, u64, u64); 5] =
    [(21, 60, 195, 875), (893, 59, 132, 2_119), (1_513, 52, 15, 1_179), (75, 51, 0, 945), (127, 59, 0, 3)];
/// Those of the parts limits, unequal and lent. Two of them leave slots that no subset hits.
pub const FEW: [u64; 5] = [0, 1, 0xDEAD_BEEF_CAFE_F00D, 0xAEA0_B056_15E9_7B6C, 0x6FD4_CE64_C83F_5143];
/// Those of the search of one block.
const FIVE: [u64; 5] = [0, 7, 0xFFFF_FFFF_FFFF_FFFF, 0x0123_4567_89AB_CDEF, 0x6FD4_CE64_C83F_5143];

// ---- one run of a builder

/// What a build hands back, of either builder.
#[derive(Clone)]
pub struct Handed {
    pub number: u64,
    pub block: u64,
    pub used: u64,
    /// Multipliers, masks, offsets, shifts, counts.
    pub lists: [Vec<u64>; 5],
}

const LIST: [&str; 5] = ["multiplier", "mask", "offset", "shift", "count"];

impl Handed {
    pub fn records(&self) -> Records {
        let [multipliers, masks, offsets, shifts, _] = &self.lists;
        std::array::from_fn(|b| Record {
            multiplier: multipliers[b],
            mask: masks[b],
            offset: offsets[b] as u32,
            shift: shifts[b] as u8,
        })
    }

    pub fn most(&self) -> u64 {
        *self.lists[4].iter().max().unwrap()
    }
}

pub fn of_ours(b: ours::Build) -> Handed {
    let list = |f: fn(&Record) -> u64| b.records.iter().map(f).collect();
    let lists =
        [list(|r| r.multiplier), list(|r| r.mask), list(|r| r.offset as u64), list(|r| r.shift as u64), b.counts.to_vec()];
    Handed { number: b.number, block: b.block, used: b.used, lists }
}

fn of_anew(b: anew::Built) -> Handed {
    let (number, block) = match b.outcome {
        Ok(()) => (0, 0),
        Err((n, block)) => (n as u64, block.map_or(0, |b| b as u64)),
    };
    let list = |f: fn(&anew::Record) -> u64| b.records.iter().map(f).collect();
    let lists = [list(|r| r.multiplier), list(|r| r.mask), list(|r| r.offset as u64), list(|r| r.shift as u64), b.counts];
    Handed { number, block, used: b.used, lists }
}

pub fn anew_audit(records: &Records, table: &[u64]) -> Verdict {
    match anew::audit(&anew_records(records), table) {
        Ok(reach) => Verdict { number: 0, block: 0, subset: 0, reach },
        Err((n, block, subset)) => {
            Verdict { number: n as u64, block: block as u64, subset: subset.map_or(0, |i| i as u64), reach: 0 }
        }
    }
}

pub fn anew_records(records: &Records) -> Vec<anew::Record> {
    let one = |r: &Record| anew::Record { multiplier: r.multiplier, mask: r.mask, offset: r.offset, shift: r.shift };
    records.iter().map(one).collect()
}

/// All fields of two verdicts, in one row.
pub fn verdicts(t: &mut Tally, ours: Verdict, theirs: Verdict, say: impl Fn() -> String) {
    for (a, b) in
        [(ours.number, theirs.number), (ours.block, theirs.block), (ours.subset, theirs.subset), (ours.reach, theirs.reach)]
    {
        t.same(a, b, || format!("{}: {ours:?}, {theirs:?}", say()));
    }
}

#[derive(Clone)]
enum From {
    Seed { seed: u64, budget: u64 },
    Lent { name: String, list: Vec<u64> },
}

#[derive(Clone)]
pub struct Call {
    from: From,
    table: usize,
    marks: usize,
}

impl Call {
    fn say(&self) -> String {
        let from = match &self.from {
            From::Seed { seed, budget } => format!("seed {seed:#x}, budget {budget}"),
            From::Lent { name, list } => format!("{} lent numbers ({name})", list.len()),
        };
        format!("{from}, table {}, marks {}", self.table, self.marks)
    }
}

/// Words on each side of a loan that no call may change.
const G: usize = 64;

/// A loan in the middle of a buffer that is full of garbage.
#[derive(Clone)]
struct Loan {
    words: Vec<u64>,
    before: Vec<u64>,
    len: usize,
}

impl Loan {
    fn new(len: usize, random: &mut Random) -> Loan {
        let words = random.words(len + 2 * G);
        Loan { before: words.clone(), words, len }
    }

    fn lent(&mut self) -> &mut [u64] {
        &mut self.words[G..G + self.len]
    }

    fn outside(&self) -> impl Iterator<Item = usize> {
        (0..G).chain(G + self.len..2 * G + self.len)
    }
}

#[derive(Clone)]
struct Ran {
    handed: Handed,
    table: Loan,
    marks: Loan,
    /// The lent numbers after the call.
    list: Vec<u64>,
}

fn run(call: &Call, random: &mut Random, ours: bool) -> Ran {
    let (mut table, mut marks) = (Loan::new(call.table, random), Loan::new(call.marks, random));
    let mut kept = vec![];
    let handed = match (&call.from, ours) {
        (From::Seed { seed, budget }, true) => of_ours(ours::build(*seed, *budget, table.lent(), marks.lent())),
        (From::Seed { seed, budget }, false) => of_anew(anew::build_from_seed(*seed, *budget, table.lent(), marks.lent())),
        (From::Lent { list, .. }, true) => {
            kept = list.clone();
            of_ours(ours::build_lent(&kept, table.lent(), marks.lent()))
        }
        (From::Lent { list, .. }, false) => of_anew(anew::build_from_lent(list, table.lent(), marks.lent())),
    };
    Ran { handed, table, marks, list: kept }
}

// ---- the comparison of two runs

const SORTS: [&str; 12] = [
    "outcome: number",
    "outcome: block",
    "used",
    "records: multiplier",
    "records: mask",
    "records: offset",
    "records: shift",
    "attempt counts",
    "table, slot by slot",
    "marks, slot by slot",
    "64 words on each side of the loans, and the lent numbers: as before",
    "audit of each success: accepted, and the reach",
];

/// The rows of one part, and how often each outcome was met.
struct Rows {
    t: Vec<Tally>,
    met: BTreeMap<u64, u64>,
    refused: BTreeSet<(u64, u64)>,
    runs: u64,
}

impl Rows {
    fn start(r: &mut Report) -> Rows {
        Rows { t: SORTS.iter().map(|s| r.start(s)).collect(), met: BTreeMap::new(), refused: BTreeSet::new(), runs: 0 }
    }

    fn end(self, r: &mut Report, name: &str) {
        let blocks = |n: u64| self.refused.iter().filter(|x| x.0 == n).count();
        r.say(|| format!("             {name}: {} runs of each builder; numbers met (runs): {}", self.runs, met(&self.met)));
        r.say(|| format!("             blocks that refused: {} with 4, {} with 5, {} with 6", blocks(4), blocks(5), blocks(6)));
        r.ends(self.t);
    }

    fn handed(&mut self, call: &Call, a: &Handed, b: &Handed) {
        self.runs += 1;
        *self.met.entry(b.number).or_insert(0) += 1;
        self.refused.insert((b.number, b.block));
        self.t[0].same(a.number, b.number, || call.say());
        self.t[1].same(a.block, b.block, || call.say());
        self.t[2].same(a.used, b.used, || call.say());
        for k in 0..5 {
            for i in 0..128 {
                self.t[3 + k].same(a.lists[k][i], b.lists[k][i], || format!("{}: {} of block {i}", call.say(), LIST[k]));
            }
        }
    }

    /// Table and marks of the two runs held different garbage. A slot must be as the other builder's, and after 3, 9 and 10 as it was.
    fn compare(&mut self, call: &Call, ours: &Ran, theirs: &Ran) {
        self.handed(call, &ours.handed, &theirs.handed);
        let untouched = [3, 9, 10].contains(&theirs.handed.number);
        for (k, (x, y)) in [(&ours.table, &theirs.table), (&ours.marks, &theirs.marks)].into_iter().enumerate() {
            let name = ["table", "marks"][k];
            if untouched {
                assert!(y.words == y.before, "{}: the other builder changed its {name}", call.say());
            }
            for i in G..G + x.len {
                let want = if untouched { x.before[i] } else { y.words[i] };
                self.t[8 + k].same(x.words[i], want, || format!("{}: {name} slot {}", call.say(), i - G));
            }
            for i in x.outside() {
                self.t[10].same(x.words[i], x.before[i], || format!("{}: word {i} of the {name} buffer", call.say()));
            }
        }
        if let From::Lent { list, .. } = &call.from {
            for i in 0..list.len() {
                self.t[10].same(ours.list[i], list[i], || format!("{}: lent number {i}", call.say()));
            }
        }
    }

    fn both(&mut self, call: &Call, random: &mut Random) -> Ran {
        let mut ours = run(call, random, true);
        let theirs = run(call, random, false);
        self.compare(call, &ours, &theirs);
        if theirs.handed.number == 0 {
            let last = &theirs.handed.lists;
            let accepted = Verdict { number: 0, block: 0, subset: 0, reach: last[2][127] + (1 << (64 - last[3][127])) };
            let records = ours.handed.records();
            verdicts(&mut self.t[11], ours::audit(&records, ours.table.lent()), accepted, || call.say());
        }
        ours
    }
}

pub fn met(met: &BTreeMap<u64, u64>) -> String {
    met.iter().map(|(n, k)| format!("{n} ({k})")).collect::<Vec<String>>().join(", ")
}

fn seed(seed: u64, budget: u64, table: usize, marks: usize) -> Call {
    Call { from: From::Seed { seed, budget }, table, marks }
}

fn lent(name: &str, list: &[u64], table: usize, marks: usize) -> Call {
    Call { from: From::Lent { name: name.into(), list: list.to_vec() }, table, marks }
}

/// The other builder's whole build from a seed, made once.
fn whole(s: u64) -> Handed {
    static MADE: Mutex<BTreeMap<u64, Handed>> = Mutex::new(BTreeMap::new());
    let make = || run(&seed(s, LIMIT, ALL, ALL), &mut Random::new(s), false).handed;
    let handed = MADE.lock().unwrap().entry(s).or_insert_with(make).clone();
    assert_eq!(handed.number, 0);
    handed
}

// ---- whole builds

pub fn seeds(r: &mut Report, random: &mut Random, small: bool) {
    let mut rows = Rows::start(r);
    r.say(|| "             seed, used, the largest attempt count and its block".into());
    for s in RULES.into_iter().rev().chain(SEEDS).take(if small { 1 } else { 20 }) {
        let handed = rows.both(&seed(s, LIMIT, ALL, ALL), random).handed;
        let block = handed.lists[4].iter().position(|c| *c == handed.most()).unwrap();
        r.say(|| format!("             {s:#018x}  used {}  {} at block {block}", handed.used, handed.most()));
    }
    rows.end(r, "whole builds from a seed, budget 16,777,216, 107,648 slots");
}

// ---- every budget with every length

pub fn limits(r: &mut Report, random: &mut Random, small: bool) {
    let mut rows = Rows::start(r);
    for s in FEW.into_iter().take(if small { 1 } else { 5 }) {
        let base = whole(s);
        let (most, used) = (base.most(), base.used as usize);
        for budget in
            [0, 1, 100, LIMIT + 1, u64::MAX, 10_000, most - 1, most, LIMIT].into_iter().take(if small { 4 } else { 9 })
        {
            for slots in
                [0, 63, 64, 65, 1_000, ALL - 1, ALL, used - 1, used, 200_000].into_iter().take(if small { 5 } else { 10 })
            {
                rows.both(&seed(s, budget, slots, slots), random);
            }
        }
        // just enough for some block, and one less
        for _ in 0..if small { 0 } else { 3 } {
            let count = base.lists[4][random.below(128) as usize];
            for budget in [count - 1, count] {
                rows.both(&seed(s, budget, ALL, ALL), random);
            }
        }
    }
    rows.end(r, "5 seeds, 9 budgets with 10 lengths, the counts of 3 blocks");
}

// ---- loans of two lengths, null pointers

const PAIRS: [(usize, usize); 10] =
    [(0, 1), (1, 0), (63, 64), (64, 63), (0, ALL), (ALL, 0), (ALL, ALL - 1), (ALL - 1, ALL), (200_000, ALL), (ALL, 200_000)];

pub fn unequal(r: &mut Report, random: &mut Random, small: bool) {
    let mut rows = Rows::start(r);
    let pairs = PAIRS.into_iter().take(if small { 4 } else { 10 });
    for s in FEW {
        for (table, marks) in pairs.clone() {
            for budget in [0, 1, 10_000, LIMIT, LIMIT + 1, u64::MAX] {
                rows.both(&seed(s, budget, table, marks), random);
            }
        }
    }
    let good = whole(0).lists[0].clone();
    let long = [&good[..], &good[..]].concat();
    for (table, marks) in pairs {
        for n in [0, 1, 127, 128, 129, 256] {
            rows.both(&lent("of seed 0", &long[..n], table, marks), random);
        }
    }
    // no memory at all
    let null = std::ptr::null_mut::<u64>();
    for budget in [0, LIMIT, LIMIT + 1] {
        let call = seed(0, budget, 0, 0);
        let ours = of_ours(unsafe { ours::raw::slider_build(0, budget, null, 0, null, 0) });
        rows.handed(&call, &ours, &run(&call, random, false).handed);
    }
    for n in [0, 127, 128] {
        let call = lent("of seed 0", &good[..n], 0, 0);
        let list = if n == 0 { null } else { good.as_ptr() };
        let ours = of_ours(unsafe { ours::raw::slider_build_lent(list, n, null, 0, null, 0) });
        rows.handed(&call, &ours, &run(&call, random, false).handed);
    }
    rows.end(r, "loans of two lengths, null pointers of length 0");
}

// ---- random short budgets and lengths

pub fn at_random(r: &mut Report, random: &mut Random, small: bool) {
    let mut rows = Rows::start(r);
    for _ in 0..if small { 4 } else { 200 } {
        let s = random.next();
        let budget = match random.below(16) {
            0 => random.below(64),
            1..=6 => random.log(0, 14),
            7..=10 => random.log(10, 17),
            11..=13 => random.below(300_000),
            14 => LIMIT - random.below(1_000),
            _ => LIMIT + 1 + random.log(0, 39),
        };
        let table = match random.below(8) {
            0 => random.below(200),
            1 | 2 => random.below(6_000),
            3 | 4 => random.below(ALL as u64 + 3_000),
            5 => ALL as u64 - random.below(3_000),
            _ => ALL as u64 + random.below(500),
        } as usize;
        let marks = match random.below(16) {
            0 => table + 1 + random.below(100) as usize,
            1 => table.saturating_sub(1 + random.below(100) as usize),
            _ => table,
        };
        rows.both(&seed(s, budget, table, marks), random);
    }
    rows.end(r, "random seeds, budgets and lengths");
}

// ---- lent multipliers

/// Does not collide in block 3, bishop D1, and its product with that block's mask has fewer than 6 ones.
const THIN: u64 = 0x0004_0C00_8000_0000;

pub fn lent_numbers(r: &mut Report, random: &mut Random, small: bool) {
    let mut rows = Rows::start(r);
    let bases: Vec<Handed> = FEW.iter().map(|s| whole(*s)).collect();
    for (k, base) in bases.iter().enumerate().take(if small { 1 } else { 5 }) {
        let list = &base.lists[0];
        let name = format!("of seed {:#x}", FEW[k]);
        let used = base.used as usize;
        for slots in [0, 63, 64, 65, 1_000, used - 1, used, ALL - 1, ALL, 200_000].into_iter().take(if small { 7 } else { 10 })
        {
            let ours = rows.both(&lent(&name, list, slots, slots), random).handed;
            // the same build but for the counts
            if slots == ALL {
                assert!(ours.number == 0 && ours.lists[..4] == base.lists[..4] && ours.lists[4] == [0; 128]);
            }
        }
        for _ in 0..if small { 0 } else { 10 } {
            let slots = random.below(ALL as u64) as usize;
            rows.both(&lent(&name, list, slots, slots), random);
        }
        for n in [0, 1, 64, 127, 129, 256] {
            let long: Vec<u64> = list.iter().chain(list).copied().take(n).collect();
            for slots in [0, 64, ALL, 200_000].into_iter().take(if small { 2 } else { 4 }) {
                rows.both(&lent(&name, &long, slots, slots), random);
            }
        }
    }
    // one number changed: in each block by one bit and by another seed's, in every fourth by a thin and a thick random one, a neighbour's
    let (mut same, mut collide, mut moved) = (0, 0, 0);
    for block in (0..128).step_by(if small { 90 } else { 1 }) {
        let (k, other) = (block % 5, (block % 5 + 1 + block % 4) % 5);
        let base = &bases[k].lists[0];
        let mut changed = vec![base[block] ^ 1 << random.below(64), bases[other].lists[0][block]];
        if block % 4 == 0 {
            changed.push(random.next() & random.next() & random.next());
            changed.push(random.next());
            changed.push(base[(block + 1) % 128]);
        }
        for x in changed {
            let mut list = base.clone();
            list[block] = x;
            let name = format!("of seed {:#x}, block {block} with {x:#x}", FEW[k]);
            let ours = rows.both(&lent(&name, &list, ALL, ALL), random).handed;
            match ours.number {
                6 => collide += 1,
                0 if ours.lists[2] == bases[k].lists[2] => same += 1,
                0 => moved += 1,
                n => panic!("number {n}"),
            }
        }
    }
    r.say(|| {
        format!(
            "             one number changed: {collide} collide; {same} build with the offsets of before, {moved} with others"
        )
    });
    // numbers of several seeds mixed
    for _ in 0..if small { 1 } else { 12 } {
        let list: Vec<u64> = (0..128).map(|b| bases[random.below(5) as usize].lists[0][b]).collect();
        rows.both(&lent("of 5 seeds, mixed", &list, ALL, ALL), random);
    }
    // lists that were no search's
    for (name, list) in [("all 0", vec![0; 128]), ("all ones", vec![u64::MAX; 128]), ("random", random.words(128))] {
        for slots in [0, 63, 64, ALL] {
            rows.both(&lent(name, &list, slots, slots), random);
        }
    }
    // the skip rule doesn't apply
    let ones = anew::mask(anew::BISHOP, 3).wrapping_mul(THIN).count_ones();
    for (k, base) in bases.iter().enumerate().take(if small { 1 } else { 5 }) {
        let mut list = base.lists[0].clone();
        list[3] = THIN;
        let name = format!("of seed {:#x}, block 3 with {THIN:#x}", FEW[k]);
        let number = rows.both(&lent(&name, &list, ALL, ALL), random).handed.number;
        r.say(|| format!("             block 3 with {THIN:#018x}: {ones} ones in the product with the mask, number {number}"));
    }
    rows.end(r, "lent multipliers");
}

// ---- the search of one block

const FOUND: [&str; 4] = ["search: number", "search: block", "search: multiplier", "search: count"];

fn found(t: &mut [Tally], a: Found, b: Found, say: impl Fn() -> String) {
    t[0].same(a.number, b.number, &say);
    t[1].same(a.block, b.block, &say);
    t[2].same(a.multiplier, b.multiplier, &say);
    t[3].same(a.count, b.count, &say);
}

pub fn search(r: &mut Report, random: &mut Random, small: bool) {
    let mut t: Vec<Tally> = FOUND.iter().map(|s| r.start(s)).collect();
    let mut numbers = BTreeMap::new();
    let mut one = |kind: u8, sq: u8, seed: u64, budget: u64| -> Found {
        let (a, b) = (ours::search(kind, sq, seed, budget), anew_search(kind, sq, seed, budget));
        found(&mut t, a, b, || format!("kind {kind}, square {sq}, seed {seed:#x}, budget {budget}"));
        *numbers.entry(b.number).or_insert(0u64) += 1;
        b
    };
    for s in FIVE.into_iter().take(if small { 1 } else { 5 }) {
        for kind in 0..=3 {
            for sq in (0..=66).step_by(if small { 16 } else { 1 }) {
                let count = one(kind, sq, s, LIMIT).count;
                for budget in [0, 1, 10, 1_000, LIMIT + 1, u64::MAX] {
                    one(kind, sq, s, budget);
                }
                if count != 0 {
                    one(kind, sq, s, count - 1);
                    one(kind, sq, s, count);
                }
            }
        }
        for (kind, sq) in [(0, 255), (1, 255), (255, 0), (255, 255), (2, 64), (0, 64), (1, 64)] {
            for budget in [0, LIMIT, LIMIT + 1, u64::MAX] {
                one(kind, sq, s, budget);
            }
        }
    }
    for (s, sq, skipped, passing) in SKIPPED {
        for budget in [skipped, passing - 1, passing, LIMIT] {
            let count = one(anew::BISHOP, sq, s, budget).count;
            assert_eq!(count, if budget < passing { 0 } else { passing });
        }
    }
    for _ in 0..if small { 10 } else { 500 } {
        let budget = random.log(0, 16);
        one(random.below(2) as u8, random.below(64) as u8, random.next(), budget);
    }
    let calls: u64 = numbers.values().sum();
    r.say(|| {
        format!("             the search of one block: {calls} calls of each builder; numbers met (calls): {}", met(&numbers))
    });
    r.ends(t);
}

fn anew_search(kind: u8, sq: u8, seed: u64, budget: u64) -> Found {
    match anew::search(kind, sq, seed, budget) {
        Ok((multiplier, count)) => Found { number: 0, block: 0, multiplier, count },
        Err((n, block)) => Found { number: n as u64, block: block.map_or(0, |b| b as u64), multiplier: 0, count: 0 },
    }
}

// ---- damage: one bit of what a build handed back or left in a loan is flipped before the comparison

/// How many flips, and how many the comparison did not see in their own row and no other. Eight runs without a flip must show nothing.
pub fn damage(random: &mut Random) -> (u64, u64) {
    let good = whole(0).lists[0].clone();
    let mut bad = good.clone();
    bad[70] = 0;
    let calls = [
        seed(0, LIMIT, ALL, ALL),
        seed(0, 100, ALL, ALL),
        seed(0, LIMIT, 1_000, 1_000),
        seed(0, LIMIT + 1, ALL, ALL),
        seed(0, LIMIT, 64, 65),
        lent("of seed 0", &good, ALL, ALL),
        lent("of seed 0, block 70 with 0", &bad, ALL, ALL),
        lent("of seed 0", &good[..127], ALL, ALL),
    ];
    let (mut tried, mut missed) = (0, 0);
    for call in &calls {
        let (ours, theirs) = (run(call, random, true), run(call, random, false));
        let mut trial = |what: String, row: Option<usize>, spoil: &dyn Fn(&mut Ran)| {
            let mut x = ours.clone();
            spoil(&mut x);
            let mut rows = Rows::start(&mut Report::new("damage", vec![], true));
            rows.compare(call, &x, &theirs);
            let well = (0..SORTS.len()).all(|i| rows.t[i].differences == (Some(i) == row) as u64);
            tried += row.is_some() as u64;
            if !well {
                missed += 1;
                println!("             NOT SEEN: {}, {what}", call.say());
            }
        };
        trial("nothing spoiled".into(), None, &|_| ());
        let mut at = |n: usize| (random.below(64), random.below(n as u64) as usize);
        let (b, _) = at(1);
        trial(format!("bit {b} of the number"), Some(0), &|x| x.handed.number ^= 1 << b);
        trial("bit 0 of the block".into(), Some(1), &|x| x.handed.block ^= 1);
        trial("bit 16 of used".into(), Some(2), &|x| x.handed.used ^= 1 << 16);
        for k in 0..5 {
            let (b, i) = at(128);
            trial(format!("bit {b} of the {} of block {i}", LIST[k]), Some(3 + k), &|x| x.handed.lists[k][i] ^= 1 << b);
        }
        for i in [0, at(call.table).1, call.table - 1] {
            let (b, _) = at(1);
            trial(format!("bit {b} of table slot {i}"), Some(8), &|x| x.table.words[G + i] ^= 1 << b);
            trial(format!("bit {b} of marks slot {i}"), Some(9), &|x| x.marks.words[G + i] ^= 1 << b);
        }
        trial("bit 5 of the word before the table".into(), Some(10), &|x| x.table.words[G - 1] ^= 1 << 5);
        trial("bit 63 of the word after the marks".into(), Some(10), &|x| x.marks.words[G + x.marks.len] ^= 1 << 63);
        if let From::Lent { .. } = call.from {
            trial("bit 1 of lent number 126".into(), Some(10), &|x| x.list[126] ^= 2);
        }
    }
    for (kind, sq, budget) in [(0, 0, LIMIT), (1, 63, LIMIT), (0, 0, 10), (0, 0, LIMIT + 1), (2, 0, LIMIT), (1, 64, LIMIT)] {
        let (a, b) = (ours::search(kind, sq, 0, budget), anew_search(kind, sq, 0, budget));
        for k in 0..4 {
            for bit in [0, 31, 63] {
                let mut x = a;
                *[&mut x.number, &mut x.block, &mut x.multiplier, &mut x.count][k] ^= 1 << bit;
                let mut t: Vec<Tally> = FOUND.iter().map(|s| Tally::new(s, vec![])).collect();
                found(&mut t, x, b, String::new);
                tried += 1;
                if !(0..4).all(|i| t[i].differences == (i == k) as u64) {
                    missed += 1;
                    println!("             NOT SEEN: bit {bit} of {} of kind {kind}, square {sq}, budget {budget}", FOUND[k]);
                }
            }
        }
    }
    (tried, missed)
}
