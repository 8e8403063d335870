//! The auditor's finding: one source, three generators that have carried the name SmallRng, three images of the magic table. And the answer
//! to it: our build from the original's multipliers has its offsets and slots; our build from a seed is one image, run after run, and the
//! original's own with SplitMix64 from that seed in SmallRng's place.
use crate::builds::{anew_audit, verdicts};
use crate::clock;
use crate::images::{self, fnv, Image};
use crate::magic::built;
use crate::ours::{self, Build, ALL};
use crate::tally::Report;
use crate::theirs::{kind_square, Original};
use std::process::Command;

pub fn run(r: &mut Report, o: &Original, small: bool) {
    r.say(|| "             image: FNV-1a over 107,648 slots, little-endian, zeros after the used ones".into());
    for i in &o.images {
        r.say(|| {
            format!("             the original with {:<46} used {}  image {:016X}", i.name, i.moves.len(), fnv(&i.slots()))
        });
    }
    let splitmix = images::splitmix();
    for (seed, i) in &splitmix {
        let name = format!("SplitMix64 from seed {seed:#x}");
        r.say(|| format!("             the original with {name:<46} used {}  image {:016X}", i.moves.len(), fnv(&i.slots())));
    }
    for (a, b) in [(0, 1), (0, 2), (1, 2)] {
        let (x, y) = (&o.images[a], &o.images[b]);
        let (s, z) = (x.slots(), y.slots());
        let used = x.moves.len().max(y.moves.len());
        let blocks = |f: &dyn Fn(usize) -> bool| (0..128).filter(|k| f(*k)).count();
        let line = format!(
            "             images {} and {}: of 128 multipliers {} differ, of 128 offsets {}, of {used} slots {}; of {ALL} PEXT entries {}",
            a + 1,
            b + 1,
            blocks(&|k| x.records[k].multiplier != y.records[k].multiplier),
            blocks(&|k| x.records[k].offset != y.records[k].offset),
            (0..used).filter(|k| s[*k] != z[*k]).count(),
            (0..ALL).filter(|k| x.bmi_moves[*k] != y.bmi_moves[*k]).count()
        );
        r.say(|| line.clone());
    }
    for i in &o.images {
        let build = |table: &mut [u64], marks: &mut [u64]| ours::build_lent(&i.multipliers(), table, marks);
        against(r, o, i, &format!("from the multipliers with {}", i.name), &build, true);
    }
    for (seed, i) in &splitmix {
        let build = |table: &mut [u64], marks: &mut [u64]| ours::build(*seed, ours::LIMIT, table, marks);
        against(r, o, i, &format!("from seed {seed:#x}, SplitMix64 in SmallRng's place"), &build, false);
    }
    one_image(r, &splitmix[..if small { 1 } else { splitmix.len() }]);
}

/// A build of ours against an image of the original. Rooks come first in the original's lists, bishops in ours; src/images.rs turns
/// them round.
fn against(r: &mut Report, o: &Original, i: &Image, name: &str, build: &dyn Fn(&mut [u64], &mut [u64]) -> Build, lent: bool) {
    let mut t = [
        r.start(&format!("{name}: outcome, used length")),
        r.start("  records: multiplier, mask, offset, shift"),
        r.start("  every slot: the original's MOVES, zeros after them"),
        r.start("  marks: the rays of each block, at each slot that one of the original's questions hits"),
        r.start("  the original's look-up over its own image, all questions: its answers"),
        r.start("  our audit of the original's own records and table: accepted; the independent builder's"),
    ];
    let (mut table, mut marks) = (vec![!0; ALL], vec![!0; ALL]);
    let b = build(&mut table, &mut marks);
    t[0].same(b.number, 0, || "number".into());
    t[0].same(b.block, 0, || "block".into());
    t[0].same(b.used, i.moves.len() as u64, || "used".into());
    if lent {
        t[0].same(b.counts.iter().sum(), 0, || "counts".into());
    }
    let mut rays = vec![0u64; ALL];
    for block in 0..128 {
        let (ours, theirs) = (b.records[block], i.records[block]);
        t[1].same(ours.multiplier, theirs.multiplier, || format!("multiplier of block {block}"));
        t[1].same(ours.mask, theirs.mask, || format!("mask of block {block}"));
        t[1].same(ours.offset as u64, theirs.offset as u64, || format!("offset of block {block}"));
        t[1].same(ours.shift as u64, theirs.shift as u64, || format!("shift of block {block}"));
        for (question, answer) in o.questions[block].iter().zip(&o.answers[block]) {
            let slot = theirs.offset as u64 + (theirs.multiplier.wrapping_mul(*question) >> theirs.shift);
            rays[slot as usize] |= o.rays[block];
            t[4].same(i.look_up(block, *question), *answer, || format!("{:?}, question {question:#x}", kind_square(block)));
        }
    }
    let slots = i.slots();
    for k in 0..ALL {
        t[2].same(table[k], slots[k], || format!("slot {k}"));
        t[3].same(marks[k], rays[k], || format!("slot {k}"));
    }
    let verdict = ours::audit(&i.records, &i.moves);
    t[5].same(verdict.number, 0, || i.name.into());
    verdicts(&mut t[5], verdict, anew_audit(&i.records, &i.moves), || i.name.into());
    r.ends(t);
}

/// Table, marks and records of a build.
fn prints(seed: u64) -> [u64; 3] {
    let b = built(seed);
    let list: Vec<u64> = b.records.iter().flat_map(|r| [r.multiplier, r.mask, r.offset as u64, r.shift as u64]).collect();
    [fnv(&b.table), fnv(&b.marks), fnv(&list)]
}

/// What a run of its own prints: compare image SEED. The seconds are of CPU time.
pub fn print(seed: u64) -> String {
    let begun = clock::cpu();
    built(seed);
    let seconds = (clock::cpu() - begun).as_secs_f64();
    let [table, marks, records] = prints(seed);
    format!("{table:016X} marks {marks:016X} records {records:016X} seconds {seconds:.6}")
}

/// Two runs of this program for each seed, and the build of this run.
fn one_image(r: &mut Report, seeds: &[(u64, Image)]) {
    let mut t = r.start("ours from one seed, two runs of their own and this one: image of table, marks, records");
    for (seed, _) in seeds {
        let here = prints(*seed);
        for run in 1..=2 {
            let program = std::env::current_exe().unwrap();
            let out = Command::new(env!("COMPARE_RUNNER")).arg(program).arg("image").arg(seed.to_string()).output();
            let text = String::from_utf8(out.expect("a run of its own").stdout).unwrap();
            r.say(|| format!("             ours from seed {seed:#x}, run {run}: image {}", text.trim()));
            let there: Vec<u64> = text.split_whitespace().filter_map(|w| u64::from_str_radix(w, 16).ok()).collect();
            assert_eq!(there.len(), 3, "a run of its own printed {text:?}");
            for k in 0..3 {
                t.same(here[k], there[k], || format!("seed {seed:#x}, run {run}, {}", ["table", "marks", "records"][k]));
            }
        }
    }
    r.end(t);
}
