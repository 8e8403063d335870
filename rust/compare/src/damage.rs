//! Damage: does the harness see one flipped bit? First in what builds hand back and leave in the loans, then in every row of every part.
use crate::builds;
use crate::random::Random;
use crate::tally::{Flip, Report};
use crate::theirs::Original;
use crate::{part, parts, Size};

const SIZE: Size = Size { random: 2_000, trials: 3, seed: 5, small: true };

/// How many flips were tried, and how many missed.
pub fn run(o: &Original) -> (u64, u64) {
    let mut random = Random::new(0x0BAD_5EED_2026_1115);
    let (mut tried, mut missed) = builds::damage(&mut random);
    println!("             in what a build or a search handed back, or left in a loan: {tried} flips, {missed} missed");
    for name in parts() {
        let (t, m) = rows(name, o, &mut random);
        println!("             in the rows of {name}: {t} flips, {m} missed");
        tried += t;
        missed += m;
    }
    (tried, missed)
}

/// A small run of a part, clean; then one with a bit flipped in the first, the last and any comparison of each row. Each row must show these
/// differences and no other.
fn rows(name: &'static str, o: &Original, random: &mut Random) -> (u64, u64) {
    let run = |flips: Vec<(usize, Flip)>| {
        let mut r = Report::new(name, flips, true);
        part(name, &mut r, o, SIZE);
        r.rows
    };
    let clean = run(vec![]);
    let (mut tried, mut missed) = (0, 0);
    let mut flips = vec![];
    for (row, t) in (1..).zip(&clean) {
        if t.differences != 0 {
            println!("             NOT CLEAN: {name} {row}, {:?}", t.name);
            missed += 1;
        }
        let mut indices = if t.count == 0 { vec![] } else { vec![0, random.below(t.count), t.count - 1] };
        indices.sort();
        indices.dedup();
        flips.extend(indices.into_iter().map(|index| (row, Flip { index, bit: random.below(64) as u32 })));
    }
    for (row, t) in (1..).zip(run(flips.clone())) {
        let wanted: Vec<u64> = flips.iter().filter(|f| f.0 == row).map(|f| f.1.index).collect();
        tried += wanted.len() as u64;
        if t.at != wanted || t.differences != wanted.len() as u64 {
            println!("             NOT SEEN: {name} {row}, {:?}: flipped {wanted:?}, seen {:?}", t.name, t.at);
            missed += 1;
        }
    }
    (tried, missed)
}
