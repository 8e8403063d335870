//! The proved library, by its exports, against the original's modules compiled unchanged and against a builder written anew.
//!
//! compare [PART..]         compares; without a word all parts
//! compare record FOLDER    writes stdin and stdout of crates/recorded: questions and the original's answers
//! compare image SEED       prints the image of our build from a seed, and its seconds
//! compare speed [QUERIES [ROUNDS]]    speed, ours and the original's: 10000000 queries, 5 rounds
//!
//! COMPARE_RANDOM=N sets the random cases of a row (3,000,000), COMPARE_TRIALS=N the damaged builds of a sort that the audit is asked
//! about (200), COMPARE_SEED=S the seed of both. COMPARE_FLIP=PART,ROW,INDEX,BIT flips one bit of our answer in one comparison.
#![allow(clippy::needless_range_loop)] // a slot, a block and a query are their numbers
extern crate original;

#[allow(dead_code)] // the rulebook whole: not everything of it is asked for here
#[rustfmt::skip]
mod anew;
mod audit;
mod board;
mod borders;
mod builds;
mod clock;
mod damage;
mod image;
mod images;
mod magic;
mod ours;
mod pext;
mod plain;
mod random;
mod record;
mod speed;
mod tally;
mod theirs;
mod walks;

use random::Random;
use std::process::exit;
use std::time::Instant;
use tally::{Flip, Report};
use theirs::Original;

/// How much is asked of a part.
#[derive(Clone, Copy)]
pub struct Size {
    /// Random cases of a row.
    pub random: u64,
    /// Damaged builds of a sort that the audit is asked about.
    pub trials: u64,
    pub seed: u64,
    /// A few cases of each sort, for the damage.
    pub small: bool,
}

/// The parts that compare: compare/run reads the same list.
pub fn parts() -> impl Iterator<Item = &'static str> {
    include_str!("../parts").lines()
}

/// Runs one part that compares.
pub fn part(name: &str, r: &mut Report, o: &Original, s: Size) {
    let mut random = Random::new(s.seed);
    match name {
        "board" => board::run(r, o, s.random, s.seed),
        "walks" => walks::run(r, o, s.random, s.seed),
        "pext" => pext::run(r, o, s.random, s.seed),
        "magic" => magic::run(r, o, s.random, s.seed, s.small),
        "image" => image::run(r, o, s.small),
        "borders" => borders::run(r),
        "seeds" => builds::seeds(r, &mut random, s.small),
        "limits" => builds::limits(r, &mut random, s.small),
        "unequal" => builds::unequal(r, &mut random, s.small),
        "random" => builds::at_random(r, &mut random, s.small),
        "lent" => builds::lent_numbers(r, &mut random, s.small),
        "search" => builds::search(r, &mut random, s.small),
        "audit" => audit::run(r, o, &mut random, s.trials),
        _ => unreachable!("no part {name}"),
    }
}

fn usage(message: &str) -> ! {
    let parts = parts().collect::<Vec<_>>().join(", ");
    eprintln!("{message}\ncompare [PART..], parts: {parts}, damage; compare record FOLDER; compare image SEED; compare speed [QUERIES [ROUNDS]]");
    exit(2)
}

fn number(name: &str, default: u64) -> u64 {
    std::env::var(name).map_or(default, |v| v.parse().unwrap_or_else(|_| usage(&format!("{name} is a decimal number"))))
}

fn flips(part: &str) -> Vec<(usize, Flip)> {
    let Ok(given) = std::env::var("COMPARE_FLIP") else { return vec![] };
    let words: Vec<&str> = given.split(',').collect();
    let number =
        |i: usize| words.get(i).and_then(|w| w.parse::<u64>().ok()).unwrap_or_else(|| usage("COMPARE_FLIP=PART,ROW,INDEX,BIT"));
    let flip = (number(1) as usize, Flip { index: number(2), bit: number(3) as u32 % 64 });
    if words[0] == part {
        vec![flip]
    } else {
        vec![]
    }
}

fn main() {
    let words: Vec<String> = std::env::args().skip(1).collect();
    let word = |i: usize| words.get(i).map_or("", |w| w.as_str());
    match word(0) {
        "record" if words.len() == 2 => return record::write(word(1)),
        "image" if words.len() == 2 => match word(1).parse() {
            Ok(seed) => return println!("{}", image::print(seed)),
            Err(_) => usage("SEED is a decimal number"),
        },
        "speed" if words.len() <= 3 => {
            let number = |i: usize, default: usize| match words.get(i).map(|w| w.parse()) {
                None => default,
                Some(Ok(n)) if n > 0 => n,
                _ => usage("QUERIES and ROUNDS are decimal numbers above 0"),
            };
            return speed::run(number(1, 10_000_000), number(2, 5));
        }
        _ => {}
    }
    if let Some(w) = words.iter().find(|w| !parts().any(|p| p == *w) && *w != "damage") {
        usage(&format!("no part {w:?}"));
    }
    let on = |p: &str| words.is_empty() || words.iter().any(|w| w == p);
    let size = Size {
        random: number("COMPARE_RANDOM", 3_000_000),
        trials: number("COMPARE_TRIALS", 200),
        seed: number("COMPARE_SEED", 20_261_115),
        small: false,
    };

    let started = Instant::now();
    println!("the original's files:\n{}", include_str!(concat!(env!("OUT_DIR"), "/fingerprint.txt")));
    println!("random cases {}, seed {}", size.random, size.seed);
    let o = Original::new();
    let mut lines = vec![];
    let mut sorts: Vec<(String, u64, u64, u64)> = vec![];
    let (mut count, mut differences) = (0, 0);
    for name in parts().filter(|p| on(p)) {
        println!("\n{name}");
        let begun = Instant::now();
        let mut r = Report::new(name, flips(name), false);
        part(name, &mut r, &o, size);
        count += r.count();
        differences += r.differences();
        for t in &r.rows {
            match sorts.iter_mut().find(|s| s.0 == t.name) {
                Some(s) => *s = (t.name.clone(), s.1 + 1, s.2 + t.count, s.3 + t.differences),
                None => sorts.push((t.name.clone(), 1, t.count, t.differences)),
            }
        }
        let seconds = begun.elapsed().as_secs_f64();
        lines.push(format!(
            "{name:<10} {:>4} rows {:>13} compared {:>6} differ {seconds:>8.1} s",
            r.rows.len(),
            r.count(),
            r.differences()
        ));
    }
    let mut missed = 0;
    if on("damage") {
        println!("\ndamage: one bit of our answer flipped, and whether the harness sees it");
        let begun = Instant::now();
        let (tried, blind) = damage::run(&o);
        missed = blind;
        lines.push(format!("{:<10} {tried:>18} flips   {blind:>16} missed {:>8.1} s", "damage", begun.elapsed().as_secs_f64()));
    }
    println!("\nsorts that several rows have:");
    for (name, rows, count, differences) in sorts.iter().filter(|s| s.1 > 1) {
        println!("{rows:>6} rows  {name:<96} {count:>11} compared {differences:>5} differ");
    }
    println!("\n{}", lines.join("\n"));
    println!("all        {count:>23} compared {differences:>6} differ {:>8.1} s", started.elapsed().as_secs_f64());
    if differences + missed != 0 {
        exit(1);
    }
}
