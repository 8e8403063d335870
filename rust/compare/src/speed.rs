//! compare speed: look-ups and whole builds, the original's own code and ours over the same tables, in one run. Every row is warmed up, the
//! order of rows turns from round to round, times are CPU time, and of each piece of work its best round counts. Every answer is compared.
use crate::anew;
use crate::clock;
use crate::images::{self, fnv};
use crate::ours::{self, By, Queries, ALL};
use crate::random::Random;
use crate::theirs::{self, Original};
use original::bitboard::BitBoard;
use original::magic::{get_bishop_moves, get_bishop_moves_bmi, get_rook_moves, get_rook_moves_bmi};
use original::square::Square;
use std::arch::x86_64::__cpuid;
use std::hint::black_box;
use std::process::{exit, Command};

const CHUNK: usize = 65_536;

// ---- queries

/// The kinds of a chunk's queries.
#[derive(Clone, Copy, PartialEq)]
enum Kinds {
    Rooks,
    Bishops,
    Mixed,
}

struct Chunk {
    kinds: Kinds,
    queries: Queries,
    squares: Vec<Square>,
    /// The original's answers.
    wanted: Vec<u64>,
}

impl Chunk {
    fn new(random: &mut Random, kinds: Kinds, count: usize) -> Chunk {
        let mut c = Chunk { kinds, queries: Queries::default(), squares: vec![], wanted: vec![0; count] };
        for _ in 0..count {
            let (kind, sq, blockers) = random.query(3);
            let kind = if kinds == Kinds::Mixed { kind } else { (kinds == Kinds::Bishops) as u8 };
            c.queries.push(kind, sq, blockers);
            c.squares.push(theirs::square(sq));
        }
        let mut wanted = vec![0; count];
        original_magic(&c, &mut wanted);
        c.wanted = wanted;
        c
    }
}

/// So many queries of fixed generation, in chunks whose kinds take turns.
fn chunks(count: usize, turns: [Kinds; 2]) -> Vec<Chunk> {
    let mut random = Random::new(1);
    let lengths = (0..count).step_by(CHUNK).map(|from| CHUNK.min(count - from));
    turns.into_iter().cycle().zip(lengths).map(|(kinds, length)| Chunk::new(&mut random, kinds, length)).collect()
}

// ---- rows

/// The original has a function for each kind: a chunk of one kind needs no test of it.
macro_rules! each {
    ($chunk:expr, $moves:expr, $rook:expr, $bishop:expr) => {
        let n = $moves.len();
        let (kinds, squares, blockers) = (&$chunk.queries.kinds[..n], &$chunk.squares[..n], &$chunk.queries.blockers[..n]);
        match $chunk.kinds {
            Kinds::Rooks => {
                for i in 0..n {
                    $moves[i] = $rook(squares[i], BitBoard(blockers[i])).0;
                }
            }
            Kinds::Bishops => {
                for i in 0..n {
                    $moves[i] = $bishop(squares[i], BitBoard(blockers[i])).0;
                }
            }
            Kinds::Mixed => {
                for i in 0..n {
                    let (sq, blockers) = (squares[i], BitBoard(blockers[i]));
                    $moves[i] = if kinds[i] == 0 { $rook(sq, blockers) } else { $bishop(sq, blockers) }.0;
                }
            }
        }
    };
}

fn original_magic(c: &Chunk, moves: &mut [u64]) {
    each!(c, moves, get_rook_moves, get_bishop_moves);
}

/// With BMI2, which the original's functions were compiled for: so they are inlined here.
#[target_feature(enable = "bmi2")]
unsafe fn original_pext(c: &Chunk, moves: &mut [u64]) {
    each!(c, moves, get_rook_moves_bmi, get_bishop_moves_bmi);
}

fn one_by_one(q: &Queries, moves: &mut [u64], ask: impl Fn(u8, u8, u64) -> ours::Answer) {
    for (i, to) in moves.iter_mut().enumerate() {
        let (kind, sq, blockers) = q.get(i);
        *to = ask(kind, sq, blockers).value;
    }
}

/// Name, the row that its ratio is to, and what it does with a chunk: moves, and room for numbers.
type Row<'a> = (&'a str, usize, &'a dyn Fn(&Chunk, &mut [u64], &mut [u64]));

/// The seconds of each round, piece by piece: the same pieces of work in every round.
type Rounds = Vec<Vec<f64>>;

/// Each piece's best round, summed: a neighbour on the machine seldom disturbs the same piece in all rounds.
fn best(rounds: &Rounds) -> f64 {
    (0..rounds[0].len()).map(|piece| rounds.iter().map(|round| round[piece]).fold(f64::MAX, f64::min)).sum()
}

/// How much the slowest round took beyond the fastest, in percent.
fn spread(rounds: &Rounds) -> f64 {
    let totals = || rounds.iter().map(|round| round.iter().sum::<f64>());
    (totals().fold(0.0, f64::max) / totals().fold(f64::MAX, f64::min) - 1.0) * 100.0
}

fn look_ups(o: &Original, count: usize, rounds: usize) {
    let (records, table) = (&o.images[0].records, &o.images[0].moves[..]);
    let mut entries = vec![0; ALL];
    ours::pext_fill(&mut entries);
    let batch = |by: By, c: &Chunk, moves: &mut [u64], numbers: &mut [u64]| {
        ours::batch(&by, &c.queries, numbers, moves);
    };
    let rows: [Row; 7] = [
        ("the original's get_rook_moves, get_bishop_moves", 0, &|c, moves, _| original_magic(c, moves)),
        ("ours by magic, batch", 0, &|c, moves, numbers| batch(By::Magic(records, table), c, moves, numbers)),
        ("ours by magic, a call a query", 0, &|c, moves, _| {
            one_by_one(&c.queries, moves, |k, s, b| ours::moves(k, s, b, records[theirs::block(k, s)], table))
        }),
        // SAFETY: the processor has BMI2, or the original's generator would have stopped the build.
        ("the original's get_rook_moves_bmi, get_bishop_moves_bmi", 3, &|c, moves, _| unsafe { original_pext(c, moves) }),
        ("ours by PEXT, batch", 3, &|c, moves, numbers| batch(By::Pext(&entries), c, moves, numbers)),
        ("ours by PEXT, a call a query", 3, &|c, moves, _| {
            one_by_one(&c.queries, moves, |k, s, b| ours::pext_moves(k, s, b, &entries))
        }),
        ("ours by the walk, batch", 0, &|c, moves, numbers| batch(By::Walk, c, moves, numbers)),
    ];
    for (title, turns) in [("kinds mixed", [Kinds::Mixed; 2]), ("chunks of one kind", [Kinds::Rooks, Kinds::Bishops])] {
        let taken = timed(&rows, &chunks(count, turns), rounds);
        println!("{:60} {:>12} {:>10} {:>19}", format!("look-ups, {title}"), "ns a query", "spread", "to the original's");
        for ((name, to, _), rounds) in rows.iter().zip(&taken) {
            let (ns, ratio) = (best(rounds) * 1e9 / count as f64, best(rounds) / best(&taken[*to]));
            println!("{name:60} {ns:12.2} {:8.1} % {ratio:19.2}", spread(rounds));
        }
        println!();
    }
}

/// Each row over all chunks in each round: first a chunk that does not count. Row after row, from another row on in each round.
fn timed(rows: &[Row; 7], chunks: &[Chunk], rounds: usize) -> [Rounds; 7] {
    let mut taken: [Rounds; 7] = Default::default();
    for round in 0..rounds {
        for k in (0..rows.len()).map(|turn| (turn + round) % rows.len()) {
            taken[k].push(one_row(&rows[k], chunks));
        }
    }
    taken
}

fn one_row((name, _, run): &Row, chunks: &[Chunk]) -> Vec<f64> {
    let mut seconds = vec![];
    let (mut moves, mut numbers) = (vec![0; CHUNK], vec![0; CHUNK]);
    for (warming, chunk) in [(true, &chunks[0])].into_iter().chain(chunks.iter().map(|chunk| (false, chunk))) {
        let n = chunk.wanted.len();
        moves.fill(0);
        let begun = clock::cpu();
        run(chunk, &mut moves[..n], &mut numbers[..n]);
        let taken = clock::cpu() - begun;
        same(moves[..n] == chunk.wanted, name);
        if !warming {
            seconds.push(taken.as_secs_f64());
        }
    }
    seconds
}

/// Two ways by turns, the first of them in turn first; a round before the rounds warms up.
fn by_turns(rounds: usize, mut seconds: impl FnMut(usize) -> f64) -> [Rounds; 2] {
    let mut taken: [Rounds; 2] = Default::default();
    for round in 0..=rounds {
        for way in [round % 2, 1 - round % 2] {
            let seconds = seconds(way);
            if round > 0 {
                taken[way].push(vec![seconds]);
            }
        }
    }
    taken
}

// ---- what a call of a batch costs by itself: it takes 128 records by value, and lists the rays of all blocks

fn seconds(calls: usize, mut call: impl FnMut()) -> f64 {
    let begun = clock::cpu();
    (0..calls).for_each(|_| call());
    (clock::cpu() - begun).as_secs_f64()
}

fn short_batches(o: &Original, rounds: usize) {
    const CALLS: usize = 50_000;
    let (records, table) = (&o.images[0].records, &o.images[0].moves[..]);
    println!("{:60} {:>12} {:>10} {:>19}", "ours by magic, short batches", "ns a call", "spread", "to single calls");
    let line = |name: &str, rounds: &Rounds, ratio: &str| {
        println!("{name:60} {:12.1} {:8.1} % {ratio:>19}", best(rounds) * 1e9 / CALLS as f64, spread(rounds));
    };

    let none = [ours::Record { multiplier: 0, mask: 0, offset: 0, shift: 0 }; 128];
    let refuse = || {
        black_box(ours::audit(black_box(&none), &[]));
    };
    let [refused, _] = by_turns(rounds, |_| seconds(CALLS, refuse));
    line("an audit that refuses block 0: the records, and no more", &refused, "");

    for length in [0, 1, 2, 4, 8, 16, 32, 64, 120] {
        let chunk = Chunk::new(&mut Random::new(2), Kinds::Mixed, length);
        let (mut numbers, mut moves) = (vec![0; length], vec![0; length]);
        let taken = by_turns(rounds, |way| {
            moves.fill(0);
            let seconds = seconds(CALLS, || {
                let (q, moves) = (black_box(&chunk.queries), black_box(&mut moves[..]));
                if way == 0 {
                    ours::batch(&By::Magic(records, table), q, &mut numbers, moves);
                } else {
                    one_by_one(q, moves, |k, s, b| ours::moves(k, s, b, records[theirs::block(k, s)], table));
                }
            });
            same(moves == chunk.wanted, "a short batch");
            seconds
        });
        let ratio = format!("{:.2}", best(&taken[0]) / best(&taken[1]));
        line(&format!("a batch of {length}"), &taken[0], if length == 0 { "" } else { &ratio });
    }
    println!();
}

// ---- builds

/// The original's gen_all_magic with SplitMix64 from our seed in SmallRng's place, and our build from that seed: the same candidates, the
/// same tables. Each is a run of its own, for the original's statics can be filled once, and tells its own CPU time.
fn builds(rounds: usize) {
    println!("{:60} {:>12} {:>10} {:>19}", "whole builds", "s", "spread", "to the original's");
    for (seed, image) in images::splitmix() {
        let wanted = format!("{:016X} ", fnv(&image.slots()));
        let taken = by_turns(rounds, |way| {
            let text = run_of_its_own(way == 0, seed);
            same(way == 0 || text.starts_with(&wanted), "our build");
            text.split_whitespace().last().unwrap().parse().unwrap()
        });
        let names = [format!("the original's gen_all_magic, SplitMix64 from {seed:#x}"), format!("ours from seed {seed:#x}")];
        for (name, rounds) in names.iter().zip(&taken) {
            println!("{name:60} {:12.3} {:8.1} % {:19.2}", best(rounds), spread(rounds), best(rounds) / best(&taken[0]));
        }
    }
}

/// From lent multipliers there is nothing of the original's to time; the builder written anew does the same.
fn lent_builds(o: &Original, rounds: usize) {
    println!("\n{:60} {:>12} {:>10} {:>19}", "whole builds from the original's multipliers", "s", "spread", "to the other's");
    let (list, slots) = (o.images[0].multipliers(), o.images[0].slots());
    let (mut table, mut marks) = (vec![0; ALL], vec![0; ALL]);
    let taken = by_turns(rounds, |way| {
        let seconds = seconds(1, || {
            if way == 0 {
                black_box(anew::build_from_lent(&list, &mut table, &mut marks));
            } else {
                black_box(ours::build_lent(&list, &mut table, &mut marks));
            }
        });
        same(table == slots, "a build from multipliers");
        seconds
    });
    for (name, rounds) in ["the builder written anew", "ours"].iter().zip(&taken) {
        println!("{name:60} {:12.4} {:8.1} % {:19.2}", best(rounds), spread(rounds), best(rounds) / best(&taken[0]));
    }
}

fn run_of_its_own(original: bool, seed: u64) -> String {
    let mut command = Command::new(env!("COMPARE_RUNNER"));
    if original {
        command.arg(concat!(env!("OUT_DIR"), "/splitmix/generate")).arg("/dev/null").env("SEED", seed.to_string());
    } else {
        command.arg(std::env::current_exe().unwrap()).args(["image", &seed.to_string()]);
    }
    String::from_utf8(command.output().expect("a run of its own").stdout).unwrap()
}

fn same(alike: bool, name: &str) {
    if !alike {
        eprintln!("{name}: not the original's answers");
        exit(1);
    }
}

// ---- the machine

/// QEMU names itself in CPUID.
#[allow(unused_unsafe)] // __cpuid became a safe function
fn emulated() -> bool {
    // SAFETY: every x86-64 processor has the instruction.
    let signature = unsafe { __cpuid(0x4000_0000) };
    [signature.ebx, signature.ecx, signature.edx].iter().flat_map(|word| word.to_le_bytes()).eq(*b"TCGTCGTCGTCG")
}

/// As /proc/cpuinfo tells it.
fn processor() -> String {
    let text = std::fs::read_to_string("/proc/cpuinfo").unwrap_or_default();
    let line = text.lines().find(|line| line.starts_with("model name"));
    line.and_then(|line| line.split_once(": ")).map_or("unknown".to_string(), |(_, name)| name.to_string())
}

pub fn run(count: usize, rounds: usize) {
    if emulated() {
        println!("EMULATED: this runs under QEMU, off x86-64. Ratios say little of a processor, times nothing.");
    } else {
        println!("processor: {}", processor());
    }
    println!("{count} queries in chunks of {CHUNK}, a quarter of the squares blocked; CPU time, rows in turning order");
    println!("times: the best of {rounds} rounds, for look-ups of each chunk; spread: what the slowest round took beyond the fastest\n");
    let original = Original::new();
    look_ups(&original, count, rounds);
    short_batches(&original, rounds);
    builds(rounds);
    lent_builds(&original, rounds);
}
