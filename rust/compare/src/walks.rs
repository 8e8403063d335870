//! The walk on any 64 blocker bits, one at a time and in batches, against the original's look-ups and three other forms of it.
use crate::ours::{self, By, Queries};
use crate::plain::{self, Between};
use crate::random::{Random, DENSITIES};
use crate::tally::{Report, Tally};
use crate::theirs::{self, kind_square, Original};

/// No blocker, all, each square alone, all but each; then random ones of ten densities.
pub fn queries(random: &mut Random, n: u64) -> Queries {
    let mut q = Queries::default();
    for (kind, sq) in (0..128).map(kind_square) {
        for b in [0, !0].into_iter().chain((0..64).flat_map(|s| [1 << s, !(1u64 << s)])) {
            q.push(kind, sq, b);
        }
    }
    for i in 0..n as usize {
        let (kind, sq, b) = random.query(i % DENSITIES);
        q.push(kind, sq, b);
    }
    q
}

pub fn say(q: &Queries, i: usize) -> String {
    let (kind, sq, b) = q.get(i);
    format!("kind {kind}, square {sq}, blockers {b:#x}")
}

/// Batches of so many queries; the last may be shorter.
pub const BATCH: usize = 10_000;

/// The queries in batches, each answer against `want`; what is lent beyond the batch stays as it was.
pub fn in_batches(t: &mut Tally, by: &By, q: &Queries, want: &[u64]) {
    for (start, chunk) in (0..).step_by(BATCH).zip(want.chunks(BATCH)) {
        let end = start + chunk.len();
        let part = Queries {
            kinds: q.kinds[start..end].to_vec(),
            squares: q.squares[start..end].to_vec(),
            blockers: q.blockers[start..end].to_vec(),
        };
        let (mut numbers, mut moves) = (vec![!7u64; chunk.len() + 3], vec![7u64; chunk.len() + 3]);
        t.same(ours::batch(by, &part, &mut numbers, &mut moves), chunk.len() as u64, || {
            format!("queries answered from {start} on")
        });
        for i in 0..chunk.len() {
            t.said(ours::Answer { number: numbers[i], value: moves[i] }, Ok(chunk[i]), || say(q, start + i));
        }
        for i in chunk.len()..chunk.len() + 3 {
            t.same(numbers[i], !7, || format!("number {i} past the batch from {start} on"));
            t.same(moves[i], 7, || format!("answer {i} past the batch from {start} on"));
        }
    }
}

/// A form of the walk, under its name.
type Form<'a> = (&'a str, &'a dyn Fn(u8, u8, u64) -> u64);

pub fn run(r: &mut Report, o: &Original, n: u64, seed: u64) {
    let q = queries(&mut Random::new(seed), n);
    let walks: Vec<_> = (0..q.len()).map(|i| ours::walk(q.kinds[i], q.squares[i], q.blockers[i])).collect();
    let between = Between::new();
    let forms: [Form; 6] = [
        ("get_rook_moves, get_bishop_moves", &theirs::moves),
        ("get_rook_moves_bmi, get_bishop_moves_bmi", &theirs::moves_bmi),
        ("the original's answer to the question blockers & mask", &|kind, sq, b| {
            let block = theirs::block(kind, sq);
            o.answers[block][plain::extract(b, o.masks[block]) as usize]
        }),
        ("the original's loop, copied, on all blockers", &theirs::loop_copy),
        ("rulebook: a loop over ranks and files", &plain::walk),
        ("rulebook: no blocker strictly between", &|kind, sq, b| between.attack(kind, sq, b)),
    ];
    for (name, theirs) in forms {
        let mut t = r.start(&format!("walk of any 64 bits: {name}"));
        for (i, walk) in walks.iter().enumerate() {
            let (kind, sq, b) = q.get(i);
            t.said(*walk, Ok(theirs(kind, sq, b)), || say(&q, i));
        }
        r.end(t);
    }
    let mut t = r.start("walks in batches: get_rook_moves, get_bishop_moves");
    let want: Vec<u64> = (0..q.len()).map(|i| theirs::moves(q.kinds[i], q.squares[i], q.blockers[i])).collect();
    in_batches(&mut t, &By::Walk, &q, &want);
    r.end(t);
}
