//! The board, written from the rulebook with ranks and files: walk, attack set, extract and deposit bit by bit.

fn directions(kind: u8) -> [(i32, i32); 4] {
    if kind == 0 {
        [(0, 1), (0, -1), (1, 0), (-1, 0)]
    } else {
        [(1, 1), (1, -1), (-1, 1), (-1, -1)]
    }
}

fn rank_file(s: i32) -> (i32, i32) {
    (s / 8, s % 8)
}

/// From s in each of four directions, squares up to and including the first blocker.
pub fn walk(kind: u8, s: u8, blockers: u64) -> u64 {
    let mut set = 0u64;
    for (dr, df) in directions(kind) {
        let (rank, file) = rank_file(s as i32);
        let (mut r, mut f) = (rank + dr, file + df);
        while (0..8).contains(&r) && (0..8).contains(&f) {
            let t = 8 * r + f;
            set |= 1 << t;
            if blockers >> t & 1 == 1 {
                break;
            }
            r += dr;
            f += df;
        }
    }
    set
}

/// The squares strictly between s and t, for t on a ray of s.
fn between(kind: u8, s: i32, t: i32) -> Option<u64> {
    let ((r, f), (to_r, to_f)) = (rank_file(s), rank_file(t));
    let (dr, df) = (to_r - r, to_f - f);
    let on_ray = s != t && if kind == 0 { dr == 0 || df == 0 } else { dr.abs() == df.abs() };
    let n = dr.abs().max(df.abs());
    on_ray.then(|| (1..n).fold(0, |set, k| set | 1 << (8 * (r + dr / n * k) + f + df / n * k)))
}

/// For each kind and square: its targets, each with the squares strictly between.
pub struct Between(Vec<Vec<(u64, u64)>>);

impl Between {
    pub fn new() -> Between {
        let row = |kind, s| (0..64).filter_map(|t| between(kind, s, t).map(|squares| (1 << t, squares))).collect();
        Between((0..2).flat_map(|kind| (0..64).map(move |s| row(kind, s))).collect())
    }

    /// Each square of the rays with no blocker strictly between it and s.
    pub fn attack(&self, kind: u8, s: u8, blockers: u64) -> u64 {
        let row = &self.0[kind as usize * 64 + s as usize];
        row.iter().filter(|(_, squares)| squares & blockers == 0).fold(0, |set, (t, _)| set | t)
    }
}

/// Bit j of the answer: whether x has the j-th smallest bit of the mask.
pub fn extract(x: u64, mask: u64) -> u64 {
    let (mut left, mut j, mut out) = (mask, 0, 0);
    while left != 0 {
        let low = left & left.wrapping_neg();
        if x & low != 0 {
            out |= 1 << j;
        }
        left ^= low;
        j += 1;
    }
    out
}

/// The j-th smallest bit of the mask is in the answer when bit j of x is set.
pub fn deposit(x: u64, mask: u64) -> u64 {
    let (mut left, mut j, mut out) = (mask, 0, 0);
    while left != 0 {
        let low = left & left.wrapping_neg();
        if x >> j & 1 == 1 {
            out |= low;
        }
        left ^= low;
        j += 1;
    }
    out
}
