//! Squares, names, rays, masks, sizes, shifts, questions and answers, against src/square.rs, gen_tables/rays.rs and
//! gen_tables/magic_helpers.rs; numbers that the original does not take, against the rulebook.
use crate::ours::{self, Answer, Name, Step};
use crate::random::Random;
use crate::tally::Report;
use crate::theirs::{block, kind_square, square, Original};
use original::error::Error;
use original::square::Square;
use std::str::FromStr;

pub fn run(r: &mut Report, o: &Original, n: u64, seed: u64) {
    let mut random = Random::new(seed);
    blocks(r, o, &mut random, n / 4);
    squares(r);
    names(r, &mut random, n);
    refusals(r);
}

fn blocks(r: &mut Report, o: &Original, random: &mut Random, n: u64) {
    let mut t = [
        r.start("rays of 128 blocks: get_rays, and write_rays' text of three runs"),
        r.start("masks: magic_mask, write_magic's and write_bmis' texts"),
        r.start("sizes: the number of questions"),
        r.start("shifts: write_magic's texts"),
        r.start("all questions, in the original's order: questions_and_answers"),
        r.start("all answers, in the original's order: questions_and_answers"),
        r.start("rulebook: bits of a subset's number past the mask's count have no effect"),
    ];
    for block in 0..128 {
        let (kind, sq) = kind_square(block);
        let say = || format!("kind {kind}, square {sq}");
        let (rays, mask) = (ours::rays(kind, sq), ours::mask(kind, sq));
        t[0].said(rays, Ok(o.rays[block]), say);
        t[1].said(mask, Ok(o.masks[block]), say);
        t[2].said(ours::size(kind, sq), Ok(o.questions[block].len() as u64), say);
        for i in &o.images {
            t[0].said(rays, Ok(i.rays[block]), say);
            t[1].said(mask, Ok(i.records[block].mask), say);
            t[1].said(mask, Ok(i.bmi_masks[block]), say);
            t[3].said(ours::shift(kind, sq), Ok(i.records[block].shift as u64), say);
        }
        for (i, (question, answer)) in o.questions[block].iter().zip(&o.answers[block]).enumerate() {
            let say = || format!("kind {kind}, square {sq}, number {i}");
            let subset = ours::subset(kind, sq, i as u64);
            t[4].said(subset, Ok(*question), say);
            t[5].said(ours::walk(kind, sq, subset.value), Ok(*answer), say);
        }
    }
    for _ in 0..n {
        let (kind, sq, number) = random.query(4);
        let block = block(kind, sq);
        let question = o.questions[block][number as usize % o.questions[block].len()];
        t[6].said(ours::subset(kind, sq, number), Ok(question), || format!("kind {kind}, square {sq}, number {number:#x}"));
    }
    r.ends(t);
}

fn squares(r: &mut Report) {
    let mut t = r.start("steps of 64 squares: up, down, left, right; off the board included");
    for sq in 0..64 {
        let s = square(sq);
        let steps =
            [(ours::up(sq), s.up()), (ours::down(sq), s.down()), (ours::left(sq), s.left()), (ours::right(sq), s.right())];
        for (k, (step, to)) in steps.into_iter().enumerate() {
            let theirs =
                to.map_or(Step { number: 0, off: 1, square: 0 }, |to| Step { number: 0, off: 0, square: to.to_int() as u64 });
            let say = || format!("step {k} of {sq}");
            t.same(step.number, theirs.number, say);
            t.same(step.off, theirs.off, say);
            t.same(step.square, theirs.square, say);
        }
    }
    r.end(t);
    let mut t = r.start("names written, 64 squares: Display");
    for sq in 0..64 {
        let text = square(sq).to_string().into_bytes();
        let ours = ours::name(sq);
        let say = || format!("square {sq}");
        t.same(ours.number, 0, say);
        t.same(ours.letter as u64, text[0] as u64, say);
        t.same(ours.digit as u64, text[1] as u64, say);
        t.same(2, text.len() as u64, say);
    }
    r.end(t);
}

/// The original takes text in UTF-8 alone.
fn read(text: &str) -> Result<u64, u64> {
    match Square::from_str(text) {
        Ok(s) => Ok(s.to_int() as u64),
        Err(Error::InvalidSquare) => Err(2),
        Err(_) => Err(99),
    }
}

fn names(r: &mut Report, random: &mut Random, n: u64) {
    let mut t = [
        r.start("names read, every text of 0 to 2 bytes: from_str"),
        r.start("names read, random texts of 2 to 9 characters, some beyond ASCII: from_str"),
        r.start("rulebook: names read from 2 and 3 bytes that are no UTF-8"),
    ];
    let mut one = |bytes: &[u8]| match std::str::from_utf8(bytes) {
        Ok(text) => t[0].said(ours::square(bytes), read(text), || format!("{bytes:?}")),
        Err(_) => t[2].said(ours::square(bytes), Err(2), || format!("{bytes:?}")),
    };
    one(&[]);
    for a in 0..=255u8 {
        one(&[a]);
        for b in 0..=255u8 {
            one(&[a, b]);
        }
    }
    for sq in 0..64u8 {
        let name = [b'a' + sq % 8, b'1' + sq / 8, 0xFF];
        t[2].said(ours::square(&name), Ok(sq as u64), || format!("{name:?}"));
    }
    let pool: Vec<char> = "abcdefghabcdefgh1234567812345678i9`0AH \u{e9}\u{20ac}\u{1f600}\0".chars().collect();
    for _ in 0..n / 4 {
        let length = 2 + random.below(8);
        let text: String = (0..length).map(|_| pool[random.below(pool.len() as u64) as usize]).collect();
        t[1].said(ours::square(text.as_bytes()), read(&text), || format!("{text:?}"));
    }
    r.ends(t);
}

fn refusals(r: &mut Report) {
    let mut t = r.start("rulebook: 1, 2 for all 65,536 kinds and squares: rays, mask, size, shift, subset, walk");
    for kind in 0..=255u8 {
        for sq in 0..=255u8 {
            let want = match (kind, sq) {
                (2.., _) => Err(1),
                (_, 64..) => Err(2),
                _ => continue,
            };
            let all = [
                ours::rays(kind, sq),
                ours::mask(kind, sq),
                ours::size(kind, sq),
                ours::shift(kind, sq),
                ours::subset(kind, sq, !0),
                ours::walk(kind, sq, !0),
            ];
            for (k, answer) in all.into_iter().enumerate() {
                t.said(answer, want, || format!("function {k}, kind {kind}, square {sq}"));
            }
        }
    }
    r.end(t);
    let mut t = r.start("rulebook: 2 for squares 64 to 255: up, down, left, right, name");
    for sq in 64..=255 {
        for (k, s) in [ours::up(sq), ours::down(sq), ours::left(sq), ours::right(sq)].into_iter().enumerate() {
            t.said(Answer { number: s.number, value: s.off | s.square }, Err(2), || format!("step {k} of {sq}"));
        }
        let Name { number, letter, digit } = ours::name(sq);
        t.said(Answer { number, value: (letter | digit) as u64 }, Err(2), || format!("name of {sq}"));
    }
    r.end(t);
}
