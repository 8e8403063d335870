//! The border: null pointers of length 0 at every slice that an export takes.
use crate::builds::{anew_audit, verdicts};
use crate::magic::built;
use crate::ours::{raw::*, Answer, By, Queries, Record, Set, ALL, LIMIT};
use crate::tally::Report;
use std::ptr::{null, null_mut};

pub fn run(r: &mut Report) {
    let mut t = [
        r.start("null pointers of length 0: square 2; PEXT fill, look-up and place 9, after 1 and 2"),
        r.start("null pointers of length 0: builds 4, 10, 9, 3; nothing used"),
        r.start("null pointers of length 0: magic look-up 7, after 1, 2, 8; audit: independent builder"),
        r.start("null pointers of length 0 in each slice of a batch: none answered, the rest as before"),
    ];
    let none = || "null".to_string();
    let tables = built(42);
    let asked = [(0, 0, 0), (1, 63, 0), (2, 0, 1), (255, 64, 1), (0, 64, 2), (1, 255, 2)];
    unsafe {
        t[0].said(slider_square(null(), 0), Err(2), none);
        t[0].said(slider_pext_fill(null_mut(), 0), Err(9), none);
        for (kind, sq, number) in asked {
            let want = Err(if number == 0 { 9 } else { number });
            let say = || format!("kind {kind}, square {sq}");
            t[0].said(slider_pext_moves(kind, sq, !0, null(), 0), want, say);
            let place = slider_pext_place(kind, sq, null(), 0);
            t[0].said(Answer { number: place.number, value: place.offset | place.size }, want, say);
        }

        let mut word = [0x1234_u64];
        let words = word.as_mut_ptr();
        let list = [0u64; 128];
        let builds = [
            (slider_build(0, LIMIT, null_mut(), 0, null_mut(), 0), 4),
            (slider_build(0, LIMIT + 1, null_mut(), 0, null_mut(), 0), 10),
            (slider_build(0, LIMIT, null_mut(), 0, words, 1), 3),
            (slider_build(0, LIMIT, words, 1, null_mut(), 0), 3),
            (slider_build_lent(null(), 0, null_mut(), 0, null_mut(), 0), 9),
            (slider_build_lent(null(), 0, null_mut(), 0, words, 1), 9),
            (slider_build_lent(list.as_ptr(), 128, null_mut(), 0, words, 1), 3),
            (slider_build_lent(list.as_ptr(), 128, null_mut(), 0, null_mut(), 0), 4),
        ];
        for (k, (b, number)) in builds.into_iter().enumerate() {
            let say = || format!("build {k}");
            t[1].same(b.number, number, say);
            t[1].same(b.block, 0, say);
            t[1].same(b.used, 0, say);
            t[1].same(word[0], 0x1234, say);
            let zero = Record { multiplier: 0, mask: 0, offset: 0, shift: 0 };
            t[1].same(b.records.iter().filter(|r| **r != zero).count() as u64, 0, say);
            t[1].same(b.counts.iter().sum(), 0, say);
        }

        for (kind, sq, number) in asked {
            for shift in [0, 51, 52, 59, 60, 255] {
                let want = match number {
                    0 if (52..=59).contains(&shift) => 7,
                    0 => 8,
                    n => n,
                };
                let magic = Record { multiplier: 1, mask: !0, offset: 0, shift };
                let say = || format!("kind {kind}, square {sq}, shift {shift}");
                t[2].said(slider_moves(kind, sq, !0, magic, null(), 0), Err(want), say);
            }
        }
        let mut wrong = tables.records;
        wrong[0].shift = 0;
        for records in [tables.records, wrong] {
            let ours = slider_audit(Set { records }, null(), 0);
            verdicts(&mut t[2], ours, anew_audit(&records, &[]), none);
        }

        // each of the five slices in turn, then all
        let entries = vec![0u16; ALL];
        for k in 0..6 {
            let (kinds, squares, blockers) = ([0u8; 2], [0u8; 2], [0u64; 2]);
            let (mut numbers, mut moves) = ([5u64; 2], [6u64; 2]);
            let len = |j: usize| if k == j || k == 5 { 0 } else { 2 };
            let (kp, sp, bp) = (kinds.as_ptr(), squares.as_ptr(), blockers.as_ptr());
            let (np, mp) = (numbers.as_mut_ptr(), moves.as_mut_ptr());
            let (kp, sp) = (if len(0) == 0 { null() } else { kp }, if len(1) == 0 { null() } else { sp });
            let bp = if len(2) == 0 { null() } else { bp };
            let (np, mp) = (if len(3) == 0 { null_mut() } else { np }, if len(4) == 0 { null_mut() } else { mp });
            let l = [len(0), len(1), len(2), len(3), len(4)];
            let answered = [
                slider_walk_batch(kp, l[0], sp, l[1], bp, l[2], np, l[3], mp, l[4]),
                slider_pext_moves_batch(entries.as_ptr(), ALL, kp, l[0], sp, l[1], bp, l[2], np, l[3], mp, l[4]),
                slider_moves_batch(
                    Set { records: tables.records },
                    tables.table.as_ptr(),
                    ALL,
                    kp,
                    l[0],
                    sp,
                    l[1],
                    bp,
                    l[2],
                    np,
                    l[3],
                    mp,
                    l[4],
                ),
            ];
            for (j, n) in answered.into_iter().enumerate() {
                t[3].same(n, 0, || format!("batch {j}, slice {k} null"));
            }
            for i in 0..2 {
                t[3].same(numbers[i], 5, || format!("number {i}, slice {k} null"));
                t[3].same(moves[i], 6, || format!("answer {i}, slice {k} null"));
            }
        }
    }
    // tables of length 0 in a batch
    let mut q = Queries::default();
    asked.into_iter().for_each(|(kind, sq, _)| q.push(kind, sq, !0));
    for (by, number) in [(By::Pext(&[]), 9), (By::Magic(&tables.records, &[]), 7)] {
        let (mut numbers, mut moves) = ([77; 6], [77; 6]);
        t[3].same(crate::ours::batch(&by, &q, &mut numbers, &mut moves), 6, none);
        for (i, (_, _, first)) in asked.into_iter().enumerate() {
            let want = Err(if first == 0 { number } else { first });
            t[3].said(Answer { number: numbers[i], value: moves[i] }, want, || format!("query {i}"));
        }
    }
    r.ends(t);
}
