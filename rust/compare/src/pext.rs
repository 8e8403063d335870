//! PEXT tables: the fill, places, look-ups one at a time and in batches, against gen_tables/bmis.rs and src/magic.rs; refusals and tables
//! that no fill made, against the rulebook.
use crate::ours::{self, Answer, By, ALL};
use crate::plain;
use crate::random::{Random, DENSITIES};
use crate::tally::Report;
use crate::theirs::{self, kind_square, Original};
use crate::walks;

/// Entries on each side of a lent table.
const BESIDE: usize = 4_099;

fn entries(random: &mut Random, n: usize) -> Vec<u16> {
    (0..n).map(|_| (random.next() >> 20) as u16).collect()
}

pub fn run(r: &mut Report, o: &Original, n: u64, seed: u64) {
    let mut random = Random::new(seed);
    let table = fill(r, o, &mut random);
    look_ups(r, o, &mut random, &table, n);
    refusals(r, &mut random);
    other_tables(r, o, &mut random, n / 10);
}

fn fill(r: &mut Report, o: &Original, random: &mut Random) -> Vec<u16> {
    let mut t = [
        r.start("fill over 0xFFFF, twice over random bytes, every entry: BMI_MOVES of three runs"),
        r.start("its answer; 4,099 entries on each side of the table as before"),
        r.start("places of 128 blocks: BmiMagic's offsets and masks of three runs"),
    ];
    let mut table = vec![];
    for round in 0..3 {
        let mut buffer = entries(random, ALL + 2 * BESIDE);
        if round == 0 {
            buffer.fill(0xFFFF);
        }
        let before = buffer.clone();
        t[1].said(ours::pext_fill(&mut buffer[BESIDE..BESIDE + ALL]), Ok(ALL as u64), || format!("round {round}"));
        for i in (0..BESIDE).chain(BESIDE + ALL..buffer.len()) {
            t[1].same(buffer[i] as u64, before[i] as u64, || format!("round {round}, buffer entry {i}"));
        }
        table = buffer[BESIDE..BESIDE + ALL].to_vec();
        for image in &o.images {
            for i in 0..ALL {
                t[0].same(table[i] as u64, image.bmi_moves[i] as u64, || format!("round {round}, entry {i}, {}", image.name));
            }
        }
    }
    for block in 0..128 {
        let (kind, sq) = kind_square(block);
        let say = || format!("kind {kind}, square {sq}");
        let place = ours::pext_place(kind, sq, &table);
        for image in &o.images {
            t[2].same(place.number, 0, say);
            t[2].same(place.offset, image.bmi_offsets[block], say);
            t[2].same(place.size, 1 << image.bmi_masks[block].count_ones(), say);
        }
    }
    r.ends(t);
    table
}

fn look_ups(r: &mut Report, o: &Original, random: &mut Random, table: &[u16], n: u64) {
    let kept = table.to_vec();
    let mut t = [
        r.start("all 107,648 subsets: get_rook_moves_bmi, get_bishop_moves_bmi, and the original's answers"),
        r.start("the same with random squares off the mask added"),
    ];
    for block in 0..128 {
        let (kind, sq) = kind_square(block);
        for (question, answer) in o.questions[block].iter().zip(&o.answers[block]) {
            for (k, b) in [*question, question | random.next() & !o.masks[block]].into_iter().enumerate() {
                let say = || format!("kind {kind}, square {sq}, blockers {b:#x}");
                let ours = ours::pext_moves(kind, sq, b, table);
                t[k].said(ours, Ok(theirs::moves_bmi(kind, sq, b)), say);
                t[k].said(ours, Ok(*answer), say);
            }
        }
    }
    r.ends(t);
    let q = walks::queries(random, n);
    let mut t = [
        r.start("any 64 bits: get_rook_moves_bmi, get_bishop_moves_bmi"),
        r.start("any 64 bits: get_rook_moves, get_bishop_moves"),
        r.start("the same in batches: get_rook_moves_bmi, get_bishop_moves_bmi"),
        r.start("the table after all these look-ups"),
    ];
    let mut want = vec![];
    for i in 0..q.len() {
        let (kind, sq, b) = q.get(i);
        let ours = ours::pext_moves(kind, sq, b, table);
        want.push(theirs::moves_bmi(kind, sq, b));
        t[0].said(ours, Ok(want[i]), || walks::say(&q, i));
        t[1].said(ours, Ok(theirs::moves(kind, sq, b)), || walks::say(&q, i));
    }
    walks::in_batches(&mut t[2], &By::Pext(table), &q, &want);
    for i in 0..ALL {
        t[3].same(table[i] as u64, kept[i] as u64, || format!("entry {i}"));
    }
    r.ends(t);
}

const WRONG: [usize; 16] =
    [0, 1, 2, 64, 128, 5_248, 42_112, 65_535, 65_536, 102_400, 107_646, 107_647, 107_649, 107_650, 107_776, 215_296];

fn refusals(r: &mut Report, random: &mut Random) {
    let mut buffer = entries(random, 2 * ALL + 2 * BESIDE);
    let before = buffer.clone();
    let mut t = [
        r.start("rulebook: look-up and place refuse by 1, 2, 9: 4 lengths, all 65,536 kinds and squares"),
        r.start("rulebook: the same for 13 other lengths, kinds 0 to 3 and 255, squares 0 to 66 and 255"),
        r.start("rulebook: fill of 16 wrong lengths: 9"),
        r.start("the buffer after all these calls, lent part and both sides"),
    ];
    let near = [0, ALL - 1, ALL, ALL + 1];
    for len in near.into_iter().chain(WRONG).collect::<std::collections::BTreeSet<usize>>() {
        let table = &buffer[BESIDE..BESIDE + len];
        let row = !near.contains(&len) as usize;
        for kind in 0..=255 {
            for sq in 0..=255 {
                if row == 1 && (kind > 3 && kind < 255 || sq > 66 && sq < 255) {
                    continue;
                }
                let want = match (kind, sq) {
                    (2.., _) => Err(1),
                    (_, 64..) => Err(2),
                    _ if len != ALL => Err(9),
                    _ => continue,
                };
                let say = || format!("length {len}, kind {kind}, square {sq}");
                t[row].said(ours::pext_moves(kind, sq, !0, table), want, say);
                let place = ours::pext_place(kind, sq, table);
                t[row].said(Answer { number: place.number, value: place.offset | place.size }, want, say);
            }
        }
    }
    for len in WRONG {
        t[2].said(ours::pext_fill(&mut buffer[BESIDE..BESIDE + len]), Err(9), || format!("length {len}"));
    }
    for i in 0..buffer.len() {
        t[3].same(buffer[i] as u64, before[i] as u64, || format!("buffer entry {i}"));
    }
    r.ends(t);
}

fn other_tables(r: &mut Report, o: &Original, random: &mut Random, n: u64) {
    let mut t = [
        r.start("rulebook: tables of garbage, 0xFFFF and 0, all subsets: the entry deposited through the rays"),
        r.start("rulebook: the same tables, random blockers, alone and in batches"),
    ];
    for table in [entries(random, ALL), vec![0xFFFF; ALL], vec![0; ALL]] {
        let want = |block: usize, b: u64| {
            let at = o.images[0].bmi_offsets[block] + plain::extract(b, o.masks[block]);
            plain::deposit(table[at as usize] as u64, o.rays[block])
        };
        for block in 0..128 {
            let (kind, sq) = kind_square(block);
            for question in &o.questions[block] {
                let b = question | random.next() & !o.masks[block];
                let say = || format!("kind {kind}, square {sq}, blockers {b:#x}");
                t[0].said(ours::pext_moves(kind, sq, b, &table), Ok(want(block, b)), say);
            }
        }
        let mut q = ours::Queries::default();
        for i in 0..n as usize {
            let (kind, sq, b) = random.query(i % DENSITIES);
            q.push(kind, sq, b);
        }
        let want: Vec<u64> = (0..q.len()).map(|i| want(theirs::block(q.kinds[i], q.squares[i]), q.blockers[i])).collect();
        for i in 0..q.len() {
            t[1].said(ours::pext_moves(q.kinds[i], q.squares[i], q.blockers[i], &table), Ok(want[i]), || walks::say(&q, i));
        }
        walks::in_batches(&mut t[1], &By::Pext(&table), &q, &want);
    }
    r.ends(t);
}
