//! Slider tables for rook and bishop: magic tables (build, look-up, audit) and
//! PEXT tables, written from the rule document 01 alone.
//!
//! Quoted sentences in the comments are sentences of 01. Numbers 1 to 11 in
//! results are the numbers of its section "Numbers handed back".
//!
//! `rays`, `mask` and `walk` have no refusal in their result; they are meant
//! for kind 0 or 1 and squares 0 to 63, and panic on anything else. Every
//! function whose result can carry a refusal takes any arguments.

use std::sync::OnceLock;

// ---------------------------------------------------------------------------
// Constants
// ---------------------------------------------------------------------------

/// "Kind 0 is rook, 1 is bishop"
pub const ROOK: u8 = 0;
pub const BISHOP: u8 = 1;

/// "Magic blocks are always taken 0 to 127"
pub const BLOCKS: u32 = 128;

/// "All blocks together: 102,400 rook and 5,248 bishop slots, 107,648."
pub const ALL_SLOTS: usize = 107_648;

/// Refusal 10 is "budget above 16,777,216".
pub const MAX_BUDGET: u64 = 16_777_216;

/// The largest block: "rook 12 [bits] in a corner", "2^bits slots".
const MAX_BLOCK_SLOTS: usize = 4096;

// "Numbers handed back"
pub const BAD_KIND: u8 = 1;
pub const BAD_SQUARE: u8 = 2;
pub const LENGTHS_DIFFER: u8 = 3;
pub const NO_ROOM: u8 = 4;
pub const BUDGET_SPENT: u8 = 5;
pub const LENT_COLLIDES: u8 = 6;
pub const PAST_TABLE: u8 = 7;
pub const BAD_SHAPE: u8 = 8;
pub const BAD_LENGTH: u8 = 9;
pub const BAD_BUDGET: u8 = 10;
pub const WRONG_SLOT: u8 = 11;

// ---------------------------------------------------------------------------
// The board
// ---------------------------------------------------------------------------

/// "rank s/8, file s mod 8"
fn rank_file(sq: u8) -> (i8, i8) {
    ((sq / 8) as i8, (sq % 8) as i8)
}

/// "Bit s of a 64-bit set is square s."
fn bit(sq: u8) -> u64 {
    1 << sq
}

/// The set of all squares for which `wanted` holds.
fn squares_where(wanted: impl Fn(u8) -> bool) -> u64 {
    (0..64)
        .filter(|&sq| wanted(sq))
        .fold(0, |set, sq| set | bit(sq))
}

/// Refusals 1 and 2, in this order.
fn check_kind_square(kind: u8, sq: u8) -> Result<(), u8> {
    if kind > BISHOP {
        return Err(BAD_KIND);
    }
    if sq > 63 {
        return Err(BAD_SQUARE);
    }
    Ok(())
}

fn require_kind_square(kind: u8, sq: u8) {
    assert!(kind <= BISHOP, "kind {kind} is above 1");
    assert!(sq <= 63, "square {sq} is above 63");
}

/// "Block number: bishop on s is s, rook on s is 64 + s."
pub fn block_kind_square(block: u32) -> (u8, u8) {
    assert!(block < BLOCKS, "block {block} is above 127");
    if block < 64 {
        (BISHOP, block as u8)
    } else {
        (ROOK, (block - 64) as u8)
    }
}

/// The other way round: the block number of a kind and a square.
pub fn block_number(kind: u8, sq: u8) -> u32 {
    require_kind_square(kind, sq);
    if kind == BISHOP {
        u32::from(sq)
    } else {
        64 + u32::from(sq)
    }
}

/// "Rays: rook, same rank or file, not s; bishop, equal rank and file
/// distance, not s."
pub fn rays(kind: u8, sq: u8) -> u64 {
    require_kind_square(kind, sq);
    let (rank, file) = rank_file(sq);
    squares_where(|other| {
        let (r, f) = rank_file(other);
        let on_a_ray = if kind == ROOK {
            r == rank || f == file
        } else {
            (r - rank).abs() == (f - file).abs()
        };
        on_a_ray && other != sq
    })
}

/// "Mask: bishop rays without the whole board edge. Rook rays without A and H
/// on its own rank and ranks 1 and 8 on its own file."
pub fn mask(kind: u8, sq: u8) -> u64 {
    require_kind_square(kind, sq);
    let (rank, file) = rank_file(sq);
    let dropped = squares_where(|other| {
        let (r, f) = rank_file(other);
        let on_a_or_h = f == 0 || f == 7;
        let on_1_or_8 = r == 0 || r == 7;
        if kind == BISHOP {
            on_a_or_h || on_1_or_8
        } else {
            (r == rank && on_a_or_h) || (f == file && on_1_or_8)
        }
    });
    rays(kind, sq) & !dropped
}

/// "Subset i sets the j-th smallest mask square when bit j of i is set (j
/// counted from 0). Bits of i past the mask's count have no effect."
pub fn subset(mask: u64, i: u64) -> u64 {
    let mut set = 0;
    let mut left = mask;
    let mut j = 0;
    while left != 0 {
        let smallest = left & left.wrapping_neg();
        if i >> j & 1 == 1 {
            set |= smallest;
        }
        left ^= smallest;
        j += 1;
    }
    set
}

/// "Walk: from s in each of four directions, add squares up to and including
/// the first blocker. Bit s of the blockers has no effect."
pub fn walk(kind: u8, sq: u8, blockers: u64) -> u64 {
    require_kind_square(kind, sq);
    const ROOK_STEPS: [(i8, i8); 4] = [(1, 0), (-1, 0), (0, 1), (0, -1)];
    const BISHOP_STEPS: [(i8, i8); 4] = [(1, 1), (1, -1), (-1, 1), (-1, -1)];
    let steps = if kind == ROOK {
        ROOK_STEPS
    } else {
        BISHOP_STEPS
    };

    let (rank, file) = rank_file(sq);
    let mut reached = 0;
    for (up, right) in steps {
        let (mut r, mut f) = (rank + up, file + right);
        while (0..8).contains(&r) && (0..8).contains(&f) {
            let here = bit((r * 8 + f) as u8);
            reached |= here;
            if blockers & here != 0 {
                break;
            }
            r += up;
            f += right;
        }
    }
    reached
}

// ---------------------------------------------------------------------------
// One block, worked out once
// ---------------------------------------------------------------------------

/// What building needs to know about one block.
struct Block {
    number: u32,
    rays: u64,
    mask: u64,
    shift: u8,
    /// Subset i at place i, for all 2^bits of them.
    subsets: Vec<u64>,
    /// The walk of subset i at place i.
    walks: Vec<u64>,
}

impl Block {
    fn new(number: u32) -> Block {
        let (kind, sq) = block_kind_square(number);
        let mask = mask(kind, sq);
        let subsets: Vec<u64> = (0..slots_of(mask) as u64)
            .map(|i| subset(mask, i))
            .collect();
        let walks = subsets.iter().map(|&s| walk(kind, sq, s)).collect();
        Block {
            number,
            rays: rays(kind, sq),
            mask,
            shift: shift_of(mask),
            subsets,
            walks,
        }
    }

    fn size(&self) -> usize {
        self.subsets.len()
    }

    fn subsets_and_walks(&self) -> impl Iterator<Item = (u64, u64)> + '_ {
        self.subsets.iter().copied().zip(self.walks.iter().copied())
    }
}

/// "A block has 2^bits slots"
fn slots_of(mask: u64) -> usize {
    1 << mask.count_ones()
}

/// "its shift is 64 - bits, so 52 to 59"
fn shift_of(mask: u64) -> u8 {
    (64 - mask.count_ones()) as u8
}

/// "(candidate * subset) >> shift"; "The product is taken modulo 2 to the 64."
fn magic_index(multiplier: u64, subset: u64, shift: u8) -> usize {
    (multiplier.wrapping_mul(subset) >> shift) as usize
}

// ---------------------------------------------------------------------------
// Candidates
// ---------------------------------------------------------------------------

/// "The generator is SplitMix64"
#[derive(Clone, Copy, Debug, PartialEq, Eq)]
pub struct SplitMix64 {
    pub state: u64,
}

impl SplitMix64 {
    /// "any 64-bit seed is allowed"
    pub fn new(seed: u64) -> SplitMix64 {
        SplitMix64 { state: seed }
    }

    /// "Each output adds 0x9E3779B97F4A7C15 to the state, then mixes
    /// z = state: z = (z xor z>>30) * 0xBF58476D1CE4E5B9;
    /// z = (z xor z>>27) * 0x94D049BB133111EB; output z xor z>>31, all modulo
    /// 2^64."
    pub fn output(&mut self) -> u64 {
        self.state = self.state.wrapping_add(0x9E37_79B9_7F4A_7C15);
        let mut z = self.state;
        z = (z ^ (z >> 30)).wrapping_mul(0xBF58_476D_1CE4_E5B9);
        z = (z ^ (z >> 27)).wrapping_mul(0x94D0_49BB_1331_11EB);
        z ^ (z >> 31)
    }

    /// "A candidate is the AND of three outputs in a row."
    pub fn candidate(&mut self) -> u64 {
        self.output() & self.output() & self.output()
    }

    /// "A by-value draw hands back the candidate and the moved generator."
    pub fn draw(mut self) -> (u64, SplitMix64) {
        let candidate = self.candidate();
        (candidate, self)
    }
}

/// "It is skipped with fewer than 6 ones in the product of mask and candidate."
fn is_skipped(mask: u64, candidate: u64) -> bool {
    mask.wrapping_mul(candidate).count_ones() < 6
}

/// The trial storage: all slots are 0 between trials.
struct Trial {
    slots: Vec<u64>,
}

impl Trial {
    fn new() -> Trial {
        Trial {
            slots: vec![0; MAX_BLOCK_SLOTS],
        }
    }

    /// "A collision is destructive when two subsets reach one trial slot,
    /// (candidate * subset) >> shift, with different walks."
    fn collides(&mut self, block: &Block, multiplier: u64) -> bool {
        let mut collision = false;
        let mut tried = 0;
        for (subset, walk) in block.subsets_and_walks() {
            let slot = &mut self.slots[magic_index(multiplier, subset, block.shift)];
            // "No walk is empty, so 0 marks a free trial slot."
            if *slot != 0 && *slot != walk {
                collision = true;
                break;
            }
            *slot = walk;
            tried += 1;
        }
        // Free again the slots that were taken.
        for &subset in &block.subsets[..tried] {
            self.slots[magic_index(multiplier, subset, block.shift)] = 0;
        }
        collision
    }
}

/// The first passing candidate of a block and its attempt count, or `None`
/// when none of the first `budget` candidates passes.
///
/// "A candidate passes when it isn't skipped and has no destructive
/// collision." "Every block starts again from the same seed". "Skipped
/// candidates count as attempts. A block's attempt count is the position, from
/// 1, of its first passing candidate."
fn first_passing(block: &Block, seed: u64, budget: u64, trial: &mut Trial) -> Option<(u64, u64)> {
    let mut generator = SplitMix64::new(seed);
    for attempt in 1..=budget {
        let candidate = generator.candidate();
        if !is_skipped(block.mask, candidate) && !trial.collides(block, candidate) {
            return Some((candidate, attempt));
        }
    }
    None
}

/// "The one-block search takes kind, square, seed and budget and answers that
/// candidate and count, or 1, 2, 10 or 5."
///
/// Only 5 carries the block: "one-block search: block only".
pub fn search(kind: u8, sq: u8, seed: u64, budget: u64) -> Result<(u64, u64), (u8, Option<u32>)> {
    // "Order: 1, 2, 9, 10, 3"
    check_kind_square(kind, sq).map_err(|number| (number, None))?;
    if budget > MAX_BUDGET {
        return Err((BAD_BUDGET, None));
    }
    let block = Block::new(block_number(kind, sq));
    first_passing(&block, seed, budget, &mut Trial::new()).ok_or((BUDGET_SPENT, Some(block.number)))
}

// ---------------------------------------------------------------------------
// Packing
// ---------------------------------------------------------------------------

/// "A record is multiplier, mask, offset (32 bits), shift."
#[derive(Clone, Copy, Debug, Default, PartialEq, Eq)]
pub struct Record {
    pub multiplier: u64,
    pub mask: u64,
    pub offset: u32,
    pub shift: u8,
}

/// What a build hands back by value.
#[derive(Clone, Debug, PartialEq, Eq)]
pub struct Built {
    /// A refusal is its number, with the block for 4, 5 and 6.
    pub outcome: Result<(), (u8, Option<u32>)>,
    /// 128 records, in block order.
    pub records: Vec<Record>,
    /// 128 attempt counts, in block order.
    pub counts: Vec<u64>,
    /// "the final end is the used length, at most 107,648"
    pub used: u64,
}

impl Built {
    /// A refused build: "records, counts all 0, used 0"; and "After 3, 9 or 10
    /// whatever a build hands back by value is zero."
    fn refused(number: u8, block: Option<u32>) -> Built {
        Built {
            outcome: Err((number, block)),
            records: vec![Record::default(); BLOCKS as usize],
            counts: vec![0; BLOCKS as usize],
            used: 0,
        }
    }
}

/// "A block's place is the smallest i below the end such that the marks at i
/// up to i + size - 1 share no bit with its rays; if none, the end. Marks past
/// the lent length count as 0 here. All slots of the range are tested, hit or
/// not."
fn place_of(block: &Block, marks: &[u64], end: usize) -> usize {
    let mark = |slot: usize| marks.get(slot).copied().unwrap_or(0);
    (0..end)
        .find(|&i| (i..i + block.size()).all(|slot| mark(slot) & block.rays == 0))
        .unwrap_or(end)
}

/// "each slot hit by a subset gets the walk ORed into the table and the rays
/// ORed into the marks; only its own part of the table is lent on to be
/// written"
fn write_block(block: &Block, multiplier: u64, table_part: &mut [u64], marks_part: &mut [u64]) {
    for (subset, walk) in block.subsets_and_walks() {
        let slot = magic_index(multiplier, subset, block.shift);
        table_part[slot] |= walk;
        marks_part[slot] |= block.rays;
    }
}

/// The packing itself; table and marks have one length. `choose` gives a
/// block's multiplier and attempt count, or the number of the refusal.
fn pack(
    table: &mut [u64],
    marks: &mut [u64],
    mut choose: impl FnMut(&Block) -> Result<(u64, u64), u8>,
) -> Built {
    // "Before block 0 all table and mark slots are 0 and the end is 0."
    table.fill(0);
    marks.fill(0);
    let mut end = 0;

    let mut records = Vec::with_capacity(BLOCKS as usize);
    let mut counts = Vec::with_capacity(BLOCKS as usize);
    // "Magic blocks are always taken 0 to 127"; "The first failing block
    // decides."
    for number in 0..BLOCKS {
        let block = Block::new(number);
        let place = place_of(&block, marks, end);
        let place_end = place + block.size();

        // "If place + size exceeds the table, no room."; "within a block 4
        // before 5 or 6".
        let chosen = if place_end > table.len() {
            Err(NO_ROOM)
        } else {
            choose(&block)
        };
        let (multiplier, count) = match chosen {
            Ok(pair) => pair,
            Err(refusal) => {
                // "block; table, marks, records, counts all 0, used 0"
                table.fill(0);
                marks.fill(0);
                return Built::refused(refusal, Some(number));
            }
        };

        // "After the search, each slot hit by a subset gets the walk ORed into
        // the table and the rays ORed into the marks".
        write_block(
            &block,
            multiplier,
            &mut table[place..place_end],
            &mut marks[place..place_end],
        );
        records.push(Record {
            multiplier,
            mask: block.mask,
            // Every place is below 107,648, the sum of all sizes.
            offset: place as u32,
            shift: block.shift,
        });
        counts.push(count);

        // "The end becomes the larger of the old end and place + size".
        end = end.max(place_end);
    }

    Built {
        outcome: Ok(()),
        records,
        counts,
        used: end as u64,
    }
}

/// The build from a seed. Refusals: 10, 3 (nothing changed), then 4 or 5 at
/// the first failing block (all zero).
pub fn build_from_seed(seed: u64, budget: u64, table: &mut [u64], marks: &mut [u64]) -> Built {
    // "Order: 1, 2, 9, 10, 3"
    if budget > MAX_BUDGET {
        return Built::refused(BAD_BUDGET, None);
    }
    if table.len() != marks.len() {
        return Built::refused(LENGTHS_DIFFER, None);
    }
    let mut trial = Trial::new();
    pack(table, marks, |block| {
        first_passing(block, seed, budget, &mut trial).ok_or(BUDGET_SPENT)
    })
}

/// "The build from lent multipliers does the same with 128 given numbers, in
/// block order, testing collisions only: the skip rule belongs to the search.
/// Its attempt counts are 0."
///
/// Refusals: 9, 3 (nothing changed), then 4 or 6 at the first failing block
/// (all zero).
pub fn build_from_lent(multipliers: &[u64], table: &mut [u64], marks: &mut [u64]) -> Built {
    // "Order: 1, 2, 9, 10, 3"
    if multipliers.len() != BLOCKS as usize {
        return Built::refused(BAD_LENGTH, None);
    }
    if table.len() != marks.len() {
        return Built::refused(LENGTHS_DIFFER, None);
    }
    let mut trial = Trial::new();
    pack(table, marks, |block| {
        let multiplier = multipliers[block.number as usize];
        if trial.collides(block, multiplier) {
            Err(LENT_COLLIDES)
        } else {
            Ok((multiplier, 0))
        }
    })
}

// ---------------------------------------------------------------------------
// Look-ups and audit
// ---------------------------------------------------------------------------

/// "Magic: the slot at offset + ((multiplier * (blockers AND mask)) >> shift),
/// ANDed with the rays. It answers by this formula for any record."
///
/// The mask is the record's own. Refusals: 1, 2, 8, 7 ("in a look-up 8 before
/// 7").
pub fn look_up(kind: u8, sq: u8, blockers: u64, record: &Record, table: &[u64]) -> Result<u64, u8> {
    check_kind_square(kind, sq)?;
    // "look-up: shift outside 52 to 59"
    if !(52..=59).contains(&record.shift) {
        return Err(BAD_SHAPE);
    }
    // A 32-bit offset and an index below 4,096 cannot overflow 64 bits.
    let index = magic_index(record.multiplier, blockers & record.mask, record.shift);
    let slot = u64::from(record.offset) + index as u64;
    // "index at or past the table's length"
    if slot >= table.len() as u64 {
        return Err(PAST_TABLE);
    }
    Ok(table[slot as usize] & rays(kind, sq))
}

/// "The audit takes any 128 records and any table." It "accepts exactly when
/// all hold [...] and reports the reach: the end (offset + size) of block 127."
///
/// Refusals: number, block and, for 7 and 11, the subset. Another number of
/// records than 128 is outside the document and panics.
pub fn audit(records: &[Record], table: &[u64]) -> Result<u64, (u8, u32, Option<u32>)> {
    assert_eq!(
        records.len(),
        BLOCKS as usize,
        "the audit takes 128 records"
    );
    let mut reach = 0;
    for (number, record) in (0..BLOCKS).zip(records) {
        let (kind, sq) = block_kind_square(number);
        let block = Block::new(number);

        // "Per block: mask and shift exact, else 8"
        if record.mask != block.mask || record.shift != block.shift {
            return Err((BAD_SHAPE, number, None));
        }
        // "then subsets in order: in the table, else 7; look-up equal to the
        // walk, else 11"
        for (i, (subset, walk)) in (0u32..).zip(block.subsets_and_walks()) {
            // "A refused look-up is taken apart first and passed on with its
            // block and subset."
            let found = look_up(kind, sq, subset, record, table)
                .map_err(|refusal| (refusal, number, Some(i)))?;
            if found != walk {
                return Err((WRONG_SLOT, number, Some(i)));
            }
        }
        // The last block, 127, leaves its end here.
        reach = u64::from(record.offset) + block.size() as u64;
    }
    Ok(reach)
}

// ---------------------------------------------------------------------------
// PEXT
// ---------------------------------------------------------------------------

/// Extract: the bits of `value` at the mask squares, packed from bit 0 up.
pub fn pext(value: u64, mask: u64) -> u64 {
    let mut packed = 0;
    let mut left = mask;
    let mut j = 0;
    while left != 0 {
        let smallest = left & left.wrapping_neg();
        if value & smallest != 0 {
            packed |= 1 << j;
        }
        left ^= smallest;
        j += 1;
    }
    packed
}

/// Deposit: bit j of `value` goes to the j-th smallest mask square. This is
/// the rule of the subsets.
pub fn pdep(value: u64, mask: u64) -> u64 {
    subset(mask, value)
}

/// "PEXT: blocks in the order rook 0, bishop 0, rook 1, bishop 1, ..."
fn pext_order() -> impl Iterator<Item = (u8, u8)> {
    (0..64).flat_map(|sq| [(ROOK, sq), (BISHOP, sq)])
}

/// Offset and size of every PEXT block, in their order: worked out once.
fn pext_places() -> &'static [(usize, usize)] {
    static PLACES: OnceLock<Vec<(usize, usize)>> = OnceLock::new();
    PLACES.get_or_init(|| {
        let mut offset = 0;
        pext_order()
            .map(|(kind, sq)| {
                let size = slots_of(mask(kind, sq));
                let place = (offset, size);
                offset += size;
                place
            })
            .collect()
    })
}

/// "the number, or the block's offset and size". Refusals: 1, 2, 9.
pub fn pext_place(kind: u8, sq: u8, table: &[u16]) -> Result<(usize, usize), u8> {
    check_kind_square(kind, sq)?;
    if table.len() != ALL_SLOTS {
        return Err(BAD_LENGTH);
    }
    let position = 2 * usize::from(sq) + usize::from(kind == BISHOP);
    Ok(pext_places()[position])
}

/// "A square's PEXT block [...] can be asked for as a returned part; there 1,
/// 2 and 9 return the empty part, which no block is".
pub fn pext_part(kind: u8, sq: u8, table: &[u16]) -> &[u16] {
    match pext_place(kind, sq, table) {
        Ok((offset, size)) => &table[offset..offset + size],
        Err(_) => &[],
    }
}

/// Fills a PEXT table: "entry i is the walk of subset i extracted through the
/// rays, 16 bits". Refusal 9: "PEXT table not 107,648", "nothing changed".
pub fn pext_fill(table: &mut [u16]) -> Result<(), u8> {
    if table.len() != ALL_SLOTS {
        return Err(BAD_LENGTH);
    }
    for ((kind, sq), &(offset, size)) in pext_order().zip(pext_places()) {
        let (rays, mask) = (rays(kind, sq), mask(kind, sq));
        for (i, entry) in (0u64..).zip(&mut table[offset..offset + size]) {
            // Rays have at most 14 squares, so 16 bits hold the entry.
            *entry = pext(walk(kind, sq, subset(mask, i)), rays) as u16;
        }
    }
    Ok(())
}

/// "the look-up deposits it again, for any 107,648 entries. A square's PEXT
/// block is handed on as a part that starts at its offset". Refusals: 1, 2, 9.
pub fn pext_look_up(kind: u8, sq: u8, blockers: u64, table: &[u16]) -> Result<u64, u8> {
    let (offset, size) = pext_place(kind, sq, table)?;
    let part = &table[offset..offset + size];
    let entry = part[pext(blockers, mask(kind, sq)) as usize];
    Ok(pdep(u64::from(entry), rays(kind, sq)))
}
