//! The original's tables, from the text that its own write_rays, write_magic and write_bmis wrote.
//! Block number: bishop on s is s, rook on s is 64 + s; the text's lists have rooks first.
use crate::ours::{Record, Records, ALL};

pub struct Image {
    /// Whose SmallRng.
    pub name: &'static str,
    pub rays: Vec<u64>,
    pub records: Records,
    /// MOVES: as many slots as the original used.
    pub moves: Vec<u64>,
    pub bmi_masks: Vec<u64>,
    pub bmi_offsets: Vec<u64>,
    pub bmi_moves: Vec<u16>,
}

/// One source, three generators under one name.
pub fn all() -> [Image; 3] {
    [
        Image::read("rand 0.8.5, 64 bits (xoshiro256++)", include_str!(concat!(env!("OUT_DIR"), "/tables_rand085.rs"))),
        Image::read(
            "rand_pcg 0.3.1 (Pcg64Mcg, rand 0.7's choice)",
            include_str!(concat!(env!("OUT_DIR"), "/tables_pcg64mcg.rs")),
        ),
        Image::read("rand 0.8.5, 32 bits (xoshiro128++)", include_str!(concat!(env!("OUT_DIR"), "/tables_rand085_32bit.rs"))),
    ]
}

/// Seeds, and the original with SplitMix64 from them under the name SmallRng.
pub fn splitmix() -> Vec<(u64, Image)> {
    let texts = include!(concat!(env!("OUT_DIR"), "/splitmix.rs"));
    texts.into_iter().map(|(seed, text)| (seed, Image::read("SplitMix64", text))).collect()
}

impl Image {
    fn read(name: &'static str, text: &str) -> Image {
        assert!(text.starts_with("const ROOK: usize = 0;\nconst BISHOP: usize = 1;\n"));
        let records: Vec<Record> = numbers(text, "MAGIC_NUMBERS")
            .chunks(4)
            .map(|r| Record { multiplier: r[0], mask: r[1], offset: r[2] as u32, shift: r[3] as u8 })
            .collect();
        let bmi: Vec<u64> = [numbers(text, "BISHOP_BMI_MASK"), numbers(text, "ROOK_BMI_MASK")].concat();
        let i = Image {
            name,
            rays: bishops_first(&numbers(text, "RAYS")),
            records: bishops_first(&records).try_into().unwrap(),
            moves: numbers(text, "MOVES"),
            bmi_masks: bmi.iter().step_by(2).copied().collect(),
            bmi_offsets: bmi.iter().skip(1).step_by(2).copied().collect(),
            bmi_moves: numbers(text, "BMI_MOVES").iter().map(|e| *e as u16).collect(),
        };
        let lengths = [i.rays.len(), i.bmi_masks.len(), i.bmi_offsets.len(), i.bmi_moves.len()];
        assert_eq!(lengths, [128, 128, 128, ALL], "{name}: the text was not read whole");
        assert!(
            text.contains(&format!("const MOVES: [BitBoard; {}] = [\n", i.moves.len())),
            "{name}: MOVES was not read whole"
        );
        i
    }

    pub fn multipliers(&self) -> Vec<u64> {
        self.records.iter().map(|r| r.multiplier).collect()
    }

    /// The slots, with zeros up to 107,648.
    pub fn slots(&self) -> Vec<u64> {
        let mut slots = self.moves.clone();
        slots.resize(ALL, 0);
        slots
    }

    /// The formula of src/magic.rs, over this image.
    pub fn look_up(&self, block: usize, blockers: u64) -> u64 {
        let r = self.records[block];
        let index = r.multiplier.wrapping_mul(blockers & r.mask) >> r.shift;
        self.moves[r.offset as usize + index as usize] & self.rays[block]
    }
}

/// The numbers of the constant NAME.
fn numbers(text: &str, name: &str) -> Vec<u64> {
    let from = &text[text.find(&format!("const {name}: ")).expect(name)..];
    let from = &from[from.find(" = [").unwrap()..];
    let list = &from[..from.find("];").unwrap()];
    list.split(|c: char| !c.is_ascii_digit()).filter(|n| !n.is_empty()).map(|n| n.parse().unwrap()).collect()
}

fn bishops_first<T: Copy>(list: &[T]) -> Vec<T> {
    [&list[64..], &list[..64]].concat()
}

/// FNV-1a, 64 bits, over the slots, little-endian.
pub fn fnv(slots: &[u64]) -> u64 {
    let step = |h: u64, b: u8| (h ^ b as u64).wrapping_mul(0x100_0000_01b3);
    slots.iter().flat_map(|s| s.to_le_bytes()).fold(0xcbf2_9ce4_8422_2325, step)
}
