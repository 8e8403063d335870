//! Random numbers: xorshift64*, no kin of the builders' generator.

pub struct Random(u64);

pub const DENSITIES: usize = 10;

impl Random {
    pub fn new(seed: u64) -> Random {
        Random(seed.max(1))
    }

    pub fn next(&mut self) -> u64 {
        self.0 ^= self.0 >> 12;
        self.0 ^= self.0 << 25;
        self.0 ^= self.0 >> 27;
        self.0.wrapping_mul(0x2545_F491_4F6C_DD1D)
    }

    pub fn below(&mut self, n: u64) -> u64 {
        (self.next() >> 11) % n
    }

    /// Below 2^(low + 1) to 2^high, each power as likely.
    pub fn log(&mut self, low: u64, high: u64) -> u64 {
        let bits = low + 1 + self.below(high - low);
        self.below(1 << bits)
    }

    pub fn words(&mut self, n: usize) -> Vec<u64> {
        (0..n).map(|_| self.next()).collect()
    }

    /// A set of one of ten densities: 1/32 to 15/16 of the squares, one square, all but one.
    pub fn set(&mut self, density: usize) -> u64 {
        let mut x = self.next();
        match density % DENSITIES {
            d @ 0..=3 => (d..4).for_each(|_| x &= self.next()),
            4 => {}
            d @ 5..=7 => (4..d).for_each(|_| x |= self.next()),
            8 => x = 1 << (x >> 58),
            _ => x = !(1 << (x >> 58)),
        }
        x
    }

    /// A kind, a square and blockers.
    pub fn query(&mut self, density: usize) -> (u8, u8, u64) {
        let x = self.next() >> 20;
        ((x & 1) as u8, (x >> 1 & 63) as u8, self.set(density))
    }

    /// One of the bits of a set that is not empty.
    pub fn bit_of(&mut self, set: u64) -> u64 {
        let mut left = set;
        for _ in 0..self.below(set.count_ones() as u64) {
            left &= left - 1;
        }
        left & left.wrapping_neg()
    }
}
