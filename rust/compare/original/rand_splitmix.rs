//! A `rand` whose SmallRng is SplitMix64, from the seed that SEED names: the original with the generator and the seed of our builds. All
//! else is the real rand's.
pub use real::{Rng, RngCore, SeedableRng};
pub mod rngs {
    pub struct SmallRng(u64);

    impl real::SeedableRng for SmallRng {
        type Seed = [u8; 8];

        fn from_seed(_: [u8; 8]) -> SmallRng {
            unimplemented!()
        }

        /// The original's one seed gives way to ours.
        fn seed_from_u64(_: u64) -> SmallRng {
            SmallRng(std::env::var("SEED").unwrap().parse().unwrap())
        }
    }

    impl real::RngCore for SmallRng {
        fn next_u64(&mut self) -> u64 {
            self.0 = self.0.wrapping_add(0x9E37_79B9_7F4A_7C15);
            let z = (self.0 ^ self.0 >> 30).wrapping_mul(0xBF58_476D_1CE4_E5B9);
            let z = (z ^ z >> 27).wrapping_mul(0x94D0_49BB_1331_11EB);
            z ^ z >> 31
        }

        fn next_u32(&mut self) -> u32 {
            unimplemented!()
        }

        fn fill_bytes(&mut self, _: &mut [u8]) {
            unimplemented!()
        }

        fn try_fill_bytes(&mut self, _: &mut [u8]) -> Result<(), real::Error> {
            unimplemented!()
        }
    }
}
