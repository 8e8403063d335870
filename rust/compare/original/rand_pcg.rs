//! A `rand` whose SmallRng is rand_pcg's Pcg64Mcg, as rand 0.7's was on 64-bit machines. All else is the real rand's.
pub use real::{Rng, RngCore, SeedableRng};
pub mod rngs {
    pub use rand_pcg::Pcg64Mcg as SmallRng;
}
