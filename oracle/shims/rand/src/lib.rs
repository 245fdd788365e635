//! The trait `Rng`, for signatures only: no call of the oracle draws at random.

pub trait Rng {
    fn gen_range(&mut self, range: std::ops::Range<u64>) -> u64;
}
