// Stand-in for the crate `rand` in the benchmark: rolls from a fixed table, so that drawing them costs next to nothing.
include!("rand_traits.rs");

pub mod rngs {
    pub struct StdRng(pub usize);
}

pub fn roll(i: usize) -> f64 {
    ((i * 37 + 11) % 64) as f64 / 64.0
}

impl rngs::StdRng {
    fn seeded(_: u64) -> Self {
        rngs::StdRng(0)
    }
    fn next(&mut self) -> f64 {
        self.0 += 1;
        roll(self.0)
    }
}
