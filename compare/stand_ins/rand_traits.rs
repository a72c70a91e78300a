// What the reference asks of the crate `rand`. A stand-in includes this file and gives its `rngs::StdRng` a `seeded` and a `next`.
pub trait Roll {
    fn of(x: f64) -> Self;
}

impl Roll for f64 {
    fn of(x: f64) -> f64 {
        x
    }
}

pub trait Rng {
    fn random<T: Roll>(&mut self) -> T;
}

impl Rng for rngs::StdRng {
    fn random<T: Roll>(&mut self) -> T {
        T::of(self.next())
    }
}

pub trait SeedableRng {
    fn seed_from_u64(seed: u64) -> Self;
}

impl SeedableRng for rngs::StdRng {
    fn seed_from_u64(seed: u64) -> Self {
        Self::seeded(seed)
    }
}
