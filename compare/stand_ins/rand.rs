// Stand-in for the crate `rand`, which is not to be had: `random` hands out the rolls that were fed for the generator's seed, in their order.
use std::cell::RefCell;
use std::collections::{HashMap, VecDeque};

include!("rand_traits.rs");

thread_local! {
    static ROLLS: RefCell<HashMap<u64, VecDeque<f64>>> = RefCell::new(HashMap::new());
}

pub fn feed(rolls: &[f64]) {
    feed_seed(0, rolls);
}

pub fn feed_seed(seed: u64, rolls: &[f64]) {
    ROLLS.with(|q| q.borrow_mut().entry(seed).or_default().extend(rolls.iter().copied()));
}

pub fn left() -> usize {
    left_of(0)
}

pub fn left_of(seed: u64) -> usize {
    ROLLS.with(|q| q.borrow().get(&seed).map_or(0, |r| r.len()))
}

pub fn clear() {
    ROLLS.with(|q| q.borrow_mut().clear());
}

pub mod rngs {
    pub struct StdRng(pub u64);
}

impl rngs::StdRng {
    fn seeded(seed: u64) -> Self {
        rngs::StdRng(seed)
    }
    fn next(&mut self) -> f64 {
        ROLLS.with(|q| q.borrow_mut().get_mut(&self.0).and_then(|r| r.pop_front()).expect("no roll left"))
    }
}
