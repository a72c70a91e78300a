// Times the timing layer beside the reference in one process, on the same inputs, interleaved; the least of all rounds, in ns a call.
// usage: timing [ROUNDS]
extern crate reference;
#[path = "../compare/exports.rs"]
mod exports;

use exports::*;
use reference::rto::RtoEstimator;
use reference::timer::MultiTimer;
use std::hint::black_box;
use std::time::{Duration, Instant};

// s: the host's words, kind, count, generation
struct Set { s: [u64; 3], k: [u32; 32], d: [u64; 32], o: [u32; 32] }

impl Set {
    fn new() -> Set {
        let mut t = Set { s: [0; 3], k: [0; 32], d: [0; 32], o: [0; 32] };
        assert_eq!(unsafe { pindrelo_make_timers(t.s.as_mut_ptr(), 3, t.k.as_mut_ptr(), 32, t.d.as_mut_ptr(), 32) }, done(0));
        t
    }
    fn start(&mut self, key: u32, now: u64, duration: u64) -> u64 {
        unsafe { pindrelo_timer_start(self.s.as_mut_ptr(), 3, self.k.as_mut_ptr(), 32, self.d.as_mut_ptr(), 32, key as u64, now, duration) }
    }
    fn cancel(&mut self, key: u32) -> u64 {
        unsafe { pindrelo_timer_cancel(self.s.as_mut_ptr(), 3, self.k.as_mut_ptr(), 32, self.d.as_mut_ptr(), 32, key as u64) }
    }
    fn pop(&mut self, now: u64) -> u64 {
        unsafe { pindrelo_timer_pop(self.s.as_mut_ptr(), 3, self.k.as_mut_ptr(), 32, self.d.as_mut_ptr(), 32, now, self.o.as_mut_ptr(), 32) }
    }
    fn earliest(&self) -> u64 {
        unsafe { pindrelo_timer_earliest(self.s.as_ptr(), 3, self.k.as_ptr(), 32, self.d.as_ptr(), 32) }
    }
    fn start_unchecked(&mut self, key: u32, deadline: u64) {
        self.s[1] = unsafe { timing_multi_start_unchecked(self.k.as_mut_ptr(), 32, self.d.as_mut_ptr(), 32, self.s[1] as usize, self.s[2], key, deadline) } as u64;
    }
    fn cancel_unchecked(&mut self, key: u32) {
        self.s[1] = unsafe { timing_multi_cancel_unchecked(self.k.as_mut_ptr(), 32, self.d.as_mut_ptr(), 32, self.s[1] as usize, self.s[2], key) } as u64;
    }
    fn pop_unchecked(&mut self, now: u64) {
        self.s[1] = unsafe { timing_multi_pop_unchecked(self.k.as_mut_ptr(), 32, self.d.as_mut_ptr(), 32, self.s[1] as usize, self.s[2], now, self.o.as_mut_ptr(), 32) } as u64;
    }
}

fn main() {
    let rounds: usize = std::env::args().nth(1).and_then(|x| x.parse().ok()).unwrap_or(2000);
    let samples: Vec<u64> = (0..1000u64).map(|i| 20_000_000 + (i * 7919 % 5_000_000)).collect();
    let zero = Instant::now();
    let at = |x: u64| zero + Duration::from_nanos(x);
    let ms = |x: u64| Duration::from_millis(x);
    let mut set = Set::new();
    let mut theirs: MultiTimer<u32> = MultiTimer::new();
    for i in 0..32u32 {
        theirs.start_timer_at(i * 3, at(0), ms(100));
        assert_eq!(set.start(i * 3, 0, 100_000_000), done(0));
    }
    let mut best = [[f64::MAX; 2]; 7];
    let mut keep = |row: usize, who: usize, t: Duration, n: usize| { let x = t.as_nanos() as f64 / n as f64; if x < best[row][who] { best[row][who] = x; } };
    for _ in 0..rounds {
        let t = Instant::now();
        let mut e = RtoEstimator::new();
        for &x in black_box(&samples) { e.update_rtt(Duration::from_nanos(x), false); }
        black_box(e.current_rto());
        keep(0, 0, t.elapsed(), 1000);
        let t = Instant::now();
        let s: &[u64] = black_box(&samples);
        black_box(unsafe { timing_update_rtt_each(s.as_ptr(), s.len()) });
        keep(0, 1, t.elapsed(), 1000);
        // a key cancelled and started again, 32 entries
        let t = Instant::now();
        for i in 0..96u32 { let key = black_box(i * 5 % 32 * 3); theirs.cancel_timer(&key); theirs.start_timer_at(key, at(0), ms(100)); }
        keep(1, 0, t.elapsed(), 96);
        let t = Instant::now();
        for i in 0..96u32 { let key = black_box(i * 5 % 32 * 3); set.cancel(key); set.start(key, 0, 100_000_000); }
        keep(1, 1, t.elapsed(), 96);
        let t = Instant::now();
        for i in 0..96u32 { let key = black_box(i * 5 % 32 * 3); set.cancel_unchecked(key); set.start_unchecked(key, 100_000_000); }
        keep(4, 1, t.elapsed(), 96);
        // the earliest of 32
        let t = Instant::now();
        for _ in 0..100 { black_box(black_box(&theirs).earliest_deadline()); }
        keep(2, 0, t.elapsed(), 100);
        let t = Instant::now();
        for _ in 0..100 { black_box(black_box(&set).earliest()); }
        keep(2, 1, t.elapsed(), 100);
        // one of 32 expires, is popped and started again
        let t = Instant::now();
        for i in 0..96u32 { let key = i * 5 % 32 * 3; theirs.start_timer_at(key, at(0), ms(1)); black_box(theirs.pop_expired_at(black_box(at(2_000_000)))); theirs.start_timer_at(key, at(0), ms(100)); }
        keep(3, 0, t.elapsed(), 96);
        let t = Instant::now();
        for i in 0..96u32 { let key = i * 5 % 32 * 3; set.start(key, 0, 1_000_000); set.pop(black_box(2_000_000)); set.start(key, 0, 100_000_000); }
        keep(3, 1, t.elapsed(), 96);
        let t = Instant::now();
        for i in 0..96u32 { let key = i * 5 % 32 * 3; set.start_unchecked(key, 1_000_000); set.pop_unchecked(black_box(2_000_000)); set.start_unchecked(key, 100_000_000); }
        keep(5, 1, t.elapsed(), 96);
    }
    // What a run does for each ACK: the oldest key's timer goes, the next key's starts, and the run asks for the earliest. Keys ascend.
    let mut theirs: MultiTimer<u32> = MultiTimer::new();
    let mut set = Set::new();
    let (mut i, mut j) = (0u32, 0u32);
    for n in 0..32u32 {
        theirs.start_timer_at(n, at(0), ms(100));
        assert_eq!(set.start(n, 0, 100_000_000), done(0));
    }
    for _ in 0..rounds {
        let t = Instant::now();
        for _ in 0..96 { let key = black_box(i); theirs.cancel_timer(&key); theirs.start_timer_at(key + 32, at(0), ms(100)); black_box(black_box(&theirs).earliest_deadline()); i += 1; }
        keep(6, 0, t.elapsed(), 96);
        let t = Instant::now();
        for _ in 0..96 { let key = black_box(j); set.cancel(key); set.start(key + 32, 0, 100_000_000); black_box(set.earliest()); j += 1; }
        keep(6, 1, t.elapsed(), 96);
    }
    assert!(set.s[1] == 32 && set.k[0] == j && theirs.len() == 32);
    best[4][0] = best[1][0];
    best[5][0] = best[3][0];
    println!("{:<66} {:>9} {:>9} {:>6}", "ns a call", "reference", "ours", "ratio");
    for (name, b) in ["update_rtt", "timer set, 32: cancel_timer and start_timer_at", "timer set, 32: earliest_deadline", "timer set, 32: start, pop_expired_at, start", "timer set, 32: cancel and start, below the entry points", "timer set, 32: start, pop, start, below the entry points", "timer set, 32: cancel, start, earliest (an ACK in a run)"].iter().zip(best) {
        println!("{:<66} {:>9.1} {:>9.1} {:>6.2}", name, b[0], b[1], b[1] / b[0]);
    }
}
