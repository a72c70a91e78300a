// Compares the timing layer with the reference's timing/timer.rs and timing/rto.rs: the exports for hosts and, of what hosts don't have, those of
// crates/bench_ffi.
// usage: timing SECONDS [SEED]        compares for about that long; exit status 1 at the first difference
//        timing --sample DIR [SEED]   writes DIR/stdin (cases) and DIR/stdout (the reference's answers)
// Where document 01 refuses and the reference does not, the expected answer is document 01's and the state must stay as it was.
extern crate reference;

#[allow(dead_code)]
#[path = "generator.rs"]
mod generator;

#[path = "cases.rs"]
#[allow(dead_code)]
mod cases;
#[path = "exports.rs"]
mod exports;

use cases::{numbers, Cases};
use exports::*;
use generator::{fail, verdict, Gen};
use reference::rto::{RtoConfig, RtoEstimator};
use reference::timer::{MultiTimer, RetransmissionTimer};
use std::collections::BTreeMap;
use std::time::{Duration, Instant};

const DAY: u64 = 86_400_000_000_000;
const TWO_DAYS: u64 = 2 * DAY;
// A refusal of these layers, whole: it has no values.
const STATE: u64 = 9;
const COUNTS: u64 = 8;
const TIME: u64 = 10;
const SETUP: u64 = 4;
const FULL: u64 = 5;
// Word 0 of a state.
const TIMERS: u64 = 263;
const SINGLE_TIMER: u64 = 264;
const ESTIMATOR: u64 = 265;

impl Gen {
    fn of<T: Copy>(&mut self, xs: &[T]) -> T { xs[self.below(xs.len() as u64) as usize] }
    // a duration, often at an edge
    fn span(&mut self) -> u64 {
        match self.below(6) {
            0 => self.of(&[0, 1, 2, 3, 999, 1_000, 999_999, 1_000_000, 1_000_001, 999_999_999, 1_000_000_000, DAY - 1, DAY]),
            1 => self.below(2_000),
            2 => self.below(2_000_000_000),
            3 => self.below(100) * 1_000_000,
            4 => self.below(DAY + 1),
            _ => { let b = self.below(47); self.next() & ((1 << b) - 1) }
        }
    }
    fn maybe_out(&mut self) -> u64 { if self.below(40) == 0 { self.of(&[DAY + 1, TWO_DAYS, TWO_DAYS + 1, u64::MAX, u64::MAX / 2]) } else { self.span() } }
    fn chance(&mut self) -> f64 { match self.below(5) { 0 => self.of(&[0.0, -0.0, 1.0, 0.125, 0.25, 0.5, 0.1, f64::MIN_POSITIVE, 1.0 - f64::EPSILON / 2.0]), _ => (self.next() >> 11) as f64 / (1u64 << 53) as f64 } }
    fn factor(&mut self) -> f64 { match self.below(4) { 0 => self.of(&[0.0, -0.0, 16.0, 4.0, 1.0, 0.5, 2.0]), _ => (self.next() >> 11) as f64 / (1u64 << 49) as f64 } }
}

fn ns(d: Duration) -> u64 { d.as_nanos() as u64 }
macro_rules! same { ($got:expr, $want:expr, $($t:tt)*) => {{ let (g, w) = (&$got, &$want); if g != w { fail(&format!($($t)*), format!("ours {g:?}, expected {w:?}")); } }}; }

fn durations(r: &mut Gen, n: &mut u64) {
    for _ in 0..2_000 {
        let x = if r.below(4) == 0 { r.next() } else { r.span() };
        same!(unsafe { timing_as_secs_f64(x) }.to_bits(), Duration::from_nanos(x).as_secs_f64().to_bits(), "as_secs_f64({x})");
        let y = match r.below(6) {
            0 => f64::from_bits(r.next()),
            1 => (r.next() >> 11) as f64 / (1u64 << (19 + r.below(60))) as f64,
            2 => Duration::from_nanos(r.next()).as_secs_f64(),
            3 => (r.below(1 << 34) as f64) + (r.below(2048) as f64) / 2048.0,
            4 => (r.below(1 << 20) as f64 + 0.5) / 1e9,
            _ => r.of(&[0.0, -0.0, -1.0, f64::NAN, f64::INFINITY, 17179869184.0, 17179869183.999998, 2097152.0, 2097151.9999999998, 4.656612873077393e-10, 4.65661287307739e-10, 5e-10, 1.5e-9, 2.5e-9, 5e-324]),
        };
        let mut a = [7u64];
        let got = unsafe { timing_from_secs_f64(y, a.as_mut_ptr(), 1) };
        if y >= 0.0 && y < 17179869184.0 {
            same!((got, a[0]), (done(0), ns(Duration::from_secs_f64(y))), "from_secs_f64({y:?} {:x})", y.to_bits());
        } else {
            same!((got, a[0]), (NOTHING, 7), "from_secs_f64({y:?})");
        }
        *n += 2;
    }
}

// All calls on a single timer; the words are the host's: kind, set, deadline, generation.
fn timer_calls(s: &mut [u64], now: u64, d: u64, g: u64) -> [u64; 6] {
    let (p, n) = (s.as_mut_ptr(), s.len());
    unsafe { [
        pindrelo_single_timer_cancel(p, n),
        pindrelo_single_timer_start(p, n, now, d),
        pindrelo_single_timer_is_active(p, n),
        pindrelo_single_timer_is_expired(p, n, now),
        pindrelo_single_timer_is_expired_for(p, n, g, now),
        pindrelo_single_timer_remaining(p, n, now),
    ] }
}

fn timers(r: &mut Gen, n: &mut u64) {
    let zero = Instant::now();
    let at = |x: u64| zero + Duration::from_nanos(x);
    let mut t = RetransmissionTimer::new();
    // one word more than a timer has
    let mut s = [7u64; 5];
    same!((unsafe { pindrelo_make_single_timer(s.as_mut_ptr(), 3) }, s), (FULL, [7; 5]), "making, too few words");
    same!((unsafe { pindrelo_make_single_timer(s.as_mut_ptr(), 5) }, s), (done(0), [SINGLE_TIMER, 0, 0, 0, 7]), "making");
    // the reference's generation can't be set; ours starts near the wrap half of the time, and the difference is kept
    let shift = if r.below(2) == 0 { 0u64 } else { u64::MAX - r.below(4) };
    s[3] = shift;
    for _ in 0..60 {
        let now = if r.below(30) == 0 { r.of(&[TWO_DAYS, TWO_DAYS + 1, u64::MAX]) } else { r.span() };
        let d = r.maybe_out();
        let before = s;
        match r.below(6) {
            0 | 1 => {
                let got = unsafe { pindrelo_single_timer_start(s.as_mut_ptr(), 5, now, d) };
                if now > TWO_DAYS || d > DAY || now + d > TWO_DAYS { same!((got, s), (TIME, before), "start {now} {d}"); } else {
                    let g = t.start_at(at(now), Duration::from_nanos(d));
                    same!((got, s), (done(0), [SINGLE_TIMER, 1, now + d, g.wrapping_add(shift), 7]), "start {now} {d}");
                }
            }
            2 => {
                let got = unsafe { pindrelo_single_timer_cancel(s.as_mut_ptr(), 5) };
                let g = t.cancel();
                same!((got, s), (done(0), [SINGLE_TIMER, 0, 0, g.wrapping_add(shift), 7]), "cancel");
            }
            _ => {
                let late = now > TWO_DAYS;
                let g = if r.below(2) == 0 { t.generation() } else { t.generation().wrapping_sub(r.below(3)) };
                let (p, m) = (s.as_ptr(), s.len());
                let got = unsafe { [
                    pindrelo_single_timer_is_active(p, m),
                    pindrelo_single_timer_is_expired(p, m, now),
                    pindrelo_single_timer_is_expired_for(p, m, g.wrapping_add(shift), now),
                    pindrelo_single_timer_remaining(p, m, now),
                ] };
                let active = done(t.is_active() as u64);
                let want = if late { [active, TIME, TIME, TIME] } else {
                    [active, done(t.is_expired_at(at(now)) as u64), done(t.is_expired_for_at(g, at(now)) as u64), t.remaining_at(at(now)).map_or(NOTHING, |x| done(ns(x)))]
                };
                same!((got, s), (want, before), "reads at {now} of {s:?}");
            }
        }
        *n += 1;
    }
    // a held deadline past its bound; words that hold no timer, at a time that would be refused after them
    for late in [TWO_DAYS + 1, u64::MAX] {
        let held = [SINGLE_TIMER, 1, late, 5];
        let mut s = held;
        same!((timer_calls(&mut s, 0, 0, 5), s), ([TIME; 6], held), "held {held:?}");
        *n += 6;
    }
    for held in [[0, 0, 0, 0], [TIMERS, 0, 0, 5], [SINGLE_TIMER + 256, 1, 2, 5], [SINGLE_TIMER, 2, 2, 5], [SINGLE_TIMER, u64::MAX, 0, 5], [SINGLE_TIMER, 0, 1, 5]] {
        let mut s = held;
        same!((timer_calls(&mut s, u64::MAX, 0, 5), s), ([STATE; 6], held), "no timer in {held:?}");
        let mut s = [SINGLE_TIMER, 1, 2, 5];
        same!((timer_calls(&mut s[..3], 0, 0, 5), s), ([STATE; 6], [SINGLE_TIMER, 1, 2, 5]), "too few words");
        *n += 12;
    }
}

#[derive(Clone, Copy, Debug, PartialEq)]
enum Call { Start, Cancel, Expired, Pop, Earliest, Clear }
use Call::*;
const CALLS: [Call; 6] = [Start, Cancel, Expired, Pop, Earliest, Clear];

// A timer set and all that a call on it can write; the words are the host's: kind, count, generation.
#[derive(Clone, Debug, PartialEq)]
struct Set { s: Vec<u64>, keys: Vec<u32>, deadlines: Vec<u64>, out: Vec<u32> }

impl Set {
    // Ours. Of one call there is no export for hosts: it is made on what words hold.
    fn call(&mut self, call: Call, key: u64, now: u64, d: u64) -> u64 {
        let (s, n, k, kn, e, en) = (self.s.as_mut_ptr(), self.s.len(), self.keys.as_mut_ptr(), self.keys.len(), self.deadlines.as_mut_ptr(), self.deadlines.len());
        let (o, on) = (self.out.as_mut_ptr(), self.out.len());
        unsafe {
            match call {
                Start => pindrelo_timer_start(s, n, k, kn, e, en, key, now, d),
                Cancel => pindrelo_timer_cancel(s, n, k, kn, e, en, key),
                Expired => timing_multi_expired(s.add(1), n - 1, k, kn, e, en, key as u32, now),
                Pop => pindrelo_timer_pop(s, n, k, kn, e, en, now, o, on),
                Earliest => pindrelo_timer_earliest(s, n, k, kn, e, en),
                Clear => pindrelo_timer_clear(s, n, k, kn, e, en),
            }
        }
    }
    // The same as document 01 has it, on any state; what only hosts can give, other words and wide keys, as include/pindrelo.h has it.
    fn model(&mut self, call: Call, key: u64, now: u64, d: u64) -> u64 {
        if self.s.len() < 3 || self.s[0] != TIMERS { return STATE; }
        let (n, room) = (self.s[1] as usize, self.keys.len());
        let nine = room != self.deadlines.len() || n > room || self.keys[..n].windows(2).any(|p| p[0] >= p[1]);
        let mut map: BTreeMap<u64, u64> = BTreeMap::new();
        if !nine { map = self.keys[..n].iter().map(|k| *k as u64).zip(self.deadlines[..n].iter().copied()).collect(); }
        let timed = matches!(call, Start | Expired | Pop) && now > TWO_DAYS;
        let started = call == Start && (d > DAY || now as u128 + d as u128 > TWO_DAYS as u128);
        let due: Vec<u32> = map.iter().filter(|e| *e.1 <= now).map(|e| *e.0 as u32).collect();
        let full = call == Start && !map.contains_key(&key) && (n == room || key >> 32 != 0) || call == Pop && due.len() > self.out.len();
        let v = verdict(&[(9, nine), (10, timed || started || map.values().any(|x| *x > TWO_DAYS)), (5, full)]);
        if v != 0 { return v - 16; }
        let answer = match call {
            Start => { map.insert(key, now + d); self.s[2] = self.s[2].wrapping_add(1); done(0) }
            Cancel => done(map.remove(&key).is_some() as u64),
            Expired => done(due.contains(&(key as u32)) as u64),
            Pop => {
                self.out[..due.len()].copy_from_slice(&due);
                map.retain(|_, x| *x > now);
                done(due.len() as u64)
            }
            Earliest => map.values().min().map_or(NOTHING, |x| done(*x)),
            Clear => { map.clear(); done(0) }
        };
        self.keys[..n].fill(0);
        self.deadlines[..n].fill(0);
        for (i, (k, x)) in map.iter().enumerate() { (self.keys[i], self.deadlines[i]) = (*k as u32, *x); }
        self.s[1] = map.len() as u64;
        answer
    }
    // One call by both; all that it can write is compared.
    fn compared(&mut self, call: Call, key: u64, now: u64, d: u64) -> u64 {
        let (before, mut m) = (self.clone(), self.clone());
        let (got, want) = (self.call(call, key, now, d), m.model(call, key, now, d));
        same!((got, &*self), (want, &m), "{call:?} {key} {now} {d} on {before:?}");
        got
    }
}

fn new_set(set: &mut Set) -> u64 {
    unsafe { pindrelo_make_timers(set.s.as_mut_ptr(), set.s.len(), set.keys.as_mut_ptr(), set.keys.len(), set.deadlines.as_mut_ptr(), set.deadlines.len()) }
}

fn timer_sets(r: &mut Gen, n: &mut u64) {
    let zero = Instant::now();
    let at = |x: u64| zero + Duration::from_nanos(x);
    let room = r.of(&[0usize, 1, 2, 3, 8, 32, 33]);
    // one word more than a set has
    let mut set = Set { s: vec![77, 78, 79, 80], keys: vec![7; room], deadlines: vec![9; room], out: vec![] };
    for (kn, dn, words) in [(room, room + 1, 4), (room + 1, room, 4), (room, room + 1, 2)] {
        let mut unequal = Set { s: vec![77; words], keys: vec![7; kn], deadlines: vec![9; dn], ..set.clone() };
        let before = unequal.clone();
        same!((new_set(&mut unequal), &unequal), (STATE, &before), "new of unequal slices");
    }
    let mut short = Set { s: vec![77; r.below(3) as usize], ..set.clone() };
    let before = short.clone();
    same!((new_set(&mut short), &short), (FULL, &before), "new, too few words");
    let empty = Set { s: vec![TIMERS, 0, 0, 80], keys: vec![0; room], deadlines: vec![0; room], ..set.clone() };
    same!((new_set(&mut set), &set), (done(0), &empty), "new");
    // the reference's generation can't be set; ours starts near the wrap half of the time, and the difference is kept
    let shift = if r.below(2) == 0 { 0 } else { u64::MAX - r.below(2) };
    set.s[2] = shift;
    let mut t: MultiTimer<u32> = MultiTimer::new();
    let pool = 1 + r.below(48) as u32;
    for _ in 0..120 {
        let key = match r.below(10) { 0 => u32::MAX, 1 => r.next() as u32, _ => r.below(pool as u64) as u32 };
        let now = if r.below(40) == 0 { r.of(&[TWO_DAYS, TWO_DAYS + 1]) } else { r.span() };
        let d = r.maybe_out();
        let call = match r.below(108) { 0..=51 => Start, 52..=63 => Cancel, 64..=78 => Expired, 79..=90 => Pop, 91..=106 => Earliest, _ => Clear };
        set.out = vec![5; r.below(room as u64 + 2) as usize];
        // a key that no timer of the reference can have
        if matches!(call, Start | Cancel) && r.below(20) == 0 {
            set.compared(call, key as u64 + (1 << (32 + r.below(32))), now, d);
            *n += 1;
            continue;
        }
        let a = set.compared(call, key as u64, now, d);
        if status(a) == DONE || status(a) == NOTHING {
            match call {
                Start => same!(set.s[2], t.start_timer_at(key, at(now), Duration::from_nanos(d)).wrapping_add(shift), "start {key} {now} {d}, generation"),
                Cancel => same!(a, done(t.cancel_timer(&key) as u64), "cancel {key}"),
                Expired => same!(a, done(t.is_expired_at(&key, at(now)) as u64), "expired {key} {now}"),
                Pop => {
                    let mut theirs = t.pop_expired_at(at(now));
                    theirs.sort();
                    same!(set.out[..value(a) as usize], theirs[..], "pop {now}");
                }
                Earliest => same!(a, t.earliest_deadline().map_or(NOTHING, |i| done(ns(i - zero))), "earliest"),
                Clear => t.clear(),
            }
        }
        same!(set.s[1], t.len() as u64, "how many");
        *n += 1;
    }
}

// Sets of so many entries with one place changed, at every position: each call against the model.
fn changed_sets(r: &mut Gen, count: usize, n: &mut u64) {
    let spare = r.below(3) as usize;
    let mut good = Set { s: vec![TIMERS, count as u64, r.of(&[6, u64::MAX])], keys: vec![], deadlines: vec![], out: vec![3; r.of(&[0, count / 2, count, 40])] };
    let mut key = r.below(9) as u32 + 1;
    for _ in 0..count {
        good.keys.push(key);
        good.deadlines.push(r.span());
        key += 2 + r.below(5) as u32;
    }
    // past the count anything may stand
    for _ in 0..spare {
        good.keys.push(r.below(3) as u32);
        good.deadlines.push(r.of(&[0, 1, u64::MAX]));
    }
    let mut sets = vec![good.clone()];
    let all = count + spare;
    for (kn, dn) in [(all, all + 1), (all + 1, all), (all, 0), (0, all), (all.saturating_sub(1), all), (all, all.saturating_sub(1))] {
        let mut x = good.clone();
        x.keys.resize(kn, 7);
        x.deadlines.resize(dn, 7);
        sets.push(x.clone());
        x.s[1] = kn.min(dn).min(count) as u64;
        sets.push(x);
    }
    for c in [all as u64 + 1, 1 << 32, u64::MAX] { sets.push(Set { s: vec![TIMERS, c, 6], ..good.clone() }); }
    for i in 0..count {
        let mut with = |k: u32, d: u64| {
            let mut x = good.clone();
            (x.keys[i], x.deadlines[i]) = (k, d);
            sets.push(x);
        };
        let (k, d) = (good.keys[i], good.deadlines[i]);
        for d in [1 << 46, (1 << 47) - 1, 1 << 47, TWO_DAYS, TWO_DAYS + 1, 1 << 48, u64::MAX] { with(k, d); }
        for k in [0, u32::MAX] { with(k, d); }
        if i > 0 { for k in [good.keys[i - 1], good.keys[i - 1] - 1] { with(k, d); with(k, TWO_DAYS + 1); } }
    }
    for x in sets {
        for call in CALLS {
            let mut key = if count > 0 && r.below(2) == 0 { good.keys[r.below(count as u64) as usize] as u64 } else { r.below(99) };
            if matches!(call, Start | Cancel) && r.below(8) == 0 { key += 1 << (32 + r.below(32)); }
            let now = match r.below(20) { 0 => TWO_DAYS + 1, 1..=4 => TWO_DAYS, 5..=7 => 0, _ => r.span() };
            x.clone().compared(call, key, now, r.of(&[0, 1, DAY]));
            *n += 1;
        }
    }
    // words that hold no set
    for s in [vec![], vec![TIMERS, 0], vec![0, count as u64, 6], vec![SINGLE_TIMER, count as u64, 6], vec![TIMERS + 256, count as u64, 6]] {
        for call in [Start, Cancel, Pop, Earliest, Clear] {
            Set { s: s.clone(), ..good.clone() }.compared(call, r.of(&[0, 1 << 32]), r.of(&[0, u64::MAX]), 1);
            *n += 1;
        }
    }
}

// What of the reference's estimator can be read, as the host's words and doubles.
fn words(e: &RtoEstimator) -> ([u64; 24], [u64; 5]) {
    let c = e.config();
    let o = |x: Option<Duration>| x.map_or((0, 0), |d| (1, ns(d)));
    let (a, b, lo, hi, la) = (o(e.srtt()), o(e.rttvar()), o(e.stats.min_rtt), o(e.stats.max_rtt), o(e.stats.latest_rtt));
    ([ESTIMATOR, ns(c.initial_rto), ns(c.min_rto), ns(c.max_rto), ns(c.granularity), a.0, a.1, b.0, b.1, ns(e.current_rto()), ns(e.base_rto()), e.is_in_backoff() as u64, e.consecutive_timeouts() as u64,
      e.stats.sample_count, e.stats.karn_rejected_count, e.stats.timeout_count, e.stats.backoff_count, lo.0, lo.1, hi.0, hi.1, la.0, la.1, e.stats.max_consecutive_timeouts as u64],
     [c.alpha.to_bits(), c.beta.to_bits(), c.k.to_bits(), c.rto_multiplier.to_bits(), e.stats.sum_rtt_millis.to_bits()])
}
fn bits(d: &[f64; 5]) -> [u64; 5] { [d[0].to_bits(), d[1].to_bits(), d[2].to_bits(), d[3].to_bits(), d[4].to_bits()] }

// Each call on an estimator that all of them refuse; nothing changes.
fn estimator_refuses(w: [u64; 24], d: [f64; 5], want: u64, what: &str) { estimator_refuses_parts(w, 24, d, 5, want, what) }

// The same of its first words and doubles.
fn estimator_refuses_parts(w: [u64; 24], n: usize, d: [f64; 5], m: usize, want: u64, what: &str) {
    let (mut x, mut y, mut mean) = (w, d, [7f64]);
    let (p, q) = (x.as_mut_ptr(), y.as_mut_ptr());
    let got = unsafe { [
        pindrelo_estimator_sample(p, n, q, m, 1, 0),
        pindrelo_estimator_sample(p, n, q, m, 1, 1),
        pindrelo_estimator_timeout(p, n, q, m),
        pindrelo_estimator_reset_backoff(p, n, q, m),
        pindrelo_estimator_exceeded(p, n, q, m, 0),
        pindrelo_estimator_mean(p, n, q, m, mean.as_mut_ptr(), 1),
    ] };
    same!((got, x, bits(&y), mean), ([want; 6], w, bits(&d), [7.0]), "{what}");
}

fn make_estimator(w: &mut [u64], d: &mut [f64], c: &RtoConfig) -> u64 {
    unsafe { pindrelo_make_estimator(w.as_mut_ptr(), w.len(), d.as_mut_ptr(), d.len(), ns(c.initial_rto), ns(c.min_rto), ns(c.max_rto), ns(c.granularity), c.alpha, c.beta, c.k, c.rto_multiplier) }
}

fn estimators(r: &mut Gen, n: &mut u64) {
    let (mut w, mut d) = ([3u64; 24], [3f64; 5]);
    let (kept, kept_doubles) = (w, bits(&d));
    same!((unsafe { pindrelo_make_default_estimator(w.as_mut_ptr(), 23, d.as_mut_ptr(), 5) }, w, bits(&d)), (FULL, kept, kept_doubles), "new, too few words");
    same!((unsafe { pindrelo_make_default_estimator(w.as_mut_ptr(), 24, d.as_mut_ptr(), 4) }, w, bits(&d)), (FULL, kept, kept_doubles), "new, too few doubles");
    same!(unsafe { pindrelo_make_default_estimator(w.as_mut_ptr(), 24, d.as_mut_ptr(), 5) }, done(0), "new");
    same!((w, bits(&d)), words(&RtoEstimator::new()), "new");
    let (lo, hi) = { let (a, b) = (r.span(), r.span()); (a.min(b), a.max(b)) };
    let mut c = RtoConfig { initial_rto: Duration::from_nanos(r.span()), min_rto: Duration::from_nanos(lo), max_rto: Duration::from_nanos(hi), granularity: Duration::from_nanos(r.span() % 1_000_000_001), alpha: r.chance(), beta: r.chance(), k: r.factor(), rto_multiplier: r.factor() };
    let broken = r.below(8) == 0;
    if broken {
        match r.below(9) {
            0 => c.initial_rto = Duration::from_nanos(DAY + 1),
            1 => c.max_rto = Duration::from_nanos(DAY + 1 + r.below(9)),
            2 => c.granularity = Duration::from_nanos(1_000_000_001),
            3 => { c.min_rto = Duration::from_nanos(hi + 1); }
            4 => c.alpha = r.of(&[-f64::MIN_POSITIVE, 1.0 + f64::EPSILON, f64::NAN, f64::INFINITY, f64::NEG_INFINITY]),
            5 => c.beta = r.of(&[-0.5, 2.0, f64::NAN]),
            6 => c.k = r.of(&[-1.0, 16.000000000000004, f64::NAN]),
            7 => c.rto_multiplier = r.of(&[-1e-300, 17.0, f64::NAN]),
            _ => { c.min_rto = Duration::from_nanos(DAY + 1); c.max_rto = Duration::from_nanos(DAY + 2); }
        }
    }
    let (w0, d0) = (w, bits(&d));
    if broken {
        // a 4 before a 5
        for (words, doubles) in [(24, 5), (23, 5), (24, 4)] {
            same!((make_estimator(&mut w[..words], &mut d[..doubles], &c), w, bits(&d)), (SETUP, w0, d0), "with_config {c:?}");
        }
        w[1..5].copy_from_slice(&[ns(c.initial_rto), ns(c.min_rto), ns(c.max_rto), ns(c.granularity)]);
        d[..4].copy_from_slice(&[c.alpha, c.beta, c.k, c.rto_multiplier]);
        estimator_refuses(w, d, STATE, &format!("held {c:?}"));
        *n += 9;
        return;
    }
    for (words, doubles) in [(23, 5), (24, 4), (0, 0)] {
        same!((make_estimator(&mut w[..words], &mut d[..doubles], &c), w, bits(&d)), (FULL, w0, d0), "with_config, {words} words, {doubles} doubles");
    }
    same!(make_estimator(&mut w, &mut d, &c), done(0), "with_config {c:?}");
    let mut e = RtoEstimator::with_config(c.clone());
    let around = r.span();
    for _ in 0..80 {
        same!((w, bits(&d)), words(&e), "state under {c:?}");
        let (w0, d0) = (w, bits(&d));
        let (p, q) = (w.as_mut_ptr(), d.as_mut_ptr());
        match r.below(10) {
            0..=5 => {
                let x = if r.below(2) == 0 { (around + r.below(around / 4 + 2)).min(DAY) } else { r.maybe_out() };
                let again = r.below(6) == 0;
                let before = words(&e);
                let got = unsafe { pindrelo_estimator_sample(p, 24, q, 5, x, if again { r.of(&[1, 2, 1 << 32, u64::MAX]) } else { 0 }) };
                if x > DAY { same!((got, w, bits(&d)), (TIME, w0, d0), "update {x}"); } else {
                    let want = e.update_rtt(Duration::from_nanos(x), again);
                    same!(got, done(want as u64), "update {x} {again}");
                    same!((w, bits(&d)), words(&e), "after update {x} {again} of {before:?}");
                }
            }
            6 | 7 => same!(unsafe { pindrelo_estimator_timeout(p, 24, q, 5) }, done(ns(e.on_timeout())), "timeout"),
            8 => {
                same!(unsafe { pindrelo_estimator_reset_backoff(p, 24, q, 5) }, done(0), "reset");
                e.reset_backoff();
            }
            _ => {
                let max = r.below(4);
                same!(unsafe { pindrelo_estimator_exceeded(p, 24, q, 5, max) }, done(e.has_exceeded_retry_limit(max as u32) as u64), "limit {max}");
                same!(unsafe { pindrelo_estimator_exceeded(p, 24, q, 5, max + (1 << (32 + r.below(32)))) }, done(0), "limit {max} above 32 bits");
                let mut m = [7f64];
                same!((unsafe { pindrelo_estimator_mean(p, 24, q, 5, m.as_mut_ptr(), 0) }, m[0]), (FULL, 7.0), "mean, no room");
                same!((unsafe { pindrelo_estimator_mean(p, 24, q, 5, m.as_mut_ptr(), 1) }, m[0].to_bits()), (done(0), e.mean_rtt_ms().to_bits()), "mean");
            }
        }
        *n += 1;
    }
    // words and doubles that hold no estimator: too few, another kind or version, a flag of 2, a value without its flag, a count above 32 bits
    estimator_refuses_parts(w, 23, d, 5, STATE, "too few words");
    estimator_refuses_parts(w, 24, d, 4, STATE, "too few doubles");
    for (i, v) in [(0usize, 0u64), (0, TIMERS), (0, ESTIMATOR + 256), (11, 2), (11, u64::MAX), (12, 1 << 32), (23, 1 << 32), (23, u64::MAX)] {
        let mut x = w;
        x[i] = v;
        estimator_refuses(x, d, STATE, &format!("word {i} is {v}"));
    }
    for i in [5usize, 7, 17, 19, 21] {
        for pair in [[0, 1], [2, 0], [2, 5], [u64::MAX, 1]] {
            let mut x = w;
            x[i..i + 2].copy_from_slice(&pair);
            estimator_refuses(x, d, STATE, &format!("words {i} and {} are {pair:?}", i + 1));
        }
    }
    *n += 6 * 30;
    // held states that 9, 8 and 10 turn away, in that order
    for (i, v, want) in [(6usize, 86_401_000_000_001u64, STATE), (8, 86_401_000_000_001, STATE), (13, 1 << 60, COUNTS), (14, 1 << 60, COUNTS), (15, 1 << 60, COUNTS), (16, u64::MAX, COUNTS), (9, DAY + 1, TIME), (10, DAY + 1, TIME), (18, DAY + 1, TIME), (20, DAY + 1, TIME), (22, DAY + 1, TIME)] {
        let mut x = w;
        for j in [5, 7, 17, 19, 21] { x[j] = 1; }
        for j in [6usize, 8, 9, 10, 18, 20, 22] { x[j] = x[j].min(DAY); }
        x[i] = v;
        if want == STATE { x[13] = 1 << 60; x[9] = DAY + 1; }
        if want == COUNTS { x[9] = DAY + 1; }
        estimator_refuses(x, d, want, &format!("held {i} {v}"));
        for (j, what) in [(7usize, "only SRTT set"), (5, "only RTTVAR set")] {
            let mut one = x;
            one[i] = one[i].min(DAY);
            (one[j], one[j + 1]) = (0, 0);
            estimator_refuses(one, d, STATE, what);
        }
        *n += 18;
    }
    // held values at their bounds
    let mut x = w;
    for j in [5, 7, 17, 19, 21] { x[j] = 1; }
    for j in [6, 8] { x[j] = 86_401_000_000_000; }
    for j in [9, 10, 18, 20, 22] { x[j] = DAY; }
    for j in 13..17 { x[j] = (1 << 60) - 1; }
    let got = unsafe { (status(pindrelo_estimator_exceeded(x.as_ptr(), 24, d.as_ptr(), 5, 0)), status(pindrelo_estimator_timeout(x.as_mut_ptr(), 24, d.as_mut_ptr(), 5))) };
    same!(got, (DONE, DONE), "held at the bounds");
    *n += 2;
}

// Cases for crates/timing_replay: see the head of its source. What document 01 refuses is refused as it says.
fn refusal(n: u64) -> String { format!(" refused {n}") }
fn maybe(x: Option<u64>) -> String { x.map_or(" none".to_string(), |x| format!(" {x}")) }

fn shown_estimator(e: &RtoEstimator) -> String {
    let s = &e.stats;
    numbers(&[ns(e.current_rto())]) + &maybe(e.srtt().map(ns)) + &maybe(e.rttvar().map(ns))
        + &numbers(&[ns(e.base_rto()), e.is_in_backoff() as u64, e.consecutive_timeouts() as u64, s.sample_count, s.karn_rejected_count, s.timeout_count, s.backoff_count, s.max_consecutive_timeouts as u64, e.mean_rtt_ms().to_bits()])
}

fn estimator_cases(r: &mut Gen, cases: &mut Cases) {
    let d = Duration::from_nanos;
    let mut e = RtoEstimator::new();
    for i in 0..90 {
        let mut c = ([r.span(), r.span(), r.span(), r.span() % 1_000_000_001], [r.chance(), r.chance(), r.factor(), r.factor()]);
        if c.0[1] > c.0[2] { c.0.swap(1, 2); }
        // R1, R1 with a minimum of 1 s, R2
        let sheet = [0.125, 0.25, 4.0, 1.0];
        if i == 0 { c = ([1_000_000_000, 1_000_000, 60_000_000_000, 1_000_000], sheet); }
        if i == 1 { c = ([1_000_000_000, 1_000_000_000, 60_000_000_000, 1_000_000], sheet); }
        if i == 2 { c = ([300_000_000, 1_000_000, 500_000_000, 1_000_000], sheet); }
        if i % 9 == 8 {
            match r.below(10) {
                j @ 0..=2 => c.0[j as usize] = DAY + 1 + r.below(2) * (u64::MAX - DAY - 1),
                3 => c.0[3] = 1_000_000_001,
                4 => { c.0[1] = 2; c.0[2] = 1; }
                5 => c.1[r.below(4) as usize] = f64::NAN,
                6 => c.1[r.below(4) as usize] = r.of(&[-f64::MIN_POSITIVE, -1.0, f64::NEG_INFINITY, f64::INFINITY, 17.0]),
                j @ 7..=8 => c.1[j as usize - 7] = f64::from_bits(1.0f64.to_bits() + 1),
                _ => c.1[2 + r.below(2) as usize] = f64::from_bits(16.0f64.to_bits() + 1),
            }
        }
        let ([initial, min, max, granularity], [alpha, beta, k, multiplier]) = c;
        let good = initial <= DAY && max <= DAY && min <= max && granularity <= 1_000_000_000 && [alpha, beta].iter().all(|x| (0.0..=1.0).contains(x)) && [k, multiplier].iter().all(|x| (0.0..=16.0).contains(x));
        let line = "e".to_string() + &numbers(&c.0) + &numbers(&c.1.map(f64::to_bits));
        if good {
            e = RtoEstimator::with_config(RtoConfig { initial_rto: d(initial), min_rto: d(min), max_rto: d(max), granularity: d(granularity), alpha, beta, k, rto_multiplier: multiplier });
            cases.case(line, shown_estimator(&e));
        } else {
            cases.case(line, refusal(4));
        }
        let around = r.span();
        for j in 0..12 {
            let mut op = r.of(&[0u64, 0, 0, 0, 1, 2, 2, 3, 4]);
            let mut x = match r.below(3) { 0 => (around + r.below(around / 4 + 2)).min(DAY), 1 => r.next() % (DAY + 1), _ => r.maybe_out() };
            if i < 2 && j == 0 { (op, x) = (0, 100_000_000); }
            if i == 2 && j == 0 { op = 2; }
            match op {
                2 => { let rto = ns(e.on_timeout()); cases.case("o".to_string(), format!(" {rto}") + &shown_estimator(&e)) }
                3 => { e.reset_backoff(); cases.case("b".to_string(), " done".to_string() + &shown_estimator(&e)) }
                4 => { let limit = r.below(3); cases.case(format!("l {limit}"), format!(" {}", e.has_exceeded_retry_limit(limit as u32) as u64)) }
                _ => {
                    let answer = if x > DAY { refusal(10) } else { format!(" {}", e.update_rtt(d(x), op == 1) as u64) };
                    cases.case(format!("s {x} {op}"), answer + &shown_estimator(&e));
                }
            }
        }
    }
}

fn timer_set_cases(r: &mut Gen, cases: &mut Cases) {
    let zero = Instant::now();
    let at = |x: u64| zero + Duration::from_nanos(x);
    for _ in 0..60 {
        let room = r.of(&[0usize, 1, 2, 3, 4, 8, 32, 40]);
        let keys_in_use = r.of(&[12, 60]);
        cases.case(format!("m {room}"), " made".to_string());
        let mut t: MultiTimer<u32> = MultiTimer::new();
        let mut held: BTreeMap<u32, u64> = BTreeMap::new();
        for _ in 0..if room > 8 { 50 } else { 16 } {
            let key = match r.below(12) { 0 => u32::MAX, 1 => r.next() as u32, _ => r.below(keys_in_use) as u32 };
            let mut now = if r.below(30) == 0 { r.of(&[TWO_DAYS, TWO_DAYS + 1, u64::MAX]) } else { r.span() };
            let late = |now: u64| now > TWO_DAYS;
            // often at a deadline
            if r.below(2) == 0 { now = held.get(&key).or(held.values().next()).copied().unwrap_or(now) - r.below(2).min(held.get(&key).copied().unwrap_or(0)); }
            match r.below(20) {
                0..=8 => {
                    let span = if r.below(2) == 0 { r.span() } else { r.maybe_out() };
                    let answer = if late(now) || span > DAY || now + span > TWO_DAYS { refusal(10) } else if !held.contains_key(&key) && held.len() == room { refusal(5) } else {
                        held.insert(key, now + span);
                        format!(" {}", t.start_timer_at(key, at(now), Duration::from_nanos(span)))
                    };
                    cases.case(format!("k {key} {now} {span}"), answer);
                }
                9 | 10 => { held.remove(&key); cases.case(format!("c {key}"), format!(" {}", t.cancel_timer(&key) as u64)); }
                11..=13 => cases.case(format!("x {key} {now}"), if late(now) { refusal(10) } else { format!(" {}", t.is_expired_at(&key, at(now)) as u64) }),
                14 | 15 => {
                    let due: Vec<u32> = held.iter().filter(|e| *e.1 <= now).map(|e| *e.0).collect();
                    let size = if r.below(4) == 0 { due.len().saturating_sub(1) } else { due.len() + r.below(3) as usize }.min(40);
                    let mut out = vec![7u64; size];
                    let answer = if late(now) { refusal(10) } else if due.len() > size { refusal(5) } else {
                        let mut keys = t.pop_expired_at(at(now));
                        keys.sort();
                        for (i, k) in keys.iter().enumerate() { held.remove(k); out[i] = *k as u64; }
                        format!(" {}", keys.len())
                    };
                    cases.case(format!("p {now} {size}"), answer + &numbers(&out));
                }
                16 | 17 => cases.case("q".to_string(), maybe(t.earliest_deadline().map(|i| ns(i - zero)))),
                18 if r.below(3) == 0 => { t.clear(); held.clear(); cases.case("z".to_string(), format!(" done {}", t.len())); }
                _ => cases.case("d".to_string(), shown_set(&t, &held, room)),
            }
        }
        cases.case("d".to_string(), shown_set(&t, &held, room));
    }
}

// Document 01's slices: the used entries by ascending key, then zeros.
fn shown_set(t: &MultiTimer<u32>, held: &BTreeMap<u32, u64>, room: usize) -> String {
    let mut keys: Vec<u64> = held.keys().map(|k| *k as u64).collect();
    let mut deadlines: Vec<u64> = held.values().copied().collect();
    keys.resize(room, 0);
    deadlines.resize(room, 0);
    format!(" {}", t.len()) + &numbers(&keys) + &numbers(&deadlines)
}

fn timer_cases(r: &mut Gen, cases: &mut Cases) {
    let zero = Instant::now();
    let at = |x: u64| zero + Duration::from_nanos(x);
    for _ in 0..40 {
        cases.case("n".to_string(), String::new());
        let mut t = RetransmissionTimer::new();
        let mut deadline = 0;
        for _ in 0..16 {
            let mut now = if r.below(20) == 0 { r.of(&[TWO_DAYS, TWO_DAYS + 1, u64::MAX]) } else { r.span() };
            let late = now > TWO_DAYS;
            match r.below(6) {
                0 | 1 => {
                    let span = r.maybe_out();
                    let answer = if late || span > DAY || now + span > TWO_DAYS { refusal(10) } else { deadline = now + span; format!(" {}", t.start_at(at(now), Duration::from_nanos(span))) };
                    cases.case(format!("t {now} {span}"), answer);
                }
                2 => cases.case("u".to_string(), format!(" {}", t.cancel())),
                op => {
                    // often at the deadline, or just before it
                    if !late && r.below(2) == 0 { now = deadline - r.below(2).min(deadline); }
                    if op == 5 {
                        let g = t.generation() - r.below(2).min(t.generation());
                        cases.case(format!("w {g} {now}"), if late { refusal(10) } else { format!(" {}", t.is_expired_for_at(g, at(now)) as u64) });
                    } else {
                        let timed = if late { refusal(10) + &refusal(10) } else { format!(" {}", t.is_expired_at(at(now)) as u64) + &maybe(t.remaining_at(at(now)).map(ns)) };
                        cases.case(format!("v {now}"), format!(" {}", t.is_active() as u64) + &timed);
                    }
                }
            }
        }
    }
}

fn duration_cases(r: &mut Gen, cases: &mut Cases) {
    for i in 0..500 {
        let x = if i < 2 { u64::MAX - 1 + i } else if r.below(3) == 0 { r.next() } else { r.span() };
        let s = Duration::from_nanos(x).as_secs_f64();
        cases.case(format!("f {x}"), format!(" {}", s.to_bits()));
        // all 53 bits of the mantissa, halves of a nanosecond, edges of the range
        let y = match r.below(7) {
            0 => f64::from_bits(r.next()),
            1 => (r.next() >> 11) as f64 / (1u64 << (19 + r.below(44))) as f64,
            2 => s,
            3 => f64::from_bits(s.to_bits() ^ 1),
            4 => (r.below(1 << 34) as f64) + (r.below(2048) as f64) / 2048.0,
            5 => (r.below(1 << 20) as f64 + 0.5) / 1e9,
            _ => r.of(&[0.0, -0.0, -1.0, f64::NAN, f64::INFINITY, 17179869184.0, 17179869183.999998, 2097152.0, 2097151.9999999998, 4.656612873077393e-10, 4.65661287307739e-10, 5e-10, 1.5e-9, 2.5e-9, 5e-324]),
        };
        cases.case(format!("g {}", y.to_bits()), maybe((y >= 0.0 && y < 17179869184.0).then(|| ns(Duration::from_secs_f64(y)))));
    }
}

fn sample(dir: &str, seed: u64) {
    let mut r = Gen(seed);
    let mut cases = Cases::new("timing", seed);
    estimator_cases(&mut r, &mut cases);
    timer_set_cases(&mut r, &mut cases);
    timer_cases(&mut r, &mut cases);
    duration_cases(&mut r, &mut cases);
    cases.save(dir);
}

fn main() {
    let args: Vec<String> = std::env::args().collect();
    if args.get(1).map(String::as_str) == Some("--sample") {
        sample(&args[2], args.get(3).and_then(|s| s.parse().ok()).unwrap_or(7));
        return;
    }
    let seconds: u64 = args.get(1).and_then(|s| s.parse().ok()).unwrap_or(10);
    let seed: u64 = args.get(2).and_then(|s| s.parse().ok()).unwrap_or(0x9E37_79B9_7F4A_7C15);
    let mut r = Gen(seed);
    let end = Instant::now() + Duration::from_secs(seconds);
    let mut n = [0u64; 4];
    for count in 0..=32 { changed_sets(&mut r, count, &mut n[2]); }
    while Instant::now() < end {
        durations(&mut r, &mut n[0]);
        let count = r.below(34) as usize;
        changed_sets(&mut r, count, &mut n[2]);
        for _ in 0..50 { timers(&mut r, &mut n[1]); timer_sets(&mut r, &mut n[2]); estimators(&mut r, &mut n[3]); }
    }
    println!("timing: no difference in {} conversions, {} timer calls, {} timer set calls, {} estimator calls", n[0], n[1], n[2], n[3]);
}
