// Compares the channel and the schedule with the reference, and refusals and lent memory with a model of document 01.
// usage: channel SECONDS
//        channel --sample DIR [SEED]      writes DIR/stdin (cases) and DIR/stdout (the reference's answers) for crates/channel_replay
extern crate rand;
extern crate reference;

#[path = "channel_calls.rs"]
mod calls;
#[path = "exports.rs"]
mod exports;
#[path = "generator.rs"]
mod generator;

#[path = "cases.rs"]
#[allow(dead_code)]
mod cases;

use calls::{new_channel, process, Ours};
use cases::{crc, given, numbers, shown, Cases};
use generator::{fail, verdict, Gen};
use reference::channel::scheduler::ChannelScheduler;
use reference::channel::{Channel, ChannelConfig, ChannelStats, Delivery};
use std::time::{Duration, Instant};

impl Gen {
    fn unit(&mut self) -> f64 {
        (self.next() >> 11) as f64 / 9007199254740992.0
    }
    fn roll(&mut self, chance: f64) -> f64 {
        match self.below(8) {
            0 => 0.0,
            1 => f64::from_bits(1.0f64.to_bits() - 1),
            2 if chance < 1.0 => chance,
            3 if chance > 0.0 => f64::from_bits(chance.to_bits() - 1),
            4 => -0.0,
            5 => f64::from_bits(self.below(1 << 20)),
            _ => self.unit(),
        }
    }
    fn chance(&mut self) -> f64 {
        match self.below(6) {
            0 => 0.0,
            1 => 1.0,
            2 => -0.0,
            3 => 0.5,
            _ => self.unit(),
        }
    }
    fn delay(&mut self) -> u64 {
        match self.below(6) {
            0 => 0,
            1 => 60000,
            2 => 2,
            3 => self.below(10),
            _ => self.below(60001),
        }
    }
    fn length(&mut self) -> usize {
        match self.below(8) {
            0 => 0,
            1 => 1,
            2 => 1410,
            3 => 1409,
            4 => self.below(20) as usize,
            _ => self.below(1411) as usize,
        }
    }
}

const J1: f64 = 6004799503160661.0 / 9007199254740992.0;

#[derive(Clone)]
struct Setup {
    reals: [f64; 4],
    delays: [u64; 3],
}

fn setup(g: &mut Gen) -> Setup {
    Setup { reals: [g.chance(), g.chance(), g.chance(), g.chance()], delays: [g.delay(), g.delay(), g.delay()] }
}

fn config(s: &Setup) -> ChannelConfig {
    ChannelConfig {
        seed: 0,
        loss: s.reals[0],
        duplicate: s.reals[1],
        reorder: s.reals[2],
        corrupt: s.reals[3],
        reorder_extra_ms: s.delays[0],
        base_delay_ms: s.delays[1],
        jitter_ms: s.delays[2],
    }
}

fn rolls(g: &mut Gen, s: &Setup) -> [f64; 8] {
    let mut r = [0.0; 8];
    for (i, chance) in [s.reals[0], s.reals[1], s.reals[2], s.reals[3], 0.5, 0.5, J1, J1].iter().enumerate() {
        r[i] = g.roll(*chance);
    }
    r
}

fn joined(a: &[f64], b: &[f64]) -> Vec<f64> {
    a.iter().chain(b).copied().collect()
}

fn setup_numbers(s: &Setup, stats: &[u64; 6]) -> Vec<u64> {
    s.delays.iter().chain(stats).copied().collect()
}

// One packet through the reference's channel, and its tallies then.
fn their_packet(reference: &mut Channel, packet: &[u8], r: &[f64; 8]) -> (Vec<Delivery>, [u64; 6]) {
    rand::feed(r);
    let theirs = reference.process(packet);
    if rand::left() != 0 {
        fail("rolls left", format!("rolls {r:?} packet {packet:?}"));
    }
    let t = &reference.stats;
    (theirs, [t.packets_seen, t.lost, t.corrupted, t.duplicated, t.reordered, t.copies_delivered])
}

// One packet through both channels.
fn one_packet(s: &Setup, stats: &mut [u64; 6], reference: &mut Channel, packet: &[u8], r: &[f64; 8], spare: &[u8]) {
    let shown = || format!("setup {:?} {:?} rolls {:?} packet {:?} stats {:?}", s.reals, s.delays, r, packet, stats);
    let (theirs, tallies) = their_packet(reference, packet, r);
    let mut out: Vec<u8> = spare.to_vec();
    let a = process(&joined(&s.reals, r), &setup_numbers(s, stats), packet, &mut out);
    let mut want = [0; 9];
    want[0] = theirs.len() as u64;
    for (i, d) in theirs.iter().enumerate() {
        want[1 + i] = d.delay_ms;
    }
    want[3..].copy_from_slice(&tallies);
    if a != want {
        fail("answer", format!("{} ours {:?} theirs {:?}", shown(), a, want));
    }
    for d in &theirs {
        if d.data != out[..packet.len()] {
            fail("bytes", shown());
        }
    }
    let kept = if theirs.is_empty() { 0 } else { packet.len() };
    if out[kept..] != spare[kept..] {
        fail("buffer past the packet", shown());
    }
    *stats = tallies;
}

fn channel_runs(g: &mut Gen, packets: &mut u64) {
    let s = setup(g);
    if new_channel(&s.reals, &s.delays) != 0 {
        fail("making", format!("{:?} {:?}", s.reals, s.delays));
    }
    let mut reference = Channel::new(config(&s));
    let mut stats = [0u64; 6];
    for _ in 0..20 {
        let n = g.length();
        let packet = g.bytes(n);
        let r = rolls(g, &s);
        let spare_len = n + g.below(3) as usize;
        let spare = g.bytes(spare_len);
        one_packet(&s, &mut stats, &mut reference, &packet, &r, &spare);
        *packets += 1;
    }
}

// Every byte and bit of short packets, by rolls at the edges of each pick.
fn every_pick(packets: &mut u64) {
    let s = Setup { reals: [0.0, 1.0, 1.0, 1.0], delays: [7, 5, 2] };
    for n in 0..40usize {
        for k in 0..=n as u64 {
            for bit in 0..8u64 {
                let edge = |k: u64, n: u64, up: bool| {
                    let x = if n == 0 { 0.0 } else { k as f64 / n as f64 };
                    let y = if up { f64::from_bits(x.to_bits() + 1) } else if x > 0.0 { f64::from_bits(x.to_bits() - 1) } else { x };
                    if y < 1.0 { y } else { f64::from_bits(1.0f64.to_bits() - 1) }
                };
                for up in [false, true] {
                    let mut reference = Channel::new(config(&s));
                    let mut stats = [0u64; 6];
                    let r = [0.0, 0.0, 0.0, 0.0, edge(k, n as u64, up), edge(bit, 8, up), edge(k % 3, 3, up), J1];
                    one_packet(&s, &mut stats, &mut reference, &vec![0x5A; n], &r, &vec![9; n]);
                    *packets += 1;
                }
            }
        }
    }
}

// Several lines made true at once: refusals against the model, nothing changes; accepted calls beside the reference.
fn channel_refusals(g: &mut Gen, refusals: &mut u64) {
    let mut s = setup(g);
    let mut stats = [g.below(100), 0, 5, 0, (1 << 60) - 1, 3];
    let mut r = rolls(g, &s);
    let mut n = g.length();
    if g.below(3) == 0 {
        let bad = [f64::NAN, -1e-300, 1.0000000000000002, f64::INFINITY, -1.0][g.below(5) as usize];
        s.reals[g.below(4) as usize] = bad;
    }
    if g.below(3) == 0 {
        s.delays[g.below(3) as usize] = 60001 + g.below(3);
    }
    if g.below(3) == 0 {
        stats[g.below(6) as usize] = (1 << 60) + g.below(2) * ((1 << 63) - 1);
    }
    if g.below(3) == 0 {
        r[g.below(8) as usize] = [f64::NAN, 1.0, -1e-320, 2.0, f64::NEG_INFINITY][g.below(5) as usize];
    }
    if g.below(4) == 0 {
        n = 1411 + g.below(3) as usize;
    }
    let chance = |x: f64| x >= 0.0 && x <= 1.0;
    let setup_broken = !s.reals.iter().all(|&x| chance(x)) || s.delays.iter().any(|&d| d > 60000);
    let packet = g.bytes(n);
    let short = g.below(2) == 0 && n > 0;
    let spare = g.bytes(if short { n - 1 } else { n });
    let lost = r[0] < s.reals[0];
    let want = verdict(&[
        (9, setup_broken),
        (8, stats.iter().any(|&c| c >= 1 << 60)),
        (11, !r.iter().all(|&x| x >= 0.0 && x < 1.0)),
        (6, n > 1410),
        (5, !lost && spare.len() < n),
    ]);
    if want == 0 {
        let mut reference = Channel::new(config(&s));
        let [packets_seen, lost, corrupted, duplicated, reordered, copies_delivered] = stats;
        reference.stats = ChannelStats { packets_seen, lost, corrupted, duplicated, reordered, copies_delivered };
        one_packet(&s, &mut stats, &mut reference, &packet, &r, &spare);
    } else {
        let mut out = spare.clone();
        let a = process(&joined(&s.reals, &r), &setup_numbers(&s, &stats), &packet, &mut out);
        if a[..3] != [want, 0, 0] || out != spare || a[3..9] != stats {
            fail("refusal", format!("{:?} {:?} stats {:?} rolls {:?} n {} out {} ours {:?} want {}", s.reals, s.delays, stats, r, n, spare.len(), a, want));
        }
        *refusals += 1;
    }
    let want = if setup_broken { 16 + 4 } else { 0 };
    if new_channel(&s.reals, &s.delays) != want {
        fail("making", format!("{:?} {:?}", s.reals, s.delays));
    }
}

const PLACE: usize = 1410;
const MAX_TIME: u64 = 172_800_000_000_000;

// Document 01's schedule, written from its text: records, places and the lines 9, 8, 10, 6, 5.
#[derive(Clone)]
struct Model {
    records: Vec<[u64; 4]>,
    places: Vec<u8>,
    count: usize,
    next: u64,
    // Copies placed where no place lay past the count; else in a store of up to 256 places; else in a larger one.
    placed: [u64; 3],
}

impl Model {
    fn waiting(&self) -> &[[u64; 4]] {
        &self.records[..self.count]
    }
    fn line9(&self) -> bool {
        if self.count > self.records.len() {
            return true;
        }
        let w = self.waiting();
        let n = (self.places.len() / PLACE) as u64;
        w.windows(2).any(|p| (p[1][0], p[1][1]) < (p[0][0], p[0][1]))
            || w.iter().any(|r| r[2] > 1410 || r[1] >= self.next || r[3] >= n)
            || (0..w.len()).any(|i| (0..i).any(|j| w[i][3] == w[j][3]))
    }
    fn line8(&self) -> bool {
        self.next >= 1 << 60
    }
    fn held_late(&self) -> bool {
        self.count <= self.records.len() && self.waiting().iter().any(|r| r[0] > MAX_TIME)
    }
    fn free(&self) -> Vec<u64> {
        (0..(self.places.len() / PLACE) as u64).filter(|p| self.waiting().iter().all(|r| r[3] != *p)).collect()
    }
    fn room(&self) -> usize {
        self.free().len().min(self.records.len() - self.count)
    }
    fn schedule_at(&mut self, now: u64, packet: &[u8], delays: &[u64]) -> u64 {
        let late = |d: u64| d > 180000 || now as u128 + d as u128 * 1000000 > MAX_TIME as u128;
        let nine = self.line9();
        let v = verdict(&[
            (9, nine),
            (8, self.line8()),
            (10, now > MAX_TIME || self.held_late() || delays.iter().any(|&d| late(d))),
            (6, packet.len() > 1410),
            (5, !nine && self.room() < delays.len()),
        ]);
        if v != 0 {
            return v;
        }
        for d in delays {
            let past = self.waiting().iter().any(|r| r[3] > self.count as u64);
            self.placed[if !past { 0 } else if self.places.len() / PLACE <= 256 { 1 } else { 2 }] += 1;
            let place = self.free()[0] as usize;
            let r = [now + d * 1000000, self.next, packet.len() as u64, place as u64];
            self.places[place * PLACE..(place + 1) * PLACE].fill(0);
            self.places[place * PLACE..place * PLACE + packet.len()].copy_from_slice(packet);
            let mut w = self.waiting().to_vec();
            w.push(r);
            w.sort_by_key(|r| (r[0], r[1]));
            self.count += 1;
            self.records[..self.count].copy_from_slice(&w);
            self.next += 1;
        }
        0
    }
    fn pop_ready_at(&mut self, now: u64, out: &mut [u8]) -> (u64, usize) {
        let nine = self.line9();
        let due = !nine && self.count > 0 && self.records[0][0] <= now;
        let v = verdict(&[(9, nine), (8, self.line8()), (10, now > MAX_TIME || self.held_late()), (5, due && (out.len() as u64) < self.records[0][2])]);
        if v != 0 {
            return (v, 7);
        }
        if !due {
            return (0, 7);
        }
        let r = self.records[0];
        let (p, n) = (r[3] as usize, r[2] as usize);
        out[..n].copy_from_slice(&self.places[p * PLACE..p * PLACE + n]);
        self.places[p * PLACE..(p + 1) * PLACE].fill(0);
        self.records.copy_within(1..self.count, 0);
        self.count -= 1;
        self.records[self.count] = [0; 4];
        (1, n)
    }
}

#[derive(Default)]
struct Counts {
    calls: u64,
    refused: u64,
    placed: [u64; 3],
}

impl Counts {
    fn add(&mut self, placed: [u64; 3]) {
        for (sum, n) in self.placed.iter_mut().zip(placed) {
            *sum += n;
        }
    }
}

fn same(what: &str, o: &Ours, m: &Model, shown: &str) {
    if o.records != m.records || o.places != m.places || o.count != m.count || o.next != m.next {
        fail(what, format!("{shown}: ours {:?} {} {} model {:?} {} {}", o.records, o.count, o.next, m.records, m.count, m.next));
    }
}

// The calls that only read, against the model.
fn read_check(o: &Ours, m: &Model, shown: &str) {
    let nine = m.line9();
    let v = verdict(&[(9, nine), (8, m.line8()), (10, m.held_late())]);
    let a = o.read();
    let good = if v != 0 {
        a[0] == v && a[2] == v && a[4] == v && a[6] == v
    } else {
        let deadline = if m.count == 0 { a[0] == 0 } else { a[0] == 1 && a[1] == m.records[0][0] };
        deadline && a[2] == 1 && a[3] == m.count as u64 && a[4] == 1 && a[5] == m.room() as u64 && a[6] == (m.count == 0) as u64
    };
    if !good {
        fail("reading", format!("{shown}: {:?} verdict {v}", a));
    }
}

// Random calls on a small schedule, beside the reference and the model; records and places are compared whole after each call.
fn schedule_runs(g: &mut Gen, n: &mut Counts) {
    let large = g.below(200) == 0;
    let mut size = || if !large { g.below(7) as usize } else if g.below(3) == 0 { 250 + g.below(280) as usize } else { 60 + g.below(90) as usize };
    let (nr, np) = (size(), size());
    let spare = g.below(PLACE as u64) as usize;
    let dirty_records = (0..nr).map(|_| [g.next(), g.next(), g.next(), g.next()]).collect();
    let places_len = np * PLACE + spare;
    let dirty_places = g.bytes(places_len);
    let mut cleared = dirty_places.clone();
    cleared[..np * PLACE].fill(0);
    let mut ours = Ours::new(dirty_records, dirty_places);
    let mut model = Model { records: vec![[0; 4]; nr], places: cleared, count: 0, next: 0, placed: [0; 3] };
    same("making", &ours, &model, "new");
    let mut theirs = ChannelScheduler::new();
    let base = Instant::now();
    let mut now = 0u64;
    for step in 0..if large { 250 } else { 40 } {
        let shown = format!("records {nr} places {np} step {step} now {now}");
        if g.below(if large && step < 150 { 5 } else { 2 }) != 1 {
            let length = g.length();
            let packet = g.bytes(length);
            let delays: Vec<u64> = (0..g.below(3)).map(|_| if g.below(2) == 0 { g.below(3) } else { g.below(180001) }).collect();
            let a = ours.schedule_at(now, &packet, &delays);
            let b = model.schedule_at(now, &packet, &delays);
            if a != b {
                fail("schedule_at", format!("{shown} delays {delays:?} length {length}: ours {a} model {b}"));
            }
            if a == 0 {
                theirs.schedule_at(base + Duration::from_nanos(now), delays.iter().map(|&d| Delivery { delay_ms: d, data: packet.clone() }).collect());
            } else {
                n.refused += 1;
            }
        } else {
            let mut out = g.bytes(1412);
            let before = out.clone();
            let mut out2 = out.clone();
            let a = ours.pop_ready_at(now, &mut out);
            let b = model.pop_ready_at(now, &mut out2);
            let t = theirs.pop_ready_at(base + Duration::from_nanos(now));
            if a != b || out != out2 {
                fail("pop_ready_at", format!("{shown}: ours {a:?} model {b:?}"));
            }
            match t {
                Some(p) => {
                    if a != (1, p.len()) || out[..p.len()] != p[..] || out[p.len()..] != before[p.len()..] {
                        fail("pop_ready_at and the reference", shown.clone());
                    }
                }
                None => {
                    if a.0 != 0 || out != before {
                        fail("pop_ready_at and the reference, none", shown.clone());
                    }
                }
            }
        }
        same("memory", &ours, &model, &shown);
        read_check(&ours, &model, &shown);
        let a = ours.read();
        if a[3] != theirs.len() as u64 || (a[6] == 1) != theirs.is_empty() || (a[0] == 1).then(|| base + Duration::from_nanos(a[1])) != theirs.next_deadline() {
            fail("reading and the reference", shown);
        }
        now += [0, 0, 1, 1_000_000, g.below(200_000_000_000)][g.below(5) as usize];
        n.calls += 1;
    }
    n.add(model.placed);
}

// Damaged states, times and sizes: refusals against the model, nothing changed.
fn schedule_refusals(g: &mut Gen, n: &mut Counts) {
    let np = g.below(5) as usize;
    let nr = g.below(5) as usize;
    let mut m = Model { records: vec![[0; 4]; nr], places: vec![0; np * PLACE], count: 0, next: 0, placed: [0; 3] };
    for _ in 0..g.below(5) {
        let n = g.length();
        let packet = g.bytes(n);
        let now = g.below(4) * 1_000_000;
        let d = g.below(3);
        m.schedule_at(now, &packet, &[d]);
    }
    for _ in 0..g.below(3) {
        match g.below(9) {
            0 => m.count = g.below(7) as usize,
            1 => m.next = [0, 1, (1 << 60) - 1, 1 << 60, u64::MAX][g.below(5) as usize],
            _ if nr == 0 => m.count += 1,
            2 => m.records[g.below(nr as u64) as usize][0] = [0, MAX_TIME, MAX_TIME + 1, u64::MAX][g.below(4) as usize],
            3 => m.records[g.below(nr as u64) as usize][1] = g.below(6),
            4 => m.records[g.below(nr as u64) as usize][2] = 1409 + g.below(3),
            5 => m.records[g.below(nr as u64) as usize][2] = [0, u64::MAX][g.below(2) as usize],
            6 => m.records[g.below(nr as u64) as usize][3] = g.below(6),
            7 => m.records[g.below(nr as u64) as usize][3] = u64::MAX,
            _ => {
                let i = g.below(nr as u64) as usize;
                let j = g.below(nr as u64) as usize;
                m.records.swap(i, j);
            }
        }
    }
    schedule_calls(g, m, true, n);
}

// A sound state of so many places: those below `full` in use, that one free, the others anywhere or, if `low`, up to the count.
fn waiting(g: &mut Gen, np: u64, count: u64, full: u64, low: bool) -> Model {
    let mut others: Vec<u64> = (full + 1..if low { count + 1 } else { np }).collect();
    shuffle(g, &mut others);
    let mut places: Vec<u64> = (0..full).chain(others).take(count as usize).collect();
    shuffle(g, &mut places);
    let (mut time, mut order, mut next) = (g.below(2) * 1_000_000, 0, 0);
    let mut records = vec![];
    for p in places {
        let step = g.below(3);
        time += step;
        order = if step == 0 { order + 1 + g.below(2) } else { g.below(1000) };
        next = next.max(order + 1);
        records.push([time, order, g.length() as u64, p]);
    }
    records.resize(count as usize + g.below(3) as usize, [0; 4]);
    Model { records, places: (0..np as usize * PLACE).map(|i| i as u8).collect(), count: count as usize, next, placed: [0; 3] }
}

fn shuffle(g: &mut Gen, xs: &mut [u64]) {
    for i in 1..xs.len() {
        xs.swap(i, g.below(i as u64 + 1) as usize);
    }
}

// A store of so many places, sound and with one damage of each kind, in each block of 256.
fn large_schedule(g: &mut Gen, np: u64, n: &mut Counts) {
    for block in 0..np.div_ceil(256) {
        for kind in 0..16 {
            let nearly_full = kind <= 12 && g.below(2) == 0;
            let count = if nearly_full { np - 1 - g.below(3) } else { 2 + g.below(np - 2) };
            let full = [0, g.below(count), count, block * 256][g.below(4) as usize].min(count);
            let low = kind % 4 == 0;
            let mut m = waiting(g, np, count, full, low);
            let i = [0, g.below(count), count - 1][g.below(3) as usize] as usize;
            let j = (i + 1 + g.below(count - 1) as usize) % count as usize;
            match kind {
                0 | 1 => {
                    let p = block * 256 + g.below((np - block * 256).min(256));
                    (m.records[i][3], m.records[j][3]) = (p, p);
                }
                2 => m.records[i][3] = m.records[j][3],
                3 => m.records[i][3] = [np, np + 1, np.next_multiple_of(256), 1 << 32, u64::MAX][g.below(5) as usize],
                4 => m.records.swap(i, j),
                5 => m.records[i][0] = m.records[j][0],
                6 => m.records[i][2] = [1410, 1411, u64::MAX][g.below(3) as usize],
                7 => m.records[i][1] = [m.next, u64::MAX][g.below(2) as usize],
                8 => m.next = m.records[i][1] + g.below(2),
                9 => m.records[count as usize - 1][0] = MAX_TIME + g.below(2),
                10 => m.count = m.records.len() + 1,
                11 => m.next = (1 << 60) - g.below(2),
                _ => {}
            }
            schedule_calls(g, m, kind < 12, n);
        }
    }
}

// The calls on any state, against the model; with arguments out of bounds too, if `all`.
fn schedule_calls(g: &mut Gen, mut m: Model, all: bool, n: &mut Counts) {
    let most = |some: u64, every: u64| if all { every } else { some };
    let mut o = Ours { records: m.records.clone(), places: m.places.clone(), count: m.count, next: m.next };
    let np = m.places.len() / PLACE;
    let now = [0, 1_000_000, MAX_TIME - 1_000_000, MAX_TIME, MAX_TIME + 1, u64::MAX][g.below(most(2, 6)) as usize];
    let shown = format!("{:?} count {} next {} places {np} now {now}", m.records, m.count, m.next);
    read_check(&o, &m, &shown);
    let length = [0, 1, 1410, 1411, 1412][g.below(most(3, 5)) as usize];
    let packet = g.bytes(length);
    let delays: Vec<u64> = (0..g.below(3)).map(|_| [0, 1, 2, 180000, 180001, u64::MAX][g.below(most(4, 6)) as usize]).collect();
    let (a, b) = (o.schedule_at(now, &packet, &delays), m.schedule_at(now, &packet, &delays));
    if a != b {
        fail("schedule_at", format!("{shown} delays {delays:?} length {length}: ours {a} model {b}"));
    }
    n.refused += (a != 0) as u64;
    same("memory after schedule_at", &o, &m, &shown);
    let size = g.length();
    let mut out = g.bytes(size);
    let mut out2 = out.clone();
    let (a, b) = (o.pop_ready_at(now, &mut out), m.pop_ready_at(now, &mut out2));
    if a != b || out != out2 {
        fail("pop_ready_at", format!("{shown} buffer {size}: ours {a:?} model {b:?}"));
    }
    n.refused += (a.0 > 1) as u64;
    same("memory after pop_ready_at", &o, &m, &shown);
    n.calls += 2;
    n.add(m.placed);
}

// Cases for crates/channel_replay: see the head of its source. Refusals are document 01's.
fn refusal(v: u64) -> String {
    format!(" refused {}", v - 16)
}

// A channel, a schedule and the model of its memory, as the replay has them.
struct Replayed {
    setup: Setup,
    reference: Channel,
    stats: [u64; 6],
    theirs: ChannelScheduler,
    model: Model,
    base: Instant,
}

impl Replayed {
    fn new_schedule(&mut self, records: usize, places: usize) {
        self.theirs = ChannelScheduler::new();
        self.model = Model { records: vec![[0; 4]; records], places: vec![0; places * PLACE], count: 0, next: 0, placed: [0; 3] };
    }
    fn schedule(&mut self, now: u64, packet: &[u8], delays: &[u64]) -> String {
        let v = self.model.schedule_at(now, packet, delays);
        if v == 0 {
            let copies = delays.iter().map(|&d| Delivery { delay_ms: d, data: packet.to_vec() }).collect();
            self.theirs.schedule_at(self.base + Duration::from_nanos(now), copies);
        }
        let answer = if v == 0 { " done".to_string() } else { refusal(v) };
        answer + &format!(" {}", self.theirs.len())
    }
    fn pop(&mut self, now: u64, room: usize) -> String {
        let mut out = vec![0xA5; room];
        let (v, n) = self.model.pop_ready_at(now, &mut out);
        let answer = if v > 1 {
            refusal(v)
        } else {
            match self.theirs.pop_ready_at(self.base + Duration::from_nanos(now)) {
                Some(p) if v == 1 && out[..n] == p => format!(" {}", p.len()),
                None if v == 0 => " none".to_string(),
                _ => fail("the model's pop", format!("now {now}")),
            }
        };
        answer + &shown(&out) + &format!(" {}", self.theirs.len())
    }
    fn dump(&self) -> String {
        let records: Vec<u64> = self.model.records.concat();
        numbers(&[self.theirs.len() as u64, self.model.next]) + &numbers(&records) + &crc(&self.model.places)
    }
    fn read(&self) -> String {
        let v = verdict(&[(9, self.model.line9()), (8, self.model.line8()), (10, self.model.held_late())]);
        if v != 0 {
            return refusal(v).repeat(4);
        }
        let deadline = self.theirs.next_deadline().map(|t| (t - self.base).as_nanos() as u64);
        deadline.map_or(" none".to_string(), |t| format!(" {t}")) + &numbers(&[self.theirs.len() as u64, self.theirs.is_empty() as u64, self.model.room() as u64])
    }
    // The rolls that are broken, the packet's length and the buffer's, in document 01's order; a lost packet needs no buffer.
    fn process(&mut self, now: u64, room: usize, rolls: &[f64; 8], packet: &[u8]) -> String {
        let lost = rolls[0] < self.setup.reals[0];
        let v = verdict(&[(11, !rolls.iter().all(|&x| x >= 0.0 && x < 1.0)), (6, packet.len() > 1410), (5, !lost && room < packet.len())]);
        let mut out = vec![0xA5; room];
        let mut deliveries = vec![];
        let mut answer = if v == 0 { String::new() } else { refusal(v) };
        if v == 0 {
            (deliveries, self.stats) = their_packet(&mut self.reference, packet, rolls);
            for d in &deliveries {
                out[..packet.len()].copy_from_slice(&d.data);
            }
            answer = format!(" {}", deliveries.len()) + &numbers(&deliveries.iter().map(|d| d.delay_ms).collect::<Vec<_>>());
        }
        let delays: Vec<u64> = deliveries.iter().map(|d| d.delay_ms).collect();
        let carried = out[..packet.len().min(room)].to_vec();
        answer + &shown(&out) + &numbers(&self.stats) + &self.schedule(now, &carried, &delays)
    }
}

fn length_for_cases(g: &mut Gen) -> usize {
    match g.below(24) {
        0 => 1410,
        1 => 1411,
        2 => 1409,
        3 => 0,
        _ => g.below(40) as usize,
    }
}

fn sample(dir: &str, seed: u64) {
    let mut g = Gen(seed);
    let mut cases = Cases::new("channel", seed);
    let idle = Setup { reals: [0.0; 4], delays: [0; 3] };
    let mut t = Replayed { reference: Channel::new(config(&idle)), setup: idle, stats: [0; 6], theirs: ChannelScheduler::new(), model: Model { records: vec![], places: vec![], count: 0, next: 0, placed: [0; 3] }, base: Instant::now() };
    for i in 0..24 {
        let mut s = setup(&mut g);
        s.reals[0] /= 4.0;
        match i % 6 {
            2 => s.delays[g.below(3) as usize] = [60001, u64::MAX][g.below(2) as usize],
            5 => s.reals[g.below(4) as usize] = [f64::NAN, -f64::MIN_POSITIVE, 1.0000000000000002, f64::INFINITY, -1.0][g.below(5) as usize],
            _ => {}
        }
        let (records, places) = if i % 8 == 7 { (300, 300) } else { (g.below(9) as usize, g.below(9) as usize) };
        let broken = !s.reals.iter().all(|x| (0.0..=1.0).contains(x)) || s.delays.iter().any(|&d| d > 60000);
        let line = format!("n{}{} {records} {places}", numbers(&s.reals.map(f64::to_bits)), numbers(&s.delays));
        cases.case(line, if broken { refusal(16 + 4) } else { " made".to_string() });
        t.new_schedule(records, places);
        if !broken {
            t.reference = Channel::new(config(&s));
            t.setup = s;
            t.stats = [0; 6];
        }
        let large = places > 256;
        if large {
            fill_places(&mut g, &mut t, &mut cases);
        }
        some_calls(&mut g, &mut t, if large { 12 } else { 30 }, &mut cases);
        cases.case("d".to_string(), t.dump());
    }
    cases.save(dir);
}

// Copies in nearly all of 300 places; some leave again, so that places above 256 are filled, freed and filled once more.
fn fill_places(g: &mut Gen, t: &mut Replayed, cases: &mut Cases) {
    for k in 0..149 + g.below(2) {
        let delays = [g.below(100), 100000 + g.below(80001)];
        let n = if k % 50 == 49 { 1410 } else { g.below(6) as usize };
        let packet = g.bytes(n);
        cases.case(format!("s 0 2 {} {}{}", delays[0], delays[1], given(&packet)), t.schedule(0, &packet, &delays));
    }
    cases.case("d".to_string(), t.dump());
    for _ in 0..6 + g.below(6) {
        cases.case("t 100000000 1410".to_string(), t.pop(100_000_000, 1410));
    }
}

fn some_calls(g: &mut Gen, t: &mut Replayed, calls: u64, cases: &mut Cases) {
    let mut time = 0u64;
    for _ in 0..calls {
        let now = if g.below(16) == 0 { [MAX_TIME, MAX_TIME + 1, u64::MAX][g.below(3) as usize] } else { time };
        let n = length_for_cases(g);
        let packet = g.bytes(n);
        match g.below(14) {
            0..=5 => {
                let mut r = rolls(g, &t.setup);
                if g.below(12) == 0 {
                    r[g.below(8) as usize] = [f64::NAN, 1.0, -1e-320, 2.0, f64::NEG_INFINITY][g.below(5) as usize];
                }
                let room = if g.below(10) == 0 { n.saturating_sub(1) } else { n + g.below(3) as usize };
                let line = format!("p {now} {room}{}{}", numbers(&r.map(f64::to_bits)), given(&packet));
                cases.case(line, t.process(now, room, &r, &packet));
            }
            6 | 7 => {
                let delays: Vec<u64> = (0..g.below(3)).map(|_| [0, 1, g.below(180001), 180000, 180001][g.below(5) as usize]).collect();
                let d = |i: usize| delays.get(i).copied().unwrap_or(0);
                cases.case(format!("s {now} {} {} {}{}", delays.len(), d(0), d(1), given(&packet)), t.schedule(now, &packet, &delays));
            }
            8..=10 => {
                let due = t.model.records.first().map_or(0, |r| r[2] as usize);
                let room = if g.below(4) == 0 { due.saturating_sub(1) } else { due + g.below(3) as usize };
                cases.case(format!("t {now} {room}"), t.pop(now, room));
            }
            _ if t.model.records.len() < 10 && g.below(2) == 0 => cases.case("d".to_string(), t.dump()),
            _ => cases.case("q".to_string(), t.read()),
        }
        time += [0, 1_000_000, 5_000_000_000, g.below(60_000_000_000)][g.below(4) as usize];
    }
}

fn main() {
    let args: Vec<String> = std::env::args().collect();
    let seconds: f64 = args.get(1).and_then(|s| s.parse().ok()).unwrap_or(5.0);
    if let Some(i) = args.iter().position(|a| a == "--sample") {
        sample(&args[i + 1], args.get(i + 2).map_or(42, |s| s.parse().expect("SEED")));
        return;
    }
    let mut g = Gen(std::env::var("SEED").ok().and_then(|s| s.parse().ok()).unwrap_or(1));
    let start = Instant::now();
    let (mut picks, mut packets, mut channel_refused, mut n) = (0u64, 0u64, 0u64, Counts::default());
    every_pick(&mut picks);
    for np in [257, 300, 520] {
        large_schedule(&mut g, np, &mut n);
    }
    loop {
        for _ in 0..200 {
            channel_runs(&mut g, &mut packets);
            channel_refusals(&mut g, &mut channel_refused);
            schedule_runs(&mut g, &mut n);
            schedule_refusals(&mut g, &mut n);
        }
        let np = [256, 257, 300, 512, 513, 520][g.below(6) as usize];
        large_schedule(&mut g, np, &mut n);
        if start.elapsed().as_secs_f64() >= seconds {
            break;
        }
    }
    let [sum, marks, blocks] = n.placed;
    if n.placed.contains(&0) {
        fail("a way to the lowest free place wasn't taken", format!("{:?}", n.placed));
    }
    println!("channel: no difference; {picks} picks at edges, {packets} packets, {channel_refused} refused packets, {} schedule calls, {} refused, copies placed by the sum {sum}, by marks {marks}, by blocks of marks {blocks}", n.calls, n.refused);
}
