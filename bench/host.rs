// What an export costs beside its inner call: the entry point that it calls, many times in one call of crates/bench_ffi. Interleaved, the least of
// all rounds, in ns a call. The ends are Selective Repeat's with a window of 32, a window of calls at a time.
// usage: host [ROUNDS]
#[path = "../compare/exports.rs"]
mod exports;

use exports::*;
use std::hint::black_box;
use std::time::{Duration, Instant};

const WINDOW: usize = 32;
const WINDOWS: usize = 16;
const PLACE: usize = 1410;

struct Ends {
    s: [u64; 8],
    r: [u64; 8],
    store: Vec<u8>,
    held: Vec<u8>,
    wire: Vec<u8>,
    output: Vec<u8>,
    acks: Vec<u8>,
    ack: [u8; 10],
}

impl Ends {
    fn new() -> Ends {
        let (store, held) = (vec![0; WINDOW * 1404], vec![0; WINDOW * 1404]);
        Ends { s: [0; 8], r: [0; 8], store, held, wire: vec![0; WINDOW * PLACE], output: vec![0; WINDOW * WINDOWS * 1400], acks: vec![0; WINDOW * 10], ack: [0; 10] }
    }

    // All chunks through both ends, by exports or by their inner calls: the time of the sends, the receives and the acknowledgements.
    fn run(&mut self, payload: &[u8], inner: bool) -> [Duration; 3] {
        let mut times = [Duration::ZERO; 3];
        let (s, t, nt) = (self.s.as_mut_ptr(), self.store.as_mut_ptr(), self.store.len());
        let (r, h, nh) = (self.r.as_mut_ptr(), self.held.as_mut_ptr(), self.held.len());
        let (w, nw, o, no) = (self.wire.as_mut_ptr(), self.wire.len(), self.output.as_mut_ptr(), self.output.len());
        let (p, np) = (payload.as_ptr(), payload.len());
        let mut bad = 0;
        unsafe {
            bad |= pindrelo_make_sender(3, WINDOW, 0, s, 8, t, nt) | pindrelo_make_receiver(3, WINDOW, r, 8, h, nh);
            for window in 0..WINDOWS {
                let start = Instant::now();
                if inner {
                    arq_send_chunk_each(s.add(1), 7, t, nt, p, np, w, nw);
                } else {
                    for i in 0..WINDOW {
                        bad |= status(pindrelo_send(s, 8, t, nt, p, np, w.add(i * PLACE), PLACE));
                    }
                }
                times[0] += start.elapsed();
                let start = Instant::now();
                if inner {
                    arq_handle_packet_each(r.add(1), 7, h, nh, w, nw, o, no, self.ack.as_mut_ptr(), 10);
                } else {
                    for i in 0..WINDOW {
                        bad |= status(pindrelo_receive(r, 8, h, nh, w.add(i * PLACE), PLACE, o, no, self.ack.as_mut_ptr(), 10));
                    }
                }
                times[1] += start.elapsed();
                for (i, a) in self.acks.chunks_mut(10).enumerate() {
                    bad |= status(pindrelo_write(2, (window * WINDOW + i) as u64, 0, p, 0, a.as_mut_ptr(), 10));
                }
                let start = Instant::now();
                if inner {
                    arq_handle_ack_each(s.add(1), 7, t, nt, self.acks.as_ptr(), self.acks.len());
                } else {
                    for a in self.acks.chunks(10) {
                        bad |= status(pindrelo_acknowledge(s, 8, t, nt, a.as_ptr(), 10));
                    }
                }
                times[2] += start.elapsed();
            }
        }
        let all = (WINDOWS * WINDOW) as u64;
        assert!(bad == 0 && self.s[1..5] == [WINDOW as u64, all, all, all] && self.r[1..5] == [WINDOW as u64, all, all * np as u64, all]);
        times
    }
}

struct Row {
    name: String,
    best: [f64; 2],
}

impl Row {
    fn new(name: String) -> Row {
        Row { name, best: [f64::MAX; 2] }
    }
    fn keep(&mut self, side: usize, t: Duration, calls: usize) {
        self.best[side] = self.best[side].min(t.as_nanos() as f64 / calls as f64);
    }
    fn print(&self) {
        let [inner, export] = self.best;
        println!("| {} | {inner:.1} | {export:.1} | {:.1} |", self.name, export - inner);
    }
}

fn ends(bytes: usize, rounds: usize) {
    let payload: Vec<u8> = (0..bytes).map(|i| (i * 7 + 3) as u8).collect();
    let mut e = Ends::new();
    let mut rows = ["send", "receive", "acknowledge"].map(|call| Row::new(format!("{call}, chunks of {bytes} bytes")));
    for _ in 0..rounds {
        for (side, inner) in [(0, true), (1, false)] {
            for (row, t) in rows.iter_mut().zip(e.run(black_box(&payload), inner)) {
                row.keep(side, t, WINDOW * WINDOWS);
            }
        }
    }
    rows.iter().for_each(Row::print);
}

fn timer_start(rounds: usize) {
    let given: Vec<u32> = (0..960u32).map(|i| i * 5 % 32 * 3).collect();
    let (mut s, mut k, mut d) = ([0u64; 3], [0u32; 32], [0u64; 32]);
    assert!(unsafe { pindrelo_make_timers(s.as_mut_ptr(), 3, k.as_mut_ptr(), 32, d.as_mut_ptr(), 32) } == done(0));
    let (s, k, d) = (s.as_mut_ptr(), k.as_mut_ptr(), d.as_mut_ptr());
    let mut row = Row::new("timer start, 32 entries".to_string());
    for _ in 0..rounds {
        let given = black_box(&given);
        let start = Instant::now();
        unsafe { timing_start_each(s.add(1), 2, k, 32, d, 32, given.as_ptr(), given.len(), 0, 100_000_000) };
        row.keep(0, start.elapsed(), given.len());
        let start = Instant::now();
        let mut bad = 0;
        for key in given {
            bad |= unsafe { pindrelo_timer_start(s, 3, k, 32, d, 32, *key as u64, 0, 100_000_000) };
        }
        row.keep(1, start.elapsed(), given.len());
        assert!(bad == done(0) && unsafe { *s.add(1) } == 32);
    }
    row.print();
}

fn read(rounds: usize) {
    let mut wire = vec![0u8; WINDOW * PLACE];
    for (i, d) in wire.chunks_mut(PLACE).enumerate() {
        assert!(unsafe { pindrelo_write(1, i as u64, 0, d.as_ptr(), 0, d.as_mut_ptr(), PLACE) } == done(10));
    }
    let mut row = Row::new("read".to_string());
    for _ in 0..rounds {
        let start = Instant::now();
        for _ in 0..WINDOWS {
            let wire = black_box(&wire);
            black_box(unsafe { packet_from_bytes_each(wire.as_ptr(), wire.len()) });
        }
        row.keep(0, start.elapsed(), WINDOW * WINDOWS);
        let start = Instant::now();
        for _ in 0..WINDOWS {
            let mut read = 0;
            for d in black_box(&wire).chunks(PLACE) {
                read ^= unsafe { pindrelo_read(d.as_ptr(), d.len()) };
            }
            black_box(read);
        }
        row.keep(1, start.elapsed(), WINDOW * WINDOWS);
    }
    row.print();
}

fn estimator_sample(rounds: usize) {
    let samples: Vec<u64> = (0..1000u64).map(|i| 20_000_000 + (i * 7919 % 5_000_000)).collect();
    let (mut w, mut d) = ([0u64; 24], [0f64; 5]);
    let mut row = Row::new("estimator sample".to_string());
    for _ in 0..rounds {
        let samples = black_box(&samples);
        let start = Instant::now();
        let rto = unsafe { timing_update_rtt_each(samples.as_ptr(), samples.len()) };
        row.keep(0, start.elapsed(), samples.len());
        let start = Instant::now();
        unsafe { pindrelo_make_default_estimator(w.as_mut_ptr(), 24, d.as_mut_ptr(), 5) };
        for x in samples {
            unsafe { pindrelo_estimator_sample(w.as_mut_ptr(), 24, d.as_mut_ptr(), 5, *x, 0) };
        }
        row.keep(1, start.elapsed(), samples.len());
        assert!(w[9] == rto && w[13] == 1000);
    }
    row.print();
}

fn main() {
    let rounds: usize = std::env::args().nth(1).and_then(|s| s.parse().ok()).unwrap_or(1000);
    println!("| ns a call | inner call | export | more |\n|---|---|---|---|");
    ends(1400, rounds);
    ends(0, rounds);
    timer_start(rounds);
    read(rounds);
    estimator_sample(rounds);
}
