// Times whole runs beside the reference, interleaved, minima of many rounds, a packet being a chunk of the file; and says how much stack a run takes.
// The reference draws its rolls from a fixed table, this library finds the same rolls in lent slices and looks at all of them at its start.
extern crate rand;
extern crate reference;
#[path = "../compare/exports.rs"]
mod exports;

use exports::*;
use reference::app::transfer::{run_transfer, TransferConfig};
use reference::arq::ProtocolType;
use std::ffi::c_void;
use std::hint::black_box;
use std::time::{Duration, Instant};

const WINDOW: usize = 32;
const PLACES: usize = 2 * WINDOW;
const SECOND: u64 = 1_000_000_000;

// What a run is lent. The reverse line's rolls are the forward line's.
struct Lent {
    numbers: [u64; 13],
    reals: [f64; 8],
    file: Vec<u8>,
    rolls: Vec<f64>,
    stores: [Vec<u8>; 2],
    output: Vec<u8>,
    rows: [Vec<[u64; 7]>; 2],
    records: [Vec<[u64; 4]>; 2],
    places: [Vec<u8>; 2],
    keys: Vec<u32>,
    deadlines: Vec<u64>,
}

impl Lent {
    fn new(c: &TransferConfig) -> Lent {
        let protocol = match c.protocol {
            ProtocolType::StopAndWait => 1,
            ProtocolType::GoBackN => 2,
            ProtocolType::SelectiveRepeat => 3,
        };
        let nanos = |d: Duration| d.as_nanos() as u64;
        let packets = c.payload.len().div_ceil(c.chunk_size);
        Lent {
            numbers: [
                protocol,
                1,
                c.window_size as u64,
                c.chunk_size as u64,
                c.reorder_extra_ms,
                c.base_delay_ms,
                c.jitter_ms,
                nanos(c.initial_rto),
                nanos(c.min_rto),
                nanos(c.max_rto),
                1_000_000,
                nanos(c.max_virtual_time),
                c.max_retransmissions,
            ],
            reals: [c.loss_rate, c.duplicate_rate, c.reorder_rate, c.corrupt_rate, c.alpha, c.beta, 4.0, c.rto_multiplier],
            file: c.payload.clone(),
            rolls: (1..=8 * packets).map(rand::roll).collect(),
            stores: [vec![0; WINDOW * 1404], vec![0; WINDOW * 1404]],
            output: vec![0; c.payload.len()],
            rows: [vec![[0; 7]; packets], vec![[0; 7]; packets]],
            records: [vec![[0; 4]; PLACES], vec![[0; 4]; PLACES]],
            places: [vec![0; PLACES * 1410], vec![0; PLACES * 1410]],
            keys: vec![0; WINDOW],
            deadlines: vec![0; WINDOW],
        }
    }

    // The answer, and the outcome.
    #[inline(never)]
    fn run(&mut self) -> (u64, [u64; 31]) {
        let (mut words, mut estimator, mut doubles) = ([7u64; 31], [7u64; 24], [7f64; 5]);
        let [sender, receiver] = &mut self.stores;
        let [notes, events] = &mut self.rows;
        let [fr, rr] = &mut self.records;
        let [fp, rp] = &mut self.places;
        let rolls = (self.rolls.as_ptr(), self.rolls.len());
        #[rustfmt::skip]
        let a = unsafe {
            pindrelo_run(
                self.numbers.as_ptr(), 13, self.reals.as_ptr(), 8, self.file.as_ptr(), self.file.len(), rolls.0, rolls.1, rolls.0, rolls.1,
                sender.as_mut_ptr(), sender.len(), receiver.as_mut_ptr(), receiver.len(), self.output.as_mut_ptr(), self.output.len(),
                notes.as_mut_ptr(), notes.len(), events.as_mut_ptr(), events.len(), fr.as_mut_ptr(), fr.len(), fp.as_mut_ptr(), fp.len(),
                rr.as_mut_ptr(), rr.len(), rp.as_mut_ptr(), rp.len(), self.keys.as_mut_ptr(), self.keys.len(), self.deadlines.as_mut_ptr(), self.deadlines.len(),
                words.as_mut_ptr(), 31, estimator.as_mut_ptr(), 24, doubles.as_mut_ptr(), 5,
            )
        };
        (a, words)
    }
}

fn config(protocol: ProtocolType, bytes: usize, chunk: usize) -> TransferConfig {
    TransferConfig {
        payload: (0..bytes).map(|i| (i * 7 + i / 251) as u8).collect(),
        protocol,
        window_size: WINDOW,
        chunk_size: chunk,
        seed: 0,
        trial_id: 0,
        experiment_id: String::new(),
        loss_rate: 0.0,
        reorder_rate: 0.0,
        duplicate_rate: 0.0,
        corrupt_rate: 0.0,
        base_delay_ms: 5,
        jitter_ms: 0,
        reorder_extra_ms: 0,
        rto_multiplier: 1.0,
        min_rto: Duration::from_nanos(SECOND),
        max_rto: Duration::from_nanos(60 * SECOND),
        initial_rto: Duration::from_nanos(SECOND),
        alpha: 0.125,
        beta: 0.25,
        max_virtual_time: Duration::from_nanos(86_400 * SECOND),
        max_retransmissions: 1000,
    }
}

// The least time of each side, ns a packet. Both have to have sent the same packets by the same time, and this side the file.
fn times(c: &TransferConfig, rounds: usize, reference_rounds: usize) -> [f64; 2] {
    let packets = c.payload.len().div_ceil(c.chunk_size);
    let mut lent = Lent::new(c);
    let mut best = [f64::MAX; 2];
    for round in 0..rounds {
        if round < reference_rounds {
            let t = Instant::now();
            let theirs = run_transfer(black_box(c));
            best[0] = best[0].min(t.elapsed().as_nanos() as f64);
            assert!(theirs.record.measurements.channel.offered_datagrams == packets && theirs.reverse.offered_datagrams == packets);
            black_box(&theirs);
        }
        let t = Instant::now();
        let (a, words) = black_box(&mut lent).run();
        best[1] = best[1].min(t.elapsed().as_nanos() as f64);
        // completed, ended by itself, the fill mark, the datagrams of both lines
        assert!(a == done(1) && words[0] == 1 && words[2] == 0 && words[15] == lent.file.len() as u64 && [words[19], words[25]] == [packets as u64; 2] && lent.output == lent.file);
    }
    best.map(|ns| ns / packets as f64)
}

// ---- the stack

extern "C" {
    fn pthread_attr_init(attr: *mut [u64; 7]) -> i32;
    fn pthread_attr_setstack(attr: *mut [u64; 7], stack: *mut c_void, size: usize) -> i32;
    fn pthread_create(thread: *mut u64, attr: *const [u64; 7], start: extern "C" fn(*mut c_void) -> *mut c_void, arg: *mut c_void) -> i32;
    fn pthread_join(thread: u64, answer: *mut *mut c_void) -> i32;
}

// Answers the address of a local of the caller of the run.
extern "C" fn on_thread(lent: *mut c_void) -> *mut c_void {
    let mark = black_box(0u64);
    unsafe { (*(lent as *mut Lent)).run() };
    let at = (&raw const mark).addr();
    at as *mut c_void
}

// How far below its caller a run writes: it runs on painted memory.
fn stack(c: &TransferConfig) -> usize {
    const SIZE: usize = 1 << 20;
    let mut lent = Lent::new(c);
    let mut memory = vec![[0xA5u8; 16]; SIZE / 16];
    let (mut attr, mut thread, mut mark) = ([0u64; 7], 0, std::ptr::null_mut());
    unsafe {
        assert!(pthread_attr_init(&mut attr) == 0);
        assert!(pthread_attr_setstack(&mut attr, memory.as_mut_ptr() as *mut c_void, SIZE) == 0);
        assert!(pthread_create(&mut thread, &attr, on_thread, &mut lent as *mut Lent as *mut c_void) == 0);
        assert!(pthread_join(thread, &mut mark) == 0);
    }
    let untouched = memory.iter().take_while(|b| **b == [0xA5; 16]).count();
    mark as usize - memory.as_ptr() as usize - 16 * untouched
}

fn main() {
    let rounds: usize = std::env::args().nth(1).and_then(|s| s.parse().ok()).unwrap_or(400);
    let protocols = [("Selective Repeat", ProtocolType::SelectiveRepeat), ("Go-Back-N", ProtocolType::GoBackN), ("Stop-and-Wait", ProtocolType::StopAndWait)];
    println!("| a run, ns a packet | reference | ours | ratio |\n|---|---|---|---|");
    let row = |name: &str, c: &TransferConfig, rounds: usize, reference_rounds: usize| {
        let [a, b] = times(c, rounds, reference_rounds);
        println!("| {name} | {a:.1} | {b:.1} | {:.3} |", b / a);
    };
    for (name, p) in protocols {
        row(&format!("1 MiB in chunks of 1,400, {name}"), &config(p, 1 << 20, 1400), rounds, rounds);
    }
    for (chunks, part) in [(65_536, 8), (8_192, 1)] {
        row(&format!("{chunks} chunks of one byte, Selective Repeat"), &config(ProtocolType::SelectiveRepeat, chunks, 1), rounds / part, rounds / part);
        // The reference is quadratic here.
        row(&format!("{chunks} chunks of one byte, Go-Back-N"), &config(ProtocolType::GoBackN, chunks, 1), rounds / part, rounds / part / 5);
    }
    for (name, p) in protocols {
        println!("stack of a run, {name}: {} bytes", stack(&config(p, 1 << 20, 1400)));
    }
}
