// Times the channel and the schedule beside the reference, interleaved, minima of many rounds.
// The reference's copies of the packet (Vec) are part of its `process`; in the schedule's rows each packet is copied once to be handed over.
extern crate rand;
extern crate reference;

#[path = "../compare/channel_calls.rs"]
#[allow(dead_code)]
mod calls;
#[path = "../compare/exports.rs"]
mod exports;

use calls::{process, Ours};
use reference::channel::scheduler::ChannelScheduler;
use reference::channel::{Channel, ChannelConfig, Delivery};
use std::hint::black_box;
use std::time::{Duration, Instant};

const CALLS: usize = 1000;

fn time(best: &mut f64, mut f: impl FnMut()) {
    let t = Instant::now();
    f();
    let ns = t.elapsed().as_nanos() as f64 / CALLS as f64;
    if ns < *best {
        *best = ns;
    }
}

fn row(name: &str, theirs: f64, ours: f64) {
    println!("| {name} | {theirs:.1} | {ours:.1} | {:.2} |", ours / theirs);
}

fn scattered(i: usize) -> u64 {
    ((i * 7919) % 997) as u64
}

fn constant(_: usize) -> u64 {
    500
}

fn main() {
    let rounds: usize = std::env::args().nth(1).and_then(|s| s.parse().ok()).unwrap_or(400);
    println!("| ns a call | reference | ours | ratio |\n|---|---|---|---|");
    for (name, chances) in [("process, 1,410 bytes, no fault", [0.0, 0.0, 0.0, 0.0]), ("process, 1,410 bytes, corrupted and held", [0.0, 0.0, 1.0, 1.0]), ("process, 1,410 bytes, duplicated", [0.0, 1.0, 0.0, 0.0])] {
        let packet = vec![0xA5u8; 1410];
        let mut reference = Channel::new(ChannelConfig { seed: 0, loss: chances[0], duplicate: chances[1], reorder: chances[2], reorder_extra_ms: 20, corrupt: chances[3], base_delay_ms: 5, jitter_ms: 10 });
        let mut out = vec![0u8; 1410];
        let mut numbers = [20, 5, 10, 0, 0, 0, 0, 0, 0];
        let (mut a, mut b) = (f64::MAX, f64::MAX);
        let mut k = 0usize;
        for _ in 0..rounds {
            time(&mut a, || {
                for _ in 0..CALLS {
                    black_box(reference.process(black_box(&packet)));
                }
            });
            time(&mut b, || {
                for _ in 0..CALLS {
                    let mut reals = [chances[0], chances[1], chances[2], chances[3], 0.0, 0.0, 0.0, 0.0, 0.0, 0.0, 0.0, 0.0];
                    for r in reals[4..].iter_mut() {
                        k += 1;
                        *r = rand::roll(k);
                    }
                    let answer = process(black_box(&reals), &numbers, black_box(&packet), &mut out);
                    numbers[3..].copy_from_slice(&answer[3..]);
                    black_box(&out);
                }
            });
        }
        row(name, a, b);
    }
    println!("| ns a call, eight layouts | reference: best, median, worst | ours | ratio: best | median | worst |\n|---|---|---|---|---|---|");
    for waiting in [8usize, 64] {
        for (name, delay, steps) in [("time stands still", scattered as fn(usize) -> u64, false), ("random delays", scattered, true), ("one delay", constant, true)] {
            schedule_rows(&format!("schedule and take, {waiting} waiting, {name}"), waiting, rounds, delay, steps);
        }
    }
}

// If time steps, a copy is taken when it is due and another put in at that time, as in a run. Else a copy is put in at a time that
// hardly grows, and the earliest taken, so that most new copies leave first.
fn schedule_times(layout: usize, waiting: usize, rounds: usize, delay: fn(usize) -> u64, steps: bool) -> [f64; 3] {
    let spacer = vec![0u8; 200 * layout];
    let packet = vec![0xA5u8; 1410];
    let mut out = vec![0u8; 1410];
    let base = Instant::now();
    let late = 100_000_000_000_000u64;
    let apart = if steps { 500_000_000 / waiting as u64 } else { 0 };
    let mut theirs = ChannelScheduler::new();
    let mut ours = Ours::new(vec![[0; 4]; waiting + 2], vec![0; 1410 * (waiting + 2)]);
    for n in 0..waiting {
        theirs.schedule_at(base + Duration::from_nanos(n as u64 * apart), vec![Delivery { delay_ms: delay(n), data: packet.clone() }]);
        ours.schedule_at(n as u64 * apart, &packet, &[delay(n)]);
    }
    let mut fast = ours.clone();
    let (mut a, mut b, mut c) = (f64::MAX, f64::MAX, f64::MAX);
    let (mut i, mut j, mut k) = (waiting, waiting, waiting);
    for _ in 0..rounds {
        time(&mut a, || {
            for _ in 0..CALLS {
                i += 1;
                let copy = |i: usize| vec![Delivery { delay_ms: delay(i), data: black_box(&packet).clone() }];
                if steps {
                    let now = theirs.next_deadline().unwrap();
                    black_box(theirs.pop_ready_at(now));
                    theirs.schedule_at(now, copy(i));
                } else {
                    theirs.schedule_at(base + Duration::from_micros(i as u64), copy(i));
                    black_box(theirs.pop_ready_at(base + Duration::from_nanos(late)));
                }
            }
        });
        time(&mut b, || {
            for _ in 0..CALLS {
                j += 1;
                if steps {
                    let now = ours.records[0][0];
                    assert!(ours.pop_ready_at(now, &mut out).0 == 1);
                    black_box(&out);
                    assert!(ours.schedule_at(now, black_box(&packet), &[delay(j)]) == 0);
                } else {
                    assert!(ours.schedule_at(j as u64 * 1000, black_box(&packet), &[delay(j)]) == 0);
                    assert!(ours.pop_ready_at(late, &mut out).0 == 1);
                    black_box(&out);
                }
            }
        });
        time(&mut c, || {
            for _ in 0..CALLS {
                k += 1;
                if steps {
                    let now = fast.records[0][0];
                    assert!(fast.pop_unchecked(now, &mut out) == 1410);
                    black_box(&out);
                    fast.schedule_one_unchecked(now, black_box(&packet), delay(k));
                } else {
                    fast.schedule_one_unchecked(k as u64 * 1000, black_box(&packet), delay(k));
                    assert!(fast.pop_unchecked(late, &mut out) == 1410);
                    black_box(&out);
                }
            }
        });
    }
    black_box(&spacer);
    [a, b, c]
}

// The best, the median and the worst of eight layouts of the heap, each side's own.
fn schedule_rows(name: &str, waiting: usize, rounds: usize, delay: fn(usize) -> u64, steps: bool) {
    let mut times = [[0.0; 8]; 3];
    for layout in 0..8 {
        let t = schedule_times(layout, waiting, rounds / 4, delay, steps);
        for side in 0..3 {
            times[side][layout] = t[side];
        }
    }
    for side in times.iter_mut() {
        side.sort_by(f64::total_cmp);
    }
    let three = |v: &[f64; 8]| [v[0], v[3], v[7]];
    let shown = |v: [f64; 3]| format!("{:.1}, {:.1}, {:.1}", v[0], v[1], v[2]);
    let reference = three(&times[0]);
    for (who, side) in [("entry points", 1), ("below them", 2)] {
        let ours = three(&times[side]);
        println!("| {name}, {who} | {} | {} | {:.2} | {:.2} | {:.2} |", shown(reference), shown(ours), ours[0] / reference[0], ours[1] / reference[1], ours[2] / reference[2]);
    }
}
