// Times the reference's packet.rs and the packet layer in one process on the same datagrams.
// usage: packet [ROUNDS] [detail]      prints a Markdown table in ns a packet, each the least of ROUNDS / 8 interleaved rounds a layout
extern crate reference;
#[path = "../compare/exports.rs"]
mod exports;

use exports::*;
use reference::packet::Packet;
use std::hint::black_box;
use std::time::Instant;

const CALLS: u32 = 500;

fn time(f: &mut dyn FnMut() -> u64) -> f64 {
    let start = Instant::now();
    let mut sum = 0u64;
    for _ in 0..CALLS { sum = sum.wrapping_add(f()); }
    black_box(sum);
    start.elapsed().as_nanos() as f64 / CALLS as f64
}

// For each kind of work and each of eight layouts of the buffers on the heap, the least time of the reference and of ours, and
// where our output starts in its page: a copy that crosses a page is slower, so best, median and worst layout are all reported.
fn layouts(n: usize, rounds: usize) -> Vec<Vec<(&'static str, f64, f64, usize)>> {
    let mut all = Vec::new();
    for layout in 0..8 {
        let spacer = vec![1u8; 64 + layout * 520];
        let payload: Vec<u8> = (0..n).map(|i| (i * 7 + 13) as u8).collect();
        let mut p = Packet::new_data(0x0102_0304, payload.clone());
        p.compute_and_set_checksum();
        let raw = p.to_bytes();
        let second = vec![1u8; 64 + layout * 520];
        let mut q = p.clone();
        let mut out = vec![0u8; 1410];
        let whole = done(10 + n as u64);
        unsafe {
            assert_eq!(packet_compute_checksum(p.seq_num, 1, 0, 0, payload.as_ptr(), n), done(p.checksum as u64));
            assert_eq!(pindrelo_write(1, p.seq_num as u64, 0, payload.as_ptr(), n, out.as_mut_ptr(), out.len()), whole);
            assert_eq!(out[..10 + n], raw[..]);
            assert_eq!(packet_to_bytes(p.seq_num, 1, 0, 7, payload.as_ptr(), n, out.as_mut_ptr(), out.len()), whole);
            assert_eq!(pindrelo_validate(raw.as_ptr(), raw.len()), done(0));
            assert_eq!(pindrelo_payload_length(raw.as_ptr(), raw.len()), done(n as u64));
        }
        let place = out.as_ptr() as usize % 4096;
        let (pay, data) = (&payload, &raw);
        let (buffer, room) = (out.as_mut_ptr(), out.len());
        let mut pairs: Vec<(&'static str, Box<dyn FnMut() -> u64 + '_>, Box<dyn FnMut() -> u64 + '_>)> = vec![
            (
                "checksum",
                Box::new(|| black_box(&p).compute_checksum() as u64),
                Box::new(|| { let s: &[u8] = black_box(pay); unsafe { packet_compute_checksum(black_box(0x0102_0304), 1, 0, 0, s.as_ptr(), s.len()) } }),
            ),
            (
                "checksum and write",
                Box::new(|| { let q = black_box(&mut q); q.compute_and_set_checksum(); black_box(q.to_bytes()).len() as u64 }),
                Box::new(|| { let s: &[u8] = black_box(pay); unsafe { pindrelo_write(1, black_box(0x0102_0304), 0, s.as_ptr(), s.len(), buffer, room) } }),
            ),
            (
                "write alone",
                Box::new(|| black_box(black_box(&p).to_bytes()).len() as u64),
                Box::new(|| { let s: &[u8] = black_box(pay); unsafe { packet_to_bytes(black_box(0x0102_0304), 1, 0, 7, s.as_ptr(), s.len(), buffer, room) } }),
            ),
            (
                "read and validate",
                Box::new(|| { let s: &[u8] = black_box(data); match Packet::from_bytes(s) { Ok(p) => p.is_valid() as u64 + black_box(&p.payload).len() as u64, Err(_) => 0 } }),
                Box::new(|| { let s: &[u8] = black_box(data); unsafe { pindrelo_validate(s.as_ptr(), s.len()) + pindrelo_payload_length(s.as_ptr(), s.len()) } }),
            ),
        ];
        let mut best: Vec<_> = pairs.iter().map(|x| (x.0, f64::MAX, f64::MAX, place)).collect();
        for _ in 0..rounds.div_ceil(8) {
            for (k, (_, rust, ours)) in pairs.iter_mut().enumerate() {
                best[k].1 = best[k].1.min(time(rust));
                best[k].2 = best[k].2.min(time(ours));
            }
        }
        drop(pairs);
        black_box((&spacer, &second));
        all.push(best);
    }
    all
}

fn sorted(v: impl Iterator<Item = f64>) -> Vec<f64> {
    let mut v: Vec<f64> = v.collect();
    v.sort_by(f64::total_cmp);
    v
}

fn main() {
    let rounds: usize = std::env::args().nth(1).map_or(4000, |s| s.parse().expect("ROUNDS"));
    let detail = std::env::args().nth(2).is_some();
    println!("| work | payload | reference, ns: best, median, worst layout | here, ns | ratio: best | median | worst |");
    println!("|---|---|---|---|---|---|---|");
    for n in [1400usize, 64, 0] {
        let all = layouts(n, rounds);
        for k in 0..4 {
            let r = sorted(all.iter().map(|l| l[k].1));
            let o = sorted(all.iter().map(|l| l[k].2));
            let (rm, om) = ((r[3] + r[4]) / 2.0, (o[3] + o[4]) / 2.0);
            println!("| {} | {} | {:.1}, {:.1}, {:.1} | {:.1}, {:.1}, {:.1} | {:.2} | {:.2} | {:.2} |", all[0][k].0, n, r[0], rm, r[7], o[0], om, o[7], o[0] / r[0], om / rm, o[7] / r[7]);
            if detail { for l in &all { println!("    output at page offset {}: reference {:.1}, here {:.1}, ratio {:.2}", l[k].3, l[k].1, l[k].2, l[k].2 / l[k].1); } }
        }
    }
}
