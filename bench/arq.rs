// Times the protocol ends beside the reference, interleaved, minima of many rounds: windows of chunks of 1,400 bytes, each sent, received and
// acknowledged. The reference's packets are written and read as bytes too, since its ends take packets and this library's take datagrams.
extern crate reference;
#[path = "../compare/exports.rs"]
mod exports;

use exports::*;
use reference::arq::{GoBackNReceiver, GoBackNSender, SelectiveRepeatReceiver, SelectiveRepeatSender, StopAndWaitReceiver, StopAndWaitSender};
use reference::packet::Packet;
use std::hint::black_box;
use std::time::Instant;

const CHUNKS: usize = 32 * 16;
const STOP_AND_WAIT: u64 = 1;
const GO_BACK_N: u64 = 2;
const SELECTIVE_REPEAT: u64 = 3;

// A window sent, then received, then acknowledged, until all chunks are through.
macro_rules! reference_run {
    ($s:expr, $r:expr, $window:expr, $payload:expr) => {{
        let mut s = $s;
        let mut r = $r;
        for _ in 0..CHUNKS / $window {
            let sent: Vec<Vec<u8>> = (0..$window).map(|_| s.send_chunk(black_box($payload).to_vec()).unwrap().to_bytes()).collect();
            let acks: Vec<Vec<u8>> = sent.iter().map(|d| r.handle_packet(&Packet::from_bytes(d).unwrap()).unwrap().to_bytes()).collect();
            for a in &acks {
                assert!(s.handle_ack(&Packet::from_bytes(a).unwrap()));
            }
            black_box(r.drain_delivered());
        }
    }};
}

fn theirs(protocol: u64, window: usize, payload: &[u8]) {
    match protocol {
        STOP_AND_WAIT => reference_run!(StopAndWaitSender::new(3), StopAndWaitReceiver::new(), window, payload),
        GO_BACK_N => reference_run!(GoBackNSender::new(window), GoBackNReceiver::new(), window, payload),
        _ => reference_run!(SelectiveRepeatSender::new(window), SelectiveRepeatReceiver::new(window), window, payload),
    }
}

struct Lent {
    store: Vec<u8>,
    held: Vec<u8>,
    output: Vec<u8>,
    wire: Vec<u8>,
    acks: Vec<u8>,
}

fn ours(protocol: u64, window: usize, payload: &[u8], lent: &mut Lent) {
    let (mut s, mut r) = ([0u64; 8], [0u64; 8]);
    let (st, nst, ht, nht) = (lent.store.as_mut_ptr(), lent.store.len(), lent.held.as_mut_ptr(), lent.held.len());
    let (s, r) = (s.as_mut_ptr(), r.as_mut_ptr());
    assert!(unsafe { pindrelo_make_sender(protocol, window, 3, s, 8, st, nst) } == done(0) && unsafe { pindrelo_make_receiver(protocol, window, r, 8, ht, nht) } == done(0));
    for _ in 0..CHUNKS / window {
        for d in lent.wire.chunks_mut(1410).take(window) {
            let payload = black_box(payload);
            assert!(unsafe { pindrelo_send(s, 8, st, nst, payload.as_ptr(), payload.len(), d.as_mut_ptr(), d.len()) } == done(1410));
        }
        for (d, a) in lent.wire.chunks(1410).zip(lent.acks.chunks_mut(10)).take(window) {
            let a = unsafe { pindrelo_receive(r, 8, ht, nht, d.as_ptr(), d.len(), lent.output.as_mut_ptr(), lent.output.len(), a.as_mut_ptr(), a.len()) };
            assert!(status(a) == DONE);
        }
        for a in lent.acks.chunks(10).take(window) {
            assert!(status(unsafe { pindrelo_acknowledge(s, 8, st, nst, a.as_ptr(), a.len()) }) == DONE);
        }
        black_box(&lent.output);
    }
}

fn main() {
    let rounds: usize = std::env::args().nth(1).and_then(|s| s.parse().ok()).unwrap_or(400);
    let payload: Vec<u8> = (0..1400).map(|i| (i * 7 + 3) as u8).collect();
    println!("| send, receive, acknowledge, ns a chunk of 1,400 bytes | reference | ours | ratio |\n|---|---|---|---|");
    for (name, protocol, window) in [("Stop-and-Wait", STOP_AND_WAIT, 1), ("Go-Back-N, window 32", GO_BACK_N, 32), ("Selective Repeat, window 32", SELECTIVE_REPEAT, 32)] {
        let mut lent = Lent { store: vec![0; window * 1404], held: vec![0; window * 1404], output: vec![0; CHUNKS * 1400], wire: vec![0; window * 1410], acks: vec![0; window * 10] };
        let (mut a, mut b) = (f64::MAX, f64::MAX);
        for _ in 0..rounds {
            let t = Instant::now();
            theirs(protocol, window, &payload);
            a = a.min(t.elapsed().as_nanos() as f64 / CHUNKS as f64);
            let t = Instant::now();
            ours(protocol, window, &payload, &mut lent);
            b = b.min(t.elapsed().as_nanos() as f64 / CHUNKS as f64);
        }
        println!("| {name} | {a:.1} | {b:.1} | {:.2} |", b / a);
    }
}
