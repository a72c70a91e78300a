// Compares the protocol ends with the reference, and refusals and slots with a model of document 01: the exports for hosts and, of what hosts
// don't have, those of crates/bench_ffi.
// usage: arq SECONDS
//        arq --sample DIR [SEED]      writes DIR/stdin (cases) and DIR/stdout (the reference's answers) for crates/arq_replay
extern crate reference;

#[path = "arq_calls.rs"]
mod calls;
#[path = "exports.rs"]
mod exports;
#[path = "generator.rs"]
mod generator;

#[path = "cases.rs"]
#[allow(dead_code)]
mod cases;

use calls::{Answer, Protocol, Receiver, Sender, Timeout};
use cases::{crc, given, numbers, shown, Cases};
use generator::{fail, verdict, Gen};
use reference::arq::{GoBackNReceiver, GoBackNSender, SelectiveRepeatReceiver, SelectiveRepeatSender, StopAndWaitReceiver, StopAndWaitSender};
use reference::packet::{Packet, PacketError, PacketType};
use std::time::Instant;

const SLOT: usize = 1404;
const LIMIT: u64 = 4_294_901_760;
const COUNT: u64 = 1 << 60;
const PROTOCOLS: [Protocol; 3] = [Protocol::StopAndWait, Protocol::GoBackN, Protocol::SelectiveRepeat];

// A packet with another number; one that was invalid stays so.
fn renumbered(mut q: Packet, n: u32) -> Packet {
    let valid = q.is_valid();
    if q.seq_num != n {
        q.seq_num = n;
        q.compute_and_set_checksum();
        if !valid {
            q.checksum ^= 1;
        }
    }
    q
}

fn raised(q: Packet, above: u64) -> Packet {
    let n = q.seq_num as u64 + above;
    renumbered(q, n as u32)
}

fn lowered(q: &Packet, above: u64) -> Packet {
    renumbered(q.clone(), (q.seq_num as u64).saturating_sub(above) as u32)
}

enum TheirSenderEnd {
    Sw(StopAndWaitSender),
    Gbn(GoBackNSender),
    Sr(SelectiveRepeatSender),
}

// The reference's numbers can't be set, and 2^32 calls take too long: here they count from `above` on, a multiple of the window.
struct TheirSender {
    end: TheirSenderEnd,
    above: u64,
}

impl TheirSender {
    fn new(p: Protocol, setting: u64) -> TheirSender {
        let end = match p {
            Protocol::StopAndWait => TheirSenderEnd::Sw(StopAndWaitSender::new(setting as u32)),
            Protocol::GoBackN => TheirSenderEnd::Gbn(GoBackNSender::new(setting as usize)),
            Protocol::SelectiveRepeat => TheirSenderEnd::Sr(SelectiveRepeatSender::new(setting as usize)),
        };
        TheirSender { end, above: 0 }
    }
    fn send(&mut self, payload: &[u8]) -> Option<Packet> {
        let sent = match &mut self.end {
            TheirSenderEnd::Sw(s) => s.send_chunk(payload.to_vec()),
            TheirSenderEnd::Gbn(s) => s.send_chunk(payload.to_vec()),
            TheirSenderEnd::Sr(s) => s.send_chunk(payload.to_vec()),
        };
        sent.map(|q| raised(q, self.above))
    }
    fn ack(&mut self, p: &Packet) -> bool {
        let p = lowered(p, self.above);
        match &mut self.end {
            TheirSenderEnd::Sw(s) => s.handle_ack(&p),
            TheirSenderEnd::Gbn(s) => s.handle_ack(&p),
            TheirSenderEnd::Sr(s) => s.handle_ack(&p),
        }
    }
    fn timeout(&mut self, which: Timeout) -> Vec<Packet> {
        let packets: Vec<Packet> = match &mut self.end {
            TheirSenderEnd::Sw(s) => s.handle_timeout().into_iter().collect(),
            TheirSenderEnd::Gbn(s) => s.handle_timeout(),
            TheirSenderEnd::Sr(s) => match which {
                Timeout::Number(n) if n >> 32 != 0 => vec![],
                Timeout::Number(n) => s.handle_timeout(n.saturating_sub(self.above) as u32).into_iter().collect(),
                _ => s.handle_timeout(s.send_base()).into_iter().collect(),
            },
        };
        packets.into_iter().map(|q| raised(q, self.above)).collect()
    }
    // as `calls::Sender::state`, without the settings
    fn numbers(&self) -> [u64; 4] {
        let [base, next, sent, again] = match &self.end {
            TheirSenderEnd::Sw(s) => [s.current_seq() as u64, s.current_seq() as u64 + s.is_waiting_for_ack() as u64, s.total_sent, s.retransmissions],
            TheirSenderEnd::Gbn(s) => [s.send_base() as u64, s.next_seq_num() as u64, s.total_sent, s.retransmissions],
            TheirSenderEnd::Sr(s) => [s.send_base() as u64, s.next_seq_num() as u64, s.total_sent, s.retransmissions],
        };
        [base + self.above, next + self.above, sent, again]
    }
    fn retries(&self) -> u64 {
        match &self.end {
            TheirSenderEnd::Sw(s) => s.current_retries() as u64,
            _ => 0,
        }
    }
    // can_send, in_flight_count, has_unacked_packets (is_waiting_for_ack)
    fn getters(&self) -> [u64; 3] {
        match &self.end {
            TheirSenderEnd::Sw(s) => [s.can_send() as u64, s.is_waiting_for_ack() as u64, s.is_waiting_for_ack() as u64],
            TheirSenderEnd::Gbn(s) => [s.can_send() as u64, s.in_flight_count() as u64, s.has_unacked_packets() as u64],
            // the reference has no has_unacked_packets here: whether a number is outstanding
            TheirSenderEnd::Sr(s) => [s.can_send() as u64, s.in_flight_count() as u64, (s.send_base() < s.next_seq_num()) as u64],
        }
    }
    fn set_counts(&mut self, sent: u64, again: u64) {
        let (a, b) = match &mut self.end {
            TheirSenderEnd::Sw(s) => (&mut s.total_sent, &mut s.retransmissions),
            TheirSenderEnd::Gbn(s) => (&mut s.total_sent, &mut s.retransmissions),
            TheirSenderEnd::Sr(s) => (&mut s.total_sent, &mut s.retransmissions),
        };
        *a = sent;
        *b = again;
    }
}

enum TheirReceiverEnd {
    Sw(StopAndWaitReceiver),
    Gbn(GoBackNReceiver),
    Sr(SelectiveRepeatReceiver),
}

struct TheirReceiver {
    end: TheirReceiverEnd,
    above: u64,
}

impl TheirReceiver {
    fn new(p: Protocol, window: u64) -> TheirReceiver {
        let end = match p {
            Protocol::StopAndWait => TheirReceiverEnd::Sw(StopAndWaitReceiver::new()),
            Protocol::GoBackN => TheirReceiverEnd::Gbn(GoBackNReceiver::new()),
            Protocol::SelectiveRepeat => TheirReceiverEnd::Sr(SelectiveRepeatReceiver::new(window as usize)),
        };
        TheirReceiver { end, above: 0 }
    }
    fn handle(&mut self, p: &Packet) -> Option<Packet> {
        let p = lowered(p, self.above);
        let reply = match &mut self.end {
            TheirReceiverEnd::Sw(r) => r.handle_packet(&p),
            TheirReceiverEnd::Gbn(r) => r.handle_packet(&p),
            TheirReceiverEnd::Sr(r) => r.handle_packet(&p),
        };
        reply.map(|q| raised(q, self.above))
    }
    fn delivered(&self) -> &[Vec<u8>] {
        match &self.end {
            TheirReceiverEnd::Sw(r) => r.delivered_chunks(),
            TheirReceiverEnd::Gbn(r) => r.delivered_chunks(),
            TheirReceiverEnd::Sr(r) => r.delivered_chunks(),
        }
    }
    fn drain(&mut self) -> Vec<u8> {
        match &mut self.end {
            TheirReceiverEnd::Sw(r) => r.drain_delivered(),
            TheirReceiverEnd::Gbn(r) => r.drain_delivered(),
            TheirReceiverEnd::Sr(r) => r.drain_delivered(),
        }
        .concat()
    }
    fn base(&self) -> u64 {
        self.above
            + match &self.end {
                TheirReceiverEnd::Sw(r) => r.expected_seq() as u64,
                TheirReceiverEnd::Gbn(r) => r.expected_seq() as u64,
                TheirReceiverEnd::Sr(r) => r.recv_base() as u64,
            }
    }
    fn counts(&mut self) -> [&mut u64; 3] {
        match &mut self.end {
            TheirReceiverEnd::Sw(r) => [&mut r.total_received, &mut r.duplicates_count, &mut r.corrupted_count],
            TheirReceiverEnd::Gbn(r) => [&mut r.total_received, &mut r.discarded_out_of_order, &mut r.duplicate_acks_sent],
            TheirReceiverEnd::Sr(r) => [&mut r.total_received, &mut r.buffered_out_of_order, &mut r.duplicates_count],
        }
    }
    fn buffered(&self) -> u64 {
        match &self.end {
            TheirReceiverEnd::Sr(r) => r.buffered_count() as u64,
            _ => 0,
        }
    }
}

// How often each thing was seen, so that a run that compares little shows.
#[derive(Default)]
struct Seen {
    calls: u64,
    refused: u64,
    sent: u64,
    full: u64,
    resent: u64,
    acknowledged: u64,
    delivered: u64,
    several: u64,
    held: u64,
    unanswered: u64,
    // drains of some bytes
    drained: u64,
    // calls with numbers near 4,294,901,760
    high: u64,
    numbers: u64,
}

// ---- document 01's table

fn slot(store: &[u8], window: u64, n: u64) -> &[u8] {
    let at = (n % window) as usize * SLOT;
    &store[at..at + SLOT]
}

fn slot_mut(store: &mut [u8], window: u64, n: u64) -> &mut [u8] {
    let at = (n % window) as usize * SLOT;
    &mut store[at..at + SLOT]
}

fn fill(store: &mut [u8], window: u64, n: u64, payload: &[u8]) {
    let s = slot_mut(store, window, n);
    s.fill(0);
    s[..2].copy_from_slice(&(payload.len() as u16).to_be_bytes());
    s[2] = 1;
    s[4..4 + payload.len()].copy_from_slice(payload);
}

fn window_bad(window: u64, store: &[u8]) -> bool {
    window < 1 || 32 < window || (store.len() as u64) < window * SLOT as u64
}

fn slot_bounds_bad(s: &[u8]) -> bool {
    1400 < u16::from_be_bytes([s[0], s[1]]) || 2 < s[2]
}

// Of words that hold a sender: Stop-and-Wait has a window of 1, and its retries have 32 bits.
fn numbers_nine(s: &Sender) -> bool {
    let [window, base, next, _, _, max, retries] = s.state;
    let words = s.protocol == Protocol::StopAndWait && (window != 1 || (max | retries) >> 32 != 0);
    words || window < 1 || 32 < window || next < base || window < next - base || LIMIT < next
}

fn sender_nine(s: &Sender) -> bool {
    let [window, base, next, ..] = s.state;
    if numbers_nine(s) || window_bad(window, &s.store) {
        return true;
    }
    (0..window).any(|k| {
        let t = slot(&s.store, window, base + k);
        let outstanding = k < next - base;
        slot_bounds_bad(t) || (t[2] != 0) != outstanding || t[2] == 2 && !(s.protocol == Protocol::SelectiveRepeat && 0 < k)
    })
}

// Of words that hold a receiver: those without a store have a window of 1.
fn receiver_nine(r: &Receiver, output: usize) -> bool {
    let [window, base, filled, ..] = r.state;
    if LIMIT < base || (output as u64) < filled {
        return true;
    }
    if r.protocol != Protocol::SelectiveRepeat {
        return window != 1;
    }
    if window_bad(window, &r.store) {
        return true;
    }
    (0..window).any(|k| {
        let t = slot(&r.store, window, base + k);
        slot_bounds_bad(t) || t[2] == 2 || k == 0 && t[2] != 0
    })
}

// lines 1, 2, 3 and 6 of a datagram, and what it reads as
fn datagram_lines(raw: &[u8]) -> (Vec<(u64, bool)>, Option<Packet>, [u64; 2]) {
    match Packet::from_bytes(raw) {
        Ok(p) => (vec![(6, 1400 < p.payload.len())], Some(p), [0, 0]),
        Err(PacketError::BufferTooShort { length }) => (vec![(1, true)], None, [length as u64, 0]),
        Err(PacketError::UnknownPacketType(b)) => (vec![(2, true)], None, [b as u64, 0]),
        Err(PacketError::TruncatedPayload { declared, available }) => (vec![(3, true)], None, [declared as u64, available as u64]),
    }
}

// the values of a refusal: those of lines 1, 2 and 3
fn refused(code: u64, values: [u64; 2]) -> Answer {
    if code <= 16 + 3 {
        [code, values[0], values[1]]
    } else {
        [code, 0, 0]
    }
}

// ---- one sender call, ours and theirs

struct SenderPair {
    ours: Sender,
    theirs: TheirSender,
    window: u64,
    // the reference has no "only the earliest": how many packets Go-Back-N sent by it, which the reference doesn't count
    extra: u64,
}

fn check_state(what: &str, p: &SenderPair, want_store: &[u8]) {
    let [base, next, sent, again] = p.theirs.numbers();
    let want = [p.window, base, next, sent + p.extra, again + p.extra, p.ours.state[5], p.theirs.retries()];
    if p.ours.state != want {
        fail(what, format!("{:?} state {:?}, expected {:?}", p.ours.protocol, p.ours.state, want));
    }
    if p.ours.store != want_store {
        let at = p.ours.store.iter().zip(want_store).position(|(a, b)| a != b);
        fail(what, format!("{:?} store differs at {:?}; state {:?}", p.ours.protocol, at, p.ours.state));
    }
}

fn length(g: &mut Gen) -> usize {
    match g.below(12) {
        0 => 0,
        1 => 1,
        2 => 1399,
        3 => 1400,
        4 => 1401,
        5 => g.below(1401) as usize,
        _ => g.below(12) as usize,
    }
}

// a lent buffer: mostly long enough, at times exactly so or one short
fn room(g: &mut Gen, need: usize) -> usize {
    match g.below(6) {
        0 => need,
        1 => need.saturating_sub(1),
        2 => g.below(need as u64 + 1) as usize,
        _ => need + g.below(20) as usize,
    }
}

// the bytes written, then the buffer as it was
fn check_buffer(what: &str, got: &[u8], before: &[u8], wrote: &[u8]) {
    if got[..wrote.len()] != *wrote || got[wrote.len()..] != before[wrote.len()..] {
        fail(what, format!("buffer {:?}, expected {:?} and then as before", &got[..wrote.len().min(40)], &wrote[..wrote.len().min(40)]));
    }
}

fn counts_bad(counts: &[u64]) -> bool {
    counts.iter().any(|&c| COUNT <= c)
}

// What a call must answer, write and leave in the store. The reference takes its step where the call isn't refused.
struct Expected {
    answer: Answer,
    wrote: Vec<u8>,
    store: Vec<u8>,
}

fn expected_refusal(code: u64, values: [u64; 2], store: &[u8]) -> Expected {
    Expected { answer: refused(code, values), wrote: vec![], store: store.to_vec() }
}

fn expected_send(before: &Sender, theirs: &mut TheirSender, payload: &[u8], room: usize) -> Expected {
    let [window, base, next, sent, again, ..] = before.state;
    let free = next.wrapping_sub(base) < window;
    let code = verdict(&[
        (9, sender_nine(before)),
        (8, counts_bad(&[sent, again])),
        (6, 1400 < payload.len()),
        (7, free && next == LIMIT),
        (5, free && room < 10 + payload.len()),
    ]);
    if code != 0 {
        return expected_refusal(code, [0, 0], &before.store);
    }
    let mut store = before.store.clone();
    let wrote = theirs.send(payload).map_or(vec![], |q| q.to_bytes());
    if wrote.is_empty() {
        return Expected { answer: [0, 0, 0], wrote, store };
    }
    fill(&mut store, window, next, payload);
    Expected { answer: [1, wrote.len() as u64, 0], wrote, store }
}

fn expected_ack(before: &Sender, theirs: &mut TheirSender, raw: &[u8]) -> Expected {
    let [window, _, _, sent, again, ..] = before.state;
    let (mut lines, packet, values) = datagram_lines(raw);
    lines.push((9, sender_nine(before)));
    lines.push((8, counts_bad(&[sent, again])));
    let code = verdict(&lines);
    if code != 0 {
        return expected_refusal(code, values, &before.store);
    }
    let packet = packet.unwrap();
    let old = theirs.numbers()[0];
    let taken = theirs.ack(&packet);
    let mut store = before.store.clone();
    if taken && before.protocol == Protocol::SelectiveRepeat {
        slot_mut(&mut store, window, packet.seq_num as u64)[2] = 2;
    }
    for n in old..theirs.numbers()[0] {
        slot_mut(&mut store, window, n).fill(0);
    }
    Expected { answer: if taken { [1, packet.seq_num as u64, 0] } else { [0, 0, 0] }, wrote: vec![], store }
}

// The numbers that a timeout sends again, and how many bytes that takes.
fn resent(before: &Sender, which: Timeout) -> (Vec<u64>, usize) {
    let [window, base, next, _, _, max, retries] = before.state;
    if sender_nine(before) {
        return (vec![], 0);
    }
    let numbers: Vec<u64> = match before.protocol {
        Protocol::StopAndWait => (base..next).filter(|_| retries < max).collect(),
        Protocol::GoBackN => (base..next).take(if which == Timeout::Earliest { 1 } else { 32 }).collect(),
        Protocol::SelectiveRepeat => {
            let number = if let Timeout::Number(n) = which { n } else { base };
            (base..next).filter(|&n| n == number && slot(&before.store, window, n)[2] != 2).collect()
        }
    };
    let need = numbers.iter().map(|&n| 10 + u16::from_be_bytes([slot(&before.store, window, n)[0], slot(&before.store, window, n)[1]]) as usize).sum();
    (numbers, need)
}

// Of Go-Back-N's earliest the reference has no call.
fn expected_timeout(before: &Sender, theirs: &mut TheirSender, which: Timeout, room: usize) -> Expected {
    let [window, _, _, sent, again, ..] = before.state;
    let (numbers, need) = resent(before, which);
    let code = verdict(&[(9, sender_nine(before)), (8, counts_bad(&[sent, again])), (5, room < need)]);
    if code != 0 {
        return expected_refusal(code, [0, 0], &before.store);
    }
    let mut store = before.store.clone();
    for &n in &numbers {
        slot_mut(&mut store, window, n)[3] |= 1;
    }
    let packets = if before.protocol == Protocol::GoBackN && which == Timeout::Earliest {
        numbers.iter().map(|&n| earliest_packet(slot(&store, window, n), n)).collect()
    } else {
        theirs.timeout(which)
    };
    let wrote: Vec<u8> = packets.iter().flat_map(|q| q.to_bytes()).collect();
    let answer = if packets.is_empty() { [0, 0, 0] } else { [1, wrote.len() as u64, 0] };
    Expected { answer, wrote, store }
}

// The reference sends the whole window again: here one of its packets.
fn earliest_packet(slot: &[u8], n: u64) -> Packet {
    let l = u16::from_be_bytes([slot[0], slot[1]]) as usize;
    let mut q = GoBackNSender::new(32).send_chunk(slot[4..4 + l].to_vec()).unwrap();
    q.seq_num = n as u32;
    q.set_retransmitted();
    q.compute_and_set_checksum();
    q
}

// Our answer, state, store and buffer against what was expected.
fn check_call(what: &str, p: &SenderPair, before: &Sender, a: Answer, e: &Expected, out: &[u8], buffer: &[u8]) {
    if a != e.answer {
        fail(what, format!("{:?} {:?} answer {a:?}, expected {:?}", before.protocol, before.state, e.answer));
    }
    check_buffer(what, out, buffer, &e.wrote);
    if a[0] < 16 {
        check_state(what, p, &e.store);
    } else if p.ours != *before {
        fail(what, format!("{:?} refused by {a:?} and changed", before.state));
    }
}

fn one_send(g: &mut Gen, p: &mut SenderPair, made: &mut Vec<Vec<u8>>, payload: &[u8], seen: &mut Seen) -> Answer {
    seen.calls += 1;
    let before = p.ours.clone();
    let n = room(g, 10 + payload.len());
    let buffer = g.bytes(n);
    let mut out = buffer.clone();
    let a = p.ours.send(payload, &mut out);
    let e = expected_send(&before, &mut p.theirs, payload, n);
    check_call("send", p, &before, a, &e, &out, &buffer);
    if a[0] == 1 {
        made.push(e.wrote);
    }
    seen.sent += (a[0] == 1) as u64;
    seen.full += (a[0] == 0) as u64;
    a
}

fn one_ack(p: &mut SenderPair, raw: &[u8], seen: &mut Seen) -> Answer {
    seen.calls += 1;
    let before = p.ours.clone();
    let a = p.ours.acknowledge(raw);
    let e = expected_ack(&before, &mut p.theirs, raw);
    check_call("ack", p, &before, a, &e, &[], &[]);
    seen.acknowledged += (a[0] == 1) as u64;
    a
}

fn one_timeout(g: &mut Gen, p: &mut SenderPair, made: &mut Vec<Vec<u8>>, which: Timeout, seen: &mut Seen) -> Answer {
    seen.calls += 1;
    let before = p.ours.clone();
    let (numbers, need) = resent(&before, which);
    let n = room(g, need);
    let buffer = g.bytes(n);
    let mut out = buffer.clone();
    let a = p.ours.timeout(which, &mut out);
    let e = expected_timeout(&before, &mut p.theirs, which, n);
    if a[0] == 1 && p.ours.protocol == Protocol::GoBackN && which == Timeout::Earliest {
        p.extra += numbers.len() as u64;
    }
    check_call("timeout", p, &before, a, &e, &out, &buffer);
    if a[0] == 1 {
        let mut wire = &e.wrote[..];
        for _ in &numbers {
            let (one, rest) = wire.split_at(10 + u16::from_be_bytes([wire[6], wire[7]]) as usize);
            made.push(one.to_vec());
            wire = rest;
        }
        seen.resent += numbers.len() as u64;
    }
    a
}

// The calls that only read, on any state: what is refused and, but where the store is broken, the reference's answers.
fn read_sender(p: &SenderPair, number: u64) {
    let s = &p.ours;
    let [window, base, next, sent, again, ..] = s.state;
    let refusal = |nine: bool| verdict(&[(9, nine), (8, counts_bad(&[sent, again]))]);
    let unless = |code: u64, value: u64| if code == 0 { [1, value, 0] } else { [code, 0, 0] };
    let (numbers, all) = (refusal(numbers_nine(s)), refusal(sender_nine(s)));
    let [can_send, in_flight, unacked] = if all == 0 { p.theirs.getters() } else { [(next.wrapping_sub(base) < window) as u64, 0, (base < next) as u64] };
    // the reference says it of no number: the flag in the slot, which check_state compares
    let again = if all != 0 { [all, 0, 0] } else if (base..next).contains(&number) { [1, slot(&s.store, window, number)[3] as u64 & 1, 0] } else { [0, 0, 0] };
    let mut got = vec![s.can_send(), s.in_flight(), s.is_retransmitted(number)];
    let mut want = vec![unless(numbers, can_send), unless(all, in_flight), again];
    // it is given no words but numbers, of 32 bits
    if s.protocol == Protocol::GoBackN && (base | next) >> 32 == 0 {
        got.push(s.has_unacked_packets());
        want.push(unless(numbers, unacked));
    }
    if got != want {
        fail("getters", format!("{:?} {:?} answers {got:?}, expected {want:?}", s.protocol, s.state));
    }
}

// ---- one receiver call

struct ReceiverPair {
    ours: Receiver,
    theirs: TheirReceiver,
    output: Vec<u8>,
    made: Vec<Vec<u8>>,
}

// The reference takes its step where the packet isn't refused. delivered: the bytes for the output.
struct ExpectedPacket {
    answer: Answer,
    ack: Vec<u8>,
    delivered: Vec<u8>,
    store: Vec<u8>,
}

fn expected_packet(before: &Receiver, theirs: &mut TheirReceiver, raw: &[u8], output: usize, room: usize) -> ExpectedPacket {
    let [window, base, filled, c0, c1, c2] = before.state;
    let selective = before.protocol == Protocol::SelectiveRepeat;
    let (mut lines, packet, values) = datagram_lines(raw);
    let nine = receiver_nine(before, output);
    lines.push((9, nine));
    lines.push((8, counts_bad(&[c0, c1, c2])));
    let valid = packet.as_ref().is_some_and(|q| q.is_valid());
    let data = packet.as_ref().filter(|q| valid && q.pkt_type == PacketType::Data);
    lines.push((7, data.is_some_and(|q| LIMIT <= q.seq_num as u64)));
    // what the call would deliver, and whether it would answer
    let mut delivers = vec![];
    let mut held = vec![];
    let mut answers = packet.as_ref().is_some_and(|q| valid && q.pkt_type == PacketType::Fin);
    if let (false, Some(q)) = (nine, data) {
        let n = q.seq_num as u64;
        if n == base {
            delivers = q.payload.clone();
            let mut m = base + 1;
            while selective && m < base + window && slot(&before.store, window, m)[2] == 1 {
                let s = slot(&before.store, window, m);
                delivers.extend_from_slice(&s[4..4 + u16::from_be_bytes([s[0], s[1]]) as usize]);
                held.push(m);
                m += 1;
            }
        }
        answers = match before.protocol {
            Protocol::StopAndWait => true,
            Protocol::GoBackN => n == base || 0 < base,
            Protocol::SelectiveRepeat => base.saturating_sub(window) <= n && n < base + window,
        };
    }
    lines.push((5, !nine && ((output as u64 - filled) < delivers.len() as u64 || answers && room < 10)));
    let code = verdict(&lines);
    if code != 0 {
        return ExpectedPacket { answer: refused(code, values), ack: vec![], delivered: vec![], store: before.store.clone() };
    }
    let packet = packet.unwrap();
    let delivered = theirs.delivered().len();
    let buffered = theirs.buffered();
    let reply = theirs.handle(&packet);
    if theirs.delivered()[delivered..].concat() != delivers {
        fail("the model's delivery", format!("{:?} {:?} {packet:?}", before.protocol, before.state));
    }
    let mut store = before.store.clone();
    for m in held {
        slot_mut(&mut store, window, m).fill(0);
    }
    if selective && buffered < theirs.buffered() {
        fill(&mut store, window, packet.seq_num as u64, &packet.payload);
    }
    let answer = reply.as_ref().map_or([0, 0, 0], |q| [1, q.seq_num as u64, 0]);
    ExpectedPacket { answer, ack: reply.map_or(vec![], |q| q.to_bytes()), delivered: delivers, store }
}

fn one_packet(g: &mut Gen, p: &mut ReceiverPair, raw: &[u8], seen: &mut Seen) -> Answer {
    seen.calls += 1;
    let before = p.ours.clone();
    let [window, _, filled, ..] = before.state;
    let n = if g.below(12) == 0 { g.below(10) as usize } else { 10 + g.below(3) as usize };
    let buffer = g.bytes(n);
    let mut ack = buffer.clone();
    let mut output = p.output.clone();
    let a = p.ours.receive(raw, &mut output, &mut ack);
    let delivered = p.theirs.delivered().len();
    let buffered = p.theirs.buffered();
    let e = expected_packet(&before, &mut p.theirs, raw, output.len(), n);
    let shown = || format!("{:?} {:?} raw {:?} answer {a:?}, expected {:?}", before.protocol, before.state, &raw[..raw.len().min(12)], e.answer);
    if a != e.answer {
        fail("packet", shown());
    }
    check_buffer("ACK", &ack, &buffer, &e.ack);
    if 16 <= a[0] {
        if p.ours != before || output != p.output {
            fail("packet refused", shown());
        }
        return a;
    }
    if !e.ack.is_empty() {
        p.made.push(e.ack.clone());
    }
    seen.delivered += (p.theirs.delivered().len() - delivered) as u64;
    seen.several += (p.theirs.delivered().len() > delivered + 1) as u64;
    seen.held += (buffered < p.theirs.buffered()) as u64;
    seen.unanswered += (a[0] == 0) as u64;
    p.output[filled as usize..filled as usize + e.delivered.len()].copy_from_slice(&e.delivered);
    if output != p.output {
        fail("output", shown());
    }
    let counts = p.theirs.counts().map(|c| *c);
    let want = [window, p.theirs.base(), filled + e.delivered.len() as u64, counts[0], counts[1], counts[2]];
    if p.ours.state != want || p.ours.store != e.store {
        fail("receiver state", format!("{} state {:?}, expected {want:?}", shown(), p.ours.state));
    }
    read_receiver(p);
    a
}

// On any state; no output is lent, so that the fill mark may be anything.
fn read_receiver(p: &ReceiverPair) {
    let code = verdict(&[(9, receiver_nine(&p.ours, usize::MAX)), (8, counts_bad(&p.ours.state[3..]))]);
    let (got, want) = (p.ours.buffered_count(), if code != 0 { [code, 0, 0] } else { [1, p.theirs.buffered(), 0] });
    if got != want {
        fail("buffered_count", format!("{:?} {:?} answer {got:?}, expected {want:?}", p.ours.protocol, p.ours.state));
    }
}

// The bytes up to the fill mark are what the reference drains; the mark is 0 then, and nothing else changes.
fn one_drain(p: &mut ReceiverPair, seen: &mut Seen) -> Answer {
    seen.calls += 1;
    let before = p.ours.clone();
    let filled = before.state[2];
    let code = verdict(&[(9, receiver_nine(&before, p.output.len())), (8, counts_bad(&before.state[3..]))]);
    let mut want = before.clone();
    let a = p.ours.drain(&p.output);
    let expected = if code != 0 { [code, 0, 0] } else { [1, filled, 0] };
    if code == 0 {
        want.state[2] = 0;
        if p.theirs.drain() != p.output[..filled as usize] {
            fail("drained bytes", format!("{before:?}"));
        }
        seen.drained += (0 < filled) as u64;
    }
    if a != expected || p.ours != want {
        fail("drain", format!("{:?} {:?} answer {a:?}, expected {expected:?}; then {:?}", before.protocol, before.state, p.ours.state));
    }
    a
}

// ---- datagrams, from copies to noise

fn flipped(g: &mut Gen, mut raw: Vec<u8>) -> Vec<u8> {
    if !raw.is_empty() {
        let i = g.below(raw.len() as u64) as usize;
        raw[i] ^= 1 << g.below(8);
    }
    raw
}

fn made_packet(g: &mut Gen, p: PacketType, n: u32) -> Vec<u8> {
    let payload = if p == PacketType::Ack && g.below(3) != 0 {
        vec![]
    } else {
        let n = length(g);
        g.bytes(n)
    };
    let mut q = match p {
        PacketType::Data => Packet::new_data(n, payload),
        PacketType::Ack => Packet::new_ack(n),
        PacketType::Fin => Packet::new_fin(n),
    };
    if g.below(4) == 0 {
        q.flags = g.next() as u8;
    }
    q.compute_and_set_checksum();
    q.to_bytes()
}

// A copy of what was made, most often; else damaged, cut, prolonged, made up near the numbers in use, or noise.
fn handed(g: &mut Gen, made: &[Vec<u8>], near: u64, window: u64) -> Vec<u8> {
    let copy = |g: &mut Gen| -> Vec<u8> {
        if made.is_empty() {
            return vec![];
        }
        let last = made.len() as u64;
        let back = if g.below(3) == 0 { g.below(last) } else { g.below(last.min(2 * window + 1)) };
        made[(last - 1 - back) as usize].clone()
    };
    match g.below(16) {
        0 => {
            let raw = copy(g);
            flipped(g, raw)
        }
        1 => {
            let mut raw = copy(g);
            raw.truncate(g.below(raw.len() as u64 + 1) as usize);
            raw
        }
        2 => {
            let mut raw = copy(g);
            let n = g.below(8) as usize;
            raw.extend(g.bytes(n));
            raw
        }
        3 => {
            let n = g.below(40) as usize;
            let mut raw = g.bytes(n);
            if 4 < raw.len() && g.below(2) == 0 {
                raw[4] = 1 + g.below(3) as u8;
            }
            raw
        }
        4 | 5 | 6 => {
            let p = [PacketType::Data, PacketType::Ack, PacketType::Fin][g.below(3) as usize];
            let n = (near + g.below(3 * window + 3)).saturating_sub(window + window / 2 + 1);
            made_packet(g, p, n as u32)
        }
        7 if g.below(4) == 0 => {
            let p = [PacketType::Data, PacketType::Ack, PacketType::Fin][g.below(3) as usize];
            let n = [LIMIT - 1, LIMIT, LIMIT + 1, u32::MAX as u64][g.below(4) as usize];
            made_packet(g, p, n as u32)
        }
        _ => copy(g),
    }
}

fn window_for(g: &mut Gen, p: Protocol) -> u64 {
    if p == Protocol::StopAndWait {
        return 1;
    }
    match g.below(4) {
        0 => 1,
        1 => 32,
        _ => 1 + g.below(32),
    }
}

fn new_pair(g: &mut Gen, protocol: Protocol) -> (SenderPair, ReceiverPair) {
    let window = window_for(g, protocol);
    let retries = [0, 1, 3, u32::MAX as u64][g.below(4) as usize];
    let setting = if protocol == Protocol::StopAndWait { retries } else { window };
    // Stop-and-Wait runs with a window of 1, whichever is asked for
    let asked = if protocol == Protocol::StopAndWait { 1 + g.below(32) } else { window };
    let spare = g.below(3) as usize;
    let dirty = g.bytes(window as usize * SLOT + spare);
    let mut clean = dirty.clone();
    clean[..window as usize * SLOT].fill(0);
    let (ours, a) = Sender::new(protocol, asked, retries, dirty.clone());
    if a != [1, 0, 0] || ours.store != clean || ours.state[5] != if protocol == Protocol::StopAndWait { retries } else { 0 } {
        fail("new sender", format!("{protocol:?} {asked} {retries} answer {a:?} {:?}", ours.state));
    }
    let s = SenderPair { ours, theirs: TheirSender::new(protocol, setting), window, extra: 0 };
    check_state("new sender", &s, &clean);
    let (ours, a) = Receiver::new(protocol, asked, dirty.clone());
    let (kept, held) = if protocol == Protocol::SelectiveRepeat { (clean, window) } else { (dirty, 1) };
    if a != [1, 0, 0] || ours.store != kept || ours.state != [held, 0, 0, 0, 0, 0] {
        fail("new receiver", format!("{protocol:?} {window} answer {a:?} {:?}", ours.state));
    }
    let n = [0, 20, 3000, 60000][g.below(4) as usize];
    let output = g.bytes(n);
    (s, ReceiverPair { ours, theirs: TheirReceiver::new(protocol, window), output, made: vec![] })
}

// Both ends moved on past the first numbers, and then all numbers raised, by a multiple of the window, so that slots stay where they are, to just
// below the limit; the reference's are raised in what is compared.
fn near_limit(g: &mut Gen, s: &mut SenderPair, r: &mut ReceiverPair, made: &mut Vec<Vec<u8>>, seen: &mut Seen) {
    while r.ours.state[1] < 3 * s.window || s.ours.state[1] < 3 * s.window {
        one_send(g, s, made, &[], seen);
        if let Some(raw) = made.get(r.ours.state[1] as usize).cloned() {
            one_packet(g, r, &raw, seen);
        }
        if let Some(raw) = r.made.last().cloned() {
            one_ack(s, &raw, seen);
        }
    }
    let above = (LIMIT - s.ours.state[2] - g.below(2 * s.window + 8)) / s.window * s.window;
    s.ours.state[1] += above;
    s.ours.state[2] += above;
    s.theirs.above = above;
    r.ours.state[1] += above;
    r.theirs.above = above;
    for raw in made.iter_mut().chain(&mut r.made) {
        *raw = raised(Packet::from_bytes(raw).unwrap(), above).to_bytes();
    }
}

// Random calls on both ends, joined by a line that does as it likes.
fn runs(g: &mut Gen, seen: &mut Seen) {
    let protocol = PROTOCOLS[g.below(3) as usize];
    let (mut s, mut r) = new_pair(g, protocol);
    let mut made = vec![];
    let high = g.below(4) == 0;
    if high {
        near_limit(g, &mut s, &mut r, &mut made, seen);
    } else if g.below(8) == 0 {
        // counters near 2^60
        let (a, b) = (COUNT - g.below(6), COUNT - g.below(6));
        s.theirs.set_counts(a, b);
        s.ours.state[3] = a;
        s.ours.state[4] = b;
        for i in 0..3 {
            let c = COUNT - g.below(6);
            *r.theirs.counts()[i] = c;
            r.ours.state[3 + i] = c;
        }
    }
    for _ in 0..40 + g.below(100) {
        seen.high += high as u64;
        if g.below(32) == 0 {
            one_drain(&mut r, seen);
        }
        let a = match g.below(8) {
            0 | 1 => {
                let n = length(g);
                let payload = g.bytes(n);
                one_send(g, &mut s, &mut made, &payload, seen)
            }
            2 => {
                // Go-Back-N's "earliest" leaves the reference's flags behind, so no whole timeout follows it
                let near = (s.ours.state[1] + g.below(s.window + 2)).saturating_sub(1);
                let which = match (protocol, g.below(16)) {
                    (Protocol::GoBackN, _) if 0 < s.extra => Timeout::Earliest,
                    (_, 0) => Timeout::Earliest,
                    (Protocol::GoBackN, 1) => Timeout::Number(g.next()),
                    (Protocol::GoBackN, 2..=10) | (_, 1) => Timeout::All,
                    (_, 2) => Timeout::Number(near + (1 << (32 + g.below(32)))),
                    _ => Timeout::Number(near),
                };
                one_timeout(g, &mut s, &mut made, which, seen)
            }
            3 | 4 => {
                let raw = handed(g, &r.made, s.ours.state[1], s.window);
                one_ack(&mut s, &raw, seen)
            }
            _ => {
                let raw = handed(g, &made, r.ours.state[1], s.window);
                one_packet(g, &mut r, &raw, seen)
            }
        };
        seen.refused += (16 <= a[0]) as u64;
        seen.numbers += (a[0] == 16 + 7) as u64;
        let number = (s.ours.state[1] + g.below(s.window + 2)).saturating_sub(1) + if g.below(8) == 0 { 1 << (32 + g.below(32)) } else { 0 };
        read_sender(&s, number);
    }
}

// States and stores that are out of bounds in one place: turned away by every call, with nothing changed.
fn broken_states(g: &mut Gen, seen: &mut Seen) {
    let protocol = PROTOCOLS[g.below(3) as usize];
    let (mut s, mut r) = new_pair(g, protocol);
    let mut made = vec![];
    for _ in 0..g.below(60) {
        let n = g.below(8) as usize;
        let payload = g.bytes(n);
        one_send(g, &mut s, &mut made, &payload, seen);
        if !made.is_empty() {
            let raw = made[g.below(made.len() as u64) as usize].clone();
            one_packet(g, &mut r, &raw, seen);
        }
        if !r.made.is_empty() && g.below(2) == 0 {
            let raw = r.made[g.below(r.made.len() as u64) as usize].clone();
            one_ack(&mut s, &raw, seen);
        }
    }
    let window = s.window;
    let mut t = s.ours.clone();
    let mut q = r.ours.clone();
    let mut output = r.output.clone();
    // whatever the model says of them
    let (mut sender_broken, mut receiver_broken) = (false, false);
    match g.below(10) {
        0 => {
            (sender_broken, receiver_broken) = (true, true);
            t.state[0] = [0, 33, u64::MAX, window + 1][g.below(4) as usize];
            q.state[0] = t.state[0];
        }
        1 => {
            t.store.truncate(window as usize * SLOT - 1);
            q.store.truncate(window as usize * SLOT - 1);
        }
        2 => t.state[1 + g.below(2) as usize] += 1 + g.below(40),
        3 => {
            (sender_broken, receiver_broken) = (true, true);
            // a number above its limit, or above 32 bits with those that were in its lower ones
            let above = [LIMIT + 1 - t.state[1], LIMIT + 1, 1 << 32, 1 << 63][g.below(4) as usize];
            t.state[1] += above;
            t.state[2] += above;
            q.state[1] += above.max(LIMIT + 1);
        }
        4 => {
            receiver_broken = true;
            q.state[2] = output.len() as u64 + 1;
        }
        5 => t.state[3 + g.below(2) as usize] = COUNT + g.below(2),
        6 => q.state[3 + g.below(3) as usize] = COUNT + g.below(2),
        7 => {
            output.truncate(q.state[2] as usize);
            sender_broken = protocol == Protocol::StopAndWait;
            t.state[5 + g.below(2) as usize] |= 1 << (32 + g.below(32));
        }
        _ => {
            let at = g.below(window) as usize * SLOT + g.below(4) as usize;
            let b = [0, 1, 2, 3, 5, 6, 255][g.below(7) as usize];
            t.store[at] = b;
            if protocol == Protocol::SelectiveRepeat {
                q.store[at] = b;
            }
        }
    }
    if sender_broken || sender_nine(&t) || counts_bad(&t.state[3..5]) {
        let mut p = SenderPair { ours: t, theirs: TheirSender::new(protocol, 1), window, extra: 0 };
        let payload = g.bytes(3);
        read_sender(&p, g.below(3));
        for a in [
            one_send(g, &mut p, &mut made, &payload, seen),
            one_ack(&mut p, &made_packet(&mut Gen(1), PacketType::Ack, 0), seen),
            one_timeout(g, &mut p, &mut vec![], Timeout::Number(0), seen),
            one_timeout(g, &mut p, &mut vec![], Timeout::All, seen),
            one_timeout(g, &mut p, &mut vec![], Timeout::Earliest, seen),
        ] {
            seen.refused += 1;
            if a[0] < 16 {
                fail("broken sender", format!("{:?} answer {a:?}", p.ours.state));
            }
        }
    }
    if receiver_broken || receiver_nine(&q, output.len()) || counts_bad(&q.state[3..]) {
        let mut p = ReceiverPair { ours: q, theirs: TheirReceiver::new(protocol, window), output, made: vec![] };
        // its own 9 and 8; where the fill mark or the output is broken alone, the reference's count would be of another state
        if receiver_nine(&p.ours, usize::MAX) || counts_bad(&p.ours.state[3..]) {
            read_receiver(&p);
        }
        for a in [one_packet(g, &mut p, &made_packet(&mut Gen(2), PacketType::Data, 0), seen), one_drain(&mut p, seen)] {
            seen.refused += 1;
            if a[0] < 16 {
                fail("broken receiver", format!("{:?} answer {a:?}", p.ours.state));
            }
        }
    }
}

// Makings: 4 for a protocol that isn't known; then 9 for a short store, 4 for the window or the retries, 5 for too few words.
fn makings(g: &mut Gen, seen: &mut Seen) {
    let protocol = [0, 1, 1, 2, 2, 3, 3, 3, 4, u64::MAX][g.below(10) as usize];
    let window = [0, 1, 2, 32, 33, u64::MAX, u64::MAX / 1404 + 1][g.below(7) as usize];
    let retries = [0, 3, u32::MAX as u64, 1 << 32, u64::MAX][g.below(5) as usize];
    let words = [0, 7, 8, 8, 8, 9][g.below(6) as usize];
    let n = [0, 1, 1403, 1404, 2 * 1404, 32 * 1404 - 1, 32 * 1404, 33 * 1404][g.below(8) as usize];
    let store = g.bytes(n);
    let known = (1..=3).contains(&protocol);
    let code = |sized: u64, retries: u64| match known {
        true => verdict(&[(9, ((n / SLOT) as u64) < sized), (4, window < 1 || 32 < window || retries >> 32 != 0), (5, words < 8)]),
        false => 16 + 4,
    };
    let sender = code(if protocol == 1 { 1 } else { window }, retries);
    let receiver = code(if protocol == 3 { window } else { 0 }, 0);
    let (mut sent, mut held) = (store.clone(), store.clone());
    let made = [Sender::make(protocol, window, retries, words, &mut sent), Receiver::make(protocol, window, words, &mut held)];
    let cleared = |slots: u64| {
        let mut s = store.clone();
        s[..slots as usize * SLOT].fill(0);
        s
    };
    let slots = [if protocol == 1 { 1 } else { window }, if protocol == 3 { window } else { 0 }];
    let after = [sent, held];
    for (i, want) in [sender, receiver].into_iter().enumerate() {
        let good = if want == 0 { after[i] == cleared(slots[i]) } else { after[i] == store };
        if made[i].1 != if want == 0 { [1, 0, 0] } else { [want, 0, 0] } || !good {
            fail(["new sender", "new receiver"][i], format!("protocol {protocol} window {window} retries {retries} words {words} store {n}: {:?}, expected {want}", made[i].1));
        }
        seen.refused += (want != 0) as u64;
    }
}

// ---- cases for crates/arq_replay: see the head of its source

const GUARD: u8 = 0xA5;

fn answer_text(a: Answer, nothing: &str, done: impl FnOnce(u64) -> String) -> String {
    match a {
        [0, ..] => format!(" {nothing}"),
        [1, n, _] => done(n),
        [code, x, y] => format!(" refused {}", code - 16) + &numbers(&[x, y][..match code - 16 { 1 | 2 => 1, 3 => 2, _ => 0 }]),
    }
}

// The buffer after a call that wrote these bytes.
fn buffer_text(wrote: &[u8], room: usize) -> String {
    let mut out = wrote.to_vec();
    out.resize(room, GUARD);
    shown(&out)
}

fn slots_text(store: &[u8]) -> String {
    let slot_text = |s: &[u8]| {
        let n = u16::from_be_bytes([s[0], s[1]]) as usize;
        shown(&s[..if n <= 1400 { 4 + n } else { 4 }])
    };
    store.chunks_exact(SLOT).map(slot_text).collect::<String>() + &crc(store)
}

// The ends as the replay has them: the reference's, and the states, stores and output that document 01 gives them.
struct Replayed {
    s: Sender,
    their_sender: TheirSender,
    r: Receiver,
    their_receiver: TheirReceiver,
    output: Vec<u8>,
    // datagrams and ACKs that were made
    made: Vec<Vec<u8>>,
    acks: Vec<Vec<u8>>,
}

impl Replayed {
    fn sender_text(&mut self, e: Expected, nothing: &str, accepted: &str, room: Option<usize>) -> String {
        let answer = answer_text(e.answer, nothing, |n| if accepted.is_empty() { format!(" {n}") } else { format!(" {accepted}") });
        if e.answer[0] < 16 {
            let [base, next, sent, again] = self.their_sender.numbers();
            let [window, .., max, _] = self.s.state;
            self.s.state = [window, base, next, sent, again, max, self.their_sender.retries()];
            self.s.store = e.store;
        }
        let [_, base, next, sent, again, _, retries] = self.s.state;
        answer + &room.map_or(String::new(), |n| buffer_text(&e.wrote, n)) + &numbers(&[base, next, sent, again, retries])
    }
    fn send(&mut self, g: &mut Gen, cases: &mut Cases) {
        let n = case_length(g);
        let payload = g.bytes(n);
        let room = room(g, 10 + n);
        let e = expected_send(&self.s, &mut self.their_sender, &payload, room);
        if e.answer[0] == 1 {
            self.made.push(e.wrote.clone());
        }
        cases.case(format!("s {room}{}", given(&payload)), self.sender_text(e, "full", "", Some(room)));
    }
    fn timeout(&mut self, g: &mut Gen, cases: &mut Cases) {
        let [window, base, ..] = self.s.state;
        // of Go-Back-N always all: the number is passed over
        let number = if self.s.protocol == Protocol::GoBackN { 0 } else { (base + g.below(window + 1)).saturating_sub(g.below(8) / 7) };
        let (_, need) = resent(&self.s, Timeout::Number(number));
        let room = room(g, need);
        let e = expected_timeout(&self.s, &mut self.their_sender, Timeout::Number(number), room);
        cases.case(format!("o {number} {room}"), self.sender_text(e, "none", "", Some(room)));
    }
    fn ack(&mut self, g: &mut Gen, cases: &mut Cases) {
        let [window, base, ..] = self.s.state;
        let last = self.acks.last().filter(|_| g.below(2) == 0).cloned();
        let raw = last.unwrap_or_else(|| handed(g, &self.acks, base, window));
        let e = expected_ack(&self.s, &mut self.their_sender, &raw);
        cases.case("a".to_string() + &given(&raw), self.sender_text(e, "ignored", "accepted", None));
    }
    fn packet(&mut self, g: &mut Gen, cases: &mut Cases) {
        let [window, base, filled, ..] = self.r.state;
        let due = self.made.iter().rev().find(|m| m[..4] == (base as u32).to_be_bytes()).filter(|_| g.below(3) == 0).cloned();
        let raw = due.unwrap_or_else(|| handed(g, &self.made, base, self.s.state[0]));
        let room = if g.below(12) == 0 { g.below(10) as usize } else { 10 + g.below(3) as usize };
        let e = expected_packet(&self.r, &mut self.their_receiver, &raw, self.output.len(), room);
        if e.answer[0] < 16 {
            let at = filled as usize;
            self.output[at..at + e.delivered.len()].copy_from_slice(&e.delivered);
            let [a, b, c] = self.their_receiver.counts().map(|c| *c);
            self.r.state = [window, self.their_receiver.base(), filled + e.delivered.len() as u64, a, b, c];
            self.r.store = e.store;
            self.acks.extend((!e.ack.is_empty()).then_some(e.ack.clone()));
        }
        let answer = answer_text(e.answer, "none", |n| format!(" {n}")) + &buffer_text(&e.ack, room);
        cases.case(format!("p {room}{}", given(&raw)), answer + &numbers(&self.r.state[1..]) + &shown(&e.delivered) + &crc(&self.output));
    }
    fn read(&mut self, cases: &mut Cases) {
        let [can_send, in_flight, unacked] = self.their_sender.getters();
        let sender = match self.s.protocol {
            Protocol::StopAndWait => numbers(&[can_send, unacked]),
            Protocol::GoBackN => numbers(&[can_send, in_flight, unacked]),
            Protocol::SelectiveRepeat => numbers(&[can_send, in_flight]),
        };
        let buffered = if self.s.protocol == Protocol::SelectiveRepeat { numbers(&[self.their_receiver.buffered()]) } else { String::new() };
        cases.case("q".to_string(), sender + &buffered);
    }
    fn dump(&self, cases: &mut Cases) {
        cases.case("d".to_string(), slots_text(&self.s.store) + &slots_text(&self.r.store));
    }
    fn call(&mut self, g: &mut Gen, cases: &mut Cases) {
        let [window, base, next, ..] = self.s.state;
        match g.below(20) {
            0..=6 if next - base < window || g.below(4) == 0 => self.send(g, cases),
            7..=9 => self.timeout(g, cases),
            10..=13 if !self.acks.is_empty() => self.ack(g, cases),
            14 => self.read(cases),
            _ => self.packet(g, cases),
        }
    }
    fn set_sender(&self, cases: &mut Cases) {
        cases.case("i".to_string() + &numbers(&self.s.state[1..5]), String::new());
    }
    fn set_receiver(&self, cases: &mut Cases) {
        cases.case("j".to_string() + &numbers(&self.r.state[1..]), String::new());
    }
    // All numbers raised by a multiple of the window, to just below the limit.
    fn raise(&mut self, g: &mut Gen, cases: &mut Cases) {
        let window = self.s.state[0];
        let above = (LIMIT - self.s.state[2].max(self.r.state[1]) - g.below(window + 3)) / window * window;
        self.their_sender.above = above;
        self.their_receiver.above = above;
        self.s.state[1] += above;
        self.s.state[2] += above;
        self.r.state[1] += above;
        for raw in self.made.iter_mut().chain(&mut self.acks) {
            *raw = raised(Packet::from_bytes(raw).unwrap(), above).to_bytes();
        }
        self.set_sender(cases);
        self.set_receiver(cases);
    }
    // A state or a store that is out of bounds in one place: every call is refused. Then it is mended.
    fn broken_sender(&mut self, g: &mut Gen, cases: &mut Cases) {
        let good = self.s.clone();
        let window = good.state[0];
        let at = g.below(window) as usize * SLOT + g.below(3) as usize;
        match g.below(4) {
            0 => self.s.state[3 + g.below(2) as usize] = COUNT + g.below(2),
            1 => (self.s.state[1], self.s.state[2]) = (LIMIT + 1, LIMIT + 1),
            2 if self.s.protocol != Protocol::StopAndWait => self.s.state[1 + g.below(2) as usize] += 1 + g.below(40),
            _ => self.s.store[at] = [0, 1, 2, 3, 6, 255][g.below(6) as usize],
        }
        if !sender_nine(&self.s) && !counts_bad(&self.s.state[3..5]) {
            self.s = good;
            return;
        }
        let byte = |s: &Sender| format!("k {at} {}", s.store[at]);
        if self.s.store != good.store {
            cases.case(byte(&self.s), String::new());
        }
        self.set_sender(cases);
        self.send(g, cases);
        self.ack(g, cases);
        self.timeout(g, cases);
        self.s = good;
        cases.case(byte(&self.s), String::new());
        self.set_sender(cases);
    }
    fn broken_receiver(&mut self, g: &mut Gen, cases: &mut Cases) {
        let good = self.r.clone();
        let window = good.state[0];
        let selective = self.r.protocol == Protocol::SelectiveRepeat;
        let at = if selective { g.below(window) as usize * SLOT + g.below(3) as usize } else { 0 };
        match g.below(5) {
            0 => self.r.state[3 + g.below(3) as usize] = COUNT + g.below(2),
            1 => self.r.state[1] = LIMIT + 1,
            2 => self.r.state[2] = self.output.len() as u64 + 1,
            _ if selective => self.r.store[at] = [1, 2, 3, 6, 255][g.below(5) as usize],
            _ => {}
        }
        if !receiver_nine(&self.r, self.output.len()) && !counts_bad(&self.r.state[3..]) {
            self.r = good;
            return;
        }
        let byte = |r: &Receiver| format!("l {at} {}", r.store[at]);
        if self.r.store != good.store {
            cases.case(byte(&self.r), String::new());
        }
        self.set_receiver(cases);
        for _ in 0..3 {
            self.packet(g, cases);
        }
        self.r = good;
        if selective {
            cases.case(byte(&self.r), String::new());
        }
        self.set_receiver(cases);
    }
}

// Mostly short, so that the lists stay so.
fn case_length(g: &mut Gen) -> usize {
    match g.below(40) {
        0 => 1399,
        1 => 1400,
        2 => 1401,
        3 => g.below(1401) as usize,
        4 | 5 => 0,
        _ => g.below(20) as usize,
    }
}

fn new_replayed(g: &mut Gen, protocol: Protocol, window: u64, retries: u64, cases: &mut Cases) -> Replayed {
    let sized = if protocol == Protocol::StopAndWait { 1 } else { window as usize };
    let store = |g: &mut Gen| vec![GUARD; sized * SLOT + g.below(3) as usize];
    let (mut sent, mut held) = (store(g), store(g));
    let output = vec![GUARD; [60, 700, 4000][g.below(3) as usize]];
    cases.case(format!("n {} {window} {retries} {} {} {}", protocol as u64, sent.len(), held.len(), output.len()), " made made".to_string());
    sent[..sized * SLOT].fill(0);
    if protocol == Protocol::SelectiveRepeat {
        held[..sized * SLOT].fill(0);
    }
    let setting = if protocol == Protocol::StopAndWait { retries } else { window };
    let retries = if protocol == Protocol::StopAndWait { retries } else { 0 };
    Replayed {
        s: Sender { protocol, state: [sized as u64, 0, 0, 0, 0, retries, 0], store: sent },
        their_sender: TheirSender::new(protocol, setting),
        r: Receiver { protocol, state: [if protocol == Protocol::SelectiveRepeat { sized as u64 } else { 1 }, 0, 0, 0, 0, 0], store: held },
        their_receiver: TheirReceiver::new(protocol, sized as u64),
        output,
        made: vec![],
        acks: vec![],
    }
}

// Ends made with stores of these lengths, or turned away: 9 for a short store, then 4 for the window.
fn sample_making(protocol: Protocol, window: u64, sent: u64, held: u64, cases: &mut Cases) {
    let sized = if protocol == Protocol::StopAndWait { 1 } else { window };
    let code = |n: u64| match verdict(&[(9, n / (SLOT as u64) < sized), (4, sized < 1 || 32 < sized)]) {
        0 => " made".to_string(),
        v => format!(" refused {}", v - 16),
    };
    let receiver = if protocol == Protocol::SelectiveRepeat { code(held) } else { " made".to_string() };
    cases.case(format!("n {} {window} 3 {sent} {held} 0", protocol as u64), code(sent) + &receiver);
}

// The edges of both, and some more.
fn sample_makings(g: &mut Gen, cases: &mut Cases) {
    let slot = SLOT as u64;
    for protocol in PROTOCOLS {
        for (window, n) in [(0, slot), (1, slot - 1), (1, slot), (32, 32 * slot - 1), (32, 32 * slot), (33, 33 * slot - 1), (33, 33 * slot)] {
            sample_making(protocol, window, n, n, cases);
        }
        for _ in 0..4 {
            let window = [0, 1, 2, 32, 33, u64::MAX, u64::MAX / 1404 + 1][g.below(7) as usize];
            let n = |g: &mut Gen| [0, 1, 1403, 1404, 2 * 1404, 32 * 1404 - 1, 32 * 1404, 33 * 1404][g.below(8) as usize];
            let (sent, held) = (n(g), n(g));
            sample_making(protocol, window, sent, held, cases);
        }
    }
}

fn sample(dir: &str, seed: u64) {
    let mut g = Gen(seed);
    let mut cases = Cases::new("arq", seed);
    sample_makings(&mut g, &mut cases);
    let setups = [(0, 1, 0), (0, 1, 1), (0, 9, 3), (0, 0, 4294967295), (1, 1, 0), (1, 2, 0), (1, 4, 7), (1, 32, 0), (2, 1, 0), (2, 3, 0), (2, 4, 0), (2, 8, 0), (2, 32, 0)];
    for (protocol, window, retries) in setups {
        let mut t = new_replayed(&mut g, PROTOCOLS[protocol], window, retries, &mut cases);
        for k in 0..64 {
            t.call(&mut g, &mut cases);
            match k {
                14 | 40 | 60 => t.broken_sender(&mut g, &mut cases),
                15 | 41 | 61 => t.broken_receiver(&mut g, &mut cases),
                24 => t.dump(&mut cases),
                48 if 0 < t.s.state[1] && t.s.state[0] < t.r.state[1] => t.raise(&mut g, &mut cases),
                _ => {}
            }
        }
        t.dump(&mut cases);
    }
    cases.save(dir);
}

fn main() {
    let args: Vec<String> = std::env::args().collect();
    let seconds: f64 = args.get(1).and_then(|s| s.parse().ok()).unwrap_or(5.0);
    if let Some(i) = args.iter().position(|a| a == "--sample") {
        sample(&args[i + 1], args.get(i + 2).map_or(105, |s| s.parse().expect("SEED")));
        return;
    }
    let mut g = Gen(std::env::var("SEED").ok().and_then(|s| s.parse().ok()).unwrap_or(1));
    let start = Instant::now();
    let mut seen = Seen::default();
    while start.elapsed().as_secs_f64() < seconds {
        for _ in 0..20 {
            runs(&mut g, &mut seen);
            broken_states(&mut g, &mut seen);
            makings(&mut g, &mut seen);
        }
    }
    let Seen { calls, refused, sent, full, resent, acknowledged, delivered, several, held, unanswered, drained, high, numbers } = seen;
    println!("arq: no difference; {calls} calls, {refused} refused; {sent} chunks sent, {full} full windows, {resent} sent again, {acknowledged} ACKs accepted; {delivered} delivered, {several} times several at once, {held} held, {unanswered} packets unanswered, {drained} drains; {high} calls near {LIMIT}, {numbers} of all refused by 7");
}
