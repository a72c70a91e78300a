// Compares the packet layer with the reference's packet.rs: the exports for hosts and, of what hosts don't have, those of crates/bench_ffi.
// usage: packet SECONDS [SEED]      compares for about that long; exit status 1 at the first difference
//        packet --sample DIR [SEED] writes DIR/stdin (cases) and DIR/stdout (the reference's answers) for crates/packet_replay
// Where document 01 refuses and the reference does not (6: payload above 1,400; 5: buffer too short), the expected answer is document 01's.
extern crate reference;
#[path = "cases.rs"]
mod cases;
#[path = "exports.rs"]
mod exports;

use cases::{given, numbers, shown, Cases};
use reference::packet::{self as rust, Packet, PacketError, PacketType};
use std::fmt::Write as _;
use std::time::{Duration, Instant};

mod ours {
    use crate::exports::*;
    // The number of the refusal or 0, and the values.
    pub type Answer = (u8, [u64; 4]);
    pub const UNSET: u64 = 0xA5A5_A5A5_A5A5_A5A5;
    // An export's answer whole: where it isn't refused, `value` says what its value is.
    pub fn answer(a: u64, value: impl Fn(u64) -> [u64; 4]) -> Answer {
        match status(a) {
            DONE => (0, value(a >> 8)),
            n @ 1..=15 => (n as u8, [a >> 8 & 0xffff, a >> 24 & 0xffff, a >> 40, 0]),
            n => (n as u8, [a >> 8, 0, 0, 0]),
        }
    }
    fn one(a: u64) -> Answer { answer(a, |v| [v, 0, 0, 0]) }
    // A packet in the first four of five places; the last must stay as it was, and all where it is refused.
    fn ask(f: impl Fn(*mut u64, usize) -> u64) -> Answer {
        let mut a = [UNSET; 5];
        let r = f(a.as_mut_ptr(), 5);
        assert_eq!(a[4], UNSET, "a place past the answer was written");
        assert!(r == DONE || a == [UNSET; 5], "a refused call wrote its answer");
        answer(r, |v| { assert_eq!(v, 0); [a[0], a[1], a[2], a[3]] })
    }
    pub fn constants() -> (usize, usize, u8) { unsafe { (packet_header_size(), packet_max_payload_size(), packet_flag_retransmitted()) } }
    pub fn try_from(b: u8) -> Answer { one(unsafe { packet_try_from(b) }) }
    pub fn new_data(s: u32) -> Answer { ask(|a, n| unsafe { packet_new_data(s, a, n) }) }
    pub fn new_ack(s: u32) -> Answer { ask(|a, n| unsafe { packet_new_ack(s, a, n) }) }
    pub fn new_fin(s: u32) -> Answer { ask(|a, n| unsafe { packet_new_fin(s, a, n) }) }
    pub type Fields = (u32, u8, u8, u16);
    pub fn is_retransmitted(f: Fields) -> Answer { one(unsafe { packet_is_retransmitted(f.0, f.1, f.2, f.3) }) }
    pub fn set_retransmitted(f: Fields) -> Answer { ask(|a, n| unsafe { packet_set_retransmitted(f.0, f.1, f.2, f.3, a, n) }) }
    pub fn compute_checksum(f: Fields, p: &[u8]) -> Answer { one(unsafe { packet_compute_checksum(f.0, f.1, f.2, f.3, p.as_ptr(), p.len()) }) }
    pub fn compute_and_set_checksum(f: Fields, p: &[u8]) -> Answer { ask(|a, n| unsafe { packet_compute_and_set_checksum(f.0, f.1, f.2, f.3, p.as_ptr(), p.len(), a, n) }) }
    pub fn to_bytes(f: Fields, p: &[u8], out: &mut [u8]) -> Answer { one(unsafe { packet_to_bytes(f.0, f.1, f.2, f.3, p.as_ptr(), p.len(), out.as_mut_ptr(), out.len()) }) }
    pub fn from_bytes(raw: &[u8]) -> Answer { ask(|a, n| unsafe { packet_from_bytes(raw.as_ptr(), raw.len(), a, n) }) }
    pub fn payload(raw: &[u8], out: &mut [u8]) -> usize { unsafe { packet_payload(raw.as_ptr(), raw.len(), out.as_mut_ptr(), out.len()) } }
    // The host's: number, kind and flags; nothing or `INVALID`; the length; a datagram with its checksum.
    pub fn read(raw: &[u8]) -> Answer { answer(unsafe { pindrelo_read(raw.as_ptr(), raw.len()) }, |v| [v & 0xffff_ffff, v >> 32 & 0xff, v >> 40 & 0xff, v >> 48]) }
    pub fn validate(raw: &[u8]) -> Answer { one(unsafe { pindrelo_validate(raw.as_ptr(), raw.len()) }) }
    pub fn payload_length(raw: &[u8]) -> Answer { one(unsafe { pindrelo_payload_length(raw.as_ptr(), raw.len()) }) }
    pub fn write(kind: u64, number: u64, flags: u64, p: &[u8], out: &mut [u8]) -> Answer { one(unsafe { pindrelo_write(kind, number, flags, p.as_ptr(), p.len(), out.as_mut_ptr(), out.len()) }) }
}
use ours::{Answer, Fields};

const GUARD: u8 = 0xA5;
const SHORT: u8 = 1;
const KIND: u8 = 2;
const CUT: u8 = 3;
const FULL: u8 = 5;
const LONG: u8 = 6;
const NUMBERS: u8 = 7;

struct Rng(u64);
impl Rng {
    fn next(&mut self) -> u64 {
        let mut x = self.0;
        x ^= x << 13;
        x ^= x >> 7;
        x ^= x << 17;
        self.0 = x;
        x.wrapping_mul(0x2545_F491_4F6C_DD1D)
    }
    fn below(&mut self, n: usize) -> usize { (self.next() >> 33) as usize % n }
    fn bytes(&mut self, n: usize) -> Vec<u8> {
        // Mostly random, at times all of one byte or sparse, so that sums of all ones and of zero occur.
        let style = self.below(6);
        (0..n).map(|_| { let r = (self.next() >> 32) as u8; match style { 0 => 0, 1 => 0xFF, 2 => if r < 16 { r } else { 0 }, 3 => if r < 16 { r } else { 0xFF }, _ => r } }).collect()
    }
}

fn hex(b: &[u8]) -> String {
    let mut s = String::new();
    for x in b { write!(s, "{:02x}", x).unwrap(); }
    s
}
fn differ(what: &str, input: String, rust: String, ours: String) -> ! {
    println!("packet: DIFFERENCE in {}\n  input: {}\n  reference: {}\n  here: {}", what, input, rust, ours);
    std::process::exit(1);
}
fn same<T: PartialEq + std::fmt::Debug>(what: &str, input: impl Fn() -> String, rust: T, ours: T) {
    if rust != ours { differ(what, input(), format!("{:?}", rust), format!("{:?}", ours)); }
}
fn one(x: u64) -> Answer { (0, [x, 0, 0, 0]) }
fn refused(n: u8, a: u64, b: u64) -> Answer { (n, [a, b, 0, 0]) }
const VALID: Answer = (0, [0; 4]);
const INVALID: Answer = (exports::INVALID as u8, [0; 4]);
fn fields(p: &Packet) -> Answer { (0, [p.seq_num as u64, p.pkt_type as u8 as u64, p.flags as u64, p.checksum as u64]) }
fn error(e: &PacketError) -> Answer {
    match e {
        PacketError::BufferTooShort { length } => refused(SHORT, *length as u64, 0),
        PacketError::UnknownPacketType(b) => refused(KIND, *b as u64, 0),
        PacketError::TruncatedPayload { declared, available } => refused(CUT, *declared as u64, *available as u64),
    }
}
fn packet(f: Fields, payload: &[u8]) -> Packet {
    Packet { seq_num: f.0, pkt_type: PacketType::try_from(f.1).unwrap(), flags: f.2, checksum: f.3, payload: payload.to_vec() }
}

#[derive(Default)]
struct Count { reads: u64, valid: u64, writes: u64, written: u64, others: u64, refusals: [u64; 12], flips: u64, flips_valid: u64, length_flips: u64, length_flips_valid: u64, length_flips_read: u64, rounds: u64 }

// Everything that is asked of a datagram. Answers whether it is valid, or the refusal.
fn read(c: &mut Count, raw: &[u8]) -> Answer {
    let input = || hex(raw);
    let kept = raw.to_vec();
    let (head, payload, valid) = match Packet::from_bytes(raw) {
        Ok(p) => (fields(&p), p.payload.clone(), if p.is_valid() { VALID } else { INVALID }),
        Err(e) => (error(&e), Vec::new(), error(&e)),
    };
    same("from_bytes", input, head, ours::from_bytes(raw));
    same("read", input, if head.0 == 0 { (0, [head.1[0], head.1[1], head.1[2], 0]) } else { head }, ours::read(raw));
    same("validate", input, valid, ours::validate(raw));
    same("payload_length", input, if head.0 == 0 { one(payload.len() as u64) } else { head }, ours::payload_length(raw));
    if head.0 == 0 && raw[10..10 + payload.len()] != payload[..] { differ("where the payload lies", input(), hex(&payload), hex(&raw[10..])); }
    let mut out = vec![GUARD; payload.len() + 3];
    same("payload", input, payload.len(), ours::payload(raw, &mut out));
    let mut expected = payload;
    expected.extend_from_slice(&[GUARD; 3]);
    if expected != out { differ("payload's bytes", input(), hex(&expected), hex(&out)); }
    if kept != raw { differ("datagram after reading", hex(&kept), hex(&kept), hex(raw)); }
    c.reads += 1;
    c.refusals[head.0 as usize] += 1;
    if valid == VALID { c.valid += 1; }
    valid
}

// Everything that is asked of a packet, with a buffer of `room` bytes.
fn write(c: &mut Count, f: Fields, payload: &[u8], room: usize) {
    let input = || format!("number {:08x} kind {:02x} flags {:02x} checksum {:04x} buffer {} payload({}) {}", f.0, f.1, f.2, f.3, room, payload.len(), hex(payload));
    let p = packet(f, payload);
    let mut q = p.clone();
    q.compute_and_set_checksum();
    let long = payload.len() > 1400;
    let full = room < 10 + payload.len();
    let no = refused(LONG, 0, 0);
    same("compute_checksum", input, if long { no } else { one(p.compute_checksum() as u64) }, ours::compute_checksum(f, payload));
    same("compute_and_set_checksum", input, if long { no } else { fields(&q) }, ours::compute_and_set_checksum(f, payload));
    for (what, packet, made) in [("to_bytes", &p, false), ("compute_and_set_checksum, then to_bytes", &q, true)] {
        let mut expected = vec![GUARD; room];
        let answer = if long { no } else if full { refused(FULL, 0, 0) } else {
            let bytes = packet.to_bytes();
            expected[..bytes.len()].copy_from_slice(&bytes);
            c.written += 1;
            one(bytes.len() as u64)
        };
        let mut out = vec![GUARD; room];
        let got = if made { ours::write(f.1 as u64, f.0 as u64, f.2 as u64, payload, &mut out) } else { ours::to_bytes(f, payload, &mut out) };
        same(what, input, answer, got);
        if expected != out { differ(&format!("{}: bytes", what), input(), hex(&expected), hex(&out)); }
        c.writes += 1;
        c.refusals[answer.0 as usize] += 1;
    }
}

// A host's write with numbers that have no place in a header: 2, 6, 7, 5 in that order, as include/pindrelo.h has it; what fits is the reference's datagram.
fn wide_writes(c: &mut Count) {
    for kind in [0, 1, 2, 3, 4, 255, 256, 257, u64::MAX] {
        for number in [0, u32::MAX as u64, 1 << 32, u64::MAX] {
            for flags in [0, 1, 255, 256, u64::MAX] {
                for n in [0usize, 5, 1400, 1401] {
                    for room in [0, 9 + n, 10 + n] {
                        let payload: Vec<u8> = (0..n).map(|i| (i * 31 + 7) as u8).collect();
                        let mut expected = vec![GUARD; room];
                        let answer = match () {
                            _ if kind < 1 || 3 < kind => refused(KIND, kind.min(255), 0),
                            _ if n > 1400 => refused(LONG, 0, 0),
                            _ if number >> 32 != 0 || flags > 255 => refused(NUMBERS, 0, 0),
                            _ if room < 10 + n => refused(FULL, 0, 0),
                            _ => {
                                let mut p = packet((number as u32, kind as u8, flags as u8, 0), &payload);
                                p.compute_and_set_checksum();
                                expected[..10 + n].copy_from_slice(&p.to_bytes());
                                one(10 + n as u64)
                            }
                        };
                        let mut out = vec![GUARD; room];
                        let input = || format!("kind {kind} number {number} flags {flags} payload({n}) buffer {room}");
                        same("write", input, answer, ours::write(kind, number, flags, &payload, &mut out));
                        if expected != out { differ("write: bytes", input(), hex(&expected), hex(&out)); }
                        c.writes += 1;
                        c.written += (answer.0 == 0) as u64;
                        if answer.0 != KIND { c.refusals[answer.0 as usize] += 1; }
                    }
                }
            }
        }
    }
}

fn small(c: &mut Count) {
    same("constants", || "-".to_string(), (rust::HEADER_SIZE, rust::MAX_PAYLOAD_SIZE, rust::FLAG_RETRANSMITTED), ours::constants());
    for b in 0..=255u8 {
        let t = match PacketType::try_from(b) { Ok(t) => one(t as u8 as u64), Err(e) => error(&e) };
        same("try_from", || format!("{:02x}", b), t, ours::try_from(b));
        for flags in 0..=255u8 {
            let f = (0x0102_0304, b, flags, 0x0506);
            let (is, set) = match PacketType::try_from(b) {
                Ok(_) => { let mut p = packet(f, &[]); let is = one(p.is_retransmitted() as u64); p.set_retransmitted(); (is, fields(&p)) }
                Err(e) => (error(&e), error(&e)),
            };
            same("is_retransmitted", || format!("{:?}", f), is, ours::is_retransmitted(f));
            same("set_retransmitted", || format!("{:?}", f), set, ours::set_retransmitted(f));
            c.others += 2;
        }
    }
}
fn makers(c: &mut Count, s: u32) {
    same("new_data", || s.to_string(), fields(&Packet::new_data(s, Vec::new())), ours::new_data(s));
    same("new_ack", || s.to_string(), fields(&Packet::new_ack(s)), ours::new_ack(s));
    same("new_fin", || s.to_string(), fields(&Packet::new_fin(s)), ours::new_fin(s));
    c.others += 3;
}

// All datagrams of 0 to 2 bytes; 8 to 13 bytes with each byte, the length and kind with flags varied over all their values.
fn short(c: &mut Count) {
    read(c, &[]);
    for a in 0..=255u8 { read(c, &[a]); for b in 0..=255u8 { read(c, &[a, b]); } }
    for len in 8..=13usize {
        for kind in 0..=4u8 {
            for fill in [0u8, 1, 0xFF] {
                let mut base = vec![fill; len];
                base[4] = kind;
                base[6] = 0;
                base[7] = len.saturating_sub(10) as u8;
                for i in 0..len { for v in 0..=255u8 { let mut raw = base.clone(); raw[i] = v; read(c, &raw); } }
            }
        }
        for declared in 0..=65535u16 { let mut raw = vec![0; len]; raw[4] = 1; raw[6..8].copy_from_slice(&declared.to_be_bytes()); read(c, &raw); }
        for v in 0..=65535u16 { let mut raw = vec![0; len]; raw[4..6].copy_from_slice(&v.to_be_bytes()); raw[7] = (len > 10) as u8; read(c, &raw); }
    }
    // Every checksum against two headers of each kind; of the second, 0 is computed, where RFC 1071 also accepts FFFF.
    for kind in 1..=3u8 {
        for v in 0..=65535u16 {
            let [a, b] = v.to_be_bytes();
            read(c, &[0, 0, 0, 0, kind, 0, 0, 0, a, b]);
            read(c, &[0, 0, 0xFF - kind, 0xFF, kind, 0, 0, 0, a, b]);
        }
    }
}

fn random_fields(g: &mut Rng) -> Fields {
    let s = match g.below(4) { 0 => 0, 1 => u32::MAX - g.below(3) as u32, _ => (g.next() >> 16) as u32 };
    (s, 1 + g.below(3) as u8, match g.below(3) { 0 => 0, 1 => 1, _ => (g.next() >> 32) as u8 }, (g.next() >> 32) as u16)
}

// Payload lengths around each boundary, with buffers one short, exact and longer.
fn boundaries(c: &mut Count, g: &mut Rng) {
    for &n in &[0usize, 1, 2, 3, 4, 5, 14, 15, 16, 17, 18, 19, 31, 32, 33, 63, 64, 65, 255, 256, 257, 1390, 1398, 1399, 1400, 1401, 1402, 1410, 65534, 65535, 65536, 65537] {
        let payload = g.bytes(n);
        let f = random_fields(g);
        let needed = 10 + n;
        for room in [0, 1, 9, 10, needed - 1, needed, needed + 1, needed + 1 + g.below(40)] { write(c, f, &payload, room); }
        if n > 65535 { continue; }
        // The reference makes the datagram, of any length that the field can declare.
        let mut p = packet(f, &payload);
        if g.below(4) != 0 { p.compute_and_set_checksum(); }
        // At times a number for which 0 is computed, with the field FFFF.
        if g.below(8) == 0 {
            p.seq_num &= 0xFFFF_0000;
            let k = p.compute_checksum();
            p.seq_num |= k as u32;
            p.checksum = if p.compute_checksum() == 0 { 0xFFFF } else { k };
        }
        let raw = p.to_bytes();
        read(c, &raw);
        let mut longer = raw.clone();
        let extra = 1 + g.below(20);
        longer.extend(g.bytes(extra));
        read(c, &longer);
        read(c, &raw[..raw.len() - 1]);
        let i = g.below(raw.len());
        let mut other = raw.clone();
        other[i] = (g.next() >> 32) as u8;
        read(c, &other);
        let n = g.below(40);
        let noise = g.bytes(n);
        read(c, &noise);
    }
    let (s, n) = ((g.next() >> 32) as u32, g.below(1403));
    makers(c, s);
    let (f, payload) = (random_fields(g), g.bytes(n));
    let room = g.below(1420);
    write(c, f, &payload, room);
    write(c, f, &payload, 10 + n);
}

// A made datagram: every bit flipped, every truncation, some extensions.
fn damaged(c: &mut Count, f: Fields, payload: &[u8], g: &mut Rng) {
    let mut p = packet(f, payload);
    p.compute_and_set_checksum();
    let mut raw = p.to_bytes();
    same("made datagram", || hex(&raw), VALID, read(c, &raw));
    for i in 0..raw.len() {
        for b in 0..8 {
            raw[i] ^= 1 << b;
            let answer = read(c, &raw);
            let valid = answer == VALID;
            if i == 6 || i == 7 {
                c.length_flips += 1;
                c.length_flips_read += (answer == VALID || answer == INVALID) as u64;
                c.length_flips_valid += valid as u64;
            } else {
                c.flips += 1;
                c.flips_valid += valid as u64;
                if valid { differ("a flipped bit outside bytes 6 and 7 that passes", hex(&raw), "-".into(), "valid".into()); }
            }
            raw[i] ^= 1 << b;
        }
    }
    for n in 0..raw.len() { read(c, &raw[..n]); }
    for n in [1usize, 2, 3, 16, 1400] { let mut longer = raw.clone(); longer.extend(g.bytes(n)); read(c, &longer); }
}

fn compare(seconds: u64, seed: u64) {
    let start = Instant::now();
    let limit = Duration::from_secs(seconds);
    let mut g = Rng(seed);
    let mut c = Count::default();
    small(&mut c);
    wide_writes(&mut c);
    short(&mut c);
    // K4 and the made datagram of payload FF FD: a flip in byte 7 that passes.
    damaged(&mut c, (0, 1, 0, 0), &[0xFF, 0xFD], &mut g);
    for n in [0usize, 1, 2, 3, 15, 16, 17, 64, 255, 256, 257, 1399, 1400] { let (f, p) = (random_fields(&mut g), g.bytes(n)); damaged(&mut c, f, &p, &mut g); }
    while c.rounds == 0 || start.elapsed() < limit {
        boundaries(&mut c, &mut g);
        let n = if c.rounds % 16 == 0 { 1390 + g.below(11) } else { g.below(80) };
        let (f, mut p) = (random_fields(&mut g), g.bytes(n));
        // At times a payload that ends so that a shorter length could match.
        if n >= 2 && g.below(2) == 0 { p[n - 2] = 0xFF; p[n - 1] = 0xFF ^ (1 << g.below(8)); }
        damaged(&mut c, f, &p, &mut g);
        c.rounds += 1;
    }
    println!(
        "packet: equal; seed {:#x}; {} rounds, {} reads ({} valid; refused 1: {}, 2: {}, 3: {}), {} writes ({} written; refused 5: {}, 6: {}, 7: {}), {} of kinds, flags, makers; flipped bits outside bytes 6-7: {} of {} valid, in bytes 6-7: {} of {} valid, {} readable; {:.1} s",
        seed, c.rounds, c.reads, c.valid, c.refusals[1], c.refusals[2], c.refusals[3], c.writes, c.written, c.refusals[5], c.refusals[6], c.refusals[7], c.others,
        c.flips_valid, c.flips, c.length_flips_valid, c.length_flips, c.length_flips_read, start.elapsed().as_secs_f64()
    );
}

fn main() {
    let args: Vec<String> = std::env::args().collect();
    let seed = |i: usize| args.get(i).map_or(0x9E37_79B9_7F4A_7C15, |s| u64::from_str_radix(s.trim_start_matches("0x"), 16).expect("SEED is hexadecimal"));
    match args.get(1).map(String::as_str) {
        Some("--sample") => sample(args.get(2).expect("DIR"), seed(3)),
        Some(s) => compare(s.parse().expect("SECONDS"), seed(2)),
        None => compare(10, seed(2)),
    }
}

// The reference's answers in the form of crates/packet_replay.
fn text(a: Answer) -> String {
    match a {
        (0, fields) => numbers(&fields),
        (n, [a, b, ..]) => format!(" refused {n}") + &numbers(&[a, b][..match n { SHORT | KIND => 1, CUT => 2, _ => 0 }]),
    }
}
fn head(f: Fields) -> String { numbers(&[f.0 as u64, f.1 as u64, f.2 as u64, f.3 as u64]) }

struct Sample { cases: Cases, seen: std::collections::HashSet<String> }
impl Sample {
    fn case(&mut self, input: String, answer: String) {
        if self.seen.insert(input.clone()) { self.cases.case(input, answer); }
    }
    fn read(&mut self, raw: &[u8]) {
        let (head, valid, payload) = match Packet::from_bytes(raw) {
            Ok(p) => (text(fields(&p)), if p.is_valid() { " valid".to_string() } else { " invalid".to_string() }, shown(&p.payload)),
            Err(e) => (text(error(&e)), text(error(&e)), shown(&[])),
        };
        self.case("r".to_string() + &given(raw), head + &valid + &payload);
    }
    fn checksum(&mut self, f: Fields, payload: &[u8]) {
        let mut p = packet(f, payload);
        let k = p.compute_checksum();
        p.compute_and_set_checksum();
        let no = text(refused(LONG, 0, 0));
        self.case("c".to_string() + &head(f) + &given(payload), if payload.len() > 1400 { format!("{no}{no}") } else { format!(" {k}{}", text(fields(&p))) });
    }
    fn write(&mut self, f: Fields, payload: &[u8], room: usize) {
        let mut out = vec![GUARD; room];
        let answer = if payload.len() > 1400 { text(refused(LONG, 0, 0)) } else if room < 10 + payload.len() { text(refused(FULL, 0, 0)) } else {
            let bytes = packet(f, payload).to_bytes();
            out[..bytes.len()].copy_from_slice(&bytes);
            format!(" {}", bytes.len())
        };
        self.case(format!("w{} {room}{}", head(f), given(payload)), answer + &shown(&out));
    }
    fn kind(&mut self, b: u8) {
        let answer = match PacketType::try_from(b) { Ok(t) => format!(" {}", t as u8), Err(e) => text(error(&e)) };
        self.case(format!("t {b}"), answer);
    }
    fn flags(&mut self, f: Fields) {
        let answer = match PacketType::try_from(f.1) {
            Ok(t) => {
                let mut p = packet(f, &[]);
                let is = p.is_retransmitted() as u8;
                p.set_retransmitted();
                let new = match t { PacketType::Data => Packet::new_data(f.0, Vec::new()), PacketType::Ack => Packet::new_ack(f.0), PacketType::Fin => Packet::new_fin(f.0) };
                format!(" {is}{}{}", text(fields(&p)), text(fields(&new)))
            }
            Err(e) => text(error(&e)),
        };
        self.case("f".to_string() + &head(f), answer);
    }
}

fn sample(dir: &str, seed: u64) {
    let mut g = Rng(seed);
    let mut s = Sample { cases: Cases::new("packet", seed), seen: Default::default() };
    // The proof sheet's rows, and bytes 6 and 7 of a made datagram.
    for (f, p) in [((0, 1, 0, 0), &[][..]), ((0, 1, 0, 0), &[0x41][..]), ((u32::MAX, 1, 0, 0), &[][..]), ((0, 1, 0, 0), &[0xFF, 0xFD][..])] { s.checksum(f, p); }
    for b in [0u8, 2] { s.read(&[0, 0, 0, 0, 1, 0, 0, b, 0xFE, 0xFF, 0xFF, 0xFD]); }
    s.read(&[0, 0, 0, 0, 1, 0, 0, 0, 0]);
    s.read(&[0, 0, 0, 0, 4, 0, 255, 255, 0, 0]);
    s.read(&[0, 0, 0, 0, 1, 0, 0, 1, 0, 0]);
    s.read(&[0, 0, 0xFE, 0xFF, 1, 0, 0, 0, 0xFF, 0xFF]);
    for b in [0u8, 1, 2, 3, 4, 5, 127, 128, 255] { s.kind(b); }
    // What replay_io reads: a kind is cut to 8 bits, and lines of another form are bad.
    s.case(format!("t {}", u64::MAX), text(refused(KIND, 255, 0)));
    for line in cases::BAD_LINES { s.case(line.to_string(), " bad line".to_string()); }
    for n in 0..14 { let raw = g.bytes(n); s.read(&raw); let mut zeros = vec![0; n]; if n > 4 { zeros[4] = 1; } s.read(&zeros); }
    for kind in 0..5u8 { for flags in [0u8, 1, 2, 0x80, 0xFE, 0xFF] { let number = (g.next() >> 32) as u32; s.flags((number, kind, flags, (g.next() >> 32) as u16)); } }
    for &n in &[0usize, 1, 2, 3, 4, 7, 8, 15, 16, 17, 18, 31, 32, 33, 63, 64, 65] {
        let (f, p) = (random_fields(&mut g), g.bytes(n));
        s.checksum(f, &p);
        for room in [0, 9, 10, 9 + n, 10 + n, 11 + n, 15 + n] { s.write(f, &p, room); }
        let mut q = packet(f, &p);
        q.compute_and_set_checksum();
        let raw = q.to_bytes();
        s.read(&raw);
        s.read(&raw[..raw.len() - 1]);
        let mut longer = raw.clone();
        longer.extend(g.bytes(3));
        s.read(&longer);
        for i in [0, 4, 5, 6, 7, 8, 9, raw.len() - 1] { let mut other = raw.clone(); other[i] ^= 1 << g.below(8); s.read(&other); }
    }
    for &n in &[1398usize, 1399, 1400, 1401] {
        let (f, p) = (random_fields(&mut g), g.bytes(n));
        s.checksum(f, &p);
        for room in [12, 9 + n, 10 + n, 20 + n] { s.write(f, &p, room); }
        let mut q = packet(f, &p);
        q.compute_and_set_checksum();
        let mut raw = q.to_bytes();
        s.read(&raw);
        let i = g.below(raw.len());
        raw[i] ^= 1 << g.below(8);
        s.read(&raw);
    }
    s.cases.save(dir);
}
