// Compares whole runs with the reference's `run_transfer`, and what is added to it with a model of document 01 (transfer_model.rs).
// usage: transfer --sample DIR [SEED]               writes DIR/stdin (cases) and DIR/stdout (the answers) for crates/transfer_replay
//        transfer --list DIR SEED                   the same with random cases only, as many as `rt try` takes
//        transfer --long DIR                        runs of 65,536 chunks, for a replay whose crate transfer_cases lends as much as LONG
//        transfer --bulk PROGRAM KIND RUNS [SEED]   random runs, answered by the replay's PROGRAM; KIND is one of source, ends, edition, start
//          with STEPS and ROUNDS in the environment: for a PROGRAM whose crate transfer has these bounds instead of the reference's; with PATCHED
//          too where the reference has them as well
extern crate rand;
extern crate reference;

#[path = "generator.rs"]
#[allow(dead_code)]
mod generator;

#[path = "cases.rs"]
#[allow(dead_code)]
mod cases;

#[path = "transfer_model.rs"]
mod model;

use cases::{given, numbers, Cases, BAD_LINES};
use generator::{fail, Gen};
use model::{run, Ceilings, End, Memory, Outcome, Protocol, Setup, CEILINGS, DAY, EDITION_FACTORS, EDITION_TIMES, PLACE, SLOT};
use reference::app::transfer::{run_transfer, TransferConfig, TransferOutput};
use reference::arq::ProtocolType;
use reference::channel::ChannelStats;
use reference::metrics::ChannelMetrics;
use reference::timing::RtoEstimator;
use std::io::{Read, Write};
use std::time::Duration;

// ---- what crates/transfer_cases makes of the lines: src/making.rt and src/printing.rt

// The most of the lent slices.
const MOST: [usize; 11] = [46336, 46336, 16384, 320, 1024, 320, 451204, 320, 451204, 64, 64];
const MOST_ROLLS: usize = 8192;

struct Xorshift(u64);

impl Xorshift {
    fn new(seed: u64) -> Xorshift {
        Xorshift(seed.wrapping_add(0x9E37_79B9_7F4A_7C15).max(1))
    }
    fn next(&mut self) -> u64 {
        self.0 = shifted(self.0);
        self.0
    }
    fn bytes(seed: u64, n: usize) -> Vec<u8> {
        let mut x = Xorshift::new(seed);
        (0..n).map(|_| x.next() as u8).collect()
    }
}

fn shifted(x: u64) -> u64 {
    let a = x ^ x << 13;
    let b = a ^ a >> 7;
    b ^ b << 17
}

fn unit(bits: u64) -> f64 {
    (bits >> 11) as f64 / 9007199254740992.0
}

const HIGHEST: f64 = 1.0 - f64::EPSILON / 2.0;

fn edge_roll(x: u64) -> f64 {
    match x % 8 {
        0 => 0.0,
        1 => HIGHEST,
        2 => -0.0,
        3 => f64::from_bits(1),
        4 | 5 => unit(x >> 58 << 58),
        _ => unit(x),
    }
}

// The rolls of one direction: a rule and a seed, and some in their places.
#[derive(Clone, Debug, PartialEq)]
struct Draws {
    count: usize,
    kind: u64,
    seed: u64,
    at: usize,
    literal: Vec<f64>,
}

impl Draws {
    fn new(count: usize, kind: u64, seed: u64) -> Draws {
        Draws { count, kind, seed, at: 0, literal: vec![] }
    }
    fn rolls(&self) -> Vec<f64> {
        let mut x = Xorshift::new(self.seed);
        let mut rolls: Vec<f64> = (0..self.count)
            .map(|_| {
                let x = x.next();
                match self.kind {
                    0 => unit(x),
                    1 => edge_roll(x),
                    _ => f64::from_bits(self.seed),
                }
            })
            .collect();
        for (roll, &literal) in rolls.iter_mut().skip(self.at).zip(&self.literal) {
            *roll = literal;
        }
        rolls
    }
    fn lines(&self, made: char, literal: char) -> String {
        let mut s = format!("{made} {} {} {}", self.count, self.kind, self.seed);
        if !self.literal.is_empty() {
            s += &format!("\n{literal} {}", self.at);
            s += &numbers(&self.literal.iter().map(|x| x.to_bits()).collect::<Vec<_>>());
        }
        s
    }
}

#[derive(Clone, Debug, PartialEq)]
enum File {
    Made(usize, u64),
    Bytes(Vec<u8>),
}

impl File {
    fn bytes(&self) -> Vec<u8> {
        match self {
            File::Made(n, seed) => Xorshift::bytes(*seed, *n),
            File::Bytes(b) => b.clone(),
        }
    }
    fn len(&self) -> usize {
        match self {
            File::Made(n, _) => *n,
            File::Bytes(b) => b.len(),
        }
    }
}

// One run of the replay.
#[derive(Clone, Debug)]
struct Case {
    s: Setup,
    sizes: [usize; 11],
    file: File,
    forward: Draws,
    reverse: Draws,
}

impl Case {
    fn memory(&self) -> Memory {
        let [sender, receiver, output, notes, events, fr, fp, rr, rp, keys, deadlines] = self.sizes;
        let bytes = |n: usize| vec![0xA5; n];
        Memory {
            sender: bytes(sender),
            receiver: bytes(receiver),
            output: bytes(output),
            notes: vec![[5; 7]; notes],
            events: vec![[5; 7]; events],
            forward_records: vec![[5; 4]; fr],
            forward_places: bytes(fp),
            reverse_records: vec![[5; 4]; rr],
            reverse_places: bytes(rp),
            keys: vec![5; keys],
            deadlines: vec![5; deadlines],
        }
    }
    // The lines p, c, t, m, f, g with i, h with j.
    fn lines(&self) -> [String; 7] {
        let s = &self.s;
        let file = match &self.file {
            File::Made(n, seed) => format!("f {n} {seed}"),
            File::Bytes(b) => format!("f{}", given(b)),
        };
        [
            format!("p{}", numbers(&[s.protocol as u64, s.edition as u64, s.window, s.chunk, s.limit, s.ceiling])),
            format!("c{}{}", numbers(&s.chances.map(f64::to_bits)), numbers(&s.delays)),
            format!("t{}{}", numbers(&s.times), numbers(&s.factors.map(f64::to_bits))),
            format!("m{}", numbers(&self.sizes.map(|n| n as u64))),
            file,
            self.forward.lines('g', 'i'),
            self.reverse.lines('h', 'j'),
        ]
    }
    fn input(&self) -> String {
        self.lines().join("\n") + "\nr\n"
    }
}

fn maybe(d: Option<Duration>) -> String {
    d.map_or(" none".to_string(), |d| format!(" {}", d.as_nanos()))
}

fn estimator_text(e: &RtoEstimator) -> String {
    let c = e.config();
    let n = |d: Duration| d.as_nanos() as u64;
    let s = &e.stats;
    numbers(&[n(c.initial_rto), n(c.min_rto), n(c.max_rto), n(c.granularity)])
        + &numbers(&[c.alpha, c.beta, c.k, c.rto_multiplier].map(f64::to_bits))
        + &maybe(e.srtt())
        + &maybe(e.rttvar())
        + &numbers(&[n(e.current_rto()), n(e.base_rto()), e.is_in_backoff() as u64, e.consecutive_timeouts() as u64])
        + &numbers(&[s.sample_count, s.karn_rejected_count, s.timeout_count, s.backoff_count])
        + &maybe(s.min_rtt)
        + &maybe(s.max_rtt)
        + &numbers(&[s.sum_rtt_millis.to_bits()])
        + &maybe(s.latest_rtt)
        + &numbers(&[s.max_consecutive_timeouts as u64])
}

fn channel_numbers(s: &ChannelStats) -> [u64; 6] {
    [s.packets_seen, s.lost, s.corrupted, s.duplicated, s.reordered, s.copies_delivered]
}

// A lent slice as crates/transfer_cases prints it: *N after what stands N times in a row.
fn lent<T: Copy + PartialEq>(xs: impl Iterator<Item = T>, text: impl Fn(T) -> String) -> String {
    let mut line = "\nl".to_string();
    let mut xs = xs.peekable();
    while let Some(x) = xs.next() {
        let mut count = 1;
        while xs.next_if(|&y| y == x).is_some() {
            count += 1;
        }
        line += &format!(" {}", text(x));
        if count > 1 {
            line += &format!("*{count}");
        }
    }
    line
}

fn octets(bytes: &[u8]) -> String {
    lent(bytes.iter().copied(), |b| format!("{b:02x}"))
}

fn rows<const N: usize>(rows: &[[u64; N]]) -> String {
    lent(rows.iter().flatten().copied(), |n| n.to_string())
}

fn answer(r: &Result<Outcome, u64>, m: &Memory) -> String {
    let mut text = match r {
        Err(number) => format!(" refused {number}"),
        Ok(o) => outcome_text(o),
    };
    text += &octets(&m.sender);
    text += &octets(&m.receiver);
    text += &octets(&m.output);
    text += &rows(&m.notes);
    text += &rows(&m.events);
    text += &rows(&m.forward_records);
    text += &octets(&m.forward_places);
    text += &rows(&m.reverse_records);
    text += &octets(&m.reverse_places);
    text += &lent(m.keys.iter().copied(), |n| n.to_string());
    text += &lent(m.deadlines.iter().copied(), |n| n.to_string());
    text
}

fn outcome_text(o: &Outcome) -> String {
    let end = ["ended", "rolls spent", "events full", "schedule full"][o.end as usize];
    let mut text = format!(" {end} {} {}", o.completed as u64, o.finished_at);
    text += &format!("\ns{}\nv{}", numbers(&o.sender), numbers(&o.receiver));
    text += &format!("\nd{}{}", numbers(&o.driver), numbers(&[o.events.len() as u64]));
    text += &format!("\nt{}", estimator_text(&o.estimator));
    for c in &o.channels {
        text += &format!("\nc{}", numbers(&channel_numbers(c)));
    }
    text
}

// ---- the reference, unchanged

// Whether nothing is added: then the reference's `run_transfer` has the same setup.
fn is_plain(c: &Case, o: &Outcome) -> bool {
    o.end == End::Ended && !c.s.edition && c.s.times[3] == 1_000_000 && c.s.factors[2] == 4.0
}

fn their_run(c: &Case, file: &[u8], rolls: [&[f64]; 2]) -> TransferOutput {
    let s = &c.s;
    rand::clear();
    rand::feed_seed(7, rolls[0]);
    rand::feed_seed(8, rolls[1]);
    run_transfer(&TransferConfig {
        payload: file.to_vec(),
        protocol: [ProtocolType::StopAndWait, ProtocolType::GoBackN, ProtocolType::SelectiveRepeat][s.protocol as usize],
        window_size: s.window as usize,
        chunk_size: s.chunk as usize,
        seed: 7,
        trial_id: 0,
        experiment_id: String::new(),
        loss_rate: s.chances[0],
        reorder_rate: s.chances[2],
        duplicate_rate: s.chances[1],
        corrupt_rate: s.chances[3],
        base_delay_ms: s.delays[1],
        jitter_ms: s.delays[2],
        reorder_extra_ms: s.delays[0],
        rto_multiplier: s.factors[3],
        min_rto: Duration::from_nanos(s.times[1]),
        max_rto: Duration::from_nanos(s.times[2]),
        initial_rto: Duration::from_nanos(s.times[0]),
        alpha: s.factors[0],
        beta: s.factors[1],
        max_virtual_time: Duration::from_nanos(s.limit),
        max_retransmissions: s.ceiling,
    })
}

fn metrics(m: &ChannelMetrics) -> [u64; 6] {
    [m.offered_datagrams, m.dropped_datagrams, m.corrupted_datagrams, m.duplicated_datagrams, m.reordered_datagrams, m.scheduled_deliveries].map(|n| n as u64)
}

fn hex(bytes: &[u8]) -> String {
    given(bytes)[2..].to_string()
}

// The model's answer beside that of the unchanged reference, field by field.
fn check_reference(c: &Case, o: &Outcome, file: &[u8], rolls: [&[f64]; 2]) {
    let t = their_run(c, file, rolls);
    let left = [7, 8].map(rand::left_of);
    let m = &t.record.measurements;
    let e = &o.estimator;
    let ms = |d: Duration| d.as_secs_f64() * 1000.0;
    let or_zero = |d: Option<Duration>| d.map_or(0.0, ms);
    let status = if !o.completed {
        "TIMEOUT"
    } else if o.delivered == file {
        "SUCCESS"
    } else {
        "INTEGRITY_FAIL"
    };
    let theirs_ints = [
        m.app.delivered_unique_bytes,
        m.timing.total_rtt_samples as u64,
        m.timing.karn_rejected_count as u64,
        m.timing.timeout_count as u64,
        m.timing.backoff_count as u64,
        m.protocol.data_sent as u64,
        m.protocol.data_retransmissions as u64,
        m.protocol.timeout_retransmissions as u64,
        m.protocol.premature_retransmissions as u64,
        m.protocol.data_received as u64,
        m.protocol.ack_sent as u64,
        m.protocol.ack_received as u64,
        m.protocol.duplicate_data_received as u64,
        m.protocol.duplicate_acks_received as u64,
        t.premature_retransmissions,
        t.karn_rejected,
        t.segment_count as u64,
        left[0] as u64,
        left[1] as u64,
    ];
    let [retx, premature, received, ack_sent, ack_received, duplicate_data, duplicate_acks] = o.driver;
    let st = &e.stats;
    let ours_ints = [
        o.delivered.len() as u64,
        st.sample_count,
        st.karn_rejected_count,
        st.timeout_count,
        st.backoff_count,
        o.sent[0],
        o.sent[1],
        retx,
        premature,
        received,
        ack_sent,
        ack_received,
        duplicate_data,
        duplicate_acks,
        premature,
        st.karn_rejected_count,
        o.segments as u64,
        (rolls[0].len() - o.used[0]) as u64,
        (rolls[1].len() - o.used[1]) as u64,
    ];
    let tm = &m.timing;
    let theirs_reals = [tm.duration_secs, tm.min_rtt_ms, tm.max_rtt_ms, tm.mean_rtt_ms, tm.final_srtt_ms, tm.final_rttvar_ms, tm.final_rto_ms].map(f64::to_bits);
    let duration = Duration::from_nanos(o.finished_at).as_secs_f64();
    let ours_reals = [duration, or_zero(st.min_rtt), or_zero(st.max_rtt), e.mean_rtt_ms(), or_zero(e.srtt()), or_zero(e.rttvar()), ms(e.current_rto())].map(f64::to_bits);
    let theirs_events: Vec<[u64; 7]> = t.forward_events.iter().map(their_event).collect();
    let same = theirs_ints == ours_ints
        && theirs_reals == ours_reals
        && m.app.transfer_status == status
        && m.app.delivered_sha256 == hex(&o.delivered)
        && m.app.source_sha256 == hex(file)
        && metrics(&m.channel) == channel_numbers(&o.channels[0])
        && metrics(&m.reverse_channel) == channel_numbers(&o.channels[1])
        && metrics(&t.reverse) == channel_numbers(&o.channels[1])
        && theirs_events == o.events;
    if !same {
        fail("the model and the reference", format!("{}\n{}\n{t:?}", c.input(), outcome_text(o)));
    }
}

fn their_event(e: &reference::app::transfer::ForwardEvent) -> [u64; 7] {
    let at = |v: &[u64], i: usize| v.get(i).copied().unwrap_or(0);
    let folds: Vec<u64> = e.copy_folds.iter().map(|&f| f as u64).collect();
    [e.seq as u64, e.retransmission as u64, e.delays_ms.len() as u64, at(&e.delays_ms, 0), at(&e.delays_ms, 1), at(&folds, 0), at(&folds, 1)]
}

// ---- a case's answer

#[derive(Default)]
struct Seen {
    runs: u64,
    plain: u64,
    refused: [u64; 12],
    ends: [u64; 4],
    completed: u64,
    completed_early: u64,
    damaged: u64,
    packets: u64,
    resent: u64,
    premature: u64,
    at_limit: u64,
    exhausted: u64,
    // lost, corrupted, duplicated, reordered
    faults: [u64; 4],
}

fn answered(c: &Case, ceilings: Ceilings, seen: &mut Seen) -> String {
    let file = c.file.bytes();
    let (forward, reverse) = (c.forward.rolls(), c.reverse.rolls());
    let rolls = [&forward[..], &reverse[..]];
    let before = c.memory();
    let mut m = before.clone();
    let r = run(&c.s, &file, rolls, &mut m, ceilings);
    seen.runs += 1;
    match &r {
        Err(number) => {
            assert!(m == before);
            seen.refused[*number as usize] += 1;
        }
        Ok(o) => {
            seen.ends[o.end as usize] += 1;
            seen.completed += o.completed as u64;
            seen.completed_early += (o.completed && o.end != End::Ended) as u64;
            let chunks = o.receiver[(c.s.protocol == Protocol::SelectiveRepeat) as usize];
            seen.damaged += (o.delivered.len() as u64 != (chunks * c.s.chunk).min(file.len() as u64)) as u64;
            let [packets, faults @ .., _] = channel_numbers(&o.channels[0]);
            seen.packets += packets;
            for (sum, n) in seen.faults.iter_mut().zip(faults) {
                *sum += n;
            }
            seen.resent += o.driver[0];
            seen.premature += o.driver[1];
            seen.at_limit += (o.finished_at == c.s.limit) as u64;
            seen.exhausted += (o.end == End::Ended && o.driver[0] >= c.s.ceiling) as u64;
            if is_plain(c, o) && ceilings.are_theirs {
                seen.plain += 1;
                check_reference(c, o, &file, rolls);
            }
        }
    }
    answer(&r, &m)
}

// ---- random cases

impl Gen {
    fn pick<T: Copy>(&mut self, xs: &[T]) -> T {
        xs[self.below(xs.len() as u64) as usize]
    }
    fn one_in(&mut self, n: u64) -> bool {
        self.below(n) == 0
    }
    fn unit(&mut self) -> f64 {
        unit(self.next())
    }
}

fn chance(g: &mut Gen) -> f64 {
    match g.below(12) {
        0..=4 => 0.0,
        5 => g.pick(&[1.0, -0.0, f64::from_bits(1)]),
        6 | 7 => g.below(65) as f64 / 64.0,
        8 => g.unit(),
        _ => g.unit() / 3.0,
    }
}

fn delays(g: &mut Gen) -> [u64; 3] {
    let delay = |g: &mut Gen| match g.below(10) {
        0 | 1 => 0,
        2 => 1,
        3 => g.pick(&[60_000, 59_999, 1_000, 999]),
        _ => g.below(30),
    };
    let base = if g.one_in(3) { 5 } else { delay(g) };
    let jitter = if g.one_in(3) { 0 } else { delay(g) };
    [delay(g), base, jitter]
}

fn times(g: &mut Gen) -> [u64; 4] {
    let time = |g: &mut Gen| match g.below(12) {
        0 => g.pick(&[0, 1]),
        1 => g.pick(&[DAY, DAY - 1, 60_000_000_000]),
        2 => g.below(100_000_000),
        3 | 4 => 1_000_000 * g.below(40),
        5 => 10_000_000,
        _ => 1_000_000 * g.below(2_000),
    };
    let (initial, a, b) = (time(g), time(g), time(g));
    let (min, max) = if g.one_in(4) { (a.min(b), a.max(b)) } else { (a.min(b).min(200_000_000), a.max(b).max(1_000_000_000)) };
    let granularity = if g.one_in(8) { g.pick(&[0, 1, 1_000_000_000, 500_000]) } else { 1_000_000 };
    [initial, min, max, granularity]
}

fn factors(g: &mut Gen) -> [f64; 4] {
    if g.one_in(2) {
        return EDITION_FACTORS;
    }
    let share = |g: &mut Gen| if g.one_in(3) { g.pick(&[0.0, 1.0, -0.0]) } else { g.unit() };
    let k = if g.one_in(8) { g.pick(&[0.0, 16.0, 2.5]) } else { 4.0 };
    let multiplier = if g.one_in(3) { g.pick(&[0.0, 16.0, 0.5, 2.0]) } else { 1.0 };
    [share(g), share(g), k, multiplier]
}

fn limit(g: &mut Gen, s: &Setup) -> u64 {
    let base = s.delays[1] * 1_000_000;
    match g.below(14) {
        0 => g.pick(&[0, 1, DAY]),
        1 => base,
        2 => g.pick(&[base.saturating_sub(1), base + 1, 2 * base, s.times[0], 2 * base + s.times[0]]),
        3 => g.below(20_000_000_000),
        _ => g.pick(&[60_000_000_000, DAY, 600_000_000_000]),
    }
    .min(DAY)
}

// A setup within bounds.
fn setup(g: &mut Gen, edition: bool) -> Setup {
    let protocols = [Protocol::StopAndWait, Protocol::GoBackN, Protocol::SelectiveRepeat];
    let protocol = protocols[g.below(if edition { 2 } else { 3 }) as usize];
    let window = g.pick(&[1, 2, 2, 3, 4, 4, 5, 8, 16, 32]);
    let chunk = match g.below(12) {
        0 => g.pick(&[1399, 1400]),
        1 => 1 + g.below(1400),
        2 => 1 + g.below(60),
        _ => 1 + g.below(5),
    };
    let mut s = Setup { protocol, edition, window, chunk, limit: 0, ceiling: 0, chances: [0.0; 4], delays: delays(g), times: EDITION_TIMES, factors: EDITION_FACTORS };
    if !g.one_in(5) {
        s.chances = std::array::from_fn(|_| chance(g));
        if s.chances[0] > 0.6 && !g.one_in(8) {
            s.chances[0] /= 4.0;
        }
    }
    if !edition && !g.one_in(6) {
        (s.times, s.factors) = (times(g), factors(g));
    }
    s.limit = limit(g, &s);
    s.ceiling = match g.below(10) {
        0 => g.pick(&[0, 1, 2]),
        1 => 20 + g.below(60),
        _ => 1 + g.below(20),
    };
    s
}

// Lengths about the edges of chunks; at times bytes whose length byte can be flipped unseen (K4).
fn file(g: &mut Gen, chunk: u64) -> File {
    if (chunk == 2 || chunk == 4) && g.one_in(3) {
        let unseen: &[u8] = if chunk == 2 { &[0xFF, 0xFD] } else { &[0, 0, 0xFF, 0xFB] };
        return File::Bytes(unseen.repeat(1 + g.below(6) as usize));
    }
    let chunks = match g.below(8) {
        _ if chunk > 200 => g.below(6),
        0 if chunk < 20 => g.below(64),
        _ => g.below(14),
    };
    let n = (chunks * chunk + g.pick(&[0, 0, 1, chunk - 1, chunk / 2])) as usize;
    match g.below(12) {
        0 => File::Made(0, 0),
        1 => File::Bytes(vec![0x41]),
        2 if n <= 40 => File::Bytes(g.bytes(n)),
        _ => File::Made(n, g.next()),
    }
}

fn is_unseen(file: &File) -> bool {
    matches!(file, File::Bytes(b) if b.starts_with(&[0xFF, 0xFD]) || b.starts_with(&[0, 0, 0xFF, 0xFB]))
}

fn draws(g: &mut Gen, count: usize) -> Draws {
    let kind = g.below(3) / 2;
    Draws::new(count.min(MOST_ROLLS), kind, g.next())
}

// Sizes with which only "ended" occurs: events one for each chunk and permitted retransmission, rolls and places accordingly.
fn case(g: &mut Gen, edition: bool) -> Case {
    let mut s = setup(g, edition);
    let file = file(g, s.chunk);
    let unseen = is_unseen(&file);
    if unseen {
        s.chances[3] = 0.25;
    }
    let chunks = model::chunk_count(file.len(), s.chunk) as usize;
    let packets = chunks + s.ceiling as usize;
    let spare = |g: &mut Gen| if g.one_in(2) { 0 } else { g.below(3) as usize };
    let slots = if s.protocol == Protocol::StopAndWait { 1 } else { s.window as usize };
    let selective = s.protocol == Protocol::SelectiveRepeat;
    let keys = if selective { s.window as usize + spare(g) } else { g.below(4) as usize };
    let receiver = if selective { slots * SLOT + spare(g) } else { g.below(20) as usize };
    let sizes = [
        slots * SLOT + spare(g),
        receiver,
        file.len() + spare(g),
        chunks + spare(g),
        packets + spare(g),
        2 * packets + spare(g),
        2 * packets * PLACE + spare(g),
        2 * packets + spare(g),
        2 * packets * PLACE + spare(g),
        keys,
        keys,
    ];
    let mut c = Case { sizes, file, forward: draws(g, 8 * packets), reverse: draws(g, 16 * packets), s };
    if unseen {
        // in one packet the byte 7 and its bit that is 1
        c.forward.at = 8 * g.below(packets as u64) as usize;
        let (bytes, bit) = if c.s.chunk == 2 { (12.0, 1.5) } else { (14.0, 2.5) };
        c.forward.literal = vec![HIGHEST, HIGHEST, HIGHEST, 0.0, 7.5 / bytes, bit / 8.0, g.unit(), 0.0];
    }
    assert!(c.sizes.iter().zip(&MOST).all(|(a, b)| a <= b), "{c:?}");
    c
}

fn less(g: &mut Gen, n: usize) -> usize {
    match g.below(4) {
        0 => n.saturating_sub(1),
        1 => g.below(n as u64 / 4 + 1) as usize,
        _ => g.below(n as u64 + 1) as usize,
    }
}

// Less of one thing, or of several.
fn shorten(g: &mut Gen, c: &mut Case) {
    for _ in 0..1 + g.below(2) {
        match g.below(7) {
            0 | 1 => c.forward.count = less(g, c.forward.count),
            2 => c.reverse.count = less(g, c.reverse.count / 2),
            3 => c.sizes[4] = less(g, c.sizes[4]),
            4 => c.sizes[5] = less(g, c.sizes[5] / 2),
            5 => {
                let i = g.pick(&[6, 8]);
                c.sizes[i] = less(g, c.sizes[i] / PLACE / 4) * PLACE + g.below(PLACE as u64) as usize;
            }
            _ => c.sizes[7] = less(g, c.sizes[7] / 4),
        }
    }
    if g.one_in(4) {
        c.s.ceiling = g.pick(&[u64::MAX, 1_000, 1 << 40]);
    }
}

// Something that a start looks at, at its bound or past it.
fn spoil(g: &mut Gen, c: &mut Case) {
    let bad_chance = [f64::NAN, -1e-300, 1.0000000000000002, f64::INFINITY, -1.0, f64::from_bits(u64::MAX)];
    let past_day = g.pick(&[DAY, DAY + 1, u64::MAX]);
    match g.below(22) {
        0 => c.sizes[0] = [0, SLOT - 1, SLOT, 2 * SLOT, c.sizes[0].saturating_sub(1), c.sizes[0] / SLOT * SLOT][g.below(6) as usize],
        1 => c.sizes[1] = [0, SLOT - 1, c.sizes[1].saturating_sub(1), c.sizes[1] / SLOT * SLOT][g.below(4) as usize],
        2 => c.sizes[9] = (c.sizes[9] + 1 - 2 * g.below(2).min(c.sizes[9] as u64) as usize).min(64),
        3 => {
            let n = [0, c.sizes[9].saturating_sub(1), c.sizes[9], c.s.window.saturating_sub(1).min(64) as usize][g.below(4) as usize];
            (c.sizes[9], c.sizes[10]) = (n, n);
        }
        4 | 5 => {
            let d = if g.one_in(2) { &mut c.forward } else { &mut c.reverse };
            d.count = d.count.max(1);
            d.at = [0, d.count - 1, g.below(d.count as u64) as usize][g.below(3) as usize];
            d.literal = vec![g.pick(&[f64::NAN, 1.0, HIGHEST, -f64::from_bits(1), -1.0, 2.0, f64::INFINITY, f64::NEG_INFINITY, -0.0, f64::from_bits(u64::MAX)])];
        }
        6 => c.s.window = g.pick(&[0, 33, 32, u64::MAX, u64::MAX / 1404 + 1, 1 << 32]),
        7 => c.s.chunk = g.pick(&[0, 1, 1400, 1401, u64::MAX, 1 << 32]),
        8 | 9 => c.s.chances[g.below(4) as usize] = g.pick(&bad_chance),
        10 => c.s.delays[g.below(3) as usize] = g.pick(&[60_000, 60_001, u64::MAX]),
        11 => c.s.times[g.below(3) as usize] = past_day,
        12 => c.s.times[3] = g.pick(&[1_000_000_000, 1_000_000_001, u64::MAX]),
        13 => (c.s.times[1], c.s.times[2]) = g.pick(&[(1, 0), (DAY, DAY), (1_000_000_000, 999_999_999), (0, 0)]),
        14 => c.s.factors[g.below(2) as usize] = g.pick(&bad_chance),
        15 => c.s.factors[2 + g.below(2) as usize] = g.pick(&[f64::NAN, 16.0, 16.000000000000004, -1e-300, f64::INFINITY, 0.0, -0.0]),
        16 => c.s.limit = past_day,
        17 => c.sizes[2] = [0, c.file.len().saturating_sub(1), c.file.len()][g.below(3) as usize],
        18 => {
            // read where the chunk size has a meaning
            let chunks = model::chunk_count(c.file.len(), c.s.chunk.max(1)) as usize;
            c.sizes[3] = [0, chunks - 1, chunks][g.below(3) as usize].min(320);
        }
        19 => {
            c.s.edition = !c.s.edition;
        }
        20 if c.s.edition => {
            let i = g.below(4) as usize;
            if g.one_in(2) {
                c.s.times[i] = [c.s.times[i] + 1, c.s.times[i] - 1, 0][g.below(3) as usize];
            } else {
                c.s.factors[i] = [f64::from_bits(c.s.factors[i].to_bits() + 1), f64::from_bits(c.s.factors[i].to_bits() - 1), 0.0, -c.s.factors[i]][g.below(4) as usize];
            }
        }
        20 => c.s.protocol = Protocol::SelectiveRepeat,
        _ => {
            // 65,536 chunks are in bounds, 65,537 not; then notes and output are short
            c.s.chunk = 1;
            c.file = File::Made(g.pick(&[65_535, 65_536, 65_537, 65_600]), g.next());
        }
    }
}

fn random_case(g: &mut Gen, kind: &str) -> Case {
    match kind {
        "source" => case(g, false),
        "ends" => {
            let mut c = case(g, false);
            shorten(g, &mut c);
            c
        }
        "edition" => {
            let mut c = case(g, true);
            if g.one_in(2) {
                shorten(g, &mut c);
            }
            c
        }
        "start" => {
            let edition = g.one_in(4);
            let mut c = case(g, edition);
            for _ in 0..1 + g.below(3) {
                spoil(g, &mut c);
            }
            for (size, &most) in c.sizes.iter_mut().zip(&MOST) {
                *size = (*size).min(most);
            }
            c
        }
        _ => panic!("no kind {kind}"),
    }
}

// ---- in bulk, by a program

fn program_answers(program: &str, input: &str) -> String {
    let mut child = std::process::Command::new(program).stdin(std::process::Stdio::piped()).stdout(std::process::Stdio::piped()).spawn().expect(program);
    let mut stdin = child.stdin.take().unwrap();
    let text = input.to_string();
    let writer = std::thread::spawn(move || stdin.write_all(text.as_bytes()));
    let mut got = vec![];
    child.stdout.take().unwrap().read_to_end(&mut got).unwrap();
    let _ = writer.join();
    let status = child.wait().unwrap();
    let mut text = String::from_utf8_lossy(&got).to_string();
    if !status.success() {
        text += &format!("\n{status}\n");
    }
    text
}

// The letters of the lines that set something up, each answered by itself.
fn set_up(input: &str) -> String {
    input.lines().filter(|l| !l.starts_with('r')).map(|l| format!("{}\n", &l[..1])).collect()
}

fn bulk(program: &str, kind: &str, runs: u64, seed: u64) {
    let var = |name: &str, default: u32| std::env::var(name).ok().map_or(default, |s| s.parse().expect(name));
    let are_theirs = std::env::var("STEPS").is_err() || std::env::var("PATCHED").is_ok();
    let ceilings = Ceilings { steps: var("STEPS", CEILINGS.steps), rounds: var("ROUNDS", CEILINGS.rounds), are_theirs };
    let mut g = Gen(seed);
    let mut seen = Seen::default();
    while seen.runs < runs {
        let (mut input, mut want, mut cases) = (String::new(), String::new(), vec![]);
        while input.len() < 500_000 && seen.runs < runs {
            let c = random_case(&mut g, kind);
            let text = c.input();
            want += &set_up(&text);
            want += &format!("r{}\n", answered(&c, ceilings, &mut seen));
            input += &text;
            cases.push(c);
        }
        let got = program_answers(program, &input);
        if got != want {
            report_difference(program, &cases, ceilings);
        }
    }
    // the sizes of these suffice
    assert!(kind != "source" || seen.ends[0] == seen.runs);
    print_seen(kind, &seen);
}

// The cases one by one: the shortest input whose answer differs.
fn report_difference(program: &str, cases: &[Case], ceilings: Ceilings) -> ! {
    let mut worst: Option<(String, String, String)> = None;
    let mut count = 0;
    for c in cases {
        let input = c.input();
        let want = set_up(&input) + &format!("r{}\n", answered(c, ceilings, &mut Seen::default()));
        let got = program_answers(program, &input);
        if got != want {
            count += 1;
            if worst.as_ref().is_none_or(|w| got.len() < w.2.len()) {
                worst = Some((input, want, got));
            }
        }
    }
    let (input, want, got) = worst.expect("the cases differ together and not alone");
    std::fs::write("/tmp/difference.in", &input).unwrap();
    fail("replay", format!("{count} of {} cases; the shortest (also in /tmp/difference.in):\n{input}--- expected\n{want}--- got\n{got}", cases.len()));
}

fn print_seen(kind: &str, s: &Seen) {
    let refused: Vec<String> = (0..12).filter(|&i| s.refused[i] > 0).map(|i| format!("{} by {i}", s.refused[i])).collect();
    println!(
        "transfer, {kind}: no difference; {} runs, {} of them beside the unchanged reference; refused {}; ended {}, rolls spent {}, events full {}, schedule full {}; completed {}, {} of them with an added end; in {} a chunk shortened unseen; {} packets, {} resent, {} of them prematurely; {} finished at the time limit, {} at the ceiling",
        s.runs, s.plain, if refused.is_empty() { "none".to_string() } else { refused.join(", ") }, s.ends[0], s.ends[1], s.ends[2], s.ends[3], s.completed, s.completed_early, s.damaged, s.packets, s.resent, s.premature, s.at_limit, s.exhausted
    );
}

// ---- cases of READINGS 26 and the proof sheet's program

fn example(protocol: Protocol, edition: bool, window: u64, file: &[u8]) -> Case {
    let s = Setup { protocol, edition, window, chunk: 1, limit: DAY, ceiling: 200, chances: [0.0; 4], delays: [0, 5, 0], times: EDITION_TIMES, factors: EDITION_FACTORS };
    let slots = if protocol == Protocol::StopAndWait { 1 } else { window as usize };
    let n = file.len().max(1);
    let sizes = [slots * SLOT, slots * SLOT, n, n, 250, 64, 64 * PLACE, 64, 64 * PLACE, 32, 32];
    let zero = Draws::new(2000, 2, 0);
    Case { s, sizes, file: File::Bytes(file.to_vec()), forward: zero.clone(), reverse: zero }
}

// The first datagram lost, all others whole.
fn first_lost(mut c: Case) -> Case {
    c.s.chances[0] = 0.5;
    c.forward = Draws { at: 0, literal: vec![0.0], ..Draws::new(2000, 2, 0.75f64.to_bits()) };
    c
}

// Each with the words that its answer starts with.
fn examples() -> Vec<(Case, &'static str)> {
    use Protocol::*;
    let chunks: Vec<u8> = (0x41..0x61).collect();
    let mut list = vec![
        // the program linkrun, for the byte 0x41
        (example(SelectiveRepeat, false, 4, b"A"), " ended 1 5000000\n"),
        // one lost datagram: Go-Back-N on the edition clock, and in the source's timing
        (first_lost(example(GoBackN, true, 2, b"AB")), " ended 1 3015000000\n"),
        (first_lost(example(GoBackN, false, 2, b"AB")), " ended 1 1005000000\n"),
        (first_lost(example(GoBackN, true, 32, &chunks)), " ended 1 1623315000000\n"),
        (first_lost(example(GoBackN, false, 32, &chunks)), " ended 1 1005000000\n"),
    ];
    // completed, whatever the end
    let mut spent = example(StopAndWait, false, 1, b"A");
    (spent.forward.count, spent.reverse.count) = (8, 0);
    list.push((spent, " rolls spent 1 5000000\n"));
    let mut full = example(StopAndWait, false, 1, b"A");
    full.sizes[8] = 0;
    list.push((full, " schedule full 1 5000000\n"));
    let mut events = example(StopAndWait, false, 1, b"A");
    events.s.times = [2_000_000, 0, 2_000_000, 1_000_000];
    events.sizes[4] = 3;
    list.push((events, " events full 1 5000000\n"));
    // two of the added ends at once
    let mut both = example(StopAndWait, false, 1, b"A");
    (both.sizes[4], both.sizes[5]) = (0, 0);
    list.push((both.clone(), " events full 0 0\n"));
    both.forward.count = 7;
    list.push((both, " rolls spent 0 0\n"));
    // a lost packet needs no place
    let mut lost = first_lost(example(SelectiveRepeat, false, 4, b"AB"));
    lost.sizes[6] = 0;
    list.push((lost, " schedule full 0 0\n"));
    // a ceiling of 0 ends a run before its first packet
    let mut none = example(SelectiveRepeat, false, 4, b"A");
    none.s.ceiling = 0;
    list.push((none, " ended 0 0\n"));
    // an ACK under way: sent again prematurely, but not where the first datagram was lost; a cumulative ACK covers the window
    let mut early = example(GoBackN, false, 3, b"ABC");
    early.s.times = [7_000_000, 0, 7_000_000, 1_000_000];
    list.push((early.clone(), " ended 1 5000000\ns 3 3 3 6 3\nv 3 3 6 3 3\nd 3 3 "));
    let mut again = first_lost(example(StopAndWait, false, 1, b"A"));
    again.s.times = [2_000_000, 0, 2_000_000, 1_000_000];
    list.push((again, " ended 1 7000000\ns 1 0 4294967295 0 6 5\nv 1 1 5 4 0\nd 5 0 "));
    // an ACK taken twice gives one sample
    let mut twice = first_lost(example(SelectiveRepeat, false, 4, b"ABC"));
    twice.s.chances[1] = 1.0;
    list.push((twice, " ended 1 1005000000\n"));
    // a ceiling met in mid-window: the sender counts all of the window
    let mut mid = first_lost(example(GoBackN, false, 4, b"ABCD"));
    mid.s.ceiling = 2;
    list.push((mid, " ended 0 1000000000\ns 4 0 4 8 4\n"));
    // a deadline equal to the limit is served, one past it isn't
    let mut just = example(StopAndWait, false, 1, b"A");
    just.s.limit = 5_000_000;
    list.push((just.clone(), " ended 1 5000000\n"));
    just.s.limit = 4_999_999;
    list.push((just, " ended 0 4999999\n"));
    // the empty file is one empty chunk
    list.push((example(GoBackN, false, 2, b""), " ended 1 5000000\n"));
    // RTO 0: a timeout a round until the ceiling
    let mut zero = example(StopAndWait, false, 1, b"A");
    zero.s.times = [0, 0, 0, 1_000_000];
    zero.s.ceiling = 5;
    list.push((zero, " ended 0 0\n"));
    list
}

const EACH: [(Protocol, bool); 5] =
    [(Protocol::StopAndWait, false), (Protocol::GoBackN, false), (Protocol::SelectiveRepeat, false), (Protocol::StopAndWait, true), (Protocol::GoBackN, true)];

// The added ends of both directions, in every protocol on both clocks.
fn ends() -> Vec<(Case, &'static str)> {
    let mut list = vec![];
    for (protocol, edition) in EACH {
        let mut add = |change: &dyn Fn(&mut Case), start| {
            let mut c = small(protocol, edition);
            change(&mut c);
            list.push((c, start));
        };
        // one less than are under way at once
        let few = (protocol != Protocol::StopAndWait) as usize;
        add(&|_| (), " ended 1 ");
        add(&|c| c.s.delays = [0, 0, 0], " ended 1 0\n");
        add(&|c| c.forward.count = 15, " rolls spent 0 ");
        add(&|c| c.reverse.count = 15, " rolls spent 0 ");
        add(&|c| c.sizes[4] = 1, " events full 0 ");
        add(&|c| c.sizes[5] = few, " schedule full 0 ");
        add(&|c| c.sizes[6] = few * PLACE + PLACE - 1, " schedule full 0 ");
        add(&|c| c.sizes[7] = few, " schedule full 0 ");
        add(&|c| c.sizes[8] = few * PLACE + PLACE - 1, " schedule full 0 ");
        add(&|c| (c.s.chances[1], c.sizes[5]) = (1.0, 1), " schedule full 0 0\n");
    }
    list
}

// The first packet lost, duplicated, held back, damaged in its payload, or damaged unseen in its length (K4), in every protocol on both clocks; J1's jitter.
fn faults() -> Vec<(Case, &'static str)> {
    let j1 = 6_004_799_503_160_661.0 / 9007199254740992.0;
    let damaged = |byte: f64, bit: f64| (3, [byte / 12.0, bit / 8.0]);
    let mut list = vec![];
    for (protocol, edition) in EACH {
        for (chance, [byte, bit]) in [(0, [0.0; 2]), (1, [0.0; 2]), (2, [0.0; 2]), damaged(10.5, 3.5), damaged(7.5, 1.5)] {
            let mut c = example(protocol, edition, 2, &[0xFF, 0xFD, 0xFF, 0xFD, 0x41]);
            (c.s.chunk, c.s.chances, c.s.delays) = (2, [0.5; 4], [7, 5, 2]);
            let mut rolls = vec![0.75, 0.75, 0.75, 0.75, byte, bit, j1, 0.25];
            rolls[chance] = 0.25;
            c.forward = Draws { literal: rolls, ..Draws::new(800, 2, 0.75f64.to_bits()) };
            list.push((c, " ended 1 "));
        }
    }
    list
}

// Each of the lines 9, 11, 4 and 5 made true or not, in every protocol: the first of them is the answer.
fn starts() -> Vec<(Case, u64)> {
    let mut list = vec![];
    for protocol in [Protocol::StopAndWait, Protocol::GoBackN, Protocol::SelectiveRepeat] {
        for mask in 0..16 {
            let mut c = small(protocol, false);
            let mut first = 0;
            if mask & 1 != 0 {
                c.sizes[2] -= 1;
                first = 5;
            }
            if mask & 2 != 0 {
                c.s.chunk = 1401;
                first = 4;
            }
            if mask & 4 != 0 {
                c.reverse.literal = vec![1.0];
                first = 11;
            }
            if mask & 8 != 0 {
                c.sizes[0] -= 1;
                first = 9;
            }
            list.push((c, first));
        }
    }
    list
}

fn small(protocol: Protocol, edition: bool) -> Case {
    let mut c = example(protocol, edition, 2, b"ABC");
    c.sizes = [if protocol == Protocol::StopAndWait { SLOT } else { 2 * SLOT }, 2 * SLOT, 3, 3, 4, 4, 4 * PLACE, 4, 4 * PLACE, 2, 2];
    (c.forward.count, c.reverse.count) = (32, 32);
    c
}

// What a start looks at, at its bound and past it.
fn bounds() -> Vec<(Case, u64)> {
    use Protocol::*;
    let mut list = vec![];
    let mut both = |c: Case, number: u64, at: &dyn Fn(&mut Case), past: &dyn Fn(&mut Case)| {
        let (mut a, mut b) = (c.clone(), c);
        at(&mut a);
        past(&mut b);
        list.push((a, 0));
        list.push((b, number));
    };
    let up = |x: f64| f64::from_bits(x.to_bits() + 1);
    for i in 0..4 {
        both(small(StopAndWait, false), 4, &|c| c.s.chances[i] = 1.0, &|c| c.s.chances[i] = up(1.0));
        both(small(StopAndWait, false), 4, &|c| c.s.chances[i] = -0.0, &|c| c.s.chances[i] = -f64::from_bits(1));
        both(small(GoBackN, true), 4, &|_| (), &|c| c.s.times[i] += 1);
        both(small(StopAndWait, true), 4, &|_| (), &|c| c.s.factors[i] = up(c.s.factors[i]));
        let most = if i < 2 { 1.0 } else { 16.0 };
        both(small(GoBackN, false), 4, &|c| c.s.factors[i] = most, &|c| c.s.factors[i] = up(most));
        both(small(GoBackN, false), 4, &|c| c.s.factors[i] = 0.0, &|c| c.s.factors[i] = f64::NAN);
    }
    for i in 0..3 {
        both(small(StopAndWait, false), 4, &|c| c.s.delays[i] = 60_000, &|c| c.s.delays[i] = 60_001);
        let day = |c: &mut Case, t: u64| (c.s.times[i], c.s.times[2]) = (t, t);
        both(small(SelectiveRepeat, false), 4, &|c| day(c, DAY), &|c| day(c, DAY + 1));
    }
    both(small(StopAndWait, false), 4, &|c| c.s.times[3] = 1_000_000_000, &|c| c.s.times[3] = 1_000_000_001);
    both(small(StopAndWait, false), 4, &|c| c.s.times[1] = c.s.times[2], &|c| c.s.times[1] = c.s.times[2] + 1);
    both(small(StopAndWait, false), 4, &|c| c.s.limit = DAY, &|c| c.s.limit = DAY + 1);
    both(small(StopAndWait, false), 4, &|c| c.s.window = 32, &|c| c.s.window = 33);
    both(small(StopAndWait, false), 4, &|c| c.s.window = 1, &|c| c.s.window = 0);
    both(small(GoBackN, false), 4, &|c| c.s.window = 1, &|c| c.s.window = 0);
    both(small(SelectiveRepeat, false), 4, &|c| c.s.chunk = 1400, &|c| c.s.chunk = 1401);
    both(small(SelectiveRepeat, false), 4, &|c| c.s.chunk = 1, &|c| c.s.chunk = 0);
    both(small(SelectiveRepeat, true), 4, &|c| c.s.edition = false, &|_| ());
    both(small(GoBackN, false), 9, &|_| (), &|c| c.sizes[0] -= 1);
    both(small(GoBackN, false), 9, &|c| c.sizes[1] = 0, &|c| c.sizes[9] += 1);
    both(small(StopAndWait, false), 9, &|c| c.sizes[1] = 0, &|c| c.sizes[0] -= 1);
    both(small(StopAndWait, false), 9, &|c| (c.sizes[9], c.sizes[10]) = (0, 0), &|c| c.sizes[10] -= 1);
    both(small(SelectiveRepeat, false), 9, &|_| (), &|c| c.sizes[1] -= 1);
    both(small(SelectiveRepeat, false), 5, &|_| (), &|c| (c.sizes[9], c.sizes[10]) = (1, 1));
    both(small(SelectiveRepeat, false), 5, &|_| (), &|c| c.sizes[3] -= 1);
    both(small(GoBackN, false), 11, &|c| c.forward.literal = vec![HIGHEST], &|c| c.forward.literal = vec![1.0]);
    both(small(GoBackN, false), 11, &|c| c.reverse.literal = vec![-0.0], &|c| c.reverse.literal = vec![-f64::from_bits(1)]);
    both(small(GoBackN, false), 11, &|_| (), &|c| (c.forward.at, c.forward.literal) = (31, vec![f64::NAN]));
    // 65,536 chunks and 65,537: the notes are too few for both
    let mut many = small(GoBackN, false);
    many.file = File::Made(65_536, 3);
    list.push((many.clone(), 5));
    many.file = File::Made(65_537, 3);
    list.push((many, 4));
    list
}

// ---- the sample for the gate

// Shorter than the bulk's: a few chunks, so that the lists stay small.
fn sample_case(g: &mut Gen, kind: &str) -> Case {
    loop {
        let c = random_case(g, kind);
        let small = c.file.len() <= if g.one_in(20) { 3000 } else { 40 };
        if small && c.s.ceiling.min(200) <= 10 && c.sizes[6] <= 40 * PLACE {
            return c;
        }
        if kind == "start" && c.file.len() > 65_000 && g.one_in(3) {
            return c;
        }
    }
}

// Only the lines that differ from those before.
fn put(c: &Case, before: &mut [String; 7], cases: &mut Cases, seen: &mut Seen) {
    let lines = c.lines();
    for (line, old) in lines.iter().zip(before.iter()) {
        if line != old {
            for part in line.lines() {
                cases.case(part.to_string(), String::new());
            }
        }
    }
    *before = lines;
    cases.case("r".to_string(), answered(c, CEILINGS, seen));
}

// How the answer starts, by the number of the refusal; empty for none.
const REFUSED: [&str; 12] = ["", "", "", "", " refused 4\n", " refused 5\n", "", "", "", " refused 9\n", "", " refused 11\n"];

fn sample(dir: &str, seed: u64) {
    let mut g = Gen(seed);
    let mut cases = Cases::new("transfer", seed);
    let mut before: [String; 7] = Default::default();
    let mut seen = Seen::default();
    let mut directed: Vec<_> = examples().into_iter().chain(ends()).chain(faults()).collect();
    directed.extend(starts().into_iter().chain(bounds()).map(|(c, number)| (c, REFUSED[number as usize])));
    for (c, start) in directed {
        let text = answered(&c, CEILINGS, &mut Seen::default());
        assert!(text.starts_with(start) && (!start.is_empty() || !text.starts_with(" refused")), "{}\n{text}", c.input());
        put(&c, &mut before, &mut cases, &mut seen);
    }
    let Seen { damaged, premature, at_limit, exhausted, faults, .. } = seen;
    assert!(faults.iter().chain(&[damaged, premature, at_limit, exhausted]).all(|&n| n > 0));
    for (kind, count) in [("source", 30), ("ends", 60), ("edition", 40), ("start", 20)] {
        for _ in 0..count {
            let c = sample_case(&mut g, kind);
            put(&c, &mut before, &mut cases, &mut seen);
        }
    }
    bad_lines(&mut cases);
    assert!(seen.ends.iter().all(|&n| n > 0) && [4, 5, 9, 11].iter().all(|&i| seen.refused[i] > 0));
    print_seen("sample", &seen);
    cases.save(dir);
}

fn list(dir: &str, seed: u64) {
    let mut g = Gen(seed);
    let mut cases = Cases::new("transfer", seed);
    let mut before: [String; 7] = Default::default();
    let mut seen = Seen::default();
    while !cases.is_full() {
        for kind in ["source", "ends", "edition", "start"] {
            put(&random_case(&mut g, kind), &mut before, &mut cases, &mut seen);
        }
    }
    print_seen("list", &seen);
    cases.save(dir);
}

// Packets of a long run: its chunks, and those that may be sent again. For crates/transfer_cases: NOTES 65,536, OUTPUT 65,536, EVENTS LONG, ROLLS 16 * LONG.
const LONG: usize = 65_536 + 4_000;

fn long(dir: &str) {
    let mut cases = Cases::new("transfer", 0);
    let mut before: [String; 7] = Default::default();
    let mut seen = Seen::default();
    for (protocol, edition) in EACH {
        let mut c = example(protocol, edition, 32, b"");
        c.file = File::Made(65_536, 1);
        (c.sizes[2], c.sizes[3], c.sizes[4]) = (65_536, 65_536, LONG);
        c.s.ceiling = 4_000;
        // a timeout of the edition clock costs seconds
        c.s.chances = if edition { [0.0, 0.01, 0.0, 0.0] } else { [0.0005, 0.01, 0.0, 0.0005] };
        (c.forward, c.reverse) = (Draws::new(8 * LONG, 0, 1), Draws::new(16 * LONG, 0, 2));
        put(&c, &mut before, &mut cases, &mut seen);
    }
    assert!(seen.completed == 5 && seen.ends[0] == 5);
    print_seen("long", &seen);
    cases.save(dir);
}

// Lines of another form, and numbers past what the replay has.
fn bad_lines(cases: &mut Cases) {
    let own = ["p 3 0 1 1 1 1", "p 0 2 1 1 1 1", "p 0 0 1 1 1", "c 0 0 0 0 0 0", "t 0 0 0 0 0 0 0", "m 46337 0 0 0 0 0 0 0 0 0 0", "m 0 0 0 0 0 0 0 0 0 0 65", "m 0", "f 65601 1", "f 1", "g 8193 0 0", "h 1 0", "i 1", "j", "r 1"];
    for line in BAD_LINES.iter().chain(&own) {
        cases.case(line.to_string(), " bad line".to_string());
    }
}

fn main() {
    let args: Vec<String> = std::env::args().collect();
    let arg = |i: usize| args.get(i).map(|s| s.as_str());
    let number = |i: usize, default: u64| arg(i).map_or(default, |s| s.parse().expect("a number"));
    match arg(1) {
        Some("--sample") => sample(&args[2], number(3, 13)),
        Some("--list") => list(&args[2], number(3, 1)),
        Some("--long") => long(&args[2]),
        Some("--bulk") => bulk(&args[2], &args[3], number(4, 2000), number(5, 1)),
        _ => panic!("usage: transfer --sample DIR [SEED] | transfer --list DIR SEED | transfer --long DIR | transfer --bulk PROGRAM KIND RUNS [SEED]"),
    }
}
