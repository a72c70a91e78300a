//! `rustc --edition 2021 -O --test rust/tests.rs -L native=crates/pindrelo/out -l static=pindrelo -o target/rust_tests`
mod pindrelo;
use pindrelo::{Clock, End, Estimator, EstimatorSetup, Event, Line, Packet, PacketKind, Protocol, Receiver, Refusal};
use pindrelo::{RunSetup, Sender, SingleTimer, Timers, OUTCOME_WORDS};
use pindrelo::{ACK_SIZE, HEADER_SIZE, MAX_DATAGRAM, MAX_DURATION, MAX_PAYLOAD, MAX_TIME, MAX_WINDOW};

const PROTOCOLS: [Protocol; 3] = [Protocol::StopAndWait, Protocol::GoBackN, Protocol::SelectiveRepeat];

struct Rng(u64);

impl Rng {
    fn below(&mut self, n: usize) -> usize {
        self.0 ^= self.0 << 13;
        self.0 ^= self.0 >> 7;
        self.0 ^= self.0 << 17;
        (self.0.wrapping_mul(0x2545F4914F6CDD1D) >> 33) as usize % n
    }
}

/// A line in memory that loses, repeats, swaps and flips (not in the length bytes).
fn impaired(rng: &mut Rng, line: &mut Vec<Vec<u8>>, d: &[u8]) {
    if rng.below(100) < 10 {
        return;
    }
    for _ in 0..1 + (rng.below(100) < 10) as usize {
        let mut d = d.to_vec();
        if rng.below(100) < 10 {
            let i = rng.below(d.len() - 2);
            d[if i < 6 { i } else { i + 2 }] ^= 1 << rng.below(8);
        }
        let at = if rng.below(100) < 20 { rng.below(line.len() + 1) } else { line.len() };
        line.insert(at, d);
    }
}

fn transfer(p: Protocol, window: usize, file: &[u8], seed: u64) -> Vec<u8> {
    let mut rng = Rng(seed | 1);
    let mut s = Sender::new(p, window, u32::MAX).unwrap();
    let mut r = Receiver::new(p, window, vec![0; file.len()]).unwrap();
    let (mut out, mut ack) = (vec![0; MAX_WINDOW * MAX_DATAGRAM], [0; ACK_SIZE]);
    let (mut there, mut back): (Vec<Vec<u8>>, Vec<Vec<u8>>) = (vec![], vec![]);
    let mut at = 0;
    while at < file.len() || s.base() != s.next() {
        while at < file.len() {
            let n = (1 + rng.below(MAX_PAYLOAD)).min(file.len() - at);
            match s.send(&file[at..at + n], &mut out).unwrap() {
                Some(length) => impaired(&mut rng, &mut there, &out[..length]),
                None => break,
            }
            at += n;
        }
        for d in std::mem::take(&mut there) {
            if let Ok(Some(_)) = r.receive(&d, &mut ack) {
                impaired(&mut rng, &mut back, &ack);
            }
        }
        for a in std::mem::take(&mut back) {
            let _ = s.acknowledge(&a);
        }
        for n in s.base()..s.next() {
            let again = match p {
                Protocol::SelectiveRepeat => s.timeout_number(n, &mut out),
                _ => s.timeout_all(&mut out),
            };
            let bytes = again.unwrap().unwrap_or(0);
            let mut i = 0;
            while i < bytes {
                let e = i + HEADER_SIZE + u16::from_be_bytes([out[i + 6], out[i + 7]]) as usize;
                impaired(&mut rng, &mut there, &out[i..e]);
                i = e;
            }
            if p != Protocol::SelectiveRepeat {
                break;
            }
        }
    }
    assert_eq!(r.filled(), file.len());
    assert_eq!(r.delivered(), r.clone().into_output());
    r.into_output()
}

#[test]
fn files_come_over_whole() {
    let mut rng = Rng(7);
    for seed in 0..10 {
        for p in PROTOCOLS {
            let window = 1 + seed as usize * 3 % MAX_WINDOW;
            let file: Vec<u8> = (0..30_000 + rng.below(1000)).map(|_| rng.below(256) as u8).collect();
            assert!(transfer(p, window, &file, seed * 77 + 5) == file);
        }
    }
}

/// One of the words changed, to a small or to any number.
fn spoil(rng: &mut Rng, words: &mut [u64]) {
    let i = rng.below(words.len());
    words[i] = if rng.below(2) == 0 { rng.below(50) as u64 } else { (rng.below(1 << 30) as u64) << rng.below(34) };
}

fn number(e: Refusal) -> usize {
    match e {
        Refusal::Short { .. } => 1,
        Refusal::Kind { .. } => 2,
        Refusal::Cut { .. } => 3,
        Refusal::Setup => 4,
        Refusal::Full => 5,
        Refusal::Long => 6,
        Refusal::Numbers => 7,
        Refusal::Counts => 8,
        Refusal::State => 9,
        Refusal::Time => 10,
        Refusal::Roll => 11,
        Refusal::Other { status } => status as usize,
    }
}

fn all_met(refused: &[u64], numbers: &[usize]) {
    assert!(numbers.iter().all(|n| refused[*n] > 0), "{refused:?}");
}

/// Any words, stores, buffers and datagrams: a call that is refused or has nothing to do changes nothing.
#[test]
fn refused_changes_nothing() {
    let mut rng = Rng(11);
    let mut refused = [0u64; 16];
    for i in 0..300_000u64 {
        let mut made = Sender::new(PROTOCOLS[rng.below(3)], [1, 4, 32][rng.below(3)], 2).unwrap();
        let mut out = vec![7u8; rng.below(40)];
        for _ in 0..rng.below(3) {
            let _ = made.send(&[1, 2, 3], &mut [0; MAX_DATAGRAM]);
        }
        let (mut words, mut store) = (*made.words(), made.store().to_vec());
        match rng.below(4) {
            0 => spoil(&mut rng, &mut words),
            1 => {
                let n = store.len().min(1404);
                store[rng.below(n)] ^= 1 << rng.below(8)
            }
            2 => store.truncate(rng.below(store.len() + 1)),
            _ => {}
        }
        let mut s = Sender::restore(words, store);
        let d: Vec<u8> = (0..rng.below(30)).map(|_| rng.below(4) as u8).collect();
        let before = (s.clone(), out.clone());
        let done = match i % 4 {
            0 => s.send(&d, &mut out).map(|x| x.is_some()),
            1 => s.acknowledge(&d).map(|x| x.is_some()),
            2 => s.timeout_number(rng.below(4) as u64, &mut out).map(|x| x.is_some()),
            _ => s.timeout_all(&mut out).map(|x| x.is_some()),
        };
        if let Err(e) = done {
            refused[number(e)] += 1;
        }
        if done != Ok(true) {
            assert!(before == (s, out), "{done:?}");
        }
    }
    all_met(&refused, &[1, 2, 3, 5, 8, 9]);
}

#[test]
fn refused_receive_changes_nothing() {
    let mut rng = Rng(13);
    let mut refused = [0u64; 16];
    for _ in 0..200_000 {
        let p = PROTOCOLS[rng.below(3)];
        let mut s = Sender::new(p, 4, 2).unwrap();
        let made = Receiver::new(p, 4, vec![]).unwrap();
        let (mut d, mut ack) = ([0; MAX_DATAGRAM], vec![7u8; rng.below(13)]);
        let n = s.send(&[1, 2, 3][..rng.below(4)], &mut d).unwrap().unwrap();
        let (mut words, mut store) = (*made.words(), made.store().to_vec());
        match rng.below(4) {
            0 => spoil(&mut rng, &mut words),
            1 => store.truncate(rng.below(store.len() + 1)),
            2 => d[rng.below(n)] ^= 1 << rng.below(8),
            _ => {}
        }
        let mut r = Receiver::restore(words, store, vec![7u8; rng.below(4)]);
        let before = (r.clone(), ack.clone());
        let cut = if rng.below(4) == 0 { rng.below(n + 1) } else { n };
        if let Err(e) = r.receive(&d[..cut], &mut ack) {
            assert!(before == (r, ack), "{e}");
            refused[number(e)] += 1;
        }
    }
    all_met(&refused, &[1, 2, 3, 5, 8, 9]);
}

#[test]
fn refused_timers_change_nothing() {
    let mut rng = Rng(17);
    let mut refused = [0u64; 16];
    for _ in 0..200_000 {
        let mut made = Timers::new(rng.below(4)).unwrap();
        for key in 0..rng.below(4) {
            let _ = made.start(2 * key as u32, 1, rng.below(5) as u64);
        }
        let (mut words, mut keys, mut deadlines) = (*made.words(), made.keys().to_vec(), made.deadlines().to_vec());
        match rng.below(6) {
            0 => spoil(&mut rng, &mut words),
            1 => keys.push(9),
            2 if !keys.is_empty() => keys[0] = 5,
            3 if !deadlines.is_empty() => deadlines[0] = MAX_TIME + 1,
            _ => {}
        }
        let mut t = Timers::restore(words, keys, deadlines);
        let mut due = vec![7; rng.below(4)];
        let now = [0, 3, 9, MAX_TIME, MAX_TIME + 1][rng.below(5)];
        let before = (t.clone(), due.clone());
        let done = match rng.below(5) {
            0 => t.start(rng.below(8) as u32, now, [0, 9, MAX_DURATION, MAX_DURATION + 1][rng.below(4)]),
            1 => t.cancel(rng.below(8) as u32).map(|_| ()),
            2 => t.pop(now, &mut due).map(|_| ()),
            3 => t.clear(),
            _ => t.earliest().map(|_| ()),
        };
        if let Err(e) = done {
            assert!(before == (t, due), "{e}");
            refused[number(e)] += 1;
        }
    }
    all_met(&refused, &[5, 9, 10]);
}

#[test]
fn timers() {
    let mut t = Timers::new(2).unwrap();
    let mut due = [0; 2];
    assert_eq!(t.earliest(), Ok(None));
    assert_eq!(t.start(u32::MAX, 100, 20), Ok(()));
    assert_eq!(t.start(4, 100, 50), Ok(()));
    assert_eq!(t.start(5, 100, 50), Err(Refusal::Full));
    assert_eq!(t.start(4, MAX_TIME + 1, 0), Err(Refusal::Time));
    assert_eq!(t.start(4, 0, MAX_DURATION + 1), Err(Refusal::Time));
    assert_eq!(t.earliest(), Ok(Some(120)));
    assert_eq!(t.pop(119, &mut due), Ok(0));
    assert_eq!(t.pop(120, &mut []), Err(Refusal::Full));
    assert_eq!(t.pop(120, &mut due), Ok(1));
    assert_eq!(due[0], u32::MAX);
    assert_eq!(t.cancel(u32::MAX), Ok(false));
    assert_eq!(t.cancel(4), Ok(true));
    assert_eq!(t.earliest(), Ok(None));
    assert_eq!((t.start(7, 100, 20), t.start(5, 100, 30)), (Ok(()), Ok(())));
    assert_eq!((t.clear(), t.earliest(), t.clear()), (Ok(()), Ok(None), Ok(())));
    assert_eq!((t.keys(), t.deadlines()), (&[0, 0][..], &[0, 0][..]));
    assert_eq!(Timers::restore([0; 3], vec![], vec![]).clear(), Err(Refusal::State));
}

#[test]
fn single_timer() {
    let mut t = SingleTimer::new().unwrap();
    assert_eq!((t.is_active(), t.remaining(0), t.is_expired(MAX_TIME)), (Ok(false), Ok(None), Ok(false)));
    assert_eq!(t.start(100, 20), Ok(()));
    let generation = t.generation();
    assert_eq!((t.is_active(), t.remaining(105), t.remaining(130)), (Ok(true), Ok(Some(15)), Ok(Some(0))));
    assert_eq!((t.is_expired(119), t.is_expired(120)), (Ok(false), Ok(true)));
    assert_eq!((t.is_expired_for(generation, 120), t.is_expired_for(generation + 1, 120)), (Ok(true), Ok(false)));
    assert_eq!(t.is_expired(MAX_TIME + 1), Err(Refusal::Time));
    let before = t.clone();
    assert_eq!(t.start(100, MAX_DURATION + 1), Err(Refusal::Time));
    assert_eq!(t, before);
    assert_eq!(t.cancel(), Ok(()));
    assert_eq!((t.is_active(), t.generation()), (Ok(false), generation + 1));
    assert_eq!(SingleTimer::restore([0; 4]).is_active(), Err(Refusal::State));
}

#[test]
fn estimator() {
    let ms = 1_000_000;
    let setup = EstimatorSetup {
        initial_rto: 1000 * ms,
        min_rto: ms,
        max_rto: 500 * ms,
        granularity: ms,
        alpha: 0.125,
        beta: 0.25,
        k: 4.0,
        rto_multiplier: 1.0,
    };
    let mut e = Estimator::new(setup).unwrap();
    assert_eq!((e.rto(), e.srtt()), (1000 * ms, None));
    assert_eq!(e.sample(100 * ms, false), Ok(true));
    assert_eq!((e.rto(), e.srtt()), (300 * ms, Some(100 * ms)));
    assert_eq!(e.sample(9 * ms, true), Ok(false));
    assert_eq!((e.timeout(), e.exceeded(1), e.exceeded(2)), (Ok(500 * ms), Ok(true), Ok(false)));
    assert_eq!((e.reset_backoff(), e.rto()), (Ok(()), 300 * ms));
    assert_eq!(e.mean(), Ok(100.0));
    let before = e.clone();
    assert_eq!(e.sample(MAX_DURATION + 1, false), Err(Refusal::Time));
    assert_eq!(e, before);
    assert_eq!(Estimator::new(EstimatorSetup { alpha: f64::NAN, ..setup }), Err(Refusal::Setup));
    assert_eq!(Estimator::new(EstimatorSetup { min_rto: 501 * ms, ..setup }), Err(Refusal::Setup));
    assert_eq!(Estimator::restore([0; 24], [0.0; 5]).timeout(), Err(Refusal::State));
    assert_eq!(Estimator::with_default_setup().unwrap().rto(), 1000 * ms);
}

/// Chunks through an output that holds one.
#[test]
fn drained() {
    let (mut d, mut ack) = ([0; MAX_DATAGRAM], [0; ACK_SIZE]);
    for p in PROTOCOLS {
        let mut s = Sender::new(p, 2, 0).unwrap();
        let mut r = Receiver::new(p, 2, vec![0; 2]).unwrap();
        for chunk in [b"ab", b"cd", b"ef"] {
            let n = s.send(chunk, &mut d).unwrap().unwrap();
            assert!(r.receive(&d[..n], &mut ack).unwrap().is_some());
            assert!(s.acknowledge(&ack).unwrap().is_some());
            assert_eq!(r.delivered(), chunk);
            assert_eq!(r.drain(), Ok(&chunk[..]));
            assert_eq!(r.filled(), 0);
            assert_eq!(r.drain(), Ok(&[][..]));
        }
        assert_eq!(Receiver::restore([0; 8], vec![], vec![]).drain(), Err(Refusal::State));
    }
}

/// Three chunks, the first of them lost: what was sent again, what is held.
#[test]
fn sent_again_and_held() {
    let (mut d, mut ack) = ([0; 4 * MAX_DATAGRAM], [0; ACK_SIZE]);
    for p in PROTOCOLS {
        let selective = p == Protocol::SelectiveRepeat;
        let count = if p == Protocol::StopAndWait { 1 } else { 3 };
        let mut s = Sender::new(p, 4, 2).unwrap();
        let mut r = Receiver::new(p, 4, vec![0; 6]).unwrap();
        assert_eq!(s.is_retransmitted(0), Ok(None));
        for i in 0..count {
            let n = s.send(b"ab", &mut d).unwrap().unwrap();
            assert_eq!(s.is_retransmitted(i), Ok(Some(false)));
            if i > 0 {
                r.receive(&d[..n], &mut ack).unwrap();
            }
        }
        assert_eq!((s.is_retransmitted(count), s.is_retransmitted(1 << 32)), (Ok(None), Ok(None)));
        assert_eq!(r.buffered_count(), Ok(if selective { 2 } else { 0 }));
        s.timeout_number(0, &mut d).unwrap().unwrap();
        for i in 0..count {
            assert_eq!(s.is_retransmitted(i), Ok(Some(i == 0 || !selective)));
        }
        r.receive(&d[..12], &mut ack).unwrap().unwrap();
        assert_eq!((r.buffered_count(), s.acknowledge(&ack)), (Ok(0), Ok(Some(0))));
        assert_eq!(s.is_retransmitted(0), Ok(None));
        assert_eq!(Sender::restore([0; 8], vec![]).is_retransmitted(0), Err(Refusal::State));
        assert_eq!(Receiver::restore([0; 8], vec![], vec![]).buffered_count(), Err(Refusal::State));
    }
}

/// linkrun's setup.
fn linkrun() -> RunSetup {
    RunSetup {
        protocol: Protocol::SelectiveRepeat,
        clock: Clock::Source,
        window: 4,
        chunk: 1,
        line: Line {
            loss: 0.0,
            duplicate: 0.0,
            reorder: 0.0,
            corrupt: 0.0,
            reorder_extra_ms: 0,
            base_delay_ms: 5,
            jitter_ms: 0,
        },
        estimator: EstimatorSetup {
            initial_rto: 1_000_000_000,
            min_rto: 1_000_000_000,
            max_rto: 60_000_000_000,
            granularity: 1_000_000,
            alpha: 0.125,
            beta: 0.25,
            k: 4.0,
            rto_multiplier: 1.0,
        },
        max_virtual_time: 60_000_000_000,
        max_retransmissions: 10,
    }
}

/// The two bytes of README's example, and each word of the outcome.
#[test]
fn one_run() {
    let o = pindrelo::run(&linkrun(), &[0xFF, 0x41], &[0.0; 96], &[0.0; 192]).unwrap();
    assert_eq!((linkrun().rolls(2), linkrun().rolls(0)), (Some((96, 192)), Some((88, 176))));
    assert_eq!((o.completed, o.end, o.finished_at, o.is_whole()), (true, End::Ended, 5_000_000, true));
    assert_eq!((o.filled(), o.delivered()), (2, &[0xFF, 0x41][..]));
    let rows: Vec<_> = o.events.iter().map(|e| (e.number, e.again, e.copies, e.delays_ms[0], e.sums[0])).collect();
    assert_eq!(rows, [(0, false, 1, 5, 765), (1, false, 1, 5, 510)]);
    let expected: [u64; OUTCOME_WORDS] = [
        1, 5_000_000, 0, 0, 0, 2, 2, 2, 0, 0, 2, 2, 2, 0, 2, 2, 2, 0, 0, 2, 0, 0, 0, 0, 2, 2, 0, 0, 0, 0, 2,
    ];
    assert_eq!(o.words(), &expected);
    assert_eq!((o.driver.acks_received, o.driver.events, o.forward.copies, o.reverse.datagrams), (2, 2, 2, 2));
    assert_eq!((o.estimator.srtt(), o.estimator.words()[13]), (Some(10_000_000), 2));
    assert!(o.estimator.clone().sample(10_000_000, false).unwrap());
}

/// The page of that run; lines with no copy and with two, the largest numbers, each bound passed.
#[test]
fn pages() {
    let page = |events: &[Event]| {
        let mut out = vec![b'#'; pindrelo::report_size(events.len()).unwrap() + 1];
        let n = pindrelo::report(events, &mut out)?;
        assert_eq!((out.pop(), n), (Some(b'#'), out.len()));
        Ok(String::from_utf8(out).unwrap())
    };
    let head = "       seqsent           delay1       delay2        fold1        fold2  \n";
    let totals = |n: [u64; 3]| format!("{:>24}{:>24}{:>24}\n", n[0], n[1], n[2]);
    assert_eq!(page(&[]), Ok(format!("{head}{}", totals([0, 0, 0]))));
    let o = pindrelo::run(&linkrun(), &[0xFF, 0x41], &[0.0; 96], &[0.0; 192]).unwrap();
    let lines = [(0, 765), (1, 510)].map(|(n, sum)| format!("{n:>10}first   {:>13}{:>26}{:>15}\n", 5, sum, ""));
    assert_eq!(page(&o.events), Ok(format!("{head}{}{}{}", lines[0], lines[1], totals([2, 2, 0]))));
    let largest =
        Event { number: u32::MAX.into(), again: true, copies: 2, delays_ms: [180_000, 0], sums: [65_535, 0] };
    let none = Event { number: 7, again: false, copies: 0, delays_ms: [u64::MAX; 2], sums: [u64::MAX; 2] };
    let full = "4294967295again          180000            0        65535            0  \n";
    assert_eq!(page(&[largest, none]), Ok(format!("{head}{full}{:>10}{:<62}\n{}", 7, "first", totals([2, 2, 1]))));
    for wrong in [
        Event { number: 1 << 32, ..largest },
        Event { copies: 3, ..largest },
        Event { sums: [65_536, 0], ..largest },
        Event { sums: [0, 65_536], ..largest },
    ] {
        assert_eq!(page(&[none, wrong]), Err(Refusal::State));
    }
    for late in [[180_001, 0], [0, 180_001]] {
        assert_eq!(page(&[Event { delays_ms: late, ..largest }]), Err(Refusal::Time));
    }
    let mut out = [b'#'; 218];
    assert_eq!(pindrelo::report(&[largest], &mut out), Err(Refusal::Full));
    assert_eq!((out, pindrelo::report_size(usize::MAX)), ([b'#'; 218], None));
}

/// Faults from a seed, both clocks: with the rolls that `rolls` names a run ends by itself, and what it says is whole
/// is the file; with fewer rolls it doesn't go on.
#[test]
fn runs() {
    let mut rng = Rng(19);
    let (mut whole, mut spent) = (0, 0);
    for i in 0..400 {
        let mut setup = linkrun();
        setup.protocol = PROTOCOLS[i % 3];
        setup.clock = if i % 3 < 2 && rng.below(2) == 0 { Clock::Edition } else { Clock::Source };
        setup.window = 1 + rng.below(MAX_WINDOW);
        setup.chunk = 1 + rng.below(MAX_PAYLOAD);
        setup.max_retransmissions = 1 + rng.below(60) as u64;
        let mut chance = || if rng.below(2) == 0 { 0.0 } else { 0.2 };
        let (loss, duplicate, reorder) = (chance(), chance(), chance());
        setup.line = Line { loss, duplicate, reorder, corrupt: chance(), reorder_extra_ms: 7, ..setup.line };
        let file: Vec<u8> = (0..rng.below(20 * setup.chunk)).map(|_| rng.below(256) as u8).collect();
        let (there, back) = setup.rolls(file.len()).unwrap();
        let mut rolls = |n: usize| -> Vec<f64> { (0..n).map(|_| rng.below(1 << 20) as f64 / 1048576.0).collect() };
        let (there, back) = (rolls(there), rolls(back));
        let o = pindrelo::run(&setup, &file, &there, &back).unwrap();
        assert_eq!(o.end, End::Ended);
        assert_eq!(o.events.len() as u64, o.forward.datagrams);
        if o.is_whole() {
            assert!(o.delivered() == file);
            whole += 1;
        }
        if setup.line.corrupt == 0.0 {
            assert!(file.starts_with(o.delivered()) && o.completed == o.is_whole());
        }
        let fewer = pindrelo::run(&setup, &file, &there[..there.len() / 2], &back).unwrap();
        assert!(fewer == o || fewer.end == End::RollsSpent && !fewer.completed);
        spent += (fewer.end == End::RollsSpent) as usize;
        let none = pindrelo::run(&setup, &file, &[], &back).unwrap();
        assert_eq!((none.end, none.filled()), (End::RollsSpent, 0));
    }
    assert!(whole > 100 && spent > 100, "{whole} {spent}");
}

#[test]
fn refused_runs() {
    let refused = |change: fn(&mut RunSetup), file: &[u8], there: &[f64]| {
        let mut setup = linkrun();
        change(&mut setup);
        pindrelo::run(&setup, file, there, &[0.0; 96]).map(|o| o.end)
    };
    assert_eq!(refused(|_| (), b"ab", &[0.0; 96]), Ok(End::Ended));
    assert_eq!(refused(|s| s.max_retransmissions = u64::MAX, b"ab", &[0.0; 96]), Ok(End::Ended));
    assert_eq!(refused(|_| (), b"ab", &[1.0]), Err(Refusal::Roll));
    assert_eq!(refused(|_| (), b"ab", &[f64::NAN]), Err(Refusal::Roll));
    assert_eq!(refused(|_| (), &[0; 65_537], &[]), Err(Refusal::Setup));
    for change in [
        (|s| s.window = 0) as fn(&mut RunSetup),
        |s| s.window = MAX_WINDOW + 1,
        |s| s.window = usize::MAX,
        |s| s.chunk = 0,
        |s| s.chunk = MAX_PAYLOAD + 1,
        |s| s.clock = Clock::Edition,
        |s| s.line.loss = 1.5,
        |s| s.line.corrupt = f64::NAN,
        |s| s.line.jitter_ms = 60_001,
        |s| s.estimator.k = -1.0,
        |s| s.max_virtual_time = MAX_DURATION + 1,
    ] {
        assert_eq!(refused(change, b"ab", &[0.0; 96]), Err(Refusal::Setup));
    }
    let mut setup = linkrun();
    setup.max_retransmissions = u64::MAX;
    assert_eq!(setup.rolls(1), None);
}

#[test]
fn packets() {
    let mut d = [7; MAX_DATAGRAM];
    let fin = Packet { number: u32::MAX, kind: PacketKind::Fin, flags: 0x81 };
    assert_eq!(pindrelo::write(fin, b"abc", &mut d), Ok(13));
    assert_eq!(pindrelo::read(&d), Ok(fin));
    assert_eq!(pindrelo::validate(&d), Ok(true));
    assert_eq!(pindrelo::payload(&d), Ok(&b"abc"[..]));
    assert_eq!(pindrelo::payload(&d[..12]), Err(Refusal::Cut { declared: 3, present: 2 }));
    assert_eq!(pindrelo::read(&d[..9]), Err(Refusal::Short { length: 9 }));
    d[12] ^= 1;
    assert_eq!(pindrelo::validate(&d), Ok(false));
    assert_eq!(pindrelo::write(fin, &[0; MAX_PAYLOAD + 1], &mut d), Err(Refusal::Long));
    assert_eq!(pindrelo::write(fin, b"abc", &mut d[..12]), Err(Refusal::Full));
    d[4] = 4;
    assert_eq!(pindrelo::read(&d), Err(Refusal::Kind { byte: 4 }));
}

/// A sender and a receiver that are saved and restored go on.
#[test]
fn saved_states() {
    let (mut d, mut ack) = ([0; MAX_DATAGRAM], [0; ACK_SIZE]);
    for p in PROTOCOLS {
        let mut s = Sender::new(p, 2, 0).unwrap();
        let mut r = Receiver::new(p, 2, vec![0; 4]).unwrap();
        for (i, chunk) in [b"ab", b"cd"].into_iter().enumerate() {
            s = Sender::restore(*s.words(), s.store().to_vec());
            let n = s.send(chunk, &mut d).unwrap().unwrap();
            let mut output = r.delivered().to_vec();
            output.resize(4, 0);
            r = Receiver::restore(*r.words(), r.store().to_vec(), output);
            assert_eq!(r.receive(&d[..n], &mut ack), Ok(Some(i as u32)));
            assert_eq!(s.in_flight(), Ok(1));
            assert_eq!(s.acknowledge(&ack), Ok(Some(i as u32)));
        }
        assert_eq!(r.delivered(), b"abcd");
    }
}

/// Of every status there is: done, refused, or nothing to do.
#[test]
fn statuses() {
    assert_eq!(pindrelo::answer(3 << 8), Ok(Some(3)));
    assert_eq!(pindrelo::answer(3 | 5 << 8 | 4 << 24), Err(Refusal::Cut { declared: 5, present: 4 }));
    for status in 1..16 {
        assert_eq!(pindrelo::answer(status).map_err(number), Err(status as usize));
    }
    for status in 16..256 {
        assert_eq!(pindrelo::answer(status), Ok(None));
    }
}

#[test]
fn states_that_are_none() {
    let mut out = [0; MAX_DATAGRAM];
    // zeros, another version, a receiver's words, numbers above 32 bits
    let made = Sender::new(Protocol::GoBackN, 4, 0).unwrap();
    for spoil in [
        |w: &mut [u64; 8]| *w = [0; 8],
        |w: &mut [u64; 8]| w[0] += 256,
        |w: &mut [u64; 8]| *w = *Receiver::new(Protocol::GoBackN, 4, vec![]).unwrap().words(),
        |w: &mut [u64; 8]| (w[2], w[3]) = (1 << 32, 1 << 32),
    ] {
        let mut words = *made.words();
        spoil(&mut words);
        let mut s = Sender::restore(words, made.store().to_vec());
        assert_eq!(s.send(b"x", &mut out), Err(Refusal::State));
        assert_eq!(s.can_send(), Err(Refusal::State));
    }
    // a fill mark above the output
    let mut words = *Receiver::new(Protocol::GoBackN, 4, vec![]).unwrap().words();
    words[3] = u64::MAX;
    let mut r = Receiver::restore(words, vec![], vec![0; 9]);
    assert_eq!(r.delivered(), b"");
    assert_eq!(r.receive(&[], &mut []), Err(Refusal::State));
}

#[test]
fn windows() {
    for p in PROTOCOLS {
        for window in [0, 33, 34, usize::MAX / 1404 + 2, usize::MAX] {
            assert_eq!(Sender::new(p, window, 0), Err(Refusal::Setup));
            assert_eq!(Receiver::new(p, window, vec![]), Err(Refusal::Setup));
        }
        for window in 1..=MAX_WINDOW {
            assert_eq!(Sender::new(p, window, 0).unwrap().can_send(), Ok(true));
            assert!(Receiver::new(p, window, vec![]).is_ok());
        }
    }
}
