// A run of document 01, over the reference's own parts: what `run_transfer` of the reference does, with what is added to it (the checks at the
// start, three more ends, the edition clock) and what lies in the lent memory afterwards. Written from the papers and the reference, not from the
// project's code; compare/transfer.rs holds it to the reference's `run_transfer` wherever nothing is added.
use rand;
use reference::arq::{GoBackNReceiver, GoBackNSender, SelectiveRepeatReceiver, SelectiveRepeatSender, StopAndWaitReceiver, StopAndWaitSender};
use reference::channel::scheduler::ChannelScheduler;
use reference::channel::{Channel, ChannelConfig, ChannelStats, Delivery};
use reference::packet::{Packet, PacketType};
use reference::timing::{RetransmissionTimer, RtoConfig, RtoEstimator};
use std::collections::{BTreeMap, BTreeSet, VecDeque};
use std::time::{Duration, Instant};

pub const SLOT: usize = 1404;
pub const PLACE: usize = 1410;
pub const DAY: u64 = 86_400_000_000_000;

#[derive(Clone, Copy, Debug, PartialEq)]
pub enum Protocol {
    StopAndWait,
    GoBackN,
    SelectiveRepeat,
}

#[derive(Clone, Debug)]
pub struct Setup {
    pub protocol: Protocol,
    pub edition: bool,
    pub window: u64,
    pub chunk: u64,
    // ns
    pub limit: u64,
    pub ceiling: u64,
    // loss, duplicate, reorder, corrupt
    pub chances: [f64; 4],
    // ms: reorder_extra, base, jitter
    pub delays: [u64; 3],
    // ns: initial, min, max, granularity
    pub times: [u64; 4],
    // alpha, beta, k, multiplier
    pub factors: [f64; 4],
}

pub const EDITION_TIMES: [u64; 4] = [1_000_000_000, 1_000_000_000, 60_000_000_000, 1_000_000];
pub const EDITION_FACTORS: [f64; 4] = [0.125, 0.25, 4.0, 1.0];

// The lent slices, in the order of the replay's line m.
#[derive(Clone, PartialEq)]
pub struct Memory {
    pub sender: Vec<u8>,
    pub receiver: Vec<u8>,
    pub output: Vec<u8>,
    pub notes: Vec<[u64; 7]>,
    pub events: Vec<[u64; 7]>,
    pub forward_records: Vec<[u64; 4]>,
    pub forward_places: Vec<u8>,
    pub reverse_records: Vec<[u64; 4]>,
    pub reverse_places: Vec<u8>,
    pub keys: Vec<u32>,
    pub deadlines: Vec<u64>,
}

#[derive(Clone, Copy, Debug, PartialEq)]
pub enum End {
    Ended,
    RollsSpent,
    EventsFull,
    ScheduleFull,
}

// What ends a run besides: moments, rounds at one moment; whether the reference has them too.
#[derive(Clone, Copy)]
pub struct Ceilings {
    pub steps: u32,
    pub rounds: u32,
    pub are_theirs: bool,
}

pub const CEILINGS: Ceilings = Ceilings { steps: 1_000_000, rounds: 100_000, are_theirs: true };

// ---- the checks at the start, in the order 9, 11, 4, 5

pub fn chunk_count(file: usize, chunk: u64) -> u64 {
    if file == 0 { 1 } else { (file as u64).div_ceil(chunk) }
}

fn window_of(s: &Setup) -> u64 {
    if s.protocol == Protocol::StopAndWait { 1 } else { s.window }
}

fn nine(s: &Setup, m: &Memory) -> bool {
    let short = |store: &[u8]| ((store.len() / SLOT) as u64) < window_of(s);
    m.keys.len() != m.deadlines.len() || short(&m.sender) || s.protocol == Protocol::SelectiveRepeat && short(&m.receiver)
}

fn four(s: &Setup, file: usize) -> bool {
    let unit = |x: f64| x >= 0.0 && x <= 1.0;
    let factor = |x: f64| x >= 0.0 && x <= 16.0;
    let [initial, min, max, granularity] = s.times;
    let [alpha, beta, k, multiplier] = s.factors;
    let edition = s.protocol != Protocol::SelectiveRepeat && s.times == EDITION_TIMES && s.factors == EDITION_FACTORS;
    !(1..=32).contains(&s.window)
        || !(1..=1400).contains(&s.chunk)
        || chunk_count(file, s.chunk) > 65_536
        || !s.chances.iter().all(|&x| unit(x))
        || s.delays.iter().any(|&d| d > 60_000)
        || initial > DAY
        || min > DAY
        || max > DAY
        || min > max
        || granularity > 1_000_000_000
        || !unit(alpha)
        || !unit(beta)
        || !factor(k)
        || !factor(multiplier)
        || s.limit > DAY
        || s.edition && !edition
}

fn five(s: &Setup, file: usize, m: &Memory) -> bool {
    m.output.len() < file || (m.notes.len() as u64) < chunk_count(file, s.chunk) || s.protocol == Protocol::SelectiveRepeat && (m.keys.len() as u64) < s.window
}

// The number of the first line that is true at the start; 0 if none is.
pub fn refusal(s: &Setup, file: usize, rolls: [&[f64]; 2], m: &Memory) -> u64 {
    let eleven = rolls.iter().any(|r| r.iter().any(|&x| !(x >= 0.0 && x < 1.0)));
    if nine(s, m) {
        9
    } else if eleven {
        11
    } else if four(s, file) {
        4
    } else if five(s, file, m) {
        5
    } else {
        0
    }
}

// ---- the parts

enum SenderEnd {
    Sw(StopAndWaitSender),
    Gbn(GoBackNSender),
    Sr(SelectiveRepeatSender),
}

enum ReceiverEnd {
    Sw(StopAndWaitReceiver),
    Gbn(GoBackNReceiver),
    Sr(SelectiveRepeatReceiver),
}

struct Waiting {
    time: u64,
    order: u64,
    place: usize,
    data: Vec<u8>,
}

// The reference's schedule, and where its copies lie: a copy takes the lowest place that is free.
struct Schedule {
    theirs: ChannelScheduler,
    waiting: Vec<Waiting>,
    next_order: u64,
    records: usize,
    places: usize,
    epoch: Instant,
}

impl Schedule {
    fn new(epoch: Instant, records: usize, bytes: usize) -> Schedule {
        Schedule { theirs: ChannelScheduler::new(), waiting: vec![], next_order: 0, records, places: bytes / PLACE, epoch }
    }
    fn room(&self) -> usize {
        (self.places - self.waiting.len()).min(self.records - self.waiting.len())
    }
    fn put(&mut self, now: u64, deliveries: Vec<Delivery>) {
        for d in &deliveries {
            let place = (0..).find(|p| self.waiting.iter().all(|w| w.place != *p)).unwrap();
            self.waiting.push(Waiting { time: now + d.delay_ms * 1_000_000, order: self.next_order, place, data: d.data.clone() });
            self.next_order += 1;
        }
        self.waiting.sort_by_key(|w| (w.time, w.order));
        self.theirs.schedule_at(self.epoch + Duration::from_nanos(now), deliveries);
    }
    fn pop(&mut self, now: u64) -> Option<Vec<u8>> {
        let got = self.theirs.pop_ready_at(self.epoch + Duration::from_nanos(now));
        assert_eq!(got.is_some(), self.waiting.first().is_some_and(|w| w.time <= now));
        if let Some(bytes) = &got {
            assert_eq!(*bytes, self.waiting.remove(0).data);
        }
        assert_eq!(self.theirs.len(), self.waiting.len());
        got
    }
    fn next_deadline(&self) -> Option<u64> {
        self.theirs.next_deadline().map(|t| (t - self.epoch).as_nanos() as u64)
    }
    fn write(&self, records: &mut [[u64; 4]], places: &mut [u8]) {
        records.fill([0; 4]);
        places[..self.places * PLACE].fill(0);
        for (i, w) in self.waiting.iter().enumerate() {
            records[i] = [w.time, w.order, w.data.len() as u64, w.place as u64];
            places[w.place * PLACE..w.place * PLACE + w.data.len()].copy_from_slice(&w.data);
        }
    }
}

// SegMeta.
#[derive(Clone)]
struct Note {
    original_send_at: u64,
    last_send_at: u64,
    rto_at_send: u64,
    ever_retransmitted: bool,
    original_dropped: bool,
    ack_scheduled: bool,
    rtt_sampled: bool,
}

struct Driver<'a> {
    s: &'a Setup,
    rolls: [&'a [f64]; 2],
    used: [usize; 2],
    chunks: Vec<Vec<u8>>,
    pending: VecDeque<Vec<u8>>,
    total_chunks: u32,
    sender: SenderEnd,
    // the edition clock sends only the earliest of a Go-Back-N window, which the reference's sender has no call for: counted here
    extra: u64,
    flagged: BTreeSet<u32>,
    acked: BTreeSet<u32>,
    receiver: ReceiverEnd,
    held: BTreeMap<u32, Vec<u8>>,
    delivered: Vec<u8>,
    delivered_chunks: u32,
    channels: [Channel; 2],
    forward: Schedule,
    reverse: Schedule,
    estimator: RtoEstimator,
    timer: RetransmissionTimer,
    timers: BTreeMap<u32, u64>,
    notes: Vec<Note>,
    events: Vec<[u64; 7]>,
    event_rows: usize,
    epoch: Instant,
    completed: bool,
    exhausted: bool,
    retx_submitted: u64,
    premature: u64,
    data_received: u64,
    ack_sent: u64,
    ack_received: u64,
    duplicate_data: u64,
    duplicate_acks: u64,
}

// What a run answers, as the replay prints it; `seen` for the checks against the unchanged reference.
pub struct Outcome {
    pub end: End,
    pub completed: bool,
    pub finished_at: u64,
    pub sender: Vec<u64>,
    pub receiver: Vec<u64>,
    // retx_submitted, premature, data_received, ack_sent, ack_received, duplicate_data, duplicate_acks
    pub driver: [u64; 7],
    pub sent: [u64; 2],
    pub estimator: RtoEstimator,
    pub channels: [ChannelStats; 2],
    pub events: Vec<[u64; 7]>,
    pub delivered: Vec<u8>,
    pub used: [usize; 2],
    pub segments: u32,
}

fn nanos(d: Duration) -> u64 {
    d.as_nanos() as u64
}

fn channel(s: &Setup, reverse: bool) -> Channel {
    let chance = |i: usize| if reverse { 0.0 } else { s.chances[i] };
    let [reorder_extra_ms, base_delay_ms, jitter_ms] = s.delays;
    Channel::new(ChannelConfig { seed: 100 + reverse as u64, loss: chance(0), duplicate: chance(1), reorder: chance(2), corrupt: chance(3), reorder_extra_ms, base_delay_ms, jitter_ms })
}

fn estimator(s: &Setup) -> RtoEstimator {
    let [initial_rto, min_rto, max_rto, granularity] = s.times.map(Duration::from_nanos);
    let [alpha, beta, k, rto_multiplier] = s.factors;
    RtoEstimator::with_config(RtoConfig { initial_rto, min_rto, max_rto, granularity, alpha, beta, k, rto_multiplier })
}

impl<'a> Driver<'a> {
    // The chunks are handed over: document 01 speaks of an empty list too, which no file makes.
    fn new(s: &'a Setup, chunks: Vec<Vec<u8>>, rolls: [&'a [f64]; 2], m: &Memory) -> Driver<'a> {
        let window = window_of(s) as usize;
        let (sender, receiver) = match s.protocol {
            Protocol::StopAndWait => (SenderEnd::Sw(StopAndWaitSender::new(u32::MAX)), ReceiverEnd::Sw(StopAndWaitReceiver::new())),
            Protocol::GoBackN => (SenderEnd::Gbn(GoBackNSender::new(window)), ReceiverEnd::Gbn(GoBackNReceiver::new())),
            Protocol::SelectiveRepeat => (SenderEnd::Sr(SelectiveRepeatSender::new(window)), ReceiverEnd::Sr(SelectiveRepeatReceiver::new(window))),
        };
        rand::clear();
        let epoch = Instant::now();
        Driver {
            s,
            rolls,
            used: [0, 0],
            pending: chunks.clone().into(),
            total_chunks: chunks.len() as u32,
            chunks,
            sender,
            extra: 0,
            flagged: BTreeSet::new(),
            acked: BTreeSet::new(),
            receiver,
            held: BTreeMap::new(),
            delivered: vec![],
            delivered_chunks: 0,
            channels: [channel(s, false), channel(s, true)],
            forward: Schedule::new(epoch, m.forward_records.len(), m.forward_places.len()),
            reverse: Schedule::new(epoch, m.reverse_records.len(), m.reverse_places.len()),
            estimator: estimator(s),
            timer: RetransmissionTimer::new(),
            timers: BTreeMap::new(),
            notes: vec![],
            events: vec![],
            event_rows: m.events.len(),
            epoch,
            completed: false,
            exhausted: false,
            retx_submitted: 0,
            premature: 0,
            data_received: 0,
            ack_sent: 0,
            ack_received: 0,
            duplicate_data: 0,
            duplicate_acks: 0,
        }
    }
    fn at(&self, now: u64) -> Instant {
        self.epoch + Duration::from_nanos(now)
    }

    // The reference's loop, one to one; a stop is an end that it doesn't have.
    fn run(&mut self, ceilings: Ceilings) -> (End, u64) {
        let mut now = 0;
        let mut steps = 0;
        let mut completed_at = None;
        loop {
            steps += 1;
            if steps > ceilings.steps || self.exhausted || now > self.s.limit {
                return (End::Ended, completed_at.unwrap_or(now));
            }
            let mut rounds = 0;
            loop {
                rounds += 1;
                if rounds > ceilings.rounds {
                    return (End::Ended, completed_at.unwrap_or(now));
                }
                let mut progress = false;
                while let Some(bytes) = self.forward.pop(now) {
                    progress = true;
                    let stop = self.on_forward(now, &bytes);
                    if self.completed && completed_at.is_none() {
                        completed_at = Some(now);
                    }
                    if let Err(end) = stop {
                        return (end, completed_at.unwrap_or(now));
                    }
                }
                while let Some(bytes) = self.reverse.pop(now) {
                    progress = true;
                    self.on_ack(now, &bytes);
                }
                match self.fire_timers(now) {
                    Err(end) => return (end, completed_at.unwrap_or(now)),
                    Ok(fired) => progress |= fired,
                }
                if self.exhausted {
                    return (End::Ended, completed_at.unwrap_or(now));
                }
                match self.pump_sends(now) {
                    Err(end) => return (end, completed_at.unwrap_or(now)),
                    Ok(sent) => progress |= sent,
                }
                if !progress {
                    break;
                }
            }
            if self.completed && self.sender_idle() {
                return (End::Ended, completed_at.unwrap_or(now));
            }
            match self.next_deadline() {
                None => return (End::Ended, completed_at.unwrap_or(now)),
                Some(t) if t <= now => return (End::Ended, completed_at.unwrap_or(now)),
                Some(t) if t > self.s.limit => return (End::Ended, completed_at.unwrap_or(self.s.limit)),
                Some(t) => now = t,
            }
        }
    }

    // ---- the sending side

    fn base(&self) -> u32 {
        match &self.sender {
            SenderEnd::Sw(s) => s.current_seq(),
            SenderEnd::Gbn(s) => s.send_base(),
            SenderEnd::Sr(s) => s.send_base(),
        }
    }
    fn next(&self) -> u32 {
        match &self.sender {
            SenderEnd::Sw(s) => s.current_seq() + s.is_waiting_for_ack() as u32,
            SenderEnd::Gbn(s) => s.next_seq_num(),
            SenderEnd::Sr(s) => s.next_seq_num(),
        }
    }
    fn pump_sends(&mut self, now: u64) -> Result<bool, End> {
        let mut sent = false;
        loop {
            let can_send = match &self.sender {
                SenderEnd::Sw(s) => s.can_send(),
                SenderEnd::Gbn(s) => s.can_send(),
                SenderEnd::Sr(s) => s.can_send(),
            };
            if !can_send {
                return Ok(sent);
            }
            let Some(payload) = self.pending.pop_front() else { return Ok(sent) };
            let packet = match &mut self.sender {
                SenderEnd::Sw(s) => s.send_chunk(payload),
                SenderEnd::Gbn(s) => s.send_chunk(payload),
                SenderEnd::Sr(s) => s.send_chunk(payload),
            };
            self.submit(now, packet.unwrap(), false)?;
            sent = true;
        }
    }
    // Before `process`, in this order: rolls spent, events full (forward), schedule full.
    fn process(&mut self, reverse: bool, wire: &[u8]) -> Result<Vec<Delivery>, End> {
        let i = reverse as usize;
        let rolls = &self.rolls[i][self.used[i]..];
        if rolls.len() < 8 {
            return Err(End::RollsSpent);
        }
        if !reverse && self.events.len() == self.event_rows {
            return Err(End::EventsFull);
        }
        let (loss, duplicate) = if reverse { (0.0, 0.0) } else { (self.s.chances[0], self.s.chances[1]) };
        let copies = if rolls[0] < loss { 0 } else { 1 + (rolls[1] < duplicate) as usize };
        let schedule = if reverse { &self.reverse } else { &self.forward };
        if schedule.room() < copies {
            return Err(End::ScheduleFull);
        }
        rand::feed_seed(100 + i as u64, &rolls[..8]);
        self.used[i] += 8;
        let deliveries = self.channels[i].process(wire);
        assert_eq!((deliveries.len(), rand::left_of(100 + i as u64)), (copies, 0));
        Ok(deliveries)
    }
    fn submit(&mut self, now: u64, packet: Packet, again: bool) -> Result<(), End> {
        let seq = packet.seq_num;
        let rto = nanos(self.estimator.current_rto());
        if again {
            if let Some(n) = self.notes.get_mut(seq as usize) {
                n.ever_retransmitted = true;
                n.last_send_at = now;
                n.rto_at_send = rto;
            }
            self.retx_submitted += 1;
        } else if seq as usize == self.notes.len() {
            let ever_retransmitted = packet.is_retransmitted();
            self.notes.push(Note { original_send_at: now, last_send_at: now, rto_at_send: rto, ever_retransmitted, original_dropped: false, ack_scheduled: false, rtt_sampled: false });
        }
        let deliveries = self.process(false, &packet.serialize())?;
        if !again {
            if let Some(n) = self.notes.get_mut(seq as usize) {
                n.original_dropped = deliveries.is_empty();
            }
        }
        let mut row = [seq as u64, again as u64, deliveries.len() as u64, 0, 0, 0, 0];
        for (i, d) in deliveries.iter().enumerate() {
            row[3 + i] = d.delay_ms;
            row[5 + i] = d.data.iter().fold(0u16, |sum, &b| sum.wrapping_add(b as u16)) as u64;
        }
        self.events.push(row);
        self.forward.put(now, deliveries);
        self.arm_after_submit(now, seq, again);
        Ok(())
    }
    fn arm_after_submit(&mut self, now: u64, seq: u32, again: bool) {
        let current = nanos(self.estimator.current_rto());
        if self.s.edition {
            // RFC 6298 (5.1)
            if !self.timer.is_active() {
                self.timer.start_at(self.at(now), Duration::from_nanos(current));
            }
        } else if self.s.protocol == Protocol::SelectiveRepeat {
            let rto = self.notes.get(seq as usize).map_or(current, |n| n.rto_at_send);
            self.timers.insert(seq, now + rto);
        } else if again || self.oldest() == Some(seq) {
            self.arm_oldest(now);
        }
    }
    fn oldest(&self) -> Option<u32> {
        (self.base() < self.next()).then(|| self.base())
    }
    fn arm_oldest(&mut self, now: u64) {
        let Some(note) = self.oldest().and_then(|seq| self.notes.get(seq as usize)) else {
            self.timer.cancel();
            return;
        };
        let deadline = note.last_send_at + note.rto_at_send;
        self.timer.start_at(self.at(now), Duration::from_nanos(deadline.saturating_sub(now)));
    }
    fn fire_timers(&mut self, now: u64) -> Result<bool, End> {
        if self.retx_submitted >= self.s.ceiling {
            self.exhausted = true;
            return Ok(false);
        }
        if self.s.protocol == Protocol::SelectiveRepeat {
            return self.fire_numbers(now);
        }
        if !self.timer.is_expired_at(self.at(now)) {
            return Ok(false);
        }
        let Some(base) = self.oldest() else {
            if self.s.edition {
                // nothing outstanding: the expiry only stops the timer
                self.timer.cancel();
                return Ok(true);
            }
            return Ok(false);
        };
        self.timer.cancel();
        let packets = match &mut self.sender {
            SenderEnd::Sw(s) => s.handle_timeout().into_iter().collect(),
            SenderEnd::Gbn(_) if self.s.edition => {
                // RFC 6298 (5.4): only the earliest
                self.extra += 1;
                let mut q = Packet::new_data(base, self.chunks[base as usize].clone());
                q.set_retransmitted();
                q.compute_and_set_checksum();
                vec![q]
            }
            SenderEnd::Gbn(s) => s.handle_timeout(),
            SenderEnd::Sr(_) => vec![],
        };
        self.flagged.extend(packets.iter().map(|q| q.seq_num));
        if !packets.is_empty() {
            self.estimator.on_timeout();
            for q in packets {
                if self.retx_submitted >= self.s.ceiling {
                    self.exhausted = true;
                    break;
                }
                self.retransmit(now, q)?;
            }
        }
        Ok(true)
    }
    fn fire_numbers(&mut self, now: u64) -> Result<bool, End> {
        let due: Vec<u32> = self.timers.iter().filter(|&(_, &t)| t <= now).map(|(&n, _)| n).collect();
        for &n in &due {
            if self.retx_submitted >= self.s.ceiling {
                self.exhausted = true;
                break;
            }
            self.timers.remove(&n);
            let SenderEnd::Sr(sender) = &mut self.sender else { unreachable!() };
            if let Some(q) = sender.handle_timeout(n) {
                self.flagged.insert(n);
                self.estimator.on_timeout();
                self.retransmit(now, q)?;
            }
        }
        Ok(!due.is_empty())
    }
    fn retransmit(&mut self, now: u64, packet: Packet) -> Result<(), End> {
        if self.notes.get(packet.seq_num as usize).is_some_and(|n| !n.original_dropped && n.ack_scheduled) {
            self.premature += 1;
        }
        self.submit(now, packet, true)
    }
    fn on_ack(&mut self, now: u64, bytes: &[u8]) {
        let Ok(q) = Packet::deserialize(bytes) else { return };
        if q.pkt_type != PacketType::Ack || !q.is_valid() {
            return;
        }
        self.ack_received += 1;
        let sample = if self.s.protocol == Protocol::SelectiveRepeat { q.seq_num } else { self.base() };
        let accepted = match &mut self.sender {
            SenderEnd::Sw(s) => s.handle_ack(&q),
            SenderEnd::Gbn(s) => s.handle_ack(&q),
            SenderEnd::Sr(s) => s.handle_ack(&q),
        };
        if !accepted {
            self.duplicate_acks += 1;
            return;
        }
        self.acked.insert(q.seq_num);
        if let Some(n) = self.notes.get_mut(sample as usize) {
            if !n.rtt_sampled {
                n.rtt_sampled = true;
                let (rtt, again) = (now - n.original_send_at, n.ever_retransmitted);
                self.estimator.update_rtt(Duration::from_nanos(rtt), again);
            }
        }
        if self.s.edition {
            // RFC 6298 (5.3); with nothing outstanding too
            let rto = self.estimator.current_rto();
            self.timer.start_at(self.at(now), rto);
        } else if self.s.protocol == Protocol::SelectiveRepeat {
            self.timers.remove(&q.seq_num);
        } else {
            self.arm_oldest(now);
        }
    }
    fn sender_idle(&self) -> bool {
        self.pending.is_empty() && self.forward.waiting.is_empty() && self.reverse.waiting.is_empty() && self.timers.is_empty()
            && match &self.sender {
                SenderEnd::Sw(s) => !s.is_waiting_for_ack(),
                SenderEnd::Gbn(s) => !s.has_unacked_packets(),
                SenderEnd::Sr(s) => s.in_flight_count() == 0,
            }
    }
    fn next_deadline(&self) -> Option<u64> {
        let timers = match self.s.protocol {
            Protocol::SelectiveRepeat => self.timers.values().copied().min(),
            _ => self.timer.deadline().map(|t| nanos(t - self.epoch)),
        };
        [self.forward.next_deadline(), self.reverse.next_deadline(), timers].into_iter().flatten().min()
    }

    // ---- the receiving side

    fn duplicates(&self) -> u64 {
        match &self.receiver {
            ReceiverEnd::Sw(r) => r.duplicates_count,
            ReceiverEnd::Sr(r) => r.duplicates_count,
            ReceiverEnd::Gbn(_) => 0,
        }
    }
    fn on_forward(&mut self, now: u64, bytes: &[u8]) -> Result<(), End> {
        let Ok(q) = Packet::deserialize(bytes) else { return Ok(()) };
        if q.pkt_type != PacketType::Data {
            return Ok(());
        }
        self.data_received += 1;
        let before = self.duplicates();
        let late = matches!(&self.receiver, ReceiverEnd::Gbn(r) if q.is_valid() && q.seq_num < r.expected_seq());
        let (ack, chunks) = match &mut self.receiver {
            ReceiverEnd::Sw(r) => (r.handle_packet(&q), r.drain_delivered()),
            ReceiverEnd::Gbn(r) => (r.handle_packet(&q), r.drain_delivered()),
            ReceiverEnd::Sr(r) => (r.handle_packet(&q), r.drain_delivered()),
        };
        self.duplicate_data += self.duplicates() - before + late as u64;
        self.note_held(&q, chunks.len());
        self.delivered_chunks += chunks.len() as u32;
        self.delivered.extend(chunks.concat());
        if self.delivered_chunks >= self.total_chunks {
            self.completed = true;
        }
        match ack {
            Some(ack) => self.submit_ack(now, ack),
            None => Ok(()),
        }
    }
    // What a Selective Repeat receiver holds; held to the reference's count.
    fn note_held(&mut self, q: &Packet, delivered: usize) {
        let ReceiverEnd::Sr(r) = &self.receiver else { return };
        if r.buffered_count() > self.held.len() {
            self.held.insert(q.seq_num, q.payload.clone());
        } else if delivered > 0 {
            let base = r.recv_base();
            self.held.retain(|&n, _| n >= base);
        }
        assert_eq!(r.buffered_count(), self.held.len());
    }
    fn submit_ack(&mut self, now: u64, ack: Packet) -> Result<(), End> {
        self.ack_sent += 1;
        let deliveries = self.process(true, &ack.serialize())?;
        if !deliveries.is_empty() {
            let n = ack.seq_num as usize;
            if self.s.protocol == Protocol::GoBackN {
                self.notes.iter_mut().take(n + 1).for_each(|n| n.ack_scheduled = true);
            } else if let Some(n) = self.notes.get_mut(n) {
                n.ack_scheduled = true;
            }
        }
        self.reverse.put(now, deliveries);
        Ok(())
    }

    // ---- what is left in the lent memory

    fn slot(store: &mut [u8], window: u64, n: u32, mark: u8, flags: u8, payload: &[u8]) {
        let at = (n as u64 % window) as usize * SLOT;
        store[at..at + 2].copy_from_slice(&(payload.len() as u16).to_be_bytes());
        store[at + 2] = mark;
        store[at + 3] = flags;
        store[at + 4..at + 4 + payload.len()].copy_from_slice(payload);
    }
    fn write(&self, m: &mut Memory) {
        let window = window_of(self.s);
        let slots = window as usize * SLOT;
        m.sender[..slots].fill(0);
        for n in self.base()..self.next() {
            let acked = self.s.protocol == Protocol::SelectiveRepeat && self.acked.contains(&n);
            Self::slot(&mut m.sender, window, n, 1 + acked as u8, self.flagged.contains(&n) as u8, &self.chunks[n as usize]);
        }
        if self.s.protocol == Protocol::SelectiveRepeat {
            m.receiver[..slots].fill(0);
            for (&n, payload) in &self.held {
                Self::slot(&mut m.receiver, window, n, 1, 0, payload);
            }
        }
        m.output[..self.delivered.len()].copy_from_slice(&self.delivered);
        m.notes.fill([0; 7]);
        for (row, n) in m.notes.iter_mut().zip(&self.notes) {
            *row = [n.original_send_at, n.last_send_at, n.rto_at_send, n.ever_retransmitted as u64, n.original_dropped as u64, n.ack_scheduled as u64, n.rtt_sampled as u64];
        }
        m.events.fill([0; 7]);
        m.events[..self.events.len()].copy_from_slice(&self.events);
        self.forward.write(&mut m.forward_records, &mut m.forward_places);
        self.reverse.write(&mut m.reverse_records, &mut m.reverse_places);
        m.keys.fill(0);
        m.deadlines.fill(0);
        for (i, (&n, &t)) in self.timers.iter().enumerate() {
            m.keys[i] = n;
            m.deadlines[i] = t;
        }
    }
    fn sender_numbers(&self) -> Vec<u64> {
        match &self.sender {
            SenderEnd::Sw(s) => vec![s.current_seq() as u64, s.is_waiting_for_ack() as u64, u32::MAX as u64, s.current_retries() as u64, s.total_sent, s.retransmissions],
            SenderEnd::Gbn(s) => vec![s.window_size() as u64, s.send_base() as u64, s.next_seq_num() as u64, s.total_sent + self.extra, s.retransmissions + self.extra],
            SenderEnd::Sr(s) => vec![s.window_size() as u64, s.send_base() as u64, s.next_seq_num() as u64, s.total_sent, s.retransmissions],
        }
    }
    fn receiver_numbers(&self) -> Vec<u64> {
        let filled = self.delivered.len() as u64;
        match &self.receiver {
            ReceiverEnd::Sw(r) => vec![r.expected_seq() as u64, filled, r.total_received, r.duplicates_count, r.corrupted_count],
            ReceiverEnd::Gbn(r) => vec![r.expected_seq() as u64, filled, r.total_received, r.discarded_out_of_order, r.duplicate_acks_sent],
            ReceiverEnd::Sr(r) => vec![self.s.window, r.recv_base() as u64, filled, r.total_received, r.buffered_out_of_order, r.duplicates_count],
        }
    }
}

// A run on this memory, or the number of a refusal.
pub fn run(s: &Setup, file: &[u8], rolls: [&[f64]; 2], m: &mut Memory, ceilings: Ceilings) -> Result<Outcome, u64> {
    let refused = refusal(s, file.len(), rolls, m);
    if refused != 0 {
        return Err(refused);
    }
    let chunks = if file.is_empty() { vec![vec![]] } else { file.chunks(s.chunk as usize).map(|c| c.to_vec()).collect() };
    let mut d = Driver::new(s, chunks, rolls, m);
    let (end, finished_at) = d.run(ceilings);
    d.write(m);
    let (sender, receiver) = (d.sender_numbers(), d.receiver_numbers());
    let sent = [sender[sender.len() - 2], sender[sender.len() - 1]];
    let driver = [d.retx_submitted, d.premature, d.data_received, d.ack_sent, d.ack_received, d.duplicate_data, d.duplicate_acks];
    let channels = d.channels.each_ref().map(|c| c.stats.clone());
    Ok(Outcome { end, completed: d.completed, finished_at, sender, receiver, driver, sent, estimator: d.estimator, channels, events: d.events, delivered: d.delivered, used: d.used, segments: d.total_chunks })
}
