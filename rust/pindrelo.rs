//! A safe wrapper of pindrelo.h, without other crates: states own their memory, lent slices can't overlap, answers are
//! `Result`s. What each call does is said there. Link libpindrelo.a: `-L native=crates/pindrelo/out -l static=pindrelo`.
#![allow(dead_code, unused_imports)]

mod estimator;
mod packets;
mod report;
mod run;
mod timers;

pub use estimator::{Estimator, EstimatorSetup, ESTIMATOR_DOUBLES, ESTIMATOR_WORDS};
pub use packets::{payload, read, validate, write, Packet, PacketKind};
pub use report::{report, report_size, REPORT_LINE};
pub use run::{run, Clock, DriverCounts, End, Event, Line, LineCounts, Outcome, RunSetup, OUTCOME_WORDS, ROLLS};
pub use timers::{SingleTimer, Timers, SINGLE_TIMER_WORDS, TIMERS_WORDS};

mod raw {
    extern "C" {
        pub fn pindrelo_make_sender(
            protocol: u64, window: usize, max_retries: u64, state: *mut u64, words: usize, store: *mut u8, size: usize,
        ) -> u64;
        pub fn pindrelo_send(
            state: *mut u64, words: usize, store: *mut u8, size: usize, payload: *const u8, length: usize,
            out: *mut u8, room: usize,
        ) -> u64;
        pub fn pindrelo_acknowledge(
            state: *mut u64, words: usize, store: *mut u8, size: usize, datagram: *const u8, length: usize,
        ) -> u64;
        pub fn pindrelo_timeout_all(
            state: *mut u64, words: usize, store: *mut u8, size: usize, out: *mut u8, room: usize,
        ) -> u64;
        pub fn pindrelo_timeout_earliest(
            state: *mut u64, words: usize, store: *mut u8, size: usize, out: *mut u8, room: usize,
        ) -> u64;
        pub fn pindrelo_timeout_number(
            state: *mut u64, words: usize, store: *mut u8, size: usize, number: u64, out: *mut u8, room: usize,
        ) -> u64;
        pub fn pindrelo_can_send(state: *const u64, words: usize) -> u64;
        pub fn pindrelo_in_flight(state: *const u64, words: usize, store: *const u8, size: usize) -> u64;
        pub fn pindrelo_is_retransmitted(
            state: *const u64, words: usize, store: *const u8, size: usize, number: u64,
        ) -> u64;
        pub fn pindrelo_make_receiver(
            protocol: u64, window: usize, state: *mut u64, words: usize, store: *mut u8, size: usize,
        ) -> u64;
        pub fn pindrelo_receive(
            state: *mut u64, words: usize, store: *mut u8, size: usize, datagram: *const u8, length: usize,
            output: *mut u8, capacity: usize, ack: *mut u8, room: usize,
        ) -> u64;
        pub fn pindrelo_buffered_count(state: *const u64, words: usize, store: *const u8, size: usize) -> u64;
        pub fn pindrelo_drain(
            state: *mut u64, words: usize, store: *const u8, size: usize, output: *const u8, capacity: usize,
        ) -> u64;
    }
}

pub const HEADER_SIZE: usize = 10;
pub const MAX_PAYLOAD: usize = 1400;
pub const MAX_DATAGRAM: usize = 1410;
pub const ACK_SIZE: usize = 10;
pub const MAX_WINDOW: usize = 32;
pub const STATE_WORDS: usize = 8;
/// Nanoseconds.
pub const MAX_TIME: u64 = 172_800_000_000_000;
pub const MAX_DURATION: u64 = 86_400_000_000_000;
const SLOT_SIZE: usize = 1404;

#[derive(Clone, Copy, Debug, PartialEq, Eq)]
pub enum Protocol {
    StopAndWait = 1,
    GoBackN = 2,
    SelectiveRepeat = 3,
}

/// A refused call has changed nothing.
#[derive(Clone, Copy, Debug, PartialEq, Eq)]
pub enum Refusal {
    Short { length: u16 },
    Kind { byte: u8 },
    Cut { declared: u16, present: u16 },
    Setup,
    Full,
    Long,
    Numbers,
    Counts,
    State,
    Time,
    Roll,
    /// A refusal that this wrapper has no word for.
    Other { status: u8 },
}

impl Refusal {
    /// Of `acknowledge`, `receive` and the readers of packets: the line's doing (count it and go on), not the host's.
    pub fn from_line(self) -> bool {
        use Refusal::*;
        matches!(self, Short { .. } | Kind { .. } | Cut { .. } | Long | Numbers)
    }
}

impl std::fmt::Display for Refusal {
    fn fmt(&self, f: &mut std::fmt::Formatter<'_>) -> std::fmt::Result {
        write!(f, "refused: {self:?}")
    }
}

impl std::error::Error for Refusal {}

/// The value of a call that was done; `None` where there was nothing to do: 16 and above.
pub(crate) fn answer(a: u64) -> Result<Option<u64>, Refusal> {
    let value = a >> 8;
    let (first, second) = (value as u16, (value >> 16) as u16);
    Err(match a as u8 {
        0 => return Ok(Some(value)),
        1 => Refusal::Short { length: first },
        2 => Refusal::Kind { byte: first as u8 },
        3 => Refusal::Cut { declared: first, present: second },
        4 => Refusal::Setup,
        5 => Refusal::Full,
        6 => Refusal::Long,
        7 => Refusal::Numbers,
        8 => Refusal::Counts,
        9 => Refusal::State,
        10 => Refusal::Time,
        11 => Refusal::Roll,
        status @ 12..=15 => Refusal::Other { status },
        16.. => return Ok(None),
    })
}

/// A length that a call was done with.
fn length(a: u64) -> Result<Option<usize>, Refusal> {
    Ok(answer(a)?.map(|n| n as usize))
}

/// A store of so many slots; a window above the limit would be a 4 however long the store is.
fn store_for(window: usize, slots: usize) -> Result<Vec<u8>, Refusal> {
    if window > MAX_WINDOW {
        return Err(Refusal::Setup);
    }
    Ok(vec![0; slots * SLOT_SIZE])
}

/// A sender. Its words and its store are its whole state: save and restore them together.
#[derive(Clone, Debug, PartialEq, Eq)]
pub struct Sender {
    words: [u64; STATE_WORDS],
    store: Vec<u8>,
}

impl Sender {
    /// max_retries is Stop-and-Wait's alone.
    pub fn new(protocol: Protocol, window: usize, max_retries: u32) -> Result<Sender, Refusal> {
        let slots = if protocol == Protocol::StopAndWait { 1 } else { window };
        let mut s = Sender { words: [0; STATE_WORDS], store: store_for(window, slots)? };
        let (words, store, size) = s.lent();
        let a = unsafe {
            raw::pindrelo_make_sender(protocol as u64, window, max_retries as u64, words, STATE_WORDS, store, size)
        };
        answer(a).map(|_| s)
    }

    /// A saved state; one that doesn't fit is refused by the calls.
    pub fn restore(words: [u64; STATE_WORDS], store: Vec<u8>) -> Sender {
        Sender { words, store }
    }

    pub fn words(&self) -> &[u64; STATE_WORDS] {
        &self.words
    }

    pub fn store(&self) -> &[u8] {
        &self.store
    }

    /// The length of the datagram at the start of out; `None`: the window is full.
    pub fn send(&mut self, payload: &[u8], out: &mut [u8]) -> Result<Option<usize>, Refusal> {
        let (words, store, size) = self.lent();
        let (p, o) = (payload.as_ptr(), out.as_mut_ptr());
        length(unsafe { raw::pindrelo_send(words, STATE_WORDS, store, size, p, payload.len(), o, out.len()) })
    }

    /// The number that the datagram acknowledges; `None`: it isn't the ACK of an outstanding number.
    pub fn acknowledge(&mut self, datagram: &[u8]) -> Result<Option<u32>, Refusal> {
        let (words, store, size) = self.lent();
        let (d, length) = (datagram.as_ptr(), datagram.len());
        let a = unsafe { raw::pindrelo_acknowledge(words, STATE_WORDS, store, size, d, length) };
        Ok(answer(a)?.map(|n| n as u32))
    }

    /// The bytes written to out, datagram after datagram; `None`: nothing to send again.
    pub fn timeout_all(&mut self, out: &mut [u8]) -> Result<Option<usize>, Refusal> {
        let (words, store, size) = self.lent();
        let o = out.as_mut_ptr();
        length(unsafe { raw::pindrelo_timeout_all(words, STATE_WORDS, store, size, o, out.len()) })
    }

    pub fn timeout_earliest(&mut self, out: &mut [u8]) -> Result<Option<usize>, Refusal> {
        let (words, store, size) = self.lent();
        let o = out.as_mut_ptr();
        length(unsafe { raw::pindrelo_timeout_earliest(words, STATE_WORDS, store, size, o, out.len()) })
    }

    pub fn timeout_number(&mut self, number: u64, out: &mut [u8]) -> Result<Option<usize>, Refusal> {
        let (words, store, size) = self.lent();
        let o = out.as_mut_ptr();
        let a = unsafe { raw::pindrelo_timeout_number(words, STATE_WORDS, store, size, number, o, out.len()) };
        Ok(answer(a)?.map(|n| n as usize))
    }

    pub fn can_send(&self) -> Result<bool, Refusal> {
        Ok(answer(unsafe { raw::pindrelo_can_send(self.words.as_ptr(), STATE_WORDS) })? == Some(1))
    }

    pub fn in_flight(&self) -> Result<usize, Refusal> {
        let (words, store) = (self.words.as_ptr(), self.store.as_ptr());
        let a = unsafe { raw::pindrelo_in_flight(words, STATE_WORDS, store, self.store.len()) };
        Ok(answer(a)?.unwrap_or(0) as usize)
    }

    /// Whether an outstanding number was sent again; `None`: it isn't outstanding. Ask before its ACK is given.
    pub fn is_retransmitted(&self, number: u64) -> Result<Option<bool>, Refusal> {
        let (words, store) = (self.words.as_ptr(), self.store.as_ptr());
        let a = unsafe { raw::pindrelo_is_retransmitted(words, STATE_WORDS, store, self.store.len(), number) };
        Ok(answer(a)?.map(|again| again == 1))
    }

    /// The lowest number not acknowledged; of a restored state its word, whatever that is.
    pub fn base(&self) -> u64 {
        self.words[2]
    }

    /// The number of the next chunk.
    pub fn next(&self) -> u64 {
        self.words[3]
    }

    fn lent(&mut self) -> (*mut u64, *mut u8, usize) {
        (self.words.as_mut_ptr(), self.store.as_mut_ptr(), self.store.len())
    }
}

/// A receiver with its output. Its words, its store and what is delivered are its whole state.
#[derive(Clone, Debug, PartialEq, Eq)]
pub struct Receiver {
    words: [u64; STATE_WORDS],
    store: Vec<u8>,
    output: Vec<u8>,
}

impl Receiver {
    /// All of output, up to its length, is for what is delivered.
    pub fn new(protocol: Protocol, window: usize, output: Vec<u8>) -> Result<Receiver, Refusal> {
        let slots = if protocol == Protocol::SelectiveRepeat { window } else { 0 };
        let mut r = Receiver { words: [0; STATE_WORDS], store: store_for(window, slots)?, output };
        let (words, store, size) = (r.words.as_mut_ptr(), r.store.as_mut_ptr(), r.store.len());
        let a = unsafe { raw::pindrelo_make_receiver(protocol as u64, window, words, STATE_WORDS, store, size) };
        answer(a).map(|_| r)
    }

    /// A saved state; one that doesn't fit is refused by the calls.
    pub fn restore(words: [u64; STATE_WORDS], store: Vec<u8>, output: Vec<u8>) -> Receiver {
        Receiver { words, store, output }
    }

    pub fn words(&self) -> &[u64; STATE_WORDS] {
        &self.words
    }

    pub fn store(&self) -> &[u8] {
        &self.store
    }

    /// The number of the ACK at the start of ack; `None`: nothing to send back.
    pub fn receive(&mut self, datagram: &[u8], ack: &mut [u8]) -> Result<Option<u32>, Refusal> {
        let (words, store, size) = (self.words.as_mut_ptr(), self.store.as_mut_ptr(), self.store.len());
        let (output, capacity) = (self.output.as_mut_ptr(), self.output.len());
        let (d, k) = (datagram.as_ptr(), ack.as_mut_ptr());
        let a = unsafe {
            raw::pindrelo_receive(
                words, STATE_WORDS, store, size, d, datagram.len(), output, capacity, k, ack.len(),
            )
        };
        Ok(answer(a)?.map(|n| n as u32))
    }

    /// How many payloads are held for their turn; only Selective Repeat's receiver holds any.
    pub fn buffered_count(&self) -> Result<usize, Refusal> {
        let (words, store) = (self.words.as_ptr(), self.store.as_ptr());
        let a = unsafe { raw::pindrelo_buffered_count(words, STATE_WORDS, store, self.store.len()) };
        Ok(answer(a)?.unwrap_or(0) as usize)
    }

    /// What was delivered since the last drain; the next packet is delivered to the start of the output.
    pub fn drain(&mut self) -> Result<&[u8], Refusal> {
        let (words, store, size) = (self.words.as_mut_ptr(), self.store.as_ptr(), self.store.len());
        let (output, capacity) = (self.output.as_ptr(), self.output.len());
        let n = length(unsafe { raw::pindrelo_drain(words, STATE_WORDS, store, size, output, capacity) })?;
        Ok(&self.output[..n.unwrap_or(0)])
    }

    /// How many bytes of the output are delivered.
    pub fn filled(&self) -> usize {
        self.words[3] as usize
    }

    /// What is delivered, in order; nothing where a restored state says more than its output has.
    pub fn delivered(&self) -> &[u8] {
        self.output.get(..self.filled()).unwrap_or(&[])
    }

    pub fn into_output(self) -> Vec<u8> {
        self.output
    }
}
