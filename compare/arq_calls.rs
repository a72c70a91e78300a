// The calls of the protocol ends, for compare/arq.rs.
use crate::exports::*;

#[derive(Clone, Copy, PartialEq, Eq, Debug)]
pub enum Protocol {
    StopAndWait = 0,
    GoBackN = 1,
    SelectiveRepeat = 2,
}

#[derive(Clone, Copy, PartialEq, Eq, Debug)]
pub enum Timeout {
    All,
    Earliest,
    Number(u64),
}

// A kind (0 nothing, 1 done, 16 + n the refusal n) and two values: the whole of what an export answers, or a kind of its own.
pub type Answer = [u64; 3];

// nothing: the status of this call's other ordinary answer.
fn answer(a: u64, nothing: u64) -> Answer {
    match status(a) {
        DONE => [1, value(a), 0],
        n @ 1..=15 => [16 + n, value(a) & 0xffff, value(a) >> 16],
        n if n == nothing => [0, value(a), 0],
        n => [1000 + n, value(a), 0],
    }
}

// No other ordinary answer.
const NONE: u64 = 255;

// Calls with the state's words behind word 0, which no call changes but a maker.
fn with_words<const N: usize>(kind: u64, state: &mut [u64; N], call: impl FnOnce(*mut u64, usize) -> u64) -> u64 {
    let mut words = [0u64; 8];
    words[0] = kind;
    words[1..=N].copy_from_slice(state);
    words[N + 1..].fill(UNUSED);
    let a = call(words.as_mut_ptr(), 8);
    assert!(words[0] == kind && words[N + 1..].iter().all(|w| *w == UNUSED), "words {words:?}");
    state.copy_from_slice(&words[1..=N]);
    a
}

const UNUSED: u64 = 0xA5A5_A5A5_A5A5_A5A5;

// state, words 1 to 7: window_size, send_base, next_seq_num, total_sent, retransmissions, max_retries, current_retries
#[derive(Clone, PartialEq, Debug)]
pub struct Sender {
    pub protocol: Protocol,
    pub state: [u64; 7],
    pub store: Vec<u8>,
}

// A maker's words: as they were where it is refused, else with the kind in word 0.
fn made(a: u64, words: &[u64], kind: u64) -> Answer {
    let unused = words.iter().all(|w| *w == UNUSED);
    assert!(if status(a) == DONE { words[0] == kind && words[8..].iter().all(|w| *w == UNUSED) } else { unused }, "made {a} {words:?}");
    answer(a, NONE)
}

impl Sender {
    fn kind(&self) -> u64 {
        257 + self.protocol as u64
    }
    // protocol: 1 to 3, or none. Answers the state's words too, as many as were lent.
    pub fn make(protocol: u64, window: u64, max_retries: u64, words: usize, store: &mut [u8]) -> (Vec<u64>, Answer) {
        let mut w = vec![UNUSED; words];
        let a = unsafe { pindrelo_make_sender(protocol, window as usize, max_retries, w.as_mut_ptr(), words, store.as_mut_ptr(), store.len()) };
        let a = made(a, &w, 256 + protocol);
        (w, a)
    }
    pub fn new(protocol: Protocol, window: u64, max_retries: u64, mut store: Vec<u8>) -> (Sender, Answer) {
        let (words, a) = Sender::make(1 + protocol as u64, window, max_retries, 9, &mut store);
        (Sender { protocol, state: words[1..8].try_into().unwrap(), store }, a)
    }
    pub fn send(&mut self, payload: &[u8], out: &mut [u8]) -> Answer {
        let (kind, t, nt) = (self.kind(), self.store.as_mut_ptr(), self.store.len());
        answer(with_words(kind, &mut self.state, |w, n| unsafe { pindrelo_send(w, n, t, nt, payload.as_ptr(), payload.len(), out.as_mut_ptr(), out.len()) }), WINDOW_FULL)
    }
    pub fn acknowledge(&mut self, raw: &[u8]) -> Answer {
        let (kind, t, nt) = (self.kind(), self.store.as_mut_ptr(), self.store.len());
        answer(with_words(kind, &mut self.state, |w, n| unsafe { pindrelo_acknowledge(w, n, t, nt, raw.as_ptr(), raw.len()) }), NOT_ACCEPTED)
    }
    pub fn timeout(&mut self, which: Timeout, out: &mut [u8]) -> Answer {
        let (kind, t, nt, o, no) = (self.kind(), self.store.as_mut_ptr(), self.store.len(), out.as_mut_ptr(), out.len());
        let a = with_words(kind, &mut self.state, |w, n| unsafe {
            match which {
                Timeout::All => pindrelo_timeout_all(w, n, t, nt, o, no),
                Timeout::Earliest => pindrelo_timeout_earliest(w, n, t, nt, o, no),
                Timeout::Number(number) => pindrelo_timeout_number(w, n, t, nt, number, o, no),
            }
        });
        answer(a, NOTHING)
    }
    pub fn can_send(&self) -> Answer {
        let mut state = self.state;
        answer(with_words(self.kind(), &mut state, |w, n| unsafe { pindrelo_can_send(w, n) }), NONE)
    }
    pub fn in_flight(&self) -> Answer {
        let mut state = self.state;
        answer(with_words(self.kind(), &mut state, |w, n| unsafe { pindrelo_in_flight(w, n, self.store.as_ptr(), self.store.len()) }), NONE)
    }
    pub fn is_retransmitted(&self, number: u64) -> Answer {
        let mut state = self.state;
        answer(with_words(self.kind(), &mut state, |w, n| unsafe { pindrelo_is_retransmitted(w, n, self.store.as_ptr(), self.store.len(), number) }), NOTHING)
    }
    // Go-Back-N's; no host has it
    pub fn has_unacked_packets(&self) -> Answer {
        answer(unsafe { arq_has_unacked_packets(self.state.as_ptr(), 7) }, NONE)
    }
}

// state, words 1 to 6: window_size (1 but in Selective Repeat), base, fill mark, three counters in the reference's order
#[derive(Clone, PartialEq, Debug)]
pub struct Receiver {
    pub protocol: Protocol,
    pub state: [u64; 6],
    pub store: Vec<u8>,
}

impl Receiver {
    fn kind(&self) -> u64 {
        260 + self.protocol as u64
    }
    pub fn make(protocol: u64, window: u64, words: usize, store: &mut [u8]) -> (Vec<u64>, Answer) {
        let mut w = vec![UNUSED; words];
        let a = unsafe { pindrelo_make_receiver(protocol, window as usize, w.as_mut_ptr(), words, store.as_mut_ptr(), store.len()) };
        let a = made(a, &w, 259 + protocol);
        assert!(a[0] != 1 || w[7] == 0, "word 7 of {w:?}");
        (w, a)
    }
    pub fn new(protocol: Protocol, window: u64, mut store: Vec<u8>) -> (Receiver, Answer) {
        let (words, a) = Receiver::make(1 + protocol as u64, window, 9, &mut store);
        (Receiver { protocol, state: words[1..7].try_into().unwrap(), store }, a)
    }
    pub fn receive(&mut self, raw: &[u8], output: &mut [u8], ack: &mut [u8]) -> Answer {
        let (kind, t, nt) = (self.kind(), self.store.as_mut_ptr(), self.store.len());
        answer(with_words(kind, &mut self.state, |w, n| unsafe { pindrelo_receive(w, n, t, nt, raw.as_ptr(), raw.len(), output.as_mut_ptr(), output.len(), ack.as_mut_ptr(), ack.len()) }), SILENT)
    }
    pub fn drain(&mut self, output: &[u8]) -> Answer {
        let (kind, t, nt) = (self.kind(), self.store.as_ptr(), self.store.len());
        answer(with_words(kind, &mut self.state, |w, n| unsafe { pindrelo_drain(w, n, t, nt, output.as_ptr(), output.len()) }), NONE)
    }
    pub fn buffered_count(&self) -> Answer {
        let mut state = self.state;
        answer(with_words(self.kind(), &mut state, |w, n| unsafe { pindrelo_buffered_count(w, n, self.store.as_ptr(), self.store.len()) }), NONE)
    }
}
