//! The timer set and the single timer. Times are nanoseconds from a start of the host's choice.
use super::{answer, Refusal};

extern "C" {
    fn pindrelo_make_timers(
        state: *mut u64, words: usize, keys: *mut u32, key_count: usize, deadlines: *mut u64, count: usize,
    ) -> u64;
    fn pindrelo_timer_start(
        state: *mut u64, words: usize, keys: *mut u32, key_count: usize, deadlines: *mut u64, count: usize,
        key: u64, now: u64, duration: u64,
    ) -> u64;
    fn pindrelo_timer_cancel(
        state: *mut u64, words: usize, keys: *mut u32, key_count: usize, deadlines: *mut u64, count: usize,
        key: u64,
    ) -> u64;
    fn pindrelo_timer_pop(
        state: *mut u64, words: usize, keys: *mut u32, key_count: usize, deadlines: *mut u64, count: usize,
        now: u64, out: *mut u32, out_count: usize,
    ) -> u64;
    fn pindrelo_timer_earliest(
        state: *const u64, words: usize, keys: *const u32, key_count: usize, deadlines: *const u64, count: usize,
    ) -> u64;
    fn pindrelo_timer_clear(
        state: *mut u64, words: usize, keys: *mut u32, key_count: usize, deadlines: *mut u64, count: usize,
    ) -> u64;
    fn pindrelo_make_single_timer(state: *mut u64, words: usize) -> u64;
    fn pindrelo_single_timer_start(state: *mut u64, words: usize, now: u64, duration: u64) -> u64;
    fn pindrelo_single_timer_cancel(state: *mut u64, words: usize) -> u64;
    fn pindrelo_single_timer_is_active(state: *const u64, words: usize) -> u64;
    fn pindrelo_single_timer_remaining(state: *const u64, words: usize, now: u64) -> u64;
    fn pindrelo_single_timer_is_expired(state: *const u64, words: usize, now: u64) -> u64;
    fn pindrelo_single_timer_is_expired_for(state: *const u64, words: usize, generation: u64, now: u64) -> u64;
}

pub const TIMERS_WORDS: usize = 3;
pub const SINGLE_TIMER_WORDS: usize = 4;

/// A timer set. Its words, keys and deadlines are its whole state.
#[derive(Clone, Debug, PartialEq, Eq)]
pub struct Timers {
    words: [u64; TIMERS_WORDS],
    keys: Vec<u32>,
    deadlines: Vec<u64>,
}

impl Timers {
    /// For at most so many timers at once.
    pub fn new(count: usize) -> Result<Timers, Refusal> {
        let mut t = Timers { words: [0; TIMERS_WORDS], keys: vec![0; count], deadlines: vec![0; count] };
        let (words, keys, deadlines) = t.lent();
        let a = unsafe { pindrelo_make_timers(words, TIMERS_WORDS, keys, count, deadlines, count) };
        answer(a).map(|_| t)
    }

    /// A saved state; one that doesn't fit is refused by the calls.
    pub fn restore(words: [u64; TIMERS_WORDS], keys: Vec<u32>, deadlines: Vec<u64>) -> Timers {
        Timers { words, keys, deadlines }
    }

    pub fn words(&self) -> &[u64; TIMERS_WORDS] {
        &self.words
    }

    pub fn keys(&self) -> &[u32] {
        &self.keys
    }

    pub fn deadlines(&self) -> &[u64] {
        &self.deadlines
    }

    pub fn start(&mut self, key: u32, now: u64, duration: u64) -> Result<(), Refusal> {
        let (n, m) = (self.keys.len(), self.deadlines.len());
        let (words, keys, deadlines) = self.lent();
        let a = unsafe {
            pindrelo_timer_start(words, TIMERS_WORDS, keys, n, deadlines, m, key.into(), now, duration)
        };
        answer(a).map(|_| ())
    }

    /// Whether the key's timer ran.
    pub fn cancel(&mut self, key: u32) -> Result<bool, Refusal> {
        let (n, m) = (self.keys.len(), self.deadlines.len());
        let (words, keys, deadlines) = self.lent();
        let a = unsafe { pindrelo_timer_cancel(words, TIMERS_WORDS, keys, n, deadlines, m, key.into()) };
        Ok(answer(a)? == Some(1))
    }

    /// How many keys were due: they stand at the start of due, ascending, and run no more.
    pub fn pop(&mut self, now: u64, due: &mut [u32]) -> Result<usize, Refusal> {
        let (n, m) = (self.keys.len(), self.deadlines.len());
        let (words, keys, deadlines) = self.lent();
        let (o, room) = (due.as_mut_ptr(), due.len());
        let a = unsafe { pindrelo_timer_pop(words, TIMERS_WORDS, keys, n, deadlines, m, now, o, room) };
        Ok(answer(a)?.unwrap_or(0) as usize)
    }

    /// The earliest deadline; `None`: no timer runs.
    pub fn earliest(&self) -> Result<Option<u64>, Refusal> {
        let (words, keys, deadlines) = (self.words.as_ptr(), self.keys.as_ptr(), self.deadlines.as_ptr());
        let (n, m) = (self.keys.len(), self.deadlines.len());
        answer(unsafe { pindrelo_timer_earliest(words, TIMERS_WORDS, keys, n, deadlines, m) })
    }

    /// No timer runs any more.
    pub fn clear(&mut self) -> Result<(), Refusal> {
        let (n, m) = (self.keys.len(), self.deadlines.len());
        let (words, keys, deadlines) = self.lent();
        answer(unsafe { pindrelo_timer_clear(words, TIMERS_WORDS, keys, n, deadlines, m) }).map(|_| ())
    }

    fn lent(&mut self) -> (*mut u64, *mut u32, *mut u64) {
        (self.words.as_mut_ptr(), self.keys.as_mut_ptr(), self.deadlines.as_mut_ptr())
    }
}

/// One timer. Its words are its whole state.
#[derive(Clone, Debug, PartialEq, Eq)]
pub struct SingleTimer {
    words: [u64; SINGLE_TIMER_WORDS],
}

impl SingleTimer {
    pub fn new() -> Result<SingleTimer, Refusal> {
        let mut words = [0; SINGLE_TIMER_WORDS];
        answer(unsafe { pindrelo_make_single_timer(words.as_mut_ptr(), SINGLE_TIMER_WORDS) })?;
        Ok(SingleTimer { words })
    }

    /// A saved state; one that doesn't fit is refused by the calls.
    pub fn restore(words: [u64; SINGLE_TIMER_WORDS]) -> SingleTimer {
        SingleTimer { words }
    }

    pub fn words(&self) -> &[u64; SINGLE_TIMER_WORDS] {
        &self.words
    }

    /// One more at each start and cancel.
    pub fn generation(&self) -> u64 {
        self.words[3]
    }

    pub fn start(&mut self, now: u64, duration: u64) -> Result<(), Refusal> {
        let words = self.words.as_mut_ptr();
        answer(unsafe { pindrelo_single_timer_start(words, SINGLE_TIMER_WORDS, now, duration) }).map(|_| ())
    }

    pub fn cancel(&mut self) -> Result<(), Refusal> {
        let words = self.words.as_mut_ptr();
        answer(unsafe { pindrelo_single_timer_cancel(words, SINGLE_TIMER_WORDS) }).map(|_| ())
    }

    pub fn is_active(&self) -> Result<bool, Refusal> {
        let words = self.words.as_ptr();
        Ok(answer(unsafe { pindrelo_single_timer_is_active(words, SINGLE_TIMER_WORDS) })? == Some(1))
    }

    /// Nanoseconds until its deadline; `None`: it doesn't run.
    pub fn remaining(&self, now: u64) -> Result<Option<u64>, Refusal> {
        let words = self.words.as_ptr();
        answer(unsafe { pindrelo_single_timer_remaining(words, SINGLE_TIMER_WORDS, now) })
    }

    pub fn is_expired(&self, now: u64) -> Result<bool, Refusal> {
        let words = self.words.as_ptr();
        Ok(answer(unsafe { pindrelo_single_timer_is_expired(words, SINGLE_TIMER_WORDS, now) })? == Some(1))
    }

    /// False too where the generation is another.
    pub fn is_expired_for(&self, generation: u64, now: u64) -> Result<bool, Refusal> {
        let words = self.words.as_ptr();
        let a = unsafe { pindrelo_single_timer_is_expired_for(words, SINGLE_TIMER_WORDS, generation, now) };
        Ok(answer(a)? == Some(1))
    }
}
