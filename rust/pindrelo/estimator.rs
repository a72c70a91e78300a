//! The RTO estimator, RFC 6298. Durations are nanoseconds.
use super::{answer, Refusal};

extern "C" {
    fn pindrelo_make_estimator(
        state: *mut u64, words: usize, doubles: *mut f64, count: usize, initial_rto: u64, min_rto: u64, max_rto: u64,
        granularity: u64, alpha: f64, beta: f64, k: f64, rto_multiplier: f64,
    ) -> u64;
    fn pindrelo_make_default_estimator(state: *mut u64, words: usize, doubles: *mut f64, count: usize) -> u64;
    fn pindrelo_estimator_sample(
        state: *mut u64, words: usize, doubles: *mut f64, count: usize, sample: u64, retransmitted: u64,
    ) -> u64;
    fn pindrelo_estimator_timeout(state: *mut u64, words: usize, doubles: *mut f64, count: usize) -> u64;
    fn pindrelo_estimator_reset_backoff(state: *mut u64, words: usize, doubles: *mut f64, count: usize) -> u64;
    fn pindrelo_estimator_exceeded(
        state: *const u64, words: usize, doubles: *const f64, count: usize, max_retries: u64,
    ) -> u64;
    fn pindrelo_estimator_mean(
        state: *const u64, words: usize, doubles: *const f64, count: usize, out: *mut f64, out_count: usize,
    ) -> u64;
}

pub const ESTIMATOR_WORDS: usize = 24;
pub const ESTIMATOR_DOUBLES: usize = 5;

#[derive(Clone, Copy, Debug, PartialEq)]
pub struct EstimatorSetup {
    pub initial_rto: u64,
    pub min_rto: u64,
    pub max_rto: u64,
    pub granularity: u64,
    pub alpha: f64,
    pub beta: f64,
    pub k: f64,
    pub rto_multiplier: f64,
}

/// An estimator. Its words and doubles are its whole state.
#[derive(Clone, Debug, PartialEq)]
pub struct Estimator {
    words: [u64; ESTIMATOR_WORDS],
    doubles: [f64; ESTIMATOR_DOUBLES],
}

impl Estimator {
    pub fn new(setup: EstimatorSetup) -> Result<Estimator, Refusal> {
        let mut e = Estimator { words: [0; ESTIMATOR_WORDS], doubles: [0.0; ESTIMATOR_DOUBLES] };
        let (words, doubles) = e.lent();
        let EstimatorSetup { initial_rto, min_rto, max_rto, granularity, alpha, beta, k, rto_multiplier } = setup;
        let a = unsafe {
            pindrelo_make_estimator(
                words, ESTIMATOR_WORDS, doubles, ESTIMATOR_DOUBLES, initial_rto, min_rto, max_rto, granularity, alpha,
                beta, k, rto_multiplier,
            )
        };
        answer(a).map(|_| e)
    }

    /// 1 s, at least 200 ms, at most 60 s, and RFC 6298's factors.
    pub fn with_default_setup() -> Result<Estimator, Refusal> {
        let mut e = Estimator { words: [0; ESTIMATOR_WORDS], doubles: [0.0; ESTIMATOR_DOUBLES] };
        let (words, doubles) = e.lent();
        let a = unsafe { pindrelo_make_default_estimator(words, ESTIMATOR_WORDS, doubles, ESTIMATOR_DOUBLES) };
        answer(a).map(|_| e)
    }

    /// A saved state; one that doesn't fit is refused by the calls.
    pub fn restore(words: [u64; ESTIMATOR_WORDS], doubles: [f64; ESTIMATOR_DOUBLES]) -> Estimator {
        Estimator { words, doubles }
    }

    pub fn words(&self) -> &[u64; ESTIMATOR_WORDS] {
        &self.words
    }

    pub fn doubles(&self) -> &[f64; ESTIMATOR_DOUBLES] {
        &self.doubles
    }

    /// The time to wait for an ACK.
    pub fn rto(&self) -> u64 {
        self.words[9]
    }

    pub fn srtt(&self) -> Option<u64> {
        (self.words[5] == 1).then_some(self.words[6])
    }

    /// Whether the sample was used: it isn't where the datagram was sent again.
    pub fn sample(&mut self, sample: u64, retransmitted: bool) -> Result<bool, Refusal> {
        let (words, doubles) = self.lent();
        let again = retransmitted as u64;
        let a = unsafe {
            pindrelo_estimator_sample(words, ESTIMATOR_WORDS, doubles, ESTIMATOR_DOUBLES, sample, again)
        };
        Ok(answer(a)? == Some(1))
    }

    /// The RTO, doubled within its limits.
    pub fn timeout(&mut self) -> Result<u64, Refusal> {
        let (words, doubles) = self.lent();
        let a = unsafe { pindrelo_estimator_timeout(words, ESTIMATOR_WORDS, doubles, ESTIMATOR_DOUBLES) };
        Ok(answer(a)?.unwrap_or(0))
    }

    pub fn reset_backoff(&mut self) -> Result<(), Refusal> {
        let (words, doubles) = self.lent();
        let a = unsafe { pindrelo_estimator_reset_backoff(words, ESTIMATOR_WORDS, doubles, ESTIMATOR_DOUBLES) };
        answer(a).map(|_| ())
    }

    /// Whether so many timeouts or more came since the last sample.
    pub fn exceeded(&self, max_retries: u64) -> Result<bool, Refusal> {
        let (words, doubles) = (self.words.as_ptr(), self.doubles.as_ptr());
        let a = unsafe {
            pindrelo_estimator_exceeded(words, ESTIMATOR_WORDS, doubles, ESTIMATOR_DOUBLES, max_retries)
        };
        Ok(answer(a)? == Some(1))
    }

    /// The mean of the samples used, in milliseconds.
    pub fn mean(&self) -> Result<f64, Refusal> {
        let (words, doubles) = (self.words.as_ptr(), self.doubles.as_ptr());
        let mut out = [0.0];
        let a = unsafe {
            pindrelo_estimator_mean(words, ESTIMATOR_WORDS, doubles, ESTIMATOR_DOUBLES, out.as_mut_ptr(), 1)
        };
        answer(a).map(|_| out[0])
    }

    fn lent(&mut self) -> (*mut u64, *mut f64) {
        (self.words.as_mut_ptr(), self.doubles.as_mut_ptr())
    }
}
