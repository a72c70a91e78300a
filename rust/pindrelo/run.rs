//! A whole transfer over a line that is made up, on a virtual clock, to try a setup. Times and durations are
//! nanoseconds, but where a name says ms.
use super::{answer, store_for, Estimator, EstimatorSetup, Protocol, Refusal, ESTIMATOR_DOUBLES, ESTIMATOR_WORDS};

extern "C" {
    fn pindrelo_run(
        numbers: *const u64, number_count: usize, reals: *const f64, real_count: usize, file: *const u8, length: usize,
        forward_rolls: *const f64, forward_roll_count: usize, reverse_rolls: *const f64, reverse_roll_count: usize,
        sender_store: *mut u8, sender_store_size: usize, receiver_store: *mut u8, receiver_store_size: usize,
        output: *mut u8, output_size: usize, notes: *mut [u64; 7], note_count: usize, events: *mut [u64; 7],
        event_count: usize, forward_records: *mut [u64; 4], forward_record_count: usize, forward_places: *mut u8,
        forward_places_size: usize, reverse_records: *mut [u64; 4], reverse_record_count: usize,
        reverse_places: *mut u8, reverse_places_size: usize, keys: *mut u32, key_count: usize, deadlines: *mut u64,
        deadline_count: usize, words: *mut u64, word_count: usize, estimator: *mut u64, estimator_words: usize,
        doubles: *mut f64, double_count: usize,
    ) -> u64;
}

const PLACE_SIZE: usize = 1410;
const MAX_CHUNKS: usize = 65_536;
/// Of each datagram and each ACK: loss, duplicate, reorder, corrupt, byte, bit, jitter, the duplicate's jitter.
pub const ROLLS: usize = 8;
pub const OUTCOME_WORDS: usize = 31;

#[derive(Clone, Copy, Debug, PartialEq, Eq)]
pub enum Clock {
    /// The source's timing.
    Source = 1,
    /// RFC 6298 section 5; not with Selective Repeat.
    Edition = 2,
}

/// The chances are 0 to 1, the delays at most 60,000.
#[derive(Clone, Copy, Debug, PartialEq)]
pub struct Line {
    pub loss: f64,
    pub duplicate: f64,
    pub reorder: f64,
    pub corrupt: f64,
    pub reorder_extra_ms: u64,
    pub base_delay_ms: u64,
    pub jitter_ms: u64,
}

#[derive(Clone, Copy, Debug, PartialEq)]
pub struct RunSetup {
    pub protocol: Protocol,
    pub clock: Clock,
    pub window: usize,
    /// Bytes, 1 to 1,400; a file has at most 65,536 chunks.
    pub chunk: usize,
    pub line: Line,
    pub estimator: EstimatorSetup,
    pub max_virtual_time: u64,
    /// So many end a run: 0 before its first packet.
    pub max_retransmissions: u64,
}

impl RunSetup {
    /// How many chunks a file of this length has; an empty one has one.
    pub fn chunks(&self, length: usize) -> usize {
        length.div_ceil(self.chunk.max(1)).max(1)
    }

    /// How many forward and reverse rolls a run of such a file needs so that it ends in no other way than `Ended`;
    /// `None`: more than a slice has.
    pub fn rolls(&self, length: usize) -> Option<(usize, usize)> {
        let packets = self.chunks(length).checked_add(usize::try_from(self.max_retransmissions).ok()?)?;
        Some((packets.checked_mul(ROLLS)?, packets.checked_mul(2 * ROLLS)?))
    }
}

#[derive(Clone, Copy, Debug, PartialEq, Eq)]
pub enum End {
    /// By itself: completed, or met a ceiling of the setup.
    Ended,
    RollsSpent,
    EventsFull,
    ScheduleFull,
}

#[derive(Clone, Copy, Debug, PartialEq, Eq)]
pub struct DriverCounts {
    pub sent_again: u64,
    pub too_early: u64,
    pub data_received: u64,
    pub acks_sent: u64,
    pub acks_received: u64,
    pub duplicate_data: u64,
    pub duplicate_acks: u64,
    pub events: u64,
}

#[derive(Clone, Copy, Debug, PartialEq, Eq)]
pub struct LineCounts {
    pub datagrams: u64,
    pub lost: u64,
    pub corrupted: u64,
    pub duplicated: u64,
    pub reordered: u64,
    pub copies: u64,
}

/// A datagram that was given to the forward line. Of the two delays and sums of bytes the first `copies` are set.
#[derive(Clone, Copy, Debug, PartialEq, Eq)]
pub struct Event {
    pub number: u64,
    pub again: bool,
    pub copies: usize,
    pub delays_ms: [u64; 2],
    pub sums: [u64; 2],
}

/// What a run ended with.
#[derive(Clone, Debug, PartialEq)]
pub struct Outcome {
    pub completed: bool,
    pub finished_at: u64,
    pub end: End,
    pub driver: DriverCounts,
    pub forward: LineCounts,
    pub reverse: LineCounts,
    pub events: Vec<Event>,
    pub estimator: Estimator,
    words: [u64; OUTCOME_WORDS],
    output: Vec<u8>,
}

impl Outcome {
    /// All words, as pindrelo.h names them.
    pub fn words(&self) -> &[u64; OUTCOME_WORDS] {
        &self.words
    }

    /// What was delivered, up to the fill mark.
    pub fn delivered(&self) -> &[u8] {
        self.output.get(..self.filled()).unwrap_or(&[])
    }

    pub fn filled(&self) -> usize {
        self.words[15] as usize
    }

    /// Completed, with the fill mark at the file's length: exactly the file was written.
    pub fn is_whole(&self) -> bool {
        self.completed && self.filled() == self.output.len()
    }
}

/// A run of a file. Rolls are at least 0 and below 1; with as many as `RunSetup::rolls` says it ends as `Ended`, with
/// fewer it may end as `RollsSpent`. All else that a run is lent has room for what these rolls can send.
pub fn run(setup: &RunSetup, file: &[u8], forward_rolls: &[f64], reverse_rolls: &[f64]) -> Result<Outcome, Refusal> {
    let RunSetup { protocol, clock, window, chunk, line, estimator: e, max_virtual_time, max_retransmissions } = *setup;
    let numbers = [
        protocol as u64, clock as u64, window as u64, chunk as u64, line.reorder_extra_ms, line.base_delay_ms,
        line.jitter_ms, e.initial_rto, e.min_rto, e.max_rto, e.granularity, max_virtual_time, max_retransmissions,
    ];
    let reals =
        [line.loss, line.duplicate, line.reorder, line.corrupt, e.alpha, e.beta, e.k, e.rto_multiplier];
    // more chunks are a 4, and more packets than this have no rolls
    let chunks = setup.chunks(file.len()).min(MAX_CHUNKS);
    let packets = (chunks as u64).saturating_add(max_retransmissions).min((forward_rolls.len() / ROLLS + 1) as u64);
    let (packets, copies) = (packets as usize, 2 * packets as usize);
    let (mut sender_store, mut receiver_store) = (store_for(window, window)?, store_for(window, window)?);
    let mut output = vec![0; file.len()];
    let (mut notes, mut events) = (vec![[0; 7]; chunks], vec![[0; 7]; packets]);
    let (mut forward_records, mut forward_places) = (vec![[0; 4]; copies], vec![0; copies * PLACE_SIZE]);
    let (mut reverse_records, mut reverse_places) = (vec![[0; 4]; copies], vec![0; copies * PLACE_SIZE]);
    let (mut keys, mut deadlines) = (vec![0; window], vec![0; window]);
    let (mut words, mut estimator) = ([0; OUTCOME_WORDS], [0; ESTIMATOR_WORDS]);
    let mut doubles = [0.0; ESTIMATOR_DOUBLES];
    let a = unsafe {
        pindrelo_run(
            numbers.as_ptr(), numbers.len(), reals.as_ptr(), reals.len(), file.as_ptr(), file.len(),
            forward_rolls.as_ptr(), forward_rolls.len(), reverse_rolls.as_ptr(), reverse_rolls.len(),
            sender_store.as_mut_ptr(), sender_store.len(), receiver_store.as_mut_ptr(), receiver_store.len(),
            output.as_mut_ptr(), output.len(), notes.as_mut_ptr(), notes.len(), events.as_mut_ptr(), events.len(),
            forward_records.as_mut_ptr(), forward_records.len(), forward_places.as_mut_ptr(), forward_places.len(),
            reverse_records.as_mut_ptr(), reverse_records.len(), reverse_places.as_mut_ptr(), reverse_places.len(),
            keys.as_mut_ptr(), keys.len(), deadlines.as_mut_ptr(), deadlines.len(), words.as_mut_ptr(), words.len(),
            estimator.as_mut_ptr(), estimator.len(), doubles.as_mut_ptr(), doubles.len(),
        )
    };
    answer(a)?;
    Ok(Outcome {
        completed: words[0] == 1,
        finished_at: words[1],
        end: match words[2] {
            0 => End::Ended,
            1 => End::RollsSpent,
            2 => End::EventsFull,
            _ => End::ScheduleFull,
        },
        driver: DriverCounts {
            sent_again: words[3],
            too_early: words[4],
            data_received: words[5],
            acks_sent: words[6],
            acks_received: words[7],
            duplicate_data: words[8],
            duplicate_acks: words[9],
            events: words[10],
        },
        forward: line_counts(&words[19..25]),
        reverse: line_counts(&words[25..31]),
        events: events.iter().take(words[10] as usize).map(event).collect(),
        estimator: Estimator::restore(estimator, doubles),
        words,
        output,
    })
}

fn line_counts(w: &[u64]) -> LineCounts {
    LineCounts { datagrams: w[0], lost: w[1], corrupted: w[2], duplicated: w[3], reordered: w[4], copies: w[5] }
}

fn event(row: &[u64; 7]) -> Event {
    let [number, again, copies, delay, second_delay, sum, second_sum] = *row;
    Event {
        number,
        again: again == 1,
        copies: copies as usize,
        delays_ms: [delay, second_delay],
        sums: [sum, second_sum],
    }
}
