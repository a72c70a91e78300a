// What comparison and benchmark call: the exports of crates/pindrelo, as include/pindrelo.h has them, and those of crates/bench_ffi.
#![allow(dead_code)]

#[rustfmt::skip]
extern "C" {
    pub fn pindrelo_make_sender(protocol: u64, window: usize, max_retries: u64, state: *mut u64, words: usize, store: *mut u8, nt: usize) -> u64;
    pub fn pindrelo_send(state: *mut u64, words: usize, store: *mut u8, nt: usize, payload: *const u8, np: usize, out: *mut u8, no: usize) -> u64;
    pub fn pindrelo_acknowledge(state: *mut u64, words: usize, store: *mut u8, nt: usize, raw: *const u8, nr: usize) -> u64;
    pub fn pindrelo_timeout_all(state: *mut u64, words: usize, store: *mut u8, nt: usize, out: *mut u8, no: usize) -> u64;
    pub fn pindrelo_timeout_earliest(state: *mut u64, words: usize, store: *mut u8, nt: usize, out: *mut u8, no: usize) -> u64;
    pub fn pindrelo_timeout_number(state: *mut u64, words: usize, store: *mut u8, nt: usize, number: u64, out: *mut u8, no: usize) -> u64;
    pub fn pindrelo_can_send(state: *const u64, words: usize) -> u64;
    pub fn pindrelo_in_flight(state: *const u64, words: usize, store: *const u8, nt: usize) -> u64;
    pub fn pindrelo_is_retransmitted(state: *const u64, words: usize, store: *const u8, nt: usize, number: u64) -> u64;
    pub fn pindrelo_make_receiver(protocol: u64, window: usize, state: *mut u64, words: usize, store: *mut u8, nt: usize) -> u64;
    pub fn pindrelo_receive(state: *mut u64, words: usize, store: *mut u8, nt: usize, raw: *const u8, nr: usize, output: *mut u8, no: usize, ack: *mut u8, nk: usize) -> u64;
    pub fn pindrelo_buffered_count(state: *const u64, words: usize, store: *const u8, nt: usize) -> u64;
    pub fn pindrelo_drain(state: *mut u64, words: usize, store: *const u8, nt: usize, output: *const u8, no: usize) -> u64;
    pub fn pindrelo_read(raw: *const u8, nr: usize) -> u64;
    pub fn pindrelo_validate(raw: *const u8, nr: usize) -> u64;
    pub fn pindrelo_payload_length(raw: *const u8, nr: usize) -> u64;
    pub fn pindrelo_write(kind: u64, number: u64, flags: u64, payload: *const u8, np: usize, out: *mut u8, no: usize) -> u64;
    pub fn pindrelo_make_timers(state: *mut u64, words: usize, keys: *mut u32, nk: usize, deadlines: *mut u64, nd: usize) -> u64;
    pub fn pindrelo_timer_start(state: *mut u64, words: usize, keys: *mut u32, nk: usize, deadlines: *mut u64, nd: usize, key: u64, now: u64, duration: u64) -> u64;
    pub fn pindrelo_timer_cancel(state: *mut u64, words: usize, keys: *mut u32, nk: usize, deadlines: *mut u64, nd: usize, key: u64) -> u64;
    pub fn pindrelo_timer_pop(state: *mut u64, words: usize, keys: *mut u32, nk: usize, deadlines: *mut u64, nd: usize, now: u64, out: *mut u32, no: usize) -> u64;
    pub fn pindrelo_timer_earliest(state: *const u64, words: usize, keys: *const u32, nk: usize, deadlines: *const u64, nd: usize) -> u64;
    pub fn pindrelo_timer_clear(state: *mut u64, words: usize, keys: *mut u32, nk: usize, deadlines: *mut u64, nd: usize) -> u64;
    pub fn pindrelo_make_single_timer(state: *mut u64, words: usize) -> u64;
    pub fn pindrelo_single_timer_start(state: *mut u64, words: usize, now: u64, duration: u64) -> u64;
    pub fn pindrelo_single_timer_cancel(state: *mut u64, words: usize) -> u64;
    pub fn pindrelo_single_timer_is_active(state: *const u64, words: usize) -> u64;
    pub fn pindrelo_single_timer_remaining(state: *const u64, words: usize, now: u64) -> u64;
    pub fn pindrelo_single_timer_is_expired(state: *const u64, words: usize, now: u64) -> u64;
    pub fn pindrelo_single_timer_is_expired_for(state: *const u64, words: usize, generation: u64, now: u64) -> u64;
    pub fn pindrelo_make_estimator(state: *mut u64, words: usize, doubles: *mut f64, nd: usize, initial_rto: u64, min_rto: u64, max_rto: u64, granularity: u64, alpha: f64, beta: f64, k: f64, rto_multiplier: f64) -> u64;
    pub fn pindrelo_make_default_estimator(state: *mut u64, words: usize, doubles: *mut f64, nd: usize) -> u64;
    pub fn pindrelo_estimator_sample(state: *mut u64, words: usize, doubles: *mut f64, nd: usize, sample: u64, retransmitted: u64) -> u64;
    pub fn pindrelo_estimator_timeout(state: *mut u64, words: usize, doubles: *mut f64, nd: usize) -> u64;
    pub fn pindrelo_estimator_reset_backoff(state: *mut u64, words: usize, doubles: *mut f64, nd: usize) -> u64;
    pub fn pindrelo_estimator_exceeded(state: *const u64, words: usize, doubles: *const f64, nd: usize, max_retries: u64) -> u64;
    pub fn pindrelo_estimator_mean(state: *const u64, words: usize, doubles: *const f64, nd: usize, out: *mut f64, no: usize) -> u64;
    pub fn pindrelo_run(
        numbers: *const u64, nn: usize, reals: *const f64, nr: usize, file: *const u8, nf: usize, forward_rolls: *const f64, nfr: usize, reverse_rolls: *const f64, nrr: usize,
        sender_store: *mut u8, ns: usize, receiver_store: *mut u8, nrs: usize, output: *mut u8, no: usize, notes: *mut [u64; 7], nw: usize, events: *mut [u64; 7], ne: usize,
        forward_records: *mut [u64; 4], nfc: usize, forward_places: *mut u8, nfp: usize, reverse_records: *mut [u64; 4], nrc: usize, reverse_places: *mut u8, nrp: usize,
        keys: *mut u32, nk: usize, deadlines: *mut u64, nd: usize, words: *mut u64, nu: usize, estimator: *mut u64, nm: usize, doubles: *mut f64, nb: usize,
    ) -> u64;

    pub fn packet_header_size() -> usize;
    pub fn packet_max_payload_size() -> usize;
    pub fn packet_flag_retransmitted() -> u8;
    pub fn packet_try_from(byte: u8) -> u64;
    pub fn packet_new_data(seq: u32, answer: *mut u64, n: usize) -> u64;
    pub fn packet_new_ack(seq: u32, answer: *mut u64, n: usize) -> u64;
    pub fn packet_new_fin(seq: u32, answer: *mut u64, n: usize) -> u64;
    pub fn packet_is_retransmitted(seq: u32, kind: u8, flags: u8, checksum: u16) -> u64;
    pub fn packet_set_retransmitted(seq: u32, kind: u8, flags: u8, checksum: u16, answer: *mut u64, n: usize) -> u64;
    pub fn packet_compute_checksum(seq: u32, kind: u8, flags: u8, checksum: u16, payload: *const u8, np: usize) -> u64;
    pub fn packet_compute_and_set_checksum(seq: u32, kind: u8, flags: u8, checksum: u16, payload: *const u8, np: usize, answer: *mut u64, n: usize) -> u64;
    pub fn packet_to_bytes(seq: u32, kind: u8, flags: u8, checksum: u16, payload: *const u8, np: usize, out: *mut u8, no: usize) -> u64;
    pub fn packet_from_bytes(raw: *const u8, nr: usize, answer: *mut u64, n: usize) -> u64;
    pub fn packet_payload(raw: *const u8, nr: usize, out: *mut u8, no: usize) -> usize;
    pub fn packet_from_bytes_each(wire: *const u8, nw: usize) -> u64;
    pub fn timing_as_secs_f64(ns: u64) -> f64;
    pub fn timing_from_secs_f64(x: f64, answer: *mut u64, n: usize) -> u64;
    pub fn timing_multi_expired(s: *const u64, n: usize, keys: *const u32, nk: usize, deadlines: *const u64, nd: usize, key: u32, now: u64) -> u64;
    pub fn timing_start_each(s: *mut u64, n: usize, keys: *mut u32, nk: usize, deadlines: *mut u64, nd: usize, given: *const u32, ng: usize, now: u64, duration: u64);
    pub fn timing_update_rtt_each(samples: *const u64, n: usize) -> u64;
    pub fn timing_multi_start_unchecked(keys: *mut u32, nk: usize, deadlines: *mut u64, nd: usize, count: usize, generation: u64, key: u32, deadline: u64) -> usize;
    pub fn timing_multi_cancel_unchecked(keys: *mut u32, nk: usize, deadlines: *mut u64, nd: usize, count: usize, generation: u64, key: u32) -> usize;
    pub fn timing_multi_pop_unchecked(keys: *mut u32, nk: usize, deadlines: *mut u64, nd: usize, count: usize, generation: u64, now: u64, out: *mut u32, no: usize) -> usize;
    pub fn arq_has_unacked_packets(state: *const u64, n: usize) -> u64;
    pub fn arq_send_chunk_each(state: *mut u64, n: usize, store: *mut u8, nt: usize, payload: *const u8, np: usize, wire: *mut u8, nw: usize);
    pub fn arq_handle_ack_each(state: *mut u64, n: usize, store: *mut u8, nt: usize, acks: *const u8, na: usize);
    pub fn arq_handle_packet_each(state: *mut u64, n: usize, store: *mut u8, nt: usize, wire: *const u8, nw: usize, output: *mut u8, no: usize, ack: *mut u8, nk: usize);
    pub fn channel_new(reals: *const f64, nr: usize, numbers: *const u64, nn: usize) -> u64;
    pub fn channel_process(reals: *const f64, nr: usize, numbers: *const u64, nn: usize, packet: *const u8, np: usize, out: *mut u8, no: usize, answer: *mut u64, na: usize);
    pub fn schedule_new(records: *mut [u64; 4], nr: usize, places: *mut u8, np: usize, answer: *mut u64, na: usize);
    pub fn schedule_at(records: *mut [u64; 4], nr: usize, places: *mut u8, np: usize, packet: *const u8, nk: usize, count: usize, now: u64, next: u64, copies: u64, first: u64, second: u64, answer: *mut u64, na: usize);
    pub fn pop_ready_at(records: *mut [u64; 4], nr: usize, places: *mut u8, np: usize, out: *mut u8, no: usize, count: usize, now: u64, next: u64, answer: *mut u64, na: usize);
    pub fn schedule_read(records: *const [u64; 4], nr: usize, places: *const u8, np: usize, count: usize, next: u64, answer: *mut u64, na: usize);
    pub fn schedule_at_unchecked(records: *mut [u64; 4], nr: usize, places: *mut u8, np: usize, packet: *const u8, nk: usize, count: usize, now: u64, next: u64, delay: u64);
    pub fn pop_ready_at_unchecked(records: *mut [u64; 4], nr: usize, places: *mut u8, np: usize, out: *mut u8, no: usize, count: usize, now: u64, next: u64) -> usize;
}

// An export's answer: a status in its lowest 8 bits, a value in the 56 above them. A refusal's value is two numbers of 16 bits.
pub const DONE: u64 = 0;
pub const WINDOW_FULL: u64 = 16;
pub const NOT_ACCEPTED: u64 = 17;
pub const NOTHING: u64 = 18;
pub const SILENT: u64 = 19;
pub const INVALID: u64 = 20;

pub fn status(a: u64) -> u64 {
    a & 0xff
}
pub fn value(a: u64) -> u64 {
    a >> 8
}
pub fn done(value: u64) -> u64 {
    value << 8 | DONE
}
pub fn refused(n: u64, first: u64, second: u64) -> u64 {
    (second << 16 | first) << 8 | n
}
