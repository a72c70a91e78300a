// The calls of the channel and the schedule, for compare/channel.rs and bench/channel.rs. No host has them: crates/bench_ffi exports them.
use crate::exports::*;

pub fn new_channel(reals: &[f64], numbers: &[u64]) -> u64 {
    unsafe { channel_new(reals.as_ptr(), reals.len(), numbers.as_ptr(), numbers.len()) }
}

pub fn process(reals: &[f64], numbers: &[u64], packet: &[u8], out: &mut [u8]) -> [u64; 9] {
    let mut a = [0u64; 9];
    unsafe { channel_process(reals.as_ptr(), reals.len(), numbers.as_ptr(), numbers.len(), packet.as_ptr(), packet.len(), out.as_mut_ptr(), out.len(), a.as_mut_ptr(), 9) };
    a
}

#[derive(Clone)]
pub struct Ours {
    pub records: Vec<[u64; 4]>,
    pub places: Vec<u8>,
    pub count: usize,
    pub next: u64,
}

impl Ours {
    pub fn new(mut records: Vec<[u64; 4]>, mut places: Vec<u8>) -> Ours {
        let mut a = [7u64; 4];
        unsafe { schedule_new(records.as_mut_ptr(), records.len(), places.as_mut_ptr(), places.len(), a.as_mut_ptr(), 4) };
        Ours { records, places, count: a[2] as usize, next: a[3] }
    }

    // 0, or 16 and the number of a refusal
    pub fn schedule_at(&mut self, now: u64, packet: &[u8], delays: &[u64]) -> u64 {
        let mut a = [7u64; 4];
        let first = delays.first().copied().unwrap_or(0);
        let second = delays.get(1).copied().unwrap_or(0);
        unsafe {
            schedule_at(self.records.as_mut_ptr(), self.records.len(), self.places.as_mut_ptr(), self.places.len(), packet.as_ptr(), packet.len(), self.count, now, self.next, delays.len() as u64, first, second, a.as_mut_ptr(), 4)
        };
        self.count = a[2] as usize;
        self.next = a[3];
        a[0]
    }

    // 0 nothing, 1 a packet of that length, or 16 and the number of a refusal
    pub fn pop_ready_at(&mut self, now: u64, out: &mut [u8]) -> (u64, usize) {
        let mut a = [7u64; 4];
        unsafe { pop_ready_at(self.records.as_mut_ptr(), self.records.len(), self.places.as_mut_ptr(), self.places.len(), out.as_mut_ptr(), out.len(), self.count, now, self.next, a.as_mut_ptr(), 4) };
        self.count = a[2] as usize;
        self.next = a[3];
        (a[0], a[1] as usize)
    }

    // next_deadline, len, room (each a kind and a value), is_empty
    pub fn read(&self) -> [u64; 7] {
        let mut a = [0u64; 7];
        unsafe { schedule_read(self.records.as_ptr(), self.records.len(), self.places.as_ptr(), self.places.len(), self.count, self.next, a.as_mut_ptr(), 7) };
        a
    }

    #[allow(dead_code)]
    pub fn schedule_one_unchecked(&mut self, now: u64, packet: &[u8], delay: u64) {
        unsafe { schedule_at_unchecked(self.records.as_mut_ptr(), self.records.len(), self.places.as_mut_ptr(), self.places.len(), packet.as_ptr(), packet.len(), self.count, now, self.next, delay) };
        self.count += 1;
        self.next += 1;
    }

    #[allow(dead_code)]
    pub fn pop_unchecked(&mut self, now: u64, out: &mut [u8]) -> usize {
        let n = unsafe { pop_ready_at_unchecked(self.records.as_mut_ptr(), self.records.len(), self.places.as_mut_ptr(), self.places.len(), out.as_mut_ptr(), out.len(), self.count, now, self.next) };
        if n <= 1410 {
            self.count -= 1;
        }
        n
    }
}
