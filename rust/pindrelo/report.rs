//! The page of a run's events.
use super::{length, Event, Refusal};

extern "C" {
    fn pindrelo_report(
        events: *mut [u64; 7], event_count: usize, count: usize, out: *mut u8, out_size: usize,
    ) -> u64;
}

/// Bytes of a line: 72 columns and a line feed.
pub const REPORT_LINE: usize = 73;

/// How long the page of so many events is; `None`: longer than a slice.
pub fn report_size(count: usize) -> Option<usize> {
    count.checked_add(2)?.checked_mul(REPORT_LINE)
}

/// The length of the page at the start of out. A number of more than 32 bits, more than two copies or a sum above
/// 65,535 are a 9, a delay above 180,000 ms is a 10.
pub fn report(events: &[Event], out: &mut [u8]) -> Result<usize, Refusal> {
    let mut rows: Vec<[u64; 7]> = events.iter().map(row).collect();
    let (r, n) = (rows.as_mut_ptr(), rows.len());
    Ok(length(unsafe { pindrelo_report(r, n, n, out.as_mut_ptr(), out.len()) })?.unwrap_or(0))
}

fn row(e: &Event) -> [u64; 7] {
    let ([delay, second_delay], [sum, second_sum]) = (e.delays_ms, e.sums);
    [e.number, e.again as u64, e.copies as u64, delay, second_delay, sum, second_sum]
}
