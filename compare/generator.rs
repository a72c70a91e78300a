// What the comparisons share: a generator of pseudorandom numbers (SplitMix64), the order of document 01's checks, the report of a difference.
// packet.rs has its own generator and report.
pub struct Gen(pub u64);

impl Gen {
    pub fn next(&mut self) -> u64 {
        self.0 = self.0.wrapping_add(0x9E3779B97F4A7C15);
        let mut z = self.0;
        z = (z ^ (z >> 30)).wrapping_mul(0xBF58476D1CE4E5B9);
        z = (z ^ (z >> 27)).wrapping_mul(0x94D049BB133111EB);
        z ^ (z >> 31)
    }
    pub fn below(&mut self, n: u64) -> u64 {
        self.next() % n
    }
    pub fn bytes(&mut self, n: usize) -> Vec<u8> {
        (0..n).map(|_| self.next() as u8).collect()
    }
}

pub fn fail(what: &str, input: String) -> ! {
    println!("DIFFERENCE {what}: {input}");
    std::process::exit(1);
}

// The first true line of document 01's order 9, 8, 10, 11, 4, 1, 2, 3, 6, 7, 5, as 16 and its number; 0 if none is true.
pub fn verdict(lines: &[(u64, bool)]) -> u64 {
    for n in [9, 8, 10, 11, 4, 1, 2, 3, 6, 7, 5] {
        if lines.iter().any(|&(m, t)| m == n && t) {
            return 16 + n;
        }
    }
    0
}
