// Lists of cases for the replays, with the reference's answers, in the form that crates/replay_io reads and prints.
use std::fmt::Write;

pub struct Cases {
    stdin: String,
    stdout: String,
    pub count: usize,
}

impl Cases {
    pub fn new(layer: &str, seed: u64) -> Cases {
        assert_eq!(crc32(b"123456789"), 0xCBF4_3926);
        Cases { stdin: format!("# Made by compare/{layer}.rs --sample, seed {seed}; the answers are the reference's, refusals document 01's.\n"), stdout: String::new(), count: 0 }
    }
    // An answer has a blank before each of its parts.
    pub fn case(&mut self, line: String, answer: String) {
        let letter = line.chars().next().unwrap_or(' ');
        writeln!(self.stdin, "{line}").unwrap();
        writeln!(self.stdout, "{letter}{answer}").unwrap();
        self.count += 1;
    }
    #[allow(dead_code)]
    // Near what a replay reads, or so long that `rt try` might end it: it may write 1 MiB, and has a limit of time.
    pub fn is_full(&self) -> bool {
        self.stdin.len() > 500_000 || self.stdout.len() > 400_000
    }
    pub fn save(&self, dir: &str) {
        std::fs::create_dir_all(dir).unwrap();
        std::fs::write(format!("{dir}/stdin"), &self.stdin).unwrap();
        std::fs::write(format!("{dir}/stdout"), &self.stdout).unwrap();
        println!("{} cases, {} bytes of input, {} of answers, in {dir}", self.count, self.stdin.len(), self.stdout.len());
    }
}

// Lines that have another form than replay_io's.
pub const BAD_LINES: [&str; 14] = [
    "", " ", "q q", "?", "t 18446744073709551616", "t 18446744073709551620", "t 99999999999999999999", "t  1", "t 1 2", "t -1", "r x0", "r x0g", "r xAB", "r x00 1",
];

pub fn crc32(bytes: &[u8]) -> u32 {
    let mut crc = !0u32;
    for &b in bytes {
        crc ^= b as u32;
        for _ in 0..8 {
            crc = if crc & 1 == 1 { crc >> 1 ^ 0xEDB8_8320 } else { crc >> 1 };
        }
    }
    !crc
}

pub fn given(bytes: &[u8]) -> String {
    bytes.iter().fold(" x".to_string(), |s, b| s + &format!("{b:02x}"))
}

pub fn shown(bytes: &[u8]) -> String {
    if bytes.len() > 2048 { format!(" {}{}", bytes.len(), crc(bytes)) } else { given(bytes) }
}

pub fn crc(bytes: &[u8]) -> String {
    format!(" crc32 {:08x}", crc32(bytes))
}

pub fn numbers(xs: &[u64]) -> String {
    xs.iter().map(|n| format!(" {n}")).collect()
}
