// Stand-in for the reference's `app::integrity`, which is not to be had: the digest of bytes is their text, so that equal digests are equal bytes.
use std::fmt::Write;

pub fn compute_sha256(data: &[u8]) -> String {
    data.iter().fold(String::new(), |mut s, b| {
        write!(s, "{b:02x}").unwrap();
        s
    })
}
