//! Bytes as the lines give them: the generator, the digest and hex.

use std::fmt;

/// The most bytes a case may generate or lend.
pub const MOST: u64 = 66_000;

/// Up to this many bytes an answer shows in hex; more become a digest.
const SHOWN: usize = 40;

/// The bytes of `@LEN:SEED`.
pub fn generated(len: usize, seed: u64) -> Vec<u8> {
    let mut x = seed as u32;
    let mut next = || {
        x = x.wrapping_mul(1_103_515_245).wrapping_add(12_345);
        (x >> 16) as u8
    };
    (0..len).map(|_| next()).collect()
}

/// The bytes of `=LEN:SEED`: printable ASCII.
pub fn printable(len: usize, seed: u64) -> Vec<u8> {
    let mut bytes = generated(len, seed);
    for byte in &mut bytes {
        *byte = 32 + *byte % 95;
    }
    bytes
}

/// A lent buffer before the call.
pub fn lent(room: usize) -> Vec<u8> {
    generated(room, room as u64)
}

/// The digest of more than 40 bytes. A prime just below 2^44 times 2^19 - 1
/// stays below 2^63, so no step overflows.
pub fn digest(bytes: &[u8]) -> u64 {
    bytes.iter().fold(0, |h, &b| (h * 524_287 + u64::from(b) + 1) % 17_592_186_044_399)
}

/// Bytes as an answer gives them.
pub fn push_answer(line: &mut String, bytes: &[u8]) {
    if bytes.len() > SHOWN {
        line.push_str(&format!("{}:{}", bytes.len(), digest(bytes)));
    } else {
        push_hex(line, bytes);
    }
}

/// Bytes in lower-case hex, `-` for none.
pub fn push_hex(line: &mut String, bytes: &[u8]) {
    const DIGITS: &[u8; 16] = b"0123456789abcdef";
    if bytes.is_empty() {
        line.push('-');
    }
    line.reserve(2 * bytes.len());
    for byte in bytes {
        line.push(DIGITS[usize::from(byte >> 4)] as char);
        line.push(DIGITS[usize::from(byte & 15)] as char);
    }
}

/// Bytes in a case line, as hex.
pub struct Hex<'a>(pub &'a [u8]);

impl fmt::Display for Hex<'_> {
    fn fmt(&self, f: &mut fmt::Formatter<'_>) -> fmt::Result {
        let mut text = String::new();
        push_hex(&mut text, self.0);
        f.write_str(&text)
    }
}

#[cfg(test)]
mod tests {
    use super::*;

    #[test]
    fn generator_follows_its_recurrence() {
        // By hand: x = 12345, then 3554416254, then 2802067423 (mod 2^32).
        assert_eq!(generated(3, 0), [0, 0xDC, 0x04]);
        assert_eq!(generated(2, 1 << 32), generated(2, 0));
        assert_eq!(printable(3, 0), [32, 32 + 0xDC % 95, 32 + 4]);
    }

    #[test]
    fn digest_of_short_strings() {
        assert_eq!(digest(&[]), 0);
        assert_eq!(digest(&[0]), 1);
        assert_eq!(digest(&[0, 1]), 524_289);
        assert_eq!(digest(&[255, 255]), 256 * 524_287 + 256);
    }

    #[test]
    fn answers_turn_to_digests_past_forty_bytes() {
        let mut line = String::new();
        push_answer(&mut line, &[]);
        push_answer(&mut line, &[0xAB; 40]);
        assert_eq!(line, format!("-{}", "ab".repeat(40)));
        line.clear();
        push_answer(&mut line, &[1; 41]);
        assert!(line.starts_with("41:"));
    }
}
