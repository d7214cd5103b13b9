//! Random texts: whole, with one byte changed, cut off, or hardly texts.

use super::Cases;
use crate::bytes::Hex;
use crate::rng::Rng;
use std::io;

/// The first and last character of each length in bytes, and those beside the
/// surrogates, get a share of their own.
const EDGES: [char; 12] = [
    '\0',
    '\u{7F}',
    '\u{80}',
    '\u{7FF}',
    '\u{800}',
    '\u{FFF}',
    '\u{1000}',
    '\u{D7FF}',
    '\u{E000}',
    '\u{FFFF}',
    '\u{10000}',
    '\u{10FFFF}',
];

pub fn random(cases: &mut Cases, rng: &mut Rng) -> io::Result<()> {
    // Most strings are short, where a slip shows most often; lines stay small.
    let most = rng.pick(&[12, 40, 80, 80, 150, 300]);
    let most = if rng.once_in(5_000) { 8_000 } else { most };
    let mut bytes = text(rng, most);
    match rng.below(4) {
        0 => {}
        1 => change_a_byte(rng, &mut bytes),
        2 => bytes.truncate(rng.index(bytes.len() + 1)),
        _ => fill_the_end(rng, &mut bytes),
    }
    cases.add(format_args!("is_utf8 {}", Hex(&bytes)))
}

/// Well-formed text of at most `most` bytes: runs of one kind of character.
pub fn text(rng: &mut Rng, most: usize) -> Vec<u8> {
    let end = rng.index(most + 1);
    let mut text = String::new();
    while text.len() < end {
        let kind = rng.below(8);
        for _ in 0..1 + rng.below(if kind < 4 { 40 } else { 4 }) {
            text.push(character(rng, kind));
        }
    }
    while text.len() > end {
        text.pop();
    }
    text.into_bytes()
}

fn character(rng: &mut Rng, kind: u64) -> char {
    let code = match kind {
        0..4 => rng.below(0x80),
        4 => 0x80 + rng.below(0x780),
        5 => 0x800 + rng.below(0xF800),
        6 => 0x1_0000 + rng.below(0x10_0000),
        _ => return rng.pick(&EDGES),
    };
    // A surrogate's code is no character; U+FFFD stands in.
    char::from_u32(code as u32).unwrap_or('\u{FFFD}')
}

pub fn change_a_byte(rng: &mut Rng, bytes: &mut [u8]) {
    if !bytes.is_empty() {
        let place = rng.index(bytes.len());
        bytes[place] = match rng.below(4) {
            0 => bytes[place] ^ 1 << rng.below(8),
            1 => bytes[place].wrapping_add(1),
            2 => bytes[place].wrapping_sub(1),
            _ => rng.byte(),
        };
    }
}

fn fill_the_end(rng: &mut Rng, bytes: &mut [u8]) {
    let start = rng.index(bytes.len() + 1);
    for byte in &mut bytes[start..] {
        *byte = rng.byte();
    }
}
