//! Well-formed UTF-8, by the rows of Unicode's table 3-7.

use super::table_3_7::{boundaries, rows, ILL_FORMED};
use super::{utf8_random, Cases, Group};
use crate::bytes::Hex;
use std::io;

pub const GROUP: Group =
    Group { name: "utf8", written: false, fixed, sweep, random: utf8_random::random, share: 1_000 };

/// A checker may go by blocks of 8 or 64 bytes: every place in such blocks.
const MOST_BEFORE: usize = 70;
/// ASCII after the string: none, one, and enough for a further block.
const AFTER: [usize; 4] = [0, 1, 8, 64];

/// Published examples: RFC 3629, section 7, four texts that are well-formed; of its sections on security and on surrogates a path with
/// an overlong dot, and a character as two surrogates; of Unicode, tables 3-8 to 3-11, ill-formed sequences before an ASCII letter.
const PUBLISHED: [&[u8]; 10] = [
    b"\x41\xE2\x89\xA2\xCE\x91\x2E",
    b"\xED\x95\x9C\xEA\xB5\xAD\xEC\x96\xB4",
    b"\xE6\x97\xA5\xE6\x9C\xAC\xE8\xAA\x9E",
    b"\xEF\xBB\xBF\xF0\xA3\x8E\xB4",
    b"\x2F\xC0\xAE\x2E\x2F",
    b"\xED\xA1\x8C\xED\xBE\xB4",
    b"\xC0\xAF\xE0\x80\xBF\xF0\x81\x82\x41",
    b"\xED\xA0\x80\xED\xBF\xBF\xED\xAF\x41",
    b"\xF4\x91\x92\x93\xFF\x41\x80\xBF\x42",
    b"\xE1\x80\xE2\xF0\x91\x92\xF1\xBF\x41",
];

fn fixed(cases: &mut Cases) -> io::Result<()> {
    cases.add(format_args!("is_utf8 -"))?;
    for row in rows() {
        let (low, high): (Vec<u8>, Vec<u8>) = row.iter().copied().unzip();
        add(cases, &low)?;
        add(cases, &high)?;
        // Each byte in turn just outside its range.
        for place in 0..row.len() {
            let mut bytes = low.clone();
            bytes[place] = low[place].wrapping_sub(1);
            add(cases, &bytes)?;
            bytes[place] = high[place].wrapping_add(1);
            add(cases, &bytes)?;
        }
        add(cases, &high[..high.len() - 1])?;
    }
    for bytes in ILL_FORMED {
        add(cases, bytes)?;
    }
    for bytes in PUBLISHED {
        add(cases, bytes)?;
    }
    cases.add(format_args!("is_utf8 =66000:1"))?;
    cases.add(format_args!("is_utf8 @66000:1"))?;
    add(cases, &embedded(b"\xE2\x82\xAC", 63, 8))?;
    add(cases, &embedded(b"\xE2\x82", 62, 0))
}

fn sweep(cases: &mut Cases) -> io::Result<()> {
    short_strings(cases)?;
    for bytes in ILL_FORMED {
        everywhere(cases, bytes)?;
    }
    for row in rows() {
        for bytes in boundaries(row) {
            everywhere(cases, &bytes)?;
        }
        truncated(cases, row)?;
    }
    Ok(())
}

/// Every string of one and of two bytes.
fn short_strings(cases: &mut Cases) -> io::Result<()> {
    for first in 0..=255 {
        add(cases, &[first])?;
        for second in 0..=255 {
            add(cases, &[first, second])?;
        }
    }
    Ok(())
}

/// Every beginning of a row's lowest and highest character: at the end, before
/// ASCII and before another such character.
fn truncated(cases: &mut Cases, row: &[(u8, u8)]) -> io::Result<()> {
    let (low, high): (Vec<u8>, Vec<u8>) = row.iter().copied().unzip();
    for whole in [&low, &high] {
        for end in 1..whole.len() {
            everywhere(cases, &whole[..end])?;
            everywhere(cases, &[&whole[..end], &low].concat())?;
        }
        everywhere(cases, &[&whole[..], &high].concat())?;
    }
    Ok(())
}

fn everywhere(cases: &mut Cases, bytes: &[u8]) -> io::Result<()> {
    for before in 0..=MOST_BEFORE {
        for after in AFTER {
            add(cases, &embedded(bytes, before, after))?;
        }
    }
    Ok(())
}

/// `bytes` between ASCII bytes of all kinds, 00 and 7F among them.
fn embedded(bytes: &[u8], before: usize, after: usize) -> Vec<u8> {
    let ascii = |n: usize| (0..n).map(|i| (i * 31 % 128) as u8 ^ 0x7F);
    ascii(before).chain(bytes.iter().copied()).chain(ascii(after)).collect()
}

fn add(cases: &mut Cases, bytes: &[u8]) -> io::Result<()> {
    cases.add(format_args!("is_utf8 {}", Hex(bytes)))
}
