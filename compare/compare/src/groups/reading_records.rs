//! Records: every header byte, every length at and past its end, and what text
//! and URI records hold.

use super::image::{block, record, Claim, HAS_ID, LAST, MESSAGE, SHORT};
use super::reading::read_blocks;
use super::table_3_7::{boundaries, rows, ILL_FORMED};
use super::Cases;
use std::io;

pub fn sweep(cases: &mut Cases) -> io::Result<()> {
    headers(cases)?;
    claims(cases)?;
    long_payloads(cases)?;
    several(cases)?;
    many(cases)?;
    statuses(cases)?;
    prefixes(cases)?;
    texts(cases)
}

fn read_message(cases: &mut Cases, message: &[u8]) -> io::Result<()> {
    read_blocks(cases, &[&block(MESSAGE, message), &[0xFE]])
}

/// Every header over types, ids and payloads of several lengths, with the
/// message cut one byte short, exact, and one byte too long.
fn headers(cases: &mut Cases) -> io::Result<()> {
    for header in 0..=255 {
        for kind in [&b""[..], b"T", b"U", b"Tx"] {
            for id in [&b""[..], b"i", b"abc"] {
                for payload in [&b""[..], b"\x00", b"\x02enhi"] {
                    let whole = record(header, kind, id, payload);
                    read_message(cases, &whole)?;
                    read_message(cases, &whole[..whole.len() - 1])?;
                    read_message(cases, &[&whole[..], &[0xD1]].concat())?;
                }
            }
        }
    }
    Ok(())
}

/// Each of the three lengths one below, at and one above what is there.
fn claims(cases: &mut Cases) -> io::Result<()> {
    for header in
        [LAST | 1, LAST | SHORT | 1, LAST | HAS_ID | 2, LAST | SHORT | HAS_ID | 4, SHORT | HAS_ID]
    {
        for there in [0usize, 1, 2, 3, 4, 5, 8, 20] {
            let body = vec![b'U'; there];
            let most = there as u8 + 1;
            for kind in 0..=most {
                for id in 0..=most {
                    for payload in 0..=u32::from(most) {
                        read_message(
                            cases,
                            &Claim { header, kind, payload, id, body: &body }.bytes(),
                        )?;
                    }
                }
            }
            // The lengths themselves not all there.
            let whole = Claim { header, kind: 0, payload: 0, id: 0, body: &body }.bytes();
            (0..whole.len()).try_for_each(|end| read_message(cases, &whole[..end]))?;
            for most in [(255, 0, 0), (0, 255, 0), (0, 0, 255), (255, 255, 255)] {
                let (kind, payload, id) = most;
                read_message(cases, &Claim { header, kind, payload, id, body: &body }.bytes())?;
            }
        }
    }
    Ok(())
}

/// Payloads around 255 and 256 in both forms, and four-byte lengths whose high
/// bytes count.
fn long_payloads(cases: &mut Cases) -> io::Result<()> {
    let body = vec![b'p'; 301];
    for there in [0usize, 1, 5, 254, 255, 256, 257, 300] {
        let exact = there as u32;
        let high = [1 << 8, 1 << 16, 1 << 24, 1 << 31, u32::MAX].map(|n| n | exact);
        for payload in [exact.saturating_sub(1), exact, exact + 1].into_iter().chain(high) {
            for header in [LAST | 1, LAST | SHORT | 1, LAST | HAS_ID | 1, HAS_ID | SHORT | 7] {
                let claim = Claim { header, kind: 1, payload, id: 0, body: &body[..there + 1] };
                read_message(cases, &claim.bytes())?;
            }
        }
    }
    Ok(())
}

/// Messages of several records: the last flag at each place or nowhere, and a
/// broken record at each place or nowhere.
fn several(cases: &mut Cases) -> io::Result<()> {
    for count in 0..=6usize {
        for last in 0..=count {
            for broken in 0..=count {
                for fault in
                    [&b"\xB1\x00\x00"[..], b"\x11\x05\x00", b"\x11", b"\x01\x00\xFF\xFF\xFF\xFF"]
                {
                    let mut message = Vec::new();
                    for place in 0..count {
                        let flag = if place == last { LAST } else { 0 };
                        let header = flag | SHORT | HAS_ID | (place as u8 & 7);
                        message.extend(record(
                            header,
                            b"U",
                            &vec![b'i'; place],
                            &vec![place as u8; place],
                        ));
                        if place == broken {
                            message.extend_from_slice(fault);
                        }
                    }
                    read_message(cases, &message)?;
                }
            }
        }
    }
    Ok(())
}

/// As many records as a tag holds, the last with or without its flag.
fn many(cases: &mut Cases) -> io::Result<()> {
    for count in [50, 84, 85, 86, 300, 1000, 2700] {
        let mut message = record(SHORT, b"", b"", b"").repeat(count);
        read_message(cases, &message)?;
        let header = message.len() - 3;
        message[header] |= LAST;
        read_message(cases, &[&message[..], b"\x11\x09"].concat())?;
        message[header] |= 0x20;
        read_message(cases, &message)?;
    }
    Ok(())
}

/// Text records with every status byte over every length up to 66: the language
/// code's six bits reach 63.
fn statuses(cases: &mut Cases) -> io::Result<()> {
    let mut payload = [b't'; 67];
    for status in 0..=255 {
        payload[0] = status;
        for len in 0..=payload.len() {
            read_message(cases, &record(LAST | SHORT | 1, b"T", b"", &payload[..len]))?;
        }
    }
    Ok(())
}

/// URI records with every prefix code.
fn prefixes(cases: &mut Cases) -> io::Result<()> {
    for code in 0..=255 {
        for rest in [&b""[..], b"example.org/a", b"\xC3\xA9", b"\xE2\x82", b"\x80"] {
            let payload = [&[code], rest].concat();
            for header in [LAST | SHORT | 1, LAST | 1, LAST | SHORT | 2, LAST | SHORT] {
                read_message(cases, &record(header, b"U", b"", &payload))?;
            }
        }
    }
    read_message(cases, &record(LAST | SHORT | 1, b"U", b"", b""))
}

/// The boundary strings of UTF-8 inside records; the language code is not text.
fn texts(cases: &mut Cases) -> io::Result<()> {
    let boundary = rows().flat_map(boundaries);
    for bytes in ILL_FORMED.iter().map(|bytes| bytes.to_vec()).chain(boundary) {
        for payload in [
            [&b"\x02en"[..], &bytes].concat(),
            [&b"\x00abc"[..], &bytes, b"xyz"].concat(),
            [&[bytes.len() as u8], &bytes[..], b"ok"].concat(),
        ] {
            read_message(cases, &record(LAST | SHORT | 1, b"T", b"", &payload))?;
            read_message(cases, &record(LAST | SHORT | 1, b"U", b"", &payload))?;
        }
    }
    Ok(())
}
