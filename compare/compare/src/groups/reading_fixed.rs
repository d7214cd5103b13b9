//! The reader's boundaries, one by one, with bench cards 5 to 8 of document 01.

use super::image::{
    block, long_block, record, Claim, EIGHT, FOUR, HAS_ID, HEADS, LAST, MESSAGE, SHORT,
};
use super::reading::{read, read_blocks};
use super::Cases;
use std::io;

pub fn fixed(cases: &mut Cases) -> io::Result<()> {
    cards(cases)?;
    containers(cases)?;
    blocks(cases)?;
    records(cases)?;
    texts(cases)?;
    uris(cases)?;
    published(cases)?;
    differences(cases)?;
    cases.add(format_args!("read -"))?;
    cases.add(format_args!("read @8192:1"))?;
    cases.add(format_args!("read =300:1"))
}

/// Worked examples of the NFC Forum's documents: URI RTD 1.0, appendix A (a web address, a telephone number, an address without prefix),
/// a text of the Text RTD, and the simplest poster of the Smart Poster RTD, whose payload is a message of its own.
fn published(cases: &mut Cases) -> io::Result<()> {
    for message in [
        &b"\xD1\x01\x08U\x01nfc.com"[..],
        b"\xD1\x01\x0DU\x05+35891234567",
        b"\xD1\x01\x1FU\x00mms://example.com/download.wmv",
        b"\xD1\x01\x10T\x02enHello, world!",
        b"\xD1\x02\x12Sp\xD1\x01\x0EU\x01nfc-forum.org",
    ] {
        read_blocks(cases, &[&block(MESSAGE, message)])?;
    }
    Ok(())
}

/// The smallest inputs of docs/DIFFERENCES.md, 'The Rust, and so this port, and the NFC Forum documents', that stand nowhere else here.
fn differences(cases: &mut Cases) -> io::Result<()> {
    // Byte 2 of a container that begins with E2 is not 0: with eight bytes, and with the four that it then says.
    read(cases, b"\xE2\x40\x01\x00\x00\x00\x03\xFF\x03\x00")?;
    read(cases, b"\xE2\x40\x01\x00\x03\x00\xFE")?;
    // An area of no bytes, and a block all the same.
    read(cases, b"\xE2\x40\x00\x01\x00\x00\x00\x00\x03\x00")?;
    // The long form of a small length.
    read_blocks(cases, &[b"\x03\xFF\x00\x00\xFE"])?;
    // A record without the message-begin flag, of the reserved format; one without the message-end flag; the empty format with a type name.
    for message in [
        record(LAST | SHORT | 7, b"", b"", b""),
        record(SHORT, b"", b"", b""),
        record(LAST | SHORT, b"T", b"", b""),
    ] {
        read_blocks(cases, &[&block(MESSAGE, &message)])?;
    }
    // A line feed in a URI.
    read_blocks(cases, &[&block(MESSAGE, &record(LAST | SHORT | 1, b"U", b"", b"\x00\n"))])?;
    // A payload of exactly 255 in the long form, as some peers write it.
    let payload = vec![b'p'; 255];
    read_blocks(cases, &[&long_block(MESSAGE, &record(LAST | 2, b"a", b"", &payload))])
}

fn cards(cases: &mut Cases) -> io::Result<()> {
    read(cases, &[FOUR, b"\x03\x00\xFE"].concat())?;
    read(cases, &[HEADS[0], b"\x03\x00\xFE"].concat())?;
    read(cases, b"\xE1")?;
    read(cases, EIGHT)?;
    read(cases, b"\xE2\x80\x00\x01\x00\x00\x03\xFF")?;
    for tail in [&b"\x03\x05\x01\x02\x03\x04"[..], b"\x03\xFF\x00", b"\x03\x01\x20\xFE"] {
        read_blocks(cases, &[tail])?;
    }
    // Card 1 read back.
    read_blocks(cases, &[b"\x03\x0D\xD1\x01\x09T\x02enMARCH1\xFE"])
}

fn containers(cases: &mut Cases) -> io::Result<()> {
    for head in HEADS {
        for end in [1, 2, 3, 4, 7] {
            read(cases, &head[..end.min(head.len())])?;
        }
    }
    for second in [0x3F, 0x40, 0x7F, 0x80] {
        read(cases, &[&[0xE2, second], &EIGHT[2..], b"\x03\x00"].concat())?;
        read(cases, &[&[0xE1, second], &FOUR[2..], b"\x03\x00"].concat())?;
    }
    read(cases, b"\xE0\x40\x00\x01\x00\x00\x03\xFF\x03\x00")?;
    read(cases, b"\xE3\x40\x00\x01\x00\x00\x03\xFF\x03\x00")
}

fn blocks(cases: &mut Cases) -> io::Result<()> {
    for blocks in [
        &b""[..],
        b"\x00",
        b"\xFE",
        b"\x00\x00\xFE",
        b"\x01",
        b"\x01\x00",
        b"\x01\x01",
        b"\x01\xFF",
        b"\x01\xFF\x00",
        b"\x01\xFF\x00\x00",
        b"\x01\xFF\x00\x01",
        b"\x03",
        b"\x03\x00",
        b"\x03\x01",
        b"\x03\xFF\x00\x00",
        b"\x03\xFF\x00\x03\x51\x00\x00",
        b"\x03\xFF\x00\x04\x51\x00\x00",
        b"\x00\x01\x02aa\x00\xFD\x00\x03\x00",
        b"\x01\x02aa\xFE\x03\x00",
        b"\x03\x00\x03\x03\x51\x00\x00",
        b"\xFF\x01a\x03\x00",
    ] {
        read_blocks(cases, &[blocks])?;
    }
    let payload = vec![b'p'; 252];
    for len in 250..=252 {
        read_blocks(
            cases,
            &[&block(MESSAGE, &record(LAST | SHORT | 2, b"a", b"", &payload[..len]))],
        )?;
    }
    read_blocks(cases, &[&long_block(MESSAGE, &record(LAST | SHORT | 2, b"a", b"", &payload[..9]))])
}

fn records(cases: &mut Cases) -> io::Result<()> {
    let sound = record(SHORT | HAS_ID | 4, b"ab", b"cde", b"fghi");
    for end in 0..sound.len() {
        read_blocks(cases, &[&block(MESSAGE, &sound[..end])])?;
    }
    read_blocks(cases, &[&block(MESSAGE, &[&sound[..], &sound].concat())])?;
    let last = record(LAST | SHORT, b"", b"", b"");
    read_blocks(cases, &[&block(MESSAGE, &[&sound[..], &last, &sound].concat())])?;
    read_blocks(cases, &[&block(MESSAGE, &[&sound[..], &[0x31]].concat())])?;
    read_blocks(cases, &[&block(MESSAGE, &[&sound[..], &[0x11, 1]].concat())])?;
    let long = record(LAST | HAS_ID | 7, b"T", b"", b"\x00four bytes of length");
    for end in [2, 3, 5, 6, 7, 8, long.len()] {
        read_blocks(cases, &[&block(MESSAGE, &long[..end])])?;
    }
    for payload in [1, 2, 1 << 8, 1 << 16, 1 << 24, u32::MAX] {
        let claim = Claim { header: LAST | 1, kind: 1, payload, id: 0, body: b"Ux" };
        read_blocks(cases, &[&block(MESSAGE, &claim.bytes())])?;
    }
    Ok(())
}

fn texts(cases: &mut Cases) -> io::Result<()> {
    for payload in [
        &b""[..],
        b"\x00",
        b"\x01",
        b"\x01e",
        b"\x02e",
        b"\x02en",
        b"\x02en\xC3\xA9",
        b"\x02en\xC3",
        b"\x02e\xFFok",
        b"\x80",
        b"\x82enx",
        b"\x42enx",
        b"\x7Fenx",
    ] {
        read_blocks(cases, &[&block(MESSAGE, &record(LAST | SHORT | 1, b"T", b"", payload))])?;
    }
    for (header, kind) in
        [(LAST | SHORT | 2, &b"T"[..]), (LAST | SHORT | 1, b"t"), (LAST | SHORT | 1, b"TT")]
    {
        read_blocks(cases, &[&block(MESSAGE, &record(header, kind, b"", b"\x02enhi"))])?;
    }
    Ok(())
}

fn uris(cases: &mut Cases) -> io::Result<()> {
    for payload in [
        &b""[..],
        b"\x00",
        b"\x04example.org",
        b"\x23x",
        b"\x24x",
        b"\xFFx",
        b"\x01\xE2\x82\xAC",
        b"\x01\xE2\x82",
        b"\x00\xED\xA0\x80",
    ] {
        read_blocks(cases, &[&block(MESSAGE, &record(LAST | SHORT | 1, b"U", b"", payload))])?;
    }
    read_blocks(cases, &[&block(MESSAGE, &record(LAST | SHORT | 3, b"U", b"", b"\x01x"))])
}
