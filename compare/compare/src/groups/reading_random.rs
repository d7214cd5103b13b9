//! Random images: good ones changed or cut, made-up blocks and records, and
//! plain noise.

use super::image::{block, long_block, record, Claim, HEADS, LAST, MESSAGE};
use super::reading::read;
use super::utf8_random::{change_a_byte, text};
use super::Cases;
use crate::rng::Rng;
use std::io;

/// The part of document 01 holds this much; no image is longer.
const MOST: u64 = 8_192;

/// Bytes that mean something somewhere in an image.
const TELLING: [u8; 20] = [
    0x00, 0x01, 0x02, 0x03, 0x04, 0x05, 0x08, 0x10, 0x11, 0x18, 0x19, 0x20, 0x40, 0x51, 0x54, 0x55,
    0xD1, 0xFD, 0xFE, 0xFF,
];

pub fn random(cases: &mut Cases, rng: &mut Rng) -> io::Result<()> {
    if rng.once_in(500) {
        return noise(cases, rng);
    }
    let image = match rng.below(8) {
        0 | 1 => changed(rng),
        2 => {
            let mut image = good(rng);
            image.truncate(rng.index(image.len() + 1));
            image
        }
        3 => telling(rng),
        _ => made_up(rng),
    };
    read(cases, &image)
}

fn noise(cases: &mut Cases, rng: &mut Rng) -> io::Result<()> {
    let len = rng.below(MOST + 1);
    if rng.once_in(2) {
        return cases.add(format_args!("read @{len}:{}", rng.any()));
    }
    let tail: Vec<u8> = (0..len).map(|_| rng.byte()).collect();
    let mut image =
        [rng.pick(&HEADS), &[MESSAGE, 0xFF, (len >> 8) as u8, len as u8], &tail].concat();
    image.truncate(MOST as usize);
    read(cases, &image)
}

fn changed(rng: &mut Rng) -> Vec<u8> {
    let mut image = good(rng);
    for _ in 0..1 + rng.below(3) {
        // Half of the changes hit the lengths and headers near the start.
        let end = if rng.once_in(2) { image.len().min(24) } else { image.len() };
        change_a_byte(rng, &mut image[..end]);
    }
    image
}

/// An image of the original's own making.
fn good(rng: &mut Rng) -> Vec<u8> {
    let text = String::from_utf8(text(rng, 100)).expect("made of characters");
    let mut out = vec![0; 400];
    let built = match rng.below(8) {
        0 => catcard_nfc::empty_image(&mut out, 8184),
        1 | 2 => catcard_nfc::mime_image(&mut out, 8184, b"a/b", text.as_bytes()),
        3 | 4 => catcard_nfc::uri_image(&mut out, 8184, &text, rng.byte() % 40),
        _ => catcard_nfc::text_image(&mut out, 8184, &text),
    };
    // Past its end the tag holds what was there before.
    out.truncate(built.expect("there is room") + rng.index(4));
    out
}

/// One image from each builder, and one with the long forms.
pub fn good_images() -> Vec<Vec<u8>> {
    let mut images = Vec::new();
    let mut keep = |build: &dyn Fn(&mut [u8]) -> Result<usize, catcard_nfc::Error>| {
        let mut out = vec![0; 400];
        let len = build(&mut out).expect("there is room");
        images.push(out[..len].to_vec());
    };
    let long = "\u{E9}".repeat(140);
    keep(&|out| catcard_nfc::text_image(out, 8184, "MARCH1"));
    keep(&|out| catcard_nfc::text_image(out, 8184, "\u{20AC} \u{1F600}"));
    keep(&|out| catcard_nfc::uri_image(out, 8184, "example.org/\u{E9}", 4));
    keep(&|out| catcard_nfc::mime_image(out, 8184, catcard_nfc::OCTET_STREAM, b"\x00\x01\xFE\xFF"));
    keep(&|out| catcard_nfc::empty_image(out, 8184));
    keep(&|out| catcard_nfc::text_image(out, 8184, &long));
    images
}

fn telling(rng: &mut Rng) -> Vec<u8> {
    let mut image = rng.pick(&HEADS).to_vec();
    for _ in 0..rng.below(50) {
        image.push(rng.pick(&TELLING));
    }
    image
}

/// A container, up to three other blocks, a message of up to five records.
fn made_up(rng: &mut Rng) -> Vec<u8> {
    let mut image = rng.pick(&HEADS).to_vec();
    for _ in 0..rng.below(4) {
        let body = noise_up_to(rng, 12);
        image.extend(match rng.below(8) {
            0 => block(rng.byte(), &body),
            1 | 2 => vec![0; body.len()],
            3 => long_block(rng.pick(&[1, 2, 0xFD]), &body),
            _ => block(rng.pick(&[1, 2, 0xFD]), &body),
        });
    }
    let mut message = Vec::new();
    for left in (0..rng.below(6)).rev() {
        message.extend(made_up_record(rng, left == 0));
    }
    image.extend(if rng.once_in(4) {
        long_block(MESSAGE, &message)
    } else {
        block(MESSAGE, &message)
    });
    if rng.once_in(8) {
        change_a_byte(rng, &mut image);
    }
    image
}

fn made_up_record(rng: &mut Rng, last: bool) -> Vec<u8> {
    // The chunk flag ends the walk, so it is kept rare; the rest is any flag.
    let mut header = rng.byte() & !LAST & if rng.once_in(16) { 0xFF } else { !0x20 };
    if last || rng.once_in(16) {
        header |= LAST;
    }
    let (known, id) = (rng.once_in(2), noise_up_to(rng, 5));
    if rng.once_in(10) {
        let (kind, payload, id) = (rng.byte() % 8, rng.below(12) as u32, rng.byte() % 8);
        return Claim { header, kind, payload, id, body: &noise_up_to(rng, 20) }.bytes();
    }
    if !known {
        return record(header, &noise_up_to(rng, 6), &id, &noise_up_to(rng, 60));
    }
    header = header & !7 | 1;
    let mut payload = text(rng, 30);
    if rng.once_in(4) {
        change_a_byte(rng, &mut payload);
    }
    let (kind, first) = rng.pick(&[(b"T", 4), (b"U", 40)]);
    let first = if rng.once_in(8) { rng.byte() } else { rng.byte() % first };
    record(header, kind, &id, &[&[first], &payload[..]].concat())
}

fn noise_up_to(rng: &mut Rng, most: usize) -> Vec<u8> {
    (0..rng.index(most + 1)).map(|_| rng.byte()).collect()
}
