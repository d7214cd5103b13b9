//! What a phone may have left: containers, blocks and records, whole and not.

use super::image::{block, EIGHT, HEADS, MESSAGE};
use super::{reading_blocks, reading_fixed, reading_random, reading_records, Cases, Group};
use crate::bytes::Hex;
use std::io;

pub const GROUP: Group = Group {
    name: "reading",
    written: false,
    fixed: reading_fixed::fixed,
    sweep,
    random: reading_random::random,
    share: 1_000,
};

fn sweep(cases: &mut Cases) -> io::Result<()> {
    containers(cases)?;
    short_tails(cases)?;
    reading_blocks::sweep(cases)?;
    reading_records::sweep(cases)?;
    good_images(cases)
}

pub fn read(cases: &mut Cases, image: &[u8]) -> io::Result<()> {
    cases.add(format_args!("read {}", Hex(image)))
}

/// The image with the second kind of eight-byte container and these blocks.
pub fn read_blocks(cases: &mut Cases, blocks: &[&[u8]]) -> io::Result<()> {
    read(cases, &[EIGHT, &blocks.concat()].concat())
}

/// Every first and second byte, third bytes that are 0 or not, every length.
fn containers(cases: &mut Cases) -> io::Result<()> {
    let empty = [&EIGHT[3..], &block(MESSAGE, &[])].concat();
    for first in 0..=255 {
        for second in [0x00, 0x3F, 0x40, 0x43, 0x7F, 0x80, 0xC0, 0xFF] {
            for third in [0, 1, 0xFF] {
                read(cases, &[&[first, second, third], &empty[..]].concat())?;
            }
        }
    }
    for second in 0..=255 {
        for head in HEADS {
            let image = [&[head[0], second], &head[2..], &block(MESSAGE, &[])].concat();
            (0..=image.len()).try_for_each(|end| read(cases, &image[..end]))?;
        }
    }
    Ok(())
}

/// Every string of up to two bytes after each kind of container.
fn short_tails(cases: &mut Cases) -> io::Result<()> {
    for head in HEADS {
        read(cases, head)?;
        for first in 0..=255 {
            read(cases, &[head, &[first]].concat())?;
            for second in 0..=255 {
                read(cases, &[head, &[first, second]].concat())?;
            }
        }
    }
    Ok(())
}

/// Images from the original's builders: each cut at every place, and each byte
/// changed to several others.
fn good_images(cases: &mut Cases) -> io::Result<()> {
    for image in reading_random::good_images() {
        read(cases, &image)?;
        for end in 0..image.len() {
            read(cases, &image[..end])?;
            for byte in
                [0, 1, 0x7F, 0x80, 0xFE, 0xFF, image[end] ^ 0x20, image[end].wrapping_add(1)]
            {
                let mut changed = image.clone();
                changed[end] = byte;
                read(cases, &changed)?;
            }
        }
    }
    Ok(())
}
