//! Random builds: any builder, mostly short, mostly with about enough room.

use super::builder_line::{Job, BUILDERS};
use super::builders::{AREAS, KINDS, LARGEST_ROOM};
use super::table_3_7::ILL_FORMED;
use super::utf8_random::{change_a_byte, text};
use super::Cases;
use crate::bytes::Hex;
use crate::rng::Rng;
use std::io;

pub fn random(cases: &mut Cases, rng: &mut Rng) -> io::Result<()> {
    match rng.below(16) {
        0 => {
            let (room, at) = (rng.below(80), rng.below(90));
            cases.add(format_args!("finish {room} {at}"))
        }
        1 => cases.add(format_args!("empty_image {} {}", rng.below(40), area(rng))),
        2..=6 => with_text(cases, rng),
        _ => with_length(cases, rng),
    }
}

fn area(rng: &mut Rng) -> u64 {
    match rng.below(8) {
        0 => rng.pick(&AREAS),
        1 => rng.sized(),
        _ => rng.below(524_288),
    }
}

fn room(rng: &mut Rng, needed: u64) -> u64 {
    match rng.below(8) {
        0 => rng.below(needed + 1),
        1 | 2 => needed - 1,
        _ => needed + rng.below(40),
    }
    .min(LARGEST_ROOM)
}

fn with_length(cases: &mut Cases, rng: &mut Rng) -> io::Result<()> {
    let builder = rng.pick(&BUILDERS);
    let kind = if rng.once_in(8) { rng.pick(&KINDS) } else { rng.index(30) };
    let len = match rng.below(1000) {
        0 => 65_400 + rng.below(150),
        1..600 => rng.below(60),
        _ => rng.below(320),
    };
    let mut job = Job {
        area: area(rng),
        prefix: rng.byte(),
        seed: rng.any(),
        ..Job::new(builder, kind, len)
    };
    let room = room(rng, job.needed());
    if builder.announces() && rng.once_in(16) {
        job.len = rng.sized();
    }
    job.add(cases, room)
}

/// Texts of all characters, some with a byte changed or a broken one inside.
fn with_text(cases: &mut Cases, rng: &mut Rng) -> io::Result<()> {
    let mut bytes = text(rng, 120);
    match rng.below(4) {
        0 => change_a_byte(rng, &mut bytes),
        1 => bytes.extend_from_slice(rng.pick(ILL_FORMED)),
        _ => {}
    }
    let (area, hex) = (area(rng), Hex(&bytes));
    if rng.once_in(2) {
        let room = room(rng, catcard_nfc::text_image_len(bytes.len()) as u64);
        return cases.add(format_args!("text_image {room} {area} {hex}"));
    }
    let room = room(rng, catcard_nfc::image_len(bytes.len()) as u64);
    cases.add(format_args!("uri_image {room} {area} {} {hex}", rng.byte()))
}
