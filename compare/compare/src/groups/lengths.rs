//! Lengths: where the record's and the block's form changes (255, 256), around
//! the longest record (65,535) and around the end of 64 bits.

use super::{Cases, Group};
use crate::rng::Rng;
use std::io;
use std::ops::RangeInclusive;

pub const GROUP: Group =
    Group { name: "lengths", written: false, fixed, sweep, random, share: 1_000 };

const MOST: u64 = u64::MAX;

/// Every length function on every pair of these.
const AROUND: [RangeInclusive<u64>; 6] = [
    0..=3,
    250..=260,
    65_520..=65_540,
    (1 << 32) - 3..=(1 << 32) + 3,
    (1 << 63) - 3..=(1 << 63) + 3,
    MOST - 20..=MOST,
];

fn fixed(cases: &mut Cases) -> io::Result<()> {
    // Bench cards 3, 4 and 11, and the last lengths that fit in 64 bits.
    for payload in
        [0, 250, 251, 252, 255, 256, 65_528, 65_529, MOST - 20, MOST - 19, MOST - 18, MOST]
    {
        cases.add(format_args!("record_image_len {payload}"))?;
        cases.add(format_args!("image_len {}", payload.saturating_sub(1)))?;
        cases.add(format_args!("text_image_len {}", payload.saturating_sub(3)))?;
        for kind in [0, 255] {
            cases.add(format_args!("image_len_for {kind} {payload}"))?;
        }
        cases.add(format_args!("mime_image_len 24 {payload}"))?;
    }
    for text in [MOST, MOST - 1, MOST - 2, MOST - 3] {
        cases.add(format_args!("image_len {text}"))?;
        cases.add(format_args!("text_image_len {text}"))?;
    }
    cases.add(format_args!("image_len_for {MOST} 0"))?;
    cases.add(format_args!("image_len_for {MOST} {MOST}"))?;
    cases.add(format_args!("mime_image_len 0 {}", MOST - 18))?;
    cases.add(format_args!("mime_image_len {} {}", 1u64 << 63, 1u64 << 63))?;
    cases.add(format_args!("no_such_call 1"))
}

fn sweep(cases: &mut Cases) -> io::Result<()> {
    let numbers: Vec<u64> = AROUND.into_iter().flatten().collect();
    for &a in &numbers {
        single(cases, a)?;
        for &b in &numbers {
            pair(cases, a, b)?;
        }
        // Sums that end just below or just past 64 bits.
        for short_by in 0..=24 {
            pair(cases, a, (MOST - a).saturating_sub(short_by))?;
            pair(cases, (MOST - a).saturating_sub(short_by), a)?;
        }
    }
    Ok(())
}

fn single(cases: &mut Cases, length: u64) -> io::Result<()> {
    cases.add(format_args!("record_image_len {length}"))?;
    cases.add(format_args!("image_len {length}"))?;
    cases.add(format_args!("text_image_len {length}"))
}

fn pair(cases: &mut Cases, kind: u64, payload: u64) -> io::Result<()> {
    cases.add(format_args!("image_len_for {kind} {payload}"))?;
    cases.add(format_args!("mime_image_len {kind} {payload}"))
}

fn random(cases: &mut Cases, rng: &mut Rng) -> io::Result<()> {
    let payload = if rng.once_in(2) { rng.below(70_000) } else { rng.sized() };
    let kind = match rng.below(3) {
        0 => rng.below(300),
        1 => rng.sized(),
        _ => (MOST - payload).saturating_sub(rng.below(30)),
    };
    match rng.below(5) {
        0 => cases.add(format_args!("record_image_len {payload}")),
        1 => cases.add(format_args!("image_len {payload}")),
        2 => cases.add(format_args!("text_image_len {payload}")),
        3 => cases.add(format_args!("mime_image_len {kind} {payload}")),
        _ => cases.add(format_args!("image_len_for {kind} {payload}")),
    }
}
