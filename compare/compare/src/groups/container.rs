//! The container for every area it can tell, and the read-only mark.

use super::{Cases, Group};
use crate::bytes::{generated, Hex};
use crate::rng::Rng;
use std::io;

pub const GROUP: Group =
    Group { name: "container", written: false, fixed, sweep, random, share: 500 };

/// Document 01: refusal 4 is an area over 524,287.
const LARGEST_AREA: u64 = 524_287;

/// Places where a number changes its length, and where an area that lost its
/// high bits would look small.
const FAR: [u64; 5] = [1 << 20, 1 << 32, 1 << 35, 1 << 63, u64::MAX];

fn fixed(cases: &mut Cases) -> io::Result<()> {
    for area in [0, 1, 7, 8, 9, 15, 16, 2040, 2047, 2048, 8183, 8184, 8185, 8191, 8192] {
        cases.add(format_args!("capability_container {area}"))?;
    }
    for area in [524_279, 524_280, LARGEST_AREA, LARGEST_AREA + 1, 524_296] {
        cases.add(format_args!("capability_container {area}"))?;
    }
    for area in FAR {
        cases.add(format_args!("capability_container {area}"))?;
    }
    for len in [0, 1, 2, 3, 8, 24, 39, 40, 41] {
        cases.add(format_args!("set_read_only {}", Hex(&generated(len, 5))))?;
    }
    cases.add(format_args!("set_read_only 0043"))?;
    cases.add(format_args!("set_read_only @66000:9"))
}

fn sweep(cases: &mut Cases) -> io::Result<()> {
    for area in 0..=LARGEST_AREA + 13 {
        cases.add(format_args!("capability_container {area}"))?;
    }
    for far in FAR {
        for area in far - 20..=far.saturating_add(20) {
            cases.add(format_args!("capability_container {area}"))?;
        }
    }
    for len in 0..=40 {
        for seed in 0..8 {
            cases.add(format_args!("set_read_only {}", Hex(&generated(len, seed))))?;
        }
    }
    Ok(())
}

fn random(cases: &mut Cases, rng: &mut Rng) -> io::Result<()> {
    match rng.below(2000) {
        0 => cases.add(format_args!("set_read_only @{}:{}", rng.below(66_001), rng.any())),
        1..500 => cases.add(format_args!("set_read_only @{}:{}", rng.below(300), rng.any())),
        500..1000 => cases.add(format_args!("capability_container {}", rng.below(1 << 20))),
        _ => cases.add(format_args!("capability_container {}", rng.sized())),
    }
}
