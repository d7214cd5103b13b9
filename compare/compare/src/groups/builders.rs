//! The builders: every length against buffers around what it needs.

use super::builder_line::{Job, BUILDERS};
use super::table_3_7::ILL_FORMED;
use super::{builders_fixed, builders_random, Cases, Group};
use crate::bytes::Hex;
use std::io;

pub const GROUP: Group = Group {
    name: "builders",
    written: false,
    fixed: builders_fixed::fixed,
    sweep,
    random: builders_random::random,
    share: 500,
};

/// The largest buffer that a case may lend.
pub const LARGEST_ROOM: u64 = 66_000;
/// Block counts that differ in their low and in their high byte, the largest
/// area, and areas refused with 4.
pub const AREAS: [u64; 10] = [0, 7, 8, 8183, 8184, 8185, 524_280, 524_287, 524_288, u64::MAX];
/// Type names: none, short, `application/octet-stream`'s 24, around 255.
pub const KINDS: [usize; 9] = [0, 1, 2, 3, 24, 254, 255, 256, 257];
/// The type names to go with payloads near 65,535.
const KINDS_OF_LONG: [usize; 3] = [1, 24, 255];

fn sweep(cases: &mut Cases) -> io::Result<()> {
    short(cases)?;
    long(cases)?;
    areas(cases)?;
    prefixes(cases)?;
    announced(cases)?;
    ill_formed(cases)?;
    finish(cases)?;
    empty(cases)
}

/// Each builder with each type name it may have.
fn each(kinds: &[usize], mut to: impl FnMut(Job) -> io::Result<()>) -> io::Result<()> {
    for builder in BUILDERS {
        let own = [1];
        for &kind in if builder.takes_kind() { kinds } else { &own } {
            to(Job::new(builder, kind, 0))?;
        }
    }
    Ok(())
}

/// Payloads up to 300, across both changes of form; each area in turn.
fn short(cases: &mut Cases) -> io::Result<()> {
    each(&KINDS, |job| {
        for len in 0..=300 {
            let area = AREAS[len as usize % AREAS.len()];
            let job = Job { len, area, prefix: len as u8, seed: len * 7, ..job };
            if len <= 40 && job.kind <= 24 {
                (0..=job.needed() + 3).try_for_each(|room| job.add(cases, room))?;
                Job { area: 8184, ..job }.add(cases, job.needed())?;
            } else {
                around(cases, job)?;
            }
        }
        Ok(())
    })
}

/// Around the longest record: its end is told from the block's two bytes.
fn long(cases: &mut Cases) -> io::Result<()> {
    each(&KINDS_OF_LONG, |job| {
        let last = 65_529 - job.kind as u64;
        for len in (65_500..=65_540).chain(last - 3..=last + 3) {
            around(cases, Job { len, seed: len, ..job })?;
        }
        Ok(())
    })
}

/// No room, some room, and every room from 3 below to 3 above the need.
fn around(cases: &mut Cases, job: Job) -> io::Result<()> {
    let needed = job.needed();
    for room in [0, 11, needed / 2].into_iter().chain(needed - 3..=needed + 3) {
        if room <= LARGEST_ROOM {
            job.add(cases, room)?;
        }
    }
    Ok(())
}

fn areas(cases: &mut Cases) -> io::Result<()> {
    each(&KINDS, |job| {
        for area in AREAS {
            for len in [0, 1, 6, 247, 248, 250, 251, 254, 255, 256, 300] {
                let job = Job { area, len, ..job };
                for room in [0, job.needed() - 1, job.needed(), job.needed() + 1] {
                    job.add(cases, room)?;
                }
            }
        }
        // Refusal 3 comes before 4, and 2 before both.
        let job = Job { area: 524_288, len: 65_540, ..job };
        job.add(cases, job.needed() - 1)?;
        job.add(cases, job.needed())
    })
}

fn prefixes(cases: &mut Cases) -> io::Result<()> {
    for builder in BUILDERS {
        for prefix in 0..=255 {
            for len in [0, 5, 300] {
                let job = Job { prefix, ..Job::new(builder, 1, len) };
                job.add(cases, job.needed())?;
            }
        }
    }
    Ok(())
}

/// Lengths that no buffer can hold, up to sums past 64 bits.
fn announced(cases: &mut Cases) -> io::Result<()> {
    let middle = [1 << 16, 1 << 32, 1 << 63];
    let lens =
        middle.into_iter().flat_map(|n: u64| n - 20..=n + 3).chain(u64::MAX - 600..=u64::MAX);
    for len in lens {
        each(&KINDS, |job| {
            for (room, area) in [(0, 8184), (40, u64::MAX), (300, 524_288)] {
                if job.builder.announces() {
                    Job { len, area, ..job }.add(cases, room)?;
                }
            }
            Ok(())
        })?;
    }
    Ok(())
}

/// Broken characters at the start, inside and at the end of a text.
fn ill_formed(cases: &mut Cases) -> io::Result<()> {
    for broken in ILL_FORMED {
        for (before, after) in [(0, 0), (0, 3), (7, 1), (8, 8), (63, 0), (250, 0), (64, 64)] {
            let text = [&vec![b'a'; before], *broken, &vec![b'z'; after]].concat();
            let hex = Hex(&text);
            for area in [8184, 524_288] {
                let needed = catcard_nfc::text_image_len(text.len());
                cases.add(format_args!("text_image {} {area} {hex}", needed - 1))?;
                cases.add(format_args!("text_image {needed} {area} {hex}"))?;
                let needed = catcard_nfc::image_len(text.len());
                cases.add(format_args!("uri_image {} {area} 3 {hex}", needed - 1))?;
                cases.add(format_args!("uri_image {needed} {area} 200 {hex}"))?;
            }
        }
    }
    Ok(())
}

fn finish(cases: &mut Cases) -> io::Result<()> {
    for room in (0..=64).chain([254, 255, 256, 300, 8192, LARGEST_ROOM]) {
        let middle = [1 << 16, 1 << 32, 1 << 63].into_iter().flat_map(|n| n - 3..=n + 3);
        let first = if room <= 300 { 0 } else { room - 3 };
        for at in (first..=room + 3).chain(middle).chain(u64::MAX - 20..=u64::MAX) {
            cases.add(format_args!("finish {room} {at}"))?;
        }
    }
    Ok(())
}

fn empty(cases: &mut Cases) -> io::Result<()> {
    for area in AREAS {
        for room in (0..=64).chain([255, 8192, LARGEST_ROOM]) {
            cases.add(format_args!("empty_image {room} {area}"))?;
        }
    }
    Ok(())
}
