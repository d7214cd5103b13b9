//! All 256 codes of the prefix table; there is nothing else to ask it.

use super::{Cases, Group};
use crate::rng::Rng;
use std::io;

pub const GROUP: Group = Group { name: "prefixes", written: false, fixed, sweep, random, share: 0 };

fn fixed(cases: &mut Cases) -> io::Result<()> {
    // The table has 36 entries, 0 to 35.
    for code in (0..=37).chain([127, 128, 255]) {
        cases.add(format_args!("uri_prefix {code}"))?;
    }
    Ok(())
}

fn sweep(cases: &mut Cases) -> io::Result<()> {
    for code in 0..=255 {
        cases.add(format_args!("uri_prefix {code}"))?;
    }
    Ok(())
}

fn random(cases: &mut Cases, rng: &mut Rng) -> io::Result<()> {
    cases.add(format_args!("uri_prefix {}", rng.byte()))
}
