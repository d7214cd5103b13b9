//! The groups of cases. Each has a short fixed list with the boundaries of its
//! calls, a sweep that always runs whole, and random cases.

mod builder_line;
mod builders;
mod builders_fixed;
mod builders_random;
mod cases;
mod container;
mod image;
mod lengths;
mod prefixes;
mod reading;
mod reading_blocks;
mod reading_fixed;
mod reading_random;
mod reading_records;
mod session;
mod session_fixed;
mod session_random;
mod session_refusals;
mod session_retries;
mod table_3_7;
mod utf8;
mod utf8_random;

use crate::rng::Rng;
pub use cases::Cases;
use std::io;

pub struct Group {
    pub name: &'static str,
    /// Whether its right answers are written beside the cases, because a line
    /// builds on those before it; else each is asked of the oracle.
    pub written: bool,
    pub fixed: fn(&mut Cases) -> io::Result<()>,
    pub sweep: fn(&mut Cases) -> io::Result<()>,
    pub random: fn(&mut Cases, &mut Rng) -> io::Result<()>,
    /// How many of a thousand random cases the group draws: those with long
    /// lines draw fewer.
    pub share: u64,
}

pub static GROUPS: [Group; 7] = [
    lengths::GROUP,
    container::GROUP,
    prefixes::GROUP,
    utf8::GROUP,
    builders::GROUP,
    reading::GROUP,
    session::GROUP,
];

impl Group {
    /// Every case of the group: `random` is the number `--cases` gives.
    pub fn write(&self, cases: &mut Cases, random: u64, seed: u64) -> io::Result<()> {
        (self.fixed)(cases)?;
        (self.sweep)(cases)?;
        let mut rng = Rng::new(seed, self.name);
        for _ in 0..(u128::from(random) * u128::from(self.share) / 1_000) as u64 {
            (self.random)(cases, &mut rng)?;
        }
        Ok(())
    }
}
