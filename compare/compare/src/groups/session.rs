//! A session's calls, transfer by transfer. Its lines are operations on one
//! session's buffers, and build on each other.

use super::{session_fixed, session_random, session_refusals, session_retries, Cases, Group};
use crate::rng::Rng;
use crate::session::bus::Replies;
use crate::session::call::{self, Call};
use crate::session::host::Host;
use crate::session::original::Session;
use crate::session::part::Part;
use crate::session::replies::{Content, Noise};
use crate::session::tricks::Tricks;
use std::io;

/// A random case is a whole session, some hundreds of lines.
pub const GROUP: Group = Group {
    name: "session",
    written: true,
    fixed: session_fixed::fixed,
    sweep,
    random: session_random::random,
    share: 3,
};

const MOST: u64 = u64::MAX;
/// Marks around rows and chunks, around the whole part, and beyond.
const MARKS: [u64; 20] = [
    0,
    1,
    15,
    16,
    17,
    63,
    64,
    65,
    127,
    128,
    129,
    8_176,
    8_191,
    8_192,
    8_193,
    65_536,
    1 << 32,
    1 << 63,
    MOST - 1,
    MOST,
];
/// Places around rows, chunks, the part's end, 16, 32 and 64 bits.
const PLACES: [u64; 47] = [
    0,
    1,
    2,
    14,
    15,
    16,
    17,
    31,
    32,
    33,
    47,
    48,
    49,
    62,
    63,
    64,
    65,
    66,
    127,
    128,
    129,
    255,
    256,
    4_095,
    4_096,
    8_111,
    8_112,
    8_126,
    8_127,
    8_128,
    8_129,
    8_175,
    8_176,
    8_177,
    8_190,
    8_191,
    8_192,
    8_193,
    65_535,
    65_536,
    65_537,
    1 << 32,
    (1 << 32) + 16,
    1 << 63,
    MOST - 8_192,
    MOST - 64,
    MOST,
];
const LENGTHS: [usize; 25] = [
    0, 1, 2, 14, 15, 16, 17, 18, 31, 32, 33, 48, 62, 63, 64, 65, 66, 127, 128, 129, 192, 8_191,
    8_192, 8_193, 8_300,
];

/// Calls one after the other on one session, with nothing besides.
pub fn calls(
    cases: &mut Cases,
    mark: u64,
    replies: Box<dyn Replies>,
    calls: &[Call],
) -> io::Result<()> {
    let mut host = Host::new(cases)?;
    let mut session = Session::new(mark, replies);
    host.new_session(mark)?;
    for &call in calls {
        host.call(&mut session, call, &mut Tricks::none())?;
    }
    Ok(())
}

/// A part without faults.
pub fn good() -> Part {
    Part::new(Rng::new(1, "part"))
}

fn sweep(cases: &mut Cases) -> io::Result<()> {
    session_retries::sweep(cases)?;
    session_refusals::sweep(cases)?;
    places(cases)?;
    marks(cases)?;
    longest(cases)?;
    noise(cases)
}

/// Document 01's longest wipe: every row programmed, a hundred polls each.
fn longest(cases: &mut Cases) -> io::Result<()> {
    let mut part = Part { cycles: 99..100, ..good() };
    part.memory.fill(1);
    calls(cases, MOST, Box::new(part), &[Call::Scrub])
}

/// Every place with every length, and ends around 8,192 and 2^64.
fn places(cases: &mut Cases) -> io::Result<()> {
    for at in PLACES {
        let pairs: Vec<Call> = LENGTHS.into_iter().flat_map(|len| at_and_len(at, len)).collect();
        calls(cases, 0, Box::new(good()), &pairs)?;
    }
    for len in LENGTHS {
        let ends = [8_191, 8_192, 8_193, MOST - 1, MOST];
        let pairs: Vec<Call> = ends
            .into_iter()
            .filter_map(|end: u64| end.checked_sub(len as u64))
            .chain([MOST - (len as u64).saturating_sub(2), MOST - (len as u64).saturating_sub(1)])
            .flat_map(|at| at_and_len(at, len))
            .collect();
        calls(cases, 64, Box::new(good()), &pairs)?;
        // Written as asked, and read back as something else.
        let wrong = Noise { rng: Rng::new(len as u64, "wrong"), refused: 0, content: Content::Any };
        calls(cases, 0, Box::new(wrong), &at_and_len(8_192u64.saturating_sub(len as u64), len))?;
        calls(cases, 32, Box::new(good()), &[Call::ReadWhole { len }])?;
    }
    Ok(())
}

fn at_and_len(at: u64, len: usize) -> [Call; 2] {
    [Call::Write { at, len, seed: at % 1_000 + len as u64 }, Call::ReadUser { at, len }]
}

/// Every mark, on memory that is clean, full, or dirty around the mark.
fn marks(cases: &mut Cases) -> io::Result<()> {
    for mark in MARKS {
        let end = mark.min(8_192).next_multiple_of(16) as usize;
        for memory in 0..5 {
            for call in [Call::Scrub, Call::Begin, Call::Finish, Call::ReadWhole { len: 8_192 }] {
                let mut part = good();
                match memory {
                    0 => {}
                    1 => part.memory.fill(0xA5),
                    2 => part.memory[end.saturating_sub(1)] = 1,
                    3 => part.memory[end.min(8_191)] = 0x80,
                    _ => (0..8_192).step_by(700).for_each(|at| part.memory[at] = 1),
                }
                // What one call leaves as its mark, the next ones start with.
                let after = [Call::Write { at: 3, len: 5, seed: mark % 97 }, Call::Scrub];
                calls(cases, mark, Box::new(part), &[call, after[0], after[1]])?;
            }
        }
    }
    Ok(())
}

/// Each call on replies that know nothing of a part.
fn noise(cases: &mut Cases) -> io::Result<()> {
    for refused in [0, 100, 1, 5, 20, 50, 80] {
        for content in [Content::Any, Content::Zero, Content::Sparse] {
            for mark in [0, 17, 200] {
                for call in call::each() {
                    let rng = Rng::new(refused + mark, "noise");
                    calls(cases, mark, Box::new(Noise { rng, refused, content }), &[call, call])?;
                }
            }
        }
    }
    Ok(())
}
