//! Random sessions: calls in any order on a plausible part with faults, or on
//! noise, with a host that does odd things now and then.

use super::Cases;
use crate::rng::Rng;
use crate::session::bus::Replies;
use crate::session::call::{Call, PLAIN};
use crate::session::host::Host;
use crate::session::original::Session;
use crate::session::part::{Fault, Part, GPO1, I2C_CFG};
use crate::session::replies::{Content, Noise};
use crate::session::tricks::Tricks;
use std::io;

pub fn random(cases: &mut Cases, rng: &mut Rng) -> io::Result<()> {
    let mark = any_mark(rng);
    let mut session = Session::new(mark, replies(rng));
    let mut tricks = Tricks::new(fork(rng), rng.pick(&[0, 4, 30, 300]));
    let mut host = Host::new(cases)?;
    host.new_session(mark)?;
    for _ in 0..1 + rng.below(8) {
        let call = any_call(rng);
        if !host.call(&mut session, call, &mut tricks)? {
            // The host began anew inside the call, with a mark of its own.
            session.renew(host.mark().expect("a session") as u64);
        }
        tricks.between(&mut host, &mut session)?;
    }
    Ok(())
}

fn fork(rng: &mut Rng) -> Rng {
    Rng::new(rng.any(), "fork")
}

fn any_mark(rng: &mut Rng) -> u64 {
    match rng.below(8) {
        0 => rng.pick(&[0, 1, 15, 16, 17, 64, 65]),
        1 if rng.once_in(2) => rng.pick(&[8_191, 8_192, 8_193, u64::MAX]),
        1 => rng.sized(),
        _ => rng.below(400),
    }
}

fn replies(rng: &mut Rng) -> Box<dyn Replies> {
    if !rng.once_in(4) {
        return Box::new(part(rng));
    }
    let refused = rng.pick(&[0, 100, 2, 10, 50, 90]);
    let content = rng.pick(&[Content::Any, Content::Zero, Content::Sparse]);
    Box::new(Noise { rng: fork(rng), refused, content })
}

fn part(rng: &mut Rng) -> Part {
    let mut part = Part::new(fork(rng));
    for _ in 0..rng.below(20) {
        let end = rng.pick(&[64, 512, 8_192]);
        part.memory[rng.index(end)] = rng.byte();
    }
    part.system[I2C_CFG] = rng.pick(&[0x1A, 0x3A]);
    part.system[GPO1] = if rng.once_in(2) { 0x85 } else { rng.byte() };
    part.rf_dyn = rng.byte() % 8;
    part.status = if rng.once_in(8) { rng.byte() } else { 0 };
    part.opens = !rng.once_in(8);
    part.cycles = 0..rng.pick(&[1, 2, 7]);
    part.stuck = rng.pick(&[0, 0, 1, 9, 10]);
    part.fault = rng.pick(&[Fault::Switch, Fault::Clear, Fault::Look, Fault::Wrong]);
    part.faults = rng.pick(&[0, 0, 400, 60, 15]);
    part
}

fn any_call(rng: &mut Rng) -> Call {
    match rng.below(16) {
        0..=3 => write(rng),
        4..=5 => Call::ReadUser { at: any_place(rng), len: any_length(rng) },
        6 if rng.once_in(8) => Call::ReadWhole { len: rng.index(8_300) },
        6 => Call::ReadWhole { len: 8_192 },
        _ => rng.pick(&PLAIN),
    }
}

fn write(rng: &mut Rng) -> Call {
    Call::Write { at: any_place(rng), len: any_length(rng), seed: rng.below(1 << 32) }
}

fn any_place(rng: &mut Rng) -> u64 {
    match rng.below(8) {
        0 => rng.below(8_300),
        1 => rng.sized(),
        2 => u64::MAX - rng.below(200),
        3 => 8_192 - rng.below(200),
        _ => rng.below(200),
    }
}

fn any_length(rng: &mut Rng) -> usize {
    match rng.below(40) {
        0 => rng.index(8_301),
        1..=5 => rng.index(400),
        _ => rng.index(70),
    }
}
