//! Refusals 31 to 34 against document 01: every export on every kind of state,
//! with lengths that are enough and that are not.

use super::session::good;
use super::Cases;
use crate::session::call::{self, Call};
use crate::session::host::{Host, ENOUGH, STATE_ARRAY};
use crate::session::original::Session;
use crate::session::reading::{refusal, Ask, Lent};
use crate::session::tricks::Tricks;
use std::io;

pub fn sweep(cases: &mut Cases) -> io::Result<()> {
    for kind in 0..5 {
        for state in [0, 1, 19, 20, 21, 40] {
            lengths(cases, kind, state)?;
        }
    }
    (0..=STATE_ARRAY).try_for_each(|state| every_export(cases, 1, Lent { state, ..ENOUGH }))?;
    (0..=24).try_for_each(|transfer| every_export(cases, 1, Lent { transfer, ..ENOUGH }))?;
    (0..=72).try_for_each(|reply| every_export(cases, 1, Lent { reply, ..ENOUGH }))?;
    own_refusals(cases)
}

fn lengths(cases: &mut Cases, kind: u64, state: usize) -> io::Result<()> {
    for transfer in [0, 18, 19, 24] {
        for reply in [0, 63, 64, 72] {
            for (data, out) in [(0, 0), (1, 0), (0, 1), (20, 0), (8_300, 8_300)] {
                every_export(cases, kind, Lent { state, transfer, reply, data, out })?;
            }
        }
    }
    Ok(())
}

/// Those that are refused there; the others are a call's own business.
fn every_export(cases: &mut Cases, kind: u64, lent: Lent) -> io::Result<()> {
    let mut host = Host::new(cases)?;
    prepared(&mut host, kind)?;
    host.lend(lent)?;
    host.dirty()?;
    host.ask_again()?;
    if refusal(Ask::Reply, &host.state, lent).is_some() {
        host.refused_reply(1, &[0xAA; 64])?;
    }
    if refusal(Ask::Start, &host.state, lent).is_some() {
        call::each().try_for_each(|call| host.refused_start(call))?;
        host.refused_start(Call::Write { at: u64::MAX, len: 0, seed: 0 })?;
    }
    if refusal(Ask::New, &host.state, lent).is_some() {
        host.new_session(7)?;
    }
    Ok(())
}

/// 0: idle; 1: `write` is open; 2 to 4: bytes that no call leaves.
fn prepared(host: &mut Host, kind: u64) -> io::Result<()> {
    host.new_session(5)?;
    match kind {
        0 => Ok(()),
        1 => {
            let mut session = Session::new(5, Box::new(good()));
            host.first_turns(&mut session, Call::Write { at: 10, len: 20, seed: 1 }, 0)
        }
        2 => host.put_state(&"00".repeat(STATE_ARRAY)),
        3 => host.put_state(&"ff".repeat(STATE_ARRAY)),
        _ => host.put_state(&format!("@{STATE_ARRAY}:77")),
    }
}

/// "and only then the call's own 26": short buffers hide it, enough show it.
fn own_refusals(cases: &mut Cases) -> io::Result<()> {
    let mut host = Host::new(cases)?;
    let mut session = Session::new(9, Box::new(good()));
    host.new_session(9)?;
    for call in [
        Call::Write { at: 8_192, len: 1, seed: 1 },
        Call::Write { at: u64::MAX, len: 1, seed: 1 },
        Call::ReadUser { at: 8_193, len: 0 },
        Call::ReadWhole { len: 8_191 },
    ] {
        let (data, out) = call.lengths();
        for short in [Lent { transfer: 18, ..ENOUGH }, Lent { reply: 63, ..ENOUGH }] {
            host.lend(Lent { data, out, ..short })?;
            host.refused_start(call)?;
        }
        host.lend(ENOUGH)?;
        host.call(&mut session, call, &mut Tricks::none())?;
    }
    Ok(())
}
