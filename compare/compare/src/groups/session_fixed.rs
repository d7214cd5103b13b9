//! A short list that has every operation and every refusal of a session.

use super::session::{calls, good};
use super::Cases;
use crate::rng::Rng;
use crate::session::call::{self, Call};
use crate::session::host::{Host, ENOUGH};
use crate::session::original::Session;
use crate::session::part::{Fault, Part, GPO1, I2C_CFG, RF_MNGT};
use crate::session::reading::Lent;
use crate::session::tricks::Tricks;
use std::io;

pub fn fixed(cases: &mut Cases) -> io::Result<()> {
    first_day(cases)?;
    cards(cases)?;
    failures(cases)?;
    differences(cases)?;
    out_of_turn(cases)?;
    no_state(cases)?;
    for unknown in ["no_such_operation 1", "tag_nothing 1", "tag"] {
        cases.pair(unknown, crate::domain::Who::Document, "?")?;
    }
    Ok(())
}

/// A part from the factory, set up, written, shown and wiped.
fn first_day(cases: &mut Cases) -> io::Result<()> {
    let mut part = Part { cycles: 0..2, ..good() };
    part.system[I2C_CFG] = 0x1A;
    part.system[GPO1] = 0;
    part.memory[40] = 1;
    let day = [
        Call::Identify,
        Call::Begin,
        Call::Write { at: 0, len: 24, seed: 1 },
        Call::ReadUser { at: 0, len: 24 },
        Call::GoLive,
        Call::Finish,
        Call::WaitReady,
        Call::RfWrote,
        Call::Prepare,
        Call::RfOn,
        Call::RfOff,
    ];
    calls(cases, 48, Box::new(part), &day)
}

/// Bench cards 9 and 10, a write over a chunk's end, and a whole read.
fn cards(cases: &mut Cases) -> io::Result<()> {
    let mut dirty = good();
    dirty.memory[31] = 1;
    dirty.memory[32] = 1;
    let (card_9, chunk) =
        (Call::Write { at: 10, len: 20, seed: 9 }, Call::Write { at: 15, len: 65, seed: 3 });
    calls(cases, 17, Box::new(dirty), &[Call::Scrub, card_9, chunk])?;
    calls(cases, u64::MAX, Box::new(good()), &[Call::ReadWhole { len: 8_192 }, Call::Scrub])
}

/// Each number from 21 to 26.
fn failures(cases: &mut Cases) -> io::Result<()> {
    let of = |change: &dyn Fn(&mut Part)| {
        let mut part = good();
        part.system[GPO1] = 0;
        change(&mut part);
        Box::new(part)
    };
    calls(cases, 0, of(&|part| part.busy = 1), &[Call::Identify])?;
    calls(cases, 0, of(&|part| part.system[0x15] = 0), &[Call::Prepare])?;
    calls(cases, 0, of(&|part| part.opens = false), &[Call::Prepare])?;
    calls(cases, 16, of(&|part| part.stuck = 10), &[Call::Finish])?;
    calls(cases, 0, of(&|part| part.busy = 100), &[Call::WaitReady])?;
    calls(cases, 0, of(&|part| part.status = 0x80), &[Call::RfWrote])?;
    calls(cases, 0, of(&|part| part.busy = 1), &[Call::RfWrote])?;
    // A refused row is not counted.
    calls(cases, 0, of(&|part| part.lost = Some(2)), &[Call::Write { at: 0, len: 17, seed: 1 }])?;
    let dirty = |part: &mut Part| (part.memory[5], part.memory[20], part.lost) = (1, 1, Some(3));
    calls(cases, 32, of(&dirty), &[Call::Scrub])?;
    // What is read back is not what was written: 26.
    calls(
        cases,
        0,
        of(&|part| part.garbled = Some(4)),
        &[Call::Write { at: 0, len: 17, seed: 1 }],
    )?;
    let ends = [
        Call::Write { at: 8_192, len: 1, seed: 1 },
        Call::Write { at: 8_192, len: 0, seed: 1 },
        Call::Write { at: u64::MAX, len: 1, seed: 1 },
        Call::ReadUser { at: 8_193, len: 0 },
        Call::ReadUser { at: 8_192, len: 0 },
        Call::ReadUser { at: u64::MAX, len: 1 },
        Call::ReadWhole { len: 8_191 },
    ];
    calls(cases, 5, of(&|_| {}), &ends)
}

/// The histories of docs/DIFFERENCES.md that no other case has: the power was cut in the first setup, after I2C_CFG and before
/// RF_MNGT; the status is read and the whole read after it refused; RF goes on, and no look at it is answered.
fn differences(cases: &mut Cases) -> io::Result<()> {
    let mut half = good();
    half.system[RF_MNGT] = 0;
    calls(cases, 0, Box::new(half), &[Call::Prepare, Call::Begin])?;
    let refused = Part { status: 0x80, lost: Some(3), ..good() };
    calls(cases, 7, Box::new(refused), &[Call::ReadWhole { len: 8_192 }, Call::RfWrote])?;
    let unseen = Part { stuck: 10, fault: Fault::Look, ..good() };
    calls(cases, 0, Box::new(unseen), &[Call::RfOn])
}

/// 31, 32 and 33; `next` and `dirty`; the tricks of a host, from a fixed seed.
fn out_of_turn(cases: &mut Cases) -> io::Result<()> {
    let mut host = Host::new(cases)?;
    let mut session = Session::new(3, Box::new(good()));
    between_calls(&mut host)?;
    inside_a_call(&mut host, &mut session)?;
    // A phone's write moves the mark with the reply to the status read.
    host.new_session(16)?;
    let wrote = Part { status: 0x80, ..good() };
    host.first_turns(&mut Session::new(16, Box::new(wrote)), Call::Finish, 5)?;
    host.new_session(20)?;
    session.renew(20);
    let mut tricks = Tricks::new(Rng::new(5, "fixed"), 2);
    for call in
        [Call::Write { at: 0, len: 33, seed: 4 }, Call::RfOn, Call::ReadUser { at: 1, len: 5 }]
    {
        host.lend(ENOUGH)?;
        if !host.call(&mut session, call, &mut tricks)? {
            break;
        }
    }
    Ok(())
}

/// 31, and 33 at a start, also where 26 would come next.
fn between_calls(host: &mut Host) -> io::Result<()> {
    host.new_session(3)?;
    host.ask_again()?;
    host.refused_reply(1, &[1, 2, 3])?;
    host.dirty()?;
    host.lend(Lent { transfer: 18, ..ENOUGH })?;
    host.refused_start(Call::Identify)?;
    host.lend(Lent { reply: 63, data: 1, ..ENOUGH })?;
    host.refused_start(Call::Write { at: 8_192, len: 1, seed: 1 })?;
    host.lend(ENOUGH)
}

/// 32, and 33 with a reply; the transfer once more.
fn inside_a_call(host: &mut Host, session: &mut Session) -> io::Result<()> {
    host.first_turns(session, Call::Write { at: 60, len: 10, seed: 2 }, 1)?;
    host.dirty()?;
    host.ask_again()?;
    host.put_transfer(&[0xEE; 24])?;
    host.ask_again()?;
    call::each().try_for_each(|call| host.refused_start(call))?;
    for lent in [
        Lent { transfer: 18, data: 10, ..ENOUGH },
        Lent { reply: 63, data: 10, ..ENOUGH },
        Lent { data: 9, ..ENOUGH },
        Lent { data: 10, out: 1, ..ENOUGH },
    ] {
        host.lend(lent)?;
        host.refused_reply(1, &[])?;
        host.ask_again()?;
    }
    Ok(())
}

/// 34: other lengths, and bytes that no call leaves.
fn no_state(cases: &mut Cases) -> io::Result<()> {
    let mut host = Host::new(cases)?;
    for bytes in ["@40:40".to_string(), "00".repeat(40), "ff".repeat(40)] {
        host.put_state(&bytes)?;
        host.dirty()?;
        host.ask_again()?;
        host.refused_reply(0, &[])?;
        host.refused_start(Call::Scrub)?;
    }
    for state in [0, 19, 21, 40] {
        host.lend(Lent { state, transfer: 0, ..ENOUGH })?;
        host.new_session(1)?;
        host.refused_start(Call::Begin)?;
    }
    host.lend(ENOUGH)?;
    host.new_session(8_193)
}
