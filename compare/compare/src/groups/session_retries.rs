//! Each retry count, from none to one past the limit, at each place where a
//! call waits or tries again; and each single transfer of a call gone wrong.

use super::session::{calls, good};
use super::Cases;
use crate::session::call::{self, Call};
use crate::session::part::{Fault, Part, GPO1, I2C_CFG, UID_LAST};
use std::io;

/// "up to 100 empty polls"
const POLLS: u64 = 100;
/// "ten tries"
const TRIES: u64 = 10;

pub fn sweep(cases: &mut Cases) -> io::Result<()> {
    for refused in 0..=POLLS + 1 {
        polls(cases, refused)?;
    }
    for refused in 0..=TRIES + 1 {
        for fault in [Fault::Switch, Fault::Clear, Fault::Look, Fault::Wrong] {
            tries(cases, refused, fault)?;
        }
    }
    setups(cases)?;
    (0..40).try_for_each(|number| one_goes_wrong(cases, number))
}

/// One transfer of each call is refused, or its bytes come wrong. Setup is due
/// and three chunks are dirty; still no call makes forty transfers.
fn one_goes_wrong(cases: &mut Cases, number: u64) -> io::Result<()> {
    for call in call::each() {
        for (lost, garbled) in [(Some(number), None), (None, Some(number))] {
            let mut part = Part { lost, garbled, ..never_set_up() };
            [3, 40, 64, 130].into_iter().for_each(|at| part.memory[at] = 1);
            calls(cases, 131, Box::new(part), &[call])?;
        }
    }
    Ok(())
}

/// Polls refused at first, or after the write of each number.
fn polls(cases: &mut Cases, refused: u64) -> io::Result<()> {
    let busy = Part { busy: refused, ..good() };
    calls(cases, 0, Box::new(busy), &[Call::WaitReady])?;
    let two_rows = Call::Write { at: 10, len: 20, seed: 9 };
    for number in 1..=2 {
        let slow = Part { slow: Some((number, refused)), ..good() };
        calls(cases, 0, Box::new(slow), &[two_rows])?;
    }
    // Password, I2C_CFG, RF_MNGT, password, GPO1; then the row that `begin` wipes.
    for number in 1..=6 {
        let mut slow = Part { slow: Some((number, refused)), ..never_set_up() };
        slow.memory[3] = 1;
        calls(cases, 16, Box::new(slow), &[if number < 6 { Call::Prepare } else { Call::Begin }])?;
    }
    for call in [Call::Scrub, Call::Finish] {
        let mut slow = Part { slow: Some((1, refused)), ..good() };
        slow.memory[0] = 1;
        calls(cases, 1, Box::new(slow), &[call])?;
    }
    Ok(())
}

fn tries(cases: &mut Cases, stuck: u64, fault: Fault) -> io::Result<()> {
    let each = [
        Call::RfOff,
        Call::RfOn,
        Call::Begin,
        Call::GoLive,
        Call::Finish,
        Call::ReadWhole { len: 8_192 },
    ];
    for call in each {
        calls(cases, 16, Box::new(Part { stuck, fault, ..good() }), &[call, Call::RfOff])?;
        // `finish` wipes even where RF would not go off, and a phone may have written.
        let mut dirty = Part { stuck, fault, status: 0x80, ..good() };
        dirty.memory[8_000] = 7;
        calls(cases, 0, Box::new(dirty), &[call])?;
    }
    Ok(())
}

fn never_set_up() -> Part {
    let mut part = good();
    part.system[I2C_CFG] = 0x1A;
    part.system[GPO1] = 0;
    part
}

/// Every value of each byte that setup looks at, and a password that is refused.
fn setups(cases: &mut Cases) -> io::Result<()> {
    for place in [GPO1, I2C_CFG, 0x14, 0x15, UID_LAST] {
        for value in 0..=255 {
            let mut part = good();
            part.system[place] = value;
            calls(cases, 0, Box::new(part), &[Call::Identify, Call::Prepare])?;
        }
    }
    for opens in [false, true] {
        let part = Part { opens, ..never_set_up() };
        calls(cases, 0, Box::new(part), &[Call::Prepare, Call::Prepare])?;
    }
    for value in 0..=255 {
        let part = Part { rf_dyn: value, status: value, ..good() };
        calls(cases, 0, Box::new(part), &[Call::RfWrote, Call::RfOff, Call::RfOn])?;
    }
    Ok(())
}
