//! What a host might do besides, inside a call and between two: ask once more,
//! lend wrong lengths, start and reply out of turn, hand over garbage.

use super::call::{self, Call};
use super::host::{Host, DATA_ARRAY, REPLY_ARRAY, STATE_ARRAY, TRANSFER_ARRAY};
use super::original::Session;
use super::reading::{self, Lent};
use crate::bytes::Hex;
use crate::rng::Rng;
use std::io;

/// Acknowledged is "any other" number than 0.
const ACKS: [u64; 7] = [1, 2, 255, 256, 65_536, 1 << 31, (1 << 32) - 1];

pub struct Tricks {
    rng: Rng,
    /// Once in so many replies; 0 for never.
    every: u64,
}

impl Tricks {
    pub fn none() -> Self {
        Tricks { rng: Rng::new(0, "none"), every: 0 }
    }

    pub fn new(rng: Rng, every: u64) -> Self {
        Tricks { rng, every }
    }

    fn now(&mut self) -> bool {
        self.every != 0 && self.rng.once_in(self.every)
    }

    pub fn ack(&mut self, taken: bool) -> u64 {
        match (taken, self.every) {
            (false, _) => 0,
            (true, 0) => 1,
            (true, _) => self.rng.pick(&ACKS),
        }
    }

    /// After a delay the reply is ignored.
    pub fn any_ack(&mut self) -> u64 {
        let taken = self.every != 0 && self.rng.once_in(2);
        self.ack(taken)
    }

    /// Bytes that the port must not look at, after `len` others.
    pub fn junk(&mut self, len: usize) -> Vec<u8> {
        if !self.now() {
            return Vec::new();
        }
        let len = self.rng.index(REPLY_ARRAY - len + 1);
        (0..len).map(|_| self.rng.byte()).collect()
    }

    /// Inside an open call. True when the trick ended it.
    pub fn inside(&mut self, host: &mut Host) -> io::Result<bool> {
        if !self.now() {
            return Ok(false);
        }
        let lent = host.lent;
        match self.rng.below(9) {
            0 => host.ask_again()?,
            1 => host.dirty()?,
            2 => {
                let junk: Vec<u8> = (0..TRANSFER_ARRAY).map(|_| self.rng.byte()).collect();
                host.put_transfer(&junk)?;
                host.ask_again()?;
            }
            3 => host.refused_start(self.any_start())?,
            4 => host.lend(self.enough(lent))?,
            5 => {
                let lent = self.wrong_state(lent);
                self.refused(host, lent)?;
            }
            6 => {
                let lent = self.short(lent);
                self.refused(host, lent)?;
            }
            7 => {
                let lent = self.other_lengths(lent);
                self.refused(host, lent)?;
            }
            _ if self.rng.once_in(8) => {
                host.new_session(self.rng.sized())?;
                return Ok(true);
            }
            _ => {}
        }
        Ok(false)
    }

    /// Replies, `next`s and starts that are refused with these lengths, then
    /// the lengths that were.
    fn refused(&mut self, host: &mut Host, lent: Lent) -> io::Result<()> {
        let before = host.lent;
        host.lend(lent)?;
        for _ in 0..1 + self.rng.below(2) {
            match self.rng.below(4) {
                0 => host.ask_again()?,
                1 => host.refused_start(self.any_start())?,
                2 if lent.state != reading::STATE => host.new_session(self.rng.sized())?,
                _ => {
                    let (ack, junk) = (self.any_ack(), self.junk(0));
                    host.refused_reply(ack, &junk)?;
                }
            }
        }
        host.lend(before)
    }

    /// Between two calls.
    pub fn between(&mut self, host: &mut Host, session: &mut Session) -> io::Result<()> {
        if self.every == 0 {
            return Ok(());
        }
        let lent = host.lent;
        match self.rng.below(8) {
            0 => {
                let (ack, junk) = (self.any_ack(), self.junk(0));
                host.refused_reply(ack, &junk)
            }
            1 => host.ask_again(),
            2 => host.dirty(),
            3 => {
                let lent = self.short(lent);
                self.refused(host, lent)
            }
            4 => {
                let lent = self.wrong_state(lent);
                self.refused(host, lent)
            }
            5 => self.garbage(host, session),
            6 => host.lend(self.enough(lent)),
            _ => Ok(()),
        }
    }

    /// Bytes that no call leaves, then a session anew.
    fn garbage(&mut self, host: &mut Host, session: &mut Session) -> io::Result<()> {
        let byte = self.rng.pick(&[0, 0xFF]);
        let bytes = match self.rng.below(3) {
            0 => Hex(&[byte; STATE_ARRAY]).to_string(),
            _ => format!("@{STATE_ARRAY}:{}", self.rng.any()),
        };
        host.put_state(&bytes)?;
        host.dirty()?;
        let lent = host.lent;
        self.refused(host, lent)?;
        let mark = self.rng.below(100);
        session.renew(mark);
        host.new_session(mark)
    }

    /// Other lengths that are enough.
    fn enough(&mut self, lent: Lent) -> Lent {
        let transfer = reading::TRANSFER + self.rng.index(TRANSFER_ARRAY - reading::TRANSFER + 1);
        let reply = reading::REPLY + self.rng.index(REPLY_ARRAY - reading::REPLY + 1);
        Lent { transfer, reply, ..lent }
    }

    fn wrong_state(&mut self, lent: Lent) -> Lent {
        let other = self.rng.index(STATE_ARRAY);
        let state = if other < reading::STATE { other } else { other + 1 };
        // 34 comes before 33.
        let lent = if self.rng.once_in(4) { self.short(lent) } else { lent };
        Lent { state, ..lent }
    }

    fn short(&mut self, lent: Lent) -> Lent {
        let transfer = self.rng.index(reading::TRANSFER);
        let reply = self.rng.index(reading::REPLY);
        match self.rng.below(3) {
            0 => Lent { transfer, ..lent },
            1 => Lent { reply, ..lent },
            _ => Lent { transfer, reply, ..lent },
        }
    }

    /// Data or `out` of another length than at the call's start.
    fn other_lengths(&mut self, lent: Lent) -> Lent {
        let other = |rng: &mut Rng, len: usize| match rng.below(3) {
            0 => (len + 1).min(DATA_ARRAY),
            1 if len > 0 => len - 1,
            _ => (len + 1 + rng.index(DATA_ARRAY)) % (DATA_ARRAY + 1),
        };
        let (data, out) = (other(&mut self.rng, lent.data), other(&mut self.rng, lent.out));
        match self.rng.below(3) {
            0 => Lent { data, ..lent },
            1 => Lent { out, ..lent },
            _ => Lent { data, out, ..lent },
        }
    }

    fn any_start(&mut self) -> Call {
        let which = self.rng.index(13);
        call::each().nth(which).expect("thirteen calls")
    }
}
