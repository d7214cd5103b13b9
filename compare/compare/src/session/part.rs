//! A small simulated part, so that replies lead deep into the calls. It is no
//! model of the part of demand 3: it only has to be plausible, and it can be
//! told to fail at a certain place a certain number of times, or at random.

use super::bus::Replies;
use crate::rng::Rng;
use std::ops::Range;

/// Registers at the user address, past user memory.
const RF_MNGT_DYN: usize = 0x2003;
const I2C_SSO_DYN: usize = 0x2004;
const IT_STS_DYN: usize = 0x2005;
/// Places in the system area.
pub const GPO1: usize = 0x00;
pub const RF_MNGT: usize = 0x03;
pub const I2C_CFG: usize = 0x0E;
const MEM_SIZE: usize = 0x14;
pub const UID_LAST: usize = 0x1F;
const I2C_PWD: usize = 0x0900;

/// Which transfer of a try to switch RF fails.
#[derive(Copy, Clone, PartialEq, Eq, Debug)]
pub enum Fault {
    Switch,
    Clear,
    Look,
    /// The look is answered, but not as it should be.
    Wrong,
}

pub struct Part {
    pub memory: Vec<u8>,
    pub system: [u8; 0x20],
    pub rf_dyn: u8,
    pub status: u8,
    /// Whether the password opens the session.
    pub opens: bool,
    pub open: bool,
    /// Transfers refused before the next is taken.
    pub busy: u64,
    /// So many transfers are refused after the write of this number.
    pub slow: Option<(u64, u64)>,
    /// Or some number of them after every write.
    pub cycles: Range<u64>,
    pub writes: u64,
    /// So many tries to switch RF fail.
    pub stuck: u64,
    pub fault: Fault,
    /// The transfer of this number is refused, or its bytes come wrong.
    pub lost: Option<u64>,
    pub garbled: Option<u64>,
    pub transfers: u64,
    /// Once in so many transfers something goes wrong; 0 for never.
    pub faults: u64,
    pub rng: Rng,
}

impl Part {
    /// A part that was set up, wiped, with RF off, and has no faults.
    pub fn new(rng: Rng) -> Self {
        let mut system = [0; 0x20];
        system[GPO1] = 0x85;
        system[I2C_CFG] = 0x3A;
        system[MEM_SIZE..MEM_SIZE + 2].copy_from_slice(&2_047u16.to_le_bytes());
        system[UID_LAST] = 0xE0;
        Part {
            memory: vec![0; 8_192],
            system,
            rf_dyn: 0x06,
            status: 0,
            opens: true,
            open: false,
            busy: 0,
            slow: None,
            cycles: 0..1,
            writes: 0,
            stuck: 0,
            fault: Fault::Switch,
            lost: None,
            garbled: None,
            transfers: 0,
            faults: 0,
            rng,
        }
    }

    /// Whether this transfer is the one that fails, of a try that is to fail.
    fn fails(&mut self, here: Fault) -> bool {
        let fails = self.stuck > 0 && self.fault == here;
        self.stuck -= u64::from(fails);
        fails
    }

    fn switch(&mut self, off: bool) -> Option<Vec<u8>> {
        if self.fails(Fault::Switch) {
            return None;
        }
        self.rf_dyn = if off { self.rf_dyn | 4 } else { self.rf_dyn & !4 };
        Some(Vec::new())
    }

    /// A write begins a cycle.
    fn cycle(&mut self) -> Option<Vec<u8>> {
        self.writes += 1;
        self.busy = self.cycles.start + self.rng.below(self.cycles.end - self.cycles.start);
        if let Some((number, polls)) = self.slow {
            if number == self.writes {
                self.busy = polls;
            }
        }
        Some(Vec::new())
    }

    fn write_user(&mut self, at: usize, data: &[u8]) -> Option<Vec<u8>> {
        if at == RF_MNGT_DYN {
            if self.fails(Fault::Clear) {
                return None;
            }
            self.rf_dyn = self.rf_dyn & 4 | data[0] & 3;
            return Some(Vec::new());
        }
        // A fault: acknowledged, and not stored.
        if !self.happens() {
            self.memory[at..at + data.len()].copy_from_slice(data);
        }
        self.cycle()
    }

    fn write_system(&mut self, at: usize, data: &[u8]) -> Option<Vec<u8>> {
        if at == I2C_PWD {
            self.open = self.opens;
        } else if !self.open {
            return None;
        } else if !self.happens() {
            self.system[at] = data[0];
        }
        self.cycle()
    }

    fn read_user(&mut self, at: usize, len: usize) -> Option<Vec<u8>> {
        Some(match at {
            RF_MNGT_DYN if self.fails(Fault::Look) => return None,
            // As the register is where the switch did nothing.
            RF_MNGT_DYN if self.fails(Fault::Wrong) => vec![self.rf_dyn ^ 4],
            RF_MNGT_DYN => vec![self.rf_dyn],
            I2C_SSO_DYN => vec![self.open.into()],
            IT_STS_DYN => vec![std::mem::take(&mut self.status)],
            _ => self.memory[at..at + len].to_vec(),
        })
    }

    fn happens(&mut self) -> bool {
        self.faults != 0 && self.rng.once_in(self.faults)
    }

    fn answer(&mut self, address: u8, bytes: &[u8], len: usize) -> Option<Vec<u8>> {
        let at = bytes.get(..2).map(|at| usize::from(u16::from_be_bytes([at[0], at[1]])));
        match (address, at) {
            (0x51, _) => self.switch(false),
            (0x55, _) => self.switch(true),
            (_, None) => Some(Vec::new()),
            (0x53, Some(at)) if bytes.len() > 2 => self.write_user(at, &bytes[2..]),
            (0x53, Some(at)) => self.read_user(at, len),
            (_, Some(at)) if bytes.len() > 2 => self.write_system(at, &bytes[2..]),
            (_, Some(at)) => Some(self.system[at..at + len].to_vec()),
        }
    }
}

impl Replies for Part {
    fn reply(&mut self, address: u8, bytes: &[u8], len: usize) -> Option<Vec<u8>> {
        let number = Some(self.transfers);
        self.transfers += 1;
        if self.busy > 0 {
            self.busy -= 1;
            return None;
        }
        if self.lost == number || self.happens() {
            return None;
        }
        let mut got = self.answer(address, bytes, len)?;
        if self.garbled == number {
            got.iter_mut().for_each(|byte| *byte ^= 0xFF);
        }
        if len > 0 && self.happens() {
            let place = self.rng.index(len);
            got[place] = self.rng.byte();
        }
        Some(got)
    }
}
