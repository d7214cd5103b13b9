//! A simulated part whose write cycles take no time, the same for both sides: as little work as a bus can be.
use catcard_nfc::tag::{self, addr, reg, Bus, Nack};

pub struct Part {
    pub memory: Box<[u8; tag::USER_MEMORY]>,
    rf: u8,
    status: u8,
    /// Where the transfers are written down: address, bytes sent, bytes read.
    pub heard: Option<Vec<(u8, Vec<u8>, usize)>>,
    pub transfers: usize,
}

impl Part {
    pub fn new() -> Self {
        let memory = Box::new([0; tag::USER_MEMORY]);
        Self { memory, rf: 2, status: 0, heard: None, transfers: 0 }
    }

    /// A phone writes, if it can.
    pub fn phone(&mut self, bytes: &[u8]) {
        if self.rf == 0 {
            self.memory[..bytes.len()].copy_from_slice(bytes);
            self.status = tag::IT_RF_WRITE;
        }
    }

    fn hear(&mut self, dev: u8, sent: &[u8], read: usize) {
        self.transfers += 1;
        if let Some(heard) = &mut self.heard {
            heard.push((dev, sent.to_vec(), read));
        }
    }
}

fn place(sent: &[u8]) -> u16 {
    u16::from_be_bytes([sent[0], sent[1]])
}

impl Bus for Part {
    #[inline(never)]
    fn write(&mut self, dev: u8, sent: &[u8]) -> Result<(), Nack> {
        self.hear(dev, sent, 0);
        match (dev, sent.len()) {
            (addr::RF_SWITCH_ON, 0) => self.rf &= 3,
            (addr::RF_SWITCH_OFF, 0) => self.rf |= 4,
            (addr::USER, 0) => {}
            (addr::USER, _) if place(sent) == reg::RF_MNGT_DYN => {
                self.rf = (self.rf & 4) | (sent[2] & 3)
            }
            (addr::USER, n) => {
                self.memory[place(sent) as usize..][..n - 2].copy_from_slice(&sent[2..])
            }
            _ => return Err(Nack),
        }
        Ok(())
    }

    #[inline(never)]
    fn write_read(&mut self, dev: u8, sent: &[u8], out: &mut [u8]) -> Result<(), Nack> {
        self.hear(dev, sent, out.len());
        match (dev, place(sent)) {
            (addr::SYSTEM, reg::MEM_SIZE) => out.copy_from_slice(b"\xFF\x07\x03\x51MARCH1\x02\xE0"),
            (addr::SYSTEM, reg::I2C_CFG) => out[0] = tag::I2C_CFG_VALUE,
            (addr::SYSTEM, reg::GPO1) => out[0] = tag::GPO1_VALUE,
            (addr::USER, reg::RF_MNGT_DYN) => out[0] = self.rf,
            (addr::USER, reg::IT_STS_DYN) => out[0] = core::mem::take(&mut self.status),
            (addr::USER, at) => out.copy_from_slice(&self.memory[at as usize..][..out.len()]),
            _ => return Err(Nack),
        }
        Ok(())
    }

    fn delay_ms(&mut self, _: u32) {}
}
