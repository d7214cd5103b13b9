//! The bus that the original is given: it asks for replies and keeps a record.

use catcard_nfc::tag::{Bus, Nack};
use std::cell::RefCell;
use std::rc::Rc;

/// One thing that a call did on the bus, and what came back.
#[derive(Clone, Debug)]
pub enum Event {
    Write { address: u8, bytes: Vec<u8>, taken: bool },
    Read { address: u8, bytes: Vec<u8>, len: usize, got: Option<Vec<u8>> },
    Delay(u32),
}

/// Who answers on the bus: nothing for a transfer that is refused, otherwise
/// as many bytes as are read (none for a write).
pub trait Replies {
    fn reply(&mut self, address: u8, bytes: &[u8], len: usize) -> Option<Vec<u8>>;
}

/// The original owns its bus, so the record is shared with whoever reads it.
#[derive(Clone)]
pub struct Wire(Rc<RefCell<Log>>);

struct Log {
    events: Vec<Event>,
    replies: Box<dyn Replies>,
}

impl Wire {
    pub fn new(replies: Box<dyn Replies>) -> Self {
        Wire(Rc::new(RefCell::new(Log { events: Vec::new(), replies })))
    }

    /// What happened since it was last asked.
    pub fn events(&self) -> Vec<Event> {
        std::mem::take(&mut self.0.borrow_mut().events)
    }
}

impl Bus for Wire {
    fn write(&mut self, address: u8, bytes: &[u8]) -> Result<(), Nack> {
        let mut log = self.0.borrow_mut();
        let taken = log.replies.reply(address, bytes, 0).is_some();
        log.events.push(Event::Write { address, bytes: bytes.to_vec(), taken });
        taken.then_some(()).ok_or(Nack)
    }

    fn write_read(&mut self, address: u8, bytes: &[u8], out: &mut [u8]) -> Result<(), Nack> {
        let mut log = self.0.borrow_mut();
        let got = log.replies.reply(address, bytes, out.len());
        let (bytes, len) = (bytes.to_vec(), out.len());
        log.events.push(Event::Read { address, bytes, len, got: got.clone() });
        out.copy_from_slice(&got.ok_or(Nack)?);
        Ok(())
    }

    fn delay_ms(&mut self, ms: u32) {
        self.0.borrow_mut().events.push(Event::Delay(ms));
    }
}
