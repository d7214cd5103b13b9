//! The original's session, and a call of it from start to answer.

use super::bus::{Event, Replies, Wire};
use super::call::Call;
use super::reading;
use super::step::{Step, Target};
use crate::domain::Who;
use catcard_nfc::tag::{Tag, TagError};

pub struct Session {
    tag: Tag<Wire>,
    wire: Wire,
}

/// A call, run: what it did on the bus, and what it answered.
pub struct Run {
    pub who: Who,
    pub call: Call,
    pub events: Vec<Event>,
    pub answer: Step,
    /// The mark after each number of replies, from none to all.
    pub marks: Vec<usize>,
}

impl Session {
    pub fn new(mark: u64, replies: Box<dyn Replies>) -> Self {
        let wire = Wire::new(replies);
        Session { tag: Tag::new(wire.clone(), mark as usize), wire }
    }

    /// A new session on the same bus.
    pub fn renew(&mut self, mark: u64) {
        self.tag = Tag::new(self.wire.clone(), mark as usize);
    }

    pub fn mark(&self) -> usize {
        self.tag.dirty()
    }

    pub fn run(&mut self, call: Call) -> Run {
        let before = self.mark();
        // Past 2^64 the Rust's sum overflows; document 01's exact end decides.
        if reading::passes_64_bits(call) {
            let answer = Step::answer(reading::NOT_TAKEN, 0, 0);
            return Run { who: Who::Document, call, events: vec![], answer, marks: vec![before] };
        }
        let (number, value) = self.told(call);
        let events = self.wire.events();
        let answer = Step::answer(number, rows(&events), value);
        let marks = marks(call, &events, before, self.mark());
        Run { who: Who::Original, call, events, answer, marks }
    }

    /// The answer's number and value.
    fn told(&mut self, call: Call) -> (u8, u64) {
        let tag = &mut self.tag;
        let told = match call {
            Call::RfWrote => return (0, tag.rf_wrote().into()),
            Call::Identify => tag.identify(),
            Call::Prepare => tag.prepare(),
            Call::WaitReady => tag.wait_ready(),
            Call::RfOff => tag.rf_off(),
            Call::RfOn => tag.rf_on(),
            Call::Scrub => tag.scrub(),
            Call::Begin => tag.begin(),
            Call::GoLive => tag.go_live(),
            Call::Finish => tag.finish(),
            Call::ReadUser { at, len } => tag.read_user(at as usize, &mut vec![0; len]),
            Call::Write { at, .. } => tag.write(at as usize, &call.data()),
            Call::ReadWhole { len } => tag.read_whole(&mut vec![0; len]),
        };
        (told.map_or_else(number, |()| 0), 0)
    }
}

pub fn number(error: TagError) -> u8 {
    match error {
        TagError::NoAnswer => 21,
        TagError::NotThePart => 22,
        TagError::Busy => 23,
        TagError::Refused => 24,
        TagError::RfStuck => 25,
        TagError::NotTaken => reading::NOT_TAKEN,
    }
}

/// Acknowledged writes of data to user memory.
fn rows(events: &[Event]) -> u64 {
    let is_row = |event: &&Event| match event {
        Event::Write { address, bytes, taken } => *taken && reading::is_row(*address, bytes),
        _ => false,
    };
    events.iter().filter(is_row).count() as u64
}

/// The original's mark is seen before and after a call only. Inside, document
/// 01 and the Rust's own lines say when it moves: `write` before the first row,
/// `finish` with the reply to the status read, every other with the answer.
fn marks(call: Call, events: &[Event], before: usize, after: usize) -> Vec<usize> {
    let mut marks = vec![before; events.len() + 1];
    match call {
        Call::Write { .. } => marks.fill(after),
        Call::Finish => {
            if let Some(status) = events.iter().position(is_status_read) {
                if wrote(&events[status]) {
                    marks[status + 1..].fill(reading::USER_MEMORY);
                }
            }
        }
        _ => {}
    }
    marks[events.len()] = after;
    marks
}

/// IT_STS_Dyn, at 0x2005.
fn is_status_read(event: &Event) -> bool {
    matches!(event, Event::Read { bytes, .. } if bytes[..] == [0x20, 0x05])
}

/// "`rf_wrote` is yes when the read fails."
fn wrote(status: &Event) -> bool {
    !matches!(status, Event::Read { got: Some(got), .. } if got[0] & 0x80 == 0)
}

impl Run {
    /// What the port says after `done` replies: its step, and the bytes to send.
    pub fn after(&self, done: usize) -> (Step, &[u8]) {
        match self.events.get(done) {
            None => (self.answer, &[]),
            Some(Event::Delay(ms)) => (Step::delay(*ms), &[]),
            Some(Event::Write { address, bytes, .. }) => {
                (Step::write(*address, bytes.len()), bytes)
            }
            Some(Event::Read { address, bytes, len, .. }) => {
                (Step::read(self.target(done), *address, bytes.len(), *len), bytes)
            }
        }
    }

    /// "The host puts bytes read by `read_user` and `read_whole` into `out`";
    /// `read_whole`'s registers, past user memory, are none of them.
    pub fn target(&self, done: usize) -> Target {
        match (self.call, &self.events[done]) {
            (Call::ReadUser { .. }, Event::Read { .. }) => Target::Out,
            (Call::ReadWhole { .. }, Event::Read { bytes, .. }) if bytes[0] < 0x20 => Target::Out,
            _ => Target::Reply,
        }
    }
}
