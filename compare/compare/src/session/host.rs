//! The host's side of a session, as lines: each operation, and what it must
//! answer.

use super::bus::Event;
use super::call::Call;
use super::original::{Run, Session};
use super::reading::{self, Ask, Lent, State};
use super::step::{Step, Target};
use super::tricks::Tricks;
use crate::answer::Line;
use crate::bytes::{lent, Hex};
use crate::domain::Who;
use crate::groups::Cases;
use std::io;

/// The program's arrays: longer than what the calls need of them.
pub const STATE_ARRAY: usize = 40;
pub const TRANSFER_ARRAY: usize = 24;
pub const REPLY_ARRAY: usize = 72;
pub const DATA_ARRAY: usize = 8_300;

/// Enough of every buffer, and no data.
pub const ENOUGH: Lent =
    Lent { state: reading::STATE, transfer: TRANSFER_ARRAY, reply: REPLY_ARRAY, data: 0, out: 0 };

pub struct Host<'a, 'b> {
    cases: &'a mut Cases<'b>,
    transfer: Vec<u8>,
    reply: Vec<u8>,
    pub lent: Lent,
    pub state: State,
    /// The open call's step and the bytes to send.
    asked: (Step, Vec<u8>),
}

impl<'a, 'b> Host<'a, 'b> {
    /// Fills the arrays, so that nothing of what was before is left.
    pub fn new(cases: &'a mut Cases<'b>) -> io::Result<Self> {
        let mut host = Host {
            cases,
            transfer: lent(TRANSFER_ARRAY),
            reply: lent(REPLY_ARRAY),
            lent: ENOUGH,
            state: State::Garbage,
            asked: (Step(0), Vec::new()),
        };
        host.plain("fill".to_string())?;
        host.lend(ENOUGH)?;
        Ok(host)
    }

    /// An operation that only its name answers.
    fn plain(&mut self, operation: String) -> io::Result<()> {
        let name = operation.split(' ').next().unwrap_or_default();
        self.cases.pair(&operation, Who::Document, name)
    }

    pub fn lend(&mut self, lent: Lent) -> io::Result<()> {
        self.lent = lent;
        let Lent { state, transfer, reply, data, out } = lent;
        self.plain(format!("lend {state} {transfer} {reply} {data} {out}"))
    }

    pub fn put_state(&mut self, bytes: &str) -> io::Result<()> {
        self.state = State::Garbage;
        self.plain(format!("state {bytes}"))
    }

    pub fn put_transfer(&mut self, bytes: &[u8]) -> io::Result<()> {
        self.transfer[..bytes.len()].copy_from_slice(bytes);
        self.plain(format!("transfer {}", Hex(bytes)))
    }

    pub fn mark(&self) -> Option<usize> {
        match self.state {
            State::Garbage => None,
            State::Idle { mark } | State::Open { mark, .. } => Some(mark),
        }
    }

    fn dirty_step(&self) -> Step {
        match (reading::refusal(Ask::Dirty, &self.state, self.lent), self.mark()) {
            (None, Some(mark)) => Step::answer(0, 0, mark as u64),
            _ => Step::refused(34),
        }
    }

    /// An export's line: its step, `dirty`'s afterwards, whether the state
    /// changed, the whole of both buffers.
    fn export(&mut self, who: Who, operation: &str, step: Step, changed: bool) -> io::Result<()> {
        let name = operation.split(' ').next().unwrap_or_default();
        let mut text = String::new();
        let mut line = Line::new(&mut text, name);
        line.number(step.0).number(self.dirty_step().0).number(changed.into());
        line.bytes(&self.transfer).bytes(&self.reply);
        self.cases.pair(operation, who, &text)
    }

    pub fn dirty(&mut self) -> io::Result<()> {
        self.export(Who::Document, "tag_dirty", self.dirty_step(), false)
    }

    /// A session anew, also in the middle of a call; refused only for the
    /// length.
    pub fn new_session(&mut self, mark: u64) -> io::Result<()> {
        let operation = format!("tag_new {mark}");
        if let Some(number) = reading::refusal(Ask::New, &self.state, self.lent) {
            return self.export(Who::Document, &operation, Step::refused(number), false);
        }
        let state = State::Idle { mark: reading::new_mark(mark) };
        let changed = state != self.state;
        self.state = state;
        self.export(Who::Original, &operation, Step::answer(0, 0, 0), changed)
    }

    /// The open call's transfer once more, or a refusal; nothing changes.
    pub fn ask_again(&mut self) -> io::Result<()> {
        if let Some(number) = reading::refusal(Ask::Reply, &self.state, self.lent) {
            return self.export(Who::Document, "tag_next", Step::refused(number), false);
        }
        let (step, sent) = self.asked.clone();
        self.show(&sent);
        self.export(Who::Original, "tag_next", step, false)
    }

    /// "the bytes to send stand first in the transfer buffer, zeros after them
    /// up to 19"
    fn show(&mut self, sent: &[u8]) {
        self.transfer[..reading::TRANSFER].fill(0);
        self.transfer[..sent.len()].copy_from_slice(sent);
    }

    /// A start that the checks refuse, and nothing is touched.
    pub fn refused_start(&mut self, call: Call) -> io::Result<()> {
        let number = reading::refusal(Ask::Start, &self.state, self.lent).expect("a refusal");
        self.export(Who::Document, &call.operation(), Step::refused(number), false)
    }

    /// A reply that the checks refuse; the host has put its bytes all the same.
    pub fn refused_reply(&mut self, ack: u64, bytes: &[u8]) -> io::Result<()> {
        let number = reading::refusal(Ask::Reply, &self.state, self.lent).expect("a refusal");
        self.reply[..bytes.len()].copy_from_slice(bytes);
        self.export(Who::Document, &reply_line(ack, bytes), Step::refused(number), false)
    }

    /// A call from its start to its answer. False where a trick ended it first.
    pub fn call(
        &mut self,
        session: &mut Session,
        call: Call,
        tricks: &mut Tricks,
    ) -> io::Result<bool> {
        self.lend_for(call)?;
        let run = session.run(call);
        self.start(&run)?;
        for done in 0..run.events.len() {
            if tricks.inside(self)? {
                return Ok(false);
            }
            self.answer_event(&run, done, tricks)?;
        }
        assert_eq!(self.state, State::Idle { mark: session.mark() });
        Ok(true)
    }

    /// A call's start and its first replies.
    pub fn first_turns(
        &mut self,
        session: &mut Session,
        call: Call,
        replies: usize,
    ) -> io::Result<()> {
        self.lend_for(call)?;
        let run = session.run(call);
        self.start(&run)?;
        (0..replies).try_for_each(|done| self.answer_event(&run, done, &mut Tricks::none()))
    }

    /// Data and `out` as the call wants them, the other buffers as they are.
    fn lend_for(&mut self, call: Call) -> io::Result<()> {
        let (data, out) = call.lengths();
        if (data, out) != (self.lent.data, self.lent.out) {
            self.lend(Lent { data, out, ..self.lent })?;
        }
        if let Call::Write { len, seed, .. } = call {
            self.plain(format!("data @{len}:{seed}"))?;
        }
        Ok(())
    }

    fn start(&mut self, run: &Run) -> io::Result<()> {
        let before = self.state.clone();
        let step = self.goes_to(run, 0);
        self.export(run.who, &run.call.operation(), step, self.state != before)
    }

    /// The state, the buffers and the step after so many replies.
    fn goes_to(&mut self, run: &Run, done: usize) -> Step {
        let (step, sent) = run.after(done);
        let mark = run.marks[done];
        self.show(sent);
        self.asked = (step, sent.to_vec());
        if done == run.events.len() {
            self.state = State::Idle { mark };
            // "When a call answers, the first 19 and 64 bytes .. are zero."
            self.reply[..reading::REPLY].fill(0);
        } else {
            let (data, out) = run.call.lengths();
            self.state = State::Open { mark, data, out };
        }
        step
    }

    fn answer_event(&mut self, run: &Run, done: usize, tricks: &mut Tricks) -> io::Result<()> {
        let (ack, bytes) = match &run.events[done] {
            Event::Delay(_) => (tricks.any_ack(), tricks.junk(0)),
            Event::Write { taken, .. } => (tricks.ack(*taken), tricks.junk(0)),
            Event::Read { got: None, .. } => (0, tricks.junk(0)),
            Event::Read { got: Some(got), .. } if run.target(done) == Target::Out => {
                self.plain(format!("out {}", Hex(got)))?;
                (tricks.ack(true), tricks.junk(0))
            }
            Event::Read { got: Some(got), .. } => {
                let mut bytes = got.clone();
                bytes.extend(tricks.junk(got.len()));
                (tricks.ack(true), bytes)
            }
        };
        self.reply[..bytes.len()].copy_from_slice(&bytes);
        let step = self.goes_to(run, done + 1);
        self.export(run.who, &reply_line(ack, &bytes), step, true)
    }
}

pub fn reply_line(ack: u64, bytes: &[u8]) -> String {
    format!("tag_reply {ack} {}", Hex(bytes))
}
