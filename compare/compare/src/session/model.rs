//! A stand-in for the port and its program, for tests: it takes the operation
//! lines and answers them. An open call is the replies that it got so far; the
//! original, run anew on these, tells what it asks for next.

use super::original::number;
use super::step::{Step, Target};
use crate::bytes::{lent, push_answer};
use crate::fields::Fields;
use crate::groups::{Cases, GROUPS};
use crate::rng::Rng;
use catcard_nfc::tag::{Bus, Nack, Tag};
use std::collections::VecDeque;

const NAMES: [&str; 5] = ["state", "transfer", "reply", "data", "out"];
const SIZES: [usize; 5] = [40, 24, 72, 8_300, 8_300];

/// Refused, or acknowledged with these bytes.
type Reply = Option<Vec<u8>>;

#[derive(Clone, PartialEq)]
struct Open {
    /// The mark at its start.
    mark: usize,
    call: String,
    at: u64,
    data: Vec<u8>,
    out: usize,
    replies: Vec<Reply>,
}

#[derive(Clone, PartialEq)]
struct State {
    mark: usize,
    open: Option<Open>,
}

struct Model {
    arrays: [Vec<u8>; 5],
    lent: [usize; 5],
    /// State bytes are a sign and a place in here.
    states: Vec<State>,
}

/// Gives the replies it has, then notes what is asked for and refuses the rest.
#[derive(Default)]
struct Replay {
    replies: VecDeque<Reply>,
    asked: Option<(Step, Vec<u8>)>,
    rows: u64,
    wrote: bool,
    call: String,
}

/// What a call has come to.
enum Come {
    /// To a transfer: its step, the bytes to send, the mark.
    Asks(Step, Vec<u8>, usize),
    /// To its answer, with the mark.
    Answers(Step, usize),
}

impl Replay {
    fn take(&mut self, step: Step, bytes: &[u8]) -> Reply {
        if self.asked.is_some() {
            return None;
        }
        if self.replies.is_empty() {
            self.asked = Some((step, bytes.to_vec()));
        }
        self.replies.pop_front().flatten()
    }
}

impl Bus for &mut Replay {
    fn write(&mut self, address: u8, bytes: &[u8]) -> Result<(), Nack> {
        self.take(Step::write(address, bytes.len()), bytes).ok_or(Nack)?;
        self.rows += u64::from(address == 0x53 && bytes.len() > 2 && bytes[0] < 0x20);
        Ok(())
    }

    fn write_read(&mut self, address: u8, bytes: &[u8], out: &mut [u8]) -> Result<(), Nack> {
        let into = match self.call.as_str() {
            "read_user" => Target::Out,
            "read_whole" if bytes[0] < 0x20 => Target::Out,
            _ => Target::Reply,
        };
        let got = self.take(Step::read(into, address, bytes.len(), out.len()), bytes);
        if self.asked.is_none() && bytes == [0x20, 0x05] {
            self.wrote |= got.as_ref().is_none_or(|got| got[0] >= 0x80);
        }
        out.copy_from_slice(&got.ok_or(Nack)?[..out.len()]);
        Ok(())
    }

    fn delay_ms(&mut self, ms: u32) {
        self.take(Step::delay(ms), &[]);
    }
}

impl Open {
    /// Past 8,192 nothing is asked for, whatever the Rust's sum would do.
    fn is_past(&self) -> bool {
        let end = |len: usize| u128::from(self.at) + len as u128 > 8_192;
        match self.call.as_str() {
            "write" => end(self.data.len()),
            "read_user" => end(self.out),
            _ => false,
        }
    }

    fn come(&self) -> Come {
        if self.is_past() {
            return Come::Answers(Step::answer(26, 0, 0), self.mark);
        }
        let (replies, call) = (self.replies.clone().into(), self.call.clone());
        let mut bus = Replay { replies, call, ..Replay::default() };
        let (number, value, after) = self.run(&mut bus);
        let Some((step, bytes)) = bus.asked else {
            return Come::Answers(Step::answer(number, bus.rows, value), after);
        };
        let mark = match self.call.as_str() {
            "write" => self.mark.max(self.at as usize + self.data.len()),
            "finish" if bus.wrote => 8_192,
            _ => self.mark,
        };
        Come::Asks(step, bytes, mark)
    }

    /// Number, value and mark after the replies so far, as if the rest failed.
    fn run(&self, bus: &mut Replay) -> (u8, u64, usize) {
        let mark = self.mark;
        let mut tag = Tag::new(bus, mark);
        let mut out = vec![0; self.out];
        let told = match self.call.as_str() {
            "identify" => tag.identify(),
            "prepare" => tag.prepare(),
            "wait_ready" => tag.wait_ready(),
            "rf_off" => tag.rf_off(),
            "rf_on" => tag.rf_on(),
            "rf_wrote" => return (0, tag.rf_wrote().into(), mark),
            "scrub" => tag.scrub(),
            "begin" => tag.begin(),
            "go_live" => tag.go_live(),
            "finish" => tag.finish(),
            "read_user" => tag.read_user(self.at as usize, &mut out),
            "write" => tag.write(self.at as usize, &self.data),
            _ => tag.read_whole(&mut out),
        };
        (told.map_or_else(number, |()| 0), 0, tag.dirty())
    }
}

impl Model {
    fn new() -> Self {
        Model { arrays: SIZES.map(lent), lent: [20, 24, 72, 0, 0], states: Vec::new() }
    }

    fn answer(&mut self, line: &str) -> String {
        let name = line.split(' ').next().unwrap_or_default();
        let mut fields = Fields::after(line.as_bytes(), name.as_bytes());
        let array = NAMES.iter().position(|array| *array == name);
        match (name, array) {
            ("fill", _) => self.arrays = SIZES.map(lent),
            ("lend", _) => self.lent = [(); 5].map(|()| fields.number().unwrap() as usize),
            ("no_such_operation" | "tag_nothing" | "tag", _) => return "?".to_string(),
            (_, Some(array)) => self.put(array, &fields.bytes().unwrap()),
            _ => return self.export(name.strip_prefix("tag_").unwrap(), &mut fields),
        }
        name.to_string()
    }

    fn put(&mut self, array: usize, bytes: &[u8]) {
        self.arrays[array][..bytes.len()].copy_from_slice(bytes);
    }

    fn export(&mut self, name: &str, fields: &mut Fields) -> String {
        let given = fields.number().unwrap_or(0);
        if name == "reply" {
            self.put(2, &fields.bytes().unwrap());
        }
        let before = self.arrays[0].clone();
        let step = match name {
            "dirty" => self.dirty(),
            "new" => self.renew(given),
            "next" => self.turn(None).unwrap_or_else(Step::refused),
            "reply" => self.turn(Some(given != 0)).unwrap_or_else(Step::refused),
            _ => self.start(name, given).unwrap_or_else(Step::refused),
        };
        let changed = u8::from(before != self.arrays[0]);
        let mut line = format!("tag_{name} {} {} {changed} ", step.0, self.dirty().0);
        push_answer(&mut line, &self.arrays[1]);
        line.push(' ');
        push_answer(&mut line, &self.arrays[2]);
        line
    }

    /// 34 for anything but a sign and a place that was given out.
    fn state(&self) -> Result<State, u8> {
        let place = match &self.arrays[0][..self.lent[0]] {
            [0x5A, place @ .., 0xA5] if place.len() == 18 && place[4..] == [0; 14] => {
                u32::from_le_bytes([place[0], place[1], place[2], place[3]])
            }
            _ => return Err(34),
        };
        self.states.get(place as usize).cloned().ok_or(34)
    }

    fn store(&mut self, state: State) {
        let found = self.states.iter().position(|known| *known == state);
        let place = found.unwrap_or(self.states.len());
        if found.is_none() {
            self.states.push(state);
        }
        let mut bytes = [0; 20];
        (bytes[0], bytes[19]) = (0x5A, 0xA5);
        bytes[1..5].copy_from_slice(&(place as u32).to_le_bytes());
        self.put(0, &bytes);
    }

    fn dirty(&self) -> Step {
        match self.state() {
            Ok(state) => Step::answer(0, 0, state.mark as u64),
            Err(number) => Step::refused(number),
        }
    }

    fn renew(&mut self, mark: u64) -> Step {
        if self.lent[0] != 20 {
            return Step::refused(34);
        }
        self.store(State { mark: mark.min(8_192) as usize, open: None });
        Step(0)
    }

    fn start(&mut self, name: &str, at: u64) -> Result<Step, u8> {
        let state = self.state()?;
        if state.open.is_some() {
            return Err(32);
        }
        if self.lent[1] < 19 || self.lent[2] < 64 {
            return Err(33);
        }
        let data = if name == "write" { self.lent[3] } else { 0 };
        let out = if name.starts_with("read_") { self.lent[4] } else { 0 };
        let (call, mark) = (name.to_string(), state.mark);
        let data = self.arrays[3][..data].to_vec();
        Ok(self.go(Open { mark, call, at, data, out, replies: Vec::new() }, true))
    }

    /// A reply, or `next` where there is none.
    fn turn(&mut self, reply: Option<bool>) -> Result<Step, u8> {
        let mut open = self.state()?.open.ok_or(31)?;
        let same = (open.data.len(), open.out) == (self.lent[3], self.lent[4]);
        if self.lent[1] < 19 || self.lent[2] < 64 || !same {
            return Err(33);
        }
        let into_out = matches!(open.come(), Come::Asks(step, ..) if step.0 & 255 == 3);
        let bytes = &self.arrays[if into_out { 4 } else { 2 }];
        if let Some(taken) = reply {
            open.replies.push(taken.then(|| bytes.clone()));
        }
        Ok(self.go(open, reply.is_some()))
    }

    fn go(&mut self, open: Open, moves: bool) -> Step {
        self.arrays[1][..19].fill(0);
        match open.come() {
            Come::Asks(step, bytes, mark) => {
                self.put(1, &bytes);
                if moves {
                    self.store(State { mark, open: Some(open) });
                }
                step
            }
            Come::Answers(step, mark) => {
                self.arrays[2][..64].fill(0);
                self.store(State { mark, open: None });
                step
            }
        }
    }
}

/// Every line's answer is the one that the lines of the group call right.
fn agree(write: impl Fn(&mut Cases)) {
    let (mut lines, mut right) = (Vec::new(), Vec::new());
    write(&mut Cases::with_answers(&mut lines, &mut right));
    let (lines, right) = (String::from_utf8(lines).unwrap(), String::from_utf8(right).unwrap());
    let mut model = Model::new();
    assert_eq!(lines.lines().count(), right.lines().count());
    for (number, (line, right)) in lines.lines().zip(right.lines()).enumerate() {
        assert_eq!(model.answer(line), right[2..], "line {}: {line}", number + 1);
    }
}

#[test]
fn the_fixed_list() {
    let group = GROUPS.iter().find(|group| group.name == "session").unwrap();
    agree(|cases| (group.fixed)(cases).unwrap());
}

#[test]
fn random_sessions() {
    let group = GROUPS.iter().find(|group| group.name == "session").unwrap();
    for seed in 0..60 {
        agree(|cases| (group.random)(cases, &mut Rng::new(seed, "model")).unwrap());
    }
}
