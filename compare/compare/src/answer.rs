//! What a call answers, by document 01's numbers, and its line.

use crate::bytes::{push_answer, push_hex};

/// Why a build was refused: document 01, "Numbers a caller gets".
#[derive(Copy, Clone, PartialEq, Eq, Debug)]
pub enum Refusal {
    TypeTooLong,
    TooLong { needed: u64, room: u64 },
    RecordTooLong { record: u64 },
    AreaTooLarge,
    NotUtf8,
}

/// What a call on a lent buffer answers: a place, or a refusal.
pub type Outcome = Result<u64, Refusal>;

/// An answer line that grows field by field.
pub struct Line<'a>(&'a mut String);

impl<'a> Line<'a> {
    pub fn new(text: &'a mut String, call: &str) -> Self {
        text.clear();
        text.push_str(call);
        Line(text)
    }

    pub fn word(&mut self, word: &str) -> &mut Self {
        self.0.push(' ');
        self.0.push_str(word);
        self
    }

    pub fn number(&mut self, n: u64) -> &mut Self {
        // Most numbers of a record are a single digit: no formatting for those.
        if n < 10 {
            self.0.push(' ');
            self.0.push((b'0' + n as u8) as char);
            return self;
        }
        self.word(&n.to_string())
    }

    pub fn bytes(&mut self, bytes: &[u8]) -> &mut Self {
        self.0.push(' ');
        push_answer(self.0, bytes);
        self
    }

    /// ` text:BYTES`, ` uri:PREFIXBYTES:BYTES`: parts that belong to one field.
    pub fn named(&mut self, name: &str, parts: &[&[u8]]) -> &mut Self {
        self.word(name);
        for part in parts {
            self.0.push(':');
            push_answer(self.0, part);
        }
        self
    }

    pub fn hex(&mut self, bytes: &[u8]) -> &mut Self {
        self.0.push(' ');
        push_hex(self.0, bytes);
        self
    }

    /// An outcome, then the whole lent buffer as the call left it.
    pub fn outcome(&mut self, outcome: Outcome, buffer: &[u8]) -> &mut Self {
        match outcome {
            Ok(place) => self.number(0).number(place),
            Err(Refusal::TypeTooLong) => self.number(1),
            Err(Refusal::TooLong { needed, room }) => self.number(2).number(needed).number(room),
            Err(Refusal::RecordTooLong { record }) => self.number(3).number(record),
            Err(Refusal::AreaTooLarge) => self.number(4),
            Err(Refusal::NotUtf8) => self.number(5),
        };
        self.bytes(buffer)
    }
}
