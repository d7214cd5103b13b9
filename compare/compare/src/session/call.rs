//! The thirteen calls of a session, with their arguments.

use crate::bytes::generated;

#[derive(Copy, Clone, PartialEq, Eq, Debug)]
pub enum Call {
    Identify,
    Prepare,
    WaitReady,
    RfOff,
    RfOn,
    RfWrote,
    Scrub,
    Begin,
    GoLive,
    Finish,
    ReadUser { at: u64, len: usize },
    Write { at: u64, len: usize, seed: u64 },
    ReadWhole { len: usize },
}

/// The calls that take no argument.
pub const PLAIN: [Call; 10] = [
    Call::Identify,
    Call::Prepare,
    Call::WaitReady,
    Call::RfOff,
    Call::RfOn,
    Call::RfWrote,
    Call::Scrub,
    Call::Begin,
    Call::GoLive,
    Call::Finish,
];

/// One of each.
pub fn each() -> impl Iterator<Item = Call> {
    PLAIN.into_iter().chain([
        Call::ReadUser { at: 0, len: 4 },
        Call::Write { at: 10, len: 20, seed: 1 },
        Call::ReadWhole { len: 8192 },
    ])
}

impl Call {
    /// The export without `skp_`: `begin` and `finish` are calls of lib.rs too.
    fn name(self) -> &'static str {
        match self {
            Call::Identify => "tag_identify",
            Call::Prepare => "tag_prepare",
            Call::WaitReady => "tag_wait_ready",
            Call::RfOff => "tag_rf_off",
            Call::RfOn => "tag_rf_on",
            Call::RfWrote => "tag_rf_wrote",
            Call::Scrub => "tag_scrub",
            Call::Begin => "tag_begin",
            Call::GoLive => "tag_go_live",
            Call::Finish => "tag_finish",
            Call::ReadUser { .. } => "tag_read_user",
            Call::Write { .. } => "tag_write",
            Call::ReadWhole { .. } => "tag_read_whole",
        }
    }

    /// The operation that starts it.
    pub fn operation(self) -> String {
        match self {
            Call::ReadUser { at, .. } | Call::Write { at, .. } => format!("{} {at}", self.name()),
            _ => self.name().to_string(),
        }
    }

    /// The bytes to be written.
    pub fn data(self) -> Vec<u8> {
        match self {
            Call::Write { len, seed, .. } => generated(len, seed),
            _ => Vec::new(),
        }
    }

    /// The lengths of data and `out`: 0 where a call takes none.
    pub fn lengths(self) -> (usize, usize) {
        match self {
            Call::Write { len, .. } => (len, 0),
            Call::ReadUser { len, .. } | Call::ReadWhole { len } => (0, len),
            _ => (0, 0),
        }
    }
}
