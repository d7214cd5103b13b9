//! Document 01's words about a session where the Rust has no say: lent bytes,
//! the order of the checks, ends past 64 bits. The quotes are the document's.

use super::call::Call;

pub const USER_MEMORY: usize = 8_192;
/// The C interface's length of a state.
pub const STATE: usize = 20;
/// "a transfer buffer under 19 bytes, a reply buffer under 64"
pub const TRANSFER: usize = 19;
pub const REPLY: usize = 64;
/// "an exact end past 8,192 is 26"
pub const NOT_TAKEN: u8 = 26;

/// How many bytes of each buffer are lent.
#[derive(Copy, Clone, PartialEq, Eq, Debug)]
pub struct Lent {
    pub state: usize,
    pub transfer: usize,
    pub reply: usize,
    pub data: usize,
    pub out: usize,
}

/// What the state bytes are.
#[derive(Clone, PartialEq, Eq, Debug)]
pub enum State {
    /// "no state"
    Garbage,
    Idle {
        mark: usize,
    },
    /// With the lengths of data and `out` at the call's start.
    Open {
        mark: usize,
        data: usize,
        out: usize,
    },
}

/// What an export is asked for. `next` is judged as a reply is.
#[derive(Copy, Clone, PartialEq, Eq, Debug)]
pub enum Ask {
    New,
    Dirty,
    Start,
    Reply,
}

/// "Session checks: 34, then 31 or 32, then 33, and only then the call's own
/// 26."
pub fn refusal(ask: Ask, state: &State, lent: Lent) -> Option<u8> {
    if lent.state != STATE {
        return Some(34);
    }
    if ask == Ask::New {
        // "34 judges the length only"
        return None;
    }
    let lengths = match state {
        State::Garbage => return Some(34),
        // "`dirty` refuses only 34 and answers inside an open call too."
        _ if ask == Ask::Dirty => return None,
        State::Idle { .. } if ask == Ask::Reply => return Some(31),
        State::Open { .. } if ask == Ask::Start => return Some(32),
        State::Idle { .. } => (lent.data, lent.out),
        State::Open { data, out, .. } => (*data, *out),
    };
    // "or, with a reply, data or `out` of another length than at the call's start"
    let short = lent.transfer < TRANSFER || lent.reply < REPLY;
    (short || lengths != (lent.data, lent.out)).then_some(33)
}

/// "mark = the smaller of the given number and 8,192"
pub fn new_mark(given: u64) -> usize {
    given.min(USER_MEMORY as u64) as usize
}

/// The Rust adds `at` and a length in 64 bits.
pub fn passes_64_bits(call: Call) -> bool {
    match call {
        Call::ReadUser { at, len } | Call::Write { at, len, .. } => {
            at.checked_add(len as u64).is_none()
        }
        _ => false,
    }
}

/// A row write: data to 0x53 at a place in user memory; past it are registers.
pub fn is_row(address: u8, bytes: &[u8]) -> bool {
    address == 0x53
        && bytes.len() > 2
        && usize::from(u16::from_be_bytes([bytes[0], bytes[1]])) < USER_MEMORY
}
