//! Document 01's words about lengths and refusals, in arithmetic that cannot
//! overflow. Written from the document, not from the Rust: it answers where
//! the Rust has no say. The quotes are the document's.

use crate::answer::Refusal;
use crate::case::{Build, Length, What};

/// "4 | area over 524,287"
pub const LARGEST_AREA: u64 = 524_287;
/// "3 | record over 65,535 bytes"
const LONGEST_RECORD: u128 = 65_535;
/// "1 | TypeTooLong: type name over 255"
const LONGEST_TYPE: u128 = 255;

/// "A length past 64 bits is given as the largest 64-bit number."
pub fn given(length: u128) -> u64 {
    u64::try_from(length).unwrap_or(u64::MAX)
}

/// "Record length = (3 or 6) + type + payload", the payload length being one
/// byte "when the payload is at most 255", "otherwise four".
fn record_len(kind: u128, payload: u128) -> u128 {
    (if payload <= 255 { 3 } else { 6 }) + kind + payload
}

/// Eight bytes of container; "Block: 03, then one length byte when the record
/// is below 255, else FF and two bytes. Then FE."
fn image_len(kind: u128, payload: u128) -> u128 {
    let record = record_len(kind, payload);
    8 + (if record < 255 { 2 } else { 4 }) + record + 1
}

/// "URI payload: prefix byte, text."
fn uri_payload(uri: u128) -> u128 {
    1 + uri
}

/// "Text payload: 02, "en", text."
fn text_payload(text: u128) -> u128 {
    3 + text
}

/// The exact length; `given` makes it a caller's.
pub fn length(length: &Length) -> u128 {
    match *length {
        Length::ImageFor { kind, payload } | Length::Mime { kind, payload } => {
            image_len(kind.into(), payload.into())
        }
        Length::Record { payload } => image_len(1, payload.into()),
        Length::Uri { uri } => image_len(1, uri_payload(uri.into())),
        Length::Text { text } => image_len(1, text_payload(text.into())),
    }
}

/// Type name and payload lengths of the record a build is to hold.
fn lengths(what: &What) -> (u128, u128) {
    match what {
        What::Begin { uri_len, .. } => (1, uri_payload((*uri_len).into())),
        What::BeginText { text_len } => (1, text_payload((*text_len).into())),
        What::BeginMime { kind, payload_len } => (kind.len() as u128, (*payload_len).into()),
        What::Uri { uri, .. } => (1, uri_payload(uri.len() as u128)),
        What::Text { text } => (1, text_payload(text.len() as u128)),
        What::Mime { kind, payload } => (kind.len() as u128, payload.len() as u128),
    }
}

/// "5 | text or URI not UTF-8": the announcing calls and MIME hold neither.
pub fn is_not_utf8(what: &What) -> bool {
    match what {
        What::Uri { uri: text, .. } | What::Text { text } => core::str::from_utf8(text).is_err(),
        _ => false,
    }
}

/// Whether a sum of the build passes 64 bits. The type name is judged first
/// and alone, so behind refusal 1 nothing is added up.
pub fn passes_64_bits(build: &Build) -> bool {
    let (kind, payload) = lengths(&build.what);
    kind <= LONGEST_TYPE && image_len(kind, payload) > u64::MAX.into()
}

/// "Build checks run in the order 1 to 5, those that apply."
pub fn refusal(build: &Build) -> Option<Refusal> {
    let (kind, payload) = lengths(&build.what);
    if kind > LONGEST_TYPE {
        return Some(Refusal::TypeTooLong);
    }
    let (needed, room) = (image_len(kind, payload), build.room as u64);
    if u128::from(room) < needed {
        return Some(Refusal::TooLong { needed: given(needed), room });
    }
    let record = record_len(kind, payload);
    if record > LONGEST_RECORD {
        return Some(Refusal::RecordTooLong { record: given(record) });
    }
    if build.area > LARGEST_AREA {
        return Some(Refusal::AreaTooLarge);
    }
    is_not_utf8(&build.what).then_some(Refusal::NotUtf8)
}

/// Card 2's eleven bytes: check 2, then 4; the others do not apply.
pub fn empty_refusal(room: usize, area: u64) -> Option<Refusal> {
    if room < 11 {
        return Some(Refusal::TooLong { needed: 11, room: room as u64 });
    }
    (area > LARGEST_AREA).then_some(Refusal::AreaTooLarge)
}

/// "`finish` refuses 2 when the place is at or past the buffer's end, with
/// needed = place + 1".
pub fn finish_refusal(room: usize, at: u64) -> Option<Refusal> {
    let room = room as u64;
    (at >= room).then(|| Refusal::TooLong { needed: given(u128::from(at) + 1), room })
}
