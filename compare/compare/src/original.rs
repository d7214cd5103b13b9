//! Calls of the original. Only for cases inside the domain (domain.rs).

use crate::answer::{Line, Outcome, Refusal};
use crate::case::{Build, Length, What};
use catcard_nfc as original;

pub fn length(length: &Length) -> u64 {
    (match *length {
        Length::ImageFor { kind, payload } => {
            original::image_len_for(kind as usize, payload as usize)
        }
        Length::Record { payload } => original::record_image_len(payload as usize),
        Length::Mime { kind, payload } => original::mime_image_len(kind as usize, payload as usize),
        Length::Uri { uri } => original::image_len(uri as usize),
        Length::Text { text } => original::text_image_len(text as usize),
    }) as u64
}

pub fn build(out: &mut [u8], build: &Build) -> Outcome {
    let area = build.area as usize;
    outcome(match &build.what {
        What::Begin { uri_len, prefix } => original::begin(out, area, *uri_len as usize, *prefix),
        What::BeginText { text_len } => original::begin_text(out, area, *text_len as usize),
        What::BeginMime { kind, payload_len } => {
            original::begin_mime(out, area, kind, *payload_len as usize)
        }
        What::Uri { prefix, uri } => original::uri_image(out, area, text(uri), *prefix),
        What::Text { text: bytes } => original::text_image(out, area, text(bytes)),
        What::Mime { kind, payload } => original::mime_image(out, area, kind, payload),
    })
}

fn text(bytes: &[u8]) -> &str {
    core::str::from_utf8(bytes).expect("the domain holds UTF-8 only")
}

pub fn finish(out: &mut [u8], at: u64) -> Outcome {
    outcome(original::finish(out, at as usize))
}

pub fn empty(out: &mut [u8], area: u64) -> Outcome {
    outcome(original::empty_image(out, area as usize))
}

fn outcome(result: Result<usize, original::Error>) -> Outcome {
    match result {
        Ok(place) => Ok(place as u64),
        Err(original::Error::TypeTooLong) => Err(Refusal::TypeTooLong),
        Err(original::Error::TooLong { needed, room }) => {
            Err(Refusal::TooLong { needed: needed as u64, room: room as u64 })
        }
    }
}

pub fn read(line: &mut Line, image: &[u8]) {
    let records = match original::read(image) {
        Ok(records) => records,
        Err(why) => {
            line.number(number(why));
            return;
        }
    };
    line.number(0);
    for record in records {
        line.word("|");
        match record {
            Ok(record) => push_record(line, &record),
            Err(why) => {
                line.word("refused").number(number(why));
                return;
            }
        }
    }
    line.word("| end");
}

fn push_record(line: &mut Line, record: &original::Record) {
    line.number(record.tnf.into()).number(record.last.into());
    line.bytes(record.kind).bytes(record.id).bytes(record.payload);
    match record.text() {
        Some(text) => line.named("text", &[text.as_bytes()]),
        None => line.word("none"),
    };
    match record.uri() {
        Some((prefix, rest)) => line.named("uri", &[prefix.as_bytes(), rest.as_bytes()]),
        None => line.word("none"),
    };
}

/// Document 01: "11 to 14 | NoContainer, NoMessage, Truncated, Chunked".
fn number(why: original::ReadError) -> u64 {
    match why {
        original::ReadError::NoContainer => 11,
        original::ReadError::NoMessage => 12,
        original::ReadError::Truncated => 13,
        original::ReadError::Chunked => 14,
    }
}
