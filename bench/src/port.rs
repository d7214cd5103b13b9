//! The exports of the archive, as include/skipnadur.h declares them.

#[repr(C)]
#[derive(Default)]
pub struct Cursor {
    pub at: u64,
    pub end: u64,
}

#[repr(C)]
#[derive(Default)]
pub struct Record {
    pub format: u64,
    pub last: u64,
    pub kind: u64,
    pub kind_len: u64,
    pub id_len: u64,
    pub payload_len: u64,
}

/// What is lent for writing, what is lent for reading, and how long it is.
type Out = *mut u8;
type In = *const u8;
type Len = u64;

/// A start that takes neither data nor `out`.
pub type Start = unsafe extern "C" fn(Out, Len, Out, Len, Out, Len) -> u64;

/// What a host tells of a step.
pub type Reply = unsafe extern "C" fn(Out, Len, Out, Len, Out, Len, In, Len, In, Len, u32) -> u64;

#[rustfmt::skip]
#[link(name = "skipnadur", kind = "static")]
extern "C" {
    pub fn skp_text_image(out: Out, _: Len, area: u64, text: In, _: Len, values: *mut u64) -> u32;
    pub fn skp_mime_image(out: Out, _: Len, area: u64, mime: In, _: Len, payload: In, _: Len, values: *mut u64) -> u32;
    pub fn skp_read(image: In, _: Len, cursor: *mut Cursor) -> u32;
    pub fn skp_next(image: In, _: Len, cursor: *mut Cursor, record: *mut Record) -> u32;
    pub fn skp_text(image: In, _: Len, record: *const Record, part: *mut u64) -> u32;
    pub fn skp_high_water(image: In, _: Len) -> u64;
    pub fn skp_tag_new(state: Out, _: Len, mark: u64) -> u64;
    pub fn skp_tag_begin(state: Out, _: Len, transfer: Out, _: Len, reply: Out, _: Len) -> u64;
    pub fn skp_tag_scrub(state: Out, _: Len, transfer: Out, _: Len, reply: Out, _: Len) -> u64;
    pub fn skp_tag_go_live(state: Out, _: Len, transfer: Out, _: Len, reply: Out, _: Len) -> u64;
    pub fn skp_tag_finish(state: Out, _: Len, transfer: Out, _: Len, reply: Out, _: Len) -> u64;
    pub fn skp_tag_read_whole(state: Out, _: Len, transfer: Out, _: Len, reply: Out, _: Len, out: In, _: Len) -> u64;
    pub fn skp_tag_write(state: Out, _: Len, transfer: Out, _: Len, reply: Out, _: Len, at: u64, data: In, _: Len) -> u64;
    pub fn skp_tag_reply(state: Out, _: Len, transfer: Out, _: Len, reply: Out, _: Len, data: In, _: Len, out: In, _: Len, ack: u32) -> u64;
}
