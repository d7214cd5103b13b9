//! One case of a builder: how much it needs, and its line.

use super::Cases;
use std::io;

#[derive(Copy, Clone, PartialEq, Eq)]
pub enum Builder {
    Begin,
    BeginText,
    BeginMime,
    Uri,
    Text,
    Mime,
}

pub const BUILDERS: [Builder; 6] = [
    Builder::Begin,
    Builder::BeginText,
    Builder::BeginMime,
    Builder::Uri,
    Builder::Text,
    Builder::Mime,
];

impl Builder {
    /// Whether the caller gives the type name; the others' is one letter.
    pub fn takes_kind(self) -> bool {
        matches!(self, Builder::BeginMime | Builder::Mime)
    }

    /// Whether the length is only announced, so that it may be any number.
    pub fn announces(self) -> bool {
        matches!(self, Builder::Begin | Builder::BeginText | Builder::BeginMime)
    }
}

/// `len` is what the caller gives: the length of the text, URI or payload.
#[derive(Copy, Clone)]
pub struct Job {
    pub builder: Builder,
    pub kind: usize,
    pub len: u64,
    pub area: u64,
    pub prefix: u8,
    pub seed: u64,
}

impl Job {
    pub fn new(builder: Builder, kind: usize, len: u64) -> Self {
        Job { builder, kind, len, area: 8184, prefix: 4, seed: len }
    }

    /// The whole image's length, for lengths that can be met with bytes.
    pub fn needed(&self) -> u64 {
        let len = self.len as usize;
        (match self.builder {
            Builder::Begin | Builder::Uri => catcard_nfc::image_len(len),
            Builder::BeginText | Builder::Text => catcard_nfc::text_image_len(len),
            Builder::BeginMime | Builder::Mime => catcard_nfc::mime_image_len(self.kind, len),
        }) as u64
    }

    pub fn add(&self, cases: &mut Cases, room: u64) -> io::Result<()> {
        let Job { builder, kind, len, area, prefix, seed } = *self;
        match builder {
            Builder::Begin => cases.add(format_args!("begin {room} {area} {len} {prefix}")),
            Builder::BeginText => cases.add(format_args!("begin_text {room} {area} {len}")),
            Builder::BeginMime => {
                cases.add(format_args!("begin_mime {room} {area} ={kind}:{seed} {len}"))
            }
            Builder::Uri => {
                cases.add(format_args!("uri_image {room} {area} {prefix} ={len}:{seed}"))
            }
            Builder::Text => cases.add(format_args!("text_image {room} {area} ={len}:{seed}")),
            Builder::Mime => {
                cases.add(format_args!("mime_image {room} {area} ={kind}:{seed} @{len}:{seed}"))
            }
        }
    }
}
