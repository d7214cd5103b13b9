//! A case line, read. Whatever is not a case of the table in README.md reads
//! as nothing and is answered `?`.

use crate::fields::Fields;

pub enum Case {
    Length(Length),
    Container { area: u64 },
    SetReadOnly(Vec<u8>),
    IsUtf8(Vec<u8>),
    UriPrefix(u8),
    Build(Build),
    Finish { room: usize, at: u64 },
    Empty { room: usize, area: u64 },
    Read(Vec<u8>),
}

pub enum Length {
    ImageFor { kind: u64, payload: u64 },
    Record { payload: u64 },
    Mime { kind: u64, payload: u64 },
    Uri { uri: u64 },
    Text { text: u64 },
}

/// A call that builds an image, or its beginning, in a lent buffer.
pub struct Build {
    pub room: usize,
    pub area: u64,
    pub what: What,
}

pub enum What {
    Begin { uri_len: u64, prefix: u8 },
    BeginText { text_len: u64 },
    BeginMime { kind: Vec<u8>, payload_len: u64 },
    Uri { prefix: u8, uri: Vec<u8> },
    Text { text: Vec<u8> },
    Mime { kind: Vec<u8>, payload: Vec<u8> },
}

/// The name of a line's call: its first field.
pub fn call(line: &[u8]) -> &[u8] {
    line.split(|&b| b == b' ').next().unwrap_or(line)
}

pub fn parse(line: &[u8]) -> Option<Case> {
    let name = call(line);
    let mut rest = Fields::after(line, name);
    let case = match name {
        b"capability_container" => Case::Container { area: rest.number()? },
        b"set_read_only" => Case::SetReadOnly(rest.bytes()?),
        b"is_utf8" => Case::IsUtf8(rest.bytes()?),
        b"uri_prefix" => Case::UriPrefix(rest.byte()?),
        b"finish" => Case::Finish { room: rest.room()?, at: rest.number()? },
        b"empty_image" => Case::Empty { room: rest.room()?, area: rest.number()? },
        b"read" => Case::Read(rest.bytes()?),
        _ => match length(name, &mut rest) {
            Some(length) => Case::Length(length),
            None => Case::Build(Build {
                room: rest.room()?,
                area: rest.number()?,
                what: what(name, &mut rest)?,
            }),
        },
    };
    rest.is_done().then_some(case)
}

/// Takes nothing from `rest` unless `name` is a length's.
fn length(name: &[u8], rest: &mut Fields) -> Option<Length> {
    Some(match name {
        b"image_len_for" => Length::ImageFor { kind: rest.number()?, payload: rest.number()? },
        b"record_image_len" => Length::Record { payload: rest.number()? },
        b"mime_image_len" => Length::Mime { kind: rest.number()?, payload: rest.number()? },
        b"image_len" => Length::Uri { uri: rest.number()? },
        b"text_image_len" => Length::Text { text: rest.number()? },
        _ => return None,
    })
}

fn what(name: &[u8], rest: &mut Fields) -> Option<What> {
    Some(match name {
        b"begin" => What::Begin { uri_len: rest.number()?, prefix: rest.byte()? },
        b"begin_text" => What::BeginText { text_len: rest.number()? },
        b"begin_mime" => What::BeginMime { kind: rest.bytes()?, payload_len: rest.number()? },
        b"uri_image" => What::Uri { prefix: rest.byte()?, uri: rest.bytes()? },
        b"text_image" => What::Text { text: rest.bytes()? },
        b"mime_image" => What::Mime { kind: rest.bytes()?, payload: rest.bytes()? },
        _ => return None,
    })
}

#[cfg(test)]
mod tests {
    use super::*;

    #[test]
    fn malformed_lines_read_as_nothing() {
        for line in [
            "",
            " ",
            "read",
            "read ",
            "read 1",
            "read AB",
            "read 00 ",
            "read  00",
            "read @1",
            "read @66001:1",
            "image_len",
            "image_len +1",
            "image_len 18446744073709551616",
            "image_len 1 2",
            "image_len_for 1",
            "uri_prefix 256",
            "finish 66001 0",
            "begin 1 1 1",
            "begin 1 1 1 256",
            "nothing 1 1",
        ] {
            assert!(parse(line.as_bytes()).is_none(), "{line:?}");
        }
    }

    #[test]
    fn good_lines_read() {
        for line in [
            "read -",
            "read 00ff",
            "read @0:5",
            "read =7:1",
            "begin 66000 0 18446744073709551615 255",
        ] {
            assert!(parse(line.as_bytes()).is_some(), "{line:?}");
        }
    }
}
