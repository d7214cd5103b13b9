//! The right answer to a case line, and who gave it.

use crate::answer::{Line, Outcome, Refusal};
use crate::bytes::lent;
use crate::case::{call, parse, Build, Case, Length};
use crate::domain::{who, Who};
use crate::{original, reading};

/// Writes the answer to `case_line` into `text`, without a line end.
pub fn answer(case_line: &[u8], text: &mut String) -> Who {
    let Some(case) = parse(case_line) else {
        text.clear();
        text.push('?');
        return Who::Document;
    };
    let who = who(&case);
    let name = core::str::from_utf8(call(case_line)).expect("a known call is ASCII");
    push(&mut Line::new(text, name), &case, who);
    who
}

fn push(line: &mut Line, case: &Case, who: Who) {
    match case {
        Case::Length(asked) => {
            line.number(0).number(length(asked, who));
        }
        Case::Container { area } => container(line, *area, who),
        Case::SetReadOnly(image) => {
            let mut image = image.clone();
            catcard_nfc::set_read_only(&mut image);
            line.number(0).bytes(&image);
        }
        Case::IsUtf8(text) => {
            line.number(0).number(core::str::from_utf8(text).is_ok().into());
        }
        Case::UriPrefix(code) => {
            let found = catcard_nfc::uri_prefix(*code);
            line.number(0).number(found.is_some().into());
            line.bytes(found.unwrap_or("").as_bytes());
        }
        Case::Build(wanted) => on_buffer(line, wanted.room, |out| build(out, wanted, who)),
        Case::Finish { room, at } => on_buffer(line, *room, |out| finish(out, *at, who)),
        Case::Empty { room, area } => on_buffer(line, *room, |out| empty(out, *area, who)),
        Case::Read(image) => original::read(line, image),
    }
}

fn length(asked: &Length, who: Who) -> u64 {
    match who {
        Who::Original => original::length(asked),
        Who::Document => reading::given(reading::length(asked)),
    }
}

/// Refused, the eight bytes are zero.
fn container(line: &mut Line, area: u64, who: Who) {
    match who {
        Who::Original => line.number(0).hex(&catcard_nfc::capability_container(area as usize)),
        Who::Document => line.number(4).hex(&[0; 8]),
    };
}

/// Lends a buffer to a call and tells the outcome and the buffer afterwards.
fn on_buffer(line: &mut Line, room: usize, call: impl FnOnce(&mut [u8]) -> Outcome) {
    let mut buffer = lent(room);
    let outcome = call(&mut buffer);
    line.outcome(outcome, &buffer);
}

fn build(out: &mut [u8], wanted: &Build, who: Who) -> Outcome {
    match who {
        Who::Original => original::build(out, wanted),
        Who::Document => refused(reading::refusal(wanted)),
    }
}

fn finish(out: &mut [u8], at: u64, who: Who) -> Outcome {
    match who {
        Who::Original => original::finish(out, at),
        Who::Document => refused(reading::finish_refusal(out.len(), at)),
    }
}

fn empty(out: &mut [u8], area: u64, who: Who) -> Outcome {
    match who {
        Who::Original => original::empty(out, area),
        Who::Document => refused(reading::empty_refusal(out.len(), area)),
    }
}

/// "A refused build changes no byte": the buffer is left as it was lent.
fn refused(refusal: Option<Refusal>) -> Outcome {
    Err(refusal.expect("outside the domain every build is refused"))
}

#[cfg(test)]
mod tests {
    use super::*;

    const HEAD: &str = "e2400001000003ff";

    fn said(line: &str) -> String {
        let mut text = String::new();
        answer(line.as_bytes(), &mut text);
        text
    }

    /// Document 01, "Bench cards", 1 to 4 and 11.
    #[test]
    fn builder_cards() {
        let card_1 = format!("{HEAD}030dd101095402656e4d4152434831fe");
        assert_eq!(said("text_image 24 8184 4d4152434831"), format!("text_image 0 24 {card_1}"));
        assert!(said("text_image 23 8184 4d4152434831").starts_with("text_image 2 24 23 "));
        assert_eq!(said("empty_image 11 8184"), format!("empty_image 0 11 {HEAD}0300fe"));
        assert!(said("empty_image 10 8184").starts_with("empty_image 2 11 10 "));
        for (payload, image) in [(250, 265), (251, 268), (255, 272), (256, 276)] {
            let answer = said(&format!("record_image_len {payload}"));
            assert_eq!(answer, format!("record_image_len 0 {image}"));
        }
        assert!(said("begin_mime 66000 8184 54 65528").starts_with("begin_mime 0 19 "));
        assert!(said("begin_mime 65549 8184 54 65529").starts_with("begin_mime 3 65536 "));
        assert!(said("begin_mime 65548 8184 54 65529").starts_with("begin_mime 2 65549 65548 "));
    }

    /// Document 01, "Bench cards", 5 to 8.
    #[test]
    fn reader_cards() {
        for (image, answer) in [
            ("e14001000300fe".to_string(), "read 0 | end"),
            ("e1400001000003ff0300fe".to_string(), "read 0 | end"),
            ("e1".to_string(), "read 11"),
            (HEAD.to_string(), "read 12"),
            ("e280000000000000".to_string(), "read 11"),
            (format!("{HEAD}030500000000"), "read 13"),
            (format!("{HEAD}03ff00"), "read 13"),
            (format!("{HEAD}030120fe"), "read 0 | refused 14"),
        ] {
            assert_eq!(said(&format!("read {image}")), answer);
        }
    }

    #[test]
    fn records_are_told_whole() {
        let text = said(&format!("read {HEAD}030dd101095402656e4d4152434831fe"));
        assert_eq!(text, "read 0 | 1 1 54 - 02656e4d4152434831 text:4d4152434831 none | end");
        let uri = said(&format!("read {HEAD}0305d101015500fe"));
        assert_eq!(uri, "read 0 | 1 1 55 - 00 none uri:-:- | end");
    }

    #[test]
    fn past_64_bits_the_document_answers() {
        let most = u64::MAX;
        assert_eq!(said(&format!("image_len {most}")), format!("image_len 0 {most}"));
        assert_eq!(said(&format!("finish 0 {most}")), format!("finish 2 {most} 0 -"));
        assert_eq!(said(&format!("begin 0 0 {most} 0")), format!("begin 2 {most} 0 -"));
        assert_eq!(said("capability_container 524288"), "capability_container 4 0000000000000000");
        assert_eq!(said("no_such_call"), "?");
    }
}
