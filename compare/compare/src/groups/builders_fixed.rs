//! The builders' boundaries, one by one: the bench cards of document 01, both
//! changes of form, each refusal and the order among them.

use super::builder_line::{Builder, Job, BUILDERS};
use super::builders::AREAS;
use super::Cases;
use std::io;

pub fn fixed(cases: &mut Cases) -> io::Result<()> {
    cards(cases)?;
    forms(cases)?;
    refusals_in_order(cases)?;
    not_utf8(cases)?;
    type_names(cases)?;
    announced(cases)?;
    published(cases)?;
    for at in [0, 1, 9, 10, 11, 12, u64::MAX - 1, u64::MAX] {
        cases.add(format_args!("finish 11 {at}"))?;
    }
    cases.add(format_args!("finish 0 0"))?;
    for area in AREAS {
        cases.add(format_args!("text_image 24 {area} 4d4152434831"))?;
        cases.add(format_args!("empty_image 12 {area}"))?;
    }
    // Every builder with room, and the first area that two bytes cannot say.
    for builder in BUILDERS {
        let job = Job { area: 524_288, ..Job::new(builder, 1, 0) };
        job.add(cases, job.needed())?;
    }
    cases.add(format_args!("empty_image 10 524288"))?;
    cases.add(format_args!("empty_image 0 0"))
}

/// Bench cards 1 to 4 and 11.
fn cards(cases: &mut Cases) -> io::Result<()> {
    cases.add(format_args!("text_image 24 8184 4d4152434831"))?;
    cases.add(format_args!("text_image 23 8184 4d4152434831"))?;
    cases.add(format_args!("empty_image 11 8184"))?;
    cases.add(format_args!("empty_image 10 8184"))?;
    for payload in [250, 251, 255, 256, 65_528, 65_529] {
        let job = Job::new(Builder::Mime, 1, payload);
        job.add(cases, job.needed())?;
        job.add(cases, job.needed() - 1)?;
    }
    Ok(())
}

/// The records of the NFC Forum's worked examples, built: URI RTD 1.0, appendix A, and a text of the Text RTD.
fn published(cases: &mut Cases) -> io::Result<()> {
    cases.add(format_args!("uri_image 32 8184 1 6e66632e636f6d"))?;
    cases.add(format_args!("uri_image 32 8184 5 2b3335383931323334353637"))?;
    cases.add(format_args!("text_image 32 8184 48656c6c6f2c20776f726c6421"))
}

/// Payload lengths where a length takes another form, for every builder.
fn forms(cases: &mut Cases) -> io::Result<()> {
    for builder in BUILDERS {
        for payload in [3, 250, 251, 255, 256, 65_528, 65_529] {
            // What the builder puts before the text counts as payload.
            let before = match builder {
                Builder::Begin | Builder::Uri => 1,
                Builder::BeginText | Builder::Text => 3,
                Builder::BeginMime | Builder::Mime => 0,
            };
            let job = Job::new(builder, 1, payload - before);
            job.add(cases, job.needed())?;
        }
        let job = Job::new(builder, 1, 0);
        job.add(cases, job.needed() - 1)?;
        job.add(cases, job.needed() + 1)?;
        job.add(cases, 0)?;
    }
    Ok(())
}

fn refusals_in_order(cases: &mut Cases) -> io::Result<()> {
    // Everything wrong at once, then one thing less each time.
    let most = u64::MAX;
    for (room, area, kind, len) in [
        (0, most, 256, 65_540),
        (0, most, 255, 65_540),
        (66_000, most, 255, 65_540),
        (66_000, most, 255, 300),
        (66_000, 8184, 255, 300),
    ] {
        cases.add(format_args!("mime_image {room} {area} ={kind}:1 @{len}:1"))?;
        cases.add(format_args!("begin_mime {room} {area} ={kind}:1 {len}"))?;
    }
    for call in ["text_image", "uri_image"] {
        let prefix = if call == "uri_image" { " 1" } else { "" };
        cases.add(format_args!("{call} 0 {most}{prefix} @65540:1"))?;
        cases.add(format_args!("{call} 66000 {most}{prefix} @65540:1"))?;
        cases.add(format_args!("{call} 66000 {most}{prefix} @300:1"))?;
        cases.add(format_args!("{call} 400 8184{prefix} @300:1"))?;
        cases.add(format_args!("{call} 400 8184{prefix} =300:1"))?;
    }
    Ok(())
}

fn not_utf8(cases: &mut Cases) -> io::Result<()> {
    for text in
        ["80", "ff", "c3", "c080", "eda080", "f4908080", "41ff", "e282ac", "f48fbfbf", "c3a9", "-"]
    {
        cases.add(format_args!("text_image 40 8184 {text}"))?;
        cases.add(format_args!("uri_image 40 8184 255 {text}"))?;
    }
    // Neither UTF-8 nor room.
    cases.add(format_args!("text_image 0 8184 ff"))
}

fn type_names(cases: &mut Cases) -> io::Result<()> {
    for kind in [0, 2, 24, 254, 255, 256, 257] {
        let job = Job::new(Builder::Mime, kind, 2);
        job.add(cases, job.needed())?;
        job.add(cases, job.needed() - 1)?;
    }
    Ok(())
}

/// The last announced lengths whose sums fit in 64 bits, and the next.
fn announced(cases: &mut Cases) -> io::Result<()> {
    let most = u64::MAX;
    for under in [0, 1, 2, 3, 19, 20, 21, 22, 23] {
        cases.add(format_args!("begin 30 8184 {} 0", most - under))?;
        cases.add(format_args!("begin_text 30 8184 {}", most - under))?;
        cases.add(format_args!("begin_mime 30 8184 54 {}", most - under))?;
    }
    cases.add(format_args!("begin_mime 30 8184 =256:1 {most}"))
}
