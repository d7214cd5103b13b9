//! Compares the port's answers with the right ones, line by line.

use crate::domain::Who;
use crate::progress::Progress;
use crate::rights::Rights;
use std::io::{self, BufRead};

/// Longer lines are cut when they are shown.
const SHOWN: usize = 400;

#[derive(Default)]
pub struct Tally {
    pub cases: u64,
    pub by_original: u64,
    pub by_document: u64,
    pub differences: u64,
    pub first: Option<Difference>,
}

pub struct Difference {
    pub line: u64,
    pub case: String,
    pub by: &'static str,
    pub right: String,
    pub port: String,
}

pub fn compare(
    mut cases: impl BufRead,
    mut answers: impl BufRead,
    mut rights: impl Rights,
    progress: &mut Progress,
) -> io::Result<Tally> {
    let mut tally = Tally::default();
    let (mut case, mut port, mut right) = (Vec::new(), Vec::new(), String::new());
    while take_line(&mut cases, &mut case)? {
        tally.cases += 1;
        let question = case.strip_suffix(b"\n").unwrap_or(&case);
        let who = rights.answer(question, &mut right)?;
        match who {
            Who::Original => tally.by_original += 1,
            Who::Document => tally.by_document += 1,
        }
        take_line(&mut answers, &mut port)?;
        if port.strip_suffix(b"\n") != Some(right.as_bytes()) {
            let line = tally.cases;
            tally.note(|| Difference::new(line, question, by(who), &right, &port));
        }
        progress.compared(tally.cases);
    }
    let mut line = tally.cases;
    while take_line(&mut answers, &mut port)? {
        line += 1;
        tally.note(|| Difference::new(line, b"(no case)", "the comparison", "(nothing)", &port));
    }
    Ok(tally)
}

/// A line with its end; empty and false when there are no more.
fn take_line(from: &mut impl BufRead, line: &mut Vec<u8>) -> io::Result<bool> {
    line.clear();
    Ok(from.read_until(b'\n', line)? > 0)
}

fn by(who: Who) -> &'static str {
    match who {
        Who::Original => "the Rust",
        Who::Document => "document 01",
    }
}

impl Tally {
    fn note(&mut self, difference: impl FnOnce() -> Difference) {
        self.differences += 1;
        self.first.get_or_insert_with(difference);
    }
}

impl Difference {
    fn new(line: u64, case: &[u8], by: &'static str, right: &str, port: &[u8]) -> Self {
        let port = match port {
            [] => "(no line)".to_string(),
            [whole @ .., b'\n'] => cut(whole),
            unended => format!("{} (line not ended)", cut(unended)),
        };
        Difference { line, case: cut(case), by, right: cut(right.as_bytes()), port }
    }

    /// Of a program that did not end well.
    pub fn of_the_whole(status: String) -> Self {
        Difference {
            line: 0,
            case: "(the whole file)".to_string(),
            by: "the comparison",
            right: "exit status: 0".to_string(),
            port: status,
        }
    }
}

fn cut(line: &[u8]) -> String {
    let text = String::from_utf8_lossy(&line[..line.len().min(SHOWN)]).into_owned();
    if line.len() > SHOWN {
        text + "..."
    } else {
        text
    }
}

#[cfg(test)]
mod tests {
    use super::*;
    use crate::rights::{Computed, Written};

    fn tally(cases: &str, answers: &str) -> Tally {
        compare(cases.as_bytes(), answers.as_bytes(), Computed, &mut Progress::silent()).unwrap()
    }

    #[test]
    fn equal_answers_are_no_difference() {
        let tally = tally("image_len 1\nnonsense\n", "image_len 0 17\n?\n");
        assert_eq!((tally.cases, tally.differences), (2, 0));
        assert_eq!((tally.by_original, tally.by_document), (1, 1));
    }

    #[test]
    fn wrong_missing_unended_and_spare_lines_differ() {
        assert_eq!(
            tally("image_len 1\nimage_len 2\n", "image_len 0 16\nimage_len 0 18\n").differences,
            1
        );
        assert_eq!(tally("image_len 1\nimage_len 2\n", "image_len 0 17\n").differences, 1);
        assert_eq!(tally("image_len 1\n", "image_len 0 17").differences, 1);
        assert_eq!(tally("image_len 1\n", "image_len 0 17\nmore\n\n").differences, 2);
    }

    #[test]
    fn written_answers_are_compared_too() {
        let rights = Written::new(&b"R next 1\nD fill\n"[..]);
        let (cases, answers) = (&b"next\nfill\n"[..], &b"next 1\nfull\n"[..]);
        let tally = compare(cases, answers, rights, &mut Progress::silent()).unwrap();
        assert_eq!((tally.by_original, tally.by_document, tally.differences), (1, 1, 1));
    }
}
