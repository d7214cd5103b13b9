//! The fixed list with its answers, as two files: `stdin` and `stdout`.

use crate::groups::{Cases, Group};
use crate::rights::{Computed, Rights, Written};
use std::fs;
use std::io;
use std::path::Path;

pub fn write(dir: &Path, groups: &[&Group]) -> io::Result<u64> {
    let (mut stdin, mut stdout, mut count) = (Vec::new(), String::new(), 0);
    for group in groups {
        let (mut lines, mut right) = (Vec::new(), Vec::new());
        let mut cases = Cases::with_answers(&mut lines, &mut right);
        (group.fixed)(&mut cases)?;
        count += cases.count();
        stdout += &if group.written {
            answers(&lines, Written::new(&right[..]))?
        } else {
            answers(&lines, Computed)?
        };
        stdin.extend(lines);
    }
    fs::create_dir_all(dir)?;
    fs::write(dir.join("stdout"), stdout)?;
    fs::write(dir.join("stdin"), stdin)?;
    Ok(count)
}

fn answers(cases: &[u8], mut rights: impl Rights) -> io::Result<String> {
    let mut answers = String::new();
    let mut line = String::new();
    for case in cases.split_inclusive(|&b| b == b'\n') {
        rights.answer(case.strip_suffix(b"\n").unwrap_or(case), &mut line)?;
        answers.push_str(&line);
        answers.push('\n');
    }
    Ok(answers)
}

#[cfg(test)]
mod tests {
    use super::*;
    use crate::case::{parse, Case};
    use crate::domain::{who, Who};
    use crate::groups::GROUPS;
    use crate::{bytes, original, reading};

    fn fixed(written: bool) -> Vec<u8> {
        let mut lines = Vec::new();
        let mut cases = Cases::new(&mut lines);
        for group in GROUPS.iter().filter(|group| group.written == written) {
            (group.fixed)(&mut cases).unwrap();
        }
        lines
    }

    #[test]
    fn the_lists_are_short() {
        for written in [false, true] {
            let cases = fixed(written);
            let count = cases.iter().filter(|&&b| b == b'\n').count();
            assert!((200..=800).contains(&count), "{count} cases");
            assert!(cases.len() <= 100_000);
        }
    }

    /// Where the original answers, document 01's words give the same refusal.
    #[test]
    fn document_and_original_refuse_alike() {
        for line in fixed(false).split(|&b| b == b'\n') {
            let Some(case) = parse(line) else { continue };
            if let (Case::Build(build), Who::Original) = (&case, who(&case)) {
                let outcome = original::build(&mut bytes::lent(build.room), build);
                assert_eq!(outcome.err(), reading::refusal(build));
            }
        }
    }
}
