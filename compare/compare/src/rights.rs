//! Where the right answers come from: asked of the oracle line by line, or
//! written beside the cases when these were made.

use crate::domain::Who;
use crate::oracle;
use std::io::{self, BufRead};

pub trait Rights {
    /// Writes the right answer into `text`, without a line end.
    fn answer(&mut self, case: &[u8], text: &mut String) -> io::Result<Who>;
}

pub struct Computed;

impl Rights for Computed {
    fn answer(&mut self, case: &[u8], text: &mut String) -> io::Result<Who> {
        Ok(oracle::answer(case, text))
    }
}

/// Lines as `Cases::with_answers` writes them.
pub struct Written<R>(R);

impl<R: BufRead> Written<R> {
    pub fn new(from: R) -> Self {
        Written(from)
    }
}

impl<R: BufRead> Rights for Written<R> {
    fn answer(&mut self, _: &[u8], text: &mut String) -> io::Result<Who> {
        text.clear();
        self.0.read_line(text)?;
        let who = match text.chars().next() {
            Some('R') => Who::Original,
            _ => Who::Document,
        };
        text.truncate(text.trim_end_matches('\n').len());
        text.replace_range(..text.len().min(2), "");
        Ok(who)
    }
}
