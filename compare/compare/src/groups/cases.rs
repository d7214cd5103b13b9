//! Where a group writes its cases, line by line. A session's lines build on each
//! other, so the right answers are written beside them.

use crate::domain::Who;
use std::fmt::{Arguments, Write as _};
use std::io::{self, Write};

/// The longest case line the format allows.
const LONGEST_LINE: usize = 40_000;

pub struct Cases<'a> {
    out: &'a mut dyn Write,
    right: Option<&'a mut dyn Write>,
    line: String,
    count: u64,
}

impl<'a> Cases<'a> {
    pub fn new(out: &'a mut dyn Write) -> Self {
        Cases { out, right: None, line: String::new(), count: 0 }
    }

    /// With a place for the right answers: each line is the answer, after `R`
    /// where the Rust gave it, `D` where document 01's words did.
    pub fn with_answers(out: &'a mut dyn Write, right: &'a mut dyn Write) -> Self {
        Cases { right: Some(right), ..Cases::new(out) }
    }

    pub fn count(&self) -> u64 {
        self.count
    }

    pub fn add(&mut self, line: Arguments) -> io::Result<()> {
        self.line.clear();
        self.line.write_fmt(line).expect("a string takes every line");
        assert!(self.line.len() <= LONGEST_LINE, "a case of {} characters", self.line.len());
        self.line.push('\n');
        self.count += 1;
        self.out.write_all(self.line.as_bytes())
    }

    /// A case with its right answer.
    pub fn pair(&mut self, case: &str, who: Who, answer: &str) -> io::Result<()> {
        self.add(format_args!("{case}"))?;
        let Some(right) = &mut self.right else { return Ok(()) };
        writeln!(right, "{} {answer}", who.letter())
    }
}
