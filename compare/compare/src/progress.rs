//! Tells on standard error where the run is: a line that is written over on a
//! terminal, a line now and then otherwise.

use std::io::{self, IsTerminal, Write};
use std::time::{Duration, Instant};

pub struct Progress {
    group: String,
    cases: u64,
    every: Option<Duration>,
    last: Instant,
    over: bool,
}

impl Progress {
    pub fn new() -> Self {
        let over = io::stderr().is_terminal();
        let every = Duration::from_millis(if over { 300 } else { 5_000 });
        Progress { group: String::new(), cases: 0, every: Some(every), last: Instant::now(), over }
    }

    /// For tests.
    pub fn silent() -> Self {
        Progress { every: None, over: false, ..Progress::new() }
    }

    pub fn writing(&mut self, group: &str) {
        self.group = group.to_string();
        self.say("writing cases".to_string());
    }

    pub fn written(&mut self, cases: u64) {
        self.cases = cases;
        self.say(format!("{cases} cases written, the port answers"));
    }

    pub fn answering(&mut self, bytes: u64) {
        if self.is_time() {
            self.say(format!("{} cases, the port has written {} KB", self.cases, bytes / 1024));
        }
    }

    pub fn compared(&mut self, done: u64) {
        // Looking at the clock costs more than most cases do.
        if done.is_multiple_of(1024) && self.is_time() {
            self.say(format!("{done} of {} cases compared", self.cases));
        }
    }

    /// Ends the line that was written over.
    pub fn end(&self) {
        if self.over {
            eprintln!();
        }
    }

    fn is_time(&self) -> bool {
        self.every.is_some_and(|every| self.last.elapsed() >= every)
    }

    fn say(&mut self, what: String) {
        if self.every.is_none() {
            return;
        }
        self.last = Instant::now();
        if self.over {
            eprint!("\r{:<78}", format!("{}: {what}", self.group));
            let _ = io::stderr().flush();
        } else {
            eprintln!("{}: {what}", self.group);
        }
    }
}

impl Default for Progress {
    fn default() -> Self {
        Progress::new()
    }
}
