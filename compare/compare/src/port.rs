//! Runs the port's `answers` program on a file of cases.

use crate::progress::Progress;
use std::fs::{self, File};
use std::io;
use std::path::Path;
use std::process::{Command, ExitStatus, Stdio};
use std::thread;
use std::time::Duration;

/// How often to look whether the port is done.
const LOOK: Duration = Duration::from_millis(20);

pub fn answer(
    program: &Path,
    cases: &Path,
    answers: &Path,
    progress: &mut Progress,
) -> io::Result<ExitStatus> {
    let mut child = Command::new(program)
        .stdin(File::open(cases)?)
        .stdout(Stdio::from(File::create(answers)?))
        .spawn()?;
    loop {
        if let Some(status) = child.try_wait()? {
            return Ok(status);
        }
        thread::sleep(LOOK);
        progress.answering(fs::metadata(answers)?.len());
    }
}
