//! A run: per group the cases, the port's answers, the comparison.

use crate::differ::{self, Difference};
use crate::groups::{Cases, Group};
use crate::port;
use crate::progress::Progress;
use crate::rights::{Computed, Written};
use crate::table::{self, Row};
use std::fs::{self, File};
use std::io::{self, BufReader, BufWriter, Write};
use std::path::{Path, PathBuf};
use std::time::Instant;

pub struct Options {
    /// The port's program.
    pub answers: PathBuf,
    pub dir: PathBuf,
    pub cases: u64,
    pub seed: u64,
    pub groups: Vec<&'static Group>,
}

const BUFFER: usize = 1 << 20;

/// Whether all groups agree.
pub fn run(options: &Options) -> io::Result<bool> {
    fs::create_dir_all(&options.dir).map_err(|why| named(&options.dir, why))?;
    let mut progress = Progress::new();
    let mut rows = Vec::new();
    for group in &options.groups {
        let row = run_group(group, options, &mut progress)?;
        progress.end();
        table::print_difference(group.name, &row.tally);
        rows.push(row);
    }
    table::print(&rows);
    Ok(rows.iter().all(|row| row.tally.differences == 0))
}

fn run_group(group: &Group, options: &Options, progress: &mut Progress) -> io::Result<Row> {
    let start = Instant::now();
    let path = |kind| options.dir.join(format!("{}.{kind}", group.name));
    let (cases, answers, right) = (path("cases"), path("answers"), path("right"));
    progress.writing(group.name);
    let count = write_cases(group, options, &cases, &right)?;
    progress.written(count);
    let status = port::answer(&options.answers, &cases, &answers, progress)
        .map_err(|why| named(&options.answers, why))?;
    let (asked, told) = (open(&cases)?, open(&answers)?);
    let mut tally = if group.written {
        differ::compare(asked, told, Written::new(open(&right)?), progress)?
    } else {
        differ::compare(asked, told, Computed, progress)?
    };
    if !status.success() {
        tally.differences += 1;
        tally.first.get_or_insert_with(|| Difference::of_the_whole(status.to_string()));
    }
    Ok(Row { group: group.name, tally, took: start.elapsed() })
}

/// The cases, and the right answers beside them where these build on each other.
fn write_cases(group: &Group, options: &Options, path: &Path, right: &Path) -> io::Result<u64> {
    let mut file = create(path)?;
    let mut answers = if group.written { Some(create(right)?) } else { None };
    let mut cases = match &mut answers {
        None => Cases::new(&mut file),
        Some(answers) => Cases::with_answers(&mut file, answers),
    };
    group.write(&mut cases, options.cases, options.seed)?;
    let count = cases.count();
    file.flush()?;
    answers.map_or(Ok(()), |mut answers| answers.flush())?;
    Ok(count)
}

fn create(path: &Path) -> io::Result<BufWriter<File>> {
    Ok(BufWriter::with_capacity(BUFFER, File::create(path).map_err(|why| named(path, why))?))
}

fn open(path: &Path) -> io::Result<BufReader<File>> {
    Ok(BufReader::with_capacity(BUFFER, File::open(path).map_err(|why| named(path, why))?))
}

/// The error with the path it is about.
fn named(path: &Path, why: io::Error) -> io::Error {
    io::Error::new(why.kind(), format!("{}: {why}", path.display()))
}
