//! The command line: `run`, `vectors` and `answer`.

use crate::args::{usage, Failure, Given};
use crate::{oracle, run, vectors};
use std::ffi::OsString;
use std::io::{self, BufRead, BufWriter, Write};
use std::path::PathBuf;

/// Random cases when `--cases` does not say: a run of a minute or so.
const CASES: u64 = 3_000_000;
const SEED: u64 = 1;

const USAGE: &str = "use `compare run --answers PROGRAM --dir DIR [--cases N] [--seed S] \
    [--groups a,b]`, `compare vectors DIR [--groups a,b]` or `compare answer`";

/// 0: all agree; 1: differences; 2: bad usage; 3: a file or the port failed.
pub fn main(args: impl Iterator<Item = OsString>) -> u8 {
    let args: Result<Vec<String>, _> = args.map(OsString::into_string).collect();
    let done = match args {
        Ok(args) => perform(&args),
        Err(_) => Err(Failure::Usage("an argument is not text".to_string())),
    };
    match done {
        Ok(true) => 0,
        Ok(false) => 1,
        Err(Failure::Usage(why)) => tell(&format!("{why}; {USAGE}."), 2),
        Err(Failure::File(why)) => tell(&format!("{why}."), 3),
    }
}

fn tell(sentence: &str, code: u8) -> u8 {
    eprintln!("compare: {sentence}");
    code
}

fn perform(args: &[String]) -> Result<bool, Failure> {
    let (command, rest) = args.split_first().ok_or_else(|| usage("no command"))?;
    match command.as_str() {
        "run" => Ok(run::run(&run_options(Given::read(rest, 0)?)?)?),
        "vectors" => {
            let given = Given::read(rest, 1)?;
            given.only(&["--groups"])?;
            let count = vectors::write(&PathBuf::from(given.plain[0]), &given.groups()?)?;
            eprintln!("compare: {count} cases written");
            Ok(true)
        }
        "answer" => {
            Given::read(rest, 0)?.only(&[])?;
            answer()?;
            Ok(true)
        }
        _ => Err(usage(&format!("no command is called {command}"))),
    }
}

fn run_options(given: Given) -> Result<run::Options, Failure> {
    given.only(&["--answers", "--dir", "--cases", "--seed", "--groups"])?;
    let path = |name| match given.option(name) {
        Some(path) => Ok(PathBuf::from(path)),
        None => Err(usage(&format!("{name} is missing"))),
    };
    Ok(run::Options {
        answers: path("--answers")?,
        dir: path("--dir")?,
        cases: given.number("--cases", CASES)?,
        seed: given.number("--seed", SEED)?,
        groups: given.groups()?,
    })
}

/// The answers to the cases on standard input, on standard output.
fn answer() -> io::Result<()> {
    let mut out = BufWriter::with_capacity(1 << 20, io::stdout().lock());
    let mut from = io::BufReader::with_capacity(1 << 20, io::stdin().lock());
    let (mut case, mut line) = (Vec::new(), String::new());
    while from.read_until(b'\n', &mut case)? > 0 {
        oracle::answer(case.strip_suffix(b"\n").unwrap_or(&case), &mut line);
        line.push('\n');
        out.write_all(line.as_bytes())?;
        case.clear();
    }
    out.flush()
}
