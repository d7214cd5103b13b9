use std::process::ExitCode;

fn main() -> ExitCode {
    ExitCode::from(compare::cli::main(std::env::args_os().skip(1)))
}
