//! What the library takes of a board, as the tables of docs/BUDGET.md: `budget`. RAM and code are read from the record's type
//! and the archive, stack is painted, instructions are counted by callgrind as `cost` does.

mod archive;
mod tables;

use std::io;
use std::process::ExitCode;

use host_tests::cases::Case;
use host_tests::{callgrind, cases, extremes};

fn main() -> ExitCode {
    if cfg!(debug_assertions) {
        eprintln!("only for release: cargo run --release --bin budget");
        return ExitCode::FAILURE;
    }
    let cases: Vec<Case> = cases::all().into_iter().chain(extremes::usual()).chain(extremes::all()).collect();
    let done = match std::env::args().nth(1).as_deref() {
        Some("count") => {
            callgrind::run_all(&cases);
            Ok(())
        }
        None => print(&cases),
        Some(_) => Err(io::Error::other("it takes no arguments")),
    };
    match done {
        Ok(()) => ExitCode::SUCCESS,
        Err(error) => {
            eprintln!("budget: {error}");
            ExitCode::FAILURE
        }
    }
}

fn print(cases: &[Case]) -> io::Result<()> {
    let size = archive::size()?;
    let counts = callgrind::counts(cases)?;
    tables::print(cases, &size, &counts);
    Ok(())
}
