//! Measures the library beside the plain pool and prints tables in Markdown: `cost`; docs/BENCHMARKS.md has the first.
//! Instructions are counted by callgrind, under which the program runs itself once more, as `cost count`; nanoseconds are
//! the best of some rounds; stack is what is painted over. It fails where a call takes more of the plain pool's
//! instructions than the limits allow.
//!
//! Before each call the record and the stores are put back from a copy, so that each call meets the same state; a record
//! alone would have other sums than the bytes of a write. Callgrind counts inside `measured` alone, and so not this; of
//! the times, those of putting back alone are taken away.

mod limits;
mod tables;
mod times;

use std::process::ExitCode;

use host_tests::{callgrind, cases};

fn main() -> ExitCode {
    if cfg!(debug_assertions) {
        eprintln!("only for release: cargo run --release --bin cost");
        return ExitCode::FAILURE;
    }
    let cases = cases::all();
    match std::env::args().nth(1).as_deref() {
        Some("count") => callgrind::run_all(&cases),
        None => match callgrind::counts(&cases) {
            Ok(counts) if tables::print(&cases, &counts, &times::all(&cases)) => {}
            Ok(_) => {
                eprintln!("cost: a call is above its limit");
                return ExitCode::FAILURE;
            }
            Err(error) => {
                eprintln!("cost: {error}");
                return ExitCode::FAILURE;
            }
        },
        Some(_) => {
            eprintln!("cost");
            return ExitCode::from(2);
        }
    }
    ExitCode::SUCCESS
}
