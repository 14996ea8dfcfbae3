//! The same program as `plan`, by the ledger: a cable plan on standard input, and on standard output a line for each channel,
//! with its replies, give-ups, refusals and polls still open.

use std::io::{self, Write};

use reference::plan::output;
use reference::program::read_plan;

fn main() -> io::Result<()> {
    let text = read_plan(io::stdin().lock())?;
    io::stdout().lock().write_all(&output(&text))
}
