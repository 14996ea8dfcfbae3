//! The same program as `peaks`, by the plain sheet: a script on standard input, its peaks on standard output.

use std::io::{self, Read, Write};

use plain::limits::{Limits, LONGEST_SCRIPT};
use plain::sheet::{peaks, Peaks};

fn main() -> io::Result<()> {
    let mut script = Vec::with_capacity(LONGEST_SCRIPT + 1);
    io::stdin().lock().take(LONGEST_SCRIPT as u64 + 1).read_to_end(&mut script)?;
    let output = if script.len() > LONGEST_SCRIPT { "script too long\n".to_string() } else { line(&script) };
    io::stdout().lock().write_all(output.as_bytes())
}

fn line(script: &[u8]) -> String {
    let Peaks { small, large, expirations } = peaks(Limits::STANDARD.extension as u8, script);
    format!("{small} {large} {expirations}\n")
}
