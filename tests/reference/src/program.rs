//! Programs that run scripts or plans, and the figures that they are given.

use std::io::{self, Read, Write};
use std::process::{Command, Output, Stdio};
use std::str::FromStr;
use std::thread;

use crate::call::Refusal;
use crate::limits::Limits;
use crate::plan;
use crate::script::LIMIT;

/// Runs a program with the script on its standard input.
pub fn run_program(program: &mut Command, script: &[u8]) -> io::Result<Output> {
    let mut child = program.stdin(Stdio::piped()).stdout(Stdio::piped()).spawn()?;
    let mut input = child.stdin.take().expect("standard input is a pipe");
    thread::scope(|scope| {
        // A program may end before it has read a script that is too long.
        scope.spawn(move || input.write_all(script).ok());
        child.wait_with_output()
    })
}

/// As much of a script as tells whether it is too long.
pub fn read_script(input: impl Read) -> io::Result<Vec<u8>> {
    read_past(LIMIT, input)
}

/// As much of a plan.
pub fn read_plan(input: impl Read) -> io::Result<Vec<u8>> {
    read_past(plan::LIMIT, input)
}

/// So many bytes and one more.
fn read_past(limit: usize, input: impl Read) -> io::Result<Vec<u8>> {
    let mut bytes = Vec::with_capacity(limit + 1);
    input.take(limit as u64 + 1).read_to_end(&mut bytes)?;
    Ok(bytes)
}

/// A decimal number without leading zeros.
pub fn decimal<T: FromStr + ToString>(word: &str) -> Option<T> {
    let number: T = word.parse().ok()?;
    (number.to_string() == word).then_some(number)
}

/// The figures of these words, the scope paper's where there are none; else 29, in words.
pub fn figures(words: Option<&str>) -> Result<Limits, String> {
    words.map_or(Ok(Limits::STANDARD), str::parse).map_err(|refusal: Refusal| {
        let (least, most) = (Limits::SMALLEST, Limits::STANDARD);
        format!(
            "refused {}: the figures are small blocks, {} to {}, large blocks, {} to {}, expirations, {} to {}, \
             and the largest extension, {} to {}, with commas between",
            refusal as u8,
            least.small_blocks,
            most.small_blocks,
            least.large_blocks,
            most.large_blocks,
            least.expirations,
            most.expirations,
            least.extension,
            most.extension,
        )
    })
}
