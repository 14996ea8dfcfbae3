//! One program on one script: its instructions and its time.

use std::fs::{self, File};
use std::io;
use std::path::Path;
use std::process::{Command, Stdio};
use std::time::Instant;

/// How many runs the best time is taken from.
pub const RUNS: usize = 20;

pub fn has_valgrind() -> bool {
    done(Command::new("valgrind").arg("--version").stdout(Stdio::null())).is_ok()
}

/// The instructions that callgrind counts; its file is left in the folder.
pub fn instructions(program: &Path, script: &Path, folder: &Path) -> io::Result<u64> {
    let counts = folder.join("callgrind");
    let mut valgrind = Command::new("valgrind");
    valgrind.arg("--tool=callgrind").arg(format!("--callgrind-out-file={}", counts.display()));
    run(valgrind.arg(program).stderr(Stdio::null()), script)?;
    let text = fs::read_to_string(counts)?;
    let total = text.lines().find_map(|line| line.strip_prefix("totals: "));
    total.and_then(|number| number.trim().parse().ok()).ok_or_else(|| io::Error::other("callgrind tells no total"))
}

/// The best time in microseconds.
pub fn best_time(program: &Path, script: &Path) -> io::Result<u64> {
    let mut best = u128::MAX;
    for _ in 0..RUNS {
        let start = Instant::now();
        run(&mut Command::new(program), script)?;
        best = best.min(start.elapsed().as_micros());
    }
    Ok(best as u64)
}

fn run(command: &mut Command, script: &Path) -> io::Result<()> {
    done(command.stdin(File::open(script)?).stdout(Stdio::null()))
}

/// Runs the command, which must succeed.
fn done(command: &mut Command) -> io::Result<()> {
    let status = command.status()?;
    if !status.success() {
        return Err(io::Error::other(format!("{command:?}: {status}")));
    }
    Ok(())
}
