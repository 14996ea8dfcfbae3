//! Order 11: the plain sheet's peaks and the ledger's, on rows, on the scripts that the program is compared on, with figures
//! of all kinds, and on the longest scripts.

#[path = "../../reference/tests/rows/peaks.rs"]
mod peak_rows;
#[path = "../../reference/tests/rows/mod.rs"]
mod rows;

use std::process::Command;

use peak_rows::{check_all, script};
use plain::sheet;
use reference::generate::{limits, planned_script, sized_script};
use reference::ledger::Usage;
use reference::limits::Limits;
use reference::longest::scripts;
use reference::peaks::{output, peaks};
use reference::program::run_program;
use reference::script::LIMIT;

fn sheet_peaks(limits: Limits, script: &[u8]) -> Usage {
    let sheet::Peaks { small, large, expirations } = sheet::peaks(limits.extension as u8, script);
    Usage { small, large, expirations }
}

fn check(limits: Limits, script: &[u8], name: &str) {
    assert_eq!(sheet_peaks(limits, script), peaks(limits, script), "{name}, {limits:?}");
}

#[test]
fn rows_by_hand() {
    check_all(|limits, name, rows, expected| {
        assert_eq!(sheet_peaks(limits, script(rows).as_bytes()), expected, "{name}");
    });
}

#[test]
fn the_peaks_of_the_ledger() {
    let scripts = (1..=1_000).map(|seed| (seed, planned_script(seed))).filter(|(_, script)| script.len() <= LIMIT);
    scripts.for_each(|(seed, script)| check(Limits::STANDARD, &script, &format!("seed {seed}")));
}

/// Of its figures the largest extension alone matters.
#[test]
fn the_peaks_of_a_site() {
    for seed in 0..200 {
        let (limits, script) = (limits(seed), sized_script(limits(seed), seed));
        if script.len() <= LIMIT {
            check(limits, &script, &format!("seed {seed}"));
        }
    }
}

#[test]
fn the_longest_scripts() {
    for (name, script) in scripts() {
        check(Limits::STANDARD, &script, name);
    }
}

/// The program writes the same, also of a script that is too long.
#[test]
fn the_output_of_the_program() {
    let too_long = vec![b'\n'; LIMIT + 1];
    for script in [planned_script(1), planned_script(2), Vec::new(), too_long] {
        let program = run_program(&mut Command::new(env!("CARGO_BIN_EXE_plainpeaks")), &script).unwrap();
        assert!(program.status.success() && program.stdout == output(&script));
    }
}
