//! The plain pool on the reference's scripts, frame by frame: the same output as the ledger's, at 01's figures and at
//! others. That it tells damaged records, and leaves the same state, is tested beside the library.

mod memory;

use std::process::Command;

use memory::{sites, Memory};
use reference::call::Model;
use reference::generate::{script_of, sized_script};
use reference::ledger::Ledger;
use reference::limits::Limits;
use reference::program::run_program;
use reference::script::{lines, run, run_from, LIMIT};

fn output(limits: Limits, script: &[u8]) -> Vec<u8> {
    let mut memory = Memory::beside(limits);
    lines(script).flat_map(|line| memory.frame(line).1).collect()
}

#[test]
fn the_output_of_the_ledger() {
    for (seed, limits) in sites(1..201) {
        let script = sized_script(limits, seed);
        if script.len() <= LIMIT {
            assert!(output(limits, &script) == run_from(Ledger::of(limits), &script), "seed {seed}, {limits:?}");
        }
    }
}

/// The program writes the same, also of the longest script and of one that is too long.
#[test]
fn the_output_of_the_program() {
    for size in [0, 20_000, LIMIT, LIMIT + 1] {
        let script = script_of(None, 7, size);
        let output = run_program(&mut Command::new(env!("CARGO_BIN_EXE_plainrun")), &script[..size]).unwrap();
        assert!(output.status.success() && output.stdout == run(&script[..size]), "{size}");
    }
}
