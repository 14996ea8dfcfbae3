//! The programs.

use std::process::{Command, Output};

use reference::call::Model;
use reference::generate::{script, sized_script};
use reference::ledger::Ledger;
use reference::program::run_program;
use reference::script::{run, run_from};

const REFERENCE: &str = env!("CARGO_BIN_EXE_reference");
const COMPARE: &str = env!("CARGO_BIN_EXE_compare");
const LEDGERPEAKS: &str = env!("CARGO_BIN_EXE_ledgerpeaks");
const LEDGERPLAN: &str = env!("CARGO_BIN_EXE_ledgerplan");
const BENCH: &str = env!("CARGO_BIN_EXE_bench");

fn compare(arguments: &[&str]) -> Output {
    Command::new(COMPARE).args(arguments).output().unwrap()
}

#[test]
fn reference_runs_a_script() {
    let script = script(3);
    let output = run_program(&mut Command::new(REFERENCE), &script).unwrap();
    assert!(output.status.success());
    assert_eq!(output.stdout, run(&script));
}

#[test]
fn reference_runs_a_script_with_chosen_figures() {
    let limits = "1,2,4,5".parse().unwrap();
    let script = sized_script(limits, 3);
    let output = run_from(Ledger::of(limits), &script);
    assert_ne!(output, run(&script));
    let mut program = Command::new(REFERENCE);
    assert_eq!(run_program(program.args(["--figures", "1,2,4,5"]), &script).unwrap().stdout, output);
    for arguments in [&["--figures", "0,2,4,5"][..], &["--figures", "1,2,4"], &["--figures"]] {
        let output = Command::new(REFERENCE).args(arguments).output().unwrap();
        assert_eq!((output.status.code(), output.stdout), (Some(1), Vec::new()), "{arguments:?}");
        assert!(output.stderr.starts_with(b"reference: refused 29: "), "{arguments:?}");
    }
}

#[test]
fn the_reference_is_like_itself() {
    let output = compare(&[REFERENCE, "40"]);
    let text = String::from_utf8(output.stdout).unwrap();
    assert!(output.status.success(), "{text}");
    let last = text.lines().last().unwrap();
    assert!(last.starts_with("40 scripts, ") && last.ends_with(" lines: all alike"), "{text}");
}

#[test]
fn the_peaks_of_the_ledger_are_like_themselves() {
    let output = compare(&["--peaks", LEDGERPEAKS, "40"]);
    let text = String::from_utf8(output.stdout).unwrap();
    assert!(output.status.success(), "{text}");
    assert!(text.contains(" scripts fit in a pool, ") && text.ends_with(" lines: all alike\n"), "{text}");
}

#[test]
fn the_plans_of_the_ledger_are_like_themselves() {
    let output = compare(&["--plans", LEDGERPLAN, "25"]);
    let text = String::from_utf8(output.stdout).unwrap();
    assert!(output.status.success(), "{text}");
    assert!(
        text.starts_with("20 plans are good, 5 are bad\n25 plans, ") && text.ends_with(" lines: all alike\n"),
        "{text}"
    );
}

/// Programs that answer, or write nothing, and print no plan's figures.
#[test]
fn other_plans_are_found_out() {
    for program in [REFERENCE, COMPARE] {
        let output = compare(&["--plans", program, "5", "100"]);
        let text = String::from_utf8(output.stdout).unwrap();
        assert_eq!(output.status.code(), Some(1));
        assert!(text.starts_with("seed 100\nline 1\n"), "{text}");
    }
}

/// Programs that answer, or write nothing, and print no peaks.
#[test]
fn other_peaks_are_found_out() {
    for program in [REFERENCE, COMPARE] {
        let output = compare(&["--peaks", program, "5", "100"]);
        let text = String::from_utf8(output.stdout).unwrap();
        assert_eq!(output.status.code(), Some(1));
        assert!(text.starts_with("seed 100\nline 1\n"), "{text}");
    }
}

/// This program writes nothing on standard output when it is called without arguments.
#[test]
fn a_silent_program_is_found_out() {
    let output = compare(&[COMPARE, "5", "100"]);
    let text = String::from_utf8(output.stdout).unwrap();
    assert_eq!(output.status.code(), Some(1));
    assert!(text.starts_with("seed 100\nline 1\ncall ") && text.ends_with("program none\n"), "{text}");
}

#[test]
fn wrong_arguments() {
    for (program, arguments) in [
        (COMPARE, &[][..]),
        (COMPARE, &[REFERENCE]),
        (COMPARE, &[REFERENCE, "0"]),
        (COMPARE, &[REFERENCE, "07"]),
        (COMPARE, &[REFERENCE, "1", "x"]),
        (COMPARE, &[REFERENCE, "1", "1", "1"]),
        (COMPARE, &["--peaks"]),
        (COMPARE, &["--peak", REFERENCE, "1"]),
        (COMPARE, &["--peaks", "--plans", REFERENCE, "1"]),
        (REFERENCE, &["--figure"]),
        (REFERENCE, &["--figures", "1,1,1,0", "1"]),
        (REFERENCE, &["--figures", "1,1,1,0", "--figures", "1,1,1,0"]),
        (BENCH, &[]),
        (BENCH, &[REFERENCE]),
        (BENCH, &["--peaks", REFERENCE]),
        (BENCH, &["--plans", REFERENCE]),
    ] {
        let output = Command::new(program).args(arguments).output().unwrap();
        assert_eq!(output.status.code(), Some(2), "{program} {arguments:?}");
    }
}
