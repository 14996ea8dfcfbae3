//! Order 13: the plans of the plain pool and of the ledger, on the 1,000 texts of which the program is compared on the first.

use std::process::Command;

use plain::plan::{read, run, Counts};
use reference::plan::generate::{faulty, text, FAULTS};
use reference::plan::{self, figures, Figures};
use reference::program::run_program;

/// What the plain pool counts, and the claims of it; none of a bad plan.
fn plain_figures(text: &[u8], steps: u32) -> Option<Vec<Figures>> {
    let plan = read(text)?;
    let counts = run(&plan, steps).expect("no call but a make is refused");
    let checked = |&Counts { replies, give_ups, refusals, open, turns }: &Counts| {
        let figures = Figures { replies, give_ups, refusals, open };
        assert_eq!(figures.sum(), turns, "{}", text.escape_ascii());
        figures
    };
    Some(counts[..plan.channels().len()].iter().map(checked).collect())
}

#[test]
fn the_figures_of_the_ledger() {
    for seed in 0..1_000 {
        let text = text(seed);
        let expected = plan::read(&text).map(|plan| figures(&plan));
        assert_eq!(plain_figures(&text, plan::STEPS), expected, "seed {seed}: {}", text.escape_ascii());
    }
}

#[test]
fn no_bad_text_is_a_plan() {
    for fault in FAULTS {
        assert!((0..40).all(|seed| read(&faulty(fault, seed)).is_none()), "{fault:?}");
    }
}

/// The program writes the same.
#[test]
fn the_output_of_the_program() {
    for seed in 0..10 {
        let text = text(seed);
        let program = run_program(&mut Command::new(env!("CARGO_BIN_EXE_plainplan")), &text).unwrap();
        assert!(program.status.success() && program.stdout == plan::output(&text), "seed {seed}");
    }
}
