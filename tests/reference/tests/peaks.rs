//! Order 11: the peaks of scripts. Rows by hand; the claim, that a pool meets neither 9 nor 10 exactly where the peaks fit,
//! on generated scripts, for 01's figures and for others; and that these scripts try it.

#[path = "rows/peaks.rs"]
mod peak_rows;
mod rows;

use std::fs;
use std::path::Path;
use std::process::Command;

use peak_rows::{check_all, script};
use reference::generate::{limits, planned_script, sized_script};
use reference::ledger::Usage;
use reference::limits::Limits;
use reference::longest::{most_expirations, most_objects, scripts};
use reference::peaks::{has_room, output, peaks};
use reference::program::run_program;
use reference::script::{lines, run, LIMIT};
use rows::check_in;

const fn usage(small: usize, large: usize, expirations: usize) -> Usage {
    Usage { small, large, expirations }
}

/// The pool's answers too, so that a row says what its reading is told from.
#[test]
fn rows_by_hand() {
    check_all(|limits, name, rows, expected| {
        check_in(limits, name, rows);
        assert_eq!(peaks(limits, script(rows).as_bytes()), expected, "{name}");
        check_claim(limits, script(rows).as_bytes(), name);
    });
}

/// K6, in both directions. Gives the peaks.
fn check_claim(limits: Limits, script: &[u8], name: &str) -> Usage {
    let peaks = peaks(limits, script);
    assert_eq!(has_room(limits, script), peaks.fits(limits), "{name}: {peaks:?}, {limits:?}");
    peaks
}

/// How many scripts meet each.
#[derive(Debug, Default)]
struct Census {
    /// As they are written, by the refusal.
    refused: [usize; 30],
    past_small: usize,
    past_large: usize,
    past_expirations: usize,
    /// In one figure alone.
    past_one: usize,
    fitting: usize,
    /// They fit, and as they are written the pool answers 9 or 10.
    refused_fitting: usize,
    /// They do not, and as they are written it answers neither.
    spared: usize,
    /// More than twice the pool.
    far: usize,
}

impl Census {
    fn note(&mut self, script: &[u8], peaks: Usage) {
        let output = run(script);
        let refused = |number: usize| lines(&output).any(|line| line == format!("{number:02X}").as_bytes());
        for number in 1..self.refused.len() {
            self.refused[number] += usize::from(refused(number));
        }
        let figures = [(peaks.small, 64), (peaks.large, 32), (peaks.expirations, 256)];
        let past = figures.map(|(peak, figure)| peak > figure);
        let [small, large, expirations] = past.map(usize::from);
        self.past_small += small;
        self.past_large += large;
        self.past_expirations += expirations;
        self.past_one += usize::from(small + large + expirations == 1);
        let (fits, has_room) = (peaks.fits(Limits::STANDARD), !refused(9) && !refused(10));
        self.fitting += usize::from(fits);
        self.refused_fitting += usize::from(fits && !has_room);
        self.spared += usize::from(!fits && has_room);
        self.far += usize::from(figures.iter().any(|(peak, figure)| *peak > 2 * figure));
    }

    fn least(&self) -> usize {
        let refused = [9, 10, 24, 25, 26].map(|number| self.refused[number]).into_iter().min();
        let others = [self.past_small, self.past_large, self.past_expirations, self.past_one, self.fitting];
        let apart = [self.refused_fitting, self.far];
        others.into_iter().chain(apart).chain(refused).min().unwrap_or(0)
    }
}

#[test]
fn the_claim_on_generated_scripts() {
    let mut census = Census::default();
    for seed in 1..=1_000 {
        let script = planned_script(seed);
        if script.len() <= LIMIT {
            census.note(&script, check_claim(Limits::STANDARD, &script, &format!("seed {seed}")));
        }
    }
    println!("{census:?}");
    assert!(census.least() >= 50 && census.spared >= 20, "{census:?}");
}

/// Order 12: for scripts that are written for these figures and for others.
#[test]
fn the_claim_with_chosen_figures() {
    let (mut fitting, mut past) = (0, 0);
    for seed in 0..600 {
        let limits = limits(seed);
        for script in [sized_script(limits, seed), planned_script(seed)] {
            let peaks = check_claim(limits, &script, &format!("seed {seed}"));
            fitting += usize::from(peaks.fits(limits));
            past += usize::from(!peaks.fits(limits));
            // Exactly so much room, and one less of each.
            check_just_enough(Limits { extension: limits.extension, ..Limits::STANDARD }, &script, peaks);
        }
    }
    println!("{fitting} fit, {past} do not");
    assert!(fitting >= 100 && past >= 100, "{fitting} {past}");
}

/// A pool with just this room has it, and with one less of a figure it has not.
fn check_just_enough(most: Limits, script: &[u8], Usage { small, large, expirations }: Usage) {
    let of = |small: usize, large: usize, expirations: usize| Limits {
        small_blocks: small.max(1),
        large_blocks: large.max(1),
        expirations: expirations.max(1),
        ..most
    };
    for limits in [
        of(small, large, expirations),
        of(small.saturating_sub(1), large, expirations),
        of(small, large.saturating_sub(1), expirations),
        of(small, large, expirations.saturating_sub(1)),
    ] {
        if limits.is_allowed() {
            check_claim(limits, script, "just enough, or one less");
        }
    }
}

#[test]
fn the_longest_scripts() {
    assert_eq!(peaks(Limits::STANDARD, &most_objects()), usage(3_854, 0, 3_854));
    assert_eq!(peaks(Limits::STANDARD, &most_expirations()), usage(1, 0, 7_910));
    for (name, script) in scripts() {
        assert!((LIMIT - 270..=LIMIT).contains(&script.len()), "{name}: {}", script.len());
        check_claim(Limits::STANDARD, &script, name);
    }
}

/// The page for planners: each command that it shows prints what stands under it, by the ledger's programs.
#[test]
fn the_page_for_planners() {
    let root = Path::new(env!("CARGO_MANIFEST_DIR")).join("../..");
    let page = fs::read_to_string(root.join("docs/PEAKS.md")).unwrap();
    let shown = page.lines().filter_map(|line| line.strip_prefix("    ")).collect::<Vec<_>>().join("\n");
    let runs: Vec<_> = shown.split("$ ").filter(|run| !run.is_empty()).collect();
    assert_eq!(runs.len(), 9);
    for run in runs {
        let (command, expected) = run.split_once('\n').unwrap();
        let command = command.replace("ledgerpeaks", env!("CARGO_BIN_EXE_ledgerpeaks"));
        let command = command.replace("target/bin/poolrun", env!("CARGO_BIN_EXE_reference"));
        let command = command.replace("explain ", concat!(env!("CARGO_BIN_EXE_explain"), " "));
        let output = Command::new("sh").args(["-c", &command]).current_dir(&root).output().unwrap();
        assert_eq!(String::from_utf8(output.stdout).unwrap().trim_end(), expected.trim_end(), "{command}");
    }
}

/// With a line more they are too long.
#[test]
fn no_longer_script_has_more() {
    for (script, line) in [(most_objects(), "0600020000010000"), (most_expirations(), "0C00000000000001")] {
        assert!(script.len() + 1 + line.len() > LIMIT);
    }
}

#[test]
fn what_is_printed() {
    for (script, printed) in [
        (&b""[..], "0 0 0\n"),
        (b"\n\nx\n", "0 0 0\n"),
        (b"010000FF00FF\n0600020000200000\n0600020000210000", "1 1 2\n"),
        (b"010000FF00FF\r\n0600020000200000\r\n", "0 0 0\n"),
        (&[b'\n'; LIMIT], "0 0 0\n"),
        (&[b'\n'; LIMIT + 1], "script too long\n"),
    ] {
        assert_eq!(output(script), printed.as_bytes());
        let program = run_program(&mut Command::new(env!("CARGO_BIN_EXE_ledgerpeaks")), script).unwrap();
        assert!(program.status.success() && program.stdout == printed.as_bytes());
    }
}
