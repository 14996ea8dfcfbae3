//! Rows of calls: how often a line comes, the line, and its answer each time, by the ledger or by a pool.

use reference::call::Model;
use reference::ledger::Ledger;
use reference::limits::Limits;
use reference::script::run_from;

pub type Row<'a> = (usize, &'a str, &'a str);

/// A handle thirty-two times, as a batch names it.
#[allow(unused_macros)] // Not every test that has rows has batches.
macro_rules! thirty_two {
    ($handle:literal) => {
        concat!(eight!($handle), eight!($handle), eight!($handle), eight!($handle))
    };
}

#[allow(unused_macros)]
macro_rules! eight {
    ($handle:literal) => {
        concat!($handle, $handle, $handle, $handle, $handle, $handle, $handle, $handle)
    };
}

/// Stands for every accepted answer.
pub const ACCEPTED: &str = "accepted";

/// In a pool of the scope paper's figures.
#[allow(dead_code)] // Not every test that has rows has them.
pub fn check(name: &str, rows: &[Row]) {
    check_in(Limits::STANDARD, name, rows);
}

#[allow(dead_code)]
pub fn check_in(limits: Limits, name: &str, rows: &[Row]) {
    let script: String = rows.iter().map(|(times, line, _)| format!("{line}\n").repeat(*times)).collect();
    let output = String::from_utf8(run_from(Ledger::of(limits), script.as_bytes())).unwrap();
    let mut answers = output.lines();
    check_answers(name, rows, |_| answers.next().expect("one answer a line").to_string());
    assert_eq!(answers.next(), None, "{name}");
}

/// By whatever answers a line; its answer may end in LF.
pub fn check_answers(name: &str, rows: &[Row], mut answer: impl FnMut(&str) -> String) {
    for (place, (times, line, expected)) in rows.iter().enumerate() {
        for _ in 0..*times {
            let answer = answer(line);
            let right = if *expected == ACCEPTED { answer.starts_with("00") } else { answer.trim_end() == *expected };
            assert!(right, "{name}, row {place}, {line}: {answer} and not {expected}");
        }
    }
}
