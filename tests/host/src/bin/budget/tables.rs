//! The tables.

use host_tests::callgrind::Count;
use host_tests::cases::Case;
use host_tests::desk::{Entry, Subject};
use host_tests::measures::Measures;
use host_tests::sites::CABLE;
use host_tests::stack;
use plain::calls::ANSWER_ROOM;
use plain::limits::Limits;
use plain::record::RECORD;

use crate::archive::Size;

/// How many times the typical instructions the worst ones may be.
const MOST_TO_TYPICAL: f64 = 2.0;

/// The stack that a call may take, a frame too, in bytes.
const STACK: usize = 8 * 1024;

/// How many expirations stand where a call is typical: half of all.
const TYPICAL_STANDING: usize = 128;

/// Each row: its call, and the case that is typical of it. The rows of a frame are by what it asks.
const ROWS: [(&str, &str); 25] = [
    ("fresh", "fresh"),
    ("fresh_sized", "fresh_sized"),
    ("join", "join"),
    ("view", "view"),
    ("leave", "leave"),
    ("block", "block"),
    ("resume", "resume"),
    ("tick", "tick"),
    ("make", "make 32"),
    ("refresh", "refresh"),
    ("batch", "batch of 16"),
    ("release", "release, gone"),
    ("read", "read 32"),
    ("write", "write 32"),
    ("report", "report"),
    ("remaining", "remaining"),
    ("share", "share"),
    ("frame: tick", "frame: tick"),
    ("frame: make", "frame: make 32"),
    ("frame: batch", "frame: batch of 16"),
    ("frame: release", "frame: release"),
    ("frame: read", "frame: read 256"),
    ("frame: write", "frame: write 256"),
    ("frame: report", "frame: report"),
    ("frame: remaining", "frame: remaining"),
];

/// The sites whose RAM is told: the smallest that there is, a small one, and 01's.
const SITES: [(&str, Limits); 3] =
    [("the smallest", Limits::SMALLEST), ("a cable of four", CABLE), ("01's figures", Limits::STANDARD)];

pub fn print(cases: &[Case], size: &Size, counts: &Measures<Count>) {
    println!("## RAM of a site, in bytes, all of it the host's\n");
    sites();
    println!("\n## Other memory, in bytes\n");
    memory(size);
    println!("\n## Stack and instructions of each call\n");
    let met = calls(cases, counts);
    println!("\nThe goals are met by {} of {} rows in stack and by {} in instructions.", met.0, ROWS.len(), met.1);
}

/// The record is as long for every site, whatever its figures.
fn sites() {
    println!("| site | small blocks | large blocks | record | small store | large store | together |");
    println!("|---|---:|---:|---:|---:|---:|---:|");
    for (name, limits) in SITES {
        let (small, large) = (limits.small_store(), limits.large_store());
        let Limits { small_blocks, large_blocks, .. } = limits;
        let together = RECORD + small + large;
        println!("| {name} | {small_blocks} | {large_blocks} | {RECORD} | {small} | {large} | {together} |");
    }
}

fn memory(size: &Size) {
    println!("| what | where | bytes |\n|---|---|---:|");
    println!("| the library's own variables | RAM | {} |", size.variables);
    println!("| room for an answer line, where frames are used | RAM, the host's | {ANSWER_ROOM} |");
    println!("| machine code of all entries, x86-64 | text | {} |", size.text);
    println!("| constants | read-only | {} |", size.constants);
}

/// Prints the rows, and tells how many meet the goals of stack and of instructions.
fn calls(cases: &[Case], counts: &Measures<Count>) -> (usize, usize) {
    println!("| call | stack | goal | met | instructions: typical | worst | worst/typical | goal | met | worst is |");
    println!("|---|---:|---:|---|---:|---:|---:|---:|---|---|");
    let met = ROWS.map(|(row, typical)| {
        let of_row = || cases.iter().enumerate().filter(|(_, case)| row_of(case) == row);
        let stack = of_row().filter_map(|(_, case)| depth(case)).max().expect("a case");
        let (place, _) = of_row().find(|(_, case)| is_typical(case, typical)).expect("a typical case");
        let typical = instructions(counts, place);
        // 15 is of damaged records alone.
        let reached = of_row().filter(|(_, case)| case.answer != 15);
        let (worst, case) = reached
            .map(|(place, case)| (instructions(counts, place), case))
            .max_by(|one, other| one.0.total_cmp(&other.0))
            .expect("a case");
        let met = (stack <= STACK, worst <= MOST_TO_TYPICAL * typical);
        println!(
            "| {row} | {stack} | {STACK} | {} | {typical:.0} | {worst:.0} | {:.2} | {MOST_TO_TYPICAL} | {} | {} |",
            says(met.0),
            worst / typical,
            says(met.1),
            described(case),
        );
        met
    });
    (met.iter().filter(|met| met.0).count(), met.iter().filter(|met| met.1).count())
}

/// The row of a case. 32 refreshes and the fit test are no calls, and are in none.
fn row_of(case: &Case) -> String {
    match case.entry {
        Entry::Frame => case.name.split([' ', ',']).take(2).collect::<Vec<_>>().join(" "),
        entry => entry.name(),
    }
}

fn is_typical(case: &Case, name: &str) -> bool {
    case.name == name && case.expirations == TYPICAL_STANDING && case.numbering.is_none()
}

fn depth(case: &Case) -> Option<usize> {
    case.action(Subject::Library).map(|action| stack::depth(case, action))
}

fn instructions(counts: &Measures<Count>, place: usize) -> f64 {
    counts.cases[place][0].as_ref().map_or(0.0, Count::total)
}

/// Which record it is: what the call does there, and how its handles are numbered.
fn described(case: &Case) -> String {
    let handles = case.numbering.map_or_else(String::new, |numbering| format!("; handles {}", numbering.name()));
    format!("{}, {} expirations{handles}", case.name, case.expirations)
}

fn says(met: bool) -> &'static str {
    if met {
        "yes"
    } else {
        "no"
    }
}
