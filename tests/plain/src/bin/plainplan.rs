//! The same program as `plan`, by the plain pool: a cable plan on standard input, its figures on standard output.

use std::io::{self, Read, Write};

use plain::plan::{read, run, Counts, LONGEST_PLAN, STEPS};

fn main() -> io::Result<()> {
    let mut text = Vec::with_capacity(LONGEST_PLAN + 1);
    io::stdin().lock().take(LONGEST_PLAN as u64 + 1).read_to_end(&mut text)?;
    io::stdout().lock().write_all(output(&text).as_bytes())
}

fn output(text: &[u8]) -> String {
    let Some(plan) = read(text) else { return "bad plan\n".to_string() };
    let counts = run(&plan, STEPS).expect("no call but a make is refused");
    counts[..plan.channels().len()].iter().map(line).collect()
}

fn line(Counts { replies, give_ups, refusals, open, .. }: &Counts) -> String {
    format!("{replies} {give_ups} {refusals} {open}\n")
}
