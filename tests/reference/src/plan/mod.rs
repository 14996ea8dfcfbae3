//! Order 13: a cable plan, tried on paper. Its text, its run on the ledger, and plans of chance. A number such as G5 is a
//! rule's in docs/RULES.md.

pub mod generate;
mod run;
mod text;

pub use run::{Figures, Poll, Run, Track, Turn};
pub use text::{read, Channel, LIMIT};

/// From step 0 to 9,999.
pub const STEPS: u32 = 10_000;

/// The figures of a plan's channels after all steps.
pub fn figures(plan: &[Channel]) -> Vec<Figures> {
    let mut run = Run::of(plan);
    (0..STEPS).for_each(|_| _ = run.step());
    run.figures()
}

/// What the program prints of a text: a line for each channel.
pub fn output(text: &[u8]) -> Vec<u8> {
    let line =
        |Figures { replies, give_ups, refusals, open }: Figures| format!("{replies} {give_ups} {refusals} {open}\n");
    match read(text) {
        None => b"bad plan\n".to_vec(),
        Some(plan) => figures(&plan).into_iter().map(line).collect::<String>().into_bytes(),
    }
}
