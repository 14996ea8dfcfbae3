//! How often the scripts of the generator meet what.

pub mod batch;
pub mod pinned;
pub mod remaining;
pub mod shares;
pub mod sized;
pub mod viewers;
pub mod waiting;

use pinned::Pins;
use reference::call::{Accepted, Answer, Call, Model, Operation, Refusal, OPERATIONS};
use reference::frame::decode;
use reference::ledger::Ledger;
use reference::limits::Limits;
use reference::script::{lines, run_from};
use shares::Makers;
use viewers::Viewers;
use waiting::{Before, Setters};

/// Each operation and the refusals that its frames and calls may give, in the order of the tests. The ledger gives neither
/// 14 nor 15, and of a script not 23: no line changes a byte from outside.
pub const TESTS: [(Operation, &[usize]); OPERATIONS] = [
    (Operation::Join, &[18, 1, 2, 24, 25]),
    (Operation::Leave, &[18, 1, 3]),
    (Operation::Block, &[18, 1, 3, 4, 27]),
    (Operation::Resume, &[18, 1, 3, 5]),
    (Operation::Tick, &[18, 1, 3, 4, 27]),
    (Operation::Make, &[18, 19, 1, 3, 4, 27, 6, 7, 28, 8, 26, 9, 10]),
    (Operation::Refresh, &[18, 19, 1, 3, 4, 27, 21, 6, 11, 12, 10]),
    (Operation::Read, &[18, 1, 3, 4, 11, 12, 23]),
    (Operation::Write, &[18, 1, 3, 4, 27, 11, 12, 23, 13]),
    (Operation::Report, &[18]),
    (Operation::Remaining, &[18, 1, 3, 4, 11, 12]),
    (Operation::Batch, &[18, 19, 1, 3, 4, 27, 20, 21, 6, 11, 12, 10]),
    (Operation::Release, &[18, 1, 3, 4, 27, 11, 12, 22]),
    (Operation::View, &[18, 1, 2]),
];

/// The refusals are 1 to 28.
const NUMBERS: usize = 29;

/// By its name, and whether what is seen is one.
type Situation<S> = (&'static str, fn(&S) -> bool);

/// How often each situation of a list was met.
#[derive(Debug)]
pub struct Met<const N: usize>([usize; N]);

impl<const N: usize> Default for Met<N> {
    fn default() -> Met<N> {
        Met([0; N])
    }
}

impl<const N: usize> Met<N> {
    fn note<S>(&mut self, situations: &[Situation<S>; N], seen: &S) {
        for (met, (_, holds)) in self.0.iter_mut().zip(situations) {
            *met += usize::from(holds(seen));
        }
    }

    pub fn least(&self) -> usize {
        self.0.into_iter().min().expect("some situation")
    }

    fn print<S>(&self, list: &str, situations: &[(&str, S); N]) {
        for ((name, _), met) in situations.iter().zip(self.0) {
            println!("{list}, {name}: {met}");
        }
    }
}

#[derive(Default)]
pub struct Census {
    pub accepted: [usize; OPERATIONS],
    /// By operation and number.
    pub refused_by: [[usize; NUMBERS]; OPERATIONS],
    /// By number.
    pub refused: [usize; NUMBERS],
    pub advances: usize,
    pub most_small: u8,
    pub most_large: u8,
    pub most_expirations: u16,
    pub most_running: usize,
    pub empty_writes: usize,
    pub whole_writes: usize,
    pub longest_output: usize,
    pub remaining: remaining::Met,
    pub batch: batch::Met,
    pub waiting: waiting::Met,
    pub pinned: pinned::Met,
    pub shares: shares::Met,
    pub viewers: viewers::Met,
    pub sized: sized::Met,
}

impl Census {
    /// In pools of the scope paper's figures.
    pub fn of(scripts: impl Iterator<Item = Vec<u8>>) -> Census {
        Census::sized(scripts.map(|script| (Limits::STANDARD, script)))
    }

    /// Each in a pool of its own figures.
    pub fn sized(scripts: impl Iterator<Item = (Limits, Vec<u8>)>) -> Census {
        let mut census = Census::default();
        scripts.for_each(|(limits, script)| census.take(limits, &script));
        census
    }

    fn take(&mut self, limits: Limits, script: &[u8]) {
        self.longest_output = self.longest_output.max(run_from(Ledger::of(limits), script).len());
        let (mut ledger, mut room) = (Ledger::of(limits), vec![0; script.len()]);
        let (mut setters, mut pins) = (Setters::default(), Pins::default());
        let (mut makers, mut viewers) = (Makers::default(), Viewers::default());
        for line in lines(script) {
            match decode(line, &mut room) {
                Err(refusal) => self.note_frame(line, refusal),
                Ok(call) => {
                    batch::note(&mut self.batch, &call, &ledger);
                    let before = (Before::of(&call, &ledger), pins.before(&call, &ledger));
                    let (shared, viewed) = (makers.before(&call, &ledger), viewers.before(&call, &ledger));
                    let figures = ledger.figures();
                    let answer = ledger.call(&call);
                    self.note(&call, answer);
                    let number = answer.err().map_or(0, |refusal| refusal as usize);
                    let advanced = answer == Ok(Accepted::Advanced(true));
                    if number == 0 {
                        setters.note(&mut self.waiting, &call, before.0, &ledger);
                    }
                    pins.note(&mut self.pinned, &call, number, before.1, &ledger);
                    makers.note(&mut self.shares, &call, number, shared, &ledger);
                    let seen = viewers::Seen { call: &call, number, advanced, before: viewed };
                    viewers.note(&mut self.viewers, &seen, &ledger);
                    sized::note(&mut self.sized, &sized::Seen { call: &call, number, limits, figures });
                    self.note_state(&ledger);
                    remaining::note(&mut self.remaining, &call, &ledger);
                }
            }
        }
    }

    /// A frame that is refused with 18 or 19 has a known operation.
    fn note_frame(&mut self, line: &[u8], refusal: Refusal) {
        self.refused[refusal as usize] += 1;
        if matches!(refusal, Refusal::WrongFrameLength | Refusal::KindAbove2) {
            let operation = str::from_utf8(&line[..2]).ok().and_then(|digits| usize::from_str_radix(digits, 16).ok());
            self.refused_by[operation.expect("two digits") - 1][refusal as usize] += 1;
        }
    }

    fn note(&mut self, call: &Call, answer: Answer) {
        match answer {
            Err(refusal) => {
                self.refused[refusal as usize] += 1;
                self.refused_by[call.operation() as usize][refusal as usize] += 1;
            }
            Ok(accepted) => {
                self.accepted[call.operation() as usize] += 1;
                self.advances += usize::from(accepted == Accepted::Advanced(true));
                if let Call::Write { bytes, .. } = call {
                    self.empty_writes += usize::from(bytes.is_empty());
                    self.whole_writes += usize::from(bytes.len() == 256);
                }
            }
        }
    }

    fn note_state(&mut self, ledger: &Ledger) {
        let figures = ledger.figures();
        self.most_small = self.most_small.max(figures.small);
        self.most_large = self.most_large.max(figures.large);
        self.most_expirations = self.most_expirations.max(figures.expirations);
        let running = (0..16).filter(|&task| ledger.tasks().is_running(task)).count();
        self.most_running = self.most_running.max(running);
    }

    pub fn print(&self) {
        for (operation, tests) in TESTS {
            let (accepted, refused) = (self.accepted[operation as usize], &self.refused_by[operation as usize]);
            let refused: Vec<_> = tests.iter().map(|&number| (number, refused[number])).collect();
            println!("{operation:?}: accepted {accepted}, refused by number {refused:?}");
        }
        for (number, count) in self.refused.iter().enumerate().filter(|(_, &count)| count > 0) {
            println!("refused {number}: {count}");
        }
        println!("advances: {}, most running: {}", self.advances, self.most_running);
        println!("most small, large, expirations: {}, {}, {}", self.most_small, self.most_large, self.most_expirations);
        println!("writes of no byte, of 256: {}, {}", self.empty_writes, self.whole_writes);
        println!("longest output: {}", self.longest_output);
        self.remaining.print("remaining", &remaining::SITUATIONS);
        self.batch.print("batch", &batch::SITUATIONS);
        self.waiting.print("waiting", &waiting::SITUATIONS);
        self.pinned.print("pinned", &pinned::SITUATIONS);
        self.shares.print("shares", &shares::SITUATIONS);
        self.viewers.print("viewers", &viewers::SITUATIONS);
        self.sized.print("sized", &sized::SITUATIONS);
    }
}
