//! The text of a plan: a line for each channel, with its five numbers.

use crate::limits::{Limits, TASKS};
use crate::program::decimal;

/// The most bytes of a plan's text: sixteen lines of four numbers with five digits, one with two, four blanks and an LF.
pub const LIMIT: usize = TASKS * (4 * 5 + 2 + 4 + 1);

/// G1: it polls every p steps, is replied to after r, is silent from step s on, and gives up after w, where 0 is never. What
/// a poll makes has the extension e.
#[derive(Clone, Copy, Debug, PartialEq, Eq)]
pub struct Channel {
    pub period: u16,
    pub reply: u16,
    pub silent: u16,
    pub wait: u16,
    pub extension: u8,
}

/// G2: the channels of a plan, or none where the text is not one.
pub fn read(text: &[u8]) -> Option<Vec<Channel>> {
    let lines = std::str::from_utf8(text).ok()?.strip_suffix('\n')?;
    let plan = lines.split('\n').map(channel).collect::<Option<Vec<_>>>()?;
    (plan.len() <= TASKS).then_some(plan)
}

/// Five numbers with one blank between.
fn channel(line: &str) -> Option<Channel> {
    let numbers = line.split(' ').map(decimal).collect::<Option<Vec<u16>>>()?;
    let [period, reply, silent, wait, extension] = numbers[..] else { return None };
    let is_one = period >= 1 && reply >= 1 && usize::from(extension) <= Limits::STANDARD.extension;
    is_one.then_some(Channel { period, reply, silent, wait, extension: extension as u8 })
}

/// The line of a channel.
impl std::fmt::Display for Channel {
    fn fmt(&self, f: &mut std::fmt::Formatter<'_>) -> std::fmt::Result {
        let Channel { period, reply, silent, wait, extension } = self;
        writeln!(f, "{period} {reply} {silent} {wait} {extension}")
    }
}
