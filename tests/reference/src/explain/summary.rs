//! A script summed up: peaks, the room that it needs, refusals, the longest standstill of global time, and the blocks of each task.

use super::phrases::{counted, listed};
use super::refusals::name;
use super::room::{needs, Need};
use super::watch::awaited;
use super::Line;
use crate::call::Refusal;
use crate::limits::{Limits, TASKS};

/// One line for each.
pub fn summary(limits: Limits, lines: &[Line]) -> String {
    let (title, peaks, room) = (vec![title(lines)], peaks(limits, lines), room(limits, lines));
    let all = [title, peaks, room, refusals(lines), vec![standstill(lines)], blocks(lines)];
    all.concat().iter().map(|line| format!("{line}\n")).collect()
}

pub fn title(lines: &[Line]) -> String {
    let refused = lines.iter().filter(|line| line.refusal.is_some()).count();
    format!("A script of {}, {refused} refused", counted(lines.len(), "line"))
}

/// The most that stood at a time, and the first line at which it did.
pub fn peaks(limits: Limits, lines: &[Line]) -> Vec<String> {
    let figures = |line: &Line| line.after.figures;
    vec![
        peak("small objects", limits.small_blocks, lines.iter().map(|line| figures(line).small.into())),
        peak("large objects", limits.large_blocks, lines.iter().map(|line| figures(line).large.into())),
        peak("expirations", limits.expirations, lines.iter().map(|line| figures(line).expirations.into())),
    ]
}

fn peak(what: &str, limit: usize, values: impl Iterator<Item = usize>) -> String {
    // Of equal ones the first.
    let first = (1..).zip(values).fold((0, 0), |most, (line, value)| if value > most.1 { (line, value) } else { most });
    match first {
        (_, 0) => format!("{what}: none of {limit}"),
        (line, most) => format!("{what}: at most {most} of {limit}, first at line {line}"),
    }
}

/// Order 11: the peaks with room for all, and where they would pass what the pool has.
pub fn room(limits: Limits, lines: &[Line]) -> Vec<String> {
    let names = ["small objects", "large objects", "expirations"];
    let words = |(name, need): (&str, Need)| format!("{name}, with room for all: {}", need.words());
    names.into_iter().zip(needs(limits, lines)).map(words).collect()
}

/// How often each refusal came, by number.
pub fn refusals(lines: &[Line]) -> Vec<String> {
    let mut refused: Vec<(usize, Refusal)> =
        (1..).zip(lines).filter_map(|(number, line)| Some((number, line.refusal?))).collect();
    refused.sort_by_key(|&(_, refusal)| refusal as u8);
    refused.chunk_by(|(_, a), (_, b)| a == b).map(refusal).collect()
}

fn refusal(refused: &[(usize, Refusal)]) -> String {
    let (first, refusal) = refused[0];
    let (last, _) = refused[refused.len() - 1];
    let place = if first == last { format!("at line {first}") } else { format!("at lines {first} to {last}") };
    format!("{}, {place}", times(refused.len(), refusal))
}

/// `12 x refusal 9: no free block`.
pub fn times(count: usize, refusal: Refusal) -> String {
    format!("{count} x refusal {}: {}", refusal as u8, name(refusal))
}

/// The most lines in a row without an advance, and for whom global time waited at the last of them.
pub fn standstill(lines: &[Line]) -> String {
    let mut start = 0;
    let mut longest = 0..0;
    for stretch in lines.chunk_by(|a, b| a.after.global == b.after.global) {
        let end = start + stretch.len();
        if stretch.len() > longest.len() {
            longest = start..end;
        }
        start = end;
    }
    let Some(last) = lines[longest.clone()].last() else { return "global time: no line".into() };
    let whom = match awaited(&last.after.tasks) {
        none if none.is_empty() => "no task ran".into(),
        tasks => format!("for {}", listed("task", &tasks)),
    };
    let (time, first, count) = (last.after.global, longest.start + 1, counted(longest.len(), "line"));
    format!("global time: longest at {time}, {count} from {first} to {}, at last {whom}", longest.end)
}

/// Of each task that made any: how many, the most at a time, and what is left of them.
fn blocks(lines: &[Line]) -> Vec<String> {
    (0..TASKS).filter_map(|task| blocks_of(task, lines)).collect()
}

fn blocks_of(task: usize, lines: &[Line]) -> Option<String> {
    let made = lines.iter().filter(|line| line.accepted("make") == Some(task)).count();
    let held = || lines.iter().map(|line| line.after.held[task]);
    let (most, end) = (held().max().unwrap_or(0), held().next_back().unwrap_or(0));
    (made > 0).then(|| format!("blocks of task {task}: {made} made, at most {most} at a time, {end} at the end"))
}
