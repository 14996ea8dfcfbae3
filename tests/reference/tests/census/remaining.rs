//! Order 1: on what objects a task asks how much remains.

use reference::call::Call;
use reference::expiration::Remaining;
use reference::ledger::Ledger;

/// The units left of the expirations on a standing object: the asker's local ones, the other tasks', the global ones.
#[derive(Default)]
pub struct Asked {
    own: Vec<u64>,
    others: Vec<u64>,
    global: Vec<u64>,
}

type Situation = (&'static str, fn(&Asked) -> bool);
pub type Met = super::Met<{ SITUATIONS.len() }>;

pub const SITUATIONS: [Situation; 10] = [
    ("several of each", |asked| asked.own.len().min(asked.others.len()).min(asked.global.len()) > 1),
    ("another task's is the longest local one", |asked| {
        !asked.own.is_empty() && asked.others.iter().max() > asked.own.iter().max()
    }),
    ("local ones of others and global ones", |asked| {
        asked.own.is_empty() && !asked.others.is_empty() && !asked.global.is_empty()
    }),
    ("local ones of others alone", |asked| asked.own.is_empty() && asked.global.is_empty()),
    ("the asker's alone", |asked| asked.others.is_empty() && asked.global.is_empty()),
    ("global ones alone", |asked| asked.own.is_empty() && asked.others.is_empty()),
    ("31 units local", |asked| asked.own.contains(&31)),
    ("32 units global", |asked| asked.global.contains(&32)),
    ("the last unit local", |asked| asked.own.iter().max() == Some(&1)),
    ("the last unit global", |asked| asked.global.iter().max() == Some(&1)),
];

/// Counts the call if it asks, by a running task, for a standing object.
pub fn note(met: &mut Met, call: &Call, ledger: &Ledger) {
    let &Call::Remaining { task, handle } = call else { return };
    let standing = ledger.standing();
    let Some(object) = standing.iter().find(|object| object.handle == handle) else { return };
    if !ledger.tasks().is_running(task) {
        return;
    }
    let mut asked = Asked::default();
    for left in &object.expirations {
        match *left {
            Remaining::Local { setter, units } if setter == task => asked.own.push(units),
            Remaining::Local { units, .. } => asked.others.push(units),
            Remaining::Global { units, .. } => asked.global.push(units),
            Remaining::Pinned => {}
        }
    }
    met.note(&SITUATIONS, &asked);
}
