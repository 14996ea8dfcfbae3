//! What a call asks, and what an accepted one is told, in words.

use crate::call::{Accepted, Call, Figures, Kind, Lifetime, Model};
use crate::explain::phrases::{counted, due, listed, shown_bytes};
use crate::explain::watch::{Change, Watch};
use crate::limits::{Limits, Store, LARGEST_BATCH, STORES};
use crate::share::{Quota, Share};
use crate::tasks::State;

/// What the call asks.
pub fn asked(call: &Call) -> String {
    match *call {
        Call::Join { task, share } => format!("join of task {task}{}", share_words(share)),
        Call::Leave { task } => format!("leave of task {task}"),
        Call::Block { task } => format!("block of task {task}"),
        Call::Resume { task } => format!("resume of task {task}"),
        Call::Tick { task } => format!("tick of task {task}"),
        Call::Make { task, kind, extension, length, prefix } => {
            let bytes = counted(length.into(), "byte");
            format!("task {task}, make of {bytes}{}, {}", prefix_words(prefix), kind_words(kind, extension))
        }
        Call::Refresh { task, kind, extension, handle } => {
            format!("task {task}, refresh of object {handle}, {}", kind_words(kind, extension))
        }
        Call::Read { task, handle } => format!("task {task}, read of object {handle}"),
        Call::Write { task, handle, offset, bytes } => {
            format!("task {task}, write of {} at offset {offset} of object {handle}", counted(bytes.len(), "byte"))
        }
        Call::Report => "report".into(),
        Call::Remaining { task, handle } => format!("task {task}, remaining life of object {handle}"),
        Call::Batch { task, kind, extension, handles } => {
            let objects = match handles.count() {
                0..=LARGEST_BATCH => listed("object", &handles.iter().collect::<Vec<_>>()),
                count => counted(count, "object"),
            };
            format!("task {task}, refresh of {objects}, {}", kind_words(kind, extension))
        }
        Call::Release { task, handle } => format!("task {task}, release of object {handle}"),
        Call::View { task } => format!("join of task {task} as a viewer"),
    }
}

/// Nothing where viewers see nothing.
fn prefix_words(prefix: u16) -> String {
    match prefix {
        0 => String::new(),
        _ => format!(" with a prefix of {prefix}"),
    }
}

/// Nothing of a store in which the task has neither a reserve nor a limit.
fn share_words(share: Share) -> String {
    let words = |store: Store| Some(format!("{} in the {} store", quota_words(share.of(store))?, store.name()));
    let parts: Vec<_> = STORES.into_iter().filter_map(words).collect();
    if parts.is_empty() {
        return String::new();
    }
    format!(" with {}", parts.join(", and "))
}

fn quota_words(Quota { reserve, limit }: Quota) -> Option<String> {
    let open = Quota::OPEN;
    match (reserve != open.reserve, limit != open.limit) {
        (false, false) => None,
        (true, false) => Some(format!("a reserve of {reserve}")),
        (false, true) => Some(format!("a limit of {limit}")),
        (true, true) => Some(format!("a reserve of {reserve} and a limit of {limit}")),
    }
}

fn kind_words(kind: Kind, extension: u8) -> String {
    match (kind, extension) {
        (Kind::Local, _) => format!("local with extension {extension}"),
        (Kind::Global, _) => format!("global with extension {extension}"),
        (Kind::Pinned, 0) => "pinned".into(),
        (Kind::Pinned, _) => format!("pinned with extension {extension}"),
    }
}

/// What it is told, from the ledger after it.
pub fn told(watch: &Watch, call: &Call, change: &Change) -> String {
    match *call {
        Call::Join { .. } => "it runs, from local time 0 on".into(),
        Call::Leave { .. } => format!("it is absent{}; {}", departed(change), time(watch, change)),
        Call::Block { .. } => format!("it waits; {}", time(watch, change)),
        Call::Resume { .. } => format!("it runs again, after it waited since line {}", change.before),
        Call::Tick { .. } => time(watch, change),
        Call::Make { task, kind, extension, length, .. } => {
            let (handle, store) = (watch.ledger.figures().given, store_of(length).name());
            format!("object {handle} in the {store} store, until {}", due(watch.expiration(task, kind, extension)))
        }
        Call::Refresh { task, kind, extension, handle } => {
            let (until, count) = (due(watch.expiration(task, kind, extension)), watch.trail.count(handle));
            format!("one expiration more, until {until}; it has {count}")
        }
        Call::Read { task, handle } => bytes(watch, task, handle),
        Call::Write { .. } => "done".into(),
        Call::Report => figures(watch.ledger.figures(), watch.ledger.limits()),
        Call::Remaining { task, handle } => remaining(watch, task, handle),
        Call::Batch { task, kind, extension, .. } => {
            format!("one expiration more for each, until {}", due(watch.expiration(task, kind, extension)))
        }
        Call::Release { handle, .. } => match watch.trail.count(handle) {
            0 => format!("it is pinned no longer{}", gone(&change.gone)),
            count => format!("it is pinned no longer; it has {}", counted(count, "expiration")),
        },
        Call::View { .. } => "it sees prefixes, and global time does not wait for it".into(),
    }
}

/// What a leaver leaves behind.
fn departed(change: &Change) -> String {
    match change.departed {
        0 => String::new(),
        count => format!(", and departed as the setter of {}", counted(count, "global expiration")),
    }
}

/// Whether global time advances or for whom it waits, and what is put off and what goes.
fn time(watch: &Watch, change: &Change) -> String {
    let time = if watch.advanced == watch.line {
        format!("global time advances to {}", watch.ledger.tasks().global())
    } else {
        awaited(watch)
    };
    time + &put_off(&change.put_off) + &gone(&change.gone)
}

fn put_off(objects: &[u32]) -> String {
    match objects.len() {
        0 => String::new(),
        1 => format!("; an expiration of {} is put off", listed("object", objects)),
        _ => format!("; expirations of {} are put off", listed("object", objects)),
    }
}

fn gone(objects: &[u32]) -> String {
    match objects.len() {
        0 => String::new(),
        1 => format!("; {} is gone", listed("object", objects)),
        _ => format!("; {} are gone", listed("object", objects)),
    }
}

fn awaited(watch: &Watch) -> String {
    match watch.awaited() {
        none if none.is_empty() => "no task runs, and global time stands".into(),
        tasks => format!("global time waits for {}", listed("task", &tasks)),
    }
}

/// The store of a length that is none of refusal 7's.
pub fn store_of(length: u16) -> Store {
    Store::holding(length).expect("a length of a store")
}

fn bytes(watch: &Watch, task: u8, handle: u32) -> String {
    match watch.ledger.read(task, handle) {
        Ok(Accepted::Bytes([])) => "its prefix has no byte".into(),
        Ok(Accepted::Bytes(bytes)) if watch.task(task).state == State::Viewing => {
            format!("its prefix, {}", shown_bytes(bytes))
        }
        Ok(Accepted::Bytes(bytes)) => shown_bytes(bytes),
        other => unreachable!("a read was accepted, and now gives {other:?}"),
    }
}

fn figures(Figures { small, large, expirations, given }: Figures, limits: Limits) -> String {
    let (smalls, larges) = (counted(limits.small_blocks, "small object"), limits.large_blocks);
    let most = counted(limits.expirations, "expiration");
    let given = counted(given as usize, "handle");
    format!("{small} of {smalls}, {large} of {larges} large, {expirations} of {most}, {given} given")
}

fn remaining(watch: &Watch, task: u8, handle: u32) -> String {
    match watch.ledger.remaining(task, handle) {
        Ok(Accepted::Remaining(Lifetime { local, global })) => {
            let (ticks, advances) = (counted(local.into(), "tick"), counted(global.into(), "advance"));
            format!("{ticks} of task {task} by its local expirations, {advances} by global ones")
        }
        other => unreachable!("remaining life was told, and now gives {other:?}"),
    }
}
