//! Scripts as long as may be, which take the most of what the room of a script is worked out in, of its tables or of its
//! time (order 11). Task 0 does nearly all; handle 1 is a small object, pinned.

use crate::script::LIMIT;

/// With no reserve and no limit.
const JOIN: &str = "010000FF00FF\n";
const JOIN_1: &str = "010100FF00FF\n";
const BLOCK_1: &str = "0301\n";
const TICK: &str = "0500\n";
const TICK_1: &str = "0501\n";
const PIN: &str = "0600020000010000\n";
/// For a tick.
const MAKE: &str = "0600000000010000\n";
const REFRESH: &str = "0700001E00000001\n";
const RELEASE: &str = "0D0000000001\n";

/// The kinds, as a frame has them.
const LOCAL: u8 = 0;
const GLOBAL: u8 = 1;

/// The most objects of one batch.
const MANY: usize = 32;

/// All of them, by name.
pub fn scripts() -> Vec<(&'static str, Vec<u8>)> {
    let alone = [JOIN, PIN].concat();
    let two = [JOIN, JOIN_1, PIN].concat();
    let beside_a_waiting_one = [&two, BLOCK_1].concat();
    vec![
        ("makes", most_objects()),
        ("expirations", most_expirations()),
        // Nothing ends: the other's time stands still.
        ("ticks", then(two.clone() + &batches(1, LOCAL, 30), TICK)),
        // Each advance puts all off.
        ("put off", then(two.clone() + &batches(1, GLOBAL, 30) + BLOCK_1, TICK)),
        // All end early, with nobody else there or with one that waits.
        ("lapses", then(alone.clone() + &batches(0, LOCAL, 0), TICK)),
        ("lapses, waiting", then(beside_a_waiting_one + &batches(0, GLOBAL, 0), TICK)),
        ("late makes", then(alone.clone() + &batches(0, LOCAL, 30), PIN)),
        ("releases", then(alone.clone() + &batches(0, LOCAL, 30), RELEASE)),
        ("batches", then(alone.clone(), &batch(0, LOCAL, 0, MANY))),
        ("batches, rounds", then(two, &[&batch(0, GLOBAL, 2, MANY), TICK, TICK_1].concat())),
        ("refreshes", then(alone, REFRESH)),
        ("makes, ticks", then(JOIN.to_string(), &[MAKE, TICK].concat())),
    ]
}

/// A join and 3,854 makes.
pub fn most_objects() -> Vec<u8> {
    then(JOIN.to_string(), PIN)
}

/// A join, a make, 247 batches of 32 and one of 5: 7,910 expirations.
pub fn most_expirations() -> Vec<u8> {
    let batches = batch(0, LOCAL, 30, MANY).repeat(247) + &batch(0, LOCAL, 30, 5);
    whole([JOIN, PIN, &batches].concat())
}

/// This beginning, and then these lines as often as can be.
fn then(beginning: String, again: &str) -> Vec<u8> {
    let times = (LIMIT + 1 - beginning.len()) / again.len();
    whole(beginning + &again.repeat(times))
}

/// Without the last LF, so that a line more may have room.
fn whole(script: String) -> Vec<u8> {
    script.trim_end().as_bytes().to_vec()
}

/// About half of the longest script: 3,904 expirations.
fn batches(task: u8, kind: u8, extension: u8) -> String {
    batch(task, kind, extension, MANY).repeat(122)
}

/// It names one object over and over.
fn batch(task: u8, kind: u8, extension: u8, size: usize) -> String {
    format!("0C{task:02X}{kind:02X}{extension:02X}{}\n", "00000001".repeat(size))
}
