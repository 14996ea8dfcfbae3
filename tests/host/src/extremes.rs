//! Each call on the records that it works most on, of those that a host can reach: both stores full, 256 expirations
//! standing, and handles that are alike modulo 65536. Calls make all but the handles, which are put in at the end;
//! tests/numbering.rs reaches those by calls, on a record of its own.

use plain::limits::{Limits, BLOCKS, EXPIRATIONS, LARGEST_BATCH, LARGE_BLOCKS, PINNING, SMALL_BLOCKS};
use plain::record::{Quota, Share};
use reference::call::{packed, Call, Handles, Kind};

use crate::cases::{case, line, naming, Case};
use crate::desk::{Arguments, Entry};
use crate::entries::Plain;
use crate::host::Host;
use crate::memory::Memory;
use crate::samples::{renumber, standing, standing_by, Numbering, Setting};

const TASKS: u8 = 15;
const ABSENT: u8 = TASKS;
const ALIKE: Numbering = Numbering::Alike(65_536);
const FULL: (usize, usize) = (SMALL_BLOCKS, LARGE_BLOCKS);
const OBJECTS: usize = BLOCKS;
const LAST_BLOCK: usize = OBJECTS - 1;

/// What a logger does and [`crate::cases`] has not: a fresh record, of either kind, and a scan of sixteen readings.
pub fn usual() -> Vec<Case> {
    let (expirations, count) = (EXPIRATIONS / 2, 16);
    let arguments = naming(expirations, count);
    let handles = packed(&arguments.handles);
    let batch = Call::Batch { task: 0, kind: Kind::Local, extension: 9, handles: Handles(&handles) };
    vec![
        case("fresh", Entry::Fresh, expirations, Arguments::default()),
        case("fresh_sized", Entry::FreshSized, expirations, Arguments::default()),
        case("frame: batch of 16", Entry::Frame, expirations, line(&batch)),
        case("batch of 16", Entry::Batch, expirations, arguments),
    ]
}

pub fn all() -> Vec<Case> {
    let mut cases = on_tasks();
    cases.extend(on_objects());
    cases.extend(frames());
    cases
}

fn extreme(name: &'static str, entry: Entry, mut memory: Memory, arguments: impl Fn(&Memory) -> Arguments) -> Case {
    renumber(&mut memory, ALIKE);
    let arguments = arguments(&memory);
    Case { name, entry, expirations: EXPIRATIONS, numbering: Some(ALIKE), memory, arguments, answer: 0 }
}

fn on_tasks() -> Vec<Case> {
    let by = |task| move |_: &Memory| Arguments { task, ..Arguments::default() };
    let reserve = Quota { reserve: 1, limit: 9 };
    let share = Share { small: reserve, large: reserve };
    let asking = |_: &Memory| Arguments { task: ABSENT, share, ..Arguments::default() };
    let mut cases = vec![
        extreme("join", Entry::Join, full(EXPIRATIONS), by(ABSENT)),
        extreme("join, with reserves", Entry::Join, room_for(FULL.0 - 1, FULL.1 - 1), asking),
        extreme("view", Entry::View, full(EXPIRATIONS), by(ABSENT)),
        extreme("share", Entry::Share, full(EXPIRATIONS), by(0)),
        extreme("resume", Entry::Resume, after(full(EXPIRATIONS), &[Call::Block { task: 1 }]), by(1)),
    ];
    for (leave, block, tick, memory) in [
        ("leave, no advance", "block, no advance", "tick, no advance", full(EXPIRATIONS)),
        ("leave, all local ones end", "block, all are local", "tick, all local ones end", all_local()),
        ("leave, all of both clocks end", "block, half of all end", "tick, all of both clocks end", both_end(true)),
        ("leave, objects stay", "block, objects stay", "tick, objects stay", both_end(false)),
        ("leave, all are global and end", "block, all end", "tick, all are global and end", all_global(1)),
        ("leave, all depart and end", "block, all put off", "tick, all are its own and end", all_global(0)),
        ("leave, all others wait", "block, all others wait", "tick, all put off", all_put_off()),
        ("leave, all are pinned", "block, all are pinned", "tick, all are pinned", all_pinned()),
    ] {
        cases.push(extreme(leave, Entry::Leave, memory.clone(), by(0)));
        cases.push(extreme(block, Entry::Block, memory.clone(), by(0)));
        cases.push(extreme(tick, Entry::Tick, memory, by(0)));
    }
    cases
}

fn on_objects() -> Vec<Case> {
    let make = |size| move |_: &Memory| Arguments { size, extension: 9, ..Arguments::default() };
    let pinned = |_: &Memory| Arguments { size: 256, kind: PINNING, ..Arguments::default() };
    let last = |size| move |memory: &Memory| Arguments { bytes: vec![7; size], ..named(memory, LAST_BLOCK) };
    let small = |size| move |memory: &Memory| Arguments { bytes: vec![7; size], ..named(memory, FULL.0 - 1) };
    vec![
        extreme("make 32, last block", Entry::Make, room_for(FULL.0 - 1, FULL.1), make(32)),
        extreme("make 256, last block", Entry::Make, room_for(FULL.0, FULL.1 - 1), make(256)),
        extreme("refresh, last block", Entry::Refresh, full(EXPIRATIONS - 1), last(0)),
        extreme("refresh, all others on it", Entry::Refresh, all_on_last(EXPIRATIONS - 1), last(0)),
        extreme("read 256, last block", Entry::Read, full(EXPIRATIONS), last(256)),
        extreme("read 32, last small block", Entry::Read, full(EXPIRATIONS), small(32)),
        extreme("write 256, last block", Entry::Write, full(EXPIRATIONS), last(256)),
        extreme("write 255, last block", Entry::Write, full(EXPIRATIONS), last(255)),
        extreme("report", Entry::Report, full(EXPIRATIONS), |_| Arguments::default()),
        extreme("remaining, last block", Entry::Remaining, full(EXPIRATIONS), last(0)),
        extreme("remaining, all others on it", Entry::Remaining, all_on_last(EXPIRATIONS), last(0)),
        extreme("batch of 32, last blocks", Entry::Batch, full(EXPIRATIONS - LARGEST_BATCH), last_handles),
        extreme("make 256, pinned, last block", Entry::Make, room_for(FULL.0, FULL.1 - 1), pinned),
        extreme("release, last block", Entry::Release, last_pinned(0), last(0)),
        extreme("release, all others on it", Entry::Release, last_pinned(LAST_BLOCK), last(0)),
    ]
}

fn frames() -> Vec<Case> {
    let frame = |name, memory, call: &dyn Fn(&Memory) -> Arguments| extreme(name, Entry::Frame, memory, call);
    let tick = |_: &Memory| line(&Call::Tick { task: 0 });
    let object = |memory: &Memory| memory.pool.handles[LAST_BLOCK];
    let make = |_: &Memory| line(&Call::Make { task: 0, kind: Kind::Local, extension: 9, length: 256, prefix: 0 });
    let batch = |memory: &Memory| {
        let handles = packed(&last_handles(memory).handles);
        line(&Call::Batch { task: 0, kind: Kind::Local, extension: 9, handles: Handles(&handles) })
    };
    let write = |memory: &Memory| line(&Call::Write { task: 0, handle: object(memory), offset: 0, bytes: &[7; 256] });
    let read = |memory: &Memory| line(&Call::Read { task: 0, handle: object(memory) });
    let remaining = |memory: &Memory| line(&Call::Remaining { task: 0, handle: object(memory) });
    let release = |memory: &Memory| line(&Call::Release { task: 0, handle: object(memory) });
    vec![
        frame("frame: tick, all of both clocks end", both_end(true), &tick),
        frame("frame: tick, all local ones end", all_local(), &tick),
        frame("frame: tick, objects stay", both_end(false), &tick),
        frame("frame: make 256, last block", room_for(FULL.0, FULL.1 - 1), &make),
        frame("frame: report", full(EXPIRATIONS), &|_| line(&Call::Report)),
        frame("frame: read 256, last block", full(EXPIRATIONS), &read),
        frame("frame: remaining, all others on it", all_on_last(EXPIRATIONS), &remaining),
        frame("frame: write 256, last block", full(EXPIRATIONS), &write),
        frame("frame: release, last block", last_pinned(0), &release),
        frame("frame: release, all others on it", last_pinned(LAST_BLOCK), &release),
        frame("frame: batch of 32, last blocks", full(EXPIRATIONS - LARGEST_BATCH), &batch),
    ]
}

/// The object in this block.
fn named(memory: &Memory, block: usize) -> Arguments {
    Arguments { handle: memory.pool.handles[block], extension: 9, ..Arguments::default() }
}

/// The objects of the last blocks, the last first.
fn last_handles(memory: &Memory) -> Arguments {
    let handles = memory.pool.handles.iter().rev().take(LARGEST_BATCH).copied().collect();
    Arguments { handles, extension: 9, ..Arguments::default() }
}

fn full(expirations: usize) -> Memory {
    standing(usize::from(TASKS), FULL, expirations)
}

/// Room for one object and its expiration.
fn room_for(small: usize, large: usize) -> Memory {
    standing(usize::from(TASKS), (small, large), EXPIRATIONS - 1)
}

fn set(expirations: usize, setting: impl Fn(usize) -> Setting) -> Memory {
    standing_by(Limits::STANDARD, usize::from(TASKS), FULL, expirations, setting)
}

/// One expiration on each object, and all others on that of the last block.
fn all_on_last(expirations: usize) -> Memory {
    let object = LAST_BLOCK;
    set(expirations, |count| Setting { task: 0, kind: alternate(count), extension: 5 + (count % 26) as u8, object })
}

/// Each object is pinned, and has more by turns.
fn all_pinned() -> Memory {
    awaits_0(set(EXPIRATIONS, |count| pinned_where(count < OBJECTS, count, count % OBJECTS)))
}

/// The object of the last block is pinned, one expiration is on each other, and all more are on this object.
fn last_pinned(object: usize) -> Memory {
    set(EXPIRATIONS, |count| pinned_where(count == LAST_BLOCK, count, object))
}

fn pinned_where(pins: bool, count: usize, object: usize) -> Setting {
    let (kind, extension) = if pins { (Kind::Pinned, 0) } else { (alternate(count), 5 + (count % 26) as u8) };
    Setting { task: (count % 2) as u8, kind, extension, object }
}

/// All go by task 0, at its next tick.
fn all_local() -> Memory {
    set(EXPIRATIONS, |count| Setting { task: 0, kind: Kind::Local, extension: 0, object: count % OBJECTS })
}

/// All are of one setter and go at the next advance, and the next tick, leave or block of task 0 is one.
fn all_global(task: u8) -> Memory {
    awaits_0(set(EXPIRATIONS, |count| Setting { task, kind: Kind::Global, extension: 0, object: count % OBJECTS }))
}

/// All are global and would go at the next advance, which is the next tick of task 0; but all who set them wait.
fn all_put_off() -> Memory {
    let setter = |count| 1 + (count % usize::from(TASKS - 1)) as u8;
    let memory = awaits_0(set(EXPIRATIONS, |count| Setting {
        task: setter(count),
        kind: Kind::Global,
        extension: 0,
        object: count % OBJECTS,
    }));
    let blocks: Vec<_> = (1..TASKS).map(|task| Call::Block { task }).collect();
    after(memory, &blocks)
}

/// By turns local of task 0 and global of task 1. At the next tick of task 0, which advances, all end, or only those beyond
/// the first of each object.
fn both_end(all: bool) -> Memory {
    awaits_0(set(EXPIRATIONS, |count| {
        let extension = if !all && count < OBJECTS { 30 } else { u8::from(count % 2 == 0) };
        Setting { task: (count % 2) as u8, kind: alternate(count), extension, object: count % OBJECTS }
    }))
}

fn alternate(count: usize) -> Kind {
    match count % 2 {
        0 => Kind::Local,
        _ => Kind::Global,
    }
}

/// All have ticked, and once more all but task 0.
fn awaits_0(memory: Memory) -> Memory {
    let tick = |task| Call::Tick { task };
    let calls: Vec<_> = (0..TASKS).map(tick).chain((1..TASKS).map(tick)).collect();
    after(memory, &calls)
}

fn after(memory: Memory, calls: &[Call]) -> Memory {
    let mut host = Host::<Plain>::new(memory);
    for call in calls {
        assert!(host.call(call).is_ok(), "{call:?}");
    }
    host.memory
}
