//! What is measured: each call on records where few and many expirations stand, accepted and refused, and on those whose
//! handles make the fit test work most.

use plain::limits::{Limits, EXPIRATIONS, LARGEST_BATCH, PINNING, SMALL_SIZE, TASKS};
use plain::record::{is_global, Quota, Share, FREE, LOCAL, PINNED, RUNNING, VIEWING, WAITING};
use plain::work;
use reference::call::{packed, Call, Handles, Kind};
use reference::frame::encode;

use crate::desk::{action, Action, Arguments, Entry, Subject};
use crate::memory::Memory;
use crate::samples::{renumber, standing, standing_by, Numbering, Setting, NUMBERINGS};

/// How many expirations stand. Where a call sets one more, 255 stand for 256, and where it sets 32, 224.
pub const STANDING: [usize; 4] = [0, 64, 128, 256];

/// The tasks that run and set expirations. The next one waits, and the one after it is absent.
const RUN: u8 = 14;
const WAITS: u8 = RUN;
const ABSENT: u8 = RUN + 1;
const NONE: u8 = 16;

pub struct Case {
    pub name: &'static str,
    pub entry: Entry,
    pub expirations: usize,
    /// How the objects are numbered, where that is what the case is about.
    pub numbering: Option<Numbering>,
    pub memory: Memory,
    pub arguments: Arguments,
    /// The number of the answer.
    pub answer: u8,
}

impl Case {
    /// The function to measure, if the subject has it: the work alone does not test the record.
    pub fn action(&self, subject: Subject) -> Option<Action> {
        action(self.entry, subject).filter(|_| self.answer != 15 || subject != Subject::Work)
    }
}

/// All cases, each the same for every subject.
pub fn all() -> Vec<Case> {
    let usual = STANDING.iter().flat_map(|&expirations| cases_with(expirations));
    usual.chain(NUMBERINGS.iter().flat_map(|&numbering| numbered(numbering))).collect()
}

fn cases_with(expirations: usize) -> Vec<Case> {
    let mut cases = calls_on_tasks(expirations);
    cases.extend(calls_on_objects(expirations));
    cases.extend(frames(expirations));
    cases.extend(refusals(expirations));
    cases.push(case("the fit test alone", Entry::Fit, expirations, Arguments::default()));
    cases
}

fn calls_on_tasks(expirations: usize) -> Vec<Case> {
    let by = |task| Arguments { task, ..Arguments::default() };
    let reserve = Quota { reserve: 1, limit: 9 };
    let asking = Arguments { share: Share { small: reserve, large: reserve }, ..by(ABSENT) };
    let mut cases = vec![
        case("join", Entry::Join, expirations, by(ABSENT)),
        case("join, with reserves", Entry::Join, expirations, asking),
        case("view", Entry::View, expirations, by(ABSENT)),
        case("share", Entry::Share, expirations, by(0)),
        case("leave", Entry::Leave, expirations, by(0)),
        case("block", Entry::Block, expirations, by(1)),
        case("resume", Entry::Resume, expirations, by(WAITS)),
        case("tick", Entry::Tick, expirations, by(1)),
    ];
    if expirations > 0 {
        cases.push(all_reserve(case("tick, all have reserves", Entry::Tick, expirations, by(1))));
        let mut ends = case("tick, one expires", Entry::Tick, expirations, by(0));
        last_is_due_next(&mut ends.memory, |clock| clock == LOCAL);
        let mut advances = case("tick, advances, one expires", Entry::Tick, expirations, by(0));
        last_is_due_next(&mut advances.memory, is_global);
        let others = advances.memory.pool.tasks.iter_mut().skip(1).filter(|task| task.state == RUNNING);
        others.for_each(|task| task.ticked = 1);
        let mut all = case("tick, all expire", Entry::Tick, expirations, by(0));
        all.memory.pool.clocks[..expirations].fill(LOCAL);
        all.memory.pool.dues[..expirations].fill(1);
        cases.extend([ends, advances, all]);
        for (name, wait) in [("tick, advances, none put off", false), ("tick, advances, all put off", true)] {
            let memory = set_by_others(expirations, wait);
            cases.push(Case { memory, ..case(name, Entry::Tick, expirations, by(0)) });
        }
    }
    cases
}

/// Each task has a reserve of what it has made, and room for nine more.
fn all_reserve(mut case: Case) -> Case {
    for task in 0..=WAITS {
        let held = work::share(&case.memory.pool, task).expect("a task");
        let quota = |made: u8| Quota { reserve: made, limit: made + 9 };
        case.memory.pool.shares[usize::from(task)] =
            Share { small: quota(held.small.made), large: quota(held.large.made) };
    }
    case
}

/// The last expiration that goes by this clock, which reads 0, is due when it reads 1.
fn last_is_due_next(memory: &mut Memory, goes_by: fn(u8) -> bool) {
    let last = memory.pool.clocks.iter().rposition(|&clock| goes_by(clock));
    memory.pool.dues[last.expect("some go by this clock")] = 1;
}

/// All expirations are global, and the fifteen tasks that have set them all wait, or have all ticked. Task 0 runs.
fn set_by_others(expirations: usize, wait: bool) -> Memory {
    let mut memory = standing_by(Limits::STANDARD, TASKS, objects(expirations), expirations, |count| Setting {
        task: 1 + (count % (TASKS - 1)) as u8,
        kind: Kind::Global,
        extension: 5 + (count % 26) as u8,
        object: count % (objects(expirations).0 + objects(expirations).1),
    });
    for task in &mut memory.pool.tasks[1..] {
        task.state = if wait { WAITING } else { RUNNING };
        task.ticked = u16::from(!wait);
    }
    memory
}

fn calls_on_objects(expirations: usize) -> Vec<Case> {
    let make = |size| Arguments { size, extension: 9, ..Arguments::default() };
    let pinned = Arguments { size: 32, kind: PINNING, ..Arguments::default() };
    let mut cases = vec![
        case("make 32", Entry::Make, expirations, make(32)),
        case("make 256", Entry::Make, expirations, make(256)),
        case("make 32, pinned", Entry::Make, expirations, pinned),
        all_reserve(case("make 32, all have reserves", Entry::Make, expirations, make(32))),
        case("report", Entry::Report, expirations, Arguments::default()),
    ];
    if expirations > 0 {
        let (small, large) = last_handles(expirations);
        let with = |handle, size| Arguments { handle, bytes: vec![7; size], extension: 9, ..Arguments::default() };
        cases.extend([
            case("refresh", Entry::Refresh, expirations, with(small, 0)),
            case("read 32", Entry::Read, expirations, with(small, 32)),
            case("read 256", Entry::Read, expirations, with(large, 256)),
            case("write 32", Entry::Write, expirations, with(small, 32)),
            case("write 256", Entry::Write, expirations, with(large, 256)),
            case("remaining", Entry::Remaining, expirations, with(small, 0)),
            viewed(case("read 256, by a viewer", Entry::Read, expirations, with(large, 256))),
            all_on_one(case("remaining, all on the object", Entry::Remaining, expirations, with(1, 0))),
            all_on_one(case("read 32, all on the object", Entry::Read, expirations, with(1, 32))),
            case("batch of 1", Entry::Batch, expirations, naming(expirations, 1)),
            case(BATCH, Entry::Batch, expirations, naming(expirations, LARGEST_BATCH)),
            case(ONE_BY_ONE, Entry::OneByOne, expirations, naming(expirations, LARGEST_BATCH)),
            pinned_alone(case("release, gone", Entry::Release, expirations, with(large, 0))),
            last_pins(all_on_one(case("release, all others on it", Entry::Release, expirations, with(1, 0)))),
        ]);
    }
    cases
}

/// A scan refreshed by one call, and the same by as many.
pub const BATCH: &str = "batch of 32";
pub const ONE_BY_ONE: &str = "32 refreshes";

/// So many objects, from all over the blocks.
pub(crate) fn naming(expirations: usize, count: usize) -> Arguments {
    let (small, large) = objects(expirations);
    let handles = (0..count).map(|place| 1 + (place * (small + large) / count) as u32).collect();
    Arguments { handles, extension: 9, ..Arguments::default() }
}

/// The case on a record with no other object.
fn all_on_one(case: Case) -> Case {
    Case { memory: standing(usize::from(RUN), (1, 0), case.expirations), ..case }
}

/// The absent task views, and makes the call.
fn viewed(mut case: Case) -> Case {
    case.memory.pool.tasks[usize::from(ABSENT)].state = VIEWING;
    case.arguments.task = ABSENT;
    case
}

/// The last expiration pins its object, beside whatever else is on it.
fn last_pins(mut case: Case) -> Case {
    let pool = &mut case.memory.pool;
    let last = pool.clocks.iter().rposition(|&clock| clock != FREE).expect("expirations stand");
    (pool.clocks[last], pool.dues[last]) = (PINNED, 0);
    case
}

/// The last expiration pins the last object, and all others are on other ones.
fn pinned_alone(case: Case) -> Case {
    let mut case = last_pins(case);
    let pool = &mut case.memory.pool;
    let last = pool.clocks.iter().rposition(|&clock| clock != FREE).expect("expirations stand");
    let block = pool.handles.iter().rposition(|&handle| handle != 0).expect("objects stand") as u8;
    pool.named.iter_mut().filter(|named| **named == block).for_each(|named| *named = 0);
    pool.named[last] = block;
    case
}

fn frames(expirations: usize) -> Vec<Case> {
    let frame = |name, call| case(name, Entry::Frame, expirations, line(&call));
    let mut make = frame(
        "frame: make 32",
        Call::Make { task: 0, kind: Kind::Local, extension: 9, length: SMALL_SIZE as u16, prefix: 0 },
    );
    make.memory = sample(expirations.min(255));
    let mut cases = vec![frame("frame: tick", Call::Tick { task: 1 }), make, frame("frame: report", Call::Report)];
    if expirations > 0 {
        let (_, handle) = last_handles(expirations);
        cases.push(frame("frame: read 256", Call::Read { task: 0, handle }));
        cases.push(frame("frame: remaining", Call::Remaining { task: 0, handle }));
        cases.push(frame("frame: write 256", Call::Write { task: 0, handle, offset: 0, bytes: &[7; 256] }));
        let handles = packed(&naming(expirations, LARGEST_BATCH).handles);
        let batch = Call::Batch { task: 0, kind: Kind::Local, extension: 9, handles: Handles(&handles) };
        let memory = sample(expirations.min(EXPIRATIONS - LARGEST_BATCH));
        cases.push(Case { memory, ..frame("frame: batch of 32", batch) });
        cases.push(pinned_alone(frame("frame: release", Call::Release { task: 0, handle })));
    }
    cases
}

/// Refused with 1 after the test of well-formedness, with 26 and 9 by shares, with 27 and 28, with 15 where the fault is found
/// last or first, and with 23.
fn refusals(expirations: usize) -> Vec<Case> {
    let by = |task| Arguments { task, size: 32, handle: 1, ..Arguments::default() };
    let refused = |name, entry, task, answer| Case { answer, ..case(name, entry, expirations, by(task)) };
    let mut cases = vec![
        refused("tick, refused 1", Entry::Tick, NONE, 1),
        refused("make, refused 1", Entry::Make, NONE, 1),
        refused("read, refused 1", Entry::Read, NONE, 1),
    ];
    let mut limited = refused("make, refused 26", Entry::Make, 0, 26);
    let made = work::share(&limited.memory.pool, 0).expect("a task").small.made;
    limited.memory.pool.shares[0].small.limit = made;
    let mut held_back = refused("make, refused 9, held back", Entry::Make, 0, 9);
    let free = held_back.memory.pool.handles[..64].iter().filter(|&&handle| handle == 0).count() as u8;
    held_back.memory.pool.shares[usize::from(WAITS)].small = Quota { reserve: free, limit: free };
    cases.extend([limited, held_back]);
    cases.push(viewed(refused("make, refused 27", Entry::Make, ABSENT, 27)));
    let mut too_long = refused("make, refused 28", Entry::Make, 0, 28);
    too_long.arguments.prefix = 33;
    cases.push(too_long);
    let mut first = refused("tick, refused 15 at the first entry", Entry::Tick, 1, 15);
    first.memory.pool.tasks[0].state = 4;
    cases.push(first);
    if expirations > 0 {
        let mut last = refused("tick, refused 15 at the last object", Entry::Tick, 1, 15);
        let block = last.memory.pool.handles.iter().rposition(|&handle| handle != 0);
        last.memory.pool.extents[block.expect("objects stand")] = 0;
        cases.push(last);
        let (_, handle) = last_handles(expirations);
        let with = Arguments { handle, bytes: vec![7; 256], ..Arguments::default() };
        for (name, entry) in [("read 256, refused 23", Entry::Read), ("write 256, refused 23", Entry::Write)] {
            cases.push(changed_outside(Case { answer: 23, ..case(name, entry, expirations, with.clone()) }));
        }
    }
    cases
}

/// The last byte of the object's block is another.
fn changed_outside(mut case: Case) -> Case {
    let place = case.memory.place(case.arguments.handle).expect("the object stands");
    case.memory.block_mut(place)[255] ^= 1;
    case
}

pub(crate) fn case(name: &'static str, entry: Entry, expirations: usize, arguments: Arguments) -> Case {
    let sets = match entry {
        Entry::Make | Entry::Refresh => 1,
        Entry::Batch | Entry::OneByOne => arguments.handles.len(),
        _ => 0,
    };
    let memory = sample(expirations.min(EXPIRATIONS - sets));
    Case { name, entry, expirations, numbering: None, memory, arguments, answer: 0 }
}

/// As many objects as the call leaves room for, numbered so.
fn numbered(numbering: Numbering) -> [Case; 2] {
    let tick = case("tick, 96 objects", Entry::Tick, 256, Arguments { task: 1, ..Arguments::default() });
    let with = Arguments { size: 32, extension: 9, ..Arguments::default() };
    let make = case("make 32, 95 objects", Entry::Make, 256, with);
    [(tick, 64, 256), (make, 63, 255)].map(|(case, small, expirations)| {
        let mut memory = standing(usize::from(RUN), (small, 32), expirations);
        renumber(&mut memory, numbering);
        Case { memory, numbering: Some(numbering), ..case }
    })
}

/// So many expirations on half as many objects at least, and a free block in each store.
fn sample(expirations: usize) -> Memory {
    let mut memory = standing(usize::from(RUN), objects(expirations), expirations);
    memory.pool.tasks[usize::from(WAITS)].state = WAITING;
    memory
}

/// Small and large objects.
fn objects(expirations: usize) -> (usize, usize) {
    match expirations {
        0 => (0, 0),
        1..=64 => (32, 16),
        _ => (63, 31),
    }
}

/// The handles of the last small object and of the last large one.
fn last_handles(expirations: usize) -> (u32, u32) {
    let (small, large) = objects(expirations);
    (small as u32, (small + large) as u32)
}

pub(crate) fn line(call: &Call) -> Arguments {
    let mut line = Vec::new();
    encode(call, &mut line);
    line.pop();
    Arguments { line, ..Arguments::default() }
}
