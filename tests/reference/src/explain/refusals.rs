//! Why a call is refused, and what would have been needed, in words; and a name for each refusal.

use crate::call::{Call, Kind, Refusal};
use crate::explain::answers::store_of;
use crate::explain::phrases::{counted, listed};
use crate::explain::trail::Set;
use crate::explain::watch::Watch;
use crate::limits::{Store, LARGEST_BATCH, LONGEST, STORES, TASKS};
use crate::share::{Room, Share};
use crate::tasks::State;

/// From the ledger, which a refusal leaves as it was.
pub fn reason(watch: &Watch, call: &Call, refusal: Refusal) -> String {
    match refusal {
        Refusal::TaskAbove15 => format!("tasks are 0 to {}", TASKS - 1),
        Refusal::TaskNotAbsent => format!("{}; only an absent task can join", state(watch, call)),
        Refusal::TaskAbsent => format!("{}; it has to join first", state(watch, call)),
        Refusal::TaskWaiting => format!("{}; it has to resume first", state(watch, call)),
        Refusal::TaskRunning => format!("{}; only a waiting task can resume", state(watch, call)),
        Refusal::ExtensionTooLong => too_long(watch, call),
        Refusal::LengthOutOfRange => format!("a length is 1 to {LONGEST}"),
        Refusal::AllHandlesGiven => "all handles are given, and none comes again".into(),
        Refusal::NoFreeBlock => no_block(watch, call),
        Refusal::ExpirationsFull => no_expiration(watch, call),
        Refusal::HandleNotGiven => not_given(watch, call),
        Refusal::ObjectGone => gone(watch, call),
        Refusal::RangeAboveLength => past_the_end(watch, call),
        Refusal::BatchOutOfRange => format!("a batch has 1 to {LARGEST_BATCH} objects"),
        Refusal::OnlyMakePins => "only a make pins an object".into(),
        Refusal::NotPinned => not_pinned(watch, call),
        Refusal::SumDiffers => "bytes of its block were changed from outside".into(),
        Refusal::ReserveAboveLimit => above_limit(call),
        Refusal::ReserveNotFree => not_free(watch, call),
        Refusal::AtLimit => at_limit(watch, call),
        Refusal::OnlyViews => {
            format!("{}; a viewer may leave, read, and ask for a remaining life or a report", state(watch, call))
        }
        Refusal::PrefixTooLong => "a prefix is no longer than its object".into(),
        Refusal::NotHexadecimal | Refusal::UnknownOperation | Refusal::WrongFrameLength | Refusal::KindAbove2 => {
            unreachable!("refusal {} is a frame's", refusal as u8)
        }
        Refusal::LimitsOutOfRange => unreachable!("a call comes after the pool is made"),
    }
}

/// In two or three words.
pub fn name(refusal: Refusal) -> &'static str {
    match refusal {
        Refusal::TaskAbove15 => "no such task",
        Refusal::TaskNotAbsent => "task not absent",
        Refusal::TaskAbsent => "task absent",
        Refusal::TaskWaiting => "task waits",
        Refusal::TaskRunning => "task runs",
        Refusal::ExtensionTooLong => "extension too long",
        Refusal::LengthOutOfRange => "length out of range",
        Refusal::AllHandlesGiven => "all handles given",
        Refusal::NoFreeBlock => "no free block",
        Refusal::ExpirationsFull => "no free expiration",
        Refusal::HandleNotGiven => "handle not given",
        Refusal::ObjectGone => "object gone",
        Refusal::RangeAboveLength => "outside the object",
        Refusal::NotHexadecimal => "not hexadecimal",
        Refusal::UnknownOperation => "unknown operation",
        Refusal::WrongFrameLength => "wrong frame length",
        Refusal::KindAbove2 => "unknown kind",
        Refusal::BatchOutOfRange => "batch out of range",
        Refusal::OnlyMakePins => "only a make pins",
        Refusal::NotPinned => "not pinned",
        Refusal::SumDiffers => "sum differs",
        Refusal::ReserveAboveLimit => "reserve above its limit",
        Refusal::ReserveNotFree => "reserve not free",
        Refusal::AtLimit => "at its limit",
        Refusal::OnlyViews => "task only views",
        Refusal::PrefixTooLong => "prefix too long",
        Refusal::LimitsOutOfRange => "figures out of range",
    }
}

/// The state of the call's task, and since when.
fn state(watch: &Watch, call: &Call) -> String {
    let Some(task) = call.task() else { return "it has no task".into() };
    let line = watch.since[usize::from(task)];
    match watch.task(task).state {
        State::Absent if line == 0 => format!("task {task} has not joined"),
        State::Absent => format!("task {task} left at line {line}"),
        State::Running => format!("task {task} runs since line {line}"),
        State::Waiting => format!("task {task} waits since line {line}"),
        State::Viewing => format!("task {task} views since line {line}"),
    }
}

fn too_long(watch: &Watch, call: &Call) -> String {
    match call {
        Call::Make { kind: Kind::Pinned, .. } => "what is pinned has extension 0".into(),
        _ => format!("an extension is at most {}", watch.ledger.limits().extension),
    }
}

fn no_block(watch: &Watch, call: &Call) -> String {
    let &Call::Make { task, length, .. } = call else { unreachable!("only a make asks for a block") };
    let (store, room) = (store_of(length), watch.ledger.room(store_of(length)));
    let (name, still) = (store.name(), still(watch));
    if room.makers.len() < room.blocks {
        let (free, others) = (counted(room.blocks - room.makers.len(), "free block"), held_back(&room, task));
        return format!("the {name} store has {free}, held back for {others}; {still}");
    }
    let is_there = |&handle: &u32| watch.ledger.length(handle).is_some_and(|length| store_of(length as u16) == store);
    let pinned = match watch.ledger.pinned().filter(is_there).count() {
        0 => String::new(),
        count => format!(", {count} of them pinned"),
    };
    format!("the {name} store is full with {}{pinned}; {still}", counted(room.blocks, "object"))
}

/// The tasks but this one that have less than their reserve.
fn held_back(room: &Room, task: u8) -> String {
    let others = (0..TASKS as u8).filter(|&other| other != task && room.unmet(other) > 0);
    listed("task", &others.map(u32::from).collect::<Vec<_>>())
}

fn at_limit(watch: &Watch, call: &Call) -> String {
    let &Call::Make { task, length, .. } = call else { unreachable!("only a make comes to a limit") };
    let store = store_of(length);
    let (room, name) = (watch.ledger.room(store), store.name());
    let made = counted(room.made(task), &format!("{name} object"));
    format!("task {task} has {made}, and its limit is {}", room.limit(task))
}

fn above_limit(call: &Call) -> String {
    let (_, share) = joining(call);
    let is_above = |store: &Store| share.of(*store).reserve > share.of(*store).limit;
    let store = STORES.into_iter().find(is_above).expect("a store with a reserve above its limit");
    format!("the reserve in the {} store is above the limit", store.name())
}

fn not_free(watch: &Watch, call: &Call) -> String {
    let (task, share) = joining(call);
    let is_short = |store: &Store| watch.ledger.room(*store).check_reserve(task, share.of(*store).reserve).is_err();
    let store = STORES.into_iter().find(is_short).expect("a store with too few blocks");
    let (room, name) = (watch.ledger.room(store), store.name());
    let (objects, taken) = (room.makers.len(), room.taken(task));
    let held_back = match taken - objects {
        0 => String::new(),
        count => format!(" and {} held back for {}", counted(count, "block"), held_back(&room, task)),
    };
    let (left, blocks, objects) = (room.blocks - taken, counted(room.blocks, "block"), counted(objects, "object"));
    format!("the {name} store has {left} of {blocks} left, beside {objects}{held_back}")
}

fn joining(call: &Call) -> (u8, Share) {
    let &Call::Join { task, share } = call else { unreachable!("only a join has a share") };
    (task, share)
}

fn no_expiration(watch: &Watch, call: &Call) -> String {
    let (most, asked) = (watch.ledger.limits().expirations, call.objects().len().max(1));
    let standing = match watch.ledger.figures().expirations {
        1 => "1 expiration stands".into(),
        count => format!("{count} expirations stand"),
    };
    format!("{standing}, and with {asked} more they are above {most}; {}", still(watch))
}

/// Why nothing comes back: for whom global time waits, and since when.
fn still(watch: &Watch) -> String {
    let (time, tasks) = (watch.ledger.tasks().global(), listed("task", &watch.awaited()));
    match watch.advanced {
        0 => format!("global time is {time} from the start on and waits for {tasks}"),
        line => format!("global time is {time} since line {line} and waits for {tasks}"),
    }
}

fn not_given(watch: &Watch, call: &Call) -> String {
    let given = watch.ledger.figures().given;
    let unknown: Vec<_> = call.objects().into_iter().filter(|&handle| handle == 0 || handle > given).collect();
    let unknown = listed("handle", &unknown[..1]);
    match given {
        0 => format!("{unknown} was not given; none was so far"),
        _ => format!("{unknown} was not given; the last was {given}"),
    }
}

fn gone(watch: &Watch, call: &Call) -> String {
    let objects = call.objects();
    let gone: Vec<_> = objects.iter().filter_map(|&handle| Some((handle, watch.trail.gone(handle)?))).collect();
    let (handle, first) = gone[0];
    let which = if objects.len() == 1 { String::new() } else { format!("object {handle} is ") };
    let others = match gone.len() {
        1 => String::new(),
        more => format!("; {} more gone", counted(more - 1, "object")),
    };
    format!("{which}gone at line {} with its last expiration, {}{others}", first.line, origin(&first.last))
}

/// Who set an expiration and where, and what became of it.
fn origin(set: &Set) -> String {
    let set_by = if set.expiration.is_pinned() { "pinned by" } else { "set by" };
    let departed = if set.is_departed() { ", departed," } else { "" };
    let put_off = match set.put_off {
        0 => String::new(),
        count => format!(" and put off by {}", counted(count, "advance")),
    };
    format!("{set_by} task {}{departed} at line {}{put_off}", set.setter, set.line)
}

fn not_pinned(watch: &Watch, call: &Call) -> String {
    let &Call::Release { handle, .. } = call else { unreachable!("only a release asks for what is pinned") };
    match watch.trail.released(handle) {
        None => "it was never pinned".into(),
        Some(line) => format!("it was released at line {line}"),
    }
}

fn past_the_end(watch: &Watch, call: &Call) -> String {
    let &Call::Write { handle, offset, bytes, .. } = call else { unreachable!("only a write has a range") };
    let (end, length) = (usize::from(offset) + bytes.len(), watch.ledger.length(handle).unwrap_or(0));
    format!("it would end at {end}, and the object has {}", counted(length, "byte"))
}
