//! Order 10: who views and what they see, what they try in vain, the ends of prefixes, and time that waits for no viewer.

use std::collections::BTreeMap;

use reference::block::Block;
use reference::call::{Call, Kind};
use reference::ledger::Ledger;
use reference::limits::{Limits, Store, LARGEST_BATCH, LONGEST, STORES, TASKS};
use reference::share::Room;
use reference::tasks::{State, Task};

/// The tasks, and what a call is about, as they are before it.
pub struct Before {
    limits: Limits,
    tasks: [Task; TASKS],
    rooms: [Room; 2],
    /// How many expirations more there is room for.
    expirations: usize,
    given: u32,
    /// Of the objects that the call names: the blocks of those that stand.
    named: Vec<Block>,
    /// Of the call's number: whether objects of a former life stand, and whether its last life was a viewer's.
    has_objects: bool,
    has_viewed: bool,
}

/// A call and its answer.
pub struct Seen<'a> {
    pub call: &'a Call<'a>,
    /// 0 if it was accepted.
    pub number: usize,
    pub advanced: bool,
    pub before: Before,
}

/// A make with a length that there is.
struct Made<'a> {
    room: &'a Room,
    task: u8,
    length: u16,
    prefix: u16,
    expirations: usize,
}

impl Seen<'_> {
    fn state(&self) -> State {
        let entry = self.call.task().and_then(|task| self.before.tasks.get(usize::from(task)));
        entry.map_or(State::Absent, |task| task.state)
    }

    fn some(&self, state: State) -> bool {
        self.before.tasks.iter().any(|task| task.state == state)
    }

    fn views(&self, number: usize) -> bool {
        matches!(self.call, Call::View { .. }) && self.number == number
    }

    /// A viewer's read with this answer, of a block of which this holds.
    fn reads(&self, holds: impl Fn(&Block) -> bool) -> bool {
        let reads = matches!(self.call, Call::Read { .. }) && self.number == 0 && self.state() == State::Viewing;
        reads && self.before.named.iter().any(holds)
    }

    fn asks(&self, call: fn(&Call) -> bool, number: usize) -> bool {
        self.state() == State::Viewing && self.number == number && call(self.call)
    }

    /// 27, where this would be refused too.
    fn in_vain(&self, holds: impl Fn(&Call) -> bool) -> bool {
        self.number == 27 && holds(self.call)
    }

    fn kind_and_extension(&self) -> Option<(Kind, usize)> {
        match *self.call {
            Call::Make { kind, extension, .. }
            | Call::Refresh { kind, extension, .. }
            | Call::Batch { kind, extension, .. } => Some((kind, extension.into())),
            _ => None,
        }
    }

    fn is_given(&self, handle: u32) -> bool {
        (1..=self.before.given).contains(&handle)
    }

    /// A make of a task and a length that there are, with this answer.
    fn makes(&self, number: usize, holds: impl Fn(&Made) -> bool) -> bool {
        let Call::Make { task, length, prefix, .. } = *self.call else { return false };
        let Ok(store) = Store::holding(length) else { return false };
        let (room, expirations) = (&self.before.rooms[store as usize], self.before.expirations);
        let made = Made { room, task, length, prefix, expirations };
        self.number == number && usize::from(task) < TASKS && holds(&made)
    }

    /// After an accepted block or leave of a running task.
    fn nobody_runs(&self) -> bool {
        let ends = matches!(self.call, Call::Block { .. } | Call::Leave { .. }) && self.state() == State::Running;
        ends && self.number == 0 && self.before.tasks.iter().filter(|task| task.state == State::Running).count() == 1
    }
}

impl Made<'_> {
    fn block_size(&self) -> usize {
        Store::holding(self.length).map_or(0, Store::block_size)
    }

    fn is_taken(&self) -> bool {
        self.room.taken(self.task) >= self.room.blocks
    }
}

type Situation = (&'static str, fn(&Seen) -> bool);
pub type Met = super::Met<{ SITUATIONS.len() }>;

pub const SITUATIONS: [Situation; 51] = [
    ("began to view within a round", |seen| seen.views(0) && seen.before.tasks.iter().any(|task| task.ticked)),
    ("began to view where nobody runs", |seen| seen.views(0) && !seen.some(State::Running)),
    ("began to view beside a viewer", |seen| seen.views(0) && seen.some(State::Viewing)),
    ("began to view where its number has objects", |seen| seen.views(0) && seen.before.has_objects),
    ("a running task would view", |seen| seen.views(2) && seen.state() == State::Running),
    ("a waiting task would view", |seen| seen.views(2) && seen.state() == State::Waiting),
    ("a viewer would view", |seen| seen.views(2) && seen.state() == State::Viewing),
    ("a viewer would join", |seen| seen.asks(|call| matches!(call, Call::Join { .. }), 2)),
    ("a viewer joined after it left", |seen| {
        matches!(seen.call, Call::Join { .. }) && seen.number == 0 && seen.before.has_viewed
    }),
    ("a viewer would resume", |seen| seen.asks(|call| matches!(call, Call::Resume { .. }), 5)),
    ("a viewer left", |seen| seen.asks(|call| matches!(call, Call::Leave { .. }), 0)),
    ("a viewer left within a round", |seen| {
        seen.asks(|call| matches!(call, Call::Leave { .. }), 0) && seen.before.tasks.iter().any(|task| task.ticked)
    }),
    ("saw nothing of an object", |seen| seen.reads(|block| block.prefix == 0)),
    ("saw a part of an object", |seen| seen.reads(|block| (1..block.length).contains(&block.prefix))),
    ("saw a whole object", |seen| seen.reads(|block| block.prefix == block.length)),
    ("saw 256 bytes", |seen| seen.reads(|block| block.prefix == LONGEST)),
    ("saw bytes that were written", |seen| {
        seen.reads(|block| block.bytes[..usize::from(block.prefix)].iter().any(|&byte| byte != 0))
    }),
    ("did not see bytes that were written", |seen| {
        seen.reads(|block| block.bytes[usize::from(block.prefix)..].iter().any(|&byte| byte != 0))
    }),
    ("a viewer's read, 11", |seen| seen.asks(|call| matches!(call, Call::Read { .. }), 11)),
    ("a viewer's read, 12", |seen| seen.asks(|call| matches!(call, Call::Read { .. }), 12)),
    ("a viewer asked for what remains", |seen| seen.asks(|call| matches!(call, Call::Remaining { .. }), 0)),
    ("a viewer asked for what remains, 11", |seen| seen.asks(|call| matches!(call, Call::Remaining { .. }), 11)),
    ("a viewer asked for what remains, 12", |seen| seen.asks(|call| matches!(call, Call::Remaining { .. }), 12)),
    ("27 before 6", |seen| {
        let longest = seen.before.limits.extension;
        seen.in_vain(|_| seen.kind_and_extension().is_some_and(|(_, extension)| extension > longest))
    }),
    ("27 before 7", |seen| {
        seen.in_vain(|call| matches!(*call, Call::Make { length, .. } if Store::holding(length).is_err()))
    }),
    ("27 before 28", |seen| seen.makes(27, |made| made.prefix > made.length)),
    ("27 before 26", |seen| seen.makes(27, |made| made.prefix <= made.length && !made.is_taken())),
    ("27 before 20", |seen| {
        seen.in_vain(
            |call| matches!(call, Call::Batch { handles, .. } if !(1..=LARGEST_BATCH).contains(&handles.count())),
        )
    }),
    ("27 before 21", |seen| {
        seen.in_vain(|call| {
            !matches!(call, Call::Make { .. })
                && seen.kind_and_extension().is_some_and(|(kind, _)| kind == Kind::Pinned)
        })
    }),
    ("27 before 11", |seen| seen.in_vain(|call| call.objects().iter().any(|&handle| !seen.is_given(handle)))),
    ("27 before 12", |seen| {
        seen.in_vain(|call| {
            let objects = call.objects();
            objects.iter().all(|&handle| seen.is_given(handle)) && objects.len() > seen.before.named.len()
        })
    }),
    ("27 before 13", |seen| {
        seen.in_vain(|call| match *call {
            Call::Write { offset, bytes, .. } => {
                let end = usize::from(offset) + bytes.len();
                seen.before.named.iter().any(|block| end > usize::from(block.length))
            }
            _ => false,
        })
    }),
    ("27 where all else is right", |seen| {
        seen.in_vain(|call| matches!(call, Call::Write { offset: 0, .. }) && !seen.before.named.is_empty())
    }),
    ("made with no prefix", |seen| seen.makes(0, |made| made.prefix == 0)),
    ("made with a prefix of its length", |seen| seen.makes(0, |made| made.prefix == made.length)),
    ("made with a prefix of all but a byte", |seen| seen.makes(0, |made| made.prefix + 1 == made.length)),
    ("made with a prefix of 256", |seen| seen.makes(0, |made| made.prefix == LONGEST)),
    ("28 by one", |seen| seen.makes(28, |made| made.prefix == made.length + 1)),
    ("28 within the block", |seen| seen.makes(28, |made| usize::from(made.prefix) <= made.block_size())),
    ("28 by far", |seen| seen.makes(28, |made| made.prefix == u16::MAX)),
    ("28 before 26", |seen| seen.makes(28, |made| made.room.made(made.task) >= made.room.limit(made.task))),
    ("28 before 9", |seen| seen.makes(28, |made| made.is_taken())),
    ("28 before 10", |seen| seen.makes(28, |made| made.expirations == 0)),
    ("6 before 28", |seen| seen.makes(6, |made| made.prefix > made.length)),
    (
        "7 before 28",
        |seen| matches!(*seen.call, Call::Make { length, prefix, .. } if seen.number == 7 && prefix > length),
    ),
    ("wrote across a prefix's end", |seen| {
        let Call::Write { offset, bytes, .. } = *seen.call else { return false };
        let (start, end) = (usize::from(offset), usize::from(offset) + bytes.len());
        let is_across = |block: &Block| start < usize::from(block.prefix) && usize::from(block.prefix) < end;
        seen.number == 0 && seen.before.named.iter().any(is_across)
    }),
    ("a tick advanced beside a viewer", |seen| {
        matches!(seen.call, Call::Tick { .. }) && seen.advanced && seen.some(State::Viewing)
    }),
    ("a block advanced beside a viewer", |seen| {
        matches!(seen.call, Call::Block { .. }) && seen.advanced && seen.some(State::Viewing)
    }),
    ("a leave advanced beside a viewer", |seen| {
        matches!(seen.call, Call::Leave { .. }) && seen.advanced && seen.some(State::Viewing)
    }),
    ("nobody runs any more but viewers", |seen| seen.nobody_runs() && seen.some(State::Viewing)),
    ("a report beside a viewer", |seen| matches!(seen.call, Call::Report) && seen.some(State::Viewing)),
];

/// Who made the standing objects of a script, from its start on, and whose last life was a viewer's.
#[derive(Default)]
pub struct Viewers {
    made: BTreeMap<u32, u8>,
    viewed: [bool; TASKS],
}

impl Viewers {
    /// The ledger is as before the call.
    pub fn before(&self, call: &Call, ledger: &Ledger) -> Before {
        let figures = ledger.figures();
        let has_viewed = |task: u8| self.viewed.get(usize::from(task)).is_some_and(|&viewed| viewed);
        Before {
            limits: ledger.limits(),
            tasks: *ledger.tasks().entries(),
            rooms: STORES.map(|store| ledger.room(store)),
            expirations: ledger.limits().expirations - usize::from(figures.expirations),
            given: figures.given,
            named: call.objects().iter().filter_map(|&handle| ledger.block_of(handle)).cloned().collect(),
            has_objects: self.made.values().any(|&maker| call.task() == Some(maker)),
            has_viewed: call.task().is_some_and(has_viewed),
        }
    }

    /// Counts the call. The ledger is as after it.
    pub fn note(&mut self, met: &mut Met, seen: &Seen, ledger: &Ledger) {
        met.note(&SITUATIONS, seen);
        if seen.number == 0 {
            self.follow(seen.call, ledger);
        }
    }

    fn follow(&mut self, call: &Call, ledger: &Ledger) {
        self.made.retain(|&handle, _| ledger.length(handle).is_some());
        match *call {
            Call::Make { task, .. } => _ = self.made.insert(ledger.figures().given, task),
            Call::Join { task, .. } => self.viewed[usize::from(task)] = false,
            Call::View { task } => self.viewed[usize::from(task)] = true,
            _ => {}
        }
    }
}
