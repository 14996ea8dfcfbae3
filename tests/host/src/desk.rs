//! One call as it is measured: what it works on, its arguments, and the function that makes it for each subject.

use std::hint::black_box;

use plain::calls::ANSWER_ROOM;
use plain::record::{Pool, Share};
use plain::work::{Holding, Holdings};
use plain::{fit, work};

use crate::entries::{Entries, Plain};
use crate::library::Library;
use crate::memory::Memory;

/// Memory, and room for all that is answered.
pub struct Desk {
    pub memory: Memory,
    advanced: u8,
    handle: u32,
    out: [u8; ANSWER_ROOM],
    count: usize,
    figures: (u8, u8, u16, u32),
    left: (u8, u8),
    holdings: Holdings,
}

impl Desk {
    pub fn with(memory: Memory) -> Desk {
        let out = [0; ANSWER_ROOM];
        let none = Holding { made: 0, reserve: 0, limit: 0 };
        let holdings = Holdings { small: none, large: none };
        Desk { memory, advanced: 0, handle: 0, out, count: 0, figures: (0, 0, 0, 0), left: (0, 0), holdings }
    }
}

/// The arguments of any call.
#[derive(Clone, Debug)]
pub struct Arguments {
    pub task: u8,
    pub share: Share,
    pub kind: u8,
    pub extension: u8,
    pub size: u16,
    pub prefix: u16,
    pub handle: u32,
    pub handles: Vec<u32>,
    pub bytes: Vec<u8>,
    pub line: Vec<u8>,
}

/// A task that joins asks for nothing.
impl Default for Arguments {
    fn default() -> Arguments {
        let (handles, bytes, line) = (Vec::new(), Vec::new(), Vec::new());
        let share = Share::OPEN;
        Arguments { task: 0, share, kind: 0, extension: 0, size: 0, prefix: 0, handle: 0, handles, bytes, line }
    }
}

/// A call on the desk; the number of its answer.
pub type Action = fn(&mut Desk, &Arguments) -> u8;

/// What makes the calls.
#[derive(Clone, Copy, Debug, PartialEq, Eq)]
pub enum Subject {
    Library,
    /// The plain pool with its test of well-formedness.
    Plain,
    /// The plain pool without it.
    Work,
}

pub const SUBJECTS: [Subject; 3] = [Subject::Library, Subject::Plain, Subject::Work];

#[derive(Clone, Copy, Debug, PartialEq, Eq)]
pub enum Entry {
    Fresh,
    /// With the figures that the record has.
    FreshSized,
    Join,
    View,
    Leave,
    Block,
    Resume,
    Tick,
    Make,
    Refresh,
    Read,
    Write,
    Report,
    Remaining,
    Share,
    Batch,
    Release,
    /// As many refreshes as a batch would make: no entry of its own.
    OneByOne,
    Frame,
    /// The test of well-formedness and nothing else, of the plain pool alone.
    Fit,
}

impl Entry {
    /// The entries, and the fit test.
    pub const ALL: [Entry; 19] = [
        Entry::Fresh,
        Entry::FreshSized,
        Entry::Join,
        Entry::View,
        Entry::Leave,
        Entry::Block,
        Entry::Resume,
        Entry::Tick,
        Entry::Make,
        Entry::Refresh,
        Entry::Read,
        Entry::Write,
        Entry::Report,
        Entry::Remaining,
        Entry::Share,
        Entry::Batch,
        Entry::Release,
        Entry::Frame,
        Entry::Fit,
    ];

    pub fn name(self) -> String {
        match self {
            Entry::FreshSized => "fresh_sized".to_string(),
            other => format!("{other:?}").to_lowercase(),
        }
    }
}

/// The function that is measured. The work alone has none for fresh and for frames.
pub fn action(entry: Entry, subject: Subject) -> Option<Action> {
    if entry == Entry::Fit {
        return (subject == Subject::Plain).then_some(fit as Action);
    }
    match subject {
        Subject::Library => Some(entry_of::<Library>(entry)),
        Subject::Plain => Some(entry_of::<Plain>(entry)),
        Subject::Work => work_of(entry),
    }
}

/// Makes the call. Callgrind counts in here.
#[inline(never)]
pub fn measured(action: Action, desk: &mut Desk, arguments: &Arguments) -> u8 {
    black_box(action(desk, arguments))
}

fn fit(desk: &mut Desk, _: &Arguments) -> u8 {
    u8::from(!fit::is_well_formed(&desk.memory.pool))
}

fn entry_of<E: Entries>(entry: Entry) -> Action {
    match entry {
        Entry::Fresh => |desk, _| E::fresh(&mut desk.memory.pool),
        Entry::FreshSized => |desk, _| {
            let limits = desk.memory.pool.limits;
            E::fresh_sized(&mut desk.memory.pool, limits)
        },
        Entry::Join => |desk, with| E::join(&mut desk.memory.pool, with.task, with.share),
        Entry::View => |desk, with| E::view(&mut desk.memory.pool, with.task),
        Entry::Leave => |desk, with| E::leave(&mut desk.memory.pool, with.task, &mut desk.advanced),
        Entry::Block => |desk, with| E::block(&mut desk.memory.pool, with.task, &mut desk.advanced),
        Entry::Resume => |desk, with| E::resume(&mut desk.memory.pool, with.task),
        Entry::Tick => |desk, with| E::tick(&mut desk.memory.pool, with.task, &mut desk.advanced),
        Entry::Make => |desk, with| {
            let Memory { pool, small, large } = &mut desk.memory;
            let Arguments { task, kind, extension, size, prefix, .. } = *with;
            E::make(pool, small, large, task, kind, extension, size, prefix, &mut desk.handle)
        },
        Entry::Refresh => |desk, with| E::refresh(&mut desk.memory.pool, with.task, 0, with.extension, with.handle),
        Entry::Read => |desk, with| {
            let Memory { pool, small, large } = &mut desk.memory;
            E::read(pool, small, large, with.task, with.handle, &mut desk.out, &mut desk.count)
        },
        Entry::Write => |desk, with| {
            let Memory { pool, small, large } = &mut desk.memory;
            E::write(pool, small, large, with.task, with.handle, 0, &with.bytes)
        },
        Entry::Report => |desk, _| {
            let (small, large, expirations, given) = &mut desk.figures;
            E::report(&mut desk.memory.pool, small, large, expirations, given)
        },
        Entry::Remaining => |desk, with| {
            let (local, global) = &mut desk.left;
            E::remaining(&mut desk.memory.pool, with.task, with.handle, local, global)
        },
        Entry::Share => |desk, with| E::share(&mut desk.memory.pool, with.task, &mut desk.holdings),
        Entry::Batch => |desk, with| E::refresh_all(&mut desk.memory.pool, with.task, 0, with.extension, &with.handles),
        Entry::Release => |desk, with| E::release(&mut desk.memory.pool, with.task, with.handle),
        Entry::OneByOne => |desk, with| {
            let refresh = |handle: &u32| E::refresh(&mut desk.memory.pool, with.task, 0, with.extension, *handle);
            with.handles.iter().map(refresh).max().unwrap_or(0)
        },
        Entry::Frame => |desk, with| {
            let Memory { pool, small, large } = &mut desk.memory;
            E::frame(pool, small, large, &with.line, &mut desk.out, &mut desk.count)
        },
        Entry::Fit => fit,
    }
}

fn work_of(entry: Entry) -> Option<Action> {
    Some(match entry {
        Entry::Join => |desk, with| number(work::join(&mut desk.memory.pool, with.task, with.share)),
        Entry::View => |desk, with| number(work::view(&mut desk.memory.pool, with.task)),
        Entry::Leave => |desk, with| advanced(desk, |pool| work::leave(pool, with.task)),
        Entry::Block => |desk, with| advanced(desk, |pool| work::block(pool, with.task)),
        Entry::Resume => |desk, with| number(work::resume(&mut desk.memory.pool, with.task)),
        Entry::Tick => |desk, with| advanced(desk, |pool| work::tick(pool, with.task)),
        Entry::Make => |desk, with| {
            let Memory { pool, small, large } = &mut desk.memory;
            let made = work::make(pool, small, large, (with.task, with.kind, with.extension), (with.size, with.prefix));
            number(made.map(|handle| desk.handle = handle))
        },
        Entry::Refresh => {
            |desk, with| number(work::refresh(&mut desk.memory.pool, (with.task, 0, with.extension), with.handle))
        }
        Entry::Read => |desk, with| {
            let Memory { pool, small, large } = &desk.memory;
            let bytes = work::read(pool, small, large, with.task, with.handle);
            number(bytes.map(|bytes| desk.out[..bytes.len()].copy_from_slice(bytes)))
        },
        Entry::Write => |desk, with| {
            let Memory { pool, small, large } = &mut desk.memory;
            number(work::write(pool, small, large, with.task, with.handle, (0, &with.bytes)))
        },
        Entry::Report => |desk, _| {
            let work::Figures { small, large, expirations, given } = work::report(&desk.memory.pool);
            desk.figures = (small, large, expirations, given);
            0
        },
        Entry::Remaining => |desk, with| {
            let left = work::remaining(&desk.memory.pool, with.task, with.handle);
            number(left.map(|work::Lifetime { local, global }| desk.left = (local, global)))
        },
        Entry::Share => {
            |desk, with| number(work::share(&desk.memory.pool, with.task).map(|holdings| desk.holdings = holdings))
        }
        Entry::Batch => {
            |desk, with| number(work::refresh_all(&mut desk.memory.pool, (with.task, 0, with.extension), &with.handles))
        }
        Entry::Release => |desk, with| number(work::release(&mut desk.memory.pool, with.task, with.handle)),
        Entry::OneByOne => |desk, with| {
            let with_all = (with.task, 0, with.extension);
            let refresh = |handle: &u32| number(work::refresh(&mut desk.memory.pool, with_all, *handle));
            with.handles.iter().map(refresh).max().unwrap_or(0)
        },
        Entry::Fresh | Entry::FreshSized | Entry::Frame | Entry::Fit => return None,
    })
}

fn number(result: Result<(), u8>) -> u8 {
    result.err().unwrap_or(0)
}

fn advanced(desk: &mut Desk, work: impl Fn(&mut Pool) -> Result<bool, u8>) -> u8 {
    let told = work(&mut desk.memory.pool);
    number(told.map(|told| desk.advanced = u8::from(told)))
}
