//! Calls and answers: what goes into the pool and what comes back.

use std::fmt;

use crate::limits::Limits;
use crate::share::Share;

/// Which time an expiration goes by: its setter's local time (the paper: own) or the global time (common); or none, so that
/// only a release ends it (order 5: kept).
#[derive(Clone, Copy, Debug, PartialEq, Eq)]
pub enum Kind {
    Local,
    Global,
    Pinned,
}

/// The handles of a batch, where they stand in its frame: four bytes each, the high one first.
#[derive(Clone, Copy, PartialEq, Eq)]
pub struct Handles<'a>(pub &'a [[u8; 4]]);

impl<'a> Handles<'a> {
    pub fn count(self) -> usize {
        self.0.len()
    }

    pub fn iter(self) -> impl Iterator<Item = u32> + 'a {
        self.0.iter().map(|&bytes| u32::from_be_bytes(bytes))
    }
}

/// As numbers.
impl fmt::Debug for Handles<'_> {
    fn fmt(&self, f: &mut fmt::Formatter<'_>) -> fmt::Result {
        f.debug_list().entries(self.iter()).finish()
    }
}

/// Handles as a frame has them.
pub fn packed(handles: &[u32]) -> Vec<[u8; 4]> {
    handles.iter().map(|handle| handle.to_be_bytes()).collect()
}

/// One of the scope paper's ten calls; or `Remaining`, order 1, which asks how long an object has left; or `Batch`,
/// order 2, which refreshes several objects, all or none; or `Release`, order 5, which ends what pins an object; or `View`,
/// order 10, by which a task joins as a viewer.
#[derive(Clone, Copy, Debug, PartialEq, Eq)]
pub enum Call<'a> {
    Join { task: u8, share: Share },
    Leave { task: u8 },
    Block { task: u8 },
    Resume { task: u8 },
    Tick { task: u8 },
    Make { task: u8, kind: Kind, extension: u8, length: u16, prefix: u16 },
    Refresh { task: u8, kind: Kind, extension: u8, handle: u32 },
    Read { task: u8, handle: u32 },
    Write { task: u8, handle: u32, offset: u8, bytes: &'a [u8] },
    Report,
    Remaining { task: u8, handle: u32 },
    Batch { task: u8, kind: Kind, extension: u8, handles: Handles<'a> },
    Release { task: u8, handle: u32 },
    View { task: u8 },
}

/// What a call does, in the order of the frames' operations; as a number it is a place in a table of them, from 0 on.
#[derive(Clone, Copy, Debug, PartialEq, Eq, PartialOrd, Ord)]
pub enum Operation {
    Join,
    Leave,
    Block,
    Resume,
    Tick,
    Make,
    Refresh,
    Read,
    Write,
    Report,
    Remaining,
    Batch,
    Release,
    View,
}

/// How many there are.
pub const OPERATIONS: usize = 14;

impl Call<'_> {
    pub fn operation(&self) -> Operation {
        match self {
            Call::Join { .. } => Operation::Join,
            Call::Leave { .. } => Operation::Leave,
            Call::Block { .. } => Operation::Block,
            Call::Resume { .. } => Operation::Resume,
            Call::Tick { .. } => Operation::Tick,
            Call::Make { .. } => Operation::Make,
            Call::Refresh { .. } => Operation::Refresh,
            Call::Read { .. } => Operation::Read,
            Call::Write { .. } => Operation::Write,
            Call::Report => Operation::Report,
            Call::Remaining { .. } => Operation::Remaining,
            Call::Batch { .. } => Operation::Batch,
            Call::Release { .. } => Operation::Release,
            Call::View { .. } => Operation::View,
        }
    }

    /// Who calls; nobody for a report.
    pub fn task(&self) -> Option<u8> {
        match *self {
            Call::Join { task, .. } | Call::Leave { task } | Call::Block { task } | Call::Resume { task } => Some(task),
            Call::Tick { task } | Call::Make { task, .. } | Call::Refresh { task, .. } => Some(task),
            Call::Read { task, .. } | Call::Write { task, .. } | Call::View { task } => Some(task),
            Call::Remaining { task, .. } | Call::Batch { task, .. } | Call::Release { task, .. } => Some(task),
            Call::Report => None,
        }
    }

    /// The objects that it names.
    pub fn objects(&self) -> Vec<u32> {
        match *self {
            Call::Refresh { handle, .. } | Call::Read { handle, .. } | Call::Write { handle, .. } => vec![handle],
            Call::Remaining { handle, .. } | Call::Release { handle, .. } => vec![handle],
            Call::Batch { handles, .. } => handles.iter().collect(),
            _ => Vec::new(),
        }
    }

    /// Whether its answer is compared with the heap's.
    pub fn is_compared(&self) -> bool {
        !matches!(self, Call::Report | Call::Remaining { .. })
    }
}

/// Why a call or a frame is refused, or the figures of a pool; the value is the number in the answer.
#[derive(Clone, Copy, Debug, PartialEq, Eq)]
#[repr(u8)]
pub enum Refusal {
    TaskAbove15 = 1,
    TaskNotAbsent = 2,
    TaskAbsent = 3,
    TaskWaiting = 4,
    TaskRunning = 5,
    ExtensionTooLong = 6,
    LengthOutOfRange = 7,
    AllHandlesGiven = 8,
    NoFreeBlock = 9,
    ExpirationsFull = 10,
    HandleNotGiven = 11,
    ObjectGone = 12,
    RangeAboveLength = 13,
    NotHexadecimal = 16,
    UnknownOperation = 17,
    WrongFrameLength = 18,
    KindAbove2 = 19,
    BatchOutOfRange = 20,
    OnlyMakePins = 21,
    NotPinned = 22,
    SumDiffers = 23,
    ReserveAboveLimit = 24,
    ReserveNotFree = 25,
    AtLimit = 26,
    OnlyViews = 27,
    PrefixTooLong = 28,
    LimitsOutOfRange = 29,
}

/// What an accepted call gives back.
#[derive(Clone, Copy, Debug, PartialEq, Eq)]
pub enum Accepted<'a> {
    Done,
    /// Leave, block and tick: whether global time advanced.
    Advanced(bool),
    Handle(u32),
    Bytes(&'a [u8]),
    Report(Figures),
    Remaining(Lifetime),
}

pub type Answer<'a> = Result<Accepted<'a>, Refusal>;

/// What calls are done on. A refused call changes nothing.
pub trait Model: Sized {
    /// As it is before the first call, with figures that a site chooses; 29 comes first.
    fn sized(limits: Limits) -> Result<Self, Refusal>;

    /// The same with figures that are known to be allowed.
    fn of(limits: Limits) -> Self {
        Self::sized(limits).expect("figures that are allowed")
    }

    /// The same with the scope paper's figures.
    fn fresh() -> Self {
        Self::of(Limits::STANDARD)
    }

    fn join(&mut self, task: u8, share: Share) -> Answer<'static>;
    fn leave(&mut self, task: u8) -> Answer<'static>;
    fn block(&mut self, task: u8) -> Answer<'static>;
    fn resume(&mut self, task: u8) -> Answer<'static>;
    fn tick(&mut self, task: u8) -> Answer<'static>;
    fn make(&mut self, task: u8, kind: Kind, extension: u8, length: u16, prefix: u16) -> Answer<'static>;
    fn refresh(&mut self, task: u8, kind: Kind, extension: u8, handle: u32) -> Answer<'static>;
    fn read(&self, task: u8, handle: u32) -> Answer<'_>;
    fn write(&mut self, task: u8, handle: u32, offset: u8, bytes: &[u8]) -> Answer<'static>;
    fn report(&self) -> Answer<'static>;
    fn remaining(&self, task: u8, handle: u32) -> Answer<'static>;
    fn batch(&mut self, task: u8, kind: Kind, extension: u8, handles: Handles) -> Answer<'static>;
    fn release(&mut self, task: u8, handle: u32) -> Answer<'static>;
    fn view(&mut self, task: u8) -> Answer<'static>;

    /// Does the call and answers it.
    fn call(&mut self, call: &Call) -> Answer<'_> {
        match *call {
            Call::Join { task, share } => self.join(task, share),
            Call::Leave { task } => self.leave(task),
            Call::Block { task } => self.block(task),
            Call::Resume { task } => self.resume(task),
            Call::Tick { task } => self.tick(task),
            Call::Make { task, kind, extension, length, prefix } => self.make(task, kind, extension, length, prefix),
            Call::Refresh { task, kind, extension, handle } => self.refresh(task, kind, extension, handle),
            Call::Read { task, handle } => self.read(task, handle),
            Call::Write { task, handle, offset, bytes } => self.write(task, handle, offset, bytes),
            Call::Report => self.report(),
            Call::Remaining { task, handle } => self.remaining(task, handle),
            Call::Batch { task, kind, extension, handles } => self.batch(task, kind, extension, handles),
            Call::Release { task, handle } => self.release(task, handle),
            Call::View { task } => self.view(task),
        }
    }
}

/// The figures of a report.
#[derive(Clone, Copy, Debug, PartialEq, Eq)]
pub struct Figures {
    pub small: u8,
    pub large: u8,
    pub expirations: u16,
    pub given: u32,
}

/// What remains to an object: the most units of the asking task's local expirations on it, and of all global ones; 0 for
/// none. A pinned one has no units.
#[derive(Clone, Copy, Debug, PartialEq, Eq)]
pub struct Lifetime {
    pub local: u8,
    pub global: u8,
}
