//! The record, as the library has it: sixteen task entries, two counters, the figures of its site, and the tables of blocks
//! and of expirations, an array for each field. It is 2904 bytes of numbers without a gap.

use crate::limits::{Limits, BLOCKS, EXPIRATIONS, TASKS};

/// The state of a task entry.
pub const ABSENT: u16 = 0;
pub const RUNNING: u16 = 1;
pub const WAITING: u16 = 2;
pub const VIEWING: u16 = 3;

/// The clock that an expiration goes by, and who has set it: FREE for none; LOCAL and the number of the task that set it,
/// whose clock it is; GLOBAL and the number of the task that set it; DEPARTED for a global one whose setter has left;
/// PINNED for one that goes by no clock.
pub const FREE: u8 = 0;
pub const LOCAL: u8 = 16;
pub const GLOBAL: u8 = 32;
pub const DEPARTED: u8 = 48;
pub const PINNED: u8 = 49;

/// Whether the code is of one that goes by global time, whoever has set it.
pub fn is_global(clock: u8) -> bool {
    (GLOBAL..=DEPARTED).contains(&clock)
}

/// The maker of an object whose maker has left; that of another is the number of its task.
pub const NOBODY: u8 = TASKS as u8;

/// The length of an object, in the first sixteen bits of an extent.
pub fn length_in(extent: u64) -> u16 {
    extent as u16
}

/// Its maker, in the eight bits after these.
pub fn maker_in(extent: u64) -> u8 {
    (extent >> 16) as u8
}

/// How many of its bytes a viewer sees, in sixteen bits after eight that are spare.
pub fn prefix_in(extent: u64) -> u16 {
    (extent >> 32) as u16
}

/// The sum of all bytes of its block, in the last sixteen.
pub fn sum_in(extent: u64) -> u16 {
    (extent >> 48) as u16
}

/// With no prefix.
pub fn extent_of(length: u16, sum: u16, maker: u8) -> u64 {
    u64::from(sum) << 48 | u64::from(maker) << 16 | u64::from(length)
}

/// The extent with another prefix.
pub fn with_prefix(extent: u64, prefix: u16) -> u64 {
    extent & !(0xFFFF << 32) | u64::from(prefix) << 32
}

/// The extent with another sum.
pub fn with_sum(extent: u64, sum: u16) -> u64 {
    extent & !(0xFFFF << 48) | u64::from(sum) << 48
}

/// The extent with another maker.
pub fn with_maker(extent: u64, maker: u8) -> u64 {
    extent & !(0xFF << 16) | u64::from(maker) << 16
}

/// Of one store: so many blocks are held back for a task, and it has at most so many objects there.
#[derive(Clone, Copy, Debug, PartialEq, Eq)]
#[repr(C)]
pub struct Quota {
    pub reserve: u8,
    pub limit: u8,
}

/// What a task has joined with.
#[derive(Clone, Copy, Debug, PartialEq, Eq)]
#[repr(C)]
pub struct Share {
    pub small: Quota,
    pub large: Quota,
}

impl Quota {
    pub const OPEN: Quota = Quota { reserve: 0, limit: u8::MAX };
    pub const NONE: Quota = Quota { reserve: 0, limit: 0 };
}

impl Share {
    /// Neither a reserve nor a limit.
    pub const OPEN: Share = Share { small: Quota::OPEN, large: Quota::OPEN };

    /// That of a task that is absent or views.
    pub const NONE: Share = Share { small: Quota::NONE, large: Quota::NONE };
}

#[derive(Clone, Copy, Debug, PartialEq, Eq)]
#[repr(C)]
pub struct TaskEntry {
    pub state: u16,
    pub ticked: u16,
    pub clock: u32,
}

/// Block i has the object `handles[i]`, 0 where it is free, with length, maker, prefix and sum in `extents[i]`. Blocks from 0
/// on are the small store's, from 64 on the large one's, as many as the limits say. Expiration i belongs to the object in the
/// block `named[i]`, and is due when the clock `clocks[i]` reads `dues[i]`, which is 0 where it is pinned; those past the
/// limits are free. The other fields of a free block or expiration have no meaning.
#[derive(Clone, Debug, PartialEq, Eq)]
#[repr(C)]
pub struct Pool {
    pub tasks: [TaskEntry; TASKS],
    pub global: u32,
    pub given: u32,
    pub limits: Limits,
    pub shares: [Share; TASKS],
    pub handles: [u32; BLOCKS],
    pub extents: [u64; BLOCKS],
    pub clocks: [u8; EXPIRATIONS],
    pub named: [u8; EXPIRATIONS],
    pub dues: [u32; EXPIRATIONS],
}

/// Expirations are gone through by groups: one of free entries is passed over, and the others are asked at once.
pub const GROUP: usize = 32;

/// The bytes of a record.
pub const RECORD: usize = 2904;

const _: () = assert!(size_of::<Pool>() == RECORD && align_of::<Pool>() == 8 && size_of::<TaskEntry>() == 8);

pub const ABSENT_TASK: TaskEntry = TaskEntry { state: ABSENT, ticked: 0, clock: 0 };

/// A fresh pool of these figures, all else zeros.
pub const fn fresh(limits: Limits) -> Pool {
    Pool {
        tasks: [ABSENT_TASK; TASKS],
        global: 0,
        given: 0,
        limits,
        shares: [Share::NONE; TASKS],
        handles: [0; BLOCKS],
        extents: [0; BLOCKS],
        clocks: [FREE; EXPIRATIONS],
        named: [0; EXPIRATIONS],
        dues: [0; EXPIRATIONS],
    }
}

/// A fresh pool of 01's figures.
pub const FRESH: Pool = fresh(Limits::STANDARD);
