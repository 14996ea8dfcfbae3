//! Order 9: what a task may take of each store, and what is left of a store for a task. The rules here are the ledger's
//! and the expiration book's. They are written from the order alone, and apart on purpose from the host's types and from the
//! plain pool: what is wrong in one of the three is not in the others.

use crate::call::Refusal;
use crate::limits::{Store, STORES, TASKS};

/// Of one store: so many blocks are held back for a task, and it has at most so many objects there.
#[derive(Clone, Copy, Debug, Default, PartialEq, Eq)]
pub struct Quota {
    pub reserve: u8,
    pub limit: u8,
}

impl Quota {
    /// Nothing is held back, and nothing is out of reach: no store has so many blocks.
    pub const OPEN: Quota = Quota { reserve: 0, limit: u8::MAX };

    /// An absent task's.
    pub const NONE: Quota = Quota { reserve: 0, limit: 0 };
}

/// What a task joins with.
#[derive(Clone, Copy, Debug, Default, PartialEq, Eq)]
pub struct Share {
    pub small: Quota,
    pub large: Quota,
}

impl Share {
    pub const OPEN: Share = Share { small: Quota::OPEN, large: Quota::OPEN };
    pub const NONE: Share = Share { small: Quota::NONE, large: Quota::NONE };

    /// The four numbers as a frame has them.
    pub fn from_bytes([small_reserve, small_limit, large_reserve, large_limit]: [u8; 4]) -> Share {
        Share {
            small: Quota { reserve: small_reserve, limit: small_limit },
            large: Quota { reserve: large_reserve, limit: large_limit },
        }
    }

    pub fn to_bytes(self) -> [u8; 4] {
        [self.small.reserve, self.small.limit, self.large.reserve, self.large.limit]
    }

    pub fn of(self, store: Store) -> Quota {
        match store {
            Store::Small => self.small,
            Store::Large => self.large,
        }
    }

    /// 24, in either store.
    pub fn check(self) -> Result<(), Refusal> {
        if STORES.iter().any(|&store| self.of(store).reserve > self.of(store).limit) {
            return Err(Refusal::ReserveAboveLimit);
        }
        Ok(())
    }
}

/// Who has made an object; departed for good from its leave on.
#[derive(Clone, Copy, Debug, PartialEq, Eq)]
pub enum Maker {
    Task(u8),
    Departed,
}

impl Maker {
    /// At a leave.
    pub fn depart(&mut self, leaver: u8) {
        if *self == Maker::Task(leaver) {
            *self = Maker::Departed;
        }
    }
}

/// One store: its blocks, the makers of the objects that stand in it, and what each task has joined with.
#[derive(Clone, Debug)]
pub struct Room {
    pub blocks: usize,
    pub makers: Vec<Maker>,
    pub quotas: [Quota; TASKS],
}

impl Room {
    /// How many of the objects the task has made.
    pub fn made(&self, task: u8) -> usize {
        self.makers.iter().filter(|&&maker| maker == Maker::Task(task)).count()
    }

    /// By how much they fall short of its reserve.
    pub fn unmet(&self, task: u8) -> usize {
        self.reserve(task).saturating_sub(self.made(task))
    }

    /// The blocks that are not for this task: those with an object, and those held back for others.
    pub fn taken(&self, task: u8) -> usize {
        let others = (0..TASKS as u8).filter(|&other| other != task);
        self.makers.len() + others.map(|other| self.unmet(other)).sum::<usize>()
    }

    pub fn reserve(&self, task: u8) -> usize {
        usize::from(self.quotas[usize::from(task)].reserve)
    }

    pub fn limit(&self, task: u8) -> usize {
        usize::from(self.quotas[usize::from(task)].limit)
    }

    /// 25: too few blocks are left for what a task would have reserved.
    pub fn check_reserve(&self, task: u8, reserve: u8) -> Result<(), Refusal> {
        if self.blocks < self.taken(task) + usize::from(reserve) {
            return Err(Refusal::ReserveNotFree);
        }
        Ok(())
    }

    /// 26.
    pub fn check_limit(&self, task: u8) -> Result<(), Refusal> {
        if self.limit(task) <= self.made(task) {
            return Err(Refusal::AtLimit);
        }
        Ok(())
    }

    /// 9: no block is free, or the free ones are held back for others.
    pub fn check_block(&self, task: u8) -> Result<(), Refusal> {
        if self.blocks <= self.taken(task) {
            return Err(Refusal::NoFreeBlock);
        }
        Ok(())
    }
}
