//! Order 9: who has made the objects of a store, counted in one table, and how many of its blocks are spoken for. Apart on
//! purpose from the reference, which counts otherwise.

use crate::limits::{SMALL_BLOCKS, TASKS};
use crate::record::{maker_in, Pool, Quota, NOBODY};

/// More than there are makers: as many as five bits tell apart.
const MAKERS: usize = 32;

/// One store: its blocks, how many of its objects each maker has, and what each task has joined with.
pub struct Room {
    blocks: usize,
    made: [u8; MAKERS],
    quotas: [Quota; TASKS],
}

impl Room {
    pub fn small(pool: &Pool) -> Room {
        Room {
            blocks: pool.limits.small_blocks as usize,
            made: count(&pool.handles[..SMALL_BLOCKS], &pool.extents[..SMALL_BLOCKS]),
            quotas: pool.shares.map(|share| share.small),
        }
    }

    pub fn large(pool: &Pool) -> Room {
        Room {
            blocks: pool.limits.large_blocks as usize,
            made: count(&pool.handles[SMALL_BLOCKS..], &pool.extents[SMALL_BLOCKS..]),
            quotas: pool.shares.map(|share| share.large),
        }
    }

    /// No reserve and no task is above its limit, and there are blocks for all that is spoken for.
    pub fn is_fit(&self) -> bool {
        let within = |(&made, quota): (&u8, &Quota)| (made <= quota.limit) & (quota.reserve <= quota.limit);
        self.made.iter().zip(&self.quotas).fold(true, |all, task| all & within(task)) & (self.spoken() <= self.blocks)
    }

    pub fn made(&self, task: u8) -> u8 {
        self.made[usize::from(task)]
    }

    pub fn quota(&self, task: u8) -> Quota {
        self.quotas[usize::from(task)]
    }

    pub fn is_at_limit(&self, task: u8) -> bool {
        self.made(task) >= self.quota(task).limit
    }

    /// Whether a block is left for the task, held back for it or for nobody.
    pub fn has_block(&self, task: u8) -> bool {
        let unmet = self.quota(task).reserve.saturating_sub(self.made(task));
        self.spoken() - usize::from(unmet) < self.blocks
    }

    /// Whether so many blocks can be held back for a task that is absent.
    pub fn can_hold_back(&self, reserve: u8) -> bool {
        self.spoken() + usize::from(reserve) <= self.blocks
    }

    /// The objects of nobody, and of each task its objects or its reserve, whichever is more.
    fn spoken(&self) -> usize {
        let of_tasks = self.made.iter().zip(&self.quotas).map(|(&made, quota)| usize::from(made.max(quota.reserve)));
        usize::from(self.made(NOBODY)) + of_tasks.sum::<usize>()
    }
}

/// How many blocks in use each maker has. A maker that there is not counts for another one: the fit test finds it.
fn count(handles: &[u32], extents: &[u64]) -> [u8; MAKERS] {
    let mut made = [0; MAKERS];
    for (&handle, &extent) in handles.iter().zip(extents) {
        made[usize::from(maker_in(extent)) % MAKERS] += u8::from(handle != 0);
    }
    made
}
