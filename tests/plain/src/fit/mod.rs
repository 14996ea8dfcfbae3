//! The test of well-formedness, one pass over each table.

mod handles;

pub use handles::spread;

use core::mem::replace;

use crate::limits::{BLOCKS, GLOBAL_EXTRA, LARGE_SIZE, LOCAL_EXTRA, SMALL_BLOCKS, SMALL_SIZE, TASKS};
use crate::record::{
    length_in, maker_in, prefix_in, Pool, Share, TaskEntry, ABSENT, DEPARTED, FREE, GLOBAL, GROUP, LOCAL, NOBODY,
    PINNED, RUNNING, VIEWING, WAITING,
};
use crate::shares::Room;

/// For each number that a byte can be, whether an expiration in use names it as its block: not 0 if so.
type Named = [u8; 256];

pub fn is_well_formed(pool: &Pool) -> bool {
    let mut named: Named = [0; 256];
    pool.limits.is_allowed()
        && none_past_limits(pool)
        && fit_tasks(&pool.tasks, &pool.shares)
        && fit_expirations(pool, &mut named)
        && fit_blocks(pool, &named)
        && Room::small(pool).is_fit()
        && Room::large(pool).is_fit()
        && handles::distinct(&pool.handles)
}

/// No block and no expiration past the limits is in use. At the largest figures there is none to ask.
fn none_past_limits(pool: &Pool) -> bool {
    let (small, large) = pool.handles.split_at(SMALL_BLOCKS);
    let past = small[pool.limits.small_blocks as usize..].iter().chain(&large[pool.limits.large_blocks as usize..]);
    past.fold(true, |free, &handle| free & (handle == 0))
        & pool.clocks[pool.limits.expirations as usize..].iter().fold(true, |free, &clock| free & (clock == FREE))
}

/// Each entry is fit, and if any task runs, one of them has not ticked.
fn fit_tasks(tasks: &[TaskEntry; TASKS], shares: &[Share; TASKS]) -> bool {
    let (mut ticked, mut pending) = (false, false);
    for (task, share) in tasks.iter().zip(shares) {
        match (task.state, task.ticked) {
            (ABSENT, 0) if task.clock == 0 && *share == Share::NONE => {}
            (RUNNING, 0) => pending = true,
            (RUNNING, 1) => ticked = true,
            (WAITING, 0) => {}
            (VIEWING, 0) if *share == Share::NONE => {}
            _ => return false,
        }
    }
    pending | !ticked
}

/// Each expiration lies ahead of a clock that goes on, and its setter is there or departed; or it is pinned, and no other
/// pinned one names its block. The blocks are only noted here, so that one comparison tells both that each named block is
/// in use and that each block in use is named.
#[inline(never)] // In one piece with the others it takes some 450 instructions more.
fn fit_expirations(pool: &Pool, named: &mut Named) -> bool {
    let (spans, mut pinned) = (Spans::of(pool), [false; 256]);
    let groups = pool.clocks.as_chunks::<GROUP>().0.iter();
    let groups = groups.zip(pool.named.as_chunks::<GROUP>().0).zip(pool.dues.as_chunks::<GROUP>().0);
    for ((clocks, blocks), dues) in groups {
        if *clocks == [FREE; GROUP] {
            continue;
        }
        for i in 0..GROUP {
            if !spans.has(clocks[i], dues[i]) {
                return false;
            }
            named[usize::from(blocks[i])] |= clocks[i];
        }
        let pins = clocks.iter().fold(false, |some, &clock| some | (clock == PINNED));
        if pins && !are_pinned_once(clocks, blocks, &mut pinned) {
            return false;
        }
    }
    true
}

/// No block of these is pinned twice, with those that were met before. Few groups have one that is.
fn are_pinned_once(clocks: &[u8; GROUP], blocks: &[u8; GROUP], pinned: &mut [bool; 256]) -> bool {
    let mut blocks = clocks.iter().zip(blocks).filter(|(&clock, _)| clock == PINNED);
    blocks.all(|(_, &block)| !replace(&mut pinned[usize::from(block)], true))
}

/// When the expirations of a clock may be due: so many units from the first on. What is pinned has the one number 0.
struct Spans {
    first: [u32; 256],
    units: [u64; 256],
}

impl Spans {
    /// A code that is no clock has no unit, nor has that of a task that is absent; a free entry has all 4,294,967,296.
    fn of(pool: &Pool) -> Spans {
        let mut spans = Spans { first: [pool.global.wrapping_add(1); 256], units: [0; 256] };
        let local = u64::from(pool.limits.extension + LOCAL_EXTRA);
        let global = u64::from(pool.limits.extension + GLOBAL_EXTRA);
        for (clock, task) in (usize::from(LOCAL)..).zip(&pool.tasks) {
            let is_there = u64::from(task.state != ABSENT);
            spans.first[clock] = task.clock.wrapping_add(1);
            spans.units[clock] = is_there * local;
            spans.units[clock + usize::from(GLOBAL - LOCAL)] = is_there * global;
        }
        spans.first[usize::from(PINNED)] = 0;
        spans.units[usize::from(FREE)] = 1 << 32;
        spans.units[usize::from(DEPARTED)] = global;
        spans.units[usize::from(PINNED)] = 1;
        spans
    }

    fn has(&self, clock: u8, due: u32) -> bool {
        let clock = usize::from(clock);
        u64::from(due.wrapping_sub(self.first[clock])) < self.units[clock]
    }
}

/// The blocks in use are those that are named, with a length of their store's range, whatever their sum, a prefix that is no
/// longer, a maker that there may be, and a handle that was given. The loops have no way out before the end, so that several
/// blocks are tested at once.
fn fit_blocks(pool: &Pool, named: &Named) -> bool {
    let (named, beyond) = named.split_at(BLOCKS);
    let (mut used, mut sized) = ([false; BLOCKS], [false; BLOCKS]);
    let mut fit = true;
    for (used, &handle) in used.iter_mut().zip(&pool.handles) {
        *used = handle != 0;
        fit &= handle <= pool.given;
    }
    let (lengths, makers) = (pool.extents.map(length_in), pool.extents.map(maker_in));
    let prefixes = pool.extents.map(prefix_in);
    for i in 0..BLOCKS {
        sized[i] = lengths[i].wrapping_sub(SHORTEST[i]) <= REST[i];
    }
    for i in 0..BLOCKS {
        sized[i] &= prefixes[i] <= lengths[i];
    }
    for i in 0..BLOCKS {
        sized[i] &= makers[i] <= NOBODY;
    }
    for i in 0..BLOCKS {
        fit &= (used[i] == (named[i] != 0)) & (!used[i] | sized[i]);
    }
    fit & beyond.iter().fold(true, |none, &named| none & (named == 0))
}

/// The shortest object of each block, and how much longer another may be.
const SHORTEST: [u16; BLOCKS] = by_store(1, SMALL_SIZE as u16 + 1);
const REST: [u16; BLOCKS] = by_store(SMALL_SIZE as u16 - 1, (LARGE_SIZE - SMALL_SIZE) as u16 - 1);

/// One value for each block of the small store, and one for each of the large one.
const fn by_store(small: u16, large: u16) -> [u16; BLOCKS] {
    let mut values = [small; BLOCKS];
    let mut block = SMALL_BLOCKS;
    while block < BLOCKS {
        values[block] = large;
        block += 1;
    }
    values
}
