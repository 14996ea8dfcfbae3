//! When a record is well-formed, in the words of the rules W of docs/RULES.md. Nothing here is arranged for speed.

use std::ops::Range;

use plain::limits::{Limits, EXPIRATIONS, TASKS};
use plain::record::{length_in, maker_in, prefix_in, Pool, Quota, Share};
use plain::record::{ABSENT, DEPARTED, FREE, GLOBAL, LOCAL, PINNED, RUNNING, VIEWING};

/// All of them, W18 and W19 as `past`.
pub fn is_fit(pool: &Pool) -> bool {
    let dates = || (0..EXPIRATIONS).filter(|&date| pool.clocks[date] != FREE);
    let block_of = |date: usize| usize::from(pool.named[date]);
    let used = |place: usize| pool.handles.get(place).is_some_and(|&handle| handle != 0);
    let running = || pool.tasks.iter().filter(|task| task.state == RUNNING);
    let named = dates().all(|date| used(block_of(date)));
    // W16 and W25 among them: no two pinned ones of one object, and no prefix longer than it.
    let blocks = (0..96).filter(|&place| used(place)).all(|place| {
        let (handle, extent) = (pool.handles[place], pool.extents[place]);
        let range = if place < 64 { 1..=32 } else { 33..=256 };
        dates().any(|date| block_of(date) == place)
            && range.contains(&length_in(extent))
            && maker_in(extent) <= 16
            && prefix_in(extent) <= length_in(extent)
            && handle <= pool.given
            && pool.handles.iter().filter(|&&other| other == handle).count() == 1
            && dates().filter(|&date| block_of(date) == place && pool.clocks[date] == PINNED).count() <= 1
    });
    let known = pool.tasks.iter().all(|task| task.state <= 3 && task.ticked <= 1);
    let marks = pool.tasks.iter().all(|task| task.ticked == 0 || task.state == RUNNING);
    let pending = running().count() == 0 || running().any(|task| task.ticked == 0);
    let absent = pool.tasks.iter().all(|task| task.state != ABSENT || task.clock == 0);
    let past = (0..96).filter(|&place| used(place)).any(|place| !is_block(pool.limits, place))
        || dates().any(|date| date >= pool.limits.expirations as usize);
    is_allowed(pool.limits)
        && !past
        && named
        && blocks
        && dates().all(|date| is_ahead(pool, date))
        && known
        && marks
        && pending
        && absent
        && is_shared(pool)
}

/// W20 to W24: an absent task and a viewer have asked for nothing, and both stores are shared as the tasks have asked.
fn is_shared(pool: &Pool) -> bool {
    let asks = |state: u16| state != ABSENT && state != VIEWING;
    let nothing = pool.tasks.iter().zip(pool.shares).all(|(task, share)| asks(task.state) || share == Share::NONE);
    let Limits { small_blocks, large_blocks, .. } = pool.limits;
    nothing
        && is_shared_in(pool, 0..64, small_blocks, |share| share.small)
        && is_shared_in(pool, 64..96, large_blocks, |share| share.large)
}

/// No reserve is above its limit, no task has made more than its limit, so that an absent one and a viewer have made nothing,
/// and there are blocks for what is in use and for all that is unmet.
fn is_shared_in(pool: &Pool, places: Range<usize>, blocks: u32, of: fn(Share) -> Quota) -> bool {
    let used = || places.clone().filter(|&place| pool.handles[place] != 0);
    let made = |task: usize| used().filter(|&place| usize::from(maker_in(pool.extents[place])) == task).count();
    let quota = |task: usize| of(pool.shares[task]);
    let unmet = |task: usize| usize::from(quota(task).reserve).saturating_sub(made(task));
    (0..TASKS).all(|task| quota(task).reserve <= quota(task).limit)
        && (0..TASKS).all(|task| made(task) <= usize::from(quota(task).limit))
        && used().count() + (0..TASKS).map(unmet).sum::<usize>() <= blocks as usize
}

/// W17.
fn is_allowed(limits: Limits) -> bool {
    let Limits { small_blocks, large_blocks, expirations, extension } = limits;
    (1..=64).contains(&small_blocks)
        && (1..=32).contains(&large_blocks)
        && (1..=256).contains(&expirations)
        && (0..=30).contains(&extension)
}

/// Whether the site has this block, for W18.
fn is_block(limits: Limits, place: usize) -> bool {
    if place < 64 {
        place < limits.small_blocks as usize
    } else {
        place < 64 + limits.large_blocks as usize
    }
}

/// W6 to W8, W12, W14 and W15: a known clock, a setter that is there or departed, and so much left as can be; or pinned,
/// with no time.
fn is_ahead(pool: &Pool, date: usize) -> bool {
    let most = u64::from(pool.limits.extension);
    let units = |now: u32| u64::from(pool.dues[date].wrapping_sub(now));
    let global = (1..=most + 2).contains(&units(pool.global));
    match pool.clocks[date] {
        clock @ LOCAL..GLOBAL => {
            let setter = pool.tasks[usize::from(clock - LOCAL)];
            setter.state != ABSENT && (1..=most + 1).contains(&units(setter.clock))
        }
        clock @ GLOBAL..DEPARTED => pool.tasks[usize::from(clock - GLOBAL)].state != ABSENT && global,
        DEPARTED => global,
        PINNED => pool.dues[date] == 0,
        _ => false,
    }
}
