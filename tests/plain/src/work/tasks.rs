//! The calls on tasks, the advance test, and the expirations that they put off and end.

use crate::limits::TASKS;
use crate::record::{
    is_global, maker_in, with_maker, Pool, Quota, Share, TaskEntry, ABSENT, ABSENT_TASK, DEPARTED, FREE, GLOBAL, GROUP,
    LOCAL, NOBODY, RUNNING, VIEWING, WAITING,
};
use crate::refusals::{
    NO_SUCH_TASK, ONLY_VIEWS, RESERVE_ABOVE_LIMIT, RESERVE_NOT_FREE, TASK_ABSENT, TASK_PRESENT, TASK_RUNNING,
    TASK_WAITING,
};
use crate::shares::Room;

pub fn join(pool: &mut Pool, task: u8, share: Share) -> Result<(), u8> {
    absent(&mut pool.tasks, task)?;
    let Share { small, large } = share;
    if small.reserve > small.limit || large.reserve > large.limit {
        return Err(RESERVE_ABOVE_LIMIT);
    }
    // What is spoken for has its blocks: none is asked for where nothing is to be held back.
    if small.reserve > 0 && !Room::small(pool).can_hold_back(small.reserve)
        || large.reserve > 0 && !Room::large(pool).can_hold_back(large.reserve)
    {
        return Err(RESERVE_NOT_FREE);
    }
    pool.tasks[usize::from(task)] = TaskEntry { state: RUNNING, ..ABSENT_TASK };
    pool.shares[usize::from(task)] = share;
    Ok(())
}

/// As a viewer, who has no share.
pub fn view(pool: &mut Pool, task: u8) -> Result<(), u8> {
    *absent(&mut pool.tasks, task)? = TaskEntry { state: VIEWING, ..ABSENT_TASK };
    Ok(())
}

/// Leave, block and tick tell whether global time advanced.
pub fn leave(pool: &mut Pool, task: u8) -> Result<bool, u8> {
    let entry = entry_of(&mut pool.tasks, task)?;
    if entry.state == ABSENT {
        return Err(TASK_ABSENT);
    }
    *entry = ABSENT_TASK;
    pool.shares[usize::from(task)] = Share::NONE;
    disown(pool, task);
    let ended = depart(pool, task);
    Ok(settle(pool, ended))
}

pub fn block(pool: &mut Pool, task: u8) -> Result<bool, u8> {
    let entry = running(&mut pool.tasks, task)?;
    (entry.state, entry.ticked) = (WAITING, 0);
    Ok(settle(pool, false))
}

pub fn resume(pool: &mut Pool, task: u8) -> Result<(), u8> {
    let entry = entry_of(&mut pool.tasks, task)?;
    match entry.state {
        ABSENT => Err(TASK_ABSENT),
        WAITING => {
            entry.state = RUNNING;
            Ok(())
        }
        _ => Err(TASK_RUNNING),
    }
}

pub fn tick(pool: &mut Pool, task: u8) -> Result<bool, u8> {
    let entry = running(&mut pool.tasks, task)?;
    entry.clock = entry.clock.wrapping_add(1);
    entry.ticked = 1;
    let now = entry.clock;
    let ended = end(pool, |clock, due| (clock == LOCAL + task) & (due == now));
    Ok(settle(pool, ended))
}

/// 1, else the task's entry.
fn entry_of(tasks: &mut [TaskEntry; TASKS], task: u8) -> Result<&mut TaskEntry, u8> {
    tasks.get_mut(usize::from(task)).ok_or(NO_SUCH_TASK)
}

/// 1, 2, else the task's entry.
fn absent(tasks: &mut [TaskEntry; TASKS], task: u8) -> Result<&mut TaskEntry, u8> {
    let entry = entry_of(tasks, task)?;
    if entry.state != ABSENT {
        return Err(TASK_PRESENT);
    }
    Ok(entry)
}

/// 1, 3, 4, 27, else the task's entry.
fn running(tasks: &mut [TaskEntry; TASKS], task: u8) -> Result<&mut TaskEntry, u8> {
    let entry = entry_of(tasks, task)?;
    match entry.state {
        ABSENT => Err(TASK_ABSENT),
        WAITING => Err(TASK_WAITING),
        VIEWING => Err(ONLY_VIEWS),
        _ => Ok(entry),
    }
}

/// What follows a leave, block or tick, which ended expirations or not: the advance test, and the blocks that became free.
/// Tells whether global time advanced.
fn settle(pool: &mut Pool, mut ended: bool) -> bool {
    let advances = all_ticked(&pool.tasks);
    if advances {
        let now = pool.global.wrapping_add(1);
        pool.global = now;
        pool.tasks.iter_mut().for_each(|task| task.ticked = 0);
        put_off(pool);
        ended |= end(pool, |clock, due| is_global(clock) & (due == now));
    }
    if ended {
        free_blocks(pool);
    }
    advances
}

/// Bit t: task t runs and has not ticked.
pub fn awaited(pool: &Pool) -> u16 {
    let bit = |task: &TaskEntry| u16::from(task.state == RUNNING && task.ticked == 0);
    pool.tasks.iter().rev().fold(0, |bits, task| bits << 1 | bit(task))
}

/// What a task has of one store: its objects there, and what it has joined with.
#[derive(Clone, Copy, Debug, PartialEq, Eq)]
pub struct Holding {
    pub made: u8,
    pub reserve: u8,
    pub limit: u8,
}

#[derive(Clone, Copy, Debug, PartialEq, Eq)]
pub struct Holdings {
    pub small: Holding,
    pub large: Holding,
}

/// All 0 of an absent task.
pub fn share(pool: &Pool, task: u8) -> Result<Holdings, u8> {
    if usize::from(task) >= TASKS {
        return Err(NO_SUCH_TASK);
    }
    let holding = |room: Room| {
        let Quota { reserve, limit } = room.quota(task);
        Holding { made: room.made(task), reserve, limit }
    };
    Ok(Holdings { small: holding(Room::small(pool)), large: holding(Room::large(pool)) })
}

/// At least one task runs, and every running one has ticked.
fn all_ticked(tasks: &[TaskEntry; TASKS]) -> bool {
    let (mut running, mut pending) = (false, false);
    for task in tasks {
        let runs = task.state == RUNNING;
        running |= runs;
        pending |= runs & (task.ticked == 0);
    }
    running & !pending
}

/// What a leaver has set: its local expirations end, and of its global ones the setter is departed. Tells whether any ended.
fn depart(pool: &mut Pool, leaver: u8) -> bool {
    let (local, global) = (LOCAL + leaver, GLOBAL + leaver);
    let mut ended = false;
    for clock in &mut pool.clocks {
        ended |= *clock == local;
        *clock = if *clock == global { DEPARTED } else { *clock };
        *clock = if *clock == local { FREE } else { *clock };
    }
    ended
}

/// What the leaver has made is nobody's.
fn disown(pool: &mut Pool, leaver: u8) {
    for extent in &mut pool.extents {
        *extent = if maker_in(*extent) == leaver { with_maker(*extent, NOBODY) } else { *extent };
    }
}

/// More than there are codes of clocks.
const CODES: usize = 64;

/// Puts off by one the global expirations of setters that wait.
fn put_off(pool: &mut Pool) {
    let mut delays = [0; CODES];
    for (delay, task) in delays[usize::from(GLOBAL)..].iter_mut().zip(&pool.tasks) {
        *delay = u32::from(task.state == WAITING);
    }
    if delays == [0; CODES] {
        return;
    }
    let groups = pool.clocks.as_chunks::<GROUP>().0.iter();
    for (clocks, dues) in groups.zip(pool.dues.as_chunks_mut::<GROUP>().0) {
        if *clocks == [FREE; GROUP] {
            continue;
        }
        for i in 0..GROUP {
            dues[i] = dues[i].wrapping_add(delays[usize::from(clocks[i]) % CODES]);
        }
    }
}

/// Ends these expirations, and tells whether there were any. Each group is asked before it is changed: most calls end none.
fn end(pool: &mut Pool, ends: impl Fn(u8, u32) -> bool) -> bool {
    let mut ended = false;
    let groups = pool.clocks.as_chunks_mut::<GROUP>().0.iter_mut();
    for (clocks, dues) in groups.zip(pool.dues.as_chunks::<GROUP>().0) {
        let some = clocks.iter().zip(dues).fold(false, |some, (&clock, &due)| some | ends(clock, due));
        if some {
            for (clock, &due) in clocks.iter_mut().zip(dues) {
                *clock = if ends(*clock, due) { FREE } else { *clock };
            }
            ended = true;
        }
    }
    ended
}

/// Frees the blocks that no expiration names any more.
fn free_blocks(pool: &mut Pool) {
    let mut named = [FREE; 256];
    for (clocks, blocks) in pool.clocks.as_chunks::<GROUP>().0.iter().zip(pool.named.as_chunks::<GROUP>().0) {
        if *clocks == [FREE; GROUP] {
            continue;
        }
        for i in 0..GROUP {
            named[usize::from(blocks[i])] |= clocks[i];
        }
    }
    for (handle, named) in pool.handles.iter_mut().zip(named) {
        *handle = if named == FREE { 0 } else { *handle };
    }
}
