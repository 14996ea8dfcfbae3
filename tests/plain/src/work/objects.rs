//! The calls on objects, and the report.

use core::ops::Range;

use crate::limits::{
    Limits, BLOCKS, EXPIRATIONS, GLOBAL_EXTRA, LARGEST_BATCH, LARGE_SIZE, LOCAL_EXTRA, PINNING, SMALL_BLOCKS,
    SMALL_SIZE,
};
use crate::record::{
    extent_of, is_global, length_in, prefix_in, sum_in, with_prefix, with_sum, Pool, TaskEntry, ABSENT, FREE, GLOBAL,
    GROUP, LOCAL, PINNED, VIEWING, WAITING,
};
use crate::refusals::{
    AT_LIMIT, BATCH_OUT_OF_RANGE, EXTENSION_TOO_LONG, HANDLES_SPENT, HANDLE_NOT_GIVEN, LENGTH_OUT_OF_RANGE, NOT_PINNED,
    NO_FREE_BLOCK, NO_FREE_EXPIRATION, NO_SUCH_TASK, OBJECT_GONE, ONLY_MAKE_PINS, ONLY_VIEWS, OUTSIDE_OBJECT,
    PREFIX_TOO_LONG, SUM_DIFFERS, TASK_ABSENT, TASK_WAITING, WRONG_STORE_LENGTH,
};
use crate::shares::Room;

const SHORTEST_LARGE: usize = SMALL_SIZE + 1;

/// The figures of a report.
#[derive(Clone, Copy, Debug, PartialEq, Eq)]
pub struct Figures {
    pub small: u8,
    pub large: u8,
    pub expirations: u16,
    pub given: u32,
}

/// The handle of a new object, in the first free block of its store. The kind is 0, 1 or 2.
pub fn make(
    pool: &mut Pool,
    small: &mut [u8],
    large: &mut [u8],
    (task, kind, extension): (u8, u8, u8),
    (length, prefix): (u16, u16),
) -> Result<u32, u8> {
    check_stores(pool.limits, small, large)?;
    let clock = running(pool, task)?;
    check_extension(pool.limits, kind, extension)?;
    let (first, end, count) = match usize::from(length) {
        1..=SMALL_SIZE => (0, SMALL_BLOCKS, pool.limits.small_blocks),
        SHORTEST_LARGE..=LARGE_SIZE => (SMALL_BLOCKS, BLOCKS, pool.limits.large_blocks),
        _ => return Err(LENGTH_OUT_OF_RANGE),
    };
    if prefix > length {
        return Err(PREFIX_TOO_LONG);
    }
    if pool.given == u32::MAX {
        return Err(HANDLES_SPENT);
    }
    check_room(if first == 0 { Room::small(pool) } else { Room::large(pool) }, task)?;
    let free = first + free_place(0, &pool.handles[first..end], count).ok_or(NO_FREE_BLOCK)?;
    set(pool, clock, (task, kind, extension), free)?;
    pool.given += 1;
    pool.handles[free] = pool.given;
    pool.extents[free] = with_prefix(extent_of(length, 0, task), prefix);
    block_mut(small, large, free).fill(0);
    Ok(pool.given)
}

pub fn refresh(pool: &mut Pool, (task, kind, extension): (u8, u8, u8), handle: u32) -> Result<(), u8> {
    let clock = running(pool, task)?;
    check_refreshing(kind)?;
    check_extension(pool.limits, kind, extension)?;
    let block = find(pool, handle)?;
    set(pool, clock, (task, kind, extension), block)
}

/// Refreshes all of these objects or none; one that is named twice, twice.
pub fn refresh_all(pool: &mut Pool, (task, kind, extension): (u8, u8, u8), handles: &[u32]) -> Result<(), u8> {
    let clock = running(pool, task)?;
    let count = handles.len();
    if count == 0 || count > LARGEST_BATCH {
        return Err(BATCH_OUT_OF_RANGE);
    }
    check_refreshing(kind)?;
    check_extension(pool.limits, kind, extension)?;
    let (mut blocks, mut entries) = ([0; LARGEST_BATCH], [0; LARGEST_BATCH]);
    find_all(pool, handles, &mut blocks)?;
    find_free(pool, &mut entries[..count])?;
    let (goes_by, due) = due_after(pool, clock, (task, kind, extension));
    for (&entry, &block) in entries[..count].iter().zip(&blocks) {
        let entry = usize::from(entry);
        (pool.clocks[entry], pool.named[entry], pool.dues[entry]) = (goes_by, block, due);
    }
    Ok(())
}

/// Ends what pins an object. Its block is free where no other expiration names it.
pub fn release(pool: &mut Pool, task: u8, handle: u32) -> Result<(), u8> {
    running(pool, task)?;
    let block = find(pool, handle)?;
    let (mut pin, mut others) = (EXPIRATIONS, false);
    let groups = pool.clocks.as_chunks::<GROUP>().0.iter().zip(pool.named.as_chunks::<GROUP>().0);
    for (group, (clocks, blocks)) in groups.enumerate() {
        if !is_on_some(clocks, blocks, block as u8) {
            continue;
        }
        for i in 0..GROUP {
            let is_on = (clocks[i] != FREE) & (blocks[i] == block as u8);
            pin = if is_on & (clocks[i] == PINNED) { group * GROUP + i } else { pin };
            others |= is_on & (clocks[i] != PINNED);
        }
    }
    *pool.clocks.get_mut(pin).ok_or(NOT_PINNED)? = FREE;
    if !others {
        pool.handles[block] = 0;
    }
    Ok(())
}

/// The object's bytes, where they lie, if all bytes of its block have their sum; of these a viewer gets the prefix.
pub fn read<'a>(pool: &Pool, small: &'a [u8], large: &'a [u8], task: u8, handle: u32) -> Result<&'a [u8], u8> {
    check_stores(pool.limits, small, large)?;
    let views = awake(pool, task)?.state == VIEWING;
    let block = find(pool, handle)?;
    let (extent, range) = (pool.extents[block], range_of(block));
    let bytes = if block < SMALL_BLOCKS { &small[range] } else { &large[range] };
    check_sum(bytes, extent)?;
    let count = if views { prefix_in(extent) } else { length_in(extent) };
    Ok(&bytes[..usize::from(count)])
}

/// The sum changes by the bytes that are replaced.
pub fn write(
    pool: &mut Pool,
    small: &mut [u8],
    large: &mut [u8],
    task: u8,
    handle: u32,
    (offset, bytes): (u8, &[u8]),
) -> Result<(), u8> {
    check_stores(pool.limits, small, large)?;
    running(pool, task)?;
    let block = find(pool, handle)?;
    let (extent, all) = (pool.extents[block], block_mut(small, large, block));
    check_sum(all, extent)?;
    let object = &mut all[..usize::from(length_in(extent))];
    let part = object.get_mut(usize::from(offset)..).and_then(|rest| rest.get_mut(..bytes.len()));
    let part = part.ok_or(OUTSIDE_OBJECT)?;
    let sum = sum_in(extent) - sum_of(part) + sum_of(bytes);
    part.copy_from_slice(bytes);
    pool.extents[block] = with_sum(extent, sum);
    Ok(())
}

pub fn report(pool: &Pool) -> Figures {
    let used = |handles: &[u32]| handles.iter().map(|&handle| u8::from(handle != 0)).sum();
    let (small, large) = pool.handles.split_at(SMALL_BLOCKS);
    Figures {
        small: used(small),
        large: used(large),
        expirations: pool.clocks.iter().map(|&clock| u16::from(clock != FREE)).sum(),
        given: pool.given,
    }
}

/// What remains to an object: the most units of the asking task's local expirations on it, and of all global ones; 0 for
/// none.
#[derive(Clone, Copy, Debug, PartialEq, Eq)]
pub struct Lifetime {
    pub local: u8,
    pub global: u8,
}

/// One pass over the expirations. A group of them is asked at once whether one is on the object: most have none. At most 32
/// units remain, so that the last bytes tell them.
pub fn remaining(pool: &Pool, task: u8, handle: u32) -> Result<Lifetime, u8> {
    let clock = awake(pool, task)?.clock;
    let block = find(pool, handle)? as u8;
    let mut most = Lifetime { local: 0, global: 0 };
    let groups = pool.clocks.as_chunks::<GROUP>().0.iter();
    let groups = groups.zip(pool.named.as_chunks::<GROUP>().0).zip(pool.dues.as_chunks::<GROUP>().0);
    for ((clocks, blocks), dues) in groups {
        if !is_on_some(clocks, blocks, block) {
            continue;
        }
        for i in 0..GROUP {
            let units = |counts: bool, now: u32| {
                u8::from(counts & (blocks[i] == block)) * (dues[i] as u8).wrapping_sub(now as u8)
            };
            most.local = most.local.max(units(clocks[i] == LOCAL + task, clock));
            most.global = most.global.max(units(is_global(clocks[i]), pool.global));
        }
    }
    Ok(most)
}

// Tests.

/// 14.
fn check_stores(limits: Limits, small: &[u8], large: &[u8]) -> Result<(), u8> {
    if small.len() != limits.small_store() || large.len() != limits.large_store() {
        return Err(WRONG_STORE_LENGTH);
    }
    Ok(())
}

/// 1, 3, 4, else the entry of a task that runs or views.
fn awake(pool: &Pool, task: u8) -> Result<&TaskEntry, u8> {
    let entry = pool.tasks.get(usize::from(task)).ok_or(NO_SUCH_TASK)?;
    match entry.state {
        ABSENT => Err(TASK_ABSENT),
        WAITING => Err(TASK_WAITING),
        _ => Ok(entry),
    }
}

/// 1, 3, 4, 27, else what the task's clock reads.
fn running(pool: &Pool, task: u8) -> Result<u32, u8> {
    let entry = awake(pool, task)?;
    if entry.state == VIEWING {
        return Err(ONLY_VIEWS);
    }
    Ok(entry.clock)
}

/// 6: what is pinned has no extension.
fn check_extension(limits: Limits, kind: u8, extension: u8) -> Result<(), u8> {
    let longest = if kind == PINNING { 0 } else { limits.extension };
    if u32::from(extension) > longest {
        return Err(EXTENSION_TOO_LONG);
    }
    Ok(())
}

/// 26, 9.
fn check_room(room: Room, task: u8) -> Result<(), u8> {
    if room.is_at_limit(task) {
        return Err(AT_LIMIT);
    }
    if !room.has_block(task) {
        return Err(NO_FREE_BLOCK);
    }
    Ok(())
}

/// 21.
fn check_refreshing(kind: u8) -> Result<(), u8> {
    if kind == PINNING {
        return Err(ONLY_MAKE_PINS);
    }
    Ok(())
}

/// 11, 12, else the object's block.
fn find(pool: &Pool, handle: u32) -> Result<usize, u8> {
    if handle == 0 || handle > pool.given {
        return Err(HANDLE_NOT_GIVEN);
    }
    place_of(handle, &pool.handles).ok_or(OBJECT_GONE)
}

/// 23.
fn check_sum(block: &[u8], extent: u64) -> Result<(), u8> {
    if sum_of(block) != sum_in(extent) {
        return Err(SUM_DIFFERS);
    }
    Ok(())
}

/// 11 if one of the handles was not given, 12 if one of the objects is gone, else their blocks. A table tells the block of
/// a handle by its last byte; where it has another one, all are asked.
fn find_all(pool: &Pool, handles: &[u32], blocks: &mut [u8; LARGEST_BATCH]) -> Result<(), u8> {
    if handles.iter().fold(false, |some, &handle| some | (handle == 0) | (handle > pool.given)) {
        return Err(HANDLE_NOT_GIVEN);
    }
    let mut likely = [0; 256];
    for (block, &handle) in (0..).zip(&pool.handles) {
        likely[usize::from(handle as u8)] = block;
    }
    for (block, &handle) in blocks.iter_mut().zip(handles) {
        *block = likely[usize::from(handle as u8)];
        if pool.handles[usize::from(*block)] != handle {
            *block = place_of(handle, &pool.handles).ok_or(OBJECT_GONE)? as u8;
        }
    }
    Ok(())
}

/// The first free entries, as many as are asked for, or 10 where fewer within the limits are free. Groups without one are
/// passed over.
fn find_free(pool: &Pool, entries: &mut [u8]) -> Result<(), u8> {
    let mut places = entries.iter_mut();
    'all: for (group, clocks) in pool.clocks.as_chunks::<GROUP>().0.iter().enumerate() {
        if !clocks.iter().fold(false, |has, &clock| has | (clock == FREE)) {
            continue;
        }
        for (i, _) in clocks.iter().enumerate().filter(|(_, &clock)| clock == FREE) {
            let Some(place) = places.next() else { break 'all };
            *place = (group * GROUP + i) as u8;
        }
    }
    let is_short = places.len() > 0;
    match entries.last() {
        Some(&last) if !is_short && u32::from(last) < pool.limits.expirations => Ok(()),
        _ => Err(NO_FREE_EXPIRATION),
    }
}

// Changes and places.

/// Sets an expiration on the object of a block, in the first free entry, or 10.
fn set(pool: &mut Pool, clock: u32, with: (u8, u8, u8), block: usize) -> Result<(), u8> {
    let entry = free_place(FREE, &pool.clocks, pool.limits.expirations).ok_or(NO_FREE_EXPIRATION)?;
    (pool.clocks[entry], pool.dues[entry]) = due_after(pool, clock, with);
    pool.named[entry] = block as u8;
    Ok(())
}

/// The clock that an expiration goes by that is set now, and when it is due.
fn due_after(pool: &Pool, clock: u32, (task, kind, extension): (u8, u8, u8)) -> (u8, u32) {
    match kind {
        0 => (LOCAL + task, clock.wrapping_add(u32::from(extension) + LOCAL_EXTRA)),
        PINNING => (PINNED, 0),
        _ => (GLOBAL + task, pool.global.wrapping_add(u32::from(extension) + GLOBAL_EXTRA)),
    }
}

/// Whether an expiration of a group is on the object of this block. All are asked at once.
fn is_on_some(clocks: &[u8; GROUP], blocks: &[u8; GROUP], block: u8) -> bool {
    let is_on = |(&clock, &other): (&u8, &u8)| (clock != FREE) & (other == block);
    clocks.iter().zip(blocks).fold(false, |some, entry| some | is_on(entry))
}

/// The first free place within the limits, which are so many. All places past them are free, so that it is the first of the
/// table or there is none.
fn free_place<T: Copy + PartialEq>(free: T, table: &[T], count: u32) -> Option<usize> {
    place_of(free, table).filter(|&place| place < count as usize)
}

/// Where an entry stands first. A group of them is asked at once, and then the group that has it one by one. Each table
/// is some groups long.
fn place_of<T: Copy + PartialEq>(entry: T, table: &[T]) -> Option<usize> {
    let groups = table.as_chunks::<GROUP>().0;
    let has = |group: &[T; GROUP]| group.iter().fold(false, |has, &other| has | (other == entry));
    let group = groups.iter().position(has)?;
    let place = groups[group].iter().position(|&other| other == entry)?;
    Some(group * GROUP + place)
}

/// The sum of at most as many bytes as a block has: 65,280 is the most.
fn sum_of(bytes: &[u8]) -> u16 {
    bytes.iter().map(|&byte| u16::from(byte)).sum()
}

/// Where a block lies in its store.
fn range_of(block: usize) -> Range<usize> {
    let (place, size) = if block < SMALL_BLOCKS { (block, SMALL_SIZE) } else { (block - SMALL_BLOCKS, LARGE_SIZE) };
    place * size..(place + 1) * size
}

fn block_mut<'a>(small: &'a mut [u8], large: &'a mut [u8], block: usize) -> &'a mut [u8] {
    let range = range_of(block);
    if block < SMALL_BLOCKS {
        &mut small[range]
    } else {
        &mut large[range]
    }
}
