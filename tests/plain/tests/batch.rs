//! Order 2 by its own entry: the ledger's answers on the reference's scripts, 19 and 15 first, handles whose last bytes
//! are alike, and counters that go round.

mod memory;

use memory::{sites, Memory};
use plain::calls;
use plain::fit::is_well_formed;
use plain::limits::{BLOCKS, EXPIRATIONS};
use plain::record::{extent_of, Pool, Share, TaskEntry, FREE, FRESH, GLOBAL, LOCAL, NOBODY, RUNNING};
use reference::call::{Call, Model};
use reference::frame::decode;
use reference::generate::{sized_script_of, Profile};
use reference::ledger::Ledger;
use reference::script::lines;

/// By the entry and by the frame, at 01's figures and at others: the ledger's number, and the same record.
#[test]
fn the_answers_of_the_ledger() {
    let mut asked = 0;
    for (seed, limits) in sites(0..60) {
        let script = sized_script_of(limits, Some(Profile::Batch), seed, 20_000);
        let mut room = vec![0; script.len()];
        let (mut memory, mut ledger) = (Memory::beside(limits), Ledger::of(limits));
        for line in lines(&script) {
            let Ok(call) = decode(line, &mut room) else { continue };
            let before = memory.pool.clone();
            let number = ledger.call(&call).err().map_or(0, |refusal| refusal as u8);
            assert_eq!(memory.frame(line).0, number, "{call:?}");
            if let Call::Batch { task, kind, extension, handles } = call {
                let (mut typed, handles) = (before, handles.iter().collect::<Vec<_>>());
                assert_eq!(calls::refresh_all(&mut typed, task, kind as u8, extension, &handles), number, "{call:?}");
                assert_eq!(typed, memory.pool, "{call:?}");
                asked += 1;
            }
        }
    }
    assert!(asked > 4_000, "{asked}");
}

/// Task 0 runs, and an object stands in each block, with a global expiration of that task.
fn full(handles: impl Iterator<Item = u32>) -> Pool {
    let mut pool = Pool { given: u32::MAX, ..FRESH };
    pool.tasks[0].state = RUNNING;
    for (block, handle) in (0..BLOCKS).zip(handles) {
        pool.handles[block] = handle;
        pool.extents[block] = extent_of(32 + u16::from(block >= 64), 0, NOBODY);
        (pool.clocks[block], pool.named[block], pool.dues[block]) = (GLOBAL, block as u8, 1);
    }
    assert!(is_well_formed(&pool));
    pool
}

/// The objects that have a local expiration of task 0, sorted, as often as they have one.
fn refreshed(pool: &Pool) -> Vec<u32> {
    let set = (0..EXPIRATIONS).filter(|&i| pool.clocks[i] == LOCAL);
    let mut handles: Vec<_> = set.map(|i| pool.handles[usize::from(pool.named[i])]).collect();
    handles.sort_unstable();
    handles
}

#[test]
fn handles_of_all_kinds() {
    for step in [1, 2, 128, 255, 256, 257, 65_536, 1 << 24] {
        let pool = full((0..).map(|count: u32| 256 + count * step));
        for first in (0..BLOCKS).step_by(7) {
            for count in [1, 2, 31, 32] {
                let mut batch: Vec<_> = (0..count).map(|i| pool.handles[(first + 5 * i) % BLOCKS]).collect();
                let mut changed = pool.clone();
                assert_eq!(calls::refresh_all(&mut changed, 0, 0, 3, &batch), 0);
                batch.sort_unstable();
                assert_eq!(refreshed(&changed), batch, "{step}");
                assert!(is_well_formed(&changed));
                // Never given to an object that stands, and in no block.
                *batch.last_mut().unwrap() = 255;
                let mut same = pool.clone();
                assert_eq!(calls::refresh_all(&mut same, 0, 0, 3, &batch), 12);
                assert_eq!(same, pool);
            }
        }
    }
}

/// Wherever the free entries are, as many as are needed or one too few. All others are on one object.
#[test]
fn free_entries_of_all_places() {
    for first in (0..EXPIRATIONS).step_by(3) {
        for (count, step) in [(1, 1), (2, 131), (32, 1), (32, 5), (32, 8), (31, 33)] {
            let mut pool = full([1].into_iter());
            (pool.clocks, pool.named, pool.dues) = ([GLOBAL; EXPIRATIONS], [0; EXPIRATIONS], [1; EXPIRATIONS]);
            for i in 0..count {
                pool.clocks[(first + step * i) % EXPIRATIONS] = FREE;
            }
            let before = pool.clone();
            let too_many = if count < 32 { 10 } else { 20 };
            assert_eq!(calls::refresh_all(&mut pool, 0, 0, 3, &vec![1; count + 1]), too_many);
            assert_eq!(pool, before);
            assert_eq!(calls::refresh_all(&mut pool, 0, 0, 3, &vec![1; count]), 0);
            assert_eq!(refreshed(&pool).len(), count);
            assert_eq!(calls::refresh_all(&mut pool, 0, 0, 3, &[1]), 10);
        }
    }
}

#[test]
fn where_the_counters_go_round() {
    for counter in [0, u32::MAX - 31, u32::MAX - 7, u32::MAX] {
        let mut memory = Memory::of(Pool { global: counter, ..FRESH });
        memory.pool.tasks[0] = TaskEntry { state: RUNNING, ticked: 0, clock: counter };
        memory.pool.shares[0] = Share::OPEN;
        for handle in 1..=2 {
            assert_eq!(memory.make(0, 0, 1), 0);
            assert_eq!(memory.pool.given, handle);
        }
        let pool = &mut memory.pool;
        assert_eq!(calls::refresh_all(pool, 0, 0, 30, &[1, 2]), 0);
        assert_eq!(calls::refresh_all(pool, 0, 1, 30, &[2, 1]), 0);
        for ticks in 0..32 {
            for handle in 1..=2 {
                let (mut local, mut global) = (0, 0);
                assert_eq!(calls::remaining(pool, 0, handle, &mut local, &mut global), 0);
                assert_eq!((local, global), (31 - ticks, 32 - ticks), "{counter}");
            }
            calls::tick(pool, 0, &mut 0);
        }
        assert_eq!(calls::refresh_all(pool, 0, 0, 0, &[1, 2]), 12, "{counter}");
    }
}

#[test]
fn a_kind_that_is_none_is_19_and_then_a_record_that_is_not_well_formed_15() {
    let mut pool = full(1..);
    pool.tasks[3].state = 4;
    let before = pool.clone();
    for handles in [&[][..], &[1], &[0], &[97; 33]] {
        for task in [0, 1, 16] {
            assert_eq!(calls::refresh_all(&mut pool, task, 1, 31, handles), 15);
            assert_eq!(calls::refresh_all(&mut pool, task, 2, 31, handles), 15);
            assert_eq!(calls::refresh_all(&mut pool, task, 3, 31, handles), 19);
        }
    }
    assert_eq!(pool, before);
}
