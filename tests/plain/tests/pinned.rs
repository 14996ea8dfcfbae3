//! Order 5 by its own entry: the ledger's answers on the reference's scripts, 15 first, records with pinned expirations in
//! all places, and counters that go round.

mod memory;

use memory::{sites, Memory};
use plain::calls;
use plain::fit::is_well_formed;
use plain::limits::{BLOCKS, EXPIRATIONS};
use plain::record::{extent_of, Pool, Share, TaskEntry, FREE, FRESH, LOCAL, NOBODY, PINNED, RUNNING};
use reference::call::{Call, Model};
use reference::frame::decode;
use reference::generate::{sized_script_of, Profile};
use reference::ledger::Ledger;
use reference::script::lines;

/// By the entry and by the frame, at 01's figures and at others: the ledger's number, and the same record.
#[test]
fn the_answers_of_the_ledger() {
    let mut asked = 0;
    for (seed, limits) in sites(0..40) {
        let script = sized_script_of(limits, Some(Profile::Pinned), seed, 20_000);
        let mut room = vec![0; script.len()];
        let (mut memory, mut ledger) = (Memory::beside(limits), Ledger::of(limits));
        for line in lines(&script) {
            let Ok(call) = decode(line, &mut room) else { continue };
            let mut typed = memory.pool.clone();
            let number = ledger.call(&call).err().map_or(0, |refusal| refusal as u8);
            assert_eq!(memory.frame(line).0, number, "{call:?}");
            if let Call::Release { task, handle } = call {
                assert_eq!(calls::release(&mut typed, task, handle), number, "{call:?}");
                assert_eq!(typed, memory.pool, "{call:?}");
                asked += 1;
            }
        }
    }
    assert!(asked > 6_000, "{asked}");
}

/// Task 0 runs, and an object stands in each block, pinned from this entry of the table on.
fn pinned_from(first: usize) -> Pool {
    let mut pool = Pool { given: u32::MAX, ..FRESH };
    pool.tasks[0].state = RUNNING;
    for block in 0..BLOCKS {
        pool.handles[block] = 1 + block as u32;
        pool.extents[block] = extent_of(32 + u16::from(block >= 64), 0, NOBODY);
        let entry = (first + block) % EXPIRATIONS;
        (pool.clocks[entry], pool.named[entry]) = (PINNED, block as u8);
    }
    pool
}

/// Wherever it stands in the table, with another expiration on the object before it or after it, and with none.
#[test]
fn released_from_all_places() {
    for first in 0..EXPIRATIONS {
        let whole = pinned_from(first);
        assert!(is_well_formed(&whole));
        for block in [0, 1, 63, 64, 95] {
            let (entry, handle) = ((first + block) % EXPIRATIONS, 1 + block as u32);
            for other in [None, Some((first + BLOCKS) % EXPIRATIONS), Some((first + EXPIRATIONS - 1) % EXPIRATIONS)] {
                let mut pool = whole.clone();
                if let Some(other) = other {
                    (pool.clocks[other], pool.named[other], pool.dues[other]) = (LOCAL, block as u8, 1);
                }
                let mut expected = pool.clone();
                expected.clocks[entry] = FREE;
                expected.handles[block] = if other.is_some() { handle } else { 0 };
                assert_eq!(calls::release(&mut pool, 0, handle), 0);
                assert_eq!(pool, expected, "{first}, {block}");
                assert!(is_well_formed(&pool));
                assert_eq!(calls::release(&mut pool, 0, handle), if other.is_some() { 22 } else { 12 });
                assert_eq!(pool, expected, "{first}, {block}");
            }
        }
    }
}

/// Two of them on one block are not fit, wherever they stand, nor is one with a time, nor one of no object.
#[test]
fn what_is_not_fit() {
    for (one, other) in [(0, 1), (0, 255), (31, 32), (100, 228)] {
        let mut pool = Pool { given: 1, ..FRESH };
        (pool.handles[0], pool.extents[0]) = (1, extent_of(4, 0, NOBODY));
        (pool.clocks[one], pool.named[one]) = (PINNED, 0);
        assert!(is_well_formed(&pool));
        for due in [1, 32, u32::MAX] {
            pool.dues[one] = due;
            assert!(!is_well_formed(&pool), "{due}");
        }
        pool.dues[one] = 0;
        pool.named[one] = 1;
        assert!(!is_well_formed(&pool));
        pool.named[one] = 0;
        (pool.clocks[other], pool.named[other]) = (PINNED, 0);
        assert!(!is_well_formed(&pool), "{one}, {other}");
    }
}

/// Global time reads 0, and the due number of what is pinned is no time.
#[test]
fn where_the_counters_go_round() {
    for counter in [0, u32::MAX - 31, u32::MAX - 1, u32::MAX] {
        let mut memory = Memory::of(Pool { global: counter, ..FRESH });
        memory.pool.tasks[0] = TaskEntry { state: RUNNING, ticked: 0, clock: counter };
        memory.pool.shares[0] = Share::OPEN;
        assert_eq!(memory.make(2, 0, 1), 0);
        let pool = &mut memory.pool;
        for _ in 0..40 {
            let (mut local, mut global) = (9, 9);
            assert_eq!(calls::remaining(pool, 0, 1, &mut local, &mut global), 0);
            assert_eq!((local, global), (0, 0), "{counter}");
            assert_eq!(calls::tick(pool, 0, &mut 0), 0);
            assert!(is_well_formed(pool));
        }
        assert_eq!(calls::release(pool, 0, 1), 0);
        assert_eq!((pool.clocks, pool.handles), (FRESH.clocks, FRESH.handles), "{counter}");
    }
}

#[test]
fn a_record_that_is_not_well_formed_is_15_first() {
    let mut pool = pinned_from(0);
    pool.tasks[3].state = 4;
    let before = pool.clone();
    for (task, handle) in [(0, 1), (16, 1), (1, 1), (0, 0), (0, 97)] {
        assert_eq!(calls::release(&mut pool, task, handle), 15);
    }
    assert_eq!(pool, before);
}
