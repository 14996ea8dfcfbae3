//! Order 1 by its own entry: the ledger's answers on the reference's scripts, 15 first, and counters that go round.

mod memory;

use memory::{sites, Memory};
use plain::calls;
use plain::record::{Pool, Share, TaskEntry, FRESH, RUNNING};
use reference::call::{Accepted, Call, Lifetime, Model};
use reference::frame::decode;
use reference::generate::{sized_script_of, Profile};
use reference::ledger::Ledger;
use reference::script::lines;

const UNTOLD: u8 = 0xA5;

/// What the entry tells: the number of its answer, and what is lent for the rest.
fn told(pool: &Pool, task: u8, handle: u32) -> (u8, u8, u8) {
    let (mut local, mut global) = (UNTOLD, UNTOLD);
    let number = calls::remaining(pool, task, handle, &mut local, &mut global);
    (number, local, global)
}

/// At 01's figures and at others.
#[test]
fn the_answers_of_the_ledger() {
    let mut asked = 0;
    for (seed, limits) in sites(0..40) {
        let script = sized_script_of(limits, Some(Profile::Remaining), seed, 20_000);
        let mut room = vec![0; script.len()];
        let (mut memory, mut ledger) = (Memory::beside(limits), Ledger::of(limits));
        for line in lines(&script) {
            let Ok(call) = decode(line, &mut room) else { continue };
            let expected = ledger.call(&call);
            if let Call::Remaining { task, handle } = call {
                let expected = match expected {
                    Ok(Accepted::Remaining(Lifetime { local, global })) => (0, local, global),
                    other => (other.expect_err("a refusal") as u8, UNTOLD, UNTOLD),
                };
                assert_eq!(told(&memory.pool, task, handle), expected, "{call:?}");
                asked += 1;
            }
            memory.frame(line);
        }
    }
    assert!(asked > 10_000, "{asked}");
}

/// Object 1 has a local expiration of task 0 and a global one, both with extension 30, set when both counters read this.
fn set_at(counter: u32) -> Pool {
    let mut memory = Memory::of(Pool { global: counter, ..FRESH });
    memory.pool.tasks[0] = TaskEntry { state: RUNNING, ticked: 0, clock: counter };
    memory.pool.shares[0] = Share::OPEN;
    assert_eq!(memory.make(0, 30, 1), 0);
    assert_eq!(calls::refresh(&mut memory.pool, 0, 1, 30, 1), 0);
    memory.pool
}

#[test]
fn where_the_counters_go_round() {
    for counter in [0, 200, 255, 256, u32::MAX - 31, u32::MAX - 7, u32::MAX] {
        let mut pool = set_at(counter);
        for ticks in 0..32 {
            assert_eq!(told(&pool, 0, 1), (0, 31 - ticks, 32 - ticks), "{counter}");
            calls::tick(&mut pool, 0, &mut 0);
        }
        assert_eq!(told(&pool, 0, 1), (12, UNTOLD, UNTOLD), "{counter}");
    }
}

#[test]
fn a_record_that_is_not_well_formed_is_15_first() {
    let mut pool = set_at(0);
    pool.tasks[3].state = 4;
    for (task, handle) in [(0, 1), (16, 1), (1, 1), (0, 0)] {
        assert_eq!(told(&pool, task, handle), (15, UNTOLD, UNTOLD));
    }
}
