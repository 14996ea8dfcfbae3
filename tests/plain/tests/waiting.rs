//! Order 4: the codes of the clocks, and counters that go round.

mod memory;

use memory::Memory;
use plain::calls;
use plain::fit::is_well_formed;
use plain::limits::TASKS;
use plain::record::{
    extent_of, Pool, Share, TaskEntry, ABSENT, ABSENT_TASK, DEPARTED, FREE, FRESH, GLOBAL, LOCAL, NOBODY, PINNED,
    RUNNING, WAITING,
};

/// Tasks of each state by turns, and an object with an expiration of this code that is due so far ahead. All clocks and
/// global time read 0.
fn with(code: u8, units: u32) -> Pool {
    let mut pool = Pool { given: 1, ..FRESH };
    for (task, entry) in pool.tasks.iter_mut().enumerate() {
        *entry = TaskEntry { state: state_of(task), ..ABSENT_TASK };
    }
    (pool.handles[0], pool.extents[0]) = (1, extent_of(4, 0, NOBODY));
    (pool.clocks[0], pool.named[0], pool.dues[0]) = (code, 0, units);
    pool
}

fn state_of(task: usize) -> u16 {
    [RUNNING, WAITING, ABSENT][task % 3]
}

/// The setter of a local or a global one is there, or departed; one that is pinned has no time; no other code is one.
#[test]
fn every_code() {
    for code in 0..=255 {
        let most = match code {
            LOCAL..GLOBAL if state_of(usize::from(code - LOCAL)) != ABSENT => 31,
            GLOBAL..DEPARTED if state_of(usize::from(code - GLOBAL)) != ABSENT => 32,
            DEPARTED => 32,
            _ => 0,
        };
        for units in [0, 1, 2, 31, 32, 33, u32::MAX] {
            let fit = if code == PINNED { units == 0 } else { (1..=most).contains(&units) };
            assert_eq!(is_well_formed(&with(code, units)), fit, "{code}, {units}");
        }
    }
}

/// Task 0 waits through more advances than its expiration has left, across the end of 32 bits.
#[test]
fn where_global_time_goes_round() {
    for global in [0, u32::MAX - 40, u32::MAX - 2, u32::MAX] {
        let Memory { mut pool, mut small, mut large } = Memory::of(Pool { global, ..FRESH });
        (0..2).for_each(|task| assert_eq!(calls::join(&mut pool, task, Share::OPEN), 0));
        assert_eq!(calls::make(&mut pool, &mut small, &mut large, 0, 1, 0, 4, 0, &mut 0), 0);
        assert_eq!(calls::make(&mut pool, &mut small, &mut large, 1, 1, 30, 4, 0, &mut 0), 0);
        assert_eq!(calls::block(&mut pool, 0, &mut 0), 0);
        for advances in 1..=40 {
            let mut advanced = 0;
            assert_eq!((calls::tick(&mut pool, 1, &mut advanced), advanced), (0, 1));
            assert_eq!(pool.dues[0].wrapping_sub(pool.global), 2, "{global}, {advances}");
            assert_eq!(pool.clocks[1] == FREE, advances >= 32, "{global}, {advances}");
            assert!(is_well_formed(&pool));
        }
        assert_eq!(calls::leave(&mut pool, 0, &mut 0), 0);
        assert_eq!((pool.clocks[0], pool.tasks), (DEPARTED, only_1_runs(40)));
        (0..2).for_each(|_| assert_eq!(calls::tick(&mut pool, 1, &mut 0), 0));
        assert_eq!((pool.clocks[0], pool.handles[0]), (FREE, 0), "{global}");
    }
}

fn only_1_runs(clock: u32) -> [TaskEntry; TASKS] {
    let mut tasks = [ABSENT_TASK; TASKS];
    tasks[1] = TaskEntry { state: RUNNING, ticked: 0, clock };
    tasks
}
