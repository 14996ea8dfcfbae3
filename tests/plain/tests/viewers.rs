//! Order 10: the rows of the reference; what the ledger keeps on its scripts, by the entries and by the frame; and which
//! records are fit by their viewers and prefixes.

mod memory;
#[path = "../../reference/tests/rows/mod.rs"]
mod rows;
#[path = "../../reference/tests/rows/viewers.rs"]
mod viewer_rows;

use memory::{answering, sites, Memory};
use plain::calls;
use plain::fit::is_well_formed;
use plain::limits::{BLOCKS, LARGE_SIZE, SMALL_BLOCKS, TASKS};
use plain::record::{
    extent_of, maker_in, prefix_in, with_maker, with_prefix, with_sum, Pool, Quota, Share, ABSENT, FRESH, GLOBAL,
    LOCAL, NOBODY, PINNED, RUNNING, VIEWING, WAITING,
};
use reference::call::{Accepted, Call, Model};
use reference::frame::decode;
use reference::generate::{sized_script_of, Profile};
use reference::ledger::Ledger;
use reference::limits;
use reference::script::lines;
use reference::tasks::State;
use rows::check_answers;
use viewer_rows::check_all;

#[test]
fn rows() {
    check_all(|limits, name, rows| check_answers(name, rows, answering(limits)));
}

// Scripts.

fn number_of(state: State) -> u16 {
    match state {
        State::Absent => ABSENT,
        State::Running => RUNNING,
        State::Waiting => WAITING,
        State::Viewing => VIEWING,
    }
}

/// The prefixes of the objects, by handle.
fn prefixes_in(pool: &Pool) -> Vec<(u32, u16)> {
    let used = (0..BLOCKS).filter(|&block| pool.handles[block] != 0);
    let mut prefixes: Vec<_> = used.map(|block| (pool.handles[block], prefix_in(pool.extents[block]))).collect();
    prefixes.sort_unstable();
    prefixes
}

fn prefixes_by(ledger: &Ledger) -> Vec<(u32, u16)> {
    ledger.standing().iter().map(|object| (object.handle, object.block.prefix)).collect()
}

/// For whom global time waits, by the ledger.
fn awaited_by(ledger: &Ledger) -> u16 {
    let is_awaited = |(_, task): &(usize, &reference::tasks::Task)| task.state == State::Running && !task.ticked;
    ledger.tasks().entries().iter().enumerate().filter(is_awaited).map(|(task, _)| 1 << task).sum()
}

/// How often a view, a make and a viewer's read were answered by which number.
#[derive(Debug)]
struct Met {
    views: [usize; 29],
    makes: [usize; 29],
    reads: [usize; 29],
}

/// At 01's figures and at others: the ledger's answers, its states and its prefixes, and for whom time waits.
#[test]
fn what_the_ledger_keeps() {
    let mut met = Met { views: [0; 29], makes: [0; 29], reads: [0; 29] };
    for profile in [Profile::Viewers, Profile::Everyday, Profile::Crowd, Profile::Edges] {
        sites(0..16).for_each(|(seed, limits)| check_kept(limits, profile, seed, &mut met));
    }
    println!("{met:?}");
    assert!([0, 1, 2].iter().all(|&number| met.views[number] > 100), "{met:?}");
    assert!([0, 6, 7, 27, 28].iter().all(|&number| met.makes[number] > 100), "{met:?}");
    assert!([0, 11, 12].iter().all(|&number| met.reads[number] > 100), "{met:?}");
}

fn check_kept(limits: limits::Limits, profile: Profile, seed: u64, met: &mut Met) {
    let script = sized_script_of(limits, Some(profile), seed, 12_000);
    let (mut memory, mut ledger) = (Memory::beside(limits), Ledger::of(limits));
    let mut room = vec![0; script.len()];
    for line in lines(&script) {
        let Ok(call) = decode(line, &mut room) else { continue };
        let (mut typed, views) = (memory.clone(), call.task().is_some_and(|task| ledger.tasks().is_viewing(task)));
        let answer = ledger.call(&call);
        let number = answer.err().map_or(0, |refusal| refusal as u8);
        assert_eq!(memory.frame(line).0, number, "{call:?}");
        let place = usize::from(number);
        match call {
            Call::View { task } => {
                assert_eq!(calls::view(&mut typed.pool, task), number, "{call:?}");
                met.views[place] += 1;
            }
            Call::Make { task, kind, extension, length, prefix } => {
                let Memory { pool, small, large } = &mut typed;
                let told = calls::make(pool, small, large, task, kind as u8, extension, length, prefix, &mut 0);
                assert_eq!(told, number, "{call:?}");
                met.makes[place] += 1;
            }
            Call::Read { task, handle } if views => {
                let (mut out, mut count) = ([0; LARGE_SIZE], 0);
                let Memory { pool, small, large } = &typed;
                assert_eq!(calls::read(pool, small, large, task, handle, &mut out, &mut count), number, "{call:?}");
                let seen = if let Ok(Accepted::Bytes(seen)) = answer { seen } else { &[] };
                assert_eq!(&out[..count], seen, "{call:?}");
                met.reads[place] += 1;
            }
            _ => typed = memory.clone(),
        }
        assert!(typed == memory && is_well_formed(&memory.pool), "{call:?}");
        let states = ledger.tasks().entries().map(|task| number_of(task.state));
        assert_eq!(memory.pool.tasks.map(|task| task.state), states, "{call:?}");
        assert_eq!(prefixes_in(&memory.pool), prefixes_by(&ledger), "{call:?}");
        let mut awaited = 0;
        assert_eq!(calls::awaited(&memory.pool, &mut awaited), 0);
        assert_eq!(awaited, awaited_by(&ledger), "{call:?}");
    }
}

/// 28 comes before 8, and 15 before all.
#[test]
fn what_comes_first() {
    let mut memory = Memory::of(Pool { given: u32::MAX, ..FRESH });
    assert_eq!(calls::join(&mut memory.pool, 0, Share::OPEN), 0);
    for (length, prefix, number) in [(257, 258, 7), (4, 5, 28), (4, 4, 8), (0, 1, 7)] {
        let Memory { pool, small, large } = &mut memory;
        assert_eq!(calls::make(pool, small, large, 0, 0, 0, length, prefix, &mut 0), number, "{length}, {prefix}");
    }
    memory.pool.tasks[3].state = 4;
    [0, 3, 16].iter().for_each(|&task| assert_eq!(calls::view(&mut memory.pool, task), 15));
}

// Fit records.

/// States are 0 to 3. Nothing is asked of a viewer's clock.
#[test]
fn states_of_tasks() {
    for task in 0..TASKS {
        for state in 0..=u16::MAX {
            let mut pool = FRESH;
            pool.tasks[task].state = state;
            assert_eq!(is_well_formed(&pool), state <= VIEWING, "{task}, {state}");
        }
        for clock in [1, 7, u32::MAX] {
            let mut pool = FRESH;
            (pool.tasks[task].state, pool.tasks[task].clock) = (VIEWING, clock);
            assert!(is_well_formed(&pool), "{task}, {clock}");
        }
    }
}

/// It does not tick, has no share and made nothing; whether it ran before, nothing asks.
#[test]
fn a_viewer_has_no_share() {
    for task in 0..TASKS {
        let mut viewing = FRESH;
        viewing.tasks[task].state = VIEWING;
        let none = Quota::NONE;
        for quota in [Quota { reserve: 0, limit: 1 }, Quota { reserve: 1, limit: 1 }, Quota { reserve: 1, limit: 0 }] {
            for share in [Share { small: quota, large: none }, Share { small: none, large: quota }] {
                let mut pool = viewing.clone();
                pool.shares[task] = share;
                assert!(!is_well_formed(&pool), "{task}, {share:?}");
            }
        }
        let mut pool = viewing.clone();
        pool.tasks[task].ticked = 1;
        assert!(!is_well_formed(&pool), "{task}");
        for (block, length) in [(0, 4), (SMALL_BLOCKS, 40)] {
            let mut pool = with_object(block, extent_of(length, 0, task as u8));
            pool.tasks[task].state = VIEWING;
            assert!(!is_well_formed(&pool), "{task}");
            pool.extents[block] = with_maker(pool.extents[block], NOBODY);
            assert!(is_well_formed(&pool), "{task}");
        }
    }
}

/// Whoever runs beside it, one of them has not ticked; a viewer is none of these.
#[test]
fn a_viewer_is_not_awaited() {
    let mut pool = FRESH;
    (pool.tasks[0].state, pool.tasks[1].state) = (VIEWING, RUNNING);
    assert!(is_well_formed(&pool));
    let mut awaited = 0;
    assert_eq!((calls::awaited(&pool, &mut awaited), awaited), (0, 2));
    pool.tasks[1].ticked = 1;
    assert!(!is_well_formed(&pool));
}

/// Local and global ones, as of any task that is there. A global one counts on.
#[test]
fn a_viewer_may_have_set_expirations() {
    for (clock, due) in [(LOCAL + 3, 12), (GLOBAL + 3, 2)] {
        let mut pool = with_object(0, with_prefix(extent_of(4, 0, NOBODY), 2));
        (pool.clocks[0], pool.dues[0]) = (clock, due);
        assert!(!is_well_formed(&pool), "its setter is absent");
        (pool.tasks[3].state, pool.tasks[3].clock) = (VIEWING, 10);
        pool.tasks[4].state = RUNNING;
        assert!(is_well_formed(&pool));
        let mut memory = Memory::of(pool);
        memory.small.fill(0);
        let (mut local, mut global) = (0, 0);
        assert_eq!(calls::remaining(&memory.pool, 3, 1, &mut local, &mut global), 0);
        assert_eq!((local, global), if clock == GLOBAL + 3 { (0, 2) } else { (2, 0) });
        assert_eq!(memory.frame(b"080300000001"), (0, b"000000\n".to_vec()));
        (0..2).for_each(|_| assert_eq!(calls::tick(&mut memory.pool, 4, &mut 0), 0));
        assert_eq!(memory.pool.handles[0] == 0, clock == GLOBAL + 3);
        assert_eq!(calls::leave(&mut memory.pool, 3, &mut 0), 0);
        assert_eq!(memory.pool.handles[0], 0);
    }
}

/// One object, pinned, in this block.
fn with_object(block: usize, extent: u64) -> Pool {
    let mut pool = Pool { given: 1, ..FRESH };
    (pool.handles[block], pool.extents[block]) = (1, extent);
    (pool.clocks[0], pool.named[0]) = (PINNED, block as u8);
    pool
}

/// Every prefix beside every length, in a block of each store that is in use; of a free one nothing is asked.
#[test]
fn no_prefix_is_longer_than_its_object() {
    for (block, lengths) in [(0, 1..=32), (63, 31..=32), (64, 33..=256), (95, 255..=256)] {
        for length in lengths {
            for prefix in (0..=300).chain([0x0100, 0x0401, 0x8000, u16::MAX]) {
                let extent = with_sum(with_prefix(extent_of(length, 0, NOBODY), prefix), u16::MAX);
                let mut pool = with_object(block, extent);
                assert_eq!(is_well_formed(&pool), prefix <= length, "{block}, {length}, {prefix}");
                (pool.handles[block], pool.clocks[0]) = (0, 0);
                assert!(is_well_formed(&pool), "{block}, {length}, {prefix}");
            }
        }
    }
}

// What the calls leave of a block's word.

/// A make sets the prefix and no spare bit; a write and a leave keep it.
#[test]
fn the_word_of_a_block() {
    let mut memory = Memory::of(FRESH);
    memory.pool.extents.fill(u64::MAX);
    assert_eq!(calls::join(&mut memory.pool, 5, Share::OPEN), 0);
    let Memory { pool, small, large } = &mut memory;
    assert_eq!(calls::make(pool, small, large, 5, 2, 0, 4, 3, &mut 0), 0);
    assert_eq!(calls::make(pool, small, large, 5, 2, 0, 256, 256, &mut 0), 0);
    let [first, second] = [(4, 3), (256, 256)].map(|(length, prefix)| with_prefix(extent_of(length, 0, 5), prefix));
    assert_eq!([pool.extents[0], pool.extents[SMALL_BLOCKS]], [first, second]);
    assert_eq!([first, second], [0x0003_0005_0004, 0x0100_0005_0100]);
    assert_eq!(calls::write(pool, small, large, 5, 1, 1, &[200, 100, 9]), 0);
    assert_eq!(pool.extents[0], with_sum(first, 309));
    assert_eq!(calls::leave(pool, 5, &mut 0), 0);
    assert_eq!(pool.extents[0], with_maker(with_sum(first, 309), NOBODY));
    assert_eq!((maker_in(pool.extents[SMALL_BLOCKS]), prefix_in(pool.extents[SMALL_BLOCKS])), (NOBODY, 256));
}

/// 23 goes by all bytes of the block: also a viewer that would see none of them is refused.
#[test]
fn a_viewer_notices_bytes_that_it_does_not_see() {
    for (length, prefix) in [(4, 0), (4, 2), (32, 31), (256, 1)] {
        let mut memory = Memory::of(FRESH);
        assert_eq!([calls::join(&mut memory.pool, 0, Share::OPEN), calls::view(&mut memory.pool, 1)], [0; 2]);
        let Memory { pool, small, large } = &mut memory;
        assert_eq!(calls::make(pool, small, large, 0, 2, 0, length, prefix, &mut 0), 0);
        let size = if length > 32 { LARGE_SIZE } else { 32 };
        for place in 0..size {
            let store = if length > 32 { &mut memory.large } else { &mut memory.small };
            store[place] = 1;
            assert_eq!(memory.frame(b"080100000001").0, 23, "{length}, {prefix}, {place}");
            assert_eq!(memory.frame(b"0901000000010001").0, 27, "{length}, {prefix}, {place}");
            let store = if length > 32 { &mut memory.large } else { &mut memory.small };
            store[place] = 0;
            assert_eq!(memory.frame(b"080100000001").0, 0, "{length}, {prefix}, {place}");
        }
    }
}
