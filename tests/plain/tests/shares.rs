//! Order 9: the rows of the reference; what the ledger keeps on its scripts, by the entries and by the frame; and which
//! records are fit by their shares and makers.

mod memory;
#[path = "../../reference/tests/rows/mod.rs"]
mod rows;
#[path = "../../reference/tests/rows/shares.rs"]
mod share_rows;

use memory::{answering, sites, Memory};
use plain::calls;
use plain::fit::is_well_formed;
use plain::limits::{Limits, BLOCKS, SMALL_BLOCKS, TASKS};
use plain::record::{
    extent_of, fresh, maker_in, with_maker, Pool, Quota, Share, ABSENT, DEPARTED, FRESH, NOBODY, PINNED, RUNNING,
    WAITING,
};
use plain::work::{Holding, Holdings};
use reference::call::{Call, Model, Operation};
use reference::frame::decode;
use reference::generate::{sized_script_of, Profile};
use reference::ledger::Ledger;
use reference::limits::{self, Store};
use reference::random::Random;
use reference::script::lines;
use reference::share::{self, Maker};
use rows::check_answers;
use share_rows::check_all;

// Rows.

#[test]
fn rows() {
    check_all(|limits, name, rows| check_answers(name, rows, answering(limits)));
}

// Scripts.

fn numbers(share: share::Share) -> Share {
    let quota = |share::Quota { reserve, limit }| Quota { reserve, limit };
    Share { small: quota(share.small), large: quota(share.large) }
}

/// The makers of the objects, by handle.
fn makers_in(pool: &Pool) -> Vec<(u32, u8)> {
    let used = (0..BLOCKS).filter(|&block| pool.handles[block] != 0);
    let mut makers: Vec<_> = used.map(|block| (pool.handles[block], maker_in(pool.extents[block]))).collect();
    makers.sort_unstable();
    makers
}

fn makers_by(ledger: &Ledger) -> Vec<(u32, u8)> {
    let number = |maker: Maker| if let Maker::Task(task) = maker { task } else { NOBODY };
    ledger.standing().iter().map(|object| (object.handle, number(object.maker))).collect()
}

fn holdings(ledger: &Ledger, task: u8) -> Holdings {
    let [small, large] = [Store::Small, Store::Large].map(|store| {
        let room = ledger.room(store);
        let [made, reserve, limit] = [room.made(task), room.reserve(task), room.limit(task)].map(|one| one as u8);
        Holding { made, reserve, limit }
    });
    Holdings { small, large }
}

const NOTHING: Holding = Holding { made: 7, reserve: 7, limit: 7 };
const UNTOLD: Holdings = Holdings { small: NOTHING, large: NOTHING };

/// At 01's figures and at others: the ledger's answers, its shares and its makers, and what each task has.
#[test]
fn what_the_ledger_keeps() {
    let mut joined = [0; 29];
    for profile in [Profile::Shares, Profile::Everyday, Profile::Crowd, Profile::Edges] {
        sites(0..12).for_each(|(seed, limits)| check_kept(limits, profile, seed, &mut joined));
    }
    println!("joins by answer: {joined:?}");
    assert!([0, 1, 2, 24, 25].iter().all(|&number| joined[number] > 100), "{joined:?}");
}

fn check_kept(limits: limits::Limits, profile: Profile, seed: u64, joined: &mut [usize; 29]) {
    let script = sized_script_of(limits, Some(profile), seed, 12_000);
    let (mut memory, mut ledger) = (Memory::beside(limits), Ledger::of(limits));
    let mut room = vec![0; script.len()];
    for line in lines(&script) {
        let Ok(call) = decode(line, &mut room) else { continue };
        let mut typed = memory.pool.clone();
        let number = ledger.call(&call).err().map_or(0, |refusal| refusal as u8);
        assert_eq!(memory.frame(line).0, number, "{call:?}");
        if let Call::Join { task, share } = call {
            assert_eq!(calls::join(&mut typed, task, numbers(share)), number, "{call:?}");
            assert_eq!(typed, memory.pool, "{call:?}");
            joined[usize::from(number)] += 1;
        }
        assert!(is_well_formed(&memory.pool), "{call:?}");
        let entries = ledger.tasks().entries().iter().zip(memory.pool.shares);
        entries.for_each(|(entry, share)| assert_eq!(numbers(entry.share), share, "{call:?}"));
        if call.operation() <= Operation::Make {
            assert_eq!(makers_in(&memory.pool), makers_by(&ledger), "{call:?}");
            for task in 0..TASKS as u8 {
                let mut told = UNTOLD;
                assert_eq!(calls::share(&memory.pool, task, &mut told), 0);
                assert_eq!(told, holdings(&ledger, task), "{call:?}, {task}");
            }
        }
    }
}

#[test]
fn what_a_task_has_is_refused_with_15_and_1() {
    let mut told = UNTOLD;
    assert_eq!(calls::share(&FRESH, 0, &mut told), 0);
    let nothing = Holding { made: 0, reserve: 0, limit: 0 };
    assert_eq!(told, Holdings { small: nothing, large: nothing });
    let mut pool = FRESH;
    for task in [16, 255] {
        told = UNTOLD;
        assert_eq!((calls::share(&pool, task, &mut told), told), (1, UNTOLD));
    }
    pool.tasks[3].state = 4;
    for task in [0, 3, 16] {
        assert_eq!((calls::share(&pool, task, &mut told), told), (15, UNTOLD));
        assert_eq!(calls::join(&mut pool, task, Share { small: Quota { reserve: 2, limit: 1 }, ..Share::OPEN }), 15);
    }
}

/// 8 comes before 26, and 26 before 9.
#[test]
fn when_all_handles_are_given() {
    let mut memory = Memory::of(Pool { given: u32::MAX, ..FRESH });
    let all = Share { small: Quota { reserve: 64, limit: 64 }, large: Quota { reserve: 32, limit: 32 } };
    for (task, share) in [(0, Share::NONE), (1, all), (2, Share::OPEN)] {
        assert_eq!(calls::join(&mut memory.pool, task, share), 0);
    }
    for (given, numbers) in [(u32::MAX, [8; 3]), (u32::MAX - 1, [26, 0, 9])] {
        for (task, number) in (0..).zip(numbers) {
            let Memory { mut pool, mut small, mut large } = memory.clone();
            pool.given = given;
            assert_eq!(
                calls::make(&mut pool, &mut small, &mut large, task, 0, 0, 4, 0, &mut 0),
                number,
                "{given}, {task}"
            );
        }
    }
}

// Fit records.

/// Objects in the first blocks of each store, of these makers.
fn with_objects(limits: Limits, small: &[u8], large: &[u8]) -> Pool {
    let mut pool = Pool { given: BLOCKS as u32, ..fresh(limits) };
    let smalls = (0..).zip(small).map(|(block, &maker)| (block, maker, 32));
    let larges = (SMALL_BLOCKS..).zip(large).map(|(block, &maker)| (block, maker, 33));
    for (entry, (block, maker, length)) in smalls.chain(larges).enumerate() {
        (pool.handles[block], pool.extents[block]) = (block as u32 + 1, extent_of(length, 0, maker));
        (pool.clocks[entry], pool.named[entry]) = (PINNED, block as u8);
    }
    pool
}

/// One of a task's four numbers.
type Number = fn(&mut Share) -> &mut u8;
const NUMBERS: [Number; 4] = [
    |share| &mut share.small.reserve,
    |share| &mut share.small.limit,
    |share| &mut share.large.reserve,
    |share| &mut share.large.limit,
];

#[test]
fn an_absent_task_has_no_share() {
    for task in 0..TASKS {
        for (number, value) in NUMBERS.iter().flat_map(|&number| (0..=255).map(move |value| (number, value))) {
            let mut pool = FRESH;
            *number(&mut pool.shares[task]) = value;
            assert_eq!(is_well_formed(&pool), value == 0, "{task}, {value}");
        }
        let mut pool = FRESH;
        pool.shares[task] = Share::OPEN;
        assert!(!is_well_formed(&pool));
        for state in [RUNNING, WAITING] {
            pool.tasks[task].state = state;
            assert!(is_well_formed(&pool), "{task}, {state}");
        }
    }
}

/// Each reserve beside each limit, of a task that runs and of one that waits.
#[test]
fn no_reserve_is_above_its_limit_nor_above_the_blocks() {
    let site = Limits { small_blocks: 5, large_blocks: 3, ..Limits::STANDARD };
    for (limits, reserve, limit) in [Limits::STANDARD, site]
        .iter()
        .flat_map(|&limits| (0..80).flat_map(move |r| (0..80).map(move |l| (limits, r, l))))
    {
        let quota = Quota { reserve, limit };
        let mut pool = fresh(limits);
        for (task, state) in [(0, RUNNING), (15, WAITING)] {
            pool.tasks[task].state = state;
            pool.shares[task] = Share { small: quota, large: Quota::OPEN };
            let fits = reserve <= limit && u32::from(reserve) <= limits.small_blocks;
            assert_eq!(is_well_formed(&pool), fits, "{quota:?}, {limits:?}");
            pool.shares[task] = Share { small: Quota::OPEN, large: quota };
            let fits = reserve <= limit && u32::from(reserve) <= limits.large_blocks;
            assert_eq!(is_well_formed(&pool), fits, "{quota:?}, {limits:?}");
            (pool.tasks[task], pool.shares[task]) = (FRESH.tasks[task], Share::NONE);
        }
    }
}

/// Any maker of a block in use: a task that is there, with room below its limit, or nobody. Nothing is asked of a free block's
/// maker, nor of the spare bits.
#[test]
fn makers_of_blocks() {
    for maker in 0..=255 {
        for (small, large) in [(&[NOBODY, maker][..], &[][..]), (&[][..], &[maker, NOBODY][..])] {
            let mut pool = with_objects(Limits::STANDARD, small, large);
            for (state, limit) in [(ABSENT, 0), (RUNNING, 0), (RUNNING, 1), (WAITING, 1), (RUNNING, 255)] {
                let quota = Quota { reserve: 0, limit };
                pool.tasks.iter_mut().for_each(|task| task.state = state);
                pool.shares.fill(Share { small: quota, large: quota });
                let fits = maker == NOBODY || maker < NOBODY && limit > 0;
                assert_eq!(is_well_formed(&pool), fits, "{maker}, {state}, {limit}");
            }
            for block in (0..BLOCKS).filter(|&block| pool.handles[block] == 0).collect::<Vec<_>>() {
                pool.extents[block] = extent_of(0, u16::MAX, maker);
            }
            assert_eq!(is_well_formed(&pool), maker <= NOBODY);
            pool.extents.iter_mut().for_each(|extent| *extent |= 0xA5 << 24);
            assert_eq!(is_well_formed(&pool), maker <= NOBODY);
        }
    }
}

/// As many objects as a limit, and one more, of either store.
#[test]
fn no_task_is_above_its_limit() {
    for (task, count) in (0..TASKS as u8).flat_map(|task| (1..=32).map(move |count| (task, count))) {
        for (small, large) in [(count, 0), (0, count)] {
            let makers = |count: usize| vec![task; count];
            let mut pool = with_objects(Limits::STANDARD, &makers(small), &makers(large));
            let entry = usize::from(task);
            pool.tasks[entry].state = if count % 2 == 0 { RUNNING } else { WAITING };
            let [small, large] = [small, large].map(|count| Quota { reserve: 0, limit: count as u8 });
            pool.shares[entry] = Share { small, large };
            assert!(is_well_formed(&pool), "{task}, {count}");
            let lower = |quota: Quota| Quota { limit: quota.limit.saturating_sub(1), ..quota };
            pool.shares[entry] = Share { small: lower(small), large: lower(large) };
            assert!(!is_well_formed(&pool), "{task}, {count}");
        }
    }
}

/// Shares and makers of chance, at figures at which they fit or not by little: the fit test tells what a count by the rule's
/// words tells.
#[test]
fn by_chance() {
    let (mut random, mut told) = (Random::new(9), [0; 2]);
    for _ in 0..40_000 {
        let limits = Limits {
            small_blocks: 1 + random.below(8) as u32,
            large_blocks: 1 + random.below(8) as u32,
            ..Limits::STANDARD
        };
        let tasks = 1 + random.below(4);
        let most = [limits.small_blocks, limits.large_blocks].map(|blocks| random.below(blocks as usize + 1));
        let [small, large] = most.map(|count| {
            let makers = (0..count).map(|_| {
                let any = random.below(tasks) as u8;
                random.pick(&[any, 0, NOBODY])
            });
            makers.collect::<Vec<_>>()
        });
        let mut pool = with_objects(limits, &small, &large);
        for (task, share) in pool.tasks[..tasks].iter_mut().zip(&mut pool.shares) {
            task.state = random.pick(&[RUNNING, WAITING, RUNNING]);
            let mut quota = || Quota { reserve: random.below(3) as u8, limit: random.pick(&[2, 3, 4, 255]) };
            *share = Share { small: quota(), large: quota() };
        }
        let fits = fits(&pool, &small, limits.small_blocks, |share| share.small)
            && fits(&pool, &large, limits.large_blocks, |share| share.large);
        assert_eq!(is_well_formed(&pool), fits, "{:?}, {small:?}, {large:?}", pool.tasks);
        told[usize::from(fits)] += 1;
    }
    assert!(told[0].min(told[1]) > 5_000, "{told:?}");
}

fn fits(pool: &Pool, makers: &[u8], blocks: u32, of: fn(Share) -> Quota) -> bool {
    let mut free = blocks as usize - makers.len();
    (0..TASKS as u8).all(|task| {
        let made = makers.iter().filter(|&&maker| maker == task).count();
        let quota = of(pool.shares[usize::from(task)]);
        let unmet = usize::from(quota.reserve).saturating_sub(made);
        let enough = unmet <= free;
        free = free.saturating_sub(unmet);
        enough && made <= usize::from(quota.limit) && quota.reserve <= quota.limit
    })
}

// What the calls leave of a block's word.

/// A make sets all of it, a leave the maker alone, and a write the sum alone.
#[test]
fn the_word_of_a_block() {
    let mut memory = Memory::of(FRESH);
    memory.pool.extents.fill(u64::MAX);
    for task in [0, 5] {
        assert_eq!(calls::join(&mut memory.pool, task, Share::OPEN), 0);
        let Memory { pool, small, large } = &mut memory;
        assert_eq!(calls::make(pool, small, large, task, 1, 9, 4, 0, &mut 0), 0);
        assert_eq!(calls::make(pool, small, large, task, 1, 9, 200, 0, &mut 0), 0);
    }
    let words = [(0, 4, 0), (64, 200, 0), (1, 4, 5), (65, 200, 5)];
    for (block, length, maker) in words {
        assert_eq!(memory.pool.extents[block], extent_of(length, 0, maker));
    }
    let spare = 0x5A_u64 << 24;
    memory.pool.extents.iter_mut().for_each(|extent| *extent |= spare);
    let Memory { pool, small, large } = &mut memory;
    assert_eq!(calls::write(pool, small, large, 0, 3, 1, &[200, 100]), 0);
    assert_eq!(pool.extents[1], spare | extent_of(4, 300, 5));
    assert_eq!(calls::leave(pool, 5, &mut 0), 0);
    assert_eq!(
        [pool.extents[1], pool.extents[65]],
        [extent_of(4, 300, NOBODY), extent_of(200, 0, NOBODY)].map(|w| w | spare)
    );
    assert_eq!(
        [pool.extents[0], pool.extents[64]],
        [extent_of(4, 0, 0), extent_of(200, 0, 0)].map(|word| word | spare)
    );
    assert_eq!(with_maker(pool.extents[1], 5), spare | extent_of(4, 300, 5));
    assert_eq!((pool.tasks[5], pool.clocks[2]), (FRESH.tasks[5], DEPARTED));
}
