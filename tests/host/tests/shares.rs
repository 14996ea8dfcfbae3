//! Reserves and limits (order 9): the rows of the reference, and at each site's edges, each by its entry and as a frame; what
//! a task has, by library and plain pool as by the ledger, over lists of calls; and over the same lists what a reserve and a
//! limit promise.

#[path = "../../reference/tests/rows/mod.rs"]
mod rows;
#[path = "../../reference/tests/rows/shares.rs"]
mod share_rows;

use host_tests::entries::{Entries, Plain};
use host_tests::host::Host;
use host_tests::library::Library;
use host_tests::memory::Memory;
use host_tests::reading::figures;
use host_tests::sites::{self, CABLE};
use plain::limits::{Limits, TASKS};
use plain::record::{Pool, ABSENT, VIEWING};
use plain::work::{Holding, Holdings};
use reference::call::{Call, Kind, Model};
use reference::frame::decode;
use reference::generate::{self, sized_script_of, Profile};
use reference::ledger::Ledger;
use reference::limits::{Store, STORES};
use reference::random::Random;
use reference::script::lines;
use reference::share::{Quota, Share};
use rows::check_answers;
use share_rows::check_all;
use std::mem::offset_of;

const OPEN: Share = Share::OPEN;
const NO_LIMIT: u8 = 255;

/// A site of four blocks in each store.
const FOUR: Limits = Limits { small_blocks: 4, large_blocks: 4, expirations: 20, extension: 3 };

fn host(limits: Limits) -> Host<Library> {
    Host::new(Memory::sized(limits, &mut Random::new(1)))
}

/// A quota of one store, and nothing of the other.
fn only(store: Store, reserve: u8, limit: u8) -> Share {
    let quota = Quota { reserve, limit };
    match store {
        Store::Small => Share { small: quota, ..Share::NONE },
        Store::Large => Share { large: quota, ..Share::NONE },
    }
}

/// A quota of both.
fn both(reserve: u8, limit: u8) -> Share {
    let quota = Quota { reserve, limit };
    Share { small: quota, large: quota }
}

fn blocks(limits: Limits, store: Store) -> u8 {
    match store {
        Store::Small => limits.small_blocks as u8,
        Store::Large => limits.large_blocks as u8,
    }
}

fn join(task: u8, share: Share) -> Call<'static> {
    Call::Join { task, share }
}

/// Until the task's next tick.
fn make(task: u8, store: Store) -> Call<'static> {
    Call::Make { task, kind: Kind::Local, extension: 0, length: store.block_size() as u16, prefix: 0 }
}

/// The rows of the reference.
#[test]
fn rows() {
    check_all(|limits, name, rows| {
        let mut host = host(sites::of(limits));
        check_answers(name, rows, |line| host.answer(line));
    });
}

// Joins.

/// Two reserves that are all blocks of a store, of each site: no third fits, and each task can make as many as its own.
#[test]
fn reserves_that_fill_a_store_exactly() {
    for (limits, store) in
        [Limits::SMALLEST, CABLE, Limits::STANDARD].into_iter().flat_map(|limits| STORES.map(|store| (limits, store)))
    {
        let limits = Limits { expirations: 256, ..limits };
        let (all, some) = (blocks(limits, store), blocks(limits, store) / 2);
        let mut host = host(limits);
        host.check(&[
            (join(0, only(store, all + 1, NO_LIMIT)), 25),
            (join(0, only(store, some, NO_LIMIT)), 0),
            (join(1, only(store, all - some + 1, NO_LIMIT)), 25),
            (join(1, only(store, all - some, NO_LIMIT)), 0),
            (join(2, only(store, 1, NO_LIMIT)), 25),
            (join(2, only(store, 0, NO_LIMIT)), 0),
            (make(2, store), 9),
        ]);
        for (task, count) in [(1, all - some), (0, some)] {
            (0..count).for_each(|_| assert_eq!(host.told(&make(task, store)), 0, "{limits:?}"));
            assert_eq!(host.told(&make(task, store)), 9);
        }
    }
}

/// 1, 2, 24 for both stores, and then 25 for either.
#[test]
fn the_tests_of_a_join_in_order() {
    let above = [(1, 0, 0, 0), (0, 0, 1, 0), (255, 254, 5, 5), (5, 5, 255, 254), (9, 8, 9, 8)];
    let too_much = [(5, 5, 0, 0), (0, 0, 5, 5), (255, 255, 0, 255), (5, 255, 5, 255)];
    let share = |(small_reserve, small_limit, large_reserve, large_limit): (u8, u8, u8, u8)| {
        Share::from_bytes([small_reserve, small_limit, large_reserve, large_limit])
    };
    let mut host = host(FOUR);
    host.check(&[(join(0, OPEN), 0), (join(1, OPEN), 0), (Call::Block { task: 1 }, 0)]);
    for (numbers, refusal) in
        above.map(|numbers| (numbers, 24)).into_iter().chain(too_much.map(|numbers| (numbers, 25)))
    {
        for (task, number) in [(16, 1), (255, 1), (0, 2), (1, 2), (2, refusal)] {
            assert_eq!(host.told(&join(task, share(numbers))), number, "{task}, {numbers:?}");
        }
    }
    host.memory.pool.tasks[5].state = 4;
    assert_eq!(host.told(&join(16, share((1, 0, 5, 5)))), 15);
}

/// Every number in every place: the four bytes of a frame are those of the entry, and of the record.
#[test]
fn the_four_numbers_of_a_join() {
    for bytes in (0..=255).map(|byte: u8| [byte % 5, 255 - byte % 250, byte % 4, byte | 3]) {
        let mut host = host(FOUR);
        assert_eq!(host.told(&join(9, Share::from_bytes(bytes))), 0, "{bytes:?}");
        let [small, large] =
            [(bytes[0], bytes[1]), (bytes[2], bytes[3])].map(|(reserve, limit)| Holding { made: 0, reserve, limit });
        assert_eq!(told(&mut host, 9), Ok(Holdings { small, large }));
        assert_eq!(host_tests::memory::bytes(&host.memory.pool)[offset_of!(Pool, shares) + 9 * 4..][..4], bytes);
    }
}

// Makes.

/// As many as the limit and no more, also where blocks are free; once one has gone it may make another.
#[test]
fn a_limit_is_reached_exactly() {
    for store in STORES {
        for limit in 0..=4 {
            let mut host = host(FOUR);
            assert_eq!(host.told(&join(0, only(store, limit / 2, limit))), 0);
            for _ in 0..2 {
                (0..limit).for_each(|_| assert_eq!(host.told(&make(0, store)), 0));
                assert_eq!(host.told(&make(0, store)), 26, "{limit}");
                assert_eq!(host.told(&Call::Tick { task: 0 }), 0);
            }
        }
    }
}

/// 28, 8, 26, 9, 10: with one block and one expiration, each as long as those before it hold.
#[test]
fn the_tests_of_a_make_in_order() {
    for store in STORES {
        let other = if store == Store::Small { Store::Large } else { Store::Small };
        let length = store.block_size() as u16;
        let too_long = Call::Make { task: 2, kind: Kind::Local, extension: 0, length, prefix: length + 1 };
        let mut host = host(Limits::SMALLEST);
        host.check(&[
            (join(0, both(0, 1)), 0),
            (join(1, OPEN), 0),
            (join(2, Share::NONE), 0),
            (make(2, store), 26),
            (make(0, store), 0),
            (make(0, store), 26),
            (make(1, store), 9),
            (make(1, other), 10),
            (make(2, other), 26),
            (Call::Make { task: 2, kind: Kind::Local, extension: 1, length: 0, prefix: 1 }, 6),
            (Call::Make { task: 2, kind: Kind::Local, extension: 0, length: 0, prefix: 1 }, 7),
            (too_long, 28),
        ]);
        host.memory.pool.given = u32::MAX;
        assert_eq!((host.told(&make(2, store)), host.told(&too_long)), (8, 28));
    }
}

// What a task has.

/// What stands there before it is told.
const UNTOLD: Holding = Holding { made: 0xA5, reserve: 0x5A, limit: 0xA6 };

/// The number, or what is told; the record stays, and after a refusal so does what was lent.
fn told<E: Entries>(host: &mut Host<E>, task: u8) -> Result<Holdings, u8> {
    let untold = Holdings { small: UNTOLD, large: UNTOLD };
    let (before, mut holdings) = (host.memory.pool.clone(), untold);
    let number = E::share(&mut host.memory.pool, task, &mut holdings);
    assert_eq!(host.memory.pool, before);
    match number {
        0 => Ok(holdings),
        _ => {
            assert_eq!(holdings, untold);
            Err(number)
        }
    }
}

fn of_ledger(ledger: &Ledger, task: u8) -> Holdings {
    let holding = |store: Store| {
        let room = ledger.room(store);
        Holding { made: room.made(task) as u8, reserve: room.reserve(task) as u8, limit: room.limit(task) as u8 }
    };
    Holdings { small: holding(Store::Small), large: holding(Store::Large) }
}

/// How often the lists met what.
#[derive(Debug, Default)]
struct Census {
    asked: usize,
    /// Of tasks with a reserve that is unmet, with one that is met, at a limit that a task may reach, and that had nothing.
    unmet: usize,
    met: usize,
    at_limit: usize,
    nothing: usize,
    /// Makes of a task below its reserve, those of them that were refused with 10, and 9 of others while blocks were free.
    below: usize,
    below_refused: usize,
    held_back: usize,
}

impl Census {
    fn note(&mut self, Holdings { small, large }: Holdings) {
        self.asked += 1;
        self.nothing += usize::from((small.limit, large.limit) == (0, 0));
        for Holding { made, reserve, limit } in [small, large] {
            self.unmet += usize::from(made < reserve);
            self.met += usize::from(0 < reserve && reserve <= made);
            self.at_limit += usize::from(0 < made && made == limit);
        }
    }
}

/// The same calls on all.
struct Company {
    ledger: Ledger,
    library: Host<Library>,
    plain: Host<Plain>,
    census: Census,
}

impl Company {
    fn of(limits: reference::limits::Limits, seed: u64) -> Company {
        let memory = Memory::sized(sites::of(limits), &mut Random::new(seed));
        Company {
            ledger: Ledger::of(limits),
            library: Host::new(memory.clone()),
            plain: Host::new(memory),
            census: Census::default(),
        }
    }

    /// All answer alike. A make of a task below its reserve is refused neither with 9 nor with 26.
    fn call(&mut self, call: &Call) {
        let before = self.before_make(call);
        let number = self.ledger.call(call).err().map_or(0, |refusal| refusal as u8);
        assert_eq!(self.library.call(call).err().unwrap_or(0), number, "{call:?}");
        assert_eq!(self.plain.call(call).err().unwrap_or(0), number, "{call:?}, plain");
        let Some((below, free)) = before else { return };
        assert!(!below || number != 9 && number != 26, "{call:?} below its reserve is refused with {number}");
        self.census.below += usize::from(below);
        self.census.below_refused += usize::from(below && number == 10);
        self.census.held_back += usize::from(free && number == 9);
    }

    /// Of a make by a task that there is: whether it is below its reserve, and whether a block of the store is free.
    fn before_make(&self, call: &Call) -> Option<(bool, bool)> {
        let Call::Make { task, length, .. } = *call else { return None };
        let room = self.ledger.room(Store::holding(length).ok()?);
        (usize::from(task) < TASKS).then(|| (room.unmet(task) > 0, room.makers.len() < room.blocks))
    }

    fn ask(&mut self, task: u8) -> Holdings {
        let expected = of_ledger(&self.ledger, task);
        assert_eq!(told(&mut self.library, task), Ok(expected), "task {task}");
        assert_eq!(told(&mut self.plain, task), Ok(expected), "task {task}, plain");
        self.census.note(expected);
        expected
    }

    /// By what the library tells of all tasks: there are blocks for all that is unmet, nobody is above a limit, no reserve is,
    /// and a task that is absent or views has nothing.
    fn check_promises(&mut self) {
        let all: Vec<Holdings> = (0..TASKS as u8).map(|task| self.ask(task)).collect();
        let pool = &self.library.memory.pool;
        let (figures, limits) = (figures(pool), pool.limits);
        let unmet = |of: fn(&Holdings) -> Holding| {
            all.iter().map(|task| u32::from(of(task).reserve.saturating_sub(of(task).made))).sum::<u32>()
        };
        assert!(u32::from(figures.small) + unmet(|task| task.small) <= limits.small_blocks);
        assert!(u32::from(figures.large) + unmet(|task| task.large) <= limits.large_blocks);
        for (task, Holdings { small, large }) in pool.tasks.iter().zip(all) {
            for Holding { made, reserve, limit } in [small, large] {
                assert!(made <= limit && reserve <= limit);
                assert!(![ABSENT, VIEWING].contains(&task.state) || (made, reserve, limit) == (0, 0, 0));
            }
        }
    }
}

fn run(limits: reference::limits::Limits, only: Option<Profile>, seed: u64, size: usize) -> Census {
    let (mut company, mut random) = (Company::of(limits, seed), Random::new(seed));
    let script = sized_script_of(limits, only, seed, size);
    let mut room = vec![0; script.len()];
    for (count, line) in lines(&script).enumerate() {
        let Ok(call) = decode(line, &mut room) else { continue };
        company.call(&call);
        company.ask(random.below(TASKS) as u8);
        let none = TASKS + random.below(256 - TASKS);
        assert_eq!((told(&mut company.library, none as u8), told(&mut company.plain, none as u8)), (Err(1), Err(1)));
        if count % 10 == 0 {
            company.check_promises();
        }
    }
    company.check_promises();
    company.census
}

/// Of 01's figures and of sites of all figures, lists of every sort and of those that are about shares.
#[test]
fn over_lists_of_calls() {
    let mut sum = Census::default();
    for seed in 0..40 {
        let limits = if seed % 4 == 0 { reference::limits::Limits::STANDARD } else { generate::limits(seed) };
        let only = (seed % 2 == 1).then_some(Profile::Shares);
        let Census { asked, unmet, met, at_limit, nothing, below, below_refused, held_back } =
            run(limits, only, seed, 40_000);
        sum.asked += asked;
        sum.unmet += unmet;
        sum.met += met;
        sum.at_limit += at_limit;
        sum.nothing += nothing;
        sum.below += below;
        sum.below_refused += below_refused;
        sum.held_back += held_back;
    }
    println!("{sum:?}");
    assert!(
        sum.asked > 100_000 && sum.unmet > 10_000 && sum.met > 1_000 && sum.at_limit > 1_000 && sum.nothing > 10_000
    );
    assert!(sum.below > 1_000 && sum.below_refused > 10 && sum.held_back > 500);
}

/// 15 comes before 1.
#[test]
fn of_a_record_that_is_not_well_formed() {
    let mut memory = Memory::fresh(&mut Random::new(1));
    memory.pool.shares[5].small.limit = 1;
    for task in [0, 5, 15, 16, 255] {
        assert_eq!(told(&mut Host::<Library>::new(memory.clone()), task), Err(15), "{task}");
        assert_eq!(told(&mut Host::<Plain>::new(memory.clone()), task), Err(15), "{task}, plain");
    }
}
