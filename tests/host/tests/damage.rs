//! Damaged records. Every call refuses one with 15 and touches nothing, exactly when the rules say that it is not
//! well-formed; else it answers as the plain pool does.

mod damaged;

use damaged::{is_fit, Pair};
use host_tests::entries::Plain;
use host_tests::host::Host;
use host_tests::memory::{bytes_mut, Memory};
use host_tests::reading::figures;
use host_tests::samples::{after, after_of, full, full_of, standing_by, standing_of, Setting};
use host_tests::sites::{with, CABLE, FIGURES};
use plain::fit::is_well_formed;
use plain::limits::{Limits, BLOCKS, EXPIRATIONS, GLOBAL_EXTRA, LARGE_BLOCKS, SMALL_BLOCKS, SMALL_SIZE, TASKS};
use plain::record::{extent_of, fresh, length_in, maker_in, with_maker, with_prefix, Pool, Quota, Share, NOBODY};
use plain::record::{ABSENT, DEPARTED, FREE, GLOBAL, LOCAL, PINNED, RECORD, RUNNING, VIEWING, WAITING};
use plain::work::{self, Holding, Holdings};
use reference::call::{Accepted, Call, Figures, Kind, Lifetime};
use reference::generate::Profile;
use reference::limits;
use reference::random::Random;

/// How many extensions there are, from 0 to the largest.
const EXTENSIONS: usize = Limits::STANDARD.extension as usize + 1;

/// All values at all offsets: a report, and one of the other calls in turn.
fn overwrite_each_byte(whole: Memory) {
    let mut pair = Pair::of(whole);
    let calls = pair.calls;
    for offset in 0..RECORD {
        let held = bytes_mut(&mut pair.whole.pool)[offset];
        for value in 0..=255 {
            let turn = 1 + (offset + usize::from(value)) % (calls.len() - 1);
            pair.examine(&[calls[0], calls[turn]], |pool| bytes_mut(pool)[offset] = value);
        }
        bytes_mut(&mut pair.library.memory.pool)[offset] = held;
    }
    println!("{} well-formed, {} not", pair.fit, pair.unfit);
    assert!(pair.fit >= RECORD && pair.unfit > 10_000);
}

#[test]
fn one_byte_of_a_fresh_record() {
    overwrite_each_byte(Memory::fresh(&mut Random::new(5)));
}

#[test]
fn one_byte_of_a_full_record() {
    overwrite_each_byte(full(EXPIRATIONS));
}

#[test]
fn one_byte_of_a_mixed_record() {
    overwrite_each_byte(mixed());
}

#[test]
fn one_byte_of_a_record_with_pinned_objects() {
    overwrite_each_byte(with_pinned());
}

#[test]
fn one_byte_of_a_record_with_shares() {
    overwrite_each_byte(with_shares(0));
}

#[test]
fn one_byte_of_a_record_with_viewers() {
    overwrite_each_byte(with_viewers());
}

#[test]
fn one_byte_of_a_late_record() {
    overwrite_each_byte(late());
}

#[test]
fn one_byte_of_a_full_record_of_a_small_site() {
    overwrite_each_byte(full_of(CABLE, 64));
}

#[test]
fn one_byte_of_a_mixed_record_of_a_small_site() {
    overwrite_each_byte(mixed_site());
}

#[test]
fn one_byte_of_the_smallest_record() {
    overwrite_each_byte(smallest());
}

/// One block of each store, one expiration and no extension: a large object stands.
fn smallest() -> Memory {
    standing_of(Limits::SMALLEST, 2, (0, 1), 1)
}

/// Tasks of every state, objects of such that have left, a reserve that is unmet, and free blocks and expirations within the
/// figures.
fn mixed_site() -> Memory {
    let limits = limits::Limits { small_blocks: 40, large_blocks: 18, expirations: 130, extension: 23 };
    let memory = after_of(limits, Profile::Everyday, 632, 900);
    assert!(is_mixed(&memory.pool));
    let Figures { small, large, expirations, .. } = figures(&memory.pool);
    assert!((1..40).contains(&small) && (1..18).contains(&large) && (40..130).contains(&expirations));
    memory
}

/// The same of 01's figures.
fn mixed() -> Memory {
    let memory = after(Profile::Everyday, 2781, 900);
    assert!(is_mixed(&memory.pool));
    memory
}

/// Tasks of every state, viewers among them; global expirations of such that run, that wait and that departed, and pinned ones;
/// objects of tasks that are there and that have left; and a reserve that is unmet.
fn is_mixed(pool: &Pool) -> bool {
    let has = |state: u16| pool.tasks.iter().any(|task| task.state == state);
    let has_set = |state: u16| {
        let setters = pool.clocks.iter().filter(|&&clock| (GLOBAL..DEPARTED).contains(&clock));
        setters.map(|&clock| pool.tasks[usize::from(clock - GLOBAL)]).any(|task| task.state == state)
    };
    let objects = || pool.extents.iter().zip(pool.handles).filter(|(_, handle)| *handle != 0);
    let holdings = (0..TASKS as u8).map(|task| work::share(pool, task).expect("a task"));
    let mut holdings = holdings.flat_map(|Holdings { small, large }| [small, large]);
    has(ABSENT)
        && has(VIEWING)
        && has_set(RUNNING)
        && has_set(WAITING)
        && pool.clocks.contains(&DEPARTED)
        && pool.clocks.contains(&PINNED)
        && objects().any(|(&extent, _)| maker_in(extent) == NOBODY)
        && objects().any(|(&extent, _)| maker_in(extent) < NOBODY)
        && holdings.any(|Holding { made, reserve, .. }| made < reserve)
}

/// Full, and every third object is pinned.
fn with_pinned() -> Memory {
    standing_by(Limits::STANDARD, TASKS, (SMALL_BLOCKS, LARGE_BLOCKS), EXPIRATIONS, |count| Setting {
        task: (count % TASKS) as u8,
        kind: if count < BLOCKS && count % 3 == 0 { Kind::Pinned } else { Kind::Global },
        extension: if count < BLOCKS && count % 3 == 0 { 0 } else { (count % EXTENSIONS) as u8 },
        object: count % 60,
    })
}

/// A small site whose tasks have shares. Task 0 lacks two small objects of its reserve, task 1 has as many as its limit, task
/// 2 has its reserve and waits, task 3 has left what it has pinned, and task 4 may make nothing. Task 5, which asked for
/// nothing, has taken all small blocks that are held back for nobody but so many, and all large ones but so many.
fn with_shares(left: usize) -> Memory {
    let of = |small: (u8, u8), large: (u8, u8)| {
        let [small, large] = [small, large].map(|(reserve, limit)| reference::share::Quota { reserve, limit });
        reference::share::Share { small, large }
    };
    let open = reference::share::Share::OPEN;
    let shares = [of((4, 6), (1, 2)), of((0, 3), (0, 1)), of((2, 255), (0, 255)), open, of((0, 0), (0, 0)), open];
    let mut host = Host::<Plain>::new(Memory::sized(CABLE, &mut Random::new(3)));
    let mut done = |call: Call| assert!(host.call(&call).is_ok(), "{call:?}");
    for (task, share) in shares.into_iter().enumerate() {
        done(Call::Join { task: task as u8, share });
    }
    let made = [(0, 2, 1), (1, 3, 1), (2, 2, 0), (3, 2, 1), (5, 5 - left, 1 - left)];
    for (task, small, large) in made {
        let (kind, extension) = if task == 3 { (Kind::Pinned, 0) } else { (Kind::Local, 9) };
        (0..small).for_each(|_| done(Call::Make { task, kind, extension, length: 7, prefix: 0 }));
        (0..large).for_each(|_| done(Call::Make { task, kind, extension, length: 70, prefix: 0 }));
    }
    done(Call::Block { task: 2 });
    done(Call::Leave { task: 3 });
    host.memory
}

/// A small site: tasks 0 and 1 run, 2 waits, 3 and 4 view, and 5 has left what it pinned. Of each store there are objects of
/// whose bytes a viewer sees none, some and all.
fn with_viewers() -> Memory {
    let mut host = Host::<Plain>::new(Memory::sized(CABLE, &mut Random::new(3)));
    let mut done = |call: Call| assert!(host.call(&call).is_ok(), "{call:?}");
    let makers = [0, 1, 2, 5];
    makers.into_iter().for_each(|task| done(Call::Join { task, share: reference::share::Share::OPEN }));
    [3, 4].into_iter().for_each(|task| done(Call::View { task }));
    for (task, large) in makers.into_iter().zip([0, 1, 69, 70]) {
        let (kind, extension) = if task == 5 { (Kind::Pinned, 0) } else { (Kind::Global, 9) };
        for (length, prefix) in [(7, 0), (7, 3), (7, 7), (70, large)] {
            done(Call::Make { task, kind, extension, length, prefix });
        }
    }
    done(Call::Block { task: 2 });
    done(Call::Leave { task: 5 });
    host.memory
}

/// All clocks put forward to the end of 32 bits, and what goes by them.
fn late() -> Memory {
    let mut memory = after(Profile::Everyday, 2922, 900);
    assert!(is_mixed(&memory.pool));
    let ahead = (u32::MAX - 7).wrapping_sub(memory.pool.global);
    memory.pool.global = memory.pool.global.wrapping_add(ahead);
    for task in memory.pool.tasks.iter_mut().filter(|task| task.state != ABSENT) {
        task.clock = task.clock.wrapping_add(ahead);
    }
    let dues = memory.pool.dues.iter_mut().zip(&memory.pool.clocks);
    for (due, _) in dues.filter(|(_, &clock)| clock != PINNED) {
        *due = due.wrapping_add(ahead);
    }
    assert!(is_fit(&memory.pool));
    memory
}

/// What stands in them, what remains to the object that is asked for, and what the calls are told.
#[test]
fn undamaged_records() {
    let mixed = (mixed(), (31, 18, 86), (1, 19), [0; 10]);
    let late = (late(), (36, 8, 86), (15, 8), [0; 10]);
    let full = (full(EXPIRATIONS), (64, 32, 256), (0, 28), [0, 0, 0, 0, 9, 10, 22, 0, 0, 2]);
    let pinned = (with_pinned(), (64, 32, 256), (0, 30), [0, 0, 0, 0, 9, 10, 0, 0, 0, 2]);
    for (whole, standing, (local, global), expected) in [mixed, late, full, pinned] {
        let Figures { small, large, expirations, .. } = figures(&whole.pool);
        assert_eq!((small, large, expirations), standing);
        let Pair { calls, mut library, .. } = Pair::of(whole);
        assert_eq!(library.call(&calls[3]), Ok(Accepted::Remaining(Lifetime { local, global })));
        assert_eq!(calls.map(|call| library.call(&call).err().unwrap_or(0)), expected);
    }
}

/// Entries copied over others, flags and counters put to likely values, a few at a time. Here the rules' words judge.
#[test]
fn likely_damages() {
    let sites = [full_of(CABLE, 64), full_of(CABLE, 40), mixed_site(), smallest()];
    let shared = [with_shares(0), with_shares(1), with_viewers()];
    let wholes = [full(EXPIRATIONS), full(BLOCKS), with_pinned(), mixed(), late()];
    let wholes = wholes.into_iter().chain(sites).chain(shared).map(Pair::of);
    let mut random = Random::new(11);
    for mut pair in wholes {
        let calls = pair.calls;
        for _ in 0..15_000 {
            let mut damaged = pair.whole.pool.clone();
            for _ in 0..1 + random.below(3) {
                damage(&mut damaged, &mut random);
            }
            assert_eq!(is_well_formed(&damaged), is_fit(&damaged));
            pair.examine(&calls, |pool| pool.clone_from(&damaged));
            pair.restore();
        }
        println!("{} well-formed, {} not", pair.fit, pair.unfit);
        assert!(pair.fit > 500 && pair.unfit > 500);
    }
}

fn damage(pool: &mut Pool, random: &mut Random) {
    let (from, to) = (random.below(256), random.below(256));
    let small = random.below(4) as u32;
    match random.below(27) {
        0 => pool.tasks[to % TASKS] = pool.tasks[from % TASKS],
        1 => pool.tasks[to % TASKS].state = random.below(5) as u16,
        2 => pool.tasks[to % TASKS].ticked = small as u16,
        3 => pool.tasks[to % TASKS].clock = pool.tasks[to % TASKS].clock.wrapping_add(small),
        4 => pool.global = pool.global.wrapping_add(small),
        5 => pool.given = pool.given.wrapping_sub(small),
        6 => pool.handles[to % BLOCKS] = pool.handles[from % BLOCKS],
        7 => pool.handles[to % BLOCKS] = small,
        8 => pool.extents[to % BLOCKS] = pool.extents[from % BLOCKS],
        9 => {
            let length = random.pick(&[0, 1, 32, 33, 256, 257, 289]);
            pool.extents[to % BLOCKS] = pool.extents[to % BLOCKS] & !0xFFFF | length;
        }
        10 => {
            pool.clocks[to] = pool.clocks[from];
            pool.named[to] = pool.named[from];
            pool.dues[to] = pool.dues[from];
        }
        11 => {
            let codes =
                [FREE, 1, 15, LOCAL, LOCAL + 5, 31, GLOBAL, GLOBAL + 5, 47, DEPARTED, PINNED, PINNED + 1, 63, 255];
            pool.clocks[to] = random.pick(&codes);
        }
        12 => pool.named[to] = pool.named[from],
        13 => pool.named[to] = random.pick(&[0, SMALL_BLOCKS - 1, SMALL_BLOCKS, BLOCKS - 1, BLOCKS, 255]) as u8,
        14 => pool.dues[to] = pool.dues[from],
        15 => pool.dues[to] = 0,
        16 => (pool.clocks[to], pool.dues[to]) = (PINNED, 0),
        17 => pool.extents[to % BLOCKS] = pool.extents[to % BLOCKS].wrapping_add(u64::from(small) << 48),
        18 => {
            let (figure, ..) = random.pick(&FIGURES);
            *figure(&mut pool.limits) = figure(&mut pool.limits.clone()).wrapping_add(small).wrapping_sub(2);
        }
        19 => {
            let (figure, least, most) = random.pick(&FIGURES);
            *figure(&mut pool.limits) = random.pick(&[least, most, most + 1, least.wrapping_sub(1)]);
        }
        20 => pool.shares[to % TASKS] = pool.shares[from % TASKS],
        21 => {
            let (number, _) = random.pick(&NUMBERS);
            *number(&mut pool.shares[to % TASKS]) = random.pick(&[0, 1, 2, 4, 8, 64, 255]);
        }
        22 => {
            let (number, _) = random.pick(&NUMBERS);
            let number = number(&mut pool.shares[to % TASKS]);
            *number = number.wrapping_add(small as u8).wrapping_sub(2);
        }
        23 => pool.extents[to % BLOCKS] = with_maker(pool.extents[to % BLOCKS], maker_in(pool.extents[from % BLOCKS])),
        24 => {
            let maker = random.pick(&[0, 1, 5, 14, 15, NOBODY, NOBODY + 1, 32, 255]);
            pool.extents[to % BLOCKS] = with_maker(pool.extents[to % BLOCKS], maker);
        }
        25 => {
            let extent = pool.extents[to % BLOCKS];
            let prefix = random.pick(&[0, 1, length_in(extent), length_in(extent).wrapping_add(1), 32, 256, u16::MAX]);
            pool.extents[to % BLOCKS] = with_prefix(extent, prefix);
        }
        _ => pool.dues[to] = pool.dues[to].wrapping_add(small),
    }
}

/// A number of a task's share.
type Number = fn(&mut Share) -> &mut u8;

/// The four, each with whether it is a reserve.
const NUMBERS: [(Number, bool); 4] = [
    (|share| &mut share.small.reserve, true),
    (|share| &mut share.small.limit, false),
    (|share| &mut share.large.reserve, true),
    (|share| &mut share.large.limit, false),
];

/// With the damaged record the rules' words, the plain pool and the library agree, and it is as expected.
fn expect(pair: &mut Pair, fit: bool, damage: impl Fn(&mut Pool)) {
    let calls = pair.calls;
    let mut damaged = pair.whole.pool.clone();
    damage(&mut damaged);
    assert_eq!((is_fit(&damaged), is_well_formed(&damaged)), (fit, fit), "{damaged:?}");
    pair.examine(&calls[..2], damage);
    pair.restore();
}

/// Each figure at either end of its range and one past it, in a fresh record, which asks no more of it.
#[test]
fn figures_at_the_ends_of_their_ranges() {
    for limits in [Limits::SMALLEST, CABLE, Limits::STANDARD] {
        let mut pair = Pair::of(Memory::sized(limits, &mut Random::new(5)));
        for (figure, least, most) in FIGURES {
            for (value, fit) in [(least, true), (most, true), (least.wrapping_sub(1), false), (most + 1, false)] {
                expect(&mut pair, fit, |pool| *figure(&mut pool.limits) = value);
            }
        }
    }
}

/// Each figure of a full record: no lower than what stands in it, and as high as there are.
#[test]
fn figures_of_full_records() {
    for (whole, used) in
        [(full_of(CABLE, 64), [16, 4, 64, 10]), (full(EXPIRATIONS), [64, 32, 256, 30]), (smallest(), [0, 1, 1, 0])]
    {
        let mut pair = Pair::of(whole);
        for ((figure, least, most), used) in FIGURES.into_iter().zip(used) {
            for value in 0..=most + 2 {
                let fit = (used.max(least)..=most).contains(&value);
                expect(&mut pair, fit, |pool| *figure(&mut pool.limits) = value);
            }
        }
    }
}

/// An absent task and a viewer have none of the four, and a limit alone or a reserve with one are no better.
#[test]
fn the_share_of_an_absent_task_and_of_a_viewer() {
    for whole in [Memory::fresh(&mut Random::new(5)), with_shares(0), with_shares(1), with_viewers()] {
        let has_none = |&task: &usize| [ABSENT, VIEWING].contains(&whole.pool.tasks[task].state);
        let tasks: Vec<_> = (0..TASKS).filter(has_none).collect();
        let mut pair = Pair::of(whole);
        for task in tasks {
            for value in 0..=255 {
                for (number, _) in NUMBERS {
                    expect(&mut pair, value == 0, |pool| *number(&mut pool.shares[task]) = value);
                }
                let small = Quota { reserve: value.min(1), limit: value };
                expect(&mut pair, value == 0, |pool| pool.shares[task] = Share { small, ..Share::NONE });
            }
        }
    }
}

/// Each state of each task: no number above 3 is one, and who is absent or views has a share of nothing.
#[test]
fn every_state_of_a_task() {
    let whole = with_viewers();
    let mut pair = Pair::of(whole.clone());
    for task in 0..TASKS {
        for state in (0..=17).chain([255, 256, 257, 258, 259, 515, 769, u16::MAX]) {
            let fit = match state {
                RUNNING | WAITING => true,
                ABSENT | VIEWING => whole.pool.shares[task] == Share::NONE,
                _ => false,
            };
            expect(&mut pair, fit, |pool| pool.tasks[task].state = state);
        }
    }
}

/// A viewer is not marked: it does not run.
#[test]
fn the_mark_of_a_viewer() {
    let mut pair = Pair::of(with_viewers());
    for (task, fit) in [(0, true), (1, true), (2, false), (3, false), (4, false), (5, false)] {
        expect(&mut pair, fit, |pool| pool.tasks[task].ticked = 1);
    }
    expect(&mut pair, false, |pool| [0, 1].into_iter().for_each(|task| pool.tasks[task].ticked = 1));
}

/// A viewer's clock may read anything, and expirations may go by it: no more is asked of it than of one that is there.
#[test]
fn the_clock_of_a_viewer() {
    let mut pair = Pair::of(with_viewers());
    for clock in [0, 1, 31, u32::MAX] {
        expect(&mut pair, true, |pool| pool.tasks[3].clock = clock);
        expect(&mut pair, clock == 0, |pool| pool.tasks[6].clock = clock);
        for (units, fit) in [(0, false), (1, true), (11, true), (12, false)] {
            expect(&mut pair, fit, |pool| {
                pool.tasks[3].clock = clock;
                (pool.clocks[0], pool.dues[0]) = (LOCAL + 3, clock.wrapping_add(units));
            });
        }
    }
    expect(&mut pair, true, |pool| pool.clocks[0] = GLOBAL + 3);
    expect(&mut pair, false, |pool| pool.clocks[0] = GLOBAL + 6);
}

/// Every prefix of every block: at most the length of its object. That of a free one has no meaning.
#[test]
fn every_prefix_of_a_block() {
    let whole = with_viewers();
    let mut pair = Pair::of(whole.clone());
    for place in 0..BLOCKS {
        let (extent, is_free) = (whole.pool.extents[place], whole.pool.handles[place] == 0);
        for prefix in (0..=300).chain([511, 512, 519, 1 << 12, 1 << 15, u16::MAX]) {
            let fit = is_free || prefix <= length_in(extent);
            expect(&mut pair, fit, |pool| pool.extents[place] = with_prefix(extent, prefix));
        }
    }
}

/// Each number of each task, at every value: what it made is at most its limit, and so is its reserve; and what it lacks of
/// its reserve is there.
#[test]
fn every_number_of_a_share() {
    for left in [0, 1] {
        let whole = with_shares(left);
        let made = |task: usize, small: bool| {
            let places = if small { 0..SMALL_BLOCKS } else { SMALL_BLOCKS..BLOCKS };
            let is_its = |&place: &usize| {
                whole.pool.handles[place] != 0 && usize::from(maker_in(whole.pool.extents[place])) == task
            };
            places.filter(is_its).count()
        };
        let tasks: Vec<_> = (0..TASKS).filter(|&task| whole.pool.tasks[task].state != ABSENT).collect();
        let mut pair = Pair::of(whole.clone());
        for (task, (place, (number, is_reserve))) in
            tasks.into_iter().flat_map(|task| NUMBERS.into_iter().enumerate().map(move |number| (task, number)))
        {
            let (small, made) = (place < 2, made(task, place < 2));
            let Share { small: of_small, large: of_large } = whole.pool.shares[task];
            let Quota { reserve, limit } = if small { of_small } else { of_large };
            // What the reserve may be: what was made and is left, and what is held back now.
            let most = made + left + usize::from(reserve).saturating_sub(made);
            for value in 0..=255 {
                let fit = if is_reserve {
                    value <= limit && usize::from(value) <= most
                } else {
                    reserve <= value && made <= usize::from(value)
                };
                expect(&mut pair, fit, |pool| *number(&mut pool.shares[task]) = value);
            }
        }
    }
}

/// Every maker of every block. That of a free one has no meaning. Else it is one that has left, or a task that has joined and
/// is not at its limit; and where a reserve comes to lack an object, a block has to be left for it.
#[test]
fn every_maker_of_a_block() {
    for left in [0, 1] {
        let whole = with_shares(left);
        let mut pair = Pair::of(whole.clone());
        for (place, value) in (0..BLOCKS).flat_map(|place| (0..=255).map(move |value| (place, value))) {
            let (maker, small) = (maker_in(whole.pool.extents[place]), place < SMALL_BLOCKS);
            // Task 0 lacks small objects and has the large one of its reserve, and task 2 has both of its small ones.
            let is_lost = maker == 0 || maker == 2 && small;
            let is_found = value == 0 && small;
            let may_be = [0, 2, 5, NOBODY].contains(&value) && (!is_lost || is_found || left > 0);
            let fit = whole.pool.handles[place] == 0 || value == maker || may_be;
            expect(&mut pair, fit, |pool| pool.extents[place] = with_maker(pool.extents[place], value));
        }
    }
}

/// Nothing is asked of the bits between the maker and the prefix, nor of anything that a free block has beside its handle.
#[test]
fn the_spare_bits_of_a_block() {
    let whole = with_shares(0);
    let mut pair = Pair::of(whole.clone());
    for place in 0..BLOCKS {
        for bit in 24..32 {
            expect(&mut pair, true, |pool| pool.extents[place] ^= 1 << bit);
        }
        if whole.pool.handles[place] == 0 {
            for extent in [0, u64::MAX, 0x0000_0000_0011_0000, 0xFFFF_0000_00FF_0000] {
                expect(&mut pair, true, |pool| pool.extents[place] = extent);
            }
        }
    }
}

/// An object in this block with a global expiration in this entry, so many units ahead, in a pool of these figures.
fn one_object(limits: Limits, block: usize, date: usize, units: u32) -> Pool {
    let mut pool = Pool { given: 1, ..fresh(limits) };
    let length = SMALL_SIZE as u16 + u16::from(block >= SMALL_BLOCKS);
    (pool.handles[block], pool.extents[block]) = (1, extent_of(length, 0, NOBODY));
    (pool.clocks[date], pool.named[date], pool.dues[date]) = (DEPARTED, block as u8, units);
    pool
}

/// An entry in use at each place, at each figure: within it is fit, and from it on it is not.
#[test]
fn entries_in_use_past_the_figure() {
    let mut pair = Pair::of(Memory::fresh(&mut Random::new(5)));
    for expirations in 1..=EXPIRATIONS {
        let limits = Limits { expirations: expirations as u32, ..Limits::STANDARD };
        for date in [0, 1, expirations - 1, expirations, expirations + 1, 128, 254, 255] {
            if date < EXPIRATIONS {
                expect(&mut pair, date < expirations, |pool| *pool = one_object(limits, 0, date, 1));
            }
        }
    }
}

/// A block in use at each place of either store, at each figure: within it is fit, and from it on it is not, nor is a free
/// one that is named there.
#[test]
fn blocks_in_use_or_named_past_the_figures() {
    let mut pair = Pair::of(Memory::fresh(&mut Random::new(5)));
    for (figure, first, most) in [(FIGURES[0].0, 0, SMALL_BLOCKS), (FIGURES[1].0, SMALL_BLOCKS, LARGE_BLOCKS)] {
        for (blocks, place) in (1..=most).flat_map(|blocks| (0..most).map(move |place| (blocks, place))) {
            let limits = with(Limits::STANDARD, figure, blocks as u32);
            let in_use = one_object(limits, first + place, 0, 1);
            expect(&mut pair, place < blocks, |pool| pool.clone_from(&in_use));
            // The first block has the object, and a second expiration names this one, which has none.
            let mut named = one_object(limits, first, 0, 1);
            (named.clocks[1], named.named[1], named.dues[1]) = (DEPARTED, (first + place) as u8, 1);
            expect(&mut pair, place == 0, |pool| pool.clone_from(&named));
        }
    }
}

/// At each largest extension: as many units ahead as it gives, and one more is not fit.
#[test]
fn due_times_past_the_largest_extension() {
    let mut pair = Pair::of(Memory::fresh(&mut Random::new(5)));
    let extensions = 0..EXTENSIONS as u32;
    for (extension, units) in extensions.flat_map(|extension| (0..=34).map(move |units| (extension, units))) {
        let pool = one_object(Limits { extension, ..Limits::STANDARD }, 0, 0, units);
        for (code, most) in [(LOCAL + 3, extension + 1), (GLOBAL + 3, extension + 2), (DEPARTED, extension + 2)] {
            expect(&mut pair, (1..=most).contains(&units), |damaged| {
                damaged.clone_from(&pool);
                damaged.tasks[3].state = RUNNING;
                damaged.clocks[0] = code;
            });
        }
    }
}

/// Every code in every entry of a record with tasks of each state. Those of setters that are not there are not fit, nor is
/// one above 48, which is fit for every entry that is due by global time: no entry is due at 0, as what is pinned is.
#[test]
fn every_code_of_a_clock() {
    let mut pair = Pair::of(with_each_state());
    let (calls, whole) = (pair.calls, pair.whole.pool.clone());
    let longest = whole.limits.extension + GLOBAL_EXTRA;
    for date in 0..EXPIRATIONS {
        let is_ahead = (1..=longest).contains(&whole.dues[date].wrapping_sub(whole.global));
        for code in 0..=255 {
            let expected = match code {
                FREE | LOCAL..GLOBAL => None,
                GLOBAL..DEPARTED => Some(is_ahead && whole.tasks[usize::from(code - GLOBAL)].state != ABSENT),
                DEPARTED => Some(is_ahead),
                _ => Some(false),
            };
            let mut damaged = whole.clone();
            damaged.clocks[date] = code;
            let fit = is_fit(&damaged);
            assert_eq!(is_well_formed(&damaged), fit, "entry {date}, code {code}");
            assert_eq!(fit, expected.unwrap_or(fit), "entry {date}, code {code}");
            pair.examine(&calls[..2], |pool| pool.clocks[date] = code);
        }
        pair.restore();
    }
    println!("{} well-formed, {} not", pair.fit, pair.unfit);
    assert!(pair.fit > 5_000 && pair.unfit > 50_000);
}

/// Each entry pinned, of each block: fit where the block is in use and has no other pinned one, and the block that it named
/// has another expiration. With a time it is not, and no more with the next code.
#[test]
fn pinned_in_each_entry() {
    let mut pair = Pair::of(half_pinned());
    let (calls, whole) = (pair.calls, &pair.whole.pool.clone());
    let on = |block: usize| (0..EXPIRATIONS).filter(move |&date| usize::from(whole.named[date]) == block);
    for date in 0..EXPIRATIONS {
        let others = on(usize::from(whole.named[date])).any(|other| other != date && whole.clocks[other] != FREE);
        for block in 0..=BLOCKS {
            let is_pinned = on(block).any(|other| other != date && whole.clocks[other] == PINNED);
            let used = whole.handles.get(block).is_some_and(|&handle| handle != 0);
            let expected = used && !is_pinned && (others || block == usize::from(whole.named[date]));
            for (code, due) in [(PINNED, 0), (PINNED, 1), (PINNED, u32::MAX), (PINNED + 1, 0)] {
                let put = |pool: &mut Pool| {
                    (pool.clocks[date], pool.named[date], pool.dues[date]) = (code, block as u8, due);
                };
                let mut damaged = whole.clone();
                put(&mut damaged);
                let fit = expected && (code, due) == (PINNED, 0);
                assert_eq!((is_well_formed(&damaged), is_fit(&damaged)), (fit, fit), "{date}, {block}, {code}, {due}");
                pair.examine(&calls[..1], put);
            }
        }
        pair.restore();
    }
    println!("{} well-formed, {} not", pair.fit, pair.unfit);
    assert!(pair.fit > 2_000 && pair.unfit > 50_000);
}

/// Half the blocks of both stores are in use, each third object is pinned, and there are free entries.
fn half_pinned() -> Memory {
    standing_by(Limits::STANDARD, TASKS, (SMALL_BLOCKS / 2, LARGE_BLOCKS / 2), 200, |count| {
        let pins = count < BLOCKS / 2 && count % 3 == 0;
        let (kind, extension) = if pins { (Kind::Pinned, 0) } else { (Kind::Global, (count % EXTENSIONS) as u8) };
        Setting { task: (count % TASKS) as u8, kind, extension, object: count % 40 }
    })
}

/// Tasks 1 and 13 wait, tasks 3 and 15 have left what they have set by global time, and the others run.
fn with_each_state() -> Memory {
    let mut host = Host::<Plain>::new(full(EXPIRATIONS));
    for call in [1, 13].map(|task| Call::Block { task }).into_iter().chain([3, 15].map(|task| Call::Leave { task })) {
        assert!(host.call(&call).is_ok(), "{call:?}");
    }
    assert!(host.memory.pool.clocks.contains(&DEPARTED));
    host.memory
}

/// Nothing but chance.
#[test]
fn noise() {
    let mut random = Random::new(12);
    let mut pair = Pair::of(full(EXPIRATIONS));
    let calls = pair.calls;
    for _ in 0..2_000 {
        let mut noise = pair.whole.pool.clone();
        random.fill(bytes_mut(&mut noise));
        pair.examine(&calls, |pool| pool.clone_from(&noise));
    }
    assert_eq!(pair.unfit, 2_000);
}
