//! Scripts from seeds, for pools of any figures: what their phases are about and how they end. No line changes a byte
//! from outside, so that none of them meets 23: for that there is `outside`.

use crate::call::Call;
use crate::draft::Draft;
use crate::limits::{Limits, Store, LARGEST_BATCH, LONGEST, TASKS};
use crate::random::Random;
use crate::script::LIMIT;
use crate::share::{Quota, Share};

/// An extension that is cut to the largest of any pool.
const LARGEST: u8 = u8::MAX;

/// What a phase of a script is about.
#[derive(Clone, Copy, Debug, PartialEq, Eq)]
pub enum Profile {
    /// Few tasks, all calls.
    Everyday,
    /// Sixteen tasks that come, go, block and tick.
    Crowd,
    /// Small objects up to all blocks.
    SmallFlood,
    /// Large objects up to all blocks.
    LargeFlood,
    /// Expirations up to the last.
    ExpirationFlood,
    /// Objects read on every tick up to their end and past it.
    Lapse,
    /// Blocks written full, freed and taken again.
    Reuse,
    /// One of the longest objects read over and over: the longest outputs.
    Reading,
    /// Expirations of several tasks on one object, and how long it stands for each of them.
    Remaining,
    /// Objects refreshed together: of all sizes, with some that do not stand, and up to the last expiration.
    Batch,
    /// Setters of global expirations that wait through advances, leave, and are followed by others of their number.
    Waiting,
    /// Objects that are pinned: they outlive rounds and tasks, fill the tables, and are released once and again.
    Pinned,
    /// Reserves that fill a store and limits that are reached, by tasks that wait, leave and come again.
    Shares,
    /// Viewers beside tasks: they see prefixes of all lengths, try in vain what tasks do, and hold up nobody.
    Viewers,
    /// Arguments at the ends of their ranges.
    Edges,
    /// Damaged lines among good ones.
    Damage,
    /// Lines of chance.
    Noise,
}

pub const PROFILES: [Profile; 17] = [
    Profile::Everyday,
    Profile::Crowd,
    Profile::SmallFlood,
    Profile::LargeFlood,
    Profile::ExpirationFlood,
    Profile::Lapse,
    Profile::Reuse,
    Profile::Reading,
    Profile::Remaining,
    Profile::Batch,
    Profile::Waiting,
    Profile::Pinned,
    Profile::Shares,
    Profile::Viewers,
    Profile::Edges,
    Profile::Damage,
    Profile::Noise,
];

/// The script of a seed, for a pool of the scope paper's figures.
pub fn script(seed: u64) -> Vec<u8> {
    sized_script(Limits::STANDARD, seed)
}

/// The same of one profile or of all.
pub fn script_of(only: Option<Profile>, seed: u64, size: usize) -> Vec<u8> {
    sized_script_of(Limits::STANDARD, only, seed, size)
}

/// The script of a seed, for a pool of these figures. One in three keeps all use in time and in bounds; one in four
/// keeps to one profile.
pub fn sized_script(limits: Limits, seed: u64) -> Vec<u8> {
    let mut random = Random::new(seed);
    let size = size(&mut random);
    let in_time = random.one_in(3);
    let profile = random.pick(&PROFILES);
    let only = if random.one_in(4) { Some(profile) } else { None };
    whole(Draft::new(random, limits, in_time), size, only)
}

/// A script of about this size that keeps to one profile, or has phases of all.
pub fn sized_script_of(limits: Limits, only: Option<Profile>, seed: u64, size: usize) -> Vec<u8> {
    whole(Draft::new(Random::new(seed), limits, false), size, only)
}

/// Order 11: the script of a seed as a planner has it, who does not know yet how large the pool is to be. Of two seeds in
/// four it is the one for the scope paper's figures; of the next it is for figures beyond what a site may choose; and of the
/// next it is a short one about reserves and limits, so that it is these that a pool refuses calls for.
pub fn planned_script(seed: u64) -> Vec<u8> {
    match seed % 4 {
        0 | 1 => script(seed),
        2 => sized_script(large_limits(seed), seed),
        _ => script_of(Some(Profile::Shares), seed, 1_500),
    }
}

fn large_limits(seed: u64) -> Limits {
    let mut random = Random::new(seed);
    Limits {
        small_blocks: 1 + random.below(200),
        large_blocks: 1 + random.below(100),
        expirations: 1 + random.below(2_000),
        ..Limits::STANDARD
    }
}

/// The figures of a seed: of every sixteenth the smallest, of the next one the scope paper's, of the others any that a
/// site may choose, small ones often.
pub fn limits(seed: u64) -> Limits {
    let (least, most) = (Limits::SMALLEST, Limits::STANDARD);
    let mut random = Random::new(seed);
    match seed % 16 {
        0 => least,
        1 => most,
        _ => Limits {
            small_blocks: figure(&mut random, least.small_blocks, most.small_blocks),
            large_blocks: figure(&mut random, least.large_blocks, most.large_blocks),
            expirations: figure(&mut random, least.expirations, most.expirations),
            extension: figure(&mut random, least.extension, most.extension),
        },
    }
}

/// One from the least to the most: at an end, near the least, or any.
fn figure(random: &mut Random, least: usize, most: usize) -> usize {
    match random.below(8) {
        0 => least,
        1 => most,
        2..=4 => least + random.below(8),
        _ => least + random.below(most - least + 1),
    }
}

/// From nothing up to the limit, on it, and now and then beyond it.
fn size(random: &mut Random) -> usize {
    match random.below(20) {
        0 => random.below(64),
        1..=3 => random.below(2_000),
        4..=11 => 2_000 + random.below(14_000),
        12..=16 => 16_000 + random.below(LIMIT - 16_000),
        17 | 18 => LIMIT - random.below(3),
        _ => LIMIT + 1 + random.pick(&[0, 1, 5_000]),
    }
}

fn whole(mut draft: Draft, size: usize, only: Option<Profile>) -> Vec<u8> {
    while draft.script.len() < size {
        let profile = only.unwrap_or_else(|| draft.random.pick(&PROFILES));
        phase(&mut draft, profile);
    }
    finish(&mut draft, size);
    draft.script
}

fn phase(draft: &mut Draft, profile: Profile) {
    match profile {
        Profile::Everyday => everyday(draft),
        Profile::Crowd => crowd(draft),
        Profile::SmallFlood => flood(draft, Store::Small),
        Profile::LargeFlood => flood(draft, Store::Large),
        Profile::ExpirationFlood => expiration_flood(draft),
        Profile::Lapse => lapse(draft),
        Profile::Reuse => reuse(draft),
        Profile::Reading => reading(draft),
        Profile::Remaining => remaining(draft),
        Profile::Batch => batch(draft),
        Profile::Waiting => waiting(draft),
        Profile::Pinned => pinned(draft),
        Profile::Shares => shares(draft),
        Profile::Viewers => viewers(draft),
        Profile::Edges => edges(draft),
        Profile::Damage => damage(draft),
        Profile::Noise => noise(draft),
    }
}

/// Ends the script at its size, in the middle of a line or after empty lines; a shorter one may also
/// end after a whole line, with its LF or without.
fn finish(draft: &mut Draft, size: usize) {
    let Draft { random, script, .. } = draft;
    script.truncate(size);
    let end = script.iter().rposition(|&byte| byte == b'\n').map_or(0, |place| place + 1);
    let ways = if size < LIMIT - 3 { 4 } else { 2 };
    match random.below(ways) {
        0 => {}
        1 => {
            script.truncate(end);
            script.resize(size, b'\n');
        }
        2 => script.truncate(end),
        _ => script.truncate(end.saturating_sub(1)),
    }
}

fn everyday(draft: &mut Draft) {
    let tasks = 1 + draft.random.below(4);
    draft.gather(tasks);
    for _ in 0..100 + draft.random.below(300) {
        draft.any_call();
    }
}

fn crowd(draft: &mut Draft) {
    draft.gather(TASKS);
    for _ in 0..4 + draft.random.below(12) {
        crowd_round(draft);
    }
}

/// Most tasks tick, beginning anywhere, so that global time advances about once.
fn crowd_round(draft: &mut Draft) {
    let first = draft.random.below(TASKS);
    for step in 0..TASKS {
        let task = ((first + step) % TASKS) as u8;
        match draft.random.below(16) {
            0 => draft.call(&Call::Block { task }),
            1 => draft.call(&Call::Leave { task }),
            2 => draft.call(&Call::Resume { task }),
            3 if draft.random.one_in(4) => draft.call(&Call::View { task }),
            3 => draft.join_of(task),
            4 => draft.any_call(),
            _ => draft.call(&Call::Tick { task }),
        }
    }
    draft.gather(TASKS - 2);
}

/// Fills one store, tries both stores at the brim, lets some objects go and makes some again.
fn flood(draft: &mut Draft, store: Store) {
    draft.gather(1);
    let long = draft.longest() / 3;
    for _ in 0..draft.limits().blocks(store) {
        let extension = long + draft.up_to(draft.longest() - long);
        draft.make_in(store, extension);
    }
    for store in [store, Store::Small, Store::Large] {
        draft.make_in(store, draft.cut(5));
    }
    draft.call(&Call::Report);
    for _ in 0..draft.random.below(20) {
        draft.round();
        draft.any_use();
        draft.any_use();
    }
    for _ in 0..4 {
        draft.make_in(store, draft.longest());
    }
}

/// Sets expirations until no more are taken, tries more, lets some lapse and sets more.
fn expiration_flood(draft: &mut Draft) {
    draft.gather(2);
    for _ in 0..1 + draft.random.below(6) {
        draft.make_in(Store::Small, draft.longest());
    }
    for _ in 0..draft.limits().expirations {
        let extension = draft.up_to(draft.longest());
        draft.refresh_standing(extension);
    }
    draft.refresh_standing(0);
    draft.make_in(Store::Large, 0);
    draft.show_too_much(0, Store::Large);
    draft.call(&Call::Report);
    for _ in 0..1 + draft.random.below(4) {
        draft.round();
        draft.refresh_standing(0);
        draft.refresh_standing(draft.longest());
    }
    draft.round();
    batch_at_the_brim(draft);
}

fn lapse(draft: &mut Draft) {
    draft.gather(1);
    let longest = draft.longest();
    let any = draft.up_to(longest);
    let extension = draft.cut_one(&[0, 0, 1, 2, longest.saturating_sub(1), LARGEST, any]);
    let Some(handle) = draft.make_in(Store::Small, extension) else { return draft.round() };
    for _ in 0..extension + 3 {
        draft.round();
        draft.read_now(handle);
        if draft.random.one_in(12) {
            draft.refresh_standing(extension);
        }
    }
}

fn reuse(draft: &mut Draft) {
    draft.gather(1);
    let store = draft.random.pick(&[Store::Small, Store::Large]);
    for _ in 0..4 {
        if let Some(handle) = draft.make_in(store, 0) {
            draft.write_whole(handle);
        }
    }
    draft.round();
    draft.round();
    for _ in 0..4 {
        if let Some(handle) = draft.make_in(store, draft.cut(1)) {
            draft.read_now(handle);
        }
    }
}

fn reading(draft: &mut Draft) {
    draft.gather(1);
    let Some(handle) = draft.make_now(draft.longest(), LONGEST) else { return draft.round() };
    draft.write_whole(handle);
    for _ in 0..200 {
        draft.read_now(handle);
    }
}

/// A few tasks refresh one object, ask for it and tick, until it is gone and a little longer.
fn remaining(draft: &mut Draft) {
    let tasks = 1 + draft.random.below(4);
    draft.gather(tasks);
    let longest = draft.cut_one(&[2, 5, LARGEST]);
    let Some(handle) = draft.make_in(Store::Small, longest) else { return draft.round() };
    for _ in 0..draft.random.below(12) {
        let below = draft.up_to(longest.saturating_sub(1));
        let extension = draft.random.pick(&[below, longest]);
        draft.refresh_by(tasks, extension, handle);
    }
    draft.remaining_to_each(tasks + 1, handle);
    for _ in 0..longest + 3 {
        if draft.random.one_in(4) {
            draft.any_call();
        }
        draft.round();
        draft.remaining_to_each(tasks, handle);
    }
}

/// A scan is refreshed by one call, with other batches in between, until it is gone.
fn batch(draft: &mut Draft) {
    let tasks = 1 + draft.random.below(3);
    draft.gather(tasks);
    let extension = draft.cut_one(&[0, 1, 4, LARGEST]);
    let size = draft.random.pick(&[1, 2, 7, LARGEST_BATCH - 1, LARGEST_BATCH]);
    let scan = draft.scan(size, extension);
    for _ in 0..1 + draft.random.below(3) {
        draft.round();
        draft.batch_now(extension, &scan);
        draft.batch_mixed(size, extension);
        draft.batch();
    }
    if draft.random.one_in(2) {
        batch_of_no_form(draft);
    } else {
        batch_to_the_brim(draft);
    }
    for _ in 0..extension + 2 {
        draft.round();
    }
    draft.batch_now(extension, &scan);
}

/// No object or too many, up to more than any other frame has, and too long an extension.
fn batch_of_no_form(draft: &mut Draft) {
    for _ in 0..5 {
        let far = 200 + draft.random.below(600);
        let count = draft.random.pick(&[0, 9, LARGEST_BATCH + 1, 66, far]);
        let longest = draft.longest();
        let extension = draft.random.pick(&[longest, longest + 1]);
        draft.batch_mixed(count, extension);
    }
}

/// Up to the last expiration that there is room for, and past it.
fn batch_to_the_brim(draft: &mut Draft) {
    for _ in 0..draft.limits().expirations.div_ceil(LARGEST_BATCH) {
        draft.batch_standing(LARGEST_BATCH, draft.longest());
    }
    batch_at_the_brim(draft);
}

/// One more than there is room for, as many as there is room for, and some more.
fn batch_at_the_brim(draft: &mut Draft) {
    let room = draft.room();
    draft.batch_mixed(room + 2, 0);
    draft.batch_standing(room + 1, 0);
    draft.batch_standing(room, 0);
    draft.batch_standing(1, 0);
    draft.batch_mixed(2, 0);
    draft.batch_mixed(5, 0);
    draft.call(&Call::Report);
}

/// Each task makes an object that goes by global time. One of them waits or leaves, maybe by a call that brings an advance,
/// and now and then another one too; time goes on, they come back, and all objects are asked for until they are gone.
fn waiting(draft: &mut Draft) {
    let tasks = 2 + draft.random.below(3);
    draft.gather(tasks);
    let extension = draft.cut_one(&[0, 0, 0, 1, 1, 3, LARGEST]);
    let objects: Vec<_> = (0..tasks as u8).filter_map(|task| draft.make_global(task, extension)).collect();
    objects.iter().for_each(|&handle| draft.refresh_by(tasks, extension, handle));
    let rounds = usize::from(extension) + 2;
    for _ in 0..draft.random.below(rounds) {
        draft.round();
    }
    let setter = draft.random.below(tasks) as u8;
    if draft.random.one_in(2) {
        draft.round_but(setter);
    }
    wait_or_leave(draft, setter, extension);
    if draft.random.one_in(3) {
        let task = draft.random.below(tasks) as u8;
        draft.call(&Call::Block { task });
    }
    for _ in 0..draft.random.below(rounds + 2) {
        draft.round();
        draft.ask_for(&objects);
    }
    draft.gather(tasks);
    for _ in 0..rounds + 1 {
        draft.ask_for(&objects);
        draft.round();
    }
}

/// It waits, leaves, leaves while it waits, or has another of its number wait, which has set an expiration too.
fn wait_or_leave(draft: &mut Draft, setter: u8, extension: u8) {
    let (block, leave) = (Call::Block { task: setter }, Call::Leave { task: setter });
    match draft.random.below(5) {
        0 => draft.call(&leave),
        1 => {
            draft.call(&block);
            draft.call(&leave);
        }
        2 => {
            draft.join_anew(setter);
            draft.make_global(setter, extension);
            draft.call(&block);
        }
        _ => draft.call(&block),
    }
}

/// Some objects are pinned and others not. They are refreshed, time goes on, now and then for longer than any other
/// expiration lasts, and tasks wait and leave; then all are released, most of them once more, now or later.
fn pinned(draft: &mut Draft) {
    let tasks = 2 + draft.random.below(3);
    draft.gather(tasks);
    draft.release_all();
    pin_in_vain(draft);
    if draft.random.one_in(3) {
        return pin_to_the_brim(draft);
    }
    let extension = draft.cut_one(&[0, 1, 4]);
    let stores: Vec<_> = (0..2 + draft.random.below(5)).map(|_| any_store(draft)).collect();
    let objects: Vec<_> = stores.into_iter().filter_map(|store| draft.make_pinned(store)).collect();
    let others = draft.scan(2, extension);
    for &handle in &objects {
        if draft.random.one_in(2) {
            draft.refresh_by(tasks, extension, handle);
        }
    }
    outlive(draft, tasks, &objects);
    for &handle in objects.iter().chain(&others) {
        if draft.random.one_in(3) {
            draft.refresh_by(tasks, extension, handle);
        }
        draft.release_now(handle);
        if draft.random.one_in(2) {
            draft.release_now(handle);
        }
    }
    for _ in 0..extension + 2 {
        draft.round();
    }
    let former = [objects, others].concat();
    for &handle in former.iter().take(3) {
        draft.release_now(handle);
    }
}

fn any_store(draft: &mut Draft) -> Store {
    draft.random.pick(&[Store::Small, Store::Large])
}

/// With an extension, and by calls that pin nothing, of all sizes.
fn pin_in_vain(draft: &mut Draft) {
    for _ in 0..2 {
        draft.make_pinned_too_long();
        let count = draft.random.pick(&[0, 1, 1, 2, 7, LARGEST_BATCH, LARGEST_BATCH + 1, 66]);
        draft.refresh_pinning(count);
    }
}

/// Rounds go by, a few or more than any extension has, while a task waits or leaves, or all leave, and the objects are
/// asked for.
fn outlive(draft: &mut Draft, tasks: usize, objects: &[u32]) {
    let task = draft.random.below(tasks) as u8;
    match draft.random.below(6) {
        0 => draft.call(&Call::Block { task }),
        1 => draft.call(&Call::Leave { task }),
        2 | 3 => (0..TASKS as u8).for_each(|task| draft.call(&Call::Leave { task })),
        _ => {}
    }
    if draft.random.one_in(2) {
        draft.gather(tasks);
    }
    let longest = draft.longest();
    let rounds = draft.random.pick(&[1, 3, 6, longest + 6]);
    for _ in 0..rounds {
        draft.round();
        if draft.random.one_in(2) {
            draft.ask_for(objects);
        }
    }
    draft.gather(tasks);
}

/// Pins all blocks of a store, tries more, has some go, and sets expirations up to the last and past it.
fn pin_to_the_brim(draft: &mut Draft) {
    let store = any_store(draft);
    for _ in 0..=draft.limits().blocks(store) {
        draft.make_pinned(store);
    }
    for _ in 0..2 {
        draft.make_pinned(store);
        draft.make_in(store, 0);
        draft.release_pinned();
        draft.make_pinned(store);
    }
    batch_to_the_brim(draft);
    for _ in 0..3 {
        draft.make_pinned(Store::Large);
        draft.make_pinned(Store::Small);
        draft.refresh_pinning(2);
        draft.release_pinned();
        draft.refresh_standing(0);
    }
    draft.release_all();
    for _ in 0..draft.longest() + 1 {
        draft.round();
    }
}

/// All begins anew. Some tasks join, so that little or nothing of a store is left for others; then they take what is theirs
/// and more, wait, leave and come again.
fn shares(draft: &mut Draft) {
    let (tasks, store) = (2 + draft.random.below(4), any_store(draft));
    begin_anew(draft);
    share_out(draft, tasks, store);
    for _ in 0..12 + draft.random.below(40) {
        share_step(draft, tasks, store);
    }
    if draft.random.one_in(3) {
        batch_to_the_brim(draft);
        (0..2).for_each(|_| (0..tasks as u8).for_each(|task| draft.make_of(task, store)));
    }
    if !draft.random.one_in(4) {
        draft.leave_all();
    }
}

/// Nobody is there, and mostly no object.
fn begin_anew(draft: &mut Draft) {
    draft.gather(1);
    draft.release_all();
    if !draft.random.one_in(3) {
        (0..draft.longest() / 2).for_each(|_| draft.round());
    }
    draft.leave_all();
}

/// Tasks with small reserves; then one that takes what is left, or all but a few blocks; and one with none, and a limit now
/// and then.
fn share_out(draft: &mut Draft, tasks: usize, store: Store) {
    let (last, most) = (tasks as u8 - 1, draft.random.below(tasks) as u8);
    for task in 0..last {
        let few = draft.random.below(4) as u8;
        let spare = draft.random.pick(&[0, 0, 1, 2, 3]);
        let left = draft.left(task, store);
        let reserve = if task == most { left.saturating_sub(spare) } else { few.min(left) };
        let limit = draft.any_limit(reserve).max(reserve);
        join_with(draft, task, store, Quota { reserve, limit });
    }
    let limit = draft.random.pick(&[0, 1, 2, u8::MAX, u8::MAX, u8::MAX]);
    join_with(draft, last, store, Quota { reserve: 0, limit });
    draft.make_of(last, store);
}

/// With this quota of one store, and any of the other.
fn join_with(draft: &mut Draft, task: u8, store: Store, quota: Quota) {
    let open = draft.random.one_in(2);
    let any = |other: Store, draft: &mut Draft| if open { Quota::OPEN } else { draft.any_quota(task, other) };
    let share = match store {
        Store::Small => Share { small: quota, large: any(Store::Large, draft) },
        Store::Large => Share { small: any(Store::Small, draft), large: quota },
    };
    draft.call(&Call::Join { task, share });
}

fn share_step(draft: &mut Draft, tasks: usize, store: Store) {
    let task = draft.random.below(tasks) as u8;
    match draft.random.below(36) {
        0..=8 => draft.make_of(task, store),
        9..=14 => {
            let any = any_store(draft);
            draft.make_of(task, any);
        }
        15..=17 => draft.make_in_vain(task, store),
        18 => draft.round(),
        19..=22 => meet_and_let_go(draft, task, store),
        23..=25 => draft.block_or_resume(task),
        26 | 27 => draft.join_in_vain(task),
        28 | 29 => draft.join_in_vain(tasks as u8),
        30 | 31 => come_again(draft, task, store),
        32 | 33 => draft.release_pinned(),
        34 => draft.refresh_by(tasks, 0, draft.newest()),
        _ => draft.any_use(),
    }
}

/// The task has its reserve met where it lacks little. After a tick it lacks as much again, and others ask for a block.
fn meet_and_let_go(draft: &mut Draft, task: u8, store: Store) {
    let lack = draft.lack(task, store);
    if lack > 3 {
        return draft.make_of(task, store);
    }
    (0..lack).for_each(|_| draft.make_local(task, store));
    draft.call(&Call::Tick { task });
    (0..4).for_each(|_| _ = draft.make_in(store, 0));
}

/// The task leaves, if it is there, and joins once more; now and then it tries for too much first.
fn come_again(draft: &mut Draft, task: u8, store: Store) {
    draft.leave_if_there(task);
    if draft.random.one_in(2) {
        draft.join_in_vain(task);
    }
    let left = draft.left(task, store);
    let few = draft.up_to(left.min(3));
    let reserve = draft.random.pick(&[0, few, left.saturating_sub(1), left]);
    let limit = draft.any_limit(reserve).max(reserve);
    join_with(draft, task, store, Quota { reserve, limit });
}

/// One or two view beside a few tasks, which show them objects and let time go on; then the viewers leave, as a rule.
fn viewers(draft: &mut Draft) {
    let tasks = 1 + draft.random.below(3);
    draft.gather(tasks);
    let viewers: Vec<_> = (tasks as u8..).take(1 + draft.random.below(2)).collect();
    viewers.iter().for_each(|&viewer| begin_to_view(draft, viewer));
    for _ in 0..20 + draft.random.below(40) {
        let viewer = draft.random.pick(&viewers);
        view_step(draft, tasks, viewer);
    }
    if draft.random.one_in(6) {
        draft.gather(tasks);
        show_at_the_brim(draft);
    }
    if draft.random.one_in(3) {
        (0..TASKS as u8).filter(|task| !viewers.contains(task)).for_each(|task| draft.leave_if_there(task));
        viewers.iter().for_each(|&viewer| draft.view_any(viewer));
        draft.leave_if_there(viewers[0]);
        draft.call(&Call::View { task: viewers[0] });
    }
    if !draft.random.one_in(3) {
        viewers.iter().for_each(|&viewer| draft.leave_if_there(viewer));
    }
}

/// It may have been a task of which objects stand.
fn begin_to_view(draft: &mut Draft, viewer: u8) {
    if draft.random.one_in(2) {
        draft.join_anew(viewer);
        let store = any_store(draft);
        draft.make_of(viewer, store);
        draft.make_of(viewer, store);
    }
    draft.leave_if_there(viewer);
    draft.call(&Call::View { task: viewer });
}

fn view_step(draft: &mut Draft, tasks: usize, viewer: u8) {
    let (task, store) = (draft.random.below(tasks) as u8, any_store(draft));
    match draft.random.below(36) {
        0..=5 => draft.show(viewer, store),
        6..=13 => draft.view_any(viewer),
        14..=21 => draft.act_in_vain(viewer),
        22 => draft.show_too_much(task, store),
        23 => draft.call(&Call::Resume { task: viewer }),
        24 => draft.join_of(viewer),
        25 => draft.call(&Call::View { task: viewer }),
        26 => draft.call(&Call::View { task }),
        27 => draft.call(&Call::Tick { task }),
        28 => draft.block_or_resume(task),
        29 => draft.round(),
        30 => draft.any_call(),
        31 => draft.call(&Call::Report),
        32 => draft.make_in_vain(task, store),
        33 | 34 => advance_without(draft, tasks, task),
        _ => begin_to_view(draft, viewer),
    }
}

/// All but one tick, and that one leaves or waits.
fn advance_without(draft: &mut Draft, tasks: usize, task: u8) {
    draft.round_but(task);
    let call = draft.random.pick(&[Call::Leave { task }, Call::Block { task }]);
    draft.call(&call);
    draft.gather(tasks);
}

/// Too long a prefix is told before a limit, before blocks that are held back and before expirations that are all set.
fn show_at_the_brim(draft: &mut Draft) {
    let (rich, poor, store) = (14, 15, any_store(draft));
    [rich, poor].iter().for_each(|&task| draft.leave_if_there(task));
    let left = draft.left(rich, store);
    join_with(draft, rich, store, Quota { reserve: left, limit: left });
    draft.call(&Call::Join { task: poor, share: Share::NONE });
    [0, poor].iter().for_each(|&task| draft.show_too_much(task, store));
    batch_to_the_brim(draft);
    [0, poor].iter().for_each(|&task| draft.show_too_much(task, store));
    [rich, poor].iter().for_each(|&task| draft.leave_if_there(task));
}

fn edges(draft: &mut Draft) {
    for _ in 0..8 {
        draft.gather(1);
        draft.edge_object();
        for _ in 0..4 {
            draft.edge_call();
        }
        draft.any_use();
    }
}

fn damage(draft: &mut Draft) {
    draft.gather(2);
    for _ in 0..30 {
        draft.any_call();
        draft.damaged_line();
    }
}

fn noise(draft: &mut Draft) {
    for _ in 0..20 {
        draft.noise();
    }
}
