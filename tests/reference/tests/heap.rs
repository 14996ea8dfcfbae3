//! Demand 3: the ledger's answers are the heap's exactly when all use is in time and in bounds, and
//! the first use out is the first answer that differs; with the scope paper's figures and with such as a site chooses.

mod plan;

use plan::{kept, random_kind, some_bytes, List, Plan};
use reference::call::{Accepted, Call, Kind, Model, Refusal};
use reference::generate::{limits, sized_script};
use reference::heap::{first_difference, first_use_out, Heap, Judge};
use reference::ledger::Ledger;
use reference::limits::Limits;
use reference::random::Random;
use reference::script::calls;
use reference::share::{Maker, Quota, Share};

/// In a pool of the scope paper's figures.
fn check(list: &[Call]) -> Option<usize> {
    check_in(Limits::STANDARD, list)
}

fn check_in(limits: Limits, list: &[Call]) -> Option<usize> {
    let out = first_use_out(limits, list);
    assert_eq!(out, first_difference(limits, list), "{limits:?} {list:?}");
    out
}

fn join(task: u8) -> Call<'static> {
    Call::Join { task, share: Share::OPEN }
}

/// Each seed with the scope paper's figures and with its own.
fn pools(seeds: std::ops::Range<u64>) -> impl Iterator<Item = (Limits, u64)> {
    seeds.flat_map(|seed| [(Limits::STANDARD, seed), (limits(seed), seed)])
}

// Lists of chance.

/// `haste` is how often a tick comes: the rarer, the longer use stays in time.
fn random_call(random: &mut Random, limits: Limits, given: usize, haste: usize) -> Call<'static> {
    let (task, longest) = (random.below(4) as u8, limits.extension as u8);
    if random.below(100) < haste {
        return Call::Tick { task };
    }
    let kind = if random.one_in(8) { Kind::Pinned } else { random_kind(random) };
    let extension = match kind {
        Kind::Pinned => random.pick(&[0, 0, 0, 1]),
        _ => random.pick(&[0, 1, 2, 5, longest.saturating_sub(1), longest, longest, longest + 1]),
    };
    let handle = random.below(given + 2) as u32;
    match random.below(25) {
        0 | 1 => Call::Join { task, share: random_share(random, limits) },
        2 => Call::Leave { task },
        3 => Call::Block { task },
        4 | 5 => Call::Resume { task },
        6..=8 => {
            let (length, prefix) = (random.pick(&[0, 1, 8, 32, 33, 256, 257]), random.pick(&[0, 0, 0, 1, 1, 2, 256]));
            Call::Make { task, kind, extension, length, prefix }
        }
        9..=11 => Call::Refresh { task, kind, extension, handle },
        12..=15 => Call::Read { task, handle },
        16 | 17 => Call::Release { task, handle },
        24 => Call::View { task },
        18 | 19 => {
            let count = random.pick(&[0, 1, 2, 3, 32, 33]);
            let handles: Vec<_> = (0..count).map(|_| random.below(given + 2) as u32).collect();
            Call::Batch { task, kind, extension, handles: kept(&handles) }
        }
        _ => {
            let count = random.below(10);
            Call::Write { task, handle, offset: random.below(34) as u8, bytes: some_bytes(random, count) }
        }
    }
}

/// Open, or with some of the blocks.
fn random_share(random: &mut Random, limits: Limits) -> Share {
    if random.one_in(2) {
        return Share::OPEN;
    }
    let [small, large] = [limits.small_blocks, limits.large_blocks].map(|blocks| random_quota(random, blocks as u8));
    Share { small, large }
}

fn random_quota(random: &mut Random, blocks: u8) -> Quota {
    let reserve = random.pick(&[0, 0, 0, 1, 2, blocks / 2, blocks, blocks + 1]);
    let limit = random.pick(&[255, 255, 255, reserve, reserve + 1, 3, 0]);
    Quota { reserve, limit }
}

fn random_list(limits: Limits, seed: u64) -> List {
    let mut random = Random::new(seed);
    let (length, haste) = (random.below(300), random.below(30));
    let mut heap = Heap::of(limits);
    let mut given = 0;
    let mut list = vec![join(0), Call::Join { task: 1, share: random_share(&mut random, limits) }];
    for _ in 0..length {
        let call = random_call(&mut random, limits, given, haste);
        given += usize::from(matches!(heap.call(&call), Ok(Accepted::Handle(_))));
        list.push(call);
    }
    list
}

#[test]
fn lists_of_chance() {
    check_chance(|_| Limits::STANDARD);
}

#[test]
fn lists_of_chance_with_chosen_figures() {
    check_chance(limits);
}

/// The refusals are 1 to 28, and these the pool's alone.
const NUMBERS: usize = 29;
const OUT: [usize; 5] = [9, 10, 12, 25, 26];

fn check_chance(limits: fn(u64) -> Limits) {
    let (mut stayed, mut latest, mut refused) = (0, 0, [0; NUMBERS]);
    for seed in 0..6_000 {
        let (limits, list) = (limits(seed), random_list(limits(seed), seed));
        match check_in(limits, &list) {
            None => stayed += 1,
            Some(out) => {
                latest = latest.max(out);
                refused[number_of(limits, &list[..=out])] += 1;
            }
        }
    }
    println!("{stayed} stay in; out by number {:?}", OUT.map(|number| (number, refused[number])));
    assert!(stayed > 200 && stayed < 5_800 && latest > 100, "{stayed}, {latest}");
    assert!(refused[9].min(refused[12]).min(refused[25]).min(refused[26]) > 100, "{refused:?}");
}

/// A script that keeps all use in does so by its figures.
#[test]
fn generated_scripts_with_chosen_figures() {
    let mut outs = Vec::new();
    for seed in 0..200 {
        let (limits, script) = (limits(seed), sized_script(limits(seed), seed));
        let mut room = vec![0; script.len() / 2];
        outs.push(check_in(limits, &calls(&script, &mut room)));
    }
    let stayed = outs.iter().filter(|out| out.is_none()).count();
    println!("{stayed} of {} stay in time and in bounds", outs.len());
    assert!(stayed > 50 && stayed < 150, "{stayed}");
}

// Lists that are planned.

#[test]
fn lists_that_stay_in_time() {
    for (limits, seed) in pools(0..1_500) {
        let mut plan = Plan::new(limits, seed);
        plan.rounds(40);
        assert_eq!(check_in(limits, &plan.list), None);
    }
}

#[test]
fn lists_that_go_out_once() {
    let mut refused = [0; NUMBERS];
    for (limits, seed) in pools(0..1_500) {
        let mut plan = Plan::new(limits, seed);
        plan.rounds(10);
        let out = plan.go_out();
        plan.rounds(10);
        assert_eq!(check_in(limits, &plan.list), Some(out));
        if limits != Limits::STANDARD {
            refused[number_of(limits, &plan.list[..=out])] += 1;
        }
    }
    println!("with chosen figures: {:?}", OUT.map(|number| (number, refused[number])));
    assert!(OUT.iter().all(|&number| refused[number] > 100), "{refused:?}");
}

/// The number of the refusal that the list ends with.
fn number_of(limits: Limits, list: &[Call]) -> usize {
    let mut ledger = Ledger::of(limits);
    list.iter().map(|call| ledger.call(call).err().map_or(0, |refusal| refusal as usize)).last().unwrap_or(0)
}

/// A list that uses each figure up is in bounds, and with one less of a figure it goes out where it needs the last.
#[test]
fn the_last_of_each_figure() {
    let (task, kind) = (0, Kind::Local);
    let make = |extension, length| Call::Make { task, kind, extension, length, prefix: 0 };
    let refresh = Call::Refresh { task, kind, extension: 0, handle: 1 };
    let (small, large) = (make(2, 32), make(2, 33));
    let list = [join(task), small, small, large, large, large, refresh];
    let limits = Limits { small_blocks: 2, large_blocks: 3, expirations: 6, extension: 2 };
    assert_eq!(check_in(limits, &list), None);
    assert_eq!(check_in(Limits { small_blocks: 1, ..limits }, &list), Some(2));
    assert_eq!(check_in(Limits { large_blocks: 2, ..limits }, &list), Some(5));
    assert_eq!(check_in(Limits { expirations: 5, ..limits }, &list), Some(6));
    // The heap refuses with 6 too, so that such a call is left aside: then no object was made.
    assert_eq!(check_in(Limits { extension: 1, ..limits }, &list), None);
}

#[test]
fn the_ledger_and_the_book_keep_the_same() {
    for (limits, seed) in pools(0..150) {
        let mut plan = Plan::new(limits, seed);
        plan.rounds(12);
        keep_the_same(limits, &plan.list);
        keep_the_same(limits, &random_list(limits, seed));
    }
}

fn keep_the_same(limits: Limits, list: &[Call]) {
    let (mut ledger, mut judge) = (Ledger::of(limits), Judge::of(limits));
    for call in list {
        if !judge.is_in_time(call) {
            return;
        }
        let _ = ledger.call(call);
        assert_eq!(ledger.standing(), judge.standing(), "{call:?}");
        assert_eq!(ledger.tasks(), judge.tasks());
    }
}

// The heap by itself.

#[test]
fn the_heap_keeps_for_ever() {
    let mut heap = Heap::fresh();
    let (task, handle) = (0, 1);
    let make = Call::Make { task, kind: Kind::Local, extension: 0, length: 3, prefix: 0 };
    assert_eq!(heap.call(&make), Err(Refusal::TaskAbsent));
    assert_eq!(heap.call(&join(task)), Ok(Accepted::Done));
    for count in 1..=300 {
        assert_eq!(heap.call(&make), Ok(Accepted::Handle(count)));
    }
    assert_eq!(heap.call(&Call::Write { task, handle, offset: 1, bytes: &[7] }), Ok(Accepted::Done));
    assert_eq!(heap.call(&Call::Write { task, handle, offset: 3, bytes: &[7] }), Err(Refusal::RangeAboveLength));
    assert_eq!(heap.call(&Call::Tick { task }), Ok(Accepted::Advanced(true)));
    assert_eq!(heap.call(&Call::Read { task, handle }), Ok(Accepted::Bytes(&[0, 7, 0])));
    assert_eq!(heap.call(&Call::Read { task, handle: 2 }), Ok(Accepted::Bytes(&[0; 3])));
    assert_eq!(heap.call(&Call::Read { task, handle: 301 }), Err(Refusal::HandleNotGiven));
    let batch = |handles| Call::Batch { task, kind: Kind::Local, extension: 30, handles };
    assert_eq!(heap.call(&batch(kept(&[1, 300, 1]))), Ok(Accepted::Done));
    assert_eq!(heap.call(&batch(kept(&[1, 301]))), Err(Refusal::HandleNotGiven));
    assert_eq!(heap.call(&batch(kept(&[1; 33]))), Err(Refusal::BatchOutOfRange));
    let release = Call::Release { task, handle: 301 };
    assert_eq!(heap.call(&release), Err(Refusal::HandleNotGiven));
    let pinned = Call::Make { task, kind: Kind::Pinned, extension: 0, length: 3, prefix: 0 };
    assert_eq!(heap.call(&pinned), Ok(Accepted::Handle(301)));
    assert_eq!(heap.call(&release), Ok(Accepted::Done));
    assert_eq!(heap.call(&Call::Read { task, handle: 301 }), Ok(Accepted::Bytes(&[0; 3])));
    assert_eq!(heap.call(&release), Err(Refusal::NotPinned));
    assert_eq!(heap.call(&Call::Release { task, handle: 1 }), Err(Refusal::NotPinned));
}

/// Reports and the remaining life: they are no use.
#[test]
fn what_is_not_compared_may_ask_for_a_gone_object() {
    let (task, handle) = (0, 1);
    let make = Call::Make { task, kind: Kind::Local, extension: 0, length: 4, prefix: 0 };
    let (ask, read) = (Call::Remaining { task, handle }, Call::Read { task, handle });
    let list = [join(task), ask, make, ask, Call::Tick { task }, ask, Call::Report, read];
    assert_eq!(check(&list), Some(list.len() - 1));
}

/// All its objects must stand, and with room for an expiration on each. What the heap refuses is left aside, however
/// its objects stand: 20, and 11 of any of them.
#[test]
fn a_batch_is_a_use() {
    let task = 0;
    let make = |extension| Call::Make { task, kind: Kind::Local, extension, length: 4, prefix: 0 };
    let batch = |handles: &[u32]| Call::Batch { task, kind: Kind::Local, extension: 30, handles: kept(handles) };
    // Object 1 is gone, object 2 stands.
    let list = |last: Call<'static>| [join(task), make(0), Call::Tick { task }, make(30), last];
    for in_time in [&[2][..], &[2, 2], &[2; 32], &[], &[1; 33], &[1, 3], &[3, 1], &[0], &[2, 1, 0]] {
        assert_eq!(check(&list(batch(in_time))), None, "{in_time:?}");
    }
    for out in [&[1][..], &[1; 32], &[2, 1], &[1, 2]] {
        assert_eq!(check(&list(batch(out))), Some(4), "{out:?}");
    }
    // 225 stand, and then 256.
    let mut full = list(batch(&[2; 32])).to_vec();
    full.extend([batch(&[2; 32]); 6]);
    assert_eq!(check(&[&full[..], &[batch(&[2; 31])]].concat()), None);
    assert_eq!(check(&[&full[..], &[batch(&[2; 32])]].concat()), Some(11));
    assert_eq!(check(&[&full[..], &[batch(&[2; 31]), batch(&[2])]].concat()), Some(12));
    assert_eq!(check(&[&full[..], &[batch(&[2; 31]), batch(&[2; 33]), batch(&[2, 3])]].concat()), None);
}

/// What a task has set by global time stands while it waits, by the book as by the ledger, but not once it has left.
#[test]
fn a_setter_that_waits_comes_back_in_time() {
    let (task, handle) = (0, 1);
    let make = Call::Make { task, kind: Kind::Global, extension: 0, length: 4, prefix: 0 };
    let (join, other) = (join(task), join(1));
    let (block, resume, leave) = (Call::Block { task }, Call::Resume { task }, Call::Leave { task });
    let (tick, read) = (Call::Tick { task: 1 }, Call::Read { task, handle });
    let list = |then: &[Call<'static>]| [&[join, other, make][..], then].concat();
    assert_eq!(check(&list(&[block, tick, tick, tick, resume, read])), None);
    assert_eq!(check(&list(&[tick, block, tick, tick, resume, read])), None);
    assert_eq!(check(&list(&[block, tick, leave, tick, join, read])), None);
    assert_eq!(check(&list(&[block, tick, leave, tick, tick, join, read])), Some(9));
    assert_eq!(check(&list(&[leave, join, block, tick, tick, resume, read])), Some(9));
}

/// Its object must stand, also where the heap refuses it with 22. A release that it refuses otherwise is left aside, and so
/// is what would pin and does not.
#[test]
fn a_release_is_a_use() {
    let (task, handle) = (0, 1);
    let make = |kind| Call::Make { task, kind, extension: 0, length: 4, prefix: 0 };
    let (join, tick, release) = (join(task), Call::Tick { task }, Call::Release { task, handle });
    let refresh = |kind| Call::Refresh { task, kind, extension: 0, handle };
    let list = |kind, then: &[Call<'static>]| [&[join, make(kind)][..], then].concat();
    assert_eq!(check(&list(Kind::Pinned, &[tick, tick, tick, release])), None);
    assert_eq!(check(&list(Kind::Pinned, &[release, release])), Some(3));
    assert_eq!(check(&list(Kind::Pinned, &[refresh(Kind::Local), release, release, release])), None);
    assert_eq!(check(&list(Kind::Pinned, &[refresh(Kind::Local), release, tick, release])), Some(5));
    assert_eq!(check(&list(Kind::Local, &[release, release])), None);
    assert_eq!(check(&list(Kind::Local, &[release, tick, release])), Some(4));
    assert_eq!(check(&list(Kind::Local, &[tick, refresh(Kind::Pinned)])), None);
    let never = Call::Release { task, handle: 2 };
    assert_eq!(check(&list(Kind::Local, &[tick, never, Call::Release { task: 1, handle }])), None);
}

#[test]
fn a_refused_range_of_a_gone_object_is_a_use_out_of_time() {
    let (task, handle) = (0, 1);
    let make = Call::Make { task, kind: Kind::Local, extension: 0, length: 4, prefix: 0 };
    let write = Call::Write { task, handle, offset: 4, bytes: &[1] };
    assert_eq!(check(&[join(task), make, write]), None);
    assert_eq!(check(&[join(task), make, Call::Tick { task }, write]), Some(3));
}

fn quota(reserve: u8, limit: u8) -> Quota {
    Quota { reserve, limit }
}

/// 24 is the heap's too and left aside. 25, 26 and 9 are the pool's alone: out of bounds, by the objects that stand.
#[test]
fn shares_are_bounds() {
    let limits = Limits { small_blocks: 2, large_blocks: 1, ..Limits::STANDARD };
    let small = |task, reserve, limit| {
        let share = Share { small: quota(reserve, limit), ..Share::OPEN };
        Call::Join { task, share }
    };
    let large = |task, reserve, limit| {
        let share = Share { large: quota(reserve, limit), ..Share::OPEN };
        Call::Join { task, share }
    };
    let make = |task| Call::Make { task, kind: Kind::Local, extension: 0, length: 4, prefix: 0 };
    let make_large = |task| Call::Make { task, kind: Kind::Local, extension: 0, length: 33, prefix: 0 };
    let tick = |task| Call::Tick { task };
    let leave = |task| Call::Leave { task };
    let both = |task| Call::Join { task, share: Share { small: quota(3, 255), large: quota(2, 1) } };
    let rows: &[(&[Call], Option<usize>)] = &[
        (&[small(0, 2, 1), large(0, 1, 0), both(0), small(16, 3, 3), join(0), small(0, 3, 3)], None),
        (&[small(0, 2, 2), make(0), make(0)], None),
        (&[small(0, 3, 3)], Some(0)),
        (&[large(0, 2, 2)], Some(0)),
        (&[small(0, 1, 1), small(1, 2, 2)], Some(1)),
        (&[small(0, 1, 1), Call::Block { task: 0 }, small(1, 2, 2)], Some(2)),
        (&[small(0, 1, 1), leave(0), small(1, 2, 2)], None),
        (&[small(0, 0, 1), make(0), make(0)], Some(2)),
        (&[small(0, 0, 1), make(0), tick(0), make(0)], None),
        (&[small(0, 0, 1), make(0), make_large(0)], None),
        (&[small(0, 0, 0), make(0)], Some(1)),
        (&[join(0), small(1, 2, 2), make(0)], Some(2)),
        (&[join(0), small(1, 1, 1), make(0), make(1)], None),
        (&[join(0), small(1, 1, 1), make(0), make(0)], Some(3)),
        (&[join(0), large(1, 1, 1), make(0), make(0), make_large(1)], None),
        (&[join(0), large(1, 1, 1), make_large(0)], Some(2)),
    ];
    for (list, out) in rows {
        assert_eq!(check_in(limits, list), *out, "{list:?}");
    }
}

/// What a leaver made is nobody's, on the heap all of it, so that another of its number begins with none.
#[test]
fn a_leaver_is_no_maker() {
    let limits = Limits { small_blocks: 2, ..Limits::STANDARD };
    let share = Share { small: quota(1, 1), large: Quota::NONE };
    let (task, pinned) = (0, Call::Make { task: 0, kind: Kind::Pinned, extension: 0, length: 4, prefix: 0 });
    let (join, leave) = (Call::Join { task, share }, Call::Leave { task });
    let short = Call::Make { task, kind: Kind::Local, extension: 0, length: 4, prefix: 0 };
    assert_eq!(check_in(limits, &[join, pinned, leave, join, pinned]), None);
    assert_eq!(check_in(limits, &[join, pinned, leave, join, pinned, leave, join]), Some(6));
    assert_eq!(check_in(limits, &[join, short, leave, join, short, leave, join, short]), None);
    let mut heap = Heap::of(limits);
    for call in [join, short, Call::Tick { task }, pinned] {
        assert!(heap.call(&call).is_ok(), "{call:?}");
    }
    assert_eq!([1, 2].map(|handle| heap.maker(handle)), [Some(Maker::Task(0)); 2]);
    assert!(heap.call(&leave).is_ok() && heap.call(&join).is_ok());
    assert_eq!([1, 2, 3].map(|handle| heap.maker(handle)), [Some(Maker::Departed), Some(Maker::Departed), None]);
}

/// The heap holds nothing back and has no limits.
#[test]
fn the_heap_has_no_bounds_of_shares() {
    let mut heap = Heap::of(Limits::SMALLEST);
    for task in 0..16 {
        let share = Share { small: quota(255, 255), large: quota(3, 4) };
        assert_eq!(heap.call(&Call::Join { task, share }), Ok(Accepted::Done));
    }
    let above = Share { small: Quota::OPEN, large: quota(4, 3) };
    assert_eq!(heap.call(&Call::Join { task: 0, share: above }), Err(Refusal::TaskNotAbsent));
    assert_eq!(heap.call(&Call::Leave { task: 0 }), Ok(Accepted::Advanced(false)));
    assert_eq!(heap.call(&Call::Join { task: 0, share: above }), Err(Refusal::ReserveAboveLimit));
    assert_eq!(heap.call(&Call::Join { task: 0, share: Share::NONE }), Ok(Accepted::Done));
    let make = Call::Make { task: 0, kind: Kind::Local, extension: 0, length: 4, prefix: 0 };
    for count in 1..=300 {
        assert_eq!(heap.call(&make), Ok(Accepted::Handle(count)));
    }
}

/// Order 10: a viewer's read is a use, and what it may not do is left aside, whatever it names; 28 is left aside too. No list
/// waits for a viewer.
#[test]
fn a_viewers_read_is_a_use() {
    let (task, viewer, handle, kind) = (0, 1, 1, Kind::Local);
    let make = |task, prefix| Call::Make { task, kind, extension: 0, length: 4, prefix };
    let (view, tick, read) = (Call::View { task: viewer }, Call::Tick { task }, Call::Read { task: viewer, handle });
    let list = |then: &[Call<'static>]| [&[join(task), view, make(task, 2)][..], then].concat();
    assert_eq!(check(&list(&[read, view, make(task, 5)])), None);
    assert_eq!(check(&list(&[tick, make(task, 5), Call::Resume { task: viewer }, read])), Some(6));
    for in_vain in [
        make(viewer, 0),
        Call::Refresh { task: viewer, kind, extension: 0, handle },
        Call::Batch { task: viewer, kind, extension: 0, handles: kept(&[handle]) },
        Call::Write { task: viewer, handle, offset: 4, bytes: &[1] },
        Call::Release { task: viewer, handle },
    ] {
        assert_eq!(check(&list(&[tick, in_vain])), None, "{in_vain:?}");
    }
    assert_eq!(check(&list(&[tick, Call::Read { task: viewer, handle: 2 }])), None);
}

/// The heap shows a viewer the prefix for ever, and a task all.
#[test]
fn the_heap_keeps_prefixes() {
    let mut heap = Heap::fresh();
    heap.join(0, Share::OPEN).unwrap();
    heap.view(1).unwrap();
    heap.make(0, Kind::Local, 0, 4, 3).unwrap();
    heap.write(0, 1, 0, &[1, 2, 3, 4]).unwrap();
    for _ in 0..2 {
        assert_eq!(heap.read(1, 1), Ok(Accepted::Bytes(&[1, 2, 3])));
        assert_eq!(heap.read(0, 1), Ok(Accepted::Bytes(&[1, 2, 3, 4])));
        assert_eq!(heap.tick(0), Ok(Accepted::Advanced(true)));
    }
    assert_eq!(heap.make(0, Kind::Local, 0, 4, 5), Err(Refusal::PrefixTooLong));
}
