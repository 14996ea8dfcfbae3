//! Pools of a site's own figures, by the library: 29 and what it leaves, as many blocks and expirations as were chosen and
//! no more, and the largest extension.

use host_tests::entries::{Entries, Plain};
use host_tests::host::Host;
use host_tests::library::Library;
use host_tests::memory::{bytes, bytes_mut, Memory};
use host_tests::reading::figures;
use host_tests::sites::{self, with, Figure, CABLE, FIGURES};
use plain::calls::ANSWER_ROOM;
use plain::limits::{Limits, LARGEST_BATCH};
use plain::record::{fresh, Pool};
use reference::call::{packed, Accepted, Call, Figures, Handles, Kind, Lifetime};
use reference::generate;
use reference::random::Random;
use reference::share::Share;

const NO_FREE_BLOCK: u8 = 9;
const NO_FREE_EXPIRATION: u8 = 10;
const NOT_WELL_FORMED: u8 = 15;
const LIMITS_OUT_OF_RANGE: u8 = 29;

/// Figures to begin from: the smallest, a small site's, 01's.
const SITES: [Limits; 3] = [Limits::SMALLEST, CABLE, Limits::STANDARD];

/// What `fresh_sized` answers, and what it leaves of a record of any bytes: that of the plain pool, and of the rules.
fn made(limits: Limits) -> (u8, Pool) {
    let mut pool = fresh(Limits::STANDARD);
    bytes_mut(&mut pool).fill(0xA5);
    let mut plain = pool.clone();
    let number = Library::fresh_sized(&mut pool, limits);
    assert_eq!(Plain::fresh_sized(&mut plain, limits), number, "{limits:?}");
    assert_eq!(bytes(&pool), bytes(&plain), "{limits:?}");
    assert_eq!(pool, fresh(limits));
    (number, pool)
}

/// A pool of these figures, in which task 0 runs.
fn site(limits: Limits) -> Host<Library> {
    let mut memory = Memory::sized(limits, &mut Random::new(4));
    assert_eq!(Library::fresh_sized(&mut memory.pool, limits), 0, "{limits:?}");
    let mut host = Host::new(memory);
    assert_eq!(host.told(&Call::Join { task: 0, share: Share::OPEN }), 0);
    host
}

fn make(kind: Kind, extension: u8, length: u16) -> Call<'static> {
    Call::Make { task: 0, kind, extension, length, prefix: 0 }
}

fn refresh(extension: u8, handle: u32) -> Call<'static> {
    Call::Refresh { task: 0, kind: Kind::Local, extension, handle }
}

/// Each figure with all values of its range, beside the others of each site: zeros but for the figures.
#[test]
fn every_figure_in_its_range() {
    for (figure, least, most) in FIGURES {
        for (limits, value) in SITES.into_iter().flat_map(|limits| (least..=most).map(move |value| (limits, value))) {
            let limits = with(limits, figure, value);
            let (number, mut pool) = made(limits);
            assert_eq!((number, pool.limits), (0, limits));
            assert_eq!(Library::awaited(&mut pool, &mut 0), 0, "{limits:?}");
        }
    }
}

/// Each figure past either end, by one and by more, some alike in their last bytes to one that is allowed.
#[test]
fn a_figure_out_of_its_range_is_29_and_then_every_call_15() {
    for (figure, least, most) in FIGURES {
        let far = [u32::MAX, u32::MAX - 1, 1 << 31, 1 << 16, (1 << 16) + most, (1 << 8) + most, (1 << 24) + most];
        for value in [least.wrapping_sub(1), most + 1, most + 2].into_iter().chain(far) {
            for limits in SITES.map(|limits| with(limits, figure, value)) {
                let (number, pool) = made(limits);
                assert_eq!(number, LIMITS_OUT_OF_RANGE, "{limits:?}");
                every_call_is_15(pool);
            }
        }
    }
}

/// By its entry and as a frame, with stores of 01's lengths. The host tests that nothing is changed.
fn every_call_is_15(pool: Pool) {
    let stores = Memory::fresh(&mut Random::new(5));
    let mut host = Host::<Library>::new(Memory { pool, ..stores });
    let handles = packed(&[1]);
    let calls = [
        Call::Join { task: 0, share: Share::OPEN },
        Call::Leave { task: 0 },
        Call::Block { task: 0 },
        Call::Resume { task: 0 },
        Call::Tick { task: 0 },
        make(Kind::Local, 0, 4),
        refresh(0, 1),
        Call::Read { task: 0, handle: 1 },
        Call::Write { task: 0, handle: 1, offset: 0, bytes: &[1] },
        Call::Report,
        Call::Remaining { task: 0, handle: 1 },
        Call::Batch { task: 0, kind: Kind::Local, extension: 0, handles: Handles(&handles) },
        Call::Release { task: 0, handle: 1 },
    ];
    let before = host.memory.clone();
    for call in calls {
        assert_eq!(host.call(&call), Err(NOT_WELL_FORMED), "{:?}", before.pool.limits);
        let (mut line, mut out, mut count) = (Vec::new(), [0; ANSWER_ROOM], 0);
        reference::frame::encode(&call, &mut line);
        line.pop();
        let Memory { pool, small, large } = &mut host.memory;
        assert_eq!(Library::frame(pool, small, large, &line, &mut out, &mut count), NOT_WELL_FORMED);
        assert_eq!(&out[..count], b"0F\n");
    }
    assert_eq!(Library::awaited(&mut host.memory.pool, &mut 0), NOT_WELL_FORMED);
    assert!(host.memory == before);
}

/// Several figures at once, of chance, near the ends and far from them.
#[test]
fn figures_of_chance() {
    let mut random = Random::new(9);
    let (mut allowed, mut refused) = (0, 0);
    for seed in 0..20_000 {
        let mut limits = sites::of(generate::limits(seed));
        for (figure, least, most) in FIGURES {
            let any = random.number() as u32;
            let value = random.pick(&[least, least.wrapping_sub(1), most, most + 1, 2 * most, any]);
            if random.one_in(4) {
                limits = with(limits, figure, value);
            }
        }
        let within = |(figure, least, most): (Figure, u32, u32)| (least..=most).contains(figure(&mut limits.clone()));
        let is_allowed = FIGURES.into_iter().all(within);
        assert_eq!(made(limits).0, if is_allowed { 0 } else { LIMITS_OUT_OF_RANGE }, "{limits:?}");
        if is_allowed {
            allowed += 1;
        } else {
            refused += 1;
        }
    }
    assert!(allowed > 5_000 && refused > 5_000, "{allowed}, {refused}");
}

/// `fresh` is of 01's figures, whatever those were that stood there.
#[test]
fn fresh_is_of_the_standard_figures() {
    for limits in [Limits::SMALLEST, CABLE, Limits { small_blocks: 0, ..CABLE }] {
        let mut pool = fresh(limits);
        assert_eq!(Library::fresh(&mut pool), 0);
        assert_eq!(pool, fresh(Limits::STANDARD));
        bytes_mut(&mut pool).fill(0xFF);
        assert_eq!(Library::fresh(&mut pool), 0);
        assert_eq!(pool, fresh(Limits::STANDARD));
    }
}

/// Of each count of blocks, in either store: so many objects stand, the next is 9, and the other store takes no part in it.
/// When they go, as many have room again.
#[test]
fn as_many_blocks_as_were_chosen() {
    let [(small, ..), (large, ..), ..] = FIGURES;
    for (figure, most, length, other) in [(small, 64, 32, 33), (large, 32, 256, 32)] {
        for blocks in 1..=most {
            let mut host = site(with(Limits { expirations: 256, ..CABLE }, figure, blocks));
            for round in 0..2 {
                for _ in 0..blocks {
                    assert_eq!(host.told(&make(Kind::Local, 0, length)), 0, "{blocks}, {round}");
                }
                assert_eq!(host.told(&make(Kind::Local, 0, length)), NO_FREE_BLOCK, "{blocks}, {round}");
                assert_eq!(host.told(&make(Kind::Local, 0, other)), 0, "{blocks}, {round}");
                assert_eq!(host.told(&Call::Tick { task: 0 }), 0);
            }
            let none = Figures { small: 0, large: 0, expirations: 0, given: 2 * (blocks + 1) };
            assert_eq!(host.call(&Call::Report), Ok(Accepted::Report(none)));
        }
    }
}

/// Of each count of expirations: refreshes fill it, the next refresh and make are 10, and when one ends there is room for one.
#[test]
fn as_many_expirations_as_were_chosen() {
    for expirations in 1..=256 {
        let mut host = site(Limits { expirations, ..CABLE });
        assert_eq!(host.told(&make(Kind::Pinned, 0, 4)), 0);
        for count in 1..expirations {
            assert_eq!(host.told(&refresh(u8::from(count > 1), 1)), 0, "{count} of {expirations}");
        }
        assert_eq!(host.told(&refresh(0, 1)), NO_FREE_EXPIRATION, "{expirations}");
        assert_eq!(host.told(&make(Kind::Pinned, 0, 4)), NO_FREE_EXPIRATION, "{expirations}");
        assert_eq!(host.told(&Call::Tick { task: 0 }), 0);
        let room = if expirations > 1 { 0 } else { NO_FREE_EXPIRATION };
        assert_eq!(host.told(&refresh(0, 1)), room, "{expirations}");
        assert_eq!(host.told(&refresh(0, 1)), NO_FREE_EXPIRATION, "{expirations}");
        assert_eq!(u32::from(figures(&host.memory.pool).expirations), expirations);
    }
}

/// Batches of each size on pools with so much room and less.
#[test]
fn a_batch_that_fits_by_the_figure() {
    for expirations in (1..=40u32).chain([63, 64, 65, 255, 256]) {
        for standing in [1, 2, expirations / 2, expirations].map(|standing| standing.clamp(1, expirations)) {
            let mut whole = site(Limits { expirations, ..CABLE });
            assert_eq!(whole.told(&make(Kind::Local, 9, 4)), 0);
            for _ in 1..standing {
                assert_eq!(whole.told(&refresh(9, 1)), 0);
            }
            for count in 1..=LARGEST_BATCH {
                let (mut host, handles) = (Host::<Library>::new(whole.memory.clone()), packed(&vec![1; count]));
                let batch = Call::Batch { task: 0, kind: Kind::Global, extension: 10, handles: Handles(&handles) };
                let fits = standing + count as u32 <= expirations;
                assert_eq!(host.told(&batch), if fits { 0 } else { NO_FREE_EXPIRATION }, "{count}, {expirations}");
            }
        }
    }
}

/// Of each largest extension: it is accepted and what is longer is 6, by make, refresh and batch. What is set with it has one
/// unit more left by local time and two more by global time; what is pinned has an extension of 0 at any figure.
#[test]
fn the_largest_extension() {
    for extension in 0..=30 {
        let longest = u32::from(extension);
        let mut host = site(Limits { extension: longest, ..CABLE });
        let handles = packed(&[1]);
        let batch = |extension| Call::Batch { task: 0, kind: Kind::Global, extension, handles: Handles(&handles) };
        assert_eq!(host.told(&make(Kind::Local, extension, 4)), 0, "{extension}");
        assert_eq!(host.told(&batch(extension)), 0, "{extension}");
        let left = Lifetime { local: extension + 1, global: extension + 2 };
        assert_eq!(host.call(&Call::Remaining { task: 0, handle: 1 }), Ok(Accepted::Remaining(left)));
        assert_eq!(host.told(&refresh(extension, 1)), 0, "{extension}");
        assert_eq!(host.told(&make(Kind::Pinned, 0, 4)), 0, "{extension}");
        for longer in extension + 1..=255 {
            assert_eq!(host.told(&make(Kind::Local, longer, 4)), 6, "{longer} above {extension}");
            assert_eq!(host.told(&make(Kind::Global, longer, 256)), 6, "{longer} above {extension}");
            assert_eq!(host.told(&make(Kind::Pinned, longer, 4)), 6, "{longer} above {extension}");
            assert_eq!(host.told(&refresh(longer, 1)), 6, "{longer} above {extension}");
            assert_eq!(host.told(&batch(longer)), 6, "{longer} above {extension}");
        }
        for _ in 0..extension + 1 {
            assert_eq!(host.told(&Call::Remaining { task: 0, handle: 1 }), 0, "{extension}");
            assert_eq!(host.told(&Call::Tick { task: 0 }), 0);
        }
        let last = Lifetime { local: 0, global: 1 };
        assert_eq!(host.call(&Call::Remaining { task: 0, handle: 1 }), Ok(Accepted::Remaining(last)), "{extension}");
        assert_eq!(host.told(&Call::Tick { task: 0 }), 0);
        assert_eq!(host.told(&Call::Remaining { task: 0, handle: 1 }), 12, "{extension}");
    }
}

/// One block of each store, one expiration and no extension: one object at a time.
#[test]
fn the_smallest_pool() {
    let mut host = site(Limits::SMALLEST);
    for (handle, length, byte) in [(1, 32, 7), (2, 256, 8), (3, 1, 9)] {
        assert_eq!(host.call(&make(Kind::Local, 0, length)), Ok(Accepted::Handle(handle)));
        assert_eq!(host.told(&refresh(0, handle)), NO_FREE_EXPIRATION);
        let same_store = make(Kind::Pinned, 0, length);
        assert_eq!(host.told(&same_store), NO_FREE_BLOCK);
        let other_store = make(Kind::Pinned, 0, if length > 32 { 32 } else { 33 });
        assert_eq!(host.told(&other_store), NO_FREE_EXPIRATION);
        let bytes = vec![byte; usize::from(length)];
        assert_eq!(host.told(&Call::Write { task: 0, handle, offset: 0, bytes: &bytes }), 0);
        assert_eq!(host.call(&Call::Read { task: 0, handle }), Ok(Accepted::Bytes(&bytes)));
        assert_eq!(host.call(&Call::Tick { task: 0 }), Ok(Accepted::Advanced(true)));
        assert_eq!(host.told(&Call::Read { task: 0, handle }), 12);
    }
    let none = Figures { small: 0, large: 0, expirations: 0, given: 3 };
    assert_eq!(host.call(&Call::Report), Ok(Accepted::Report(none)));
}
