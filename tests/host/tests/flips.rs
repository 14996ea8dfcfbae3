//! What refusal 15 notices of a flipped bit, and what it cannot: every flip of one bit of full records. The table of 01's
//! figures goes to docs/RESTART.md, and the test holds the document to it:
//!
//! ```text
//! cargo test --offline --manifest-path tests/host/Cargo.toml --test flips -- --nocapture
//! ```

use host_tests::entries::Entries;
use host_tests::host::Host;
use host_tests::library::Library;
use host_tests::memory::{bytes_mut, Memory};
use host_tests::reading::{figures, of_record};
use host_tests::sites::CABLE;
use plain::limits::{Limits, LARGE_SIZE, SMALL_BLOCKS, TASKS};
use plain::record::{Pool, RECORD};
use reference::call::{Call, Kind};
use reference::random::Random;
use reference::share::{Quota, Share};
use std::mem::offset_of;
use std::ops::RangeInclusive;
use std::path::Path;

const RECORDS: u64 = 200;
const NO_FREE_BLOCK: u8 = 9;
const NO_FREE_EXPIRATION: u8 = 10;
const AT_LIMIT: u8 = 26;
const NOT_WELL_FORMED: u8 = 15;
const SUM_DIFFERS: u8 = 23;

/// So many tasks join, and the last one views.
const RUN: usize = TASKS - 1;

// Full records that calls lead to.

fn kind(random: &mut Random) -> Kind {
    random.pick(&[Kind::Local, Kind::Global])
}

fn extension(random: &mut Random, pool: &Pool) -> u8 {
    random.below(1 + pool.limits.extension as usize) as u8
}

/// One in twenty is pinned.
fn make(random: &mut Random, pool: &Pool, length: u16) -> Call<'static> {
    let (task, pinned) = (random.below(RUN) as u8, random.one_in(20));
    let (kind, extension) = if pinned { (Kind::Pinned, 0) } else { (kind(random), extension(random, pool)) };
    let prefix = random.below(usize::from(length) + 1) as u16;
    Call::Make { task, kind, extension, length, prefix }
}

fn refresh(random: &mut Random, pool: &Pool) -> Call<'static> {
    let handle = random.pick(&pool.handles);
    let (task, kind) = (random.below(RUN) as u8, kind(random));
    Call::Refresh { task, kind, extension: extension(random, pool), handle }
}

/// Any call that changes the record, but for leaves.
fn any(random: &mut Random, pool: &Pool) -> Call<'static> {
    let task = random.below(RUN) as u8;
    match random.below(17) {
        0..=5 => Call::Tick { task },
        6 => Call::Block { task },
        7..=8 => Call::Resume { task },
        9..=10 => refresh(random, pool),
        11 => Call::Release { task, handle: random.pick(&pool.handles) },
        _ => {
            let longest = random.pick(&[32, 256]);
            let length = 1 + random.below(longest) as u16;
            make(random, pool, length)
        }
    }
}

/// All tasks together may have both stores full of objects.
fn share(random: &mut Random) -> Share {
    let mut quota = |most: usize, least: usize| Quota {
        reserve: random.below(most) as u8,
        limit: (least + random.below(4 * least)) as u8,
    };
    Share { small: quota(4, 8), large: quota(2, 4) }
}

/// Both stores are full and as many expirations stand as can, after a life of some thousand calls.
fn full(limits: Limits, seed: u64) -> Memory {
    let mut random = Random::new(seed);
    let mut host = Host::<Library>::new(Memory::sized(limits, &mut random));
    assert!(host.call(&Call::View { task: RUN as u8 }).is_ok());
    for task in 0..RUN as u8 {
        let asked = Call::Join { task, share: share(&mut random) };
        if host.call(&asked).is_err() {
            host.call(&Call::Join { task, share: Share::OPEN }).unwrap();
        }
    }
    for _ in 0..500 + random.below(4_000) {
        let _ = host.call(&any(&mut random, &host.memory.pool));
    }
    for task in 0..RUN as u8 {
        let _ = host.call(&Call::Resume { task });
    }
    while !is_full(&host.memory) {
        fill(&mut random, &mut host, 1..=32);
        fill(&mut random, &mut host, 33..=256);
    }
    while host.call(&refresh(&mut random, &host.memory.pool)).err() != Some(NO_FREE_EXPIRATION) {}
    assert!(is_full(&host.memory));
    assert_eq!(u32::from(figures(&host.memory.pool).expirations), limits.expirations);
    host.memory
}

fn is_full(memory: &Memory) -> bool {
    memory.places().into_iter().all(|place| memory.pool.handles[place] != 0)
}

/// Makes objects of these lengths until no block for them is free. Where no expiration is free, time goes on.
fn fill(random: &mut Random, host: &mut Host<Library>, lengths: RangeInclusive<u16>) {
    loop {
        let length = lengths.start() + random.below(lengths.len()) as u16;
        match host.call(&make(random, &host.memory.pool, length)) {
            Ok(_) | Err(AT_LIMIT) => {}
            Err(NO_FREE_BLOCK) => return,
            Err(number) => {
                assert_eq!(number, NO_FREE_EXPIRATION);
                (0..RUN as u8).for_each(|task| assert!(host.call(&Call::Tick { task }).is_ok()));
            }
        }
    }
}

// The flips.

const FIELD_COUNT: usize = 13;

/// The fields of a record, and where each starts. An extent has a length, and after it a maker, a spare byte, a prefix and a
/// sum.
const FIELDS: [(&str, usize); FIELD_COUNT] = [
    ("`tasks`", offset_of!(Pool, tasks)),
    ("`global`", offset_of!(Pool, global)),
    ("`given`", offset_of!(Pool, given)),
    ("`limits`", offset_of!(Pool, limits)),
    ("`shares`", offset_of!(Pool, shares)),
    ("`handles`", offset_of!(Pool, handles)),
    ("`extents`, lengths", offset_of!(Pool, extents)),
    ("`extents`, makers", offset_of!(Pool, extents) + 2),
    ("`extents`, prefixes", offset_of!(Pool, extents) + 4),
    ("`extents`, sums", offset_of!(Pool, extents) + 6),
    ("`clocks`", offset_of!(Pool, clocks)),
    ("`named`", offset_of!(Pool, named)),
    ("`dues`", offset_of!(Pool, dues)),
];
const LIMITS: usize = 3;
const LENGTHS: usize = 6;
const MAKERS: usize = 7;
const PREFIXES: usize = 8;
const SUMS: usize = 9;
const NAMED: usize = 11;
const DUES: usize = 12;

/// The bytes of an extent, and the spare one of them.
const EXTENT: usize = size_of::<u64>();
const SPARE: usize = 3;

fn field_of(place: usize) -> usize {
    match FIELDS.iter().rposition(|&(_, start)| start <= place).unwrap() {
        LENGTHS..=SUMS => match place % EXTENT {
            0..=1 => LENGTHS,
            2..=3 => MAKERS,
            4..=5 => PREFIXES,
            _ => SUMS,
        },
        field => field,
    }
}

/// Whether a byte means nothing: it is spare, or of a block, a named block or a due number past the site's figures.
fn is_idle(limits: Limits, place: usize) -> bool {
    let entry = |start: usize, width: usize| (place - start) / width;
    let is_past = |date: usize| date >= limits.expirations as usize;
    let is_past_blocks = |block: usize| match block.checked_sub(SMALL_BLOCKS) {
        None => block >= limits.small_blocks as usize,
        Some(large) => large >= limits.large_blocks as usize,
    };
    match field_of(place) {
        LENGTHS..=SUMS => place % EXTENT == SPARE || is_past_blocks(entry(offset_of!(Pool, extents), EXTENT)),
        NAMED => is_past(entry(offset_of!(Pool, named), 1)),
        DUES => is_past(entry(offset_of!(Pool, dues), 4)),
        _ => false,
    }
}

/// The number that a read of the object in this block answers.
fn read(memory: &mut Memory, block: usize) -> u8 {
    let Memory { pool, small, large } = memory;
    let handle = pool.handles[block];
    Library::read(pool, small, large, 0, handle, &mut [0; LARGE_SIZE], &mut 0)
}

/// Flips there were, and flips that leave a record that is answered.
#[derive(Clone, Copy, Default)]
struct Count {
    flips: usize,
    answered: usize,
}

impl Count {
    fn share(self) -> f64 {
        100.0 * self.answered as f64 / self.flips as f64
    }
}

fn sum(counts: &[Count]) -> Count {
    counts.iter().fold(Count::default(), |sum, count| Count {
        flips: sum.flips + count.flips,
        answered: sum.answered + count.answered,
    })
}

/// All flips of a record, by field, but for those of bytes that mean nothing. One that is answered has another meaning than
/// before: the flip was not in vain. One of a sum is always answered, and makes a read of its object refuse.
fn flip_all(mut memory: Memory) -> [Count; FIELD_COUNT] {
    let mut counts = [Count::default(); FIELD_COUNT];
    let (before, limits) = (of_record(&memory), memory.pool.limits);
    for bit in (0..8 * RECORD).filter(|bit| !is_idle(limits, bit / 8)) {
        let (place, mask) = (bit / 8, 1 << (bit % 8));
        let field = field_of(place);
        let count = &mut counts[field];
        count.flips += 1;
        bytes_mut(&mut memory.pool)[place] ^= mask;
        let (mut small, mut large, mut expirations, mut given) = (0, 0, 0, 0);
        match Library::report(&mut memory.pool, &mut small, &mut large, &mut expirations, &mut given) {
            0 => {
                count.answered += 1;
                assert!(of_record(&memory) != before, "bit {bit}");
            }
            number => assert_eq!(number, NOT_WELL_FORMED),
        }
        if field == SUMS {
            let block = (place - offset_of!(Pool, extents)) / EXTENT;
            assert_eq!(read(&mut memory, block), SUM_DIFFERS, "bit {bit}");
        }
        bytes_mut(&mut memory.pool)[place] ^= mask;
    }
    counts
}

/// Lines of a table in Markdown: a field, its bits, and how many of the flips were answered.
fn table(records: &[[Count; FIELD_COUNT]]) -> String {
    let line =
        |name: &str, count: Count| format!("| {name} | {} | {:.1} % |\n", count.flips / records.len(), count.share());
    let fields = FIELDS.iter().enumerate().map(|(field, (name, _))| {
        let counts: Vec<Count> = records.iter().map(|counts| counts[field]).collect();
        line(name, sum(&counts))
    });
    fields.chain([line("all", sum(records.as_flattened()))]).collect()
}

/// The lowest and the highest share of one record.
fn range(records: &[[Count; FIELD_COUNT]]) -> String {
    let mut shares: Vec<f64> = records.iter().map(|counts| sum(counts).share()).collect();
    shares.sort_by(f64::total_cmp);
    format!("{:.1} to {:.1} %", shares[0], shares[shares.len() - 1])
}

#[test]
fn the_document_says_how_many_flips_are_answered() {
    let records: Vec<_> = (0..RECORDS).map(|seed| flip_all(full(Limits::STANDARD, seed))).collect();
    let (table, range) = (table(&records), range(&records));
    println!("{table}\nof one record: {range}");
    let document = Path::new(env!("CARGO_MANIFEST_DIR")).join("../../docs/RESTART.md");
    let text = std::fs::read_to_string(document).unwrap();
    assert!(text.contains(&table) && text.contains(&range), "docs/RESTART.md has other figures");
}

/// Of a small site: the flips of its figures make it larger or smaller, and those of blocks and expirations that it has not
/// are noticed.
#[test]
fn of_a_small_site() {
    let records: Vec<_> = (0..RECORDS / 10).map(|seed| flip_all(full(CABLE, seed))).collect();
    println!("{}\nof one record: {}", table(&records), range(&records));
    assert!(records.iter().all(|counts| counts[LIMITS].answered > 0));
}
