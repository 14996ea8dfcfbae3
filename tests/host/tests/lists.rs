//! Long lists of calls, on the library, the plain pool and the ledger at once: the same answers and, from time to
//! time, the same state; of sites of all figures after each call. The lists are the reference's scripts; lines that hold no
//! call go to the entry for frames. In some a pool is made anew on the way.

mod census;

use std::mem::{replace, take};

use census::{is_due_across, Census, NUMBERS};
use host_tests::entries::{Entries, Plain};
use host_tests::host::{Host, Told};
use host_tests::library::Library;
use host_tests::memory::{bytes, bytes_mut, Memory};
use host_tests::reading::{of_ledger, of_record, Ahead};
use host_tests::sites;
use plain::limits::{LARGE_SIZE, SMALL_SIZE};
use plain::record::PINNED;
use reference::call::{Call, Handles, Model, Operation};
use reference::frame::{decode, encode_answer};
use reference::generate::{self, script_of, sized_script_of, Profile, PROFILES};
use reference::ledger::Ledger;
use reference::limits::Limits;
use reference::outside::{Change, Changes, Exposed};
use reference::random::Random;
use reference::script::lines;

/// The size of a list as a script, in bytes.
const SIZE: usize = 200_000;

/// How many calls go by from one comparison of the whole state to the next, where it is not each call.
const STATE: usize = 50;

/// How many sites there are, and the size of the list of each.
const SITES: u64 = 200;
const SITE_SIZE: usize = 60_000;

/// How many lists there are in which a pool is made anew, how often in each, and the size of what comes between.
const ANEW: u64 = 100;
const TIMES: usize = 6;
const PART_SIZE: usize = 10_000;

/// One call in so many is lent stores of another length.
const OTHER_STORES: usize = 20;

const WRONG_STORE_LENGTH: u8 = 14;
const NOT_WELL_FORMED: u8 = 15;
const LIMITS_OUT_OF_RANGE: u8 = 29;

/// Everything that makes the same calls.
struct Company {
    ledger: Ledger,
    library: Host<Library>,
    plain: Host<Plain>,
    random: Random,
    /// Joining tasks and global time begin near the end of 32 bits.
    late: bool,
    /// Something outside changes bytes of the stores between the calls.
    changes: Option<Changes>,
    /// How many calls go by from one comparison of the whole state to the next.
    step: usize,
    ahead: Ahead,
    global_before: u32,
    census: Census,
}

impl Company {
    /// With 01's figures.
    fn new(seed: u64, late: bool) -> Company {
        Company::of(Limits::STANDARD, seed, late)
    }

    fn of(limits: Limits, seed: u64, late: bool) -> Company {
        let mut random = Random::new(seed);
        let memory = Memory::sized(sites::of(limits), &mut random);
        let ahead = Ahead { global: first_global(late, &mut random), ..Ahead::default() };
        Company {
            ledger: Ledger::of(limits),
            library: begun(memory.clone(), ahead.global),
            plain: begun(memory, ahead.global),
            random,
            late,
            changes: None,
            step: STATE,
            global_before: ahead.global,
            ahead,
            census: Census::default(),
        }
    }

    fn run(mut self, script: &[u8]) -> Census {
        self.go_on(script);
        self.census
    }

    fn go_on(&mut self, script: &[u8]) {
        let mut room = vec![0; script.len()];
        for (count, line) in lines(script).enumerate() {
            let call = decode(line, &mut room);
            if let Ok(call) = &call {
                self.disturb(call);
            }
            match call {
                Ok(call) if self.random.one_in(OTHER_STORES) => self.call_with_other_stores(line, &call),
                Ok(call) if self.random.one_in(5) => self.ask(line, Some(&call)),
                Ok(call) => self.call(&call),
                Err(_) => self.ask(line, None),
            }
            if count % self.step == 0 {
                self.compare_states();
            }
        }
        self.compare_states();
    }

    /// A pool of these figures in the place of that which stood there: by all, or all say 29 and there is none.
    fn make_anew(&mut self, limits: Limits) -> u8 {
        let made = Ledger::sized(limits).map(|ledger| self.ledger = ledger);
        let number = made.err().map_or(0, |refusal| refusal as u8);
        let (library, plain) = (&mut self.library.memory.pool, &mut self.plain.memory.pool);
        assert_eq!(Library::fresh_sized(library, sites::of(limits)), number, "{limits:?}");
        assert_eq!(Plain::fresh_sized(plain, sites::of(limits)), number, "{limits:?}, plain");
        assert_eq!(bytes(library), bytes(plain), "{limits:?}");
        if number == 0 {
            self.begin_anew(limits);
        }
        number
    }

    /// Stores of these figures are lent from now on, and nothing of the former pool is remembered.
    fn begin_anew(&mut self, limits: Limits) {
        let Memory { small, large, .. } = Memory::sized(sites::of(limits), &mut self.random);
        let global = first_global(self.late, &mut self.random);
        for memory in [&mut self.library.memory, &mut self.plain.memory] {
            memory.small.clone_from(&small);
            memory.large.clone_from(&large);
            memory.pool.global = global;
        }
        self.ahead = Ahead { global, ..Ahead::default() };
        self.global_before = global;
        self.changes = self.changes.is_some().then(|| Changes::new(self.random.number()));
        self.compare_states();
    }

    /// After 29 there is nothing that a ledger could be asked: each call is 15, by its entry or as a frame.
    fn go_on_without_a_pool(&mut self, script: &[u8]) {
        let mut room = vec![0; script.len()];
        for line in lines(script) {
            let Ok(call) = decode(line, &mut room) else {
                self.ask(line, None);
                continue;
            };
            self.census.refused[usize::from(NOT_WELL_FORMED)] += 1;
            if self.random.one_in(5) {
                self.census.frames += 1;
                let told = (NOT_WELL_FORMED, &b"0F\n"[..]);
                assert_eq!(self.library.line(line, Some(&call)), told, "{call:?}");
                assert_eq!(self.plain.line(line, Some(&call)), told, "{call:?}, plain");
            } else {
                self.census.calls += 1;
                assert_eq!(self.library.call(&call), Err(NOT_WELL_FORMED), "{call:?}");
                assert_eq!(self.plain.call(&call), Err(NOT_WELL_FORMED), "{call:?}, plain");
            }
        }
    }

    /// What something outside does before this call, the same to all.
    fn disturb(&mut self, call: &Call) {
        let Some(changes) = &mut self.changes else { return };
        for change in changes.before(call, &self.ledger) {
            let Change { handle, place, byte } = change;
            self.ledger.disturb(change);
            for memory in [&mut self.library.memory, &mut self.plain.memory] {
                let block = memory.place(handle).expect("the object has a block");
                memory.block_mut(block)[place] = byte;
            }
        }
    }

    /// With stores of another length a make, a read and a write are refused with 14, by their entry and as a frame, and are
    /// made again with the right ones; any other call is answered as ever.
    fn call_with_other_stores(&mut self, line: &[u8], call: &Call) {
        let looks = matches!(call, Call::Make { .. } | Call::Read { .. } | Call::Write { .. });
        let lengths = self.other_lengths();
        let [library, plain] = [&mut self.library.memory, &mut self.plain.memory].map(|memory| lend(memory, lengths));
        if looks {
            let told = (WRONG_STORE_LENGTH, &b"0E\n"[..]);
            assert_eq!(self.library.call(call), Err(WRONG_STORE_LENGTH), "{call:?}, {lengths:?}");
            assert_eq!(self.plain.call(call), Err(WRONG_STORE_LENGTH), "{call:?}, {lengths:?}, plain");
            assert_eq!(self.library.line(line, Some(call)), told, "{call:?}, {lengths:?}");
            assert_eq!(self.plain.line(line, Some(call)), told, "{call:?}, {lengths:?}, plain");
            self.census.refused[usize::from(WRONG_STORE_LENGTH)] += 1;
        } else {
            self.call(call);
        }
        (self.library.memory.small, self.library.memory.large) = library;
        (self.plain.memory.small, self.plain.memory.large) = plain;
        if looks {
            self.call(call);
        }
    }

    /// Lengths of which one is wrong at least.
    fn other_lengths(&mut self) -> (usize, usize) {
        let (small, large) = (self.plain.memory.small.len(), self.plain.memory.large.len());
        let other_small = other_length(small, SMALL_SIZE, &mut self.random);
        let other_large = other_length(large, LARGE_SIZE, &mut self.random);
        self.random.pick(&[(other_small, large), (small, other_large), (other_small, other_large)])
    }

    /// One call by its own entry.
    fn call(&mut self, call: &Call) {
        self.census.calls += 1;
        let expected = self.ledger.call(call);
        self.census.note(call, expected);
        let expected: Told = expected.map_err(|refusal| refusal as u8);
        assert_eq!(self.library.call(call), expected, "{call:?}");
        assert_eq!(self.plain.call(call), expected, "{call:?}, plain");
        let accepted = expected.is_ok();
        self.follow(call, accepted);
    }

    /// One line by the entry for frames.
    fn ask(&mut self, line: &[u8], call: Option<&Call>) {
        self.census.frames += 1;
        let mut room = vec![0; line.len() / 2];
        let expected = decode(line, &mut room).and_then(|call| self.ledger.call(&call));
        match call {
            Some(call) => self.census.note(call, expected),
            None => self.census.note_refusal(expected),
        }
        let mut answer = Vec::new();
        encode_answer(&expected, &mut answer);
        let number = expected.err().map_or(0, |refusal| refusal as u8);
        assert_eq!(self.library.line(line, call), (number, &answer[..]), "{line:?}");
        assert_eq!(self.plain.line(line, call), (number, &answer[..]), "{line:?}, plain");
        if let Some(call) = call {
            self.follow(call, number == 0);
        }
    }

    /// After a call: a task that joined begins late, and the counters are watched.
    fn follow(&mut self, call: &Call, accepted: bool) {
        let wrapped = self.plain.memory.pool.global < self.global_before;
        self.census.global_wraps += usize::from(wrapped);
        self.census.pinned_wraps += usize::from(wrapped && self.plain.memory.pool.clocks.contains(&PINNED));
        match *call {
            Call::Join { task, .. } if accepted && self.late => self.begin_late(usize::from(task)),
            Call::Leave { task } if accepted => self.ahead.clocks[usize::from(task)] = 0,
            Call::Tick { task } if accepted => {
                let wrapped = self.plain.memory.pool.tasks[usize::from(task)].clock == 0;
                self.census.clock_wraps += usize::from(wrapped);
            }
            Call::Read { task, handle } if accepted => self.census.note_read(&self.plain.memory.pool, task, handle),
            Call::Remaining { handle, .. } if accepted => {
                let across = is_due_across(&self.plain.memory.pool, handle);
                self.census.remaining_across += usize::from(across);
            }
            Call::Batch { handles, .. } if accepted => {
                let across = handles.iter().any(|handle| is_due_across(&self.plain.memory.pool, handle));
                self.census.batches_across += usize::from(across);
            }
            _ => {}
        }
        if accepted {
            if self.plain.memory.pool.global != self.global_before {
                self.census.note_advance(&self.plain.memory.pool);
            }
            self.census.note_state(&self.plain.memory.pool);
            self.global_before = self.plain.memory.pool.global;
        }
    }

    /// No expiration goes by the clock of a task that has just joined.
    fn begin_late(&mut self, task: usize) {
        let clock = u32::MAX - self.random.below(40) as u32;
        self.ahead.clocks[task] = clock;
        self.library.memory.pool.tasks[task].clock = clock;
        self.plain.memory.pool.tasks[task].clock = clock;
    }

    fn compare_states(&self) {
        let expected = of_ledger(&self.ledger, &self.ahead);
        assert_eq!(of_record(&self.library.memory), expected);
        assert_eq!(of_record(&self.plain.memory), expected, "plain");
    }
}

/// Another length of a store of such blocks: by a byte, by a block, or by the whole.
fn other_length(length: usize, block: usize, random: &mut Random) -> usize {
    random.pick(&[0, length - 1, length + 1, length - block, length + block, 2 * length])
}

/// Stores of these lengths in the place of the memory's own.
fn lend(memory: &mut Memory, (small, large): (usize, usize)) -> (Vec<u8>, Vec<u8>) {
    (replace(&mut memory.small, vec![7; small]), replace(&mut memory.large, vec![7; large]))
}

/// What global time reads when a pool is made.
fn first_global(late: bool, random: &mut Random) -> u32 {
    if late {
        u32::MAX - random.below(200) as u32
    } else {
        0
    }
}

/// A pool whose record was made by its entry, whatever stood there, with the figures that it is to have.
fn begun<E: Entries>(mut memory: Memory, global: u32) -> Host<E> {
    let limits = memory.pool.limits;
    bytes_mut(&mut memory.pool).fill(0xFF);
    assert_eq!(E::fresh_sized(&mut memory.pool, limits), 0, "{limits:?}");
    memory.pool.global = global;
    Host::new(memory)
}

/// Lists of one profile each and of all together. Those of every seed differ.
fn run_lists(seeds: std::ops::Range<u64>, company: impl Fn(u64) -> Company) -> Census {
    let mut census = Census::default();
    for seed in seeds {
        let only = PROFILES.get(seed as usize % (PROFILES.len() + 4)).copied();
        let script = script_of(only, seed, SIZE);
        census.add(&company(seed).run(&script));
    }
    census.print();
    census
}

/// What a viewer may not.
const ONLY_RUNNING: [Operation; 7] = [
    Operation::Block,
    Operation::Tick,
    Operation::Make,
    Operation::Refresh,
    Operation::Write,
    Operation::Batch,
    Operation::Release,
];

/// The operation was refused with each of these numbers more than so often.
fn check_refused(census: &Census, operation: Operation, numbers: &[usize], least: usize) {
    for &number in numbers {
        assert!(census.refused_by[operation as usize][number] > least, "{operation:?}, {number}");
    }
}

fn check_all_met(census: &Census) {
    assert!(census.accepted.iter().all(|&count| count > 1_000));
    for number in (1..=7).chain(9..=14).chain(16..=22).chain(24..=28) {
        assert!(census.refused[number] > 500, "{number}");
    }
    check_refused(census, Operation::Remaining, &[1, 3, 4, 11, 12], 100);
    check_refused(census, Operation::Batch, &[1, 3, 4, 20, 21, 6, 11, 12, 10], 100);
    check_refused(census, Operation::Release, &[1, 3, 4, 11, 12, 22], 50);
    check_refused(census, Operation::View, &[1, 2], 100);
    ONLY_RUNNING.into_iter().for_each(|operation| check_refused(census, operation, &[27], 50));
    assert!(census.viewed.iter().all(|&count| count > 200));
    assert_eq!(census.most, (64, 32, 256));
    assert!(census.put_off > 1_000 && census.most_departed > 20 && census.most_pinned >= 64);
    assert!(census.advances > 10_000 && census.frames > 100_000);
}

#[test]
fn of_fresh_records() {
    let census = run_lists(0..105, |seed| Company::new(seed, false));
    check_all_met(&census);
    assert_eq!(census.refused[23], 0, "no call leads to 23");
    assert!(census.calls + census.frames > 1_000_000);
}

#[test]
fn of_records_whose_counters_go_round() {
    let census = run_lists(1_000..1_105, |seed| Company::new(seed, true));
    check_all_met(&census);
    assert_eq!(census.refused[23], 0, "no call leads to 23");
    assert!(census.clock_wraps > 100 && census.global_wraps > 20 && census.pinned_wraps > 5);
    assert!(census.remaining_across > 1_000 && census.batches_across > 1_000 && census.put_off_across > 100);
    assert!(census.calls + census.frames > 1_000_000);
}

/// Of each third the counters go round, and of each other third something outside changes the stores. After each call the
/// whole state is compared.
fn at_site(limits: Limits, seed: u64) -> Company {
    let changes = (seed % 3 == 1).then(|| Changes::new(seed));
    Company { step: 1, changes, ..Company::of(limits, seed, seed % 3 == 2) }
}

/// A list on a pool of the figures of a seed.
fn run_site(limits: Limits, seed: u64) -> Census {
    let only = PROFILES.get(seed as usize % (2 * PROFILES.len() + 1)).copied();
    at_site(limits, seed).run(&sized_script_of(limits, only, seed, SITE_SIZE))
}

/// Figures of which one is out of its range.
fn refused_limits(random: &mut Random) -> Limits {
    let mut limits = generate::limits(random.number());
    let far = random.pick(&[1 << 10, 1 << 16, u32::MAX as usize]) - random.below(100);
    match random.below(4) {
        0 => limits.small_blocks = random.pick(&[0, 65, far]),
        1 => limits.large_blocks = random.pick(&[0, 33, far]),
        2 => limits.expirations = random.pick(&[0, 257, far]),
        _ => limits.extension = random.pick(&[31, 32, far]),
    }
    limits
}

/// Figures of all sizes, the smallest and 01's among them: 6, 9 and 10 come by them, and no more stands than they allow.
#[test]
fn of_sites_of_all_figures() {
    let (mut census, mut full, mut refused) = (Census::default(), [0; 3], [0; 3]);
    for seed in 0..SITES {
        let limits = generate::limits(seed);
        let met = run_site(limits, seed);
        let (small, large, expirations) = met.most;
        let most = [usize::from(small), usize::from(large), usize::from(expirations)];
        for (place, figure) in [limits.small_blocks, limits.large_blocks, limits.expirations].into_iter().enumerate() {
            assert!(most[place] <= figure, "{most:?} of {limits:?}");
            full[place] += usize::from(most[place] == figure);
        }
        let standard = Limits::STANDARD;
        let less_room = limits.small_blocks < standard.small_blocks && limits.large_blocks < standard.large_blocks;
        let less = [limits.extension < standard.extension, less_room, limits.expirations < standard.expirations];
        for (place, number) in [6, 9, 10].into_iter().enumerate() {
            refused[place] += if less[place] { met.refused[number] } else { 0 };
        }
        census.add(&met);
    }
    census.print();
    println!("of {SITES} sites so many had all small blocks, large blocks, expirations in use: {full:?}");
    println!("6, 9, 10 by figures below 01's: {refused:?}");
    assert!(full.iter().all(|&count| count > 50) && refused.iter().all(|&count| count > 1_000));
    assert!(census.accepted.iter().all(|&count| count > 1_000));
    for number in (1..=7).chain(9..=14).chain(16..=28) {
        assert!(census.refused[number] > 500, "{number}");
    }
    assert!(census.calls + census.frames > 500_000);
}

/// A pool is made anew on the way, of other figures and with stores of their lengths, and now and then of figures that are
/// refused: then all is 15 until it is made anew again.
#[test]
fn of_pools_that_are_made_anew() {
    let (mut census, mut made, mut refused) = (Census::default(), 0, 0);
    for seed in 0..ANEW {
        let (mut random, mut limits) = (Random::new(seed), generate::limits(seed));
        let mut company = at_site(limits, seed);
        for _ in 0..TIMES {
            company.go_on(&sized_script_of(limits, None, random.number(), PART_SIZE));
            let met = take(&mut company.census);
            let (small, large, expirations) = met.most;
            assert!(usize::from(small) <= limits.small_blocks && usize::from(large) <= limits.large_blocks);
            assert!(usize::from(expirations) <= limits.expirations);
            census.add(&met);
            if random.one_in(3) {
                let none = refused_limits(&mut random);
                assert_eq!(company.make_anew(none), LIMITS_OUT_OF_RANGE, "{none:?}");
                company.go_on_without_a_pool(&sized_script_of(limits, None, random.number(), PART_SIZE / 4));
                refused += 1;
            }
            limits = generate::limits(random.number());
            assert_eq!(company.make_anew(limits), 0, "{limits:?}");
            made += 1;
        }
        census.add(&company.census);
    }
    census.print();
    println!("made anew {made} times, refused {refused} times");
    assert!(made > 500 && refused > 100 && census.refused[usize::from(NOT_WELL_FORMED)] > 5_000);
    assert!(census.accepted.iter().all(|&count| count > 500));
    for number in (1..=7).chain(9..=28) {
        assert!(census.refused[number] > 100, "{number}");
    }
}

/// One byte, two that cancel out or two of chance, put back now and then: reads and writes are refused by all or by none, and
/// all else is answered as ever.
#[test]
fn of_stores_that_something_outside_changes() {
    let census =
        run_lists(2_000..2_042, |seed| Company { changes: Some(Changes::new(seed)), ..Company::new(seed, false) });
    assert!(census.accepted.iter().all(|&count| count > 500));
    let looking = [Operation::Read, Operation::Write];
    looking.into_iter().for_each(|operation| check_refused(&census, operation, &[1, 3, 4, 11, 12, 23], 100));
    let noticed = |operation: Operation| census.refused_by[operation as usize][23];
    assert_eq!(looking.into_iter().map(noticed).sum::<usize>(), census.refused[23], "no other call looks");
}

/// Near the last handle the ledger, which starts at 0, cannot follow; library and plain pool give the same answers.
#[test]
fn of_records_with_nearly_all_handles_given() {
    let mut refused = [0; NUMBERS];
    for seed in 0..20 {
        let mut random = Random::new(seed);
        let mut memory = Memory::fresh(&mut random);
        let given = u32::MAX - random.below(200) as u32;
        memory.pool.given = given;
        let (mut library, mut plain) = (Host::<Library>::new(memory.clone()), Host::<Plain>::new(memory));
        let script = script_of(Some(Profile::Everyday), seed, SIZE / 4);
        let mut room = vec![0; script.len()];
        for line in lines(&script) {
            let Ok(call) = decode(line, &mut room) else { continue };
            let mut handles = Vec::new();
            let call = with_handle_after(given, call, &mut handles);
            let told = library.call(&call);
            assert_eq!(told, plain.call(&call), "{call:?}");
            refused[usize::from(told.err().unwrap_or(0))] += 1;
        }
        assert_eq!(of_record(&library.memory), of_record(&plain.memory));
    }
    assert!([8, 11, 12, 21, 22].iter().all(|&number| refused[number] > 100), "{refused:?}");
}

/// The call on a handle so much further on. Those of a batch need room.
fn with_handle_after<'a>(given: u32, call: Call<'a>, room: &'a mut Vec<[u8; 4]>) -> Call<'a> {
    let later = |handle: u32| if handle == 0 { 0 } else { handle.saturating_add(given) };
    match call {
        Call::Refresh { task, kind, extension, handle } => {
            Call::Refresh { task, kind, extension, handle: later(handle) }
        }
        Call::Read { task, handle } => Call::Read { task, handle: later(handle) },
        Call::Write { task, handle, offset, bytes } => Call::Write { task, handle: later(handle), offset, bytes },
        Call::Remaining { task, handle } => Call::Remaining { task, handle: later(handle) },
        Call::Release { task, handle } => Call::Release { task, handle: later(handle) },
        Call::Batch { task, kind, extension, handles } => {
            room.extend(handles.iter().map(|handle| later(handle).to_be_bytes()));
            Call::Batch { task, kind, extension, handles: Handles(room) }
        }
        other => other,
    }
}
