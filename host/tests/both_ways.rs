//! The same calls by the typed functions and by frames: the answers are the same, and after each the tasks, the times and
//! the figures. So no argument goes astray on the way to the library. The place of a block or expiration is left open by
//! document 01 and not compared. The pools are in place, as a host without an allocator has them, with the largest limits
//! and with those of a small site.

use ramsummer::{Handle, Holdings, Kind, Limits, Quota, Record, Refusal, Report, Share, SitePool, TaskEntry};
use ramsummer::{LARGEST_BATCH, LINE, LONGEST, TASKS};
use std::array::from_fn;
use std::collections::BTreeSet;

/// Numbers that look random and are the same in each run.
struct Random(u64);

impl Random {
    fn below(&mut self, bound: u64) -> u64 {
        self.0 = self.0.wrapping_mul(6_364_136_223_846_793_005).wrapping_add(1_442_695_040_888_963_407);
        (self.0 >> 33) % bound
    }

    /// Mostly one of the few; now and then any byte.
    fn byte(&mut self, few: u64) -> u8 {
        let bound = if self.below(20) == 0 { 256 } else { few };
        self.below(bound) as u8
    }
}

fn hexadecimal(bytes: &[u8]) -> String {
    bytes.iter().map(|byte| format!("{byte:02X}")).collect()
}

/// The answer line that document 01 has for what a typed function gave.
fn line<T>(answer: Result<T, Refusal>, data: impl FnOnce(T) -> String) -> String {
    match answer {
        Ok(value) => format!("00{}\n", data(value)),
        Err(refusal) => format!("{:02X}\n", refusal.number()),
    }
}

/// One call by its typed function: its frame, and the answer line.
fn call<const S: usize, const L: usize>(pool: &mut SitePool<S, L>, random: &mut Random) -> (String, String) {
    let nothing = |()| String::new();
    let flag = |advanced| format!("{:02X}", u8::from(advanced));
    let task = random.byte(4);
    let kind = [Kind::Local, Kind::Global, Kind::Local, Kind::Global, Kind::Pinned][random.below(5) as usize];
    let extension = if kind == Kind::Pinned { random.byte(2) } else { random.byte(6) };
    let handle = u32::from(random.byte(2)).wrapping_add(pool.record().given).wrapping_sub(random.below(12) as u32);
    let named = Handle::from(handle);
    let dated = format!("{task:02X}{:02X}{extension:02X}", kind.number());
    match random.below(33) {
        0 => {
            let share = share(random);
            (format!("01{task:02X}{}", shown(share)), line(pool.join(task, share), nothing))
        }
        1 => (format!("02{task:02X}"), line(pool.leave(task), flag)),
        2 => (format!("03{task:02X}"), line(pool.block(task), flag)),
        3..=4 => (format!("04{task:02X}"), line(pool.resume(task), nothing)),
        5..=7 => (format!("05{task:02X}"), line(pool.tick(task), flag)),
        8..=13 => {
            let length = random.below(66) as u16 * 4;
            let prefix = random.below(u64::from(length) + 5) as u16;
            let made = match prefix {
                0 => pool.make(task, kind, extension, length),
                _ => pool.make_with_prefix(task, kind, extension, length, prefix),
            };
            (format!("06{dated}{length:04X}{prefix:04X}"), line(made, |handle| format!("{:08X}", u32::from(handle))))
        }
        14..=16 => (format!("07{dated}{handle:08X}"), line(pool.refresh(task, kind, extension, named), nothing)),
        17..=19 => {
            let mut room = [0; LONGEST];
            let read = pool.read(task, named, &mut room);
            (format!("08{task:02X}{handle:08X}"), line(read, hexadecimal))
        }
        20..=22 => {
            let offset = random.byte(9);
            let bytes: Vec<u8> = (0..random.below(20)).map(|_| random.below(256) as u8).collect();
            let written = pool.write(task, named, offset, &bytes);
            (format!("09{task:02X}{handle:08X}{offset:02X}{}", hexadecimal(&bytes)), line(written, nothing))
        }
        23..=24 => {
            let remaining = pool.remaining(task, named);
            let figures = line(remaining, |left| format!("{:02X}{:02X}", left.local, left.global));
            (format!("0B{task:02X}{handle:08X}"), figures)
        }
        25..=27 => {
            let handles = batch(random, handle);
            let named: Vec<_> = handles.iter().copied().map(Handle::from).collect();
            let objects: String = handles.iter().map(|handle| format!("{handle:08X}")).collect();
            (format!("0C{dated}{objects}"), line(pool.refresh_all(task, kind, extension, &named), nothing))
        }
        28..=30 => (format!("0D{task:02X}{handle:08X}"), line(pool.release(task, named), nothing)),
        31 if random.below(4) == 0 => (format!("0E{task:02X}"), line(pool.view(task), nothing)),
        _ => {
            let figures = line(pool.report(), |report| {
                format!("{:02X}{:02X}{:04X}{:08X}", report.small, report.large, report.expirations, report.given)
            });
            ("0A".to_string(), figures)
        }
    }
}

/// Few blocks as a rule; now and then open, or any bytes.
fn share(random: &mut Random) -> Share {
    let mut quota = || match random.below(6) {
        0 => Quota { reserve: random.below(256) as u8, limit: random.below(256) as u8 },
        1..=3 => Quota { reserve: random.below(3) as u8, limit: 1 + random.below(4) as u8 },
        _ => Quota::OPEN,
    };
    Share { small: quota(), large: quota() }
}

/// As a frame has it.
fn shown(Share { small, large }: Share) -> String {
    hexadecimal(&[small.reserve, small.limit, large.reserve, large.limit])
}

/// From this handle on down, a few as a rule; now and then none, or up to one too many of the same.
fn batch(random: &mut Random, handle: u32) -> Vec<u32> {
    match random.below(12) {
        0 => Vec::new(),
        1 => vec![handle; LARGEST_BATCH - 1 + random.below(3) as usize],
        _ => (0..1 + random.below(4) as u32).map(|less| handle.wrapping_sub(less)).collect(),
    }
}

type Holds = [Result<Holdings, Refusal>; TASKS];
type State = ([TaskEntry; TASKS], u32, Limits, [Share; TASKS], Result<Report, Refusal>, Holds);

fn state<const S: usize, const L: usize>(pool: &SitePool<S, L>) -> State {
    let holds = from_fn(|task| pool.share(task as u8));
    let Record { tasks, global, limits, shares, .. } = *pool.record();
    (tasks, global, limits, shares, pool.report(), holds)
}

/// The first byte of every block is another, from outside.
fn touched<const S: usize, const L: usize>(pool: SitePool<S, L>) -> SitePool<S, L> {
    let (record, mut small, mut large) = pool.into_parts();
    let first_bytes = small.as_mut().iter_mut().step_by(32).chain(large.as_mut().iter_mut().step_by(256));
    first_bytes.for_each(|byte| *byte = byte.wrapping_add(1));
    SitePool::over(record, small, large)
}

/// Compares so many calls, each thousand from a fresh pool: sooner or later a task has joined that chance forgets, and the time
/// waits for it. Each operation was carried out; the refusals are handed back.
fn compare<const S: usize, const L: usize>(fresh: SitePool<S, L>, calls: u32) -> BTreeSet<String> {
    let (mut random, mut typed, mut framed) = (Random(1), fresh.clone(), fresh.clone());
    let mut seen = BTreeSet::new();
    for count in 0..calls {
        if count % 1000 == 0 {
            (typed, framed) = (fresh.clone(), fresh.clone());
        }
        if count % 200 == 199 {
            (typed, framed) = (touched(typed), touched(framed));
        }
        let (frame, expected) = call(&mut typed, &mut random);
        let mut room = [0; LINE];
        let answer = framed.frame(frame.as_bytes(), &mut room);
        assert_eq!(String::from_utf8_lossy(answer.line), expected, "{frame}");
        assert_eq!(state(&typed), state(&framed), "{frame}");
        seen.insert((frame[..2].to_string(), expected[..2].to_string()));
    }
    let done = seen.iter().filter(|(_, answer)| answer == "00").count();
    assert_eq!(done, 14, "each operation was carried out");
    seen.into_iter().map(|(_, answer)| answer).filter(|answer| answer != "00").collect()
}

fn has_all(refusals: &BTreeSet<String>, expected: &[&str]) -> bool {
    expected.iter().all(|number| refusals.contains(*number))
}

#[test]
fn typed_calls_and_frames_do_the_same() {
    let refusals = compare(SitePool::<64, 32>::in_place::<256, 30>(), 20_000);
    let tasks = ["01", "02", "03", "04", "05", "18", "19", "1A", "1B"];
    let objects = ["06", "07", "0B", "0C", "0D", "14", "15", "16", "17", "1C"];
    assert!(has_all(&refusals, &tasks) && has_all(&refusals, &objects), "{refusals:?}");
}

/// Both stores run out, and the expirations.
#[test]
fn so_they_do_in_the_pool_of_a_small_site() {
    let refusals = compare(SitePool::<3, 2>::in_place::<7, 4>(), 20_000);
    assert!(has_all(&refusals, &["06", "09", "0A", "18", "19", "1A"]), "{refusals:?}");
    compare(SitePool::<1, 1>::in_place::<4, 2>(), 20_000);
}
