//! High-water marks: what a gauged pool keeps, in Rust and in C, is the most that the record had after any call.

use in_c::{built, host, scratch};
use lives::Random;
use ramsummer::{Gauged, Handle, Kind, Limits, Peaks, Pool, Refusal, Share, LINE};
use std::fs::{self, File};
use std::process::Command;

mod in_c;
mod lives;

fn peaks(small: u8, large: u8, expirations: u16) -> Peaks {
    let mut peaks = Peaks::new();
    (peaks.small, peaks.large, peaks.expirations) = (small, large, expirations);
    peaks
}

#[test]
fn each_call_that_raises_a_figure_is_noted() {
    let mut pool = Gauged::over(Pool::new());
    pool.join(0, Share::OPEN).unwrap();
    assert_eq!(pool.peaks(), Peaks::default());
    let small = pool.make(0, Kind::Local, 0, 32).unwrap();
    assert_eq!(pool.peaks(), peaks(1, 0, 1));
    let large = pool.make(0, Kind::Local, 0, 33).unwrap();
    assert_eq!(pool.peaks(), peaks(1, 1, 2));
    pool.refresh(0, Kind::Local, 0, small).unwrap();
    assert_eq!(pool.peaks(), peaks(1, 1, 3));
    pool.refresh_all(0, Kind::Local, 0, &[small, large, large]).unwrap();
    assert_eq!(pool.peaks(), peaks(1, 1, 6));
    assert_eq!(pool.frame(b"0700000000000001", &mut [0; LINE]).outcome, Ok(()));
    assert_eq!(pool.peaks(), peaks(1, 1, 7));
    pool.make_with_prefix(0, Kind::Local, 0, 32, 8).unwrap();
    assert_eq!(pool.peaks(), peaks(2, 1, 8));
    pool.put(0, Kind::Local, 0, &[1]).unwrap();
    assert_eq!(pool.peaks(), peaks(3, 1, 9));
    pool.put_with_prefix(0, Kind::Local, 0, &[1], 1).unwrap();
    assert_eq!(pool.peaks(), peaks(4, 1, 10));
}

/// Nor does a refused call move them.
#[test]
fn marks_stay_when_objects_go_until_they_are_begun_anew() {
    let mut pool = Gauged::over(Pool::new());
    pool.join(0, Share::OPEN).unwrap();
    for length in [4, 40, 4] {
        pool.make(0, Kind::Local, 0, length).unwrap();
    }
    pool.tick(0).unwrap();
    pool.make(0, Kind::Local, 0, 4).unwrap();
    assert_eq!(pool.make(1, Kind::Local, 0, 4), Err(Refusal::TaskAbsent));
    assert_eq!(pool.refresh(0, Kind::Local, 0, Handle::from(1)), Err(Refusal::ObjectGone));
    assert_eq!(pool.peaks(), peaks(2, 1, 3));
    pool.reset_peaks().unwrap();
    assert_eq!(pool.peaks(), peaks(1, 0, 1));
    pool.fresh();
    assert_eq!(pool.peaks(), peaks(1, 0, 1));
    assert_eq!(pool.into_pool().report().unwrap().small, 0);
}

/// Makes the record one that is not well-formed.
fn damage(pool: &mut Pool) {
    let (mut record, small, large) = pool.clone().into_parts();
    record.tasks[15].clock = 1;
    *pool = Pool::over(record, small, large);
}

#[test]
fn marks_stay_where_a_report_is_refused() {
    let mut pool = Gauged::over(Pool::new());
    pool.join(0, Share::OPEN).unwrap();
    pool.make(0, Kind::Local, 0, 4).unwrap();
    damage(&mut pool);
    assert_eq!(pool.reset_peaks(), Err(Refusal::NotWellFormed));
    assert_eq!(pool.peaks(), peaks(1, 0, 1));
}

/// What stands by the record itself.
fn standing(pool: &Pool) -> Peaks {
    let (small, large) = pool.record().handles.split_at(64);
    let [small, large] = [small, large].map(|handles| handles.iter().filter(|handle| **handle != 0).count() as u8);
    peaks(small, large, pool.record().clocks.iter().filter(|clock| **clock != 0).count() as u16)
}

/// A frame of some call, which may be refused. Objects last a few ticks, and so figures rise and fall.
fn frame(pool: &Pool, random: &mut Random) -> String {
    let task = random.below(3);
    let given = u64::from(pool.record().given);
    let handle = given.saturating_sub(random.below(9));
    let timed = format!("{task:02X}{:02X}{:02X}", random.below(2), random.below(3));
    match random.below(20) {
        0..=1 => format!("01{task:02X}00FF00FF"),
        2 => format!("02{task:02X}"),
        3 => format!("03{task:02X}"),
        4..=5 => format!("04{task:02X}"),
        6..=8 => format!("05{task:02X}"),
        9..=12 => format!("06{timed}{:04X}0000", 1 + random.below(64)),
        13..=14 => format!("07{timed}{handle:08X}"),
        15 => format!("06{task:02X}020000040001"),
        16..=18 => format!("0D{task:02X}{handle:08X}"),
        _ => format!("0C{timed}{handle:08X}{given:08X}"),
    }
}

/// What the marks have to be after a line, by those before it.
fn most(pool: &Pool, line: &str, before: Peaks) -> Peaks {
    match line {
        "reset" => standing(pool),
        _ => raised(before, standing(pool)),
    }
}

fn raised(before: Peaks, now: Peaks) -> Peaks {
    peaks(now.small.max(before.small), now.large.max(before.large), now.expirations.max(before.expirations))
}

/// The number of the line's answer.
fn answer(pool: &mut Gauged<Pool>, line: &str) -> u8 {
    let outcome = match line {
        "reset" => pool.reset_peaks(),
        _ => pool.frame(line.as_bytes(), &mut [0; LINE]).outcome,
    };
    outcome.map_or_else(Refusal::number, |()| 0)
}

/// What tests/peaks.c says to this script.
fn told(name: &str, standard: &str, limits: Limits, script: &str) -> Option<Vec<u8>> {
    let binary = built(&format!("{name}_{standard}"), &host().join("tests/peaks.c"), standard)?;
    let input = scratch(&format!("{name}.in"));
    fs::write(&input, script).unwrap();
    let Limits { small_blocks, large_blocks, expirations, extension } = limits;
    let arguments = [small_blocks, large_blocks, expirations, extension].map(|limit| limit.to_string());
    Some(Command::new(binary).args(arguments).stdin(File::open(input).unwrap()).output().unwrap().stdout)
}

/// The most that any mark came to.
fn compare(name: &str, limits: Limits) -> Peaks {
    let (mut pool, mut random) = (Gauged::over(Pool::sized(limits).unwrap()), Random(5));
    let (mut expected, mut highest) = (Peaks::new(), Peaks::new());
    let (mut script, mut answers) = (String::new(), String::new());
    for turn in 1..20_000 {
        let line = if turn % 100 == 0 { "reset".into() } else { frame(&pool, &mut random) };
        let number = answer(&mut pool, &line);
        expected = most(&pool, &line, expected);
        highest = raised(highest, expected);
        assert_eq!(pool.peaks(), expected, "{line}");
        script += &format!("{line}\n");
        answers += &format!("{number}: {expected}\n");
    }
    for line in ["damage", "reset", "0500"] {
        script += &format!("{line}\n");
        answers += &format!("15: {expected}\n");
    }
    for standard in ["c99", "c++98"] {
        let Some(told) = told(name, standard, limits, &script) else { break };
        assert!(told == answers.as_bytes(), "{standard}");
    }
    highest
}

#[test]
fn marks_are_the_most_that_stood_after_any_call_in_c_too() {
    compare("peaks", Limits::STANDARD);
}

/// Of a small site they come to its limits, and no further.
#[test]
fn marks_go_no_further_than_the_limits() {
    let limits = Limits { small_blocks: 3, large_blocks: 2, expirations: 7, extension: 2 };
    assert_eq!(compare("peaks_of_a_site", limits), peaks(3, 2, 7));
}
