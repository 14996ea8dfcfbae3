//! The scripts of the generator reach what they are meant to.

mod census;

use census::{Census, TESTS};
use reference::call::Operation;
use reference::generate::{limits, script, script_of, sized_script, Profile, PROFILES};
use reference::limits::Limits;
use reference::script::LIMIT;

/// No script lives to see it.
const HANDLES_SPENT: usize = 8;

/// No line of a script changes a byte from outside. What then is met, disturbed.rs counts.
const SUM_DIFFERS: usize = 23;

/// Every answer of every call.
fn check_operations(census: &Census) {
    for (operation, tests) in TESTS {
        assert!(census.accepted[operation as usize] >= 100, "{operation:?}");
        for &number in tests.iter().filter(|number| ![HANDLES_SPENT, SUM_DIFFERS].contains(number)) {
            assert!(census.refused_by[operation as usize][number] >= 50, "{operation:?}, {number}");
        }
    }
}

#[test]
fn all_is_met() {
    let census = Census::of((1..=500).map(script).filter(|script| script.len() <= LIMIT));
    census.print();
    check_operations(&census);
    assert!(census.refused[16].min(census.refused[17]) >= 100);
    assert_eq!((census.refused[HANDLES_SPENT], census.refused[SUM_DIFFERS]), (0, 0));
    assert!(census.remaining.least() >= 50);
    assert!(census.batch.least() >= 50);
    assert!(census.waiting.least() >= 50);
    assert!(census.pinned.least() >= 50);
    assert!(census.shares.least() >= 50);
    assert!(census.viewers.least() >= 50);
    assert_eq!((census.most_small, census.most_large, census.most_expirations), (64, 32, 256));
    assert_eq!(census.most_running, 16);
    assert!(census.longest_output > 500_000);
    assert!(census.advances >= 1_000 && census.empty_writes >= 100 && census.whole_writes >= 100);
}

/// With figures that sites choose: what these decide, and every answer of every call.
#[test]
fn all_is_met_with_chosen_figures() {
    let scripts = (0..600).map(|seed| (limits(seed), sized_script(limits(seed), seed)));
    let census = Census::sized(scripts.filter(|(_, script)| script.len() <= LIMIT));
    census.print();
    assert!(census.sized.least() >= 50);
    assert!(census.shares.least() >= 50);
    assert!(census.viewers.least() >= 50);
    check_operations(&census);
}

/// The figures of the seeds: all allowed, both ends of each, and many small ones.
#[test]
fn figures_of_seeds() {
    let all: Vec<_> = (0..200).map(limits).collect();
    let (least, most) = (Limits::SMALLEST, Limits::STANDARD);
    assert_eq!(all[..2], [least, most]);
    assert!(all.iter().all(|limits| limits.is_allowed()));
    let figures: [fn(&Limits) -> usize; 4] = [
        |limits| limits.small_blocks,
        |limits| limits.large_blocks,
        |limits| limits.expirations,
        |limits| limits.extension,
    ];
    for figure in figures {
        let count = |holds: &dyn Fn(usize) -> bool| all.iter().filter(|limits| holds(figure(limits))).count();
        assert!(count(&|one| one == figure(&least)) >= 10 && count(&|one| one == figure(&most)) >= 10);
        assert!(count(&|one| one < 8) >= 60 && count(&|one| one < figure(&most)) >= 100);
    }
}

#[test]
fn sizes_and_ends() {
    let scripts: Vec<_> = (1..=500).map(script).collect();
    let count = |met: fn(&Vec<u8>) -> bool| scripts.iter().filter(|script| met(script)).count();
    let ended = count(|script| script.ends_with(b"\n"));
    println!(
        "ended by LF: {ended}, at the limit: {}, beyond: {}",
        count(|s| s.len() == LIMIT),
        count(|s| s.len() > LIMIT)
    );
    assert!(ended > 100 && ended < 400);
    assert!(count(|script| script.len() < 100) > 0);
    assert!(count(|script| script.len() == LIMIT) > 5);
    assert!(count(|script| script.len() == LIMIT && script.ends_with(b"\n")) > 0);
    assert!(count(|script| script.len() == LIMIT && !script.ends_with(b"\n")) > 0);
    assert!(count(|script| script.len() == LIMIT + 1) > 0);
    assert!(count(|script| (LIMIT / 2..LIMIT).contains(&script.len())) > 50);
}

/// What each profile is for is met by its scripts alone.
#[test]
fn each_profile_meets_its_own() {
    for profile in PROFILES {
        let census = Census::of((1..=24).map(|seed| script_of(Some(profile), seed, 30_000)));
        let accepted = |operation: Operation| census.accepted[operation as usize];
        let least = |numbers: &[usize]| numbers.iter().map(|&number| census.refused[number]).min().unwrap_or(0);
        let met = match profile {
            Profile::Everyday => {
                census.accepted.iter().all(|&count| count > 100) && least(&[1, 3, 4, 6, 7, 11, 12, 13]) > 10
            }
            Profile::Crowd => census.most_running == 16 && census.advances > 1_000 && least(&[2, 3, 4, 5]) > 100,
            Profile::SmallFlood => census.most_small == 64 && least(&[9]) > 50,
            Profile::LargeFlood => census.most_large == 32 && least(&[9]) > 50,
            Profile::ExpirationFlood => census.most_expirations == 256 && least(&[10]) > 50,
            Profile::Lapse => least(&[12]) > 100 && accepted(Operation::Read) > 1_000,
            Profile::Reuse => accepted(Operation::Write) > 1_000 && accepted(Operation::Read) > 1_000,
            Profile::Reading => census.longest_output > 800_000,
            Profile::Remaining => census.remaining.least() > 20,
            Profile::Batch => census.batch.least() > 5 && accepted(Operation::Batch) > 500,
            Profile::Waiting => census.waiting.least() > 20,
            Profile::Pinned => census.pinned.least() > 20 && accepted(Operation::Release) > 500,
            Profile::Shares => census.shares.least() > 20,
            Profile::Viewers => census.viewers.least() > 20,
            Profile::Edges => least(&[1, 3, 6, 7, 11, 13]) > 100 && census.empty_writes.min(census.whole_writes) > 10,
            Profile::Damage => least(&[16, 17, 18, 19]) > 100,
            Profile::Noise => least(&[16, 17, 18]) > 100,
        };
        let Census { accepted, refused, waiting, pinned, shares, viewers, .. } = &census;
        assert!(met, "{profile:?} {accepted:?} {refused:?} {waiting:?} {pinned:?} {shares:?} {viewers:?}");
    }
}

#[test]
fn a_seed_gives_one_script() {
    assert_eq!(script(7), script(7));
    assert_ne!(script(7), script(8));
}
