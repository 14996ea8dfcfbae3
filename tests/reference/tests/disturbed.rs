//! Order 6 in scripts with bytes changed from outside between their lines: what calls then meet, and what one changed byte
//! does to the answers.

mod marks;

use marks::{Marks, SITUATIONS};
use reference::block::Block;
use reference::call::{Answer, Call, Model, Refusal};
use reference::expiration::Remaining;
use reference::generate::{limits, script_of, sized_script, Profile, PROFILES};
use reference::ledger::{Ledger, Standing};
use reference::limits::Limits;
use reference::outside::{Change, Changes, Exposed};
use reference::random::Random;
use reference::script::calls;

/// The profiles whose scripts have objects in use.
fn with_objects() -> impl Iterator<Item = Profile> {
    PROFILES.into_iter().filter(|profile| *profile != Profile::Noise)
}

// What is met.

#[test]
fn all_is_met() {
    check_met(|_| Limits::STANDARD);
}

#[test]
fn all_is_met_with_chosen_figures() {
    check_met(limits);
}

fn check_met(limits: fn(u64) -> Limits) {
    let mut met = [0; SITUATIONS.len()];
    for seed in 0..400 {
        let script = sized_script(limits(seed), seed);
        let mut room = vec![0; script.len() / 2];
        let calls = calls(&script[..script.len().min(20_000)], &mut room);
        note(limits(seed), &calls, seed, &mut met);
    }
    for ((name, _), count) in SITUATIONS.iter().zip(met) {
        println!("{name}: {count}");
    }
    for ((name, _), count) in SITUATIONS.iter().zip(met) {
        assert!(count >= 50, "{name}: {count}");
    }
}

/// Counts what the calls meet. What is refused with 23 changes nothing.
fn note(limits: Limits, calls: &[Call], seed: u64, met: &mut [usize; SITUATIONS.len()]) {
    let (mut ledger, mut changes, mut marks) = (Ledger::of(limits), Changes::new(seed), Marks::default());
    for call in calls {
        for change in changes.before(call, &ledger) {
            marks.change(change, &ledger);
            ledger.disturb(change);
        }
        let (before, seen) = (ledger.clone(), marks.before(call, &ledger));
        let answer = ledger.call(call).map(|_| ());
        marks.note(met, seen, answer.err().map_or(0, |refusal| refusal as usize), [&before, &ledger]);
        if answer == Err(Refusal::SumDiffers) {
            assert_eq!(ledger, before, "{call:?}");
        }
    }
}

// One changed byte.

#[derive(Debug, Default)]
struct Met {
    reads: usize,
    writes: usize,
    gone: usize,
    others: usize,
}

/// Every read and write of its object is refused: with what refuses it without the change and comes before 23, else with 23.
/// All other calls answer as without it, and all else that is kept is as without it.
#[test]
fn one_byte_is_noticed_and_nothing_else_is_changed() {
    let mut met = Met::default();
    for profile in with_objects() {
        for seed in 0..80 {
            let script = script_of(Some(profile), seed, 6_000);
            let mut room = vec![0; script.len() / 2];
            let calls = calls(&script, &mut room);
            let mut random = Random::new(seed);
            let from = random.below(calls.len());
            check_one(&calls, from, &mut random, &mut met);
        }
    }
    println!("{met:?}");
    assert!(met.reads.min(met.writes).min(met.gone) > 200 && met.others > 50_000, "{met:?}");
}

/// The change comes before the first call from this one on that finds an object.
fn check_one(calls: &[Call], from: usize, random: &mut Random, met: &mut Met) {
    let mut without = Ledger::fresh();
    let mut at = 0;
    while at < from || (at < calls.len() && without.standing().is_empty()) {
        let _ = without.call(&calls[at]);
        at += 1;
    }
    if at == calls.len() {
        return;
    }
    let (mut with, change) = (without.clone(), one(&without.standing(), random));
    with.disturb(change);
    for call in &calls[at..] {
        let (expected, told) = (without.call(call), with.call(call));
        check_answer(call, change.handle, expected, told, met);
        assert_eq!(with.report(), without.report(), "{call:?}");
        if call.objects().contains(&change.handle) {
            assert_eq!(but_for(change.handle, &with), but_for(change.handle, &without), "{call:?}");
        }
    }
    assert_eq!(but_for(change.handle, &with), but_for(change.handle, &without));
}

/// The objects that stand: their handles and expirations, and the blocks of all but this one.
fn but_for(handle: u32, ledger: &Ledger) -> Vec<(u32, Vec<Remaining>, Option<Block>)> {
    let show = |object: Standing| {
        let block = (object.handle != handle).then_some(object.block);
        (object.handle, object.expirations, block)
    };
    ledger.standing().into_iter().map(show).collect()
}

/// Another value for one byte of the block of an object that stands.
fn one(standing: &[Standing], random: &mut Random) -> Change {
    let Standing { handle, block, .. } = &standing[random.below(standing.len())];
    let place = random.below(block.bytes.len());
    let byte = block.bytes[place].wrapping_add(1 + random.below(255) as u8);
    Change { handle: *handle, place, byte }
}

fn check_answer(call: &Call, changed: u32, expected: Answer, told: Answer, met: &mut Met) {
    let earlier =
        [Refusal::TaskAbove15, Refusal::TaskAbsent, Refusal::TaskWaiting, Refusal::OnlyViews, Refusal::ObjectGone];
    let refused_earlier = expected.is_err_and(|refusal| earlier.contains(&refusal));
    match *call {
        Call::Read { handle, .. } | Call::Write { handle, .. } if handle == changed && !refused_earlier => {
            assert_eq!(told, Err(Refusal::SumDiffers), "{call:?}");
            met.reads += usize::from(matches!(call, Call::Read { .. }));
            met.writes += usize::from(matches!(call, Call::Write { .. }));
        }
        _ => {
            assert_eq!(told, expected, "{call:?}");
            met.gone += usize::from(call.objects() == [changed] && told == Err(Refusal::ObjectGone));
            met.others += 1;
        }
    }
}

// Changes that cancel.

/// Where all changes cancel in twos, no script meets 23 either, and its answers differ in the bytes that are read alone.
#[test]
fn changes_that_cancel_are_not_noticed() {
    let mut read = 0;
    for profile in with_objects() {
        for seed in 0..8 {
            let script = script_of(Some(profile), seed, 6_000);
            let mut room = vec![0; script.len() / 2];
            let (mut without, mut with) = (Ledger::fresh(), Ledger::fresh());
            let mut changes = Changes::new(seed);
            for call in calls(&script, &mut room) {
                for handle in call.objects() {
                    let pair = with.block_of(handle).map(|block| changes.cancelling(handle, block));
                    pair.unwrap_or_default().into_iter().for_each(|change| with.disturb(change));
                }
                let (expected, told) = (without.call(&call), with.call(&call));
                if matches!(call, Call::Read { .. }) && expected.is_ok() {
                    read += usize::from(told != expected);
                    assert!(told.is_ok(), "{call:?}");
                } else {
                    assert_eq!(told, expected, "{call:?}");
                }
            }
        }
    }
    assert!(read > 1_000, "{read}");
}
