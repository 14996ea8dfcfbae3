//! Order 9: reserves and limits. Rows worked out by hand, of each reading that would be wrong and of each end that no claim
//! sees; and what the order claims, on scripts.

mod rows;
#[path = "rows/shares.rs"]
mod share_rows;

use reference::call::{packed, Call, Handles, Kind, Model, Refusal};
use reference::generate::{limits, sized_script, sized_script_of, Profile};
use reference::ledger::Ledger;
use reference::limits::{Limits, Store, STORES, TASKS};
use reference::script::calls;
use reference::share::{Maker, Share};
use reference::tasks::State;
use rows::check_in;
use share_rows::check_all;

#[test]
fn rows() {
    check_all(check_in);
}

// What is claimed.

/// In both stores: all unmet reserves have blocks, no task and no reserve is above its limit, and a task that is absent or
/// views has no share, and so no object.
fn check_kept(ledger: &Ledger, call: &Call) {
    for store in STORES {
        let room = ledger.room(store);
        let unmet: usize = (0..TASKS as u8).map(|task| room.unmet(task)).sum();
        assert!(room.makers.len() + unmet <= room.blocks, "{call:?}, {store:?}");
        for task in 0..TASKS as u8 {
            assert!(room.made(task) <= room.limit(task), "{call:?}, {store:?}, {task}");
            assert!(room.reserve(task) <= room.limit(task), "{call:?}, {store:?}, {task}");
        }
    }
    let has_none = |state: State| matches!(state, State::Absent | State::Viewing);
    let tasks = ledger.tasks().entries().iter().filter(|task| has_none(task.state));
    tasks.for_each(|task| assert_eq!(task.share, Share::NONE, "{call:?}"));
}

/// Whether the call is a make of a task that is below its reserve in the store of its length.
fn is_below_reserve(ledger: &Ledger, call: &Call) -> bool {
    let Call::Make { task, length, .. } = *call else { return false };
    usize::from(task) < TASKS && Store::holding(length).is_ok_and(|store| ledger.room(store).unmet(task) > 0)
}

/// The refusals are 1 to 28.
const NUMBERS: usize = 29;

/// After every call all that is kept is as claimed, and no make below a reserve gets 9 or 26.
#[test]
fn what_is_claimed() {
    let mut below = [0; NUMBERS];
    for seed in 0..120 {
        let (site, script) = (limits(seed), sized_script(limits(seed), seed));
        check_claims(site, &script[..script.len().min(10_000)], &mut below);
        for site in [site, Limits::STANDARD] {
            check_claims(site, &sized_script_of(site, Some(Profile::Shares), seed, 10_000), &mut below);
        }
    }
    println!("answers of makes below a reserve, by number: {below:?}");
    assert!(below[0] > 2_000 && below[10] > 200, "{below:?}");
}

fn check_claims(limits: Limits, script: &[u8], below: &mut [usize; NUMBERS]) {
    let (mut ledger, mut room) = (Ledger::of(limits), vec![0; script.len() / 2]);
    for call in calls(script, &mut room) {
        let is_below = is_below_reserve(&ledger, &call);
        let refusal = ledger.call(&call).err();
        if is_below {
            assert!(!matches!(refusal, Some(Refusal::NoFreeBlock | Refusal::AtLimit)), "{call:?}");
            below[refusal.map_or(0, |refusal| refusal as usize)] += 1;
        }
        check_kept(&ledger, &call);
    }
}

/// Who made each object: no refresh, batch, write or release moves it, a leave makes it nobody's, and no later task of that
/// number has it.
#[test]
fn makers() {
    let makers = |ledger: &Ledger| ledger.standing().iter().map(|object| object.maker).collect::<Vec<_>>();
    let (mut ledger, first, second) = (Ledger::fresh(), Maker::Task(0), Maker::Task(1));
    for task in [0, 1] {
        ledger.join(task, Share::OPEN).unwrap();
        ledger.make(task, Kind::Pinned, 0, 4, 0).unwrap();
    }
    ledger.refresh(1, Kind::Global, 5, 1).unwrap();
    ledger.batch(0, Kind::Local, 5, Handles(&packed(&[1, 2]))).unwrap();
    ledger.write(0, 2, 0, &[1]).unwrap();
    ledger.release(0, 2).unwrap();
    assert_eq!(makers(&ledger), [first, second]);
    ledger.refresh(1, Kind::Global, 5, 2).unwrap();
    ledger.leave(0).unwrap();
    assert_eq!(makers(&ledger), [Maker::Departed, second]);
    ledger.join(0, Share::OPEN).unwrap();
    ledger.make(0, Kind::Pinned, 0, 4, 0).unwrap();
    assert_eq!(makers(&ledger), [Maker::Departed, second, first]);
    ledger.leave(1).unwrap();
    assert_eq!(makers(&ledger), [Maker::Departed, Maker::Departed, first]);
}
