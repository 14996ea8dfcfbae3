//! Order 10: viewers and prefixes. Rows worked out by hand, of each reading that would be wrong and of what no claim sees; and
//! what the order claims, on scripts: where two runs differ in bytes written beyond prefixes, no viewer can tell.

mod rows;
#[path = "rows/viewers.rs"]
mod viewer_rows;

use reference::call::{Accepted, Answer, Call, Kind, Model, Refusal};
use reference::generate::{limits, sized_script, sized_script_of, Profile};
use reference::ledger::{Ledger, Standing};
use reference::limits::Limits;
use reference::outside::{Change, Exposed};
use reference::random::Random;
use reference::script::calls;
use reference::share::{Maker, Share};
use reference::tasks::{State, Task};
use rows::check_in;
use viewer_rows::check_all;

#[test]
fn rows() {
    check_all(check_in);
}

/// Some scripts of all profiles, and more of the viewers', with the figures of their pools.
fn scripts() -> impl Iterator<Item = (Limits, u64, Vec<u8>)> {
    (0..120).flat_map(|seed| {
        let site = limits(seed);
        let mut any = sized_script(site, seed);
        any.truncate(8_000);
        let viewers = |limits| (limits, seed, sized_script_of(limits, Some(Profile::Viewers), seed, 8_000));
        [(site, seed, any), viewers(site), viewers(Limits::STANDARD)]
    })
}

/// After every call: a viewer is at local time 0, has neither ticked nor a share, and made nothing; and no prefix is longer
/// than its object.
#[test]
fn what_is_kept() {
    let mut met = 0;
    for (limits, _, script) in scripts() {
        let (mut ledger, mut room) = (Ledger::of(limits), vec![0; script.len() / 2]);
        for call in calls(&script, &mut room) {
            let _ = ledger.call(&call);
            let viewers = (0..).zip(ledger.tasks().entries()).filter(|(_, task)| task.state == State::Viewing);
            for (number, task) in viewers {
                assert_eq!(*task, Task { state: State::Viewing, ..Task::default() }, "{call:?}");
                assert!(ledger.standing().iter().all(|object| object.maker != Maker::Task(number)), "{call:?}");
                met += 1;
            }
            assert!(ledger.standing().iter().all(|Standing { block, .. }| block.prefix <= block.length), "{call:?}");
        }
    }
    assert!(met > 10_000, "{met}");
}

// The veil.

/// The call with other bytes where it writes beyond the prefix of its object, which is 0 where none stands.
fn altered<'a>(call: &Call<'a>, ledger: &Ledger, room: &'a mut Vec<u8>, mut other: impl FnMut() -> u8) -> Call<'a> {
    let Call::Write { task, handle, offset, bytes } = *call else { return *call };
    let prefix = ledger.block_of(handle).map_or(0, |block| usize::from(block.prefix));
    let seen = prefix.saturating_sub(offset.into()).min(bytes.len());
    room.extend(bytes);
    room[seen..].iter_mut().for_each(|byte| *byte = other());
    Call::Write { task, handle, offset, bytes: room }
}

/// The objects that stand, with zeros beyond their prefixes and with the sums of what is left.
fn veiled(ledger: &Ledger) -> Vec<Standing> {
    let mut standing = ledger.standing();
    for Standing { block, .. } in &mut standing {
        block.bytes[usize::from(block.prefix)..].fill(0);
        block.sum = block.bytes.iter().map(|&byte| u16::from(byte)).sum();
    }
    standing
}

/// What a running task reads may differ beyond the prefix, and no other answer.
fn check_alike(call: &Call, seen: Option<usize>, one: Answer, other: Answer) {
    match (one, other, seen) {
        (Ok(Accepted::Bytes(one)), Ok(Accepted::Bytes(other)), Some(prefix)) => {
            assert_eq!((one.len(), &one[..prefix]), (other.len(), &other[..prefix]), "{call:?}");
        }
        _ => assert_eq!(one, other, "{call:?}"),
    }
}

/// How much a viewer sees of an object that a running task reads.
fn seen_of_read(call: &Call, ledger: &Ledger) -> Option<usize> {
    let Call::Read { task, handle } = *call else { return None };
    let block = ledger.block_of(handle).filter(|_| ledger.tasks().is_running(task))?;
    Some(block.prefix.into())
}

/// How many calls came where the two runs differed, and how many reads, a viewer's or a running task's, named an object that
/// did.
#[derive(Debug, Default)]
struct Met {
    calls: usize,
    viewed: usize,
    read: usize,
}

impl Met {
    /// Before the call.
    fn note(&mut self, call: &Call, [one, other]: [&Ledger; 2]) {
        self.calls += usize::from(one.standing() != other.standing());
        let Call::Read { task, handle } = *call else { return };
        if one.block_of(handle) != other.block_of(handle) {
            self.viewed += usize::from(one.tasks().is_viewing(task));
            self.read += usize::from(one.tasks().is_running(task));
        }
    }
}

/// Three runs of a list: as it is, with other bytes beyond prefixes, and with zeros there. The last is the veil of either.
fn check_veil(limits: Limits, seed: u64, script: &[u8], met: &mut Met) {
    let [mut one, mut other, mut veil] = [(); 3].map(|()| Ledger::of(limits));
    let (mut random, mut room) = (Random::new(seed), vec![0; script.len() / 2]);
    for call in calls(script, &mut room) {
        let [mut first, mut second] = [Vec::new(), Vec::new()];
        let changed = altered(&call, &one, &mut first, || random.byte());
        let masked = altered(&call, &one, &mut second, || 0);
        let seen = seen_of_read(&call, &one);
        met.note(&call, [&one, &other]);
        let told = one.call(&call);
        check_alike(&call, seen, told, other.call(&changed));
        check_alike(&call, seen, told, veil.call(&masked));
        assert_eq!([one.tasks(), other.tasks()], [veil.tasks(); 2], "{call:?}");
        assert_eq!([one.figures(), other.figures()], [veil.figures(); 2], "{call:?}");
        assert_eq!([veiled(&one), veiled(&other)], [veil.standing(), veil.standing()], "{call:?}");
    }
}

#[test]
fn no_viewer_can_tell() {
    let mut met = Met::default();
    scripts().for_each(|(limits, seed, script)| check_veil(limits, seed, &script, &mut met));
    println!("{met:?}");
    assert!(met.calls > 20_000 && met.viewed > 1_000 && met.read > 1_000, "{met:?}");
}

/// An object of which viewers see nothing, with this byte in it, which task 0 made and which 1 views.
fn hiding(byte: u8) -> Ledger {
    let mut ledger = Ledger::fresh();
    ledger.join(0, Share::OPEN).unwrap();
    ledger.view(1).unwrap();
    ledger.make(0, Kind::Pinned, 0, 1, 0).unwrap();
    ledger.write(0, 1, 0, &[byte]).unwrap();
    ledger
}

/// With a change from outside a viewer can tell by 23; without one it cannot.
#[test]
fn why_nothing_changes_from_outside() {
    let [mut one, mut other] = [0, 1].map(hiding);
    assert_eq!([one.read(1, 1), other.read(1, 1)], [Ok(Accepted::Bytes(&[])); 2]);
    for ledger in [&mut one, &mut other] {
        ledger.disturb(Change { handle: 1, place: 0, byte: 0 });
    }
    assert_eq!([one.read(1, 1), other.read(1, 1)], [Ok(Accepted::Bytes(&[])), Err(Refusal::SumDiffers)]);
}

/// Where the counts of bytes differ, so does what is refused, and a viewer can tell.
#[test]
fn why_the_counts_are_the_same() {
    let seen = [&[7][..], &[7, 7, 7]].map(|bytes| {
        let mut ledger = hiding(0);
        ledger.make(0, Kind::Pinned, 0, 2, 1).unwrap();
        let _ = ledger.write(0, 2, 0, bytes);
        assert_eq!(ledger.read(1, 2).map(|_| ()), Ok(()));
        ledger.read(1, 2) == Ok(Accepted::Bytes(&[7]))
    });
    assert_eq!(seen, [true, false]);
}
