//! Tests of the ledger at clocks and counts that no script lives to see, with the scope paper's figures and
//! with small ones.

use crate::call::{packed, Accepted, Call, Handles, Kind, Lifetime, Model, Refusal};
use crate::ledger::Ledger;
use crate::limits::{Limits, Store};
use crate::share::{Quota, Share};

const MAKE: Call = Call::Make { task: 0, kind: Kind::Local, extension: 0, length: 4, prefix: 0 };
const TICK: Call = Call::Tick { task: 0 };
const READ: Call = Call::Read { task: 0, handle: 1 };

/// As few as these tests need.
const FEW: Limits = Limits { small_blocks: 2, large_blocks: 1, expirations: 3, extension: 1 };

const POOLS: [Limits; 2] = [Limits::STANDARD, FEW];

/// Task 0 runs, at a late clock and after so many handles.
fn started(limits: Limits, clock: u64, given: u32) -> Ledger {
    let mut ledger = Ledger::of(limits);
    ledger.join(0, Share::OPEN).unwrap();
    *ledger.tasks_mut().clock_mut(0) = clock;
    *ledger.given_mut() = given;
    ledger
}

/// Edge 13: the ledger's clock goes on where a 32-bit one would read 0.
#[test]
fn local_expiration_set_at_the_highest_32_bit_clock() {
    for limits in POOLS {
        let mut ledger = started(limits, u64::from(u32::MAX), 0);
        assert_eq!(ledger.call(&MAKE), Ok(Accepted::Handle(1)));
        assert_eq!(ledger.call(&READ), Ok(Accepted::Bytes(&[0; 4])));
        assert_eq!(ledger.remaining(0, 1), Ok(Accepted::Remaining(Lifetime { local: 1, global: 0 })));
        assert_eq!(ledger.call(&TICK), Ok(Accepted::Advanced(true)));
        assert_eq!(ledger.call(&READ), Err(Refusal::ObjectGone));
        assert_eq!(ledger.tasks().clock(0) as u32, 0);
    }
}

/// Order 4: what waits is put off beyond a global time of 32 bits, and what counts goes there.
#[test]
fn a_setter_waits_across_the_highest_32_bit_global_time() {
    for limits in POOLS {
        let mut ledger = started(limits, 0, 0);
        ledger.join(1, Share::OPEN).unwrap();
        *ledger.tasks_mut().global_mut() = u64::from(u32::MAX) - 1;
        for task in [0, 1] {
            ledger.make(task, Kind::Global, 0, 4, 0).unwrap();
        }
        assert_eq!(ledger.block(0), Ok(Accepted::Advanced(false)));
        for expected in [Ok(Accepted::Remaining(Lifetime { local: 0, global: 1 })), Err(Refusal::ObjectGone)] {
            assert_eq!(ledger.tick(1), Ok(Accepted::Advanced(true)));
            assert_eq!(ledger.remaining(1, 1), Ok(Accepted::Remaining(Lifetime { local: 0, global: 2 })));
            assert_eq!(ledger.remaining(1, 2), expected);
        }
        assert_eq!(ledger.tasks().global() as u32, 0);
    }
}

/// Order 5: whatever the clocks read, what is pinned stands.
#[test]
fn a_pinned_object_stands_across_the_highest_32_bit_clocks() {
    for limits in POOLS {
        let mut ledger = started(limits, u64::from(u32::MAX), 0);
        *ledger.tasks_mut().global_mut() = u64::from(u32::MAX) - 1;
        ledger.make(0, Kind::Pinned, 0, 4, 0).unwrap();
        for _ in 0..40 {
            assert_eq!(ledger.call(&TICK), Ok(Accepted::Advanced(true)));
            assert_eq!(ledger.remaining(0, 1), Ok(Accepted::Remaining(Lifetime { local: 0, global: 0 })));
        }
        assert_eq!(ledger.release(0, 1), Ok(Accepted::Done));
        assert_eq!(ledger.call(&READ), Err(Refusal::ObjectGone));
    }
}

#[test]
fn after_the_highest_handle_all_are_given() {
    for limits in POOLS {
        let mut ledger = started(limits, 0, u32::MAX - 1);
        assert_eq!(ledger.call(&MAKE), Ok(Accepted::Handle(u32::MAX)));
        assert_eq!(ledger.call(&MAKE), Err(Refusal::AllHandlesGiven));
        assert_eq!(ledger.read(0, u32::MAX), Ok(Accepted::Bytes(&[0; 4])));
        let (given, last) = (packed(&[u32::MAX - 1, u32::MAX]), packed(&[u32::MAX; 2]));
        assert_eq!(ledger.batch(0, Kind::Local, 1, Handles(&given)), Err(Refusal::ObjectGone));
        assert_eq!(ledger.batch(0, Kind::Local, 1, Handles(&last)), Ok(Accepted::Done));
        assert_eq!(ledger.remaining(0, u32::MAX), Ok(Accepted::Remaining(Lifetime { local: 2, global: 0 })));
    }
}

#[test]
fn all_handles_given_is_told_after_a_bad_length_and_before_a_full_store() {
    for limits in POOLS {
        let mut ledger = started(limits, 0, 0);
        for _ in 0..limits.blocks(Store::Small) {
            ledger.call(&MAKE).unwrap();
        }
        *ledger.given_mut() = u32::MAX;
        assert_eq!(ledger.call(&MAKE), Err(Refusal::AllHandlesGiven));
        assert_eq!(ledger.make(0, Kind::Local, 0, 257, 0), Err(Refusal::LengthOutOfRange));
    }
}

/// Order 9: 8 before 26 and before 9, with a limit of 0 and with all blocks held back.
#[test]
fn all_handles_given_is_told_before_what_shares_refuse() {
    for limits in POOLS {
        let mut ledger = started(limits, 0, u32::MAX);
        ledger.join(1, Share::NONE).unwrap();
        let all = Quota { reserve: limits.small_blocks as u8, limit: u8::MAX };
        ledger.join(2, Share { small: all, large: Quota::NONE }).unwrap();
        for task in 0..3 {
            assert_eq!(ledger.make(task, Kind::Local, 0, 4, 0), Err(Refusal::AllHandlesGiven));
        }
        *ledger.given_mut() = u32::MAX - 1;
        assert_eq!(ledger.call(&MAKE), Err(Refusal::NoFreeBlock));
        assert_eq!(ledger.make(1, Kind::Local, 0, 4, 0), Err(Refusal::AtLimit));
        assert_eq!(ledger.make(2, Kind::Local, 0, 4, 0), Ok(Accepted::Handle(u32::MAX)));
    }
}

/// Order 10: 28 before 8.
#[test]
fn too_long_a_prefix_is_told_before_all_handles_given() {
    for limits in POOLS {
        let mut ledger = started(limits, 0, u32::MAX);
        assert_eq!(ledger.make(0, Kind::Local, 0, 4, 5), Err(Refusal::PrefixTooLong));
        assert_eq!(ledger.make(0, Kind::Local, 0, 4, 4), Err(Refusal::AllHandlesGiven));
        assert_eq!(ledger.make(0, Kind::Local, 0, 257, 258), Err(Refusal::LengthOutOfRange));
    }
}
