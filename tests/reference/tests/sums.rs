//! Order 6, bytes changed from outside, by hand: on the ledger, and on the heap while the object stands.

use reference::call::{packed, Accepted, Call, Handles, Kind, Lifetime, Model, Refusal};
use reference::heap::Heap;
use reference::ledger::Ledger;
use reference::outside::{Change, Exposed};
use reference::share::Share;

const LOCAL: Kind = Kind::Local;

/// Tasks 0 and 1 run, and object 1 stands for three ticks of task 0. Its bytes are 1, 2, 3 and so on.
fn started<M: Exposed>(length: u16) -> M {
    let mut model = M::fresh();
    (0..2).for_each(|task| assert_eq!(model.join(task, Share::OPEN), Ok(Accepted::Done)));
    assert_eq!(model.make(0, LOCAL, 2, length, 0), Ok(Accepted::Handle(1)));
    assert_eq!(model.write(0, 1, 0, &own(length)), Ok(Accepted::Done));
    model
}

fn own(length: u16) -> Vec<u8> {
    (1..=length).map(|byte| byte as u8).collect()
}

fn change(place: usize, byte: u8) -> Change {
    Change { handle: 1, place, byte }
}

fn size(length: u16) -> usize {
    if length > 32 {
        256
    } else {
        32
    }
}

/// Reads and writes of object 1 by a running task, of every form, are refused with this.
fn all_refused<M: Exposed>(model: &mut M, refusal: Refusal) {
    for task in 0..2 {
        assert_eq!(model.read(task, 1), Err(refusal));
        for (offset, bytes) in [(0, &[][..]), (0, &[1]), (0, &[1, 2, 3]), (255, &[9, 9]), (0, &[0; 256])] {
            assert_eq!(model.write(task, 1, offset, bytes), Err(refusal), "{offset}");
        }
    }
}

/// Any place of the block, the object's and those beyond it, to the next value, to the last and to one far off.
fn one_byte_is_noticed<M: Exposed>() {
    for length in [1, 5, 31, 32, 33, 200, 255, 256] {
        let before: M = started(length);
        for place in 0..size(length) {
            let byte = own(length).get(place).copied().unwrap_or(0);
            for other in [byte.wrapping_add(1), byte.wrapping_sub(1), !byte] {
                let mut model = before.clone();
                model.disturb(change(place, other));
                assert_eq!(model.read(1, 1), Err(Refusal::SumDiffers), "{length}, {place}");
                assert_eq!(model.write(0, 1, 0, &[]), Err(Refusal::SumDiffers), "{length}, {place}");
                model.disturb(change(place, byte));
                assert_eq!(model.read(1, 1), Ok(Accepted::Bytes(&own(length))), "{length}, {place}");
            }
        }
    }
}

/// Also a write that would have put the byte right.
fn it_stays_refused_and_changes_nothing<M: Exposed>() {
    let mut model: M = started(4);
    model.disturb(change(2, 9));
    all_refused(&mut model, Refusal::SumDiffers);
    assert_eq!(model.write(0, 1, 2, &[3]), Err(Refusal::SumDiffers));
    assert_eq!(model.write(0, 1, 0, &own(4)), Err(Refusal::SumDiffers));
    all_refused(&mut model, Refusal::SumDiffers);
    model.disturb(change(2, 3));
    assert_eq!(model.read(0, 1), Ok(Accepted::Bytes(&own(4))));
}

fn the_order_of_tests<M: Exposed>() {
    let mut model: M = started(4);
    model.disturb(change(31, 1));
    assert_eq!(model.block(1), Ok(Accepted::Advanced(false)));
    for (task, refusal) in [(16, Refusal::TaskAbove15), (2, Refusal::TaskAbsent), (1, Refusal::TaskWaiting)] {
        assert_eq!(model.read(task, 1), Err(refusal));
        assert_eq!(model.write(task, 1, 4, &[1]), Err(refusal));
    }
    for handle in [0, 2] {
        assert_eq!(model.read(0, handle), Err(Refusal::HandleNotGiven));
        assert_eq!(model.write(0, handle, 4, &[1]), Err(Refusal::HandleNotGiven));
    }
    assert_eq!(model.write(0, 1, 4, &[1]), Err(Refusal::SumDiffers));
    model.disturb(change(31, 0));
    assert_eq!(model.write(0, 1, 4, &[1]), Err(Refusal::RangeAboveLength));
}

/// Two changes in the object, one in it and one beyond, and two beyond. What a read then tells is what is there.
fn two_that_cancel_are_not_noticed<M: Exposed>() {
    for (down, up, told) in [(3, 0, [2, 2, 3, 3]), (1, 20, [1, 1, 3, 4]), (0, 31, [0, 2, 3, 4])] {
        let mut model: M = started(4);
        model.disturb(change(down, own(4)[down] - 1));
        assert_eq!(model.read(0, 1), Err(Refusal::SumDiffers));
        model.disturb(change(up, own(4).get(up).map_or(1, |byte| byte + 1)));
        assert_eq!(model.read(0, 1), Ok(Accepted::Bytes(&told)));
        assert_eq!(model.write(0, 1, 4, &[1]), Err(Refusal::RangeAboveLength));
        assert_eq!(model.write(0, 1, 0, &[7]), Ok(Accepted::Done));
        assert_eq!(model.read(0, 1), Ok(Accepted::Bytes(&[7, told[1], told[2], told[3]])));
        model.disturb(change(31, 99));
        all_refused(&mut model, Refusal::SumDiffers);
    }
}

/// 255 in all 256 bytes.
fn the_greatest_sum<M: Exposed>() {
    let mut model: M = started(256);
    assert_eq!(model.write(0, 1, 0, &[255; 256]), Ok(Accepted::Done));
    assert_eq!(model.read(0, 1), Ok(Accepted::Bytes(&[255; 256])));
    model.disturb(change(255, 0));
    all_refused(&mut model, Refusal::SumDiffers);
    model.disturb(change(255, 255));
    assert_eq!(model.write(0, 1, 0, &[0; 256]), Ok(Accepted::Done));
    model.disturb(change(128, 255));
    all_refused(&mut model, Refusal::SumDiffers);
}

/// The others answer as if nothing had changed, and the object goes when it would have gone; from then on it is 12.
fn the_other_calls_and_the_end() {
    let mut model: Ledger = started(4);
    model.disturb(change(0, 200));
    assert_eq!(model.remaining(0, 1), Ok(Accepted::Remaining(Lifetime { local: 3, global: 0 })));
    assert_eq!(model.refresh(0, LOCAL, 0, 1), Ok(Accepted::Done));
    assert_eq!(model.batch(0, LOCAL, 0, Handles(&packed(&[1, 1]))), Ok(Accepted::Done));
    assert_eq!(model.release(0, 1), Err(Refusal::NotPinned));
    let report = |model: &Ledger, objects: u8, expirations: u16, given: u32| {
        let figures = reference::call::Figures { small: objects, large: 0, expirations, given };
        assert_eq!(model.report(), Ok(Accepted::Report(figures)));
    };
    report(&model, 1, 4, 1);
    for _ in 0..2 {
        assert_eq!(model.tick(0), Ok(Accepted::Advanced(false)));
        all_refused(&mut model, Refusal::SumDiffers);
    }
    report(&model, 1, 1, 1);
    assert_eq!(model.tick(0), Ok(Accepted::Advanced(false)));
    all_refused(&mut model, Refusal::ObjectGone);
    report(&model, 0, 0, 1);
    // The next object, in the same block or another, has zeros and their sum.
    assert_eq!(model.make(0, Kind::Pinned, 0, 32, 0), Ok(Accepted::Handle(2)));
    assert_eq!(model.read(0, 2), Ok(Accepted::Bytes(&[0; 32])));
    assert_eq!(model.write(0, 2, 31, &[5]), Ok(Accepted::Done));
    model.disturb(Change { handle: 2, place: 31, byte: 4 });
    assert_eq!(model.read(0, 2), Err(Refusal::SumDiffers));
    assert_eq!(model.release(1, 2), Ok(Accepted::Done));
    assert_eq!(model.read(0, 2), Err(Refusal::ObjectGone));
    all_refused(&mut model, Refusal::ObjectGone);
}

/// A change in one block is nothing to another.
fn the_other_objects<M: Exposed>() {
    let mut model: M = started(4);
    assert_eq!(model.make(1, LOCAL, 0, 4, 0), Ok(Accepted::Handle(2)));
    assert_eq!(model.make(1, LOCAL, 0, 256, 0), Ok(Accepted::Handle(3)));
    model.disturb(change(0, 200));
    assert_eq!(model.write(0, 2, 0, &[200]), Ok(Accepted::Done));
    assert_eq!(model.read(0, 2), Ok(Accepted::Bytes(&[200, 0, 0, 0])));
    assert_eq!(model.read(0, 3), Ok(Accepted::Bytes(&[0; 256])));
    assert_eq!(model.read(0, 1), Err(Refusal::SumDiffers));
}

/// What the ledger and the heap have in common.
fn all_while_it_stands<M: Exposed>() {
    one_byte_is_noticed::<M>();
    it_stays_refused_and_changes_nothing::<M>();
    the_order_of_tests::<M>();
    two_that_cancel_are_not_noticed::<M>();
    the_greatest_sum::<M>();
    the_other_objects::<M>();
}

#[test]
fn of_the_ledger() {
    all_while_it_stands::<Ledger>();
    the_other_calls_and_the_end();
}

/// On the heap no object goes, so that there 23 stays where the ledger comes to 12. No list of calls tells them apart by it.
#[test]
fn of_the_heap() {
    all_while_it_stands::<Heap>();
    let mut heap: Heap = started(4);
    heap.disturb(change(0, 200));
    (0..3).for_each(|_| assert_eq!(heap.call(&Call::Tick { task: 0 }), Ok(Accepted::Advanced(false))));
    all_refused(&mut heap, Refusal::SumDiffers);
}
