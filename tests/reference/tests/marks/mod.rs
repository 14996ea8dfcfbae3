//! What of the objects was changed from outside, and how often calls meet which of it.

use std::collections::{BTreeMap, BTreeSet};

use reference::call::Call;
use reference::ledger::Ledger;
use reference::limits::Store;
use reference::outside::Change;

/// A call and its answer, with the object that it uses as it was before.
pub struct Seen<'a> {
    call: &'a Call<'a>,
    /// 0 if it was accepted.
    number: usize,
    /// Its task views.
    views: bool,
    object: Option<Object>,
    /// The object is gone, and its sum differed when it went.
    went_changed: bool,
    /// The object was made after one with a sum that differed had gone from its store.
    follows: bool,
    /// The sum of an object that stands differs, of any or of one in the batch.
    some_differ: bool,
    some_named_differ: bool,
}

/// One that stands.
struct Object {
    length: usize,
    prefix: usize,
    store: Store,
    sum: usize,
    total: usize,
    /// The places whose bytes are not what the last call left there.
    places: Vec<usize>,
    /// It was changed at some time.
    changed: bool,
}

impl Seen<'_> {
    fn uses(&self) -> bool {
        self.reads() || self.writes()
    }

    fn reads(&self) -> bool {
        matches!(self.call, Call::Read { .. })
    }

    fn writes(&self) -> bool {
        matches!(self.call, Call::Write { .. })
    }

    /// The places that a write names.
    fn range(&self) -> std::ops::Range<usize> {
        match *self.call {
            Call::Write { offset, bytes, .. } => usize::from(offset)..usize::from(offset) + bytes.len(),
            _ => 0..0,
        }
    }

    /// A read or write that is refused with 23, of an object of which this holds.
    fn noticed(&self, holds: impl Fn(&Object) -> bool) -> bool {
        self.uses() && self.number == 23 && self.object.as_ref().is_some_and(holds)
    }

    /// One that is accepted, of an object of which this holds.
    fn passed(&self, holds: impl Fn(&Object) -> bool) -> bool {
        self.number == 0 && self.object.as_ref().is_some_and(holds)
    }

    /// The sum of the object that the call names differs.
    fn differs(&self) -> bool {
        self.object.as_ref().is_some_and(|object| object.sum != object.total)
    }
}

type Situation = (&'static str, fn(&Seen) -> bool);

pub const SITUATIONS: [Situation; 27] = [
    ("read, 23", |seen| seen.reads() && seen.noticed(|_| true)),
    ("write, 23", |seen| seen.writes() && seen.noticed(|_| true)),
    ("write of no byte, 23", |seen| seen.writes() && seen.range().is_empty() && seen.noticed(|_| true)),
    ("23 before 13", |seen| seen.noticed(|object| seen.range().end > object.length)),
    ("23 of a write over the one changed byte", |seen| {
        seen.noticed(|object| matches!(object.places[..], [place] if seen.range().contains(&place)))
    }),
    ("23 for one byte", |seen| seen.noticed(|object| object.places.len() == 1)),
    ("23 for several", |seen| seen.noticed(|object| object.places.len() > 2)),
    ("23 for bytes beyond the object", |seen| {
        seen.noticed(|object| object.places.iter().all(|&place| place >= object.length))
    }),
    ("23, the sum too low", |seen| seen.noticed(|object| object.sum < object.total)),
    ("23, the sum too high", |seen| seen.noticed(|object| object.sum > object.total)),
    ("23 in a small block", |seen| seen.noticed(|object| object.store == Store::Small)),
    ("23 in a large block", |seen| seen.noticed(|object| object.store == Store::Large)),
    ("23 by one unit", |seen| seen.noticed(|object| object.sum.abs_diff(object.total) == 1)),
    ("3 or 4 before 23", |seen| seen.uses() && (3..=4).contains(&seen.number) && seen.differs()),
    ("27 before 23", |seen| seen.writes() && seen.number == 27 && seen.differs()),
    ("a viewer's read, 23", |seen| seen.views && seen.noticed(|_| true)),
    ("a viewer's read, 23 for bytes that it does not see", |seen| {
        seen.views && seen.noticed(|object| object.places.iter().all(|&place| place >= object.prefix))
    }),
    ("12 before 23", |seen| seen.uses() && seen.number == 12 && seen.went_changed),
    ("remaining life", |seen| matches!(seen.call, Call::Remaining { .. }) && seen.number == 0 && seen.differs()),
    ("refreshed", |seen| matches!(seen.call, Call::Refresh { .. }) && seen.number == 0 && seen.differs()),
    ("in a batch", |seen| matches!(seen.call, Call::Batch { .. }) && seen.number == 0 && seen.some_named_differ),
    ("released", |seen| matches!(seen.call, Call::Release { .. }) && seen.number == 0 && seen.differs()),
    ("22", |seen| matches!(seen.call, Call::Release { .. }) && seen.number == 22 && seen.differs()),
    ("reported", |seen| *seen.call == Call::Report && seen.some_differ),
    ("two cancel, and it is used", |seen| seen.uses() && seen.passed(|object| !object.places.is_empty())),
    ("put back, and it is used", |seen| {
        seen.uses() && seen.passed(|object| object.changed && object.places.is_empty())
    }),
    ("a later one in its store is used", |seen| seen.uses() && seen.number == 0 && seen.follows),
];

/// The changes of a list of calls, from its start on.
#[derive(Default)]
pub struct Marks {
    /// Of each object that was changed: what the last call left in the places that are now otherwise.
    left: BTreeMap<u32, BTreeMap<usize, u8>>,
    went_changed: BTreeSet<u32>,
    /// By store: whether one has gone so, and none was made since.
    freed: [bool; 2],
    follow: BTreeSet<u32>,
}

impl Marks {
    /// The ledger is as before the change.
    pub fn change(&mut self, change: Change, ledger: &Ledger) {
        let Some(block) = ledger.block_of(change.handle) else { return };
        let left = self.left.entry(change.handle).or_default();
        let was = *left.entry(change.place).or_insert(block.bytes[change.place]);
        if was == change.byte {
            left.remove(&change.place);
        }
    }

    /// The ledger is as before the call.
    pub fn before<'a>(&self, call: &'a Call<'a>, ledger: &Ledger) -> Seen<'a> {
        let named = call.objects();
        let handle = named.first().copied().unwrap_or(0);
        let object = ledger.block_of(handle).map(|block| Object {
            length: usize::from(block.length),
            prefix: usize::from(block.prefix),
            store: Store::holding(block.length).expect("a length of some store"),
            sum: usize::from(block.sum),
            total: block.bytes.iter().copied().map(usize::from).sum(),
            places: self.left.get(&handle).map_or(Vec::new(), |left| left.keys().copied().collect()),
            changed: self.left.contains_key(&handle),
        });
        let differs = |handle: &u32| ledger.block_of(*handle).is_some_and(|block| !block.is_intact());
        Seen {
            call,
            number: 0,
            views: call.task().is_some_and(|task| ledger.tasks().is_viewing(task)),
            object,
            went_changed: self.went_changed.contains(&handle),
            follows: self.follow.contains(&handle),
            some_differ: self.left.keys().any(differs),
            some_named_differ: named.iter().any(differs),
        }
    }

    /// Counts the call. The ledgers are as before it and after it.
    pub fn note(&mut self, met: &mut [usize; SITUATIONS.len()], seen: Seen, number: usize, ledgers: [&Ledger; 2]) {
        let seen = Seen { number, ..seen };
        for (met, (_, holds)) in met.iter_mut().zip(SITUATIONS) {
            *met += usize::from(holds(&seen));
        }
        if number != 0 {
            return;
        }
        match *seen.call {
            Call::Write { handle, .. } => {
                let range = seen.range();
                self.left.entry(handle).and_modify(|left| left.retain(|place, _| !range.contains(place)));
            }
            Call::Make { length, .. } => {
                let store = Store::holding(length).expect("it was made");
                if std::mem::take(&mut self.freed[store as usize]) {
                    self.follow.insert(ledgers[1].figures().given);
                }
            }
            _ => self.note_gone(ledgers),
        }
    }

    fn note_gone(&mut self, [before, after]: [&Ledger; 2]) {
        let gone: Vec<_> = self.left.keys().copied().filter(|&handle| after.block_of(handle).is_none()).collect();
        for handle in gone {
            self.left.remove(&handle);
            let block = before.block_of(handle).expect("what is marked stands before the call");
            if !block.is_intact() {
                self.went_changed.insert(handle);
                self.freed[Store::holding(block.length).expect("a length of some store") as usize] = true;
            }
        }
    }
}
