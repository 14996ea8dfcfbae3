//! Order 5: what is pinned, what it outlives, who releases it, and what pins nothing.

use std::collections::{BTreeMap, BTreeSet};

use reference::call::{Call, Kind};
use reference::ledger::Ledger;
use reference::limits::{Limits, Store, LARGEST_BATCH, LONGEST};

/// An object that is pinned, and what it has seen.
#[derive(Clone, Copy, Debug)]
struct Pin {
    maker: u8,
    maker_left: bool,
    store: Store,
    advances: usize,
    /// How many expirations it has.
    count: usize,
}

/// What the ledger has before a call.
pub struct Before {
    limits: Limits,
    global: u64,
    expirations: usize,
    standing: [usize; 2],
    /// Of the objects that the call names: some were never given, some are gone.
    some_never: bool,
    some_gone: bool,
    /// The one object that it names, if it stands, and whether it was released.
    object: Option<Pin>,
    released: bool,
    pinned: Vec<(u32, Pin)>,
}

/// A call and its answer.
pub struct Seen<'a> {
    call: &'a Call<'a>,
    /// 0 if it was accepted.
    number: usize,
    before: Before,
    /// After a leave, block or tick: the pinned objects as they were before.
    outlived: Vec<Outlived>,
    all_left: bool,
}

struct Outlived {
    pin: Pin,
    count: usize,
    maker_waits: bool,
    advanced: bool,
}

impl Seen<'_> {
    /// A make that would pin, with this answer.
    fn makes(&self, number: usize) -> bool {
        matches!(self.call, Call::Make { kind: Kind::Pinned, .. }) && self.number == number
    }

    fn releases(&self, number: usize) -> bool {
        matches!(self.call, Call::Release { .. }) && self.number == number
    }

    /// The extension of a refresh or a batch that would pin, by a running task: 20 or 21 is its answer.
    fn extension_in_vain(&self) -> Option<u8> {
        match *self.call {
            Call::Refresh { kind: Kind::Pinned, extension, .. } if self.number == 21 => Some(extension),
            Call::Batch { kind: Kind::Pinned, extension, .. } if self.number == 21 => Some(extension),
            _ => None,
        }
    }

    fn refreshes_in_vain(&self) -> bool {
        matches!(self.call, Call::Refresh { .. }) && self.extension_in_vain().is_some()
    }

    fn batches_in_vain(&self) -> bool {
        matches!(self.call, Call::Batch { .. }) && self.extension_in_vain().is_some()
    }

    fn has_no_room(&self) -> bool {
        let count = if let Call::Batch { handles, .. } = self.call { handles.count() } else { 1 };
        self.before.expirations + count > self.before.limits.expirations
    }

    fn pinned_in(&self, store: Store) -> usize {
        self.before.pinned.iter().filter(|(_, pin)| pin.store == store).count()
    }

    /// What pins an object is all that has it stand.
    fn alone(&self) -> impl Iterator<Item = &Outlived> {
        self.outlived.iter().filter(|one| one.pin.count == 1)
    }

    fn task(&self) -> Option<u8> {
        match *self.call {
            Call::Release { task, .. } | Call::Leave { task } => Some(task),
            _ => None,
        }
    }

    fn released(&self, holds: impl Fn(&Pin) -> bool) -> bool {
        self.releases(0) && self.before.object.as_ref().is_some_and(holds)
    }
}

type Situation = (&'static str, fn(&Seen) -> bool);
pub type Met = super::Met<{ SITUATIONS.len() }>;

pub const SITUATIONS: [Situation; 32] = [
    ("made", |seen| seen.makes(0)),
    ("made with an extension", |seen| {
        let longest = seen.before.limits.extension;
        seen.makes(6)
            && matches!(seen.call, Call::Make { extension, .. } if (1..=longest).contains(&(*extension).into()))
    }),
    ("6 before 7", |seen| {
        seen.makes(6) && matches!(seen.call, Call::Make { length, .. } if !(1..=LONGEST).contains(length))
    }),
    ("all blocks pinned, and 9", |seen| {
        let full = |store: Store| seen.pinned_in(store) == seen.before.limits.blocks(store);
        seen.makes(9) && matches!(seen.call, Call::Make { length, .. } if Store::holding(*length).is_ok_and(full))
    }),
    ("10", |seen| seen.makes(10)),
    ("an advance", |seen| seen.alone().any(|one| one.advanced)),
    ("more advances than any extension", |seen| seen.alone().any(|one| one.advanced && one.pin.advances > 32)),
    ("a leave of its maker", |seen| seen.alone().any(|one| !one.pin.maker_left && seen.task() == Some(one.pin.maker))),
    ("an advance, and its maker waits", |seen| seen.alone().any(|one| one.advanced && one.maker_waits)),
    ("no task is left", |seen| seen.all_left && seen.alone().next().is_some()),
    ("its others end", |seen| seen.outlived.iter().any(|one| one.pin.count > 1 && one.count == 1)),
    ("remaining life of nothing else", |seen| {
        let alone = seen.before.object.is_some_and(|pin| pin.count == 1);
        matches!(seen.call, Call::Remaining { .. }) && seen.number == 0 && alone
    }),
    ("refreshed", |seen| matches!(seen.call, Call::Refresh { .. }) && seen.number == 0 && seen.before.object.is_some()),
    ("in a batch", |seen| {
        let is_pinned = |handle: u32| seen.before.pinned.iter().any(|&(other, _)| other == handle);
        let some = matches!(seen.call, Call::Batch { handles, .. } if handles.iter().any(is_pinned));
        seen.number == 0 && some
    }),
    ("released by its maker", |seen| seen.released(|pin| !pin.maker_left && seen.task() == Some(pin.maker))),
    ("released by another", |seen| seen.released(|pin| seen.task() != Some(pin.maker))),
    ("released after its maker has left", |seen| seen.released(|pin| pin.maker_left)),
    ("released, and others stand", |seen| seen.released(|pin| pin.count > 1)),
    ("released, and gone", |seen| seen.released(|pin| pin.count == 1)),
    ("released where its store was full", |seen| {
        let blocks = |pin: &Pin| seen.before.limits.blocks(pin.store);
        seen.released(|pin| pin.count == 1 && seen.before.standing[pin.store as usize] == blocks(pin))
    }),
    ("released where no more could stand", |seen| {
        seen.released(|_| seen.before.expirations == seen.before.limits.expirations)
    }),
    ("released again, 22", |seen| seen.releases(22) && seen.before.released),
    ("released again, 12", |seen| seen.releases(12) && seen.before.released),
    ("never pinned, 22", |seen| seen.releases(22) && !seen.before.released),
    ("refresh, 21 before 6", |seen| seen.refreshes_in_vain() && seen.extension_in_vain() > Some(0)),
    ("refresh, 21 before 11", |seen| seen.refreshes_in_vain() && seen.before.some_never),
    ("refresh, 21 before 12", |seen| seen.refreshes_in_vain() && seen.before.some_gone),
    ("batch, 20 before 21", |seen| {
        let kind =
            matches!(seen.call, Call::Batch { kind: Kind::Pinned, handles, .. } if handles.count() > LARGEST_BATCH);
        kind && seen.number == 20
    }),
    ("batch, 21 before 6", |seen| seen.batches_in_vain() && seen.extension_in_vain() > Some(0)),
    ("batch, 21 before 11", |seen| seen.batches_in_vain() && seen.before.some_never),
    ("batch, 21 before 12", |seen| seen.batches_in_vain() && seen.before.some_gone),
    ("21 before 10", |seen| seen.extension_in_vain().is_some() && seen.has_no_room()),
];

/// The pinned objects of a script, from its start on.
#[derive(Default)]
pub struct Pins {
    pinned: BTreeMap<u32, Pin>,
    released: BTreeSet<u32>,
}

impl Pins {
    /// The ledger is as before the call.
    pub fn before(&self, call: &Call, ledger: &Ledger) -> Before {
        let (named, figures) = (call.objects(), ledger.figures());
        let is_given = |&handle: &u32| (1..=figures.given).contains(&handle);
        let handle = named.first().copied().unwrap_or(0);
        Before {
            limits: ledger.limits(),
            global: ledger.tasks().global(),
            expirations: usize::from(figures.expirations),
            standing: [usize::from(figures.small), usize::from(figures.large)],
            some_never: !named.iter().all(is_given),
            some_gone: named.iter().any(|handle| is_given(handle) && ledger.length(*handle).is_none()),
            object: self.pinned.get(&handle).copied(),
            released: self.released.contains(&handle),
            pinned: self.pinned.iter().map(|(&handle, &pin)| (handle, pin)).collect(),
        }
    }

    /// Counts the call. The ledger is as after it.
    pub fn note(&mut self, met: &mut Met, call: &Call, number: usize, before: Before, ledger: &Ledger) {
        let advanced = ledger.tasks().global() != before.global;
        let moves = matches!(call, Call::Leave { .. } | Call::Block { .. } | Call::Tick { .. }) && number == 0;
        let outlived = |(&handle, pin): (&u32, &Pin)| Outlived {
            pin: *pin,
            count: ledger.expirations_of(handle).len(),
            maker_waits: !pin.maker_left && ledger.tasks().is_waiting(pin.maker),
            advanced,
        };
        let outlived = if moves { self.pinned.iter().map(outlived).collect() } else { Vec::new() };
        let is_there = |task: u8| ledger.tasks().is_running(task) || ledger.tasks().is_waiting(task);
        let all_left = moves && !(0..16).any(is_there);
        let seen = Seen { call, number, before, outlived, all_left };
        met.note(&SITUATIONS, &seen);
        if number == 0 {
            self.follow(call, advanced, ledger);
        }
    }

    fn follow(&mut self, call: &Call, advanced: bool, ledger: &Ledger) {
        match *call {
            Call::Make { task: maker, kind: Kind::Pinned, length, .. } => {
                let store = Store::holding(length).expect("a length that was accepted");
                let pin = Pin { maker, maker_left: false, store, advances: 0, count: 1 };
                self.pinned.insert(ledger.figures().given, pin);
            }
            Call::Release { handle, .. } => {
                self.pinned.remove(&handle);
                self.released.insert(handle);
            }
            Call::Leave { task } => {
                let of_leaver = self.pinned.values_mut().filter(|pin| pin.maker == task);
                of_leaver.for_each(|pin| pin.maker_left = true);
            }
            _ => {}
        }
        for (&handle, pin) in &mut self.pinned {
            pin.advances += usize::from(advanced);
            pin.count = ledger.expirations_of(handle).len();
        }
    }
}
