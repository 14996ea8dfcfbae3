//! Order 2: what batches name, and how much room they find.

use reference::call::Call;
use reference::ledger::Ledger;
use reference::limits::{Store, LARGEST_BATCH};

/// A batch of a running task, as the ledger finds it.
pub struct Asked {
    count: usize,
    extends_too_far: bool,
    /// The places of the first handle that was never given, and of the first whose object is gone.
    not_given: Option<usize>,
    gone: Option<usize>,
    /// Some object is named twice.
    twice: bool,
    stores: [bool; 2],
    /// How many expirations there is room for.
    room: usize,
}

impl Asked {
    /// No test before those of its objects refuses it.
    fn has_form(&self) -> bool {
        (1..=LARGEST_BATCH).contains(&self.count) && !self.extends_too_far
    }

    fn all_stand(&self) -> bool {
        self.has_form() && self.not_given.is_none() && self.gone.is_none()
    }

    fn is_accepted(&self) -> bool {
        self.all_stand() && self.count <= self.room
    }
}

type Situation = (&'static str, fn(&Asked) -> bool);
pub type Met = super::Met<{ SITUATIONS.len() }>;

pub const SITUATIONS: [Situation; 21] = [
    ("no object", |asked| asked.count == 0),
    ("one object", |asked| asked.is_accepted() && asked.count == 1),
    ("several objects", |asked| asked.is_accepted() && asked.count > 1),
    ("32 objects", |asked| asked.is_accepted() && asked.count == 32),
    ("33 objects that all stand", |asked| asked.count == 33 && asked.not_given.is_none() && asked.gone.is_none()),
    ("more than the longest write has bytes for", |asked| asked.count > 65),
    ("some hundred objects", |asked| asked.count >= 200),
    ("20 before 6", |asked| !(1..=LARGEST_BATCH).contains(&asked.count) && asked.extends_too_far),
    ("20 before 11 and 12", |asked| asked.count > LARGEST_BATCH && (asked.not_given.is_some() || asked.gone.is_some())),
    ("6 before 11", |asked| asked.count <= LARGEST_BATCH && asked.extends_too_far && asked.not_given.is_some()),
    ("one gone and a later one never given", |asked| {
        asked.has_form() && asked.not_given.is_some_and(|later| asked.gone.is_some_and(|gone| gone < later))
    }),
    ("one never given and a later one gone", |asked| {
        asked.has_form() && asked.gone.is_some_and(|later| asked.not_given.is_some_and(|first| first < later))
    }),
    ("one gone after some that stand", |asked| asked.has_form() && asked.not_given.is_none() && asked.gone > Some(0)),
    ("11 before 10", |asked| asked.has_form() && asked.not_given.is_some() && asked.count > asked.room),
    ("12 before 10", |asked| {
        asked.has_form() && asked.not_given.is_none() && asked.gone.is_some() && asked.count > asked.room
    }),
    ("an object named twice", |asked| asked.is_accepted() && asked.twice),
    ("objects of both stores", |asked| asked.is_accepted() && asked.stores == [true; 2]),
    ("the last room taken", |asked| asked.all_stand() && asked.count > 1 && asked.count == asked.room),
    ("one too many for the room", |asked| asked.all_stand() && asked.room > 0 && asked.count == asked.room + 1),
    ("room for some and not for all", |asked| asked.all_stand() && asked.room > 0 && asked.count > asked.room),
    ("no room for one", |asked| asked.all_stand() && asked.room == 0),
];

/// Counts the call if it is the batch of a running task. The ledger is as before the call.
pub fn note(met: &mut Met, call: &Call, ledger: &Ledger) {
    let &Call::Batch { task, extension, handles, .. } = call else { return };
    if !ledger.tasks().is_running(task) {
        return;
    }
    let (figures, limits) = (ledger.figures(), ledger.limits());
    let handles: Vec<_> = handles.iter().collect();
    let is_given = |handle: &u32| (1..=figures.given).contains(handle);
    let length = |handle: &u32| ledger.length(*handle);
    let has = |store: Store| handles.iter().filter_map(length).any(|length| Store::holding(length as u16) == Ok(store));
    let asked = Asked {
        count: handles.len(),
        extends_too_far: usize::from(extension) > limits.extension,
        not_given: handles.iter().position(|handle| !is_given(handle)),
        gone: handles.iter().position(|handle| is_given(handle) && length(handle).is_none()),
        twice: handles.iter().enumerate().any(|(place, handle)| handles[..place].contains(handle)),
        stores: [has(Store::Small), has(Store::Large)],
        room: limits.expirations - usize::from(figures.expirations),
    };
    met.note(&SITUATIONS, &asked);
}
