//! Order 4: what is put off at an advance and what counts on, and whose setter departs.

use reference::call::Call;
use reference::expiration::{Remaining, Setter};
use reference::ledger::Ledger;
use reference::limits::TASKS;

/// An accepted leave, block or tick: what it finds, and who waits after it.
pub struct Seen {
    task: u8,
    is_leave: bool,
    is_block: bool,
    has_waited: bool,
    advanced: bool,
    /// Before the call: the setters of the local expirations, and those of the global ones with what remains.
    locals: Vec<u8>,
    globals: Vec<(Setter, u64)>,
    waiting: [bool; TASKS],
    /// The advances that a task has waited through, with this one.
    waited: [u64; TASKS],
    /// The most that remained to an expiration whose setter departed, by the number that it had.
    departed: [u64; TASKS],
}

impl Seen {
    /// The setters of what the advance puts off, and what remains to each.
    fn put_off(&self) -> impl Iterator<Item = (u8, u64)> + '_ {
        self.globals.iter().filter_map(|&(setter, units)| match setter {
            Setter::Task(task) if self.advanced && self.waiting[usize::from(task)] => Some((task, units)),
            _ => None,
        })
    }

    /// What remained to the expirations of a former task of a number that waits now.
    fn counts_on(&self) -> impl Iterator<Item = u64> + '_ {
        let of_waiting = self.departed.iter().zip(&self.waiting).filter(|(_, &waiting)| self.advanced && waiting);
        of_waiting.map(|(&units, _)| units).filter(|&units| units > 0)
    }

    /// Whether another global one goes at this advance.
    fn some_go(&self) -> bool {
        let is_put_off = |setter: Setter| matches!(setter, Setter::Task(task) if self.waiting[usize::from(task)]);
        self.advanced && self.globals.iter().any(|&(setter, units)| units == 1 && !is_put_off(setter))
    }

    fn has_set(&self, task: u8) -> bool {
        self.globals.iter().any(|&(setter, _)| setter == Setter::Task(task))
    }
}

type Situation = (&'static str, fn(&Seen) -> bool);
pub type Met = super::Met<{ SITUATIONS.len() }>;

pub const SITUATIONS: [Situation; 15] = [
    ("one is put off", |seen| seen.put_off().next().is_some()),
    ("one that would be due", |seen| seen.put_off().any(|(_, units)| units == 1)),
    ("one with 32 units left", |seen| seen.put_off().any(|(_, units)| units == 32)),
    ("by a second advance", |seen| seen.put_off().any(|(task, _)| seen.waited[usize::from(task)] >= 2)),
    ("one that would be gone by now", |seen| {
        seen.put_off().any(|(task, units)| seen.waited[usize::from(task)] > units)
    }),
    ("by the setter's own block", |seen| seen.is_block && seen.put_off().any(|(task, _)| task == seen.task)),
    ("by the setter's own block, and would be due", |seen| {
        seen.is_block && seen.put_off().any(|(task, units)| task == seen.task && units == 1)
    }),
    ("one is put off and another goes", |seen| seen.put_off().next().is_some() && seen.some_go()),
    ("of two setters", |seen| {
        let mut setters = seen.put_off().map(|(task, _)| task);
        setters.next().is_some_and(|first| setters.any(|other| other != first))
    }),
    ("a local one of a task that waits", |seen| {
        seen.advanced && seen.locals.iter().any(|&setter| seen.waiting[usize::from(setter)])
    }),
    ("a setter leaves while it waits", |seen| seen.is_leave && seen.has_waited && seen.has_set(seen.task)),
    ("a setter's leave advances", |seen| seen.is_leave && seen.advanced && seen.has_set(seen.task)),
    ("another of its number waits", |seen| seen.counts_on().next().is_some()),
    ("another of its number waits, and it goes", |seen| seen.counts_on().any(|units| units == 1)),
    ("another of its number waits, and has set one", |seen| {
        let both = |task: u8| seen.waiting[usize::from(task)] && seen.departed[usize::from(task)] > 0;
        seen.advanced && (0..TASKS as u8).any(|task| both(task) && seen.has_set(task))
    }),
];

/// The setters of a script, from its start on.
#[derive(Default)]
pub struct Setters {
    waited: [u64; TASKS],
    departed: [u64; TASKS],
}

/// What is looked at before a call.
pub struct Before {
    global: u64,
    locals: Vec<u8>,
    globals: Vec<(Setter, u64)>,
    waiting: [bool; TASKS],
}

impl Before {
    /// The expirations only where a task waits, or may after the call, and where one leaves.
    pub fn of(call: &Call, ledger: &Ledger) -> Before {
        let waiting = waiting(ledger);
        let looks = match call {
            Call::Leave { .. } | Call::Block { .. } => true,
            Call::Tick { .. } => waiting.contains(&true),
            _ => false,
        };
        let (mut locals, mut globals) = (Vec::new(), Vec::new());
        let standing = if looks { ledger.standing() } else { Vec::new() };
        for remaining in standing.into_iter().flat_map(|object| object.expirations) {
            match remaining {
                Remaining::Local { setter, .. } => locals.push(setter),
                Remaining::Global { setter, units } => globals.push((setter, units)),
                Remaining::Pinned => {}
            }
        }
        Before { global: ledger.tasks().global(), locals, globals, waiting }
    }
}

fn waiting(ledger: &Ledger) -> [bool; TASKS] {
    std::array::from_fn(|task| ledger.tasks().is_waiting(task as u8))
}

impl Setters {
    /// Counts an accepted call. The ledger is as after it.
    pub fn note(&mut self, met: &mut Met, call: &Call, before: Before, ledger: &Ledger) {
        let (task, is_leave, is_block) = match *call {
            Call::Leave { task } => (task, true, false),
            Call::Block { task } => (task, false, true),
            Call::Tick { task } => (task, false, false),
            _ => return,
        };
        let advanced = ledger.tasks().global() != before.global;
        let waiting = waiting(ledger);
        for (waited, waits) in self.waited.iter_mut().zip(waiting) {
            *waited = if waits { *waited + u64::from(advanced) } else { 0 };
        }
        let has_waited = before.waiting[usize::from(task)];
        let Before { locals, globals, .. } = before;
        let (waited, departed) = (self.waited, self.departed);
        let seen = Seen { task, is_leave, is_block, has_waited, advanced, locals, globals, waiting, waited, departed };
        met.note(&SITUATIONS, &seen);
        self.depart(&seen);
    }

    fn depart(&mut self, seen: &Seen) {
        if seen.is_leave {
            let of_leaver = seen.globals.iter().filter(|(setter, _)| *setter == Setter::Task(seen.task));
            let most = of_leaver.map(|&(_, units)| units).max().unwrap_or(0);
            let departed = &mut self.departed[usize::from(seen.task)];
            *departed = most.max(*departed);
        }
        for departed in &mut self.departed {
            *departed = departed.saturating_sub(u64::from(seen.advanced));
        }
    }
}
