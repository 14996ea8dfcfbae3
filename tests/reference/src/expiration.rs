//! Expirations, the scope paper's dates. A number such as E4 is a rule's in docs/RULES.md.

use crate::call::Kind;
use crate::tasks::Tasks;

/// E2, E22: local, global or pinned. A local one goes by its setter's time, a global one waits with its setter, and a pinned
/// one has neither time nor setter.
#[derive(Clone, Copy, Debug, PartialEq, Eq)]
pub enum Expiration {
    Local { setter: u8, due: u64 },
    Global { setter: Setter, due: u64 },
    Pinned,
}

/// E19, E21: who set a global expiration; departed for good from its leave on.
#[derive(Clone, Copy, Debug, PartialEq, Eq, PartialOrd, Ord)]
pub enum Setter {
    Task(u8),
    Departed,
}

/// L6: an expiration as it is compared.
#[derive(Clone, Copy, Debug, PartialEq, Eq, PartialOrd, Ord)]
pub enum Remaining {
    Local { setter: u8, units: u64 },
    Global { setter: Setter, units: u64 },
    Pinned,
}

impl Expiration {
    /// E4, E5, E22: one that is set now.
    pub fn set(tasks: &Tasks, setter: u8, kind: Kind, extension: u8) -> Expiration {
        let extension = u64::from(extension);
        match kind {
            Kind::Local => Expiration::Local { setter, due: tasks.clock(setter) + extension + 1 },
            Kind::Global => Expiration::Global { setter: Setter::Task(setter), due: tasks.global() + extension + 2 },
            Kind::Pinned => Expiration::Pinned,
        }
    }

    /// Whether it is due by the time it goes by.
    pub fn is_due(&self, tasks: &Tasks) -> bool {
        match *self {
            Expiration::Local { setter, due } => tasks.clock(setter) == due,
            Expiration::Global { due, .. } => tasks.global() == due,
            Expiration::Pinned => false,
        }
    }

    pub fn is_pinned(&self) -> bool {
        *self == Expiration::Pinned
    }

    pub fn is_local_of(&self, task: u8) -> bool {
        matches!(*self, Expiration::Local { setter, .. } if setter == task)
    }

    /// E20: after an advance, and before it is asked whether it is due. Tells whether it was put off.
    pub fn put_off(&mut self, tasks: &Tasks) -> bool {
        match self {
            Expiration::Global { setter: Setter::Task(setter), due } if tasks.is_waiting(*setter) => {
                *due += 1;
                true
            }
            _ => false,
        }
    }

    /// E21: at a leave. Tells whether the leaver was its setter.
    pub fn depart(&mut self, leaver: u8) -> bool {
        match self {
            Expiration::Global { setter, .. } if *setter == Setter::Task(leaver) => {
                *setter = Setter::Departed;
                true
            }
            _ => false,
        }
    }

    fn remaining(&self, tasks: &Tasks) -> Remaining {
        match *self {
            Expiration::Local { setter, due } => Remaining::Local { setter, units: due - tasks.clock(setter) },
            Expiration::Global { setter, due } => Remaining::Global { setter, units: due - tasks.global() },
            Expiration::Pinned => Remaining::Pinned,
        }
    }
}

/// What remains of an object's expirations, sorted: their order is not compared.
pub fn remaining(expirations: &[Expiration], tasks: &Tasks) -> Vec<Remaining> {
    let mut remaining: Vec<_> = expirations.iter().map(|expiration| expiration.remaining(tasks)).collect();
    remaining.sort();
    remaining
}
