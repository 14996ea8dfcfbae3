//! A ledger that is watched: beside it stand the lines at which things came to be as they are.

use crate::call::{Call, Kind, Model, Refusal};
use crate::expiration::Expiration;
use crate::explain::trail::{Set, Trail};
use crate::explain::{Moment, Pinned};
use crate::ledger::Ledger;
use crate::limits::{Limits, Store, TASKS};
use crate::peaks::as_read;
use crate::tasks::{State, Task};

pub struct Watch {
    pub ledger: Ledger,
    /// Order 11: the one with room for all.
    roomy: Ledger,
    pub trail: Trail,
    /// The line that is carried out, from 1.
    pub line: usize,
    /// For each task the line of its last change of state; 0 before the first.
    pub since: [usize; TASKS],
    /// The line of the last advance; 0 before the first.
    pub advanced: usize,
}

/// What an accepted call has brought about.
pub struct Change {
    /// The objects that went with it.
    pub gone: Vec<u32>,
    /// The objects of which it put an expiration off.
    pub put_off: Vec<u32>,
    /// How many global expirations have lost their setter with it.
    pub departed: usize,
    /// The line since which its task had been in the state before; 0 from the start on.
    pub before: usize,
}

impl Watch {
    pub fn of(limits: Limits) -> Watch {
        let (ledger, roomy, trail) = (Ledger::of(limits), Ledger::roomy(limits), Trail::default());
        Watch { ledger, roomy, trail, line: 0, since: [0; TASKS], advanced: 0 }
    }

    /// Does the call. A refusal changes nothing.
    pub fn call(&mut self, call: &Call) -> Result<Change, Refusal> {
        _ = self.roomy.call(&as_read(call));
        let time = self.ledger.tasks().global();
        self.ledger.call(call)?;
        let advanced = self.ledger.tasks().global() != time;
        if advanced {
            self.advanced = self.line;
        }
        let before = self.note_state(call);
        self.note_expirations(call);
        let departed = self.depart(call);
        let put_off = if advanced { self.trail.put_off(self.ledger.tasks()) } else { Vec::new() };
        Ok(Change { gone: self.end_expirations(call), put_off, departed, before })
    }

    /// Gives the line since which the task had been in its state.
    fn note_state(&mut self, call: &Call) -> usize {
        match *call {
            Call::Join { task, .. }
            | Call::View { task }
            | Call::Leave { task }
            | Call::Block { task }
            | Call::Resume { task } => std::mem::replace(&mut self.since[usize::from(task)], self.line),
            _ => 0,
        }
    }

    fn note_expirations(&mut self, call: &Call) {
        match *call {
            Call::Make { task, kind, extension, .. } => {
                let handle = self.ledger.figures().given;
                self.trail.made(handle, task);
                self.note(handle, task, kind, extension);
            }
            Call::Refresh { task, kind, extension, handle } => self.note(handle, task, kind, extension),
            Call::Batch { task, kind, extension, handles } => {
                handles.iter().for_each(|handle| self.note(handle, task, kind, extension));
            }
            _ => {}
        }
    }

    fn note(&mut self, handle: u32, setter: u8, kind: Kind, extension: u8) {
        let expiration = self.expiration(setter, kind, extension);
        self.trail.set(handle, Set { setter, line: self.line, expiration, put_off: 0 });
    }

    /// The expiration that is set now.
    pub fn expiration(&self, setter: u8, kind: Kind, extension: u8) -> Expiration {
        Expiration::set(self.ledger.tasks(), setter, kind, extension)
    }

    fn depart(&mut self, call: &Call) -> usize {
        match *call {
            Call::Leave { task } => self.trail.depart(task),
            _ => 0,
        }
    }

    fn end_expirations(&mut self, call: &Call) -> Vec<u32> {
        let tasks = self.ledger.tasks();
        match *call {
            Call::Leave { task } => self.trail.end(self.line, |_, one| one.is_local_of(task) || one.is_due(tasks)),
            Call::Block { .. } | Call::Tick { .. } => self.trail.end(self.line, |_, one| one.is_due(tasks)),
            Call::Release { handle, .. } => self.trail.release(self.line, handle),
            _ => Vec::new(),
        }
    }

    /// The entry of a task from 0 to 15.
    pub fn task(&self, task: u8) -> &Task {
        &self.ledger.tasks().entries()[usize::from(task)]
    }

    pub fn awaited(&self) -> Vec<u32> {
        awaited(self.ledger.tasks().entries())
    }

    /// What stands now.
    pub fn moment(&self) -> Moment {
        let (tasks, mut pinned) = (self.ledger.tasks(), Pinned::default());
        for length in self.ledger.pinned().filter_map(|handle| self.ledger.length(handle)) {
            match Store::holding(length as u16) {
                Ok(Store::Large) => pinned.large += 1,
                _ => pinned.small += 1,
            }
        }
        let (figures, held) = (self.ledger.figures(), self.trail.held());
        Moment { figures, roomy: self.roomy.usage(), pinned, held, global: tasks.global(), tasks: *tasks.entries() }
    }
}

/// The tasks that global time waits for: those that run and have not ticked.
pub fn awaited(tasks: &[Task; TASKS]) -> Vec<u32> {
    let is_awaited = |task: &Task| task.state == State::Running && !task.ticked;
    (0..).zip(tasks).filter(|(_, task)| is_awaited(task)).map(|(number, _)| number).collect()
}
