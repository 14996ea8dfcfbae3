//! The sixteen tasks and the two times. A number such as T9 is a rule's in docs/RULES.md.

use crate::call::Refusal;
use crate::limits::{Store, TASKS};
use crate::share::{Quota, Share};

/// T2: the state of a task. Order 10 adds the viewer's, who does not run.
#[derive(Clone, Copy, Debug, Default, PartialEq, Eq)]
pub enum State {
    #[default]
    Absent,
    Running,
    Waiting,
    Viewing,
}

/// T3: a task's entry. The scope paper's mark is `ticked`. Order 9 adds the share, which only a join and a leave change.
#[derive(Clone, Copy, Debug, Default, PartialEq, Eq)]
pub struct Task {
    pub state: State,
    pub ticked: bool,
    pub clock: u64,
    pub share: Share,
}

/// T4, T7: local times with the tasks, and the global time beside them.
#[derive(Clone, Debug, Default, PartialEq, Eq)]
pub struct Tasks {
    entries: [Task; TASKS],
    global: u64,
}

impl Tasks {
    pub fn entries(&self) -> &[Task; TASKS] {
        &self.entries
    }

    /// The local time of a task from 0 to 15.
    pub fn clock(&self, task: u8) -> u64 {
        self.entries[usize::from(task)].clock
    }

    pub fn global(&self) -> u64 {
        self.global
    }

    /// Of one store, what each task has joined with.
    pub fn quotas(&self, store: Store) -> [Quota; TASKS] {
        self.entries.map(|task| task.share.of(store))
    }

    pub fn is_running(&self, task: u8) -> bool {
        self.check_running(task).is_ok()
    }

    pub fn is_waiting(&self, task: u8) -> bool {
        self.check_waiting(task).is_ok()
    }

    pub fn is_viewing(&self, task: u8) -> bool {
        self.check_awake(task) == Ok(State::Viewing)
    }

    /// T9: it runs, from local time 0 on, with this share.
    pub fn join(&mut self, task: u8, share: Share) -> Result<(), Refusal> {
        let place = self.check_absent(task)?;
        self.entries[place] = Task { state: State::Running, ticked: false, clock: 0, share };
        Ok(())
    }

    /// Order 10: it views, at local time 0, and has no share.
    pub fn view(&mut self, task: u8) -> Result<(), Refusal> {
        let place = self.check_absent(task)?;
        self.entries[place] = Task { state: State::Viewing, ..Task::default() };
        Ok(())
    }

    /// T12: it is absent, and has no share. Leave, block and tick tell whether global time advanced.
    pub fn leave(&mut self, task: u8) -> Result<bool, Refusal> {
        let place = self.check_present(task)?;
        self.entries[place] = Task::default();
        Ok(self.advance())
    }

    /// T10: it waits; its local time stays.
    pub fn block(&mut self, task: u8) -> Result<bool, Refusal> {
        let place = self.check_running(task)?;
        self.entries[place].state = State::Waiting;
        self.entries[place].ticked = false;
        Ok(self.advance())
    }

    /// T11: it runs again.
    pub fn resume(&mut self, task: u8) -> Result<(), Refusal> {
        let place = self.check_waiting(task)?;
        self.entries[place].state = State::Running;
        self.entries[place].ticked = false;
        Ok(())
    }

    /// T13: one more. The expirations are not kept here.
    pub fn tick(&mut self, task: u8) -> Result<bool, Refusal> {
        let place = self.check_running(task)?;
        self.entries[place].clock += 1;
        self.entries[place].ticked = true;
        Ok(self.advance())
    }

    /// T16 to T18: the advance test, and the advance.
    fn advance(&mut self) -> bool {
        let running = || self.entries.iter().filter(|task| task.state == State::Running);
        let advances = running().count() > 0 && running().all(|task| task.ticked);
        if advances {
            self.global += 1;
            self.entries.iter_mut().for_each(|task| task.ticked = false);
        }
        advances
    }

    // The refusals of a task: 1, then those of its state. Else the place of its entry.

    /// 1, 2.
    pub fn check_absent(&self, task: u8) -> Result<usize, Refusal> {
        let place = check_number(task)?;
        match self.entries[place].state {
            State::Absent => Ok(place),
            State::Running | State::Waiting | State::Viewing => Err(Refusal::TaskNotAbsent),
        }
    }

    /// 1, 3.
    fn check_present(&self, task: u8) -> Result<usize, Refusal> {
        let place = check_number(task)?;
        match self.entries[place].state {
            State::Absent => Err(Refusal::TaskAbsent),
            State::Running | State::Waiting | State::Viewing => Ok(place),
        }
    }

    /// 1, 3, 4, else whether it runs or views.
    pub fn check_awake(&self, task: u8) -> Result<State, Refusal> {
        match self.entries[check_number(task)?].state {
            State::Absent => Err(Refusal::TaskAbsent),
            State::Waiting => Err(Refusal::TaskWaiting),
            state => Ok(state),
        }
    }

    /// 1, 3, 4, 27.
    pub fn check_running(&self, task: u8) -> Result<usize, Refusal> {
        match self.check_awake(task)? {
            State::Viewing => Err(Refusal::OnlyViews),
            _ => Ok(usize::from(task)),
        }
    }

    /// 1, 3, 5.
    fn check_waiting(&self, task: u8) -> Result<usize, Refusal> {
        let place = check_number(task)?;
        match self.entries[place].state {
            State::Absent => Err(Refusal::TaskAbsent),
            State::Running | State::Viewing => Err(Refusal::TaskRunning),
            State::Waiting => Ok(place),
        }
    }

    /// For late starts, which no script lives to see.
    #[cfg(test)]
    pub fn clock_mut(&mut self, task: u8) -> &mut u64 {
        &mut self.entries[usize::from(task)].clock
    }

    #[cfg(test)]
    pub fn global_mut(&mut self) -> &mut u64 {
        &mut self.global
    }
}

/// 1, by T1.
fn check_number(task: u8) -> Result<usize, Refusal> {
    let place = usize::from(task);
    if place >= TASKS {
        return Err(Refusal::TaskAbove15);
    }
    Ok(place)
}
