//! A set of tasks.

use crate::TASKS;
use core::fmt;

/// Some of the sixteen tasks.
#[derive(Clone, Copy, Debug, Default, PartialEq, Eq)]
pub struct Tasks(u16);

impl Tasks {
    /// Bit t is task t's.
    pub(crate) const fn of_bits(bits: u16) -> Tasks {
        Tasks(bits)
    }

    /// The set as a number: bit t is task t's.
    pub const fn bits(self) -> u16 {
        self.0
    }

    /// Whether it is none of them.
    pub const fn is_empty(self) -> bool {
        self.0 == 0
    }

    /// Whether the task is one of them; of a task above 15 it is not.
    pub const fn contains(self, task: u8) -> bool {
        (task as usize) < TASKS && self.0 >> task & 1 == 1
    }

    /// The tasks, from 0 up.
    pub fn iter(self) -> impl Iterator<Item = u8> {
        (0..TASKS as u8).filter(move |&task| self.contains(task))
    }
}

impl fmt::Display for Tasks {
    /// Their numbers, such as `7, 9`; `none` where there are none.
    fn fmt(&self, f: &mut fmt::Formatter<'_>) -> fmt::Result {
        if self.is_empty() {
            return f.write_str("none");
        }
        for (place, task) in self.iter().enumerate() {
            write!(f, "{}{task}", if place == 0 { "" } else { ", " })?;
        }
        Ok(())
    }
}
