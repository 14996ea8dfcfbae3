//! The three kinds of expirations.

/// By which time an expiration is due, if by any.
#[repr(u8)]
#[derive(Clone, Copy, Debug, PartialEq, Eq, PartialOrd, Ord, Hash)]
#[non_exhaustive]
pub enum Kind {
    /// By the setting task's local time (document 01: an own date). With extension e it is due after e + 1 of this
    /// task's ticks: for what the task alone uses.
    Local = 0,
    /// By global time (document 01: a common date). With extension e it is due after e + 2 advances, to which each
    /// running task has to tick: for what others use too. Advances while its setter waits do not count; those after its
    /// setter has left do.
    Global = 1,
    /// By no time (document 02: a kept date): it stands until a [`release`](crate::Pool::release), over every tick, advance
    /// and leave. Only [`make`](crate::Pool::make) sets it, with extension 0: for what must not lapse.
    Pinned = 2,
}

impl Kind {
    /// The number that the library and a frame have for it.
    pub const fn number(self) -> u8 {
        self as u8
    }
}
