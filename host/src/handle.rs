//! What names an object.

use core::fmt;

/// What names an object (document 01: its number): 1 for the first one made, then one higher each time. It is never
/// given again, so the handle of an object that is gone names no other one.
#[repr(transparent)] // src/sys.rs passes handles to the library as its numbers.
#[derive(Clone, Copy, Debug, PartialEq, Eq, PartialOrd, Ord, Hash)]
pub struct Handle(u32);

impl From<u32> for Handle {
    fn from(number: u32) -> Self {
        Handle(number)
    }
}

impl From<Handle> for u32 {
    fn from(handle: Handle) -> Self {
        handle.0
    }
}

impl fmt::Display for Handle {
    fn fmt(&self, f: &mut fmt::Formatter<'_>) -> fmt::Result {
        self.0.fmt(f)
    }
}
