//! Something measured of all cases, always in the same order.

use crate::cases::Case;
use crate::desk::{Action, SUBJECTS};
use crate::malloc::{Way, WAYS};

/// What is measured of each case, for each subject that has it, and of each way of allocation.
pub struct Measures<T> {
    pub cases: Vec<[Option<T>; 3]>,
    pub ways: Vec<T>,
}

pub fn measure<T>(cases: &[Case], mut case: impl FnMut(&Case, Action) -> T, way: impl FnMut(&Way) -> T) -> Measures<T> {
    let mut of = |of: &Case| SUBJECTS.map(|subject| of.action(subject).map(|action| case(of, action)));
    Measures { cases: cases.iter().map(&mut of).collect(), ways: WAYS.iter().map(way).collect() }
}
