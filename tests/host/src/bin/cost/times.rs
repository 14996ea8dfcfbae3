//! Nanoseconds: the best of some rounds, less what putting the memory back takes.

use std::hint::black_box;
use std::time::Instant;

use host_tests::cases::Case;
use host_tests::desk::{measured, Action, Desk};
use host_tests::malloc;
use host_tests::measures::{measure, Measures};

const ROUNDS: usize = 20;
const REPEATS: usize = 1_000;

pub fn all(cases: &[Case]) -> Measures<f64> {
    measure(cases, time, |way| best(|| malloc::measured(way.action, way.size)))
}

fn time(case: &Case, action: Action) -> f64 {
    let mut desk = Desk::with(case.memory.clone());
    let both = best(|| {
        desk.memory.clone_from(black_box(&case.memory));
        measured(action, &mut desk, &case.arguments);
    });
    let back = best(|| {
        desk.memory.clone_from(black_box(&case.memory));
        black_box(&mut desk.memory);
    });
    (both - back).max(0.0)
}

fn best(mut step: impl FnMut()) -> f64 {
    let mut best = f64::INFINITY;
    for _ in 0..ROUNDS {
        let start = Instant::now();
        for _ in 0..REPEATS {
            step();
        }
        best = best.min(start.elapsed().as_nanos() as f64 / REPEATS as f64);
    }
    best
}
