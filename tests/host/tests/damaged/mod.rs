//! One damaged record, on which the library and the plain pool make the same calls.

mod rules;

pub use rules::is_fit;

use host_tests::entries::Plain;
use host_tests::host::Host;
use host_tests::library::Library;
use host_tests::memory::Memory;
use host_tests::reading::of_record;
use plain::fit::is_well_formed;
use plain::limits::BLOCKS;
use plain::record::{is_global, Pool, ABSENT, LOCAL, PINNED, RUNNING, VIEWING};
use reference::call::{packed, Call, Handles, Kind};

const NOT_WELL_FORMED: u8 = 15;

/// The library and the plain pool, with the same memory.
pub struct Pair {
    pub library: Host<Library>,
    plain: Host<Plain>,
    pub whole: Memory,
    pub calls: [Call<'static>; 10],
    pub fit: usize,
    pub unfit: usize,
}

impl Pair {
    pub fn of(whole: Memory) -> Pair {
        let of = |state: u16| whole.pool.tasks.iter().position(|task| task.state == state).map(|task| task as u8);
        let task = of(RUNNING).unwrap_or(0);
        let handle = whole.pool.handles.into_iter().max().unwrap_or(0);
        let busiest = busiest(&whole.pool, task);
        let extension = whole.pool.limits.extension as u8;
        // For as long as the test runs.
        let handles = Handles(packed(&[handle, busiest, handle]).leak());
        Pair {
            library: Host::new(whole.clone()),
            plain: Host::new(whole.clone()),
            calls: [
                Call::Report,
                Call::Tick { task },
                Call::Read { task, handle },
                Call::Remaining { task, handle: busiest },
                Call::Make { task, kind: Kind::Local, extension, length: 40, prefix: 0 },
                Call::Batch { task, kind: Kind::Global, extension, handles },
                Call::Release { task, handle: pinned(&whole.pool) },
                Call::Write { task, handle, offset: 0, bytes: &[7] },
                Call::Read { task: of(VIEWING).unwrap_or(task), handle },
                Call::View { task: of(ABSENT).unwrap_or(task) },
            ],
            whole,
            fit: 0,
            unfit: 0,
        }
    }

    /// Makes these calls, each on the record that the damage leaves.
    pub fn examine(&mut self, calls: &[Call], damage: impl Fn(&mut Pool)) {
        damage(&mut self.library.memory.pool);
        let fit = is_well_formed(&self.library.memory.pool);
        for call in calls {
            if fit {
                damage(&mut self.plain.memory.pool);
                self.compare(call);
                damage(&mut self.library.memory.pool);
            } else {
                // The host tests that nothing is touched.
                assert_eq!(self.library.call(call), Err(NOT_WELL_FORMED), "{call:?}");
            }
        }
        self.fit += usize::from(fit);
        self.unfit += usize::from(!fit);
    }

    /// Answers alike and leaves alike; then both have the whole record again.
    fn compare(&mut self, call: &Call) {
        let told = self.library.call(call);
        assert_eq!(told, self.plain.call(call), "{call:?}");
        if told.is_ok() && !matches!(call, Call::Read { .. } | Call::Remaining { .. } | Call::Report) {
            assert_eq!(of_record(&self.library.memory), of_record(&self.plain.memory), "{call:?}");
            self.library.memory.clone_from(&self.whole);
            self.plain.memory.clone_from(&self.whole);
        }
        self.plain.memory.pool.clone_from(&self.whole.pool);
    }

    pub fn restore(&mut self) {
        self.library.memory.pool.clone_from(&self.whole.pool);
        self.plain.memory.pool.clone_from(&self.whole.pool);
    }
}

/// The object on which the most expirations count for this task, first of the kind that it has fewer of, local or global.
fn busiest(pool: &Pool, task: u8) -> u32 {
    let counting = |block: &usize| {
        let on = || pool.clocks.iter().zip(&pool.named).filter(|(_, &named)| usize::from(named) == *block);
        let local = on().filter(|(&clock, _)| clock == LOCAL + task).count();
        let global = on().filter(|(&clock, _)| is_global(clock)).count();
        (local.min(global), local + global)
    };
    pool.handles[(0..BLOCKS).max_by_key(counting).unwrap_or(0)]
}

/// The object of the last pinned expiration; 1 if there is none.
fn pinned(pool: &Pool) -> u32 {
    let last = pool.clocks.iter().rposition(|&clock| clock == PINNED);
    last.map_or(1, |last| pool.handles[usize::from(pool.named[last])])
}
