//! What docs/RESTART.md says of tasks that come back, held on pools that calls lead to.

use lives::{limits, pools, pools_of};
use ramsummer::{image, Handle, Kind, Limits, Pool, Record, Refusal, Report, Share};
use ramsummer::{CLOCK_LOCAL, CLOCK_PINNED, LARGE, SMALL, TASKS};

mod lives;

const ABSENT: u16 = 0;
const RUNNING: u16 = 1;
const WAITING: u16 = 2;
const VIEWING: u16 = 3;

fn restored(record: &Record) -> Record {
    let mut kept = [0; image::RECORD_ALONE];
    image::save(record, &mut kept).unwrap();
    image::restore(&kept).unwrap()
}

/// The pools again, each from the image of its record.
fn restarted() -> impl Iterator<Item = Pool> {
    restarted_of(Limits::STANDARD, 400)
}

/// The same of pools with these limits.
fn restarted_of(limits: Limits, count: usize) -> impl Iterator<Item = Pool> {
    pools_of(limits, count).map(|pool| {
        let (record, small, large) = pool.into_parts();
        Pool::over(restored(&record).into(), small, large)
    })
}

/// The local expirations of a task.
fn local(record: &Record, task: u8) -> usize {
    record.clocks.iter().filter(|&&clock| clock == CLOCK_LOCAL + task).count()
}

/// The objects that are pinned.
fn pinned(record: &Record) -> Vec<Handle> {
    let entries = record.clocks.iter().zip(record.named).filter(|(&clock, _)| clock == CLOCK_PINNED);
    entries.map(|(_, block)| Handle::from(record.handles[usize::from(block)])).collect()
}

#[test]
fn a_task_that_finds_itself_joined_leaves_and_joins() {
    let mut gone = 0;
    for pool in restarted() {
        for task in (0..TASKS as u8).filter(|&task| pool.record().tasks[usize::from(task)].state != ABSENT) {
            let Report { expirations, .. } = pool.report().unwrap();
            assert_eq!(pool.clone().join(task, Share::OPEN), Err(Refusal::TaskPresent));
            let mut anew = pool.clone();
            let advanced = anew.leave(task).unwrap();
            anew.join(task, Share::OPEN).unwrap();
            assert_eq!((local(anew.record(), task), anew.record().tasks[usize::from(task)].clock), (0, 0));
            // Only what this task set goes, unless global time advances.
            let stand = usize::from(expirations) - local(pool.record(), task);
            let left = usize::from(anew.report().unwrap().expirations);
            assert!(if advanced { left <= stand } else { left == stand });
            gone += local(pool.record(), task);
        }
    }
    assert!(gone > 1000);
}

#[test]
fn or_it_goes_on_and_everything_of_it_is_as_it_was() {
    for (mut pool, whole) in restarted().zip(pools(400)) {
        for task in 0..TASKS as u8 {
            let waited = whole.record().tasks[usize::from(task)].state == WAITING;
            assert_eq!(pool.clone().resume(task).is_ok(), waited);
        }
        assert!(pool == whole);
        let mut whole = whole;
        for task in 0..TASKS as u8 {
            assert_eq!(pool.tick(task), whole.tick(task));
        }
        assert!(pool == whole);
    }
}

/// Who viewed goes on; a task of its number that would run finds it by 27, leaves and joins.
#[test]
fn a_viewer_goes_on() {
    let mut viewers = 0;
    for mut pool in restarted() {
        let states = pool.record().tasks.map(|task| task.state);
        for task in (0..TASKS as u8).filter(|&task| states[usize::from(task)] == VIEWING) {
            assert_eq!(pool.view(task), Err(Refusal::TaskPresent));
            assert_eq!(pool.join(task, Share::OPEN), Err(Refusal::TaskPresent));
            assert_eq!(pool.resume(task), Err(Refusal::TaskRunning));
            assert_eq!(pool.tick(task), Err(Refusal::OnlyViews));
            assert_eq!((pool.clone().leave(task), local(pool.record(), task)), (Ok(false), 0));
            viewers += 1;
        }
    }
    assert!(viewers > 1000);
}

/// Without the stores, where zeros stand in their place: what has other bytes than zeros is refused.
#[test]
fn a_read_without_the_stores_is_refused() {
    let mut refused = 0;
    for pool in restarted() {
        let Some(task) = pool.record().tasks.iter().position(|task| task.state == RUNNING) else { continue };
        let mut pool = Pool::over(pool.record().clone(), [0; SMALL], [0; LARGE]);
        let record = pool.record().clone();
        for (block, handle) in record.handles.into_iter().enumerate().filter(|(_, handle)| *handle != 0) {
            let told = pool.read(task as u8, handle.into(), &mut [0; ramsummer::LONGEST]).err();
            assert_eq!(told, (record.sum(block) != 0).then_some(Refusal::SumDiffers));
            refused += u32::from(told.is_some());
        }
    }
    assert!(refused > 1000, "{refused}");
}

/// All have left, and one joins and releases what is pinned. The count of that, and the ticks after which an object stood.
fn emptied(pool: &mut Pool) -> (usize, u32) {
    for task in 0..TASKS as u8 {
        let _ = pool.leave(task);
    }
    pool.join(0, Share::OPEN).unwrap();
    let pinned = pinned(pool.record());
    pinned.iter().for_each(|handle| pool.release(0, *handle).unwrap());
    let mut last = 0;
    for ticks in 1..=pool.record().limits.extension + 2 {
        assert_eq!(pool.tick(0), Ok(true));
        if pool.report().unwrap().small > 0 {
            last = ticks;
        }
    }
    (pinned.len(), last)
}

/// Without the stores: no object stands after as many ticks of one task as the pool's extension and 2, once all have left and
/// what is pinned is released; and no handle is given again.
#[test]
fn a_pool_without_its_stores_is_empty_in_time() {
    let (mut longest, mut released) = (0, 0);
    for mut pool in restarted().chain(limits(40).flat_map(|limits| restarted_of(limits, 20))) {
        let given = pool.record().given;
        let (pinned, last) = emptied(&mut pool);
        (longest, released) = (longest.max(last), released + pinned);
        let mut empty = Report::default();
        empty.given = given;
        assert_eq!(pool.report(), Ok(empty));
        let handle = pool.make(0, Kind::Local, 0, 1).unwrap();
        assert_eq!(u32::from(handle), given + 1);
    }
    assert!(longest > 28 && released > 100); // so that fewer ticks would not do
}

/// An image that is older than the last calls gives their handles again.
#[test]
fn an_older_image_gives_handles_again() {
    let mut pool = Pool::new();
    pool.join(0, Share::OPEN).unwrap();
    let old = restored(pool.record());
    let first = pool.make(0, Kind::Global, 30, 8).unwrap();
    let mut back = Pool::over(old, [0; SMALL], [0; LARGE]);
    assert_eq!(back.make(0, Kind::Local, 0, 200), Ok(first));
}
