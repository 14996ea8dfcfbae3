//! A logger is restarted: one of two saved images is damaged, the tasks come back and find themselves joined; and then
//! a record comes back without its stores. docs/RESTART.md is the recipe; examples/restart.c is the same in C.

use ramsummer::{image, Handle, Kind, Pool, Record, Refusal, Share, CLOCK_PINNED};

/// What outlives the restart. The tasks' handles are kept with the images, of the same moment: the record says who made an
/// object, but not which reading it is.
struct Kept {
    images: [[u8; image::WITH_STORES]; 2],
    record: [u8; image::RECORD_ALONE],
    level: Handle,
    rain: Handle,
    battery: Handle,
    calibration: Handle,
}

fn main() -> Result<(), Refusal> {
    let mut kept = run()?;
    kept.images[0][1000] ^= 0x10; // while the power is off
    let mut pool = come_back(&kept);
    go_on(&mut pool, &kept)?;
    start_anew(&mut pool, &kept)?;
    lose_stores(&kept)
}

/// Before the restart: three readings and a calibration, which is pinned, a tick of each task, and two images.
fn run() -> Result<Kept, Refusal> {
    let mut pool = Pool::new();
    pool.join(0, Share::OPEN)?;
    pool.join(1, Share::OPEN)?;
    let level = pool.put(0, Kind::Local, 3, b"12.50 m")?;
    let rain = pool.put(1, Kind::Local, 3, b"0.40 mm")?;
    let battery = pool.put(1, Kind::Global, 3, b"13.20 V")?;
    let calibration = pool.put(0, Kind::Pinned, 0, b"+2.50 m")?;
    pool.tick(0)?;
    pool.tick(1)?;
    let mut images = [[0; image::WITH_STORES]; 2];
    for room in &mut images {
        image::save_with_stores(pool.record(), pool.small(), pool.large(), room).expect("there is room");
    }
    let mut record = [0; image::RECORD_ALONE];
    image::save(pool.record(), &mut record).expect("there is room");
    println!("saved: {pool}");
    Ok(Kept { images, record, level, rain, battery, calibration })
}

/// The pool of the first image that is whole, or a fresh one.
fn come_back(kept: &Kept) -> Pool {
    let (mut small, mut large) = (vec![0; ramsummer::SMALL], vec![0; ramsummer::LARGE]);
    for (place, image) in kept.images.iter().enumerate() {
        match image::restore_with_stores(image, &mut small, &mut large) {
            Err(fault) => println!("image {place}: {fault}"),
            Ok(record) => {
                let pool = Pool::over(record.into(), small.into(), large.into());
                println!("image {place}: {pool}");
                return pool;
            }
        }
    }
    Pool::new()
}

/// Task 0 has its handle still, and goes on where its clock stands.
fn go_on(pool: &mut Pool, kept: &Kept) -> Result<(), Refusal> {
    if let Err(refusal) = pool.join(0, Share::OPEN) {
        println!("task 0 joins: refused with {}, {refusal}", refusal.number());
    }
    let left = pool.remaining(0, kept.level)?.local;
    println!("task 0 goes on: {}, for {left} ticks more", text(&pool.read_to_vec(0, kept.level)?));
    println!("task 0 has its calibration still: {}", text(&pool.read_to_vec(0, kept.calibration)?));
    Ok(())
}

/// Task 1 starts anew: what it set by its own clock goes, what it set by global time stays.
fn start_anew(pool: &mut Pool, kept: &Kept) -> Result<(), Refusal> {
    pool.leave(1)?;
    pool.join(1, Share::OPEN)?;
    if let Err(refusal) = pool.read_to_vec(1, kept.rain) {
        println!("task 1 leaves and joins: its rain is refused with {}, {refusal}", refusal.number());
    }
    let left = pool.remaining(1, kept.battery)?.global;
    println!("task 1 has {} still, for {left} advances more", text(&pool.read_to_vec(1, kept.battery)?));
    Ok(())
}

/// The objects that are pinned, found by the record: also those whose handles are lost.
fn pinned(record: &Record) -> Vec<Handle> {
    let entries = record.clocks.iter().zip(record.named).filter(|(&clock, _)| clock == CLOCK_PINNED);
    entries.map(|(_, block)| Handle::from(record.handles[usize::from(block)])).collect()
}

/// The record is back and the stores are not: each object stands with wrong bytes, which a read notices where their sum is
/// another, until it is released or time has passed over it.
fn lose_stores(kept: &Kept) -> Result<(), Refusal> {
    let record = image::restore(&kept.record).expect("the image is whole");
    let mut pool = Pool::over(record, [0; ramsummer::SMALL], [0; ramsummer::LARGE]);
    if let Err(refusal) = pool.read_to_vec(1, kept.battery) {
        println!("stores lost: the battery is refused with {}, {refusal}", refusal.number());
    }
    for task in 0..16 {
        match pool.leave(task) {
            Ok(_) | Err(Refusal::TaskAbsent) => {}
            Err(refusal) => return Err(refusal),
        }
    }
    pool.join(0, Share::OPEN)?;
    for handle in pinned(pool.record()) {
        pool.release(0, handle)?;
    }
    for _ in 0..32 {
        pool.tick(0)?;
    }
    println!("all have left, one joins, releases what is pinned and ticks 32 times: {pool}");
    Ok(())
}

fn text(bytes: &[u8]) -> &str {
    std::str::from_utf8(bytes).expect("a reading is letters and digits")
}
