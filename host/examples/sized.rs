//! A small site: a cable of four sensors, whose pool is as large as it needs. What is beyond its limits is refused as it is
//! in the largest pool, and limits that no pool may have are refused when it is made. examples/sized.c is the same in C.

use ramsummer::{Handle, Kind, Limits, Pool, Refusal, Share, LARGE, RECORD, SMALL};

const TASK: u8 = 0;

/// For each sensor four readings and a curve, and looks at them for ten ticks at most.
const CABLE: Limits = Limits { small_blocks: 16, large_blocks: 4, expirations: 64, extension: 10 };

fn main() -> Result<(), Refusal> {
    let mut pool = start()?;
    fill(&mut pool)?;
    lapse(&mut pool)?;
    begin_anew(&mut pool)
}

/// A pool of the site's own size, and a task that joins it.
fn start() -> Result<Pool, Refusal> {
    let mut pool = Pool::sized(CABLE)?;
    let Limits { small_blocks, large_blocks, expirations, extension } = CABLE;
    let bytes = RECORD + pool.small().len() + pool.large().len();
    print!("{small_blocks} small and {large_blocks} large blocks, {expirations} expirations, ");
    println!("extensions up to {extension}: {bytes} bytes instead of {}", RECORD + SMALL + LARGE);
    pool.join(TASK, Share::OPEN)?;
    Ok(pool)
}

fn make(pool: &mut Pool, extension: u32) -> Result<Handle, Refusal> {
    pool.make(TASK, Kind::Local, extension as u8, 4)
}

fn refresh(pool: &mut Pool, handle: Handle) -> Result<(), Refusal> {
    pool.refresh(TASK, Kind::Local, CABLE.extension as u8, handle)
}

/// All small blocks and all expirations, and what is refused then.
fn fill(pool: &mut Pool) -> Result<(), Refusal> {
    print_refusal("an extension of 11", make(pool, CABLE.extension + 1));
    for _ in 0..CABLE.small_blocks {
        make(pool, CABLE.extension)?;
    }
    print_refusal("a 17th small object", make(pool, CABLE.extension));
    let first = Handle::from(1);
    for _ in CABLE.small_blocks..CABLE.expirations {
        refresh(pool, first)?;
    }
    print_refusal("a 65th expiration", refresh(pool, first));
    println!("all in use: {}", pool.report()?);
    Ok(())
}

/// Ten ticks later all stands still, and with one more all is gone.
fn lapse(pool: &mut Pool) -> Result<(), Refusal> {
    for _ in 0..=CABLE.extension {
        pool.tick(TASK)?;
    }
    println!("after 11 ticks: {}", pool.report()?);
    Ok(())
}

/// A limit out of its range: the record that is left is none, until it is made fresh.
fn begin_anew(pool: &mut Pool) -> Result<(), Refusal> {
    print_refusal("65 small blocks", pool.fresh_sized(Limits { small_blocks: 65, ..CABLE }));
    print_refusal("and a join then", pool.join(TASK, Share::OPEN));
    pool.fresh_sized(CABLE)?;
    println!("made fresh: {}", pool.report()?);
    Ok(())
}

fn print_refusal<T>(what: &str, answer: Result<T, Refusal>) {
    if let Err(refusal) = answer {
        println!("{what}: refused with {}, {refusal}", refusal.number());
    }
}
