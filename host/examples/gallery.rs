//! A gallery display beside the logger. It may show a reading, but not the raw data of the coil after it: the logger makes both
//! as one object with a prefix, and the display is a viewer, which reads prefixes, changes nothing and holds up nobody.
//! examples/gallery.c is the same in C.

use ramsummer::{Handle, Kind, Pool, Refusal, Share};

const LOGGER: u8 = 0;
const DISPLAY: u8 = 1;
const READING: u8 = 7;
const LENGTH: u16 = 40;

const READINGS: [&[u8; READING as usize]; 3] = [b"12.50 m", b"12.51 m", b"12.53 m"];
const COIL: [u8; 33] = [0xC0; 33];

fn main() -> Result<(), Refusal> {
    let mut pool = Pool::new();
    pool.join(LOGGER, Share::OPEN)?;
    pool.view(DISPLAY)?;
    let first = run(&mut pool)?;
    try_more(&mut pool, first)
}

fn make(pool: &mut Pool, prefix: u16) -> Result<Handle, Refusal> {
    pool.make_with_prefix(LOGGER, Kind::Global, 0, LENGTH, prefix)
}

/// The reading, and the raw data behind it.
fn log_reading(pool: &mut Pool, reading: &[u8]) -> Result<Handle, Refusal> {
    let handle = make(pool, READING.into())?;
    pool.write(LOGGER, handle, 0, reading)?;
    pool.write(LOGGER, handle, READING, &COIL)?;
    Ok(handle)
}

/// What the logger and what the display reads of it.
fn show(pool: &mut Pool, handle: Handle) -> Result<(), Refusal> {
    let [whole, shown] = [pool.read_to_vec(LOGGER, handle)?, pool.read_to_vec(DISPLAY, handle)?];
    print!("the logger reads {} bytes, the display {}: ", whole.len(), shown.len());
    println!("{}", String::from_utf8_lossy(&shown));
    Ok(())
}

/// A cycle is one tick of the logger. The first reading is handed back.
fn run(pool: &mut Pool) -> Result<Handle, Refusal> {
    let mut handles = Vec::new();
    for reading in READINGS {
        let handle = log_reading(pool, reading)?;
        show(pool, handle)?;
        pool.tick(LOGGER)?;
        handles.push(handle);
    }
    println!("global time is {}: it did not wait for the display", pool.record().global);
    Ok(handles[0])
}

/// What has no prefix is not for the display, and it changes nothing.
fn try_more(pool: &mut Pool, first: Handle) -> Result<(), Refusal> {
    let handle = pool.make(LOGGER, Kind::Global, 0, LENGTH)?;
    println!("of an object without a prefix it reads {} bytes", pool.read_to_vec(DISPLAY, handle)?.len());
    print_refusal("it would write", pool.write(DISPLAY, handle, 0, READINGS[0]));
    print_refusal("it would tick", pool.tick(DISPLAY));
    print_refusal("the first reading", pool.read_to_vec(DISPLAY, first));
    print_refusal("a prefix of 41 bytes", make(pool, LENGTH + 1));
    pool.leave(DISPLAY)?;
    Ok(())
}

fn print_refusal<T>(what: &str, answer: Result<T, Refusal>) {
    if let Err(refusal) = answer {
        println!("{what}: refused with {}, {refusal}", refusal.number());
    }
}
