//! A superloop of three tasks, as firmware has it: no std, no allocator, and its pool is a static and no larger than it has
//! to be. examples/firmware.c is the same in C.
//!
//! One task measures the water level each turn. The sensor of another takes its time over the rain, so that this task
//! blocks until it is ready. The radio sends both. Nobody frees anything: when the rain's sensor is late, its last
//! reading goes by itself, and the radio says that it is too old. For this the radio sets how long the rain's readings
//! last, since what a task has set by global time waits with it.

#![no_std]
#![no_main]

mod board;
mod memory;

use core::fmt;
use memory::Pool;
use ramsummer::{Handle, Kind, Refusal, Share};

const LEVEL: u8 = 0;
const RAIN: u8 = 1;
const RADIO: u8 = 2;
const TURNS: u16 = 12;

/// The pool, and the newest reading of each sensor.
struct Station {
    pool: &'static mut Pool,
    level: Handle,
    rain: Handle,
}

/// What the radio knows of a sensor.
enum Value {
    Known(u16),
    NoneYet,
    TooOld,
}

#[no_mangle]
extern "C" fn main() -> i32 {
    let Some(pool) = memory::take() else { return 1 };
    let mut station = Station { pool, level: Handle::from(0), rain: Handle::from(0) };
    match station.run() {
        Ok(()) => 0,
        Err(refusal) => {
            board::print(format_args!("refused with {}, {refusal}\n", refusal.number()));
            refusal.number().into()
        }
    }
}

impl Station {
    /// The superloop. One of firmware has no end.
    fn run(&mut self) -> Result<(), Refusal> {
        for task in [LEVEL, RAIN, RADIO] {
            self.pool.join(task, Share::OPEN)?;
        }
        self.pool.block(RAIN)?; // its sensor has begun
        for turn in 1..=TURNS {
            self.measure_level(turn)?;
            if is_rain_ready(turn) {
                self.measure_rain(turn)?;
            }
            self.send(turn)?;
        }
        Ok(())
    }

    /// For the radio in this turn: a global expiration, and no longer than need be.
    fn measure_level(&mut self, turn: u16) -> Result<(), Refusal> {
        self.level = self.put(LEVEL, Kind::Global, 1000 + turn)?;
        self.pool.tick(LEVEL)?;
        Ok(())
    }

    /// For four turns of the radio. Then the sensor begins again, and the others do not wait for this task.
    fn measure_rain(&mut self, turn: u16) -> Result<(), Refusal> {
        self.pool.resume(RAIN)?;
        self.rain = self.put(RAIN, Kind::Local, 2 * turn)?;
        self.pool.refresh(RADIO, Kind::Local, 3, self.rain)?;
        self.pool.tick(RAIN)?;
        self.pool.block(RAIN)?;
        Ok(())
    }

    fn send(&mut self, turn: u16) -> Result<(), Refusal> {
        let (level, rain) = (self.value(self.level)?, self.value(self.rain)?);
        let used = self.pool.report()?.small;
        board::print(format_args!("turn {turn:2}: level {level}, rain {rain}, {used} blocks in use\n"));
        self.pool.tick(RADIO)?;
        Ok(())
    }

    fn put(&mut self, task: u8, kind: Kind, reading: u16) -> Result<Handle, Refusal> {
        self.pool.put(task, kind, 0, &reading.to_be_bytes())
    }

    fn value(&mut self, handle: Handle) -> Result<Value, Refusal> {
        match self.pool.get(RADIO, handle) {
            Ok(reading) => Ok(Value::Known(u16::from_be_bytes(reading))),
            Err(Refusal::HandleNotGiven) => Ok(Value::NoneYet),
            Err(Refusal::ObjectGone) => Ok(Value::TooOld),
            Err(refusal) => Err(refusal),
        }
    }
}

/// Each third turn; but the third time it is three turns late.
fn is_rain_ready(turn: u16) -> bool {
    matches!(turn, 3 | 6 | 12)
}

impl fmt::Display for Value {
    fn fmt(&self, f: &mut fmt::Formatter<'_>) -> fmt::Result {
        match self {
            Value::Known(reading) => reading.fmt(f),
            Value::NoneYet => f.write_str("none yet"),
            Value::TooOld => f.write_str("too old"),
        }
    }
}
