//! The C interface of the proved library, and one safe function over each of its entries. All unsafe code is here.
//!
//! The library asks of a call that its pointers are non-null and aligned, lead to as many bytes as their lengths say,
//! and do not overlap, and that one thread at a time uses a pool. It tests all the rest. References give all of that: a
//! `&mut` is the only way to what it leads to, and a slice knows its length. The library keeps no pointer after a call,
//! and no memory of its own between calls.

use crate::record::RECORD;
use crate::{Handle, Holding, Holdings, Kind, Limits, Record, Refusal, Remaining, Report, Share};

// As in include/ramsummer.h. A reference to one value is a pointer to C; a slice is a pointer and then a length, of 64
// bits on every processor.
extern "C" {
    fn ramsummer_fresh(pool: &mut Record) -> u8;
    fn ramsummer_fresh_sized(
        pool: &mut Record,
        small_blocks: u32,
        large_blocks: u32,
        expirations: u32,
        extension: u32,
    ) -> u8;
    fn ramsummer_join(
        pool: &mut Record,
        task: u8,
        small_reserve: u8,
        small_limit: u8,
        large_reserve: u8,
        large_limit: u8,
    ) -> u8;
    fn ramsummer_view(pool: &mut Record, task: u8) -> u8;
    fn ramsummer_leave(pool: &mut Record, task: u8, advanced: &mut u8) -> u8;
    fn ramsummer_block(pool: &mut Record, task: u8, advanced: &mut u8) -> u8;
    fn ramsummer_resume(pool: &mut Record, task: u8) -> u8;
    fn ramsummer_tick(pool: &mut Record, task: u8, advanced: &mut u8) -> u8;
    fn ramsummer_make(
        pool: &mut Record,
        small: *mut u8,
        small_length: u64,
        large: *mut u8,
        large_length: u64,
        task: u8,
        kind: u8,
        extension: u8,
        length: u16,
        prefix: u16,
        handle: &mut u32,
    ) -> u8;
    fn ramsummer_refresh(pool: &mut Record, task: u8, kind: u8, extension: u8, handle: u32) -> u8;
    fn ramsummer_refresh_all(
        pool: &mut Record,
        task: u8,
        kind: u8,
        extension: u8,
        handles: *const u32,
        count: u64,
    ) -> u8;
    fn ramsummer_release(pool: &mut Record, task: u8, handle: u32) -> u8;
    fn ramsummer_read(
        pool: &mut Record,
        small: *const u8,
        small_length: u64,
        large: *const u8,
        large_length: u64,
        task: u8,
        handle: u32,
        out: *mut u8,
        out_length: u64,
        count: &mut u64,
    ) -> u8;
    fn ramsummer_write(
        pool: &mut Record,
        small: *mut u8,
        small_length: u64,
        large: *mut u8,
        large_length: u64,
        task: u8,
        handle: u32,
        offset: u8,
        bytes: *const u8,
        count: u64,
    ) -> u8;
    fn ramsummer_report(
        pool: &mut Record,
        small: &mut u8,
        large: &mut u8,
        expirations: &mut u16,
        given: &mut u32,
    ) -> u8;
    fn ramsummer_remaining(pool: &mut Record, task: u8, handle: u32, local: &mut u8, global: &mut u8) -> u8;
    fn ramsummer_awaited(pool: &mut Record, tasks: &mut u16) -> u8;
    fn ramsummer_share(
        pool: &mut Record,
        task: u8,
        small_made: &mut u8,
        small_reserve: &mut u8,
        small_limit: &mut u8,
        large_made: &mut u8,
        large_reserve: &mut u8,
        large_limit: &mut u8,
    ) -> u8;
    fn ramsummer_frame(
        pool: &mut Record,
        small: *mut u8,
        small_length: u64,
        large: *mut u8,
        large_length: u64,
        line: *const u8,
        line_length: u64,
        out: *mut u8,
        out_length: u64,
        count: &mut u64,
    ) -> u8;
}

/// The number that a call returns, as a result.
fn outcome(number: u8) -> Result<(), Refusal> {
    match number {
        0 => Ok(()),
        _ => Err(Refusal::from_number(number).unwrap_or_else(|| panic!("the library returned {number}"))),
    }
}

/// The length of a slice as the library has it.
fn length_of<T>(slice: &[T]) -> u64 {
    slice.len() as u64
}

/// A count of the library, which has filled no more than the room that it was lent.
fn filled(count: u64) -> usize {
    count as usize
}

pub(crate) fn fresh(pool: &mut Record) {
    // SAFETY: one pointer, from a reference.
    let number = unsafe { ramsummer_fresh(pool) };
    debug_assert_eq!(number, 0);
}

pub(crate) fn fresh_sized(pool: &mut Record, limits: Limits) -> Result<(), Refusal> {
    let Limits { small_blocks, large_blocks, expirations, extension } = limits;
    // SAFETY: one pointer, from a reference.
    outcome(unsafe { ramsummer_fresh_sized(pool, small_blocks, large_blocks, expirations, extension) })
}

pub(crate) fn join(pool: &mut Record, task: u8, share: Share) -> Result<(), Refusal> {
    let Share { small, large } = share;
    // SAFETY: one pointer, from a reference.
    outcome(unsafe { ramsummer_join(pool, task, small.reserve, small.limit, large.reserve, large.limit) })
}

pub(crate) fn view(pool: &mut Record, task: u8) -> Result<(), Refusal> {
    // SAFETY: one pointer, from a reference.
    outcome(unsafe { ramsummer_view(pool, task) })
}

pub(crate) fn leave(pool: &mut Record, task: u8) -> Result<bool, Refusal> {
    let mut advanced = 0;
    // SAFETY: both pointers are from references, and `advanced` is a variable of this function.
    outcome(unsafe { ramsummer_leave(pool, task, &mut advanced) })?;
    Ok(advanced != 0)
}

pub(crate) fn block(pool: &mut Record, task: u8) -> Result<bool, Refusal> {
    let mut advanced = 0;
    // SAFETY: both pointers are from references, and `advanced` is a variable of this function.
    outcome(unsafe { ramsummer_block(pool, task, &mut advanced) })?;
    Ok(advanced != 0)
}

pub(crate) fn resume(pool: &mut Record, task: u8) -> Result<(), Refusal> {
    // SAFETY: one pointer, from a reference.
    outcome(unsafe { ramsummer_resume(pool, task) })
}

pub(crate) fn tick(pool: &mut Record, task: u8) -> Result<bool, Refusal> {
    let mut advanced = 0;
    // SAFETY: both pointers are from references, and `advanced` is a variable of this function.
    outcome(unsafe { ramsummer_tick(pool, task, &mut advanced) })?;
    Ok(advanced != 0)
}

#[allow(clippy::too_many_arguments)] // The entry has them.
pub(crate) fn make(
    pool: &mut Record,
    small: &mut [u8],
    large: &mut [u8],
    task: u8,
    kind: Kind,
    extension: u8,
    length: u16,
    prefix: u16,
) -> Result<Handle, Refusal> {
    let mut handle = 0;
    // SAFETY: the record and both stores are three `&mut`, so they do not overlap, and each store comes with its own
    // length; `handle` is a variable of this function.
    outcome(unsafe {
        ramsummer_make(
            pool,
            small.as_mut_ptr(),
            length_of(small),
            large.as_mut_ptr(),
            length_of(large),
            task,
            kind.number(),
            extension,
            length,
            prefix,
            &mut handle,
        )
    })?;
    Ok(Handle::from(handle))
}

pub(crate) fn refresh(pool: &mut Record, task: u8, kind: Kind, extension: u8, handle: Handle) -> Result<(), Refusal> {
    // SAFETY: one pointer, from a reference.
    outcome(unsafe { ramsummer_refresh(pool, task, kind.number(), extension, handle.into()) })
}

pub(crate) fn refresh_all(
    pool: &mut Record,
    task: u8,
    kind: Kind,
    extension: u8,
    handles: &[Handle],
) -> Result<(), Refusal> {
    // SAFETY: the record is a `&mut`, so nothing overlaps it; `handles` is only read, and comes with its own length. A
    // handle is `repr(transparent)`, so that a slice of them is one of numbers.
    outcome(unsafe {
        ramsummer_refresh_all(pool, task, kind.number(), extension, handles.as_ptr().cast(), length_of(handles))
    })
}

pub(crate) fn release(pool: &mut Record, task: u8, handle: Handle) -> Result<(), Refusal> {
    // SAFETY: one pointer, from a reference.
    outcome(unsafe { ramsummer_release(pool, task, handle.into()) })
}

/// How many bytes of `out` the object, or its prefix, has filled.
pub(crate) fn read(
    pool: &mut Record,
    small: &[u8],
    large: &[u8],
    task: u8,
    handle: Handle,
    out: &mut [u8],
) -> Result<usize, Refusal> {
    let mut count = 0;
    // SAFETY: the record and `out` are `&mut`, so nothing overlaps them; the stores are only read, and each slice comes
    // with its own length; `count` is a variable of this function.
    outcome(unsafe {
        ramsummer_read(
            pool,
            small.as_ptr(),
            length_of(small),
            large.as_ptr(),
            length_of(large),
            task,
            handle.into(),
            out.as_mut_ptr(),
            length_of(out),
            &mut count,
        )
    })?;
    Ok(filled(count))
}

pub(crate) fn write(
    pool: &mut Record,
    small: &mut [u8],
    large: &mut [u8],
    task: u8,
    handle: Handle,
    offset: u8,
    bytes: &[u8],
) -> Result<(), Refusal> {
    // SAFETY: the record and both stores are three `&mut`, so nothing overlaps them; `bytes` is only read; each slice
    // comes with its own length.
    outcome(unsafe {
        ramsummer_write(
            pool,
            small.as_mut_ptr(),
            length_of(small),
            large.as_mut_ptr(),
            length_of(large),
            task,
            handle.into(),
            offset,
            bytes.as_ptr(),
            length_of(bytes),
        )
    })
}

pub(crate) fn report(pool: &mut Record) -> Result<Report, Refusal> {
    let mut report = Report::default();
    let Report { small, large, expirations, given } = &mut report;
    // SAFETY: five `&mut`; the figures are four fields of a variable of this function.
    outcome(unsafe { ramsummer_report(pool, small, large, expirations, given) })?;
    Ok(report)
}

pub(crate) fn remaining(pool: &mut Record, task: u8, handle: Handle) -> Result<Remaining, Refusal> {
    let mut remaining = Remaining::default();
    let Remaining { local, global } = &mut remaining;
    // SAFETY: three `&mut`; the figures are two fields of a variable of this function.
    outcome(unsafe { ramsummer_remaining(pool, task, handle.into(), local, global) })?;
    Ok(remaining)
}

/// The awaited tasks, a bit each.
pub(crate) fn awaited(pool: &mut Record) -> Result<u16, Refusal> {
    let mut tasks = 0;
    // SAFETY: two `&mut`; the number is a variable of this function.
    outcome(unsafe { ramsummer_awaited(pool, &mut tasks) })?;
    Ok(tasks)
}

pub(crate) fn share(pool: &mut Record, task: u8) -> Result<Holdings, Refusal> {
    let mut holdings = Holdings::default();
    let Holdings { small, large } = &mut holdings;
    let Holding { made, reserve, limit } = small;
    let Holding { made: large_made, reserve: large_reserve, limit: large_limit } = large;
    // SAFETY: seven `&mut`; the figures are six fields of a variable of this function.
    outcome(unsafe { ramsummer_share(pool, task, made, reserve, limit, large_made, large_reserve, large_limit) })?;
    Ok(holdings)
}

/// What became of the frame's call, and how many bytes of `out` the answer line has.
pub(crate) fn frame(
    pool: &mut Record,
    small: &mut [u8],
    large: &mut [u8],
    line: &[u8],
    out: &mut [u8],
) -> (Result<(), Refusal>, usize) {
    let mut count = 0;
    // SAFETY: the record, both stores and `out` are four `&mut`, so nothing overlaps them; `line` is only read; each
    // slice comes with its own length; `count` is a variable of this function.
    let number = unsafe {
        ramsummer_frame(
            pool,
            small.as_mut_ptr(),
            length_of(small),
            large.as_mut_ptr(),
            length_of(large),
            line.as_ptr(),
            length_of(line),
            out.as_mut_ptr(),
            length_of(out),
            &mut count,
        )
    };
    (outcome(number), filled(count))
}

pub(crate) fn record_bytes(record: &Record) -> &[u8; RECORD] {
    // SAFETY: a record is `repr(C)`, RECORD bytes long and without padding (src/record.rs tests its layout while it is
    // compiled), so each of its bytes has a value; bytes may stand at any address.
    unsafe { &*core::ptr::from_ref(record).cast() }
}

pub(crate) fn record_of(bytes: &[u8; RECORD]) -> Record {
    // SAFETY: a record has the size of the array and holds only numbers, so any bytes are one.
    unsafe { core::mem::transmute(*bytes) }
}
