//! The calls as a host makes them, with the answers of the library's C interface: a number, and what else is
//! answered in the parameters lent for it. Each but fresh tests 15 first, after 19 where a kind is named; then comes the
//! work. A refusal changes nothing, but for 29.

use crate::fit::is_well_formed;
use crate::frames::{answer, decode, Reply, Request, LONGEST_FRAME, MOST_NAMED};
use crate::limits::{Limits, PINNING};
use crate::record::{Pool, Share, FRESH};
use crate::refusals::{ACCEPTED, LIMITS_OUT_OF_RANGE, NOT_WELL_FORMED, SHORT_BUFFER, UNKNOWN_KIND};
use crate::work::{self, Holdings};

/// The least room that a frame asks for its answer.
pub const ANSWER_ROOM: usize = 531;

pub fn fresh(pool: &mut Pool) -> u8 {
    fresh_sized(pool, Limits::STANDARD)
}

/// With the figures of a site. Where it may not choose them, 29, and a record that is not well-formed.
pub fn fresh_sized(pool: &mut Pool, limits: Limits) -> u8 {
    *pool = FRESH;
    pool.limits = limits;
    if limits.is_allowed() {
        ACCEPTED
    } else {
        LIMITS_OUT_OF_RANGE
    }
}

pub fn join(pool: &mut Pool, task: u8, share: Share) -> u8 {
    if !is_well_formed(pool) {
        return NOT_WELL_FORMED;
    }
    number_of(work::join(pool, task, share))
}

pub fn view(pool: &mut Pool, task: u8) -> u8 {
    if !is_well_formed(pool) {
        return NOT_WELL_FORMED;
    }
    number_of(work::view(pool, task))
}

pub fn leave(pool: &mut Pool, task: u8, advanced: &mut u8) -> u8 {
    if !is_well_formed(pool) {
        return NOT_WELL_FORMED;
    }
    told(work::leave(pool, task), advanced)
}

pub fn block(pool: &mut Pool, task: u8, advanced: &mut u8) -> u8 {
    if !is_well_formed(pool) {
        return NOT_WELL_FORMED;
    }
    told(work::block(pool, task), advanced)
}

pub fn resume(pool: &mut Pool, task: u8) -> u8 {
    if !is_well_formed(pool) {
        return NOT_WELL_FORMED;
    }
    number_of(work::resume(pool, task))
}

pub fn tick(pool: &mut Pool, task: u8, advanced: &mut u8) -> u8 {
    if !is_well_formed(pool) {
        return NOT_WELL_FORMED;
    }
    told(work::tick(pool, task), advanced)
}

#[allow(clippy::too_many_arguments)] // As the C interface has them.
pub fn make(
    pool: &mut Pool,
    small: &mut [u8],
    large: &mut [u8],
    task: u8,
    kind: u8,
    extension: u8,
    length: u16,
    prefix: u16,
    handle: &mut u32,
) -> u8 {
    if kind > PINNING {
        return UNKNOWN_KIND;
    }
    if !is_well_formed(pool) {
        return NOT_WELL_FORMED;
    }
    told(work::make(pool, small, large, (task, kind, extension), (length, prefix)), handle)
}

pub fn refresh(pool: &mut Pool, task: u8, kind: u8, extension: u8, handle: u32) -> u8 {
    if kind > PINNING {
        return UNKNOWN_KIND;
    }
    if !is_well_formed(pool) {
        return NOT_WELL_FORMED;
    }
    number_of(work::refresh(pool, (task, kind, extension), handle))
}

pub fn refresh_all(pool: &mut Pool, task: u8, kind: u8, extension: u8, handles: &[u32]) -> u8 {
    if kind > PINNING {
        return UNKNOWN_KIND;
    }
    if !is_well_formed(pool) {
        return NOT_WELL_FORMED;
    }
    number_of(work::refresh_all(pool, (task, kind, extension), handles))
}

pub fn release(pool: &mut Pool, task: u8, handle: u32) -> u8 {
    if !is_well_formed(pool) {
        return NOT_WELL_FORMED;
    }
    number_of(work::release(pool, task, handle))
}

pub fn read(pool: &Pool, small: &[u8], large: &[u8], task: u8, handle: u32, out: &mut [u8], count: &mut usize) -> u8 {
    if !is_well_formed(pool) {
        return NOT_WELL_FORMED;
    }
    let bytes = match work::read(pool, small, large, task, handle) {
        Ok(bytes) => bytes,
        Err(refusal) => return refusal,
    };
    let Some(part) = out.get_mut(..bytes.len()) else { return SHORT_BUFFER };
    part.copy_from_slice(bytes);
    *count = bytes.len();
    ACCEPTED
}

pub fn write(
    pool: &mut Pool,
    small: &mut [u8],
    large: &mut [u8],
    task: u8,
    handle: u32,
    offset: u8,
    bytes: &[u8],
) -> u8 {
    if !is_well_formed(pool) {
        return NOT_WELL_FORMED;
    }
    number_of(work::write(pool, small, large, task, handle, (offset, bytes)))
}

pub fn report(pool: &Pool, small: &mut u8, large: &mut u8, expirations: &mut u16, given: &mut u32) -> u8 {
    if !is_well_formed(pool) {
        return NOT_WELL_FORMED;
    }
    let figures = work::report(pool);
    (*small, *large, *expirations, *given) = (figures.small, figures.large, figures.expirations, figures.given);
    ACCEPTED
}

pub fn remaining(pool: &Pool, task: u8, handle: u32, local: &mut u8, global: &mut u8) -> u8 {
    if !is_well_formed(pool) {
        return NOT_WELL_FORMED;
    }
    match work::remaining(pool, task, handle) {
        Ok(lifetime) => {
            (*local, *global) = (lifetime.local, lifetime.global);
            ACCEPTED
        }
        Err(refusal) => refusal,
    }
}

/// For whom global time waits, a bit for each task.
pub fn awaited(pool: &Pool, tasks: &mut u16) -> u8 {
    if !is_well_formed(pool) {
        return NOT_WELL_FORMED;
    }
    *tasks = work::awaited(pool);
    ACCEPTED
}

/// What the task has of each store.
pub fn share(pool: &Pool, task: u8, holdings: &mut Holdings) -> u8 {
    if !is_well_formed(pool) {
        return NOT_WELL_FORMED;
    }
    told(work::share(pool, task), holdings)
}

/// One frame, without its LF. The answer line goes to the start of `out`, a refusal's too.
pub fn frame(
    pool: &mut Pool,
    small: &mut [u8],
    large: &mut [u8],
    line: &[u8],
    out: &mut [u8],
    count: &mut usize,
) -> u8 {
    if out.len() < ANSWER_ROOM {
        return SHORT_BUFFER;
    }
    let mut room = [0; LONGEST_FRAME + 1];
    let reply = decode(line, &mut room).and_then(|request| carry_out(pool, small, large, request));
    *count = answer(reply, out);
    number_of(reply.map(drop))
}

fn carry_out<'a>(pool: &mut Pool, small: &'a mut [u8], large: &'a mut [u8], request: Request) -> Result<Reply<'a>, u8> {
    if !is_well_formed(pool) {
        return Err(NOT_WELL_FORMED);
    }
    serve(pool, small, large, request)
}

/// The work of a call by its request, on a record that is known to be well-formed.
pub fn serve<'a>(pool: &mut Pool, small: &'a mut [u8], large: &'a mut [u8], request: Request) -> Result<Reply<'a>, u8> {
    match request {
        Request::Join(task, share) => work::join(pool, task, share).map(|()| Reply::Done),
        Request::Leave(task) => work::leave(pool, task).map(Reply::Advanced),
        Request::Block(task) => work::block(pool, task).map(Reply::Advanced),
        Request::Resume(task) => work::resume(pool, task).map(|()| Reply::Done),
        Request::Tick(task) => work::tick(pool, task).map(Reply::Advanced),
        Request::Make(task, kind, extension, length, prefix) => {
            work::make(pool, small, large, (task, kind, extension), (length, prefix)).map(Reply::Handle)
        }
        Request::Refresh(task, kind, extension, handle) => {
            work::refresh(pool, (task, kind, extension), handle).map(|()| Reply::Done)
        }
        Request::Read(task, handle) => work::read(pool, small, large, task, handle).map(Reply::Bytes),
        Request::Write(task, handle, offset, bytes) => {
            work::write(pool, small, large, task, handle, (offset, bytes)).map(|()| Reply::Done)
        }
        Request::Report => Ok(Reply::Report(work::report(pool))),
        Request::Remaining(task, handle) => work::remaining(pool, task, handle).map(Reply::Remaining),
        Request::Batch(task, kind, extension, objects) => {
            let mut handles = [0; MOST_NAMED];
            for (handle, &bytes) in handles.iter_mut().zip(objects) {
                *handle = u32::from_be_bytes(bytes);
            }
            work::refresh_all(pool, (task, kind, extension), &handles[..objects.len()]).map(|()| Reply::Done)
        }
        Request::Release(task, handle) => work::release(pool, task, handle).map(|()| Reply::Done),
        Request::View(task) => work::view(pool, task).map(|()| Reply::Done),
    }
}

fn number_of(result: Result<(), u8>) -> u8 {
    result.err().unwrap_or(ACCEPTED)
}

/// The number of a result, with its value put where it was asked for.
fn told<T, U: From<T>>(result: Result<T, u8>, place: &mut U) -> u8 {
    match result {
        Ok(value) => {
            *place = value.into();
            ACCEPTED
        }
        Err(refusal) => refusal,
    }
}
