//! The entries of the C interface with the types of Rust, and the plain pool under them.

use plain::calls;
use plain::limits::Limits;
use plain::record::{Pool, Share};
use plain::work::Holdings;

/// What the library has, and the plain pool too.
#[allow(clippy::too_many_arguments)] // As the C interface has them.
pub trait Entries {
    fn fresh(pool: &mut Pool) -> u8;
    fn fresh_sized(pool: &mut Pool, limits: Limits) -> u8;
    fn join(pool: &mut Pool, task: u8, share: Share) -> u8;
    fn view(pool: &mut Pool, task: u8) -> u8;
    fn leave(pool: &mut Pool, task: u8, advanced: &mut u8) -> u8;
    fn block(pool: &mut Pool, task: u8, advanced: &mut u8) -> u8;
    fn resume(pool: &mut Pool, task: u8) -> u8;
    fn tick(pool: &mut Pool, task: u8, advanced: &mut u8) -> u8;
    fn make(
        pool: &mut Pool,
        small: &mut [u8],
        large: &mut [u8],
        task: u8,
        kind: u8,
        extension: u8,
        length: u16,
        prefix: u16,
        handle: &mut u32,
    ) -> u8;
    fn refresh(pool: &mut Pool, task: u8, kind: u8, extension: u8, handle: u32) -> u8;
    fn refresh_all(pool: &mut Pool, task: u8, kind: u8, extension: u8, handles: &[u32]) -> u8;
    fn release(pool: &mut Pool, task: u8, handle: u32) -> u8;
    fn read(
        pool: &mut Pool,
        small: &[u8],
        large: &[u8],
        task: u8,
        handle: u32,
        out: &mut [u8],
        count: &mut usize,
    ) -> u8;
    fn write(
        pool: &mut Pool,
        small: &mut [u8],
        large: &mut [u8],
        task: u8,
        handle: u32,
        offset: u8,
        bytes: &[u8],
    ) -> u8;
    fn report(pool: &mut Pool, small: &mut u8, large: &mut u8, expirations: &mut u16, given: &mut u32) -> u8;
    fn remaining(pool: &mut Pool, task: u8, handle: u32, local: &mut u8, global: &mut u8) -> u8;
    fn awaited(pool: &mut Pool, tasks: &mut u16) -> u8;
    fn share(pool: &mut Pool, task: u8, holdings: &mut Holdings) -> u8;
    fn frame(pool: &mut Pool, small: &mut [u8], large: &mut [u8], line: &[u8], out: &mut [u8], count: &mut usize)
        -> u8;
}

/// The plain pool.
#[derive(Clone, Copy, Debug)]
pub struct Plain;

impl Entries for Plain {
    #[inline]
    fn fresh(pool: &mut Pool) -> u8 {
        calls::fresh(pool)
    }

    #[inline]
    fn fresh_sized(pool: &mut Pool, limits: Limits) -> u8 {
        calls::fresh_sized(pool, limits)
    }

    #[inline]
    fn join(pool: &mut Pool, task: u8, share: Share) -> u8 {
        calls::join(pool, task, share)
    }

    #[inline]
    fn view(pool: &mut Pool, task: u8) -> u8 {
        calls::view(pool, task)
    }

    #[inline]
    fn leave(pool: &mut Pool, task: u8, advanced: &mut u8) -> u8 {
        calls::leave(pool, task, advanced)
    }

    #[inline]
    fn block(pool: &mut Pool, task: u8, advanced: &mut u8) -> u8 {
        calls::block(pool, task, advanced)
    }

    #[inline]
    fn resume(pool: &mut Pool, task: u8) -> u8 {
        calls::resume(pool, task)
    }

    #[inline]
    fn tick(pool: &mut Pool, task: u8, advanced: &mut u8) -> u8 {
        calls::tick(pool, task, advanced)
    }

    #[inline]
    fn make(
        pool: &mut Pool,
        small: &mut [u8],
        large: &mut [u8],
        task: u8,
        kind: u8,
        extension: u8,
        length: u16,
        prefix: u16,
        handle: &mut u32,
    ) -> u8 {
        calls::make(pool, small, large, task, kind, extension, length, prefix, handle)
    }

    #[inline]
    fn refresh(pool: &mut Pool, task: u8, kind: u8, extension: u8, handle: u32) -> u8 {
        calls::refresh(pool, task, kind, extension, handle)
    }

    #[inline]
    fn refresh_all(pool: &mut Pool, task: u8, kind: u8, extension: u8, handles: &[u32]) -> u8 {
        calls::refresh_all(pool, task, kind, extension, handles)
    }

    #[inline]
    fn release(pool: &mut Pool, task: u8, handle: u32) -> u8 {
        calls::release(pool, task, handle)
    }

    #[inline]
    fn read(
        pool: &mut Pool,
        small: &[u8],
        large: &[u8],
        task: u8,
        handle: u32,
        out: &mut [u8],
        count: &mut usize,
    ) -> u8 {
        calls::read(pool, small, large, task, handle, out, count)
    }

    #[inline]
    fn write(
        pool: &mut Pool,
        small: &mut [u8],
        large: &mut [u8],
        task: u8,
        handle: u32,
        offset: u8,
        bytes: &[u8],
    ) -> u8 {
        calls::write(pool, small, large, task, handle, offset, bytes)
    }

    #[inline]
    fn report(pool: &mut Pool, small: &mut u8, large: &mut u8, expirations: &mut u16, given: &mut u32) -> u8 {
        calls::report(pool, small, large, expirations, given)
    }

    #[inline]
    fn remaining(pool: &mut Pool, task: u8, handle: u32, local: &mut u8, global: &mut u8) -> u8 {
        calls::remaining(pool, task, handle, local, global)
    }

    #[inline]
    fn awaited(pool: &mut Pool, tasks: &mut u16) -> u8 {
        calls::awaited(pool, tasks)
    }

    #[inline]
    fn share(pool: &mut Pool, task: u8, holdings: &mut Holdings) -> u8 {
        calls::share(pool, task, holdings)
    }

    #[inline]
    fn frame(
        pool: &mut Pool,
        small: &mut [u8],
        large: &mut [u8],
        line: &[u8],
        out: &mut [u8],
        count: &mut usize,
    ) -> u8 {
        calls::frame(pool, small, large, line, out, count)
    }
}
