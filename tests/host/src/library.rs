//! The linked library: its C interface, and safe entries over it. A slice goes as its first value and its length. It is
//! declared here apart on purpose from host/src/sys.rs: tests and measures go to the library itself, with nothing of the Rust
//! crate between.

use plain::limits::Limits;
use plain::record::{Pool, Share};
use plain::work::{Holding, Holdings};

use crate::entries::Entries;

/// The proved pool.
#[derive(Clone, Copy, Debug)]
pub struct Library;

extern "C" {
    fn ramsummer_fresh(pool: *mut Pool) -> u8;
    fn ramsummer_fresh_sized(
        pool: *mut Pool,
        small_blocks: u32,
        large_blocks: u32,
        expirations: u32,
        extension: u32,
    ) -> u8;
    fn ramsummer_join(
        pool: *mut Pool,
        task: u8,
        small_reserve: u8,
        small_limit: u8,
        large_reserve: u8,
        large_limit: u8,
    ) -> u8;
    fn ramsummer_view(pool: *mut Pool, task: u8) -> u8;
    fn ramsummer_leave(pool: *mut Pool, task: u8, advanced: *mut u8) -> u8;
    fn ramsummer_block(pool: *mut Pool, task: u8, advanced: *mut u8) -> u8;
    fn ramsummer_resume(pool: *mut Pool, task: u8) -> u8;
    fn ramsummer_tick(pool: *mut Pool, task: u8, advanced: *mut u8) -> u8;
    fn ramsummer_make(
        pool: *mut Pool,
        small: *mut u8,
        small_length: usize,
        large: *mut u8,
        large_length: usize,
        task: u8,
        kind: u8,
        extension: u8,
        length: u16,
        prefix: u16,
        handle: *mut u32,
    ) -> u8;
    fn ramsummer_refresh(pool: *mut Pool, task: u8, kind: u8, extension: u8, handle: u32) -> u8;
    fn ramsummer_refresh_all(
        pool: *mut Pool,
        task: u8,
        kind: u8,
        extension: u8,
        handles: *const u32,
        count: usize,
    ) -> u8;
    fn ramsummer_release(pool: *mut Pool, task: u8, handle: u32) -> u8;
    fn ramsummer_read(
        pool: *mut Pool,
        small: *const u8,
        small_length: usize,
        large: *const u8,
        large_length: usize,
        task: u8,
        handle: u32,
        out: *mut u8,
        out_length: usize,
        count: *mut usize,
    ) -> u8;
    fn ramsummer_write(
        pool: *mut Pool,
        small: *mut u8,
        small_length: usize,
        large: *mut u8,
        large_length: usize,
        task: u8,
        handle: u32,
        offset: u8,
        bytes: *const u8,
        count: usize,
    ) -> u8;
    fn ramsummer_report(pool: *mut Pool, small: *mut u8, large: *mut u8, expirations: *mut u16, given: *mut u32) -> u8;
    fn ramsummer_remaining(pool: *mut Pool, task: u8, handle: u32, local: *mut u8, global: *mut u8) -> u8;
    fn ramsummer_awaited(pool: *mut Pool, tasks: *mut u16) -> u8;
    fn ramsummer_share(
        pool: *mut Pool,
        task: u8,
        small_made: *mut u8,
        small_reserve: *mut u8,
        small_limit: *mut u8,
        large_made: *mut u8,
        large_reserve: *mut u8,
        large_limit: *mut u8,
    ) -> u8;
    fn ramsummer_frame(
        pool: *mut Pool,
        small: *mut u8,
        small_length: usize,
        large: *mut u8,
        large_length: usize,
        line: *const u8,
        line_length: usize,
        out: *mut u8,
        out_length: usize,
        count: *mut usize,
    ) -> u8;
}

// SAFETY of every call: references are non-null, aligned and apart, slices come with their own lengths, and the
// record is the library's, numbers without a gap, so that any bytes of it are a value.
impl Entries for Library {
    #[inline]
    fn fresh(pool: &mut Pool) -> u8 {
        unsafe { ramsummer_fresh(pool) }
    }

    #[inline]
    fn fresh_sized(pool: &mut Pool, limits: Limits) -> u8 {
        let Limits { small_blocks, large_blocks, expirations, extension } = limits;
        unsafe { ramsummer_fresh_sized(pool, small_blocks, large_blocks, expirations, extension) }
    }

    #[inline]
    fn join(pool: &mut Pool, task: u8, share: Share) -> u8 {
        let Share { small, large } = share;
        unsafe { ramsummer_join(pool, task, small.reserve, small.limit, large.reserve, large.limit) }
    }

    #[inline]
    fn view(pool: &mut Pool, task: u8) -> u8 {
        unsafe { ramsummer_view(pool, task) }
    }

    #[inline]
    fn leave(pool: &mut Pool, task: u8, advanced: &mut u8) -> u8 {
        unsafe { ramsummer_leave(pool, task, advanced) }
    }

    #[inline]
    fn block(pool: &mut Pool, task: u8, advanced: &mut u8) -> u8 {
        unsafe { ramsummer_block(pool, task, advanced) }
    }

    #[inline]
    fn resume(pool: &mut Pool, task: u8) -> u8 {
        unsafe { ramsummer_resume(pool, task) }
    }

    #[inline]
    fn tick(pool: &mut Pool, task: u8, advanced: &mut u8) -> u8 {
        unsafe { ramsummer_tick(pool, task, advanced) }
    }

    #[inline]
    fn make(
        pool: &mut Pool,
        small: &mut [u8],
        large: &mut [u8],
        task: u8,
        kind: u8,
        extension: u8,
        length: u16,
        prefix: u16,
        handle: &mut u32,
    ) -> u8 {
        let (small, small_length) = (small.as_mut_ptr(), small.len());
        let (large, large_length) = (large.as_mut_ptr(), large.len());
        unsafe {
            ramsummer_make(
                pool,
                small,
                small_length,
                large,
                large_length,
                task,
                kind,
                extension,
                length,
                prefix,
                handle,
            )
        }
    }

    #[inline]
    fn refresh(pool: &mut Pool, task: u8, kind: u8, extension: u8, handle: u32) -> u8 {
        unsafe { ramsummer_refresh(pool, task, kind, extension, handle) }
    }

    #[inline]
    fn refresh_all(pool: &mut Pool, task: u8, kind: u8, extension: u8, handles: &[u32]) -> u8 {
        unsafe { ramsummer_refresh_all(pool, task, kind, extension, handles.as_ptr(), handles.len()) }
    }

    #[inline]
    fn release(pool: &mut Pool, task: u8, handle: u32) -> u8 {
        unsafe { ramsummer_release(pool, task, handle) }
    }

    #[inline]
    fn read(
        pool: &mut Pool,
        small: &[u8],
        large: &[u8],
        task: u8,
        handle: u32,
        out: &mut [u8],
        count: &mut usize,
    ) -> u8 {
        let (small, small_length) = (small.as_ptr(), small.len());
        let (large, large_length) = (large.as_ptr(), large.len());
        let (out, out_length) = (out.as_mut_ptr(), out.len());
        unsafe { ramsummer_read(pool, small, small_length, large, large_length, task, handle, out, out_length, count) }
    }

    #[inline]
    fn write(
        pool: &mut Pool,
        small: &mut [u8],
        large: &mut [u8],
        task: u8,
        handle: u32,
        offset: u8,
        bytes: &[u8],
    ) -> u8 {
        let (small, small_length) = (small.as_mut_ptr(), small.len());
        let (large, large_length) = (large.as_mut_ptr(), large.len());
        let (bytes, count) = (bytes.as_ptr(), bytes.len());
        unsafe { ramsummer_write(pool, small, small_length, large, large_length, task, handle, offset, bytes, count) }
    }

    #[inline]
    fn report(pool: &mut Pool, small: &mut u8, large: &mut u8, expirations: &mut u16, given: &mut u32) -> u8 {
        unsafe { ramsummer_report(pool, small, large, expirations, given) }
    }

    #[inline]
    fn remaining(pool: &mut Pool, task: u8, handle: u32, local: &mut u8, global: &mut u8) -> u8 {
        unsafe { ramsummer_remaining(pool, task, handle, local, global) }
    }

    #[inline]
    fn awaited(pool: &mut Pool, tasks: &mut u16) -> u8 {
        unsafe { ramsummer_awaited(pool, tasks) }
    }

    #[inline]
    fn share(pool: &mut Pool, task: u8, holdings: &mut Holdings) -> u8 {
        let Holding { made, reserve, limit } = &mut holdings.small;
        let Holding { made: large_made, reserve: large_reserve, limit: large_limit } = &mut holdings.large;
        unsafe { ramsummer_share(pool, task, made, reserve, limit, large_made, large_reserve, large_limit) }
    }

    #[inline]
    fn frame(
        pool: &mut Pool,
        small: &mut [u8],
        large: &mut [u8],
        line: &[u8],
        out: &mut [u8],
        count: &mut usize,
    ) -> u8 {
        let (small, small_length) = (small.as_mut_ptr(), small.len());
        let (large, large_length) = (large.as_mut_ptr(), large.len());
        let (line, line_length) = (line.as_ptr(), line.len());
        let (out, out_length) = (out.as_mut_ptr(), out.len());
        unsafe {
            ramsummer_frame(pool, small, small_length, large, large_length, line, line_length, out, out_length, count)
        }
    }
}
