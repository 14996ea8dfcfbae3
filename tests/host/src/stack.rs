//! How deep the stack of a call is, by painting: all that lies below the stack pointer is filled with one byte, the call
//! is made, and the deepest byte that has changed tells. The stack is that of a thread of its own, long enough for the
//! paint.
//!
//! Counted is what the call takes below its caller's frame: its return address, arguments that go by the stack, and the
//! frames of all that it calls, but not what it only reserves and never touches. The record, the stores, and the line and
//! answer of a frame are the caller's, and lie above.

use std::arch::asm;
use std::thread;

use crate::cases::Case;
use crate::desk::{Action, Desk};

/// How far down is painted.
const REACH: usize = 64 * 1024;

/// A byte that the call leaves as it was painted is not seen: two paints make that unlikely.
const PAINTS: [u8; 2] = [0xA5, 0x5A];

/// The bytes of stack that the call of a case takes.
pub fn depth(case: &Case, action: Action) -> usize {
    let measure = || {
        let mut desk = Desk::with(case.memory.clone());
        // A first time that is not measured finds all functions linked.
        action(&mut desk, &case.arguments);
        let depths = PAINTS.map(|paint| {
            desk.memory.clone_from(&case.memory);
            let (depth, answer) = painted(paint, || action(&mut desk, &case.arguments));
            assert_eq!(answer, case.answer, "{}", case.name);
            depth
        });
        depths.into_iter().max().unwrap_or(0)
    };
    thread::scope(|scope| {
        let thread = thread::Builder::new().stack_size(4 * REACH).spawn_scoped(scope, measure);
        thread.expect("a thread").join().expect("a measure")
    })
}

/// Makes the call, and tells how many bytes of stack it has changed from here on.
#[inline(never)]
fn painted(paint: u8, call: impl FnOnce() -> u8) -> (usize, u8) {
    let above: usize;
    // SAFETY: the thread's stack goes on for more than so many bytes below the stack pointer, and nothing of this
    // function is there while it makes no call; a `rep stosb` makes none, nor does it push.
    unsafe {
        asm!(
            "lea rdi, [rsp - {REACH}]",
            "rep stosb",
            REACH = const REACH,
            in("al") paint,
            inout("rcx") REACH => _,
            out("rdi") _,
        );
    }
    let answer = call();
    // SAFETY: the same bytes are only read, from the deepest on, up to the first that has changed.
    unsafe {
        asm!(
            "lea rdi, [rsp - {REACH}]",
            "repe scasb",
            REACH = const REACH,
            in("al") paint,
            inout("rcx") REACH => above,
            out("rdi") _,
        );
    }
    let depth = above + 1;
    assert!(depth < REACH, "the call goes deeper than the paint");
    (depth, answer)
}
