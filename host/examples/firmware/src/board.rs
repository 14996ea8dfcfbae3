//! What a board gives: a serial line, and a way to stop. Here both are the C library's.

use core::fmt::{self, Write};
use core::panic::PanicInfo;

#[link(name = "c")]
extern "C" {
    fn write(file: i32, bytes: *const u8, count: usize) -> isize;
    fn abort() -> !;
}

struct Serial;

impl Write for Serial {
    fn write_str(&mut self, text: &str) -> fmt::Result {
        // SAFETY: the bytes of `text` are only read.
        let written = unsafe { write(1, text.as_ptr(), text.len()) };
        if written == text.len() as isize {
            Ok(())
        } else {
            Err(fmt::Error)
        }
    }
}

/// A line that nobody listens to is no fault of the program.
pub fn print(text: fmt::Arguments<'_>) {
    let _ = Serial.write_fmt(text);
}

#[panic_handler]
fn panic(info: &PanicInfo<'_>) -> ! {
    print(format_args!("{info}\n"));
    // SAFETY: it asks for nothing, and does not come back.
    unsafe { abort() }
}

/// The `core` of a machine with an operating system is built to unwind, and names this. A panic ends this program, so
/// nobody calls it.
#[no_mangle]
extern "C" fn rust_eh_personality() {}
