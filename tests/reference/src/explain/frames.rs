//! The operations by name, and why a frame yields no call, in words.

use crate::call::{Call, Refusal, OPERATIONS};
use crate::explain::phrases::{counted, shown_line};

/// By operation, from 01 on: its name and its frame's size.
const NAMES: [(&str, &str); OPERATIONS] = [
    ("join", "6 bytes"),
    ("leave", "2 bytes"),
    ("block", "2 bytes"),
    ("resume", "2 bytes"),
    ("tick", "2 bytes"),
    ("make", "8 bytes"),
    ("refresh", "8 bytes"),
    ("read", "6 bytes"),
    ("write", "7 to 263 bytes"),
    ("report", "1 byte"),
    ("remaining life", "6 bytes"),
    ("batch", "4 bytes and 4 for each object"),
    ("release", "6 bytes"),
    ("view", "2 bytes"),
];

/// The place of the kind in a frame that has one.
const KIND: usize = 2;

/// The name of a call's operation.
pub fn operation(call: &Call) -> &'static str {
    NAMES[call.operation() as usize].0
}

/// The frame and its refusal 16 to 19.
pub fn refused(line: &[u8], refusal: Refusal) -> String {
    let reason = match refusal {
        Refusal::NotHexadecimal => not_hexadecimal(line),
        Refusal::UnknownOperation if line.is_empty() => "an empty line has no operation".into(),
        Refusal::UnknownOperation => format!("operations are 01 to {OPERATIONS:02X}"),
        Refusal::WrongFrameLength => wrong_size(line),
        _ => format!("kind {:02X} is none of 00, local, 01, global, and 02, pinned", byte(line, KIND)),
    };
    format!("frame {}: {reason}", shown_line(line))
}

fn not_hexadecimal(line: &[u8]) -> String {
    match line.iter().position(|digit| !matches!(digit, b'0'..=b'9' | b'A'..=b'F')) {
        Some(place) => format!("character {} is no digit, 0 to 9 or A to F", place + 1),
        None => format!("{}, and a byte has two", counted(line.len(), "digit")),
    }
}

fn wrong_size(line: &[u8]) -> String {
    let (name, size) = NAMES[byte(line, 0) - 1];
    format!("a {name} has {size}, and not {}", line.len() / 2)
}

/// A byte of a line that is hexadecimal.
fn byte(line: &[u8], place: usize) -> usize {
    let digits = std::str::from_utf8(&line[2 * place..2 * place + 2]).unwrap_or("00");
    usize::from_str_radix(digits, 16).unwrap_or(0)
}
