//! Scripts: many frames in, one answer a line out.

use crate::call::{Call, Model};
use crate::frame::{decode, encode_answer};
use crate::ledger::Ledger;

/// The longest script that is run, in bytes.
pub const LIMIT: usize = 65_536;

/// The whole output of a script's run on a fresh ledger.
pub fn run(script: &[u8]) -> Vec<u8> {
    run_from(Ledger::fresh(), script)
}

/// The same from this model on.
pub fn run_from(mut model: impl Model, script: &[u8]) -> Vec<u8> {
    if script.len() > LIMIT {
        return b"script too long\n".to_vec();
    }
    let mut room = vec![0; script.len() / 2];
    let mut output = Vec::with_capacity(script.len());
    for line in lines(script) {
        let answer = decode(line, &mut room).and_then(|call| model.call(&call));
        encode_answer(&answer, &mut output);
    }
    output
}

/// The lines without their LF. The last one may lack it, and after the last LF comes no further line.
pub fn lines(script: &[u8]) -> impl Iterator<Item = &[u8]> {
    let whole = script.split_inclusive(|&byte| byte == b'\n');
    whole.map(|line| line.strip_suffix(b"\n").unwrap_or(line))
}

/// The script's calls, without refused frames. `room` has at least half the script's length.
pub fn calls<'a>(script: &[u8], mut room: &'a mut [u8]) -> Vec<Call<'a>> {
    let mut calls = Vec::new();
    for line in lines(script) {
        let (part, rest) = room.split_at_mut(line.len() / 2);
        room = rest;
        calls.extend(decode(line, part));
    }
    calls
}
