//! The same program as the pool's own, by the plain pool: a script on standard input, answers on standard output. From
//! fresh on every record is well-formed, so that no line tests it.

use std::io::{self, Read, Write};

use plain::calls::{serve, ANSWER_ROOM};
use plain::frames::{answer, decode, lines, LONGEST_FRAME};
use plain::limits::{Limits, LONGEST_SCRIPT};
use plain::record::FRESH;

fn main() -> io::Result<()> {
    let mut script = Vec::with_capacity(LONGEST_SCRIPT + 1);
    io::stdin().lock().take(LONGEST_SCRIPT as u64 + 1).read_to_end(&mut script)?;
    let output = if script.len() > LONGEST_SCRIPT { b"script too long\n".to_vec() } else { run(&script) };
    io::stdout().lock().write_all(&output)
}

/// The answers to all lines, on a fresh pool.
fn run(script: &[u8]) -> Vec<u8> {
    const LIMITS: Limits = Limits::STANDARD;
    let (mut pool, mut small, mut large) = (FRESH, [0; LIMITS.small_store()], [0; LIMITS.large_store()]);
    let (mut room, mut out, mut output) = ([0; LONGEST_FRAME + 1], [0; ANSWER_ROOM], Vec::with_capacity(script.len()));
    for line in lines(script) {
        let reply = decode(line, &mut room).and_then(|request| serve(&mut pool, &mut small, &mut large, request));
        let count = answer(reply, &mut out);
        output.extend(&out[..count]);
    }
    output
}
