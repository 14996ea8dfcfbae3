//! The same program as `peaks`, by the ledger: a script on standard input, and on standard output the most small objects,
//! large objects and expirations that stand after any call of it.

use std::io::{self, Write};

use reference::peaks::output;
use reference::program::read_script;

fn main() -> io::Result<()> {
    let script = read_script(io::stdin().lock())?;
    io::stdout().lock().write_all(&output(&script))
}
