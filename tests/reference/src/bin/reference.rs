//! The same program as the pool's own, by the reference: a script on standard input, answers on
//! standard output. With `--figures S,L,D,E` it is run in a pool of these figures.

use std::io::{self, Write};
use std::process::ExitCode;

use reference::call::Model;
use reference::ledger::Ledger;
use reference::program::{figures, read_script};
use reference::script::run_from;

fn main() -> io::Result<ExitCode> {
    let arguments: Vec<_> = std::env::args().skip(1).collect();
    let words = match arguments.iter().map(String::as_str).collect::<Vec<_>>()[..] {
        [] => None,
        ["--figures"] => Some(""),
        ["--figures", words] => Some(words),
        _ => {
            eprintln!("reference [--figures S,L,D,E]");
            return Ok(ExitCode::from(2));
        }
    };
    let limits = match figures(words) {
        Ok(limits) => limits,
        Err(told) => {
            eprintln!("reference: {told}");
            return Ok(ExitCode::FAILURE);
        }
    };
    let script = read_script(io::stdin().lock())?;
    io::stdout().lock().write_all(&run_from(Ledger::of(limits), &script))?;
    Ok(ExitCode::SUCCESS)
}
