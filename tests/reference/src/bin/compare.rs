//! Compares a program that runs scripts with the reference, and the reference's ledger with its heap:
//! `compare PROGRAM COUNT [FIRST_SEED]`. After the scripts of the seeds come the longest script that is run
//! and one that is a byte longer. With `--peaks` before it the program is one that works out the room of a script, with
//! `--plans` one that tries cable plans, and the seeds' are texts of plans, good and bad.

use std::process::{Command, ExitCode};
use std::sync::atomic::{AtomicU64, Ordering};
use std::sync::Mutex;
use std::thread;

use reference::call::Call;
use reference::generate;
use reference::heap::{first_difference, first_use_out};
use reference::limits::Limits;
use reference::longest;
use reference::peaks;
use reference::plan;
use reference::program::{decimal, run_program};
use reference::script::{calls, lines, run, LIMIT};

const USAGE: &str = "compare [--peaks | --plans] PROGRAM COUNT [FIRST_SEED]";

/// What the program works out.
#[derive(Clone, Copy, PartialEq, Eq)]
enum Subject {
    Answers,
    Peaks,
    Plans,
}

struct Order {
    subject: Subject,
    program: String,
    count: u64,
    first_seed: u64,
}

/// What was compared so far.
#[derive(Default)]
struct Tally {
    scripts: u64,
    lines: usize,
    /// Scripts in time and in bounds throughout; of peaks those that fit in a pool; of plans those that are good.
    met: u64,
    /// The lowest seed with a difference, and the difference.
    finding: Option<(u64, String)>,
}

fn main() -> ExitCode {
    let Some(order) = order() else {
        eprintln!("{USAGE}");
        return ExitCode::from(2);
    };
    let tally = compare_all(&order);
    if let Some((seed, finding)) = tally.finding {
        println!("seed {seed}\n{finding}");
        return ExitCode::FAILURE;
    }
    if let Err(finding) = compare_at_limit(&order) {
        println!("{finding}");
        return ExitCode::FAILURE;
    }
    let (met, not) = (tally.met, tally.scripts - tally.met);
    match order.subject {
        Subject::Answers => println!("{met} scripts in time and in bounds throughout, {not} not"),
        Subject::Peaks => println!("{met} scripts fit in a pool, {not} do not"),
        Subject::Plans => println!("{met} plans are good, {not} are bad"),
    }
    let scripts = if order.subject == Subject::Plans { "plans" } else { "scripts" };
    println!("{} {scripts}, {} lines: all alike", tally.scripts, tally.lines);
    ExitCode::SUCCESS
}

fn order() -> Option<Order> {
    let mut arguments = std::env::args().skip(1).peekable();
    let subject = match arguments.next_if(|word| word.starts_with('-')).as_deref() {
        None => Subject::Answers,
        Some("--peaks") => Subject::Peaks,
        Some("--plans") => Subject::Plans,
        Some(_) => return None,
    };
    let program = arguments.next()?;
    let count = decimal(&arguments.next()?).filter(|&count| count > 0)?;
    let first_seed: u64 = arguments.next().map_or(Some(1), |word| decimal(&word))?;
    first_seed.checked_add(count)?;
    arguments.next().is_none().then_some(Order { subject, program, count, first_seed })
}

/// As many workers as the machine runs at once. Seeds are handed out in order, so the lowest one with
/// a difference is always found.
fn compare_all(order: &Order) -> Tally {
    let workers = thread::available_parallelism().map_or(1, usize::from);
    let next = AtomicU64::new(order.first_seed);
    let tally = Mutex::new(Tally::default());
    thread::scope(|scope| {
        for _ in 0..workers {
            scope.spawn(|| work(order, &next, &tally));
        }
    });
    tally.into_inner().expect("no worker failed")
}

fn work(order: &Order, next: &AtomicU64, tally: &Mutex<Tally>) {
    loop {
        let seed = next.fetch_add(1, Ordering::Relaxed);
        if seed >= order.first_seed + order.count {
            return;
        }
        let result = match order.subject {
            Subject::Answers => compare_answers(order, seed),
            Subject::Peaks => compare_peaks(order, seed),
            Subject::Plans => compare_plans(order, seed),
        };
        let mut tally = tally.lock().expect("no worker failed");
        tally.note(seed, result);
        if tally.finding.is_some() {
            return;
        }
    }
}

impl Tally {
    fn note(&mut self, seed: u64, result: Result<(usize, bool), String>) {
        match result {
            Ok((lines, met)) => {
                self.scripts += 1;
                self.lines += lines;
                self.met += u64::from(met);
            }
            Err(text) if self.finding.as_ref().is_none_or(|&(lowest, _)| seed < lowest) => {
                self.finding = Some((seed, text));
            }
            Err(_) => {}
        }
    }
}

/// The count of answers and whether all use was in time, or what differs.
fn compare_answers(order: &Order, seed: u64) -> Result<(usize, bool), String> {
    let script = generate::script(seed);
    let expected = run(&script);
    check_program(&order.program, &script, &expected)?;
    let mut room = vec![0; script.len() / 2];
    let calls = calls(&script, &mut room);
    Ok((lines(&expected).count(), check_heap(&calls)?))
}

/// The count of lines and whether the script fits in a pool, or what differs.
fn compare_peaks(order: &Order, seed: u64) -> Result<(usize, bool), String> {
    let script = generate::planned_script(seed);
    check_program(&order.program, &script, &peaks::output(&script))?;
    let fits = peaks::peaks(Limits::STANDARD, &script).fits(Limits::STANDARD);
    if fits != peaks::has_room(Limits::STANDARD, &script) {
        return Err("the peaks do not tell whether the ledger answers 9 or 10".to_string());
    }
    Ok((lines(&script).count(), fits))
}

/// The count of lines and whether the plan is good, or what differs.
fn compare_plans(order: &Order, seed: u64) -> Result<(usize, bool), String> {
    let text = plan::generate::text(seed);
    check_program(&order.program, &text, &plan::output(&text))?;
    Ok((lines(&text).count(), plan::read(&text).is_some()))
}

/// The longest scripts that are run give what the reference gives, and a byte more the one line.
fn compare_at_limit(order: &Order) -> Result<(), String> {
    let expected = match order.subject {
        Subject::Answers => run,
        Subject::Peaks => peaks::output,
        // A plan that is too long is among the seeds'.
        Subject::Plans => return Ok(()),
    };
    let any = generate::script_of(None, order.first_seed, LIMIT);
    assert_eq!(any.len(), LIMIT);
    let too_long = [&any[..], b"\n"].concat();
    for (name, script) in [("any", any), ("a byte more", too_long)].into_iter().chain(longest::scripts()) {
        check_program(&order.program, &script, &expected(&script))
            .map_err(|finding| format!("longest: {name}\n{finding}"))?;
    }
    println!("scripts of {LIMIT} bytes and of one more: alike");
    Ok(())
}

/// The program writes what is expected.
fn check_program(program: &str, script: &[u8], expected: &[u8]) -> Result<(), String> {
    let output = run_program(&mut Command::new(program), script);
    let output = output.map_err(|error| format!("{program} does not run: {error}"))?;
    if let Some(difference) = difference(script, expected, &output.stdout) {
        return Err(difference);
    }
    // A script that is too long may end a program in any way.
    if script.len() <= LIMIT && !output.status.success() {
        return Err(format!("{program} answered all and failed: {}", output.status));
    }
    Ok(())
}

/// The first line whose answers differ, with both; of peaks the one line, of a plan the line of the channel.
fn difference(script: &[u8], expected: &[u8], actual: &[u8]) -> Option<String> {
    if expected == actual {
        return None;
    }
    let pairs = answers(expected).zip(answers(actual));
    let alike = pairs.take_while(|(one, other)| one == other).count();
    Some(format!(
        "line {}\ncall {}\nreference {}\nprogram {}",
        alike + 1,
        show(lines(script).nth(alike)),
        show(answers(expected).nth(alike)),
        show(answers(actual).nth(alike)),
    ))
}

/// The lines of an output with their LF.
fn answers(output: &[u8]) -> impl Iterator<Item = &[u8]> {
    output.split_inclusive(|&byte| byte == b'\n')
}

fn show(line: Option<&[u8]>) -> String {
    line.map_or("none".to_string(), |line| line.escape_ascii().to_string())
}

/// Demand 3 of the reference itself: its answers are the heap's exactly when all use is in time and in
/// bounds, and the first use out is the first answer that differs.
fn check_heap(calls: &[Call]) -> Result<bool, String> {
    let (out, differs) = (first_use_out(Limits::STANDARD, calls), first_difference(Limits::STANDARD, calls));
    if out != differs {
        return Err(format!(
            "heap: first use out {}, first answer that differs {}",
            show_call(calls, out),
            show_call(calls, differs)
        ));
    }
    Ok(out.is_none())
}

fn show_call(calls: &[Call], index: Option<usize>) -> String {
    index.map_or("none".to_string(), |index| format!("call {index} {:?}", calls[index]))
}
