//! Measures a program that runs scripts beside others that do: `bench [--peaks | --plans] PROGRAM OTHER...`. For each script the
//! instructions that callgrind counts and the best time, with the ratios to the others; then what a call costs as
//! the script grows. With `--peaks` the programs work out the room of a script, and the scripts are those that take the
//! most time or tables for it; with `--plans` they try cable plans, and the scripts are plans. Whether a program is right is for `compare` to tell.

mod measure;

use std::fmt::Display;
use std::fs;
use std::io;
use std::path::{Path, PathBuf};
use std::process::ExitCode;

use measure::{best_time, has_valgrind, instructions, RUNS};
use reference::generate::{script_of, Profile, PROFILES};
use reference::limits::TASKS;
use reference::longest;
use reference::plan::generate::{plan, written, SORTS};
use reference::plan::Channel;
use reference::script::{lines, LIMIT};

const SEED: u64 = 2010;

/// The profile and the sizes in KiB by which the cost of a call is told.
const GROWING: Profile = Profile::Everyday;
const SIZES: [usize; 4] = [8, 16, 32, 64];

struct Script {
    name: String,
    path: PathBuf,
    lines: usize,
}

fn main() -> ExitCode {
    let mut arguments = std::env::args_os().skip(1).peekable();
    let of_peaks = arguments.next_if(|word| word == "--peaks").is_some();
    let of_plans = !of_peaks && arguments.next_if(|word| word == "--plans").is_some();
    let scripts = match (of_peaks, of_plans) {
        (true, _) => planned_scripts,
        (_, true) => plans,
        _ => long_scripts,
    };
    let programs: Vec<_> = arguments.map(PathBuf::from).collect();
    let [_, _, ..] = programs[..] else {
        eprintln!("bench [--peaks | --plans] PROGRAM OTHER...");
        return ExitCode::from(2);
    };
    match Folder::new().and_then(|folder| measure_all(&programs, &scripts(), !of_plans, &folder.0)) {
        Ok(()) => ExitCode::SUCCESS,
        Err(error) => {
            eprintln!("bench: {error}");
            ExitCode::FAILURE
        }
    }
}

/// A temporary folder, removed at the end, after a failure too.
struct Folder(PathBuf);

impl Folder {
    fn new() -> io::Result<Folder> {
        let path = std::env::temp_dir().join(format!("bench-{}", std::process::id()));
        fs::create_dir(&path)?;
        Ok(Folder(path))
    }
}

impl Drop for Folder {
    fn drop(&mut self) {
        if let Err(error) = fs::remove_dir_all(&self.0) {
            eprintln!("bench: {} stays: {error}", self.0.display());
        }
    }
}

/// With what a call costs as the script grows, where scripts grow.
fn measure_all(programs: &[PathBuf], scripts: &[(String, Vec<u8>)], grow: bool, folder: &Path) -> io::Result<()> {
    let scripts: Vec<_> = scripts.iter().map(|(name, script)| put(folder, name, script)).collect::<io::Result<_>>()?;
    let empty = put(folder, "empty", b"")?;
    let count = |program: &Path, script: &Script| instructions(program, &script.path, folder);
    let time = |program: &Path, script: &Script| best_time(program, &script.path);
    let counts = has_valgrind();
    if counts {
        println!("instructions");
        table(programs, &scripts, &empty, count)?;
    } else {
        println!("valgrind is missing: times only");
    }
    println!("\nmicroseconds, the best of {RUNS} runs");
    table(programs, &scripts, &empty, time)?;
    if counts && grow {
        println!("\ninstructions of one call of the program, {GROWING:?}, without those of an empty script");
        growth(folder, &empty, |script| count(&programs[0], script))?;
    }
    Ok(())
}

// Scripts.

/// One of each profile and one of all, at the full length.
fn long_scripts() -> Vec<(String, Vec<u8>)> {
    let profiles = PROFILES.iter().map(|&profile| (format!("{profile:?}"), Some(profile)));
    let all = profiles.chain([("Mixed".to_string(), None)]);
    all.map(|(name, only)| (name, script_of(only, SEED, LIMIT))).collect()
}

/// Those that take the most time or tables for their room, and one of all profiles.
fn planned_scripts() -> Vec<(String, Vec<u8>)> {
    let mixed = ("mixed", script_of(None, SEED, LIMIT));
    longest::scripts().into_iter().chain([mixed]).map(|(name, script)| (name.to_string(), script)).collect()
}

/// Sixteen channels without a pause, which is the most that a plan asks for, and a plan of each sort.
fn plans() -> Vec<(String, Vec<u8>)> {
    let busy = Channel { period: 1, reply: 1, silent: u16::MAX, wait: 0, extension: 30 };
    let sorts = SORTS.iter().map(|&sort| (format!("{sort:?}"), plan(sort, SEED)));
    let all = [("sixteen".to_string(), vec![busy; TASKS])].into_iter().chain(sorts);
    all.map(|(name, plan)| (name, written(&plan).into_bytes())).collect()
}

fn put(folder: &Path, name: &str, script: &[u8]) -> io::Result<Script> {
    let path = folder.join(name);
    fs::write(&path, script)?;
    Ok(Script { name: name.to_string(), path, lines: lines(script).count() })
}

// Tables.

/// A row for each script, their sum, and a script of no line, which is not in the sum.
fn table(
    programs: &[PathBuf],
    scripts: &[Script],
    empty: &Script,
    measure: impl Fn(&Path, &Script) -> io::Result<u64>,
) -> io::Result<()> {
    let measure_each =
        |script: &Script| programs.iter().map(|program| measure(program, script)).collect::<io::Result<Vec<_>>>();
    let names: Vec<_> = programs.iter().map(|program| name(program)).collect();
    let ratios = names[1..].iter().map(|other| format!("/{other}"));
    print_row("script", "lines", names.clone(), ratios);
    let mut total = vec![0; programs.len()];
    for script in scripts {
        let measured = measure_each(script)?;
        row(&script.name, script.lines, &measured);
        total.iter_mut().zip(measured).for_each(|(sum, one)| *sum += one);
    }
    row("total", scripts.iter().map(|script| script.lines).sum(), &total);
    row(&empty.name, empty.lines, &measure_each(empty)?);
    Ok(())
}

/// The last part of a path.
fn name(program: &Path) -> String {
    program.file_name().unwrap_or_default().to_string_lossy().into_owned()
}

/// What was measured of each program, and of the first one by each other.
fn row(script: &str, lines: usize, measured: &[u64]) {
    let ratios = measured[1..].iter().map(|&other| format!("{:.2}", measured[0] as f64 / other as f64));
    print_row(script, lines, measured, ratios);
}

fn print_row(
    script: &str,
    lines: impl Display,
    measured: impl IntoIterator<Item = impl Display>,
    ratios: impl Iterator<Item = String>,
) {
    print!("{script:<16}{lines:>8}");
    measured.into_iter().for_each(|one| print!("{one:>13}"));
    ratios.for_each(|ratio| print!("{ratio:>12}"));
    println!();
}

/// What a call costs in scripts that begin alike and grow.
fn growth(folder: &Path, empty: &Script, count: impl Fn(&Script) -> io::Result<u64>) -> io::Result<()> {
    let start = count(empty)?;
    println!("{:<8}{:>8}{:>13}{:>13}", "KiB", "lines", "all", "a call");
    for size in SIZES {
        let script = put(folder, &format!("{size}-KiB"), &script_of(Some(GROWING), SEED, size * 1_024))?;
        let all = count(&script)?;
        let a_call = all.saturating_sub(start) / script.lines as u64;
        println!("{size:<8}{:>8}{all:>13}{a_call:>13}", script.lines);
    }
    Ok(())
}
