//! Instructions: every case under callgrind in one run of the program that asks, with the counts written out after each.

use std::cell::RefCell;
use std::collections::BTreeMap;
use std::fs;
use std::hint::black_box;
use std::io;
use std::path::{Path, PathBuf};
use std::process::{Command, Stdio};

use crate::cases::Case;
use crate::desk::{measured, Action, Desk};
use crate::malloc::{self, Way};
use crate::measures::{measure, Measures};

/// How often each call is made.
const REPEATS: u64 = 10;

/// The instructions of one call by function, those called from it not included.
#[derive(Clone, Debug, Default)]
pub struct Count {
    pub functions: BTreeMap<String, f64>,
}

impl Count {
    pub fn total(&self) -> f64 {
        self.functions.values().sum()
    }

    /// The instructions in functions with such a name.
    pub fn within(&self, name: &str) -> f64 {
        self.functions.iter().filter(|(function, _)| function.contains(name)).map(|(_, count)| count).sum()
    }
}

/// Makes all calls, and has the counts written out after each case.
pub fn run_all(cases: &[Case]) {
    measure(cases, run, run_way);
}

fn run(case: &Case, action: Action) {
    let mut desk = Desk::with(case.memory.clone());
    for _ in 0..REPEATS {
        desk.memory.clone_from(&case.memory);
        let answer = measured(action, &mut desk, &case.arguments);
        assert_eq!(answer, case.answer, "{}, {} expirations", case.name, case.expirations);
    }
    case_is_done();
}

/// A first time that is not counted finds memory that the others find too.
fn run_way(way: &Way) {
    (way.action)(way.size);
    for _ in 0..REPEATS {
        malloc::measured(way.action, way.size);
    }
    case_is_done();
}

/// Callgrind writes its counts out where this is called, and begins again.
#[inline(never)]
fn case_is_done() {
    black_box(());
}

/// Runs this program under callgrind, as `PROGRAM count`, which has to [`run_all`] the same cases, and reads its counts, one
/// file for each case.
pub fn counts(cases: &[Case]) -> io::Result<Measures<Count>> {
    let folder = Folder::new()?;
    let file = folder.0.join("counts");
    let mut valgrind = Command::new("valgrind");
    valgrind.args(["--tool=callgrind", "--collect-atstart=no", "--compress-strings=no", "--compress-pos=no"]);
    valgrind.args(["--toggle-collect=*measured*", "--dump-before=*case_is_done*"]);
    valgrind.arg(format!("--callgrind-out-file={}", file.display()));
    valgrind.arg(std::env::current_exe()?).arg("count").stderr(Stdio::null());
    let status = valgrind.status().map_err(|error| io::Error::other(format!("valgrind: {error}")))?;
    if !status.success() {
        return Err(io::Error::other(format!("{valgrind:?}: {status}")));
    }
    let parts = (1..).map(|part| folder.0.join(format!("counts.{part}"))).take_while(|path| path.exists());
    let counts: Vec<Count> = parts.map(|path| read(&path)).collect::<io::Result<_>>()?;
    in_order(cases, counts).ok_or_else(|| io::Error::other("callgrind has not written out every case"))
}

/// The counts, in the order in which the cases were run, put where they belong.
fn in_order(cases: &[Case], counts: Vec<Count>) -> Option<Measures<Count>> {
    let counts = RefCell::new(counts.into_iter());
    let next = || counts.borrow_mut().next();
    let Measures { cases, ways } = measure(cases, |_, _| next(), |_| next());
    let complete = |of_case: [Option<Option<Count>>; 3]| match of_case {
        [Some(None), ..] | [_, Some(None), _] | [.., Some(None)] => None,
        counted => Some(counted.map(Option::flatten)),
    };
    Some(Measures {
        cases: cases.into_iter().map(complete).collect::<Option<_>>()?,
        ways: ways.into_iter().collect::<Option<_>>()?,
    })
}

/// The counts of one part: a line `fn=` names a function, and the lines of numbers after it are its own, but for the
/// one after a line `calls=`, which is the callee's.
fn read(path: &Path) -> io::Result<Count> {
    let mut count = Count::default();
    let (mut function, mut callee) = (String::new(), false);
    for line in fs::read_to_string(path)?.lines() {
        if let Some(name) = line.strip_prefix("fn=") {
            function = name.to_string();
        } else if line.starts_with("calls=") {
            callee = true;
        } else if line.starts_with(|first: char| first.is_ascii_digit()) {
            let own = line.split(' ').nth(1).and_then(|number| number.parse::<u64>().ok()).unwrap_or(0);
            if !std::mem::take(&mut callee) {
                *count.functions.entry(function.clone()).or_default() += own as f64 / REPEATS as f64;
            }
        }
    }
    Ok(count)
}

/// A temporary folder, removed at the end.
struct Folder(PathBuf);

impl Folder {
    fn new() -> io::Result<Folder> {
        let path = std::env::temp_dir().join(format!("counts-{}", std::process::id()));
        fs::create_dir(&path)?;
        Ok(Folder(path))
    }
}

impl Drop for Folder {
    fn drop(&mut self) {
        if let Err(error) = fs::remove_dir_all(&self.0) {
            eprintln!("{} stays: {error}", self.0.display());
        }
    }
}
