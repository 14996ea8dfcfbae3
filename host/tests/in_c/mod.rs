//! Programs in C, which are compiled with every warning an error and linked with the library.

#![allow(dead_code)] // Each test uses what it needs.

use std::path::{Path, PathBuf};
use std::process::{Command, Output};

pub fn host() -> &'static Path {
    Path::new(env!("CARGO_MANIFEST_DIR"))
}

pub fn scratch(name: &str) -> PathBuf {
    Path::new(env!("CARGO_TARGET_TMPDIR")).join(name)
}

pub fn written(name: &str, text: &str) -> PathBuf {
    let path = scratch(name);
    std::fs::write(&path, text).unwrap();
    path
}

/// What this compiler says of the headers in use, or none where it is not here.
pub fn compiled(compiler: &str, arguments: &[&str]) -> Option<Output> {
    let output = Command::new(compiler).arg("-I").arg(host().join("include")).args(arguments).output();
    if output.is_err() {
        eprintln!("{compiler} is not here: its test of the C headers was left out");
    }
    output.ok()
}

/// The program of this source by this standard, such as `c99` or `c++17`; or none where there is no compiler for it.
pub fn built(name: &str, source: &Path, standard: &str) -> Option<PathBuf> {
    let binary = scratch(name);
    let language = if standard.starts_with("c++") { "c++" } else { "c" };
    let mut cc = Command::new("cc");
    cc.args(["-Wall", "-Wextra", "-Wconversion", "-Wsign-conversion", "-Werror", "-pedantic", "-O1", "-I"]);
    cc.arg(host().join("include")).arg(format!("-std={standard}")).args(["-x", language]).arg(source);
    cc.args(["-x", "none", env!("RAMSUMMER_ARCHIVE"), "-o"]).arg(&binary);
    let Ok(said) = cc.output() else { return left_out(name) };
    let errors = String::from_utf8_lossy(&said.stderr);
    if is_without_cpp(&errors) {
        return left_out(name);
    }
    assert!(said.status.success(), "{name} by {standard}: {errors}");
    Some(binary)
}

/// The program tests/NAME.c prints nothing that was otherwise, by every standard that there is a compiler for.
pub fn succeeds(name: &str) {
    for standard in ["c99", "c11", "c++98", "c++17"] {
        let source = host().join(format!("tests/{name}.c"));
        let Some(binary) = built(&format!("{name}_{standard}"), &source, standard) else { return };
        let output = Command::new(binary).output().unwrap();
        assert!(output.status.success(), "{standard}: {}", String::from_utf8_lossy(&output.stdout));
    }
}

/// Whether the compiler says that its part for C++ is missing, which it names in quotes.
pub fn is_without_cpp(errors: &str) -> bool {
    ["cc1plus'", "cc1plus\u{2019}"].iter().any(|named| errors.contains(named))
}

fn left_out(name: &str) -> Option<PathBuf> {
    eprintln!("there is no compiler for {name} here: it was left out");
    None
}
