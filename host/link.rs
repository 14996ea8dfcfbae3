//! Where a build script finds the proved library, libramsummer.a: the rule of README.md, for this crate and for the
//! tests of the library.

use std::ffi::OsString;
use std::path::{Path, PathBuf};
use std::{env, process};

const ARCHIVE: &str = "libramsummer.a";

/// Links the library, and tells where it is. `root` is the repository's, seen from the folder of the crate that is built.
pub fn library(root: &str) -> PathBuf {
    println!("cargo:rerun-if-env-changed=RAMSUMMER_LIB");
    let folder = folder(root);
    let archive = folder.join(ARCHIVE);
    println!("cargo:rerun-if-changed={}", archive.display());
    if !archive.is_file() {
        let archive = archive.display();
        eprintln!("{archive} is missing: run `tools/set-up` first, or set RAMSUMMER_LIB to its folder");
        process::exit(1);
    }
    println!("cargo:rustc-link-search=native={}", folder.display());
    println!("cargo:rustc-link-lib=static=ramsummer");
    archive
}

fn folder(root: &str) -> PathBuf {
    let here = env::var_os("CARGO_MANIFEST_DIR").expect("cargo sets CARGO_MANIFEST_DIR");
    let named = env::var_os("RAMSUMMER_LIB").filter(|folder| !folder.is_empty());
    Path::new(&here).join(root).join(named.unwrap_or_else(|| OsString::from("target/staticlib")))
}
