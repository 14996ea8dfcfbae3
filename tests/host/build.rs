//! Links the proved library, found as host/README.md says.

#[path = "../../host/link.rs"]
mod link;

fn main() {
    let archive = link::library("../..");
    println!("cargo:rustc-env=RAMSUMMER_ARCHIVE={}", archive.display());
}
