//! Links the proved library.

mod link;

fn main() {
    let archive = link::library("..");
    println!("cargo:rustc-env=RAMSUMMER_ARCHIVE={}", archive.display());
}
