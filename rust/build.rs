//! Links the proved library, which the proof tool writes; cargo cannot make it.

use std::path::PathBuf;

fn main() {
    let package = PathBuf::from(std::env::var_os("CARGO_MANIFEST_DIR").unwrap_or_default());
    let folder = package.join("..").join("target").join("staticlib");
    let library = folder.join("liboutside.a");
    println!("cargo:rerun-if-changed={}", library.display());
    if !library.is_file() {
        eprintln!("target/staticlib/liboutside.a is missing: run `bench/native` at the top of the repository first");
        std::process::exit(1);
    }
    println!("cargo:rustc-link-search=native={}", folder.display());
    println!("cargo:rustc-link-lib=static=outside");
}
