//! Links the archive `liblanolin.a` that `./lanolin lib` builds, from
//! `target/staticlib` of the repository or the directory that LANOLIN_LIB names.
//!
//! Where the archive is missing it warns and goes on: `cargo check` and `cargo doc`
//! link nothing and need none. What links stops then, with rustc's own error,
//! below this warning.

use std::env;
use std::path::PathBuf;

fn main() {
    println!("cargo::rerun-if-changed=build.rs");
    println!("cargo::rerun-if-env-changed=LANOLIN_LIB");
    let package = PathBuf::from(env::var_os("CARGO_MANIFEST_DIR").expect("cargo sets it"));
    let given = env::var_os("LANOLIN_LIB")
        .map_or_else(|| package.join("../../target/staticlib"), PathBuf::from);
    // The linker does not run where the caller stands.
    let directory = std::path::absolute(&given).unwrap_or(given);
    let archive = directory.join("liblanolin.a");
    if !archive.is_file() {
        println!(
            "cargo::warning=the archive is not at {}: nothing can be linked before `./lanolin lib` \
             has built it; another directory is named by LANOLIN_LIB",
            archive.display()
        );
    }
    println!("cargo::rerun-if-changed={}", archive.display());
    println!("cargo::rustc-link-search=native={}", directory.display());
    println!("cargo::rustc-link-lib=static=lanolin");
}
