//! Finds what is compared: the unchanged Rust and the port's archive.
//!
//! The Rust's files are compiled where they stand, whole and unchanged.
//! `#[path]` takes a literal only, and `include!` refuses files with inner
//! attributes, so this script writes the module tree, `OUT_DIR/root.rs`, with
//! the absolute path of each file.
//!
//! Assumes that the directory, where it is there at all, holds the files named
//! in `RUST_FILES`: one that is missing stops the build, and is never skipped.

use std::env;
use std::fs;
use std::path::{Path, PathBuf};

/// The files of the Rust that are compiled, each with its place in the module
/// tree that the files themselves expect (`crate::dir::fetch`, ..).
const RUST_FILES: [(&str, &str, &str); 13] = [
    ("", "crc", "crc.rs"),
    ("", "error", "error.rs"),
    ("", "lfs_gstate", "lfs_gstate.rs"),
    ("", "lfs_info", "lfs_info.rs"),
    ("", "lfs_type", "lfs_type.rs"),
    ("", "tag", "tag.rs"),
    ("", "types", "types.rs"),
    ("", "util", "util.rs"),
    ("bd", "bd", "bd/bd.rs"),
    ("dir", "fetch", "dir/fetch.rs"),
    ("dir", "lfs_fcrc", "dir/lfs_fcrc.rs"),
    ("dir", "traverse", "dir/traverse.rs"),
    ("file", "lfs_ctz", "file/lfs_ctz.rs"),
];

/// The parents, each with the names that the files import from it and that no
/// file of the directory defines.
const PARENTS: [(&str, &[&str]); 4] = [
    ("bd", &["crate::shim::LfsCache"]),
    ("dir", &["self::lfs_fcrc::LfsFcrc", "crate::shim::LfsMdir"]),
    ("file", &[]),
    ("fs", &["crate::shim::Lfs"]),
];

fn main() {
    // The packages' directory is below the repository's root.
    let package = PathBuf::from(variable("CARGO_MANIFEST_DIR"));
    let root = package.parent().expect("the repository's root").to_owned();
    println!("cargo::rerun-if-changed=build.rs");
    find_rust(&root);
    find_port(&root);
}

/// Sets the cfg `lfs_rust` and writes the module tree, if the Rust is there.
fn find_rust(root: &Path) {
    let beside = root.parent().unwrap_or(root).join("shared/docs/src");
    let given = directory("LFS_RUST_SRC", beside);
    let files = given.join("littlefs-rust-core/src");
    println!("cargo::rustc-check-cfg=cfg(lfs_rust)");
    // The Rust tests features of its own package; none is switched on here.
    println!("cargo::rustc-check-cfg=cfg(feature, values(\"alloc\", \"loop_limits\"))");
    println!("cargo::rustc-env=LFS_RUST_LOOKED_FOR={}", files.display());
    println!("cargo::rerun-if-changed={}", files.display());
    if !files.is_dir() {
        return;
    }
    println!("cargo::rustc-cfg=lfs_rust");
    println!("cargo::metadata=RUST=found");
    let tree = Path::new(&variable("OUT_DIR")).join("root.rs");
    fs::write(&tree, module_tree(&files)).expect("the module tree is written");
}

/// The text of the module tree: the files without a parent, then the parents.
fn module_tree(files: &Path) -> String {
    let mut text = modules_below("", files);
    for (parent, names) in PARENTS {
        text.push_str(&format!("pub mod {parent} {{\n"));
        text.push_str(&modules_below(parent, files));
        for name in names {
            text.push_str(&format!("pub use {name};\n"));
        }
        text.push_str("}\n");
    }
    text
}

/// One `pub mod` for each file below `parent`. Warnings are silenced here, at
/// the Rust's own modules, and nowhere else.
fn modules_below(parent: &str, files: &Path) -> String {
    let mut text = String::new();
    for (_, module, file) in RUST_FILES.iter().filter(|(of, ..)| *of == parent) {
        let path = files.join(file);
        if !path.is_file() {
            panic!("the unchanged Rust lacks the file {}", path.display());
        }
        println!("cargo::rerun-if-changed={}", path.display());
        let literal = path.to_str().expect("a path in UTF-8");
        text.push_str("#[allow(warnings, clippy::all)]\n");
        text.push_str(&format!("#[path = {literal:?}]\npub mod {module};\n"));
    }
    text
}

/// Links the port's archive.
fn find_port(root: &Path) {
    let given = directory("LANOLIN_LIB", root.join("target/staticlib"));
    let archive = given.join("liblanolin.a");
    if !archive.is_file() {
        panic!(
            "the port's archive is not at {}: run `./lanolin lib` first, \
             or name its directory by LANOLIN_LIB",
            archive.display()
        );
    }
    println!("cargo::rerun-if-changed={}", archive.display());
    println!("cargo::rustc-link-search=native={}", given.display());
    println!("cargo::rustc-link-lib=static=lanolin");
    find_calls(&archive);
}

/// Sets a cfg for each call that an older archive lacks, if it is there: the two
/// that write with and without a limit, the find, the refetch, the index with its
/// three calls, and the compaction with a lent table. An archive keeps the names of
/// its calls as text, each with a zero behind it.
fn find_calls(archive: &Path) {
    let bytes = fs::read(archive).expect("the archive is read");
    let there = |name: &[u8]| bytes.windows(name.len()).any(|part| part == name);
    for (call, needs) in [
        ("lanolin_commit", "lanolin_commit_stores\0"),
        ("lanolin_compact", "lanolin_compact_stores\0"),
        ("lanolin_find", "lanolin_find\0"),
        ("lanolin_refetch", "lanolin_refetch\0"),
        ("lanolin_index", "lanolin_index_extend\0"),
        ("lanolin_compact_with", "lanolin_compact_with\0"),
    ] {
        println!("cargo::rustc-check-cfg=cfg({call})");
        if there(needs.as_bytes()) {
            println!("cargo::rustc-cfg={call}");
        }
    }
}

/// The directory that an environment variable names, else the default. It is
/// made absolute, since the compiler does not run where the caller stands.
fn directory(name: &str, default: PathBuf) -> PathBuf {
    println!("cargo::rerun-if-env-changed={name}");
    let given = env::var_os(name).map_or(default, PathBuf::from);
    std::path::absolute(&given).unwrap_or(given)
}

fn variable(name: &str) -> String {
    env::var(name).unwrap_or_else(|_| panic!("cargo sets {name}"))
}
