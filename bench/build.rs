//! Asks the oracle's build whether the unchanged Rust was found, and sets the
//! same cfg here.
//!
//! Assumes that the oracle's `links` key is `lanolin`.

fn main() {
    println!("cargo::rerun-if-changed=build.rs");
    println!("cargo::rustc-check-cfg=cfg(lfs_rust)");
    if std::env::var_os("DEP_LANOLIN_RUST").is_some() {
        println!("cargo::rustc-cfg=lfs_rust");
    }
}
