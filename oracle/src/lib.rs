//! The port and the unchanged Rust side by side, and what compares them.
//!
//! The Rust's files speak of each other as `crate::tag`, `crate::dir::fetch`,
//! so they stand at this crate's root; callers name them through `rust`.
//! Without the Rust's directory the cfg `lfs_rust` is off, and of this crate
//! only the port, the second implementation, the generators and the counting are
//! left.
//!
//! Assumes that overflow checks are off, as in every profile of this package.

#[cfg(debug_assertions)]
compile_error!(
    "the Rust wraps where C wraps: debug assertions and overflow checks must be off in the profile"
);

#[cfg(lfs_rust)]
include!(concat!(env!("OUT_DIR"), "/root.rs"));

#[cfg(lfs_rust)]
mod shim;
// The files say `crate::lfs_err!`.
#[cfg(lfs_rust)]
use shim::{lfs_assert, lfs_err, lfs_pass_err, lfs_trace};

/// The unchanged Rust.
#[cfg(lfs_rust)]
pub mod rust {
    pub use crate::shim::{Lfs, LfsCache, LfsConfig, LfsMdir};
    pub use crate::{bd, crc, dir, error, file, fs};
    pub use crate::{lfs_gstate, lfs_info, lfs_type, tag, types, util};
}

/// Where the Rust's files were looked for when this crate was built.
pub const LOOKED_FOR: &str = env!("LFS_RUST_LOOKED_FOR");

pub mod calls;
#[cfg(lfs_rust)]
pub mod device;
#[cfg(lfs_rust)]
pub mod dirs;
#[cfg(lfs_rust)]
pub mod find;
pub mod generate;
#[cfg(lfs_rust)]
pub mod histories;
#[cfg(lfs_rust)]
pub mod index;
pub mod inputs;
#[cfg(lfs_rust)]
pub mod leaves;
pub mod model;
pub mod port;
pub mod random;
#[cfg(lfs_rust)]
pub mod record;
#[cfg(lfs_rust)]
pub mod refetch;
#[cfg(lfs_rust)]
pub mod stopped;
pub mod tally;
#[cfg(lfs_rust)]
pub mod teeth;
