//! The original's four files, unchanged, under a root that supplies what they import from the rest of their crate.
#![allow(dead_code, unused_imports, private_interfaces)]

/// The number of records that all compartments share.
pub mod config {
    pub const NB_TRACKER: usize = 1024;
}

/// The errors that the four files answer, out of the original's list of them.
#[derive(Clone, Copy, Debug, PartialEq, Eq)]
pub enum CapaError {
    AlreadyAliased,
    InvalidMemOps,
    InvalidRegion,
    OutOfMemory,
}

include!(concat!(env!("OUT_DIR"), "/modules.rs"));

pub use gen_arena::{GenArena, Handle};
pub use region::{MemOps, PermissionChange, RegionTracker};
pub use remapper::{Mapping, Remapper};
/// The pool's type, which the original keeps inside its crate.
pub type Pool = GenArena<region::Region, { config::NB_TRACKER }>;
