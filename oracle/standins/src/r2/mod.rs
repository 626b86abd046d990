//! Stand-in for src/r2/mod.rs: the list of modules.

pub mod point;
pub mod rect;
