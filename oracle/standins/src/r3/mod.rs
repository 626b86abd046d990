//! Stand-in for src/r3/mod.rs: the list of modules.

pub mod vector;
