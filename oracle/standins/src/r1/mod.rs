//! Stand-in for src/r1/mod.rs: the list of modules.

pub mod interval;
