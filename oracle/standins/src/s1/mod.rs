//! Stand-in for src/s1/mod.rs: the list of modules, and the names that the Rust takes from it.

pub mod angle;
pub mod chordangle;
pub mod interval;

pub use self::angle::*;
pub use self::chordangle::ChordAngle;
pub use self::interval::Interval;
