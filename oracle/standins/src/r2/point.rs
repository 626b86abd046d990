//! Stand-in for src/r2/point.rs.
//!
//! Rests on: the Rust's own use of it in cell.rs and cellid.rs (two public floats x and y).

#[derive(Clone, Copy, Debug, PartialEq)]
pub struct Point {
    pub x: f64,
    pub y: f64,
}
