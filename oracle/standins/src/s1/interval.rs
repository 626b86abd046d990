//! Stand-in for src/s1/interval.rs (intervals of longitude).
//!
//! Rests on: nothing but the names and types with which rect.rs, cell.rs and cap.rs call it, so that they compile. The
//! coverer never reaches a longitude; every function here stops the program, so a run that ends shows that it didn't.

use super::angle::Angle;

#[derive(Clone, Copy, Debug, PartialEq)]
pub struct Interval {
    pub lo: f64,
    pub hi: f64,
}

pub const EMPTY: Interval = Interval { lo: std::f64::consts::PI, hi: -std::f64::consts::PI };
pub const FULL: Interval = Interval { lo: -std::f64::consts::PI, hi: std::f64::consts::PI };

macro_rules! not_reached {
    ($($name:ident($($arg:ty),*) -> $out:ty;)*) => {
        impl Interval {
            $(pub fn $name(&self $(, _: $arg)*) -> $out { unreachable!(stringify!($name)) })*
        }
    };
}

not_reached! {
    is_valid() -> bool;
    is_full() -> bool;
    is_empty() -> bool;
    is_inverted() -> bool;
    center() -> f64;
    complement_center() -> f64;
    len() -> f64;
    expanded(f64) -> Interval;
    union(&Interval) -> Interval;
    intersection(&Interval) -> Interval;
    intersects(&Interval) -> bool;
    interior_intersects(&Interval) -> bool;
    contains(f64) -> bool;
    contains_interval(&Interval) -> bool;
    interior_contains(f64) -> bool;
    interior_contains_interval(&Interval) -> bool;
    approx_eq(&Interval) -> bool;
    approx_eq_by(&Interval, f64) -> bool;
    directed_hausdorff_distance(&Interval) -> Angle;
}

impl Interval {
    pub fn new(_: f64, _: f64) -> Interval {
        unreachable!("Interval::new")
    }

    pub fn from_point_pair(_: f64, _: f64) -> Interval {
        unreachable!("Interval::from_point_pair")
    }
}

impl std::ops::Add<f64> for Interval {
    type Output = Interval;
    fn add(self, _: f64) -> Interval {
        unreachable!("a longitude added to an interval")
    }
}
