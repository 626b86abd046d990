//! Stand-in for src/r2/rect.rs.
//!
//! Rests on: the published r2rect.h of S2. "GetVertex: the k-th vertex of the rectangle (k = 0,1,2,3) in CCW order
//! (vertex 0 is in the lower-left corner)"; GetCenter is the two intervals' centres; Expanded expands each interval by
//! the margin and is empty if either is; Contains(point) is that both intervals contain their coordinate. The intervals
//! themselves are the Rust's (src/r1/interval.rs). The comment of Cell::vertex names the same order of vertices.

use super::point::Point;
use crate::r1::interval::{EMPTY, Interval};

#[derive(Clone, Debug)]
pub struct Rect {
    pub x: Interval,
    pub y: Interval,
}

impl Rect {
    pub fn vertices(&self) -> [Point; 4] {
        [
            Point { x: self.x.lo, y: self.y.lo },
            Point { x: self.x.hi, y: self.y.lo },
            Point { x: self.x.hi, y: self.y.hi },
            Point { x: self.x.lo, y: self.y.hi },
        ]
    }

    pub fn center(&self) -> Point {
        Point { x: self.x.center(), y: self.y.center() }
    }

    pub fn expanded_by_margin(&self, margin: f64) -> Rect {
        let (x, y) = (self.x.expanded(margin), self.y.expanded(margin));
        if x.is_empty() || y.is_empty() { Rect { x: EMPTY, y: EMPTY } } else { Rect { x, y } }
    }

    pub fn contains_point(&self, p: &Point) -> bool {
        self.x.contains(p.x) && self.y.contains(p.y)
    }

    pub fn from_center_size(_: &Point, _: &Point) -> Rect {
        unreachable!("Rect::from_center_size")
    }
}
