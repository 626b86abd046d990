//! Stand-in for src/s1/chordangle.rs.
//!
//! Rests on: the published s1chord_angle.h and s1chord_angle.cc of S2 (a chord angle is the squared length of the chord;
//! negative is -1, right 2, straight 4; to an angle: a negative one gives -1 radian, any other 2 asin(sqrt(length2) / 2);
//! sin2 is length2 (1 - length2 / 4), in this order), on paper 01 for the three constants, and on the published s2cap.cc
//! for the one subtraction that is reached, STRAIGHT - radius in Cap::complement: "4 - radius_.length2()".
//! The comparisons are those of the floats. What the coverer doesn't reach stops the program.

use super::angle::{Angle, Rad};

#[derive(Clone, Copy, Debug, Default, PartialEq, PartialOrd)]
pub struct ChordAngle(pub f64);

pub const NEGATIVE: ChordAngle = ChordAngle(-1.);
pub const RIGHT: ChordAngle = ChordAngle(2.);
pub const STRAIGHT: ChordAngle = ChordAngle(4.);

impl ChordAngle {
    pub fn sin2(&self) -> f64 {
        self.0 * (1. - 0.25 * self.0)
    }

    pub fn from_squared_length(_: f64) -> ChordAngle {
        unreachable!("ChordAngle::from_squared_length")
    }

    pub fn expanded(&self, _: f64) -> ChordAngle {
        unreachable!("ChordAngle::expanded")
    }

    pub fn max(self, _: ChordAngle) -> ChordAngle {
        unreachable!("ChordAngle::max")
    }
}

impl std::ops::Sub for ChordAngle {
    type Output = ChordAngle;
    fn sub(self, other: ChordAngle) -> ChordAngle {
        assert!(self == STRAIGHT, "a difference other than STRAIGHT less a chord angle");
        ChordAngle(4. - other.0)
    }
}

impl std::ops::Add for ChordAngle {
    type Output = ChordAngle;
    fn add(self, _: ChordAngle) -> ChordAngle {
        unreachable!("a sum of chord angles")
    }
}

impl<'a> From<&'a ChordAngle> for Angle {
    fn from(c: &'a ChordAngle) -> Angle {
        if c.0 < 0. { Rad(-1.).into() } else { Rad(2. * (0.5 * c.0.sqrt()).asin()).into() }
    }
}

impl From<ChordAngle> for Angle {
    fn from(c: ChordAngle) -> Angle {
        Angle::from(&c)
    }
}

impl<'a> From<&'a Angle> for ChordAngle {
    fn from(_: &'a Angle) -> ChordAngle {
        unreachable!("a chord angle from an angle")
    }
}

impl From<Angle> for ChordAngle {
    fn from(_: Angle) -> ChordAngle {
        unreachable!("a chord angle from an angle")
    }
}
