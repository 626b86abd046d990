//! Stand-in for the crate libm, of which the Rust uses three functions.
//!
//! Rests on: the C standard's (7.12.6.5) description of ilogb, "the exponent of x as a signed int": for a finite number
//! other than zero the whole number e with 2^e <= |x| < 2^(e+1). Here it is read from the float's bits.
//! The coverer asks ilogb only for MIN_WIDTHMETRIC's length over an angle above 0 and at most pi, which is never zero,
//! subnormal, infinite or NaN; any such argument stops the program. ldexp and remquo are not reached and stop it too.

pub fn ilogb(x: f64) -> i32 {
    assert!(x.is_normal(), "ilogb of a float that is not normal");
    ((x.to_bits() >> 52) & 0x7ff) as i32 - 1023
}

pub fn ldexp(_: f64, _: i32) -> f64 {
    unreachable!("ldexp")
}

pub fn remquo(_: f64, _: f64) -> (f64, i32) {
    unreachable!("remquo")
}
