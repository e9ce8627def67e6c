//! What the programs share.
// constants stand as docs/FLOATS.md has them
#![allow(clippy::approx_constant)]

pub mod cube;
pub mod orbits;
pub mod random;
pub mod recipe;
pub mod rust;
pub mod store;
pub mod tally;

use std::f64::consts::TAU;

/// The largest magnitude of an angle that is answered, and the one that is asked for next.
pub const ANGLE_LIMIT: f64 = 1048576.0;
pub const NEXT_ANGLE_LIMIT: f64 = 16777216.0;

/// The float that is `steps` further in the order of the floats of x's sign.
pub fn beside(x: f64, steps: i64) -> f64 {
    f64::from_bits(x.to_bits().wrapping_add(steps as u64))
}

/// Equal in every bit, all NaNs counted as equal.
pub fn same(a: f64, b: f64) -> bool {
    a.to_bits() == b.to_bits() || (a.is_nan() && b.is_nan())
}

/// Whether the square root of x is refused: x is below 0, a NaN or an infinity.
pub fn has_no_square_root(x: f64) -> bool {
    x < 0.0 || !x.is_finite()
}

/// Whether the cube root of x is refused: x is not a finite number above 0.
pub fn has_no_cube_root(x: f64) -> bool {
    !(x > 0.0 && x.is_finite())
}

/// k quarter turns, rounded; k may have a fraction.
pub fn quarter_turns(k: f64) -> f64 {
    k * (TAU / 4.0)
}

/// A float next to the square of a number that lies half way between two floats: of these the root
/// is hardest to round.
pub fn half_way_square(bits: u64) -> f64 {
    let odd = ((bits >> 11) | 1 << 52) as u128 * 2 + 1;
    let square = odd * odd;
    // 54 digits, squared, have 107 or 108; a float takes the first 53, cut
    let cut = 128 - square.leading_zeros() - 53;
    ((square >> cut) as u64) as f64 * 2f64.powi((bits % 512) as i32 * 2 - 512 + cut as i32 - 106)
}
