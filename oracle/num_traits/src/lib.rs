//! Stands in for the crate of this name where sgp4 is built without `std`: the float functions that
//! it calls, answered by the proved library. A call that the library refuses gives a NaN. Neither
//! this crate nor `orbt` may use `std`: where it is linked, its own functions win over these.
#![no_std]

pub trait Float: Sized {
    fn sin(self) -> Self;
    fn cos(self) -> Self;
    fn atan2(self, x: Self) -> Self;
    fn sqrt(self) -> Self;
    fn powf(self, power: Self) -> Self;
    fn powi(self, power: i32) -> Self;
    fn floor(self) -> Self;
}

pub trait Euclid: Sized {
    fn rem_euclid(&self, m: &Self) -> Self;
}

impl Float for f64 {
    fn sin(self) -> f64 {
        orbt::sin(self).unwrap_or(f64::NAN)
    }

    fn cos(self) -> f64 {
        orbt::cos(self).unwrap_or(f64::NAN)
    }

    fn atan2(self, x: f64) -> f64 {
        orbt::atan2(self, x)
    }

    fn sqrt(self) -> f64 {
        orbt::sqrt(self).unwrap_or(f64::NAN)
    }

    // sgp4 has these two powers
    fn powf(self, power: f64) -> f64 {
        if power == 2.0 / 3.0 {
            return orbt::two_thirds(self).unwrap_or(f64::NAN);
        }
        assert!(power == 1.5, "no such power here");
        orbt::three_halves(self).unwrap_or(f64::NAN)
    }

    // and these three; they are products, so the library's C interface has no call for them
    fn powi(self, power: i32) -> f64 {
        match power {
            2 => self * self,
            3 => self * (self * self),
            4 => (self * self) * (self * self),
            _ => panic!("no such power here"),
        }
    }

    fn floor(self) -> f64 {
        orbt::floor(self)
    }
}

impl Euclid for f64 {
    fn rem_euclid(&self, m: &f64) -> f64 {
        orbt::rem_euclid(*self, *m)
    }
}
