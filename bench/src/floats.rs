//! The float functions.
use crate::clock::Table;
use measure::random::Random;
use orbt::c;
use std::f64::consts::TAU;

const INPUTS: usize = 4096;

fn within(limit: f64) -> Vec<(f64, f64)> {
    let mut r = Random::stream(301);
    (0..INPUTS).map(|_| (r.within(limit), r.within(limit))).collect()
}

// from 2^-10 to 2^10, every exponent as often as another
fn positive() -> Vec<(f64, f64)> {
    let mut r = Random::stream(302);
    (0..INPUTS).map(|_| (r.scaled(-10, 10).abs(), 0.0)).collect()
}

// ---- ours, by the C interface: the pointers are to locals

#[inline(never)]
fn sin_cos(x: f64, _: f64) -> f64 {
    let (mut s, mut k) = (0.0, 0.0);
    unsafe { c::orbt_sin_cos(x, &mut s, &mut k) };
    s + k
}

fn one(call: unsafe extern "C" fn(f64, *mut f64) -> u32, x: f64) -> f64 {
    let mut y = 0.0;
    unsafe { call(x, &mut y) };
    y
}

#[inline(never)]
fn sin(x: f64, _: f64) -> f64 {
    one(c::orbt_sin, x)
}

#[inline(never)]
fn cos(x: f64, _: f64) -> f64 {
    one(c::orbt_cos, x)
}

#[inline(never)]
fn sqrt(x: f64, _: f64) -> f64 {
    one(c::orbt_sqrt, x)
}

#[inline(never)]
fn cbrt(x: f64, _: f64) -> f64 {
    one(c::orbt_cbrt, x)
}

#[inline(never)]
fn two_thirds(x: f64, _: f64) -> f64 {
    one(c::orbt_two_thirds, x)
}

#[inline(never)]
fn three_halves(x: f64, _: f64) -> f64 {
    one(c::orbt_three_halves, x)
}

#[inline(never)]
fn atan2(y: f64, x: f64) -> f64 {
    unsafe { c::orbt_atan2(y, x) }
}

#[inline(never)]
fn floor(x: f64, _: f64) -> f64 {
    unsafe { c::orbt_floor(x) }
}

#[inline(never)]
fn rem_euclid(x: f64, _: f64) -> f64 {
    unsafe { c::orbt_rem_euclid(x, TAU) }
}

// ---- Rust's own

mod own {
    use std::f64::consts::TAU;

    #[inline(never)]
    pub fn sin_cos(x: f64, _: f64) -> f64 {
        let (s, c) = x.sin_cos();
        s + c
    }

    #[inline(never)]
    pub fn sin(x: f64, _: f64) -> f64 {
        x.sin()
    }

    #[inline(never)]
    pub fn cos(x: f64, _: f64) -> f64 {
        x.cos()
    }

    #[inline(never)]
    pub fn sqrt(x: f64, _: f64) -> f64 {
        x.sqrt()
    }

    #[inline(never)]
    pub fn cbrt(x: f64, _: f64) -> f64 {
        x.cbrt()
    }

    #[inline(never)]
    pub fn two_thirds(x: f64, _: f64) -> f64 {
        x.powf(2.0 / 3.0)
    }

    #[inline(never)]
    pub fn three_halves(x: f64, _: f64) -> f64 {
        x.powf(1.5)
    }

    #[inline(never)]
    pub fn atan2(y: f64, x: f64) -> f64 {
        y.atan2(x)
    }

    #[inline(never)]
    pub fn floor(x: f64, _: f64) -> f64 {
        x.floor()
    }

    #[inline(never)]
    pub fn rem_euclid(x: f64, _: f64) -> f64 {
        x.rem_euclid(TAU)
    }
}

pub fn rows(table: &mut Table) {
    for (name, limit) in [("0.78", 0.78), ("6.3", 6.3), ("1000", 1e3), ("10^6", 1e6)] {
        let angles = within(limit);
        table.float(&format!("sin_cos, to {name}"), &angles, sin_cos, own::sin_cos);
        table.float(&format!("sin, to {name}"), &angles, sin, own::sin);
        table.float(&format!("cos, to {name}"), &angles, cos, own::cos);
    }
    table.float("atan2, every quadrant", &within(1.0), atan2, own::atan2);
    table.float("floor, to 10^5", &within(1e5), floor, own::floor);
    table.float("rem_euclid by 2π, to 20", &within(20.0), rem_euclid, own::rem_euclid);
    table.float("rem_euclid by 2π, to 10^6", &within(1e6), rem_euclid, own::rem_euclid);
    table.float("sqrt, 2^-10 to 2^10", &positive(), sqrt, own::sqrt);
    table.float("cbrt, 2^-10 to 2^10", &positive(), cbrt, own::cbrt);
    table.float("two_thirds (powf(2/3)), 2^-10 to 2^10", &positive(), two_thirds, own::two_thirds);
    table.float("three_halves (powf(1.5)), 2^-10 to 2^10", &positive(), three_halves, own::three_halves);
}
