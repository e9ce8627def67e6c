//! The C interface of the proved library (include/orbt.h), as Rust calls: the float functions, in
//! `orbits` the calls on orbits, and in `store` those on store files.
#![no_std]

pub mod orbits;
pub mod store;

/// The functions as the static library has them.
pub mod c {
    extern "C" {
        pub fn orbt_sqrt(x: f64, root: *mut f64) -> u32;
        pub fn orbt_cbrt(x: f64, root: *mut f64) -> u32;
        pub fn orbt_two_thirds(x: f64, power: *mut f64) -> u32;
        pub fn orbt_three_halves(x: f64, power: *mut f64) -> u32;
        pub fn orbt_floor(x: f64) -> f64;
        pub fn orbt_rem_euclid(x: f64, m: f64) -> f64;
        pub fn orbt_atan2(y: f64, x: f64) -> f64;
        pub fn orbt_sin(x: f64, sine: *mut f64) -> u32;
        pub fn orbt_cos(x: f64, cosine: *mut f64) -> u32;
        pub fn orbt_sin_cos(x: f64, sine: *mut f64, cosine: *mut f64) -> u32;
        pub fn orbt_class(n: f64, e: f64) -> u32;
        pub fn orbt_sidereal_time(which: u32, epoch: f64, theta: *mut f64) -> u32;
        pub fn orbt_geometry(right_ascension: f64, epoch: f64, bodies: *mut [f64; 14]) -> u32;
        pub fn orbt_build(
            which: u32,
            flag: u32,
            given: *const [f64; 31],
            kind: *mut u32,
            constants: *mut [f64; 34],
        ) -> u32;
        pub fn orbt_fresh(kind: u32, constants: *const [f64; 34], state: *mut [f64; 3]) -> u32;
        pub fn orbt_step(kind: u32, constants: *const [f64; 34], back: u32, state: *mut [f64; 3]) -> u32;
        pub fn orbt_ask(
            kind: u32,
            flag: u32,
            constants: *const [f64; 34],
            held: u32,
            state: *mut [f64; 3],
            question: *const [f64; 13],
            elements: *mut [f64; 12],
            steps: *mut u32,
        ) -> u32;
        pub fn orbt_contents(file: *const u8, file_size: usize, count: *mut u32) -> u32;
        pub fn orbt_satellite(file: *const u8, file_size: usize, place: u32, satellite: *mut u32) -> u32;
        pub fn orbt_restore(
            file: *const u8,
            file_size: usize,
            satellite: u32,
            kind: *mut u32,
            flag: *mut u32,
            constants: *mut [f64; 34],
            held: *mut u32,
            state: *mut [f64; 3],
            steps: *mut u32,
        ) -> u32;
        pub fn orbt_save(
            file: *const u8,
            file_size: usize,
            out: *mut u8,
            out_size: usize,
            satellite: u32,
            kind: u32,
            flag: u32,
            constants: *const [f64; 34],
            held: u32,
            state: *const [f64; 3],
            size: *mut usize,
        ) -> u32;
    }
}

/// The float that a call answered, or its refusal number.
pub type Answer = Result<f64, u32>;

// A refused call must leave the float that it was handed: this one.
pub(crate) const KEPT: f64 = 12345.678;

fn answer(call: unsafe extern "C" fn(f64, *mut f64) -> u32, x: f64) -> Answer {
    let mut y = KEPT;
    // the pointer is to a local, and the library keeps none
    let number = unsafe { call(x, &mut y) };
    if number == 0 {
        return Ok(y);
    }
    assert!(y.to_bits() == KEPT.to_bits(), "a refused call wrote its result");
    Err(number)
}

pub fn sqrt(x: f64) -> Answer {
    answer(c::orbt_sqrt, x)
}

pub fn cbrt(x: f64) -> Answer {
    answer(c::orbt_cbrt, x)
}

pub fn two_thirds(x: f64) -> Answer {
    answer(c::orbt_two_thirds, x)
}

pub fn three_halves(x: f64) -> Answer {
    answer(c::orbt_three_halves, x)
}

pub fn sin(x: f64) -> Answer {
    answer(c::orbt_sin, x)
}

pub fn cos(x: f64) -> Answer {
    answer(c::orbt_cos, x)
}

pub fn sin_cos(x: f64) -> Result<(f64, f64), u32> {
    let (mut s, mut c) = (KEPT, KEPT);
    let number = unsafe { c::orbt_sin_cos(x, &mut s, &mut c) };
    if number == 0 {
        return Ok((s, c));
    }
    let kept = s.to_bits() == KEPT.to_bits() && c.to_bits() == KEPT.to_bits();
    assert!(kept, "a refused call wrote its result");
    Err(number)
}

pub fn floor(x: f64) -> f64 {
    unsafe { c::orbt_floor(x) }
}

pub fn rem_euclid(x: f64, m: f64) -> f64 {
    unsafe { c::orbt_rem_euclid(x, m) }
}

pub fn atan2(y: f64, x: f64) -> f64 {
    unsafe { c::orbt_atan2(y, x) }
}
