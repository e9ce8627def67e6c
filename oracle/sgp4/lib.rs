//! The unchanged sgp4 under a root of ours, built twice: `sgp4_own` with Rust's own floats, and
//! `sgp4_ours`, without `std`, with those of the proved library. The functions below open to other
//! crates what the crate keeps to itself; they work nothing out.
#![cfg_attr(not(feature = "std"), no_std)]
// the crate's near-earth part, which uses the rest of these files, is not built
#![allow(dead_code)]

include!(concat!(env!("OUT_DIR"), "/modules.rs"));
mod third_body;

pub use deep_space::ResonanceState;
pub use gp::Error;
pub use model::afspc_epoch_to_sidereal_time;
pub use model::iau_epoch_to_sidereal_time;
pub use model::Geopotential;
pub use model::WGS72;
pub use model::WGS84;
pub use propagator::Constants;
pub use propagator::Orbit;
pub use third_body::bodies;
pub use third_body::effects;
pub use third_body::give_effects;
pub use third_body::give_nothing;
pub use third_body::give_rates;
pub use third_body::rates;

// model and orbit of the first eleven numbers of a build, or of constants
fn model_and_orbit(x: &[f64]) -> (Geopotential, Orbit) {
    let geopotential = Geopotential { ae: x[0], ke: x[1], j2: x[2], j3: x[3], j4: x[4] };
    let orbit_0 = Orbit {
        inclination: x[5],
        right_ascension: x[6],
        eccentricity: x[7],
        argument_of_perigee: x[8],
        mean_anomaly: x[9],
        mean_motion: x[10],
    };
    (geopotential, orbit_0)
}

/// The build of 21 numbers in the order of the library's, and of b0 and p2, which it has not.
pub fn build(is_afspc: bool, x: &[f64; 21], b0: f64, p2: f64) -> Constants {
    let sidereal_time = if is_afspc { afspc_epoch_to_sidereal_time } else { iau_epoch_to_sidereal_time };
    let (geopotential, orbit_0) = model_and_orbit(x);
    let [epoch, p1, a0, c1, c4, k0, k1, k14, p14, p15] = core::array::from_fn(|k| x[11 + k]);
    deep_space::constants(
        geopotential,
        sidereal_time,
        epoch,
        orbit_0,
        p1,
        a0,
        c1,
        b0,
        c4,
        k0,
        k1,
        k14,
        p2,
        p14,
        p15,
    )
}

/// The constants' numbers in the order of a store's body, and how many there are: 21, 26 or 34.
pub fn numbers(c: &Constants) -> ([f64; 34], usize) {
    let (g, o) = (&c.geopotential, &c.orbit_0);
    let propagator::Method::DeepSpace { eccentricity_dot, inclination_dot, resonant, .. } = &c.method else {
        panic!("not a deep-space orbit");
    };
    let mut all = [0.0; 34];
    let mut count = 0;
    let mut put = |xs: &[f64]| {
        all[count..count + xs.len()].copy_from_slice(xs);
        count += xs.len();
    };
    put(&[g.ae, g.ke, g.j2, g.j3, g.j4]);
    put(&[o.inclination, o.right_ascension, o.eccentricity]);
    put(&[o.argument_of_perigee, o.mean_anomaly, o.mean_motion]);
    put(&[c.right_ascension_dot, c.argument_of_perigee_dot, c.mean_anomaly_dot]);
    put(&[c.c1, c.c4, c.k0, c.k1, *eccentricity_dot, *inclination_dot]);
    match resonant {
        propagator::Resonant::No { a0 } => put(&[*a0]),
        propagator::Resonant::Yes { lambda_0, lambda_dot_0, sidereal_time_0, resonance } => {
            put(&[*lambda_0, *lambda_dot_0, *sidereal_time_0]);
            match resonance {
                propagator::Resonance::OneDay { dr1, dr2, dr3 } => put(&[*dr1, *dr2, *dr3]),
                propagator::Resonance::HalfDay {
                    d2201,
                    d2211,
                    d3210,
                    d3222,
                    d4410,
                    d4422,
                    d5220,
                    d5232,
                    d5421,
                    d5433,
                    k14,
                } => {
                    put(&[*d2201, *d2211, *d3210, *d3222, *d4410, *d4422]);
                    put(&[*d5220, *d5232, *d5421, *d5433, *k14]);
                }
            }
        }
    }
    (all, count)
}

/// The constants of these numbers, in the same order, of kind 0 non-resonant, 1 one-day, 2 half-day.
/// They have no third_body: effects are to be given before an ask.
pub fn of_numbers(kind: u32, x: &[f64; 34]) -> Constants {
    let resonance = if kind == 1 {
        propagator::Resonance::OneDay { dr1: x[23], dr2: x[24], dr3: x[25] }
    } else {
        propagator::Resonance::HalfDay {
            d2201: x[23],
            d2211: x[24],
            d3210: x[25],
            d3222: x[26],
            d4410: x[27],
            d4422: x[28],
            d5220: x[29],
            d5232: x[30],
            d5421: x[31],
            d5433: x[32],
            k14: x[33],
        }
    };
    let resonant = if kind == 0 {
        propagator::Resonant::No { a0: x[20] }
    } else {
        propagator::Resonant::Yes { lambda_0: x[20], lambda_dot_0: x[21], sidereal_time_0: x[22], resonance }
    };
    let (geopotential, orbit_0) = model_and_orbit(x);
    Constants {
        geopotential,
        orbit_0,
        right_ascension_dot: x[11],
        argument_of_perigee_dot: x[12],
        mean_anomaly_dot: x[13],
        c1: x[14],
        c4: x[15],
        k0: x[16],
        k1: x[17],
        method: propagator::Method::DeepSpace {
            eccentricity_dot: x[18],
            inclination_dot: x[19],
            solar_perturbations: third_body::NONE,
            lunar_perturbations: third_body::NONE,
            resonant,
        },
    }
}

/// The fresh state, and none where the orbit is not resonant.
pub fn fresh(c: &Constants) -> Option<ResonanceState> {
    match &c.method {
        propagator::Method::DeepSpace { resonant: propagator::Resonant::Yes { lambda_0, .. }, .. } => {
            Some(ResonanceState::new(c.orbit_0.mean_motion, *lambda_0))
        }
        _ => None,
    }
}

/// The orbit's six numbers, a, and p32 to p36.
pub fn ask(
    c: &Constants,
    state: Option<&mut ResonanceState>,
    t: f64,
    p22: f64,
    p23: f64,
    is_afspc: bool,
) -> Result<[f64; 12], Error> {
    let propagator::Method::DeepSpace {
        eccentricity_dot,
        inclination_dot,
        solar_perturbations,
        lunar_perturbations,
        resonant,
    } = &c.method
    else {
        panic!("not a deep-space orbit");
    };
    let (o, a, p32, p33, p34, p35, p36) = c.deep_space_orbital_elements(
        *eccentricity_dot,
        *inclination_dot,
        solar_perturbations,
        lunar_perturbations,
        resonant,
        state,
        t,
        p22,
        p23,
        is_afspc,
    )?;
    Ok([
        o.inclination,
        o.right_ascension,
        o.eccentricity,
        o.argument_of_perigee,
        o.mean_anomaly,
        o.mean_motion,
        a,
        p32,
        p33,
        p34,
        p35,
        p36,
    ])
}

// The state's fields are private, and Rust may lay them out in any order: where each lies is seen on
// a state that is known.
fn places() -> [usize; 3] {
    let known: [f64; 3] = unsafe { core::mem::transmute(ResonanceState::new(2.0, 3.0)) };
    [0.0, 2.0, 3.0].map(|x| known.iter().position(|&y| y == x).unwrap())
}

/// The state's time, mean motion and lambda.
pub fn state_numbers(state: ResonanceState) -> [f64; 3] {
    let laid: [f64; 3] = unsafe { core::mem::transmute(state) };
    places().map(|place| laid[place])
}

/// The state with this time, mean motion and lambda.
pub fn state_of(numbers: [f64; 3]) -> ResonanceState {
    let mut laid = [0.0; 3];
    for (place, x) in places().into_iter().zip(numbers) {
        laid[place] = x;
    }
    unsafe { core::mem::transmute(laid) }
}
