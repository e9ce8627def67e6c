//! Steps, asks and builds, beside the unchanged sgp4 with Rust's own floats. third_body's numbers are
//! given to both sides: ours takes them as arguments, and sgp4 finds them ready where it would work them
//! out, so that neither side's time has that work. Ours is called through the static library, with its
//! checks; sgp4's constants and state are borrowed, as it has them.
use crate::clock::{Table, REPEATS};
use measure::orbits::{question, whole, Orbit};
use measure::random::Random;
use measure::rust::{Own, Rust};
use orbt::c;
use orbt::orbits::{build, fresh, Constants};
use std::hint::black_box;

pub struct Case {
    orbit: Orbit,
    given: [f64; 31],
    pub ours: Constants,
    own: sgp4_own::Constants,
}

/// Orbits of this kind, low or high.
pub fn cases(kind: u32, is_low: bool, count: usize) -> Vec<Case> {
    let mut r = Random::stream(311 + kind as u64);
    let mut all = vec![];
    while all.len() < count {
        let orbit = r.orbit();
        let i = orbit.elements[0];
        if (i < 0.2) != is_low || (i - 0.2).abs() < 0.02 || i > 3.1 {
            continue;
        }
        let own = Own::build(&orbit);
        let given = orbit.given(&Own::rates());
        let Ok(ours) = build(orbit.is_afspc_time, orbit.flag as u32, &given) else { continue };
        if ours.kind == kind {
            all.push(Case { orbit, given, ours, own });
        }
    }
    all
}

// sgp4 has no call for one step: both run one ask over so many, beside which the rest of the ask is little.
const STEPS: usize = 4096;

#[inline(never)]
fn long_ours(case: &Case, question: &[f64; 13]) -> f64 {
    let mut state = fresh(&case.ours).unwrap();
    let (mut elements, mut steps) = ([0.0; 12], 0);
    let c = &case.ours;
    unsafe { c::orbt_ask(c.kind, c.flag, &c.numbers, 1, &mut state, question, &mut elements, &mut steps) };
    assert!(steps as usize == STEPS);
    state[2]
}

/// One ask of a fresh state: what sgp4 has for a run of steps.
#[inline(never)]
pub fn long_own(case: &Case, q: [f64; 3]) -> f64 {
    let mut state = sgp4_own::fresh(&case.own).unwrap();
    let _ = sgp4_own::ask(&case.own, Some(&mut state), q[0], q[1], q[2], case.orbit.flag);
    let [time, _, lambda] = sgp4_own::state_numbers(state);
    // every step is made, and none of them with a NaN
    assert!(q[0] - time < 720.0 && lambda.is_finite());
    lambda
}

// the same steps by the call for one step, which checks constants and state each time
#[inline(never)]
fn single_ours(case: &Case) -> f64 {
    let mut state = fresh(&case.ours).unwrap();
    for _ in 0..STEPS {
        unsafe { c::orbt_step(case.ours.kind, &case.ours.numbers, 0, &mut state) };
    }
    state[2]
}

fn steps(table: &mut Table, kind: u32, name: &str) {
    let case = &cases(kind, false, 1)[0];
    let q = question(&case.ours.numbers, 720.0 * STEPS as f64 + 100.0);
    sgp4_own::give_effects(&[0.0; 10]);
    let asked = whole(q, &[0.0; 10]);
    table.pair(
        format!("step, {name}, in an ask over {STEPS}"),
        REPEATS,
        STEPS,
        || long_ours(case, &asked),
        || long_own(case, q),
    );
    let name = format!("step, {name}, by the call for one");
    table.pair(name, REPEATS, STEPS, || single_ours(case), || long_own(case, q));
    sgp4_own::give_nothing();
}

#[inline(never)]
fn ask_ours(case: &Case, question: &[f64; 13], state: &mut [f64; 3]) -> f64 {
    let (mut elements, mut steps) = ([0.0; 12], 0);
    let c = &case.ours;
    let held = (c.kind != 0) as u32;
    unsafe { c::orbt_ask(c.kind, c.flag, &c.numbers, held, state, question, &mut elements, &mut steps) };
    elements[4]
}

#[inline(never)]
fn ask_own(case: &Case, q: [f64; 3], state: Option<&mut sgp4_own::ResonanceState>) -> f64 {
    match sgp4_own::ask(&case.own, state, q[0], q[1], q[2], case.orbit.flag) {
        Ok(elements) => elements[4],
        Err(_) => 0.0,
    }
}

fn asks(table: &mut Table, kind: u32, is_low: bool, name: &str) {
    let all = cases(kind, is_low, 512);
    // effects small enough that no eccentricity leaves its range; the same ones for every ask
    let effects = [1e-6; 10];
    sgp4_own::give_effects(&effects);
    let questions: Vec<[f64; 13]> =
        all.iter().map(|case| whole(question(&case.ours.numbers, 333.0), &effects)).collect();
    // an ask without a step leaves its state as it was
    let mut states: Vec<[f64; 3]> = all.iter().map(|case| fresh(&case.ours).unwrap_or([0.0; 3])).collect();
    let mut own_states: Vec<_> = all.iter().map(|case| sgp4_own::fresh(&case.own)).collect();
    let asked = all.iter().zip(&questions);
    table.pair(
        format!("ask without a step, {name}"),
        REPEATS,
        all.len(),
        || asked.clone().zip(&mut states).map(|((case, q), state)| ask_ours(case, q, state)).sum(),
        || {
            let own = asked.clone().zip(&mut own_states);
            own.map(|((case, q), state)| ask_own(case, [q[0], q[1], q[2]], state.as_mut())).sum()
        },
    );
    sgp4_own::give_nothing();
}

#[inline(never)]
fn build_ours(case: &Case) -> f64 {
    let (mut bodies, mut kind, mut numbers) = ([0.0; 14], 0, [0.0; 34]);
    let x = &case.orbit;
    unsafe {
        c::orbt_geometry(x.elements[1], x.epoch, &mut bodies);
        c::orbt_build(x.is_afspc_time as u32, x.flag as u32, &case.given, &mut kind, &mut numbers);
    }
    bodies[13] + numbers[20]
}

#[inline(never)]
fn build_own(case: &Case) -> f64 {
    black_box(&Own::build(&case.orbit));
    0.0
}

fn builds(table: &mut Table, kind: u32, name: &str) {
    let all = cases(kind, false, 512);
    // the rates of one orbit for all: only their place matters here
    let rates: [f64; 10] = all[0].given[21..].try_into().unwrap();
    sgp4_own::give_rates(&rates);
    table.pair(
        format!("build with geometry, {name}"),
        REPEATS,
        all.len(),
        || all.iter().map(build_ours).sum(),
        || all.iter().map(build_own).sum(),
    );
    sgp4_own::give_nothing();
}

pub fn rows(table: &mut Table) {
    steps(table, 1, "one-day");
    steps(table, 2, "half-day");
    for (kind, name) in [(0, "non-resonant"), (1, "one-day"), (2, "half-day")] {
        asks(table, kind, false, &format!("{name}, I above 0.2"));
        asks(table, kind, true, &format!("{name}, I below 0.2"));
    }
    for (kind, name) in [(0, "non-resonant"), (1, "one-day"), (2, "half-day")] {
        builds(table, kind, name);
    }
}
