//! Stands where deep_space.rs looks for third_body.rs, whose text is `third_body_text`: hands each
//! call on to it, and keeps what went in and what came back, for `bodies`, `rates` and `effects`. Where
//! rates or effects are given, the calls answer these and nothing is worked out. One thread only.
use crate::third_body_text as text;
use core::sync::atomic::{AtomicBool, AtomicU64, Ordering};

pub(crate) use text::Dots;

#[derive(Debug, Clone, PartialEq)]
pub(crate) struct Perturbations(Option<text::Perturbations>);

/// Where effects are always given.
pub(crate) const NONE: Perturbations = Perturbations(None);

// numbers of the Sun in the first half, of the Moon in the second
struct Kept<const N: usize>([AtomicU64; N]);

impl<const N: usize> Kept<N> {
    const fn new() -> Kept<N> {
        Kept([const { AtomicU64::new(0) }; N])
    }

    fn put(&self, at: usize, xs: &[f64]) {
        for (place, x) in self.0[at..at + xs.len()].iter().zip(xs) {
            place.store(x.to_bits(), Ordering::Relaxed);
        }
    }

    fn at(&self, i: usize) -> f64 {
        f64::from_bits(self.0[i].load(Ordering::Relaxed))
    }

    fn all(&self) -> [f64; N] {
        core::array::from_fn(|i| self.at(i))
    }
}

static BODIES: Kept<14> = Kept::new();
static RATES: Kept<10> = Kept::new();
static EFFECTS: Kept<10> = Kept::new();
static ARE_RATES_GIVEN: AtomicBool = AtomicBool::new(false);
static ARE_EFFECTS_GIVEN: AtomicBool = AtomicBool::new(false);

/// What the last build passed on of the Sun and of the Moon, seven numbers each: sine and cosine of the
/// inclination, of the node's distance and of the argument of perigee, and the mean anomaly.
pub fn bodies() -> [f64; 14] {
    BODIES.all()
}

/// The ten rates of the last build: inclination, right ascension, eccentricity, argument of perigee
/// and mean anomaly, by the Sun and by the Moon.
pub fn rates() -> [f64; 10] {
    RATES.all()
}

/// The ten numbers of the last ask: the changes of eccentricity, inclination and mean anomaly, p4 and
/// p5, of the Sun and of the Moon.
pub fn effects() -> [f64; 10] {
    EFFECTS.all()
}

/// From now on builds have these rates.
pub fn give_rates(rates: &[f64; 10]) {
    RATES.put(0, rates);
    ARE_RATES_GIVEN.store(true, Ordering::Relaxed);
}

/// From now on asks have these numbers.
pub fn give_effects(effects: &[f64; 10]) {
    EFFECTS.put(0, effects);
    ARE_EFFECTS_GIVEN.store(true, Ordering::Relaxed);
}

/// From now on both are worked out again. Constants built with given rates stay without effects.
pub fn give_nothing() {
    ARE_RATES_GIVEN.store(false, Ordering::Relaxed);
    ARE_EFFECTS_GIVEN.store(false, Ordering::Relaxed);
}

// 1 for the Moon, by its eccentricity
fn body(third_body_eccentricity: f64) -> usize {
    (third_body_eccentricity > 0.03) as usize
}

#[allow(clippy::too_many_arguments)]
pub(crate) fn perturbations_and_dots(
    inclination_0: f64,
    eccentricity_0: f64,
    argument_of_perigee_0: f64,
    n0: f64,
    third_body_inclination_sine: f64,
    third_body_inclination_cosine: f64,
    delta_right_ascension_sine: f64,
    delta_right_ascension_cosine: f64,
    third_body_eccentricity: f64,
    third_body_argument_of_perigee_sine: f64,
    third_body_argument_of_perigee_cosine: f64,
    third_body_perturbation_coefficient: f64,
    third_body_mean_motion: f64,
    third_body_mean_anomaly_0: f64,
    p1: f64,
    b0: f64,
) -> (Perturbations, Dots) {
    let body = body(third_body_eccentricity);
    BODIES.put(
        7 * body,
        &[
            third_body_inclination_sine,
            third_body_inclination_cosine,
            delta_right_ascension_sine,
            delta_right_ascension_cosine,
            third_body_argument_of_perigee_sine,
            third_body_argument_of_perigee_cosine,
            third_body_mean_anomaly_0,
        ],
    );
    if ARE_RATES_GIVEN.load(Ordering::Relaxed) {
        let dots = Dots {
            inclination: RATES.at(5 * body),
            right_ascension: RATES.at(5 * body + 1),
            eccentricity: RATES.at(5 * body + 2),
            argument_of_perigee: RATES.at(5 * body + 3),
            mean_anomaly: RATES.at(5 * body + 4),
        };
        return (Perturbations(None), dots);
    }
    let (perturbations, d) = text::perturbations_and_dots(
        inclination_0,
        eccentricity_0,
        argument_of_perigee_0,
        n0,
        third_body_inclination_sine,
        third_body_inclination_cosine,
        delta_right_ascension_sine,
        delta_right_ascension_cosine,
        third_body_eccentricity,
        third_body_argument_of_perigee_sine,
        third_body_argument_of_perigee_cosine,
        third_body_perturbation_coefficient,
        third_body_mean_motion,
        third_body_mean_anomaly_0,
        p1,
        b0,
    );
    RATES.put(
        5 * body,
        &[d.inclination, d.right_ascension, d.eccentricity, d.argument_of_perigee, d.mean_anomaly],
    );
    (Perturbations(Some(perturbations)), d)
}

impl Perturbations {
    pub(crate) fn long_period_periodic_effects(
        &self,
        third_body_eccentricity: f64,
        third_body_mean_motion: f64,
        t: f64,
    ) -> (f64, f64, f64, f64, f64) {
        let at = 5 * body(third_body_eccentricity);
        if ARE_EFFECTS_GIVEN.load(Ordering::Relaxed) {
            let x = |i| EFFECTS.at(at + i);
            return (x(0), x(1), x(2), x(3), x(4));
        }
        let text = self.0.as_ref().expect("built with given rates");
        let x = text.long_period_periodic_effects(third_body_eccentricity, third_body_mean_motion, t);
        EFFECTS.put(at, &[x.0, x.1, x.2, x.3, x.4]);
        x
    }
}
