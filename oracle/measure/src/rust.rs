//! The two builds of sgp4 behind one set of calls. Constants and states travel as the library has them.
use crate::orbits::Orbit;
use orbt::orbits::State;

/// The twelve numbers, or the refusal that an error is, 10 or 11, with the two numbers that it carries.
pub type Reply = Result<[f64; 12], (u32, [f64; 2])>;

pub trait Rust {
    type Constants;

    fn sidereal_time(is_afspc: bool, epoch: f64) -> f64;

    fn build(orbit: &Orbit) -> Self::Constants;

    /// 0 non-resonant, 1 one-day, 2 half-day, and the numbers in the order of a store's body.
    fn numbers(c: &Self::Constants) -> (u32, [f64; 34]);

    fn fresh(c: &Self::Constants) -> State;

    fn ask(c: &Self::Constants, state: &mut State, question: [f64; 3], is_afspc: bool) -> Reply;

    fn bodies() -> [f64; 14];

    fn rates() -> [f64; 10];

    fn effects() -> [f64; 10];

    /// From now on asks have these numbers for third_body's; none: its own.
    fn give_effects(effects: Option<&[f64; 10]>);
}

macro_rules! rust {
    ($name:ident, $sgp4:ident) => {
        pub struct $name;

        impl Rust for $name {
            type Constants = $sgp4::Constants;

            fn sidereal_time(is_afspc: bool, epoch: f64) -> f64 {
                if is_afspc {
                    return $sgp4::afspc_epoch_to_sidereal_time(epoch);
                }
                $sgp4::iau_epoch_to_sidereal_time(epoch)
            }

            fn build(x: &Orbit) -> $sgp4::Constants {
                $sgp4::build(x.is_afspc_time, &x.numbers(), x.b0, x.p2)
            }

            fn numbers(c: &$sgp4::Constants) -> (u32, [f64; 34]) {
                let (numbers, count) = $sgp4::numbers(c);
                let kind = match count {
                    21 => 0,
                    26 => 1,
                    _ => 2,
                };
                (kind, numbers)
            }

            fn fresh(c: &$sgp4::Constants) -> State {
                $sgp4::fresh(c).map($sgp4::state_numbers)
            }

            fn ask(
                c: &$sgp4::Constants,
                state: &mut State,
                [t, p22, p23]: [f64; 3],
                is_afspc: bool,
            ) -> Reply {
                let mut held = state.map($sgp4::state_of);
                let reply = $sgp4::ask(c, held.as_mut(), t, p22, p23, is_afspc);
                *state = held.map($sgp4::state_numbers);
                reply.map_err(|error| match error {
                    $sgp4::Error::OutOfRangeEccentricity { eccentricity, t } => (10, [eccentricity, t]),
                    $sgp4::Error::OutOfRangePerturbedEccentricity { eccentricity, t } => {
                        (11, [eccentricity, t])
                    }
                    $sgp4::Error::NegativeSemiLatusRectum { .. } => panic!("no error of an ask"),
                })
            }

            fn bodies() -> [f64; 14] {
                $sgp4::bodies()
            }

            fn rates() -> [f64; 10] {
                $sgp4::rates()
            }

            fn effects() -> [f64; 10] {
                $sgp4::effects()
            }

            fn give_effects(effects: Option<&[f64; 10]>) {
                match effects {
                    Some(effects) => $sgp4::give_effects(effects),
                    None => $sgp4::give_nothing(),
                }
            }
        }
    };
}

rust!(Ours, sgp4_ours);
rust!(Own, sgp4_own);
