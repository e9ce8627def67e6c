//! The two builds of sgp4 are what they are meant to be: one with the library's floats, one with
//! Rust's own, near each other and not the same.
use measure::random::Random;
use std::f64::consts::TAU;

// the same runs of either build: sidereal times, constants, and asks forward or back
macro_rules! runs {
    ($sgp4:ident) => {{
        let mut r = Random::stream(201);
        let mut all: Vec<f64> = vec![];
        for run in 0..600 {
            let epoch = r.within(60.0);
            all.push($sgp4::iau_epoch_to_sidereal_time(epoch));
            all.push($sgp4::afspc_epoch_to_sidereal_time(epoch));
            // one-day, half-day and neither, in turn; a third of them low
            let n = [0.0043, 0.0087, 0.0065][run % 3] * (1.0 + r.within(0.01));
            let e = if run % 3 == 1 { 0.55 + 0.2 * r.unit() } else { 0.1 * r.unit() };
            let i = if run % 9 < 3 { 0.01 + 0.1 * r.unit() } else { 0.3 + 2.5 * r.unit() };
            let (node, perigee, anomaly) = (TAU * r.unit(), TAU * r.unit(), TAU * r.unit());
            let $sgp4::Geopotential { ae, ke, j2, j3, j4 } = $sgp4::WGS84;
            let (p1, p2, a0) = (i.cos(), 1.0 - e * e, (ke / n).powf(2.0 / 3.0));
            #[rustfmt::skip]
            let given = [
                ae, ke, j2, j3, j4,
                    i, node, e, perigee, anomaly, n,
                    // epoch, p1, a0, c1, c4, k0, k1, k14, p14, p15
                    epoch, p1, a0, 1e-12, 1e-12, 1e-14, 1.5e-12, 1e-6, -1e-6, n,
                ];
            let c = $sgp4::build(run % 2 == 0, &given, p2.sqrt(), p2);
            let (numbers, count) = $sgp4::numbers(&c);
            assert_eq!(count, [26, 34, 21][run % 3]);
            all.extend(&numbers[..count]);
            let mut state = $sgp4::fresh(&c);
            assert_eq!(state.is_some(), run % 3 != 2);
            let way = if run % 4 < 2 { 1.0 } else { -1.0 };
            for t in [0.0, 700.0, 720.0, 5000.0, 43200.0] {
                match $sgp4::ask(&c, state.as_mut(), t * way, node, perigee, run % 2 == 0) {
                    Ok(answer) => all.extend(answer),
                    Err(_) => all.extend([0.0; 12]),
                }
            }
            if let Some(state) = state {
                let numbers = $sgp4::state_numbers(state);
                assert_eq!(numbers[0], 43200.0 * way);
                assert_eq!($sgp4::state_numbers($sgp4::state_of(numbers)), numbers);
                all.extend(numbers);
            }
        }
        all
    }};
}

#[test]
fn the_two_builds_are_near_and_not_the_same() {
    let ours = runs!(sgp4_ours);
    let own = runs!(sgp4_own);
    assert_eq!(ours.len(), own.len());
    let mut differed = 0;
    for (a, b) in ours.iter().zip(&own) {
        // angles may lie a turn apart where a remainder falls the other way
        let apart = (a - b).abs();
        assert!(apart < 1e-8 || (apart - TAU).abs() < 1e-8, "{a} {b}");
        differed += (a.to_bits() != b.to_bits()) as usize;
    }
    println!("{} numbers, {differed} differ in a bit", ours.len());
    assert!(differed > 1000);
}
