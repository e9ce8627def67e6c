//! Floor, remainder and whole powers, beside Rust's own.
use crate::table::{Family, Row, Table};
use measure::random::Random;
use measure::tally::EQUAL;
use measure::*;
use std::f64::consts::TAU;

const FLOORED: [Family<f64>; 5] = [
    ("any 64 bits", |f| {
        let mut r = Random::stream(41);
        (0..10_000_000).for_each(|_| f(r.any()))
    }),
    ("2^-4 to 2^56, every exponent", |f| {
        let mut r = Random::stream(42);
        (0..5_000_000).for_each(|_| f(r.scaled(-4, 56)))
    }),
    ("whole numbers, halves, and a float to each side", |f| {
        let mut r = Random::stream(43);
        for _ in 0..1_000_000 {
            let k = (r.bits() >> (10 + r.below(54))) as f64;
            for x in [k, k + 0.5] {
                for x in [x, beside(x, 1), beside(x, -1)] {
                    f(x);
                    f(-x);
                }
            }
        }
    }),
    ("subnormals", |f| {
        let mut r = Random::stream(44);
        (0..1_000_000).for_each(|_| f(r.subnormal()))
    }),
    ("zeros, infinities, about 1 and 2^52", |f| {
        for x in [0.0, f64::INFINITY, f64::NAN, 1.0, 4503599627370496.0, 9007199254740992.0, f64::MAX] {
            f(x);
            f(-x);
            for steps in [-2, -1, 1, 2] {
                f(beside(x, steps));
                f(-beside(x, steps));
            }
        }
    }),
];

pub fn floors(table: &mut Table) {
    let mut rows = vec![];
    for (inputs, family) in FLOORED {
        let mut row = Row::new("floor", inputs, "Rust's own", EQUAL);
        family(&mut |x| row.take(orbt::floor(x), x.floor(), &[x]));
        rows.push(row);
    }
    table.add_with_sum(rows);
}

const DIVIDED: [Family<(f64, f64)>; 6] = [
    ("any 64 bits by any 64 bits", |f| {
        let mut r = Random::stream(51);
        (0..10_000_000).for_each(|_| f((r.any(), r.any())))
    }),
    ("any float, and another within 2^60 of its size", |f| {
        let mut r = Random::stream(52);
        for _ in 0..2_000_000 {
            let (x, factor) = (r.finite(), r.scaled(-60, 60));
            f((x * factor, x));
        }
    }),
    ("any 64 bits by 2π", |f| {
        let mut r = Random::stream(53);
        (0..2_000_000).for_each(|_| f((r.any(), TAU)))
    }),
    ("2^-70 to 2^30 by 2π", |f| {
        let mut r = Random::stream(54);
        (0..3_000_000).for_each(|_| f((r.scaled(-70, 30), TAU)))
    }),
    ("multiples of 2π by 2π, and two floats to each side", |f| {
        for k in 0..300_000 {
            let x = k as f64 * TAU;
            for steps in -2..=2 {
                let x = if x == 0.0 { 5e-324 * steps as f64 } else { beside(x, steps) };
                f((x, TAU));
                f((-x, TAU));
            }
        }
    }),
    ("zeros, infinities, ends and ones, each with each", |f| {
        let ends = [0.0, 5e-324, f64::MIN_POSITIVE, 1e-20, 1.0, TAU, f64::MAX, f64::INFINITY, f64::NAN];
        for x in ends {
            for m in ends {
                f((x, m));
                f((-x, m));
                f((x, -m));
                f((-x, -m));
            }
        }
    }),
];

pub fn remainders(table: &mut Table) {
    let mut rows = vec![];
    for (inputs, family) in DIVIDED {
        let mut row = Row::new("rem_euclid", inputs, "Rust's own", EQUAL);
        family(&mut |(x, m)| row.take(orbt::rem_euclid(x, m), x.rem_euclid(m), &[x, m]));
        rows.push(row);
    }
    table.add_with_sum(rows);
}

// Rust's powi, with its exponent known to the compiler, as in sgp4
type Power = (&'static str, i32, fn(f64) -> f64);

const POWERS: [Power; 3] =
    [("square", 2, |x| x.powi(2)), ("cube", 3, |x| x.powi(3)), ("fourth", 4, |x| x.powi(4))];

pub fn powers(table: &mut Table) {
    for (name, power, own) in POWERS {
        let mut row = Row::new(name, "any 64 bits", "Rust's powi", EQUAL);
        let mut r = Random::stream(61);
        for _ in 0..5_000_000 {
            let x = r.any();
            row.take(num_traits::Float::powi(x, power), own(x), &[x]);
        }
        table.add(vec![row]);
    }
}
