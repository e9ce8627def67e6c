//! Sine, cosine and atan2, beside Rust's own.
use crate::table::{Family, Row, Table, NEAR};
use measure::random::Random;
use measure::tally::EQUAL;
use measure::*;
use std::f64::consts::PI;

// every second eighth of a turn from the first one named up to the limit, with so many floats to each
// side, of both signs
fn eighths(first: u64, limit: f64, about: i64, f: &mut dyn FnMut(f64)) {
    let mut k = first;
    loop {
        let middle = quarter_turns(k as f64 / 2.0);
        if middle > limit {
            return;
        }
        for steps in -about..=about {
            let x = beside(middle, steps);
            if x <= limit {
                f(x);
                f(-x);
            }
        }
        k += 2;
    }
}

const ANGLES: [Family<f64>; 8] = [
    ("up to π/4: no reduction", |f| {
        let mut r = Random::stream(1);
        (0..3_000_000).for_each(|_| f(r.within(0.7853981633974483)))
    }),
    ("up to 7: the first turns, every quadrant", |f| {
        let mut r = Random::stream(2);
        (0..3_000_000).for_each(|_| f(r.within(7.0)))
    }),
    ("up to the limit, evenly", |f| {
        let mut r = Random::stream(3);
        (0..3_000_000).for_each(|_| f(r.within(ANGLE_LIMIT)))
    }),
    ("2^-60 to the limit, every exponent", |f| {
        let mut r = Random::stream(4);
        (0..2_000_000).for_each(|_| f(r.scaled(-60, 20)))
    }),
    ("every multiple of π/2 and two floats to each side", |f| eighths(2, ANGLE_LIMIT, 2, f)),
    ("every odd multiple of π/4 and two floats to each side", |f| eighths(1, ANGLE_LIMIT, 2, f)),
    ("subnormals", |f| {
        let mut r = Random::stream(5);
        (0..1_000_000).for_each(|_| f(r.subnormal()))
    }),
    ("zeros, both ends and the change at π/4", |f| {
        for x in [0.0, f64::MIN_POSITIVE, 5e-324, 0.7853981633974483, PI, ANGLE_LIMIT] {
            for x in [x, beside(x, 1), if x == 0.0 { x } else { beside(x, -1) }] {
                if x <= ANGLE_LIMIT {
                    f(x);
                    f(-x);
                }
            }
        }
    }),
];

const FURTHER_ANGLES: [Family<f64>; 3] = [
    ("from the limit to 16,777,216, evenly", |f| {
        let mut r = Random::stream(6);
        for _ in 0..10_000_000 {
            let x = ANGLE_LIMIT + r.unit() * (NEXT_ANGLE_LIMIT - ANGLE_LIMIT);
            f(r.signed(x))
        }
    }),
    ("every multiple of π/2 to 16,777,216 and a float to each side", |f| eighths(2, NEXT_ANGLE_LIMIT, 1, f)),
    ("every odd multiple of π/4 to 16,777,216", |f| eighths(1, NEXT_ANGLE_LIMIT, 0, f)),
];

const REFUSED_ANGLES: Family<f64> = ("beyond the limit, infinities, NaNs", |f| {
    let mut r = Random::stream(7);
    for x in [beside(ANGLE_LIMIT, 1), f64::INFINITY, f64::NAN, f64::MAX] {
        f(x);
        f(-x);
    }
    for _ in 0..2_000_000 {
        let x = r.any();
        if x.is_nan() || x.abs() > ANGLE_LIMIT {
            f(x);
        }
        f(r.scaled(20, 30) * (1.0 + f64::EPSILON));
    }
});

pub fn sines(table: &mut Table) {
    let (mut sin, mut cos) = (vec![], vec![]);
    let mut both = Row::new("sin_cos", "all of these", "sin and cos", EQUAL);
    let mut recipe = Row::new("sin_cos", "all of these", "the recipe in Rust", EQUAL);
    for (inputs, family) in ANGLES {
        let mut sin_row = Row::new("sin", inputs, "Rust's own", NEAR);
        let mut cos_row = Row::new("cos", inputs, "Rust's own", NEAR);
        family(&mut |x| {
            let (s, c) = (orbt::sin(x).unwrap_or(f64::NAN), orbt::cos(x).unwrap_or(f64::NAN));
            sin_row.take(s, x.sin(), &[x]);
            cos_row.take(c, x.cos(), &[x]);
            let are_these = |pair: (f64, f64)| same(pair.0, s) && same(pair.1, c);
            both.holds(orbt::sin_cos(x).is_ok_and(are_these), &[x]);
            recipe.holds(are_these(measure::recipe::sin_cos(x)), &[x]);
        });
        sin.push(sin_row);
        cos.push(cos_row);
    }
    table.add_with_sum(sin);
    table.add_with_sum(cos);
    table.add(vec![both, recipe]);

    let mut refused = Row::new("sin, cos, sin_cos", REFUSED_ANGLES.0, "refusal 9", EQUAL);
    REFUSED_ANGLES.1(&mut |x| {
        let is_so = orbt::sin(x) == Err(9) && orbt::cos(x) == Err(9) && orbt::sin_cos(x) == Err(9);
        refused.holds(is_so, &[x])
    });
    table.add(vec![refused]);

    for (inputs, family) in FURTHER_ANGLES {
        let mut sin_row = Row::new("sin, note", inputs, "the recipe in Rust with Rust's own", NEAR);
        let mut cos_row = Row::new("cos, note", inputs, "the recipe in Rust with Rust's own", NEAR);
        family(&mut |x| {
            let (s, c) = measure::recipe::sin_cos(x);
            sin_row.take(s, x.sin(), &[x]);
            cos_row.take(c, x.cos(), &[x]);
        });
        table.add(vec![sin_row, cos_row]);
    }
}

const POINTS: [Family<(f64, f64)>; 9] = [
    ("a square about 0: every quadrant", |f| {
        let mut r = Random::stream(11);
        (0..3_000_000).for_each(|_| f((r.within(1.0), r.within(1.0))))
    }),
    ("any two finite floats: huge ratios", |f| {
        let mut r = Random::stream(12);
        (0..2_000_000).for_each(|_| f((r.finite(), r.finite())))
    }),
    ("any float, and another within 2^60 of its size", |f| {
        let mut r = Random::stream(13);
        for _ in 0..2_000_000 {
            let (x, factor) = (r.finite(), r.scaled(-60, 60));
            if (x * factor).is_finite() {
                f((x * factor, x));
            }
        }
    }),
    ("two subnormals", |f| {
        let mut r = Random::stream(14);
        (0..1_000_000).for_each(|_| f((r.subnormal(), r.subnormal())))
    }),
    ("a subnormal and any finite float, both ways", |f| {
        let mut r = Random::stream(15);
        for _ in 0..1_000_000 {
            let (a, b) = (r.subnormal(), r.finite());
            f((a, b));
            f((b, a));
        }
    }),
    ("beside the diagonals", |f| {
        let mut r = Random::stream(16);
        for _ in 0..2_000_000 {
            let x = r.scaled(-1000, 1000);
            let y = beside(x, r.below(33) as i64 - 16);
            f((r.signed(y), x));
        }
    }),
    ("slopes beside tan 15° and tan 30°, both ways", |f| {
        let mut r = Random::stream(17);
        for _ in 0..1_000_000 {
            let slope = if r.below(2) == 0 { 0.2679491924311227 } else { 0.5773502691896257 };
            let x = r.scaled(-1000, 1000);
            let y = beside(x * slope, r.below(33) as i64 - 16);
            let y = r.signed(y);
            f((y, x));
            f((x, y));
        }
    }),
    ("beside the axes", |f| {
        let mut r = Random::stream(18);
        for _ in 0..1_000_000 {
            let (x, little) = (r.scaled(-500, 500), r.scaled(-80, -20));
            f((x * little, x));
            f((x, x * little));
        }
    }),
    ("zeros of both signs, ends and ones, each with each", |f| {
        let ends = [0.0, 5e-324, f64::MIN_POSITIVE, 1e-300, 0.5, 1.0, 2.0, f64::MAX];
        for y in ends {
            for x in ends {
                f((y, x));
                f((-y, x));
                f((y, -x));
                f((-y, -x));
            }
        }
    }),
];

pub fn arcs(table: &mut Table) {
    let mut rows = vec![];
    for (inputs, family) in POINTS {
        let mut row = Row::new("atan2", inputs, "Rust's own", NEAR);
        family(&mut |(y, x)| row.take(orbt::atan2(y, x), y.atan2(x), &[y, x]));
        rows.push(row);
    }
    table.add_with_sum(rows);

    // a zero has its sign, which a difference does not show
    let mut row = Row::new("atan2", "y is 0: signs of zeros", "Rust's own, by bits", EQUAL);
    let mut r = Random::stream(19);
    for _ in 0..1_000_000 {
        let (y, x) = (r.signed(0.0), r.finite());
        row.take(orbt::atan2(y, x), y.atan2(x), &[y, x]);
        let x = r.signed(0.0);
        row.take(orbt::atan2(y, x), y.atan2(x), &[y, x]);
    }
    table.add(vec![row]);

    let mut row = Row::new("atan2", "an infinity or a NaN, with any float", "a NaN", EQUAL);
    for _ in 0..1_000_000 {
        for z in [f64::INFINITY, f64::NEG_INFINITY, f64::NAN] {
            let a = r.any();
            row.holds(orbt::atan2(z, a).is_nan() && orbt::atan2(a, z).is_nan(), &[z, a]);
        }
    }
    table.add(vec![row]);
}
