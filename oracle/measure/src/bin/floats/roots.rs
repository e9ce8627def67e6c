//! The two roots and the two powers by them.
use crate::table::{Family, Row, Table};
use measure::random::Random;
use measure::tally::{EQUAL, NOTE};
use measure::*;

const SQUARES: [Family<f64>; 5] = [
    ("any 64 bits", |f| {
        let mut r = Random::stream(21);
        (0..20_000_000).for_each(|_| f(r.any()))
    }),
    ("any 63 bits, not negative", |f| {
        let mut r = Random::stream(22);
        (0..10_000_000).for_each(|_| f(r.any().abs()))
    }),
    ("subnormals", |f| {
        let mut r = Random::stream(23);
        (0..3_000_000).for_each(|_| f(r.subnormal()))
    }),
    ("squares of whole numbers and a float to each side", |f| {
        let mut r = Random::stream(24);
        for _ in 0..1_000_000 {
            let k = (r.bits() >> (38 + r.below(26))) as f64;
            let x = k * k * 4f64.powi(r.below(400) as i32 - 200);
            f(x);
            f(beside(x, 1));
            f(beside(x, -1));
        }
    }),
    ("beside squares of half-way numbers", |f| {
        let mut r = Random::stream(25);
        for _ in 0..1_000_000 {
            let x = half_way_square(r.bits());
            f(x);
            f(beside(x, 1));
        }
    }),
];

pub fn square_roots(table: &mut Table) {
    let mut rows = vec![];
    let mut refused = Row::new("sqrt", "those of these below 0, infinite or NaN", "refusal 12", EQUAL);
    let mut powers = Row::new("three_halves", "all of sqrt's", "x times ours sqrt", EQUAL);
    let mut note =
        Row::new("three_halves, note", "those of these that are normal", "Rust's powf(1.5), relative", NOTE);
    for (inputs, family) in SQUARES {
        let mut row = Row::new("sqrt", inputs, "Rust's own", EQUAL);
        family(&mut |x| {
            let root = orbt::sqrt(x);
            let power = orbt::three_halves(x);
            powers.holds(
                match (power, root) {
                    (Ok(power), Ok(root)) => same(power, x * root),
                    (power, root) => power == root,
                },
                &[x],
            );
            if has_no_square_root(x) {
                refused.holds(root == Err(12), &[x]);
                return;
            }
            match root {
                Ok(root) => row.take(root, x.sqrt(), &[x]),
                Err(_) => row.holds(false, &[x]),
            }
            let own = x.powf(1.5);
            if let Ok(power) = power {
                if own.is_normal() {
                    note.difference(same(power, own), (power - own).abs() / own, &[x]);
                }
            }
        });
        rows.push(row);
    }
    table.add_with_sum(rows);
    table.add(vec![refused, powers, note]);
}

const CUBES: [Family<f64>; 4] = [
    ("any positive finite float", |f| {
        let mut r = Random::stream(31);
        (0..3_000_000).for_each(|_| f(r.finite().abs()))
    }),
    ("subnormals", |f| {
        let mut r = Random::stream(32);
        (0..1_000_000).for_each(|_| f(r.subnormal().abs()))
    }),
    ("exact cubes of whole numbers, times 8^j, and a float to each side", |f| {
        let mut r = Random::stream(33);
        for k in 1..200_000u64 {
            let x = (k * k * k) as f64 * 8f64.powi(r.below(300) as i32 - 150);
            f(x);
            f(beside(x, 1));
            f(beside(x, -1));
        }
    }),
    ("both ends, and each power of two", |f| {
        for b in 0..52 {
            f(f64::from_bits(1 << b));
        }
        for e in 1..2047 {
            f(f64::from_bits(e << 52));
            f(f64::from_bits((e << 52) - 1));
        }
        f(f64::MAX);
    }),
];

pub fn cube_roots(table: &mut Table) {
    let mut rows = vec![];
    let mut powers = Row::new("two_thirds", "all of cbrt's", "ours cbrt, squared", EQUAL);
    let own = "Rust's powf(2/3), relative";
    let mut note = Row::new("two_thirds, note", "all of cbrt's", own, NOTE);
    let mut note_near = Row::new("two_thirds, note", "1/4 to 1024, as in an ask", own, NOTE);
    for (inputs, family) in CUBES {
        let mut row = Row::new("cbrt", inputs, "exact cubes", EQUAL);
        family(&mut |x| {
            // a subnormal that is drawn may be 0
            if x == 0.0 {
                return;
            }
            let root = orbt::cbrt(x);
            row.holds(root.is_ok_and(|r| measure::cube::is_root(r, x)), &[x]);
            let power = orbt::two_thirds(x).unwrap_or(f64::NAN);
            powers.holds(root.is_ok_and(|r| same(power, r * r)), &[x]);
            let own = x.powf(2.0 / 3.0);
            note.difference(same(power, own), (power - own).abs() / own, &[x]);
        });
        rows.push(row);
    }
    table.add_with_sum(rows);

    let mut refused = Row::new("cbrt, two_thirds", "zeros, negatives, infinities, NaNs", "refusal 12", EQUAL);
    let mut r = Random::stream(34);
    for x in [0.0, -0.0, f64::INFINITY, f64::NEG_INFINITY, f64::NAN, -5e-324] {
        refused.holds(orbt::cbrt(x) == Err(12) && orbt::two_thirds(x) == Err(12), &[x]);
    }
    for _ in 0..1_000_000 {
        let x = -r.any().abs();
        refused.holds(orbt::cbrt(x) == Err(12) && orbt::two_thirds(x) == Err(12), &[x]);
    }
    for _ in 0..1_000_000 {
        let x = r.scaled(-2, 10).abs();
        let (power, own) = (orbt::two_thirds(x).unwrap_or(f64::NAN), x.powf(2.0 / 3.0));
        note_near.difference(same(power, own), (power - own).abs() / own, &[x]);
    }
    table.add(vec![powers, note, note_near, refused]);
}
