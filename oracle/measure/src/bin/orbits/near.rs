//! With Rust's own floats in the Rust: each element within 1e-8, the angles by the nearest turn. What
//! lies within 1e-9 of a threshold is counted and not compared.
use crate::table::{Row, Table};
use measure::orbits::{question, whole, Orbit, Published, ECCENTRICITIES, MOTIONS};
use measure::random::Random;
use measure::rust::{Own, Rust};
use measure::tally::NOTE;
use orbt::orbits::{ask, build, fresh, geometry};
use std::f64::consts::{PI, TAU};

const BOUND: f64 = 1e-8;
const LISTED: f64 = 1e-9;

const NAMES: [&str; 12] = [
    "inclination",
    "right ascension, by turns",
    "eccentricity",
    "argument of perigee, by turns",
    "mean anomaly, by turns",
    "mean motion",
    "a",
    "p32",
    "p33",
    "p34",
    "p35",
    "p36",
];

fn is_about(x: f64, limits: &[f64]) -> bool {
    limits.iter().any(|limit| (x - limit).abs() <= LISTED)
}

struct Rows {
    geometry: Row,
    constants: Row,
    lambda: Row,
    elements: Vec<Row>,
    refusals: Row,
    listed_builds: Row,
    listed_asks: Row,
}

impl Rows {
    fn new(inputs: &'static str) -> Rows {
        Rows {
            geometry: Row::new("Rust's own floats: geometry", inputs, NOTE),
            constants: Row::new("Rust's own floats: constants", inputs, NOTE),
            lambda: Row::new(
                "Rust's own floats: lambda_0 and sidereal_time_0, by turns",
                inputs,
                f64::INFINITY,
            ),
            elements: NAMES.iter().map(|name| Row::new(name, inputs, BOUND)).collect(),
            refusals: Row::new("Rust's own floats: refusals 10 and 11, their two numbers", inputs, BOUND),
            listed_builds: Row::new("listed: n or e within 1e-9 of a threshold", inputs, NOTE),
            listed_asks: Row::new(
                "listed: I, Ω or an eccentricity within 1e-9 of a threshold",
                inputs,
                f64::INFINITY,
            ),
        }
    }

    fn all(self) -> Vec<Row> {
        let mut all = vec![self.geometry, self.constants, self.lambda];
        all.extend(self.elements);
        all.extend([self.refusals, self.listed_builds, self.listed_asks]);
        all
    }

    fn run(&mut self, x: &Orbit, times: &[f64]) {
        let [i, _, e, _, _, n] = x.elements;
        if !(0.01..=3.1).contains(&i) {
            return;
        }
        let rust = Own::build(x);
        let (kind, numbers) = Own::numbers(&rust);
        self.geometry.call();
        let bodies = geometry(x.elements[1], x.epoch).unwrap_or([f64::NAN; 14]);
        self.geometry.take(&bodies, &Own::bodies(), || format!("{x:?}"));
        if is_about(n, &MOTIONS) || is_about(e, &ECCENTRICITIES) {
            self.listed_builds.call();
            return;
        }
        let at = || format!("{x:?}");
        let Ok(ours) = build(x.is_afspc_time, x.flag as u32, &x.given(&Own::rates())) else {
            self.constants.holds(false, at);
            return;
        };
        self.constants.call();
        self.lambda.call();
        for (place, (a, b)) in ours.numbers.iter().zip(&numbers).enumerate() {
            if kind != 0 && (place == 20 || place == 22) {
                self.lambda.tally.one(a.to_bits() == b.to_bits(), turned(a - b), at);
            } else {
                self.constants
                    .tally
                    .one(a.to_bits() == b.to_bits(), (a - b).abs(), || format!("{}, place {place}", at()));
            }
        }
        let (mut state, mut rust_state) = (fresh(&ours), Own::fresh(&rust));
        for &t in times {
            let asked = question(&numbers, t);
            let reply = Own::ask(&rust, &mut rust_state, asked, x.flag);
            let effects = Own::effects();
            let a = ask(&ours, state, &whole(asked, &effects));
            state = a.state;
            if self.is_listed(&numbers, asked, &effects, &reply) {
                self.listed_asks.call();
                continue;
            }
            let at = || format!("{x:?} at {t:?}");
            match (a.number, reply) {
                (0, Ok(elements)) => {
                    for (place, row) in self.elements.iter_mut().enumerate() {
                        let (a, b) = (a.elements[place], elements[place]);
                        let apart = if [1, 3, 4].contains(&place) { turned(a - b) } else { (a - b).abs() };
                        row.call();
                        row.tally.one(a.to_bits() == b.to_bits(), apart, at);
                    }
                }
                (ours, Err((number, two))) if ours == number => {
                    self.refusals.call();
                    self.refusals.take(&a.elements[..2], &two, at);
                }
                _ => self.elements[0].holds(false, at),
            }
        }
    }

    // whether a test of the ask is within 1e-9 of going the other way
    fn is_listed(
        &self,
        c: &[f64; 34],
        [t, p22, _]: [f64; 3],
        x: &[f64; 10],
        reply: &measure::rust::Reply,
    ) -> bool {
        let i = c[5] + c[19] * t + (x[1] + x[6]);
        let p31 = c[7] + c[18] * t - c[15] * t;
        let e = p31.max(1.0e-6) + (x[0] + x[5]);
        if is_about(i, &[0.2]) || is_about(p31, &[-0.001, 1.0e-6, 1.0]) || is_about(e, &[0.0, 1.0]) {
            return true;
        }
        // the low branch puts Ω within half a turn of p22
        match reply {
            Ok(elements) if i < 0.2 => is_about((elements[1] - p22 % TAU).abs(), &[PI]),
            _ => false,
        }
    }
}

fn turned(x: f64) -> f64 {
    (x - TAU * (x / TAU).round()).abs()
}

pub fn compare(table: &mut Table, published: &[Published]) {
    let mut rows = Rows::new("published sets, each model, time and flag: their times, and a year each way");
    for set in published {
        for x in &set.orbit {
            let [first, last, by] = set.times;
            let times: Vec<f64> = (0..).map(|k| first + by * k as f64).take_while(|&t| t <= last).collect();
            let (mut back, on): (Vec<f64>, Vec<f64>) = times.into_iter().partition(|&t| t < 0.0);
            back.reverse();
            rows.run(x, &on);
            rows.run(x, &back);
            for way in [1.0, -1.0] {
                rows.run(x, &(0..=400).map(|k| way * 1314.0 * k as f64).collect::<Vec<_>>());
            }
        }
    }
    table.add(rows.all());

    let mut rows = Rows::new("random orbits, ten asks in a run: to 2, 30 and 365 days");
    let mut r = Random::stream(407);
    for k in 0..50_000 {
        let x = r.orbit();
        let times = r.run(10, [2880.0, 43_200.0, 525_600.0][k % 3]);
        rows.run(&x, &times);
    }
    table.add(rows.all());
}
