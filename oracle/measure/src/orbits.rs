//! Orbits to build and ask: what sgp4's `Constants::new` hands to its deep-space part, worked out once
//! with Rust's own floats and handed alike to both sides; drawn at random, or read from element sets.
use crate::beside;
use crate::random::Random;
use std::f64::consts::{PI, TAU};

#[derive(Clone, Copy, Debug)]
pub struct Orbit {
    pub is_wgs72: bool,
    pub is_afspc_time: bool,
    pub flag: bool,
    /// inclination, right ascension, eccentricity, argument of perigee, mean anomaly, mean motion
    pub elements: [f64; 6],
    pub epoch: f64,
    pub p1: f64,
    pub a0: f64,
    pub c1: f64,
    pub b0: f64,
    pub c4: f64,
    pub k0: f64,
    pub k1: f64,
    pub k14: f64,
    pub p2: f64,
    pub p14: f64,
    pub p15: f64,
}

/// Model, sidereal time and flag by three binary digits.
#[derive(Clone, Copy)]
pub struct Choice(pub u64);

impl Choice {
    fn is_wgs72(self) -> bool {
        self.0 & 1 != 0
    }
}

/// ae, ke, j2, j3, j4
pub fn model(is_wgs72: bool) -> [f64; 5] {
    let m = if is_wgs72 { sgp4_own::WGS72 } else { sgp4_own::WGS84 };
    [m.ae, m.ke, m.j2, m.j3, m.j4]
}

impl Orbit {
    /// `Constants::new` up to its deep-space part.
    pub fn new(choice: Choice, elements: [f64; 6], epoch: f64, drag: f64) -> Orbit {
        let [ae, ke, j2, _, j4] = model(choice.is_wgs72());
        let [i, _, e, w, _, n] = elements;
        let p1 = i.cos();
        let p2 = 1.0 - e * e;
        let k6 = 3.0 * p1 * p1 - 1.0;
        let a0 = (ke / n).powf(2.0 / 3.0);
        let p4 = ae * (a0 * (1.0 - e) - 1.0);
        let p5 = if p4 < 98.0 { 20.0 } else { (p4 - 78.0).min(78.0) };
        let s = p5 / ae + 1.0;
        let xi = 1.0 / (a0 - s);
        let eta = a0 * e * xi;
        let ee = eta * eta;
        let p8 = (1.0 - ee).abs();
        let p9 = ((120.0 - p5) / ae).powi(4) * xi.powi(4) / p8.powf(3.5);
        let c1 = drag
            * (p9
                * n
                * (a0 * (1.0 + 1.5 * ee + e * eta * (4.0 + ee))
                    + 0.375 * j2 * xi / p8 * k6 * (8.0 + 3.0 * ee * (8.0 + ee))));
        let p10 = 1.0 / (a0 * p2).powi(2);
        let b0 = p2.sqrt();
        let p11 = 1.5 * j2 * p10 * n;
        let p12 = 0.5 * p11 * j2 * p10;
        let p13 = -0.46875 * j4 * p10 * p10 * n;
        let (c2, c4th) = (p1.powi(2), p1.powi(4));
        let p14 = -p11 * p1 + (0.5 * p12 * (4.0 - 19.0 * c2) + 2.0 * p13 * (3.0 - 7.0 * c2)) * p1;
        let k14 = -0.5 * p11 * (1.0 - 5.0 * c2)
            + 0.0625 * p12 * (7.0 - 114.0 * c2 + 395.0 * c4th)
            + p13 * (3.0 - 36.0 * c2 + 49.0 * c4th);
        let p15 = n + 0.5 * p11 * b0 * k6 + 0.0625 * p12 * b0 * (13.0 - 78.0 * c2 + 137.0 * c4th);
        let c4 = drag
            * (2.0
                * n
                * p9
                * a0
                * p2
                * (eta * (2.0 + 0.5 * ee) + e * (0.5 + 2.0 * ee)
                    - j2 * xi / (a0 * p8)
                        * (-3.0 * k6 * (1.0 - 2.0 * e * eta + ee * (1.5 - 0.5 * e * eta))
                            + 0.75 * (1.0 - c2) * (2.0 * ee - e * eta * (1.0 + ee)) * (2.0 * w).cos())));
        Orbit {
            is_wgs72: choice.is_wgs72(),
            is_afspc_time: choice.0 & 2 != 0,
            flag: choice.0 & 4 != 0,
            elements,
            epoch,
            p1,
            a0,
            c1,
            b0,
            c4,
            k0: 3.5 * p2 * (-p11 * p1) * c1,
            k1: 1.5 * c1,
            k14,
            p2,
            p14,
            p15,
        }
    }

    /// What a build is given: model, elements, and the numbers beside them.
    pub fn numbers(&self) -> [f64; 21] {
        let mut all = [0.0; 21];
        all[..5].copy_from_slice(&model(self.is_wgs72));
        all[5..11].copy_from_slice(&self.elements);
        all[11..].copy_from_slice(&[
            self.epoch, self.p1, self.a0, self.c1, self.c4, self.k0, self.k1, self.k14, self.p14, self.p15,
        ]);
        all
    }

    /// The same with the ten rates of third_body.
    pub fn given(&self, rates: &[f64; 10]) -> [f64; 31] {
        let mut all = [0.0; 31];
        all[..21].copy_from_slice(&self.numbers());
        all[21..].copy_from_slice(rates);
        all
    }
}

/// t, p22 and p23, as `propagate_from_state` has them, from the numbers of the constants.
pub fn question(numbers: &[f64; 34], t: f64) -> [f64; 3] {
    [t, numbers[6] + numbers[11] * t + numbers[16] * (t * t), numbers[8] + numbers[12] * t]
}

/// t, p22 and p23 with third_body's ten numbers: what the library is asked.
pub fn whole(question: [f64; 3], effects: &[f64; 10]) -> [f64; 13] {
    let mut all = [0.0; 13];
    all[..3].copy_from_slice(&question);
    all[3..].copy_from_slice(effects);
    all
}

/// The limits of the class in the mean motion, and those of the eccentricity.
pub const MOTIONS: [f64; 4] = [0.0034906585, 0.0052359877, 8.26e-3, 9.24e-3];
pub const ECCENTRICITIES: [f64; 4] = [0.5, 0.65, 0.7, 0.715];

impl Random {
    pub fn from_to(&mut self, low: f64, high: f64) -> f64 {
        low + self.unit() * (high - low)
    }

    // one of these, or the float to either side
    fn about(&mut self, limits: &[f64]) -> f64 {
        let limit = limits[self.below(limits.len() as u64) as usize];
        beside(limit, self.below(3) as i64 - 1)
    }

    /// An orbit: each class as often as another, an eighth at a limit of the mean motion, a quarter at
    /// one of the eccentricity; a third low, below about 0.2 in the inclination.
    pub fn orbit(&mut self) -> Orbit {
        let choice = Choice(self.bits());
        let mut e = match self.below(4) {
            0 => self.about(&ECCENTRICITIES),
            1 => self.from_to(0.5, 0.76),
            _ => self.from_to(0.0, 0.5),
        };
        let n = match self.below(8) {
            0 => self.about(&MOTIONS),
            1..=3 => self.from_to(MOTIONS[0], MOTIONS[1]),
            4 | 5 => {
                if e < 0.49 {
                    e = self.from_to(0.5, 0.76);
                }
                self.from_to(MOTIONS[2], MOTIONS[3])
            }
            _ => self.from_to(0.0002, 0.0279),
        };
        // the perigee above the ground
        let a0 = (0.0743669 / n).powf(2.0 / 3.0);
        if a0 * (1.0 - e) < 1.02 {
            e = (1.0 - 1.02 / a0) * self.unit();
        }
        let i = match self.below(6) {
            0 => self.from_to(0.0, 0.2),
            1 => self.from_to(0.19, 0.21),
            2 => self.from_to(0.0, PI),
            _ => self.from_to(0.2, 3.1),
        };
        let drag = match self.below(4) {
            0 => 0.0,
            _ => self.scaled(-17, -9),
        };
        let elements = [i, TAU * self.unit(), e, TAU * self.unit(), TAU * self.unit(), n];
        Orbit::new(choice, elements, self.within(60.0), drag)
    }

    /// Times of a run, all of one sign and never nearer to 0 than the one before.
    pub fn run(&mut self, count: usize, limit: f64) -> Vec<f64> {
        let sign = self.signed(1.0);
        let mut times: Vec<f64> = (0..count)
            .map(|_| {
                let t = self.unit() * limit;
                match self.below(8) {
                    0 => (t / 720.0).floor() * 720.0,
                    1 => beside(((t / 720.0).floor() + 1.0) * 720.0, self.below(3) as i64 - 1),
                    2 => self.unit() * 720.0,
                    _ => t,
                }
            })
            .collect();
        times.sort_by(f64::total_cmp);
        times.into_iter().map(|t| t * sign).collect()
    }
}

/// A deep-space element set, with the times that stand after it: first, last, step.
pub struct Published {
    pub satellite: String,
    pub orbit: [Orbit; 8],
    pub times: [f64; 3],
}

fn number(line: &str, from: usize, to: usize) -> f64 {
    line[from..to].trim().parse().unwrap_or(0.0)
}

// 12345-3 stands for 0.12345e-3
fn exponential(line: &str, from: usize) -> f64 {
    let text = line[from..from + 8].trim();
    let (sign, digits) = match text.strip_prefix('-') {
        Some(digits) => (-1.0, digits),
        None => (1.0, text),
    };
    let Some(at) = digits.rfind(['-', '+']) else { return 0.0 };
    let digits = format!("0.{}e{}", &digits[..at], &digits[at..]);
    sign * digits.parse().unwrap_or(0.0)
}

/// The sets of a file that are of deep space: 225 minutes or more to a turn.
pub fn published(path: &str) -> Vec<Published> {
    let text = std::fs::read_to_string(path).expect("no such file of element sets");
    let lines: Vec<&str> = text.lines().filter(|line| line.len() >= 68 && !line.starts_with('#')).collect();
    let mut sets = vec![];
    for pair in lines.windows(2) {
        let [one, two] = pair else { continue };
        if !one.starts_with("1 ") || !two.starts_with("2 ") {
            continue;
        }
        let year = number(one, 18, 20);
        let year = if year < 57.0 { year } else { year - 100.0 };
        // years of 365.25 days since 1 January 2000 12h: days of the leap years before are counted
        let days = year * 365.0 + ((year + 3.0) / 4.0).floor() + number(one, 20, 32) - 1.5;
        let drag = exponential(one, 53);
        let degrees = |from, to| number(two, from, to) * (PI / 180.0);
        let e: f64 = format!("0.{}", two[26..33].trim()).parse().unwrap();
        let i = degrees(8, 16);
        let kozai = number(two, 52, 63) * (PI / 720.0);
        let orbit = std::array::from_fn(|k| {
            let choice = Choice(k as u64);
            let [_, ke, j2, _, _] = model(choice.is_wgs72());
            // the mean motion without the Earth's flattening, as `from_kozai_elements` has it
            let a1 = (ke / kozai).powf(2.0 / 3.0);
            let p0 = 0.75 * j2 * (3.0 * i.cos().powi(2) - 1.0) / (1.0 - e * e).powf(1.5);
            let d1 = p0 / (a1 * a1);
            let d0 = p0 / (a1 * (1.0 - d1 * d1 - d1 * (1.0 / 3.0 + 134.0 * d1 * d1 / 81.0))).powi(2);
            let n = kozai / (1.0 + d0);
            let elements = [i, degrees(17, 25), e, degrees(34, 42), degrees(43, 51), n];
            Orbit::new(choice, elements, days / 365.25, drag)
        });
        if orbit[0].elements[5] > TAU / 225.0 {
            continue;
        }
        let after: Vec<f64> =
            two[69.min(two.len())..].split_whitespace().filter_map(|w| w.parse().ok()).collect();
        let times = if after.len() == 3 { [after[0], after[1], after[2]] } else { [0.0, 2880.0, 120.0] };
        sets.push(Published { satellite: one[2..7].to_string(), orbit, times });
    }
    sets
}
