//! What a comparison came to: how many numbers, how many differed, the worst difference and where.
use crate::same;
use std::process::ExitCode;

/// Bounds of a tally: the bits must be equal, or a difference is only a note.
pub const EQUAL: f64 = 0.0;
pub const NOTE: f64 = f64::INFINITY;

pub struct Tally {
    /// the largest difference that is no fault
    pub bound: f64,
    pub count: u64,
    pub differed: u64,
    pub wrong: u64,
    worst: f64,
    pub at: String,
}

impl Tally {
    pub fn new(bound: f64) -> Tally {
        Tally { bound, count: 0, differed: 0, wrong: 0, worst: 0.0, at: String::new() }
    }

    /// Numbers of ours beside those expected.
    pub fn take(&mut self, ours: &[f64], expected: &[f64], at: impl Fn() -> String) {
        for (place, (a, b)) in ours.iter().zip(expected).enumerate() {
            self.one(same(*a, *b), (a - b).abs(), || format!("{}, place {place}", at()));
        }
        if ours.len() != expected.len() {
            self.holds(false, at);
        }
    }

    pub fn holds(&mut self, is_so: bool, at: impl Fn() -> String) {
        self.one(is_so, f64::INFINITY, at);
    }

    pub fn one(&mut self, is_same: bool, difference: f64, at: impl Fn() -> String) {
        self.count += 1;
        if is_same {
            return;
        }
        self.differed += 1;
        // a NaN on one side alone is the worst there is
        let difference = if difference.is_nan() { f64::INFINITY } else { difference };
        self.wrong += (self.bound == EQUAL || difference > self.bound) as u64;
        if difference > self.worst || self.at.is_empty() {
            self.worst = difference;
            self.at = at();
        }
    }

    pub fn add(&mut self, other: &Tally) {
        self.count += other.count;
        self.differed += other.differed;
        self.wrong += other.wrong;
        if other.worst > self.worst {
            self.worst = other.worst;
            self.at.clone_from(&other.at);
        }
    }

    /// The worst difference, in a form of its own where it is a number above 0.
    pub fn worst(&self, form: fn(f64) -> String) -> String {
        match self.worst {
            0.0 => "-".to_string(),
            w if w.is_infinite() => "wrong".to_string(),
            w => form(w),
        }
    }
}

/// In digits, and as a power of two.
pub fn decimal(x: f64) -> String {
    format!("{x:.1e}")
}

pub fn binary(x: f64) -> String {
    format!("2^{:.1}", x.log2())
}

/// How a program ends.
pub fn verdict(is_kept: bool) -> ExitCode {
    if is_kept {
        ExitCode::SUCCESS
    } else {
        ExitCode::FAILURE
    }
}
