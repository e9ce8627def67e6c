//! The table: a row to what was compared, over what inputs, and whether it kept its bound.
use measure::random::SEED;
use measure::tally::{decimal, Tally, EQUAL, NOTE};

pub struct Row {
    what: &'static str,
    inputs: &'static str,
    calls: u64,
    pub tally: Tally,
}

impl Row {
    pub fn new(what: &'static str, inputs: &'static str, bound: f64) -> Row {
        Row { what, inputs, calls: 0, tally: Tally::new(bound) }
    }

    pub fn call(&mut self) {
        self.calls += 1;
    }

    /// Numbers of ours beside the Rust's.
    pub fn take(&mut self, ours: &[f64], rust: &[f64], at: impl Fn() -> String) {
        self.tally.take(ours, rust, at);
    }

    pub fn holds(&mut self, is_so: bool, at: impl Fn() -> String) {
        self.tally.holds(is_so, at);
    }
}

/// What the random runs went through: builds and asks by their parts.
#[derive(Default)]
pub struct Parts {
    kinds: [u64; 3],
    models: [u64; 2],
    times: [u64; 2],
    flags: [u64; 2],
    ways: [u64; 2],
    branches: [u64; 2],
}

impl Parts {
    pub fn build(&mut self, kind: u32, is_wgs72: bool, is_afspc_time: bool, flag: bool) {
        self.kinds[kind as usize] += 1;
        self.models[is_wgs72 as usize] += 1;
        self.times[is_afspc_time as usize] += 1;
        self.flags[flag as usize] += 1;
    }

    /// An ask that was answered, with this inclination.
    pub fn ask(&mut self, t: f64, inclination: f64) {
        self.ways[(t < 0.0) as usize] += 1;
        self.branches[(inclination < 0.2) as usize] += 1;
    }

    fn print(&self) {
        let Parts { kinds, models, times, flags, ways, branches } = self;
        println!("\nEqual bits, builds: non-resonant, one-day, half-day {kinds:?}; WGS84, WGS72 {models:?}; IAU, AFSPC time {times:?}; flag off, on {flags:?}.");
        println!("Asks answered: t not below 0, below {ways:?}; I not below 0.2, below {branches:?}.");
    }
}

#[derive(Default)]
pub struct Table {
    rows: Vec<Row>,
    pub parts: Parts,
}

impl Table {
    pub fn add(&mut self, rows: Vec<Row>) {
        self.rows.extend(rows);
    }

    pub fn print(&self) -> bool {
        println!("| Compared | Inputs | Calls | Numbers | Differed | Bound | Worst | Outside |");
        println!("|---|---|---|---|---|---|---|---|");
        let (mut count, mut wrong) = (0, 0);
        for row in &self.rows {
            let tally = &row.tally;
            let bound = match tally.bound {
                EQUAL => "equal bits".to_string(),
                NOTE => "a note".to_string(),
                b => format!("{b:e}"),
            };
            if row.calls > 0 || tally.count > 0 {
                println!(
                    "| {} | {} | {} | {} | {} | {bound} | {} | {} |",
                    row.what,
                    row.inputs,
                    row.calls,
                    tally.count,
                    tally.differed,
                    tally.worst(decimal),
                    tally.wrong
                );
            }
            count += tally.count;
            wrong += tally.wrong;
        }
        for row in self.rows.iter().filter(|row| row.tally.wrong > 0) {
            println!("\n{}, {}: {}", row.what, row.inputs, row.tally.at);
        }
        self.parts.print();
        println!("\n{count} numbers, seed {SEED:016X}, {wrong} outside their bounds");
        wrong == 0
    }
}
