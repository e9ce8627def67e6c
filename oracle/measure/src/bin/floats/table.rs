//! The table: a row for each family of inputs, and whether each kept its bound.
use measure::random::SEED;
use measure::same;
use measure::tally::{binary, Tally, NOTE};

/// The bound of the differences from Rust's own sine, cosine and atan2.
pub const NEAR: f64 = 1.0 / 35184372088832.0; // 2^-45

pub struct Row {
    function: &'static str,
    inputs: &'static str,
    against: &'static str,
    tally: Tally,
    is_sum: bool,
}

impl Row {
    pub fn new(function: &'static str, inputs: &'static str, against: &'static str, bound: f64) -> Row {
        Row { function, inputs, against, tally: Tally::new(bound), is_sum: false }
    }

    // one answer beside the one expected; `at` is what was asked
    pub fn take(&mut self, answer: f64, expected: f64, at: &[f64]) {
        self.difference(same(answer, expected), (answer - expected).abs(), at);
    }

    pub fn difference(&mut self, is_same: bool, difference: f64, at: &[f64]) {
        let text = || at.iter().map(|x| format!("{x:?}")).collect::<Vec<_>>().join(", ");
        self.tally.one(is_same, difference, text);
    }

    pub fn holds(&mut self, is_so: bool, at: &[f64]) {
        self.difference(is_so, f64::INFINITY, at);
    }
}

#[derive(Default)]
pub struct Table(Vec<Row>);

impl Table {
    pub fn add(&mut self, rows: Vec<Row>) {
        self.0.extend(rows);
    }

    // the rows of one function and their sum
    pub fn add_with_sum(&mut self, rows: Vec<Row>) {
        let mut sum = Row::new(rows[0].function, "**all of these**", rows[0].against, NOTE);
        sum.is_sum = true;
        rows.iter().for_each(|row| sum.tally.add(&row.tally));
        self.0.extend(rows);
        self.0.push(sum);
    }

    pub fn print(&self) -> bool {
        println!("| Function | Inputs | Compared with | Count | Differed | Worst | At |");
        println!("|---|---|---|---|---|---|---|");
        let (mut count, mut wrong) = (0, 0);
        for row in &self.0 {
            let tally = &row.tally;
            let at = if tally.at.is_empty() { "-" } else { &tally.at };
            println!(
                "| {} | {} | {} | {} | {} | {} | {at} |",
                row.function,
                row.inputs,
                row.against,
                tally.count,
                tally.differed,
                tally.worst(binary)
            );
            if !row.is_sum {
                count += tally.count;
                wrong += tally.wrong;
            }
        }
        println!("\n{count} comparisons, seed {SEED:016X}, {wrong} outside their bounds");
        wrong == 0
    }
}

pub type Family<T> = (&'static str, fn(&mut dyn FnMut(T)));
