//! Measures the float functions of the proved library against Rust's own, or against exact whole
//! numbers, and prints the table of docs/FLOATS.md. Ends with 1 where a bound is not kept.
// constants stand as docs/FLOATS.md has them
#![allow(clippy::approx_constant)]

mod angles;
mod roots;
mod table;
mod whole;

use measure::tally::verdict;
use std::process::ExitCode;

fn main() -> ExitCode {
    let mut table = table::Table::default();
    roots::square_roots(&mut table);
    roots::cube_roots(&mut table);
    whole::floors(&mut table);
    whole::remainders(&mut table);
    whole::powers(&mut table);
    angles::sines(&mut table);
    angles::arcs(&mut table);
    verdict(table.print())
}
