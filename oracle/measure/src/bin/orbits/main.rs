//! Runs the calls on orbits of the proved library beside the unchanged sgp4: with the library's floats,
//! which must give equal bits, and with Rust's own, which must give elements within 1e-8. Prints one
//! table, and ends with 1 where a number outside the list of thresholds differs by more.
mod equal;
mod near;
mod table;

use measure::orbits::published;
use measure::tally::verdict;
use std::process::ExitCode;

fn main() -> ExitCode {
    // the published sets, where the file is
    let sets = match std::env::args().nth(1) {
        Some(path) => published(&path),
        None => {
            eprintln!("no published sets: python3-sgp4 is not installed, and ORBT_SETS names none");
            vec![]
        }
    };
    let mut table = table::Table::default();
    equal::compare(&mut table, &sets);
    near::compare(&mut table, &sets);
    verdict(table.print())
}
