//! Times of the proved library beside those of Rust's own, measured in one run: one table, whose rows
//! have a file to a part.
mod clock;
mod floats;
mod orbits;
mod plain;
mod store;

use clock::{Table, ROUNDS};

type Rows = fn(&mut Table);

fn main() {
    let parts: [(&str, Rows); 3] =
        [("floats", floats::rows), ("orbits", orbits::rows), ("store", store::rows)];
    // the rows of one part alone, where it is named
    let named = std::env::args().nth(1);
    let mut table = Table::default();
    for _ in 0..ROUNDS {
        for (name, rows) in parts {
            if named.as_deref().is_none_or(|named| named == name) {
                rows(&mut table);
            }
        }
    }
    table.print();
}
