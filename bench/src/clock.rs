//! How long a call takes: the least of many repeats, ours and Rust's in turn on the same inputs.
use std::hint::black_box;
use std::time::Instant;

/// The table is gone through so often, since a core that others share may be slow for seconds.
pub const ROUNDS: usize = 10;

/// Repeats of a row in a round.
pub const REPEATS: usize = 100;

/// A call of two numbers, which are two inputs or one and a number to ignore. It is not inlined, on
/// either side, so that no loop is merged with what it measures.
pub type Call = fn(f64, f64) -> f64;

// Nanoseconds to a call, ours and Rust's: of calls that do not wait for each other, and of calls that do.
struct Row {
    name: String,
    apart: [f64; 2],
    chained: Option<[f64; 2]>,
}

/// The rows in the order of the first round, with the least times of all rounds.
#[derive(Default)]
pub struct Table(Vec<Row>);

fn nanoseconds(calls: usize, work: impl FnOnce() -> f64) -> f64 {
    let start = Instant::now();
    black_box(work());
    start.elapsed().as_nanos() as f64 / calls as f64
}

fn time_apart(call: Call, inputs: &[(f64, f64)]) -> f64 {
    nanoseconds(inputs.len(), || inputs.iter().map(|&(x, y)| call(x, y)).sum())
}

// each answer moves the next input by too little to change it
fn time_chained(call: Call, inputs: &[(f64, f64)]) -> f64 {
    nanoseconds(inputs.len(), || inputs.iter().fold(0.0, |last, &(x, y)| call(x + last, y) * 1e-300))
}

fn lesser(a: [f64; 2], b: [f64; 2]) -> [f64; 2] {
    [a[0].min(b[0]), a[1].min(b[1])]
}

impl Table {
    fn take(&mut self, row: Row) {
        match self.0.iter_mut().find(|old| old.name == row.name) {
            Some(old) => {
                old.apart = lesser(old.apart, row.apart);
                old.chained = old.chained.zip(row.chained).map(|(a, b)| lesser(a, b));
            }
            None => self.0.push(row),
        }
    }

    /// A float function.
    pub fn float(&mut self, name: &str, inputs: &[(f64, f64)], ours: Call, own: Call) {
        let (mut apart, mut chained) = ([f64::MAX; 2], [f64::MAX; 2]);
        for _ in 0..REPEATS {
            for (side, call) in [ours, own].into_iter().enumerate() {
                apart[side] = time_apart(call, inputs).min(apart[side]);
                chained[side] = time_chained(call, inputs).min(chained[side]);
            }
        }
        self.take(Row { name: name.to_string(), apart, chained: Some(chained) });
    }

    /// Any other call, of which ours and Rust's make so many at a time.
    pub fn pair(
        &mut self,
        name: String,
        repeats: usize,
        calls: usize,
        mut ours: impl FnMut() -> f64,
        mut own: impl FnMut() -> f64,
    ) {
        let mut apart = [f64::MAX; 2];
        for _ in 0..repeats {
            apart = lesser(apart, [nanoseconds(calls, &mut ours), nanoseconds(calls, &mut own)]);
        }
        self.take(Row { name, apart, chained: None });
    }

    pub fn print(&self) {
        println!("| Call, ns | ours | Rust | ratio | ours, chained | Rust, chained | ratio |");
        println!("|---|---|---|---|---|---|---|");
        let cells = |[ours, own]: [f64; 2]| format!("{ours:.1} | {own:.1} | {:.2}", ours / own);
        for row in &self.0 {
            let chained = row.chained.map_or("| |".to_string(), cells);
            println!("| {} | {} | {chained} |", row.name, cells(row.apart));
        }
    }
}
