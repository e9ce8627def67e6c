//! Writes the vector file that the program `vectors_nodes` replays, the same bytes at each run: tables of the
//! resonant published sets, forward and back, with the Rust's state in some of their places, and asks in any
//! order, each with the answer of the Rust reset before it, with the library's floats. Where a step of the Rust
//! gives no number the build is refused 8; a time past the table, or in its opposite direction from 720 on, is
//! refused 23, and counts outside 1 to 8,192 are refused 22, by document 02's words.
use measure::orbits::{published, question, whole, Orbit};
use measure::random::{Random, SEED};
use measure::rust::{Ours, Rust};
use measure::same;
use orbt::orbits::{self, Constants};
use std::fmt::Write;

const MOST: u32 = 8_192;

// as the proved `bits_of` has it: one pattern for every NaN
fn bits(x: f64) -> u64 {
    if x.is_nan() {
        return 0x7FF8_0000_0000_0000;
    }
    x.to_bits()
}

#[derive(Default)]
struct Vectors {
    text: String,
    count: u64,
}

impl Vectors {
    fn name(&mut self, name: &str) {
        self.text += name;
        self.count += 1;
    }

    fn floats(&mut self, xs: &[f64]) {
        for x in xs {
            write!(self.text, " {:016X}", bits(*x)).unwrap();
        }
    }

    fn table(&mut self, c: &Constants, is_back: bool, count: u32, number: u32) {
        self.name("table");
        write!(self.text, " {} {}", c.kind, c.flag).unwrap();
        self.floats(&c.numbers);
        writeln!(self.text, " {} {count:X} {number:02}", is_back as u32).unwrap();
    }

    fn node(&mut self, place: u32, state: &[f64; 3]) {
        self.name("node");
        write!(self.text, " {place:X}").unwrap();
        self.floats(state);
        self.text += "\n";
    }

    fn ask(&mut self, count: u32, is_back: bool, asked: &[f64; 13], number: u32, told: &[f64]) {
        self.name("ask");
        write!(self.text, " {count:X} {}", is_back as u32).unwrap();
        self.floats(asked);
        write!(self.text, " {number:02}").unwrap();
        self.floats(told);
        self.text += "\n";
    }
}

// the Rust's states after 0 to most - 1 steps, up to the first that holds no number
fn states(c: &Constants, is_back: bool, most: u32) -> Vec<[f64; 3]> {
    let rust = sgp4_ours::of_numbers(c.kind, &c.numbers);
    let mut state = Ours::fresh(&rust);
    let mut all = vec![state.unwrap()];
    Ours::give_effects(Some(&[0.0; 10]));
    for k in 1..most {
        let t = 720.0 * k as f64;
        let _ = Ours::ask(&rust, &mut state, [if is_back { -t } else { t }, 0.0, 0.0], false);
        if state.unwrap().iter().any(|x| !x.is_finite()) {
            break;
        }
        all.push(state.unwrap());
    }
    Ours::give_effects(None);
    all
}

// an ask of the Rust reset before it, which the library must answer alike: the question, the refusal and what is told
fn direct(x: &Orbit, c: &Constants, t: f64) -> ([f64; 13], u32, Vec<f64>) {
    let rust = Ours::build(x);
    let mut state = Ours::fresh(&rust);
    let asked = question(&c.numbers, t);
    let reply = Ours::ask(&rust, &mut state, asked, x.flag);
    let asked = whole(asked, &Ours::effects());
    let ours = orbits::ask(c, orbits::fresh(c), &asked);
    let (number, told) = match reply {
        Ok(elements) if elements.iter().all(|x| x.is_finite()) => (0, elements.to_vec()),
        Ok(_) => (ours.number, vec![]),
        Err((number, two)) => (number, two.to_vec()),
    };
    assert!(ours.number == number && told.iter().zip(&ours.elements).all(|(a, b)| same(*a, *b)));
    (asked, number, told)
}

// some places of a table: the first four, and then ever further on, and the last
fn some(count: u32) -> Vec<u32> {
    let mut places: Vec<u32> = (0..4).chain((2..14).map(|k| 3 << (k - 1))).filter(|k| *k < count).collect();
    places.push(count - 1);
    places.dedup();
    places
}

fn main() {
    let sets = std::env::args().nth(1).expect("the file of the published sets");
    let mut v = Vectors::default();
    let mut r = Random::stream(601);
    let mut tables = 0;
    let mut refused = None;
    for set in published(&sets) {
        let x = &set.orbit[(tables / 2) as usize % 8];
        Ours::build(x);
        let c = orbits::build(x.is_afspc_time, x.flag as u32, &x.given(&Ours::rates()))
            .expect("a build is refused");
        if c.kind == 0 {
            refused = Some(c);
            continue;
        }
        for is_back in [false, true] {
            writeln!(v.text, "# {} {}", set.satellite, if is_back { "back" } else { "forward" }).unwrap();
            let nodes = states(&c, is_back, MOST);
            let reached = nodes.len() as u32;
            if reached < MOST {
                v.table(&c, is_back, MOST, 8);
                v.table(&c, is_back, reached + 1, 8);
            }
            let count = if tables % 3 == 2 { reached.min(100 + r.below(900) as u32) } else { reached };
            v.table(&c, is_back, count, 0);
            for place in some(count) {
                v.node(place, &nodes[place as usize]);
            }
            let way = if is_back { -1.0 } else { 1.0 };
            // ten times anywhere in the table, in any order, and the ends of places
            let mut times: Vec<f64> = (0..10).map(|_| way * r.unit() * 720.0 * count as f64).collect();
            let k = 720.0 * (1 + r.below(count as u64 - 1)) as f64;
            times.extend([way * k, way * measure::beside(k, -1), 0.0, -0.0, -way * 719.0]);
            for t in times {
                let (asked, number, told) = direct(x, &c, t);
                v.ask(count, is_back, &asked, number, &told);
            }
            // past the table, in its opposite direction, and under a count that it has not
            for t in [way * 720.0 * count as f64, -way * 720.0] {
                let mut asked = [0.0; 13];
                asked[0] = t;
                v.ask(count, is_back, &asked, 23, &[]);
            }
            v.ask(0, is_back, &[0.0; 13], 22, &[]);
            v.ask(MOST + 1, is_back, &[0.0; 13], 22, &[]);
            // 1 and 2 come first, and 3 of the question
            let mut asked = [0.0; 13];
            asked[0] = f64::NAN;
            v.ask(0, is_back, &asked, 1, &[]);
            asked[0] = 754974721.0;
            v.ask(0, is_back, &asked, 2, &[]);
            asked[0] = 1.0;
            asked[12] = f64::INFINITY;
            v.ask(0, is_back, &asked, 3, &[]);
            v.table(&c, is_back, 0, 22);
            v.table(&c, is_back, MOST + 1, 22);
            tables += 1;
        }
    }
    if let Some(c) = refused {
        writeln!(v.text, "# a non-resonant orbit: 4 before 22, and 3 before 4").unwrap();
        v.table(&c, false, 0, 4);
        v.ask(0, false, &[0.0; 13], 4, &[]);
        let mut odd = c;
        odd.numbers[3] = f64::NAN;
        v.table(&odd, false, 0, 3);
    }
    println!(
        "# Tables of nodes, for the program vectors_nodes.\n\
         # Made by oracle/make_vectors (program vectors_nodes of crate measure there), {}, seed {SEED:016X}, {} cases.\n\
         # {tables} tables of the resonant sets of SGP4-VER.TLE, forward and back. The states in the places are those of crate\n\
         # sgp4 2.4.0 with the library's floats, and so are the answers of the asks, each of a state that was reset before it.\n\
         # Floats by their bits, a NaN as 7FF8000000000000; counts and places in hexadecimal; refusals in two decimal digits, 00\n\
         # where there is an answer. Constants are kind, AFSPC flag and 34 numbers in the order of a store's body. A line:\n\
         #   table  constants, 1 going back, count; refusal\n\
         #   node   place; time, mean motion, longitude, in the last table\n\
         #   ask    count, 1 going back, t p22 p23 and ten numbers; refusal, twelve elements or the two that are carried",
        env!("COMPILER"), v.count
    );
    print!("{}", v.text);
}
