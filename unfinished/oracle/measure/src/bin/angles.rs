//! Writes 150,000 angles to the limit with the library's sine and cosine, by their bits, for `exact.py`:
//! drawn evenly, beside multiples of π/2, at the limit, in the first turns, and small, without a reduction.
use measure::random::Random;
use measure::*;

fn main() {
    let mut r = Random::stream(8);
    let one = |x: f64| {
        let (s, c) = orbt::sin_cos(x).expect("within the limit");
        println!("{:016X} {:016X} {:016X}", x.to_bits(), s.to_bits(), c.to_bits());
    };
    for _ in 0..30_000 {
        one(r.within(ANGLE_LIMIT));
        let k = 1 + r.below(recipe::quarters(ANGLE_LIMIT) - 1);
        let x = beside(quarter_turns(k as f64), r.below(5) as i64 - 2);
        one(r.signed(x));
    }
    for k in 0..20_000 {
        one(beside(ANGLE_LIMIT, -k));
        one(r.within(7.0));
    }
    for _ in 0..50_000 {
        one(r.within(0.7853981633974483));
    }
}
