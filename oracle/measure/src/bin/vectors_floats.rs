//! Writes the vector file that the program `vectors_floats` replays, the same bytes at each run.
//! sqrt, floor and rem_euclid have Rust's own answers, cbrt has that of exact cubes. The others have
//! the library's, since their recipe is their definition; sin, cos and atan2 have Rust's own beside.
// constants stand as docs/FLOATS.md has them
#![allow(clippy::approx_constant)]

use measure::random::{Random, SEED};
use measure::*;
use std::f64::consts::{FRAC_PI_4, PI, TAU};
use std::ffi::{c_char, CStr};
use std::fmt::Write;

extern "C" {
    // Rust's own sine, cosine and atan2 are the C library's
    fn gnu_get_libc_version() -> *const c_char;
}

#[derive(Default)]
struct Vectors {
    text: String,
    count: u64,
}

// as the proved `bits_of` has it: one pattern for every NaN
fn bits(x: f64) -> u64 {
    if x.is_nan() {
        return 0x7FF8_0000_0000_0000;
    }
    x.to_bits()
}

impl Vectors {
    fn group(&mut self, why: &str) {
        writeln!(self.text, "# {why}").unwrap();
    }

    // a case: what is asked, and what must be answered; `own` is what Rust answers
    fn case(&mut self, name: &str, inputs: &[f64], answer: orbt::Answer, own: Option<f64>) {
        self.text += name;
        for x in inputs {
            // a NaN keeps its pattern, so that other NaNs are tried too
            write!(self.text, " {:016X}", x.to_bits()).unwrap();
        }
        match answer {
            Ok(y) => write!(self.text, " 00 {:016X}", bits(y)).unwrap(),
            Err(number) => write!(self.text, " {number:02}").unwrap(),
        }
        if let (Ok(y), Some(own)) = (answer, own) {
            if !y.is_nan() {
                write!(self.text, " {:016X}", bits(own)).unwrap();
            }
        }
        self.text += "\n";
        self.count += 1;
    }

    fn sqrt(&mut self, x: f64) {
        let answer = if has_no_square_root(x) { Err(12) } else { Ok(x.sqrt()) };
        self.case("sqrt", &[x], answer, None);
    }

    fn cbrt(&mut self, x: f64) {
        let answer = if has_no_cube_root(x) { Err(12) } else { Ok(cube::root(x)) };
        self.case("cbrt", &[x], answer, None);
    }

    fn two_thirds(&mut self, x: f64) {
        self.case("two_thirds", &[x], orbt::two_thirds(x), None);
    }

    fn three_halves(&mut self, x: f64) {
        self.case("three_halves", &[x], orbt::three_halves(x), None);
    }

    fn floor(&mut self, x: f64) {
        self.case("floor", &[x], Ok(x.floor()), None);
    }

    fn rem_euclid(&mut self, x: f64, m: f64) {
        self.case("rem_euclid", &[x, m], Ok(x.rem_euclid(m)), None);
    }

    fn sin_and_cos(&mut self, x: f64) {
        self.case("sin", &[x], orbt::sin(x), Some(x.sin()));
        self.case("cos", &[x], orbt::cos(x), Some(x.cos()));
    }

    fn atan2(&mut self, y: f64, x: f64) {
        self.case("atan2", &[y, x], Ok(orbt::atan2(y, x)), Some(y.atan2(x)));
    }
}

// what is no number, or the last of its kind
const ENDS: [f64; 8] =
    [0.0, 5e-324, 2.225073858507201e-308, f64::MIN_POSITIVE, 1.0, f64::MAX, f64::INFINITY, f64::NAN];

fn both_signs(xs: &[f64], mut f: impl FnMut(f64)) {
    for &x in xs {
        f(x);
        f(-x);
    }
}

// x and the float to each side
fn three(x: f64, mut f: impl FnMut(f64)) {
    f(beside(x, -1));
    f(x);
    f(beside(x, 1));
}

fn square_roots(v: &mut Vectors) {
    let mut r = Random::stream(101);
    v.group("sqrt: zeros, which keep their sign, both ends, and what is refused");
    both_signs(&ENDS, |x| v.sqrt(x));
    both_signs(&[2.0, 0.25, 1e300], |x| v.sqrt(x));
    v.group("sqrt: subnormals, with each number of leading zeros");
    for b in 0..52 {
        v.sqrt(f64::from_bits(1 << b | r.below(1 << b)));
    }
    v.group("sqrt: exact squares, and the float to each side");
    for _ in 0..40 {
        let k = 1.0 + (r.bits() >> 38) as f64;
        three(k * k * 4f64.powi(r.below(400) as i32 - 200), |x| v.sqrt(x));
    }
    v.group("sqrt: beside the squares of numbers half way between two floats");
    for _ in 0..40 {
        let x = half_way_square(r.bits());
        v.sqrt(x);
        v.sqrt(beside(x, 1));
    }
    v.group("sqrt: any positive float, odd and even exponents");
    for _ in 0..100 {
        v.sqrt(r.finite().abs());
    }
}

fn cube_roots(v: &mut Vectors) {
    let mut r = Random::stream(102);
    v.group("cbrt: both ends, and what is refused: zeros too");
    both_signs(&ENDS, |x| v.cbrt(x));
    v.group("cbrt: subnormals, with each number of leading zeros");
    for b in 0..52 {
        v.cbrt(f64::from_bits(1 << b | r.below(1 << b)));
    }
    v.group("cbrt: exact cubes, and the float to each side");
    for _ in 0..60 {
        let k = 1 + r.below(200_000);
        three((k * k * k) as f64 * 8f64.powi(r.below(600) as i32 - 300), |x| v.cbrt(x));
    }
    v.group("cbrt: any positive float, every remainder of the exponent by 3");
    for _ in 0..100 {
        v.cbrt(r.finite().abs());
    }
}

fn powers(v: &mut Vectors) {
    let mut r = Random::stream(103);
    v.group("two_thirds: both ends, and what is refused");
    both_signs(&ENDS, |x| v.two_thirds(x));
    v.group("two_thirds: from 1/4 to 1024, as in an ask");
    for _ in 0..100 {
        v.two_thirds(r.scaled(-2, 10).abs());
    }
    v.group("two_thirds: subnormals, and any positive float");
    for _ in 0..30 {
        v.two_thirds(r.subnormal().abs());
    }
    for _ in 0..70 {
        v.two_thirds(r.finite().abs());
    }
    v.group("three_halves: zeros, both ends, and what is refused");
    both_signs(&ENDS, |x| v.three_halves(x));
    v.group("three_halves: from 1/4 to 1024, as in an ask");
    for _ in 0..100 {
        v.three_halves(r.scaled(-2, 10).abs());
    }
    v.group("three_halves: where it overflows to infinity, and where it underflows to subnormals and 0");
    for _ in 0..20 {
        v.three_halves(r.scaled(680, 686).abs());
        v.three_halves(r.scaled(-720, -676).abs());
    }
    v.group("three_halves: subnormals, and any positive float");
    for _ in 0..20 {
        v.three_halves(r.subnormal().abs());
    }
    for _ in 0..60 {
        v.three_halves(r.finite().abs());
    }
}

fn floors(v: &mut Vectors) {
    let mut r = Random::stream(104);
    v.group("floor: zeros, both ends, infinities and a NaN come back or go to 0 and -1");
    both_signs(&ENDS, |x| v.floor(x));
    v.group("floor: whole numbers and halves, and the float to each side");
    for k in [1.0, 2.0, 3.0, 720.0, 36525.0, 4503599627370495.0] {
        for x in [k, k + 0.5] {
            three(x, |x| both_signs(&[x], |x| v.floor(x)));
        }
    }
    v.group("floor: about 2^52 and 2^53, where fractions end");
    for x in [4503599627370496.0, 9007199254740992.0] {
        three(x, |x| both_signs(&[x], |x| v.floor(x)));
    }
    v.group("floor: from 1/8 to 2^54");
    for _ in 0..120 {
        v.floor(r.scaled(-3, 54));
    }
    v.group("floor: subnormals, and any 64 bits");
    for _ in 0..20 {
        v.floor(r.subnormal());
    }
    for _ in 0..60 {
        v.floor(r.any());
    }
}

fn remainders(v: &mut Vectors) {
    let mut r = Random::stream(105);
    v.group("rem_euclid: -1 by 2π; -1e-20 by 2π is 2π itself");
    for x in [-1.0, -1e-20, -5e-324, 1e-20] {
        v.rem_euclid(x, TAU);
    }
    v.group("rem_euclid: zeros, ends, infinities and NaNs, each with each");
    for x in [0.0, 5e-324, 1.0, f64::MAX, f64::INFINITY, f64::NAN] {
        for m in [0.0, 5e-324, TAU, f64::INFINITY, f64::NAN] {
            v.rem_euclid(x, m);
            v.rem_euclid(-x, m);
            v.rem_euclid(-x, -m);
        }
    }
    v.group("rem_euclid: multiples of 2π by 2π, and the float to each side");
    for k in [1.0, 2.0, 3.0, 7.0, 100.0, 4096.0, 1000003.0] {
        three(k * TAU, |x| both_signs(&[x], |x| v.rem_euclid(x, TAU)));
    }
    v.group("rem_euclid: up to 2^40 by 2π");
    for _ in 0..80 {
        v.rem_euclid(r.scaled(-10, 40), TAU);
    }
    v.group("rem_euclid: a float by another of about its size, of either sign");
    for _ in 0..50 {
        let (m, factor) = (r.scaled(-900, 900), r.scaled(-4, 30));
        v.rem_euclid(m * factor, m);
    }
    v.group("rem_euclid: any 64 bits by any, and subnormals");
    for _ in 0..50 {
        v.rem_euclid(r.any(), r.any());
    }
    for _ in 0..20 {
        v.rem_euclid(r.subnormal(), r.subnormal());
    }
}

fn sines(v: &mut Vectors) {
    let mut r = Random::stream(106);
    v.group("sin, cos: zeros, subnormals, and what is refused");
    both_signs(&ENDS, |x| v.sin_and_cos(x));
    for _ in 0..10 {
        v.sin_and_cos(r.subnormal());
    }
    v.group("sin, cos: the limit, and the float past it, which is refused");
    three(ANGLE_LIMIT, |x| both_signs(&[x], |x| v.sin_and_cos(x)));
    both_signs(&[NEXT_ANGLE_LIMIT], |x| v.sin_and_cos(x));
    v.group("sin, cos: about the last angle without a reduction");
    three(0.7853981633974483, |x| both_signs(&[x], |x| v.sin_and_cos(x)));
    v.group("sin, cos: multiples of π/2, and the float to each side: every quadrant");
    for k in [1.0, 2.0, 3.0, 4.0, 5.0, 1000.0, 65537.0, 667543.0, 667544.0] {
        three(quarter_turns(k), |x| both_signs(&[x], |x| v.sin_and_cos(x)));
    }
    v.group("sin, cos: odd multiples of π/4, and the float to each side");
    for k in [1.5, 2.5, 3.5, 4.5, 1000.5, 333333.5] {
        three(quarter_turns(k), |x| both_signs(&[x], |x| v.sin_and_cos(x)));
    }
    v.group("sin, cos: up to π/4");
    for _ in 0..60 {
        v.sin_and_cos(r.within(FRAC_PI_4));
    }
    v.group("sin, cos: up to 7");
    for _ in 0..80 {
        v.sin_and_cos(r.within(7.0));
    }
    v.group("sin, cos: up to the limit");
    for _ in 0..80 {
        v.sin_and_cos(r.within(ANGLE_LIMIT));
    }
    v.group("sin, cos: any 64 bits");
    for _ in 0..20 {
        v.sin_and_cos(r.any());
    }
}

fn arcs(v: &mut Vectors) {
    let mut r = Random::stream(107);
    v.group("atan2: zeros of both signs, ends and ones, each with each");
    for y in [0.0, 5e-324, 1.0, f64::MAX] {
        for x in [0.0, 5e-324, 1.0, f64::MAX] {
            both_signs(&[y], |y| both_signs(&[x], |x| v.atan2(y, x)));
        }
    }
    v.group("atan2: an infinity or a NaN gives a NaN");
    for z in [f64::INFINITY, f64::NEG_INFINITY, f64::NAN] {
        for a in [0.0, 1.0, f64::INFINITY] {
            v.atan2(z, a);
            v.atan2(a, z);
        }
    }
    v.group("atan2: the diagonals, and the float to each side");
    for _ in 0..10 {
        let x = r.scaled(-500, 500);
        three(x, |y| both_signs(&[y], |y| v.atan2(y, x)));
    }
    v.group("atan2: slopes about tan 15° and tan 30°, both ways");
    for slope in [0.2679491924311227, 0.5773502691896257] {
        three(slope, |y| {
            both_signs(&[y], |y| {
                v.atan2(y, 1.0);
                v.atan2(-1.0, y);
            })
        });
    }
    v.group("atan2: every quadrant");
    for _ in 0..120 {
        v.atan2(r.within(PI), r.within(PI));
    }
    v.group("atan2: subnormals, and any two finite floats: huge ratios");
    for _ in 0..20 {
        v.atan2(r.subnormal(), r.subnormal());
    }
    for _ in 0..40 {
        v.atan2(r.finite(), r.finite());
    }
}

fn main() {
    let mut v = Vectors::default();
    square_roots(&mut v);
    cube_roots(&mut v);
    powers(&mut v);
    floors(&mut v);
    remainders(&mut v);
    sines(&mut v);
    arcs(&mut v);
    // a static string of the C library's
    let libc = unsafe { CStr::from_ptr(gnu_get_libc_version()) }.to_str().unwrap();
    println!("# Answers of the float functions, for the program vectors_floats.");
    println!("# Made by oracle/make_vectors (program vectors_floats of crate measure there), {}, glibc {libc}, seed {SEED:016X}, {} cases.", env!("COMPILER"), v.count);
    println!("# A line: name, inputs, refusal number (00 where there is an answer), answer; floats by their bits, a NaN answered as 7FF8000000000000.");
    println!("# sqrt, floor, rem_euclid: Rust's own answers. cbrt: by exact cubes. two_thirds, three_halves, sin, cos, atan2: the library's, as their");
    println!("# recipe is their definition; after those of the last three, Rust's own, which is at most 2^-45 away.");
    print!("{}", v.text);
}
