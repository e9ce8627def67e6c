//! Writes the vector file that the program `vectors_orbit` replays, the same bytes at each run. What the
//! Rust answers, with the library's floats, is its answer; where it panics, hangs or answers a NaN, the
//! number is that of document 01's table. The library is asked too, and must say the same.
use measure::orbits::{question, whole, Choice, Orbit, ECCENTRICITIES, MOTIONS};
use measure::random::{Random, SEED};
use measure::rust::{Ours, Rust};
use measure::{beside, same, ANGLE_LIMIT};
use orbt::orbits::{self, Constants, State};
use std::fmt::Write;

const LIMIT: f64 = 754974720.0;

// as the proved `bits_of` has it: one pattern for every NaN
fn bits(x: f64) -> u64 {
    if x.is_nan() {
        return 0x7FF8_0000_0000_0000;
    }
    x.to_bits()
}

#[derive(Default)]
struct Vectors {
    text: String,
    count: u64,
    table: u64,
}

// who says what is expected
#[derive(Clone, Copy, PartialEq)]
enum By {
    Rust,
    Table(u32),
}
use By::{Rust as R, Table as T};

impl Vectors {
    fn group(&mut self, why: &str) {
        writeln!(self.text, "# {why}").unwrap();
    }

    fn name(&mut self, name: &str) {
        self.text += name;
        self.count += 1;
    }

    fn floats(&mut self, xs: &[f64]) {
        for x in xs {
            // a NaN that is given keeps its pattern, so that others are tried too
            write!(self.text, " {:016X}", x.to_bits()).unwrap();
        }
    }

    fn told(&mut self, xs: &[f64]) {
        for x in xs {
            write!(self.text, " {:016X}", bits(*x)).unwrap();
        }
    }

    fn number(&mut self, number: u32) {
        write!(self.text, " {number:02}").unwrap();
    }

    fn end(&mut self) {
        self.text += "\n";
    }

    fn class(&mut self, n: f64, e: f64) {
        let mut x = Random::stream(501).orbit();
        (x.elements[5], x.elements[2]) = (n, e);
        let (kind, _) = Ours::numbers(&Ours::build(&x));
        assert!(orbits::class(n, e) == kind);
        self.name("class");
        self.floats(&[n, e]);
        writeln!(self.text, " {kind}").unwrap();
    }

    fn sidereal(&mut self, is_afspc: bool, epoch: f64, by: By) {
        self.name("sidereal");
        write!(self.text, " {}", is_afspc as u32).unwrap();
        self.floats(&[epoch]);
        let ours = orbits::sidereal_time(is_afspc, epoch);
        match by {
            R => {
                let theta = Ours::sidereal_time(is_afspc, epoch);
                assert!(ours.is_ok_and(|x| same(x, theta)) && theta.is_finite());
                self.number(0);
                self.told(&[theta]);
            }
            T(number) => {
                assert!(ours == Err(number));
                self.refusal(number);
            }
        }
        self.end();
    }

    fn refusal(&mut self, number: u32) {
        self.table += 1;
        self.number(number);
    }

    fn geometry(&mut self, node: f64, epoch: f64, by: By) {
        self.name("geometry");
        self.floats(&[node, epoch]);
        let ours = orbits::geometry(node, epoch);
        match by {
            R => {
                let mut x = Random::stream(501).orbit();
                (x.elements[1], x.epoch) = (node, epoch);
                Ours::build(&x);
                let bodies = Ours::bodies();
                assert!(ours.unwrap().iter().zip(&bodies).all(|(a, b)| same(*a, *b)));
                self.number(0);
                self.told(&bodies);
            }
            T(number) => {
                assert!(ours == Err(number));
                self.refusal(number);
            }
        }
        self.end();
    }

    // the 31 numbers as given; the Rust has them for third_body's rates too
    fn build(&mut self, is_afspc: bool, flag: u32, given: &[f64; 31], by: By) -> Option<Constants> {
        self.name("build");
        write!(self.text, " {} {flag}", is_afspc as u32).unwrap();
        self.floats(given);
        let ours = orbits::build(is_afspc, flag, given);
        let built = match by {
            R => {
                let rates: &[f64; 10] = given[21..].try_into().unwrap();
                sgp4_ours::give_rates(rates);
                let numbers: &[f64; 21] = given[..21].try_into().unwrap();
                let (kind, numbers) = Ours::numbers(&sgp4_ours::build(is_afspc, numbers, 1.0, 1.0));
                sgp4_ours::give_nothing();
                let ours = ours.unwrap_or_else(|number| panic!("a build is refused {number}"));
                assert!(ours.kind == kind && ours.numbers.iter().zip(&numbers).all(|(a, b)| same(*a, *b)));
                self.number(0);
                write!(self.text, " {kind}").unwrap();
                self.told(&numbers);
                Some(ours)
            }
            T(number) => {
                assert!(ours.is_err_and(|n| n == number));
                self.refusal(number);
                None
            }
        };
        self.end();
        built
    }

    fn constants(&mut self, c: &Constants) {
        write!(self.text, " {} {}", c.kind, c.flag).unwrap();
        self.floats(&c.numbers);
    }

    fn state(&mut self, state: State, is_told: bool) {
        write!(self.text, " {}", state.is_some() as u32).unwrap();
        let numbers = state.unwrap_or([0.0; 3]);
        if is_told {
            self.told(&numbers);
        } else {
            self.floats(&numbers);
        }
    }

    fn fresh(&mut self, c: &Constants) -> State {
        let state = Ours::fresh(&sgp4_ours::of_numbers(c.kind, &c.numbers));
        assert!(alike(orbits::fresh(c), state));
        self.name("fresh");
        self.constants(c);
        self.state(state, true);
        self.end();
        state
    }

    // `expected` where the Rust cannot be asked
    fn step(
        &mut self,
        c: &Constants,
        is_back: bool,
        state: [f64; 3],
        by: By,
        expected: Option<[f64; 3]>,
    ) -> [f64; 3] {
        self.name("step");
        self.constants(c);
        write!(self.text, " {}", is_back as u32).unwrap();
        self.floats(&state);
        let (number, ours) = orbits::step(c, is_back, state);
        let expected = match by {
            R => {
                let t = state[0] + if is_back { -720.0 } else { 720.0 };
                expected.unwrap_or_else(|| {
                    let mut moved = Some(state);
                    Ours::give_effects(Some(&[0.0; 10]));
                    let _ = Ours::ask(
                        &sgp4_ours::of_numbers(c.kind, &c.numbers),
                        &mut moved,
                        [t, 0.0, 0.0],
                        false,
                    );
                    Ours::give_effects(None);
                    moved.unwrap()
                })
            }
            T(_) => state,
        };
        let told = if let T(number) = by { number } else { 0 };
        assert!(
            number == told && alike(Some(ours), Some(expected)),
            "step {number} {told} {ours:?} {expected:?}"
        );
        if told == 0 {
            self.number(0);
        } else {
            self.refusal(told);
        }
        self.told(&expected);
        self.end();
        expected
    }

    fn ask(&mut self, c: &Constants, state: State, asked: &[f64; 13], by: By) -> State {
        self.name("ask");
        self.constants(c);
        self.state(state, false);
        self.floats(asked);
        let ours = orbits::ask(c, state, asked);
        let told = if let T(number) = by { number } else { 0 };
        if (1..=8).contains(&told) {
            assert!(
                ours.number == told && ours.steps == 0 && alike(ours.state, state),
                "{} for {told}",
                ours.number
            );
            self.refusal(told);
            write!(self.text, " {:08X}", 0).unwrap();
            self.state(state, true);
            self.end();
            return state;
        }
        let mut moved = state;
        Ours::give_effects(Some(asked[3..].try_into().unwrap()));
        let rust = sgp4_ours::of_numbers(c.kind, &c.numbers);
        let reply = Ours::ask(&rust, &mut moved, [asked[0], asked[1], asked[2]], c.flag == 1);
        Ours::give_effects(None);
        let steps = match (state, moved) {
            (Some(old), Some(new)) => ((new[0] - old[0]).abs() / 720.0) as u32,
            _ => 0,
        };
        let number = match (&reply, by) {
            (Ok(elements), T(number)) => {
                assert!(elements.iter().any(|x| !x.is_finite()), "the Rust answers");
                number
            }
            (Ok(elements), R) => {
                assert!(elements.iter().all(|x| x.is_finite()), "the Rust has no number {elements:?}");
                0
            }
            (Err((number, _)), _) => *number,
        };
        assert!(by == R || number == told, "the Rust refuses {number} for {told}");
        assert!(ours.number == number, "{} for {number}", ours.number);
        assert!(ours.steps == steps && alike(ours.state, moved));
        if matches!(by, T(_)) {
            self.refusal(number);
        } else {
            self.number(number);
        }
        write!(self.text, " {steps:08X}").unwrap();
        self.state(moved, true);
        let answer = match &reply {
            Ok(elements) if number == 0 => &elements[..],
            Err((_, two)) => &two[..],
            _ => &[],
        };
        assert!(answer.iter().zip(&ours.elements).all(|(a, b)| same(*a, *b)));
        self.told(answer);
        self.end();
        moved
    }
}

fn alike(a: State, b: State) -> bool {
    match (a, b) {
        (Some(a), Some(b)) => a.iter().zip(&b).all(|(x, y)| same(*x, *y)),
        (None, None) => true,
        _ => false,
    }
}

// x and the float to each side
fn three(x: f64) -> [f64; 3] {
    [-1, 0, 1].map(|k| beside(x, k))
}

// an orbit of this kind, away from every threshold
fn drawn(r: &mut Random, kind: u32) -> (Orbit, Constants) {
    loop {
        let x = r.orbit();
        let [i, _, e, _, _, n] = x.elements;
        let is_at = |x: f64, limits: &[f64]| limits.iter().any(|limit| (x - limit).abs() < 1e-6);
        if is_at(n, &MOTIONS) || is_at(e, &ECCENTRICITIES) || is_at(i, &[0.2]) {
            continue;
        }
        Ours::build(&x);
        let c = orbits::build(x.is_afspc_time, x.flag as u32, &x.given(&Ours::rates())).unwrap();
        if c.kind == kind {
            return (x, c);
        }
    }
}

// the question at t with the Rust's own ten numbers
fn asked_at(x: &Orbit, c: &Constants, t: f64) -> [f64; 13] {
    let built = Ours::build(x);
    let mut state = Ours::fresh(&built);
    let asked = question(&c.numbers, t);
    let _ = Ours::ask(&built, &mut state, asked, x.flag);
    whole(asked, &Ours::effects())
}

// a resonant orbit that stands still: no rate, no coefficient, lambda where it is
fn still(kind: u32) -> Constants {
    let (_, mut c) = drawn(&mut Random::stream(502), kind);
    for place in 11..20 {
        c.numbers[place] = 0.0;
    }
    for place in 23..34 {
        c.numbers[place] = 0.0;
    }
    c.numbers[7] = 0.25;
    c.numbers[21] = -c.numbers[10];
    c
}

fn plain(t: f64) -> [f64; 13] {
    let mut q = [0.0; 13];
    (q[0], q[1], q[2]) = (t, 1.0, 2.0);
    q
}

fn with(q: [f64; 13], place: usize, x: f64) -> [f64; 13] {
    let mut q = q;
    q[place] = x;
    q
}

fn changed(c: &Constants, places: &[(usize, f64)]) -> Constants {
    let mut c = *c;
    for &(place, x) in places {
        c.numbers[place] = x;
    }
    c
}

const ODD: [f64; 3] = [f64::NAN, f64::INFINITY, f64::NEG_INFINITY];

fn classes(v: &mut Vectors) {
    v.group("class: (j) n = 0.0034906585 is non-resonant; (k) n = 8.26e-3 and e = 0.5 are half-day");
    v.class(0.0034906585, 0.1);
    v.class(8.26e-3, 0.5);
    v.group("class: each limit of n and the float to each side, below, at and above e = 0.5");
    for n in MOTIONS {
        for n in three(n) {
            for e in three(0.5) {
                v.class(n, e);
            }
        }
    }
    v.group("class: NaNs and infinities; an infinite e in the half-day range is half-day");
    for x in ODD {
        v.class(x, 0.6);
        v.class(0.009, x);
        v.class(0.004, x);
    }
}

fn sidereal_times(v: &mut Vectors) {
    let mut r = Random::stream(511);
    v.group("sidereal: 0 the IAU's, 1 the AFSPC's, within 60 years");
    for _ in 0..20 {
        let epoch = r.within(60.0);
        v.sidereal(false, epoch, R);
        v.sidereal(true, epoch, R);
    }
    v.group("sidereal: zeros, whole days by the AFSPC's floor, far epochs");
    for epoch in [0.0, -0.0, -30.0, 1.0 / 365.25, 1e6, -1e6] {
        v.sidereal(false, epoch, R);
        v.sidereal(true, epoch, R);
    }
    v.group("sidereal: an epoch that is no number is refused 3");
    for x in ODD {
        v.sidereal(false, x, T(3));
        v.sidereal(true, x, T(3));
    }
    v.group("sidereal: 13 where the IAU's overflows at 1e150 and the AFSPC's at 1e160; at 1e100 neither");
    v.sidereal(false, 1e100, R);
    v.sidereal(true, 1e100, R);
    v.sidereal(false, 1e150, T(13));
    v.sidereal(true, 1e150, R);
    v.sidereal(true, 1e160, T(13));
}

fn geometries(v: &mut Vectors) {
    let mut r = Random::stream(521);
    v.group("geometry: nodes in a turn, epochs within 60 years");
    for _ in 0..30 {
        v.geometry(r.from_to(0.0, 6.3), r.within(60.0), R);
    }
    v.group("geometry: a node or an epoch that is no number is refused 3");
    for x in ODD {
        v.geometry(x, 1.0, T(3));
        v.geometry(1.0, x, T(3));
    }
    v.group("geometry: the node at the limit of angles, and past it refused 9");
    for node in [ANGLE_LIMIT, -ANGLE_LIMIT] {
        v.geometry(node, 20.0, R);
        v.geometry(beside(node, 1), 20.0, T(9));
    }
    v.group("geometry: the Moon's perigee within the limit of angles, and past it; and days that overflow");
    v.geometry(1.0, 1.4763e6, R);
    v.geometry(1.0, -1.4763e6, R);
    v.geometry(1.0, 1.4768e6, T(9));
    v.geometry(1.0, -1.4768e6, T(9));
    v.geometry(1.0, 1e306, T(9));
}

fn builds(v: &mut Vectors) {
    let mut r = Random::stream(531);
    v.group("build: each kind, of orbits drawn at random, with the Rust's rates");
    for k in 0..45 {
        let (x, _) = drawn(&mut r, k % 3);
        Ours::build(&x);
        v.build(x.is_afspc_time, x.flag as u32, &x.given(&Ours::rates()), R);
    }
    v.group("build: half-day, e at 0.5, 0.65, 0.7, 0.715 and the float to each side");
    let (half, _) = drawn(&mut Random::stream(532), 2);
    for e in ECCENTRICITIES {
        for e in three(e) {
            let mut elements = half.elements;
            elements[2] = e;
            let x = Orbit::new(Choice(1), elements, half.epoch, 1e-4);
            Ours::build(&x);
            v.build(x.is_afspc_time, x.flag as u32, &x.given(&Ours::rates()), R);
        }
    }
    v.group("build: n at the limits of the classes and the float to each side");
    for n in MOTIONS {
        for n in three(n) {
            let mut elements = half.elements;
            elements[5] = n;
            let x = Orbit::new(Choice(6), elements, half.epoch, 1e-4);
            Ours::build(&x);
            v.build(x.is_afspc_time, x.flag as u32, &x.given(&Ours::rates()), R);
        }
    }
    Ours::build(&half);
    let given = half.given(&Ours::rates());
    let but = |places: &[(usize, f64)]| {
        let mut given = given;
        for &(place, x) in places {
            given[place] = x;
        }
        given
    };
    v.group("build: 3 where any one of the 31 numbers is none");
    for place in 0..31 {
        v.build(false, 0, &but(&[(place, ODD[place % 3])]), T(3));
    }
    v.group("build: 9 where the inclination is past the limit of angles; a non-resonant orbit takes no sine of it");
    v.build(false, 0, &but(&[(5, ANGLE_LIMIT)]), R);
    v.build(false, 0, &but(&[(5, beside(ANGLE_LIMIT, 1))]), T(9));
    v.build(false, 0, &but(&[(5, -beside(ANGLE_LIMIT, 1)), (10, 0.004)]), T(9));
    v.build(false, 0, &but(&[(5, beside(ANGLE_LIMIT, 1)), (10, 0.006)]), R);
    v.group("build: 13 where the sidereal time overflows, and only for a resonant orbit");
    v.build(false, 1, &but(&[(11, 1e150)]), T(13));
    v.build(true, 1, &but(&[(11, 1e150)]), R);
    v.build(true, 1, &but(&[(11, 1e160)]), T(13));
    v.build(false, 1, &but(&[(11, 1e150), (10, 0.006)]), R);
    v.group("build: 13 where 1 / a0 or a sum overflows, and neighbours that do not");
    v.build(true, 0, &but(&[(13, 1e-160)]), T(13));
    v.build(true, 0, &but(&[(13, 1e-50)]), R);
    v.build(true, 0, &but(&[(19, f64::MAX), (22, f64::MAX)]), T(13));
    v.build(true, 0, &but(&[(19, f64::MAX), (22, 0.0), (27, 0.0), (10, 0.006)]), R);
    v.build(true, 0, &but(&[(23, f64::MAX), (28, f64::MAX)]), T(13));
    v.build(true, 0, &but(&[(23, f64::MAX), (28, -f64::MAX)]), R);
    v.group("build: 9 comes before 13");
    v.build(false, 0, &but(&[(5, 2e6), (11, 1e150)]), T(9));
}

fn steps(v: &mut Vectors) {
    let mut r = Random::stream(541);
    v.group("fresh: a state of each resonant kind, and none of the other");
    for kind in [0, 1, 2, 0, 1, 2] {
        let (_, c) = drawn(&mut r, kind);
        v.fresh(&c);
    }
    v.group("step: four steps on from a fresh state, forward and back, one-day and half-day");
    for k in 0..16 {
        let (_, c) = drawn(&mut r, 1 + k % 2);
        let mut state = orbits::fresh(&c).unwrap();
        for _ in 0..4 {
            state = v.step(&c, k % 4 > 1, state, R, None);
        }
    }
    v.group("step: past the limit of times, which the next call refuses");
    let c = still(1);
    let at = |t: f64| [t, c.numbers[10], 1.0];
    v.step(&c, false, at(LIMIT), R, None);
    v.step(&c, false, at(LIMIT + 720.0), T(6), None);
    v.step(&c, true, at(-LIMIT), R, None);
    v.step(&c, true, at(-LIMIT - 720.0), T(6), None);
    v.group(
        "step: against the state's direction; the Rust panics, but its one-day rates do not look at the time",
    );
    let (_, c) = drawn(&mut r, 1);
    let mut state = orbits::fresh(&c).unwrap();
    for _ in 0..2 {
        state = orbits::step(&c, false, state).1;
    }
    let mut back = Some([0.0, state[1], state[2]]);
    Ours::give_effects(Some(&[0.0; 10]));
    let _ = Ours::ask(&sgp4_ours::of_numbers(1, &c.numbers), &mut back, [-720.0, 0.0, 0.0], false);
    Ours::give_effects(None);
    let back = back.unwrap();
    v.step(&c, true, state, R, Some([720.0, back[1], back[2]]));
    v.group("step: 6 where the state's time is -0.0, no multiple of 720, or beyond the limit");
    let c = still(2);
    let at = |t: f64| [t, c.numbers[10], 1.0];
    for t in [-0.0, 1.0, 360.0, 719.0, 721.0, beside(720.0, 1), beside(-720.0, -1), 5e-324, 1e9] {
        v.step(&c, false, at(t), T(6), None);
    }
    v.group("step: 4 where the orbit is non-resonant; 3 comes first");
    let (_, plain) = drawn(&mut r, 0);
    v.step(&plain, false, [0.0, 0.004, 1.0], T(4), None);
    v.step(&plain, true, [1.0, 0.004, 1.0], T(4), None);
    v.step(&plain, false, [f64::NAN, 0.004, 1.0], T(3), None);
    v.group("step: 3 where a number of the state or of the constants is none");
    for place in 0..3 {
        let mut state = at(720.0);
        state[place] = ODD[place];
        v.step(&c, false, state, T(3), None);
    }
    for place in [0, 7, 19, 20, 22, 23, 33] {
        v.step(&changed(&c, &[(place, ODD[place % 3])]), false, at(0.0), T(3), None);
    }
    v.group("step: 8 where an angle passes its limit, and the last float before that");
    let c = changed(&still(1), &[(23, 1e-9), (24, 1e-9), (25, 1e-9)]);
    let (inside, outside) = last_lambda();
    v.step(&c, false, [0.0, c.numbers[10], inside], R, None);
    v.step(&c, false, [0.0, c.numbers[10], outside], T(8), None);
    v.step(&c, true, [-720.0, c.numbers[10], -outside - 1.0], T(8), None);
    v.group("step: 8 where a rate or a stepped value overflows");
    v.step(&changed(&c, &[(23, 1e308), (24, 1e308), (25, 1e308)]), false, [0.0, 0.004, 1.3], T(8), None);
    v.step(&c, false, [0.0, 1e306, 1.0], T(8), None);
    v.step(&c, false, [0.0, 1e300, 1.0], R, None);
}

// the greatest lambda whose third one-day angle is within the limit, and the next float
fn last_lambda() -> (f64, f64) {
    let mut x = ANGLE_LIMIT / 3.0 + 0.37;
    while 3.0 * (beside(x, 1) - 0.37448087) <= ANGLE_LIMIT {
        x = beside(x, 1);
        if 3.0 * (x + 1e-4 - 0.37448087) <= ANGLE_LIMIT {
            x += 1e-4;
        }
    }
    (x, beside(x, 1))
}

fn examples(v: &mut Vectors) {
    let mut r = Random::stream(551);
    for kind in [1, 2] {
        let (x, c) = drawn(&mut r, kind);
        let fresh = orbits::fresh(&c);
        v.group("ask: (a) to (e), each from a fresh state: 0, 719, 720, 1440, -720");
        for t in [0.0, 719.0, 720.0, 1440.0, -720.0] {
            v.ask(&c, fresh, &asked_at(&x, &c, t), R);
        }
        v.group("ask: the neighbours of (c): the float before 720 makes no step, the one after it one");
        v.ask(&c, fresh, &asked_at(&x, &c, beside(720.0, -1)), R);
        let state = v.ask(&c, fresh, &asked_at(&x, &c, beside(720.0, 1)), R);
        v.group("ask: a run: state at 720; (g) 1000 then 800, no step; (h) 719 is refused 7; (i) -0.0 is refused 7");
        for t in [1000.0, 800.0] {
            v.ask(&c, state, &asked_at(&x, &c, t), R);
        }
        v.ask(&c, state, &asked_at(&x, &c, 719.0), T(7));
        v.ask(&c, state, &asked_at(&x, &c, -0.0), T(7));
        v.group("ask: the run goes on: +0.0 and the float before 720 are refused 7, 720 itself is answered");
        v.ask(&c, state, &asked_at(&x, &c, 0.0), T(7));
        v.ask(&c, state, &asked_at(&x, &c, beside(720.0, -1)), T(7));
        v.ask(&c, state, &asked_at(&x, &c, 720.0), R);
        v.ask(&c, state, &asked_at(&x, &c, -1000.0), T(7));
        v.group("ask: the same going back");
        let state = v.ask(&c, fresh, &asked_at(&x, &c, -725.0), R);
        v.ask(&c, state, &asked_at(&x, &c, -0.0), T(7));
        v.ask(&c, state, &asked_at(&x, &c, 0.0), T(7));
        v.ask(&c, state, &asked_at(&x, &c, 800.0), T(7));
        v.ask(&c, state, &asked_at(&x, &c, -719.0), T(7));
        v.ask(&c, state, &asked_at(&x, &c, -720.0), R);
        v.group("ask: -0.0 at a fresh state is answered");
        v.ask(&c, fresh, &asked_at(&x, &c, -0.0), R);
    }
    v.group("ask: (f) 754974720 makes 1048576 steps, an orbit that stands still; past it refused 2");
    let c = still(1);
    let fresh = orbits::fresh(&c);
    let far = v.ask(&c, fresh, &plain(LIMIT), R);
    v.ask(&c, fresh, &plain(-LIMIT), R);
    for t in [beside(LIMIT, 1), LIMIT + 1.0, -LIMIT - 1.0, f64::MAX] {
        v.ask(&c, fresh, &plain(t), T(2));
    }
    v.ask(&c, far, &plain(LIMIT), R);
    v.ask(&c, far, &plain(beside(LIMIT, -1)), T(7));
    v.group("ask: 2 for a non-resonant orbit too, and at the limit an answer");
    let (_, n) = drawn(&mut r, 0);
    let n = changed(&n, &(11..20).map(|place| (place, 0.0)).collect::<Vec<_>>());
    v.ask(&n, None, &plain(LIMIT), R);
    v.ask(&n, None, &plain(beside(LIMIT, 1)), T(2));
    v.group("ask: 1 where the time is no number; the Rust would step for ever");
    for x in ODD {
        v.ask(&c, fresh, &plain(x), T(1));
        v.ask(&n, None, &plain(x), T(1));
    }
    v.group("ask: (l) p31 = -0.001 is answered, the float below it refused 10; 1.0 refused 10, the float below it answered");
    for e in [-0.001, beside(-0.001, -1), beside(-0.001, 1), 1.0, beside(1.0, -1)] {
        v.ask(&changed(&c, &[(7, e)]), fresh, &plain(100.0), R);
        v.ask(&changed(&n, &[(7, e)]), None, &plain(100.0), R);
    }
}

fn refusals(v: &mut Vectors) {
    let mut r = Random::stream(561);
    let (x, half) = drawn(&mut r, 2);
    let (one, day) = drawn(&mut r, 1);
    let (other, non) = drawn(&mut r, 0);
    let q = asked_at(&x, &half, 1500.0);
    let fresh = orbits::fresh(&half);
    v.group("ask: 3 where any number of the constants is none, used or not");
    for place in 0..34 {
        v.ask(&changed(&half, &[(place, ODD[place % 3])]), fresh, &q, T(3));
    }
    v.group("ask: 3 where a number of the question or of the state is none");
    for place in 1..13 {
        v.ask(&half, fresh, &with(q, place, ODD[place % 3]), T(3));
    }
    for place in 0..3 {
        let mut state = fresh.unwrap();
        state[place] = ODD[place];
        v.ask(&half, Some(state), &q, T(3));
    }
    v.group("ask: places that the kind has not are not looked at");
    v.ask(&changed(&non, &[(21, f64::NAN), (33, f64::INFINITY)]), None, &asked_at(&other, &non, 1500.0), R);
    v.ask(&changed(&day, &[(26, f64::NAN)]), orbits::fresh(&day), &asked_at(&one, &day, 1500.0), R);
    v.group("ask: 4 where there is a state and the orbit is non-resonant; 5 where there is none and it is resonant; 3 before both");
    v.ask(&non, fresh, &asked_at(&other, &non, 1500.0), T(4));
    v.ask(&non, None, &asked_at(&other, &non, 1500.0), R);
    v.ask(&half, None, &q, T(5));
    v.ask(&day, None, &asked_at(&one, &day, 1500.0), T(5));
    v.ask(&non, Some([f64::NAN, 1.0, 1.0]), &asked_at(&other, &non, 1500.0), T(3));
    v.ask(&changed(&day, &[(0, f64::NAN)]), None, &q, T(3));
    v.group("ask: 6 where the state's time is -0.0, no multiple of 720, or beyond the limit; 4 before it, 7 after");
    let [_, n, l] = fresh.unwrap();
    for t in [-0.0, 1.0, 360.0, 719.0, 721.0, beside(720.0, -1), 5e-324, LIMIT + 720.0, -LIMIT - 720.0] {
        v.ask(&half, Some([t, n, l]), &q, T(6));
    }
    v.ask(&non, Some([1.0, n, l]), &q, T(4));
    v.ask(&half, Some([-1.0, n, l]), &q, T(6));
    v.group("ask: 7, and its neighbours at 1440");
    for (t, by) in [(2160.0, T(7)), (1440.0, R), (720.0, R), (-720.0, T(7))] {
        v.ask(&half, Some([t, n, l]), &q, by);
    }
    v.ask(&half, Some([1440.0, n, l]), &asked_at(&x, &half, 1440.0), R);
    v.ask(&half, Some([1440.0, n, l]), &asked_at(&x, &half, beside(1440.0, -1)), T(7));

    v.group("ask: 8 where an angle of the first state passes its limit, and the last float before that");
    let c = still(1);
    let (inside, outside) = last_lambda();
    let at = |t: f64, l: f64| Some([t, c.numbers[10], l]);
    v.ask(&c, at(0.0, inside), &plain(100.0), R);
    v.ask(&c, at(0.0, outside), &plain(100.0), T(8));
    v.ask(&c, at(720.0, outside), &plain(1000.0), T(8));
    v.ask(&c, at(720.0, outside), &plain(5000.0), T(8));
    v.group("ask: 8 after good steps: the state as given and no step; one step less is answered");
    let moving = changed(&c, &[(21, 1.0)]);
    v.ask(&moving, at(0.0, inside - 2000.0), &plain(1500.0), R);
    v.ask(&moving, at(0.0, inside - 2000.0), &plain(2200.0), T(8));
    v.ask(&moving, at(0.0, -inside + 2000.0), &plain(-1500.0), R);
    v.ask(&moving, at(0.0, -inside + 2000.0), &plain(-2900.0), T(8));
    v.group("ask: 8 where a rate or a stepped value overflows; without the step it is answered");
    v.ask(&changed(&c, &[(23, 1e308), (24, 1e308), (25, 1e308)]), at(0.0, 1.3), &plain(10.0), T(8));
    v.ask(&c, Some([0.0, 1e306, 1.0]), &plain(720.0), T(8));
    v.ask(&c, Some([0.0, 1e20, 1.0]), &plain(719.0), R);
    v.group("ask: 8 in a half-day orbit by its perigee's angle");
    let h = still(2);
    v.ask(&changed(&h, &[(8, 500000.0)]), Some([0.0, h.numbers[10], 1.0]), &plain(10.0), R);
    v.ask(&changed(&h, &[(8, 600000.0)]), Some([0.0, h.numbers[10], 1.0]), &plain(10.0), T(8));

    v.group("ask: 9 where the inclination is past the limit of angles: the state has moved on");
    let state = orbits::fresh(&c);
    let flat = changed(&non, &(11..20).map(|place| (place, 0.0)).collect::<Vec<_>>());
    for i in [ANGLE_LIMIT, -ANGLE_LIMIT] {
        v.ask(&changed(&c, &[(5, i)]), state, &plain(1500.0), R);
        v.ask(&changed(&c, &[(5, beside(i, 1))]), state, &plain(1500.0), T(9));
        v.ask(&changed(&flat, &[(5, beside(i, 1))]), None, &plain(1500.0), T(9));
    }
    v.group("ask: 9 where p22 is past the limit and I below 0.2; at 0.2 its sine is not taken");
    for (i, p22, by) in [
        (beside(0.2, -1), ANGLE_LIMIT, R),
        (beside(0.2, -1), beside(ANGLE_LIMIT, 1), T(9)),
        (0.2, beside(ANGLE_LIMIT, 1), R),
        (0.1, -beside(ANGLE_LIMIT, 1), T(9)),
        (0.1, -ANGLE_LIMIT, R),
    ] {
        v.ask(&changed(&c, &[(5, i)]), state, &with(plain(1500.0), 1, p22), by);
    }
    v.group("ask: 9 comes before 10");
    v.ask(&changed(&c, &[(5, 2e6), (7, 0.5)]), state, &plain(10.0), T(9));

    v.group("ask: 10 after steps: the state has moved on; p31 that is no number is carried so");
    v.ask(&changed(&c, &[(7, 1.5)]), state, &plain(5000.0), R);
    v.ask(&changed(&c, &[(15, 1e-3)]), state, &plain(5000.0), R);
    v.ask(&changed(&c, &[(15, 1e-3)]), state, &plain(-5000.0), R);
    v.ask(&changed(&c, &[(18, 1e308), (15, 1e308)]), state, &plain(1000.0), R);
    v.ask(&changed(&c, &[(18, 1e308)]), state, &plain(1000.0), R);
    v.group("ask: 11 where the perturbed eccentricity is below 0 or above 1; both ends are answered");
    let quarter = |e: f64| with(plain(1500.0), 3, e);
    for e in [-0.25, beside(-0.25, 1), 0.75, 0.7500000000000002, 1.0, -1.0] {
        v.ask(&c, state, &quarter(e), R);
    }
    v.ask(&changed(&c, &[(7, -0.0005)]), state, &quarter(0.0), R);
    v.ask(&changed(&c, &[(7, -0.0005)]), state, &quarter(-2e-6), R);
    v.ask(&changed(&c, &[(7, 1.0e-6)]), state, &quarter(-1e-6), R);
    v.group("ask: 12 where the power's base is not positive and finite: 10 and 11 come first");
    for n in [-0.005, 0.0, 5e-324] {
        v.ask(&c, Some([0.0, n, 1.0]), &plain(0.0), T(12));
    }
    v.ask(&c, Some([0.0, -0.005, 1.0]), &quarter(0.9), R);
    v.ask(&changed(&c, &[(7, 2.0)]), Some([0.0, -0.005, 1.0]), &plain(0.0), R);
    v.ask(&c, Some([0.0, 1e-5, 1.0]), &plain(0.0), R);
    v.group("ask: 12 where a is 0, negative, or so small that the mean motion is infinite; a large a has mean motion 0");
    v.ask(&changed(&c, &[(14, 0.001)]), state, &plain(1000.0), T(12));
    v.ask(&changed(&c, &[(14, beside(0.001, 8))]), state, &plain(1000.0), R);
    for (a, by) in [(-1.0, T(12)), (0.0, T(12)), (5e-324, T(12)), (1e-200, R), (1e300, R), (4.0, R)] {
        v.ask(&changed(&flat, &[(20, a)]), None, &plain(10.0), by);
    }
    v.group("ask: 12 where j3 / j2 is no number; the inclination at 0 and π is answered");
    v.ask(&changed(&flat, &[(2, 0.0)]), None, &plain(10.0), T(12));
    v.ask(&changed(&flat, &[(5, 0.0)]), None, &plain(10.0), R);
    v.ask(&changed(&flat, &[(5, std::f64::consts::PI)]), None, &plain(10.0), R);
}

fn asks(v: &mut Vectors) {
    let mut r = Random::stream(571);
    v.group("ask: runs of five from a fresh state, each kind, both signs, low and high, both flags");
    for k in 0..36 {
        let (x, c) = drawn(&mut r, k % 3);
        let limit = [2000.0, 20_000.0, 100_000.0][(k / 3 % 3) as usize];
        let mut state = orbits::fresh(&c);
        for t in r.run(5, limit) {
            state = v.ask(&c, state, &asked_at(&x, &c, t), R);
        }
    }
    v.group("ask: I at 0.2 and the float to each side, both flags, p22 of either sign: % beside rem_euclid");
    for k in 0..12 {
        let (_, c) = drawn(&mut r, k % 3);
        let mut c = changed(&c, &[(5, three(0.2)[(k / 3 % 3) as usize]), (19, 0.0)]);
        c.flag = k % 2;
        let mut q = plain(300.0);
        (q[1], q[2]) = (r.within(20.0), r.within(20.0));
        for (place, x) in q.iter_mut().enumerate().skip(5) {
            // no change of the inclination
            if place != 9 {
                *x = r.within(0.01);
            }
        }
        q[4] = 0.0;
        v.ask(&c, orbits::fresh(&c), &q, R);
    }
    v.group("ask: low, the ten numbers large: the node passes half a turn from p22 to either side");
    for k in 0..12 {
        let (_, c) = drawn(&mut r, k % 3);
        let mut c = changed(&c, &[(5, 0.001), (7, 0.3)]);
        c.flag = k / 3 % 2;
        let mut q = plain(r.within(700.0));
        (q[1], q[2]) = (r.within(9.0), r.within(9.0));
        for x in &mut q[3..] {
            *x = r.within(0.05);
        }
        v.ask(&c, orbits::fresh(&c), &q, R);
    }
}

fn main() {
    let mut v = Vectors::default();
    classes(&mut v);
    sidereal_times(&mut v);
    geometries(&mut v);
    builds(&mut v);
    steps(&mut v);
    examples(&mut v);
    refusals(&mut v);
    asks(&mut v);
    println!("# Answers of the calls on orbits, for the program vectors_orbit.");
    println!("# Made by oracle/make_vectors (program vectors_orbit of crate measure there), {}, seed {SEED:016X}, {} cases.", env!("COMPILER"), v.count);
    println!("# Answers, and refusals 10 and 11, are those of crate sgp4 2.4.0 with the library's floats. Where it panics, hangs or answers a NaN or");
    println!("# an infinity ({} cases), the refusal is that of document 01's table, with the state as given (1 to 8) or as the Rust left it (9, 12).", v.table);
    println!("# Floats by their bits, a NaN answered as 7FF8000000000000; refusals in two decimal digits, 00 where there is an answer; steps in");
    println!("# hexadecimal. Constants are kind (0 non-resonant, 1 one-day, 2 half-day), AFSPC flag and 34 numbers in the order of a store's body;");
    println!("# a state is 1, time, mean motion, lambda, and no state 0 and three zeros. A line:");
    println!("#   class     n e; kind");
    println!("#   sidereal  0 IAU or 1 AFSPC, epoch; refusal, sidereal time");
    println!("#   geometry  right ascension, epoch; refusal, seven numbers of the Sun, seven of the Moon");
    println!("#   build     0 IAU or 1 AFSPC, flag, 31 numbers given; refusal, kind, 34 numbers");
    println!("#   fresh     constants; state");
    println!("#   step      constants, 1 going back, time, mean motion, lambda; refusal, time, mean motion, lambda");
    println!("#   ask       constants, state, t p22 p23 and ten numbers; refusal, steps, state, twelve elements or the two that are carried");
    print!("{}", v.text);
}
