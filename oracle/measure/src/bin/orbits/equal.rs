//! With the library's floats in the Rust: equal bits of everything.
use crate::table::{Parts, Row, Table};
use measure::orbits::{question, whole, Choice, Orbit, Published, ECCENTRICITIES, MOTIONS};
use measure::random::Random;
use measure::rust::{Ours, Rust};
use measure::tally::EQUAL;
use measure::{beside, same};
use orbt::orbits::{ask, build, class, fresh, geometry, sidereal_time, step, Constants, State};

type Built = (<Ours as Rust>::Constants, Constants);

struct Rows {
    class: Row,
    geometry: Row,
    constants: Row,
    states: Row,
    elements: Row,
    ten: Row,
    eleven: Row,
    refused: Row,
    steps: Row,
}

impl Rows {
    fn new(inputs: &'static str) -> Rows {
        let row = |what| Row::new(what, inputs, EQUAL);
        Rows {
            class: row("class"),
            geometry: row("geometry"),
            constants: row("kind and constants"),
            states: row("state and steps after an ask"),
            elements: row("elements"),
            ten: row("refusal 10: its two numbers"),
            eleven: row("refusal 11: its two numbers"),
            refused: row("8, 9, 12: the Rust has a NaN or an infinity"),
            steps: row("states along single steps"),
        }
    }

    fn all(self) -> Vec<Row> {
        let Rows { class, geometry, constants, states, elements, ten, eleven, refused, steps } = self;
        vec![class, geometry, constants, states, elements, ten, eleven, refused, steps]
    }

    fn build(&mut self, parts: &mut Parts, x: &Orbit) -> Option<Built> {
        let at = || format!("{x:?}");
        let rust = Ours::build(x);
        let (kind, numbers) = Ours::numbers(&rust);
        self.class.call();
        self.class.holds(class(x.elements[5], x.elements[2]) == kind, at);
        self.geometry.call();
        match geometry(x.elements[1], x.epoch) {
            Ok(bodies) => self.geometry.take(&bodies, &Ours::bodies(), at),
            Err(_) => self.geometry.holds(false, at),
        }
        self.constants.call();
        match build(x.is_afspc_time, x.flag as u32, &x.given(&Ours::rates())) {
            Ok(ours) => {
                parts.build(kind, x.is_wgs72, x.is_afspc_time, x.flag);
                self.constants.holds(ours.kind == kind, at);
                self.constants.take(&ours.numbers, &numbers, at);
                Some((rust, ours))
            }
            Err(_) => {
                self.constants.holds(false, at);
                None
            }
        }
    }

    // one ask of both; the state moves on
    fn ask(
        &mut self,
        parts: &mut Parts,
        (rust, ours): &Built,
        x: &Orbit,
        state: &mut State,
        asked: [f64; 3],
        given: Option<&[f64; 10]>,
    ) {
        let at = || format!("{x:?} asked {asked:?} at {state:?}");
        let mut moved = *state;
        Ours::give_effects(given);
        let reply = Ours::ask(rust, &mut moved, asked, x.flag);
        let a = ask(ours, *state, &whole(asked, &Ours::effects()));
        let way = if asked[0] > 0.0 { 720.0 } else { -720.0 };
        if let (Some(old), Some(new)) = (*state, moved) {
            if a.number == 0 || a.number > 8 {
                self.states.call();
                self.states.take(&a.state.unwrap(), &new, at);
                self.states.holds(old[0] + way * a.steps as f64 == new[0], at);
            }
        }
        match (a.number, reply) {
            (0, Ok(elements)) => {
                parts.ask(asked[0], elements[0]);
                self.elements.call();
                self.elements.take(&a.elements, &elements, at);
            }
            (10, Err((10, two))) => {
                self.ten.call();
                self.ten.take(&a.elements[..2], &two, at);
            }
            (11, Err((11, two))) => {
                self.eleven.call();
                self.eleven.take(&a.elements[..2], &two, at);
            }
            (8, _) => {
                self.refused.call();
                // the Rust has gone on with NaNs, or its last angles are refused
                let is_past = moved.is_some_and(|m| m[2].is_nan() || m[2].abs() > 349_000.0);
                let is_so = a.steps == 0 && a.state == *state && is_past;
                self.refused.holds(is_so, at);
            }
            (9 | 12, Ok(elements)) => {
                self.refused.call();
                self.refused.holds(elements.iter().any(|x| !x.is_finite()), at);
            }
            _ => {
                self.elements.call();
                self.elements.holds(false, at);
            }
        }
        // a state that 8 gives back stays where it was
        *state = a.state;
    }

    // single steps of the library beside the Rust's states at the multiples of 720
    fn steps(&mut self, (rust, ours): &Built, x: &Orbit, count: u32, is_back: bool) {
        let (Some(mut state), mut rust_state) = (fresh(ours), Ours::fresh(rust)) else { return };
        let way = if is_back { -720.0 } else { 720.0 };
        Ours::give_effects(None);
        self.steps.take(&state, &rust_state.unwrap(), || format!("{x:?} fresh"));
        for k in 1..=count {
            let t = way * k as f64;
            let (number, next) = step(ours, is_back, state);
            let _ = Ours::ask(rust, &mut rust_state, question(&ours.numbers, t), x.flag);
            self.steps.call();
            let at = || format!("{x:?} at {t}");
            self.steps.holds(number == 0, at);
            self.steps.take(&next, &rust_state.unwrap(), at);
            state = next;
        }
    }
}

fn classes(table: &mut Table) {
    let mut row =
        Row::new("class", "limits and a float to each side, each with each; NaNs and infinities", EQUAL);
    let mut r = Random::stream(401);
    let about = |limits: &[f64]| -> Vec<f64> {
        limits.iter().flat_map(|&x| [-1, 0, 1].map(|k| beside(x, k))).collect()
    };
    let odd = [0.0, -0.0, 1.0, f64::NAN, f64::INFINITY, f64::NEG_INFINITY, 0.004, 0.009, -0.004];
    for &n in about(&MOTIONS).iter().chain(&odd) {
        for &e in about(&ECCENTRICITIES).iter().chain(&odd) {
            let one = r.orbit();
            // only the class is looked at; what else is built may be no number
            let x = Orbit { elements: [one.elements[0], one.elements[1], e, 1.0, 1.0, n], ..one };
            let (kind, _) = Ours::numbers(&Ours::build(&x));
            row.call();
            row.holds(class(n, e) == kind, || format!("{n:?}, {e:?}"));
        }
    }
    table.add(vec![row]);
}

fn sidereal_times(table: &mut Table) {
    let mut row = Row::new("sidereal time, both", "epochs within 200 years, and of any size", EQUAL);
    let mut r = Random::stream(402);
    for k in 0..400_000 {
        let epoch = if k % 2 == 0 { r.within(200.0) } else { r.scaled(-40, 300) };
        for is_afspc in [false, true] {
            row.call();
            let rust = Ours::sidereal_time(is_afspc, epoch);
            match sidereal_time(is_afspc, epoch) {
                Ok(theta) => row.take(&[theta], &[rust], || format!("{epoch:?}")),
                Err(number) => row.holds(number == 13 && !rust.is_finite(), || format!("{epoch:?}")),
            }
        }
    }
    table.add(vec![row]);
}

fn geometries(table: &mut Table) {
    let mut row = Row::new("geometry", "nodes to 1,048,576, epochs to 1.47 million years", EQUAL);
    let mut r = Random::stream(403);
    for _ in 0..100_000 {
        let (node, epoch) = (r.scaled(-10, 20), r.scaled(-10, 20));
        let mut x = r.orbit();
        (x.elements[1], x.epoch) = (node, epoch);
        Ours::build(&x);
        row.call();
        match geometry(node, epoch) {
            Ok(bodies) => row.take(&bodies, &Ours::bodies(), || format!("{node:?}, {epoch:?}")),
            Err(_) => row.holds(false, || format!("{node:?}, {epoch:?}")),
        }
    }
    table.add(vec![row]);
}

// so many orbits, ten asks in a run each; now and then a run of single steps
fn orbits(table: &mut Table, inputs: &'static str, stream: u64, count: u64, limits: [f64; 3]) {
    let mut rows = Rows::new(inputs);
    let mut r = Random::stream(stream);
    for k in 0..count {
        let x = r.orbit();
        let Some(built) = rows.build(&mut table.parts, &x) else { continue };
        let mut state = fresh(&built.1);
        for t in r.run(10, limits[(k % 3) as usize]) {
            let asked = question(&built.1.numbers, t);
            rows.ask(&mut table.parts, &built, &x, &mut state, asked, None);
        }
        if k % 20 < 2 {
            rows.steps(&built, &x, 200, k % 20 == 1);
        }
    }
    table.add(rows.all());
}

// third_body's ten numbers drawn, large ones too: low and high branches at will, and refusals 10 to 12
fn given_numbers(table: &mut Table) {
    let mut rows = Rows::new("random orbits, third_body's ten numbers drawn as well");
    let mut r = Random::stream(406);
    for _ in 0..50_000 {
        let x = r.orbit();
        let Some(built) = rows.build(&mut table.parts, &x) else { continue };
        let mut state = fresh(&built.1);
        for t in r.run(6, 20_000.0) {
            let size = if r.below(3) == 0 { 1.0 } else { 0.05 };
            let effects: [f64; 10] = std::array::from_fn(|_| r.within(size));
            let asked = [t, r.within(20.0), r.within(20.0)];
            rows.ask(&mut table.parts, &built, &x, &mut state, asked, Some(&effects));
        }
    }
    Ours::give_effects(None);
    table.add(rows.all());
}

// asks so late that some longitudes pass the limit of angles: half of the orbits at the ends of their class
fn far(table: &mut Table) {
    let mut rows = Rows::new("resonant orbits, one ask at 1,000 to 1,430 years");
    let mut r = Random::stream(408);
    let mut count = 0;
    while count < 16 {
        let mut x = r.orbit();
        if count % 2 == 0 {
            x = Orbit::new(
                Choice(r.bits()),
                [x.elements[0], 1.0, 0.1, 1.0, 1.0, 0.0036 + 0.0015 * r.unit()],
                10.0,
                0.0,
            );
        }
        let Some(built) = rows.build(&mut table.parts, &x) else { continue };
        let mut state = fresh(&built.1);
        if state.is_none() || x.c4 != 0.0 {
            continue;
        }
        count += 1;
        let t = r.from_to(5.26e8, 7.5e8);
        let asked = question(&built.1.numbers, r.signed(t));
        rows.ask(&mut table.parts, &built, &x, &mut state, asked, None);
    }
    table.add(rows.all());
}

fn sets(table: &mut Table, sets: &[Published]) {
    let mut rows = Rows::new(
        "published sets of deep space, each model, time and flag: their times, and a year each way",
    );
    for set in sets {
        for x in &set.orbit {
            let Some(built) = rows.build(&mut table.parts, x) else { continue };
            let [first, last, by] = set.times;
            let own = (0..).map(|k| first + by * k as f64).take_while(|&t| t <= last);
            let mut own: Vec<f64> = own.collect();
            own.sort_by(|a, b| a.abs().total_cmp(&b.abs()));
            let year = |way: f64| (0..=400).map(|k| way * 1314.0 * k as f64).collect::<Vec<_>>();
            for times in [own, year(1.0), year(-1.0)] {
                let mut state = fresh(&built.1);
                let mut last = 0.0;
                for t in times {
                    // a set's times may lie on both sides of 0
                    if t * last < 0.0 {
                        state = fresh(&built.1);
                    }
                    last = t;
                    let asked = question(&built.1.numbers, t);
                    rows.ask(&mut table.parts, &built, x, &mut state, asked, None);
                }
            }
            rows.steps(&built, x, 800, false);
            rows.steps(&built, x, 800, true);
        }
    }
    table.add(rows.all());
}

pub fn compare(table: &mut Table, published: &[Published]) {
    assert!(same(f64::NAN, -f64::NAN));
    classes(table);
    sidereal_times(table);
    geometries(table);
    orbits(
        table,
        "random orbits, ten asks in a run: to 2, 30 and 365 days",
        404,
        100_000,
        [2880.0, 43_200.0, 525_600.0],
    );
    orbits(
        table,
        "random orbits, ten asks in a run: to 1, 20 and 200 years",
        405,
        600,
        [525_600.0, 1.05e7, 1.05e8],
    );
    far(table);
    given_numbers(table);
    sets(table, published);
}
