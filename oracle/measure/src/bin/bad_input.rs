//! What the unchanged sgp4, with Rust's own floats, does on bad input, and the library's refusal: the
//! table of docs/DIFFERENCES.md. Ends with 1 where either does other than is listed here. A call that
//! may never return is made by a second run of this program, which is ended after a while.
use measure::orbits::{question, whole, Choice, Orbit};
use measure::rust::{Own, Reply, Rust};
use measure::tally::verdict;
use orbt::orbits::{ask, build, fresh, geometry, sidereal_time, Constants, State};
use std::panic::{catch_unwind, AssertUnwindSafe};
use std::process::{Command, ExitCode, Stdio};
use std::time::{Duration, Instant};

const A_WHILE: Duration = Duration::from_secs(3);
const LAST: f64 = 754_974_720.0;
const NAN: f64 = f64::NAN;
const INF: f64 = f64::INFINITY;

const ELEMENTS: [&str; 12] = ["I", "Ω", "e", "ω", "M", "n", "a", "p32", "p33", "p34", "p35", "p36"];

/// What the Rust does.
#[derive(PartialEq)]
enum Does {
    /// answers finite numbers
    Finite,
    /// answers, and some number is a NaN or an infinity
    Through,
    /// gives the error that is this refusal, with a number that is a NaN or an infinity
    Error(u32),
    Panics,
    NeverReturns,
}
use Does::*;

struct Table {
    count: u32,
    wrong: u32,
}

impl Table {
    fn row(&mut self, input: &str, expected: (Does, u32), rust: (Does, String), ours: u32) {
        let is_so = expected == (rust.0, ours);
        self.count += 1;
        self.wrong += !is_so as u32;
        let here = if ours == 0 { "answers".to_string() } else { format!("refusal {ours}") };
        let mark = if is_so { "" } else { " **(not as listed)**" };
        println!("| {} | {input} | {} | {here}{mark} |", self.count, rust.1);
    }
}

// names of the numbers that are none
fn through(names: &[&str], xs: &[f64]) -> (Does, String) {
    let list = |is_it: fn(&f64) -> bool| -> Vec<&str> {
        names.iter().zip(xs).filter(|(_, x)| is_it(x)).map(|(name, _)| *name).collect()
    };
    let (nans, infinities) = (list(|x| x.is_nan()), list(|x| x.is_infinite()));
    if nans.is_empty() && infinities.is_empty() {
        return (Finite, "answers, finite numbers".to_string());
    }
    let all = |xs: &[&str]| if xs.len() == names.len() { "all".to_string() } else { xs.join(", ") };
    let mut parts = vec![];
    if !nans.is_empty() {
        parts.push(format!("NaN: {}", all(&nans)));
    }
    if !infinities.is_empty() {
        parts.push(format!("infinite: {}", all(&infinities)));
    }
    (Through, format!("answers; {}", parts.join("; ")))
}

fn of_reply(reply: Reply) -> (Does, String) {
    match reply {
        Ok(elements) => through(&ELEMENTS, &elements),
        Err((number, [e, t])) => {
            let name =
                if number == 10 { "OutOfRangeEccentricity" } else { "OutOfRangePerturbedEccentricity" };
            (Error(number), format!("error {name}, eccentricity {e:?}, t {t:?}"))
        }
    }
}

fn caught(call: impl FnOnce() -> Reply) -> (Does, String) {
    match catch_unwind(AssertUnwindSafe(call)) {
        Ok(reply) => of_reply(reply),
        Err(panic) => {
            let text = panic.downcast_ref::<&str>().copied().map(str::to_string);
            let text = text.or(panic.downcast_ref::<String>().cloned()).unwrap_or_default();
            (Panics, format!("panics: \"{text}\""))
        }
    }
}

// this program again with this time, which asks a one-day orbit from its fresh state
fn in_a_while(t: f64) -> (Does, String) {
    let me = std::env::current_exe().unwrap();
    let mut child = Command::new(me).arg(format!("{t:?}")).stdout(Stdio::null()).spawn().unwrap();
    let start = Instant::now();
    while start.elapsed() < A_WHILE {
        if child.try_wait().unwrap().is_some() {
            return (Finite, "returns".to_string());
        }
        std::thread::sleep(Duration::from_millis(20));
    }
    child.kill().unwrap();
    child.wait().unwrap();
    (NeverReturns, "never returns (watched for 3 s)".to_string())
}

fn orbit(e: f64, n: f64) -> Orbit {
    Orbit::new(Choice(1), [0.5, 1.0, e, 2.0, 3.0, n], 6.5, 1e-5)
}

// an orbit with its constants on both sides, and third_body's numbers of an ask at 1,000 minutes
struct Side {
    x: Orbit,
    rates: [f64; 10],
    rust: sgp4_own::Constants,
    ours: Constants,
    effects: [f64; 10],
}

impl Side {
    fn new(x: Orbit) -> Side {
        Own::give_effects(None);
        let rust = Own::build(&x);
        let rates = Own::rates();
        let ours = build(x.is_afspc_time, 0, &x.given(&rates)).expect("a build is refused");
        Own::ask(&rust, &mut Own::fresh(&rust), question(&ours.numbers, 1000.0), false).unwrap();
        Side { x, rates, rust, ours, effects: Own::effects() }
    }

    fn fresh(&self) -> State {
        fresh(&self.ours)
    }

    fn question(&self, t: f64) -> [f64; 3] {
        question(&self.ours.numbers, t)
    }

    // both sides with these numbers of third_body
    fn ask(&self, state: State, asked: [f64; 3], effects: &[f64; 10]) -> ((Does, String), u32) {
        Own::give_effects(Some(effects));
        let mut moved = state;
        let rust = caught(|| Own::ask(&self.rust, &mut moved, asked, false));
        Own::give_effects(None);
        (rust, ask(&self.ours, state, &whole(asked, effects)).number)
    }

    // the same with one of the constants another
    fn with(&self, place: usize, x: f64) -> Side {
        let mut ours = self.ours;
        ours.numbers[place] = x;
        Side {
            x: self.x,
            rates: self.rates,
            rust: sgp4_own::of_numbers(ours.kind, &ours.numbers),
            ours,
            effects: self.effects,
        }
    }

    // a build of another orbit with the rates of this one
    fn build(&self, x: &Orbit) -> ((Does, String), u32) {
        sgp4_own::give_rates(&self.rates);
        let (kind, numbers) = Own::numbers(&Own::build(x));
        Own::give_effects(None);
        let names: &[&str] = &[
            "ae", "ke", "j2", "j3", "j4", "I₀", "Ω₀", "e₀", "ω₀", "M₀", "n₀", "Ω̇", "ω̇", "Ṁ", "C₁", "C₄",
            "k₀", "k₁", "ė", "İ",
        ];
        let rest: &[&str] = match kind {
            0 => &["a₀"],
            1 => &["λ₀", "λ̇₀", "θ₀", "dr1", "dr2", "dr3"],
            _ => &[
                "λ₀", "λ̇₀", "θ₀", "d2201", "d2211", "d3210", "d3222", "d4410", "d4422", "d5220", "d5232",
                "d5421", "d5433", "k14",
            ],
        };
        let names: Vec<&str> = names.iter().chain(rest).copied().collect();
        let rust = through(&names, &numbers[..names.len()]);
        (rust, build(x.is_afspc_time, 0, &x.given(&self.rates)).err().unwrap_or(0))
    }
}

fn main() -> ExitCode {
    let day = Side::new(orbit(0.01, 0.00437));
    let half = Side::new(orbit(0.7, 0.00875));
    let non = Side::new(orbit(0.1, 0.02));
    assert_eq!([non.ours.kind, day.ours.kind, half.ours.kind], [0, 1, 2]);
    if let Some(t) = std::env::args().nth(1) {
        let _ = Own::ask(&day.rust, &mut day.fresh(), day.question(t.parse().unwrap()), false);
        return ExitCode::SUCCESS;
    }
    // panics are caught, and their text stands in the table
    std::panic::set_hook(Box::new(|_| ()));
    let mut table = Table { count: 0, wrong: 0 };
    println!("| No. | Input | The Rust | Here |\n|---|---|---|---|");

    // times
    let at = |t: f64| day.fresh().map(|[_, n, lambda]| [t, n, lambda]);
    for t in [NAN, INF, -INF] {
        let ours = ask(&day.ours, day.fresh(), &whole(day.question(t), &day.effects)).number;
        let input = format!("ask, resonant, fresh state: t = {t:?}");
        table.row(&input, (NeverReturns, 1), in_a_while(t), ours);
    }
    let (rust, ours) = day.ask(at(-720.0), day.question(NAN), &day.effects);
    table.row("ask, resonant, the state's time -720.0: t = NaN", (Panics, 1), rust, ours);
    for t in [NAN, INF] {
        let (rust, ours) = non.ask(None, non.question(t), &non.effects);
        table.row(&format!("ask, non-resonant: t = {t:?}"), (Error(10), 1), rust, ours);
    }
    for (name, side) in [("one-day", &day), ("half-day", &half), ("non-resonant", &non)] {
        for t in [LAST + 1.0, -LAST - 1.0] {
            // third_body's numbers and p22 of a near time, so that no angle and no eccentricity is far
            let mut asked = side.question(1000.0);
            asked[0] = t;
            let still = side.with(18, 0.0).with(19, 0.0).with(15, 0.0);
            let (rust, ours) = still.ask(side.fresh(), asked, &side.effects);
            table.row(&format!("ask, {name}, e and I steady: t = {t:?}"), (Finite, 2), rust, ours);
        }
    }

    // states
    let (rust, ours) = non.ask(at(0.0), non.question(720.0), &non.effects);
    table.row("ask, non-resonant: a state is given, t = 720", (Panics, 4), rust, ours);
    let (rust, ours) = day.ask(None, day.question(720.0), &day.effects);
    table.row("ask, resonant: no state is given, t = 720", (Panics, 5), rust, ours);
    for (state, t, expected) in [
        (720.0, -720.0, (Panics, 7)),
        (-720.0, 720.0, (Panics, 7)),
        (720.0, -0.0, (Panics, 7)),
        (1440.0, 720.0, (Panics, 7)),
        (-1440.0, -720.0, (Panics, 7)),
        (-0.0, 720.0, (Finite, 6)),
        (100.0, 720.0, (Finite, 6)),
        (LAST + 720.0, LAST, (Panics, 6)),
    ] {
        let (rust, ours) = day.ask(at(state), day.question(t), &day.effects);
        table.row(&format!("ask, resonant: the state's time {state:?}, t = {t:?}"), expected, rust, ours);
    }
    let far = day.fresh().map(|[t, n, _]| [t, n, 400_000.0]);
    let (rust, ours) = day.ask(far, day.question(720.0), &day.effects);
    table.row("ask, one-day: the state's λ = 400,000, t = 720", (Finite, 8), rust, ours);
    for (i, name) in ["n", "λ"].iter().enumerate() {
        for x in [NAN, INF] {
            let mut state = day.fresh().unwrap();
            state[i + 1] = x;
            let (rust, ours) = day.ask(Some(state), day.question(720.0), &day.effects);
            table.row(
                &format!("ask, resonant: the state's {name} = {x:?}, t = 720"),
                (Through, 3),
                rust,
                ours,
            );
        }
    }

    // p22, p23 and third_body's numbers
    let low = day.with(5, 0.1);
    let sides = [("one-day", &day), ("half-day", &half), ("non-resonant", &non), ("one-day, I = 0.1", &low)];
    for (name, side) in sides {
        for x in [NAN, INF] {
            let [t, p22, p23] = side.question(1000.0);
            let (rust, ours) = side.ask(side.fresh(), [t, x, p23], &side.effects);
            table.row(&format!("ask, {name}: p22 = {x:?}"), (Through, 3), rust, ours);
            let (rust, ours) = side.ask(side.fresh(), [t, p22, x], &side.effects);
            table.row(&format!("ask, {name}: p23 = {x:?}"), (Through, 3), rust, ours);
        }
    }
    let names = ["change of e", "change of I", "change of M", "ps4", "ps5"];
    for (place, name) in names.iter().enumerate() {
        for x in [NAN, INF] {
            let mut effects = day.effects;
            effects[place] = x;
            let does = if place == 0 { Error(11) } else { Through };
            let (rust, ours) = day.ask(day.fresh(), day.question(1000.0), &effects);
            table.row(&format!("ask: the Sun's {name} = {x:?}"), (does, 3), rust, ours);
        }
    }

    // angles beyond the limit
    let (rust, ours) = non.with(5, 1_048_577.0).ask(None, non.question(1000.0), &non.effects);
    table.row("ask, non-resonant: inclination 1,048,577", (Finite, 9), rust, ours);
    let [t, _, p23] = low.question(1000.0);
    let (rust, ours) = low.ask(low.fresh(), [t, 1_048_577.0, p23], &low.effects);
    table.row("ask, I = 0.1: p22 = 1,048,577", (Finite, 9), rust, ours);
    let (rust, ours) = day.ask(day.fresh(), [t, 1_048_577.0, p23], &day.effects);
    table.row("ask, I = 0.5: p22 = 1,048,577 (no sine is taken of it)", (Finite, 0), rust, ours);

    // powers
    for x in [0.0, -1.0] {
        let (rust, ours) = non.with(20, x).ask(None, non.question(1000.0), &non.effects);
        table.row(&format!("ask, non-resonant: a0 = {x:?}"), (Through, 12), rust, ours);
    }
    for (name, side) in [("one-day", &day), ("half-day", &half)] {
        let (rust, ours) = side.with(1, 0.0).ask(side.fresh(), side.question(1000.0), &side.effects);
        table.row(&format!("ask, {name}: ke = 0"), (Through, 12), rust, ours);
    }
    let (rust, ours) = non.with(1, 0.0).ask(None, non.question(1000.0), &non.effects);
    table.row("ask, non-resonant: ke = 0", (Finite, 0), rust, ours);

    // builds
    for (name, side, expected) in [("one-day", &day, 13), ("half-day", &half, 13), ("non-resonant", &non, 0)]
    {
        let does = if expected == 0 { Finite } else { Through };
        let (rust, ours) = side.build(&Orbit { a0: 0.0, ..side.x });
        table.row(&format!("build, {name}: a0 = 0"), (does, expected), rust, ours);
    }
    for (name, side) in [("one-day", &day), ("half-day", &half), ("non-resonant", &non)] {
        let (rust, ours) = side.build(&Orbit { a0: -1.0, ..side.x });
        table.row(&format!("build, {name}: a0 = -1"), (Finite, 0), rust, ours);
    }
    for (name, side, does) in
        [("one-day", &day, Through), ("half-day", &half, Through), ("non-resonant", &non, Finite)]
    {
        let (rust, ours) = side.build(&Orbit { epoch: NAN, ..side.x });
        table.row(&format!("build, {name}, rates given: epoch NaN"), (does, 3), rust, ours);
    }
    for (name, side) in [("one-day", &day), ("half-day", &half)] {
        let mut x = side.x;
        x.elements[0] = 1_048_577.0;
        let (rust, ours) = side.build(&x);
        table.row(&format!("build, {name}: inclination 1,048,577"), (Finite, 9), rust, ours);
    }

    // sidereal times and the geometry
    for (is_afspc, epoch, number) in
        [(false, NAN, 3), (true, NAN, 3), (false, 1e150, 13), (true, 1e150, 0), (true, 1e160, 13)]
    {
        let rust = through(&["θ"], &[Own::sidereal_time(is_afspc, epoch)]);
        let name = if is_afspc { "AFSPC" } else { "IAU" };
        let does = if number == 0 { Finite } else { Through };
        let ours = sidereal_time(is_afspc, epoch).err().unwrap_or(0);
        table.row(&format!("sidereal time, {name}: epoch {epoch:?}"), (does, number), rust, ours);
    }
    let bodies = ["Sun sin I", "Sun cos I", "Sun sin ΔΩ", "Sun cos ΔΩ", "Sun sin ω", "Sun cos ω", "Sun M"];
    let names: Vec<String> =
        bodies.iter().map(|x| x.to_string()).chain(bodies.iter().map(|x| x.replace("Sun", "Moon"))).collect();
    let names: Vec<&str> = names.iter().map(|x| x.as_str()).collect();
    for (node, epoch, expected) in [
        (INF, 6.5, (Through, 3)),
        (NAN, 6.5, (Through, 3)),
        (1.0, NAN, (Through, 3)),
        (1_048_577.0, 6.5, (Finite, 9)),
        (1.0, 1.5e6, (Finite, 9)),
    ] {
        let mut x = Orbit { epoch, ..day.x };
        x.elements[1] = node;
        Own::build(&x);
        let ours = geometry(node, epoch).err().unwrap_or(0);
        let input = format!("geometry: right ascension {node:?}, epoch {epoch:?}");
        table.row(&input, expected, through(&names, &Own::bodies()), ours);
    }
    println!("\n{} inputs, {} other than listed", table.count, table.wrong);
    verdict(table.wrong == 0)
}
