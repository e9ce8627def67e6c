//! Steps every resonant published set to both limits, 1,048,576 steps each way, with the library and
//! with the unchanged sgp4 calling the library's floats: the state must have equal bits at every step,
//! and the elements at every 1,024th and at the last. One ask from the fresh state to the limit must
//! come to the same. Where the library refuses 8 on the way, sgp4's next state must hold a NaN, and that
//! one ask is refused 8; the row says at which step, and what sgp4 with Rust's own floats has there.
//! Prints a row to a run, and ends with 1 where anything else differs.
use measure::orbits::{published, question, whole, Orbit};
use measure::rust::{Ours, Own, Rust};
use measure::tally::{decimal, verdict, Tally, EQUAL};
use orbt::orbits::{ask, build, fresh, step};
use std::process::ExitCode;

const LIMIT: u32 = 1_048_576;
const BY: u32 = 1_024;

struct Run {
    steps: u32,
    tally: Tally,
    ends: String,
}

impl Run {
    // the row names the run, and the tally the step
    fn take(&mut self, ours: &[f64], rust: &[f64]) {
        let steps = self.steps;
        self.tally.take(ours, rust, || format!("after step {steps}"));
    }

    fn holds(&mut self, is_so: bool) {
        let steps = self.steps;
        self.tally.holds(is_so, || format!("after step {steps}"));
    }
}

fn run(x: &Orbit, is_back: bool) -> Option<(u32, Run)> {
    let rust = Ours::build(x);
    let ours = build(x.is_afspc_time, x.flag as u32, &x.given(&Ours::rates())).expect("a build is refused");
    let (mut state, mut rust_state) = (fresh(&ours)?, Ours::fresh(&rust));
    let way = if is_back { -720.0 } else { 720.0 };
    let mut run = Run { steps: 0, tally: Tally::new(EQUAL), ends: "the limit".to_string() };
    run.take(&state, &rust_state.unwrap());
    for k in 1..=LIMIT {
        let asked = question(&ours.numbers, way * k as f64);
        let (number, next) = step(&ours, is_back, state);
        let reply = Ours::ask(&rust, &mut rust_state, asked, x.flag);
        let rust_next = rust_state.unwrap();
        if number == 8 {
            run.holds(next == state && rust_next.iter().any(|x| x.is_nan()));
            let own = Own::build(x);
            let mut own_state = Own::fresh(&own);
            let _ = Own::ask(&own, &mut own_state, asked, x.flag);
            let [_, n, lambda] = own_state.unwrap();
            run.ends = format!(
                "refusal 8 at step {k}, from lambda {:?}; the Rust: NaN, and with its own floats n {n:?}, lambda {lambda:?}",
                state[2]
            );
            break;
        }
        run.holds(number == 0);
        run.take(&next, &rust_next);
        if k % BY == 0 {
            let a = ask(&ours, Some(state), &whole(asked, &Ours::effects()));
            run.take(&a.state.unwrap(), &rust_next);
            match reply {
                Ok(elements) => run.take(&a.elements, &elements),
                Err((number, two)) => {
                    run.holds(number == a.number);
                    run.take(&a.elements[..2], &two);
                }
            }
        }
        state = next;
        run.steps = k;
    }
    // the whole way in one ask: the last effects that sgp4 had are as good as any
    let asked = question(&ours.numbers, way * LIMIT as f64);
    let once = ask(&ours, fresh(&ours), &whole(asked, &Ours::effects()));
    if run.steps == LIMIT {
        run.holds(once.number != 8 && once.steps == LIMIT);
        run.take(&once.state.unwrap(), &state);
    } else {
        run.holds(once.number == 8 && once.steps == 0 && once.state == fresh(&ours));
    }
    Some((ours.kind, run))
}

fn main() -> ExitCode {
    let Some(path) = std::env::args().nth(1) else {
        eprintln!("no published sets: python3-sgp4 is not installed, and ORBT_SETS names none");
        return ExitCode::SUCCESS;
    };
    let sets = published(&path);
    println!("| Set | Kind | Direction | Steps | Numbers | Differed | Worst | Ends at |");
    println!("|---|---|---|---|---|---|---|---|");
    let (mut runs, mut steps, mut wrong) = (0, 0, 0);
    for set in &sets {
        for is_back in [false, true] {
            // WGS72 with the IAU time, as the published positions have them
            let Some((kind, run)) = run(&set.orbit[1], is_back) else { continue };
            println!(
                "| {} | {} | {} | {} | {} | {} | {} | {} |",
                set.satellite,
                ["", "one-day", "half-day"][kind as usize],
                if is_back { "back" } else { "on" },
                run.steps,
                run.tally.count,
                run.tally.differed,
                run.tally.worst(decimal),
                run.ends
            );
            runs += 1;
            steps += run.steps as u64;
            wrong += run.tally.wrong;
            if run.tally.wrong > 0 {
                eprintln!("{}: the worst {}", set.satellite, run.tally.at);
            }
        }
    }
    println!("\n{steps} steps in {runs} runs, {wrong} numbers differed");
    verdict(wrong == 0)
}
