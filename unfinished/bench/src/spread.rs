//! The same calls over many orbits, since a step takes as long as its orbit has it: the least, the median and the
//! greatest, over the published sets and drawn orbits. And how steps, restores and saves grow.
use crate::clock::least;
use crate::orbits::{
    ask_ours, ask_own, build_ours, build_own, cases, long_ours, long_own, single_ours, Case, STEPS,
};
use crate::store::{
    others, restore_ours, restore_plain, save_ours, save_plain, with, SATELLITE, STEPS as MOST_STEPS,
};
use measure::orbits::{published, question, whole};
use measure::store::{body, file, LIMIT};
use orbt::orbits::{ask, fresh};

// The whole is gone through so often, and each orbit so often in a row: a core that others share may be slow
// for seconds. A run to the limit takes a tenth of a second.
const ROUNDS: usize = 4;
const REPEATS: usize = 20;
const LONG_REPEATS: usize = 1;

const KINDS: [&str; 3] = ["non-resonant", "one-day", "half-day"];

// the published sets of a kind, as their positions were published: WGS72, IAU time, no flag; and 20 drawn
fn chosen(kind: u32, sets: Option<&str>) -> Vec<Case> {
    let sets = sets.map(published).unwrap_or_default();
    let listed = sets.iter().filter_map(|set| Case::new(set.orbit[1])).filter(|case| case.ours.kind == kind);
    listed.chain(cases(kind, false, 20)).collect()
}

// whether an ask at t makes these steps: a resonance that leaves its bounds is refused before
fn goes(case: &Case, t: f64, steps: usize) -> bool {
    let asked = whole(question(&case.ours.numbers, t), &[0.0; 10]);
    ask(&case.ours, fresh(&case.ours), &asked).steps as usize == steps
}

// least, median, greatest
fn three(mut all: Vec<f64>) -> [f64; 3] {
    all.sort_by(f64::total_cmp);
    [all[0], all[all.len() / 2], all[all.len() - 1]]
}

fn row(name: &str, all: &[&Case], time: impl Fn(&Case) -> [f64; 2]) {
    if all.is_empty() {
        return;
    }
    let mut times = vec![[f64::MAX; 2]; all.len()];
    for _ in 0..ROUNDS {
        for (least, case) in times.iter_mut().zip(all) {
            let [ours, own] = time(case);
            *least = [least[0].min(ours), least[1].min(own)];
        }
    }
    let cells = |all: Vec<f64>, digits| three(all).map(|x| format!("{x:.digits$}")).join(" | ");
    let ratios = cells(times.iter().map(|[ours, own]| ours / own).collect(), 2);
    let [ours, own] = [0, 1].map(|side| cells(times.iter().map(|x| x[side]).collect(), 1));
    println!("| {name} | {} | {ratios} | {ours} | {own} |", all.len());
}

fn in_an_ask(case: &Case, steps: usize, repeats: usize) -> [f64; 2] {
    let q = question(&case.ours.numbers, 720.0 * steps as f64 + 100.0);
    let q = if steps == MOST_STEPS { question(&case.ours.numbers, LIMIT) } else { q };
    let asked = whole(q, &[0.0; 10]);
    least(repeats, steps, || long_ours(case, &asked, steps), || long_own(case, q))
}

fn by_the_call(case: &Case) -> [f64; 2] {
    let q = question(&case.ours.numbers, 720.0 * STEPS as f64 + 100.0);
    least(REPEATS, STEPS, || single_ours(case), || long_own(case, q))
}

fn without_a_step(case: &Case) -> [f64; 2] {
    let asked = whole(question(&case.ours.numbers, 333.0), &[1e-6; 10]);
    let mut state = fresh(&case.ours).unwrap_or([0.0; 3]);
    let mut own = sgp4_own::fresh(&case.own);
    least(
        REPEATS,
        512,
        || (0..512).map(|_| ask_ours(case, &asked, &mut state)).sum(),
        || (0..512).map(|_| ask_own(case, [asked[0], asked[1], asked[2]], own.as_mut())).sum(),
    )
}

fn built(case: &Case) -> [f64; 2] {
    let rates: [f64; 10] = case.given[21..].try_into().unwrap();
    sgp4_own::give_rates(&rates);
    least(
        REPEATS,
        512,
        || (0..512).map(|_| build_ours(case)).sum(),
        || (0..512).map(|_| build_own(case)).sum(),
    )
}

// a record at the limit, restored or saved: each replays the steps, beside sgp4's ask over them
fn at_limit(case: &Case, is_save: bool) -> [f64; 2] {
    let q = question(&case.ours.numbers, LIMIT);
    let state = ask(&case.ours, fresh(&case.ours), &whole(q, &[0.0; 10])).state;
    let bytes = file(&[(SATELLITE, body(&case.ours, state))]);
    let (empty, mut out) = (file(&[]), vec![0; bytes.len()]);
    least(
        LONG_REPEATS,
        MOST_STEPS,
        || match is_save {
            true => save_ours(&empty, &mut out, &case.ours, state),
            false => restore_ours(&bytes, SATELLITE),
        },
        || long_own(case, q),
    )
}

fn spread(sets: Option<&str>) {
    println!("| Call, ns | orbits | ratio, least | median | greatest | ours, least | median | greatest | Rust, least | median | greatest |");
    println!("|---|---|---|---|---|---|---|---|---|---|---|");
    let all = [0, 1, 2].map(|kind| chosen(kind, sets));
    sgp4_own::give_effects(&[0.0; 10]);
    for kind in [1, 2] {
        let name = KINDS[kind];
        let far: Vec<&Case> =
            all[kind].iter().filter(|case| goes(case, 720.0 * STEPS as f64 + 100.0, STEPS)).collect();
        row(&format!("step, {name}, in an ask over {STEPS}"), &far, |case| in_an_ask(case, STEPS, REPEATS));
        row(&format!("step, {name}, by `orbt_step`"), &far, by_the_call);
    }
    sgp4_own::give_effects(&[1e-6; 10]);
    for kind in [0, 1, 2] {
        let every: Vec<&Case> = all[kind].iter().collect();
        row(&format!("ask without a step, {}", KINDS[kind]), &every, without_a_step);
    }
    for kind in [0, 1, 2] {
        let every: Vec<&Case> = all[kind].iter().collect();
        row(&format!("build with geometry, {}", KINDS[kind]), &every, built);
    }
    sgp4_own::give_nothing();
    sgp4_own::give_effects(&[0.0; 10]);
    for kind in [1, 2] {
        let name = KINDS[kind];
        let whole: Vec<&Case> = all[kind].iter().filter(|case| goes(case, LIMIT, MOST_STEPS)).collect();
        row(&format!("restore at the limit, {name}, a step"), &whole, |case| at_limit(case, false));
        row(&format!("save at the limit, {name}, a step"), &whole, |case| at_limit(case, true));
    }
    sgp4_own::give_nothing();
}

fn steps() {
    println!("| Steps of one ask, ns to a step | one-day | Rust | half-day | Rust |");
    println!("|---|---|---|---|---|");
    let first = [1, 2].map(|kind| {
        let all = cases(kind, false, 64);
        all.into_iter().find(|case| goes(case, LIMIT, MOST_STEPS)).expect("no orbit goes that far")
    });
    sgp4_own::give_effects(&[0.0; 10]);
    for power in [10, 12, 14, 16, 18, 20] {
        let steps = 1 << power;
        let repeats = (1 << 22 >> power).clamp(4, 400);
        let [one, half] = [0, 1].map(|k| in_an_ask(&first[k], steps, repeats));
        println!("| {steps} | {:.1} | {:.1} | {:.1} | {:.1} |", one[0], one[1], half[0], half[1]);
    }
    sgp4_own::give_nothing();
}

fn satellites() {
    println!("| Satellites in the file, ns | restore | plain Rust | save of one more record | plain Rust | a copy of the file |");
    println!("|---|---|---|---|---|---|");
    let all = cases(2, false, 16);
    for power in 0..8 {
        let count: u32 = 1 << power;
        let others = others(count - 1);
        let old = file(&others);
        let files: Vec<Vec<u8>> = all.iter().map(|case| with(&others, &case.ours)).collect();
        let [mut out, mut plain] = [vec![0; files[0].len()], vec![0; files[0].len()]];
        let [restore, read] = least(
            100 * ROUNDS,
            files.len(),
            || files.iter().map(|file| restore_ours(file, SATELLITE)).sum(),
            || files.iter().map(|file| restore_plain(file, SATELLITE)).sum(),
        );
        let [save, write] = least(
            100 * ROUNDS,
            all.len(),
            || all.iter().map(|case| save_ours(&old, &mut out, &case.ours, fresh(&case.ours))).sum(),
            || all.iter().map(|case| save_plain(&old, &mut plain, &case.ours, fresh(&case.ours))).sum(),
        );
        let [copy, _] = least(
            100 * ROUNDS,
            files.len(),
            || files.iter().map(|file| copied(file, &mut out)).sum(),
            || 0.0,
        );
        println!("| {count} | {restore:.0} | {read:.0} | {save:.0} | {write:.0} | {copy:.0} |");
    }
}

#[inline(never)]
fn copied(from: &[u8], to: &mut [u8]) -> f64 {
    to.copy_from_slice(from);
    to[to.len() - 1] as f64
}

/// The table over many orbits, and those of growth.
pub fn print(sets: Option<&str>) {
    if sets.is_none() {
        eprintln!("no published sets: python3-sgp4 is not installed, and ORBT_SETS names none");
    }
    spread(sets);
    println!();
    growth();
}

/// A step by how many are made, restore and save by how many satellites the file has.
pub fn growth() {
    satellites();
    println!();
    steps();
}
