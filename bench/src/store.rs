//! Restores and saves. A restore at the limit stands beside sgp4's one ask over as many steps; what has no
//! step to make stands beside the same file in plain Rust, as sgp4 has no store.
use crate::clock::{Table, REPEATS};
use crate::orbits::{cases, long_own, Case};
use crate::plain;
use measure::orbits::{question, whole};
use measure::store::{body, file, Record, LIMIT};
use orbt::c;
use orbt::orbits::{ask, fresh, Constants, State};
use orbt::store::restore;

const STEPS: usize = 1_048_576;

// A restore at the limit takes a tenth of a second.
const LONG_REPEATS: usize = 6;

// the first of these orbits whose resonance can be followed to the limit, and its state there
fn followed(kind: u32) -> (Case, State) {
    let at_limit = |case: Case| {
        let asked = whole(question(&case.ours.numbers, LIMIT), &[0.0; 10]);
        let answer = ask(&case.ours, fresh(&case.ours), &asked);
        (answer.steps as usize == STEPS).then_some((case, answer.state))
    };
    cases(kind, false, 64).into_iter().find_map(at_limit).expect("no orbit goes that far")
}

// by the C interface itself, as a host would: the pointers are to locals and to slices
#[inline(never)]
fn restore_ours(file: &[u8], satellite: u32) -> f64 {
    let (mut kind, mut flag, mut held, mut steps) = (0, 0, 0, 0);
    let (mut numbers, mut state) = ([0.0; 34], [0.0; 3]);
    let number = unsafe {
        c::orbt_restore(
            file.as_ptr(),
            file.len(),
            satellite,
            &mut kind,
            &mut flag,
            &mut numbers,
            &mut held,
            &mut state,
            &mut steps,
        )
    };
    assert!(number == 0);
    numbers[20] + state[2]
}

#[inline(never)]
fn restore_plain(file: &[u8], satellite: u32) -> f64 {
    let (c, state) = plain::restore(file, satellite).unwrap();
    c.numbers[20] + state.unwrap()[2]
}

fn at_limit(table: &mut Table, kind: u32, name: &str) {
    let (case, state) = followed(kind);
    let bytes = file(&[(7, body(&case.ours, state))]);
    assert!(restore(&bytes, 7).steps as usize == STEPS);
    let q = question(&case.ours.numbers, LIMIT);
    sgp4_own::give_effects(&[0.0; 10]);
    let name = format!("restore at the limit, {name}, a step of {STEPS}");
    table.pair(name, LONG_REPEATS, STEPS, || restore_ours(&bytes, 7), || long_own(&case, q));
    sgp4_own::give_nothing();
}

// the satellite saved or restored stands in the middle of the others, whose numbers are odd
const SATELLITE: u32 = 128;

fn others() -> Vec<Record> {
    let kinds = [0, 1, 2].map(|kind| cases(kind, false, 43));
    let in_turn = (0..127).map(|k| &kinds[k % 3][k / 3].ours);
    in_turn.zip(0..).map(|(c, k)| (2 * k + 1, body(c, fresh(c)))).collect()
}

fn with(others: &[Record], c: &Constants) -> Vec<u8> {
    let mut all = others.to_vec();
    all.push((SATELLITE, body(c, fresh(c))));
    all.sort_by_key(|record| record.0);
    file(&all)
}

fn restores(table: &mut Table, all: &[Case], others: &[Record], name: &str) {
    let files: Vec<Vec<u8>> = all.iter().map(|case| with(others, &case.ours)).collect();
    // both sides read the same numbers
    let (ours, plain) = (restore(&files[0], SATELLITE).record.unwrap(), plain::restore(&files[0], SATELLITE));
    assert!(plain.is_some_and(|plain| plain.0.numbers == ours.0.numbers && plain.1 == ours.1));
    table.pair(
        format!("restore of a fresh half-day record, {name}"),
        REPEATS,
        files.len(),
        || files.iter().map(|file| restore_ours(file, SATELLITE)).sum(),
        || files.iter().map(|file| restore_plain(file, SATELLITE)).sum(),
    );
}

#[inline(never)]
fn save_ours(old: &[u8], out: &mut [u8], c: &Constants, state: State) -> f64 {
    let (held, state) = (state.is_some() as u32, state.unwrap_or_default());
    let mut size = 0;
    let number = unsafe {
        c::orbt_save(
            old.as_ptr(),
            old.len(),
            out.as_mut_ptr(),
            out.len(),
            SATELLITE,
            c.kind,
            c.flag,
            &c.numbers,
            held,
            &state,
            &mut size,
        )
    };
    assert!(number == 0);
    size as f64
}

#[inline(never)]
fn save_plain(old: &[u8], out: &mut [u8], c: &Constants, state: State) -> f64 {
    plain::save(old, out, SATELLITE, c, state).unwrap() as f64
}

fn saves(table: &mut Table, all: &[Case], others: &[Record], name: &str) {
    let old = file(others);
    let new = with(others, &all[0].ours);
    let [mut out, mut plain_out] = [vec![0; new.len()], vec![0; new.len()]];
    // both sides write the same bytes
    save_ours(&old, &mut out, &all[0].ours, fresh(&all[0].ours));
    save_plain(&old, &mut plain_out, &all[0].ours, fresh(&all[0].ours));
    assert!(out == new && plain_out == new);
    let records: Vec<(Constants, State)> = all.iter().map(|case| (case.ours, fresh(&case.ours))).collect();
    table.pair(
        format!("save of a fresh half-day record, {name}"),
        REPEATS,
        records.len(),
        || records.iter().map(|(c, state)| save_ours(&old, &mut out, c, *state)).sum(),
        || records.iter().map(|(c, state)| save_plain(&old, &mut plain_out, c, *state)).sum(),
    );
}

pub fn rows(table: &mut Table) {
    at_limit(table, 1, "one-day");
    at_limit(table, 2, "half-day");
    let all = cases(2, false, 64);
    let others = others();
    restores(table, &all, &[], "alone in its file");
    restores(table, &all, &others, "among 127 others");
    saves(table, &all, &[], "into an empty file");
    saves(table, &all, &others, "into a file of 127 others");
}
