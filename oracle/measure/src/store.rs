//! Store files by document 01 alone: a writer of bodies and files, and a judge of restores and saves.
//! Nothing here calls the library's store. The replay of 18 is the unchanged Rust's, with the library's
//! floats.
use crate::orbits::Orbit;
use crate::random::Random;
use crate::rust::{Ours, Rust};
use orbt::orbits::{Constants, State};

/// The most records that a file has.
pub const MOST: usize = 128;

/// The first bytes of every file: the mark and version 1.
pub const HEADER: [u8; 6] = [0x4F, 0x52, 0x42, 0x54, 1, 0];

/// The limit of times, in minutes: 720·2^20.
pub const LIMIT: f64 = 754974720.0;

/// A satellite and its body.
pub type Record = (u32, Vec<u8>);

// ---- the writer

/// How many numbers of the constants a body of this kind has.
pub fn numbers_of(kind: u32) -> usize {
    [21, 26, 34][kind as usize]
}

/// The length of a body of this kind: eight bytes, the numbers, and a state where it is resonant.
pub fn size_of(kind: u32) -> usize {
    8 + 8 * (numbers_of(kind) + if kind == 0 { 0 } else { 3 })
}

/// The bytes of a body, whatever its kind and flag bytes say: the numbers are those of the kind.
pub fn body(c: &Constants, state: State) -> Vec<u8> {
    let mut bytes = vec![c.kind as u8, c.flag as u8, 0, 0, 0, 0, 0, 0];
    for x in c.numbers[..numbers_of(c.kind)].iter().chain(state.iter().flatten()) {
        bytes.extend(x.to_bits().to_le_bytes());
    }
    bytes
}

/// The bytes of a file with these records, in this order.
pub fn file(records: &[Record]) -> Vec<u8> {
    let mut bytes = HEADER.to_vec();
    bytes.extend((records.len() as u16).to_le_bytes());
    let mut offset = 8 + 12 * records.len();
    for (satellite, body) in records {
        for x in [*satellite, offset as u32, body.len() as u32] {
            bytes.extend(x.to_le_bytes());
        }
        offset += body.len();
    }
    for (_, body) in records {
        bytes.extend(body);
    }
    bytes
}

// ---- the judge

fn u32_at(bytes: &[u8], at: usize) -> u32 {
    u32::from_le_bytes(bytes[at..at + 4].try_into().unwrap())
}

/// The satellites of a file and their bodies, in order; none where it is refused 14.
pub fn contents(file: &[u8]) -> Option<Vec<(u32, &[u8])>> {
    if file.len() < 8 || file[..6] != HEADER {
        return None;
    }
    let count = u16::from_le_bytes([file[6], file[7]]) as usize;
    let mut end = 8 + 12 * count as u64;
    if count > MOST || (file.len() as u64) < end {
        return None;
    }
    let mut entries: Vec<[u64; 3]> = vec![];
    for k in 0..count {
        let [satellite, offset, size] = [0, 4, 8].map(|at| u32_at(file, 8 + 12 * k + at) as u64);
        let is_above = entries.last().is_none_or(|last| last[0] < satellite);
        if !is_above || offset != end {
            return None;
        }
        end += size;
        entries.push([satellite, offset, size]);
    }
    if end != file.len() as u64 {
        return None;
    }
    let body = |offset: u64, size: u64| &file[offset as usize..(offset + size) as usize];
    Some(entries.iter().map(|&[satellite, offset, size]| (satellite as u32, body(offset, size))).collect())
}

fn class(n: f64, e: f64) -> u32 {
    if 0.0034906585 < n && n < 0.0052359877 {
        return 1;
    }
    if (8.26e-3..=9.24e-3).contains(&n) && e >= 0.5 {
        return 2;
    }
    0
}

fn is_of_its_class(c: &Constants) -> bool {
    class(c.numbers[10], c.numbers[7]) == c.kind
}

fn are_finite(c: &Constants, state: State) -> bool {
    c.numbers[..numbers_of(c.kind)].iter().chain(state.iter().flatten()).all(|x| x.is_finite())
}

// what a body says; none where its length, kind, flag or zero bytes are wrong
fn read(body: &[u8]) -> Option<(Constants, State)> {
    let kind = *body.first()? as u32;
    if kind > 2 || body.len() != size_of(kind) || body[1] > 1 || body[2..8] != [0; 6] {
        return None;
    }
    let number =
        |k: usize| f64::from_bits(u64::from_le_bytes(body[8 + 8 * k..16 + 8 * k].try_into().unwrap()));
    let count = numbers_of(kind);
    let mut numbers = [0.0; 34];
    for (k, x) in numbers[..count].iter_mut().enumerate() {
        *x = number(k);
    }
    let state = (kind != 0).then(|| [0, 1, 2].map(|k| number(count + k)));
    Some((Constants { kind, flag: body[1] as u32, numbers }, state))
}

// the Rust's state, carried on to the time t: a multiple of 720, in the state's direction or at it
fn moved(rust: &sgp4_ours::Constants, state: State, t: f64) -> State {
    let mut state = state;
    Ours::give_effects(Some(&[0.0; 10]));
    // the elements there are of no interest, nor is an error of theirs
    let _ = Ours::ask(rust, &mut state, [t, 0.0, 0.0], false);
    Ours::give_effects(None);
    state
}

/// The state that the Rust carries from the fresh one to the time t, a multiple of 720.
pub fn carried(c: &Constants, t: f64) -> State {
    let rust = sgp4_ours::of_numbers(c.kind, &c.numbers);
    let fresh = Ours::fresh(&rust)?;
    moved(&rust, Some(fresh), t)
}

fn is_finite(state: State) -> bool {
    state.iter().flatten().all(|x| x.is_finite())
}

fn bits(state: [f64; 3]) -> [u64; 3] {
    state.map(f64::to_bits)
}

// whether the state passes 18, and the steps completed
fn replay(c: &Constants, state: [f64; 3]) -> (bool, u32) {
    let t = state[0];
    if t.to_bits() == 1 << 63 || t % 720.0 != 0.0 || t.abs() > LIMIT {
        return (false, 0);
    }
    let steps = (t.abs() / 720.0) as u32;
    let rust = sgp4_ours::of_numbers(c.kind, &c.numbers);
    let to = |from: State, steps: u32| moved(&rust, from, 720f64.copysign(t) * steps as f64);
    let (mut here, mut done) = (Ours::fresh(&rust), 0);
    while done < steps {
        // a step is refused 8 exactly if what it gives is not finite, and all after it are so too
        let next = steps.min(done + 64);
        let ahead = to(here, next);
        if !is_finite(ahead) {
            let good = (done + 1..next).take_while(|&steps| is_finite(to(here, steps)));
            return (false, good.last().unwrap_or(done));
        }
        (here, done) = (ahead, next);
    }
    (here.map(bits) == Some(bits(state)), steps)
}

/// What a restore answers: a refusal or 0, the steps of the replay, and what is restored.
pub struct Restored {
    pub number: u32,
    pub steps: u32,
    pub record: Option<(Constants, State)>,
}

pub fn restore_number(file: &[u8], satellite: u32) -> Restored {
    let refused = |number, steps| Restored { number, steps, record: None };
    let Some(records) = contents(file) else { return refused(14, 0) };
    let Some((_, body)) = records.iter().find(|record| record.0 == satellite) else { return refused(15, 0) };
    let Some((c, state)) = read(body) else { return refused(16, 0) };
    if !is_of_its_class(&c) {
        return refused(16, 0);
    }
    if !are_finite(&c, state) {
        return refused(17, 0);
    }
    let (is_kept, steps) = state.map_or((true, 0), |state| replay(&c, state));
    if !is_kept {
        return refused(18, steps);
    }
    Restored { number: 0, steps, record: Some((c, state)) }
}

/// What a save answers: a refusal or 0, and the new file, of no bytes where it is refused.
pub struct Saved {
    pub number: u32,
    pub file: Vec<u8>,
}

pub fn save_number(old: &[u8], room: usize, satellite: u32, c: &Constants, state: State) -> Saved {
    let refused = |number| Saved { number, file: vec![] };
    // numbers that only a call from C can give
    if c.kind > 2 || c.flag > 1 {
        return refused(16);
    }
    if c.kind == 0 && state.is_some() {
        return refused(4);
    }
    if c.kind != 0 && state.is_none() {
        return refused(5);
    }
    let Some(records) = contents(old) else { return refused(14) };
    if !is_of_its_class(c) {
        return refused(16);
    }
    if !are_finite(c, state) {
        return refused(17);
    }
    if state.is_some_and(|state| !replay(c, state).0) {
        return refused(18);
    }
    let new = body(c, state);
    let others: Vec<(u32, &[u8])> = records.into_iter().filter(|record| record.0 != satellite).collect();
    let size =
        8 + 12 * (others.len() + 1) + others.iter().map(|record| record.1.len()).sum::<usize>() + new.len();
    if others.len() + 1 > MOST || size >= 1 << 32 {
        return refused(20);
    }
    if room < size {
        return refused(19);
    }
    let mut all: Vec<Record> =
        others.into_iter().map(|(satellite, body)| (satellite, body.to_vec())).collect();
    all.push((satellite, new));
    all.sort_by_key(|record| record.0);
    Saved { number: 0, file: file(&all) }
}

// ---- records to save and restore

/// The constants that the Rust builds of an orbit.
pub fn constants(x: &Orbit) -> Constants {
    let (kind, numbers) = Ours::numbers(&Ours::build(x));
    Constants { kind, flag: x.flag as u32, numbers }
}

impl Random {
    /// Constants of a kind, by the Rust, and the state after at most so many steps either way.
    pub fn record(&mut self, kind: u32, most: u64) -> (Constants, State) {
        loop {
            let c = constants(&self.orbit());
            if c.kind != kind || !are_finite(&c, None) {
                continue;
            }
            let steps = self.below(most + 1) as f64;
            // a sum, so that no step back is at +0.0
            let state = carried(&c, 0.0 + self.signed(720.0) * steps);
            if is_finite(state) {
                return (c, state);
            }
        }
    }
}
