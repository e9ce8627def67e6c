//! A host in Rust: restores a satellite from a store file, asks where it stands over an hour, saves the
//! moved state into a new file, and takes that up again. examples/c/host.c prints the same bytes.
//!
//!     host FOLDER [STORE [SATELLITE]]
//!
//! Without STORE it makes FOLDER/store.orbt; the new file is FOLDER/moved.orbt.
mod library;

use library::{Asked, Orbit, Refusal};
use std::path::{Path, PathBuf};
use std::process::{exit, ExitCode};
use std::{env, fs};

/// 08195 MOLNIYA 2-14 of SGP4-VER.TLE, half-day: what a build is given, by WGS72. The first eleven are the
/// model and the orbit, the next ten what sgp4's Constants::new works out, the last ten its third_body.
const MADE: u32 = 8195;
const GIVEN: [f64; 31] = [
    6.378135e3,
    7.436691613317342e-2,
    1.082616e-3,
    -2.53881e-6,
    -1.65597e-6,
    1.119778813470034,
    4.87072001413786,
    6.877146e-1,
    4.621022739372039,
    3.530050585206171e-1,
    8.748547019630239e-3,
    6.4800332770431215,
    4.3588152571096384e-1,
    4.16513639821549,
    1.9425158347208772e-13,
    1.4314828963249408e-13,
    -4.604617513547646e-19,
    2.9137737520813156e-13,
    -7.437009265333537e-8,
    -1.2845672158012262e-6,
    8.748086886633128e-3,
    -2.9710261465190704e-9,
    -2.0314318655903514e-8,
    -8.079320148239302e-9,
    -5.889404801117796e-9,
    3.297459274659935e-8,
    -6.813082122694868e-9,
    -4.092891624104803e-8,
    -2.080615608637173e-8,
    -8.265805932720604e-9,
    5.973327467867302e-8,
];

const EMPTY: [u8; 8] = [0x4F, 0x52, 0x42, 0x54, 1, 0, 0, 0];

const KINDS: [&str; 3] = ["non-resonant", "one-day", "half-day"];

const ELEMENTS: [&str; 12] = [
    "inclination",
    "right ascension",
    "eccentricity",
    "argument of perigee",
    "mean anomaly",
    "mean motion",
    "a",
    "p32",
    "p33",
    "p34",
    "p35",
    "p36",
];

/// The header's words.
const WORDS: [&str; 21] = [
    "",
    "the time is not finite",
    "the time is beyond 754,974,720 minutes",
    "another number given is not finite",
    "a state is given, and the orbit is non-resonant",
    "no state is given, and the orbit is resonant",
    "the state's time is -0.0, no multiple of 720, or beyond the limit",
    "the state's time has the other direction, or is past the time asked: reset first",
    "the resonance cannot be followed there: an angle or a number of a state on the way is out of range",
    "an angle is beyond 1,048,576, or is a NaN",
    "the eccentricity is out of range: it and the time are carried",
    "the perturbed eccentricity is outside 0 to 1: it and the time are carried",
    "a root or power is taken of no such number, or an element is not finite",
    "a number built is not finite",
    "the header or the contents of the file are wrong",
    "the satellite is not in the file",
    "a kind, flag or like number of the call or of a record is wrong, or the kind is not the orbit's class",
    "a number of the record is not finite",
    "the record's state is not what its steps make of the fresh state",
    "the output is shorter than the new file",
    "a 129th satellite, or a new file of 2^32 bytes or more",
];

fn fail(what: &str, path: &Path) -> ! {
    eprintln!("host: {what} {}", path.display());
    exit(2)
}

fn refused(what: &str, number: Refusal) {
    println!("{what}: refused {number}, {}", WORDS[number as usize]);
}

// ends the host with the refusal's words
fn or_end<T>(what: &str, answer: Result<T, Refusal>) -> T {
    answer.unwrap_or_else(|number| {
        refused(what, number);
        exit(1)
    })
}

fn number(name: &str, x: f64) {
    println!("  {name:20} {x:22.15}  {:016X}", x.to_bits());
}

// writes beside the file and renames, so that the old one stands until the new one is whole
fn keep(path: &Path, bytes: &[u8]) {
    let beside = path.with_extension("orbt.part");
    if fs::write(&beside, bytes).is_err() || fs::rename(&beside, path).is_err() {
        fail("cannot write", path);
    }
}

fn load(path: &Path) -> Vec<u8> {
    fs::read(path).unwrap_or_else(|_| fail("cannot read", path))
}

fn save(path: &Path, old: &[u8], satellite: u32, orbit: &Orbit) {
    let file = or_end("save", library::save(old, satellite, orbit));
    keep(path, &file);
    println!("saved: {} bytes", file.len());
}

fn restore(file: &[u8], satellite: u32) -> Orbit {
    let (orbit, steps) = or_end("restore", library::restore(file, satellite));
    println!(
        "restored: satellite {satellite}, {}, flag {}, steps replayed: {steps}",
        KINDS[orbit.kind as usize], orbit.flag
    );
    if let Some([time, mean_motion, lambda]) = orbit.state {
        number("state's time", time);
        number("its mean motion", mean_motion);
        number("its longitude", lambda);
    }
    orbit
}

// The elements at t, with no numbers of Sun and Moon; p22 and p23 as sgp4's propagate_from_state has them.
fn ask(orbit: &mut Orbit, t: f64) -> Asked {
    let c = &orbit.constants;
    let mut question = [0.0; 13];
    question[..3].copy_from_slice(&[t, c[6] + c[11] * t + c[16] * (t * t), c[8] + c[12] * t]);
    let (answer, steps) = library::ask(orbit, &question);
    let what = format!("ask at {t:.0} minutes, steps made: {steps}");
    match answer {
        Ok(elements) => {
            println!("{what}");
            for (name, x) in ELEMENTS.iter().zip(elements) {
                number(name, x);
            }
        }
        Err((refusal, [eccentricity, time])) => {
            refused(&what, refusal);
            if refusal == 10 || refusal == 11 {
                number("eccentricity", eccentricity);
                number("time", time);
            }
        }
    }
    answer
}

// whether two answers agree in every bit
fn is_same(a: &Asked, b: &Asked) -> bool {
    let bits = |xs: &[f64]| xs.iter().map(|x| x.to_bits()).collect::<Vec<u64>>();
    match (a, b) {
        (Ok(a), Ok(b)) => bits(a) == bits(b),
        (Err((a, carried_a)), Err((b, carried_b))) => a == b && bits(carried_a) == bits(carried_b),
        _ => false,
    }
}

fn main() -> ExitCode {
    let arguments: Vec<String> = env::args().skip(1).collect();
    if arguments.is_empty() || arguments.len() > 3 {
        eprintln!("usage: host FOLDER [STORE [SATELLITE]]");
        return ExitCode::from(2);
    }
    let folder = PathBuf::from(&arguments[0]);
    let moved = folder.join("moved.orbt");
    let store = match arguments.get(1) {
        Some(path) => PathBuf::from(path),
        None => {
            let path = folder.join("store.orbt");
            save(&path, &EMPTY, MADE, &or_end("build", library::build(&GIVEN)));
            path
        }
    };

    let file = load(&store);
    let count = or_end("store", library::contents(&file));
    println!("store: {} bytes, records: {count}", file.len());
    let satellite = match arguments.get(2) {
        Some(text) => text.parse().unwrap_or(0),
        None => or_end("store", library::satellite(&file, 0)),
    };
    let mut orbit = restore(&file, satellite);

    // an hour about the next step, away from the epoch: an orbit's state only moves on
    let start = orbit.state.map_or(0.0, |state| state[0]);
    let way = if start < 0.0 { -1.0 } else { 1.0 };
    let times: Vec<f64> = (0..=6).map(|i| start + way * (690.0 + 10.0 * f64::from(i))).collect();
    let answers: Vec<Asked> = times.iter().map(|t| ask(&mut orbit, *t)).collect();
    // and back, which a state that has moved refuses
    let _ = ask(&mut orbit, start);

    save(&moved, &file, satellite, &orbit);
    let mut taken = restore(&load(&moved), satellite);
    let is_same = is_same(&ask(&mut taken, times[6]), &answers[6]);
    println!("the new file's answer {}", if is_same { "has the same bits" } else { "differs" });
    if is_same {
        ExitCode::SUCCESS
    } else {
        ExitCode::FAILURE
    }
}
