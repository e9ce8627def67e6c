//! Carries the library's elements on to positions and velocities, as sgp4's `propagate_from_state` has
//! it, and compares them with the published ones of the deep-space sets (tcppver.out). Prints a row to
//! a set, and ends with 1 where a position is further off than the bound.
use measure::orbits::{model, published, question, whole, Orbit};
use measure::rust::{Own, Rust};
use measure::tally::verdict;
use orbt::orbits::{ask, build, class, fresh};
use std::f64::consts::TAU;
use std::process::ExitCode;

/// km; the published positions have eight digits after the point, and another program's floats
const BOUND: f64 = 1e-5;

/// The set that has no position: an error at once, after which its row repeats the set before.
const LISTED: &str = "33334";

// position in km and velocity in km/s from an ask's twelve numbers
fn carried(x: &Orbit, elements: &[f64; 12]) -> [f64; 6] {
    let [ae, ke, j2, _, _] = model(x.is_wgs72);
    let [i, node, e, w, m, n, a, p32, p33, p34, p35, p36] = *elements;
    let p37 = 1.0 / (a * (1.0 - e * e));
    let axn = e * w.cos();
    let ayn = e * w.sin() + p37 * p32;
    let p38 = (m + w + p37 * p35 * axn) % TAU;
    let mut ew = p38;
    for _ in 0..10 {
        let delta = (p38 - ayn * ew.cos() + axn * ew.sin() - ew) / (1.0 - ew.cos() * axn - ew.sin() * ayn);
        if delta.abs() < 1.0e-12 {
            break;
        }
        ew += delta.clamp(-0.95, 0.95);
    }
    let p39 = axn * axn + ayn * ayn;
    let pl = a * (1.0 - p39);
    let p40 = axn * ew.sin() - ayn * ew.cos();
    let r = a * (1.0 - (axn * ew.cos() + ayn * ew.sin()));
    let b = (1.0 - p39).sqrt();
    let p41 = p40 / (1.0 + b);
    let p42 = a / r * (ew.sin() - ayn - axn * p41);
    let p43 = a / r * (ew.cos() - axn + ayn * p41);
    let (p44, p45) = (2.0 * p43 * p42, 1.0 - 2.0 * p42 * p42);
    let half = 0.5 * j2 / pl;
    let p46 = half / pl;
    let rk = r * (1.0 - 1.5 * p46 * b * p36) + 0.5 * half * p33 * p45;
    let uk = p42.atan2(p43) - 0.25 * p46 * p34 * p44;
    let ik = i + 1.5 * p46 * i.cos() * i.sin() * p45;
    let nodek = node + 1.5 * p46 * i.cos() * p44;
    let rk_dot = a.sqrt() * p40 / r - n * half * p33 * p44 / ke;
    let rfk_dot = pl.sqrt() / r + n * half * (p33 * p45 + 1.5 * p36) / ke;
    let u = [
        -nodek.sin() * ik.cos() * uk.sin() + nodek.cos() * uk.cos(),
        nodek.cos() * ik.cos() * uk.sin() + nodek.sin() * uk.cos(),
        ik.sin() * uk.sin(),
    ];
    let v = [
        -nodek.sin() * ik.cos() * uk.cos() - nodek.cos() * uk.sin(),
        nodek.cos() * ik.cos() * uk.cos() - nodek.sin() * uk.sin(),
        ik.sin() * uk.cos(),
    ];
    std::array::from_fn(|k| match k {
        0..=2 => rk * u[k] * ae,
        _ => (rk_dot * u[k - 3] + rfk_dot * v[k - 3]) * (ae * ke / 60.0),
    })
}

// the rows after a set's line, of the sets with this number the one after so many: time, position, velocity
fn rows(text: &str, satellite: &str, before: usize) -> Vec<[f64; 7]> {
    let head = format!("{} xx", satellite.parse::<u32>().unwrap());
    let lines: Vec<&str> = text.lines().map(str::trim).collect();
    let mut heads = lines.iter().enumerate().filter(|(_, line)| **line == head);
    let Some((at, _)) = heads.nth(before) else { return vec![] };
    let after = lines[at + 1..].iter().take_while(|line| !line.ends_with("xx"));
    let numbers = |line: &str| -> Vec<f64> {
        line.split_whitespace().take(7).filter_map(|word| word.parse().ok()).collect()
    };
    after.filter_map(|line| numbers(line).try_into().ok()).collect()
}

fn apart(a: &[f64], b: &[f64]) -> f64 {
    a.iter().zip(b).map(|(a, b)| (a - b).powi(2)).sum::<f64>().sqrt()
}

#[derive(Default)]
struct Row {
    times: u32,
    off: u32,
    /// asks of the listed set that the library and sgp4 refuse alike
    refused: u32,
    /// km and km/s from the published ones, and km from sgp4 with its own floats
    worst: [f64; 3],
}

fn compare(x: &Orbit, is_listed: bool, published: &[[f64; 7]]) -> Row {
    let rust = Own::build(x);
    let ours = build(x.is_afspc_time, x.flag as u32, &x.given(&Own::rates())).expect("a build is refused");
    let mut row = Row::default();
    for at in published {
        let asked = question(&ours.numbers, at[0]);
        let reply = Own::ask(&rust, &mut Own::fresh(&rust), asked, x.flag);
        let a = ask(&ours, fresh(&ours), &whole(asked, &Own::effects()));
        row.times += 1;
        let far = match (a.number, reply) {
            (0, Ok(elements)) => {
                let (here, beside) = (carried(x, &a.elements), carried(x, &elements));
                [apart(&here[..3], &at[1..4]), apart(&here[3..], &at[4..]), apart(&here[..3], &beside[..3])]
            }
            (ours, Err((number, _))) if is_listed && ours == number => {
                row.refused += 1;
                continue;
            }
            _ => [f64::INFINITY; 3],
        };
        row.off += (far[0] > BOUND || far[0].is_nan()) as u32;
        row.worst = std::array::from_fn(|k| if far[k] <= row.worst[k] { row.worst[k] } else { far[k] });
    }
    row
}

fn main() -> ExitCode {
    let mut paths = std::env::args().skip(1);
    let (Some(sets), Some(positions)) = (paths.next(), paths.next()) else {
        eprintln!("no published positions: python3-sgp4 is not installed");
        return ExitCode::SUCCESS;
    };
    let sets = published(&sets);
    let text = std::fs::read_to_string(positions).expect("no such file of positions");
    println!(
        "| Set | Kind | Times | Refused alike | Differed | Worst | Velocity, km/s | From sgp4's own, km |"
    );
    println!("|---|---|---|---|---|---|---|---|");
    let (mut count, mut refused, mut wrong) = (0, 0, 0);
    for (place, set) in sets.iter().enumerate() {
        // WGS72 with the IAU time, and no flag, as they were published
        let x = &set.orbit[1];
        let before = sets[..place].iter().filter(|other| other.satellite == set.satellite).count();
        let row = compare(x, set.satellite == LISTED, &rows(&text, &set.satellite, before));
        let kind = ["non-resonant", "one-day", "half-day"][class(x.elements[5], x.elements[2]) as usize];
        let [km, speed, own] = row.worst.map(|x| if x == 0.0 { "-".to_string() } else { format!("{x:.1e}") });
        println!(
            "| {} | {kind} | {} | {} | {} | {km} | {speed} | {own} |",
            set.satellite, row.times, row.refused, row.off
        );
        count += row.times;
        refused += row.refused;
        wrong += row.off;
    }
    println!("\n{count} positions, {refused} refused alike, {wrong} further off than {BOUND:e} km");
    verdict(wrong == 0)
}
