//! Saves and restores by the library, beside the judge of `measure::store`, which has document 01 alone:
//! the number, the steps of the replay, what is restored by bits, every byte of an output and of what
//! lies around it, and the list of a file's satellites. Prints how often each number came up, a row to a
//! call and a family of cases, and ends with 1 where anything differs or a number never came up.
use measure::beside;
use measure::orbits::MOTIONS;
use measure::random::Random;
use measure::store::{
    body, carried, contents, file, restore_number, save_number, size_of, Record, HEADER, LIMIT, MOST,
};
use measure::tally::verdict;
use orbt::orbits::{Constants, State};
use orbt::store;
use std::collections::BTreeMap;
use std::process::ExitCode;

// the numbers that may come up, in the order of the columns
const NUMBERS: [u32; 10] = [0, 4, 5, 14, 15, 16, 17, 18, 19, 20];
const OF_RESTORES: [u32; 6] = [0, 14, 15, 16, 17, 18];
const OF_SAVES: [u32; 9] = [0, 4, 5, 14, 16, 17, 18, 19, 20];

// bytes on either side of an output, and the longest output
const MARGIN: usize = 16;
const ROOM: usize = 49152;

#[derive(Default)]
struct Row {
    counts: BTreeMap<u32, u64>,
    cases: u64,
    differed: u64,
}

struct Run {
    family: &'static str,
    rows: BTreeMap<(&'static str, &'static str), Row>,
    order: Vec<(&'static str, &'static str)>,
    // the old file at an address of any remainder
    place: Vec<u8>,
    // an output before a save, and the one that is lent
    before: Vec<u8>,
    out: Vec<u8>,
    cases: usize,
}

fn bits(c: &Constants, state: State) -> (u32, u32, Vec<u64>) {
    let numbers = c.numbers.iter().chain(state.iter().flatten());
    (c.kind, c.flag, numbers.map(|x| x.to_bits()).collect())
}

impl Run {
    fn new() -> Run {
        let before: Vec<u8> = (0..ROOM + 2 * MARGIN).map(|k| (k * 151 % 251) as u8 ^ 0x5A).collect();
        let (rows, place) = (BTreeMap::new(), vec![0; ROOM + 8]);
        Run { family: "", rows, order: vec![], place, out: before.clone(), before, cases: 0 }
    }

    fn take(&mut self, call: &'static str, number: u32, is_same: bool, what: impl Fn() -> String) {
        let key = (call, self.family);
        let row = self.rows.entry(key).or_insert_with(|| {
            self.order.push(key);
            Row::default()
        });
        *row.counts.entry(number).or_default() += 1;
        row.cases += 1;
        if !is_same {
            row.differed += 1;
            if row.differed == 1 {
                eprintln!("{call}, {}: {}", self.family, what());
            }
        }
    }

    fn list(&mut self, bytes: &[u8]) {
        let records = contents(bytes);
        let number = if records.is_some() { 0 } else { 14 };
        let satellites: Vec<u32> = records.unwrap_or_default().iter().map(|record| record.0).collect();
        let count = satellites.len() as u32;
        let told = if number == 0 { Ok(count) } else { Err(14) };
        let ours = store::contents(bytes);
        let mut is_same = ours == told;
        for place in [0, 1, count.wrapping_sub(1), count, count + 1, u32::MAX] {
            let told = match satellites.get(place as usize) {
                _ if number == 14 => Err(14),
                Some(&satellite) => Ok(satellite),
                None => Err(15),
            };
            is_same &= store::satellite(bytes, place) == told;
        }
        self.take("list", number, is_same, || format!("{ours:?} for {told:?}"));
    }

    fn restore(&mut self, bytes: &[u8], satellite: u32) {
        self.cases += 1;
        let from = self.cases % 8;
        self.place[from..from + bytes.len()].copy_from_slice(bytes);
        let place = std::mem::take(&mut self.place);
        self.restore_there(&place[from..from + bytes.len()], satellite);
        if self.cases.is_multiple_of(8) {
            self.list(&place[from..from + bytes.len()]);
        }
        self.place = place;
    }

    fn restore_there(&mut self, bytes: &[u8], satellite: u32) {
        let told = restore_number(bytes, satellite);
        let ours = store::restore(bytes, satellite);
        let of = |record: &Option<(Constants, State)>| record.as_ref().map(|(c, state)| bits(c, *state));
        let is_same =
            ours.number == told.number && ours.steps == told.steps && of(&ours.record) == of(&told.record);
        self.take("restore", told.number, is_same, || {
            let (number, steps) = (ours.number, ours.steps);
            let few = &bytes[..bytes.len().min(400)];
            format!(
                "{number} after {steps} for {} after {}: {satellite} of {few:02X?}",
                told.number, told.steps
            )
        });
    }

    fn save(&mut self, old: &[u8], room: usize, satellite: u32, c: &Constants, state: State) -> Vec<u8> {
        self.cases += 1;
        let from = self.cases % 8;
        self.place[from..from + old.len()].copy_from_slice(old);
        let place = std::mem::take(&mut self.place);
        let new = self.save_there(&place[from..from + old.len()], room, satellite, c, state);
        self.place = place;
        new
    }

    fn save_there(
        &mut self,
        old: &[u8],
        room: usize,
        satellite: u32,
        c: &Constants,
        state: State,
    ) -> Vec<u8> {
        let told = save_number(old, room, satellite, c, state);
        let from = MARGIN + self.cases % 3;
        let ours = store::save(old, &mut self.out[from..from + room], satellite, c, state);
        let is_answer = ours == if told.number == 0 { Ok(told.file.len()) } else { Err(told.number) };
        let end = from + told.file.len();
        let is_same = is_answer
            && self.out[..from] == self.before[..from]
            && self.out[from..end] == told.file
            && self.out[end..] == self.before[end..];
        // as it was, wherever the call wrote
        self.out.copy_from_slice(&self.before);
        self.take("save", told.number, is_same, || {
            let size = told.file.len();
            format!("{ours:?} for {} with {size} bytes: {satellite} into {} bytes", told.number, old.len())
        });
        told.file
    }

    fn print(&self) -> bool {
        print!("| Call | Cases of |");
        NUMBERS.iter().for_each(|number| print!(" {number} |"));
        println!(" Cases | Differed |");
        println!("|---|---|{}---|---|", "---|".repeat(NUMBERS.len()));
        let (mut cases, mut differed) = (0, 0);
        for key in &self.order {
            let row = &self.rows[key];
            print!("| {} | {} |", key.0, key.1);
            NUMBERS.iter().for_each(|number| print!(" {} |", row.counts.get(number).unwrap_or(&0)));
            println!(" {} | {} |", row.cases, row.differed);
            cases += row.cases;
            differed += row.differed;
        }
        let mut are_all = true;
        for (call, numbers) in [("restore", &OF_RESTORES[..]), ("save", &OF_SAVES[..])] {
            for number in numbers {
                let has = |key: &&(&str, &str)| key.0 == call && self.rows[key].counts.contains_key(number);
                if !self.order.iter().any(|key| has(&key)) {
                    eprintln!("no {call} came to {number}");
                    are_all = false;
                }
            }
        }
        println!("\n{cases} cases, {differed} differed");
        differed == 0 && are_all
    }
}

// ---- what is saved and restored

struct Pool(Vec<(Constants, State)>);

impl Pool {
    fn new() -> Pool {
        let mut r = Random::stream(700);
        Pool((0..600).map(|k| r.record(k % 3, [0, 3, 12, 40][k as usize / 3 % 4])).collect())
    }

    fn any(&self, r: &mut Random) -> (Constants, State) {
        self.0[r.below(self.0.len() as u64) as usize]
    }

    // a body: one of the pool's, or bytes of a length that may be a body's
    fn body(&self, r: &mut Random) -> Vec<u8> {
        let (c, state) = self.any(r);
        let mut bytes = body(&c, state);
        match r.below(8) {
            0 => bytes.truncate(r.below(40) as usize),
            1 => bytes.iter_mut().for_each(|b| *b = r.bits() as u8),
            2 => bytes.resize(r.below(320) as usize, r.bits() as u8),
            _ => {}
        }
        bytes
    }

    fn records(&self, r: &mut Random, count: usize) -> Vec<Record> {
        let mut satellites: Vec<u32> = (0..count).map(|_| r.satellite()).collect();
        satellites.sort();
        satellites.dedup();
        satellites.into_iter().map(|satellite| (satellite, self.body(r))).collect()
    }
}

trait Draw {
    fn satellite(&mut self) -> u32;
    fn number(&mut self, there: f64) -> f64;
    fn of(&mut self, satellites: &[u32]) -> u32;
}

impl Draw for Random {
    // few enough that many are there already
    fn satellite(&mut self) -> u32 {
        match self.below(8) {
            0 => u32::MAX - self.below(3) as u32,
            1 => self.bits() as u32,
            _ => self.below(24) as u32,
        }
    }

    // a number in the place of another
    fn number(&mut self, there: f64) -> f64 {
        match self.below(12) {
            0 => f64::from_bits(
                [0x7FF8 << 48, 0xFFF8 << 48, 0x7FF0 << 48, 0xFFF0 << 48][self.below(4) as usize],
            ),
            1 => f64::from_bits(0x7FF0_0000_0000_0001 + self.below(1 << 50)),
            2 => -0.0,
            3 => -there,
            4 => 720.0 * self.below(60) as f64,
            5 => -720.0 * (1 + self.below(60)) as f64,
            6 => beside(MOTIONS[self.below(4) as usize], self.below(3) as i64 - 1),
            7 => self.any(),
            8 => [2e6, 1e308, 100.0, 360.0, 1.0, LIMIT + 720.0, -LIMIT - 720.0, 0.5][self.below(8) as usize],
            9 => f64::from_bits(there.to_bits() ^ (1 << self.below(52))),
            _ => beside(there, self.below(3) as i64 - 1),
        }
    }

    // one of these, or now and then any
    fn of(&mut self, satellites: &[u32]) -> u32 {
        if satellites.is_empty() || self.below(16) == 0 {
            return self.satellite();
        }
        satellites[self.below(satellites.len() as u64) as usize]
    }
}

fn satellites(records: &[Record]) -> Vec<u32> {
    records.iter().map(|record| record.0).collect()
}

// a constants' or state's number is another, and now and then the kind, the flag or the state is
fn altered(r: &mut Random, (c, state): (Constants, State)) -> (Constants, State) {
    let (mut c, mut state) = (c, state);
    match r.below(12) {
        0 => c.kind = r.below(5) as u32,
        1 => c.flag = r.below(4) as u32,
        2 => state = if state.is_some() { None } else { Some([0.0, c.numbers[10], c.numbers[20]]) },
        3..=6 => {
            let place = r.below(34) as usize;
            c.numbers[place] = r.number(c.numbers[place]);
        }
        7 => {
            for place in [7, 10] {
                c.numbers[place] = r.number(c.numbers[place]);
            }
        }
        _ => {
            if let Some(state) = &mut state {
                let place = r.below(3) as usize;
                state[place] = r.number(state[place]);
            }
        }
    }
    (c, state)
}

fn number_at(from: usize, place: usize) -> usize {
    from + 8 + 8 * place
}

// ---- the families

fn every_byte(run: &mut Run, pool: &Pool) {
    let [a, b, d] = [0, 1, 2].map(|k| {
        let (c, _) = pool.0[k];
        body(&c, carried(&c, [0.0, 1440.0, -720.0][k]))
    });
    let files = [
        vec![(7, a.clone())],
        vec![(7, b.clone())],
        vec![(7, d)],
        vec![(3, a), (4, vec![1, 2, 3]), (0xFEDC_BA98, b)],
    ];
    for records in files {
        let right = file(&records);
        run.family = "each byte to each other value";
        for satellite in satellites(&records) {
            let mut bytes = right.clone();
            for at in 0..bytes.len() {
                for flip in 1..=255 {
                    bytes[at] = right[at] ^ flip;
                    run.restore(&bytes, satellite);
                }
                bytes[at] = right[at];
            }
        }
        run.family = "each length, and a byte more";
        for satellite in satellites(&records) {
            for size in 0..=right.len() {
                run.restore(&right[..size], satellite);
            }
            for value in 0..=255 {
                run.restore(&[&right[..], &[value]].concat(), satellite);
            }
        }
    }
}

fn changed_numbers(run: &mut Run, pool: &Pool) {
    let mut r = Random::stream(710);
    run.family = "a number of the body is another";
    for _ in 0..300_000 {
        let (c, state) = pool.any(&mut r);
        let mut bytes = file(&[(5, body(&c, state))]);
        for _ in 0..1 + r.below(5) / 4 {
            let place = r.below((size_of(c.kind) as u64 - 8) / 8) as usize;
            let at = number_at(20, place);
            let there = f64::from_bits(u64::from_le_bytes(bytes[at..at + 8].try_into().unwrap()));
            bytes[at..at + 8].copy_from_slice(&r.number(there).to_le_bytes());
        }
        run.restore(&bytes, 5);
    }
}

fn changed_files(run: &mut Run, pool: &Pool) {
    let mut r = Random::stream(720);
    run.family = "files drawn at random, as they are";
    for _ in 0..60_000 {
        let count = r.below(7) as usize;
        let records = pool.records(&mut r, count);
        run.restore(&file(&records), r.of(&satellites(&records)));
    }
    run.family = "a number of the contents is another";
    for _ in 0..150_000 {
        let count = 1 + r.below(5) as usize;
        let mut records = pool.records(&mut r, count);
        if r.below(8) == 0 {
            let (i, j) = (r.below(records.len() as u64) as usize, r.below(records.len() as u64) as usize);
            records.swap(i, j);
        }
        let satellite = r.of(&satellites(&records));
        let mut bytes = file(&records);
        let at = if r.below(10) == 0 { 4 } else { 8 + 4 * r.below(3 * records.len() as u64) as usize };
        let there = u32::from_le_bytes(bytes[at..at + 4].try_into().unwrap());
        let other = match r.below(8) {
            0 => r.bits() as u32,
            1 => r.of(&satellites(&records)),
            2 => there ^ (1 << r.below(32)),
            3 => u32::MAX - r.below(4) as u32,
            4 => there,
            _ => there.wrapping_add(r.below(5) as u32).wrapping_sub(2),
        };
        bytes[at..at + 4].copy_from_slice(&other.to_le_bytes());
        run.restore(&bytes, satellite);
    }
    run.family = "lengths moved from one body to the next";
    for _ in 0..60_000 {
        let mut records = pool.records(&mut r, 4);
        if records.len() < 2 {
            continue;
        }
        let k = r.below(records.len() as u64 - 1) as usize;
        let size = records[k].1.len();
        let moved = records[k].1.split_off(size - size.min(r.below(9) as usize));
        records[k + 1].1.splice(0..0, moved);
        run.restore(&file(&records), r.of(&satellites(&records)));
    }
    run.family = "bytes at random after a right header";
    for _ in 0..60_000 {
        let count = r.below(4) as u8;
        let size = r.below(12 * count as u64 + 20) as usize;
        let mut bytes = [&HEADER[..], &[count, 0]].concat();
        bytes.extend((0..size).map(|_| if r.below(3) == 0 { r.bits() as u8 } else { 0 }));
        // now and then the first body starts where it should
        if size >= 8 && r.below(2) == 0 {
            bytes[12..16].copy_from_slice(&(8 + 12 * count as u32).to_le_bytes());
        }
        run.restore(&bytes, r.below(3) as u32);
    }
}

fn saves(run: &mut Run, pool: &Pool) {
    let mut r = Random::stream(730);
    for k in 0..300_000 {
        let count = r.below(6) as usize;
        let records = pool.records(&mut r, count);
        let mut old = file(&records);
        let satellite = r.satellite();
        let mut record = pool.any(&mut r);
        run.family = "built records, right files";
        if k % 2 == 1 {
            record = altered(&mut r, record);
            run.family = "altered records, right files";
        }
        if k % 8 == 7 {
            let at = r.below(old.len() as u64) as usize;
            old[at] ^= 1 << r.below(8);
            run.family = "altered records, a bit of the file is another";
        }
        let size = file(&records).len() + 12 + size_of(record.0.kind.min(2));
        let there =
            records.iter().find(|record| record.0 == satellite).map_or(0, |record| 12 + record.1.len());
        let room = match r.below(6) {
            0 => size - there,
            1 => size - there - 1,
            2 => size - there + r.below(9) as usize,
            3 => r.below(size as u64) as usize,
            _ => size + 100,
        };
        let new = run.save(&old, room, satellite, &record.0, record.1);
        if !new.is_empty() {
            run.family = "files that were saved";
            run.restore(&new, satellite);
            run.restore(&new, r.of(&satellites(&records)));
        }
    }
    run.family = "stores that grow to 128 records and on";
    for _ in 0..20 {
        let mut old = file(&[]);
        for _ in 0..400 {
            let (c, state) = pool.any(&mut r);
            let satellite = r.below(170) as u32;
            let new = run.save(&old, ROOM - 64, satellite, &c, state);
            let size = if new.is_empty() { old.len() } else { new.len() };
            run.save(&old, size - 1, satellite, &c, state);
            if !new.is_empty() {
                old = new;
            }
            run.restore(&old, satellite);
            run.restore(&old, r.below(170) as u32);
        }
    }
}

fn full_files(run: &mut Run, pool: &Pool) {
    let mut r = Random::stream(740);
    run.family = "128 records, and one too many";
    for round in 0..60 {
        let count = MOST + (round % 3 == 2) as usize;
        let half = pool.0[2];
        let records: Vec<Record> = (0..count as u32)
            .map(|k| (3 * k + 1, if round % 2 == 0 { body(&half.0, half.1) } else { pool.body(&mut r) }))
            .collect();
        let old = file(&records);
        for _ in 0..40 {
            let (c, state) = pool.any(&mut r);
            let satellite = r.below(3 * count as u64 + 2) as u32;
            for room in [ROOM - 64, 0] {
                run.save(&old, room, satellite, &c, state);
            }
            run.restore(&old, satellite);
        }
        for satellite in [0, 1, 2, 3 * count as u32 - 2, 3 * count as u32 - 1, u32::MAX] {
            run.restore(&old, satellite);
        }
    }
}

fn times(run: &mut Run, pool: &Pool) {
    run.family = "the state's time";
    for (c, state) in &pool.0 {
        let Some([_, n, l]) = *state else { continue };
        for t in [
            0.0,
            -0.0,
            1.0,
            5e-324,
            360.0,
            719.0,
            beside(720.0, -1),
            720.0,
            beside(720.0, 1),
            -720.0,
            beside(LIMIT, 1),
            LIMIT + 720.0,
            -LIMIT - 720.0,
            1e300,
            f64::NAN,
            f64::INFINITY,
            f64::NEG_INFINITY,
        ] {
            run.restore(&file(&[(5, body(c, Some([t, n, l])))]), 5);
            run.save(&file(&[]), ROOM - 64, 5, c, Some([t, n, l]));
        }
    }
    run.family = "to the limit of times, and a bit off there";
    for k in [1, 2] {
        let (c, _) = pool.0[k];
        for t in [LIMIT, -LIMIT] {
            let end = carried(&c, t).unwrap();
            for off in [0, 1] {
                let state = Some([end[0], end[1], f64::from_bits(end[2].to_bits() ^ off)]);
                run.restore(&file(&[(5, body(&c, state))]), 5);
                run.save(&file(&[]), ROOM - 64, 5, &c, state);
            }
        }
        // the longitude runs away: a step on the way is refused
        let mut c = c;
        for speed in [0.001, 0.1, 10.0, 1000.0] {
            c.numbers[21] = speed;
            for t in [LIMIT, -LIMIT, 720.0 * 4096.0] {
                let state = Some([t, c.numbers[10], c.numbers[20]]);
                run.restore(&file(&[(5, body(&c, state))]), 5);
                run.save(&file(&[]), ROOM - 64, 5, &c, state);
            }
        }
    }
}

// numbers that only C can give: 16 before all else, and nothing is written
fn calls_from_c(run: &mut Run, pool: &Pool) {
    run.family = "a kind, flag or held that is no such number";
    for k in 0..3 {
        let (c, state) = pool.0[k];
        for old in [file(&[]), vec![]] {
            for (kind, flag, held) in [
                (3, 0, 0),
                (3, 1, 1),
                (u32::MAX, 0, 0),
                (c.kind, 2, 1),
                (c.kind, 256, 0),
                (c.kind, 1, 2),
                (0, 0, u32::MAX),
            ] {
                let wrong = Constants { kind, flag, ..c };
                let out = &mut run.out[MARGIN..MARGIN + 400];
                let ours = store::save_held(&old, out, 5, &wrong, held, state.unwrap_or([0.0; 3]));
                let is_same = ours == Err(16) && run.out == run.before;
                run.take("save", 16, is_same, || format!("{ours:?} for 16: {kind}, {flag}, {held}"));
            }
        }
    }
}

// files about 2^32 bytes: pages that nothing is written to take no memory
fn large_files(run: &mut Run, pool: &Pool) {
    run.family = "files about 2^32 bytes";
    let mut bytes = vec![0u8; (1 << 32) + 1024];
    let all = [0, 1, 2].map(|k| pool.0[k]);
    let put = |bytes: &mut [u8], at: usize, part: &[u8]| bytes[at..at + part.len()].copy_from_slice(part);
    // one body, so long that a second record brings the new file to 2^32 bytes, or just below it
    for (c, state) in &all {
        for over in [0, 1, 2, 300] {
            let size = (1 << 32) - 1 + over - 12 - size_of(c.kind);
            let head = [&HEADER[..], &[1, 0]].concat();
            put(&mut bytes, 0, &head);
            for (k, x) in [9, 20, (size - 20) as u32].into_iter().enumerate() {
                put(&mut bytes, 8 + 4 * k, &x.to_le_bytes());
            }
            run.save_there(&bytes[..size], 1000, 8, c, *state);
            run.save_there(&bytes[..size], 1000, 10, c, *state);
            // in its own place there is no such body
            run.save_there(&bytes[..size], 1000, 9, c, *state);
            run.restore_there(&bytes[..size], 9);
            run.restore_there(&bytes[..size], 8);
            run.list(&bytes[..size]);
            run.restore_there(&bytes[..size - 1], 9);
            run.restore_there(&bytes[..size + 1], 9);
        }
    }
    // the last body starts below 2^32 and ends past it
    for (c, state) in &all {
        let last = body(c, *state);
        for start in [(1usize << 32) - 1, (1 << 32) - 100, (1 << 32) - last.len(), (1 << 32) - last.len() - 1]
        {
            let size = start + last.len();
            put(&mut bytes, 0, &[&HEADER[..], &[2, 0]].concat());
            for (k, x) in
                [1, 32, (start - 32) as u32, 2, start as u32, last.len() as u32].into_iter().enumerate()
            {
                put(&mut bytes, 8 + 4 * k, &x.to_le_bytes());
            }
            put(&mut bytes, start, &last);
            run.restore_there(&bytes[..size], 2);
            run.restore_there(&bytes[..size], 1);
            run.restore_there(&bytes[..size], 3);
            run.list(&bytes[..size]);
            // without the long body the new file is short
            run.save_there(&bytes[..size], 1000, 1, c, *state);
            run.save_there(&bytes[..size], 1000, 2, c, *state);
            run.save_there(&bytes[..size], 1000, 3, c, *state);
            put(&mut bytes, start, &vec![0; last.len()]);
        }
    }
}

fn main() -> ExitCode {
    let pool = Pool::new();
    let mut run = Run::new();
    every_byte(&mut run, &pool);
    changed_numbers(&mut run, &pool);
    changed_files(&mut run, &pool);
    saves(&mut run, &pool);
    full_files(&mut run, &pool);
    times(&mut run, &pool);
    calls_from_c(&mut run, &pool);
    large_files(&mut run, &pool);
    verdict(run.print())
}
