//! Writes the vector file that the program `vectors_store` replays, the same bytes at each run. What is
//! expected is the judge's of `measure::store`; the library's store is not called.
use measure::beside;
use measure::orbits::{ECCENTRICITIES, MOTIONS};
use measure::random::{Random, SEED};
use measure::store::{
    body, carried, file, numbers_of, restore_number, save_number, size_of, Record, HEADER, LIMIT, MOST,
};
use orbt::orbits::{Constants, State};
use std::fmt::Write;

// room of the program's arrays
const ROOM: usize = 4096;

// a longer replay is left to the full run
const MOST_STEPS: u32 = 2500;

// a record that differs in more is told by a line of its own
const MOST_CHANGES: usize = 3;

// what a record line tells: kind, flag, 34 numbers, 1 with a state, and the state
const PLACES: usize = 40;

type Told = [u64; PLACES];

fn told(c: &Constants, state: State) -> Told {
    let mut told = [0; PLACES];
    (told[0], told[1], told[36]) = (c.kind as u64, c.flag as u64, state.is_some() as u64);
    let numbers = &c.numbers[..numbers_of(c.kind)];
    for (place, x) in told[2..].iter_mut().zip(numbers) {
        *place = x.to_bits();
    }
    for (place, x) in told[37..].iter_mut().zip(state.iter().flatten()) {
        *place = x.to_bits();
    }
    told
}

// the record that these words tell
fn record_of(told: &Told) -> (Constants, State) {
    let numbers = std::array::from_fn(|k| f64::from_bits(told[2 + k]));
    let c = Constants { kind: told[0] as u32, flag: told[1] as u32, numbers };
    let state = (told[36] == 1).then(|| std::array::from_fn(|k| f64::from_bits(told[37 + k])));
    (c, state)
}

fn changed(c: &Constants, places: &[(usize, f64)]) -> Constants {
    let mut c = *c;
    for &(place, x) in places {
        c.numbers[place] = x;
    }
    c
}

struct Vectors {
    text: String,
    count: u64,
    file: Vec<u8>,
    new: Vec<u8>,
    told: Told,
}

impl Vectors {
    fn group(&mut self, why: &str) {
        writeln!(self.text, "# {why}").unwrap();
    }

    fn bytes(&mut self, name: &str, bytes: &[u8]) {
        assert!(bytes.len() <= ROOM);
        write!(self.text, "{name} ").unwrap();
        for b in bytes {
            write!(self.text, "{b:02X}").unwrap();
        }
        self.text += "\n";
    }

    // the file from now on
    fn file(&mut self, file: &[u8]) {
        self.bytes("file", file);
        self.file = file.to_vec();
    }

    // the record from now on
    fn record(&mut self, c: &Constants, state: State) {
        self.tell(told(c, state));
    }

    fn tell(&mut self, told: Told) {
        write!(self.text, "record {} {}", told[0], told[1]).unwrap();
        for x in &told[2..36] {
            write!(self.text, " {x:016X}").unwrap();
        }
        write!(self.text, " {}", told[36]).unwrap();
        for x in &told[37..] {
            write!(self.text, " {x:016X}").unwrap();
        }
        self.text += "\n";
        self.told = told;
    }

    // a restore from this file, which the words of `how` make of the one in force
    fn case(&mut self, how: &str, file: &[u8], satellite: u32) -> bool {
        let answer = restore_number(file, satellite);
        if answer.steps > MOST_STEPS {
            return false;
        }
        let mut tail = String::new();
        if let Some((c, state)) = answer.record {
            let restored = told(&c, state);
            let other: Vec<usize> = (0..PLACES).filter(|&k| restored[k] != self.told[k]).collect();
            if other.len() > MOST_CHANGES {
                self.tell(restored);
            } else {
                for place in other {
                    write!(tail, " {place:02X} {:016X}", restored[place]).unwrap();
                }
            }
        }
        writeln!(self.text, "{how} {satellite:08X} {:02} {:08X}{tail}", answer.number, answer.steps).unwrap();
        self.count += 1;
        true
    }

    fn restore(&mut self, satellite: u32) {
        let file = self.file.clone();
        assert!(self.case("restore", &file, satellite));
    }

    fn cut(&mut self, size: usize, satellite: u32) {
        let file = self.file[..size].to_vec();
        assert!(self.case(&format!("cut {size:04X}"), &file, satellite));
    }

    // one byte is another, or one is added; false where the replay would be long
    fn byte(&mut self, at: usize, value: u8, satellite: u32) -> bool {
        let mut file = self.file.clone();
        file.resize(file.len().max(at + 1), 0);
        file[at] = value;
        self.case(&format!("byte {at:04X} {value:02X}"), &file, satellite)
    }

    fn eight(&mut self, at: usize, value: u64, satellite: u32) -> bool {
        let mut file = self.file.clone();
        file[at..at + 8].copy_from_slice(&value.to_le_bytes());
        self.case(&format!("eight {at:04X} {value:016X}"), &file, satellite)
    }

    // a save of the record in force, with one place of it changed
    fn save_with(&mut self, satellite: u32, room: usize, change: Option<(usize, u64)>) -> Vec<u8> {
        assert!(room <= ROOM);
        let mut told = self.told;
        let mut tail = String::new();
        if let Some((place, value)) = change {
            told[place] = value;
            tail = format!(" {place:02X} {value:016X}");
        }
        let (c, state) = record_of(&told);
        let answer = save_number(&self.file, room, satellite, &c, state);
        if answer.number == 0 && answer.file != self.new {
            self.bytes("new", &answer.file);
            self.new.clone_from(&answer.file);
        }
        writeln!(self.text, "save {satellite:08X} {room:04X} {:02}{tail}", answer.number).unwrap();
        self.count += 1;
        answer.file
    }

    fn save(&mut self, satellite: u32, room: usize) -> Vec<u8> {
        self.save_with(satellite, room, None)
    }

    // the new file is the file from now on
    fn turn(&mut self) {
        self.text += "turn\n";
        self.file.clone_from(&self.new);
    }
}

const NANS: [u64; 4] =
    [0x7FF8_0000_0000_0000, 0xFFF8_0000_0000_0000, 0x7FF0_0000_0000_0001, 0x7FFF_FFFF_FFFF_FFFF];
const INFINITIES: [u64; 2] = [0x7FF0_0000_0000_0000, 0xFFF0_0000_0000_0000];

// the time that is stored, in place of the state's own
fn bad_times() -> Vec<u64> {
    let mut times: Vec<u64> = [
        -0.0,
        1.0,
        -1.0,
        5e-324,
        360.0,
        -360.0,
        719.0,
        beside(720.0, -1),
        beside(720.0, 1),
        -beside(1440.0, 1),
        LIMIT + 720.0,
        -LIMIT - 720.0,
        beside(LIMIT, 1),
        1e300,
        f64::MAX,
    ]
    .map(f64::to_bits)
    .to_vec();
    times.extend(NANS);
    times.extend(INFINITIES);
    times
}

// bytes that are no body
fn garbage(r: &mut Random, size: usize) -> Vec<u8> {
    (0..size).map(|_| r.bits() as u8).collect()
}

// the three kinds, a state a few steps forward and one back
fn kinds() -> [(Constants, State); 3] {
    let mut r = Random::stream(601);
    let (c, none) = r.record(0, 0);
    let (one, _) = r.record(1, 0);
    let (half, _) = r.record(2, 0);
    [(c, none), (one, carried(&one, 1440.0)), (half, carried(&half, -2160.0))]
}

fn empty(v: &mut Vectors) {
    let [(c, none), ..] = kinds();
    v.group("the empty file: any restore is 15, and satellite 7 makes it 196 bytes");
    v.file(&file(&[]));
    for satellite in [0, 7, u32::MAX] {
        v.restore(satellite);
    }
    v.record(&c, none);
    for room in [196, ROOM, 197, 195, 8, 0] {
        v.save(7, room);
    }
    v.turn();
    for satellite in [7, 6, 8] {
        v.restore(satellite);
    }
    v.group("no bytes are no file");
    v.file(&[]);
    v.restore(7);
    v.save(7, ROOM);
}

// where a number is, of the body that starts at `from`
fn number_at(from: usize, place: usize) -> usize {
    from + 8 + 8 * place
}

fn changed_bytes(v: &mut Vectors) {
    let [(c, none), (one, state), (half, other)] = kinds();
    let files =
        [file(&[(7, body(&c, none)), (0x01020304, body(&one, state))]), file(&[(9, body(&half, other))])];
    v.group("each byte of two files is another, three times: header and contents, a non-resonant body, a one-day body");
    for (k, bytes) in files.iter().enumerate() {
        if k == 1 {
            v.group("the same, a half-day body");
        }
        v.file(bytes);
        let satellites = if k == 0 { [7, 0x01020304] } else { [9, 9] };
        for satellite in satellites {
            v.restore(satellite);
            // a byte of the other body is not looked at
            let from = 8 + 12 * if k == 0 { 2 } else { 1 };
            let second = from + if k == 0 { size_of(0) } else { 0 };
            for (at, byte) in bytes.iter().enumerate() {
                let is_here = at < from || (satellite == 7) == (at < second);
                let count = if is_here { 3 } else { 1 };
                let flips = [1 << (at % 8), 0x80, 0xFF, 0x08, 0x55];
                let mut made = 0;
                for flip in flips {
                    if made < count && v.byte(at, byte ^ flip, satellite) {
                        made += 1;
                    }
                }
                assert!(made == count);
            }
            if k == 1 {
                break;
            }
        }
    }
    v.group("the same two files, cut at each length, and a byte longer");
    for (k, bytes) in files.iter().enumerate() {
        v.file(bytes);
        let satellite = [0x01020304, 9][k];
        for size in 0..bytes.len() {
            v.cut(size, satellite);
            if k == 0 && size % 8 == 0 {
                v.cut(size, 7);
            }
        }
        v.cut(bytes.len(), satellite);
        for value in [0, 1, 0xFF] {
            v.byte(bytes.len(), value, satellite);
        }
    }
}

fn kinds_and_flags(v: &mut Vectors) {
    let all = kinds();
    v.group("16: the kind, the flag and the six zero bytes; lengths that are another kind's; a flag of 2 is not true");
    for (c, state) in &all {
        v.file(&file(&[(5, body(c, *state))]));
        for kind in [0, 1, 2, 3, 4, 0x7F, 0x80, 0xFF] {
            v.byte(20, kind, 5);
        }
        for flag in [0, 1, 2, 3, 0x80, 0xFF] {
            v.byte(21, flag, 5);
        }
        for at in 22..28 {
            for value in [0, 1, 2, 0x80, 0xFF] {
                v.byte(at, value, 5);
            }
        }
    }
    v.group("16: lengths that no kind has, a body of no bytes among them, and the right bytes with one more or one less");
    for (c, state) in &all {
        let right = body(c, *state);
        for size in [0, 1, 2, 7, 8, 9, 16, 20, 168, 175, 176, 177, 184, 239, 240, 241, 303, 304, 305, 312] {
            let mut bytes = right.clone();
            bytes.resize(size, 0);
            v.file(&file(&[(5, bytes)]));
            v.restore(5);
        }
    }
    v.group("16: n at each limit of the classes and the float to each side, and e about 0.5");
    for (c, state) in &all {
        v.file(&file(&[(5, body(c, *state))]));
        for n in MOTIONS {
            for k in [-1, 0, 1] {
                v.eight(number_at(20, 10), beside(n, k).to_bits(), 5);
            }
        }
        for e in ECCENTRICITIES {
            for k in [-1, 0, 1] {
                v.eight(number_at(20, 7), beside(e, k).to_bits(), 5);
            }
        }
    }
    v.group("n and e as the class has them, the state fresh: the limits of each class are in it or not");
    for (c, _) in &all[1..] {
        for n in MOTIONS {
            for k in [-1, 0, 1] {
                let c = changed(c, &[(10, beside(n, k)), (7, 0.5)]);
                v.file(&file(&[(5, body(&c, carried(&c, 0.0)))]));
                v.restore(5);
                v.eight(number_at(20, 7), beside(0.5, -1).to_bits(), 5);
            }
        }
    }
}

fn wrong_contents(v: &mut Vectors) {
    let [(c, none), (one, state), _] = kinds();
    let mut r = Random::stream(611);
    let three: Vec<Record> =
        vec![(3, garbage(&mut r, 5)), (4, body(&c, none)), (0x8000_0000, body(&one, state))];
    let right = file(&three);
    v.group("14: versions, counts and the mark");
    v.file(&right);
    for satellite in [3, 4, 0x8000_0000, 0, 5, u32::MAX] {
        v.restore(satellite);
    }
    for (at, value) in [
        (4, 0),
        (4, 2),
        (4, 0xFF),
        (5, 1),
        (6, 0),
        (6, 1),
        (6, 2),
        (6, 4),
        (6, 0x80),
        (6, 0x81),
        (6, 0xFF),
        (7, 1),
        (7, 0xFF),
    ] {
        v.byte(at, value, 4);
    }
    for word in [
        0x0000_0001_5442_524F,
        0xFFFF_0001_5442_524F,
        0x0003_0002_5442_524F,
        0x0003_0100_5442_524F,
        0x0003_0001_4F52_4254,
    ] {
        v.eight(0, word, 4);
    }
    let entry = |satellite: u32, offset: u32, size: u32| {
        [satellite, offset, size].iter().flat_map(|x| x.to_le_bytes()).collect::<Vec<u8>>()
    };
    let with = |entries: [[u32; 3]; 3]| {
        let mut bytes = right.clone();
        for (k, [satellite, offset, size]) in entries.into_iter().enumerate() {
            bytes[8 + 12 * k..20 + 12 * k].copy_from_slice(&entry(satellite, offset, size));
        }
        bytes
    };
    let [a, b, d] = [[3, 44, 5], [4, 49, 176], [0x8000_0000, 225, 240]];
    v.group("14: entries in another order, satellites equal or descending, and as 32 bits without a sign");
    for entries in [
        [b, a, d],
        [a, d, b],
        [d, b, a],
        [[4, 44, 5], b, d],
        [[5, 44, 5], b, d],
        [a, [3, 49, 176], d],
        [a, [0, 49, 176], d],
        [a, [0x8000_0000, 49, 176], d],
        [a, [0x8000_0001, 49, 176], d],
        [a, b, [4, 225, 240]],
        [a, b, [u32::MAX, 225, 240]],
        [[0, 44, 5], b, d],
    ] {
        v.file(&with(entries));
        for satellite in [3, 4, 0x8000_0000] {
            v.restore(satellite);
        }
    }
    v.group("14: bodies that do not follow each other: gaps, overlaps, lengths that wrap 32 bits; the end of the file is theirs");
    for entries in [
        [[3, 43, 5], b, d],
        [[3, 45, 5], b, d],
        [[3, 44, 6], b, d],
        [[3, 44, 4], b, d],
        [a, [4, 48, 176], d],
        [a, [4, 50, 176], d],
        [a, [4, 49, 175], d],
        [a, [4, 49, 177], d],
        [a, b, [0x8000_0000, 224, 240]],
        [a, b, [0x8000_0000, 226, 239]],
        [a, b, [0x8000_0000, 225, 239]],
        [a, b, [0x8000_0000, 225, 241]],
        [a, [4, 49, u32::MAX], [0x8000_0000, 48, 240]],
        [a, [4, 49, u32::MAX - 63], d],
        [[3, 0, 5], b, d],
        [[3, u32::MAX, 5], b, d],
        [a, b, [0x8000_0000, 225, u32::MAX]],
        // other lengths that do follow each other are right: 16 or 0 by the body
        [[3, 44, 4], [4, 48, 177], d],
        [[3, 44, 0], [4, 44, 181], d],
        [[3, 44, 181], [4, 225, 0], d],
        [a, [4, 49, 416], [0x8000_0000, 465, 0]],
    ] {
        v.file(&with(entries));
        for satellite in [3, 4, 0x8000_0000] {
            v.restore(satellite);
        }
    }
    v.group("14: eight bytes with a count of 1, and a count of 0 with bytes after it");
    for bytes in [vec![1, 0], vec![0, 0, 0], vec![0, 0, 1], vec![129, 0], vec![255, 255]] {
        let bytes = [&HEADER[..], &bytes[..]].concat();
        v.file(&bytes);
        v.restore(3);
        v.save(3, ROOM);
    }
    v.group("128 entries of no bytes are right, 129 are not");
    for count in [MOST, MOST + 1] {
        v.file(&file(&(0..count as u32).map(|k| (k * 3, vec![])).collect::<Vec<Record>>()));
        for satellite in [0, 3, 4, 381, 384] {
            v.restore(satellite);
        }
    }
}

fn states(v: &mut Vectors) {
    let all = kinds();
    let mut r = Random::stream(621);
    for (c, state) in &all[1..] {
        let from = number_at(20, numbers_of(c.kind));
        let state = state.unwrap();
        v.group("18: one bit of the state's time, mean motion or lambda is another; the sign, a step more or less");
        v.file(&file(&[(5, body(c, Some(state)))]));
        v.restore(5);
        for (k, x) in state.iter().enumerate() {
            for bit in (0..64).step_by(if k == 0 { 3 } else { 1 }) {
                v.eight(from + 8 * k, x.to_bits() ^ (1 << bit), 5);
            }
        }
        for t in [0.0, 720.0, -720.0, 1440.0, -1440.0, 2160.0, -2160.0, -state[0], 720000.0] {
            v.eight(from, t.to_bits(), 5);
        }
        v.group("17 where the time is no number, 18 and no step where it is -0.0, no multiple of 720 or beyond the limit");
        for t in bad_times() {
            v.eight(from, t, 5);
        }
        v.group("18: what the fresh state and the steps are made of: n, lambda_0, lambda_dot_0, the coefficients, of which k14 counts from the second step on");
        for place in (20..numbers_of(c.kind)).chain([8, 10]) {
            let x = c.numbers[place].to_bits();
            for x in [x ^ 1, x ^ 1 << 40, x ^ 1 << 63, 0] {
                v.eight(number_at(20, place), x, 5);
            }
        }
        v.group("states after each number of steps, both ways");
        for steps in -12..=12 {
            let t = 0.0 + 720.0 * steps as f64;
            v.file(&file(&[(5, body(c, carried(c, t)))]));
            v.restore(5);
        }
        v.group("18: a step is refused 8: an angle passes its limit, or a rate or a stepped value overflows; then the limit of times itself is soon decided");
        for (place, x) in [
            (20, 2e6),
            (20, -2e6),
            (21, 100.0),
            (21, -100.0),
            (21, 10.0),
            (21, 1e306),
            (23, 1e308),
            (24, -1e307),
            (25, 1e300),
            (23, 1.0),
            (25, 1e-3),
        ] {
            let c = changed(c, &[(place, x)]);
            let fresh = [0.0, c.numbers[10], c.numbers[20]];
            v.file(&file(&[(5, body(&c, Some(fresh)))]));
            v.restore(5);
            for t in [720.0, -720.0, 3600.0, -7200.0, 720.0 * 128.0, LIMIT + 720.0, -LIMIT - 720.0] {
                v.eight(from, f64::to_bits(t), 5);
            }
            for t in [LIMIT, -LIMIT] {
                if place < 22 {
                    v.eight(from, f64::to_bits(t), 5);
                }
            }
            // the last state that there is, and its bits off by one
            for t in [720.0, -720.0] {
                let t = (1..).map(|k| t * k as f64).take_while(|&t| is_defined(&c, t)).take(40).last();
                let Some(t) = t else { continue };
                let end = carried(&c, t).unwrap();
                v.file(&file(&[(5, body(&c, Some(end)))]));
                v.restore(5);
                v.eight(from, (t + t.signum() * 720.0).to_bits(), 5);
                v.eight(from + 8, end[1].to_bits() ^ 1, 5);
                v.eight(from + 16, end[2].to_bits() ^ 1, 5);
            }
        }
    }
    v.group("18 compares bits: lambda_0 of -0.0 is no +0.0");
    for (c, _) in &all[1..] {
        let from = number_at(20, numbers_of(c.kind));
        for zero in [0.0, -0.0] {
            let c = changed(c, &[(20, zero), (11, -0.0), (14, -0.0), (19, -0.0), (22, -0.0)]);
            v.file(&file(&[(5, body(&c, carried(&c, 0.0)))]));
            v.restore(5);
            v.eight(from + 16, (-zero).to_bits(), 5);
            v.eight(number_at(20, 20), (-zero).to_bits(), 5);
            v.eight(from, (-0.0f64).to_bits(), 5);
        }
    }
    v.group("-0.0 in any number of a body is kept");
    for (c, _) in &all {
        v.file(&file(&[(5, body(c, carried(c, 0.0)))]));
        v.restore(5);
        for place in 0..numbers_of(c.kind) {
            v.eight(number_at(20, place), (-0.0f64).to_bits(), 5);
        }
    }
    v.group("replays of 2000 steps, and of 1500 back; a bit off at their end");
    for (kind, t) in [(1, 1440000.0), (2, -1080000.0)] {
        let (c, _) = r.record(kind, 0);
        let end = carried(&c, t);
        v.file(&file(&[(5, body(&c, end))]));
        v.restore(5);
        let at = number_at(20, numbers_of(kind)) + 16;
        v.eight(at, end.unwrap()[2].to_bits() ^ 1, 5);
    }
}

// whether the steps as far as t are defined
fn is_defined(c: &Constants, t: f64) -> bool {
    carried(c, t).iter().flatten().all(|x| x.is_finite())
}

fn not_finite(v: &mut Vectors) {
    let all = kinds();
    v.group("17: each number of a body in turn is a NaN or an infinity; n that is no number is 16 for a resonant kind and 17 for the other");
    for (c, state) in &all {
        v.file(&file(&[(5, body(c, *state))]));
        let count = (size_of(c.kind) - 8) / 8;
        for place in 0..count {
            let at = number_at(20, place);
            v.eight(at, NANS[place % 4], 5);
            v.eight(at, INFINITIES[place % 2], 5);
        }
        for place in [7, 10] {
            for x in NANS.into_iter().chain(INFINITIES) {
                v.eight(number_at(20, place), x, 5);
            }
        }
    }
    v.group("16 before 17: e = +inf in the half-day range is half-day and so 17, a NaN there is 16; a wrong flag or zero byte is 16 first");
    for (c, state) in &all {
        for (place, x) in
            [(7, f64::INFINITY), (7, f64::NEG_INFINITY), (7, f64::NAN), (10, f64::NAN), (20, f64::NAN)]
        {
            let c = changed(c, &[(place, x)]);
            v.file(&file(&[(5, body(&c, *state))]));
            v.restore(5);
            for n in [0.004, 0.009, 0.02] {
                v.eight(number_at(20, 10), f64::to_bits(n), 5);
            }
            v.byte(21, 2, 5);
            v.byte(27, 1, 5);
            v.byte(20, 3, 5);
        }
    }
    v.group("17 before 18: a state that is wrong, and a number that is none");
    for (c, state) in &all[1..] {
        let [_, n, l] = state.unwrap();
        for t in [1.0, -0.0, 720.0, LIMIT + 720.0] {
            v.file(&file(&[(5, body(&changed(c, &[(3, f64::NAN)]), Some([t, n, l])))]));
            v.restore(5);
            v.file(&file(&[(5, body(c, Some([t, n, f64::INFINITY])))]));
            v.restore(5);
        }
    }
}

fn saves(v: &mut Vectors) {
    let all = kinds();
    let mut r = Random::stream(631);
    v.group("save: a record of each kind replaces the first, the middle and the last of three, or goes before, between and after them; the others, no bodies, keep their bytes");
    for (c, state) in &all {
        let mut three = vec![(10, garbage(&mut r, 3)), (20, vec![]), (30, garbage(&mut r, 33))];
        three[r.below(3) as usize].1 = garbage(&mut r, 176);
        v.file(&file(&three));
        v.record(c, *state);
        for satellite in [10, 20, 30, 9, 11, 25, 31, 0, u32::MAX] {
            v.save(satellite, ROOM);
        }
        v.turn();
        for satellite in [10, 20, 30, u32::MAX, 0] {
            v.restore(satellite);
        }
    }
    v.group("19: output just long enough, one byte short, none; a record that is replaced by a shorter one needs less");
    let odd = [(1, garbage(&mut r, 7)), (2, garbage(&mut r, 500)), (u32::MAX, garbage(&mut r, 1))];
    v.file(&file(&odd));
    for (c, state) in &all {
        v.record(c, *state);
        let size = |count: usize, others: usize| 8 + 12 * count + others + size_of(c.kind);
        for (satellite, size) in
            [(2, size(3, 8)), (3, size(4, 508)), (u32::MAX, size(3, 507)), (0, size(4, 508))]
        {
            for room in [size, size - 1, size + 1, 0, ROOM] {
                v.save(satellite, room);
            }
        }
    }
    v.group("save of satellites 0 and 2^32 - 1, one after the other, each restored");
    v.file(&file(&[]));
    for (k, satellite) in [(0, u32::MAX), (1, 0), (2, 1), (0, u32::MAX - 1), (1, u32::MAX), (2, 0)] {
        v.record(&all[k].0, all[k].1);
        v.save(satellite, ROOM);
        v.turn();
        for satellite in [0, 1, u32::MAX - 1, u32::MAX, 2] {
            v.restore(satellite);
        }
    }
    v.group("save into a file that is wrong: 14; 4 and 5 come before it");
    let mut wrong = file(&odd);
    wrong.push(0);
    v.file(&wrong);
    for (c, state) in &all {
        v.record(c, *state);
        v.save(2, ROOM);
        v.save(2, 0);
        // 1 with a state where the kind has none, and 0 where it has one
        v.save_with(2, ROOM, Some((36, (c.kind == 0) as u64)));
    }
    v.group("save: 4 and 5 in a right file, before 16, 17 and 18");
    v.file(&file(&odd));
    for (c, state) in &all {
        let held = if c.kind == 0 { Some([1.0, f64::NAN, 0.0]) } else { None };
        for place in [10, 3] {
            for x in [c.numbers[place], f64::NAN] {
                v.record(&changed(c, &[(place, x)]), held);
                v.save(2, ROOM);
            }
        }
        v.record(c, *state);
        v.save(2, ROOM);
    }
}

fn refused_saves(v: &mut Vectors) {
    let all = kinds();
    let mut r = Random::stream(641);
    let odd = file(&[(1, garbage(&mut r, 3)), (6, garbage(&mut r, 0))]);
    for (c, state) in &all {
        v.group("save: 16 where the kind is not the class; 17 for each number that is none; 16 before 17");
        v.file(&odd);
        v.record(c, *state);
        for n in MOTIONS {
            for k in [-1, 0, 1] {
                v.save_with(6, ROOM, Some((12, beside(n, k).to_bits())));
            }
        }
        for e in [beside(0.5, -1), 0.5, 0.4] {
            v.save_with(6, ROOM, Some((9, e.to_bits())));
        }
        for place in (2..36).chain(37..40) {
            // places that the kind has not are not looked at
            v.save_with(6, ROOM, Some((place, NANS[place % 4])));
            v.save_with(6, ROOM, Some((place, INFINITIES[place % 2])));
        }
        for x in NANS.into_iter().chain(INFINITIES) {
            v.save_with(6, ROOM, Some((9, x)));
            v.save_with(6, ROOM, Some((12, x)));
        }
        let Some([t, n, l]) = *state else { continue };
        v.group("save: 18 where the state is not that of the steps, or its time is wrong; 17 for a time that is no number");
        for time in bad_times().into_iter().chain([0.0, -t, t + 720.0, t - 720.0].map(f64::to_bits)) {
            v.save_with(6, ROOM, Some((37, time)));
        }
        for (place, x) in [(37, t), (38, n), (39, l)] {
            for bit in [0, 1, 20, 51, 63] {
                v.save_with(6, ROOM, Some((place, x.to_bits() ^ (1 << bit))));
            }
        }
        for place in (20..numbers_of(c.kind)).chain([8]) {
            v.save_with(6, ROOM, Some((2 + place, c.numbers[place].to_bits() ^ 1)));
        }
        v.group("save: 18 where a step is refused 8, the limit of times among them; 17 before 18");
        let c = changed(c, &[(21, 100.0)]);
        for t in [0.0, 720.0, -720.0, 7200.0, LIMIT, -LIMIT, LIMIT + 720.0] {
            v.record(&c, Some([t, c.numbers[10], c.numbers[20]]));
            v.save(6, ROOM);
            v.save_with(6, ROOM, Some((3, NANS[0])));
        }
        v.group("save: 18 before 20 and 19, and 19 where all else is right");
        v.save(6, 0);
        v.record(&c, carried(&c, 0.0));
        v.save(6, 0);
        v.save(6, ROOM);
    }
}

fn full(v: &mut Vectors) {
    let all = kinds();
    let mut r = Random::stream(651);
    v.group("128 records, three of them bodies: a 129th is 20, before 19; any of the 128 is replaced; restores find first, middle and last");
    let mut records: Vec<Record> =
        (0..MOST as u32).map(|k| (10 * k + 5, garbage(&mut r, k as usize % 4))).collect();
    for (k, place) in [0, 64, 127].into_iter().enumerate() {
        records[place].1 = body(&all[k].0, all[k].1);
    }
    let bytes = file(&records);
    v.file(&bytes);
    for satellite in [5, 645, 1275, 15, 635, 655, 1265, 0, 6, 644, 1276, u32::MAX] {
        v.restore(satellite);
    }
    for (c, state) in &all {
        v.record(c, *state);
        for satellite in [0, 6, 640, 1276, u32::MAX] {
            v.save(satellite, ROOM);
            v.save(satellite, 0);
        }
        for satellite in [5, 645, 1275] {
            v.save(satellite, ROOM);
        }
        v.save(15, 0);
    }
    v.group("18, 17 and 16 before 20");
    let (c, state) = all[1];
    v.record(&c, state);
    v.save_with(0, ROOM, Some((39, 0)));
    v.save_with(0, ROOM, Some((2, NANS[1])));
    v.save_with(0, ROOM, Some((12, 0)));
    v.group("127 records: one more fits, with the output just long enough and one byte short");
    records.remove(100);
    v.file(&file(&records));
    let size = file(&records).len() + 12 + size_of(1);
    for room in [size, size - 1, 0] {
        v.save(1005, room);
    }
    v.save(7, ROOM);
    v.turn();
    for satellite in [7, 5, 645, 1275, 1005] {
        v.restore(satellite);
    }
    v.save(1005, ROOM);
}

fn drawn(v: &mut Vectors) {
    let mut r = Random::stream(661);
    v.group("stores that grow: built orbits drawn at random, states after up to 30 steps each way; each is restored, and one more beside it");
    for _ in 0..5 {
        v.file(&file(&[]));
        let satellites: [u32; 4] = std::array::from_fn(|_| r.bits() as u32);
        for k in 0..14 {
            let (c, state) = r.record(k % 3, 30);
            v.record(&c, state);
            let satellite = satellites[r.below(4) as usize];
            let size = v.save(satellite, ROOM).len();
            v.save(satellite, size);
            v.save(satellite, size - 1);
            v.turn();
            v.restore(satellite);
            v.restore(satellite.wrapping_add(1));
            // another's record is told on the line or by a line of its own
            if k % 5 == 4 {
                v.restore(satellites[r.below(4) as usize]);
            }
        }
    }
    v.group("eight bytes at random of files of three records, drawn at random");
    for _ in 0..12 {
        let mut records: Vec<Record> = vec![];
        for kind in 0..3 {
            let (c, state) = r.record(kind, 12);
            let satellite = records.last().map_or(0, |record| record.0 + 1) + r.below(1000) as u32;
            records.push((satellite, body(&c, state)));
        }
        let bytes = file(&records);
        v.file(&bytes);
        for k in 0..120 {
            let satellite = records[k / 40].0;
            if k % 40 == 0 {
                v.restore(satellite);
            }
            let at = if r.below(6) == 0 { r.below(44) } else { r.below(bytes.len() as u64 - 7) } as usize;
            let there = u64::from_le_bytes(bytes[at..at + 8].try_into().unwrap());
            let value = match r.below(4) {
                0 => r.bits(),
                1 => there ^ (r.bits() >> 56 << r.below(57)),
                2 => there.wrapping_add(r.below(3)).wrapping_sub(1),
                _ => there ^ (1 << r.below(64)),
            };
            v.eight(at, value, satellite);
        }
    }
    v.group("bytes at random after a right header");
    for k in 0..60 {
        let mut bytes = [&HEADER[..], &[r.below(4) as u8, 0]].concat();
        let size = r.below(40) as usize + if k % 4 == 0 { 176 } else { 0 };
        bytes.extend(garbage(&mut r, size));
        v.file(&bytes);
        let satellite =
            if bytes.len() < 12 { 0 } else { u32::from_le_bytes(bytes[8..12].try_into().unwrap()) };
        v.restore(satellite);
    }
}

fn main() {
    let mut v = Vectors { text: String::new(), count: 0, file: vec![], new: vec![], told: [0; PLACES] };
    empty(&mut v);
    changed_bytes(&mut v);
    kinds_and_flags(&mut v);
    wrong_contents(&mut v);
    states(&mut v);
    not_finite(&mut v);
    saves(&mut v);
    refused_saves(&mut v);
    full(&mut v);
    drawn(&mut v);
    println!("# Answers of the store, for the program vectors_store.");
    println!("# Made by oracle/make_vectors (program vectors_store of crate measure there), {}, seed {SEED:016X}, {} cases.", env!("COMPILER"), v.count);
    println!("# Files are written and judged from document 01 alone; the replay of 18 is crate sgp4 2.4.0's, with the library's floats.");
    println!("# Numbers in hexadecimal, floats by their bits; refusals in two decimal digits, 00 where there is an answer. A record is kind,");
    println!("# AFSPC flag, 34 numbers in the order of a body with zeros after them, and 1, time, mean motion, lambda, or 0 and three zeros.");
    println!("# Lines that are no case:");
    println!("#   file    the bytes of the file from now on");
    println!("#   new     the bytes of the file that saves must write, from now on");
    println!("#   record  the record from now on: what restores bring, and what is saved");
    println!("#   turn    the file is now the new one");
    println!("# A case; where one ends in places and numbers, the record has these at those places, the kind's being 00 and the state's time's 25:");
    println!("#   restore satellite; refusal, steps of the replay");
    println!("#   cut     length; as restore, of so many bytes of the file");
    println!("#   byte    offset, byte; as restore, of the file with that byte there: at the file's end it is a byte longer");
    println!("#   eight   offset, number; as restore, of the file with these eight bytes there");
    println!("#   save    satellite, length of the output; refusal");
    print!("{}", v.text);
}
