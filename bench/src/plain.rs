//! The store's file in plain Rust, since sgp4 has no store: the same bytes, and the library's checks of
//! file and record but for the replay. A state must be the fresh one, so that there is none to make.
use measure::store::{numbers_of, size_of, HEADER, MOST};
use orbt::orbits::{Constants, State};

fn u32_at(bytes: &[u8], at: usize) -> u32 {
    u32::from_le_bytes(bytes[at..at + 4].try_into().unwrap())
}

fn entry(bytes: &[u8]) -> [u32; 3] {
    [u32_at(bytes, 0), u32_at(bytes, 4), u32_at(bytes, 8)]
}

// the entries of a file that is right
fn entries(file: &[u8]) -> Option<&[u8]> {
    let (head, rest) = file.split_at_checked(8)?;
    let count = u16::from_le_bytes([head[6], head[7]]) as usize;
    if head[..6] != HEADER || count > MOST {
        return None;
    }
    let entries = rest.get(..12 * count)?;
    let (mut end, mut last) = (8 + 12 * count as u64, -1);
    for bytes in entries.chunks_exact(12) {
        let [satellite, offset, size] = entry(bytes);
        if satellite as i64 <= last || offset as u64 != end {
            return None;
        }
        last = satellite as i64;
        end += size as u64;
    }
    (end == file.len() as u64).then_some(entries)
}

fn class(n: f64, e: f64) -> u32 {
    if 0.0034906585 < n && n < 0.0052359877 {
        return 1;
    }
    if (8.26e-3..=9.24e-3).contains(&n) && e >= 0.5 {
        return 2;
    }
    0
}

fn is_good(c: &Constants, state: State) -> bool {
    let numbers = &c.numbers;
    let fresh = (c.kind != 0).then_some([0.0, numbers[10], numbers[20]]);
    class(numbers[10], numbers[7]) == c.kind
        && numbers[..numbers_of(c.kind)].iter().all(|x| x.is_finite())
        && state.map(|s| s.map(f64::to_bits)) == fresh.map(|s| s.map(f64::to_bits))
}

fn read(body: &[u8]) -> Option<(Constants, State)> {
    let kind = *body.first()? as u32;
    if kind > 2 || body.len() != size_of(kind) || body[1] > 1 || body[2..8] != [0; 6] {
        return None;
    }
    let mut floats = body[8..].chunks_exact(8).map(|x| f64::from_le_bytes(x.try_into().unwrap()));
    let mut numbers = [0.0; 34];
    for (x, y) in numbers[..numbers_of(kind)].iter_mut().zip(&mut floats) {
        *x = y;
    }
    let mut state = [0.0; 3];
    for (x, y) in state.iter_mut().zip(&mut floats) {
        *x = y;
    }
    Some((Constants { kind, flag: body[1] as u32, numbers }, (kind != 0).then_some(state)))
}

/// Constants and state of a satellite, where file and record are right.
#[inline(never)]
pub fn restore(file: &[u8], satellite: u32) -> Option<(Constants, State)> {
    let mut all = entries(file)?.chunks_exact(12).map(entry);
    let [_, offset, size] = all.find(|entry| entry[0] == satellite)?;
    let (c, state) = read(&file[offset as usize..][..size as usize])?;
    is_good(&c, state).then_some((c, state))
}

fn write(body: &mut [u8], c: &Constants, state: State) {
    body[..8].copy_from_slice(&[c.kind as u8, c.flag as u8, 0, 0, 0, 0, 0, 0]);
    let numbers = c.numbers[..numbers_of(c.kind)].iter().chain(state.iter().flatten());
    for (bytes, x) in body[8..].chunks_exact_mut(8).zip(numbers) {
        bytes.copy_from_slice(&x.to_le_bytes());
    }
}

/// The length of the file with the record of a new satellite added, which `out` then has.
#[inline(never)]
pub fn save(file: &[u8], out: &mut [u8], satellite: u32, c: &Constants, state: State) -> Option<usize> {
    let old = entries(file)?;
    if !is_good(c, state) {
        return None;
    }
    let (count, added) = (old.len() / 12, size_of(c.kind));
    let out = out.get_mut(..file.len() + 12 + added)?;
    if count == MOST {
        return None;
    }
    out[..6].copy_from_slice(&HEADER);
    out[6..8].copy_from_slice(&(count as u16 + 1).to_le_bytes());
    let before = old.chunks_exact(12).take_while(|bytes| u32_at(bytes, 0) < satellite).count();
    // where the new body stands in the old file, and in the new one
    let at = if before == count { file.len() } else { u32_at(old, 12 * before + 4) as usize };
    let new = at + 12;
    let mut put = |place: usize, entry: [u32; 3]| {
        for (bytes, x) in out[8 + 12 * place..][..12].chunks_exact_mut(4).zip(entry) {
            bytes.copy_from_slice(&x.to_le_bytes());
        }
    };
    for (place, bytes) in old.chunks_exact(12).enumerate() {
        let [satellite, offset, size] = entry(bytes);
        if place < before {
            put(place, [satellite, offset + 12, size]);
        } else {
            put(place + 1, [satellite, offset + 12 + added as u32, size]);
        }
    }
    put(before, [satellite, new as u32, added as u32]);
    let bodies = 8 + old.len();
    out[bodies + 12..new].copy_from_slice(&file[bodies..at]);
    write(&mut out[new..new + added], c, state);
    out[new + added..].copy_from_slice(&file[at..]);
    Some(out.len())
}
