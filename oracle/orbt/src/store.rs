//! The calls on store files. The pointers are to locals and to slices, and the library keeps none; a
//! refused call must leave what it was handed. Whether it left an output is for its owner to see.
use crate::orbits::{is_left, Constants, State};
use crate::{c, KEPT};

/// The answer of a restore: a refusal or 0, the steps of the replay, and what is restored.
pub struct Restored {
    pub number: u32,
    pub steps: u32,
    pub record: Option<(Constants, State)>,
}

pub fn restore(file: &[u8], satellite: u32) -> Restored {
    let (mut kind, mut flag, mut held, mut steps) = (77, 77, 77, 77);
    let (mut numbers, mut state) = ([KEPT; 34], [KEPT; 3]);
    let number = unsafe {
        c::orbt_restore(
            file.as_ptr(),
            file.len(),
            satellite,
            &mut kind,
            &mut flag,
            &mut numbers,
            &mut held,
            &mut state,
            &mut steps,
        )
    };
    if number != 0 {
        let kept = [kind, flag, held] == [77; 3] && is_left(&numbers) && is_left(&state);
        assert!(kept, "a refused restore wrote its result");
        return Restored { number, steps, record: None };
    }
    assert!(held == 1 || held == 0 && is_left(&state), "a state where there is none");
    let state = (held == 1).then_some(state);
    Restored { number, steps, record: Some((Constants { kind, flag, numbers }, state)) }
}

/// The length of the new file, or the refusal.
pub fn save(file: &[u8], out: &mut [u8], satellite: u32, c: &Constants, state: State) -> Result<usize, u32> {
    save_held(file, out, satellite, c, state.is_some() as u32, state.unwrap_or([KEPT; 3]))
}

/// The same as C has it: there are three numbers for a state, whatever `held` says.
pub fn save_held(
    file: &[u8],
    out: &mut [u8],
    satellite: u32,
    c: &Constants,
    held: u32,
    state: [f64; 3],
) -> Result<usize, u32> {
    let mut size = 77;
    let number = unsafe {
        c::orbt_save(
            file.as_ptr(),
            file.len(),
            out.as_mut_ptr(),
            out.len(),
            satellite,
            c.kind,
            c.flag,
            &c.numbers,
            held,
            &state,
            &mut size,
        )
    };
    if number == 0 {
        return Ok(size);
    }
    assert!(size == 77, "a refused save wrote its length");
    Err(number)
}

/// How many records a file has.
pub fn contents(file: &[u8]) -> Result<u32, u32> {
    let mut count = 77;
    let number = unsafe { c::orbt_contents(file.as_ptr(), file.len(), &mut count) };
    if number == 0 {
        return Ok(count);
    }
    assert!(count == 77, "a refused call wrote its result");
    Err(number)
}

/// The satellite of a record, the first being 0.
pub fn satellite(file: &[u8], place: u32) -> Result<u32, u32> {
    let mut satellite = 77;
    let number = unsafe { c::orbt_satellite(file.as_ptr(), file.len(), place, &mut satellite) };
    if number == 0 {
        return Ok(satellite);
    }
    assert!(satellite == 77, "a refused call wrote its result");
    Err(number)
}
