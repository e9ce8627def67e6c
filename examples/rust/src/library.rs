//! The functions of include/orbt.h that the host uses, and safe calls of them. The pointers are to locals
//! or slices of the caller, with their lengths; the library keeps none.

mod c {
    extern "C" {
        pub fn orbt_build(
            which: u32,
            flag: u32,
            given: *const [f64; 31],
            kind: *mut u32,
            constants: *mut [f64; 34],
        ) -> u32;
        pub fn orbt_fresh(kind: u32, constants: *const [f64; 34], state: *mut [f64; 3]) -> u32;
        pub fn orbt_ask(
            kind: u32,
            flag: u32,
            constants: *const [f64; 34],
            held: u32,
            state: *mut [f64; 3],
            question: *const [f64; 13],
            elements: *mut [f64; 12],
            steps: *mut u32,
        ) -> u32;
        pub fn orbt_contents(file: *const u8, file_size: usize, count: *mut u32) -> u32;
        pub fn orbt_satellite(file: *const u8, file_size: usize, place: u32, satellite: *mut u32) -> u32;
        pub fn orbt_restore(
            file: *const u8,
            file_size: usize,
            satellite: u32,
            kind: *mut u32,
            flag: *mut u32,
            constants: *mut [f64; 34],
            held: *mut u32,
            state: *mut [f64; 3],
            steps: *mut u32,
        ) -> u32;
        pub fn orbt_save(
            file: *const u8,
            file_size: usize,
            out: *mut u8,
            out_size: usize,
            satellite: u32,
            kind: u32,
            flag: u32,
            constants: *const [f64; 34],
            held: u32,
            state: *const [f64; 3],
            size: *mut usize,
        ) -> u32;
    }
}

/// A save makes a file longer by at most this.
const RECORD: usize = 316;

/// The number of a refusal.
pub type Refusal = u32;

/// What is in force: the constants and, of a resonant orbit, the state.
pub struct Orbit {
    pub kind: u32,
    pub flag: u32,
    pub constants: [f64; 34],
    pub state: Option<[f64; 3]>,
}

/// An ask's twelve numbers, or its refusal with the two numbers that 10 and 11 carry.
pub type Asked = Result<[f64; 12], (Refusal, [f64; 2])>;

fn answer<T>(number: u32, value: T) -> Result<T, Refusal> {
    if number == 0 {
        return Ok(value);
    }
    Err(number)
}

/// An orbit by the IAU time, with its fresh state.
pub fn build(given: &[f64; 31]) -> Result<Orbit, Refusal> {
    let (mut kind, mut constants, mut state) = (0, [0.0; 34], [0.0; 3]);
    let number = unsafe { c::orbt_build(0, 0, given, &mut kind, &mut constants) };
    answer(number, ())?;
    let held = unsafe { c::orbt_fresh(kind, &constants, &mut state) };
    Ok(Orbit { kind, flag: 0, constants, state: (held == 1).then_some(state) })
}

pub fn contents(file: &[u8]) -> Result<u32, Refusal> {
    let mut count = 0;
    let number = unsafe { c::orbt_contents(file.as_ptr(), file.len(), &mut count) };
    answer(number, count)
}

pub fn satellite(file: &[u8], place: u32) -> Result<u32, Refusal> {
    let mut satellite = 0;
    let number = unsafe { c::orbt_satellite(file.as_ptr(), file.len(), place, &mut satellite) };
    answer(number, satellite)
}

/// The orbit of a satellite, and the steps of its replay.
pub fn restore(file: &[u8], satellite: u32) -> Result<(Orbit, u32), Refusal> {
    let (mut kind, mut flag, mut held, mut steps) = (0, 0, 0, 0);
    let (mut constants, mut state) = ([0.0; 34], [0.0; 3]);
    let number = unsafe {
        c::orbt_restore(
            file.as_ptr(),
            file.len(),
            satellite,
            &mut kind,
            &mut flag,
            &mut constants,
            &mut held,
            &mut state,
            &mut steps,
        )
    };
    answer(number, (Orbit { kind, flag, constants, state: (held == 1).then_some(state) }, steps))
}

/// The file with the orbit's record added or replaced.
pub fn save(file: &[u8], satellite: u32, orbit: &Orbit) -> Result<Vec<u8>, Refusal> {
    let mut out = vec![0; file.len() + RECORD];
    let mut size = 0;
    let state = orbit.state.unwrap_or_default();
    let number = unsafe {
        c::orbt_save(
            file.as_ptr(),
            file.len(),
            out.as_mut_ptr(),
            out.len(),
            satellite,
            orbit.kind,
            orbit.flag,
            &orbit.constants,
            orbit.state.is_some() as u32,
            &state,
            &mut size,
        )
    };
    out.truncate(size);
    answer(number, out)
}

/// The answer, and the steps made; the orbit's state has moved.
pub fn ask(orbit: &mut Orbit, question: &[f64; 13]) -> (Asked, u32) {
    let (mut state, mut elements, mut steps) = (orbit.state.unwrap_or_default(), [0.0; 12], 0);
    let number = unsafe {
        c::orbt_ask(
            orbit.kind,
            orbit.flag,
            &orbit.constants,
            orbit.state.is_some() as u32,
            &mut state,
            question,
            &mut elements,
            &mut steps,
        )
    };
    orbit.state = orbit.state.map(|_| state);
    let carried = [elements[0], elements[1]];
    (answer(number, elements).map_err(|number| (number, carried)), steps)
}
