//! The calls on orbits. A state is none or three numbers: time, mean motion, lambda. The pointers are to
//! locals, and the library keeps none; a refused call must leave what it was handed.
use crate::{c, Answer, KEPT};

pub type State = Option<[f64; 3]>;

/// Kind, AFSPC flag, and the numbers in the order of a store's body, zeros after them.
#[derive(Clone, Copy)]
pub struct Constants {
    pub kind: u32,
    pub flag: u32,
    pub numbers: [f64; 34],
}

/// The answer of an ask.
#[derive(Clone, Copy)]
pub struct Asked {
    /// the refusal, or 0
    pub number: u32,
    /// twelve numbers, or the two that 10 and 11 carry
    pub elements: [f64; 12],
    pub state: State,
    pub steps: u32,
}

pub(crate) fn is_left(xs: &[f64]) -> bool {
    xs.iter().all(|x| x.to_bits() == KEPT.to_bits())
}

pub fn class(n: f64, e: f64) -> u32 {
    unsafe { c::orbt_class(n, e) }
}

pub fn sidereal_time(is_afspc: bool, epoch: f64) -> Answer {
    let mut theta = KEPT;
    let number = unsafe { c::orbt_sidereal_time(is_afspc as u32, epoch, &mut theta) };
    if number == 0 {
        return Ok(theta);
    }
    assert!(is_left(&[theta]), "a refused call wrote its result");
    Err(number)
}

pub fn geometry(right_ascension: f64, epoch: f64) -> Result<[f64; 14], u32> {
    let mut bodies = [KEPT; 14];
    let number = unsafe { c::orbt_geometry(right_ascension, epoch, &mut bodies) };
    if number == 0 {
        return Ok(bodies);
    }
    assert!(is_left(&bodies), "a refused call wrote its result");
    Err(number)
}

pub fn build(is_afspc: bool, flag: u32, given: &[f64; 31]) -> Result<Constants, u32> {
    let (mut kind, mut numbers) = (77, [KEPT; 34]);
    let number = unsafe { c::orbt_build(is_afspc as u32, flag, given, &mut kind, &mut numbers) };
    if number == 0 {
        return Ok(Constants { kind, flag, numbers });
    }
    assert!(kind == 77 && is_left(&numbers), "a refused call wrote its result");
    Err(number)
}

pub fn fresh(c: &Constants) -> State {
    let mut state = [KEPT; 3];
    if unsafe { c::orbt_fresh(c.kind, &c.numbers, &mut state) } == 1 {
        return Some(state);
    }
    assert!(is_left(&state), "a state where there is none");
    None
}

/// The refusal number or 0, and the state, which a refusal hands back.
pub fn step(c: &Constants, is_back: bool, state: [f64; 3]) -> (u32, [f64; 3]) {
    let mut state = state;
    let number = unsafe { c::orbt_step(c.kind, &c.numbers, is_back as u32, &mut state) };
    (number, state)
}

pub fn ask(c: &Constants, state: State, question: &[f64; 13]) -> Asked {
    let mut held = state.unwrap_or([KEPT; 3]);
    let (mut elements, mut steps) = ([KEPT; 12], 77);
    let number = unsafe {
        c::orbt_ask(
            c.kind,
            c.flag,
            &c.numbers,
            state.is_some() as u32,
            &mut held,
            question,
            &mut elements,
            &mut steps,
        )
    };
    let written = match number {
        0 => 12,
        10 | 11 => 2,
        _ => 0,
    };
    assert!(is_left(&elements[written..]), "a refused ask wrote elements");
    assert!(state.is_some() || is_left(&held), "an ask without a state wrote one");
    Asked { number, elements, state: state.map(|_| held), steps }
}
