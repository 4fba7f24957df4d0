//! How a call of the library is made: what it is passed, and the room that it fills.
use crate::error::{Error, Mistake};
use crate::options::Options;
use pbcnf_sys as c;

const NO_ROOM: u8 = 5;

/// The low and the high word of a number in two's complement.
pub fn words(value: i128) -> (u64, u64) {
    (value as u64, (value >> 64) as u64)
}

/// The number of two words in two's complement.
pub fn number(low: u64, high: u64) -> i128 {
    i128::from(high as i64) << 64 | i128::from(low)
}

pub fn bound_of(at_most: Option<i128>) -> c::Bound {
    at_most.map_or_else(c::Bound::default, |value| {
        let (low, high) = words(value);
        c::Bound { set: 1, low, high }
    })
}

/// The budget that the library has refused, if it is that.
pub fn mistaken_budget(options: &Options) -> Option<Mistake> {
    let is_budget = (1..=Options::MOST_BUDGET).contains(&options.budget);
    (!is_budget).then_some(Mistake::Budget(options.budget))
}

/// The first fresh variable that the library has refused, if it is that.
pub fn mistaken_first(first: u32) -> Option<Mistake> {
    let is_first = (1..=1 << 31).contains(&first);
    (!is_first).then_some(Mistake::First(first))
}

/// Refuses a library whose calls have other structs or numbers: it was linked by mistake.
pub fn judge_library() {
    // SAFETY: it asks for nothing.
    let abi = unsafe { c::pbcnf_abi() };
    assert_eq!(
        abi,
        c::ABI,
        "libpbcnf.a is of another version than the crate"
    );
}

/// Makes a call that puts items into a room of so many at least, and reports how many: again, if the room was too small.
pub fn fill<T: Clone + Default>(
    put: &mut Vec<T>,
    room: usize,
    mistake: impl FnOnce() -> Option<Mistake>,
    mut call: impl FnMut(&mut [T], &mut u64, &mut c::Refusal) -> u8,
) -> Result<usize, Error> {
    judge_library();
    if put.len() < room {
        put.resize(room, T::default());
    }
    loop {
        let (mut length, mut refusal) = (0, c::Refusal::default());
        match call(put, &mut length, &mut refusal) {
            0 => return Ok(length as usize),
            NO_ROOM => put.resize(length as usize, T::default()),
            _ => return Err(Error::of(&refusal, mistake)),
        }
    }
}

/// The items that a call puts, in a room of their own.
pub fn filled<T: Clone + Default>(
    room: usize,
    mistake: impl FnOnce() -> Option<Mistake>,
    call: impl FnMut(&mut [T], &mut u64, &mut c::Refusal) -> u8,
) -> Result<Vec<T>, Error> {
    let mut put = Vec::new();
    let length = fill(&mut put, room, mistake, call)?;
    put.truncate(length);
    Ok(put)
}

/// Each byte that the library puts is one of ASCII.
pub fn text(put: Vec<u8>) -> String {
    String::from_utf8(put).expect("the library puts ASCII")
}
