//! The conditions of documents 01 and 02 and the refusal that carries one.

pub const CUT_SHORT: u8 = 1;
pub const WRONG_FIELD: u8 = 2;
pub const NOT_ONE_TERM: u8 = 3;
pub const TOO_LONG: u8 = 4;
pub const BEYOND_SCOPE: u8 = 5;
pub const TOO_DEEP: u8 = 6;
pub const NO_TYPE: u8 = 7;
pub const STILL_WAITING: u8 = 8;
pub const NO_GROUP: u8 = 9;
pub const BAD_STEP: u8 = 10;
pub const OUTGROWN: u8 = 11;
pub const BODIES_DIFFER: u8 = 12;
pub const GROUPS_LEFT: u8 = 13;
pub const SHORT_BUFFER: u8 = 14;
pub const TOO_LONG_TO_COUNT: u8 = 15;
pub const NOT_A_SET: u8 = 16;

/// The number of a condition and its place.
#[derive(Clone, Copy, PartialEq, Eq, Debug)]
pub struct Refusal {
    pub number: u8,
    pub place: usize,
}

pub fn refuse<T, E: From<Refusal>>(number: u8, place: usize) -> Result<T, E> {
    Err(Refusal { number, place }.into())
}
