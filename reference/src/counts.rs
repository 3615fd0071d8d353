//! How many byte strings of a length get each answer of the examining call
//! (document 02): each of them is examined, but for those that differ from
//! another only in indices beyond every scope.

use crate::examine_term;
use crate::mistakes::{made, Mistake};
use crate::refusal::*;
use crate::stack::on_large_stack;
use std::sync::OnceLock;

/// No longer strings are counted.
pub const MAX_COUNTED: usize = 7;

/// A byte, and how many bytes it stands for: 04 for all indices over 3, since
/// one term of at most 7 bytes has at most three abstractors.
const BYTES: [(u8, u64); 7] = [
    (0x00, 1),
    (0x01, 1),
    (0x02, 1),
    (0x03, 1),
    (0x04, 250),
    (0xfe, 1),
    (0xff, 1),
];

/// How many strings are accepted, refused 3 and refused 5.
type Counts = [u64; 3];

/// The counts of the strings of this length.
pub fn counts(length: usize) -> Counts {
    static OF_EACH_LENGTH: OnceLock<[Counts; MAX_COUNTED + 1]> = OnceLock::new();
    let of_each_length = OF_EACH_LENGTH.get_or_init(|| {
        let mut counts = [[0; 3]; MAX_COUNTED + 1];
        on_large_stack(|| count(&mut Vec::new(), 1, &mut counts));
        counts
    });
    let counts = of_each_length[length];
    let [accepted, refused_3, refused_5] = counts;
    match () {
        _ if made(Mistake::CountsExchanged) => [accepted, refused_5, refused_3],
        _ if made(Mistake::CountsIn32Bits) => counts.map(|count| count % (1 << 32)),
        _ => counts,
    }
}

/// Counts a string, which stands for `many`, and all that begin with it.
fn count(string: &mut Vec<u8>, many: u64, counts: &mut [Counts; MAX_COUNTED + 1]) {
    counts[string.len()][answer(string)] += many;
    if string.len() == MAX_COUNTED {
        return;
    }
    for (byte, alike) in BYTES {
        let fewer = u64::from(made(Mistake::FdNotCounted) && byte == 0x04);
        string.push(byte);
        count(string, many * (alike - fewer), counts);
        string.pop();
    }
}

/// Which of the three counts a string belongs to.
fn answer(string: &[u8]) -> usize {
    let has_long_part = || string.windows(2).any(|two| two[0].min(two[1]) >= 0xfe);
    match examine_term(string).number {
        _ if made(Mistake::LongPartsNotCounted) && has_long_part() => 1,
        0 => 0,
        NOT_ONE_TERM => 1,
        BEYOND_SCOPE if made(Mistake::BeyondScopeCountedAs3) => 1,
        BEYOND_SCOPE => 2,
        number => panic!("{string:02x?} is refused {number}"),
    }
}
