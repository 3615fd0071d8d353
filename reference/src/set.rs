//! The fields of a set of files (document 02).

use crate::check;
use crate::mistakes::{made, Mistake};
use crate::refusal::*;
use std::ops::Range;

/// The heads included.
pub const MAX_SET_BYTES: usize = 65_535;
const HEAD_BYTES: usize = 3;
const TAG: u8 = 5;

/// Where the files are in the set: condition 4 for the set, then 16 from left
/// to right. At least one field is due.
pub fn read_set(set: &[u8]) -> Result<Vec<Range<usize>>, Refusal> {
    let measured = match () {
        _ if made(Mistake::FirstHeadNotMeasured) => set.len().saturating_sub(HEAD_BYTES),
        _ if made(Mistake::SetLimit) => set.len() + 1,
        _ => set.len(),
    };
    let too_long = measured > MAX_SET_BYTES;
    if too_long && !made(Mistake::SetLengthAfterHeads) {
        return refuse(TOO_LONG, 0);
    }
    let mut files = Vec::new();
    let mut head = 0;
    if made(Mistake::EmptySetAccepted) && set.is_empty() {
        return Ok(files);
    }
    loop {
        let Some(file) = read_field(set, head) else {
            return match made(Mistake::PlaceOfTheEnd) {
                false => refuse(NOT_A_SET, head),
                true => refuse(NOT_A_SET, set.len()),
            };
        };
        head = file.end;
        if !(made(Mistake::EmptyFilesSkipped) && file.is_empty()) {
            files.push(file.clone());
        }
        let rest = set.len() - head;
        if rest == 0 || (made(Mistake::ShortRestIgnored) && rest < HEAD_BYTES) {
            break;
        }
        if made(Mistake::FilesBeforeHeads) && check(&set[file]).number != 0 {
            break;
        }
    }
    match too_long {
        false => Ok(files),
        true => refuse(TOO_LONG, 0),
    }
}

/// Where the file of the field at `head` is, if the field is whole and has the
/// tag.
fn read_field(set: &[u8], head: usize) -> Option<Range<usize>> {
    let start = head + HEAD_BYTES;
    let [tag, high, low] = *set.get(head..start)? else {
        return None;
    };
    if tag != TAG && !(made(Mistake::LaterTagsNotTested) && head > 0) {
        return None;
    }
    let end = start + usize::from(u16::from_be_bytes([high, low]));
    (end <= set.len()).then_some(start..end)
}
