//! The fields of a file.

use crate::frame::Step;
use crate::refusal::*;
use std::ops::Range;

pub const MAX_FILE_BYTES: usize = 65_535;
const HEAD_BYTES: usize = 3;
const STEP_BYTES: usize = 3;

/// A tag 2 field and the tag 3 field after it.
#[derive(Clone, PartialEq, Eq, Debug)]
pub struct Group {
    /// The place of the tag 2 head in the file.
    pub head: usize,
    pub left: Vec<Step>,
    pub right: Vec<Step>,
}

#[derive(Clone, PartialEq, Eq, Debug)]
pub struct Fields {
    /// Where the term's bytes are in the file.
    pub term: Range<usize>,
    pub groups: Vec<Group>,
}

/// Reads all fields from left to right: condition 4 for the file, then 1 and 2.
pub fn read_fields(file: &[u8]) -> Result<Fields, Refusal> {
    if file.len() > MAX_FILE_BYTES {
        return refuse(TOO_LONG, 0);
    }
    let term = read_field(file, 0, 1)?;
    let mut groups = Vec::new();
    let mut head = term.end;
    while head < file.len() {
        let left = read_field(file, head, 2)?;
        let right = read_field(file, left.end, 3)?;
        groups.push(Group {
            head,
            left: read_steps(&file[left.clone()]),
            right: read_steps(&file[right.clone()]),
        });
        head = right.end;
    }
    Ok(Fields { term, groups })
}

/// Where the body of the field due at `head` is. In order: head whole, tag,
/// body whole, multiple of 3.
fn read_field(file: &[u8], head: usize, tag: u8) -> Result<Range<usize>, Refusal> {
    if file.len() - head < HEAD_BYTES {
        return refuse(CUT_SHORT, head);
    }
    if file[head] != tag {
        return refuse(WRONG_FIELD, head);
    }
    let length = two_bytes(file[head + 1], file[head + 2]);
    let start = head + HEAD_BYTES;
    if file.len() - start < length {
        return refuse(CUT_SHORT, head);
    }
    if tag != 1 && !length.is_multiple_of(STEP_BYTES) {
        return refuse(WRONG_FIELD, head);
    }
    Ok(start..start + length)
}

fn read_steps(body: &[u8]) -> Vec<Step> {
    body.chunks(STEP_BYTES)
        .map(|step| Step {
            kind: step[0],
            place: two_bytes(step[1], step[2]),
        })
        .collect()
}

fn two_bytes(high: u8, low: u8) -> usize {
    usize::from(high) * 256 + usize::from(low)
}
