//! A reference implementation of the checker of document 01 ("Delta-Lambda
//! checking with supplied reductions") with document 02's kind 3, printing,
//! counting, couples, sets, explaining and lines put in front, written for
//! clarity: terms are trees that keep their size, the lists are lifted literally
//! and every state is measured anew.
//! The cases of `walk` and `plain` follow the rules of 001, 5.8 and 5.3, each
//! under its number.

pub mod counts;
pub mod explain;
pub mod file;
pub mod frame;
pub mod gen;
pub mod ground;
pub mod lines;
pub mod mistakes;
pub mod normaliser;
pub mod page;
pub mod plain;
pub mod refusal;
pub mod rng;
pub mod rules;
pub mod run;
pub mod set;
pub mod stack;
pub mod state;
pub mod term;
pub mod walk;

use counts::{counts, MAX_COUNTED};
pub use explain::{explain, ExplainAnswer, Report};
use file::{read_fields, Fields, Group};
use frame::{apply, body_outgrown, type_of, Frame, Step};
use ground::{Ground, Stop};
use mistakes::{made, Mistake};
use page::{page, page_length};
use refusal::*;
use set::read_set;
use stack::on_large_stack;
use std::fmt;
use std::ops::Range;
use term::{read_term, test_closed, Term, MAX_TERM_BYTES};
use walk::{walk_by, walk_without_limits, Apply, Supply, Watch};

#[derive(Clone, Copy, PartialEq, Eq, Debug)]
pub struct TermAnswer {
    pub number: u8,
    pub place: usize,
    /// 0 if refused.
    pub degree: u64,
}

#[derive(Clone, PartialEq, Eq, Debug)]
pub struct FileAnswer {
    pub number: u8,
    pub place: usize,
    /// The term's part of the file; 0..0 if refused.
    pub part: Range<usize>,
}

#[derive(Clone, Copy, PartialEq, Eq, Debug)]
pub enum TypeAnswer {
    /// The term has degree 1.
    None_,
    Answer {
        number: u8,
        place: usize,
        len: usize,
    },
}

/// Of a step, and of printing.
#[derive(Clone, Copy, PartialEq, Eq, Debug)]
pub struct StepAnswer {
    pub number: u8,
    pub place: usize,
    /// 0 if refused.
    pub len: usize,
}

#[derive(Clone, Copy, PartialEq, Eq, Debug)]
pub struct CheckAnswer {
    pub number: u8,
    pub place: usize,
    /// Comparisons completed.
    pub comparisons: usize,
    /// Of the whole term; 0 for numbers 1 to 6.
    pub degree: u64,
}

/// The four numbers.
impl fmt::Display for CheckAnswer {
    fn fmt(&self, f: &mut fmt::Formatter) -> fmt::Result {
        let a = self;
        write!(f, "{} {} {} {}", a.number, a.place, a.comparisons, a.degree)
    }
}

#[derive(Clone, Copy, PartialEq, Eq, Debug)]
pub struct CountAnswer {
    pub number: u8,
    /// How many strings examining a term accepts, and how many it refuses
    /// with 3 and with 5; all 0 if the length is refused.
    pub accepted: u64,
    pub refused_3: u64,
    pub refused_5: u64,
}

#[derive(Clone, Copy, PartialEq, Eq, Debug)]
pub struct SetAnswer {
    /// How many files if all are accepted; else the number from 0 of the file
    /// that is refused, 0 if it is the set itself.
    pub file: usize,
    pub number: u8,
    pub place: usize,
    /// Completed in all files, or in the refused one.
    pub comparisons: usize,
    /// As checking the refused file gives it; 0 if there is none.
    pub degree: u64,
}

/// Examines a bare term.
pub fn examine_term(bytes: &[u8]) -> TermAnswer {
    on_large_stack(|| match read_term(bytes) {
        Ok(term) => TermAnswer {
            number: 0,
            place: 0,
            degree: term.degree(),
        },
        Err(Refusal { number, place }) => TermAnswer {
            number,
            place,
            degree: 0,
        },
    })
}

/// Examines a file: conditions 1 to 6.
pub fn examine_file(bytes: &[u8]) -> FileAnswer {
    on_large_stack(|| match read_file(bytes) {
        Ok((fields, _)) => FileAnswer {
            number: 0,
            place: 0,
            part: fields.term,
        },
        Err(Refusal { number, place }) => FileAnswer {
            number,
            place,
            part: 0..0,
        },
    })
}

/// Writes the type of a bare term at the buffer's start.
pub fn write_type(bytes: &[u8], buffer: &mut [u8]) -> TypeAnswer {
    on_large_stack(|| {
        let written = match read_term(bytes) {
            Err(refusal) => Err(refusal),
            Ok(term) => match type_of(&Frame::new(), &term) {
                None => return TypeAnswer::None_,
                Some(result) => write_result(&result, buffer),
            },
        };
        let StepAnswer { number, place, len } = answer(written);
        TypeAnswer::Answer { number, place, len }
    })
}

/// Applies one step to a bare term, writing the result at the buffer's start.
pub fn apply_step(bytes: &[u8], kind: u8, place: u16, buffer: &mut [u8]) -> StepAnswer {
    apply_step_by(apply, bytes, kind, place, buffer)
}

/// Applies one step as `apply` does.
pub fn apply_step_by(
    apply: Apply,
    bytes: &[u8],
    kind: u8,
    place: u16,
    buffer: &mut [u8],
) -> StepAnswer {
    on_large_stack(|| {
        let step = Step {
            kind,
            place: usize::from(place),
        };
        answer(
            read_term(bytes).and_then(|term| match apply(&Frame::new(), &term, step) {
                Err(_) => refuse(BAD_STEP, 0),
                Ok(result) => write_result(&result, buffer),
            }),
        )
    })
}

/// Prints a bare term, writing the page at the buffer's start.
pub fn print_term(bytes: &[u8], buffer: &mut [u8]) -> StepAnswer {
    on_large_stack(|| {
        if made(Mistake::ShortBufferFirst) && buffer.len() < page_length(bytes.len()) {
            return answer(refuse(SHORT_BUFFER, 0));
        }
        answer(read_term(bytes).and_then(|term| {
            let page = page(&term);
            if made(Mistake::PageOutgrown) && page.len() > MAX_TERM_BYTES {
                return refuse(OUTGROWN, 0);
            }
            if made(Mistake::ExactBufferRefused) && page.len() == buffer.len() {
                return refuse(SHORT_BUFFER, 0);
            }
            write_bytes(&page, buffer)
        }))
    })
}

/// Counts the strings of this length by the answers of `examine_term`.
pub fn count_strings(length: usize) -> CountAnswer {
    let length = match made(Mistake::LengthIn32Bits) {
        false => length,
        true => length as u32 as usize,
    };
    let (number, [accepted, refused_3, refused_5]) = match length {
        0..=MAX_COUNTED => (0, counts(length)),
        8 if made(Mistake::EightNotRefused) => (0, [0; 3]),
        _ if made(Mistake::CountsWith15) => (TOO_LONG_TO_COUNT, counts(MAX_COUNTED)),
        _ => (TOO_LONG_TO_COUNT, [0; 3]),
    };
    CountAnswer {
        number,
        accepted,
        refused_3,
        refused_5,
    }
}

/// Checks a file.
pub fn check(bytes: &[u8]) -> CheckAnswer {
    check_by(apply, bytes)
}

/// Checks a file with the steps of `apply`.
pub fn check_by(apply: Apply, bytes: &[u8]) -> CheckAnswer {
    on_large_stack(|| check_watched(apply, bytes, None))
}

/// The same on the caller's own stack, which should be a large one, with the
/// walk watched if there is a watcher.
pub fn check_watched(apply: Apply, bytes: &[u8], watch: Option<&mut Watch>) -> CheckAnswer {
    check_with_ground(apply, bytes, watch).0
}

/// The same with the ground of a refusal.
fn check_with_ground(
    apply: Apply,
    bytes: &[u8],
    watch: Option<&mut Watch>,
) -> (CheckAnswer, Ground) {
    match read_file(bytes) {
        Ok((fields, term)) => {
            let walk = |supply: &mut Supply| walk_by(apply, &term, supply, watch);
            check_walked(&term, &fields.groups, walk)
        }
        Err(refusal) => (refused_before_walk(refusal), Ground::Untold),
    }
}

/// Checks a term and groups with 4, 6 and 11 left aside, on the caller's own
/// stack, which should be a large one. 11 tells only that the walk was given up
/// after so many states.
pub fn check_without_limits(term: &Term, groups: &[Group], most_states: usize) -> CheckAnswer {
    match test_closed(term) {
        Ok(()) => {
            let walk = |supply: &mut Supply| walk_without_limits(term, most_states, supply);
            check_walked(term, groups, walk).0
        }
        Err(refusal) => refused_before_walk(refusal),
    }
}

fn refused_before_walk(Refusal { number, place }: Refusal) -> CheckAnswer {
    CheckAnswer {
        number,
        place,
        comparisons: 0,
        degree: 0,
    }
}

/// The answer for a closed term and its groups by this walk, and the ground of
/// a refusal.
fn check_walked(
    term: &Term,
    groups: &[Group],
    walk: impl FnOnce(&mut Supply) -> (usize, Result<(), Stop>),
) -> (CheckAnswer, Ground) {
    let degree = term.degree();
    let mut unused = groups.iter();
    let (comparisons, end) = walk(&mut |_, _, _| unused.next().cloned());
    let end = match (end, unused.next()) {
        (Ok(()), Some(group)) => refuse(GROUPS_LEFT, group.head),
        (end, _) => end,
    };
    let accepted = Refusal {
        number: 0,
        place: 0,
    };
    let (Refusal { number, place }, ground) = match end {
        Ok(()) => (accepted, Ground::Untold),
        Err(Stop { refusal, ground }) => (refusal, ground),
    };
    let answer = CheckAnswer {
        number,
        place,
        comparisons,
        degree,
    };
    (answer, ground)
}

/// Checks a set: its heads, then its files up to the first that is refused.
pub fn check_set(bytes: &[u8]) -> SetAnswer {
    on_large_stack(|| {
        let files = match read_set(bytes) {
            Ok(files) => files,
            Err(Refusal { number, place }) => {
                let before = || read_set(&bytes[..place]).map_or(0, |files| files.len());
                return SetAnswer {
                    file: match made(Mistake::FieldNumberWith16) {
                        false => 0,
                        true => before(),
                    },
                    number,
                    place,
                    comparisons: 0,
                    degree: 0,
                };
            }
        };
        let mut numbered: Vec<_> = files.iter().enumerate().collect();
        if made(Mistake::LastRefusedNamed) {
            numbered.reverse();
        }
        let mut accepted = SetAnswer {
            file: files.len(),
            number: 0,
            place: 0,
            comparisons: 0,
            degree: 0,
        };
        for (file, part) in numbered {
            let a = check(match made(Mistake::FileNotCutOff) {
                false => &bytes[part.clone()],
                true => &bytes[part.start..],
            });
            if a.number != 0 {
                let more = |mistake: Mistake, more: usize| usize::from(made(mistake)) * more;
                return SetAnswer {
                    file: file + more(Mistake::FilesFromOne, 1),
                    number: a.number,
                    place: a.place + more(Mistake::PlaceInTheSet, part.start),
                    comparisons: a.comparisons
                        + more(Mistake::RefusedAddsToThoseBefore, accepted.comparisons),
                    degree: a.degree,
                };
            }
            if made(Mistake::ComparisonsOfTheLast) {
                accepted.comparisons = 0;
            }
            if made(Mistake::DegreeOfTheLast) {
                accepted.degree = a.degree;
            }
            accepted.comparisons += a.comparisons;
        }
        accepted
    })
}

/// Conditions 1 to 6 of a file.
fn read_file(bytes: &[u8]) -> Result<(Fields, Term), Refusal> {
    let fields = read_fields(bytes)?;
    let term = read_term(&bytes[fields.term.clone()])?;
    Ok((fields, term))
}

/// Condition 11 of a written result, then its bytes; gives the length.
fn write_result(result: &Term, buffer: &mut [u8]) -> Result<usize, Refusal> {
    if body_outgrown(&Frame::new(), result) {
        return refuse(OUTGROWN, 0);
    }
    write_bytes(&result.bytes(), buffer)
}

/// Condition 14, then the bytes at the buffer's start; gives the length.
fn write_bytes(bytes: &[u8], buffer: &mut [u8]) -> Result<usize, Refusal> {
    if buffer.len() < bytes.len() {
        if made(Mistake::ShortBufferWritten) {
            buffer.copy_from_slice(&bytes[..buffer.len()]);
        }
        return refuse(SHORT_BUFFER, 0);
    }
    buffer[..bytes.len()].copy_from_slice(bytes);
    Ok(bytes.len())
}

/// The answer for the length written, or for the refusal.
fn answer(written: Result<usize, Refusal>) -> StepAnswer {
    match written {
        Ok(len) => StepAnswer {
            number: 0,
            place: 0,
            len,
        },
        Err(Refusal { number, place }) => StepAnswer {
            number,
            place,
            len: 0,
        },
    }
}
