//! The call that explains a refusal (document 02): the check's answer with the
//! ground of 8, 10 and 12.

use crate::check_with_ground;
use crate::frame::{apply, Unmet};
use crate::ground::{Ground, Side};
use crate::mistakes::{made, Mistake};
use crate::refusal::*;
use crate::stack::on_large_stack;

#[derive(Clone, Copy, PartialEq, Eq, Debug)]
pub struct ExplainAnswer {
    /// These four are the check's, but for a 12 with a buffer that is too
    /// short: 14, place 0.
    pub number: u8,
    pub place: usize,
    pub comparisons: usize,
    pub degree: u64,
    pub report: Report,
}

/// What the call adds to the four numbers.
#[derive(Clone, Copy, PartialEq, Eq, Debug)]
pub enum Report {
    /// Of 8.
    Waiting { many: usize },
    /// Of 10: the step by its number from 0 in its side's list.
    Step {
        side: Side,
        number: usize,
        unmet: Unmet,
    },
    /// Of 12: how long the bodies are that were written, and the place of the
    /// first byte at which they differ.
    Bodies {
        left: usize,
        right: usize,
        difference: usize,
    },
    /// Of any other number.
    Nothing,
}

impl ExplainAnswer {
    /// The eight numbers of the call.
    pub fn numbers(&self) -> [u64; 8] {
        let [a, b, c] = match self.report {
            Report::Waiting { many } => [many, 0, 0],
            Report::Step {
                side,
                number,
                unmet,
            } => [side as usize, number, unmet as usize],
            Report::Bodies {
                left,
                right,
                difference,
            } => [left, right, difference],
            Report::Nothing => [0; 3],
        };
        let (number, degree) = (usize::from(self.number), self.degree as usize);
        let numbers = [number, self.place, self.comparisons, degree, a, b, c, 0];
        numbers.map(|number| number as u64)
    }
}

/// Checks a file and gives the ground of a refusal. At 12 both bodies are
/// written, each at its buffer's start.
pub fn explain(bytes: &[u8], left: &mut [u8], right: &mut [u8]) -> ExplainAnswer {
    on_large_stack(|| {
        let (check, ground) = check_with_ground(apply, bytes, None);
        let answer = |report: Report| ExplainAnswer {
            number: check.number,
            place: check.place,
            comparisons: check.comparisons,
            degree: check.degree,
            report,
        };
        match ground {
            Ground::Untold => answer(Report::Nothing),
            Ground::Waiting(many) => answer(Report::Waiting {
                many: many - usize::from(made(Mistake::OneLessWaits)),
            }),
            Ground::Step {
                side,
                number,
                unmet,
            } => answer(Report::Step {
                side: match made(Mistake::SidesExchanged) {
                    false => side,
                    true if side == Side::Left => Side::Right,
                    true => Side::Left,
                },
                number: number + usize::from(made(Mistake::StepsFromOne)),
                unmet,
            }),
            Ground::Bodies(of_left, of_right) => {
                let mut bodies = [of_left.bytes(), of_right.bytes()];
                if made(Mistake::BodiesExchanged) {
                    bodies.reverse();
                }
                let report = report_of(&bodies);
                if write(&bodies, left, right) {
                    return answer(report);
                }
                ExplainAnswer {
                    number: SHORT_BUFFER,
                    place: match made(Mistake::PlaceWith14) {
                        false => 0,
                        true => check.place,
                    },
                    ..answer(match made(Mistake::LengthsWith14) {
                        false => Report::Nothing,
                        true => report,
                    })
                }
            }
        }
    })
}

/// The lengths of the two bodies, and where they differ: neither is a proper
/// beginning of the other.
fn report_of([left, right]: &[Vec<u8>; 2]) -> Report {
    let mut differing = (0..left.len().min(right.len())).filter(|&at| left[at] != right[at]);
    let difference = match made(Mistake::LastDifference) {
        false => differing.next(),
        true => differing.next_back(),
    };
    let difference = difference.expect("one of the common bytes differs");
    let (left, right) = match made(Mistake::LengthsExchanged) {
        false => (left.len(), right.len()),
        true => (right.len(), left.len()),
    };
    Report::Bodies {
        left,
        right,
        difference: difference + usize::from(made(Mistake::DifferenceOneTooFar)),
    }
}

/// Writes each body at its buffer's start, if there is room for both.
fn write([of_left, of_right]: &[Vec<u8>; 2], left: &mut [u8], right: &mut [u8]) -> bool {
    let more = usize::from(made(Mistake::ExactBodiesRefused));
    let room_left = left.len() >= of_left.len() + more;
    let room_right = right.len() >= of_right.len() + more;
    if room_left && (room_right || made(Mistake::LeftWrittenWith14)) {
        left[..of_left.len()].copy_from_slice(of_left);
    }
    if room_left && room_right {
        right[..of_right.len()].copy_from_slice(of_right);
    }
    room_left && room_right
}
