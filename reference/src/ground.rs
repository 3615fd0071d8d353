//! The ground of a refusal (document 02): the state that stopped a walk, as far
//! as the call that explains tells of it.

use crate::frame::Unmet;
use crate::refusal::Refusal;
use crate::term::Term;

/// A side of a comparison, by its number.
#[derive(Clone, Copy, PartialEq, Eq, Debug)]
pub enum Side {
    /// The type of K and its steps.
    Left,
    /// U and its steps.
    Right,
}

#[derive(Clone, PartialEq, Eq, Debug)]
pub enum Ground {
    /// 8: so many wait.
    Waiting(usize),
    /// 10: the step that could not be applied, by its number from 0 in its
    /// side's list.
    Step {
        side: Side,
        number: usize,
        unmet: Unmet,
    },
    /// 12: the two bodies reached, left and right.
    Bodies(Term, Term),
    /// Any other number: no more is told.
    Untold,
}

/// Why a walk stopped.
#[derive(Clone, PartialEq, Eq, Debug)]
pub struct Stop {
    pub refusal: Refusal,
    pub ground: Ground,
}

impl From<Refusal> for Stop {
    fn from(refusal: Refusal) -> Stop {
        Stop {
            refusal,
            ground: Ground::Untold,
        }
    }
}

/// Stops a walk with a refusal that has this ground.
pub fn stop<T>(number: u8, place: usize, ground: Ground) -> Result<T, Stop> {
    let refusal = Refusal { number, place };
    Err(Stop { refusal, ground })
}
