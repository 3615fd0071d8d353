//! Lines put in front of a text, or anywhere among its own (document 02): the
//! file that comes of it, with the text's groups as they were.

use crate::file::{Group, MAX_FILE_BYTES};
use crate::frame::{Entry, Frame};
use crate::gen::{before, bytes_of, empty_groups, file, lines_after, term_of_type};
use crate::mistakes::{made, Mistake};
use crate::normaliser::groups_after;
use crate::refusal::Refusal;
use crate::rng::Rng;
use crate::stack::on_large_stack;
use crate::term::{Term, Term::*, MAX_SCOPE};
use crate::{check, read_file, CheckAnswer};
use std::fmt;

/// A text with its groups: its lines, which are the [U] and ⟨K⟩[U] at its
/// front, and the rest.
#[derive(Clone, PartialEq, Eq, Debug)]
pub struct Lined {
    pub lines: Frame,
    pub rest: Term,
    pub groups: Vec<Group>,
}

/// Something new among a text's lines.
#[derive(Clone, PartialEq, Eq, Debug)]
pub struct Growth {
    /// How many of the text's own lines stand before it.
    pub at: usize,
    /// Its terms are as they stand in the grown text.
    pub new: New,
    /// Of its own comparisons, in the walk's order.
    pub groups: Vec<Group>,
}

#[derive(Clone, PartialEq, Eq, Debug)]
pub enum New {
    Lines(Frame),
    /// The K that makes ⟨K⟩[U] of the text's line [U] there.
    Applicator(Term),
}

/// Why lines cannot be put in front.
#[derive(Clone, Copy, PartialEq, Eq, Debug)]
pub enum Error {
    LinesRefused(CheckAnswer),
    TextRefused(CheckAnswer),
    /// No abstractor stands directly after the applicator there, in the term of
    /// the lines.
    ApplicatorAlone(usize),
    /// The term of the lines ends in the variable there, and not in τ.
    EndsInVariable(usize),
    /// The new text is beyond a limit: 4, 6 or 11.
    NewRefused(CheckAnswer),
}

impl fmt::Display for Error {
    fn fmt(&self, f: &mut fmt::Formatter) -> fmt::Result {
        match self {
            Error::LinesRefused(answer) => write!(f, "the lines are refused: {answer}"),
            Error::TextRefused(answer) => write!(f, "the text is refused: {answer}"),
            Error::ApplicatorAlone(place) => write!(
                f,
                "not lines: no abstractor stands directly after the applicator at {place} of the term"
            ),
            Error::EndsInVariable(place) => write!(
                f,
                "not lines: the term ends in the variable at {place} and not in τ"
            ),
            Error::NewRefused(answer) => write!(f, "the new text is refused: {answer}"),
        }
    }
}

/// The file of an accepted text with the lines of another accepted file in
/// front, accepted too.
pub fn front(lines: &[u8], text: &[u8]) -> Result<Vec<u8>, Error> {
    on_large_stack(|| {
        let lines = accepted(lines).map_err(Error::LinesRefused)?;
        let text = accepted(text).map_err(Error::TextRefused)?;
        let grown = text.grown(&[lines.in_front()?]);
        let file = grown.file().expect("a closed text keeps its indices");
        accepted(&file).map_err(Error::NewRefused)?;
        Ok(file)
    })
}

fn accepted(file: &[u8]) -> Result<Lined, CheckAnswer> {
    match check(file) {
        CheckAnswer { number: 0, .. } => Ok(Lined::read(file).expect("an accepted file is one")),
        refused => Err(refused),
    }
}

impl Lined {
    /// The text of a file; refused by conditions 1 to 6 alone.
    pub fn read(file: &[u8]) -> Result<Lined, Refusal> {
        let (fields, mut rest) = read_file(file)?;
        let mut lines = Frame::new();
        while let Some((line, after)) = first_line(&rest) {
            lines.push(line);
            rest = after;
        }
        Ok(Lined {
            lines,
            rest,
            groups: fields.groups,
        })
    }

    pub fn term(&self) -> Term {
        before(self.lines.clone(), self.rest.clone())
    }

    /// The file, if every index and the term's length can be written.
    pub fn file(&self) -> Option<Vec<u8>> {
        let term = self.term();
        let mut written = term.size() <= MAX_FILE_BYTES;
        term.each_symbol(&mut |symbol| {
            written &= !matches!(symbol, Var(index) if *index > MAX_SCOPE);
        });
        written.then(|| file(&term.bytes(), &self.groups))
    }

    /// All this as lines to stand in front of a text.
    pub fn in_front(self) -> Result<Growth, Error> {
        match self.rest {
            Tau => Ok(Growth {
                at: 0,
                new: New::Lines(self.lines),
                groups: self.groups,
            }),
            Var(_) => Err(Error::EndsInVariable(bytes_of(&self.lines))),
            _ => Err(Error::ApplicatorAlone(bytes_of(&self.lines))),
        }
    }

    /// The text grown by all of these, which come by rising place, with the
    /// lines before an applicator at the same place.
    pub fn grown(&self, growths: &[Growth]) -> Lined {
        assert!(growths.is_sorted_by_key(|growth| growth.at));
        let mut text = self.clone();
        let mut new_lines = 0;
        for Growth { at, new, groups } in growths {
            let at = at + new_lines;
            let used = text.comparisons_before(at);
            match new {
                New::Lines(lines) => {
                    text.lift_from(at, lines.len());
                    text.lines.splice(at..at, lines.clone());
                    if made(Mistake::PlacesMoved) {
                        text.move_places(used, bytes_of(lines));
                    }
                    text.put_groups(used, groups);
                    new_lines += lines.len();
                }
                // First K, then U, then the two are compared.
                New::Applicator(k) => {
                    let Entry::Single(u) = text.lines[at].clone() else {
                        panic!("only a single abstractor becomes a pair");
                    };
                    let (of_pair, of_k) = groups.split_last().expect("a pair has a group");
                    let of_u = match made(Mistake::GroupOfPairBeforeU) {
                        false => u.applicators(),
                        true => 0,
                    };
                    text.put_groups(used + of_u, std::slice::from_ref(of_pair));
                    text.put_groups(used, of_k);
                    text.lines[at] = Entry::Pair(k.clone(), u);
                }
            }
        }
        text
    }

    /// How many comparisons the walk makes before line `at`: nothing waits
    /// there, so as many as there are applicators before it.
    fn comparisons_before(&self, at: usize) -> usize {
        let lines = self.lines[..at].to_vec();
        match made(Mistake::InnerApplicatorsForgotten) {
            false => before(lines, Tau).applicators(),
            true => lines.iter().filter(|line| line.k().is_some()).count(),
        }
    }

    /// Makes room for `n` lines before line `at`: of the lines from there on
    /// and the rest, each index that points outside all these is lifted.
    fn lift_from(&mut self, at: usize, n: usize) {
        let n = match made(Mistake::OutsideNotLifted) {
            false => n as u64,
            true => 0,
        };
        let inside = |passed: usize| match made(Mistake::InsideLifted) {
            false => passed as u64,
            true => 0,
        };
        let passed = self.lines.len() - at;
        for (passed, line) in self.lines[at..].iter_mut().enumerate() {
            *line = line.lift_beyond(n, inside(passed));
        }
        self.rest = self.rest.lift_beyond(n, inside(passed));
    }

    fn put_groups(&mut self, used: usize, groups: &[Group]) {
        let at = match made(Mistake::NewGroupsLast) {
            false => used,
            true => self.groups.len(),
        };
        self.groups.splice(at..at, groups.iter().cloned());
    }

    /// Only a mistake does this.
    fn move_places(&mut self, used: usize, bytes: usize) {
        let later = self.groups[used..].iter_mut();
        for step in later.flat_map(|group| group.left.iter_mut().chain(&mut group.right)) {
            step.place += bytes;
        }
    }
}

/// The line that the train begins with, and what follows.
fn first_line(train: &Term) -> Option<(Entry, Term)> {
    let (App(item) | Abs(item)) = train else {
        return None;
    };
    let (inner, rest) = item.parts_cloned();
    match (train, &rest) {
        (Abs(_), _) => Some((Entry::Single(inner), rest)),
        (_, Abs(next)) => {
            let (u, rest) = next.parts_cloned();
            Some((Entry::Pair(inner, u), rest))
        }
        _ => None,
    }
}

// ---------------------------------------------------------------- random

/// Correct lines and τ, seldom more than six.
pub fn random_lines(rng: &mut Rng) -> Lined {
    let many = match rng.below(16) {
        0 => rng.between(6, 25),
        _ => rng.below(6),
    };
    let mut text = Lined {
        lines: Frame::new(),
        rest: Tau,
        groups: Vec::new(),
    };
    (text.lines, text.groups) = accepted_lines(rng, &text.lines, many);
    text
}

/// Growth of a text at one to four places: lines, which may use those before
/// them, or a K for the [U] there.
pub fn random_growth(rng: &mut Rng, text: &Lined) -> Vec<Growth> {
    let many = rng.between(1, 4);
    let mut places: Vec<usize> = (0..many).map(|_| rng.below(text.lines.len() + 1)).collect();
    places.sort_unstable();
    places.dedup();
    let mut growths = Vec::new();
    for at in places {
        let so_far = text.grown(&growths);
        let new_lines = so_far.lines.len() - text.lines.len();
        let (frame, after) = so_far.lines.split_at(at + new_lines);
        let frame = frame.to_vec();
        match after.first() {
            Some(Entry::Single(u)) if rng.below(2) == 0 => {
                let used = so_far.comparisons_before(frame.len());
                let of_u = &so_far.groups[used..used + u.applicators()];
                growths.extend(applicator(rng, at, &frame, u, of_u));
            }
            _ => {
                let many = rng.between(1, 4);
                let (lines, groups) = accepted_lines(rng, &frame, many);
                let new = New::Lines(lines);
                growths.push(Growth { at, new, groups });
            }
        }
    }
    growths
}

/// Correct lines to stand after the frame, with their groups; [τ] if these are
/// not found or a limit is met.
fn accepted_lines(rng: &mut Rng, frame: &Frame, many: usize) -> (Frame, Vec<Group>) {
    let lines = lines_after(rng, frame, many);
    match groups_after(frame, &before(lines.clone(), Tau), rng) {
        Some(groups) => (lines, groups),
        None => (vec![Entry::Single(Tau)], Vec::new()),
    }
}

/// What makes ⟨K⟩[U] of a line [U] with these groups: a K of that type, if one
/// is found; else [U] once more before it, for K to mean.
fn applicator(rng: &mut Rng, at: usize, frame: &Frame, u: &Term, of_u: &[Group]) -> Vec<Growth> {
    let k = match rng.below(2) {
        0 => term_of_type(rng, frame, u),
        _ => None,
    };
    let found = k.and_then(|k| {
        let pair = vec![Entry::Pair(k.clone(), u.clone())];
        let mut groups = groups_after(frame, &before(pair, Tau), rng)?;
        groups.drain(k.applicators()..groups.len() - 1);
        let new = New::Applicator(k);
        Some(vec![Growth { at, new, groups }])
    });
    found.unwrap_or_else(|| {
        let declared = Growth {
            at,
            new: New::Lines(vec![Entry::Single(u.clone())]),
            groups: of_u.to_vec(),
        };
        let meant = Growth {
            at,
            new: New::Applicator(Var(1)),
            groups: empty_groups(1),
        };
        vec![declared, meant]
    })
}
