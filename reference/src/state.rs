//! The rules of 001 by their numbers, and the states that they apply to.

use crate::frame::{Entry, Frame};
use crate::mistakes::{made, Mistake};
use crate::term::Term;
use std::fmt;

/// A rule: (i) to (v) are those of 5.3, (vi) to (xii) those of 5.8.
#[derive(Clone, Copy, PartialEq, Eq, Debug)]
pub enum Rule {
    I,
    Ii,
    Iii,
    Iv,
    V,
    Vi,
    Vii,
    Viii,
    Ix,
    X,
    Xi,
    Xii,
}

use Rule::*;

pub const RULES: [Rule; 12] = [I, Ii, Iii, Iv, V, Vi, Vii, Viii, Ix, X, Xi, Xii];

/// The number as the paper has it.
impl fmt::Display for Rule {
    fn fmt(&self, f: &mut fmt::Formatter) -> fmt::Result {
        write!(f, "({})", format!("{self:?}").to_lowercase())
    }
}

/// Whose text B is.
#[derive(Clone, Copy, PartialEq, Eq, Debug)]
pub enum Text {
    /// The term's own.
    Own,
    /// The type of a variable, copied.
    Copied,
}

/// An applicator that waits for its abstractor.
#[derive(Clone, Debug)]
pub struct Waiting {
    /// The place of the state that it was first in.
    pub place: usize,
    /// Its K, lifted to stand right after the frame.
    pub k: Term,
}

/// (R, W, B), or (R, W, Y, B) in the one-pass rules' copied text. Elsewhere Y
/// is empty.
pub struct State<'a> {
    pub text: Text,
    /// Where B begins in the term; in copied text the variable of the term's
    /// own text whose typing led there.
    pub place: usize,
    pub r: &'a mut Frame,
    /// The last that came is the last.
    pub w: Vec<Waiting>,
    /// The same; each K is lifted to stand right after the frame.
    pub y: Vec<Term>,
    pub b: Term,
}

impl State<'_> {
    /// B after R, with nothing waiting.
    pub fn new(text: Text, place: usize, r: &mut Frame, b: Term) -> State<'_> {
        State {
            text,
            place,
            r,
            w: Vec::new(),
            y: Vec::new(),
            b,
        }
    }

    /// The place of a state for the K or U that B begins with.
    pub fn place_inside(&self) -> usize {
        match self.text {
            Text::Own => self.place + 1,
            Text::Copied => self.place,
        }
    }

    /// Passes the ⟨K⟩ that B begins with: it joins W.
    pub fn join_w(&mut self, k: Term, rest: Term) {
        let place = self.place;
        self.go_on(&k, rest);
        self.w.push(Waiting { place, k });
    }

    /// Passes the ⟨K⟩ that B begins with: it joins Y.
    pub fn join_y(&mut self, k: Term, rest: Term) {
        self.go_on(&k, rest);
        self.y.push(k);
    }

    /// Passes the [U] that B begins with: the entry made of it joins R, and
    /// what waits is lifted by 1.
    pub fn join_r(&mut self, entry: Entry, rest: Term) {
        self.go_on(entry.u(), rest);
        self.r.push(entry);
        if !made(Mistake::WaitingNotLifted) {
            for waiting in &mut self.w {
                waiting.k = waiting.k.lift(1);
            }
        }
        for k in &mut self.y {
            *k = k.lift(1);
        }
    }

    /// B goes on with the rest after an item, by its K or U.
    fn go_on(&mut self, inner: &Term, rest: Term) {
        if self.text == Text::Own {
            self.place += 1 + inner.size();
        }
        self.b = rest;
    }
}
