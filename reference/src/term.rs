//! Terms: reading, writing, measures, lifting, degree.

use crate::mistakes::{made, Mistake};
use crate::refusal::*;
use std::rc::Rc;

/// No term, compared body or written result is longer.
pub const MAX_TERM_BYTES: usize = 4096;
/// No place is in the scope of more abstractors.
pub const MAX_SCOPE: u64 = 253;

/// A term: items, then a terminal.
#[derive(Clone, PartialEq, Eq, Debug)]
pub enum Term {
    /// τ
    Tau,
    /// A variable with its index, 1 for the nearest abstractor.
    Var(u64),
    /// ⟨K⟩B
    App(Rc<Item>),
    /// [U]B
    Abs(Rc<Item>),
}

use Term::*;

/// An item (document 01: a wagon) and the rest of its train. Terms share their items, which keep
/// their measures so that these are counted once. `app` and `abs` make them.
#[derive(PartialEq, Eq, Debug)]
pub struct Item {
    size: usize,
    /// The most abstractors of the term that any of its places is in the
    /// scope of.
    scopes: u64,
    /// The farthest abstractor outside the term that an index of it means,
    /// counted outward from its first byte; 0 if it is closed.
    reach: u64,
    inner: Term,
    rest: Term,
}

impl Item {
    /// The K or U, and the rest.
    pub fn parts(&self) -> (&Term, &Term) {
        (&self.inner, &self.rest)
    }

    /// The same as terms of their own.
    pub fn parts_cloned(&self) -> (Term, Term) {
        (self.inner.clone(), self.rest.clone())
    }
}

pub fn app(k: Term, rest: Term) -> Term {
    App(Rc::new(Item {
        size: 1 + k.size() + rest.size(),
        scopes: k.scopes().max(rest.scopes()),
        reach: k.reach().max(rest.reach()),
        inner: k,
        rest,
    }))
}

pub fn abs(u: Term, rest: Term) -> Term {
    Abs(Rc::new(Item {
        size: 1 + u.size() + rest.size(),
        scopes: u.scopes().max(1 + rest.scopes()),
        reach: u.reach().max(rest.reach().saturating_sub(1)),
        inner: u,
        rest,
    }))
}

const APPLICATOR: u8 = 0xfe;
const ABSTRACTOR: u8 = 0xff;

/// What each byte does to the balance.
pub const BALANCE: [i32; 256] = {
    let mut table = [-1; 256];
    table[APPLICATOR as usize] = 1;
    table[ABSTRACTOR as usize] = 1;
    table
};

/// The place after the term at the start of `bytes`, if it ends there.
pub fn end_of_term(bytes: &[u8]) -> Option<usize> {
    let mut balance = 1;
    for (place, &byte) in bytes.iter().enumerate() {
        balance += BALANCE[byte as usize];
        if balance == 0 {
            return Some(place + 1);
        }
    }
    None
}

/// Reads bytes that must be exactly one closed term within the limits:
/// conditions 4, 3, then 5 and 6.
pub fn read_term(bytes: &[u8]) -> Result<Term, Refusal> {
    if bytes.len() > MAX_TERM_BYTES {
        return refuse(TOO_LONG, 0);
    }
    match end_of_term(bytes) {
        None => return refuse(NOT_ONE_TERM, bytes.len()),
        Some(end) if end < bytes.len() => return refuse(NOT_ONE_TERM, end),
        Some(_) => {}
    }
    let term = parse(bytes, &mut 0);
    test_scopes(&term, 0, 0, MAX_SCOPE)?;
    Ok(term)
}

/// Condition 5 alone.
pub fn test_closed(term: &Term) -> Result<(), Refusal> {
    test_scopes(term, 0, 0, u64::MAX)?;
    Ok(())
}

/// Parses one term that is known to end; moves `at` past it.
fn parse(bytes: &[u8], at: &mut usize) -> Term {
    let byte = bytes[*at];
    *at += 1;
    match byte {
        0 => Tau,
        APPLICATOR => {
            let k = parse(bytes, at);
            app(k, parse(bytes, at))
        }
        ABSTRACTOR => {
            let u = parse(bytes, at);
            abs(u, parse(bytes, at))
        }
        index => Var(u64::from(index)),
    }
}

/// Conditions 5 and 6, leftmost first, for a term whose first byte is at `at`
/// and in the scope of `depth` abstractors, of which there may be `most`. Gives
/// the place after it.
fn test_scopes(term: &Term, at: usize, depth: u64, most: u64) -> Result<usize, Refusal> {
    match term {
        Tau => Ok(at + 1),
        Var(index) if *index > depth => refuse(BEYOND_SCOPE, at),
        Var(_) => Ok(at + 1),
        App(item) => {
            let (k, rest) = item.parts();
            let after = test_scopes(k, at + 1, depth, most)?;
            test_scopes(rest, after, depth, most)
        }
        Abs(_) if depth == most => refuse(TOO_DEEP, at),
        Abs(item) => {
            let (u, rest) = item.parts();
            let after = test_scopes(u, at + 1, depth, most)?;
            test_scopes(rest, after, depth + 1, most)
        }
    }
}

impl Term {
    /// The byte count.
    pub fn size(&self) -> usize {
        match self {
            Tau | Var(_) => 1,
            App(item) | Abs(item) => item.size,
        }
    }

    fn scopes(&self) -> u64 {
        match self {
            Tau | Var(_) => 0,
            App(item) | Abs(item) => item.scopes,
        }
    }

    fn reach(&self) -> u64 {
        match self {
            Tau => 0,
            Var(index) => *index,
            App(item) | Abs(item) => item.reach,
        }
    }

    /// The largest number of abstractors that any place of the term is in the
    /// scope of, if its first byte is in the scope of `depth`.
    pub fn deepest_scope(&self, depth: u64) -> u64 {
        depth + self.scopes()
    }

    /// Adds `n` to each index that points outside the term.
    pub fn lift(&self, n: u64) -> Term {
        self.lift_beyond(n, 0)
    }

    /// Adds `n` to each index that points beyond the `bound` nearest scopes
    /// around the term.
    pub fn lift_beyond(&self, n: u64, bound: u64) -> Term {
        match self {
            _ if self.reach() <= bound => self.clone(),
            Tau => Tau,
            Var(index) => Var(index + n),
            App(item) => {
                let (k, rest) = item.parts();
                app(k.lift_beyond(n, bound), rest.lift_beyond(n, bound))
            }
            Abs(item) => {
                let (u, rest) = item.parts();
                let inside = bound + u64::from(!made(Mistake::LiftsBoundIndices));
                abs(u.lift_beyond(n, bound), rest.lift_beyond(n, inside))
            }
        }
    }

    /// Whether an index of the term means the `index`-th abstractor outward
    /// from the term's first byte.
    pub fn uses(&self, index: u64) -> bool {
        match self {
            _ if self.reach() < index => false,
            Tau => false,
            Var(own) => *own == index,
            App(item) => item.inner.uses(index) || item.rest.uses(index),
            Abs(item) => item.inner.uses(index) || item.rest.uses(index + 1),
        }
    }

    /// The term with the abstractor that index `index` would mean gone: each
    /// index that passed over it falls by 1. The term must not use it.
    pub fn without(&self, index: u64) -> Term {
        match self {
            _ if self.reach() < index => self.clone(),
            Tau => Tau,
            Var(own) => Var(own - 1),
            App(item) => app(item.inner.without(index), item.rest.without(index)),
            Abs(item) => abs(item.inner.without(index), item.rest.without(index + 1)),
        }
    }

    /// The term with the abstractor that index `index` would mean gone, and
    /// `k` for each variable that means it. `k` stands as before that
    /// abstractor, so that it is lifted by the others between alone.
    pub fn substituted(&self, index: u64, k: &Term) -> Term {
        let inside = |inner: &Term| match made(Mistake::UsesInItemsForgotten) {
            false => inner.substituted(index, k),
            true => inner.clone(),
        };
        match self {
            _ if self.reach() < index => self.clone(),
            Tau => Tau,
            Var(own) if *own == index => {
                let fewer = u64::from(made(Mistake::SubstitutionLiftsLess));
                k.lift((index - 1).saturating_sub(fewer))
            }
            Var(own) => Var(own - 1),
            App(item) => app(inside(&item.inner), item.rest.substituted(index, k)),
            Abs(item) => abs(inside(&item.inner), item.rest.substituted(index + 1, k)),
        }
    }

    /// The degree of a closed term.
    pub fn degree(&self) -> u64 {
        self.degree_after(&mut Vec::new())
    }

    /// The degree of the last terminal. `scope` has, for each abstractor in
    /// scope, outermost first, the degree of its U.
    fn degree_after(&self, scope: &mut Vec<u64>) -> u64 {
        match self {
            Tau => 1,
            Var(index) => 1 + scope[scope.len() - *index as usize],
            App(item) => item.rest.degree_after(scope),
            Abs(item) => {
                let (u, rest) = item.parts();
                let of_u = u.degree_after(scope);
                scope.push(of_u);
                let of_rest = rest.degree_after(scope);
                scope.pop();
                of_rest
            }
        }
    }

    /// How many applicators it has, inside any K or U too.
    pub fn applicators(&self) -> usize {
        let mut applicators = 0;
        self.each_symbol(&mut |symbol| applicators += usize::from(matches!(symbol, App(_))));
        applicators
    }

    /// Shows each symbol, from left to right, as the term that begins with it.
    pub fn each_symbol(&self, show: &mut impl FnMut(&Term)) {
        show(self);
        if let App(item) | Abs(item) = self {
            item.inner.each_symbol(show);
            item.rest.each_symbol(show);
        }
    }

    /// The term's bytes. Every index must be at most 253.
    pub fn bytes(&self) -> Vec<u8> {
        let mut bytes = Vec::new();
        self.each_symbol(&mut |symbol| match symbol {
            Tau => bytes.push(0),
            Var(index) => {
                assert!((1..=MAX_SCOPE).contains(index), "an index has one byte");
                bytes.push(*index as u8);
            }
            App(_) => bytes.push(APPLICATOR),
            Abs(_) => bytes.push(ABSTRACTOR),
        });
        bytes
    }
}
