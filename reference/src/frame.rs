//! The frame R, and what depends on it: types, steps, the limit on a body.

use crate::mistakes::{made, Mistake};
use crate::term::{abs, app, Term, Term::*, MAX_SCOPE, MAX_TERM_BYTES};

/// An entry of the frame. Its terms stand after the entries before it.
#[derive(Clone, PartialEq, Eq, Debug)]
pub enum Entry {
    /// [U]
    Single(Term),
    /// ⟨K⟩[U]
    Pair(Term, Term),
}

pub type Frame = Vec<Entry>;

impl Entry {
    pub fn u(&self) -> &Term {
        match self {
            Entry::Single(u) | Entry::Pair(_, u) => u,
        }
    }

    /// The applicator's term, if the abstractor is paired.
    pub fn k(&self) -> Option<&Term> {
        match self {
            Entry::Single(_) => None,
            Entry::Pair(k, _) => Some(k),
        }
    }

    /// Adds `n` to each index that points beyond the `bound` nearest entries
    /// before it.
    pub fn lift_beyond(&self, n: u64, bound: u64) -> Entry {
        match self {
            Entry::Single(u) => Entry::Single(u.lift_beyond(n, bound)),
            Entry::Pair(k, u) => Entry::Pair(k.lift_beyond(n, bound), u.lift_beyond(n, bound)),
        }
    }
}

/// The type of variable `index` that stands right after the frame: the U that
/// it means, lifted by the index.
pub fn type_of_variable(frame: &Frame, index: u64) -> Term {
    frame[frame.len() - index as usize].u().lift(index)
}

/// The type of a term after the frame; none if the term ends in τ.
pub fn type_of(frame: &Frame, term: &Term) -> Option<Term> {
    let us = frame.iter().map(Entry::u).collect();
    type_in_scope(us, term)
}

/// `us` has the U of each abstractor in scope, outermost first.
fn type_in_scope<'a>(mut us: Vec<&'a Term>, term: &'a Term) -> Option<Term> {
    match term {
        Tau => None,
        Var(index) => Some(us[us.len() - *index as usize].lift(*index)),
        App(item) => {
            let (k, rest) = item.parts();
            Some(app(k.clone(), type_in_scope(us, rest)?))
        }
        Abs(item) => {
            let (u, rest) = item.parts();
            us.push(u);
            Some(abs(u.clone(), type_in_scope(us, rest)?))
        }
    }
}

/// Whether a compared body or written result is outgrown after the frame.
pub fn body_outgrown(frame: &Frame, body: &Term) -> bool {
    body.size() > MAX_TERM_BYTES || body.deepest_scope(frame.len() as u64) > MAX_SCOPE
}

/// A step as the file has it.
#[derive(Clone, Copy, PartialEq, Eq, Debug)]
pub struct Step {
    pub kind: u8,
    pub place: usize,
}

pub const LOCAL: u8 = 1;
pub const REMOVAL: u8 = 2;
pub const SUBSTITUTION: u8 = 3;

/// The condition of a step that is unmet, by its number. They are tried in
/// this order.
#[derive(Clone, Copy, PartialEq, Eq, Debug)]
pub enum Unmet {
    /// The kind is unknown.
    Kind = 1,
    /// The place is past the body.
    Place,
    /// The byte there is no variable, for kind 1, or not fe, for kinds 2 and 3.
    Byte,
    /// The variable's abstractor goes with no applicator, or the applicator
    /// with no abstractor.
    NoPartner,
    /// The couple's variable has a use, for kind 2.
    StillUsed,
}

pub const UNMET: [Unmet; 5] = [
    Unmet::Kind,
    Unmet::Place,
    Unmet::Byte,
    Unmet::NoPartner,
    Unmet::StillUsed,
];

/// Which two items of a body's train a step takes together.
#[derive(Clone, Copy, PartialEq, Eq, Debug)]
pub enum Reach {
    /// An applicator and the abstractor directly after it: document 01's pairs.
    Pairs,
    /// An applicator and the abstractor of its train that matches it as
    /// brackets match: the couples of document 02.
    Couples,
}

/// The body after the step, or the first condition that is unmet.
pub fn apply(frame: &Frame, body: &Term, step: Step) -> Result<Term, Unmet> {
    match made(Mistake::PairsOnly) {
        false => apply_within(Reach::Couples, frame, body, step),
        true => apply_within(Reach::Pairs, frame, body, step),
    }
}

/// The same where steps take pairs only, as before document 02's couples.
pub fn apply_to_pairs(frame: &Frame, body: &Term, step: Step) -> Result<Term, Unmet> {
    apply_within(Reach::Pairs, frame, body, step)
}

/// The step on items that this reach takes together.
fn apply_within<'a>(
    reach: Reach,
    frame: &'a Frame,
    body: &'a Term,
    step: Step,
) -> Result<Term, Unmet> {
    let past = step.place >= body.size();
    let known = (LOCAL..=SUBSTITUTION).contains(&step.kind);
    if !known && !(past && made(Mistake::PlaceBeforeKind)) {
        return Err(Unmet::Kind);
    }
    if past {
        return Err(Unmet::Place);
    }
    match step.kind {
        LOCAL => {
            let entries = frame.iter().enumerate();
            let applicator = |(depth, entry): (usize, &'a Entry)| {
                let k = entry.k()?;
                Some(Applicator { k, depth })
            };
            let mut local = Local {
                reach,
                partners: entries.map(applicator).collect(),
            };
            let waiting = match made(Mistake::PartnerInTheFrame) {
                false => Vec::new(),
                true => local.partners.iter().flatten().copied().collect(),
            };
            local.step(body, step.place, waiting)
        }
        REMOVAL => at_applicator(body, step.place, &|_, train| removed(reach, train)),
        _ => {
            if made(Mistake::MeasuredOnTheWay) {
                let kept = |k: &Term, train: &Term| couple_kept(reach, k, train);
                let on_the_way = at_applicator(body, step.place, &kept)?;
                if body_outgrown(frame, &on_the_way) {
                    return Ok(on_the_way);
                }
            }
            at_applicator(body, step.place, &|k, train| substituted(reach, k, train))
        }
    }
}

/// An applicator that is in the scope of `depth` abstractors.
#[derive(Clone, Copy)]
struct Applicator<'a> {
    k: &'a Term,
    depth: usize,
}

/// What a local step knows of the text around it.
struct Local<'a> {
    reach: Reach,
    /// Of each abstractor in scope, outermost first, the applicator that it
    /// goes with, if any.
    partners: Vec<Option<Applicator<'a>>>,
}

impl<'a> Local<'a> {
    /// The local step at `place` of `term`. `waiting` has the applicators
    /// before `term` in its train that no abstractor has taken.
    fn step(
        &mut self,
        term: &'a Term,
        place: usize,
        mut waiting: Vec<Applicator<'a>>,
    ) -> Result<Term, Unmet> {
        let inside = |waiting: Vec<Applicator<'a>>| match made(Mistake::PartnerOutsideTheTrain) {
            false => Vec::new(),
            true => waiting,
        };
        match term {
            Tau => Err(unmet_at_terminal()),
            Var(index) => {
                let depth = self.partners.len();
                let partner = self.partners[depth - *index as usize].ok_or(Unmet::NoPartner)?;
                // The abstractors that hold the variable and not the applicator.
                let lift = match made(Mistake::LiftWithoutTheBetween) {
                    false => depth - partner.depth,
                    true => *index as usize,
                };
                Ok(partner.k.lift(lift as u64))
            }
            App(_) | Abs(_) if place == 0 => Err(Unmet::Byte),
            App(item) => {
                let (k, rest) = item.parts();
                let place = place - 1;
                if place < k.size() {
                    return Ok(app(self.step(k, place, inside(waiting))?, rest.clone()));
                }
                let depth = self.partners.len();
                waiting.push(Applicator { k, depth });
                let rest = self.step(rest, place - k.size(), waiting)?;
                Ok(app(k.clone(), rest))
            }
            Abs(item) => {
                let (u, rest) = item.parts();
                let place = place - 1;
                if place < u.size() {
                    return Ok(abs(self.step(u, place, inside(waiting))?, rest.clone()));
                }
                let first = made(Mistake::FirstWaitingTaken) && !waiting.is_empty();
                self.partners.push(match first {
                    false => waiting.pop(),
                    true => Some(waiting.remove(0)),
                });
                if self.reach == Reach::Pairs {
                    waiting.clear();
                }
                let rest = self.step(rest, place - u.size(), waiting);
                self.partners.pop();
                Ok(abs(u.clone(), rest?))
            }
        }
    }
}

/// What is unmet at a terminal that is not the byte wanted.
fn unmet_at_terminal() -> Unmet {
    match made(Mistake::PartnerBeforeByte) {
        false => Unmet::Byte,
        true => Unmet::NoPartner,
    }
}

/// The term with its train from the applicator at `place` on rewritten, by the
/// applicator's K and the train after it.
fn at_applicator(
    term: &Term,
    place: usize,
    rewrite: &dyn Fn(&Term, &Term) -> Result<Term, Unmet>,
) -> Result<Term, Unmet> {
    let (make, item): (fn(Term, Term) -> Term, _) = match term {
        Tau | Var(_) => return Err(unmet_at_terminal()),
        App(item) => (app, item),
        Abs(item) => (abs, item),
    };
    let (inner, rest) = item.parts();
    if place == 0 {
        return match term {
            App(_) => rewrite(inner, rest),
            _ => Err(Unmet::Byte),
        };
    }
    let place = place - 1;
    if place < inner.size() {
        let inner = at_applicator(inner, place, rewrite)?;
        Ok(make(inner, rest.clone()))
    } else {
        let rest = at_applicator(rest, place - inner.size(), rewrite)?;
        Ok(make(inner.clone(), rest))
    }
}

/// The items passed on the way from an applicator to its partner.
#[derive(Clone, Copy, Default)]
struct Passed {
    abstractors: u64,
    /// Applicators that no abstractor has taken.
    waiting: u64,
}

/// What becomes of an abstractor and the rest of its train, by the abstractors
/// passed, its U and the rest after it.
type AtPartner<'a> = dyn Fn(u64, &Term, &Term) -> Result<Term, Unmet> + 'a;

/// The train after an applicator, with the applicator's partner in it
/// rewritten and what stands before that as it is.
fn at_partner(
    reach: Reach,
    train: &Term,
    passed: Passed,
    rewrite: &AtPartner,
) -> Result<Term, Unmet> {
    let kept = |inner: &Term| match made(Mistake::BetweenLowered) {
        true if !inner.uses(passed.abstractors + 1) => inner.without(passed.abstractors + 1),
        _ => inner.clone(),
    };
    match train {
        Tau | Var(_) => Err(Unmet::NoPartner),
        App(_) if reach == Reach::Pairs => Err(Unmet::NoPartner),
        App(item) => {
            let (k, rest) = item.parts();
            let passed = Passed {
                waiting: passed.waiting + u64::from(!made(Mistake::NearestAbstractorTaken)),
                ..passed
            };
            Ok(app(kept(k), at_partner(reach, rest, passed, rewrite)?))
        }
        Abs(item) if passed.waiting == 0 => {
            let (u, rest) = item.parts();
            rewrite(passed.abstractors, u, rest)
        }
        Abs(item) => {
            let (u, rest) = item.parts();
            let passed = Passed {
                abstractors: passed.abstractors + 1,
                waiting: passed.waiting - 1,
            };
            Ok(abs(kept(u), at_partner(reach, rest, passed, rewrite)?))
        }
    }
}

/// The removal of a couple: what is left of the train after its applicator, if
/// its variable has no use.
fn removed(reach: Reach, train: &Term) -> Result<Term, Unmet> {
    at_partner(reach, train, Passed::default(), &|_, _, rest| {
        if rest.uses(1) {
            Err(Unmet::StillUsed)
        } else if made(Mistake::RemovalKeepsIndices) {
            Ok(rest.clone())
        } else {
            Ok(rest.without(1))
        }
    })
}

/// The whole substitution of a couple: what is left of the train after its
/// applicator.
fn substituted(reach: Reach, k: &Term, train: &Term) -> Result<Term, Unmet> {
    if made(Mistake::PairKept) {
        return couple_kept(reach, k, train);
    }
    at_partner(reach, train, Passed::default(), &|passed, _, rest| {
        if made(Mistake::SubstitutionNeedsAUse) && !rest.uses(1) {
            return Err(Unmet::NoPartner);
        }
        Ok(rest.substituted(1, &lifted_past(k, passed)))
    })
}

/// A couple with every use of its variable replaced, before it is dropped.
fn couple_kept(reach: Reach, k: &Term, train: &Term) -> Result<Term, Unmet> {
    let after = at_partner(reach, train, Passed::default(), &|passed, u, rest| {
        let replaced = rest.substituted(1, &lifted_past(k, passed)).lift(1);
        Ok(abs(u.clone(), replaced))
    })?;
    Ok(app(k.clone(), after))
}

/// K as it stands right before its partner.
fn lifted_past(k: &Term, passed: u64) -> Term {
    match made(Mistake::LiftWithoutTheBetween) {
        false => k.lift(passed),
        true => k.clone(),
    }
}
