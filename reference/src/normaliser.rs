//! Finds steps. Only the generator uses it; the checker never searches.

use crate::file::Group;
use crate::frame::{
    apply, body_outgrown, Entry, Frame, Reach, Step, Unmet, LOCAL, REMOVAL, SUBSTITUTION,
};
use crate::ground::{Side, Stop};
use crate::rng::Rng;
use crate::term::{Term, Term::*};
use crate::walk::walk_after;

/// How an author does away with a couple of the body.
#[derive(Clone, Copy, PartialEq, Eq, Debug)]
pub enum Manner {
    /// By a local step at each use and then the removal.
    InParts,
    /// By the whole substitution.
    Whole,
}

/// The steps that can be applied to the body, from left to right: every local
/// step, and every removal or every substitution.
pub fn possible_steps(frame: &Frame, body: &Term, manner: Manner, reach: Reach) -> Vec<Step> {
    let mut found = Found {
        coupled: frame
            .iter()
            .map(|entry| matches!(entry, Entry::Pair(_, _)))
            .collect(),
        manner,
        reach,
        steps: Vec::new(),
    };
    found.collect(body, 0, 0);
    found.steps
}

/// Every substitution that can be applied to the body, from left to right.
pub fn substitutions(body: &Term) -> Vec<Step> {
    let mut steps = possible_steps(&Frame::new(), body, Manner::Whole, Reach::Couples);
    steps.retain(|step| step.kind == SUBSTITUTION);
    steps
}

struct Found {
    /// Of each abstractor in scope, whether it goes with an applicator.
    coupled: Vec<bool>,
    manner: Manner,
    reach: Reach,
    steps: Vec<Step>,
}

impl Found {
    /// `waiting` counts the applicators before the term in its train that may
    /// still be taken. Gives the place after the term.
    fn collect(&mut self, term: &Term, at: usize, waiting: usize) -> usize {
        match term {
            Tau => at + 1,
            Var(index) => {
                if self.coupled[self.coupled.len() - *index as usize] {
                    self.push(LOCAL, at);
                }
                at + 1
            }
            App(item) => {
                let (k, rest) = item.parts();
                if let Some(after) = after_partner(rest, self.reach) {
                    match self.manner {
                        Manner::Whole => self.push(SUBSTITUTION, at),
                        Manner::InParts if after.uses(1) => {}
                        Manner::InParts => self.push(REMOVAL, at),
                    }
                }
                let after = self.collect(k, at + 1, 0);
                self.collect(rest, after, waiting + 1)
            }
            Abs(item) => {
                let (u, rest) = item.parts();
                let after = self.collect(u, at + 1, 0);
                self.coupled.push(waiting > 0);
                let waiting = match self.reach {
                    Reach::Pairs => 0,
                    Reach::Couples => waiting.saturating_sub(1),
                };
                let after = self.collect(rest, after, waiting);
                self.coupled.pop();
                after
            }
        }
    }

    fn push(&mut self, kind: u8, place: usize) {
        self.steps.push(Step { kind, place });
    }
}

/// The rest after the abstractor that goes with an applicator right before
/// this train.
fn after_partner(mut train: &Term, reach: Reach) -> Option<&Term> {
    let mut waiting = 0;
    loop {
        let rest = match train {
            Tau | Var(_) => return None,
            App(item) | Abs(item) => item.parts().1,
        };
        match train {
            Abs(_) if waiting == 0 => return Some(rest),
            Abs(_) => waiting -= 1,
            _ if reach == Reach::Pairs => return None,
            _ => waiting += 1,
        }
        train = rest;
    }
}

/// The substitution at `place` in parts: a local step at each use, from left
/// to right, then the removal; none if there is no couple.
pub fn in_parts(body: &Term, place: usize) -> Option<Vec<Step>> {
    let (k, train) = applicator_at(body, place)?;
    let rest = after_partner(train, Reach::Couples)?;
    let after = place + 1 + k.size() + train.size() - rest.size();
    let mut uses = Vec::new();
    collect_uses(rest, after, 1, &mut uses);
    let mut steps: Vec<Step> = uses
        .iter()
        .enumerate()
        .map(|(before, at)| Step {
            kind: LOCAL,
            place: at + before * (k.size() - 1),
        })
        .collect();
    steps.push(Step {
        kind: REMOVAL,
        place,
    });
    Some(steps)
}

/// The K of the applicator at `place`, and the train after it.
fn applicator_at(term: &Term, place: usize) -> Option<(&Term, &Term)> {
    let (App(item) | Abs(item)) = term else {
        return None;
    };
    let (inner, rest) = item.parts();
    match term {
        App(_) if place == 0 => Some((inner, rest)),
        _ if place == 0 => None,
        _ if place - 1 < inner.size() => applicator_at(inner, place - 1),
        _ => applicator_at(rest, place - 1 - inner.size()),
    }
}

/// The places, in a term whose first byte is at `at`, of the variables that
/// mean what `index` would mean there. Gives the place after the term.
fn collect_uses(term: &Term, at: usize, index: u64, uses: &mut Vec<usize>) -> usize {
    match term {
        Tau => at + 1,
        Var(own) => {
            if *own == index {
                uses.push(at);
            }
            at + 1
        }
        App(item) => {
            let (k, rest) = item.parts();
            let after = collect_uses(k, at + 1, index, uses);
            collect_uses(rest, after, index, uses)
        }
        Abs(item) => {
            let (u, rest) = item.parts();
            let after = collect_uses(u, at + 1, index, uses);
            collect_uses(rest, after, index + 1, uses)
        }
    }
}

/// Which of the possible steps to take next.
#[derive(Clone, Copy, PartialEq, Eq, Debug)]
pub enum Order {
    /// A removal or substitution if there is one, else the leftmost local step.
    RemovalFirst,
    Leftmost,
    Rightmost,
    Random,
}

pub const ORDERS: [Order; 4] = [
    Order::RemovalFirst,
    Order::Leftmost,
    Order::Rightmost,
    Order::Random,
];

/// A reduction: its bodies, one more than its steps.
pub struct Reduction {
    pub bodies: Vec<Term>,
    pub steps: Vec<Step>,
}

/// Limits on the search alone.
const MAX_STEPS: usize = 150;
const MAX_WORK: usize = 60_000;

/// Reduces until no step is possible, the next body would be outgrown, or a
/// limit of the search is met.
pub fn reduce(
    frame: &Frame,
    body: &Term,
    order: Order,
    manner: Manner,
    reach: Reach,
    rng: &mut Rng,
) -> Reduction {
    let mut reduction = Reduction {
        bodies: vec![body.clone()],
        steps: Vec::new(),
    };
    let mut work = 0;
    if body_outgrown(frame, body) {
        return reduction;
    }
    while reduction.steps.len() < MAX_STEPS && work < MAX_WORK {
        let last = reduction.bodies.last().expect("there is a first body");
        let steps = possible_steps(frame, last, manner, reach);
        if steps.is_empty() {
            break;
        }
        let step = match order {
            Order::RemovalFirst => *steps
                .iter()
                .find(|step| step.kind != LOCAL)
                .unwrap_or(&steps[0]),
            Order::Leftmost => steps[0],
            Order::Rightmost => steps[steps.len() - 1],
            Order::Random => *rng.pick(&steps),
        };
        let next = apply(frame, last, step).expect("a possible step can be applied");
        if body_outgrown(frame, &next) {
            break;
        }
        work += next.size();
        reduction.bodies.push(next);
        reduction.steps.push(step);
    }
    reduction
}

/// Left and right steps that make the two bodies identical, if the two
/// reductions meet: the fewest such steps, or with `far` the most.
pub fn meet(left: &Reduction, right: &Reduction, far: bool) -> Option<(Vec<Step>, Vec<Step>)> {
    let mut best: Option<(usize, usize)> = None;
    for (i, a) in left.bodies.iter().enumerate() {
        for (j, b) in right.bodies.iter().enumerate() {
            let better = match best {
                None => true,
                Some((m, n)) if far => i + j > m + n,
                Some((m, n)) => i + j < m + n,
            };
            if better && a.size() == b.size() && a == b {
                best = Some((i, j));
            }
        }
    }
    let (i, j) = best?;
    Some((left.steps[..i].to_vec(), right.steps[..j].to_vec()))
}

/// Whether the body is seen to reach a term of the other reduction.
pub fn equivalent(frame: &Frame, body: &Term, wanted: &Reduction, rng: &mut Rng) -> bool {
    let own = reduce(
        frame,
        body,
        Order::RemovalFirst,
        Manner::InParts,
        Reach::Couples,
        rng,
    );
    meet(&own, wanted, false).is_some()
}

/// Groups for every comparison of a walk over the closed term, in the walk's
/// order, as far as it goes. A comparison whose bodies are not seen to meet
/// gets an empty group or the steps that were tried. In half of the files the
/// couples of a body are substituted whole, and in one of four the author
/// keeps to pairs.
pub fn groups_for(term: &Term, rng: &mut Rng) -> Vec<Group> {
    groups_by(term, rng, &|_, _, _, group, _| group)
}

/// The same for a term after the frame, if the walk holds with them.
pub fn groups_after(frame: &Frame, term: &Term, rng: &mut Rng) -> Option<Vec<Group>> {
    let (groups, end) = walked(frame, term, rng, &|_, _, _, group, _| group);
    end.is_ok().then_some(groups)
}

/// The same, where one comparison in four begins with a local step at any
/// variable of one of its bodies.
pub fn groups_with_stray_steps(term: &Term, rng: &mut Rng) -> Vec<Group> {
    groups_by(term, rng, &|_, type_of_k, u, mut group, rng| {
        let (body, steps) = match rng.below(8) {
            0 => (type_of_k, &mut group.left),
            1 => (u, &mut group.right),
            _ => return group,
        };
        let variables = places_of_variables(body);
        if !variables.is_empty() {
            let place = *rng.pick(&variables);
            steps.insert(0, Step { kind: LOCAL, place });
        }
        group
    })
}

/// The same, where a comparison may have a step on this side, after some of the
/// side's own, for which this condition is unmet.
pub fn groups_with_unmet_step(term: &Term, side: Side, wanted: Unmet, rng: &mut Rng) -> Vec<Group> {
    groups_by(term, rng, &|frame, type_of_k, u, mut group, rng| {
        let (body, steps) = match side {
            Side::Left => (type_of_k, &mut group.left),
            Side::Right => (u, &mut group.right),
        };
        // More often after steps: most comparisons have none.
        let one_in = if steps.is_empty() { 6 } else { 2 };
        if rng.below(one_in) > 0 {
            return group;
        }
        let number = rng.below(steps.len() + 1);
        let mut body = body.clone();
        for step in &steps[..number] {
            body = apply(frame, &body, *step).expect("a step that was found can be applied");
        }
        let found = (0..50).find_map(|_| {
            let step = likely_unmet(&body, wanted, rng);
            (apply(frame, &body, step) == Err(wanted)).then_some(step)
        });
        if let Some(step) = found {
            steps.insert(number, step);
        }
        group
    })
}

/// A step for which this condition, or an earlier one, may be unmet.
fn likely_unmet(body: &Term, wanted: Unmet, rng: &mut Rng) -> Step {
    let size = body.size();
    let kind = *match wanted {
        Unmet::Kind => rng.pick(&[0, 4, 255]),
        Unmet::StillUsed => &REMOVAL,
        _ => rng.pick(&[LOCAL, REMOVAL, SUBSTITUTION]),
    };
    let place = match wanted {
        Unmet::Place => *rng.pick(&[size, size + 1, 65_535]),
        Unmet::Kind => rng.below(size + 2),
        _ => rng.below(size),
    };
    Step { kind, place }
}

fn places_of_variables(term: &Term) -> Vec<usize> {
    let mut at = 0;
    let mut places = Vec::new();
    term.each_symbol(&mut |symbol| {
        if let Var(_) = symbol {
            places.push(at);
        }
        at += 1;
    });
    places
}

/// What becomes of the group for a comparison: told the frame, the type of K
/// and U.
type Change<'a> = dyn Fn(&Frame, &Term, &Term, Group, &mut Rng) -> Group + 'a;

fn groups_by(term: &Term, rng: &mut Rng, change: &Change) -> Vec<Group> {
    // How the walk ends is for the check to tell.
    walked(&Frame::new(), term, rng, change).0
}

/// The groups, and how the walk over a term after the frame ends with them.
fn walked(
    frame: &Frame,
    term: &Term,
    rng: &mut Rng,
    change: &Change,
) -> (Vec<Group>, Result<(), Stop>) {
    let mut groups = Vec::new();
    let manner = *rng.pick(&[Manner::InParts, Manner::Whole]);
    let reach = match rng.below(4) {
        0 => Reach::Pairs,
        _ => Reach::Couples,
    };
    let (_, end) = walk_after(frame, term, &mut |frame, type_of_k, u| {
        let (left, right) = steps_for(frame, type_of_k, u, manner, reach, rng);
        let group = Group {
            head: 0,
            left,
            right,
        };
        groups.push(change(frame, type_of_k, u, group, rng));
        groups.last().cloned()
    });
    (groups, end)
}

fn steps_for(
    frame: &Frame,
    type_of_k: &Term,
    u: &Term,
    manner: Manner,
    reach: Reach,
    rng: &mut Rng,
) -> (Vec<Step>, Vec<Step>) {
    if body_outgrown(frame, type_of_k) || (type_of_k == u && rng.below(10) > 0) {
        return (Vec::new(), Vec::new());
    }
    let far = rng.below(4) == 0;
    let order = *rng.pick(&ORDERS);
    for order in [order, Order::RemovalFirst] {
        let left = reduce(frame, type_of_k, order, manner, reach, rng);
        let right = reduce(frame, u, order, manner, reach, rng);
        if let Some(found) = meet(&left, &right, far) {
            return found;
        }
        if rng.below(4) == 0 {
            return (left.steps, right.steps);
        }
    }
    (Vec::new(), Vec::new())
}
