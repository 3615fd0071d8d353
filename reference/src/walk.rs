//! The one-pass walk.

use crate::file::Group;
use crate::frame::{apply, body_outgrown, type_of, type_of_variable, Entry, Frame, Step, Unmet};
use crate::ground::{stop, Ground, Side, Stop};
use crate::mistakes::{made, Mistake};
use crate::refusal::*;
use crate::state::{Rule, State, Text::*, Waiting};
use crate::term::{app, Term, Term::*, MAX_SCOPE};

/// R, W, Y and B together are no larger.
pub const MAX_STATE_BYTES: usize = 8192;

/// Gives the group for a comparison: told the frame, the type of K and U.
pub type Supply<'a> = dyn FnMut(&Frame, &Term, &Term) -> Option<Group> + 'a;

/// What a step does to a body after the frame: `apply`, or what a test puts
/// in its place.
pub type Apply = fn(&Frame, &Term, Step) -> Result<Term, Unmet>;

/// What a watcher of the walk is shown.
pub enum Event<'a> {
    /// A state, before its rule is applied. An outgrown state has no rule, nor
    /// has τ with something waiting.
    State {
        rule: Option<Rule>,
        state: &'a State<'a>,
    },
    /// A comparison at its end: the two bodies reached, identical or not, or
    /// why it came to an end before.
    Comparison {
        /// Of the applicator.
        place: usize,
        r: &'a Frame,
        reached: &'a Result<(Term, Term), Stop>,
    },
}

pub type Watch<'a> = dyn FnMut(Event) + 'a;

/// Walks over a closed term from empty R and W with the steps of `apply`, and
/// watched if there is a watcher. Gives the number of comparisons completed and
/// how the walk ended.
pub fn walk_by(
    apply: Apply,
    term: &Term,
    supply: &mut Supply,
    watch: Option<&mut Watch>,
) -> (usize, Result<(), Stop>) {
    walk_from(Frame::new(), apply, Limit::Measures, term, supply, watch)
}

/// Walks over a term after R from empty W.
pub fn walk_after(r: &Frame, term: &Term, supply: &mut Supply) -> (usize, Result<(), Stop>) {
    walk_from(r.clone(), apply, Limit::Measures, term, supply, None)
}

/// Walks over a closed term with the limits left aside, for at most so many
/// states: only where there are more does it end with 11.
pub fn walk_without_limits(
    term: &Term,
    most_states: usize,
    supply: &mut Supply,
) -> (usize, Result<(), Stop>) {
    let limit = Limit::States(most_states);
    walk_from(Frame::new(), apply, limit, term, supply, None)
}

/// What 11 comes of.
#[derive(Clone, Copy, PartialEq, Eq)]
enum Limit {
    /// The bytes and scopes of a state or body.
    Measures,
    /// That so many states, and no more, may still come.
    States(usize),
}

fn walk_from(
    mut r: Frame,
    apply: Apply,
    limit: Limit,
    term: &Term,
    supply: &mut Supply,
    watch: Option<&mut Watch>,
) -> (usize, Result<(), Stop>) {
    let mut walk = Walk {
        apply,
        limit,
        supply,
        watch,
        comparisons: 0,
    };
    let end = walk.holds(&mut r, 0, term);
    (walk.comparisons, end)
}

struct Walk<'a, 'b, 'c> {
    apply: Apply,
    limit: Limit,
    supply: &'a mut Supply<'b>,
    watch: Option<&'a mut Watch<'c>>,
    comparisons: usize,
}

impl Walk<'_, '_, '_> {
    /// Whether (R, W, B) holds, W being empty and B a part of the term's own
    /// text with its first byte at `place`. Leaves the entries of R that it
    /// found. The rules are those of 001, 5.3 and 5.8, in the paper's order.
    fn holds(&mut self, r: &mut Frame, place: usize, b: &Term) -> Result<(), Stop> {
        let found = r.len();
        let mut state = State::new(Own, place, r, b.clone());
        loop {
            if self.state_outgrown(&state) {
                self.show(None, &state);
                let at_tau = state.b == Tau && !state.w.is_empty();
                if made(Mistake::OutgrownAfterTheRule) && at_tau {
                    return still_waiting(&state.w);
                }
                return refuse(OUTGROWN, state.place);
            }
            let y = match made(Mistake::TakesFromWFirst) && !state.w.is_empty() {
                false => &state.y[..],
                true => &[],
            };
            match (state.text, &state.b, &state.w[..], y) {
                // (i) τ, nothing waits.
                (Own, Tau, [], _) => {
                    self.show(Some(Rule::I), &state);
                    break;
                }
                // (iii) ⟨K⟩B: K, then B with ⟨K⟩ in W.
                (Own, App(item), _, _) => {
                    self.show(Some(Rule::Iii), &state);
                    let (k, rest) = item.parts_cloned();
                    self.inside(&mut state, &k)?;
                    state.join_w(k, rest);
                }
                // (iv) [U]B, nothing waits: U, then B after [U].
                (Own, Abs(item), [], _) => {
                    self.show(Some(Rule::Iv), &state);
                    let (u, rest) = item.parts_cloned();
                    self.inside(&mut state, &u)?;
                    state.join_r(Entry::Single(u), rest);
                }
                // (v) [U]B, ⟨K⟩ waits: U, same(R,K,U), then B after ⟨K⟩[U].
                (Own, Abs(item), [.., _], _) => {
                    self.show(Some(Rule::V), &state);
                    let (u, rest) = item.parts_cloned();
                    self.inside(&mut state, &u)?;
                    self.compare_and_pair(&mut state, u, rest)?;
                }
                // (vi) Copied τ, nothing waits.
                (Copied, Tau, [], []) => {
                    self.show(Some(Rule::Vi), &state);
                    break;
                }
                // (vii) A variable: from here on the text is copied.
                (Own, Var(_), _, _) => {
                    self.show(Some(Rule::Vii), &state);
                    state.text = Copied;
                }
                // (viii) A variable in copied text: its type.
                (Copied, Var(index), _, _) => {
                    self.show(Some(Rule::Viii), &state);
                    state.b = type_of_variable(state.r, *index);
                }
                // (ix) Copied ⟨K⟩B: B with ⟨K⟩ in Y.
                (Copied, App(item), _, _) => {
                    self.show(Some(Rule::Ix), &state);
                    let (k, rest) = item.parts_cloned();
                    state.join_y(k, rest);
                }
                // (x) Copied [U]B, nothing waits: B after [U].
                (Copied, Abs(item), [], []) => {
                    self.show(Some(Rule::X), &state);
                    let (u, rest) = item.parts_cloned();
                    state.join_r(Entry::Single(u), rest);
                }
                // (xi) Copied [U]B, ⟨K⟩ waits in W only: same(R,K,U), B after ⟨K⟩[U].
                (Copied, Abs(item), [.., _], []) => {
                    self.show(Some(Rule::Xi), &state);
                    let (u, rest) = item.parts_cloned();
                    self.compare_and_pair(&mut state, u, rest)?;
                }
                // (xii) Copied [U]B, ⟨K⟩ waits in Y: B after ⟨K⟩[U].
                (Copied, Abs(item), _, [.., _]) => {
                    self.show(Some(Rule::Xii), &state);
                    let (u, rest) = item.parts_cloned();
                    let k = state.y.pop().expect("Y ends in ⟨K⟩");
                    state.join_r(Entry::Pair(k, u), rest);
                }
                // No rule: τ, something waits.
                (_, Tau, _, _) => {
                    self.show(None, &state);
                    assert!(state.y.is_empty(), "Y is empty at every τ of a check");
                    return still_waiting(&state.w);
                }
            }
        }
        state.r.truncate(found);
        Ok(())
    }

    fn state_outgrown(&mut self, state: &State) -> bool {
        match &mut self.limit {
            Limit::Measures => state_outgrown(state),
            Limit::States(0) => true,
            Limit::States(left) => {
                *left -= 1;
                false
            }
        }
    }

    fn body_outgrown(&self, r: &Frame, body: &Term) -> bool {
        self.limit == Limit::Measures && body_outgrown(r, body)
    }

    /// Whether the K or U that B begins with holds after R.
    fn inside(&mut self, state: &mut State, inner: &Term) -> Result<(), Stop> {
        let mut end = self.holds(state.r, state.place_inside(), inner);
        if made(Mistake::OuterWaitingCounted) {
            if let Err(Stop {
                ground: Ground::Waiting(many),
                ..
            }) = &mut end
            {
                *many += state.w.len();
            }
        }
        end
    }

    /// Shows the state to the watcher.
    fn show(&mut self, rule: Option<Rule>, state: &State) {
        if let Some(watch) = &mut self.watch {
            watch(Event::State { rule, state });
        }
    }

    /// Passes the [U] that B begins with by `same(R,K,U)`, ⟨K⟩ being the last
    /// of W: the two join R.
    fn compare_and_pair(&mut self, state: &mut State, u: Term, rest: Term) -> Result<(), Stop> {
        let last = state.w.pop().expect("W ends in ⟨K⟩");
        self.compare(state.r, &state.w, &last, &u)?;
        state.join_r(Entry::Pair(last.k, u), rest);
        Ok(())
    }

    /// `same(R,K,U)` by the next group, with `w` waiting before the applicator.
    fn compare(
        &mut self,
        r: &Frame,
        w: &[Waiting],
        applicator: &Waiting,
        u: &Term,
    ) -> Result<(), Stop> {
        let place = applicator.place;
        let reached = self.reach(r, w, applicator, u);
        if let Some(watch) = &mut self.watch {
            let reached = &reached;
            watch(Event::Comparison { place, r, reached });
        }
        let (left, right) = reached?;
        if left != right {
            let bodies = match made(Mistake::BodiesBeforeSteps) {
                false => Ground::Bodies(left, right),
                true => Ground::Bodies(type_of(r, &applicator.k).expect("K has a type"), u.clone()),
            };
            return stop(BODIES_DIFFER, place, bodies);
        }
        self.comparisons += 1;
        Ok(())
    }

    /// The bodies that the next group's steps reach from the type of K and
    /// from U.
    fn reach(
        &mut self,
        r: &Frame,
        w: &[Waiting],
        applicator: &Waiting,
        u: &Term,
    ) -> Result<(Term, Term), Stop> {
        let place = applicator.place;
        let Some(type_of_k) = type_of(r, &applicator.k) else {
            return refuse(NO_TYPE, place);
        };
        let Some(group) = (self.supply)(r, &type_of_k, u) else {
            return refuse(NO_GROUP, place);
        };
        if self.body_outgrown(r, &type_of_k) || self.body_outgrown(r, u) {
            return refuse(OUTGROWN, place);
        }
        let left = self.replay(r, w, type_of_k, Side::Left, &group.left, place)?;
        let right = self.replay(r, w, u.clone(), Side::Right, &group.right, place)?;
        Ok((left, right))
    }

    /// The body after all the steps of its side.
    fn replay(
        &self,
        r: &Frame,
        w: &[Waiting],
        mut body: Term,
        side: Side,
        steps: &[Step],
        place: usize,
    ) -> Result<Term, Stop> {
        for (number, &step) in steps.iter().enumerate() {
            let applied = match made(Mistake::PartnerInW) {
                false => (self.apply)(r, &body, step),
                true => after_waiting(self.apply, r, w, &body, step),
            };
            body = match applied {
                Ok(next) => next,
                Err(unmet) => {
                    let ground = Ground::Step {
                        side,
                        number,
                        unmet,
                    };
                    return stop(BAD_STEP, place, ground);
                }
            };
            if self.body_outgrown(r, &body) {
                return refuse(OUTGROWN, place);
            }
        }
        Ok(body)
    }
}

/// The step on the body with W before it as items of its train.
fn after_waiting(
    apply: Apply,
    r: &Frame,
    w: &[Waiting],
    body: &Term,
    step: Step,
) -> Result<Term, Unmet> {
    if step.place >= body.size() {
        return apply(r, body, step);
    }
    let train = w
        .iter()
        .rev()
        .fold(body.clone(), |rest, first| app(first.k.clone(), rest));
    let place = step.place + train.size() - body.size();
    let mut stepped = apply(r, &train, Step { place, ..step })?;
    for _ in w {
        let App(item) = &stepped else {
            unreachable!("the items of W stay");
        };
        stepped = item.parts().1.clone();
    }
    Ok(stepped)
}

/// The refusal of τ with these waiting.
fn still_waiting(w: &[Waiting]) -> Result<(), Stop> {
    let last = match made(Mistake::PlaceOfTheFirst) {
        false => w.last(),
        true => w.first(),
    };
    let place = last.expect("something waits").place;
    stop(STILL_WAITING, place, Ground::Waiting(w.len()))
}

/// Measures R, W, Y and B. The terms of an entry of R are in the scope of the
/// entries before it; those of W, Y and B in the scope of all of R.
fn state_outgrown(state: &State) -> bool {
    let State { r, w, y, b, .. } = state;
    let mut bytes = 0;
    let mut scope = 0;
    for (before, entry) in r.iter().enumerate() {
        if let Some(k) = entry.k() {
            bytes += 1 + k.size();
            scope = scope.max(k.deepest_scope(before as u64));
        }
        bytes += 1 + entry.u().size();
        scope = scope.max(entry.u().deepest_scope(before as u64));
    }
    let depth = r.len() as u64;
    for k in w.iter().map(|waiting| &waiting.k).chain(y) {
        bytes += 1 + k.size();
        scope = scope.max(k.deepest_scope(depth));
    }
    bytes += b.size();
    scope = scope.max(b.deepest_scope(depth));
    let most = match made(Mistake::StateLimit) {
        false => MAX_STATE_BYTES,
        true => MAX_STATE_BYTES - 2,
    };
    bytes > most || scope > MAX_SCOPE
}
