//! The plain rules (document 01; 001, 5.3), limits aside: which states and
//! comparisons they lead to from a closed term. Whether a comparison is met is
//! not asked, and neither that nor a state without a rule ends the run, so
//! that it has all that the rules demand.

use crate::frame::{type_of, type_of_variable, Entry, Frame};
use crate::state::{Rule, State, Text, Waiting};
use crate::term::{Term, Term::*};

/// What a watcher of the run is shown.
pub enum Event<'a> {
    /// A state, before its rule is applied. τ with something waiting has none.
    State {
        rule: Option<Rule>,
        state: &'a State<'a>,
    },
    /// A comparison that is demanded: `same(R,K,U)`.
    Comparison {
        /// Of the applicator, or, if that is copied, of the variable of the
        /// term's own text whose typing led there.
        place: usize,
        r: &'a Frame,
        /// If K has one.
        type_of_k: Option<&'a Term>,
        u: &'a Term,
    },
}

pub type Watch<'a> = dyn FnMut(Event) + 'a;

/// How much a run came to.
#[derive(Clone, Copy, PartialEq, Eq, Debug, Default)]
pub struct Demanded {
    pub states: u64,
    /// Comparisons, repeats counted.
    pub comparisons: u64,
    /// States that no rule applies to: the term is correct only if there are
    /// none.
    pub without_rule: u64,
}

/// There are more states than were allowed.
#[derive(Clone, Copy, PartialEq, Eq, Debug)]
pub struct TooMany;

/// Follows the rules over a closed term from empty R and W, for at most so
/// many states.
pub fn run(term: &Term, most_states: u64, watch: &mut Watch) -> Result<Demanded, TooMany> {
    let mut run = Run {
        most_states,
        watch,
        demanded: Demanded::default(),
    };
    run.follow(Text::Own, &mut Frame::new(), 0, term)?;
    Ok(run.demanded)
}

/// What the rules demand of a closed term, if there are at most so many states.
pub fn demanded(term: &Term, most_states: u64) -> Result<Demanded, TooMany> {
    run(term, most_states, &mut |_| ())
}

struct Run<'a, 'b> {
    most_states: u64,
    watch: &'a mut Watch<'b>,
    demanded: Demanded,
}

impl Run<'_, '_> {
    /// Follows the rules from (R, W, B), W being empty. Leaves the entries of R
    /// that it found. The rules are those of 001, 5.3, in the paper's order.
    fn follow(&mut self, text: Text, r: &mut Frame, place: usize, b: &Term) -> Result<(), TooMany> {
        let found = r.len();
        let mut state = State::new(text, place, r, b.clone());
        loop {
            if self.demanded.states == self.most_states {
                return Err(TooMany);
            }
            self.demanded.states += 1;
            match (&state.b, &state.w[..]) {
                // (i) τ, nothing waits.
                (Tau, []) => {
                    self.show(Some(Rule::I), &state);
                    break;
                }
                // (ii) A variable: its type.
                (Var(index), _) => {
                    self.show(Some(Rule::Ii), &state);
                    state.b = type_of_variable(state.r, *index);
                    state.text = Text::Copied;
                }
                // (iii) ⟨K⟩B: K, then B with ⟨K⟩ in W.
                (App(item), _) => {
                    self.show(Some(Rule::Iii), &state);
                    let (k, rest) = item.parts_cloned();
                    self.follow(state.text, state.r, state.place_inside(), &k)?;
                    state.join_w(k, rest);
                }
                // (iv) [U]B, nothing waits: U, then B after [U].
                (Abs(item), []) => {
                    self.show(Some(Rule::Iv), &state);
                    let (u, rest) = item.parts_cloned();
                    self.follow(state.text, state.r, state.place_inside(), &u)?;
                    state.join_r(Entry::Single(u), rest);
                }
                // (v) [U]B, ⟨K⟩ waits: U, same(R,K,U), then B after ⟨K⟩[U].
                (Abs(item), [.., _]) => {
                    self.show(Some(Rule::V), &state);
                    let (u, rest) = item.parts_cloned();
                    self.follow(state.text, state.r, state.place_inside(), &u)?;
                    let last = state.w.pop().expect("W ends in ⟨K⟩");
                    self.demand(state.r, &last, &u);
                    state.join_r(Entry::Pair(last.k, u), rest);
                }
                // No rule: τ, something waits.
                (Tau, [.., _]) => {
                    self.show(None, &state);
                    self.demanded.without_rule += 1;
                    break;
                }
            }
        }
        state.r.truncate(found);
        Ok(())
    }

    /// Shows the state to the watcher.
    fn show(&mut self, rule: Option<Rule>, state: &State) {
        (self.watch)(Event::State { rule, state });
    }

    /// Demands `same(R,K,U)`.
    fn demand(&mut self, r: &Frame, applicator: &Waiting, u: &Term) {
        self.demanded.comparisons += 1;
        (self.watch)(Event::Comparison {
            place: applicator.place,
            r,
            type_of_k: type_of(r, &applicator.k).as_ref(),
            u,
        });
    }
}
