//! Files whose copied text is typed in copied text again and again: environments with several parents.

use reference::frame::{type_of_variable, Entry, Frame};
use reference::gen::{before, damage_groups, domain, file};
use reference::rng::Rng;
use reference::normaliser::groups_for;
use reference::term::{abs, app, Term, Term::*};

/// Under [p:*][a:p][q:[x:p]*] a declaration of such a type, then what it needs for its arguments, declared one by one, and the
/// application to them.
pub fn chain_file(rng: &mut Rng) -> Vec<u8> {
    let mut frame: Frame = vec![Entry::Single(Tau), Entry::Single(Var(1)), Entry::Single(abs(Var(2), Tau))];
    let deep = rng.between(2, 5);
    frame.push(Entry::Single(nested_type(rng, deep, 3, &[1])));
    let mut spine = Var(1);
    for _ in 0..rng.between(1, 3 * deep) {
        match domain(&frame, &spine) {
            Some(domain) if domain.size() <= 400 => {
                let indices = 1..=frame.len() as u64;
                match indices.clone().find(|&index| type_of_variable(&frame, index) == domain) {
                    Some(index) => spine = app(Var(index), spine),
                    None => {
                        frame.push(Entry::Single(domain));
                        spine = app(Var(1), spine.lift(1));
                    }
                }
            }
            _ => break,
        }
    }
    let term = before(frame, spine);
    let mut groups = groups_for(&term, rng);
    if rng.below(6) == 0 {
        damage_groups(rng, &mut groups);
    }
    file(&term.bytes(), &groups)
}

/// [x:A][g:T]g or [x:A][y:p][g:T]g, where T is such a type and A is p or <z>q with a z of type p; at this depth, with the
/// levels of such z.
fn nested_type(rng: &mut Rng, deep: usize, depth: u64, of_p: &[u64]) -> Term {
    let p = |depth: u64| Var(depth);
    if deep == 0 {
        return if rng.below(2) == 0 { Tau } else { p(depth) };
    }
    let mut of_p = of_p.to_vec();
    let u = if rng.below(2) == 0 {
        of_p.push(depth);
        p(depth)
    } else {
        app(Var(depth - rng.pick(&of_p)), Var(depth - 2))
    };
    if rng.below(3) == 0 {
        let inner = nested_type(rng, deep - 1, depth + 2, &of_p);
        return abs(u, abs(p(depth + 1), abs(inner, Var(1))));
    }
    let inner = nested_type(rng, deep - 1, depth + 1, &of_p);
    abs(u, abs(inner, Var(1)))
}
