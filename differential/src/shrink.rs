//! The smallest call on which the answers differ, as far as one is found soon.

use crate::call::{Call, Kind};
use reference::file::{read_fields, Group};
use reference::gen::{field, fields_of, file};
use reference::mistakes::set_aside;
use reference::page::page_length;
use reference::term::Term::{Abs, App, Tau, Var};
use reference::term::{abs, app, end_of_term, read_term, Term};
use reference::{explain, Report};
use std::panic::set_hook;
use std::time::{Duration, Instant};

/// For so long a smaller call is sought.
const SHRINK_TIME: Duration = Duration::from_secs(2);

/// Prints both answers to the smallest call found on which they differ.
pub fn report(call: &Call) {
    // A panic of the reference was told of once; there may be many more.
    set_hook(Box::new(|_| {}));
    let small = shrink(call);
    let reference = small.reference().map_or("a panic".into(), |answer| answer.to_string());
    println!("DISAGREE on {small}\n  proved    {}\n  reference {reference}", small.proved());
}

/// Takes the first smaller call on which the answers still differ, again and again.
fn shrink(call: &Call) -> Call {
    let end = Instant::now() + SHRINK_TIME;
    let differs = |smaller: &Call| Instant::now() < end && smaller.agreed().is_none();
    let mut best = call.clone();
    while let Some(smaller) = with_less(&best, differs).or_else(|| with_lower(&best, differs)) {
        best = smaller;
    }
    best
}

/// The items without all, without each half, without each quarter, and so on.
fn shorter<T: Clone>(items: &[T]) -> impl Iterator<Item = Vec<T>> + '_ {
    // Even widths first: what is balanced in a term has an even size.
    let half = |width: &usize| Some(if *width > 3 { width / 4 * 2 } else { width / 2 });
    let widths = std::iter::successors(Some(items.len()), half).take_while(|width| *width > 0);
    widths.flat_map(move |width| {
        let starts = (0..items.len()).step_by(width);
        starts.map(move |at| [&items[..at], &items[(at + width).min(items.len())..]].concat())
    })
}

/// The bytes with less of them: without large parts; if they are a term, with a term inside it τ everywhere or there, an item
/// dropped, or its K or U alone; without small parts.
fn smaller_terms(bytes: &[u8]) -> impl Iterator<Item = Vec<u8>> + '_ {
    let parts: [fn(&Term) -> Option<Term>; 3] = [
        |term| (term.size() > 1).then_some(Tau),
        |term| match term {
            Abs(item) if !item.parts().1.uses(1) => Some(item.parts().1.without(1)),
            App(item) => Some(item.parts().1.clone()),
            _ => None,
        },
        |term| match term {
            Abs(item) | App(item) => Some(item.parts().0.clone()),
            _ => None,
        },
    ];
    let terms = read_term(bytes).ok().into_iter().flat_map(move |term| {
        (0..bytes.len()).flat_map(move |place| {
            let term = term.clone();
            parts.into_iter().filter_map(move |part| Some(rewritten(&term, place, part)?.bytes()))
        })
    });
    let everywhere = (0..bytes.len()).filter_map(|at| Some(&bytes[at..at + end_of_term(&bytes[at..])?]));
    let everywhere = everywhere.filter(|part| part.len() > 1).map(|part| with_tau_for(bytes, part));
    let large = shorter(bytes).take(64);
    large.chain(everywhere).chain(terms).chain(shorter(bytes).skip(64))
}

/// The bytes with 00 wherever the part stands.
fn with_tau_for(mut bytes: &[u8], part: &[u8]) -> Vec<u8> {
    let mut all = Vec::new();
    while let Some(&byte) = bytes.first() {
        let found = bytes.starts_with(part);
        all.push(if found { 0 } else { byte });
        bytes = &bytes[if found { part.len() } else { 1 }..];
    }
    all
}

/// The term with `part` of the term that begins at `place` in its stead.
fn rewritten(term: &Term, place: usize, part: fn(&Term) -> Option<Term>) -> Option<Term> {
    let (make, item): (fn(Term, Term) -> Term, _) = match term {
        _ if place == 0 => return part(term),
        Tau | Var(_) => return None,
        App(item) => (app, item),
        Abs(item) => (abs, item),
    };
    let (inner, rest) = item.parts();
    let inside = place - 1;
    if inside < inner.size() {
        Some(make(rewritten(inner, inside, part)?, rest.clone()))
    } else {
        Some(make(inner.clone(), rewritten(rest, inside - inner.size(), part)?))
    }
}

/// What is found of a file with fewer groups, steps or bytes of the term.
fn less_of_file(bytes: &[u8], found: impl Fn(Vec<u8>) -> Option<Call>) -> Option<Call> {
    let fields = read_fields(bytes).ok()?;
    let term = &bytes[fields.term];
    let groups = &fields.groups;
    let fewer = shorter(groups).map(|groups| file(term, &groups));
    let less = smaller_terms(term).map(|term| file(&term, groups));
    let steps = (0..groups.len()).flat_map(|i| {
        let with = move |group: Group| {
            let mut changed = groups.clone();
            changed[i] = group;
            file(term, &changed)
        };
        let left = shorter(&groups[i].left).map(move |left| with(Group { left, ..groups[i].clone() }));
        let right = shorter(&groups[i].right).map(move |right| with(Group { right, ..groups[i].clone() }));
        left.chain(right)
    });
    let mut smaller = fewer.chain(less).chain(steps);
    smaller.find_map(found)
}

/// What is found of a set with fewer fields, less of a file, or fewer bytes.
fn less_of_set(bytes: &[u8], found: impl Fn(Vec<u8>) -> Option<Call>) -> Option<Call> {
    let fields = fields_of(bytes);
    let rest = &bytes[fields.last().map_or(0, |last| last.end)..];
    let fields: Vec<&[u8]> = fields.into_iter().map(|part| &bytes[part]).collect();
    let fewer = || shorter(&fields).find_map(|fields| found([&fields.concat(), rest].concat()));
    let less = || {
        (0..fields.len()).find_map(|i| {
            let with = |file: Vec<u8>| {
                let changed = field(fields[i][0], &file);
                found([&fields[..i].concat(), &changed[..], &fields[i + 1..].concat(), rest].concat())
            };
            let file = &fields[i][3..];
            less_of_file(file, with).or_else(|| shorter(file).find_map(with))
        })
    };
    fewer().or_else(less).or_else(|| shorter(bytes).find_map(&found))
}

/// How long the bodies are that Explain writes for the file.
fn bodies(file: &[u8]) -> [usize; 2] {
    match set_aside(|| explain(file, &mut [0; 4_096], &mut [0; 4_096])).report {
        Report::Bodies { left, right, .. } => [left, right],
        _ => [0, 0],
    }
}

/// The call with a shorter input: first as it may have to be changed with it, since what was left out may have stood before the
/// step's place, or the buffers be about as long as what is written.
fn with_input(call: &Call, input: Vec<u8>) -> Vec<Call> {
    let bytes = call.input.len() - input.len();
    let same = Call { input, ..call.clone() };
    let by = |fewer: &[usize]| {
        let lengths = call.lent().into_iter().zip(fewer).map(|(length, fewer)| length.saturating_sub(*fewer));
        same.with_zeros(&lengths.collect::<Vec<_>>())
    };
    let changed = match call.kind {
        Kind::Step(kind, place) => Call { kind: Kind::Step(kind, place.saturating_sub(bytes as u16)), ..same.clone() },
        Kind::Print => by(&[page_length(call.input.len()) - page_length(same.input.len())]),
        Kind::Explain => {
            let (before, after) = (bodies(&call.input), bodies(&same.input));
            by(&[0, 1].map(|side| before[side].saturating_sub(after[side])))
        }
        _ => return vec![same],
    };
    vec![changed, same]
}

/// The call with less of its input or of a buffer.
fn with_less(call: &Call, differs: impl Fn(&Call) -> bool) -> Option<Call> {
    let found = |input: Vec<u8>| with_input(call, input).into_iter().find(&differs);
    match call.kind {
        Kind::Set => return less_of_set(&call.input, found),
        Kind::File | Kind::Check | Kind::Explain => {
            let smaller = less_of_file(&call.input, found);
            if smaller.is_some() {
                return smaller;
            }
        }
        _ => {}
    }
    let lengths = call.lent();
    let buffers = (0..lengths.len()).flat_map(|buffer| {
        let mut lengths = lengths.clone();
        lower(lengths[buffer]).map(move |length| {
            lengths[buffer] = length;
            call.with_zeros(&lengths)
        })
    });
    let inputs = smaller_terms(&call.input).flat_map(|input| with_input(call, input));
    buffers.chain(inputs).find(&differs)
}

/// The call with a smaller byte in its input, a smaller place of its step or length to count, or a buffer of 0.
fn with_lower(call: &Call, differs: impl Fn(&Call) -> bool) -> Option<Call> {
    let bytes = (0..call.input.len()).flat_map(|at| {
        lower(call.input[at].into()).map(move |value| {
            let mut changed = call.clone();
            changed.input[at] = value as u8;
            changed
        })
    });
    let kinds: Vec<Kind> = match call.kind {
        Kind::Step(kind, place) => lower(place.into()).map(|place| Kind::Step(kind, place as u16)).collect(),
        Kind::Count(length) => lower(length).map(Kind::Count).collect(),
        _ => Vec::new(),
    };
    let kinds = kinds.into_iter().map(|kind| Call { kind, ..call.clone() });
    let zeros = Some(call.with_zeros(&call.lent())).filter(|zeros| zeros != call);
    bytes.chain(kinds).chain(zeros).find(differs)
}

/// Some values below the value.
fn lower(value: usize) -> impl Iterator<Item = usize> {
    [0, value / 2, value.saturating_sub(1)].into_iter().filter(move |smaller| *smaller < value)
}
