//! Steps over couples against steps over pairs.

mod common;
use common::*;
use reference::frame::{apply, apply_to_pairs, Frame, Step, Unmet, LOCAL, REMOVAL, SUBSTITUTION};
use reference::gen::*;
use reference::refusal::*;
use reference::rng::Rng;
use reference::stack::on_large_stack;
use reference::term::{abs, app, Term, Term::*};
use reference::*;

/// The wagons (items) of a term's own train, and its terminal.
fn wagons(mut term: &Term) -> (Vec<&Term>, &Term) {
    let mut wagons = Vec::new();
    while let App(item) | Abs(item) = term {
        wagons.push(term);
        term = item.parts().1;
    }
    (wagons, term)
}

/// The couples of a train by the grammar of document 003, section 3.3: two
/// neighbours, an applicator and an abstractor, are one; so are those that are
/// neighbours when such have gone, again and again.
fn couples(wagons: &[&Term]) -> Vec<(usize, usize)> {
    let mut left: Vec<usize> = (0..wagons.len()).collect();
    let mut couples = Vec::new();
    let is_couple = |pair: &[usize]| matches!((wagons[pair[0]], wagons[pair[1]]), (App(_), Abs(_)));
    while let Some(at) = left.windows(2).position(is_couple) {
        couples.push((left[at], left[at + 1]));
        left.drain(at..at + 2);
    }
    couples
}

/// The term with the applicator `first` of its own train moved to right before
/// the abstractor `second`: a pair, where the two were a couple.
fn brought_together(term: &Term, first: usize, second: usize) -> Term {
    let (wagons, terminal) = wagons(term);
    let inner = |at: usize| match wagons[at] {
        App(item) | Abs(item) => item.parts().0.clone(),
        _ => unreachable!(),
    };
    let passed = wagons[first..second]
        .iter()
        .filter(|wagon| matches!(wagon, Abs(_)))
        .count();
    let mut rest = terminal.clone();
    for at in (0..wagons.len()).rev().filter(|at| *at != first) {
        rest = match wagons[at] {
            App(_) => app(inner(at), rest),
            _ => abs(inner(at), rest),
        };
        if at == second {
            rest = app(inner(first).lift(passed as u64), rest);
        }
    }
    rest
}

/// Every step with a couple of the train is the step with the pair that the two
/// make when the applicator stands right before the abstractor; a wagon without
/// a partner takes part in none.
#[test]
fn steps_over_couples_are_steps_over_pairs() {
    on_large_stack(|| {
        let mut rng = Rng::new(1993);
        let empty = Frame::new();
        // By the wagons between, how many couples, and how many local steps.
        let (mut seen, mut local, mut unmatched) = ([0; 7], [0; 7], 0);
        for _ in 0..1500 {
            let term = coupled_term(&mut rng);
            let (wagons, _) = wagons(&term);
            let place_of = |wagon: usize| term.size() - wagons[wagon].size();
            let couples = couples(&wagons);
            for &(first, second) in couples.iter().filter(|(first, second)| second - first <= 7) {
                let between = second - first - 1;
                let moved = brought_together(&term, first, second);
                let (App(applicator), Abs(abstractor)) = (wagons[first], wagons[second]) else {
                    unreachable!()
                };
                let (k, rest) = (applicator.parts().0, abstractor.parts().1);
                let (place, moved_to) = (place_of(first), place_of(second) - k.size() - 1);
                for kind in [REMOVAL, SUBSTITUTION] {
                    let own = apply(&empty, &term, Step { kind, place });
                    let of_pair = apply_to_pairs(
                        &empty,
                        &moved,
                        Step {
                            kind,
                            place: moved_to,
                        },
                    );
                    assert_eq!(
                        own,
                        of_pair,
                        "{kind} {first} {second} {:02x?}",
                        term.bytes()
                    );
                    if between > 0 {
                        let of_pairs = apply_to_pairs(&empty, &term, Step { kind, place });
                        assert_eq!(of_pairs, Err(Unmet::NoPartner));
                    }
                }
                seen[between] += 1;
                // What follows the abstractor stands at the same places.
                for place in term.size() - rest.size()..term.size() {
                    let step = Step { kind: LOCAL, place };
                    // Other variables may go with other couples, or with none.
                    if let Ok(of_pair) = apply_to_pairs(&empty, &moved, step) {
                        let own = apply(&empty, &term, step).expect("it goes with a couple");
                        assert_eq!(brought_together(&own, first, second), of_pair);
                        local[between] += 1;
                    }
                }
            }
            for at in (0..wagons.len()).filter(|at| matches!(wagons[*at], App(_))) {
                if couples.iter().all(|(first, _)| *first != at) {
                    for kind in [REMOVAL, SUBSTITUTION] {
                        let step = Step {
                            kind,
                            place: place_of(at),
                        };
                        assert_eq!(apply(&empty, &term, step), Err(Unmet::NoPartner));
                    }
                    unmatched += 1;
                }
            }
        }
        for between in [0, 2, 4, 6] {
            assert!(
                seen[between] > 100 && local[between] > 100,
                "{seen:?} {local:?}"
            );
        }
        assert!(unmatched > 100, "{unmatched}");
    });
}

/// An answer other than 10 stays; a file refused with 10 is at least as far
/// with couples, at the same degree. Gives both answers.
fn compared(file: &[u8]) -> (CheckAnswer, CheckAnswer) {
    let (before, after) = (check_by(apply_to_pairs, file), check(file));
    if before.number == BAD_STEP {
        assert_eq!(before.degree, after.degree);
        assert!(before.comparisons <= after.comparisons, "{file:02x?}");
    } else {
        assert_eq!(before, after, "{file:02x?}");
    }
    (before, after)
}

#[test]
fn generated_files_keep_their_answers() {
    on_large_stack(|| {
        let mut rng = Rng::new(402);
        let (mut before, mut after, mut stayed) = ([0; 15], [0; 15], 0);
        for i in 0..4000 {
            let bytes = match i % 8 {
                0 => limit_file(&mut rng),
                _ => random_file(&mut rng),
            };
            let (with_pairs, with_couples) = compared(&bytes);
            before[usize::from(with_pairs.number)] += 1;
            if with_pairs == with_couples {
                stayed += usize::from(with_pairs.number == BAD_STEP);
            } else {
                after[usize::from(with_couples.number)] += 1;
            }
        }
        assert!(before[..14].iter().all(|&n| n > 0), "{before:?}");
        assert!(stayed > 0);
        // What files refused with 10 before are answered now.
        for number in [0, 9, 10, 11, 12, 13] {
            assert!(after[number] > 0, "{after:?}");
        }
    });
}

/// The files of the readings and of document 01's examples, with the answers
/// before and after.
#[test]
fn named_files_keep_their_answers() {
    let e3 = "ff 00 ff 01 fe 02 ff 00 fe 02 ff 01 01";
    let right = |steps: &str| {
        let length = hex(steps).len();
        format!("02 00 00 03 00 {length:02x} {steps}")
    };
    let group = |steps: &str| format!("{EMPTY_GROUP} {}", right(steps));
    let two = |steps: &str| format!("{EMPTY_GROUP} {EMPTY_GROUP} {}", right(steps));
    let d4 = "ff 00 ff ff 00 01 fe 02 fe 01 ff ff 00 01 01";
    let far_apart = "ff 00 ff 01 fe 02 fe 02 ff 00 ff 00 fe 03 ff 01 01";
    let d7 = "ff 00 ff 01 fe 01 ff fe 02 fe 02 ff 00 ff 00 01 00";
    let whole = "ff 00 ff 01 fe 01 ff fe 02 ff 00 01 01";
    let rows = [
        ("ff 00 ff 01 01", String::new(), (0, 0, 0, 3), (0, 0, 0, 3)),
        (
            "ff 00 ff 01 fe 01 ff 02 01",
            EMPTY_GROUP.into(),
            (0, 0, 1, 3),
            (0, 0, 1, 3),
        ),
        (e3, group("01 00 00"), (0, 0, 2, 3), (0, 0, 2, 3)),
        (e3, group(""), (12, 8, 1, 3), (12, 8, 1, 3)),
        (e3, group("03 00 00"), (10, 8, 1, 3), (10, 8, 1, 3)),
        (e3, EMPTY_GROUP.into(), (9, 8, 1, 3), (9, 8, 1, 3)),
        ("fe 00 fe 00 00", String::new(), (8, 2, 0, 1), (8, 2, 0, 1)),
        (whole, group("03 00 00"), (0, 0, 2, 3), (0, 0, 2, 3)),
        (
            d4,
            "02 00 03 01 00 02 03 00 03 01 00 02".into(),
            (10, 8, 0, 3),
            (10, 8, 0, 3),
        ),
        (far_apart, two("01 00 00"), (0, 0, 3, 3), (0, 0, 3, 3)),
        (d7, two("03 00 00 03 00 00"), (10, 4, 2, 1), (0, 0, 3, 1)),
        (d7, two("03 00 02 03 00 00"), (0, 0, 3, 1), (0, 0, 3, 1)),
        (d7, two("03 00 00 03 00 02"), (10, 4, 2, 1), (10, 4, 2, 1)),
        (d7, two("02 00 00"), (10, 4, 2, 1), (10, 4, 2, 1)),
        (
            d7,
            two("01 00 08 02 00 00 02 00 00"),
            (10, 4, 2, 1),
            (0, 0, 3, 1),
        ),
        (d7, two("03 00 00"), (10, 4, 2, 1), (12, 4, 2, 1)),
        (d7, two(""), (12, 4, 2, 1), (12, 4, 2, 1)),
    ];
    for (term, groups, before, after) in rows {
        let file = file_hex(&hex(term), &groups);
        assert_eq!(checked_with_pairs(&file), before, "{term} {groups}");
        assert_eq!(checked(&file), after, "{term} {groups}");
        compared(&file);
    }
}
