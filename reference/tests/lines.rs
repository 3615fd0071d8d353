//! Lines put in front of a text and anywhere among its own: worked by hand,
//! what the tool refuses, and what holds of every text.

mod common;
use common::*;
use reference::file::{read_fields, Group};
use reference::frame::{apply, Entry, Frame};
use reference::gen::{before, field, file, limit_file, nested, random_file, text, times};
use reference::lines::*;
use reference::normaliser::groups_for;
use reference::plain;
use reference::refusal::*;
use reference::rng::Rng;
use reference::stack::on_large_stack;
use reference::term::{abs, app, Term, Term::*, MAX_SCOPE};
use reference::walk::Event;
use reference::*;

/// Document 01's E2 and E3.
const E2: &str = "ff 00 ff 01 fe 01 ff 02 01";
const E3: &str = "ff 00 ff 01 fe 02 ff 00 fe 02 ff 01 01";
/// E3's second group: right step 01 00 00.
const STEP: &str = "02 00 00 03 00 03 01 00 00";

/// [τ]τ
const SINGLE: &str = "ff 00 00";
/// ⟨[τ]1⟩[[τ]τ]τ, with an empty group.
const PAIR: &str = "fe ff 00 01 ff ff 00 00 00";
/// ⟨[τ]1⟩[⟨[τ]1⟩[[τ]τ][τ]τ]τ: the pair inside is compared first, and then is
/// removed.
const PAIR_WITH_STEP: &str = "fe ff 00 01 ff fe ff 00 01 ff ff 00 00 ff 00 00 00";
const REMOVAL: &str = "02 00 00 03 00 03 02 00 00";

/// The text of a term and groups in hexadecimal.
fn lined(term: &str, groups: &[&str]) -> Lined {
    Lined::read(&file_of(term, groups)).unwrap()
}

fn file_of(term: &str, groups: &[&str]) -> Vec<u8> {
    file_hex(&hex(term), &groups.concat())
}

/// These groups in hexadecimal.
fn groups(fields: &[&str]) -> Vec<Group> {
    lined("00", fields).groups
}

/// The lines of a term in hexadecimal, though its indices may reach others.
fn lines(term: &str) -> Frame {
    // Deep enough for every index.
    let outer = 5;
    let all = hex(&("ff 00".repeat(outer) + term));
    Lined::read(&file(&all, &[])).unwrap().lines[outer..].to_vec()
}

fn new_lines(at: usize, term: &str, fields: &[&str]) -> Growth {
    Growth {
        at,
        new: New::Lines(lines(term)),
        groups: groups(fields),
    }
}

fn applicator(at: usize, k: Term, fields: &[&str]) -> Growth {
    Growth {
        at,
        new: New::Applicator(k),
        groups: groups(fields),
    }
}

// ------------------------------------------------------------- in front

/// The lines' bytes but for the last, the text's bytes; the lines' groups, the
/// text's groups.
#[test]
fn in_front_of_the_examples() {
    let e2 = file_of(E2, &[EMPTY_GROUP]);
    let e3 = file_of(E3, &[EMPTY_GROUP, STEP]);
    assert_eq!(checked(&e2), (0, 0, 1, 3));
    assert_eq!(checked(&e3), (0, 0, 2, 3));

    let single = file_of(SINGLE, &[]);
    let new = front(&single, &e2).unwrap();
    let bytes = "01 00 0b ff 00 ff 00 ff 01 fe 01 ff 02 01 02 00 00 03 00 00";
    assert_eq!(new, hex(bytes));
    assert_eq!(checked(&new), (0, 0, 1, 3));
    let new = front(&single, &e3).unwrap();
    let bytes = "01 00 0f ff 00 ff 00 ff 01 fe 02 ff 00 fe 02 ff 01 01
        02 00 00 03 00 00 02 00 00 03 00 03 01 00 00";
    assert_eq!(new, hex(bytes));
    assert_eq!(checked(&new), (0, 0, 2, 3));

    let pair = file_of(PAIR, &[EMPTY_GROUP]);
    assert_eq!(checked(&pair), (0, 0, 1, 1));
    let new = front(&pair, &e2).unwrap();
    let bytes = "01 00 11 fe ff 00 01 ff ff 00 00 ff 00 ff 01 fe 01 ff 02 01
        02 00 00 03 00 00 02 00 00 03 00 00";
    assert_eq!(new, hex(bytes));
    assert_eq!(checked(&new), (0, 0, 2, 3));
    let new = front(&pair, &e3).unwrap();
    let bytes = "01 00 15 fe ff 00 01 ff ff 00 00 ff 00 ff 01 fe 02 ff 00 fe 02 ff 01 01
        02 00 00 03 00 00 02 00 00 03 00 00 02 00 00 03 00 03 01 00 00";
    assert_eq!(new, hex(bytes));
    assert_eq!(checked(&new), (0, 0, 3, 3));

    // Steps in the groups of both: in another order they are refused.
    let steps = file_of(PAIR_WITH_STEP, &[EMPTY_GROUP, REMOVAL]);
    assert_eq!(checked(&steps), (0, 0, 2, 1));
    let new = front(&steps, &e3).unwrap();
    let term =
        "fe ff 00 01 ff fe ff 00 01 ff ff 00 00 ff 00 00 ff 00 ff 01 fe 02 ff 00 fe 02 ff 01 01";
    assert_eq!(
        new,
        file_of(term, &[EMPTY_GROUP, REMOVAL, EMPTY_GROUP, STEP])
    );
    assert_eq!(checked(&new), (0, 0, 4, 3));
    let other = file_of(term, &[EMPTY_GROUP, STEP, EMPTY_GROUP, REMOVAL]);
    assert_eq!(checked(&other), (BAD_STEP, 0, 1, 3));
}

/// No lines leave the file as it was; a text may be lines too.
#[test]
fn few_lines() {
    let tau = file_of("00", &[]);
    let e3 = file_of(E3, &[EMPTY_GROUP, STEP]);
    assert_eq!(front(&tau, &e3).unwrap(), e3);
    let pair = file_of(PAIR, &[EMPTY_GROUP]);
    assert_eq!(front(&pair, &tau).unwrap(), pair);
    let single = file_of(SINGLE, &[]);
    let two = file_of("ff 00 ff 00 00", &[]);
    assert_eq!(front(&single, &single).unwrap(), two);
}

/// Accepted texts without groups that [τ] in front takes beyond a limit, and
/// the answers then.
fn at_the_limits() -> [(Vec<u8>, CheckAnswer); 3] {
    let refused = |number, place, degree| CheckAnswer {
        number,
        place,
        comparisons: 0,
        degree,
    };
    [
        // 4,095 bytes and 2 more.
        (file(&nested(2_047), &[]), refused(4, 0, 0)),
        // 253 abstractors and one more.
        (
            file(&[times(253, &[0xff, 0]), vec![0]].concat(), &[]),
            refused(6, 506, 0),
        ),
        // As example 11: another term, refused at the same place.
        (
            file(
                &[hex("ff ff 00 00"), times(251, &[0xff, 0]), vec![0xfc]].concat(),
                &[],
            ),
            refused(11, 508, 2),
        ),
    ]
}

#[test]
fn in_front_beyond_the_limits() {
    let single = file_of(SINGLE, &[]);
    for (text, refused) in at_the_limits() {
        assert_eq!(check(&text).number, 0);
        assert_eq!(front(&single, &text), Err(Error::NewRefused(refused)));
    }
    // 252 abstractors and one more.
    let most = file(&[times(252, &[0xff, 0]), vec![0]].concat(), &[]);
    assert_eq!(checked(&front(&single, &most).unwrap()), (0, 0, 0, 1));
}

#[test]
fn what_is_refused() {
    let e2 = file_of(E2, &[EMPTY_GROUP]);
    let single = file_of(SINGLE, &[]);
    // E4: E3 without its step.
    let e4 = file_of(E3, &[EMPTY_GROUP, EMPTY_GROUP]);
    let answer = check(&e4);
    assert_eq!(checked(&e4), (12, 8, 1, 3));
    assert_eq!(front(&e4, &e2), Err(Error::LinesRefused(answer)));
    assert_eq!(front(&single, &e4), Err(Error::TextRefused(answer)));
    assert_eq!(front(&e4, &e4), Err(Error::LinesRefused(answer)));
    // Accepted, but no lines: E2 ends in a variable, E5 has an applicator before
    // one, and then a pair has another applicator before it.
    assert_eq!(front(&e2, &e2), Err(Error::EndsInVariable(8)));
    let e5 = file_of("ff 00 ff ff 01 02 ff 02 fe 01 02", &[EMPTY_GROUP]);
    assert_eq!(checked(&e5), (0, 0, 1, 3));
    assert_eq!(front(&e5, &e2), Err(Error::ApplicatorAlone(8)));
    let two = file_of("ff 00 ff 01 fe 01 fe 02 ff 00 ff 03 00", &[EMPTY_GROUP; 2]);
    assert_eq!(checked(&two), (0, 0, 2, 1));
    assert_eq!(front(&two, &e2), Err(Error::ApplicatorAlone(4)));
    // As a text it may stand after lines.
    assert_eq!(checked(&front(&single, &two).unwrap()), (0, 0, 2, 1));
}

// ------------------------------------------------------------- anywhere

fn grown(text: &Lined, growths: &[Growth]) -> Vec<u8> {
    text.grown(growths).file().unwrap()
}

/// E3 is [τ][1]⟨2⟩[τ]⟨2⟩[1]1. Indices past the new line grow, others stay.
#[test]
fn lines_between_lines() {
    let e3 = lined(E3, &[EMPTY_GROUP, STEP]);
    // [τ] after the first line.
    let new = grown(&e3, &[new_lines(1, SINGLE, &[])]);
    let term = "ff 00 ff 00 ff 02 fe 03 ff 00 fe 02 ff 01 01";
    assert_eq!(new, file_of(term, &[EMPTY_GROUP, STEP]));
    assert_eq!(checked(&new), (0, 0, 2, 3));
    // ⟨1⟩[2] after the second.
    let pair = "fe 01 ff 02 00";
    let new = grown(&e3, &[new_lines(2, pair, &[EMPTY_GROUP])]);
    let term = "ff 00 ff 01 fe 01 ff 02 fe 03 ff 00 fe 03 ff 01 01";
    assert_eq!(new, file_of(term, &[EMPTY_GROUP, EMPTY_GROUP, STEP]));
    assert_eq!(checked(&new), (0, 0, 3, 3));
    // Both, and ⟨2⟩[1], with a step, after the third, at once.
    let all = [
        new_lines(1, SINGLE, &[]),
        new_lines(2, "fe 01 ff 03 00", &[EMPTY_GROUP]),
        new_lines(3, "fe 03 ff 01 00", &[STEP]),
    ];
    let new = grown(&e3, &all);
    let term = "ff 00 ff 00 ff 02 fe 01 ff 03 fe 04 ff 00 fe 03 ff 01 fe 04 ff 02 01";
    assert_eq!(new, file_of(term, &[EMPTY_GROUP, EMPTY_GROUP, STEP, STEP]));
    assert_eq!(checked(&new), (0, 0, 4, 3));
    // After the last, before the rest.
    let new = grown(&e3, &[new_lines(4, "ff 00 ff 01 00", &[])]);
    let term = "ff 00 ff 01 fe 02 ff 00 fe 02 ff 01 ff 00 ff 01 03";
    assert_eq!(new, file_of(term, &[EMPTY_GROUP, STEP]));
    assert_eq!(checked(&new), (0, 0, 2, 3));
}

#[test]
fn abstractors_made_pairs() {
    // E2's [1] by way of the same line before it: ⟨1⟩[2].
    let e2 = lined(E2, &[EMPTY_GROUP]);
    let by_way = [
        new_lines(1, "ff 01 00", &[]),
        applicator(1, Var(1), &[EMPTY_GROUP]),
    ];
    let new = grown(&e2, &by_way);
    let term = "ff 00 ff 01 fe 01 ff 02 fe 01 ff 03 01";
    assert_eq!(new, file_of(term, &[EMPTY_GROUP, EMPTY_GROUP]));
    assert_eq!(checked(&new), (0, 0, 2, 3));
    // [τ][1][2]1 becomes E2.
    let text = lined("ff 00 ff 01 ff 02 01", &[]);
    assert_eq!(checked(&text.file().unwrap()), (0, 0, 0, 3));
    let new = grown(&text, &[applicator(2, Var(1), &[EMPTY_GROUP])]);
    assert_eq!(new, file_of(E2, &[EMPTY_GROUP]));
    // The same with ⟨1⟩[2]1 for K: first K's own group, then a left step.
    let k = lined("ff 00 ff 01 fe 01 ff 02 01", &[]);
    let k = before(k.lines[2..].to_vec(), k.rest);
    let left = "02 00 03 02 00 00 03 00 00";
    let new = grown(&text, &[applicator(2, k, &[EMPTY_GROUP, left])]);
    let term = "ff 00 ff 01 fe fe 01 ff 02 01 ff 02 01";
    assert_eq!(new, file_of(term, &[EMPTY_GROUP, left]));
    assert_eq!(checked(&new), (0, 0, 2, 3));
}

/// The groups of U come before that of the pair: [τ][1][⟨2⟩[τ]⟨2⟩[1]1]1.
#[test]
fn groups_inside_a_line() {
    let own = [EMPTY_GROUP, STEP];
    let u = "fe 02 ff 00 fe 02 ff 01 01";
    let text = lined(&format!("ff 00 ff 01 ff {u} 01"), &own);
    assert_eq!(checked(&text.file().unwrap()), (0, 0, 2, 4));
    let by_way = [
        new_lines(2, &format!("ff {u} 00"), &own),
        applicator(2, Var(1), &[EMPTY_GROUP]),
    ];
    let new = grown(&text, &by_way);
    let lifted = "fe 03 ff 00 fe 03 ff 01 01";
    let term = format!("ff 00 ff 01 ff {u} fe 01 ff {lifted} 01");
    let in_order = [EMPTY_GROUP, STEP, EMPTY_GROUP, STEP, EMPTY_GROUP];
    assert_eq!(new, file_of(&term, &in_order));
    assert_eq!(checked(&new), (0, 0, 5, 4));
    // Two applicators stand before the end, none of them a pair of a line.
    let new = grown(&text, &[new_lines(3, "fe 02 ff 03 00", &[EMPTY_GROUP])]);
    let term = format!("ff 00 ff 01 ff {u} fe 02 ff 03 02");
    assert_eq!(new, file_of(&term, &[EMPTY_GROUP, STEP, EMPTY_GROUP]));
    assert_eq!(checked(&new), (0, 0, 3, 4));
}

/// A text with an index that no byte has is no file.
#[test]
fn indices_over_253() {
    let deep = Lined::read(&file(&[times(253, &[0xff, 0]), vec![253]].concat(), &[])).unwrap();
    let no_file = deep.grown(&[new_lines(1, SINGLE, &[])]);
    assert_eq!(no_file.file(), None);
    assert_eq!(without_limits(&no_file, STATES), (0, 0, 0, 2));
    assert_eq!(
        checked(&grown(&deep, &[new_lines(0, SINGLE, &[])])),
        (6, 506, 0, 0)
    );
}

#[test]
#[should_panic(expected = "only a single abstractor becomes a pair")]
fn a_pair_is_not_made_a_pair() {
    let e2 = lined(E2, &[EMPTY_GROUP]);
    e2.grown(&[applicator(2, Var(1), &[EMPTY_GROUP])]);
}

// ------------------------------------------------------------- limits aside

/// More than any walk here has.
const STATES: usize = 100_000;

/// The answer with the limits left aside.
fn without_limits(text: &Lined, most_states: usize) -> (u8, usize, usize, u64) {
    let a = check_without_limits(&text.term(), &text.groups, most_states);
    (a.number, a.place, a.comparisons, a.degree)
}

/// So many times [τ].
fn singles(many: usize) -> Frame {
    vec![Entry::Single(Tau); many]
}

fn text_of(lines: Frame, rest: Term, groups: Vec<Group>) -> Lined {
    Lined {
        lines,
        rest,
        groups,
    }
}

/// Without limits a text and the same text with 300 lines more are accepted.
#[test]
fn limits_left_aside() {
    on_large_stack(|| {
        let examples = [
            file_of(E2, &[EMPTY_GROUP]),
            file_of(E3, &[EMPTY_GROUP, STEP]),
        ];
        let limits = at_the_limits().map(|(text, _)| text);
        for file in examples.into_iter().chain(limits) {
            let expected = checked(&file);
            let text = Lined::read(&file).unwrap();
            assert_eq!(without_limits(&text, STATES), expected);
            for at in 0..=text.lines.len() {
                let more = Growth {
                    at,
                    new: New::Lines(singles(300)),
                    groups: Vec::new(),
                };
                assert_eq!(without_limits(&text.grown(&[more]), STATES), expected);
            }
        }
        // Bodies of more than 4,096 bytes, compared and stepped to: N is that
        // long, and the text is [N]⟨1⟩[⟨[τ]1⟩[[τ]τ]N]τ.
        let n = (0..2_100).fold(Tau, |inner, _| abs(inner, Tau));
        let pair = |rest: Term| app(abs(Tau, Var(1)), abs(abs(Tau, Tau), rest));
        let lines = vec![Entry::Single(n.clone()), Entry::Pair(Var(1), pair(n))];
        let long = text_of(lines, Tau, groups(&[EMPTY_GROUP, REMOVAL]));
        assert_eq!(without_limits(&long, STATES), (0, 0, 2, 1));
    });
}

/// Every other refusal stays.
#[test]
fn refused_without_limits() {
    for (term, groups) in [
        (E3, &[EMPTY_GROUP, EMPTY_GROUP][..]),
        (E3, &[EMPTY_GROUP]),
        (E3, &[STEP]),
        (E2, &[EMPTY_GROUP, EMPTY_GROUP]),
        ("fe 00 ff 00 00", &[EMPTY_GROUP]),
        ("fe 00 00", &[]),
    ] {
        let answer = without_limits(&lined(term, groups), STATES);
        assert_eq!(answer, checked(&file_of(term, groups)));
        assert_ne!(answer.0, 0);
    }
    // 5 with 6 left aside.
    let variable = |index| without_limits(&text_of(singles(300), Var(index), vec![]), STATES);
    assert_eq!(variable(300), (0, 0, 0, 2));
    assert_eq!(variable(301), (5, 600, 0, 0));
}

/// A walk is given up only if it has more states than allowed.
#[test]
fn walks_given_up() {
    let file = file_of(E3, &[EMPTY_GROUP, STEP]);
    let mut states = 0;
    let mut watch = |event: Event| states += usize::from(matches!(event, Event::State { .. }));
    check_watched(apply, &file, Some(&mut watch));
    let text = Lined::read(&file).unwrap();
    assert_eq!(without_limits(&text, states), (0, 0, 2, 3));
    assert_eq!(without_limits(&text, states - 1).0, OUTGROWN);
    assert_eq!(without_limits(&text, 0), (OUTGROWN, 0, 0, 3));
}

/// Demands that only a limit refuses the text, or an index that no byte has.
fn refused_by_a_limit(text: &Lined, without: (u8, usize, usize, u64)) {
    match text.file() {
        Some(file) => assert!([TOO_LONG, TOO_DEEP, OUTGROWN].contains(&check(&file).number)),
        None => assert!(text.term().deepest_scope(0) > MAX_SCOPE),
    }
    assert_eq!(without_limits(text, STATES), without);
}

// ------------------------------------------------------------- generated

/// How many comparisons the plain rules demand, unless there are very many
/// states.
fn demanded(term: &Term) -> Option<u64> {
    let demanded = plain::demanded(term, 200_000).ok()?;
    assert_eq!(demanded.without_rule, 0);
    Some(demanded.comparisons)
}

/// A random file that is accepted, with its answer.
fn accepted_file(rng: &mut Rng) -> (Vec<u8>, CheckAnswer) {
    loop {
        let file = match rng.below(8) {
            0 => limit_file(rng),
            1..=3 => random_file(rng),
            _ => {
                let term = text(rng);
                file(&term.bytes(), &groups_for(&term, rng))
            }
        };
        let answer = check(&file);
        if answer.number == 0 {
            return (file, answer);
        }
    }
}

/// Lines in front of a text leave its bytes and its groups; the comparisons are
/// those of both, in both sets of rules.
#[test]
fn random_lines_in_front() {
    on_large_stack(|| {
        let mut rng = Rng::new(8);
        let (mut accepted, mut pairs, mut inner, mut steps, mut both_rules) = (0, 0, 0, 0, 0);
        let mut refused = 0;
        for _ in 0..400 {
            let lines = random_lines(&mut rng);
            let lines_file = lines.file().unwrap();
            let of_lines = check(&lines_file);
            assert_eq!((of_lines.number, of_lines.degree), (0, 1));
            assert_eq!(of_lines.comparisons, lines.groups.len());
            let (text, of_text) = accepted_file(&mut rng);
            let sum = of_lines.comparisons + of_text.comparisons;
            let expected = (0, 0, sum, of_text.degree);

            let parts = |file: &[u8]| {
                let term = read_fields(file).unwrap().term;
                (file[term.clone()].to_vec(), file[term.end..].to_vec())
            };
            let (mut term, lines_groups) = parts(&lines_file);
            let (text_term, text_groups) = parts(&text);
            assert_eq!(term.pop(), Some(0));
            term.extend(text_term);
            let groups = [lines_groups, text_groups].concat();
            let new = [field(1, &term), groups].concat();
            match front(&lines_file, &text) {
                Ok(file) => assert_eq!(file, new),
                Err(error) => {
                    assert_eq!(error, Error::NewRefused(check(&new)));
                    let text = Lined::read(&text).unwrap();
                    let grown = text.grown(&[lines.in_front().unwrap()]);
                    refused_by_a_limit(&grown, expected);
                    refused += 1;
                    continue;
                }
            }
            assert_eq!(checked(&new), expected);
            accepted += 1;
            let of_lines = lines.lines.iter().filter(|line| line.k().is_some()).count();
            pairs += of_lines;
            inner += usize::from(lines.groups.len() > of_lines);
            let empty = |group: &Group| group.left.is_empty() && group.right.is_empty();
            steps += usize::from(!lines.groups.iter().all(empty));
            let terms = [lines_file, text, new].map(|file| Lined::read(&file).unwrap().term());
            if let [Some(lines), Some(text), Some(new)] = terms.each_ref().map(demanded) {
                assert_eq!(new, lines + text);
                both_rules += 1;
            }
        }
        assert!(accepted > 350 && pairs > 100, "{accepted} {pairs}");
        assert!(inner > 100 && steps > 50, "{inner} {steps}");
        assert!(both_rules > 250 && refused > 10, "{both_rules} {refused}");
    });
}

/// How many comparisons more the plain rules demand for the entry after the
/// frame.
fn demanded_for(frame: &[Entry], entry: &Entry) -> Option<u64> {
    let all = [frame, std::slice::from_ref(entry)].concat();
    Some(demanded(&before(all, Tau))? - demanded(&before(frame.to_vec(), Tau))?)
}

/// How many the plain rules demand for the text, for what is new, and for the
/// grown text.
fn demanded_of_grown(text: &Lined, growths: &[Growth], grown: &Lined) -> Option<(u64, u64, u64)> {
    let mut new_lines = 0;
    let mut of_new = 0;
    for growth in growths {
        let at = growth.at + new_lines;
        let here = |at: usize| demanded_for(&grown.lines[..at], &grown.lines[at]);
        match &growth.new {
            New::Lines(lines) => {
                new_lines += lines.len();
                of_new += (at..at + lines.len()).map(here).sum::<Option<u64>>()?;
            }
            New::Applicator(_) => {
                let single = Entry::Single(grown.lines[at].u().clone());
                of_new += here(at)? - demanded_for(&grown.lines[..at], &single)?;
            }
        }
    }
    Some((demanded(&text.term())?, of_new, demanded(&grown.term())?))
}

/// A text grown anywhere: as many comparisons more as the new entries have, in
/// both sets of rules.
#[test]
fn random_growth_anywhere() {
    on_large_stack(|| {
        let mut rng = Rng::new(88);
        let (mut accepted, mut several, mut made_pairs, mut found, mut both_rules) =
            (0, 0, 0, 0, 0);
        let mut refused = 0;
        for _ in 0..400 {
            let (file, of_text) = accepted_file(&mut rng);
            let text = Lined::read(&file).unwrap();
            let growths = random_growth(&mut rng, &text);
            let new = text.grown(&growths);
            let more: usize = growths.iter().map(|growth| growth.groups.len()).sum();
            let expected = (0, 0, of_text.comparisons + more, of_text.degree);
            // The old groups are there, in their order.
            let mut all = new.groups.iter();
            assert!(text.groups.iter().all(|old| all.any(|group| group == old)));
            let answer = new.file().map(|file| checked(&file));
            if answer != Some(expected) {
                refused_by_a_limit(&new, expected);
                refused += 1;
                continue;
            }
            accepted += 1;
            several += usize::from(growths.iter().any(|growth| growth.at != growths[0].at));
            for growth in &growths {
                if let New::Applicator(k) = &growth.new {
                    made_pairs += 1;
                    found += usize::from(*k != Var(1));
                }
            }
            if let Some((old, more, new)) = demanded_of_grown(&text, &growths, &new) {
                assert_eq!(new, old + more);
                both_rules += 1;
            }
        }
        assert!(accepted > 350 && several > 150, "{accepted} {several}");
        assert!(made_pairs > 80 && found > 10, "{made_pairs} {found}");
        assert!(both_rules > 250 && refused > 10, "{both_rules} {refused}");
    });
}

// ------------------------------------------------------------- the program

#[test]
fn the_program() {
    let e2 = file_of(E2, &[EMPTY_GROUP]);
    let path = std::env::temp_dir().join(format!("lines-{}", std::process::id()));
    let name = path.to_str().unwrap();
    let with = |lines: &[u8], text: &[u8]| {
        std::fs::write(&path, lines).unwrap();
        program(&["front", name], text)
    };
    let pair = file_of(PAIR, &[EMPTY_GROUP]);
    let done = with(&pair, &e2);
    assert!(done.status.success() && done.stderr.is_empty());
    assert_eq!(done.stdout, front(&pair, &e2).unwrap());

    let e4 = file_of(E3, &[EMPTY_GROUP, EMPTY_GROUP]);
    let two = file_of("ff 00 ff 01 fe 01 fe 02 ff 00 ff 03 00", &[EMPTY_GROUP; 2]);
    let single = file_of(SINGLE, &[]);
    let [long, deep, outgrown] = at_the_limits().map(|(text, _)| text);
    for (lines, text, why) in [
        (&e4, &e2, "the lines are refused: 12 8 1 3"),
        (&pair, &e4, "the text is refused: 12 8 1 3"),
        (&pair, &vec![], "the text is refused: 1 0 0 0"),
        (
            &e2,
            &e2,
            "not lines: the term ends in the variable at 8 and not in τ",
        ),
        (
            &two,
            &e2,
            "not lines: no abstractor stands directly after the applicator at 4 of the term",
        ),
        (&single, &long, "the new text is refused: 4 0 0 0"),
        (&single, &deep, "the new text is refused: 6 506 0 0"),
        (&single, &outgrown, "the new text is refused: 11 508 0 2"),
    ] {
        let refused = with(lines, text);
        assert_eq!(refused.status.code(), Some(1));
        assert!(refused.stdout.is_empty());
        assert_eq!(
            String::from_utf8(refused.stderr).unwrap(),
            format!("reference: {why}\n")
        );
    }
    std::fs::remove_file(&path).unwrap();
    let unreadable = program(&["front", name], &e2);
    assert_eq!(unreadable.status.code(), Some(1));
    assert!(unreadable.stdout.is_empty());
    let why = String::from_utf8(unreadable.stderr).unwrap();
    assert!(why.starts_with(&format!("reference: {name}: ")), "{why}");

    for seed in ["0", "1", "18446744073709551615"] {
        let lines = program(&["lines", seed], &[]);
        assert!(lines.status.success());
        let number = seed.parse().unwrap();
        let expected = on_large_stack(|| random_lines(&mut Rng::new(number)).file());
        assert_eq!(Some(lines.stdout), expected);
    }
    for arguments in [
        &["lines"][..],
        &["lines", "x"],
        &["lines", "-1"],
        &["front"],
    ] {
        let usage = program(arguments, &[]);
        assert_eq!(usage.status.code(), Some(1));
        assert!(usage.stdout.is_empty());
        assert!(usage.stderr.starts_with(b"usage: "));
    }
}
