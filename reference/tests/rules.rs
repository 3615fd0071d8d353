//! The rules of 001 at work: the order in which the code has them, a smallest
//! term for each, and watched runs.

mod common;
use common::*;
use reference::file::Group;
use reference::frame::{apply, Entry, Frame, Reach, Step};
use reference::gen::{empty_groups, file, random_file, text};
use reference::normaliser::{groups_for, possible_steps, Manner};
use reference::plain;
use reference::refusal::*;
use reference::rng::Rng;
use reference::rules::*;
use reference::run::{write_plain_run, write_run};
use reference::stack::on_large_stack;
use reference::state::{Rule, State, Text, RULES};
use reference::term::{read_term, Term, Term::*};
use reference::walk::{walk_by, Event};
use reference::*;

/// A file of this package or of its neighbours.
fn source(path: &str) -> String {
    let path = format!("{}/{path}", env!("CARGO_MANIFEST_DIR"));
    std::fs::read_to_string(&path).unwrap_or_else(|error| panic!("{path}: {error}"))
}

// ------------------------------------------------------- the order of cases

/// The marks with which comments of a source begin, in order.
fn marks(path: &str) -> Vec<String> {
    let marks: Vec<String> = RULES.iter().map(Rule::to_string).collect();
    let source = source(path);
    let comments = source.lines().filter_map(|line| {
        let comment = line.trim_start().strip_prefix("//")?;
        Some(comment.trim_start_matches(['/', '!', ' ']))
    });
    comments
        .filter_map(|comment| marks.iter().find(|mark| comment.starts_with(*mark)))
        .cloned()
        .collect()
}

/// The cases stand in the paper's order, each under its mark.
#[test]
fn cases_are_in_the_papers_order() {
    let walk = "(i) (iii) (iv) (v) (vi) (vii) (viii) (ix) (x) (xi) (xii)";
    assert_eq!(marks("src/walk.rs").join(" "), walk);
    assert_eq!(marks("src/plain.rs").join(" "), "(i) (ii) (iii) (iv) (v)");
}

// --------------------------------------------------------- smallest terms

/// All terms of this odd size with indices of at most 4, closed or not.
fn small_terms(size: usize) -> Vec<Vec<u8>> {
    if size == 1 {
        return (0..=4).map(|byte| vec![byte]).collect();
    }
    let mut all = Vec::new();
    for inner in (1..size - 1).step_by(2) {
        let rests = small_terms(size - 1 - inner);
        for inner in small_terms(inner) {
            for rest in &rests {
                all.extend([0xfe, 0xff].map(|tag| [&[tag], &inner[..], rest].concat()));
            }
        }
    }
    all
}

/// All closed terms of this size, which is at most 9, in the order of their
/// bytes.
fn closed_terms(size: usize) -> Vec<Vec<u8>> {
    let mut all = small_terms(size);
    all.retain(|term| read_term(term).is_ok());
    all.sort();
    all
}

#[test]
fn each_closed_term_once() {
    on_large_stack(|| {
        for size in 0..=9 {
            let mut shown = Vec::new();
            each_closed_term(size, &mut |term| shown.push(term.to_vec()));
            let all = match size % 2 {
                0 => Vec::new(),
                _ => closed_terms(size),
            };
            assert!(shown == all, "{size}");
        }
    });
}

/// Whether the term's run uses the rule: only the plain one can use (ii).
fn uses(rule: Rule, term: &Term, one_pass: &[Rule]) -> bool {
    match rule {
        Rule::Ii => plain_rules(term).contains(&rule),
        _ => one_pass.contains(&rule),
    }
}

fn applicators(term: &[u8]) -> usize {
    term.iter().filter(|&&byte| byte == 0xfe).count()
}

/// Every rule has its example, and no term before it will do.
#[test]
fn examples_are_the_first() {
    on_large_stack(|| {
        let examples = examples();
        assert_eq!(
            examples
                .iter()
                .map(|example| example.rule)
                .collect::<Vec<_>>(),
            RULES
        );
        for example in &examples {
            assert_eq!(check(&example.file()).number, 0);
            let run = example.run();
            let mark = example.rule.to_string();
            let marked = |line: &str| line.split_whitespace().next() == Some(&mark[..]);
            assert!(run.lines().any(marked), "{run}");
        }
        for size in [1, 3, 5, 7, 9] {
            for bytes in closed_terms(size) {
                let term = read_term(&bytes).unwrap();
                let file = file(&bytes, &empty_groups(applicators(&bytes)));
                let (answer, rules) = one_pass_rules(&file);
                for Example { rule, term: first } in &examples {
                    let earlier = (size, &bytes) < (first.len(), first);
                    if answer.number == 0 && uses(*rule, &term, &rules) {
                        assert!(!earlier, "{rule} {bytes:02x?}");
                    } else {
                        assert_ne!(bytes, *first);
                    }
                }
            }
        }
    });
}

/// All bodies that steps reach, each with such steps.
fn reachable(frame: &Frame, body: &Term) -> Vec<(Term, Vec<Step>)> {
    let mut all = vec![(body.clone(), Vec::new())];
    let mut next = 0;
    while let Some((body, before)) = all.get(next).cloned() {
        let manners = [Manner::InParts, Manner::Whole];
        for step in manners
            .map(|manner| possible_steps(frame, &body, manner, Reach::Couples))
            .concat()
        {
            let stepped = apply(frame, &body, step).expect("a possible step can be applied");
            if all.iter().all(|(known, _)| *known != stepped) {
                let steps = [&before[..], &[step]].concat();
                all.push((stepped, steps));
            }
        }
        assert!(all.len() < 1000, "the search is not too long");
        next += 1;
    }
    all
}

/// Left and right steps to one body, if there are any.
fn meeting(frame: &Frame, type_of_k: &Term, u: &Term) -> Option<Group> {
    let right = reachable(frame, u);
    reachable(frame, type_of_k)
        .into_iter()
        .find_map(|(body, left)| {
            let (_, right) = right.iter().find(|(other, _)| *other == body)?;
            Some(Group {
                head: 0,
                left,
                right: right.clone(),
            })
        })
}

/// The groups with which the term is accepted and the rules that are used then,
/// if there are such groups at all: the walk is the same whatever the steps.
fn accepted_somehow(term: &Term) -> Option<(Vec<Group>, Vec<Rule>)> {
    let (mut groups, mut rules) = (Vec::new(), Vec::new());
    let mut supply = |frame: &Frame, type_of_k: &Term, u: &Term| {
        groups.push(meeting(frame, type_of_k, u)?);
        groups.last().cloned()
    };
    let mut watch = |event: Event| {
        if let Event::State { rule, .. } = event {
            rules.extend(rule);
        }
    };
    let (_, end) = walk_by(apply, term, &mut supply, Some(&mut watch));
    end.ok()?;
    Some((groups, rules))
}

/// No shorter term than the example uses its rule and is accepted with any
/// steps.
#[test]
fn examples_are_smallest() {
    on_large_stack(|| {
        for Example { rule, term: first } in examples() {
            for size in (1..first.len()).step_by(2) {
                for bytes in closed_terms(size) {
                    let term = read_term(&bytes).unwrap();
                    if let Some((groups, rules)) = accepted_somehow(&term) {
                        assert_eq!(check(&file(&bytes, &groups)).number, 0);
                        assert!(!uses(rule, &term, &rules), "{rule} {bytes:02x?}");
                    }
                }
            }
        }
        // The search finds steps where they are needed, and tells where none help.
        for (bytes, needed) in [
            ("ff 00 ff 01 fe 02 ff 00 fe 02 ff 01 01", Some(1)),
            ("ff 00 fe 01 ff fe 01 ff 00 00 00", Some(1)),
            ("ff 00 ff 01 fe 01 ff 02 01", Some(0)),
            ("ff 00 ff 01 fe 01 ff 00 01", None),
            ("fe 00 ff 00 00", None),
        ] {
            let found = accepted_somehow(&read_term(&hex(bytes)).unwrap());
            let steps = |group: &Group| group.left.len() + group.right.len();
            let found = found.map(|(groups, _)| groups.iter().map(steps).sum::<usize>());
            assert_eq!(found, needed, "{bytes}");
        }
    });
}

/// The page has what the tool prints.
#[test]
fn the_page_of_the_rules() {
    let page = source("../docs/RULES.md");
    let (_, after) = page
        .split_once("<!-- made by reference rules -->\n")
        .expect("the section begins");
    let (section, _) = after
        .split_once("<!-- end -->\n")
        .expect("the section ends");
    let same = section.trim_matches('\n') == rules_page().trim_matches('\n');
    assert!(same, "docs/RULES.md has not what `reference rules` prints");
}

// ------------------------------------------------------------ worked runs

fn run(file: &[u8]) -> String {
    let mut text = Vec::new();
    write_run(file, &mut text).unwrap();
    String::from_utf8(text).unwrap()
}

fn run_plain(file: &[u8]) -> String {
    let mut text = Vec::new();
    write_plain_run(file, &mut text).unwrap();
    String::from_utf8(text).unwrap()
}

const TERM_2: &str = "ff 00 ff 01 fe 01 ff 02 01";
const TERM_3: &str = "ff 00 ff 01 fe 02 ff 00 fe 02 ff 01 01";
const TERM_5: &str = "ff 00 ff ff 01 02 ff 02 fe 01 02";

/// Worked out by hand.
#[test]
fn run_of_e2() {
    let expected = "\
rule    place  R               W    Y  B
(iv)        0  ε               ε       [τ] [1] ⟨1⟩ [2] 1
(i)         1  ε               ε       τ
(iv)        2  [τ]             ε       [1] ⟨1⟩ [2] 1
(vii)       3  [τ]             ε       1
(viii)      3  [τ]             ε    ε  1
(vi)        3  [τ]             ε    ε  τ
(iii)       4  [τ] [1]         ε       ⟨1⟩ [2] 1
(vii)       5  [τ] [1]         ε       1
(viii)      5  [τ] [1]         ε    ε  1
(viii)      5  [τ] [1]         ε    ε  2
(vi)        5  [τ] [1]         ε    ε  τ
(v)         6  [τ] [1]         ⟨1⟩     [2] 1
(vii)       7  [τ] [1]         ε       2
(viii)      7  [τ] [1]         ε    ε  2
(vi)        7  [τ] [1]         ε    ε  τ
same        4  2 = 2
(vii)       8  [τ] [1] ⟨1⟩[2]  ε       1
(viii)      8  [τ] [1] ⟨1⟩[2]  ε    ε  1
(viii)      8  [τ] [1] ⟨1⟩[2]  ε    ε  3
(vi)        8  [τ] [1] ⟨1⟩[2]  ε    ε  τ
answer 0 0 1 3
";
    assert_eq!(run(&file_hex(&hex(TERM_2), EMPTY_GROUP)), expected);
}

/// Worked out by hand: 3 is reached from U by a local step.
#[test]
fn run_of_e3() {
    let expected = "\
rule    place  R                      W    Y  B
(iv)        0  ε                      ε       [τ] [1] ⟨2⟩ [τ] ⟨2⟩ [1] 1
(i)         1  ε                      ε       τ
(iv)        2  [τ]                    ε       [1] ⟨2⟩ [τ] ⟨2⟩ [1] 1
(vii)       3  [τ]                    ε       1
(viii)      3  [τ]                    ε    ε  1
(vi)        3  [τ]                    ε    ε  τ
(iii)       4  [τ] [1]                ε       ⟨2⟩ [τ] ⟨2⟩ [1] 1
(vii)       5  [τ] [1]                ε       2
(viii)      5  [τ] [1]                ε    ε  2
(vi)        5  [τ] [1]                ε    ε  τ
(v)         6  [τ] [1]                ⟨2⟩     [τ] ⟨2⟩ [1] 1
(i)         7  [τ] [1]                ε       τ
same        4  τ = τ
(iii)       8  [τ] [1] ⟨2⟩[τ]         ε       ⟨2⟩ [1] 1
(vii)       9  [τ] [1] ⟨2⟩[τ]         ε       2
(viii)      9  [τ] [1] ⟨2⟩[τ]         ε    ε  2
(viii)      9  [τ] [1] ⟨2⟩[τ]         ε    ε  3
(vi)        9  [τ] [1] ⟨2⟩[τ]         ε    ε  τ
(v)        10  [τ] [1] ⟨2⟩[τ]         ⟨2⟩     [1] 1
(vii)      11  [τ] [1] ⟨2⟩[τ]         ε       1
(viii)     11  [τ] [1] ⟨2⟩[τ]         ε    ε  1
(vi)       11  [τ] [1] ⟨2⟩[τ]         ε    ε  τ
same        8  3 = 3
(vii)      12  [τ] [1] ⟨2⟩[τ] ⟨2⟩[1]  ε       1
(viii)     12  [τ] [1] ⟨2⟩[τ] ⟨2⟩[1]  ε    ε  1
(viii)     12  [τ] [1] ⟨2⟩[τ] ⟨2⟩[1]  ε    ε  2
(vi)       12  [τ] [1] ⟨2⟩[τ] ⟨2⟩[1]  ε    ε  τ
answer 0 0 2 3
";
    let groups = "02 00 00 03 00 00 02 00 00 03 00 03 01 00 00";
    assert_eq!(run(&file_hex(&hex(TERM_3), groups)), expected);
}

/// Without the step the run is the same up to the comparison, and ends there.
#[test]
fn run_of_e4() {
    let with = "02 00 00 03 00 00 02 00 00 03 00 03 01 00 00";
    let without = "02 00 00 03 00 00 02 00 00 03 00 00";
    let states = |groups: &str| {
        let run = run(&file_hex(&hex(TERM_3), groups));
        let lines = run.lines().map(str::split_whitespace);
        lines
            .map(|cells| cells.collect::<Vec<_>>().join(" "))
            .collect::<Vec<_>>()
    };
    let (with, without) = (states(with), states(without));
    assert_eq!(without[..23], with[..23]);
    assert_eq!(without[23..], ["same 8 3 ≠ 1", "answer 12 8 1 3"]);
}

/// Worked out by hand.
#[test]
fn run_of_e5() {
    let expected = "\
rule    place  R                       W    Y  B
(iv)        0  ε                       ε       [τ] [[1] 2] [2] ⟨1⟩ 2
(i)         1  ε                       ε       τ
(iv)        2  [τ]                     ε       [[1] 2] [2] ⟨1⟩ 2
(iv)        3  [τ]                     ε       [1] 2
(vii)       4  [τ]                     ε       1
(viii)      4  [τ]                     ε    ε  1
(vi)        4  [τ]                     ε    ε  τ
(vii)       5  [τ] [1]                 ε       2
(viii)      5  [τ] [1]                 ε    ε  2
(vi)        5  [τ] [1]                 ε    ε  τ
(iv)        6  [τ] [[1] 2]             ε       [2] ⟨1⟩ 2
(vii)       7  [τ] [[1] 2]             ε       2
(viii)      7  [τ] [[1] 2]             ε    ε  2
(vi)        7  [τ] [[1] 2]             ε    ε  τ
(iii)       8  [τ] [[1] 2] [2]         ε       ⟨1⟩ 2
(vii)       9  [τ] [[1] 2] [2]         ε       1
(viii)      9  [τ] [[1] 2] [2]         ε    ε  1
(viii)      9  [τ] [[1] 2] [2]         ε    ε  3
(vi)        9  [τ] [[1] 2] [2]         ε    ε  τ
(vii)      10  [τ] [[1] 2] [2]         ⟨1⟩     2
(viii)     10  [τ] [[1] 2] [2]         ⟨1⟩  ε  2
(xi)       10  [τ] [[1] 2] [2]         ⟨1⟩  ε  [3] 4
same        8  3 = 3
(viii)     10  [τ] [[1] 2] [2] ⟨1⟩[3]  ε    ε  4
(vi)       10  [τ] [[1] 2] [2] ⟨1⟩[3]  ε    ε  τ
answer 0 0 1 3
";
    assert_eq!(run(&file_hex(&hex(TERM_5), EMPTY_GROUP)), expected);
}

/// Worked out by hand: the plain rules make the comparison at 3 again at 8,
/// where the pair is copied.
#[test]
fn plain_run() {
    let expected = "\
rule   place  R                       W    B
(iv)       0  ε                       ε    [τ] [⟨1⟩ [τ] τ] 1
(i)        1  ε                       ε    τ
(iv)       2  [τ]                     ε    [⟨1⟩ [τ] τ] 1
(iii)      3  [τ]                     ε    ⟨1⟩ [τ] τ
(ii)       4  [τ]                     ε    1
(i)        4  [τ]                     ε    τ
(v)        5  [τ]                     ⟨1⟩  [τ] τ
(i)        6  [τ]                     ε    τ
same       3  τ and τ
(i)        7  [τ] ⟨1⟩[τ]              ε    τ
(ii)       8  [τ] [⟨1⟩ [τ] τ]         ε    1
(iii)      8  [τ] [⟨1⟩ [τ] τ]         ε    ⟨2⟩ [τ] τ
(ii)       8  [τ] [⟨1⟩ [τ] τ]         ε    2
(i)        8  [τ] [⟨1⟩ [τ] τ]         ε    τ
(v)        8  [τ] [⟨1⟩ [τ] τ]         ⟨2⟩  [τ] τ
(i)        8  [τ] [⟨1⟩ [τ] τ]         ε    τ
same       8  τ and τ
(i)        8  [τ] [⟨1⟩ [τ] τ] ⟨2⟩[τ]  ε    τ
demanded 2
";
    let term = "ff 00 ff fe 01 ff 00 00 01";
    assert_eq!(run_plain(&file_hex(&hex(term), "")), expected);
    let term = read_term(&hex(term)).unwrap();
    let demanded = plain::Demanded {
        states: 16,
        comparisons: 2,
        without_rule: 0,
    };
    assert_eq!(plain::demanded(&term, 16), Ok(demanded));
    assert_eq!(plain::demanded(&term, 15), Err(plain::TooMany));
}

/// The program's own commands.
#[test]
fn the_program() {
    let file = file_hex(&hex(TERM_2), EMPTY_GROUP);
    assert_eq!(output(&["run"], &file), run(&file));
    assert_eq!(output(&["run", "plain"], &file), run_plain(&file));
    assert_eq!(output(&["run", "other"], &file), "");
    assert_eq!(output(&["rules"], &[]), rules_page());
}

/// Why a comparison is not completed, and states without a rule.
#[test]
fn runs_that_end_badly() {
    let last_two = |term: &str, groups: &str| {
        let run = run(&file_hex(&hex(term), groups));
        let in_words = |line: &str| line.split_whitespace().collect::<Vec<_>>().join(" ");
        let lines: Vec<String> = run.lines().map(in_words).collect();
        lines[lines.len() - 2..].join(" / ")
    };
    assert_eq!(
        last_two("fe 00 ff 00 00", ""),
        "same 0 K has no type / answer 7 0 0 1"
    );
    assert_eq!(
        last_two("fe 00 00", ""),
        "none 2 ε ⟨τ⟩ τ / answer 8 0 0 1"
    );
    assert_eq!(
        last_two(TERM_2, ""),
        "same 4 no group left / answer 9 4 0 3"
    );
    assert_eq!(
        last_two(TERM_2, "02 00 03 09 00 00 03 00 00"),
        "same 4 a step cannot be applied / answer 10 4 0 3"
    );
    // Refused before the walk.
    for bytes in ["", "01 00 01 01"] {
        let a = check(&hex(bytes));
        let expected = format!("answer {} {} 0 0\n", a.number, a.place);
        assert_eq!(run(&hex(bytes)), expected);
        assert_eq!(run_plain(&hex(bytes)), expected);
    }
    // Document 01's example of 11: the type of the last variable.
    let term = [
        hex("ff ff 00 00"),
        gen::times(252, &hex("ff 00")),
        hex("fd"),
    ]
    .concat();
    let run = run(&file_hex(&term, ""));
    let lines: Vec<&str> = run.lines().collect();
    let outgrown = lines[lines.len() - 2];
    assert!(
        outgrown.starts_with("none      508  [[τ] τ] [τ] [τ]"),
        "{outgrown}"
    );
    assert!(outgrown.ends_with("[τ]  ε  ε  [τ] τ"), "{outgrown}");
    assert_eq!(lines[lines.len() - 1], "answer 11 508 0 2");
    // The plain rules go on where a comparison cannot be met or τ has no rule.
    let plain = plain::demanded(&read_term(&hex("ff fe 00 00 fe 00 ff 00 00")).unwrap(), 100);
    let expected = plain::Demanded {
        states: 9,
        comparisons: 1,
        without_rule: 1,
    };
    assert_eq!(plain, Ok(expected));
}

// -------------------------------------------------------- generated files

/// Whether the state is one that the rule speaks of.
fn fits(rule: Rule, state: &State) -> bool {
    let State { text, w, y, b, .. } = state;
    let own = *text == Text::Own;
    assert!(!own || y.is_empty());
    let (no_w, no_y) = (w.is_empty(), y.is_empty());
    match rule {
        Rule::I => own && no_w && *b == Tau,
        Rule::Ii => false,
        Rule::Iii => own && matches!(b, App(_)),
        Rule::Iv => own && no_w && matches!(b, Abs(_)),
        Rule::V => own && !no_w && matches!(b, Abs(_)),
        Rule::Vi => !own && no_w && no_y && *b == Tau,
        Rule::Vii => own && matches!(b, Var(_)),
        Rule::Viii => !own && matches!(b, Var(_)),
        Rule::Ix => !own && matches!(b, App(_)),
        Rule::X => !own && no_w && no_y && matches!(b, Abs(_)),
        Rule::Xi => !own && !no_w && no_y && matches!(b, Abs(_)),
        Rule::Xii => !own && !no_y && matches!(b, Abs(_)),
    }
}

/// What a watched check showed.
#[derive(Default)]
struct Watched {
    /// How many states had each rule, and how many had none.
    rules: [usize; RULES.len()],
    without_rule: usize,
    /// Comparisons completed, and how many were not.
    completed: usize,
    stopped: usize,
    /// The place of the last state or comparison that came to nothing.
    bad_place: usize,
}

fn watched(bytes: &[u8]) -> (CheckAnswer, Watched) {
    let mut seen = Watched::default();
    let a = check_watched(
        apply,
        bytes,
        Some(&mut |event| match event {
            Event::State { rule, state } => match rule {
                Some(rule) => {
                    assert!(fits(rule, state));
                    seen.rules[rule as usize] += 1;
                }
                None => {
                    seen.without_rule += 1;
                    seen.bad_place = match state.w.last() {
                        Some(last) if state.b == Tau => last.place,
                        _ => state.place,
                    };
                }
            },
            Event::Comparison { place, reached, .. } => match reached {
                Ok((left, right)) if left == right => seen.completed += 1,
                _ => {
                    seen.stopped += 1;
                    seen.bad_place = place;
                }
            },
        }),
    );
    (a, seen)
}

/// The states and comparisons that a watcher sees are those of the answer.
#[test]
fn watched_files() {
    on_large_stack(|| {
        let mut rng = Rng::new(58);
        let mut numbers = [0; 15];
        let mut accepted = [0; RULES.len()];
        for _ in 0..3000 {
            let bytes = random_file(&mut rng);
            let (a, seen) = watched(&bytes);
            assert_eq!(a, check(&bytes));
            numbers[usize::from(a.number)] += 1;
            assert_eq!(seen.completed, a.comparisons);
            let ends = (seen.without_rule, seen.stopped);
            match a.number {
                0..=6 | GROUPS_LEFT => assert_eq!(ends, (0, 0)),
                STILL_WAITING => assert_eq!(ends, (1, 0)),
                OUTGROWN => assert!(ends == (1, 0) || ends == (0, 1)),
                _ => assert_eq!(ends, (0, 1)),
            }
            if ends != (0, 0) && (a.number, seen.without_rule) != (OUTGROWN, 1) {
                assert_eq!(seen.bad_place, a.place);
            }
            let used = |rule: Rule| seen.rules[rule as usize];
            if (1..=6).contains(&a.number) {
                assert_eq!(seen.rules, [0; RULES.len()]);
                continue;
            }
            let term = &bytes[examine_file(&bytes).part];
            let count = |wanted: fn(u8) -> bool| term.iter().filter(|&&byte| wanted(byte)).count();
            let pairs = [
                (used(Rule::Iii), count(|byte| byte == 0xfe)),
                (used(Rule::Iv) + used(Rule::V), count(|byte| byte == 0xff)),
                (used(Rule::I), count(|byte| byte == 0)),
                (used(Rule::Vii), count(|byte| (1..=0xfd).contains(&byte))),
                (used(Rule::Vi), used(Rule::Vii)),
                (used(Rule::Xii), used(Rule::Ix)),
                (seen.completed, used(Rule::V) + used(Rule::Xi)),
                (seen.completed, used(Rule::Iii)),
            ];
            let ended_well = a.number == 0 || a.number == GROUPS_LEFT;
            for (some, all) in pairs {
                assert!(some <= all && (some == all || !ended_well), "{bytes:02x?}");
            }
            if ended_well {
                for rule in RULES {
                    accepted[rule as usize] += used(rule);
                }
            }
        }
        assert!(numbers[..14].iter().all(|&n| n > 0), "{numbers:?}");
        for rule in RULES {
            assert_eq!(accepted[rule as usize] > 0, rule != Rule::Ii, "{rule}");
        }
    });
}

/// R, the type of K and U.
type Comparison = (Vec<Entry>, Term, Term);
/// Place, R, the terms that wait, B.
type OwnState = (usize, Vec<Entry>, Vec<Term>, Term);

fn own_state(state: &State) -> Option<OwnState> {
    let w = state.w.iter().map(|waiting| waiting.k.clone()).collect();
    let State { place, r, b, .. } = state;
    (state.text == Text::Own).then(|| (*place, r.to_vec(), w, b.clone()))
}

/// Over a term that the one-pass rules accept, the plain rules find a rule for
/// each state, have the same states of the term's own text and demand the same
/// comparisons, with others between.
#[test]
fn plain_rules_on_accepted_terms() {
    on_large_stack(|| {
        let mut rng = Rng::new(53);
        let (mut done, mut more) = (0, 0);
        for _ in 0..400 {
            let term = text(&mut rng);
            let groups = groups_for(&term, &mut rng);
            let mut unused = groups.iter();
            let mut one_pass: Vec<Comparison> = Vec::new();
            let mut own = Vec::new();
            let (comparisons, end) = walk_by(
                apply,
                &term,
                &mut |r, type_of_k, u| {
                    one_pass.push((r.clone(), type_of_k.clone(), u.clone()));
                    unused.next().cloned()
                },
                Some(&mut |event| {
                    if let Event::State { state, .. } = event {
                        own.extend(own_state(state));
                    }
                }),
            );
            assert_eq!((comparisons, end), (groups.len(), Ok(())));
            let mut plain: Vec<Comparison> = Vec::new();
            let mut plain_own = Vec::new();
            let ran = plain::run(&term, 20_000, &mut |event| match event {
                plain::Event::State { state, .. } => plain_own.extend(own_state(state)),
                plain::Event::Comparison {
                    r, type_of_k, u, ..
                } => {
                    let type_of_k = type_of_k.expect("K has a type").clone();
                    plain.push((r.clone(), type_of_k, u.clone()));
                }
            });
            let Ok(demanded) = ran else {
                continue;
            };
            assert_eq!(demanded, plain::demanded(&term, 20_000).unwrap());
            assert_eq!(demanded.comparisons, plain.len() as u64);
            assert_eq!(demanded.without_rule, 0);
            assert!(own == plain_own);
            let mut rest = plain.iter();
            assert!(one_pass
                .iter()
                .all(|wanted| rest.any(|found| found == wanted)));
            done += 1;
            more += usize::from(plain.len() > one_pass.len());
        }
        assert!(done > 100 && more > 30, "{done} {more}");
    });
}
