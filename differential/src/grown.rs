//! Texts that lines are put in front of, or anywhere among their own: both must accept the new file, with the comparisons of the
//! text and of what is new together, and the text's degree. Where a limit refuses it, or it cannot be a file, the reference must
//! accept it with the limits left aside.

use crate::call::{Answer, Call, Hex, Kind};
use crate::tally::{add_each, listed, Tally};
use crate::{compare, Disagreed};
use reference::check_without_limits;
use reference::file::{Group, MAX_FILE_BYTES};
use reference::frame::{Step, LOCAL, SUBSTITUTION};
use reference::gen::{empty_groups, file, nested, shelf};
use reference::lines::{random_growth, random_lines, Growth, Lined, New};
use reference::mistakes::set_aside;
use reference::refusal::OUTGROWN;
use reference::rng::Rng;
use reference::term::{Term, MAX_SCOPE, MAX_TERM_BYTES};
use std::collections::BTreeSet;

/// The numbers of the limits.
const LIMITS: [u64; 3] = [4, 6, 11];
/// So many refused files are listed for each, those with the smallest terms.
const LISTED: usize = 7;
/// A walk with the limits left aside is given up after so many states.
const MOST_STATES: usize = 200_000;
const COUNTS: [&str; 6] =
    ["files", "accepted", "new lines", "of them pairs", "abstractors made pairs", "an index over 253, so no file"];
/// What an accepted file may be or have.
const SORTS: [&str; 7] =
    ["in front", "anywhere", "at several places", "a new pair", "an abstractor made a pair", "steps old and new", "kind 3 in the old"];
const ASIDE: [&str; 2] = ["accepted", "given up"];

/// A file that a limit refuses, in the order of the list.
#[derive(Clone, PartialEq, Eq, PartialOrd, Ord)]
struct Refused {
    /// Of the grown term.
    bytes: usize,
    place: u64,
    new_lines: u64,
    file: Vec<u8>,
}

#[derive(Clone, Default)]
pub struct Grown {
    counts: [u64; COUNTS.len()],
    /// The accepted files.
    sorts: [u64; SORTS.len()],
    /// As in `LIMITS`.
    refused: [Vec<Refused>; LIMITS.len()],
    /// Walks with the limits left aside.
    aside: [u64; ASIDE.len()],
}

impl Grown {
    pub fn add(&mut self, other: &Grown) {
        add_each(&mut self.counts, &other.counts);
        add_each(&mut self.sorts, &other.sorts);
        add_each(&mut self.aside, &other.aside);
        for (mine, others) in self.refused.iter_mut().zip(&other.refused) {
            mine.extend_from_slice(others);
        }
    }

    pub fn print(&self) {
        println!("grown texts:{}", listed(&COUNTS, &self.counts));
        println!("accepted grown texts:{}", listed(&SORTS, &self.sorts));
        for (number, refused) in LIMITS.iter().zip(&self.refused) {
            // In the same order whichever thread came first.
            let mut refused: Vec<&Refused> = refused.iter().collect();
            refused.sort_unstable();
            println!("grown texts refused {number}: {}", refused.len());
            for Refused { bytes, place, new_lines, .. } in refused.iter().take(LISTED) {
                println!("  term of {bytes} bytes, place {place}, new lines: {new_lines}");
            }
            if refused.len() > LISTED {
                println!("  and {} more", refused.len() - LISTED);
            }
            if let Some(first) = refused.first() {
                println!("  the first: {}", Hex(&first.file));
            }
        }
        println!("grown texts with the limits left aside:{}", listed(&ASIDE, &self.aside));
    }

    /// The sorts that no accepted file was of, the limits that refused none, and walks that were mostly given up.
    pub fn missing(&self) -> impl Iterator<Item = String> + '_ {
        let sorts = SORTS.iter().zip(self.sorts).filter(|(_, n)| *n == 0).map(|(sort, _)| format!("accepted grown texts: {sort}"));
        let limits = LIMITS.iter().zip(&self.refused).filter(|(_, refused)| refused.is_empty());
        let [accepted, given_up] = self.aside;
        let aside = (accepted <= given_up).then(|| "grown texts with the limits left aside, most of them accepted".into());
        sorts.chain(limits.map(|(number, _)| format!("grown texts refused {number}"))).chain(aside)
    }
}

/// [a:τ][x:a] and a declaration of ⟨a⟩[b:τ]⟨x⟩[y:b]y, whose second pair needs a right step.
fn steps_in_a_declaration() -> Vec<u8> {
    let mut groups = empty_groups(2);
    groups[1].right.push(Step { kind: LOCAL, place: 0 });
    file(&[0xff, 0, 0xff, 1, 0xff, 0xfe, 2, 0xff, 0, 0xfe, 2, 0xff, 1, 1, 1], &groups)
}

/// Small texts, each grown some times.
pub fn fixed(tally: &mut Tally) -> Result<(), Disagreed> {
    let mut rng = Rng::new(0);
    for file in shelf().accepted.iter().chain([&steps_in_a_declaration()]) {
        let check = compare(&Call::new(Kind::Check, file), tally)?;
        for _ in 0..20 {
            compare_grown(file, &check, &mut rng, tally)?;
        }
    }
    Ok(())
}

/// A text about as long as a term can be, grown.
pub fn compare_long(rng: &mut Rng, tally: &mut Tally) -> Result<(), Disagreed> {
    let file = file(&nested(rng.between(2_030, 2_047)), &[]);
    let check = compare(&Call::new(Kind::Check, &file), tally)?;
    compare_grown(&file, &check, rng, tally)
}

/// If this answer to Check accepts the file: compares Check of its text with random lines in front, or, for one in three, grown
/// anywhere.
pub fn compare_grown(file: &[u8], check: &Answer, rng: &mut Rng, tally: &mut Tally) -> Result<(), Disagreed> {
    let Some([0, _, comparisons, degree]) = check.numbers else { return Ok(()) };
    let text = set_aside(|| Lined::read(file)).expect("an accepted file can be read");
    let anywhere = rng.below(3) == 0;
    let (growths, more) = if anywhere {
        let growths = set_aside(|| random_growth(rng, &text));
        let more = growths.iter().map(|growth| growth.groups.len() as u64).sum();
        (growths, more)
    } else {
        let lines = set_aside(|| random_lines(rng));
        let file = lines.file().expect("there are few lines");
        let Some([0, _, more, _]) = compare(&Call::new(Kind::Check, &file), tally)?.numbers else {
            println!("DISAGREE on random lines, which are refused: {}", Hex(&file));
            return Err(Disagreed);
        };
        (vec![lines.in_front().expect("these are lines")], more)
    };
    let grown = text.grown(&growths);
    let expected = [0, 0, comparisons + more, degree];
    let term = grown.term();
    let Some(new_file) = grown.file() else {
        add_each(&mut tally.grown.counts, &[0, 0, 0, 0, 0, 1]);
        if term.size() <= MAX_FILE_BYTES && term.deepest_scope(0) <= MAX_SCOPE {
            println!("DISAGREE on a grown text: no file, though within its limits: grown from {}, which has {check}", Hex(file));
            return Err(Disagreed);
        }
        return compare_without_limits(&grown, expected, file, tally);
    };
    let answer = compare(&Call::new(Kind::Check, &new_file), tally)?;
    let accepted = answer.numbers == Some(expected);
    let limit = limit(&term, &new_file);
    let [lines, pairs, made_pairs] = counted(&growths);
    add_each(&mut tally.grown.counts, &[1, accepted.into(), lines, pairs, made_pairs, 0]);
    match answer.numbers {
        _ if accepted => {
            let places: BTreeSet<usize> = growths.iter().map(|growth| growth.at).collect();
            let mut steps_of_text = steps(&text.groups);
            let new_steps = growths.iter().any(|growth| steps(&growth.groups).next().is_some());
            let both = new_steps && steps_of_text.clone().next().is_some();
            let kind_3 = steps_of_text.any(|step| step.kind == SUBSTITUTION);
            let sorts = [!anywhere, anywhere, places.len() > 1, pairs > 0, made_pairs > 0, both, kind_3];
            add_each(&mut tally.grown.sorts, &sorts.map(u64::from));
        }
        Some([number, place, ..]) if number == LIMITS[limit] => {
            tally.grown.refused[limit].push(Refused { bytes: term.size(), place, new_lines: lines, file: new_file });
            compare_without_limits(&grown, expected, file, tally)?;
        }
        _ => {
            let [old, new] = [file, &new_file].map(Hex);
            println!("DISAGREE on a grown text: {answer} and not {expected:?}: {new} grown from {old}, which has {check}");
            return Err(Disagreed);
        }
    }
    Ok(())
}

/// Compares the reference's answer with the limits left aside, unless there are too many states.
fn compare_without_limits(grown: &Lined, expected: [u64; 4], old: &[u8], tally: &mut Tally) -> Result<(), Disagreed> {
    let a = set_aside(|| check_without_limits(&grown.term(), &grown.groups, MOST_STATES));
    let numbers = [a.number.into(), a.place as u64, a.comparisons as u64, a.degree];
    let given_up = a.number == OUTGROWN;
    if !given_up && numbers != expected {
        let new = grown.file().map_or("no file".into(), |file| Hex(&file).to_string());
        println!("DISAGREE on a grown text, limits left aside: {numbers:?} and not {expected:?}: {new} grown from {}", Hex(old));
        return Err(Disagreed);
    }
    add_each(&mut tally.grown.aside, &[!given_up, given_up].map(u64::from));
    Ok(())
}

/// Which of `LIMITS` may refuse the file: 4 and 6 only if it is beyond them.
fn limit(term: &Term, file: &[u8]) -> usize {
    match term.deepest_scope(0) {
        _ if file.len() > MAX_FILE_BYTES || term.size() > MAX_TERM_BYTES => 0,
        scopes if scopes > MAX_SCOPE => 1,
        _ => 2,
    }
}

fn steps(groups: &[Group]) -> impl Iterator<Item = &Step> + Clone {
    groups.iter().flat_map(|group| group.left.iter().chain(&group.right))
}

/// How many new lines there are, pairs among them, and abstractors made pairs.
fn counted(growths: &[Growth]) -> [u64; 3] {
    let mut counts = [0; 3];
    for growth in growths {
        add_each(&mut counts, &match &growth.new {
            New::Lines(lines) => [lines.len() as u64, lines.iter().filter(|line| line.k().is_some()).count() as u64, 0],
            New::Applicator(_) => [0, 0, 1],
        });
    }
    counts
}
