//! differential SEED COUNT: the proved calls, through the Rust wrapper (Count, Set and Explain as from C), against the independent
//! implementation. Every number of the two answers is compared, and every byte of a lent buffer with 8 bytes on each side of it.
//!
//! Compared first, whatever the seed:
//! - document 01's examples and the inputs at the limits in `named`, with each other and with the answer written there, and the
//!   sweeps in `limits` (File, Check, Explain, Print);
//! - files: all strings of at most 4 bytes over the interesting values 00 01 02 03 fc fd fe ff (File, Check, Explain);
//! - bare terms: all terms of at most 3 bytes, as all strings of at most 2 bytes and all of 3 that begin with fe or ff; all
//!   strings of at most 5 bytes over the interesting values, since the 131 million terms of 5 bytes differ otherwise only in
//!   indices beyond every scope (Term, Type, Print; for those that are closed terms also Step, of kinds 0 to 4 at every place);
//! - all closed terms of at most 9 bytes with indices of at most 2, for Step of kind 1 at every variable and of kinds 2 and 3 at
//!   every applicator; a train for every sequence of at most 8 applicators and abstractors, for Step of kinds 1 to 3 at every
//!   place;
//! - closed terms of every size about a line's end, the smallest and the longest, for Print, into the buffers that `pages` says;
//! - all strings of at most 2 bytes, counted by the proved library's own answers to Term, for Count;
//! - all strings of at most 7 bytes over 00 01 04 05, and the sets in `sets`, for Set;
//! - [τ][T]⟨1⟩[T]τ for all terms T of at most 7 bytes with indices of at most 2, if it is accepted without steps, for Explain with
//!   a step of kinds 0 to 4 at every place of either body and past it;
//! - small texts that lines are put among, as `grown` says, for Check.
//!
//! Then, for each number below COUNT, from the seed: a file (File, Check, Explain); a bare term (Term, Type, Step, Print), the
//! buffer longer than the result, and then empty, too short by one, exact or longer by one, its bytes at random; a length (Count);
//! for one number in four a set, in one of four with that file in it (Set), and for one in eight a file that mostly stops with 8,
//! 10 or 12 (Explain). The buffers of Explain are longer than any body, short or empty; at 12 another two follow, each empty, too
//! short by one, exact or longer by one. Where a file is neither 8, 10 nor 12 to Check, Explain is compared with that answer of the
//! independent implementation and four times 0.
//!
//! For one number in twelve whose file is accepted, its text grows: random lines are put in front of it, or, for one in three, it
//! grows at up to four places among its own lines at once, by lines and by a K that makes ⟨K⟩[U] of a line [U]. So does, for one
//! number in 500, a text about as long as a term can be. The old groups stay as they are. Not only must both agree on the new file
//! (Check): they must accept it, with the comparisons of the text and of what is new together, and with the text's degree. The
//! answer may be 4 or 6, or an index have no byte, so that there is no file, only where the new term or file is beyond the limits;
//! where it is not, the answer may be 11. In all these cases the independent implementation must accept the new text, with these
//! same numbers, when it walks once more with the limits left aside; walks given up after 200,000 states are counted apart. The
//! refused files with the smallest terms are listed, and the first for each number is printed whole.
//!
//! A disagreement prints the smallest call that it could be shrunk to, and the exit status is 1; so it is if in a run of
//! 100,000 or more, among the calls made from the seed, some number from 0 to 16 was no call's answer, or no accepted file had so
//! many comparisons, or steps, or some number was missing from the answers with kind 3, or from those that would be 10 if steps
//! took pairs only, or 0, 3, 4, 5, 6 or 14 from those of Print, or 0 or 15 from those of Count, or 0 to 13 or 16 from those of
//! Set, or 1 to 13 from those of Set that name a file after the first, or no accepted set had so many files, or 0 to 14 from those
//! of Explain, or some condition of a step on some side from its answers 10, or so many that wait from its answers 8, or no grown
//! text was accepted with lines in front, or grown anywhere, at several places, with a new pair, with an abstractor made a pair,
//! with steps in the old groups and in the new, or with kind 3 in the old, or one of the limits refused none, or not
//! more than half of the walks with the limits left aside came to their end.

mod call;
mod grown;
mod named;
mod sets;
mod shrink;
mod tally;

use call::{Answer, Call, Kind};
use reference::frame::{Step, LOCAL, REMOVAL, SUBSTITUTION};
use reference::gen::{bare_term, closed_term, empty_groups, file, items_after, random_file, random_set, step_for, stopped_file};
use reference::gen::ItemKind;
use reference::rng::Rng;
use reference::mistakes::set_aside;
use reference::page::page_length;
use reference::stack::on_large_stack;
use reference::term::{read_term, Term};
use shrink::report;
use std::process::ExitCode;
use std::sync::atomic::{AtomicBool, Ordering};
use std::thread;
use tally::Tally;

/// A disagreement was found and printed.
struct Disagreed;

/// Compares the answers to a call; gives the one answer.
fn compare(call: &Call, tally: &mut Tally) -> Result<Answer, Disagreed> {
    match call.agreed() {
        Some(answer) => {
            tally.count(call, &answer);
            Ok(answer)
        }
        None => {
            report(call);
            Err(Disagreed)
        }
    }
}

/// The named inputs; gives how many.
fn named_limits(tally: &mut Tally) -> Result<usize, Disagreed> {
    let all = named::named();
    for named in &all {
        let answer = compare(&named.call, tally)?;
        let expected = (named.file, named.numbers, named.ground);
        if (answer.file, answer.numbers, answer.ground) != expected {
            println!("DISAGREE with the table on '{}': {answer} and not {expected:?}", named.name);
            return Err(Disagreed);
        }
        if named.written.as_ref().is_some_and(|written| !answer.wrote(written, &named.call)) {
            println!("DISAGREE with the table on '{}': {answer}", named.name);
            return Err(Disagreed);
        }
    }
    Ok(all.len())
}

/// Terms at the limits: nesting, abstractors and every index, applicators that wait.
fn limits() -> Vec<Vec<u8>> {
    let nested = |front: &[u8], tag: u8, n: usize| [front, &vec![tag; n], &vec![0; n + 1]].concat();
    let mut all = Vec::new();
    for tag in [0xfe, 0xff] {
        all.extend([2_046, 2_047, 2_048].map(|n| nested(&[], tag, n)));
        all.push(nested(&[0xff, 0].repeat(200), tag, 1_800));
    }
    all.extend([1, 1_000, 2_047].map(|n| [[0xfe, 0].repeat(n), vec![0]].concat()));
    for n in [252, 253, 254] {
        all.extend((0..=0xfd).map(|k| [[0xff, 0].repeat(n), vec![k]].concat()));
    }
    all
}

/// All strings of at most `length` bytes over the values.
fn strings(values: &[u8], length: usize) -> Vec<Vec<u8>> {
    let mut all = vec![vec![]];
    let mut from = 0;
    for _ in 0..length {
        let longest = from..all.len();
        from = all.len();
        for i in longest {
            all.extend(values.iter().map(|&value| [&all[i][..], &[value]].concat()).collect::<Vec<_>>());
        }
    }
    all
}

/// What is compared whatever the seed; gives how many inputs have a written answer.
fn fixed(tally: &mut Tally) -> Result<usize, Disagreed> {
    let written = named_limits(tally)?;
    let interesting = [0x00, 0x01, 0x02, 0x03, 0xfc, 0xfd, 0xfe, 0xff];
    let limits = limits();
    let mut rng = Rng::new(0);
    for input in strings(&interesting, 4).into_iter().chain(limits.iter().map(|term| file(term, &empty_groups(0)))) {
        compare(&Call::new(Kind::File, &input), tally)?;
        compare(&Call::new(Kind::Check, &input), tally)?;
        compare(&Call::explaining(&input, [3, 3], &mut rng), tally)?;
    }
    for input in limits {
        compare_written(Kind::Print, &input, &mut rng, tally)?;
    }
    pages(&mut rng, tally)?;
    let every: Vec<u8> = (0..=255).collect();
    let pairs = strings(&every, 2);
    counted(&pairs)?;
    let triples = pairs.iter().filter(|pair| pair.len() == 2).flat_map(|pair| [0xfe, 0xff].map(|tag| [&[tag], &pair[..]].concat()));
    for input in pairs.iter().cloned().chain(triples).chain(strings(&interesting, 5)) {
        let answer = compare(&Call::new(Kind::Term, &input), tally)?;
        compare(&Call::lending(Kind::Type, &input, 6, &mut rng), tally)?;
        compare(&Call::lending(Kind::Print, &input, page_length(1) + 1, &mut rng), tally)?;
        if answer.number() == Some(0) {
            for place in 0..=input.len() as u16 {
                for kind in 0..=4 {
                    compare(&Call::lending(Kind::Step(kind, place), &input, 6, &mut rng), tally)?;
                }
            }
        }
    }
    for input in (1..=9).step_by(2).flat_map(small_terms).filter(|input| read_term(input).is_ok()) {
        for (place, byte) in input.iter().enumerate() {
            let kinds: &[u8] = match byte {
                0 | 0xff => &[],
                0xfe => &[REMOVAL, SUBSTITUTION],
                _ => &[LOCAL],
            };
            for &kind in kinds {
                compare(&Call::lending(Kind::Step(kind, place as u16), &input, 10, &mut rng), tally)?;
            }
        }
    }
    trains(&mut rng, tally)?;
    let values = [0x00, 0x01, 0x04, 0x05];
    for input in strings(&values, 7).into_iter().chain(sets::all()) {
        compare(&Call::new(Kind::Set, &input), tally)?;
    }
    steps_of_files(&mut rng, tally)?;
    grown::fixed(tally)?;
    Ok(written)
}

/// Explains [τ][T]⟨1⟩[T]τ for all small T with which it is accepted, with a step of kinds 0 to 4 at every place of the type of 1,
/// and of the second T, and past them.
fn steps_of_files(rng: &mut Rng, tally: &mut Tally) -> Result<(), Disagreed> {
    for t in (1..=7).step_by(2).flat_map(small_terms) {
        let Ok(Term::Abs(declared)) = read_term(&[&[0xff, 0], &t[..]].concat()) else { continue };
        let lifted = set_aside(|| declared.parts().1.lift(1)).bytes();
        let term = [&[0xff, 0, 0xff], &t[..], &[0xfe, 1, 0xff], &lifted, &[0]].concat();
        let applicators = term.iter().filter(|byte| **byte == 0xfe).count();
        let groups = empty_groups(applicators);
        if compare(&Call::explaining(&file(&term, &groups), [9, 9], rng), tally)?.number() != Some(0) {
            continue;
        }
        let steps = (0..=4).flat_map(|kind| (0..=t.len()).map(move |place| Step { kind, place }));
        for step in steps {
            for side in [0, 1] {
                let mut groups = groups.clone();
                let last = &mut groups[applicators - 1];
                [&mut last.left, &mut last.right][side].push(step);
                compare(&Call::explaining(&file(&term, &groups), [9, 9], rng), tally)?;
            }
        }
    }
    Ok(())
}

/// The steps of kinds 1 to 3 at every place of a train for every sequence of at most 8 applicators and abstractors, after two
/// abstractors more.
fn trains(rng: &mut Rng, tally: &mut Tally) -> Result<(), Disagreed> {
    let sorts = [ItemKind::Applicator, ItemKind::Abstractor];
    for word in strings(&[0, 1], 8) {
        let word: Vec<ItemKind> = word.iter().map(|sort| sorts[usize::from(*sort)]).collect();
        let train = set_aside(|| items_after(rng, &word, 2)).bytes();
        let input = [&[0xff, 0, 0xff, 0], &train[..]].concat();
        for place in 0..=input.len() as u16 {
            for kind in [LOCAL, REMOVAL, SUBSTITUTION] {
                compare(&Call::lending(Kind::Step(kind, place), &input, 4_096, rng), tally)?;
            }
        }
    }
    Ok(())
}

/// Counts these strings, all of at most 2 bytes, by the proved library's answers to Term, and compares its answers to Count.
fn counted(pairs: &[Vec<u8>]) -> Result<(), Disagreed> {
    for length in 0..=2 {
        let strings = pairs.iter().filter(|string| string.len() == length);
        let numbers: Vec<_> = strings.map(|string| Call::new(Kind::Term, string).proved().number()).collect();
        let count = |number: usize| numbers.iter().filter(|own| **own == Some(number)).count() as u64;
        let answer = Call::new(Kind::Count(length), &[]).proved();
        let counts = [0, count(0), count(3), count(5)];
        if answer.numbers != Some(counts) {
            println!("DISAGREE of the proved calls on strings of {length} bytes: {answer}, and one by one {counts:?}");
            return Err(Disagreed);
        }
    }
    Ok(())
}

/// Prints closed terms into no bytes, and into buffers as long as the page or up to 3 bytes shorter or longer; a term of at most
/// 55 bytes into all shorter ones; one of at most 20 lines, and the longest, into those about as long as the lines before.
fn pages(rng: &mut Rng, tally: &mut Tally) -> Result<(), Disagreed> {
    let line = page_length(1);
    let about_ends = (18..4_093).step_by(18).flat_map(|cells| [cells - 1, cells + 1]);
    for size in [1, 3].into_iter().chain(about_ends).chain([4_093, 4_095]) {
        let input = set_aside(|| closed_term(rng, size)).bytes();
        let page = page_length(size);
        let about_a_line = |length: usize| (page <= 20 * line || size == 4_095) && (length + 1) % line <= 2;
        let wanted = |length: usize| length == 0 || length + 3 >= page || size <= 55 || about_a_line(length);
        for length in (0..=page + 3).filter(|length| wanted(*length)) {
            compare(&Call::lending(Kind::Print, &input, length, rng), tally)?;
        }
    }
    Ok(())
}

/// All terms of this odd size with indices of at most 2, closed or not.
fn small_terms(size: usize) -> Vec<Vec<u8>> {
    if size == 1 {
        return vec![vec![0], vec![1], vec![2]];
    }
    let mut all = Vec::new();
    for inner in (1..size - 1).step_by(2) {
        let (inners, rests) = (small_terms(inner), small_terms(size - 1 - inner));
        for (inner, rest) in inners.iter().flat_map(|inner| rests.iter().map(move |rest| (inner, rest))) {
            all.extend([0xfe, 0xff].map(|tag| [&[tag], &inner[..], &rest[..]].concat()));
        }
    }
    all
}

/// Compares a call that writes: into a buffer longer than any result, then into one about as long as the result.
fn compare_written(kind: Kind, input: &[u8], rng: &mut Rng, tally: &mut Tally) -> Result<(), Disagreed> {
    let longer = match kind {
        // A term has no more symbols than bytes.
        Kind::Print => page_length(input.len()) + rng.between(1, 5),
        _ => rng.between(4_096, 4_100),
    };
    let answer = compare(&Call::lending(kind, input, longer, rng), tally)?;
    let result = answer.numbers.map_or(0, |numbers| numbers[2] as usize);
    let length = match rng.below(4) {
        0 => 0,
        1 => result.saturating_sub(1),
        2 => result,
        _ => result + 1,
    };
    compare(&Call::lending(kind, input, length, rng), tally)?;
    Ok(())
}

/// The lengths of two buffers: most are longer than any body, others short or empty.
fn lengths_to_explain(rng: &mut Rng) -> [usize; 2] {
    [0, 1].map(|_| match rng.below(4) {
        0 => rng.below(3),
        _ => rng.between(4_096, 4_100),
    })
}

/// Compares Explain of a file with this answer to Check. Where nothing is added to that the reference is not asked again.
fn compare_explained_after_check(input: &[u8], check: &Answer, rng: &mut Rng, tally: &mut Tally) -> Result<(), Disagreed> {
    if let Some(8 | 10 | 12) = check.number() {
        return compare_explained(input, rng, tally);
    }
    let call = Call::explaining(input, lengths_to_explain(rng), rng);
    let proved = call.proved();
    if proved != call.adding_nothing(check) {
        report(&call);
        return Err(Disagreed);
    }
    tally.count(&call, &proved);
    Ok(())
}

/// Compares Explain; at 12 also with buffers about as long as the bodies.
fn compare_explained(input: &[u8], rng: &mut Rng, tally: &mut Tally) -> Result<(), Disagreed> {
    let mut answer = compare(&Call::explaining(input, lengths_to_explain(rng), rng), tally)?;
    if answer.number() == Some(14) {
        answer = compare(&Call::explaining(input, [4_096; 2], rng), tally)?;
    }
    let (Some(12), Some([left, right, ..])) = (answer.number(), answer.ground) else { return Ok(()) };
    let lengths = [left as usize, right as usize].map(|length| match rng.below(5) {
        0 => 0,
        1 => length - 1,
        2 | 3 => length,
        _ => length + 1,
    });
    compare(&Call::explaining(input, lengths, rng), tally)?;
    Ok(())
}

/// The files, the bare term, the length and sometimes the set made from one number.
fn random(number: u64, tally: &mut Tally) -> Result<(), Disagreed> {
    let mut rng = Rng::new(number);
    let file = set_aside(|| random_file(&mut rng));
    compare(&Call::new(Kind::File, &file), tally)?;
    let check = compare(&Call::new(Kind::Check, &file), tally)?;
    let input = set_aside(|| bare_term(&mut rng));
    compare(&Call::new(Kind::Term, &input), tally)?;
    compare_written(Kind::Type, &input, &mut rng, tally)?;
    let (kind, place) = set_aside(|| step_for(&mut rng, &input));
    compare_written(Kind::Step(kind, place), &input, &mut rng, tally)?;
    compare_written(Kind::Print, &input, &mut rng, tally)?;
    // At most 7, the same with one bit more, or of any width.
    let length = match rng.below(3) {
        0 => rng.below(8),
        1 => rng.below(8) + (1 << rng.between(3, 63)),
        _ => (rng.next_u64() >> rng.below(64)) as usize,
    };
    compare(&Call::new(Kind::Count(length), &[]), tally)?;
    if rng.below(4) == 0 {
        let input = set_aside(|| random_set(&mut rng, &file));
        compare(&Call::new(Kind::Set, &input), tally)?;
    }
    compare_explained_after_check(&file, &check, &mut rng, tally)?;
    if rng.below(8) == 0 {
        let input = set_aside(|| stopped_file(&mut rng));
        compare_explained(&input, &mut rng, tally)?;
    }
    if rng.below(12) == 0 {
        grown::compare_grown(&file, &check, &mut rng, tally)?;
    }
    if rng.below(500) == 0 {
        grown::compare_long(&mut rng, tally)?;
    }
    Ok(())
}

/// All comparisons: their answers, and what is missing among those made from the seed. These are dealt to the threads in turn,
/// so they do not depend on the number of threads.
fn run(seed: u64, count: u64) -> Result<(Tally, Vec<String>), Disagreed> {
    let mut tally = Tally::default();
    let written = on_large_stack(|| fixed(&mut tally))?;
    println!("{written} examples and inputs at the limits have the written answer");
    let threads = thread::available_parallelism().map_or(1, |n| n.get().min(2));
    let stop = AtomicBool::new(false);
    let deal = |own: usize| {
        let mut tally = Tally::default();
        let mut numbers = Rng::new(seed);
        for i in 0..count {
            let number = numbers.next_u64();
            if i as usize % threads != own {
                continue;
            }
            if stop.load(Ordering::Relaxed) {
                break;
            }
            if let Err(disagreed) = random(number, &mut tally) {
                stop.store(true, Ordering::Relaxed);
                return Err(disagreed);
            }
        }
        Ok(tally)
    };
    let dealt: Vec<_> = thread::scope(|scope| {
        let deal = &deal;
        let workers: Vec<_> = (0..threads).map(|own| scope.spawn(move || on_large_stack(|| deal(own)))).collect();
        workers.into_iter().map(|worker| worker.join().expect("a worker ends")).collect()
    });
    let mut generated = Tally::default();
    for part in dealt {
        generated.add(&part?);
    }
    tally.add(&generated);
    Ok((tally, generated.missing()))
}

fn main() -> ExitCode {
    let arguments: Vec<String> = std::env::args().skip(1).collect();
    #[cfg(feature = "mistakes")]
    if arguments == ["mistakes"] {
        reference::mistakes::MISTAKES.iter().for_each(|mistake| println!("{mistake:?}"));
        return ExitCode::SUCCESS;
    }
    let numbers: Vec<u64> = arguments.iter().filter_map(|text| text.parse().ok()).collect();
    let (&[seed, count], 2) = (&numbers[..], arguments.len()) else {
        eprintln!("usage: differential SEED COUNT");
        return ExitCode::from(2);
    };
    let Ok((tally, missing)) = run(seed, count) else {
        return ExitCode::FAILURE;
    };
    tally.print();
    if count >= 100_000 && !missing.is_empty() {
        println!("MISSING {}", missing.join(", "));
        return ExitCode::FAILURE;
    }
    ExitCode::SUCCESS
}
