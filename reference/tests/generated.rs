//! Properties of generated terms and files.

mod common;
use common::*;
use reference::file::read_fields;
use reference::gen::*;
use reference::rng::Rng;
use reference::frame::{apply, body_outgrown, Frame, Step, Unmet, REMOVAL, SUBSTITUTION};
use reference::normaliser::{groups_for, in_parts, substitutions};
use reference::refusal::*;
use reference::stack::on_large_stack;
use reference::term::{read_term, Term};
use reference::*;

/// Texts correct by construction are accepted with the steps found, each
/// group used once; with the last group left out they are refused by 9.
#[test]
fn texts_are_accepted() {
    on_large_stack(|| {
        let mut rng = Rng::new(2024);
        for _ in 0..600 {
            let term = text(&mut rng);
            let groups = groups_for(&term, &mut rng);
            let a = check(&file(&term.bytes(), &groups));
            assert_eq!(
                (a.number, a.place, a.comparisons),
                (0, 0, groups.len()),
                "{:02x?}",
                term.bytes()
            );
            assert_eq!(a.degree, term.degree());
            if let Some((_, fewer)) = groups.split_last() {
                let a = check(&file(&term.bytes(), fewer));
                assert_eq!((a.number, a.comparisons), (NO_GROUP, fewer.len()));
            }
            let more = [groups.clone(), empty_groups(1)].concat();
            let a = check(&file(&term.bytes(), &more));
            assert_eq!((a.number, a.comparisons), (GROUPS_LEFT, groups.len()));
            assert_eq!(a.place, file(&term.bytes(), &groups).len());
        }
    });
}

/// 001, 3.9: the type's degree is one less; the type of a correct text is
/// correct.
#[test]
fn types_of_texts() {
    on_large_stack(|| {
        let mut rng = Rng::new(39);
        let mut done = 0;
        for _ in 0..400 {
            let term = text(&mut rng);
            let (answer, buffer) = typed(&term.bytes(), 4096);
            let TypeAnswer::Answer { number, len, .. } = answer else {
                assert_eq!(term.degree(), 1);
                continue;
            };
            if number != 0 {
                assert_eq!(number, OUTGROWN);
                continue;
            }
            let bytes = &buffer[..len];
            assert_eq!(examined(bytes), (0, 0, term.degree() - 1));
            let groups = groups_for(&read_term(bytes).unwrap(), &mut rng);
            let a = check(&file(bytes, &groups));
            assert!(a.number == 0 || a.number == OUTGROWN, "{a:?} {bytes:02x?}");
            done += 1;
        }
        assert!(done > 100);
    });
}

/// A step keeps the degree or refuses; a step on a correct text leaves a
/// correct one.
#[test]
fn steps_of_texts() {
    on_large_stack(|| {
        let mut rng = Rng::new(47);
        let mut done = 0;
        for _ in 0..600 {
            let term = text(&mut rng).bytes();
            let (kind, place) = step_for(&mut rng, &term);
            let (a, buffer) = stepped(&term, kind, place, 4096);
            if a.0 != 0 {
                assert!(a == (BAD_STEP, 0, 0) || a == (OUTGROWN, 0, 0));
                assert_eq!(buffer, untouched(4096));
                continue;
            }
            let bytes = &buffer[..a.2];
            assert_eq!(examined(bytes), examined(&term));
            assert!(buffer[a.2..].iter().all(|&byte| byte == 0xaa));
            let groups = groups_for(&read_term(bytes).unwrap(), &mut rng);
            let checked = check(&file(bytes, &groups));
            assert!(
                checked.number == 0 || checked.number == OUTGROWN,
                "{checked:?} {bytes:02x?}"
            );
            done += 1;
        }
        assert!(done > 200);
    });
}

/// What kind 3 is by document 02: local steps at all uses, from left to right,
/// then kind 2; with every form on the way.
fn substituted_in_parts(frame: &Frame, body: &Term, place: usize) -> Option<Vec<Term>> {
    let mut forms = vec![body.clone()];
    for step in in_parts(body, place)? {
        forms.push(apply(frame, &forms[forms.len() - 1], step).ok()?);
    }
    Some(forms)
}

/// The same step by step where the step is of kind 3.
fn apply_in_parts(frame: &Frame, body: &Term, step: Step) -> Result<Term, Unmet> {
    match step.kind {
        SUBSTITUTION => substituted_in_parts(frame, body, step.place)
            .and_then(|mut forms| forms.pop())
            .ok_or(Unmet::NoPartner),
        _ => apply(frame, body, step),
    }
}

/// A checker that knows kinds 1 and 2 only.
fn apply_kinds_1_and_2(frame: &Frame, body: &Term, step: Step) -> Result<Term, Unmet> {
    match step.kind {
        SUBSTITUTION => Err(Unmet::Kind),
        _ => apply(frame, body, step),
    }
}

/// At the couples of generated terms kind 3 is its parts, limits aside, and the
/// step calls agree with that where no form on the way outgrows; elsewhere
/// kinds 2 and 3 are both refused.
#[test]
fn substitution_is_its_parts() {
    on_large_stack(|| {
        let mut rng = Rng::new(303);
        let empty = Frame::new();
        let (mut whole, mut longer, mut refused) = (0, 0, 0);
        for _ in 0..1500 {
            let bytes = bare_term(&mut rng);
            let Ok(term) = read_term(&bytes) else {
                continue;
            };
            let couples = substitutions(&term);
            for place in (0..=term.size()).filter(|_| term.size() < 100 || rng.below(200) == 0) {
                let own = apply(&empty, &term, Step { kind: SUBSTITUTION, place }).ok();
                let removed = apply(&empty, &term, Step { kind: REMOVAL, place }).ok();
                if !couples.iter().any(|step| step.place == place) {
                    assert_eq!((own, removed, in_parts(&term, place)), (None, None, None));
                    refused += 1;
                }
            }
            for &step in couples.iter().take(5) {
                let own = apply(&empty, &term, step).unwrap();
                let forms = substituted_in_parts(&empty, &term, step.place).unwrap();
                assert_eq!(forms.last(), Some(&own), "{step:?} {bytes:02x?}");
                let (a, buffer) = stepped(&bytes, 3, step.place as u16, 5000);
                assert_eq!(a.0 == OUTGROWN, body_outgrown(&empty, &own));
                if a.0 == 0 {
                    assert_eq!(buffer[..a.2], own.bytes());
                }
                if forms.iter().any(|form| body_outgrown(&empty, form)) {
                    longer += usize::from(a.0 == 0);
                    continue;
                }
                let mut last = bytes.clone();
                for part in in_parts(&term, step.place).unwrap() {
                    let (a, mut buffer) = stepped(&last, part.kind, part.place as u16, 5000);
                    assert_eq!(a.0, 0);
                    buffer.truncate(a.2);
                    last = buffer;
                }
                assert_eq!(last, own.bytes());
                whole += 1;
            }
        }
        assert!(whole > 500 && longer > 5 && refused > 500, "{whole} {longer} {refused}");
    });
}

/// A file is checked alike with kind 3 done in its parts, and, if it has no
/// kind 3, by a checker that does not know it.
#[test]
fn files_with_and_without_substitutions() {
    on_large_stack(|| {
        let mut rng = Rng::new(304);
        let (mut with, mut without) = ([0; 15], [0; 15]);
        for i in 0..2500 {
            let bytes = match i % 5 {
                0 => limit_file_of(&mut rng, 17 + i / 5 % 2),
                _ => random_file(&mut rng),
            };
            let a = check(&bytes);
            let groups = read_fields(&bytes).map_or(Vec::new(), |fields| fields.groups);
            let mut steps = groups.iter().flat_map(|group| group.left.iter().chain(&group.right));
            if steps.any(|step| step.kind == SUBSTITUTION) {
                assert_eq!(check_by(apply_in_parts, &bytes), a, "{bytes:02x?}");
                with[usize::from(a.number)] += 1;
            } else {
                assert_eq!(check_by(apply_kinds_1_and_2, &bytes), a, "{bytes:02x?}");
                without[usize::from(a.number)] += 1;
            }
        }
        for number in [0, 9, 10, 11, 12, 13] {
            assert!(with[number] > 0 && without[number] > 0, "{with:?} {without:?}");
        }
    });
}

/// Lifting has its laws.
#[test]
fn lifting() {
    on_large_stack(|| {
        let mut rng = Rng::new(11);
        for _ in 0..500 {
            let size = 2 * rng.below(40) + 1;
            let closed = closed_term(&mut rng, size);
            assert_eq!(closed.lift(7), closed);
            // The rest after an abstractor is an open term.
            if let Term::Abs(item) = &closed {
                let (_, open) = item.parts();
                assert_eq!(open.lift(0), *open);
                assert_eq!(open.lift(2).lift(3), open.lift(5));
                assert_eq!(open.lift(1).size(), open.size());
                assert_eq!(open.lift(1).without(1), *open);
                assert!(!open.lift(1).uses(1));
            }
        }
    });
}

/// The measures that terms keep are those counted on the bytes, and lifting
/// changes the bytes that it should.
#[test]
fn kept_measures() {
    /// Reads one term at `at`: the deepest scope, with each index that points
    /// outside the term lifted.
    fn count(bytes: &[u8], at: &mut usize, scope: u64, lift: u8, lifted: &mut Vec<u8>) -> u64 {
        let byte = bytes[*at];
        *at += 1;
        let outside = byte < 0xfe && u64::from(byte) > scope;
        lifted.push(if outside { byte + lift } else { byte });
        if byte < 0xfe {
            return scope;
        }
        let inner = count(bytes, at, scope, lift, lifted);
        let after = scope + u64::from(byte == 0xff);
        inner.max(count(bytes, at, after, lift, lifted))
    }
    on_large_stack(|| {
        let mut rng = Rng::new(13);
        for _ in 0..500 {
            let size = 2 * rng.below(100) + 1;
            let closed = closed_term(&mut rng, size);
            let mut parts = vec![closed];
            while let Some(term) = parts.pop() {
                let mut lifted = Vec::new();
                let scopes = count(&term.bytes(), &mut 0, 0, 3, &mut lifted);
                assert_eq!(term.size(), lifted.len());
                assert_eq!(term.deepest_scope(7), 7 + scopes);
                assert_eq!(term.lift(3).bytes(), lifted);
                assert_eq!(term.lift(3).without(2), term.lift(2));
                assert_eq!(term.uses(1), term.lift(1).uses(2));
                if let Term::App(item) | Term::Abs(item) = &term {
                    let (inner, rest) = item.parts();
                    parts.extend([inner.clone(), rest.clone()]);
                }
            }
        }
    });
}

/// Reading and writing undo each other.
#[test]
fn bytes_and_terms() {
    on_large_stack(|| {
        let mut rng = Rng::new(12);
        for _ in 0..500 {
            let size = 2 * rng.below(300) + 1;
            let term = closed_term(&mut rng, size);
            assert_eq!(term.size(), size);
            let bytes = term.bytes();
            assert_eq!(bytes.len(), size);
            assert_eq!(read_term(&bytes), Ok(term));
        }
    });
}

/// What holds of every answer, and every number from 0 to 13 among them.
#[test]
fn random_files() {
    on_large_stack(|| {
        let mut rng = Rng::new(5);
        let mut seen = [0; 15];
        for _ in 0..2000 {
            let bytes = random_file(&mut rng);
            let a = check(&bytes);
            seen[usize::from(a.number)] += 1;
            let (number, place, part) = file_examined(&bytes);
            if (1..=6).contains(&a.number) {
                assert_eq!((number, place, part), (a.number, a.place, 0..0));
                assert_eq!((a.comparisons, a.degree), (0, 0));
                continue;
            }
            assert_eq!((number, place), (0, 0));
            let term = &bytes[part];
            assert_eq!(examined(term), (0, 0, a.degree));
            let groups = read_fields(&bytes).unwrap().groups.len();
            let applicators = term.iter().filter(|&&byte| byte == 0xfe).count();
            assert!(a.comparisons <= groups.min(applicators));
            match a.number {
                0 => assert_eq!((a.place, a.comparisons), (0, groups)),
                GROUPS_LEFT => assert_eq!(bytes[a.place], 2),
                OUTGROWN => assert!(a.place < term.len()),
                _ => assert_eq!(term[a.place], 0xfe),
            }
        }
        assert!(seen[..14].iter().all(|&n| n > 0), "{seen:?}");
        assert_eq!(seen[14], 0);
    });
}

/// Every sort of limit file has answers on both sides of its limit.
#[test]
fn limits() {
    on_large_stack(|| {
        let mut rng = Rng::new(6);
        for sort in 2..LIMIT_SORTS {
            let mut seen = [0; 15];
            for _ in 0..20 {
                seen[usize::from(check(&limit_file_of(&mut rng, sort)).number)] += 1;
            }
            match sort {
                2..=10 | 15..=20 => {
                    assert!(seen[11] > 0 && seen[11] < 20, "sort {sort}: {seen:?}");
                }
                21 => assert!(seen[6] > 0 && seen[6] < 20, "sort {sort}: {seen:?}"),
                11 | 13 => assert!(seen[4] > 0 && seen[4] < 20, "sort {sort}: {seen:?}"),
                _ => {}
            }
        }
    });
}

/// One seed, one file.
#[test]
fn the_seed_decides() {
    on_large_stack(|| {
        let (mut a, mut b) = (Rng::new(77), Rng::new(77));
        for _ in 0..50 {
            assert_eq!(random_file(&mut a), random_file(&mut b));
        }
    });
    // splitmix64's first numbers from 0 are known.
    let mut rng = Rng::new(0);
    assert_eq!(rng.next_u64(), 0xe220a8397b1dcdaf);
    assert_eq!(rng.next_u64(), 0x6e789e6aa1b965f4);
}
