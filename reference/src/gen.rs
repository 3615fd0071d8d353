//! Random terms, files and sets: texts correct by construction, damaged files,
//! terms and files at the limits.

use crate::file::Group;
use crate::frame::{
    type_of, type_of_variable, Entry, Frame, Reach, Step, LOCAL, REMOVAL, SUBSTITUTION, UNMET,
};
use crate::ground::Side;
use crate::normaliser::{
    equivalent, groups_for, groups_with_stray_steps, groups_with_unmet_step, in_parts,
    possible_steps, reduce, substitutions, Manner, Order, Reduction,
};
use crate::rng::Rng;
use crate::set::MAX_SET_BYTES;
use crate::term::{abs, app, read_term, Term, Term::*};
use std::ops::Range;
use std::sync::OnceLock;

// ----------------------------------------------------------------- files

/// A field with its head; the length is cut to two bytes.
pub fn field(tag: u8, body: &[u8]) -> Vec<u8> {
    let length = body.len() as u16;
    let mut bytes = vec![tag];
    bytes.extend(length.to_be_bytes());
    bytes.extend(body);
    bytes
}

pub fn steps_bytes(steps: &[Step]) -> Vec<u8> {
    let mut bytes = Vec::new();
    for step in steps {
        bytes.push(step.kind);
        bytes.extend((step.place as u16).to_be_bytes());
    }
    bytes
}

/// The file with this term and these groups; their heads are ignored.
pub fn file(term: &[u8], groups: &[Group]) -> Vec<u8> {
    let mut bytes = field(1, term);
    for group in groups {
        bytes.extend(field(2, &steps_bytes(&group.left)));
        bytes.extend(field(3, &steps_bytes(&group.right)));
    }
    bytes
}

pub fn empty_groups(n: usize) -> Vec<Group> {
    vec![
        Group {
            head: 0,
            left: Vec::new(),
            right: Vec::new()
        };
        n
    ]
}

// ---------------------------------------------------------- closed terms

/// A closed term of this odd size, seldom correct.
pub fn closed_term(rng: &mut Rng, size: usize) -> Term {
    closed_after(rng, size, 0)
}

fn closed_after(rng: &mut Rng, size: usize, depth: u64) -> Term {
    if size == 1 {
        if depth == 0 || rng.below(4) == 0 {
            return Tau;
        }
        let reach = if rng.below(2) == 0 {
            depth.min(3)
        } else {
            depth
        };
        return Var(1 + rng.below(reach as usize) as u64);
    }
    // An odd size for the part inside the item; often a small one.
    let most = (size - 3) / 2;
    let half = if rng.below(3) == 0 {
        rng.between(0, most)
    } else {
        rng.between(0, most.min(2))
    };
    let inner = 2 * half + 1;
    let rest = size - 1 - inner;
    if depth < 250 && rng.below(3) > 0 {
        let u = closed_after(rng, inner, depth);
        abs(u, closed_after(rng, rest, depth + 1))
    } else {
        let k = closed_after(rng, inner, depth);
        app(k, closed_after(rng, rest, depth))
    }
}

/// A closed term with a pair whose variable is used all over the rest, seldom
/// or not at all.
fn pair_term(rng: &mut Rng) -> Term {
    let mut size = |most: usize| 2 * rng.below(most) + 1;
    let (of_k, of_u, of_rest) = (size(20), size(6), size(40));
    let depth = *rng.pick(&[0, 1, 2, 3, 240]);
    let k = closed_after(rng, of_k, depth);
    let u = closed_after(rng, of_u, depth);
    let rest = closed_after(rng, of_rest, depth + 1);
    let of_four = rng.below(5);
    let rest = with_uses(rng, &rest, 1, of_four);
    (0..depth).fold(app(k, abs(u, rest)), |rest, _| abs(Tau, rest))
}

/// The term with about so many of four variables put to `index`, as it would
/// stand before the term.
fn with_uses(rng: &mut Rng, term: &Term, index: u64, of_four: usize) -> Term {
    match term {
        Var(_) if rng.below(4) < of_four => Var(index),
        Tau | Var(_) => term.clone(),
        App(item) => {
            let (k, rest) = item.parts();
            let k = with_uses(rng, k, index, of_four);
            app(k, with_uses(rng, rest, index, of_four))
        }
        Abs(item) => {
            let (u, rest) = item.parts();
            let u = with_uses(rng, u, index, of_four);
            abs(u, with_uses(rng, rest, index + 1, of_four))
        }
    }
}

/// An item of a train by its sort alone.
#[derive(Clone, Copy, PartialEq, Eq, Debug)]
pub enum ItemKind {
    Applicator,
    Abstractor,
}

/// A word of so many couples, nested and side by side: with four of them, up to
/// six items stand between the two of a couple.
fn coupled_word(rng: &mut Rng, couples: usize) -> Vec<ItemKind> {
    if couples == 0 {
        return Vec::new();
    }
    let between = rng.below(couples);
    let mut word = vec![ItemKind::Applicator];
    word.extend(coupled_word(rng, between));
    word.push(ItemKind::Abstractor);
    word.extend(coupled_word(rng, couples - 1 - between));
    word
}

/// A word with one to four couples, sometimes unmatched abstractors and others
/// before them, and unmatched applicators and others after them.
fn train_word(rng: &mut Rng) -> Vec<ItemKind> {
    let mut word = Vec::new();
    for _ in 0..rng.below(3) {
        let couples = rng.below(2);
        word.extend(coupled_word(rng, couples));
        word.push(ItemKind::Abstractor);
    }
    let couples = rng.between(1, 4);
    word.extend(coupled_word(rng, couples));
    for _ in 0..rng.below(3) {
        word.push(ItemKind::Applicator);
        let couples = rng.below(2);
        word.extend(coupled_word(rng, couples));
    }
    word
}

/// A closed term with couples in its train, or in that of an item.
pub fn coupled_term(rng: &mut Rng) -> Term {
    let depth = *rng.pick(&[0, 1, 2, 3, 240]);
    let word = train_word(rng);
    let term = items_after(rng, &word, depth);
    (0..depth).fold(term, |rest, _| abs(Tau, rest))
}

/// A train of this word, with something small in its items and after them.
pub fn items_after(rng: &mut Rng, word: &[ItemKind], depth: u64) -> Term {
    let size = *rng.pick(&[1, 1, 1, 3, 5]);
    let Some((first, rest)) = word.split_first() else {
        return closed_after(rng, size, depth);
    };
    let inner = match rng.below(16) {
        0 => items_after(
            rng,
            &[
                ItemKind::Applicator,
                ItemKind::Applicator,
                ItemKind::Abstractor,
            ],
            depth,
        ),
        1 => {
            let word = coupled_word(rng, 2);
            items_after(rng, &word, depth)
        }
        _ => closed_after(rng, size, depth),
    };
    match first {
        ItemKind::Applicator => app(inner, items_after(rng, rest, depth)),
        ItemKind::Abstractor => abs(inner, items_after(rng, rest, depth + 1)),
    }
}

/// A bare term for the calls that take one: text, closed term, or damaged.
pub fn bare_term(rng: &mut Rng) -> Vec<u8> {
    match rng.below(13) {
        0..=3 => {
            let size = 2 * rng.below(40) + 1;
            closed_term(rng, size).bytes()
        }
        4..=6 => text(rng).bytes(),
        7 => {
            let mut bytes = text(rng).bytes();
            damage_bytes(rng, &mut bytes);
            bytes
        }
        8 => limit_term(rng),
        9 => pair_term(rng).bytes(),
        10..=11 => coupled_term(rng).bytes(),
        _ => (0..rng.below(8)).map(|_| odd_byte(rng)).collect(),
    }
}

/// A step for a bare term: a possible one, one near it, or any. For half of the
/// terms with a couple it is a substitution.
pub fn step_for(rng: &mut Rng, bytes: &[u8]) -> (u8, u16) {
    let steps = match read_term(bytes) {
        Ok(term) => match substitutions(&term) {
            whole if !whole.is_empty() && rng.below(2) == 0 => whole,
            _ => possible_steps(&Frame::new(), &term, Manner::InParts, Reach::Couples),
        },
        Err(_) => Vec::new(),
    };
    if steps.is_empty() || rng.below(4) == 0 {
        let kind = *rng.pick(&[0, 1, 2, 3, 4, 255]);
        let place = match rng.below(4) {
            0 => 65_535,
            1 => bytes.len() as u16,
            _ => rng.below(bytes.len() + 1) as u16,
        };
        return (kind, place);
    }
    let step = *rng.pick(&steps);
    match rng.below(10) {
        0 => (step.kind, step.place.wrapping_add(1) as u16),
        1 => (*rng.pick(&[1, 2, 3]), step.place as u16),
        _ => (step.kind, step.place as u16),
    }
}

/// A byte with the rare ones made common.
fn odd_byte(rng: &mut Rng) -> u8 {
    match rng.below(6) {
        0 => 0,
        1 => 1,
        2 => 2,
        3 => 0xfe,
        4 => 0xff,
        _ => rng.byte(),
    }
}

// ----------------------------------------------------------------- texts

/// A text correct by construction: declarations, definitions and
/// applications whose arguments fit.
pub fn text(rng: &mut Rng) -> Term {
    let lines = match rng.below(20) {
        0..=10 => rng.between(1, 5),
        11..=16 => rng.between(4, 12),
        17..=18 => rng.between(10, 25),
        _ => rng.between(20, 45),
    };
    Maker { rng }.text(lines)
}

/// A short text that ends in [z:T]⟨z⟩[T']τ, where T has couples and T' is
/// equivalent.
fn coupled_text(rng: &mut Rng) -> Term {
    let lines = rng.between(1, 4);
    let mut maker = Maker { rng };
    let mut frame = maker.frame(lines);
    let mut t = maker.term(&frame, 1);
    for _ in 0..maker.rng.between(1, 2) {
        t = maker.after_couples(&frame, t);
    }
    frame.push(Entry::Single(t.clone()));
    let mut other = t.lift(1);
    for _ in 0..maker.rng.between(1, 3) {
        other = match maker.rng.below(2) {
            0 => maker.disguise(&frame, other),
            _ => {
                let bodies = maker.reduced(&frame, &other).bodies;
                maker.rng.pick(&bodies).clone()
            }
        };
    }
    frame.push(Entry::Pair(Var(1), other));
    before(frame, Tau)
}

/// Texts are kept below these sizes.
const TEXT_BYTES: usize = 1500;
const LINE_BYTES: usize = 120;

struct Maker<'a> {
    rng: &'a mut Rng,
}

/// Declaration [U] or definition ⟨K⟩[U] at the top of a text.
type Line = Entry;

impl Maker<'_> {
    fn text(&mut self, lines: usize) -> Term {
        let frame = self.frame(lines);
        let end = self.term(&frame, 2);
        frame.into_iter().rev().fold(end, |rest, line| match line {
            Entry::Single(u) => abs(u, rest),
            Entry::Pair(k, u) => self.before_pair(k, u, rest),
        })
    }

    /// A first [τ] and so many lines after it, as far as there is room.
    fn frame(&mut self, lines: usize) -> Frame {
        self.with_lines(vec![Entry::Single(Tau)], lines)
    }

    /// The frame, which has an entry, and so many lines after it, as far as
    /// there is room.
    fn with_lines(&mut self, mut frame: Frame, lines: usize) -> Frame {
        let wanted = frame.len() + lines;
        let mut bytes = bytes_of(&frame);
        while frame.len() < wanted && bytes < TEXT_BYTES {
            let line = self.line(&frame);
            let size = line.u().size() + line.k().map_or(0, Term::size);
            if size <= LINE_BYTES {
                bytes += size + 2;
                frame.push(line);
            } else {
                frame.push(Entry::Single(Tau));
            }
        }
        frame
    }

    /// ⟨K⟩[U] and the rest. If the rest begins with an applicator that does not
    /// use the pair, this is sometimes put before it, so that it waits.
    fn before_pair(&mut self, k: Term, u: Term, rest: Term) -> Term {
        if let App(item) = &rest {
            let (first, after) = item.parts();
            if !first.uses(1) && self.rng.below(3) == 0 {
                return app(first.without(1), app(k, abs(u, after.clone())));
            }
        }
        app(k, abs(u, rest))
    }

    fn line(&mut self, frame: &Frame) -> Line {
        match self.rng.below(10) {
            0..=2 => Entry::Single(self.term(frame, 3)),
            3 => Entry::Single(self.product(frame)),
            4..=6 => match self.definition(frame, 2) {
                Some((k, u)) => Entry::Pair(k, u),
                None => Entry::Single(Tau),
            },
            _ => self.application_line(frame),
        }
    }

    /// Defines an application; declares what its argument needs if no
    /// argument is found.
    fn application_line(&mut self, frame: &Frame) -> Line {
        let head = Var(self.any_index(frame));
        let Some(domain) = domain(frame, &head) else {
            return Entry::Single(self.term(frame, 2));
        };
        match self.inhabitant(frame, &domain, 2) {
            None => Entry::Single(domain),
            Some(k) => {
                let spine = app(k, head);
                let spine = self.apply_more(frame, spine, 2);
                match self.defined(frame, spine) {
                    Some((k, u)) => Entry::Pair(k, u),
                    None => Entry::Single(Tau),
                }
            }
        }
    }

    fn any_index(&mut self, frame: &Frame) -> u64 {
        let reach = if self.rng.below(2) == 0 {
            frame.len().min(4)
        } else {
            frame.len()
        };
        1 + self.rng.below(reach) as u64
    }

    /// A correct term after the frame.
    fn term(&mut self, frame: &Frame, fuel: usize) -> Term {
        if frame.is_empty() || (fuel == 0 && self.rng.below(4) == 0) {
            return Tau;
        }
        if fuel == 0 {
            return Var(self.any_index(frame));
        }
        match self.rng.below(12) {
            0 => Tau,
            1..=3 => Var(self.any_index(frame)),
            4..=6 => {
                let u = self.term(frame, fuel - 1);
                let inner = extended(frame, Entry::Single(u.clone()));
                abs(u, self.term(&inner, fuel - 1))
            }
            7..=8 => match self.definition(frame, fuel - 1) {
                None => Tau,
                Some((k, u)) => {
                    let inner = extended(frame, Entry::Pair(k.clone(), u.clone()));
                    app(k, abs(u, self.term(&inner, fuel - 1)))
                }
            },
            _ => {
                let head = Var(self.any_index(frame));
                self.apply_more(frame, head, fuel - 1)
            }
        }
    }

    /// [A][B]...C with short parts, so that there is something to apply.
    fn product(&mut self, frame: &Frame) -> Term {
        let mut inner = frame.clone();
        let mut us = Vec::new();
        for _ in 0..self.rng.between(1, 3) {
            let u = self.term(&inner, 1);
            inner.push(Entry::Single(u.clone()));
            us.push(u);
        }
        let end = self.term(&inner, 1);
        us.into_iter().rev().fold(end, |rest, u| abs(u, rest))
    }

    /// Puts applicators that fit before a correct term.
    fn apply_more(&mut self, frame: &Frame, mut spine: Term, fuel: usize) -> Term {
        for _ in 0..3 {
            let Some(domain) = domain(frame, &spine) else {
                break;
            };
            if spine.size() + domain.size() > LINE_BYTES {
                break;
            }
            let Some(k) = self.inhabitant(frame, &domain, fuel) else {
                break;
            };
            spine = app(k, spine);
        }
        spine
    }

    /// So many applicators before the term, whether they fit or not.
    fn applied(&mut self, frame: &Frame, many: usize, term: Term) -> Term {
        (0..many).fold(term, |rest, _| app(self.term(frame, 0), rest))
    }

    fn definition(&mut self, frame: &Frame, fuel: usize) -> Option<(Term, Term)> {
        let k = self.term(frame, fuel);
        self.defined(frame, k)
    }

    /// The term with its type in some guise, if it has one.
    fn defined(&mut self, frame: &Frame, k: Term) -> Option<(Term, Term)> {
        let u = type_of(frame, &k)?;
        if u.size() > LINE_BYTES {
            return None;
        }
        let mut disguised = u;
        for _ in 0..self.rng.below(3) {
            disguised = self.disguise(frame, disguised);
        }
        Some((k, disguised))
    }

    fn reduced(&mut self, frame: &Frame, term: &Term) -> Reduction {
        let (order, manner) = (Order::RemovalFirst, Manner::InParts);
        reduce(frame, term, order, manner, Reach::Couples, self.rng)
    }

    /// Another correct term that is equivalent.
    fn disguise(&mut self, frame: &Frame, term: Term) -> Term {
        if term.size() > LINE_BYTES {
            return term;
        }
        match self.rng.below(8) {
            0 => {
                // Somewhere on the way to its normal form.
                let bodies = self.reduced(frame, &term).bodies;
                self.rng.pick(&bodies).clone()
            }
            1 => {
                // After a definition of no use.
                let k = Var(self.any_index(frame));
                let u = type_of(frame, &k).expect("a variable has a type");
                app(k, abs(u, term.lift(1)))
            }
            2 => match type_of(frame, &term) {
                // As the defined variable itself.
                Some(u) if u.size() <= LINE_BYTES => app(term, abs(u, Var(1))),
                _ => term,
            },
            3 => {
                // With a definition of its own for a variable.
                let index = self.any_index(frame);
                let k = match frame[frame.len() - index as usize].k() {
                    Some(k) if self.rng.below(2) == 0 => k.lift(index),
                    _ => Var(index),
                };
                match type_of(frame, &k) {
                    Some(u) if u.size() <= LINE_BYTES => {
                        let named = self.fold(&term.lift(1), &Var(index + 1), 1);
                        app(k, abs(u, named))
                    }
                    _ => term,
                }
            }
            4 => self.after_couples(frame, term),
            _ => {
                // With the name of a definition for its K.
                let index = self.any_index(frame);
                match frame[frame.len() - index as usize].k() {
                    Some(k) => self.fold(&term, &k.lift(index), index),
                    None => term,
                }
            }
        }
    }

    /// The term with couples put into its train, after some of its applicators,
    /// and sometimes with the names that they define.
    fn after_couples(&mut self, frame: &Frame, term: Term) -> Term {
        if let App(item) = &term {
            if self.rng.below(2) == 0 {
                let (k, rest) = item.parts();
                return app(k.clone(), self.after_couples(frame, rest.clone()));
            }
        }
        let couples = self.rng.between(1, 4);
        let word = coupled_word(self.rng, couples);
        self.after_word(&mut frame.clone(), &word, &mut Vec::new(), term)
    }

    /// The term after a coupled word, made of definitions. `waiting` has those
    /// whose abstractor is due, as they stand after the frame.
    fn after_word(
        &mut self,
        frame: &mut Frame,
        word: &[ItemKind],
        waiting: &mut Vec<(Term, Term)>,
        term: Term,
    ) -> Term {
        let Some((first, word)) = word.split_first() else {
            return term;
        };
        match first {
            ItemKind::Applicator => {
                let (k, u) = match self.definition(frame, 1) {
                    Some(definition) => definition,
                    None => {
                        let k = Var(self.any_index(frame));
                        let u = type_of(frame, &k).expect("a variable has a type");
                        (k, u)
                    }
                };
                waiting.push((k.clone(), u));
                app(k, self.after_word(frame, word, waiting, term))
            }
            ItemKind::Abstractor => {
                let (k, u) = waiting.pop().expect("the word is coupled");
                let named = self.fold(&term.lift(1), &k.lift(1), 1);
                frame.push(Entry::Pair(k, u.clone()));
                for (k, u) in waiting.iter_mut() {
                    (*k, *u) = (k.lift(1), u.lift(1));
                }
                abs(u, self.after_word(frame, word, waiting, named))
            }
        }
    }

    /// Puts `index` for occurrences of `k`, both as they stand before `term`.
    fn fold(&mut self, term: &Term, k: &Term, index: u64) -> Term {
        if term == k && self.rng.below(3) > 0 {
            return Var(index);
        }
        match term {
            Tau | Var(_) => term.clone(),
            App(item) => {
                let (inner, rest) = item.parts();
                let inner = self.fold(inner, k, index);
                app(inner, self.fold(rest, k, index))
            }
            Abs(item) => {
                let (inner, rest) = item.parts();
                let inner = self.fold(inner, k, index);
                abs(inner, self.fold(rest, &k.lift(1), index + 1))
            }
        }
    }

    /// A correct term with this type, if one is found soon.
    fn inhabitant(&mut self, frame: &Frame, wanted: &Term, fuel: usize) -> Option<Term> {
        let goal = self.reduced(frame, wanted);
        let first = self.rng.below(frame.len().max(1));
        for i in 0..frame.len() {
            let index = 1 + ((first + i) % frame.len()) as u64;
            let own = type_of_variable(frame, index);
            if equivalent(frame, &own, &goal, self.rng) {
                return Some(Var(index));
            }
        }
        if fuel == 0 {
            return None;
        }
        match wanted {
            Abs(item) => {
                let (u, rest) = item.parts();
                let inner = extended(frame, Entry::Single(u.clone()));
                let k = self.inhabitant(&inner, rest, fuel - 1)?;
                return Some(abs(u.clone(), k));
            }
            App(item) => {
                let (k, rest) = item.parts();
                if let Abs(next) = rest {
                    let (u, rest) = next.parts();
                    let inner = extended(frame, Entry::Pair(k.clone(), u.clone()));
                    let inside = self.inhabitant(&inner, rest, fuel - 1)?;
                    return Some(app(k.clone(), abs(u.clone(), inside)));
                }
            }
            _ => {}
        }
        for _ in 0..3 {
            let head = Var(self.any_index(frame));
            let spine = self.apply_more(frame, head, fuel - 1);
            let own = type_of(frame, &spine)?;
            if equivalent(frame, &own, &goal, self.rng) {
                return Some(spine);
            }
        }
        None
    }
}

/// Correct lines to stand after the frame: at most so many, and at least one,
/// or a first [τ] more if the frame is empty.
pub fn lines_after(rng: &mut Rng, frame: &Frame, lines: usize) -> Frame {
    let mut maker = Maker { rng };
    let mut all = match frame.is_empty() {
        true => maker.frame(lines),
        false => maker.with_lines(frame.clone(), lines),
    };
    let mut new = all.split_off(frame.len());
    if new.is_empty() {
        new.push(Entry::Single(Tau));
    }
    new
}

/// A correct term of this type after the frame, if the frame is small and one
/// is found soon.
pub fn term_of_type(rng: &mut Rng, frame: &Frame, wanted: &Term) -> Option<Term> {
    if frame.is_empty() || bytes_of(frame) + wanted.size() > TEXT_BYTES {
        return None;
    }
    Maker { rng }.inhabitant(frame, wanted, 2)
}

fn extended(frame: &Frame, entry: Entry) -> Frame {
    let mut frame = frame.clone();
    frame.push(entry);
    frame
}

/// The entries as items before the term.
pub fn before(entries: Frame, term: Term) -> Term {
    entries
        .into_iter()
        .rev()
        .fold(term, |rest, entry| match entry {
            Entry::Single(u) => abs(u, rest),
            Entry::Pair(k, u) => app(k, abs(u, rest)),
        })
}

/// The bytes of the entries as items.
pub fn bytes_of(entries: &Frame) -> usize {
    before(entries.clone(), Tau).size() - 1
}

/// What the next applicator before `spine` must fit: the U of the first
/// abstractor for which nothing waits, after the pairs passed on the way.
pub fn domain(frame: &Frame, spine: &Term) -> Option<Term> {
    let mut r = frame.clone();
    let mut waiting: Vec<Term> = Vec::new();
    let mut b = spine.clone();
    loop {
        match &b {
            Tau => return None,
            Var(index) => b = type_of_variable(&r, *index),
            App(item) => {
                let (k, rest) = item.parts();
                waiting.push(k.clone());
                b = rest.clone();
            }
            Abs(item) => {
                let (u, rest) = item.parts();
                match waiting.pop() {
                    Some(k) => {
                        r.push(Entry::Pair(k, u.clone()));
                        waiting = waiting.iter().map(|k| k.lift(1)).collect();
                        b = rest.clone();
                    }
                    None => {
                        let passed = r.split_off(frame.len());
                        return Some(before(passed, u.clone()));
                    }
                }
            }
        }
        if r.len() > 200 || b.size() > 1000 {
            return None;
        }
    }
}

// ---------------------------------------------------------------- damage

/// Changes, drops, inserts or repeats bytes, or cuts the end off.
pub fn damage_bytes(rng: &mut Rng, bytes: &mut Vec<u8>) {
    for _ in 0..rng.between(1, 2) {
        if bytes.is_empty() {
            bytes.push(odd_byte(rng));
            continue;
        }
        let at = rng.below(bytes.len());
        match rng.below(7) {
            0 => bytes[at] = odd_byte(rng),
            1 => bytes[at] = bytes[at].wrapping_add(1),
            2 => bytes[at] = bytes[at].wrapping_sub(1),
            3 => {
                bytes.remove(at);
            }
            4 => bytes.insert(at, odd_byte(rng)),
            5 => bytes.truncate(at),
            _ => {
                let end = rng.between(at, bytes.len().min(at + 6));
                let again = bytes[at..end].to_vec();
                bytes.splice(at..at, again);
            }
        }
    }
}

/// Swaps, drops, adds or turns round groups; drops, repeats or changes steps.
pub fn damage_groups(rng: &mut Rng, groups: &mut Vec<Group>) {
    if groups.is_empty() {
        groups.extend(empty_groups(1));
        return;
    }
    let n = groups.len();
    let with_steps: Vec<usize> = (0..n)
        .filter(|&i| !groups[i].left.is_empty() || !groups[i].right.is_empty())
        .collect();
    let at = if with_steps.is_empty() || rng.below(4) == 0 {
        rng.below(n)
    } else {
        *rng.pick(&with_steps)
    };
    match rng.below(12) {
        0 => groups.swap(at, rng.below(n)),
        1 => {
            groups.remove(at);
        }
        2 => groups.truncate(at),
        3 => {
            let again = groups[at].clone();
            groups.insert(at, again);
        }
        4 => groups.extend(empty_groups(rng.between(1, 3))),
        5 => {
            let group = &mut groups[at];
            std::mem::swap(&mut group.left, &mut group.right);
        }
        choice => {
            let group = &mut groups[at];
            let steps = if group.right.is_empty() || (!group.left.is_empty() && rng.below(2) == 0) {
                &mut group.left
            } else {
                &mut group.right
            };
            if steps.is_empty() {
                let kind = *rng.pick(&[0, LOCAL, REMOVAL, SUBSTITUTION, 4]);
                steps.push(Step {
                    kind,
                    place: rng.below(12),
                });
                return;
            }
            let i = rng.below(steps.len());
            match choice {
                6 => {
                    steps.remove(i);
                }
                7 => {
                    let again = steps[i];
                    steps.insert(i, again);
                }
                8 => steps[i].place = steps[i].place.wrapping_add(1) & 0xffff,
                9 => steps[i].place = steps[i].place.wrapping_sub(1) & 0xffff,
                10 => steps[i].kind = *rng.pick(&[0, 1, 2, 3, 4, 255]),
                _ => {
                    let other = rng.below(steps.len());
                    steps.swap(i, other);
                }
            }
        }
    }
}

// ---------------------------------------------------------------- limits

/// `n` abstractors nested inside each other's U: ff ... ff 00 ... 00, of size
/// 2n + 1, with no place in more than one scope.
pub fn nested(n: usize) -> Vec<u8> {
    let mut bytes = vec![0xff; n];
    bytes.extend(vec![0; n + 1]);
    bytes
}

/// `n` times these bytes.
pub fn times(n: usize, bytes: &[u8]) -> Vec<u8> {
    bytes.repeat(n)
}

fn joined(parts: &[&[u8]]) -> Vec<u8> {
    parts.concat()
}

/// A bare term at a limit.
pub fn limit_term(rng: &mut Rng) -> Vec<u8> {
    match rng.below(13) {
        // About 4,096 bytes: a train, a nest.
        0 => {
            let item = *rng.pick(&[0xfe, 0xff]);
            let mut bytes = if rng.below(2) == 0 {
                joined(&[&times(2047, &[0xfe, 0]), &[0]])
            } else {
                joined(&[&vec![item; 2047], &[0; 2048]])
            };
            bytes.resize(rng.between(4093, 4099), 0);
            bytes
        }
        // About 253 abstractors in scope, at the top or inside.
        1 => deep_train(rng),
        // A type of about 4,096 bytes: [V]1.
        2 => {
            let n = rng.between(1020, 1026);
            joined(&[&[0xff], &nested(n), &[1]])
        }
        // A type with about 253 in scope: [m abstractors] n abstractors, variable.
        3 => {
            let m = rng.between(1, 250);
            let n = (253 - m) - rng.below(3).min(252 - m);
            joined(&[
                &[0xff],
                &times(m, &[0xff, 0]),
                &[0],
                &times(n.saturating_sub(1), &[0xff, 0]),
                &[n.max(1) as u8],
            ])
        }
        // A step to about 4,096 bytes: ⟨K⟩[τ] and uses, steps done by the caller.
        4 => {
            let n = rng.between(1015, 1030);
            joined(&[
                &[0xfe],
                &nested(n),
                &[0xff, 0],
                &[0xff, 1],
                &nested(n - 2),
                &[0],
            ])
        }
        // A step with about 253 in scope: ⟨K⟩[τ] n abstractors, use. A
        // substitution has one fewer than the local step.
        5 => {
            let m = rng.between(1, 250);
            let n = (252 - m) + rng.between(0, 2);
            joined(&[
                &[0xfe],
                &times(m, &[0xff, 0]),
                &[0, 0xff, 0],
                &times(n, &[0xff, 0]),
                &[n as u8 + 1],
            ])
        }
        // A high degree.
        6 => {
            let n = rng.between(1, 2047);
            joined(&[&vec![0xff; n], &[0], &vec![1; n]])
        }
        // A substitution to about 4,096 bytes: ⟨[V]v⟩[τ] and uses, each a U or a
        // K, where v means [V] or a [τ] before. The form on the way is longer.
        7 => {
            let (copies, size) = *rng.pick(&[(23, 177), (89, 45), (22, 185), (66, 61), (16, 255)]);
            let uses = match rng.below(2) {
                0 => abstracted(1, copies),
                _ => times(copies, &[0xfe, 1]),
            };
            let before = rng.below(2);
            joined(&[
                &times(before, &[0xff, 0]),
                &[0xfe, 0xff],
                &nested((size - 3) / 2),
                &[1 + before as u8, 0xff, 0],
                &uses,
                &[0],
            ])
        }
        // A substitution of a large K, or at many uses, to many more bytes.
        8 => {
            let size = 2 * rng.between(0, 1000) + 1;
            let uses = (4095 - 4 - size) / 2;
            let uses = rng.between(0, uses.min(20_000 / size));
            joined(&[
                &[0xfe],
                &closed_term(rng, size).bytes(),
                &[0xff, 0],
                &times(uses, &[0xfe, 1]),
                &[1],
            ])
        }
        // A step over a couple to about 4,096 bytes: ⟨K⟩, couples, [τ] and uses.
        9 => {
            let n = rng.between(1000, 1030);
            let couples = rng.below(8);
            joined(&[
                &[0xfe],
                &nested(n),
                &nested_couples(couples),
                &[0xff, 0],
                &[0xff, 1],
                &nested(n - 2 - 2 * couples),
                &[0],
            ])
        }
        // A step over a couple with about 253 in scope: ⟨m abstractors⟩, couples,
        // [τ], n abstractors, use.
        10 => {
            let m = rng.between(1, 200);
            let couples = rng.between(1, 252 - m);
            let n = (252 - m - couples) + rng.between(0, 2);
            joined(&[
                &[0xfe],
                &times(m, &[0xff, 0]),
                &[0],
                &nested_couples(couples),
                &[0xff, 0],
                &times(n, &[0xff, 0]),
                &[n as u8 + 1],
            ])
        }
        // About 253 couples in a train, nested or side by side, after a [τ].
        11 => {
            let n = rng.between(1, 253);
            let couples = match rng.below(2) {
                0 => nested_couples(n),
                _ => times(n, &[0xfe, 1, 0xff, 0]),
            };
            joined(&[
                &[0xff, 0],
                &couples,
                &[rng.between(1, n + 1).min(253) as u8],
            ])
        }
        _ => {
            let size = 2 * rng.between(200, 2047) + 1;
            closed_term(rng, size).bytes()
        }
    }
}

/// So many couples nested in each other: ⟨τ⟩..⟨τ⟩[τ]..[τ].
pub fn nested_couples(n: usize) -> Vec<u8> {
    joined(&[&times(n, &[0xfe, 0]), &times(n, &[0xff, 0])])
}

/// About 253 abstractors in a train, with a variable or τ at its end; bare,
/// inside a K or inside a U.
fn deep_train(rng: &mut Rng) -> Vec<u8> {
    let n = rng.between(252, 255);
    let deep = joined(&[&times(n, &[0xff, 0]), &[*rng.pick(&[0, 1, 252, 253])]]);
    match rng.below(3) {
        0 => deep,
        1 => joined(&[&[0xfe], &deep, &[0]]),
        _ => joined(&[&[0xff], &deep, &[0]]),
    }
}

/// [d][d].. with so many times d, which has this index before them.
fn abstracted(first: u8, copies: usize) -> Vec<u8> {
    (0..copies as u8).flat_map(|i| [0xff, first + i]).collect()
}

/// How many sorts of files at a limit there are.
pub const LIMIT_SORTS: usize = 22;

/// A file at a limit.
pub fn limit_file(rng: &mut Rng) -> Vec<u8> {
    let sort = rng.below(LIMIT_SORTS);
    limit_file_of(rng, sort)
}

/// A file at a limit, of this sort.
pub fn limit_file_of(rng: &mut Rng, sort: usize) -> Vec<u8> {
    match sort {
        0 | 1 => {
            let term = limit_term(rng);
            let groups = if rng.below(2) == 0 {
                empty_groups(rng.below(3))
            } else {
                Vec::new()
            };
            file(&term, &groups)
        }
        // State over the bytes: [[V]1]1 has V three times in its last state,
        // 6n + 7 bytes; declarations before it make up about 8,191.
        2 => {
            let n = rng.between(1300, 1363);
            let before = (8191 - (6 * n + 7)) / 2 + rng.below(2);
            let term = joined(&[
                &times(before, &[0xff, 0]),
                &[0xff, 0xff],
                &nested(n),
                &[1, 1],
            ]);
            file(&term, &[])
        }
        // The same in a longer chain of typings.
        3 => {
            let n = rng.between(84, 94);
            file(&joined(&[&vec![0xff; n], &[0], &vec![1; n]]), &[])
        }
        // State over the scopes in copied B: as example 11.
        4 => {
            let m = rng.between(1, 251);
            let n = 253 - m - rng.below(2);
            let term = joined(&[
                &[0xff],
                &times(m, &[0xff, 0]),
                &[0],
                &times(n, &[0xff, 0]),
                &[n as u8 + 1],
            ]);
            file(&term, &[])
        }
        // Scopes outgrown in W: a deep K waits while pairs are passed.
        5 => {
            let m = rng.between(1, 249);
            let n = 251 - m + rng.below(3);
            let term = joined(&[
                &[0xff, 0, 0xfe],
                &times(m, &[0xff, 0]),
                &[1],
                &times(n, &[0xfe, 1, 0xff, 0]),
                &[0xff],
                &times(m.min(252 - n), &[0xff, 0]),
                &[0],
                &[1],
            ]);
            with_groups(rng, &term, n + 1)
        }
        // Scopes outgrown in Y: a copied K with m abstractors waits while copied
        // pairs are passed; its U is a name, so that B is not as deep.
        6 => {
            let m = rng.between(20, 100);
            let pairs = rng.between(3, 60);
            let deep = times(m, &[0xff, 0]);
            // [x:τ][y:x]⟨[..m..]x⟩[D:[..m..]τ]
            let names = joined(&[
                &[0xff, 0, 0xff, 1, 0xfe],
                &deep,
                &[m as u8 + 2, 0xff],
                &deep,
                &[0],
            ]);
            // ⟨[..m..]y⟩ pairs [D] τ
            let block = joined(&[
                &[0xfe],
                &deep,
                &[m as u8 + 2, 0xfe, 3, 0xff, 0],
                &times(pairs - 1, &[0xfe, 1, 0xff, 0]),
                &[0xff, pairs as u8 + 1, 0],
            ]);
            let more = 249 - m - pairs + rng.below(2);
            let term = joined(&[
                &names,
                &[0xff],
                &block,
                &times(more, &[0xff, 0]),
                &[more as u8 + 1],
            ]);
            let mut groups = empty_groups(pairs + 2);
            groups[pairs + 1].right.push(Step {
                kind: LOCAL,
                place: 0,
            });
            file(&term, &groups)
        }
        // Compared body over the bytes by the type of K: ⟨[V]1⟩[τ].
        7 => {
            let n = rng.between(1019, 1026);
            let term = joined(&[&[0xfe, 0xff], &nested(n), &[1, 0xff, 0, 0]]);
            file(&term, &empty_groups(rng.below(3)))
        }
        // Compared body over the scopes by the type of K, which waits while
        // pairs are passed: [d abstractors, the first with m in its U]
        // ⟨[n abstractors] variable⟩, pairs, [U].
        8 => {
            let d = rng.between(2, 60);
            let m = rng.between(1, 60);
            let n = rng.between(1, 60);
            let pairs = 252 - d - m - n + rng.below(3);
            let u = if pairs + d + n + m <= 253 {
                n + m
            } else {
                rng.below(2)
            };
            let term = joined(&[
                &[0xff],
                &times(m, &[0xff, 0]),
                &[0],
                &times(d - 1, &[0xff, 0]),
                &[0xfe],
                &times(n, &[0xff, 0]),
                &[(d + n) as u8],
                &times(pairs, &[0xfe, 1, 0xff, 0]),
                &[0xff],
                &times(u, &[0xff, 0]),
                &[0, 0],
            ]);
            with_groups(rng, &term, pairs + 1)
        }
        // Compared body over the bytes by a step: 23 copies of 177 bytes make
        // 4,095, 16 of 255 make 4,097, others lie near.
        9 => {
            let (copies, size) = *rng.pick(&[(23, 177), (16, 255), (3, 1363), (3, 1365), (7, 583)]);
            let (term, mut groups) = stepped_copies(copies, size);
            if rng.below(8) == 0 {
                damage_groups(rng, &mut groups);
            }
            file(&term, &groups)
        }
        // Compared body over the scopes by a step: a definition of type τ with a
        // pair of m abstractors inside, used under n.
        10 => {
            let m = rng.between(1, 120);
            let n = 249 - m + rng.below(3);
            let deep = times(m, &[0xff, 0]);
            let under = |index: usize| joined(&[&times(n, &[0xff, 0]), &[index as u8]]);
            // [x:τ]⟨⟨[..m..]x⟩[[..m..]τ]x⟩[D:τ][z:[..n..]D]⟨z⟩[[..n..]D]τ
            let term = joined(&[
                &[0xff, 0, 0xfe, 0xfe],
                &deep,
                &[m as u8 + 1, 0xff],
                &deep,
                &[0, 2, 0xff, 0, 0xff],
                &under(n + 1),
                &[0xfe, 1, 0xff],
                &under(n + 2),
                &[0],
            ]);
            let step = vec![Step {
                kind: LOCAL,
                place: 2 * n,
            }];
            let mut groups = empty_groups(3);
            groups[1].left.push(Step {
                kind: REMOVAL,
                place: 0,
            });
            groups[2].left = step.clone();
            groups[2].right = step;
            file(&term, &groups)
        }
        // About 65,535 bytes of file, with groups to spare or just enough.
        11 => {
            let n = rng.between(10_919, 10_922);
            let mut bytes = joined(&[&field(1, &[0]), &times(n, &[2, 0, 0, 3, 0, 0])]);
            if rng.below(2) == 0 {
                bytes.resize(rng.between(65_530, 65_537), *rng.pick(&[0, 2]));
            }
            bytes
        }
        // Many comparisons, about the number of groups.
        12 => {
            let n = rng.between(1, 252);
            let term = joined(&[&[0xff, 0], &times(n, &[0xfe, 1, 0xff, 0]), &[1]]);
            with_groups(rng, &term, n)
        }
        // A term field of about 4,096 bytes, at the length's own limits.
        13 => {
            let length = *rng.pick(&[4094, 4095, 4096, 4097, 5000, 65_532]);
            let fill = *rng.pick(&[0, 0xfe, 0xff]);
            let mut term = vec![fill; length];
            if fill != 0 && rng.below(2) == 0 {
                let half = (length - 1) / 2;
                for byte in &mut term[half..] {
                    *byte = 0;
                }
            }
            file(&term, &[])
        }
        // A long group of steps, none of which can be applied, or all.
        14 => {
            if rng.below(2) == 0 {
                let n = rng.between(1, 21_000);
                let step = if rng.below(2) == 0 {
                    [1, 0, 0]
                } else {
                    [2, 255, 255]
                };
                let mut bytes = field(1, &[0xff, 0, 0xff, 1, 0xfe, 1, 0xff, 2, 1]);
                bytes.extend(field(2, &times(n, &step)));
                bytes.extend(field(3, &[]));
                return bytes;
            }
            let chain = rng.between(1, 230);
            // Seldom as many steps as the file can hold.
            let most = if rng.below(10) == 0 { 60 } else { 6 };
            let uses = rng.between(1, 21_700 / chain).min(most);
            let (term, mut groups) = long_unfolding(chain, uses);
            match rng.below(6) {
                0 => {
                    groups[chain].left.pop();
                }
                1 => groups[chain].left.push(Step {
                    kind: LOCAL,
                    place: uses - 1,
                }),
                _ => {}
            }
            file(&term, &groups)
        }
        // State over the bytes with a copied pair: [V][⟨1⟩[V]1]1 where V is [X]1
        // has 5 times X in its last state, 10n + 21 bytes.
        15 => {
            let n = rng.between(780, 816);
            let before = (8191 - (10 * n + 21)) / 2 + rng.below(2);
            let v = joined(&[&[0xff], &nested(n), &[1]]);
            let term = joined(&[
                &times(before, &[0xff, 0]),
                &[0xff],
                &v,
                &[0xff, 0xfe, 1, 0xff],
                &v,
                &[1, 1],
            ]);
            file(&term, &empty_groups(1))
        }
        // State over the bytes with something in R, W, Y and B.
        16 => {
            let n = rng.between(509, 670);
            let k = (8172 - 3 * (4 * n + 11) - 1) / 2 + rng.below(2);
            let (term, groups) = all_four(n, k);
            file(&term, &groups)
        }
        // Compared body over the bytes by a substitution, or on its way only: 23
        // copies of 177 bytes make 4,095, 16 of 255 make 4,097, others lie near.
        17 => {
            let (copies, size) = *rng.pick(&[(23, 177), (89, 45), (22, 185), (16, 255), (7, 583)]);
            let (term, groups) = substituted_copies(copies, size);
            substituted_file(rng, &term, groups)
        }
        // Compared body over the scopes by a substitution, or on its way only.
        18 => {
            let m = rng.between(3, 120);
            let n = 250 - m + rng.below(3);
            let (term, groups) = substituted_scopes(m, n);
            substituted_file(rng, &term, groups)
        }
        // The same two over couples, with others nested between.
        19 => {
            let (copies, size, between) = *rng.pick(&[
                (5, 817, 1),
                (33, 123, 1),
                (29, 139, 8),
                (62, 65, 1),
                (63, 63, 16),
            ]);
            let (term, groups) = coupled_copies(copies, size, between);
            substituted_file(rng, &term, groups)
        }
        20 => {
            let m = rng.between(3, 60);
            let between = rng.between(1, 100);
            let n = 250 - m - between + rng.below(3);
            let (term, groups) = coupled_scopes(m, n, between);
            substituted_file(rng, &term, groups)
        }
        // About 253 abstractors in the term itself.
        _ => file(&deep_train(rng), &[]),
    }
}

/// [a:τ][d:[τ]τ][f:⟨a⟩⟨d⟩[V]1]⟨K⟩f where K is nested k deep, and
/// V = ⟨[N]a⟩[[N]τ][τ]τ, with N nested n deep, is [τ]τ after a removal. When
/// f's last variable is typed R has V twice, W has K, Y has a, and B is V:
/// 3 (4n + 11) + (2k + 1) + 19 bytes. K still waits at τ.
pub fn all_four(n: usize, k: usize) -> (Vec<u8>, Vec<Group>) {
    let v = joined(&[
        &[0xfe, 0xff],
        &nested(n),
        &[3, 0xff, 0xff],
        &nested(n),
        &[0, 0xff, 0, 0],
    ]);
    let term = joined(&[
        &[0xff, 0, 0xff, 0xff, 0, 0, 0xff, 0xfe, 2, 0xfe, 1, 0xff],
        &v,
        &[1, 0xfe],
        &nested(k),
        &[1],
    ]);
    let mut groups = empty_groups(3);
    groups[1].right.push(Step {
        kind: REMOVAL,
        place: 0,
    });
    (term, groups)
}

/// The term with `n` empty groups, sometimes one fewer or more.
fn with_groups(rng: &mut Rng, term: &[u8], n: usize) -> Vec<u8> {
    let n = match rng.below(6) {
        0 => n - 1,
        1 => n + 1,
        _ => n,
    };
    file(term, &empty_groups(n))
}

/// Under [x:τ] a definition D = [V]x of `size` bytes with type [V]τ, a
/// declaration of [D][D]...τ with `copies` times D, and a definition of the
/// same type; every D is replaced on both sides.
pub fn stepped_copies(copies: usize, size: usize) -> (Vec<u8>, Vec<Group>) {
    let v = nested((size - 3) / 2);
    let uses = |first: u8| joined(&[&abstracted(first, copies), &[0]]);
    let term = joined(&[
        &[0xff, 0, 0xfe, 0xff],
        &v,
        &[2, 0xff, 0xff],
        &v,
        &[0, 0xff],
        &uses(1),
        &[0xfe, 1, 0xff],
        &uses(2),
        &[1],
    ]);
    let steps: Vec<Step> = (0..copies)
        .map(|i| Step {
            kind: LOCAL,
            place: 1 + i * (size + 1),
        })
        .collect();
    let mut groups = empty_groups(2);
    groups[1].left = steps.clone();
    groups[1].right = steps;
    (term, groups)
}

/// Under [x:τ] a declaration of ⟨D⟩[E][d][d]..τ with `copies` times the pair's
/// variable d, where D = [V]x of `size` bytes has the type E = [V]τ, and a
/// definition of the same type; D is substituted on both sides.
pub fn substituted_copies(copies: usize, size: usize) -> (Vec<u8>, Vec<Group>) {
    coupled_copies(copies, size, 0)
}

/// The same with so many nested couples ⟨x⟩..[τ].. between ⟨D⟩ and [E].
pub fn coupled_copies(copies: usize, size: usize, between: usize) -> (Vec<u8>, Vec<Group>) {
    let v = nested((size - 3) / 2);
    let declared = |x: u8| {
        joined(&[
            &[0xfe, 0xff],
            &v,
            &[x + 1],
            &times(between, &[0xfe, x]),
            &times(between, &[0xff, 0]),
            &[0xff, 0xff],
            &v,
            &[0],
            &abstracted(1, copies),
            &[0],
        ])
    };
    let mut groups = empty_groups(2 * (between + 1));
    groups.push(both(SUBSTITUTION));
    (declared_and_defined(declared), groups)
}

/// Under [x:τ] a declaration of ⟨D⟩[τ] n abstractors and the pair's variable,
/// where D = ⟨m abstractors, x⟩[m abstractors, τ]x is of type τ after a removal,
/// and a definition of the same type; D is substituted on both sides, to
/// 2 + m + n scopes.
pub fn substituted_scopes(m: usize, n: usize) -> (Vec<u8>, Vec<Group>) {
    coupled_scopes(m, n, 0)
}

/// The same with so many nested couples ⟨x⟩..[τ].. between ⟨D⟩ and [τ]: as many
/// scopes more.
pub fn coupled_scopes(m: usize, n: usize, between: usize) -> (Vec<u8>, Vec<Group>) {
    let deep = times(m, &[0xff, 0]);
    let declared = |x: u8| {
        joined(&[
            &[0xfe, 0xfe],
            &deep,
            &[m as u8 + x, 0xff],
            &deep,
            &[0, x + 1],
            &times(between, &[0xfe, x]),
            &times(between, &[0xff, 0]),
            &[0xff, 0],
            &times(n, &[0xff, 0]),
            &[n as u8 + 1],
        ])
    };
    let mut of_declared = empty_groups(between + 2);
    of_declared[between + 1].left = both(REMOVAL).left;
    let groups = [of_declared.clone(), of_declared, vec![both(SUBSTITUTION)]].concat();
    (declared_and_defined(declared), groups)
}

/// [x:τ][z:T]⟨z⟩[T]τ, where T is given by the index of x before it.
fn declared_and_defined(t: impl Fn(u8) -> Vec<u8>) -> Vec<u8> {
    joined(&[&[0xff, 0, 0xff], &t(1), &[0xfe, 1, 0xff], &t(2), &[0]])
}

/// A step of this kind at the first byte of both sides.
fn both(kind: u8) -> Group {
    let step = vec![Step { kind, place: 0 }];
    Group {
        head: 0,
        left: step.clone(),
        right: step,
    }
}

/// The file of [x:τ][z:T]⟨z⟩[T]τ, whose last group has the substitution at T's
/// first byte; sometimes one side has it in parts, or a group is damaged.
fn substituted_file(rng: &mut Rng, term: &[u8], mut groups: Vec<Group>) -> Vec<u8> {
    let parts = match read_term(term) {
        Ok(Abs(x)) => match x.parts().1 {
            Abs(z) => in_parts(z.parts().0, 0),
            _ => None,
        },
        _ => None,
    };
    let parts = parts.expect("T begins with a couple");
    let last = groups.len() - 1;
    match rng.below(8) {
        0 => groups[last].left = parts,
        1 => groups[last].right = parts,
        2 => damage_groups(rng, &mut groups),
        _ => {}
    }
    file(term, &groups)
}

/// Under [x:τ] a chain of definitions, each a name for the one before, a
/// declaration of a type with `uses` times the last name, and a definition of
/// that type with x for the name: `chain` times `uses` left steps.
pub fn long_unfolding(chain: usize, uses: usize) -> (Vec<u8>, Vec<Group>) {
    let nest = uses - 1;
    let with_name = |index: u8| joined(&[&vec![0xff; nest], &[index], &vec![index + 1; nest]]);
    let term = joined(&[
        &[0xff, 0],
        &times(chain, &[0xfe, 1, 0xff, 0]),
        &[0xff],
        &with_name(1),
        &[0xfe, 1, 0xff],
        &with_name(chain as u8 + 2),
        &[1],
    ]);
    let mut groups = empty_groups(chain + 1);
    for place in nest..=2 * nest {
        groups[chain]
            .left
            .extend(vec![Step { kind: LOCAL, place }; chain]);
    }
    (term, groups)
}

// ------------------------------------------------------------- all files

/// A random file of any sort.
pub fn random_file(rng: &mut Rng) -> Vec<u8> {
    match rng.below(100) {
        0..=4 => {
            let term = coupled_text(rng);
            let mut groups = groups_for(&term, rng);
            if rng.below(4) == 0 {
                damage_groups(rng, &mut groups);
            }
            file(&term.bytes(), &groups)
        }
        5..=39 => {
            let term = text(rng);
            let groups = groups_for(&term, rng);
            file(&term.bytes(), &groups)
        }
        40..=57 => {
            let term = text(rng);
            if rng.below(4) == 0 {
                let groups = groups_with_stray_steps(&term, rng);
                return file(&term.bytes(), &groups);
            }
            let mut groups = groups_for(&term, rng);
            for _ in 0..rng.between(1, 2) {
                damage_groups(rng, &mut groups);
            }
            file(&term.bytes(), &groups)
        }
        58..=67 => {
            // A damaged term that may still be one, with groups of its own.
            let mut bytes = text(rng).bytes();
            if rng.below(3) == 0 {
                damage_bytes(rng, &mut bytes);
            } else {
                let at = rng.below(bytes.len());
                bytes[at] = match bytes[at] {
                    0xfe => 0xff,
                    0xff => 0xfe,
                    0 => 1 + rng.below(3) as u8,
                    _ => rng.below(4) as u8,
                };
            }
            let groups = match read_term(&bytes) {
                Ok(term) => groups_for(&term, rng),
                Err(_) => empty_groups(rng.below(3)),
            };
            file(&bytes, &groups)
        }
        68..=77 => {
            let term = text(rng);
            let groups = groups_for(&term, rng);
            let mut bytes = file(&term.bytes(), &groups);
            damage_bytes(rng, &mut bytes);
            bytes
        }
        78..=84 => {
            let size = 2 * rng.below(30) + 1;
            let term = closed_term(rng, size);
            let groups = groups_for(&term, rng);
            file(&term.bytes(), &groups)
        }
        85..=96 => limit_file(rng),
        _ => {
            let mut bytes: Vec<u8> = (0..rng.below(24)).map(|_| odd_byte(rng)).collect();
            if rng.below(2) == 0 {
                bytes.splice(0..0, [1, 0, rng.below(12) as u8]);
            }
            bytes
        }
    }
}

/// A small file that mostly stops with 8, 10 or 12.
pub fn stopped_file(rng: &mut Rng) -> Vec<u8> {
    let (term, groups) = match rng.below(8) {
        // Something waits.
        0 => {
            let term = waiting_text(rng);
            let groups = groups_for(&term, rng);
            (term, groups)
        }
        // A side's last steps are missing.
        1..=2 => {
            let term = coupled_text(rng);
            let mut groups = groups_for(&term, rng);
            let lists = groups
                .iter_mut()
                .flat_map(|group| [&mut group.left, &mut group.right]);
            let mut lists: Vec<_> = lists.filter(|steps| !steps.is_empty()).collect();
            if !lists.is_empty() {
                let at = rng.below(lists.len());
                let left = rng.below(lists[at].len());
                lists[at].truncate(left);
            }
            (term, groups)
        }
        // A step cannot be applied.
        _ => {
            let term = coupled_text(rng);
            let side = *rng.pick(&[Side::Left, Side::Right]);
            let unmet = *rng.pick(&UNMET);
            let groups = groups_with_unmet_step(&term, side, unmet, rng);
            (term, groups)
        }
    };
    file(&term.bytes(), &groups)
}

/// A short text that ends in applicators that wait, before τ or a variable; or
/// that has these in a K, before which others wait.
fn waiting_text(rng: &mut Rng) -> Term {
    let lines = rng.between(1, 4);
    let mut maker = Maker { rng };
    let frame = maker.frame(lines);
    let many = match maker.rng.below(8) {
        0 => maker.rng.between(20, 300),
        _ => maker.rng.between(1, 6),
    };
    let end = maker.term(&frame, 0);
    let waiting = maker.applied(&frame, many, end);
    let term = match maker.rng.below(2) {
        0 => waiting,
        _ => {
            let before = maker.rng.below(4);
            maker.applied(&frame, before, app(waiting, Tau))
        }
    };
    before(frame, term)
}

// ------------------------------------------------------------------ sets

/// The set of these files.
pub fn set<F: AsRef<[u8]>>(files: &[F]) -> Vec<u8> {
    files
        .iter()
        .flat_map(|file| field(5, file.as_ref()))
        .collect()
}

/// Small files.
pub struct Shelf {
    /// Of different degrees, with no comparison, one, or more.
    pub accepted: Vec<Vec<u8>>,
    /// With every number from 1 to 13, in this order, from 7 on also after a
    /// comparison.
    pub refused: Vec<Vec<u8>>,
}

/// [a:τ][x:a]⟨x⟩[y:a]y.
const ONE_PAIR: [u8; 9] = [0xff, 0, 0xff, 1, 0xfe, 1, 0xff, 2, 1];
/// [a:τ][x:a]⟨a⟩[b:τ]⟨x⟩[y:b]y: the second pair needs a right step.
const TWO_PAIRS: [u8; 13] = [0xff, 0, 0xff, 1, 0xfe, 2, 0xff, 0, 0xfe, 2, 0xff, 1, 1];

pub fn shelf() -> &'static Shelf {
    static SHELF: OnceLock<Shelf> = OnceLock::new();
    SHELF.get_or_init(|| {
        let plain = |term: &[u8], groups: usize| file(term, &empty_groups(groups));
        let last_right = |term: &[u8], groups: usize, kind: u8| {
            let mut groups = empty_groups(groups);
            if let Some(last) = groups.last_mut() {
                last.right.push(Step { kind, place: 0 });
            }
            file(term, &groups)
        };
        // [τ], so many times ⟨1⟩[τ], and the end.
        let pairs = |n: usize, end: &[u8]| {
            let term = joined(&[&[0xff, 0], &times(n, &[0xfe, 1, 0xff, 0]), end]);
            plain(&term, n)
        };
        let deep = |n: usize, end: u8| joined(&[&times(n, &[0xff, 0]), &[end]]);
        Shelf {
            accepted: vec![
                plain(&[0], 0),
                plain(&[0xff, 0, 1], 0),
                plain(&ONE_PAIR, 1),
                last_right(&TWO_PAIRS, 2, LOCAL),
                plain(&[0xff, 0, 0xff, 0xff, 1, 2, 0xff, 2, 0xfe, 1, 2], 1),
                pairs(5, &[1]),
                plain(&nested(20), 0),
            ],
            refused: vec![
                vec![],
                vec![1, 0, 2, 0],
                vec![2, 0, 0],
                set(&[plain(&[0], 0)]),
                plain(&[0xff, 0], 0),
                plain(&[0; 4097], 0),
                plain(&[0xff, 0, 2], 0),
                plain(&deep(254, 0), 0),
                plain(&[0xfe, 0, 0xff, 0, 0], 0),
                pairs(4, &[0xfe, 0, 0xff, 0, 0]),
                plain(&[0xfe, 0, 0], 0),
                pairs(2, &[0xfe, 1, 0]),
                plain(&ONE_PAIR, 0),
                plain(&TWO_PAIRS, 1),
                last_right(&ONE_PAIR, 1, 9),
                last_right(&TWO_PAIRS, 2, 9),
                plain(&joined(&[&[0xff, 0xff, 0, 0], &deep(252, 0xfd)]), 0),
                pairs(3, &joined(&[&[0xff, 0xff, 0, 0], &deep(248, 0xf9)])),
                plain(&[0xff, 0, 0xff, 1, 0xfe, 1, 0xff, 0, 1], 1),
                plain(&TWO_PAIRS, 2),
                plain(&[0], 1),
                plain(&ONE_PAIR, 2),
            ],
        }
    })
}

/// Files of nested terms that make a set of so many bytes; at least 14.
pub fn files_for(mut bytes: usize) -> Vec<Vec<u8>> {
    // A field is 7 bytes with τ, and 2 more for each time that it is nested.
    let most = 7 + 2 * 2047;
    let mut files = Vec::new();
    while bytes > 0 {
        let size = match bytes {
            _ if bytes > most + 14 => most,
            _ if bytes.is_multiple_of(2) || bytes > most => 7,
            _ => bytes,
        };
        files.push(file(&nested((size - 7) / 2), &[]));
        bytes -= size;
    }
    files
}

/// A random set, in which this file may stand: mostly small files of the shelf,
/// of which some may be refused; sometimes damaged, seldom about as long as a
/// set can be.
pub fn random_set(rng: &mut Rng, own: &[u8]) -> Vec<u8> {
    let shelf = shelf();
    let many = match rng.below(40) {
        0..=25 => rng.between(1, 5),
        26..=37 => rng.between(6, 20),
        38 => rng.between(21, 300),
        _ => rng.below(2),
    };
    let mut files: Vec<&[u8]> = (0..many).map(|_| &rng.pick(&shelf.accepted)[..]).collect();
    let refused = match rng.below(3) {
        0 => rng.between(1, 3).min(many),
        _ => 0,
    };
    for _ in 0..refused {
        files[rng.below(many)] = &rng.pick(&shelf.refused)[..];
    }
    if rng.below(4) == 0 {
        files.insert(rng.below(many + 1), own);
    }
    let mut bytes = set(&files);
    if rng.below(200) == 0 && bytes.len() < 60_000 {
        let about = rng.between(MAX_SET_BYTES - 2, MAX_SET_BYTES + 2);
        bytes.extend(set(&files_for(about - bytes.len())));
    }
    if rng.below(3) == 0 {
        damage_set(rng, &mut bytes);
    }
    bytes
}

/// Cuts the set, changes a head or any byte, or puts something after it.
fn damage_set(rng: &mut Rng, set: &mut Vec<u8>) {
    let fields = fields_of(set);
    let head = match fields.is_empty() {
        true => 0,
        false => rng.pick(&fields).start,
    };
    match rng.below(6) {
        0 => set.truncate(rng.below(set.len() + 1)),
        1 => set.truncate(head + rng.below(4)),
        2 if !fields.is_empty() => set[head] = *rng.pick(&[0, 1, 2, 3, 4, 6, 255]),
        3 if !fields.is_empty() => {
            let low = &mut set[head + 2];
            *low = *rng.pick(&[
                low.wrapping_add(1),
                low.wrapping_sub(1),
                low.wrapping_add(7),
            ]);
        }
        4 if !set.is_empty() => {
            let at = rng.below(set.len());
            set[at] = odd_byte(rng);
        }
        _ => {
            let more = rng.between(1, 4);
            set.extend((0..more).map(|_| *rng.pick(&[0, 0, 1, 5, 6])));
        }
    }
}

/// Where the whole fields are, heads included, whatever their tags.
pub fn fields_of(set: &[u8]) -> Vec<Range<usize>> {
    let mut fields = Vec::new();
    let mut head = 0;
    while let Some(&[_, high, low]) = set.get(head..head + 3) {
        let end = head + 3 + usize::from(u16::from_be_bytes([high, low]));
        if end > set.len() {
            break;
        }
        fields.push(head..end);
        head = end;
    }
    fields
}
