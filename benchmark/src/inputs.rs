//! The inputs, made by code: the same bytes in every run.

use reference::file::Group;
use reference::frame::{apply, Entry, Frame, Reach, Step, LOCAL, REMOVAL, SUBSTITUTION};
use reference::gen::{self, empty_groups, times};
use reference::normaliser::{in_parts, meet, possible_steps, Manner, Reduction};
use reference::term::{abs, app, Term};
use reference::walk::walk_after;

/// What is called with an input: a file is checked, a bare term printed, the strings as long as the input counted, a set
/// checked, or its files one by one.
#[derive(Clone, Copy)]
pub enum Call {
    Check,
    Print,
    Count,
    Set,
    OneByOne,
}

pub struct Input {
    pub name: &'static str,
    pub what: &'static str,
    pub call: Call,
    /// The number of the answer: 0, or that of the refusal that the input is about.
    pub number: usize,
    pub make: fn() -> Vec<u8>,
}

const fn accepted(name: &'static str, what: &'static str, make: fn() -> Vec<u8>) -> Input {
    Input { name, what, call: Call::Check, number: 0, make }
}

const fn refused(name: &'static str, what: &'static str, number: usize, make: fn() -> Vec<u8>) -> Input {
    Input { name, what, call: Call::Check, number, make }
}

const fn printed(name: &'static str, what: &'static str, make: fn() -> Vec<u8>) -> Input {
    Input { name, what, call: Call::Print, number: 0, make }
}

const fn counted(name: &'static str, what: &'static str, make: fn() -> Vec<u8>) -> Input {
    Input { name, what, call: Call::Count, number: 0, make }
}

const fn shelved(name: &'static str, what: &'static str, call: Call) -> Input {
    Input { name, what, call, number: 0, make: shelf }
}

pub const ALL: [Input; 33] = [
    accepted("small", "small file (E3 of document 01)", small),
    accepted("book1", "book of 1 KB", || book(1023, 0, SHORT)),
    accepted("book2", "book of 2 KB", || book(2047, 0, SHORT)),
    accepted("book4", "book of 4 KB", || book(4095, 0, SHORT)),
    accepted("book6.6", "book, a file of 6.6 KB", || book(2310, 12, LONG)),
    accepted("steps65", "65 KB, mostly steps, bodies of 187 bytes", many_steps),
    accepted("steps4k", "20,000 steps all over bodies of 4 KB", steps_all_over),
    accepted("nestU", "2,047 deep in U", || gen::file(&gen::nested(2047), &[])),
    refused("nestK", "2,047 deep in K", 8, nested_k),
    accepted("nestKC", "2,000 deep in K, each compared", nested_compared),
    accepted("waiting", "963 waiting in 4 lists, all taken", waiting_lists),
    refused("waiting8", "1,790 waiting, 240 taken", 8, waiting_refused),
    accepted("runs", "long copied runs, up to 110 in Y", || copied_runs(110, 800)),
    accepted("(1)", "(1) 247 typings, 899 times", || chain_of_types(247, 899)),
    accepted("(2)", "(2) 220 pairs and an abstractor, 800 times", || used_pairs(220, 800)),
    accepted("(3)", "(3) to 4,096 bytes and back, near the front", || up_and_back(200, 40)),
    accepted("(4)", "(4) 1,500 bytes before 1,298 variables", long_declaration),
    accepted("(5)", "(5) 222 removals from the front of 4,000 bytes, 89 times", || front_removals(222, 89)),
    accepted("(6)", "(6) a chain of 120 names at the end of 4,000 bytes", || chain_at_end(120, 70, 2)),
    accepted("(7)", "(7) 512 comparisons of 1,021 bytes, no step", || long_bodies(511, 512)),
    accepted("whole", "book of relations, pairs by kind 3", || relations(Manner::Whole)),
    accepted("parts", "the same book, pairs by kinds 1 and 2", || relations(Manner::InParts)),
    accepted("(8)", "(8) 1,600 substitutions to 4,095 bytes", || substitutions(23, 177, 800)),
    accepted("(9)", "(9) 220 nested couples removed, from both ends, 40 times", || nested_removals(220, 40)),
    accepted("(10)", "(10) 200 nested couples by kind 3, or 1 and 2, 30 times", || nested_substitutions(200, 30)),
    accepted("(11)", "(11) 1,798 variables of degree 250, nested in U", || nested_variables(249, 1798)),
    printed("pageS", "page of a small term (E3 of document 01)", || E3.to_vec()),
    printed("pageB", "page of the book of 4 KB", || book_term(4095, 0).bytes()),
    printed("pageU", "page of 2,047 deep in U", || gen::nested(2047)),
    printed("page3", "page of 1,795 indices of three digits", long_indices),
    counted("count7", "count of the strings of 7 bytes", || vec![0; 7]),
    shelved("shelf", "shelf of 300 files, checked as a set", Call::Set),
    shelved("files", "the same 300 files, checked one by one", Call::OneByOne),
];

fn joined(parts: &[&[u8]]) -> Vec<u8> {
    parts.concat()
}

fn local(place: usize) -> Step {
    Step { kind: LOCAL, place }
}

fn removal(place: usize) -> Step {
    Step { kind: REMOVAL, place }
}

fn group(left: Vec<Step>, right: Vec<Step>) -> Group {
    Group { head: 0, left, right }
}

const E3: [u8; 13] = [0xff, 0, 0xff, 1, 0xfe, 2, 0xff, 0, 0xfe, 2, 0xff, 1, 1];

fn small() -> Vec<u8> {
    gen::file(&E3, &[group(vec![], vec![]), group(vec![], vec![local(0)])])
}

// ---- Books.

/// Reads `<K>`, `[x:U]`, `*` for tau, and names, with the names in scope.
fn read(text: &mut &[u8], scope: &mut Vec<String>) -> Term {
    if skip(text, b'*') {
        return Term::Tau;
    }
    if skip(text, b'<') {
        let k = read(text, scope);
        assert!(skip(text, b'>'));
        return app(k, read(text, scope));
    }
    if skip(text, b'[') {
        let name = read_name(text);
        assert!(skip(text, b':'));
        let u = read(text, scope);
        assert!(skip(text, b']'));
        scope.push(name);
        let rest = read(text, scope);
        scope.pop();
        return abs(u, rest);
    }
    let name = read_name(text);
    let outward = scope.iter().rev().position(|known| *known == name);
    Term::Var(1 + outward.expect("a name is in scope") as u64)
}

/// Whether this byte is next; then it is passed.
fn skip(text: &mut &[u8], byte: u8) -> bool {
    let next = text[0] == byte;
    *text = &text[usize::from(next)..];
    next
}

fn read_name(text: &mut &[u8]) -> String {
    let length = text.iter().take_while(|b| b.is_ascii_alphanumeric()).count();
    let name = String::from_utf8(text[..length].to_vec()).expect("ASCII");
    *text = &text[length..];
    name
}

/// A book of at most this many bytes: numbers, functions on them, and proofs by one lemma. Definitions, applications and
/// declarations in turn, with `primitive` declarations that apply nothing in each turn. The steps are those of an author.
fn book(bytes: usize, primitive: usize, effort: Effort) -> Vec<u8> {
    stepped(&book_term(bytes, primitive), |frame, type_of_k, u| {
        let left = reduce(frame, type_of_k, effort.names, Manner::InParts, last_name);
        let right = reduce(frame, u, effort.names, Manner::InParts, last_name);
        meet(&left, &right, effort.far).expect("the sides meet")
    })
}

fn book_term(bytes: usize, primitive: usize) -> Term {
    let mut text = String::from(
        "[nat:*][z:nat][s:[x:nat]nat][P:[x:nat]*][i:[x:nat][h:<x>P]<<x>s>P][b:<z>P]<z>[n0:nat]<b>[p0:<n0>P]",
    );
    for i in 1.. {
        let last = i - 1;
        let mut lines = vec![
            format!("<<n{last}>s>[n{i}:nat]"),
            format!("<<p{last}><n{last}>i>[p{i}:<n{i}>P]"),
            format!("<[x:nat]<<<x>s>s>s>[f{i}:[x:nat]nat]"),
            format!("<[x:nat][h:<x>P]<<<h><x>i><<x>s>i><<<x>s>s>i>[q{i}:[x:nat][h:<x>P]<<<<x>s>s>s>P]"),
            format!("<<n{i}>f{i}>[m{i}:nat]"),
            format!("<<p{i}><n{i}>q{i}>[r{i}:<m{i}>P]"),
            format!("[d{i}:[x:nat][y:nat][h:<x>P][g:<y>P]<<<<x>f{i}>f{i}>f{i}>P]"),
            format!("<[x:nat][h:<x>P]<<h><x>q{i}><<x>f{i}>q{i}>[t{i}:[x:nat][h:<x>P]<<<x>f{i}>f{i}>P]"),
        ];
        lines.extend((0..primitive).map(|j| format!("[c{i}x{j}:[x:nat][y:nat][k:[u:nat][v:nat]nat][l:[u:nat]nat]nat]")));
        for line in lines {
            let longer = format!("{text}{line}");
            let term = read_all(&longer);
            // Copied text needs some scopes more.
            if term.size() > bytes || term.deepest_scope(0) > 245 {
                return read_all(&text);
            }
            text = longer;
        }
    }
    unreachable!()
}

fn read_all(text: &str) -> Term {
    read(&mut format!("{text}*").as_bytes(), &mut Vec::new())
}

/// How an author reduces: how many names are replaced on each side in search of a form that both reach, and whether the first
/// such form is taken or the last.
#[derive(Clone, Copy)]
struct Effort {
    names: usize,
    far: bool,
}

const SHORT: Effort = Effort { names: 4, far: false };
const LONG: Effort = Effort { names: 9, far: true };

/// The file of a term, with the left and right steps found for each comparison.
fn stepped(term: &Term, find: impl Fn(&Frame, &Term, &Term) -> (Vec<Step>, Vec<Step>)) -> Vec<u8> {
    let mut groups = Vec::new();
    let (_, end) = walk_after(&Frame::new(), term, &mut |frame, type_of_k, u| {
        let (left, right) = find(frame, type_of_k, u);
        groups.push(group(left, right));
        groups.last().cloned()
    });
    assert!(end.is_ok(), "a book is correct");
    gen::file(&term.bytes(), &groups)
}

/// Which of the local steps through the frame is taken next.
type Name = fn(&Term, &[Step]) -> Option<Step>;

fn last_name(_: &Term, steps: &[Step]) -> Option<Step> {
    steps.last().copied()
}

/// The name defined last, in a body without abstractors.
fn newest_name(body: &Term, steps: &[Step]) -> Option<Step> {
    let bytes = body.bytes();
    steps.iter().copied().min_by_key(|step| bytes[step.place])
}

/// The body's own pairs first, then names.
fn reduce(frame: &Frame, body: &Term, names: usize, manner: Manner, name: Name) -> Reduction {
    let unnamed: Frame = frame.iter().map(|entry| Entry::Single(entry.u().clone())).collect();
    let mut reduction = Reduction { bodies: vec![body.clone()], steps: Vec::new() };
    let mut names = names;
    loop {
        let last = reduction.bodies.last().expect("there is a first body");
        let own = possible_steps(&unnamed, last, manner, Reach::Pairs);
        let step = match own.iter().find(|step| step.kind != LOCAL).or(own.first()) {
            Some(&step) => step,
            None => match name(last, &possible_steps(frame, last, manner, Reach::Pairs)) {
                Some(step) if names > 0 => {
                    names -= 1;
                    step
                }
                _ => return reduction,
            },
        };
        let next = apply(frame, last, step).expect("a possible step can be applied");
        reduction.bodies.push(next);
        reduction.steps.push(step);
    }
}

/// A book of numbers n and proofs of <n><n><n><n>R, each from the one before by one lemma: the type that the lemma gives begins
/// with a pair of eight uses. The pairs go whole, or each in its parts.
fn relations(manner: Manner) -> Vec<u8> {
    let of = |x: &str| format!("<{x}>").repeat(4);
    let mut text = String::from("[nat:*][z:nat][s:[x:nat]nat][R:[u:nat][v:nat][w:nat][x:nat]*]");
    text += &format!("[i:[x:nat][h:{}R]{}R][b:{}R]<z>[n0:nat]<b>[p0:{}R]", of("x"), of("<x>s"), of("z"), of("n0"));
    for (last, i) in (1..117).enumerate() {
        text += &format!("<<n{last}>s>[n{i}:nat]<<p{last}><n{last}>i>[p{i}:{}R]", of(&format!("n{i}")));
    }
    stepped(&read_all(&text), |frame, type_of_k, u| {
        let left = reduce(frame, type_of_k, SHORT.names, Manner::Whole, newest_name);
        let right = reduce(frame, u, SHORT.names, Manner::Whole, newest_name);
        let (left_steps, right_steps) = meet(&left, &right, false).expect("the sides meet");
        match manner {
            Manner::Whole => (left_steps, right_steps),
            Manner::InParts => (all_in_parts(&left, &left_steps), all_in_parts(&right, &right_steps)),
        }
    })
}

/// The first steps of a reduction with each substitution in its parts.
fn all_in_parts(reduction: &Reduction, steps: &[Step]) -> Vec<Step> {
    let each = reduction.bodies.iter().zip(steps).map(|(body, step)| match step.kind {
        SUBSTITUTION => in_parts(body, step.place).expect("there is a pair"),
        _ => vec![*step],
    });
    each.flatten().collect()
}

// ---- Steps.

/// A chain of 222 names, unfolded at each of its uses.
fn many_steps() -> Vec<u8> {
    let (term, groups) = gen::long_unfolding(222, 94);
    gen::file(&term, &groups)
}

/// As many uses of a variable, nested: [[[v]v]v]v.
fn uses_of(index: u8, uses: usize) -> Vec<u8> {
    let nest = uses - 1;
    joined(&[&vec![0xff; nest], &[index], &vec![index + 1; nest]])
}

/// A definition of type *, <<[N]x>[d:[N]*]x>[D:*], where x has this index outside.
fn big_definition(n: &[u8], x: u8) -> Vec<u8> {
    joined(&[&[0xfe, 0xfe, 0xff], n, &[x + 1, 0xff, 0xff], n, &[0, x + 1, 0xff, 0]])
}

/// Five names for x, a definition D with hundreds of uses of the last name, and [D][D][D]* compared with itself: D is unfolded,
/// then every name, from left to right, by five steps each, on both sides.
fn steps_all_over() -> Vec<u8> {
    const NAMES: usize = 5;
    const USES: usize = 335;
    let n = uses_of(1, USES);
    let d = big_definition(&n, NAMES as u8 + 1);
    let term = joined(&[
        &[0xff, 0],
        &times(NAMES, &[0xfe, 1, 0xff, 0]),
        &d,
        &[0xff, 0xff, 1, 0xff, 2, 0xff, 3, 0],
        &[0xfe, 1, 0xff, 0xff, 2, 0xff, 3, 0xff, 4, 0, 0],
    ]);
    let size = d.len() - 3;
    let mut steps: Vec<Step> = (0..3).map(|i| local(1 + i * (1 + size))).collect();
    for copy in 0..3 {
        let at = 1 + copy * (1 + size);
        for part in [at + 2, at + 2 + n.len() + 3] {
            for place in part + USES - 1..part + n.len() {
                steps.extend(vec![local(place); NAMES]);
            }
        }
    }
    let mut groups = empty_groups(NAMES);
    groups.push(group(vec![], vec![]));
    groups.push(group(vec![removal(0)], vec![]));
    groups.push(group(steps.clone(), steps));
    gen::file(&term, &groups)
}

/// A definition D of 1,081 bytes, and a type with `pairs` times <D>[*] before [D][D]*. Compared `count` times with [D][D]*: the
/// two last are unfolded, then each pair's D is unfolded and the pair removed, at places 1 and 0.
fn up_and_back(pairs: usize, count: usize) -> Vec<u8> {
    let n = gen::nested(268);
    let d = big_definition(&n, 1);
    let size = d.len() - 3;
    let mut term = joined(&[&[0xff, 0], &d, &[0xff]]);
    for i in 0..pairs {
        term.extend([0xfe, 1 + i as u8, 0xff, 0]);
    }
    term.extend([0xff, 1 + pairs as u8, 0xff, 2 + pairs as u8, 0]);
    for i in 0..count as u8 {
        term.extend([0xfe, 1 + i, 0xff, 0xff, 2 + i, 0xff, 3 + i, 0]);
    }
    term.push(0);
    let mut left = vec![local(4 * pairs + 1), local(4 * pairs + 2 + size)];
    for _ in 0..pairs {
        left.extend([local(1), removal(0)]);
    }
    let right = vec![local(1), local(2 + size)];
    let mut groups = vec![group(vec![], vec![]), group(vec![removal(0)], vec![])];
    groups.extend(empty_groups(pairs));
    for _ in 0..count {
        groups.push(group(left.clone(), right.clone()));
    }
    gen::file(&term, &groups)
}

/// [D][D][D], where D has this index outside.
fn three_of(d: u8) -> [u8; 6] {
    [0xff, d, 0xff, d + 1, 0xff, d + 2]
}

/// Unfolds the three, from place `at` on, where D is of `size` bytes.
fn unfold_three(at: usize, size: usize) -> Vec<Step> {
    (0..3).map(|i| local(at + 1 + i * (1 + size))).collect()
}

/// A definition D of 1,037 bytes, [a:[D][D][D]*][f:[x:U]*], where U has `pairs` times <p>[*] before [D][D][D]*, and
/// applications of f to a. The three are unfolded on both sides, on the right to 4,003 bytes; then the pairs are removed, each
/// at place 0.
fn front_removals(pairs: usize, count: usize) -> Vec<u8> {
    let d = big_definition(&uses_of(1, 258), 1);
    let size = d.len() - 3;
    let mut term = joined(&[&[0xff, 0], &d, &[0xff], &three_of(1), &[0, 0xff, 0xff]]);
    for i in 0..pairs {
        term.extend([0xfe, 3 + i as u8, 0xff, 0]);
    }
    term.extend(joined(&[&three_of(2 + pairs as u8), &[0, 0], &applications(2, 1, count)]));
    let mut right = unfold_three(4 * pairs, size);
    right.extend(vec![removal(0); pairs]);
    let mut groups = vec![group(vec![], vec![]), group(vec![removal(0)], vec![])];
    groups.extend(empty_groups(pairs));
    groups.extend(vec![group(unfold_three(0, size), right); count]);
    gen::file(&term, &groups)
}

/// A chain of names, p the first, a definition D of 1,285 bytes, [a:[D][D][D]V][f:[x:[D][D][D]Z]*], where V is `uses` uses of p
/// and Z as many of the last name, and applications of f to a. The three are unfolded on both sides, to 3,997 bytes; then each
/// name in Z is taken down to p.
fn chain_at_end(names: usize, uses: usize, count: usize) -> Vec<u8> {
    let last = names as u8;
    let d = big_definition(&uses_of(last + 1, 320), last + 1);
    let size = d.len() - 3;
    let term = joined(&[
        &[0xff, 0],
        &times(names, &[0xfe, 1, 0xff, 0]),
        &d,
        &joined(&[&[0xff], &three_of(1), &uses_of(last + 5, uses)]),
        &joined(&[&[0xff, 0xff], &three_of(2), &uses_of(6, uses), &[0]]),
        &applications(2, 1, count),
    ]);
    let mut right = unfold_three(0, size);
    let first = 3 * (1 + size) + uses - 1;
    for place in first..first + uses {
        right.extend(vec![local(place); names]);
    }
    let mut groups = empty_groups(names + 1);
    groups.push(group(vec![removal(0)], vec![]));
    groups.extend(vec![group(unfold_three(0, size), right); count]);
    gen::file(&term, &groups)
}

/// [x:*][a:T][f:[y:T]*] and applications of f to a, where T is <D>[d:E][d][d]..* with `copies` times d, and D = [N]x of `size`
/// bytes has the type E = [N]*. D is substituted on both sides.
fn substitutions(copies: usize, size: usize, count: usize) -> Vec<u8> {
    let n = gen::nested((size - 3) / 2);
    let t = |x: u8| {
        let mut bytes = joined(&[&[0xfe, 0xff], &n, &[x + 1, 0xff, 0xff], &n, &[0]]);
        for d in 1..=copies as u8 {
            bytes.extend([0xff, d]);
        }
        bytes.push(0);
        bytes
    };
    let term = joined(&[&[0xff, 0, 0xff], &t(1), &[0xff, 0xff], &t(2), &[0], &applications(2, 1, count)]);
    let steps = vec![Step { kind: SUBSTITUTION, place: 0 }];
    let mut groups = empty_groups(2);
    groups.extend(vec![group(steps.clone(), steps); count]);
    gen::file(&term, &groups)
}

/// [x:*][a:T][f:[y:T]*] and applications of f to a, where T is <x>..<x>[*]..[*]V, couples in each other, and V is given by the
/// index of x outside T. The steps on both sides of a comparison make one of them.
fn couples(n: usize, v: impl Fn(u8) -> Vec<u8>, left: Vec<Step>, right: Vec<Step>, count: usize) -> Vec<u8> {
    let t = |x: u8| joined(&[&times(n, &[0xfe, x]), &times(n, &[0xff, 0]), &v(x)]);
    let term = joined(&[&[0xff, 0, 0xff], &t(1), &[0xff, 0xff], &t(2), &[0], &applications(2, 1, count)]);
    let mut groups = empty_groups(2 * n);
    groups.extend(vec![group(left, right); count]);
    gen::file(&term, &groups)
}

/// V has 50 uses of x. The couples are removed on the left from the outside, on the right from the inside.
fn nested_removals(n: usize, count: usize) -> Vec<u8> {
    couples(n, |x| uses_of(n as u8 + x, 50), vec![removal(0); n], pair_removals(n), count)
}

/// V has a use of each couple. They are substituted on the left, from both ends in turn; on the right each is replaced, and then
/// the couples are removed from the outside.
fn nested_substitutions(n: usize, count: usize) -> Vec<u8> {
    let v = joined(&[&vec![0xff; n - 1], &[1], &(3..=n as u8 + 1).collect::<Vec<u8>>()]);
    let ends = (1..=n).rev().map(|left| if left % 2 == 0 { 0 } else { 2 * (left - 1) });
    let left = ends.map(|place| Step { kind: SUBSTITUTION, place }).collect();
    let first = 4 * n + n - 1;
    let right = (first..first + n).map(local).chain(vec![removal(0); n]).collect();
    couples(n, |_| v.clone(), left, right, count)
}

// ---- Nesting and waiting.

fn nested_k() -> Vec<u8> {
    gen::file(&joined(&[&[0xfe; 2047], &[0; 2048]]), &[])
}

/// [p:*][a:p][f:[x:p]p] and f of f of .. of a.
fn nested_compared() -> Vec<u8> {
    const DEEP: usize = 2000;
    let term = joined(&[&[0xff, 0, 0xff, 1, 0xff, 0xff, 2, 3], &[0xfe; DEEP], &[2], &[1; DEEP]]);
    // The inmost argument is a; each other has the type <K>[x:p]p.
    let mut groups = vec![group(vec![], vec![])];
    groups.extend(vec![group(vec![removal(0)], vec![]); DEEP - 1]);
    gen::file(&term, &groups)
}

/// [p:*][a:p] and four trains of 240 applicators <a>, then abstractors [p] that take them. Each train but the first is the last
/// applicator of the one outside it, so that four lists wait at once.
fn waiting_lists() -> Vec<u8> {
    const LISTS: usize = 4;
    const LENGTH: usize = 240;
    let mut term = vec![0xff, 0, 0xff, 1];
    for _ in 1..LISTS {
        term.extend(times(LENGTH, &[0xfe, 1]));
        term.push(0xfe);
    }
    term.extend(times(LENGTH, &[0xfe, 1]));
    for list in 0..LISTS {
        // Abstractors of p for those that wait, and one more where a list's result is the last argument.
        let taken = LENGTH + (list > 0) as usize;
        for i in 0..taken {
            term.extend([0xff, 2 + i as u8]);
        }
        term.push(1 + taken as u8);
    }
    let mut groups = Vec::new();
    for list in 0..LISTS {
        // The inner list's result, a after 240 pairs, is taken first; its type is that train before p.
        if list > 0 {
            let pairs = LENGTH + (list > 1) as usize;
            groups.push(group(pair_removals(pairs), vec![]));
        }
        groups.extend(empty_groups(LENGTH));
    }
    gen::file(&term, &groups)
}

/// Removes the pairs of <a>..<a>[p]..[p]: each time the inmost.
fn pair_removals(pairs: usize) -> Vec<Step> {
    (0..pairs).rev().map(|i| removal(2 * i)).collect()
}

/// [p:*][a:p], 1,790 times <a>, 240 times [p], and tau: something still waits.
fn waiting_refused() -> Vec<u8> {
    let mut term = joined(&[&[0xff, 0, 0xff, 1], &times(1790, &[0xfe, 1])]);
    for i in 0..240 {
        term.extend([0xff, 2 + i as u8]);
    }
    term.push(0);
    gen::file(&term, &empty_groups(240))
}

// ---- Copied text.

/// `uses` times <a>f, nested: [[<a>f]<a>f]<a>f, where a and f have these indices outside.
fn applications(a: u8, f: u8, uses: usize) -> Vec<u8> {
    let nest = uses - 1;
    joined(&[&vec![0xff; nest], &[0xfe, a, f], &times(nest, &[0xfe, a + 1, f + 1])])
}

/// [p:*][a:p], declarations, the first of [x:p]*, each other of the one before, and applications of the last to a.
fn chain_of_types(declarations: usize, uses: usize) -> Vec<u8> {
    let term = joined(&[
        &[0xff, 0, 0xff, 1, 0xff, 0xff, 2, 0],
        &times(declarations - 1, &[0xff, 1]),
        &applications(declarations as u8 + 1, 1, uses),
    ]);
    gen::file(&term, &empty_groups(uses))
}

/// [p:*][a:p][f:<a>..<a>[p]..[p]<a>..<a>[p]..[p][x:p]*], `long` times each, and applications of f to a.
fn copied_runs(long: usize, uses: usize) -> Vec<u8> {
    let mut term = vec![0xff, 0, 0xff, 1, 0xff];
    for passed in [0, long as u8] {
        term.extend(times(long, &[0xfe, 1 + passed]));
        for i in 0..long as u8 {
            term.extend([0xff, 2 + passed + i]);
        }
    }
    term.extend([0xff, 2 + 2 * long as u8, 0]);
    term.extend(applications(2, 1, uses));
    gen::file(&term, &empty_groups(2 * long + uses))
}

/// [p:*][a:p][f:<a>[p]<a>[p]..[x:p]*] and applications of f to a.
fn used_pairs(pairs: usize, uses: usize) -> Vec<u8> {
    let mut term = vec![0xff, 0, 0xff, 1, 0xff];
    for i in 0..pairs as u8 {
        term.extend([0xfe, 1 + i, 0xff, 2 + i]);
    }
    term.extend([0xff, 2 + pairs as u8, 0]);
    term.extend(applications(2, 1, uses));
    gen::file(&term, &empty_groups(pairs + uses))
}

/// [f:[N]*] of 1,500 bytes, and f as often as there is room.
fn long_declaration() -> Vec<u8> {
    let n = gen::nested(748);
    let uses = (4095 - n.len() - 3).div_ceil(2);
    let term = joined(&[&[0xff, 0xff], &n, &[0], &uses_of(1, uses)]);
    gen::file(&term, &[])
}

/// [p:*][a:N][f:[x:N]*], where N is uses of p, and applications of f to a.
fn long_bodies(uses: usize, count: usize) -> Vec<u8> {
    let n = |p| uses_of(p, uses);
    let term = joined(&[&[0xff, 0, 0xff], &n(1), &[0xff, 0xff], &n(2), &[0], &applications(2, 1, count)]);
    gen::file(&term, &empty_groups(count))
}

/// A chain of names, each of the type before it, and then `ff` as often as there are variables that mean the last of the chain: every
/// abstractor has one for its rest, and nothing waits.
fn nested_variables(chain: usize, variables: usize) -> Vec<u8> {
    let names = [vec![0xff, 0], [0xff, 1].repeat(chain - 1)].concat();
    let nested = [vec![0xff; variables], vec![0], vec![2; variables]].concat();
    gen::file(&joined(&[&names, &nested]), &[])
}

// ---- Pages.

/// Under 253 abstractors, applicators of the outer ones, to 4,095 bytes.
fn long_indices() -> Vec<u8> {
    let applicators = (0..1794).flat_map(|i| [0xfe, (100 + i * 5 % 154) as u8]).collect::<Vec<u8>>();
    joined(&[&times(253, &[0xff, 0]), &applicators, &[253]])
}

// ---- Sets.

/// Five small files in turn, E3 and books, of 31 to 560 bytes: 65,400 bytes.
fn shelf() -> Vec<u8> {
    let of_terms = |bytes: usize| book(bytes, 0, SHORT);
    let five = [small(), of_terms(45), of_terms(60), of_terms(80), of_terms(150)];
    times(60, &gen::set(&five))
}
