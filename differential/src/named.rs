//! Document 01's examples, the readings of kind 3, of printing, of counting, of couples, of sets and of explaining, and inputs just
//! within a limit and just beyond it, each with its answer written out.
//!
//! Every state's size is odd: an item counts 1 and a term, whose size is odd. So 8,192 bytes is no state's size, and 8,191 and
//! 8,193 are the neighbours of that limit; 4,095 and 4,097 those of a compared body's. While B is the term's own text, R, W and
//! B are parts of that text, so a state outgrows the bytes in copied text only. A U by itself never outgrows: its bytes are
//! those of a term, and its scopes were tested with the state before.

use crate::call::{Call, Kind};
use reference::file::Group;
use reference::frame::{Step, LOCAL, REMOVAL, SUBSTITUTION};
use reference::gen::{all_four, coupled_copies, coupled_scopes, empty_groups, field, file, files_for, long_unfolding, nested};
use reference::gen::{nested_couples, set, shelf, stepped_copies, substituted_copies, substituted_scopes, times};
use reference::rng::Rng;
use std::collections::BTreeSet;

pub struct Named {
    pub name: &'static str,
    pub call: Call,
    /// The file number, for a set.
    pub file: Option<u64>,
    /// What is expected; none for the answer 'none'.
    pub numbers: Option<[u64; 4]>,
    /// The last four numbers of explaining.
    pub ground: Option<[u64; 4]>,
    /// What the call writes at the start of each lent buffer, where it is written out here: nothing at a refusal.
    pub written: Option<Vec<Vec<u8>>>,
}

/// The four numbers of a check.
type Numbers = (u64, usize, u64, u64);

struct Table(Vec<Named>);

impl Table {
    fn add(&mut self, name: &'static str, call: Call, numbers: Option<[u64; 4]>) -> &mut Named {
        self.0.push(Named { name, call, file: None, numbers, ground: None, written: None });
        self.0.last_mut().expect("just added")
    }

    fn check(&mut self, name: &'static str, file: Vec<u8>, (number, place, comparisons, degree): Numbers) {
        self.add(name, Call::new(Kind::Check, &file), Some([number, place as u64, comparisons, degree]));
    }

    /// Examining a file: number, place, and the part's start and end.
    fn examine(&mut self, name: &'static str, file: &[u8], numbers: [u64; 4]) {
        self.add(name, Call::new(Kind::File, file), Some(numbers));
    }

    /// Counting: number, accepted, refused 3, refused 5.
    fn count(&mut self, name: &'static str, length: usize, numbers: [u64; 4]) {
        self.add(name, Call::new(Kind::Count(length), &[]), Some(numbers));
    }

    /// A set: the file number, and the four numbers.
    fn set(&mut self, name: &'static str, set: &[u8], file: u64, (number, place, comparisons, degree): Numbers) {
        let numbers = Some([number, place as u64, comparisons, degree]);
        self.add(name, Call::new(Kind::Set, set), numbers).file = Some(file);
    }

    /// Explaining, with buffers of these lengths: the four numbers and three more. Nothing is written.
    fn explain(&mut self, name: &'static str, file: &[u8], lent: [usize; 2], numbers: Numbers, [a, b, c]: [u64; 3]) -> &mut Named {
        let (number, place, comparisons, degree) = numbers;
        let call = Call::explaining(file, lent, &mut Rng::new(0));
        let named = self.add(name, call, Some([number, place as u64, comparisons, degree]));
        named.ground = Some([a, b, c, 0]);
        named.written = Some(Vec::new());
        named
    }

    /// The same with buffers that have room for something, and with empty ones.
    fn ground(&mut self, name: &'static str, file: &[u8], numbers: Numbers, ground: [u64; 3]) {
        for lent in [[20, 30], [0, 0]] {
            self.explain(name, file, lent, numbers, ground);
        }
    }

    /// An explained 12: place, comparisons and degree, the two bodies, and where they differ. The buffers have all lengths about
    /// those of the bodies, so that there is 14 too.
    fn bodies(&mut self, name: &'static str, file: &[u8], check: (usize, u64, u64), bodies: [&[u8]; 2], difference: u64) {
        let (place, comparisons, degree) = check;
        let [m, n] = bodies.map(<[u8]>::len);
        let about = |length: usize| BTreeSet::from([0, length - 1, length, length + 1, 5_000]);
        for (l, r) in about(m).into_iter().flat_map(|l| about(n).into_iter().map(move |r| (l, r))) {
            if l < m || r < n {
                self.explain(name, file, [l, r], (14, 0, comparisons, degree), [0; 3]);
            } else {
                let ground = [m as u64, n as u64, difference];
                let named = self.explain(name, file, [l, r], (12, place, comparisons, degree), ground);
                named.written = Some(bodies.map(<[u8]>::to_vec).to_vec());
            }
        }
    }

    /// A file with empty groups.
    fn plain(&mut self, name: &'static str, term: &[u8], groups: usize, numbers: Numbers) {
        self.check(name, file(term, &empty_groups(groups)), numbers);
    }

    /// A call on a bare term, with a buffer of this length: number, place, and degree or length.
    fn bare(&mut self, name: &'static str, kind: Kind, term: &[u8], lent: usize, numbers: Option<(u64, usize, u64)>) {
        let numbers = numbers.map(|(number, place, third)| [number, place as u64, third, 0]);
        let accepted = numbers.is_some_and(|numbers| numbers[0] == 0);
        let call = Call::lending(kind, term, lent, &mut Rng::new(0));
        self.add(name, call, numbers).written = (!accepted).then(Vec::new);
    }

    /// The same with the result written out; it is accepted.
    fn result(&mut self, name: &'static str, kind: Kind, term: &[u8], lent: usize, written: &[u8]) {
        self.bare(name, kind, term, lent, Some((0, 0, written.len() as u64)));
        self.0.last_mut().expect("just added").written = Some(vec![written.to_vec()]);
    }
}

fn joined(parts: &[&[u8]]) -> Vec<u8> {
    parts.concat()
}

/// `n` times [τ].
fn declarations(n: usize) -> Vec<u8> {
    times(n, &[0xff, 0])
}

fn local(place: usize) -> Vec<Step> {
    vec![Step { kind: LOCAL, place }]
}

fn removal(place: usize) -> Vec<Step> {
    vec![Step { kind: REMOVAL, place }]
}

fn whole(place: usize) -> Vec<Step> {
    vec![Step { kind: SUBSTITUTION, place }]
}

fn group(left: Vec<Step>, right: Vec<Step>) -> Group {
    Group { head: 0, left, right }
}

fn no_steps() -> Group {
    group(Vec::new(), Vec::new())
}

pub fn named() -> Vec<Named> {
    let mut table = Table(Vec::new());
    conditions(&mut table);
    examples(&mut table);
    files(&mut table);
    terms(&mut table);
    scopes(&mut table);
    overwritten(&mut table);
    states(&mut table);
    bodies(&mut table);
    places(&mut table);
    frame_pairs(&mut table);
    bare(&mut table);
    substitutions(&mut table);
    substitutions_in_files(&mut table);
    pages(&mut table);
    counts(&mut table);
    couples(&mut table);
    wagons_between(&mut table);
    couples_at_limits(&mut table);
    couples_in_files(&mut table);
    sets(&mut table);
    explained(&mut table);
    explained_steps(&mut table);
    explained_waiting(&mut table);
    explained_bodies(&mut table);
    in_front(&mut table);
    table.0
}

/// Document 01's table of conditions, in its order.
fn conditions(t: &mut Table) {
    let applied = [0xff, 0, 0xff, 1, 0xfe, 1, 0xff, 2, 1];
    t.check("condition 1", vec![1, 0, 2, 0], (1, 0, 0, 0));
    t.check("condition 2", vec![2, 0, 0], (2, 0, 0, 0));
    t.plain("condition 3", &[0xff, 0], 0, (3, 2, 0, 0));
    t.plain("condition 4", &times(4_097, &[0]), 0, (4, 0, 0, 0));
    t.plain("condition 5", &[1], 0, (5, 0, 0, 0));
    t.plain("condition 6", &joined(&[&declarations(254), &[0]]), 0, (6, 506, 0, 0));
    t.plain("condition 7", &[0xfe, 0, 0xff, 0, 0], 0, (7, 0, 0, 1));
    t.plain("condition 8", &[0xfe, 0, 0], 0, (8, 0, 0, 1));
    t.plain("condition 9", &applied, 0, (9, 4, 0, 3));
    t.check("condition 10", file(&applied, &[group(vec![Step { kind: 9, place: 0 }], vec![])]), (10, 4, 0, 3));
    t.plain("condition 11", &joined(&[&[0xff, 0xff, 0, 0], &declarations(252), &[0xfd]]), 0, (11, 508, 0, 2));
    t.plain("condition 12", &[0xff, 0, 0xff, 1, 0xfe, 1, 0xff, 0, 1], 1, (12, 4, 0, 2));
    t.plain("condition 13", &[0], 1, (13, 4, 0, 1));
    t.bare("condition 14", Kind::Type, &[0xff, 0, 1], 2, Some((14, 0, 0)));
}

/// E1 to E5, and types and steps on small terms with what they write.
fn examples(t: &mut Table) {
    use Kind::{Step as At, Term, Type};
    let e1 = [0xff, 0, 0xff, 1, 1];
    let e2 = [0xff, 0, 0xff, 1, 0xfe, 1, 0xff, 2, 1];
    let e3 = [0xff, 0, 0xff, 1, 0xfe, 2, 0xff, 0, 0xfe, 2, 0xff, 1, 1];
    let e5 = [0xff, 0, 0xff, 0xff, 1, 2, 0xff, 2, 0xfe, 1, 2];
    t.bare("E1", Term, &e1, 0, Some((0, 0, 3)));
    t.result("E1's type", Type, &e1, 6, &[0xff, 0, 0xff, 1, 2]);
    t.result("E1's type, exact", Type, &e1, 5, &[0xff, 0, 0xff, 1, 2]);
    t.plain("E2", &e2, 1, (0, 0, 1, 3));
    t.result("E2's type", Type, &e2, 16, &[0xff, 0, 0xff, 1, 0xfe, 1, 0xff, 2, 3]);
    t.result("E3's type", Type, &e3, 16, &[0xff, 0, 0xff, 1, 0xfe, 2, 0xff, 0, 0xfe, 2, 0xff, 1, 2]);
    t.plain("E4", &e3, 2, (12, 8, 1, 3));
    t.plain("E5", &e5, 1, (0, 0, 1, 3));
    t.result("E5's type", Type, &e5, 16, &[0xff, 0, 0xff, 0xff, 1, 2, 0xff, 2, 0xfe, 1, 0xff, 3, 4]);
    t.examine("E2's part", &file(&e2, &empty_groups(1)), [0, 0, 3, 12]);

    t.bare("no type, no buffer", Type, &[0], 0, None);
    t.bare("an empty term", Type, &[], 4, Some((3, 0, 0)));
    t.bare("a byte past the term", Type, &[0, 0], 4, Some((3, 1, 0)));
    t.bare("an index beyond scope", Type, &[1], 4, Some((5, 0, 0)));

    let used = [0xff, 0, 0xfe, 1, 0xff, 1, 1];
    let unused = [0xff, 0, 0xfe, 1, 0xff, 1, 2];
    t.result("E3's right step", At(LOCAL, 11), &e3, 16, &[0xff, 0, 0xff, 1, 0xfe, 2, 0xff, 0, 0xfe, 2, 0xff, 3, 1]);
    t.result("a local step", At(LOCAL, 6), &used, 8, &[0xff, 0, 0xfe, 1, 0xff, 1, 2]);
    t.bare("a local step, buffer of 6", At(LOCAL, 6), &used, 6, Some((14, 0, 0)));
    t.bare("a removal, still used", At(REMOVAL, 2), &used, 8, Some((10, 0, 0)));
    t.result("a removal", At(REMOVAL, 2), &unused, 8, &[0xff, 0, 1]);
    t.bare("a removal, buffer of 2", At(REMOVAL, 2), &unused, 2, Some((14, 0, 0)));
    t.bare("a removal, used in a later K", At(REMOVAL, 0), &[0xfe, 0, 0xff, 0, 0xfe, 1, 0xff, 0, 0], 8, Some((10, 0, 0)));
    t.bare("a removal, used in a later U", At(REMOVAL, 0), &[0xfe, 0, 0xff, 0, 0xff, 1, 0], 8, Some((10, 0, 0)));
    t.bare("a removal, used at the end", At(REMOVAL, 0), &[0xfe, 0, 0xff, 0, 0xff, 0, 2], 8, Some((10, 0, 0)));
    t.result("a removal, used nowhere", At(REMOVAL, 0), &[0xfe, 0, 0xff, 0, 0xff, 0, 1], 8, &[0xff, 0, 1]);
    t.bare("a removal, no partner", At(REMOVAL, 0), &[0xfe, 0, 0xfe, 0, 0xff, 0, 0], 8, Some((10, 0, 0)));
    t.result("a removal of all wagons", At(REMOVAL, 0), &[0xfe, 0, 0xff, 0, 0], 8, &[0]);
    let alone = [0xff, 0, 1];
    for kind in [0, 4, 9, 255] {
        t.bare("an unknown kind", At(kind, 2), &alone, 4, Some((10, 0, 0)));
    }
    t.bare("no partner", At(LOCAL, 2), &alone, 4, Some((10, 0, 0)));
    t.bare("a local step at ff", At(LOCAL, 0), &alone, 4, Some((10, 0, 0)));
    t.bare("a local step at 00", At(LOCAL, 1), &alone, 4, Some((10, 0, 0)));
    t.bare("a removal at a variable", At(REMOVAL, 2), &alone, 4, Some((10, 0, 0)));
    t.bare("a step on no term", At(LOCAL, 0), &[0xff, 0], 4, Some((3, 2, 0)));
    t.bare("a step on a term that is not closed", At(LOCAL, 2), &[0xff, 0, 2], 4, Some((5, 2, 0)));
    for byte in 0..=255 {
        let number = match byte {
            0 => None,
            1..=0xfd => Some((5, 0, 0)),
            _ => Some((3, 1, 0)),
        };
        t.bare("a single byte", Type, &[byte], 1, number);
    }

    let lies = |bytes: &[u8], number: u64, place: u64| ([number, place, 0, 0], bytes.to_vec());
    for (numbers, bytes) in [
        lies(&[1], 1, 0),
        lies(&[1, 0], 1, 0),
        lies(&[1, 0, 0], 3, 0),
        lies(&[1, 0, 1, 0xff, 0, 0], 1, 4),
        lies(&[1, 0xff, 0xff, 0], 1, 0),
        lies(&[1, 0, 1, 0, 2, 0, 0], 1, 7),
        lies(&[1, 0, 1, 0, 2, 0, 0, 3, 0], 1, 7),
        lies(&[1, 0, 1, 0, 3, 0, 0, 2, 0, 0], 2, 4),
        lies(&[1, 0, 1, 0, 2, 0, 2, 1, 0, 3, 0, 0], 2, 4),
        lies(&[1, 0, 1, 0, 0], 1, 4),
    ] {
        t.examine("a head that lies, or a field that is not due", &bytes, numbers);
    }
    // ff 00 00, then one group with 21,841 left steps: 65,535 bytes.
    let mut longest = file(&[0xff, 0, 0], &[group(vec![Step { kind: 0, place: 0 }; 21_841], vec![])]);
    t.examine("65,535 bytes, examined", &longest, [0, 0, 3, 6]);
    longest[65_534] = 1;
    t.examine("65,535 bytes, a length that lies", &longest, [1, 65_532, 0, 0]);
}

/// Lengths of files, numbers of groups, cuts.
fn files(t: &mut Table) {
    t.check("no byte", vec![], (1, 0, 0, 0));
    t.check("65,535 bytes", vec![0; 65_535], (2, 0, 0, 0));
    t.check("65,536 bytes", vec![0; 65_536], (4, 0, 0, 0));
    t.plain("10,921 empty groups", &[0], 10_921, (13, 4, 0, 1));
    t.plain("10,922 empty groups", &[0], 10_922, (4, 0, 0, 0));
    t.plain("10,921 empty groups, no term", &[], 10_921, (3, 0, 0, 0));
    t.plain("10,922 empty groups, no term", &[], 10_922, (3, 0, 0, 0));
    // E3 with its groups: the term's field is 16 bytes, then 6, then 9.
    let term = [0xff, 0, 0xff, 1, 0xfe, 2, 0xff, 0, 0xfe, 2, 0xff, 1, 1];
    let good = file(&term, &[no_steps(), group(vec![], local(0))]);
    t.check("E3", good.clone(), (0, 0, 2, 3));
    for length in 0..good.len() {
        let numbers = match length {
            0..=15 => (1, 0, 0, 0),
            16 => (9, 4, 0, 3),
            17..=18 => (1, 16, 0, 0),
            19..=21 => (1, 19, 0, 0),
            22 => (9, 8, 1, 3),
            23..=24 => (1, 22, 0, 0),
            _ => (1, 25, 0, 0),
        };
        t.check("E3 cut", good[..length].to_vec(), numbers);
    }
}

/// Sizes, nesting and scopes of the term itself.
fn terms(t: &mut Table) {
    let applied = |n: usize| joined(&[&vec![0xfe; n], &vec![0; n + 1]]);
    t.plain("4,095 bytes of term", &nested(2_047), 0, (0, 0, 0, 1));
    t.plain("4,096 bytes of term", &joined(&[&nested(2_047), &[0]]), 0, (3, 4_095, 0, 0));
    t.plain("4,097 bytes of term", &nested(2_048), 0, (4, 0, 0, 0));
    t.plain("2,047 applicators in each other", &applied(2_047), 0, (8, 2_046, 0, 1));
    t.plain("2,047 applicators in a train", &joined(&[&times(2_047, &[0xfe, 0]), &[0]]), 0, (8, 4_092, 0, 1));
    t.plain("200 declarations, then 1,800 in each other", &joined(&[&declarations(200), &nested(1_800)]), 0, (0, 0, 0, 1));
    t.plain("253 abstractors", &joined(&[&declarations(253), &[0xfd]]), 0, (0, 0, 0, 2));
    t.plain("254 abstractors", &joined(&[&declarations(254), &[1]]), 0, (6, 506, 0, 0));
    t.plain("the farthest index", &joined(&[&declarations(252), &[0xfc]]), 0, (0, 0, 0, 2));
    t.plain("an index too far", &joined(&[&declarations(252), &[0xfd]]), 0, (5, 504, 0, 0));
}

/// The K of W stand at the end of the work array. The check of what stands inside a later applicator types a variable, and writes a frame
/// up to them and over them.
fn overwritten(t: &mut Table) {
    // [y:τ][x:T] ⟨K⟩ ⟨x⟩ [T] [U] τ. T is [[..[τ]1..]1]1, so that the check of x copies 82 terms into a frame of 6,974 bytes; K is three
    // declarations of m abstractors, and y; U is its type. ⟨K⟩ has 8 + 2 * (sum of all m) bytes, and those end with the array.
    let deep = (0..82).fold(vec![0], |inner, _| joined(&[&[0xff], &inner, &[1]]));
    let taken = |sizes: [usize; 3]| {
        let parts = sizes.map(|m| joined(&[&[0xff], &declarations(m), &[0]])).concat();
        joined(&[&[0xff, 0, 0xff], &deep, &[0xfe], &parts, &[5, 0xfe, 1, 0xff], &deep, &[0xff], &parts, &[0, 0]])
    };
    t.plain("a frame up to a waiting K", &taken([202, 202, 201]), 2, (0, 0, 2, 1));
    t.plain("a frame over the first bytes of a waiting K", &taken([202, 202, 202]), 2, (0, 0, 2, 1));
    t.plain("a frame over much of a waiting K", &taken([247, 247, 247]), 2, (0, 0, 2, 1));
}

/// 253 and 254 abstractors in scope of something that waits, is copied or is compared.
fn scopes(t: &mut Table) {
    // [τ] ⟨m abstractors, 1⟩, n pairs ⟨1⟩[τ], τ: K waits in 1 + n + m scopes.
    let waiting = |m: usize, n: usize| joined(&[&[0xff, 0, 0xfe], &declarations(m), &[1], &times(n, &[0xfe, 1, 0xff, 0]), &[0]]);
    t.plain("a waiting K in 253 scopes", &waiting(249, 3), 3, (8, 2, 3, 1));
    t.plain("a waiting K in 254 scopes", &waiting(250, 3), 3, (11, 516, 3, 1));
    t.plain("a waiting K in 253 scopes, a pair fewer", &waiting(250, 2), 2, (8, 2, 2, 1));

    // A copied K waits in Y. [x:τ][y:x]⟨m abstractors, x⟩[D: m abstractors, τ], then a declaration of ⟨m abstractors, y⟩
    // 3 pairs [D] τ, whose U has the name D so that only K is deep; n declarations and its variable: 3 + 1 + n, 3 pairs and m.
    let copied = |m: usize, n: usize| {
        let deep = declarations(m);
        let names = joined(&[&[0xff, 0, 0xff, 1, 0xfe], &deep, &[m as u8 + 2, 0xff], &deep, &[0]]);
        let block = joined(&[&[0xfe], &deep, &[m as u8 + 2, 0xfe, 3, 0xff, 0], &times(2, &[0xfe, 1, 0xff, 0]), &[0xff, 4, 0]]);
        let term = joined(&[&names, &[0xff], &block, &declarations(n), &[n as u8 + 1]]);
        let groups = [no_steps(), no_steps(), no_steps(), no_steps(), group(vec![], local(0))];
        (term.len(), file(&term, &groups))
    };
    t.check("a copied K in 253 scopes", copied(100, 146).1, (0, 0, 5, 2));
    let (length, beyond) = copied(100, 147);
    t.check("a copied K in 254 scopes", beyond, (11, length - 1, 5, 2));

    // [[m abstractors] τ] n abstractors, then the first variable: its type is m + n + 1 deep.
    let typed = |m: usize, n: usize| joined(&[&[0xff], &declarations(m), &[0], &declarations(n), &[n as u8 + 1]]);
    t.plain("a copied B in 253 scopes", &typed(100, 152), 0, (0, 0, 0, 2));
    t.plain("a copied B in 254 scopes", &typed(100, 153), 0, (11, 508, 0, 2));
    t.plain("example 11", &typed(1, 252), 0, (11, 508, 0, 2));

    // A term of the frame is in the scope of the entries before its own alone.
    let first = joined(&[&[0xff], &declarations(100), &[0], &declarations(252), &[0]]);
    t.plain("a deep U under 252 later declarations", &first, 0, (0, 0, 0, 1));

    // 50 in R, the first with m in its U; K with 60 of its own and that variable waits while 40 pairs are passed.
    let compared = |m: usize| {
        let pairs = times(40, &[0xfe, 1, 0xff, 0]);
        joined(&[&[0xff], &declarations(m), &[0], &declarations(49), &[0xfe], &declarations(60), &[110], &pairs, &[0xff, 0, 0]])
    };
    t.plain("a type of K in 253 scopes", &compared(103), 41, (12, 306, 40, 1));
    t.plain("a type of K in 254 scopes", &compared(104), 41, (11, 308, 40, 1));
    t.plain("a type of K in 254 scopes, no group", &compared(104), 40, (9, 308, 40, 1));

    // [x:τ]⟨⟨m abstractors, x⟩[m abstractors, τ] x⟩[D:τ][z: n abstractors, D]⟨z⟩[n abstractors, D]τ, D replaced on one side.
    let stepped = |n: usize, left: bool| {
        let m = 50;
        let under = |index: usize| joined(&[&declarations(n), &[index as u8]]);
        let definition = joined(&[&[0xff, 0, 0xfe, 0xfe], &declarations(m), &[m as u8 + 1, 0xff], &declarations(m), &[0, 2, 0xff, 0]]);
        let term = joined(&[&definition, &[0xff], &under(n + 1), &[0xfe, 1, 0xff], &under(n + 2), &[0]]);
        let step = local(2 * n);
        let last = if left { group(step, vec![]) } else { group(vec![], step) };
        file(&term, &[no_steps(), group(removal(0), vec![]), last])
    };
    let applicator = |n: usize| 2 + (2 + 101 + 1 + 101 + 1) + 2 + (1 + 2 * n + 1);
    for left in [true, false] {
        t.check("a body in 253 scopes by a step", stepped(200, left), (12, applicator(200), 2, 1));
        t.check("a body in 254 scopes by a step", stepped(201, left), (11, applicator(201), 2, 1));
    }
}

/// States of 8,191 and 8,193 bytes.
fn states(t: &mut Table) {
    // [..[[τ]1]1..]1 with 90 abstractors: typing goes down the chain, and each U joins the frame; 90 · 91 + 1 bytes at τ.
    let chain = joined(&[&[0xff; 90], &[0], &[1; 90]]);
    t.plain("8,191 bytes: 90 typings", &chain, 0, (0, 0, 0, 91));
    t.plain("8,193 bytes: 90 typings", &joined(&[&[0xff, 0], &chain]), 0, (11, 182, 0, 91));

    // [[V]1]1: when the copied 1 is typed the state has V three times and 4 bytes.
    let thrice = joined(&[&[0xff, 0xff], &nested(1_364), &[1, 1]]);
    t.plain("8,191 bytes: R and B", &thrice, 0, (0, 0, 0, 3));
    t.plain("8,193 bytes: R and B", &joined(&[&[0xff, 0], &thrice]), 0, (11, thrice.len() + 1, 0, 3));

    // K waits at τ if the state fits.
    let all = |k: usize| {
        let (term, groups) = all_four(509, k);
        file(&term, &groups)
    };
    t.check("8,191 bytes: R, W, Y and B", all(1_015), (8, 2_060, 3, 3));
    t.check("8,193 bytes: R, W, Y and B", all(1_016), (11, 4_094, 3, 3));
}

/// Compared bodies of 4,095 and 4,097 bytes.
fn bodies(t: &mut Table) {
    // ⟨[V]1⟩[τ]τ: the type of K is [V]V, 4,095 bytes; [τ] before that makes 4,097.
    let typed = |more: usize| joined(&[&[0xfe], &declarations(more), &[0xff], &nested(1_023), &[1, 0xff, 0, 0]]);
    t.plain("a type of K of 4,095 bytes", &typed(0), 1, (12, 0, 0, 1));
    t.plain("a type of K of 4,097 bytes", &typed(1), 1, (11, 0, 0, 1));
    t.plain("a type of K of 4,097 bytes, no group", &typed(1), 0, (9, 0, 0, 1));
    let bad = Step { kind: 9, place: 0 };
    t.check("a type of 4,095 bytes, a bad step", file(&typed(0), &[group(vec![bad], vec![])]), (10, 0, 0, 1));
    t.check("a type of 4,097 bytes, a bad step", file(&typed(1), &[group(vec![bad], vec![])]), (11, 0, 0, 1));

    // [D][D]..τ with each D replaced: 23 copies of 177 bytes make 4,095, 16 of 255 make 4,097.
    for (copies, size) in [(23, 177), (16, 255)] {
        let (term, groups) = stepped_copies(copies, size);
        let steps = groups[1].left.clone();
        let but_one = &steps[..copies - 1];
        let place = 2 + 2 * (1 + size) + (1 + 2 * copies + 1);
        let end = |left: &[Step], right: &[Step]| file(&term, &[no_steps(), group(left.to_vec(), right.to_vec())]);
        if copies == 23 {
            t.check("4,095 bytes by steps on both sides", end(&steps, &steps), (0, 0, 2, 2));
            t.check("4,095 bytes by steps on the left", end(&steps, &[]), (12, place, 1, 2));
            t.check("4,095 bytes by steps on the right", end(&[], &steps), (12, place, 1, 2));
        } else {
            t.check("4,097 bytes by steps on the left", end(&steps, &[]), (11, place, 1, 2));
            t.check("4,097 bytes by steps on the right", end(&[], &steps), (11, place, 1, 2));
            t.check("a step before 4,097 bytes", end(but_one, but_one), (0, 0, 2, 2));
        }
    }
}

/// Steps at the last places. [a:τ]⟨a⟩[D:τ][g:[τ]D]⟨g⟩[[τ]a]τ: the type of g is [τ]D, 3 bytes, with D at place 2.
fn places(t: &mut Table) {
    let term = [0xff, 0, 0xfe, 1, 0xff, 0, 0xff, 0xff, 0, 2, 0xfe, 1, 0xff, 0xff, 0, 4, 0];
    let with = |left: Vec<Step>, right: Vec<Step>| file(&term, &[no_steps(), group(left, right)]);
    t.check("a step at the body's last byte", with(local(2), vec![]), (0, 0, 2, 1));
    for place in [3, 4, 255, 256, 65_534, 65_535] {
        t.check("a left step past the body", with(local(place), vec![]), (10, 10, 1, 1));
        t.check("a right step past the body", with(local(2), local(place)), (10, 10, 1, 1));
        t.check("a removal past the body", with(removal(place), vec![]), (10, 10, 1, 1));
    }
    t.check("a step at τ", with(local(1), vec![]), (10, 10, 1, 1));
    t.check("a step at an abstractor", with(local(0), vec![]), (10, 10, 1, 1));
    // Place 2 with a high byte: 02 00 is 512.
    t.check("a place's bytes the wrong way round", with(local(512), vec![]), (10, 10, 1, 1));
}

/// Pairs of the frame whose parts were not neighbours: [a:τ][b:τ]⟨b⟩⟨a⟩[x:τ][y:τ][g:v]⟨g⟩[u]τ. x goes with a and y with b;
/// the type of g is v, and its replacement u.
fn frame_pairs(t: &mut Table) {
    let term = |v: u8, u: u8| [0xff, 0, 0xff, 0, 0xfe, 1, 0xfe, 2, 0xff, 0, 0xff, 0, 0xff, v, 0xfe, 1, 0xff, u, 0];
    let with = |v: u8, u: u8| file(&term(v, u), &[no_steps(), no_steps(), group(local(0), vec![])]);
    let (x, y) = (2, 1);
    let (a, b) = (5, 4);
    t.check("y is b", with(y, b), (0, 0, 3, 1));
    t.check("y is not a", with(y, a), (12, 14, 2, 1));
    t.check("x is a", with(x, a), (0, 0, 3, 1));
    t.check("x is not b", with(x, b), (12, 14, 2, 1));
    t.check("b is no pair", with(3, b), (10, 14, 2, 1));
}

/// The calls on a bare term.
fn bare(t: &mut Table) {
    use Kind::{Step, Term, Type};
    t.bare("4,095 bytes", Term, &nested(2_047), 0, Some((0, 0, 1)));
    t.bare("4,096 bytes", Term, &joined(&[&nested(2_047), &[0]]), 0, Some((3, 4_095, 0)));
    t.bare("4,096 bytes, no end", Term, &[0xff; 4_096], 0, Some((3, 4_096, 0)));
    t.bare("4,097 bytes", Term, &nested(2_048), 0, Some((4, 0, 0)));
    t.bare("degree 2,048", Term, &joined(&[&[0xff; 2_047], &[0], &[1; 2_047]]), 0, Some((0, 0, 2_048)));

    let typed = |more: usize| joined(&[&declarations(more), &[0xff], &nested(1_023), &[1]]);
    t.bare("a type of 4,095 bytes, exact", Type, &typed(0), 4_095, Some((0, 0, 4_095)));
    t.bare("a type of 4,095 bytes, longer", Type, &typed(0), 4_097, Some((0, 0, 4_095)));
    t.bare("a type of 4,095 bytes, shorter", Type, &typed(0), 4_094, Some((14, 0, 0)));
    t.bare("a type of 4,097 bytes", Type, &typed(1), 5_000, Some((11, 0, 0)));
    t.bare("a type of 4,097 bytes, no buffer", Type, &typed(1), 0, Some((11, 0, 0)));
    t.bare("no type", Type, &nested(2_047), 5_000, None);
    let deep = |n: usize| joined(&[&[0xff], &declarations(100), &[0], &declarations(n), &[n as u8 + 1]]);
    t.bare("a type in 253 scopes", Type, &deep(152), 5_000, Some((0, 0, 707)));
    t.bare("a type in 254 scopes", Type, &deep(153), 5_000, Some((11, 0, 0)));

    // ⟨K⟩[τ][1]1 with the 1 in the U replaced, 4,095 bytes; [τ] before that makes 4,097.
    let stepped = |more: usize| joined(&[&declarations(more), &[0xfe], &nested(1_022), &[0xff, 0, 0xff, 1, 1]]);
    let at = |more: u16| Step(LOCAL, 2 * more + 2_049);
    t.bare("a step to 4,095 bytes, exact", at(0), &stepped(0), 4_095, Some((0, 0, 4_095)));
    t.bare("a step to 4,095 bytes, shorter", at(0), &stepped(0), 4_094, Some((14, 0, 0)));
    t.bare("a step to 4,097 bytes", at(1), &stepped(1), 5_000, Some((11, 0, 0)));
    t.bare("a step to 4,097 bytes, no buffer", at(1), &stepped(1), 0, Some((11, 0, 0)));
    let deep = |n: usize| joined(&[&[0xfe], &declarations(n), &[0, 0xff, 0], &declarations(100), &[101]]);
    let at = |n: usize| Step(LOCAL, 2 * n as u16 + 204);
    t.bare("a step into 253 scopes", at(152), &deep(152), 5_000, Some((0, 0, 813)));
    t.bare("a step into 254 scopes", at(153), &deep(153), 5_000, Some((11, 0, 0)));
    let pair = [0xfe, 0, 0xff, 0, 0];
    t.bare("a removal, exact", Step(REMOVAL, 0), &pair, 1, Some((0, 0, 1)));
    t.bare("a removal, no buffer", Step(REMOVAL, 0), &pair, 0, Some((14, 0, 0)));
    t.bare("a step at the last byte", Step(LOCAL, 4), &[0xfe, 0, 0xff, 0, 1], 5, Some((0, 0, 5)));
    t.bare("a step at the length", Step(LOCAL, 5), &[0xfe, 0, 0xff, 0, 1], 5, Some((10, 0, 0)));
    t.bare("a step at 65,535", Step(LOCAL, 65_535), &[0xfe, 0, 0xff, 0, 1], 5, Some((10, 0, 0)));
    t.bare("a removal at 65,535", Step(REMOVAL, 65_535), &pair, 5, Some((10, 0, 0)));
}

/// Kind 3 on a bare term: the readings A1, A2, A4, A5 and A7, and the limits.
fn substitutions(t: &mut Table) {
    let at = |place: usize| Kind::Step(SUBSTITUTION, place as u16);
    // K of 63 bytes and 63 uses: 4,097 bytes on the way.
    let k = joined(&[&[0xfe; 31], &[0; 32]]);
    let uses = joined(&[&[0xfe], &k, &[0xff, 0], &times(62, &[0xfe, 1]), &[1]]);
    let result = joined(&[&times(62, &joined(&[&[0xfe], &k])), &k]);
    t.result("A1: 4,097 bytes on the way", at(0), &uses, 5_000, &result);
    t.result("A1: exact", at(0), &uses, 4_031, &result);
    t.bare("A1: shorter", at(0), &uses, 4_030, Some((14, 0, 0)));
    let before_last = joined(&[&[0xfe], &k, &[0xff, 0], &result[..62 * 64], &[1]]);
    t.bare("A1: kind 1 at the last use", Kind::Step(LOCAL, before_last.len() as u16 - 1), &before_last, 5_000, Some((11, 0, 0)));
    t.result("A1: kind 3 there", at(0), &before_last, 5_000, &result);

    let deep = declarations(252);
    let term = joined(&[&deep, &[0xfe, 0xff, 0, 0xfd, 0xff, 0, 1]]);
    t.result("A2: 254 scopes and index 254 on the way", at(504), &term, 5_000, &joined(&[&deep, &[0xff, 0, 0xfd]]));
    t.bare("A2: kind 1 there", Kind::Step(LOCAL, 510), &term, 5_000, Some((11, 0, 0)));
    let k = joined(&[&declarations(253), &[0]]);
    t.result("A2: a K with 253 scopes", at(0), &joined(&[&[0xfe], &k, &[0xff, 0, 1]]), 5_000, &k);

    t.result("A4: no use", at(0), &[0xfe, 0, 0xff, 0, 0], 5, &[0]);
    t.result("A4: K and U have an index like the pair's", at(2), &[0xff, 0, 0xfe, 1, 0xff, 1, 1], 7, &[0xff, 0, 1]);
    let in_k = [0xff, 0, 0xfe, 1, 0xff, 1, 0xfe, 1, 1];
    t.result("A4: a use in a later K", at(2), &in_k, 9, &[0xff, 0, 0xfe, 1, 1]);
    t.result("no use, indices fall", at(2), &[0xff, 0, 0xfe, 1, 0xff, 1, 0xff, 2, 3], 9, &[0xff, 0, 0xff, 1, 2]);
    // [τ]⟨K⟩[1] [1] ⟨[2]3⟩ [⟨2⟩3] 3 with K = [1]⟨1⟩2: K is lifted by the abstractors between, but not its bound index.
    let k = |n: u8| [0xff, 1 + n, 0xfe, 1, 2 + n];
    let all_over = joined(&[&[0xff, 0, 0xfe], &k(0), &[0xff, 1, 0xff, 1, 0xfe, 0xff, 2, 3, 0xff, 0xfe, 2, 3, 3]]);
    let result = joined(&[&[0xff, 0, 0xff], &k(0), &[0xfe, 0xff], &k(1), &k(2), &[0xff, 0xfe], &k(1), &[2], &k(2)]);
    t.result("uses in later U and K, at the end, under each other", at(2), &all_over, 40, &result);
    // The pair inside a K, with text after it.
    let inside = [0xff, 0, 0xfe, 0xfe, 1, 0xff, 1, 0xfe, 1, 2, 0xff, 1, 2];
    t.result("a pair inside a K", at(3), &inside, 13, &[0xff, 0, 0xfe, 0xfe, 1, 1, 0xff, 1, 2]);

    let trains = [0xff, 0, 0xfe, 1, 0xfe, 1, 0xff, 1, 1];
    for place in [9, 10, 65_535] {
        t.bare("A5: past the body", at(place), &trains, 9, Some((10, 0, 0)));
    }
    for place in [0, 1, 3, 5, 6, 7, 8] {
        t.bare("A5: not fe", at(place), &trains, 9, Some((10, 0, 0)));
    }
    t.bare("A5: fe before fe", at(2), &trains, 9, Some((10, 0, 0)));
    t.bare("A5: fe before a terminal", at(0), &[0xfe, 0, 0], 9, Some((10, 0, 0)));
    t.result("A5: fe before ff", at(4), &trains, 9, &[0xff, 0, 0xfe, 1, 1]);
    t.bare("no buffer", at(4), &trains, 0, Some((14, 0, 0)));
    t.bare("on no term", at(0), &[0xfe, 0], 4, Some((3, 2, 0)));

    // ⟨K⟩[τ] and uses, each a U: 23 times K of 177 bytes make 4,095, 16 times 255 make 4,097, both longer on the way.
    let copies = |n: usize, size: usize| {
        let uses: Vec<u8> = (1..=n as u8).flat_map(|d| [0xff, d]).collect();
        joined(&[&[0xfe], &nested(size / 2), &[0xff, 0], &uses, &[0]])
    };
    t.bare("to 4,095 bytes, exact", at(0), &copies(23, 177), 4_095, Some((0, 0, 4_095)));
    t.bare("to 4,095 bytes, shorter", at(0), &copies(23, 177), 4_094, Some((14, 0, 0)));
    t.bare("to 4,097 bytes", at(0), &copies(16, 255), 5_000, Some((11, 0, 0)));
    t.bare("to 4,097 bytes, no buffer", at(0), &copies(16, 255), 0, Some((11, 0, 0)));
    let many = joined(&[&[0xfe], &nested(1_000), &[0xff, 0], &times(1_000, &[0xfe, 1]), &[1]]);
    t.bare("to two million bytes", at(0), &many, 5_000, Some((11, 0, 0)));
    let most = joined(&[&[0xfe, 0, 0xff, 0], &times(2_045, &[0xfe, 1]), &[1]]);
    t.result("2,046 uses", at(0), &most, 5_000, &joined(&[&times(2_045, &[0xfe, 0]), &[0]]));
    let nest = joined(&[&[0xfe, 0xff, 0, 1, 0xff, 0], &[0xff; 600], &[1], &[2; 600]]);
    let result = joined(&[&[0xff; 600], &times(601, &[0xff, 0, 1])]);
    t.result("601 uses in each other's U", at(0), &nest, 5_000, &result);
    t.result("a K of 4,091 bytes", at(0), &joined(&[&[0xfe], &nested(2_045), &[0xff, 0, 1]]), 4_091, &nested(2_045));

    // ⟨n abstractors, τ⟩[τ] 100 abstractors and the use: n + 100 scopes, one more on the way.
    let deep = |n: usize| joined(&[&[0xfe], &declarations(n), &[0, 0xff, 0], &declarations(100), &[101]]);
    t.bare("into 253 scopes, 254 on the way", at(0), &deep(153), 5_000, Some((0, 0, 507)));
    t.bare("into 254 scopes", at(0), &deep(154), 5_000, Some((11, 0, 0)));
    // ⟨126 abstractors, τ⟩[τ] n abstractors and 15 uses: n + 126 scopes, and 4,063 bytes if n is 127; on the way one scope and
    // 256 bytes more.
    let both = |n: usize| {
        let uses = times(14, &[0xfe, n as u8 + 1]);
        joined(&[&[0xfe], &declarations(126), &[0, 0xff, 0], &declarations(n), &uses, &[n as u8 + 1]])
    };
    t.bare("over both limits on the way alone", at(0), &both(127), 5_000, Some((0, 0, 4_063)));
    t.bare("over the scopes at the end", at(0), &both(128), 5_000, Some((11, 0, 0)));
}

/// Kind 3 in files: A3, A6 and A7, and the limits of a compared body.
fn substitutions_in_files(t: &mut Table) {
    let e3 = [0xff, 0, 0xff, 1, 0xfe, 2, 0xff, 0, 0xfe, 2, 0xff, 1, 1];
    t.check("A3: no pair of the frame", file(&e3, &[no_steps(), group(vec![], whole(0))]), (10, 8, 1, 3));

    // [p:τ][a:p]⟨a⟩[⟨p⟩[q:τ]q]1: the type of a is p, and so is the U by one step.
    let term = [0xff, 0, 0xff, 1, 0xfe, 1, 0xff, 0xfe, 2, 0xff, 0, 1, 1];
    let right = |steps: Vec<Step>| file(&term, &[no_steps(), group(vec![], steps)]);
    t.check("A7: one step in a file", right(whole(0)), (0, 0, 2, 3));
    t.check("A7: its parts", right([local(4), removal(0)].concat()), (0, 0, 2, 3));
    t.check("A7: none", right(vec![]), (12, 4, 1, 3));
    t.check("A6: after a part", right([local(4), whole(0)].concat()), (0, 0, 2, 3));
    t.check("A6: one step more", right([whole(0), whole(0)].concat()), (10, 4, 1, 3));
    t.check("A6: one step more, past the body", right([whole(0), removal(1)].concat()), (10, 4, 1, 3));
    for place in [1, 2, 3, 4] {
        t.check("not fe", right(whole(place)), (10, 4, 1, 3));
    }
    for place in [5, 6, 65_535] {
        t.check("past the body", right(whole(place)), (10, 4, 1, 3));
    }
    let left = |steps: Vec<Step>| file(&term, &[no_steps(), group(steps, whole(0))]);
    t.check("no partner, on the left", left(whole(0)), (10, 4, 1, 3));

    // Bodies of 4,095 and 4,097 bytes, of 253 scopes and 254, with the frame's; more on the way.
    let copies = |n: usize, size: usize| {
        let (term, groups) = substituted_copies(n, size);
        file(&term, &groups)
    };
    t.check("bodies of 4,095 bytes", copies(23, 177), (0, 0, 3, 1));
    t.check("a body of 4,097 bytes", copies(16, 255), (11, 3 + 2 * 255 + 3 + 32, 2, 1));
    let scopes = |m: usize, n: usize| {
        let (term, groups) = substituted_scopes(m, n);
        file(&term, &groups)
    };
    t.check("bodies in 253 scopes", scopes(50, 201), (0, 0, 5, 1));
    t.check("a body in 254 scopes", scopes(50, 202), (11, 3 + 2 * 101 + 2 * 202 + 7, 4, 1));
}

/// The page of these lines, each so many times and filled with blanks.
fn page(lines: &[(usize, &str)]) -> Vec<u8> {
    lines.iter().map(|(n, line)| format!("{line:72}\n").repeat(*n)).collect::<String>().into_bytes()
}

/// The readings B1 and B2, the limits, and pages written out.
fn pages(t: &mut Table) {
    use Kind::Print;
    let tau = joined(&[b"   t", &[b' '; 68], b"\n"]);
    t.result("B1", Print, &[0], 100, &tau);
    t.result("B1: exact", Print, &[0], 73, &tau);
    for lent in [0, 1, 71, 72] {
        t.bare("B1: shorter", Print, &[0], lent, Some((14, 0, 0)));
    }
    let (abstractors, taus) = ("   T".repeat(18), "   t".repeat(18));
    let turn = ["   T".repeat(13), "   t".repeat(5)].concat();
    let longest = page(&[(113, &abstractors), (1, &turn), (113, &taus), (1, &taus[..36])]);
    t.result("B2: the longest page, exact", Print, &nested(2_047), 16_644, &longest);
    t.result("B2: the longest page, longer", Print, &nested(2_047), 17_000, &longest);
    t.bare("B2: the longest page, shorter", Print, &nested(2_047), 16_643, Some((14, 0, 0)));
    for lent in [0, 73, 17_000] {
        t.bare("B2: an index beyond scope", Print, &[1], lent, Some((5, 0, 0)));
        t.bare("no byte", Print, &[], lent, Some((3, 0, 0)));
        t.bare("no end", Print, &[0xfe, 0], lent, Some((3, 2, 0)));
        t.bare("a byte past the term", Print, &[1, 0], lent, Some((3, 1, 0)));
        t.bare("4,096 bytes", Print, &joined(&[&nested(2_047), &[0]]), lent, Some((3, 4_095, 0)));
        t.bare("4,097 bytes", Print, &nested(2_048), lent, Some((4, 0, 0)));
        t.bare("254 abstractors", Print, &joined(&[&declarations(254), &[1]]), lent, Some((6, 506, 0)));
        t.bare("5 left of 6", Print, &joined(&[&[0xfe, 1], &declarations(254), &[0]]), lent, Some((5, 1, 0)));
        t.bare("6 left of 5", Print, &joined(&[&[0xfe], &declarations(254), &[0, 1]]), lent, Some((6, 507, 0)));
    }

    // 253 abstractors, and each index in the last line's third cell.
    let declared = "   T   t".repeat(9);
    for index in 0..=253 {
        let cell = if index == 0 { "   t".into() } else { format!("{index:>4}") };
        let written = page(&[(28, &declared), (1, &["   T   t", &cell].concat())]);
        t.result("253 abstractors", Print, &joined(&[&declarations(253), &[index]]), 2_120, &written);
    }
    let applicators = joined(&[&times(2_047, &[0xfe, 0]), &[0]]);
    let applied = "   A   t".repeat(9);
    let written = page(&[(227, &applied), (1, &[&applied[..32], "   t"].concat())]);
    t.result("2,047 applicators in a row", Print, &applicators, 16_644, &written);

    let two = [
        0xff, 0, 0xff, 1, 0xff, 1, 0xff, 2, 0xff, 4, 0xff, 0, 0xff, 6, 0xff, 3, 0xff, 8, 0xff, 9, 0xfe, 0xff, 10, 11, 10,
    ];
    let written = page(&[
        (1, "   T   t   T   1   T   1   T   2   T   4   T   t   T   6   T   3   T   8"),
        (1, "   T   9   A   T  10  11  10"),
    ]);
    t.result("two lines, longer", Print, &two, 150, &written);
    t.result("two lines, exact", Print, &two, 146, &written);
    for lent in [0, 72, 73, 74, 145] {
        t.bare("two lines, shorter", Print, &two, lent, Some((14, 0, 0)));
    }
    // A line has 18 cells, and sizes are odd.
    for (size, lines) in [(1, 1), (3, 1), (17, 1), (19, 2), (35, 2), (37, 3), (53, 3), (55, 4), (4_085, 227), (4_087, 228)] {
        t.bare("about a line's end, exact", Print, &nested(size / 2), 73 * lines, Some((0, 0, 73 * lines as u64)));
        t.bare("about a line's end, shorter", Print, &nested(size / 2), 73 * lines - 1, Some((14, 0, 0)));
    }
}

/// The reading C1: every length that is counted, and lengths over 7.
fn counts(t: &mut Table) {
    t.count("no byte", 0, [0, 0, 1, 0]);
    t.count("1 byte", 1, [0, 1, 2, 253]);
    t.count("2 bytes", 2, [0, 0, 65_536, 0]);
    t.count("3 bytes", 3, [0, 3, 16_648_184, 129_029]);
    t.count("4 bytes", 4, [0, 0, 4_294_967_296, 0]);
    t.count("5 bytes", 5, [0, 22, 1_099_380_531_264, 131_096_490]);
    t.count("6 bytes", 6, [0, 0, 281_474_976_710_656, 0]);
    t.count("7 bytes", 7, [0, 239, 72_057_427_545_357_696, 166_492_570_001]);
    let small = [8, 9, 15, 16, 255, 256, 257, 4_095, 4_096, 65_535, 65_536];
    let large = [(1 << 32) - 1, 1 << 32, (1 << 32) + 7, 1 << 63, usize::MAX];
    for length in small.into_iter().chain(large) {
        t.count("over 7 bytes", length, [15, 0, 0, 0]);
    }
}

/// The readings D1, D2, D3 and D5, and what is no couple.
fn couples(t: &mut Table) {
    use Kind::Step as At;
    const REFUSED: Option<(u64, usize, u64)> = Some((10, 0, 0));
    let nested = [0xfe, 0, 0xfe, 0, 0xff, 0, 0xff, 0, 1];
    t.result("D1: two wagons between", At(LOCAL, 8), &nested, 9, &[0xfe, 0, 0xfe, 0, 0xff, 0, 0xff, 0, 0]);
    t.bare("D1: two wagons between, shorter", At(LOCAL, 8), &nested, 8, Some((14, 0, 0)));
    let deeper = [0xfe, 0, 0xfe, 0, 0xfe, 0, 0xff, 0, 0xff, 0, 0xff, 0, 1];
    t.result("D1: four wagons between", At(LOCAL, 12), &deeper, 13, &joined(&[&deeper[..12], &[0]]));
    let lifted = [0xff, 0, 0xfe, 1, 0xfe, 0, 0xff, 0, 0xff, 0, 1];
    t.result("D2", At(LOCAL, 10), &lifted, 11, &[0xff, 0, 0xfe, 1, 0xfe, 0, 0xff, 0, 0xff, 0, 3]);
    t.result("D3: the last index falls", At(REMOVAL, 0), &[0xfe, 0, 0xfe, 0, 0xff, 0, 0xff, 0, 2], 9, &[0xfe, 0, 0xff, 0, 1]);
    let stays = [0xff, 0, 0xfe, 1, 0xfe, 1, 0xff, 1, 0xff, 0, 0xff, 0, 4];
    t.result("D3: what is between stays", At(REMOVAL, 2), &stays, 13, &[0xff, 0, 0xfe, 1, 0xff, 1, 0xff, 0, 3]);
    t.result("D3: kind 3 on D2's term", At(SUBSTITUTION, 2), &lifted, 11, &[0xff, 0, 0xfe, 0, 0xff, 0, 2]);
    for kind in [REMOVAL, SUBSTITUTION] {
        t.bare("D5: nothing left to match", At(kind, 0), &[0xfe, 0, 0xfe, 0, 0xff, 0, 0], 9, REFUSED);
    }
    let used = [0xfe, 0, 0xfe, 0, 0xff, 0, 0xff, 1, 0];
    t.bare("D5: used in the outer U", At(REMOVAL, 2), &used, 9, REFUSED);
    t.result("D5: substituted in the outer U", At(SUBSTITUTION, 2), &used, 9, &[0xfe, 0, 0xff, 0, 0]);
    t.result("D5: the outer couple removed", At(REMOVAL, 0), &used, 9, &[0xfe, 0, 0xff, 0, 0]);

    // [τ]⟨τ⟩⟨1⟩⟨1⟩[1][1][2]⟨1⟩⟨2⟩v: the first applicator goes with the last abstractor, the two last with none.
    let around = |v: u8| [0xff, 0, 0xfe, 0, 0xfe, 1, 0xfe, 1, 0xff, 1, 0xff, 1, 0xff, 2, 0xfe, 1, 0xfe, 2, v];
    for place in [14, 16] {
        for kind in [REMOVAL, SUBSTITUTION] {
            t.bare("an unmatched applicator after couples", At(kind, place), &around(3), 19, REFUSED);
        }
    }
    t.bare("a bachelor before couples", At(LOCAL, 18), &around(4), 19, REFUSED);
    let with_end = |end: &[u8]| joined(&[&around(0)[..18], end]);
    t.result("the outermost of three", At(LOCAL, 18), &around(1), 19, &with_end(&[0]));
    t.result("the middle one of three", At(LOCAL, 18), &around(2), 19, &with_end(&[4]));
    t.result("the innermost of three", At(LOCAL, 18), &around(3), 19, &with_end(&[4]));
    t.result("the outermost, in a later K", At(LOCAL, 15), &around(1), 19, &joined(&[&around(0)[..15], &[0, 0xfe, 2, 1]]));
    t.bare("the outermost, still used", At(REMOVAL, 2), &around(3), 19, REFUSED);
    let outer = [0xff, 0, 0xfe, 1, 0xfe, 1, 0xff, 1, 0xff, 1, 0xfe, 0, 0xfe, 1, 2];
    t.result("the outermost substituted", At(SUBSTITUTION, 2), &around(3), 19, &outer);
    let middle = [0xff, 0, 0xfe, 0, 0xfe, 1, 0xff, 1, 0xff, 1, 0xfe, 1, 0xfe, 3, 2];
    t.result("the middle one substituted", At(SUBSTITUTION, 4), &around(3), 19, &middle);
    t.bare("the innermost, used in the next U", At(REMOVAL, 6), &around(4), 19, REFUSED);

    t.bare("a bachelor after a pair", At(LOCAL, 6), &[0xfe, 0, 0xff, 0, 0xff, 0, 1], 9, REFUSED);
    t.result("a pair before a bachelor", At(LOCAL, 6), &[0xfe, 0, 0xff, 0, 0xff, 0, 2], 9, &[0xfe, 0, 0xff, 0, 0xff, 0, 0]);
    t.bare("⟨τ⟩[[τ]1]τ: an abstractor inside", At(LOCAL, 5), &[0xfe, 0, 0xff, 0xff, 0, 1, 0], 9, REFUSED);
    t.bare("⟨τ⟩⟨[τ]1⟩[τ]τ: an abstractor inside", At(LOCAL, 5), &[0xfe, 0, 0xfe, 0xff, 0, 1, 0xff, 0, 0], 9, REFUSED);
    let inner = [0xfe, 0xfe, 0, 0, 0xff, 0, 1];
    for kind in [REMOVAL, SUBSTITUTION] {
        t.bare("⟨⟨τ⟩τ⟩[τ]1: an applicator inside", At(kind, 1), &inner, 9, REFUSED);
        t.bare("[⟨τ⟩τ][τ]τ: an applicator inside", At(kind, 1), &[0xff, 0xfe, 0, 0, 0xff, 0, 0], 9, REFUSED);
    }
    t.result("⟨⟨τ⟩τ⟩[τ]1: the applicator outside", At(SUBSTITUTION, 0), &inner, 9, &[0xfe, 0, 0]);
    // ⟨τ⟩⟨τ⟩[τ]⟨⟨τ⟩⟨τ⟩[τ][τ]2⟩[τ][τ]3 with couples in two trains.
    let trains = [0xfe, 0, 0xfe, 0, 0xff, 0, 0xfe, 0xfe, 0, 0xfe, 0, 0xff, 0, 0xff, 0, 2, 0xff, 0, 0xff, 0, 3];
    let without = |from: usize, to: usize, then: usize, last: &[u8]| joined(&[&trains[..from], &trains[to..then], last]);
    t.result("the outer train's", At(REMOVAL, 0), &trains, 21, &without(0, 2, 18, &[2]));
    t.result("the inner train's", At(REMOVAL, 7), &trains, 21, &without(7, 9, 13, &[1, 0xff, 0, 0xff, 0, 3]));
}

/// A couple in a [τ] with 0, 2, 4 and 6 wagons between, nested and side by side: [τ]⟨1⟩..[τ]v.
fn wagons_between(t: &mut Table) {
    use Kind::Step as At;
    for n in 0..=3 {
        let side_by_side: Vec<u8> = (1..=n).flat_map(|i| [0xfe, i, 0xff, i]).collect();
        let nested = joined(&[&times(n.into(), &[0xfe, 1]), &times(n.into(), &[0xff, 0])]);
        for between in [nested, side_by_side] {
            let term = |v: &[u8]| joined(&[&[0xff, 0, 0xfe, 1], &between, &[0xff, 0], v]);
            let dropped = |v: &[u8]| joined(&[&[0xff, 0], &between, v]);
            let last = 6 + 4 * u16::from(n);
            t.result("K lifted past what is between", At(LOCAL, last), &term(&[1]), 30, &term(&[n + 2]));
            t.bare("no use left", At(REMOVAL, 2), &term(&[1]), 30, Some((10, 0, 0)));
            t.result("removed, the [τ] before", At(REMOVAL, 2), &term(&[n + 2]), 30, &dropped(&[n + 1]));
            t.result("substituted", At(SUBSTITUTION, 2), &term(&[1]), 30, &dropped(&[n + 1]));
            // [1]⟨2⟩[[2]3]v, the couple's variable once more and the [τ] before.
            let uses = [0xff, 1, 0xfe, 2, 0xff, 0xff, 2, 3, n + 4];
            let replaced = [0xff, n + 1, 0xfe, n + 2, 0xff, 0xff, n + 2, n + 3, n + 3];
            t.result("substituted all over", At(SUBSTITUTION, 2), &term(&uses), 40, &dropped(&replaced));
            t.result("one use of four", At(LOCAL, last + 3), &term(&uses), 40, &term(&[0xff, 1, 0xfe, n + 3, 0xff, 0xff, 2, 3, n + 4]));
            t.result("a use in a U", At(LOCAL, last + 7), &term(&uses), 40, &term(&[0xff, 1, 0xfe, 2, 0xff, 0xff, 2, n + 4, n + 4]));
            if n > 0 {
                t.result("removed, one between used", At(REMOVAL, 2), &term(&[2]), 30, &dropped(&[1]));
                t.result("substituted, one between used", At(SUBSTITUTION, 2), &term(&[2]), 30, &dropped(&[1]));
            }
        }
    }
}

/// Couples of many and of long wagons, and results at the limits of bytes and scopes.
fn couples_at_limits(t: &mut Table) {
    use Kind::Step as At;
    // 253 nested couples: index 1 goes with the first applicator, index 253 with the last.
    let all = |n: usize, v: u8| joined(&[&nested_couples(n), &[v]]);
    t.result("252 couples between", At(LOCAL, 1_012), &all(253, 1), 2_000, &all(253, 0));
    t.result("the inmost of 253", At(LOCAL, 1_012), &all(253, 253), 2_000, &all(253, 0));
    t.result("the outermost of 253 removed", At(REMOVAL, 0), &all(253, 253), 2_000, &all(252, 252));
    t.result("the outermost of 253 substituted", At(SUBSTITUTION, 0), &all(253, 1), 2_000, &all(252, 0));
    t.result("the inmost of 253 removed", At(REMOVAL, 504), &all(253, 1), 2_000, &all(252, 1));
    t.result("the inmost of 253 substituted", At(SUBSTITUTION, 504), &all(253, 253), 2_000, &all(252, 0));
    t.bare("the inmost of 253 still used", At(REMOVAL, 504), &all(253, 253), 2_000, Some((10, 0, 0)));
    let one_more = joined(&[&[0xfe, 0], &all(253, 1)]);
    t.bare("an applicator before 253 couples", At(REMOVAL, 0), &one_more, 2_000, Some((10, 0, 0)));
    t.bare("an applicator before 253 couples", At(SUBSTITUTION, 0), &one_more, 2_000, Some((10, 0, 0)));
    let pairs = |v: u8| joined(&[&[0xfe, 0], &times(252, &[0xfe, 0, 0xff, 0]), &[0xff, 0, v]]);
    t.result("252 pairs between", At(LOCAL, 1_012), &pairs(1), 2_000, &pairs(0));
    let without = |v: u8| joined(&[&times(252, &[0xfe, 0, 0xff, 0]), &[v]]);
    t.result("252 pairs between, removed", At(REMOVAL, 0), &pairs(253), 2_000, &without(252));
    t.result("252 pairs between, substituted", At(SUBSTITUTION, 0), &pairs(1), 2_000, &without(0));
    // 251 couples between in a [τ]: K is lifted to the farthest index.
    let far = |v: &[u8]| joined(&[&[0xff, 0, 0xfe, 1], &nested_couples(251), v]);
    t.result("to index 253", At(LOCAL, 1_010), &far(&[0xff, 0, 1]), 2_000, &far(&[0xff, 0, 253]));
    let result = joined(&[&[0xff, 0], &nested_couples(251), &[252]]);
    t.result("to index 252", At(SUBSTITUTION, 2), &far(&[0xff, 0, 1]), 2_000, &result);
    // As many applicators as there is room for; 1,541 of them wait.
    let many = |v: u8| joined(&[&times(1_794, &[0xfe, 0]), &declarations(253), &[v]]);
    t.result("1,794 applicators, 253 taken", At(LOCAL, 4_094), &many(1), 5_000, &many(0));
    for place in [0, 2, 3_080] {
        t.bare("an applicator that waits", At(REMOVAL, place), &many(0), 5_000, Some((10, 0, 0)));
    }
    let fewer = joined(&[&times(1_793, &[0xfe, 0]), &declarations(252), &[0]]);
    for place in [3_082, 3_586] {
        t.result("the first and the last that is taken", At(REMOVAL, place), &many(0), 5_000, &fewer);
    }

    // N(n), n couples in each other's K, and the couple ⟨τ⟩⟨N(n)⟩[U][τ]v.
    let in_ks = |n: usize| joined(&[&vec![0xfe; n], &[0], &times(n, &[0xff, 0, 0])]);
    let long = |n: usize, u: &[u8], v: u8| joined(&[&[0xfe, 0, 0xfe], &in_ks(n), &[0xff], u, &[0xff, 0, v]]);
    let left = |n: usize, u: &[u8], v: u8| joined(&[&[0xfe], &in_ks(n), &[0xff], u, &[v]]);
    for (n, u) in [(1_021, vec![0]), (500, in_ks(521)), (1, in_ks(1_020))] {
        let last = (long(n, &u, 1).len() - 1) as u16;
        assert_eq!(last, 4_092);
        t.result("long wagons between", At(LOCAL, last), &long(n, &u, 1), 5_000, &long(n, &u, 0));
        t.result("long wagons between, removed", At(REMOVAL, 0), &long(n, &u, 2), 5_000, &left(n, &u, 1));
        t.result("long wagons between, substituted", At(SUBSTITUTION, 0), &long(n, &u, 1), 5_000, &left(n, &u, 0));
        t.result("the inner couple", At(SUBSTITUTION, 2), &long(n, &u, 1), 5_000, &[0xfe, 0, 0xff, 0, 1]);
        let inmost = 2 + n as u16;
        t.result("the inmost of many", At(REMOVAL, inmost), &long(n, &u, 1), 5_000, &long(n - 1, &u, 1));
    }

    // ⟨K⟩, b couples, [τ][1]1 with the 1 in the U replaced: 4,095 bytes; [τ] before that makes 4,097.
    let stepped = |b: usize, more: usize| {
        let k = nested(1_022 - b);
        joined(&[&declarations(more), &[0xfe], &k, &nested_couples(b), &[0xff, 0, 0xff, 1, 1]])
    };
    for b in [1, 3, 100] {
        let place = |more: usize| (2 * more + 2_049 + 2 * b) as u16;
        t.bare("a step to 4,095 bytes, exact", At(LOCAL, place(0)), &stepped(b, 0), 4_095, Some((0, 0, 4_095)));
        t.bare("a step to 4,095 bytes, shorter", At(LOCAL, place(0)), &stepped(b, 0), 4_094, Some((14, 0, 0)));
        t.bare("a step to 4,097 bytes", At(LOCAL, place(1)), &stepped(b, 1), 5_000, Some((11, 0, 0)));
        t.bare("a step to 4,097 bytes, no buffer", At(LOCAL, place(1)), &stepped(b, 1), 0, Some((11, 0, 0)));
    }
    // ⟨K⟩, b couples, [τ] and uses, each a U.
    let copies = |n: usize, size: usize, b: usize| {
        let uses: Vec<u8> = (1..=n as u8).flat_map(|d| [0xff, d]).collect();
        joined(&[&[0xfe], &nested(size / 2), &nested_couples(b), &[0xff, 0], &uses, &[0]])
    };
    let whole = At(SUBSTITUTION, 0);
    t.bare("substituted to 4,095 bytes, exact", whole, &copies(5, 817, 1), 4_095, Some((0, 0, 4_095)));
    t.bare("substituted to 4,095 bytes, shorter", whole, &copies(5, 817, 1), 4_094, Some((14, 0, 0)));
    t.bare("substituted to 4,097 bytes", whole, &copies(33, 123, 1), 5_000, Some((11, 0, 0)));
    t.bare("substituted to 4,097 bytes, no buffer", whole, &copies(33, 123, 1), 0, Some((11, 0, 0)));
    // ⟨m abstractors⟩, b couples, [τ]1: m + b scopes, one more on the way.
    let deep = |m: usize, b: usize| joined(&[&[0xfe], &declarations(m), &[0], &nested_couples(b), &[0xff, 0, 1]]);
    for b in [1, 100, 252] {
        let last = |m: usize| (deep(m, b).len() - 1) as u16;
        let length = |m: usize| deep(m, b).len() as u64;
        let (most, over) = (252 - b, 253 - b);
        let stepped = length(most) + 2 * most as u64;
        t.bare("a step into 253 scopes", At(LOCAL, last(most)), &deep(most, b), 5_000, Some((0, 0, stepped)));
        t.bare("a step into 254 scopes", At(LOCAL, last(over)), &deep(over, b), 5_000, Some((11, 0, 0)));
        t.bare("into 253 scopes, 254 on the way", whole, &deep(over, b), 5_000, Some((0, 0, length(over) - 4)));
        if b < 252 {
            t.bare("into 254 scopes", whole, &deep(over + 1, b), 5_000, Some((11, 0, 0)));
        }
    }
}

/// Couples in files: D4, D6 and D7, and the limits of a compared body.
fn couples_in_files(t: &mut Table) {
    // [a:τ][f:[τ]1]⟨a⟩⟨f⟩[[τ]1]1: the type of f is [τ]1, and ⟨a⟩ waits before it.
    let waiting = [0xff, 0, 0xff, 0xff, 0, 1, 0xfe, 2, 0xfe, 1, 0xff, 0xff, 0, 1, 1];
    let steps = |left: Vec<Step>, right: Vec<Step>| file(&waiting, &[group(left, right), no_steps()]);
    t.check("D4: W takes no part", steps(local(2), local(2)), (10, 8, 0, 3));
    t.check("D4: W takes no part on the right", steps(vec![], local(2)), (10, 8, 0, 3));
    let far_apart = [0xff, 0, 0xff, 1, 0xfe, 2, 0xfe, 2, 0xff, 0, 0xff, 0, 0xfe, 3, 0xff, 1, 1];
    let frame = file(&far_apart, &[no_steps(), no_steps(), group(vec![], local(0))]);
    t.check("D4: a frame pair of wagons far apart", frame, (0, 0, 3, 3));
    // [a:τ]⟨a⟩[b:τ][g:[τ]1]⟨g⟩[[τ]1]τ: the type of g is [τ]1, after a frame pair.
    let paired = [0xff, 0, 0xfe, 1, 0xff, 0, 0xff, 0xff, 0, 1, 0xfe, 1, 0xff, 0xff, 0, 1, 0];
    let steps = |left: Vec<Step>| file(&paired, &[no_steps(), group(left, vec![])]);
    t.check("D4: the frame takes no part", steps(local(2)), (10, 10, 1, 1));
    t.check("D4: no step", steps(vec![]), (0, 0, 2, 1));

    // [p:τ][a:p][f:[p][p]p]⟨⟨a⟩⟨a⟩f⟩[p]τ: the type of K is ⟨a⟩⟨a⟩[p][p]p.
    let copied = [0xff, 0, 0xff, 1, 0xff, 0xff, 2, 0xff, 3, 4, 0xfe, 0xfe, 2, 0xfe, 2, 1, 0xff, 3, 0];
    let steps = |left: Vec<Step>| file(&copied, &[no_steps(), no_steps(), group(left, vec![])]);
    for kind in [removal, whole] {
        t.check("D6: the outer couple first", steps([kind(0), kind(0)].concat()), (0, 0, 3, 1));
        t.check("D6: the inner couple first", steps([kind(2), kind(0)].concat()), (0, 0, 3, 1));
        t.check("D6: the outer couple alone", steps(kind(0)), (12, 10, 2, 1));
        t.check("D6: nothing at 2 is left", steps([kind(0), kind(2)].concat()), (10, 10, 2, 1));
    }

    let defined = [0xff, 0, 0xff, 1, 0xfe, 1, 0xff, 0xfe, 2, 0xfe, 2, 0xff, 0, 0xff, 0, 1, 0];
    let steps = |right: Vec<Step>| file(&defined, &[no_steps(), no_steps(), group(vec![], right)]);
    t.check("D7", steps([whole(0), whole(0)].concat()), (0, 0, 3, 1));
    t.check("D7: pair by pair", steps([whole(2), whole(0)].concat()), (0, 0, 3, 1));
    t.check("D7: in parts", steps([local(8), removal(0), removal(0)].concat()), (0, 0, 3, 1));
    t.check("D7: still used", steps(removal(0)), (10, 4, 2, 1));
    t.check("D7: the outer couple alone", steps(whole(0)), (12, 4, 2, 1));
    t.check("D7: no step", steps(vec![]), (12, 4, 2, 1));
    t.check("D7: one step more", steps([whole(0), whole(0), whole(0)].concat()), (10, 4, 2, 1));
    t.check("D7: no group for it", file(&defined, &empty_groups(2)), (9, 4, 2, 1));

    // Bodies of 4,095 and 4,097 bytes, of 253 scopes and 254, with b couples between.
    for (n, size, b, accepted) in [(5, 817, 1, true), (16, 253, 8, false), (33, 123, 1, false)] {
        let (term, groups) = coupled_copies(n, size, b);
        let declared = 2 * (1 + size) + 4 * b + 2 * n + 1;
        let compared = 2 * (b as u64 + 1);
        let numbers = if accepted { (0, 0, compared + 1, 1) } else { (11, 3 + declared, compared, 1) };
        t.check("a body of about 4,096 bytes", file(&term, &groups), numbers);
    }
    for (m, b) in [(50, 1), (50, 100), (3, 200)] {
        for (n, accepted) in [(251 - m - b, true), (252 - m - b, false)] {
            let (term, groups) = coupled_scopes(m, n, b);
            let declared = 2 * (2 * m + 1) + 4 * b + 2 * n + 7;
            let compared = 2 * (b as u64 + 2);
            let numbers = if accepted { (0, 0, compared + 1, 1) } else { (11, 3 + declared, compared, 1) };
            t.check("a body of about 253 scopes", file(&term, &groups), numbers);
        }
    }
}

/// The refused files of the shelf, with the numbers of their check and what explaining adds.
fn refusals() -> impl Iterator<Item = (&'static Vec<u8>, Numbers, [u64; 3])> {
    let answers: [(Numbers, [u64; 3]); 22] = [
        ((1, 0, 0, 0), [0; 3]),
        ((1, 0, 0, 0), [0; 3]),
        ((2, 0, 0, 0), [0; 3]),
        ((2, 0, 0, 0), [0; 3]),
        ((3, 2, 0, 0), [0; 3]),
        ((4, 0, 0, 0), [0; 3]),
        ((5, 2, 0, 0), [0; 3]),
        ((6, 506, 0, 0), [0; 3]),
        ((7, 0, 0, 1), [0; 3]),
        ((7, 18, 4, 1), [0; 3]),
        ((8, 0, 0, 1), [1, 0, 0]),
        ((8, 10, 2, 1), [1, 0, 0]),
        ((9, 4, 0, 3), [0; 3]),
        ((9, 8, 1, 3), [0; 3]),
        ((10, 4, 0, 3), [1, 0, 1]),
        ((10, 8, 1, 3), [1, 0, 1]),
        ((11, 508, 0, 2), [0; 3]),
        ((11, 514, 3, 2), [0; 3]),
        ((12, 4, 0, 2), [1, 1, 0]),
        ((12, 8, 1, 3), [1, 1, 0]),
        ((13, 4, 0, 1), [0; 3]),
        ((13, 18, 1, 3), [0; 3]),
    ];
    assert_eq!(shelf().refused.len(), answers.len());
    shelf().refused.iter().zip(answers).map(|(file, (numbers, ground))| (file, numbers, ground))
}

/// Sets: the readings E1 to E6, heads, cuts, lengths, and each number as the answer of a file of the set.
fn sets(t: &mut Table) {
    const NOT_A_SET: u64 = 16;
    let tau = file(&[0], &[]);
    let e2 = |groups: usize| file(&[0xff, 0, 0xff, 1, 0xfe, 1, 0xff, 2, 1], &empty_groups(groups));
    let three = [e2(1), tau.clone(), e2(1)];
    t.set("E1: two of E2", &set(&[e2(1), e2(1)]), 2, (0, 0, 2, 0));
    t.set("one file", &set(&[&tau]), 1, (0, 0, 0, 0));
    t.set("three files", &set(&three), 3, (0, 0, 2, 0));
    t.set("E2: another tag", &[5, 0, 4, 1, 0, 1, 0, 6], 0, (NOT_A_SET, 7, 0, 0));
    t.set("E2: the empty set", &[], 0, (NOT_A_SET, 0, 0, 0));
    t.set("E2: a head cut short", &[5, 0], 0, (NOT_A_SET, 0, 0, 0));
    t.set("E2: a file cut short", &[5, 0, 5, 1, 0, 1, 0], 0, (NOT_A_SET, 0, 0, 0));
    t.set("E3: a tag before any check", &[5, 0, 0, 6, 0, 0], 0, (NOT_A_SET, 3, 0, 0));
    t.set("E3: a cut before any check", &[5, 0, 0, 5, 0, 1], 0, (NOT_A_SET, 3, 0, 0));
    t.set("E3: the first of two tags", &[5, 0, 0, 4, 0, 0, 6, 0, 0], 0, (NOT_A_SET, 3, 0, 0));
    t.set("E4: an empty file", &[5, 0, 4, 1, 0, 1, 0, 5, 0, 0], 1, (1, 0, 0, 0));
    t.set("E5: its own place and count", &set(&[e2(1), e2(2)]), 1, (13, 18, 1, 3));
    t.set("a file and no set", &tau, 0, (NOT_A_SET, 0, 0, 0));
    t.set("a set in a set", &set(&[set(&[&tau])]), 0, (2, 0, 0, 0));
    t.set("a length that takes in the next head", &[5, 0, 5, 1, 0, 1, 0, 5, 0, 4, 1, 0, 1, 0], 0, (NOT_A_SET, 8, 0, 0));
    t.set("a length that takes in the next field", &[5, 0, 11, 1, 0, 1, 0, 5, 0, 4, 1, 0, 1, 0], 0, (2, 4, 0, 0));
    t.set("a length that leaves a byte", &[5, 0, 3, 1, 0, 1, 0, 5, 0, 4, 1, 0, 1, 0], 0, (NOT_A_SET, 6, 0, 0));
    for tag in (0..=255).filter(|tag| *tag != 5) {
        t.set("the second tag", &joined(&[&field(5, &e2(1)), &field(tag, &tau)]), 0, (NOT_A_SET, 21, 0, 0));
    }
    for length in 0..49 {
        // Fields of 21, 7 and 21 bytes.
        let (files, numbers) = match length {
            0..=20 => (0, (NOT_A_SET, 0, 0, 0)),
            21 => (1, (0, 0, 1, 0)),
            22..=27 => (0, (NOT_A_SET, 21, 0, 0)),
            28 => (2, (0, 0, 1, 0)),
            _ => (0, (NOT_A_SET, 28, 0, 0)),
        };
        t.set("three files cut", &set(&three)[..length], files, numbers);
    }

    let empty = times(21_845, &[5, 0, 0]);
    t.set("E6: 21,845 empty files", &empty, 0, (1, 0, 0, 0));
    t.set("E6: one byte more", &joined(&[&empty, &[5]]), 0, (4, 0, 0, 0));
    t.set("E6: 65,536 bytes, no head", &[0; 65_536], 0, (4, 0, 0, 0));
    t.set("E6: 65,535 bytes, no head", &[0; 65_535], 0, (NOT_A_SET, 0, 0, 0));
    t.set("65,535 bytes, the last head cut short", &[5; 65_535], 0, (NOT_A_SET, 64_400, 0, 0));
    for length in [65_533, 65_534, 65_535] {
        let files = files_for(length);
        assert_eq!(set(&files).len(), length);
        t.set("about 65,535 bytes", &set(&files), files.len() as u64, (0, 0, 0, 0));
    }
    for length in [65_536, 65_537, 65_538, 65_539, 131_071] {
        t.set("over 65,535 bytes", &set(&files_for(length)), 0, (4, 0, 0, 0));
    }
    let long = |bytes: usize| set(&[field(1, &vec![0; bytes])]);
    t.set("one file of 65,532 bytes", &long(65_529), 0, (4, 0, 0, 0));
    t.set("one file of 65,533 bytes", &long(65_530), 0, (4, 0, 0, 0));
    let groups = |n: usize| set(&[file(&[0], &empty_groups(n))]);
    t.set("10,921 empty groups in a set", &groups(10_921), 0, (13, 4, 0, 1));
    t.set("9,362 files", &times(9_362, &set(&[&tau])), 9_362, (0, 0, 0, 0));
    t.set("9,361 files before an empty term", &joined(&[&times(9_361, &set(&[&tau])), &[5, 0, 3, 1, 0, 0]]), 9_361, (3, 0, 0, 0));
    t.set("300 times E2", &times(300, &set(&[e2(1)])), 300, (0, 0, 300, 0));
    let deep = file(&nested(2_047), &[]);
    t.set("2,047 deep, twice", &set(&[&deep, &tau, &deep]), 3, (0, 0, 0, 0));

    // After E3, with two comparisons, and before one more file that is refused, with 5.
    let e3 = [0xff, 0, 0xff, 1, 0xfe, 2, 0xff, 0, 0xfe, 2, 0xff, 1, 1];
    let e3 = file(&e3, &[no_steps(), group(vec![], local(0))]);
    let unbound = file(&[1], &[]);
    for (refused, numbers, _) in refusals() {
        t.set("each refusal, first", &set(&[refused, &e3, &unbound]), 0, numbers);
        t.set("each refusal, second", &set(&[&e3, refused, &unbound]), 1, numbers);
        t.set("each refusal, third", &set(&[&e3, &tau, refused]), 2, numbers);
        t.set("each refusal, a head after it", &joined(&[&set(&[&e3, refused]), &[5]]), 0, (NOT_A_SET, 37 + refused.len(), 0, 0));
    }
}

/// The readings G1 to G5.
fn explained(t: &mut Table) {
    let e2 = [0xff, 0, 0xff, 1, 0xfe, 1, 0xff, 2, 1];
    let differing = file(&[0xff, 0, 0xff, 1, 0xfe, 1, 0xff, 0, 1], &empty_groups(1));
    t.bodies("G1: condition 12, and G2", &differing, (4, 0, 2), [&[2], &[0]], 0);
    let inside = file(&[0xff, 0, 0xff, 0xff, 1, 0, 0xfe, 1, 0xff, 0xff, 0, 0, 0], &empty_groups(1));
    t.bodies("G1: a difference inside, and G2", &inside, (6, 0, 1), [&[0xff, 2, 0], &[0xff, 0, 0]], 1);

    let left = |kind: u8, place: usize| file(&e2, &[group(vec![Step { kind, place }], vec![])]);
    t.ground("G3: kind", &left(9, 65_535), (10, 4, 0, 3), [0, 0, KIND]);
    t.ground("G3: place", &left(LOCAL, 1), (10, 4, 0, 3), [0, 0, PLACE]);
    t.ground("G3: byte", &left(REMOVAL, 0), (10, 4, 0, 3), [0, 0, BYTE]);
    t.ground("G3: no partner", &left(LOCAL, 0), (10, 4, 0, 3), [0, 0, NO_PARTNER]);
    // [p:τ][a:p]⟨a⟩[⟨p⟩[q:τ]q]1.
    let pair = [0xff, 0, 0xff, 1, 0xfe, 1, 0xff, 0xfe, 2, 0xff, 0, 1, 1];
    let right = |steps: Vec<Step>| file(&pair, &[no_steps(), group(vec![], steps)]);
    t.ground("G3: still used", &right(removal(0)), (10, 4, 1, 3), [1, 0, STILL_USED]);
    t.ground("G3: byte, on the right", &right(local(3)), (10, 4, 1, 3), [1, 0, BYTE]);
    t.ground("G3: the third step", &right([local(4), removal(0), removal(0)].concat()), (10, 4, 1, 3), [1, 2, BYTE]);
    let both = file(&pair, &[no_steps(), group(local(1), removal(0))]);
    t.ground("the left steps first", &both, (10, 4, 1, 3), [0, 0, PLACE]);
    let of_two = file(&pair, &[group(vec![], removal(0)), group(local(1), vec![])]);
    t.ground("the first group first", &of_two, (10, 7, 0, 3), [1, 0, BYTE]);

    t.ground("G4: two wait", &file(&[0xfe, 0, 0xfe, 0, 0], &[]), (8, 2, 0, 1), [2, 0, 0]);
    t.ground("G4: one waits", &file(&[0xfe, 0, 0], &[]), (8, 0, 0, 1), [1, 0, 0]);
    t.ground("G5: accepted", &file(&e2, &empty_groups(1)), (0, 0, 1, 3), [0; 3]);
    for (refused, numbers, ground) in refusals().filter(|(_, numbers, _)| numbers.0 != 12) {
        t.ground("G5: each refusal", refused, numbers, ground);
    }
    for length in 0..differing.len() {
        let numbers = match length {
            0..=11 => (1, 0, 0, 0),
            12 => (9, 4, 0, 2),
            13..=14 => (1, 12, 0, 0),
            _ => (1, 15, 0, 0),
        };
        t.ground("G5: condition 12 cut", &differing[..length], numbers, [0; 3]);
    }
}

const KIND: u64 = 1;
const PLACE: u64 = 2;
const BYTE: u64 = 3;
const NO_PARTNER: u64 = 4;
const STILL_USED: u64 = 5;

/// Every condition on both sides, for every kind, at the first step and later. The term is [p:τ] and then [z:T]⟨z⟩[T]τ, so that
/// both bodies are T.
fn explained_steps(t: &mut Table) {
    let step = |kind: u8, place: usize| vec![Step { kind, place }];
    // The term's items after [p:τ], T as it stands there and as it stands after z; the steps; the number and the condition.
    let mut unmet = |items: &[u8], t1: &[u8], t2: &[u8], steps: Vec<Step>, number: u64, condition: u64| {
        let term = joined(&[&[0xff, 0], items, &[0xff], t1, &[0xfe, 1, 0xff], t2, &[0]]);
        let compared = 2 * t1.iter().filter(|byte| **byte == 0xfe).count();
        let numbers = (10, 3 + items.len() + t1.len(), compared as u64, 1);
        for (side, last) in [group(steps.clone(), vec![]), group(vec![], steps)].into_iter().enumerate() {
            let groups = [empty_groups(compared), vec![last]].concat();
            t.ground("a condition on either side", &file(&term, &groups), numbers, [side as u64, number, condition]);
        }
    };
    // ⟨p⟩[τ]1: kinds 1 and 3 can be applied at 4 and at 0.
    let (pair, after) = ([0xfe, 1, 0xff, 0, 1], [0xfe, 2, 0xff, 0, 1]);
    for kind in [0, 4, 5, 9, 127, 128, 255] {
        for place in [0, 4, 5, 65_535] {
            unmet(&[], &pair, &after, step(kind, place), 0, KIND);
        }
        unmet(&[], &pair, &after, [local(4), step(kind, 0)].concat(), 1, KIND);
        unmet(&[], &pair, &after, [local(4), removal(0), step(kind, 1)].concat(), 2, KIND);
    }
    for kind in [LOCAL, REMOVAL, SUBSTITUTION] {
        for place in [5, 6, 255, 256, 1_024, 65_535] {
            unmet(&[], &pair, &after, step(kind, place), 0, PLACE);
        }
        unmet(&[], &pair, &after, [whole(0), step(kind, 1)].concat(), 1, PLACE);
        unmet(&[], &pair, &after, [local(4), removal(0), step(kind, 4)].concat(), 2, PLACE);
        let not_there: &[usize] = if kind == LOCAL { &[0, 2, 3] } else { &[1, 2, 3, 4] };
        for place in not_there {
            unmet(&[], &pair, &after, step(kind, *place), 0, BYTE);
            unmet(&[], &pair, &after, [local(4), step(kind, *place)].concat(), 1, BYTE);
        }
    }
    for kind in [REMOVAL, SUBSTITUTION] {
        unmet(&[], &pair, &after, [whole(0), step(kind, 0)].concat(), 1, BYTE);
        unmet(&[], &pair, &after, [local(4), removal(0), step(kind, 0)].concat(), 2, BYTE);
    }
    // τ alone, and p alone: the byte before the partner.
    unmet(&[], &[0], &[0], local(0), 0, BYTE);
    unmet(&[], &[1], &[2], local(0), 0, NO_PARTNER);
    for kind in [REMOVAL, SUBSTITUTION] {
        unmet(&[], &[0], &[0], step(kind, 0), 0, BYTE);
        unmet(&[], &[1], &[2], step(kind, 0), 0, BYTE);
        unmet(&[], &[0xff, 1, 1], &[0xff, 2, 1], step(kind, 0), 0, BYTE);
    }
    // p is single in the frame, and [p]1 in the body.
    unmet(&[], &pair, &after, local(1), 0, NO_PARTNER);
    unmet(&[], &pair, &after, [local(4), local(4)].concat(), 1, NO_PARTNER);
    unmet(&[], &pair, &after, [local(4), removal(0), local(0)].concat(), 2, NO_PARTNER);
    unmet(&[], &[0xff, 1, 1], &[0xff, 2, 1], local(2), 0, NO_PARTNER);
    // [a:p][f:[p]τ] and T = ⟨a⟩f, whose applicator goes with no abstractor of the body.
    let items = [0xff, 1, 0xff, 0xff, 2, 0];
    for kind in [REMOVAL, SUBSTITUTION] {
        unmet(&items, &[0xfe, 2, 1], &[0xfe, 3, 2], step(kind, 0), 0, NO_PARTNER);
    }
    unmet(&items, &[0xfe, 2, 1], &[0xfe, 3, 2], local(2), 0, NO_PARTNER);
    unmet(&[], &pair, &after, removal(0), 0, STILL_USED);
    // ⟨p⟩⟨p⟩[τ][τ]1: the outer couple is used.
    let (nested, after) = ([0xfe, 1, 0xfe, 1, 0xff, 0, 0xff, 0, 1], [0xfe, 2, 0xfe, 2, 0xff, 0, 0xff, 0, 1]);
    unmet(&[], &nested, &after, removal(0), 0, STILL_USED);
    unmet(&[], &nested, &after, [removal(2), removal(0)].concat(), 1, STILL_USED);
    unmet(&[], &nested, &after, [removal(2), removal(2)].concat(), 1, BYTE);
    unmet(&[], &nested, &after, [local(8), removal(0), local(4)].concat(), 2, NO_PARTNER);
    // Used in a later K or U.
    unmet(&[], &[0xfe, 1, 0xff, 0, 0xff, 1, 0], &[0xfe, 2, 0xff, 0, 0xff, 1, 0], removal(0), 0, STILL_USED);
    let (in_k, after) = ([0xfe, 1, 0xff, 0, 0xfe, 1, 0xff, 0, 0], [0xfe, 2, 0xff, 0, 0xfe, 1, 0xff, 0, 0]);
    unmet(&[], &in_k, &after, removal(0), 0, STILL_USED);
    unmet(&[], &in_k, &after, [removal(4), removal(0), removal(0)].concat(), 2, BYTE);

    // [a:τ][f:[τ]1]⟨a⟩⟨f⟩[[τ]1]1.
    let waiting = [0xff, 0, 0xff, 0xff, 0, 1, 0xfe, 2, 0xfe, 1, 0xff, 0xff, 0, 1, 1];
    let steps = |left: Vec<Step>, right: Vec<Step>| file(&waiting, &[group(left, right), no_steps()]);
    t.ground("D4: W takes no part", &steps(local(2), local(2)), (10, 8, 0, 3), [0, 0, NO_PARTNER]);
    t.ground("D4: W takes no part on the right", &steps(vec![], local(2)), (10, 8, 0, 3), [1, 0, NO_PARTNER]);
    // [a:τ]⟨a⟩[b:τ][g:[τ]1]⟨g⟩[[τ]1]τ.
    let paired = [0xff, 0, 0xfe, 1, 0xff, 0, 0xff, 0xff, 0, 1, 0xfe, 1, 0xff, 0xff, 0, 1, 0];
    let frame = file(&paired, &[no_steps(), group(local(2), vec![])]);
    t.ground("D4: the frame takes no part", &frame, (10, 10, 1, 1), [0, 0, NO_PARTNER]);
    // [p:τ][a:p][f:[p]τ] and T = ⟨a⟩⟨a⟩[p]f.
    let items = [0xff, 1, 0xff, 0xff, 2, 0];
    let (t1, t2) = ([0xfe, 2, 0xfe, 2, 0xff, 3, 2], [0xfe, 3, 0xfe, 3, 0xff, 4, 3]);
    let term = joined(&[&[0xff, 0], &items, &[0xff], &t1, &[0xfe, 1, 0xff], &t2, &[0]]);
    for kind in [removal, whole] {
        for (side, last) in [group(kind(0), vec![]), group(vec![], kind(0))].into_iter().enumerate() {
            let groups = [empty_groups(4), vec![last]].concat();
            t.ground("D5: nothing left to match", &file(&term, &groups), (10, 16, 4, 1), [side as u64, 0, NO_PARTNER]);
        }
    }
    // [p:τ][a:p] and T = ⟨a⟩⟨p⟩[b:τ][b]τ; the U of ⟨a⟩ is p by a step.
    let (t1, t2) = ([0xfe, 1, 0xfe, 2, 0xff, 0, 0xff, 1, 0], [0xfe, 2, 0xfe, 3, 0xff, 0, 0xff, 1, 0]);
    let term = joined(&[&[0xff, 0, 0xff, 1, 0xff], &t1, &[0xfe, 1, 0xff], &t2, &[0]]);
    let of_t = [no_steps(), group(vec![], local(0))];
    let with = |left: Vec<Step>, right: Vec<Step>| file(&term, &[&of_t[..], &of_t[..], &[group(left, right)]].concat());
    t.ground("D5: used in the outer U", &with(removal(2), vec![]), (10, 14, 4, 1), [0, 0, STILL_USED]);
    t.ground("D5: used in the outer U, right", &with(vec![], removal(2)), (10, 14, 4, 1), [1, 0, STILL_USED]);
    let reached: [&[u8]; 2] = [&[0xfe, 2, 0xff, 3, 0], &[0xfe, 3, 0xff, 0, 0]];
    t.bodies("D5: substituted, and the outer couple removed", &with(whole(2), removal(0)), (14, 4, 1), reached, 1);
    // E3 with kind 3 on a frame pair's variable.
    let e3 = [0xff, 0, 0xff, 1, 0xfe, 2, 0xff, 0, 0xfe, 2, 0xff, 1, 1];
    t.ground("A3", &file(&e3, &[no_steps(), group(vec![], whole(0))]), (10, 8, 1, 3), [1, 0, BYTE]);
    // [p:τ][a:p][f:[p][p]p]⟨⟨a⟩⟨a⟩f⟩[p]τ: ⟨a⟩⟨a⟩[p][p]p on the left, and nothing left to match after one step (D5).
    let copied = [0xff, 0, 0xff, 1, 0xff, 0xff, 2, 0xff, 3, 4, 0xfe, 0xfe, 2, 0xfe, 2, 1, 0xff, 3, 0];
    for kind in [removal, whole] {
        let twice = file(&copied, &[no_steps(), no_steps(), group([kind(0), kind(2)].concat(), vec![])]);
        t.ground("D6: nothing at 2 is left", &twice, (10, 10, 2, 1), [0, 1, BYTE]);
    }

    // In a comparison of copied text: [p:τ][f:[p]τ][a:p]⟨a⟩f compares p with p, of one byte, at f's abstractor.
    let in_copy = [0xff, 0, 0xff, 0xff, 1, 0, 0xff, 2, 0xfe, 1, 2];
    for (place, condition) in [(0, NO_PARTNER), (1, PLACE)] {
        let left = file(&in_copy, &[group(local(place), vec![])]);
        t.ground("in copied text, left", &left, (10, 8, 0, 2), [0, 0, condition]);
        let right = file(&in_copy, &[group(vec![], local(place))]);
        t.ground("in copied text, right", &right, (10, 8, 0, 2), [1, 0, condition]);
    }

    // 5,000 steps that can be applied.
    let (term, mut groups) = long_unfolding(50, 100);
    groups[50].left.extend(removal(0));
    let compared = 50;
    let place = 2 + 4 * 50 + 1 + 199;
    t.ground("after 5,000 steps", &file(&term, &groups), (10, place, compared, 3), [0, 5_000, BYTE]);
    groups[50].left.pop();
    groups[50].right.extend(removal(199));
    t.ground("after 5,000 steps on the other side", &file(&term, &groups), (10, place, compared, 3), [1, 0, PLACE]);
    // A body of 4,097 bytes comes after the step, and before the next.
    let (term, mut groups) = stepped_copies(16, 255);
    groups[1].left.extend(step(9, 0));
    t.ground("outgrown before a bad step", &file(&term, &groups), (11, 2 + 2 * 256 + 34, 1, 2), [0; 3]);
}

/// How many wait: those of W at τ, and none of another state's.
fn explained_waiting(t: &mut Table) {
    let mut plain = |name: &'static str, term: &[u8], groups: usize, numbers: Numbers, many: u64| {
        t.ground(name, &file(term, &empty_groups(groups)), numbers, [many, 0, 0]);
    };
    let applied = |n: usize, end: &[u8]| joined(&[&times(n, &[0xfe, 0]), end]);
    for n in [1, 2, 3, 17, 255, 256, 1_000, 2_047] {
        plain("in the term's own text", &applied(n, &[0]), 0, (8, 2 * n - 2, 0, 1), n as u64);
    }
    for n in [1, 2, 3, 17, 255, 256, 1_000, 2_046] {
        let term = joined(&[&[0xff, 0], &applied(n, &[1])]);
        plain("in copied text", &term, 0, (8, 2 * n, 0, 2), n as u64);
    }
    plain("2,047 in each other", &joined(&[&[0xfe; 2_047], &[0; 2_048]]), 0, (8, 2_046, 0, 1), 1);
    plain("in a K, one before it", &[0xfe, 0, 0xfe, 0xfe, 0, 0, 0], 0, (8, 3, 0, 1), 1);
    plain("in a K, two before it", &[0xfe, 0, 0xfe, 0, 0xfe, 0xfe, 0, 0xfe, 0, 0, 0], 0, (8, 7, 0, 1), 2);
    plain("in a U, two before it", &[0xfe, 0, 0xfe, 0, 0xff, 0xfe, 0, 0, 0], 0, (8, 5, 0, 1), 1);
    plain("in a U, copied", &[0xff, 0, 0xfe, 1, 0xff, 0xfe, 1, 0xfe, 1, 0xfe, 1, 1, 0], 0, (8, 9, 0, 1), 3);
    plain("one is taken", &[0xff, 0, 0xfe, 1, 0xfe, 1, 0xff, 0, 0], 1, (8, 2, 1, 1), 1);
    plain("two of five are taken", &joined(&[&[0xff, 0], &times(5, &[0xfe, 1]), &declarations(2), &[0]]), 2, (8, 6, 2, 1), 3);
    // [p:τ][f:[τ][τ]τ]⟨p⟩..f: two are taken by copied abstractors.
    let f = [0xff, 0, 0xff, 0xff, 0, 0xff, 0, 0];
    for n in [3, 4, 20] {
        let term = joined(&[&f, &times(n, &[0xfe, 2]), &[1]]);
        plain("two are taken in copied text", &term, 2, (8, 8 + 2 * (n - 3), 2, 2), n as u64 - 2);
    }
    // [p:τ][f:[τ]τ][g:⟨p⟩f]⟨p⟩⟨p⟩g: the copied ⟨p⟩ goes with the copied [τ], and both of W wait.
    let g = [0xff, 0, 0xff, 0xff, 0, 0, 0xff, 0xfe, 2, 1, 0xfe, 3, 0xfe, 3, 1];
    plain("none is taken where Y has one", &g, 1, (8, 12, 1, 3), 2);
    let (term, groups) = all_four(509, 1_015);
    t.ground("8,191 bytes: R, W, Y and B", &file(&term, &groups), (8, 2_060, 3, 3), [1, 0, 0]);
    let (term, groups) = all_four(509, 1_016);
    t.ground("8,193 bytes: R, W, Y and B", &file(&term, &groups), (11, 4_094, 3, 3), [0; 3]);
}

/// The bodies of 12 as the steps reach them.
fn explained_bodies(t: &mut Table) {
    // [p:τ][z:T]⟨z⟩[T]τ with T = ⟨p⟩[τ][1]2.
    let term = [0xff, 0, 0xff, 0xfe, 1, 0xff, 0, 0xff, 1, 2, 0xfe, 1, 0xff, 0xfe, 2, 0xff, 0, 0xff, 1, 2, 0];
    let with = |left: Vec<Step>, right: Vec<Step>| file(&term, &[no_steps(), no_steps(), group(left, right)]);
    let body = |u: u8, v: u8| [0xfe, 2, 0xff, 0, 0xff, u, v];
    let substituted = [0xff, 2, 3];
    let at = (10, 2, 1);
    t.bodies("a left step", &with(local(5), vec![]), at, [&body(3, 2), &body(1, 2)], 5);
    t.bodies("a right step", &with(vec![], local(5)), at, [&body(1, 2), &body(3, 2)], 5);
    t.bodies("the last byte", &with(vec![], local(6)), at, [&body(1, 2), &body(1, 4)], 6);
    t.bodies("two differences", &with(local(5), local(6)), at, [&body(3, 2), &body(1, 4)], 5);
    t.bodies("two left steps", &with([local(6), local(5)].concat(), vec![]), at, [&body(3, 4), &body(1, 2)], 5);
    t.bodies("a shorter left body", &with(whole(0), vec![]), at, [&substituted, &body(1, 2)], 0);
    let parts = [local(6), local(5), removal(0)].concat();
    t.bodies("a shorter right body", &with(local(6), parts), at, [&body(1, 4), &substituted], 0);
    // E4.
    let e3 = [0xff, 0, 0xff, 1, 0xfe, 2, 0xff, 0, 0xfe, 2, 0xff, 1, 1];
    t.bodies("E4", &file(&e3, &empty_groups(2)), (8, 1, 3), [&[3], &[1]], 0);
    // [p:τ][a:p][f:[p][p]p]⟨⟨a⟩⟨a⟩f⟩[p]τ.
    let copied = [0xff, 0, 0xff, 1, 0xff, 0xff, 2, 0xff, 3, 4, 0xfe, 0xfe, 2, 0xfe, 2, 1, 0xff, 3, 0];
    let steps = |left: Vec<Step>| file(&copied, &[no_steps(), no_steps(), group(left, vec![])]);
    t.bodies("D6: the type of K", &steps(vec![]), (10, 2, 1), [&[0xfe, 2, 0xfe, 2, 0xff, 3, 0xff, 4, 5], &[3]], 0);
    t.bodies("D6: the outer couple alone", &steps(whole(0)), (10, 2, 1), [&[0xfe, 2, 0xff, 3, 4], &[3]], 0);
    let defined = [0xff, 0, 0xff, 1, 0xfe, 1, 0xff, 0xfe, 2, 0xfe, 2, 0xff, 0, 0xff, 0, 1, 0];
    let steps = |right: Vec<Step>| file(&defined, &[no_steps(), no_steps(), group(vec![], right)]);
    t.bodies("D7: no step", &steps(vec![]), (4, 2, 1), [&[2], &[0xfe, 2, 0xfe, 2, 0xff, 0, 0xff, 0, 1]], 0);
    t.bodies("D7: the outer couple alone", &steps(whole(0)), (4, 2, 1), [&[2], &[0xfe, 2, 0xff, 0, 3]], 0);
    // [p:τ][f:[p]τ][a:τ]⟨a⟩f: compared in copied text.
    let in_copy = [0xff, 0, 0xff, 0xff, 1, 0, 0xff, 0, 0xfe, 1, 2];
    t.bodies("in copied text", &file(&in_copy, &empty_groups(1)), (8, 0, 2), [&[0], &[3]], 0);

    // ⟨[V]1⟩[τ]τ: a type of 4,095 bytes.
    let v = nested(1_023);
    let typed = joined(&[&[0xfe, 0xff], &v, &[1, 0xff, 0, 0]]);
    t.bodies("a left body of 4,095 bytes", &file(&typed, &empty_groups(1)), (0, 0, 1), [&joined(&[&[0xff], &v, &v]), &[0]], 0);
    // [D][D]..τ, D of 177 bytes replaced 23 times: 4,095 bytes.
    let (term, groups) = stepped_copies(23, 177);
    let steps = &groups[1].left;
    let place = 2 + 2 * 178 + 48;
    let copies: Vec<u8> = (0..23).flat_map(|d| joined(&[&[0xff, 0xff], &nested(87), &[4 + d]])).collect();
    let (all, but_one) = (joined(&[&copies, &[0]]), joined(&[&copies[..22 * 178], &[0xff, 24, 0]]));
    let none: Vec<u8> = (0..23).flat_map(|d| [0xff, 2 + d]).chain([0]).collect();
    let end = |left: &[Step], right: &[Step]| file(&term, &[no_steps(), group(left.to_vec(), right.to_vec())]);
    t.bodies("4,095 bytes on the left", &end(steps, &steps[..22]), (place, 1, 2), [&all, &but_one], 22 * 178 + 1);
    t.bodies("4,095 bytes on the right", &end(&[], steps), (place, 1, 2), [&none, &all], 1);
}

/// Lines put before E1 and E3, and among those of E3, with the groups as they were.
fn in_front(t: &mut Table) {
    let lines = [0xff, 0, 0xfe, 1, 0xff, 0];
    let e1 = [0xff, 0, 0xff, 1, 1];
    let e3 = [0xff, 0, 0xff, 1, 0xfe, 2, 0xff, 0, 0xfe, 2, 0xff, 1, 1];
    let groups = |place| [no_steps(), no_steps(), group(vec![], local(place))];
    t.plain("the lines [τ]⟨1⟩[τ]", &joined(&[&lines, &[0]]), 1, (0, 0, 1, 1));
    t.check("these before E3", file(&joined(&[&lines, &e3]), &groups(0)), (0, 0, 3, 3));
    t.check("E3's step moved by them", file(&joined(&[&lines, &e3]), &groups(lines.len())), (10, 14, 2, 3));
    // [τ][2] between the lines of E3, and a K for the second: [τ][τ][2]⟨1⟩[3]⟨4⟩[τ]⟨2⟩[1]1.
    let grown = [0xff, 0, 0xff, 0, 0xff, 2, 0xfe, 1, 0xff, 3, 0xfe, 4, 0xff, 0, 0xfe, 2, 0xff, 1, 1];
    t.check("two lines among those of E3, and a pair made", file(&grown, &groups(0)), (0, 0, 3, 3));
    let not_lifted = [0xff, 0, 0xff, 0, 0xff, 2, 0xfe, 1, 0xff, 3, 0xfe, 2, 0xff, 0, 0xfe, 2, 0xff, 1, 1];
    t.check("the same with an index not lifted", file(&not_lifted, &groups(0)), (12, 10, 1, 3));
    t.plain("251 lines before E1", &joined(&[&declarations(251), &e1]), 0, (0, 0, 0, 3));
    t.plain("252 lines before E1", &joined(&[&declarations(252), &e1]), 0, (6, 506, 0, 0));
}
