//! The ground of a refusal: document 02's readings, what is written and what is kept, and one explanation whichever way a file is
//! explained.

use bijterne::{check, check_set, explain, explain_here, CheckAnswer, Checker, Condition, Explanation, Ground, Side};
use bijterne::{CHECK_STACK_BYTES, LONGEST_BODY};
use std::thread;

/// What a buffer holds before the call; no body here has it.
const KEPT: u8 = 0xaa;

type Steps<'a> = &'a [(u8, u16)];

/// No steps on either side.
const EMPTY: (Steps, Steps) = (&[], &[]);

fn field(tag: u8, body: &[u8]) -> Vec<u8> {
    [&[tag, (body.len() >> 8) as u8, body.len() as u8], body].concat()
}

fn file(term: &[u8], groups: &[(Steps, Steps)]) -> Vec<u8> {
    let bytes = |steps: Steps| steps.iter().flat_map(|&(kind, place)| [kind, (place >> 8) as u8, place as u8]).collect::<Vec<_>>();
    let groups = groups.iter().map(|(left, right)| [field(2, &bytes(left)), field(3, &bytes(right))].concat());
    [vec![field(1, term)], groups.collect()].concat().concat()
}

/// A file, its explanation, and the two bodies, which are empty but for 12.
#[derive(Clone)]
struct Row {
    file: Vec<u8>,
    explanation: Explanation,
    left: Vec<u8>,
    right: Vec<u8>,
}

fn answer([number, place, comparisons, degree]: [usize; 4]) -> CheckAnswer {
    CheckAnswer { number: number as u32, place, comparisons, degree }
}

fn row(file: Vec<u8>, numbers: [usize; 4], ground: Ground) -> Row {
    Row { file, explanation: Explanation { answer: answer(numbers), ground }, left: vec![], right: vec![] }
}

fn differ(file: Vec<u8>, numbers: [usize; 4], left: &[u8], right: &[u8], difference: usize) -> Row {
    let ground = Ground::Bodies { left: left.len(), right: right.len(), difference };
    Row { left: left.to_vec(), right: right.to_vec(), ..row(file, numbers, ground) }
}

/// [a:tau] [x:a] <x> [y:a] y: the bodies are a, twice.
const E2: [u8; 9] = [0xff, 0, 0xff, 1, 0xfe, 1, 0xff, 2, 1];

/// Condition 12's example: [a:tau] [x:a] <x> [y:tau] y.
const UNLIKE: [u8; 9] = [0xff, 0, 0xff, 1, 0xfe, 1, 0xff, 0, 1];

/// [A:tau] [x:A] <A> [B:tau] <x> [y:B] y.
const E3: [u8; 13] = [0xff, 0, 0xff, 1, 0xfe, 2, 0xff, 0, 0xfe, 2, 0xff, 1, 1];

/// [a:tau] [x:a] <x> [y:<a>[b:tau]b] y.
const COUPLE_RIGHT: [u8; 13] = [0xff, 0, 0xff, 1, 0xfe, 1, 0xff, 0xfe, 2, 0xff, 0, 1, 1];

/// [a:tau] [x:<a>[b:tau]b] <x> [y:<a>[b:tau]b] y: in the third comparison both bodies are `COUPLE`.
const COUPLES: [u8; 17] = [0xff, 0, 0xff, 0xfe, 1, 0xff, 0, 1, 0xfe, 1, 0xff, 0xfe, 2, 0xff, 0, 1, 1];
const COUPLE: [u8; 5] = [0xfe, 2, 0xff, 0, 1];

/// [a:tau] [f:[x:a]tau] [x:a] [z:<x>f] <z> [y:<x>f] y: in the third comparison both bodies are an applicator and a variable.
const APPLIED: [u8; 19] = [0xff, 0, 0xff, 0xff, 1, 0, 0xff, 2, 0xff, 0xfe, 1, 2, 0xfe, 1, 0xff, 0xfe, 2, 3, 1];

/// [a:tau] [f:[x:a]tau] <f> [g:[x:<a>[b:tau]b]tau] tau.
const FUNCTIONS: [u8; 17] = [0xff, 0, 0xff, 0xff, 1, 0, 0xfe, 1, 0xff, 0xff, 0xfe, 2, 0xff, 0, 1, 0, 0];

/// Abstractors or applicators, each inside the one before, around a term.
fn deep(wagon: u8, depth: usize, inmost: &[u8]) -> Vec<u8> {
    [vec![wagon; depth], inmost.to_vec(), vec![0; depth]].concat()
}

fn bodies() -> Vec<Row> {
    let type_of_function = [0xff, 0, 0xff, 0xff, 1, 0, 0xfe, 1, 0xff, 0xff, 0, 0, 0];
    vec![
        // G1
        differ(file(&UNLIKE, &[EMPTY]), [12, 4, 0, 2], &[2], &[0], 0),
        differ(file(&type_of_function, &[EMPTY]), [12, 6, 0, 1], &[0xff, 2, 0], &[0xff, 0, 0], 1),
        // E4
        differ(file(&E3, &[EMPTY, EMPTY]), [12, 8, 1, 3], &[3], &[1], 0),
        // as steps carry them, or none
        differ(file(&COUPLES, &[EMPTY, EMPTY, (&[(1, 4)], &[])]), [12, 8, 2, 3], &[0xfe, 2, 0xff, 0, 3], &COUPLE, 4),
        differ(file(&COUPLES, &[EMPTY, EMPTY, (&[(1, 4), (2, 0)], &[])]), [12, 8, 2, 3], &[2], &COUPLE, 0),
        differ(file(&COUPLES, &[EMPTY, EMPTY, (&[], &[(3, 0)])]), [12, 8, 2, 3], &COUPLE, &[2], 0),
        differ(file(&FUNCTIONS, &[EMPTY, EMPTY]), [12, 6, 1, 1], &[0xff, 2, 0], &[0xff, 0xfe, 2, 0xff, 0, 1, 0], 1),
        differ(file(&FUNCTIONS, &[EMPTY, (&[], &[(1, 5)])]), [12, 6, 1, 1], &[0xff, 2, 0], &[0xff, 0xfe, 2, 0xff, 0, 3, 0], 1),
        differ(file(&deep(0xff, 2_043, &UNLIKE), &[EMPTY]), [12, 2_047, 0, 1], &[2], &[0], 0),
        // sizes are odd, so that no body is longer
        differ(defined(23), [12, 406, 1, 3], &replaced(23, 0), &replaced(23, 26), 4_094),
    ]
}

/// 177 bytes: 88 abstractors and a variable, or tau.
fn long(last: u8) -> Vec<u8> {
    [[0xff, 0].repeat(88), vec![last]].concat()
}

/// [a:tau] <K> [c:T] [x:U] <x> [y:V] y, where K and T are long, and U and V are so many abstractors of type c, then tau or a. With
/// steps that put K for every c.
fn defined(uses: u8) -> Vec<u8> {
    let abstractors = |first: u8, last: u8| [(0..uses).flat_map(|i| [0xff, first + i]).collect(), vec![last]].concat();
    let definition = [vec![0xff, 0, 0xfe], long(89), vec![0xff], long(0)].concat();
    let term = [definition, vec![0xff], abstractors(1, 0), vec![0xfe, 1, 0xff], abstractors(2, uses + 3), vec![1]].concat();
    let steps: Vec<(u8, u16)> = (0..u16::from(uses)).map(|i| (1, 1 + 178 * i)).collect();
    file(&term, &[EMPTY, (&steps, &steps)])
}

/// A body that these steps reach.
fn replaced(uses: u8, last: u8) -> Vec<u8> {
    [(0..uses).flat_map(|i| [vec![0xff], long(91 + i)].concat()).collect(), vec![last]].concat()
}

/// Steps on one side that end in one that is not possible: on which body, its number, and the condition.
const REFUSED_STEPS: [(&[u8], Steps, usize, Condition); 23] = [
    (&COUPLES, &[(0, 0)], 0, Condition::Kind),
    (&COUPLES, &[(4, 0)], 0, Condition::Kind),
    (&COUPLES, &[(9, 65_535)], 0, Condition::Kind),
    (&COUPLES, &[(1, 4), (2, 0), (255, 0)], 2, Condition::Kind),
    (&COUPLES, &[(1, 5)], 0, Condition::Place),
    (&COUPLES, &[(2, 5)], 0, Condition::Place),
    (&COUPLES, &[(3, 65_535)], 0, Condition::Place),
    (&COUPLES, &[(1, 4), (2, 0), (1, 1)], 2, Condition::Place),
    (&COUPLES, &[(1, 0)], 0, Condition::Byte),
    (&COUPLES, &[(1, 2)], 0, Condition::Byte),
    (&COUPLES, &[(1, 3)], 0, Condition::Byte),
    (&COUPLES, &[(2, 1)], 0, Condition::Byte),
    (&COUPLES, &[(2, 2)], 0, Condition::Byte),
    (&COUPLES, &[(3, 2)], 0, Condition::Byte),
    (&COUPLES, &[(3, 3)], 0, Condition::Byte),
    (&COUPLES, &[(1, 4), (2, 0), (2, 0)], 2, Condition::Byte),
    (&COUPLES, &[(1, 1)], 0, Condition::NoPartner),
    (&COUPLES, &[(1, 4), (1, 4)], 1, Condition::NoPartner),
    (&COUPLES, &[(3, 0), (1, 0)], 1, Condition::NoPartner),
    (&APPLIED, &[(1, 2)], 0, Condition::NoPartner),
    (&APPLIED, &[(2, 0)], 0, Condition::NoPartner),
    (&APPLIED, &[(3, 0)], 0, Condition::NoPartner),
    (&COUPLES, &[(2, 0)], 0, Condition::StillUsed),
];

fn steps() -> Vec<Row> {
    let on = |side, step, condition| Ground::Step { side, step, condition };
    let (left, right) = (Side::Left, Side::Right);
    let mut rows = vec![
        // G3
        row(file(&E2, &[(&[(9, 65_535)], &[])]), [10, 4, 0, 3], on(left, 0, Condition::Kind)),
        row(file(&E2, &[(&[(1, 1)], &[])]), [10, 4, 0, 3], on(left, 0, Condition::Place)),
        row(file(&E2, &[(&[(2, 0)], &[])]), [10, 4, 0, 3], on(left, 0, Condition::Byte)),
        row(file(&E2, &[(&[(1, 0)], &[])]), [10, 4, 0, 3], on(left, 0, Condition::NoPartner)),
        row(file(&COUPLE_RIGHT, &[EMPTY, (&[], &[(2, 0)])]), [10, 4, 1, 3], on(right, 0, Condition::StillUsed)),
        row(file(&COUPLE_RIGHT, &[EMPTY, (&[], &[(1, 3)])]), [10, 4, 1, 3], on(right, 0, Condition::Byte)),
        row(file(&COUPLE_RIGHT, &[EMPTY, (&[], &[(1, 4), (2, 0), (2, 0)])]), [10, 4, 1, 3], on(right, 2, Condition::Byte)),
        // A3: kind 3 at a variable of a pair of the frame
        row(file(&E3, &[EMPTY, (&[], &[(3, 0)])]), [10, 8, 1, 3], on(right, 0, Condition::Byte)),
        // the left steps come first
        row(file(&E2, &[(&[(2, 0)], &[(9, 0)])]), [10, 4, 0, 3], on(left, 0, Condition::Byte)),
        row(file(&COUPLES, &[EMPTY, EMPTY, (&[(3, 0)], &[(2, 0)])]), [10, 8, 2, 3], on(right, 0, Condition::StillUsed)),
        row(file(&deep(0xff, 2_043, &E2), &[(&[], &[(2, 0)])]), [10, 2_047, 0, 1], on(right, 0, Condition::Byte)),
    ];
    for (term, steps, step, condition) in REFUSED_STEPS {
        let place = if term == APPLIED { 12 } else { 8 };
        rows.push(row(file(term, &[EMPTY, EMPTY, (steps, &[])]), [10, place, 2, 3], on(left, step, condition)));
        rows.push(row(file(term, &[EMPTY, EMPTY, (&[], steps)]), [10, place, 2, 3], on(right, step, condition)));
    }
    rows.push(many_steps());
    rows
}

/// [a:tau] <a> [c:tau] [x:U] <x> [y:tau] y, where U has 301 uses of c, one beside the other: a for each, and once too often.
fn many_steps() -> Row {
    let uses = [vec![0xff; 300], vec![1], vec![2; 300]].concat();
    let term = [vec![0xff, 0, 0xfe, 1, 0xff, 0, 0xff], uses, vec![0xfe, 1, 0xff, 0, 1]].concat();
    let steps: Vec<(u8, u16)> = (300..=600).map(|place| (1, place)).chain([(1, 600)]).collect();
    let ground = Ground::Step { side: Side::Left, step: 301, condition: Condition::NoPartner };
    row(file(&term, &[EMPTY, (&steps, &[])]), [10, 608, 1, 2], ground)
}

fn waiting() -> Vec<Row> {
    let wait = |how_many| Ground::Waiting { how_many };
    vec![
        row(file(&[0xfe, 0, 0], &[]), [8, 0, 0, 1], wait(1)),
        // G4
        row(file(&[0xfe, 0, 0xfe, 0, 0], &[]), [8, 2, 0, 1], wait(2)),
        // at a tau in copied text
        row(file(&[0xff, 0, 0xfe, 1, 0xfe, 1, 1], &[]), [8, 4, 0, 2], wait(2)),
        row(file(&[[0xfe, 0].repeat(2_047), vec![0]].concat(), &[]), [8, 4_092, 0, 1], wait(2_047)),
        // the others wait outside
        row(file(&deep(0xfe, 2_047, &[0]), &[]), [8, 2_046, 0, 1], wait(1)),
    ]
}

/// G5: one of each other number.
fn others() -> Vec<Row> {
    let outgrown = [vec![0xff, 0xff, 0, 0], [0xff, 0].repeat(252), vec![0xfd]].concat();
    let alone = |file, numbers| row(file, numbers, Ground::AnswerAlone);
    vec![
        alone(file(&E2, &[EMPTY]), [0, 0, 1, 3]),
        alone(file(&COUPLES, &[EMPTY, EMPTY, (&[(1, 4), (2, 0)], &[(3, 0)])]), [0, 0, 3, 3]),
        alone(file(&deep(0xff, 2_047, &[0]), &[]), [0, 0, 0, 1]),
        alone(vec![], [1, 0, 0, 0]),
        alone(vec![1, 0, 2, 0], [1, 0, 0, 0]),
        alone(vec![2, 0, 0], [2, 0, 0, 0]),
        alone(file(&[0xff, 0], &[]), [3, 2, 0, 0]),
        alone(vec![0; 70_000], [4, 0, 0, 0]),
        alone(file(&[1], &[]), [5, 0, 0, 0]),
        alone(file(&[[0xff, 0].repeat(254), vec![0]].concat(), &[]), [6, 506, 0, 0]),
        alone(file(&[0xfe, 0, 0xff, 0, 0], &[]), [7, 0, 0, 1]),
        alone(file(&E2, &[]), [9, 4, 0, 3]),
        alone(file(&outgrown, &[]), [11, 508, 0, 2]),
        alone(defined(24), [11, 408, 1, 3]),
        alone(file(&[0], &[EMPTY]), [13, 4, 0, 1]),
    ]
}

fn rows() -> Vec<Row> {
    [bodies(), steps(), waiting(), others()].concat()
}

/// A way to explain a file makes of two buffers of these lengths what it must.
#[track_caller]
fn explains(row: &Row, left: usize, right: usize, way: impl FnOnce(&[u8], &mut [u8], &mut [u8]) -> Explanation) {
    let mut buffers = (vec![KEPT; left], vec![KEPT; right]);
    let explanation = way(&row.file, &mut buffers.0, &mut buffers.1);
    if left < row.left.len() || right < row.right.len() {
        let answer = CheckAnswer { number: 14, place: 0, ..row.explanation.answer };
        assert_eq!(explanation, Explanation { answer, ground: Ground::AnswerAlone });
        assert_eq!(buffers, (vec![KEPT; left], vec![KEPT; right]));
    } else {
        let written = |body: &[u8], length: usize| [body, &vec![KEPT; length - body.len()]].concat();
        assert_eq!(explanation, row.explanation);
        assert_eq!(buffers, (written(&row.left, left), written(&row.right, right)));
    }
}

/// None, those near the need, and enough.
fn lengths(body: &[u8]) -> Vec<usize> {
    let near = body.len().saturating_sub(2)..=body.len() + 2;
    [vec![0], near.collect(), vec![LONGEST_BODY]].concat()
}

#[test]
fn readings() {
    for row in rows() {
        explains(&row, LONGEST_BODY, LONGEST_BODY, explain);
        assert_eq!(check(&row.file), row.explanation.answer);
    }
}

#[test]
fn buffers_of_every_length() {
    let mut checker = Checker::new().expect("a thread can be started");
    for row in rows() {
        for left in lengths(&row.left) {
            for right in lengths(&row.right) {
                explains(&row, left, right, |file, left, right| checker.explain(file, left, right));
            }
        }
    }
}

#[test]
fn explained_here() {
    let own = thread::Builder::new().stack_size(CHECK_STACK_BYTES).spawn(|| {
        for row in rows() {
            // SAFETY: this thread's stack is as large as any check needs.
            explains(&row, LONGEST_BODY, 7, |file, left, right| unsafe { explain_here(file, left, right) });
        }
    });
    own.expect("a thread can be started").join().expect("every row holds");
}

/// One thread checks and explains in turn, each call as if it were alone.
#[test]
fn checks_and_explanations_in_turn() {
    let mut checker = Checker::new().expect("a thread can be started");
    for row in rows() {
        let set = field(5, &row.file);
        assert_eq!(checker.check(&row.file), row.explanation.answer);
        explains(&row, 7, LONGEST_BODY, |file, left, right| checker.explain(file, left, right));
        assert_eq!(checker.check_set(&set), check_set(&set));
    }
}

#[test]
fn several_threads_at_once() {
    let rows = &rows();
    thread::scope(|scope| {
        for quarter in 0..4 {
            scope.spawn(move || {
                let mut checker = Checker::new().expect("a thread can be started");
                for row in rows.iter().cycle().skip(quarter * rows.len() / 4).take(rows.len()) {
                    explains(row, 7, 9, explain);
                    explains(row, 9, 7, |file, left, right| checker.explain(file, left, right));
                }
            });
        }
    });
}

/// Also the deepest terms, asked for from a thread whose own stack would not do.
#[test]
fn small_stack() {
    let small = thread::Builder::new().stack_size(64 << 10).spawn(|| {
        let mut checker = Checker::new().expect("a thread can be started");
        for row in rows() {
            explains(&row, 7, 7, explain);
            explains(&row, 7, 7, |file, left, right| checker.explain(file, left, right));
        }
    });
    small.expect("a thread can be started").join().expect("every row holds");
}
