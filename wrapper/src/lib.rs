//! The calls of the proved checker, for Rust. No call relies on an earlier one, and every call returns.
//!
//! `number` is 0 if accepted, else the number of the refusal (module `number`; docs/REFUSALS.md), and `place` says where. At a
//! refusal a lent buffer keeps every byte; after a result it keeps every byte past it. To `explain` the two bodies of a 12 are the
//! result, and it has no other.

use std::sync::mpsc::{sync_channel, Receiver, SyncSender};
use std::thread;

mod raw {
    extern "C" {
        pub fn bijterne_examine_term(s: *const u8, n: usize, answer: *mut [u64; 3]);
        pub fn bijterne_examine_file(s: *const u8, n: usize, answer: *mut [u64; 3]);
        pub fn bijterne_write_type(s: *const u8, n: usize, out: *mut u8, m: usize, answer: *mut [u64; 3]) -> u32;
        pub fn bijterne_apply_step(s: *const u8, n: usize, kind: u8, place: u16, out: *mut u8, m: usize, answer: *mut [u64; 3]);
        pub fn bijterne_print_term(s: *const u8, n: usize, out: *mut u8, m: usize, answer: *mut [u64; 3]);
        pub fn bijterne_count_strings(length: usize, answer: *mut [u64; 4]);
        pub fn bijterne_check(s: *const u8, n: usize, answer: *mut [u64; 4]);
        pub fn bijterne_check_set(s: *const u8, n: usize, answer: *mut [u64; 5]);
        pub fn bijterne_explain(s: *const u8, n: usize, left: *mut u8, l: usize, right: *mut u8, r: usize, answer: *mut [u64; 8]);
    }
}

/// What `number` says (docs/REFUSALS.md).
pub mod number {
    pub const ACCEPTED: u32 = 0;
    pub const CUT_SHORT: u32 = 1;
    pub const WRONG_FIELD: u32 = 2;
    pub const NOT_ONE_TERM: u32 = 3;
    pub const TOO_LONG: u32 = 4;
    pub const BEYOND_SCOPE: u32 = 5;
    pub const TOO_MANY_IN_SCOPE: u32 = 6;
    pub const NO_TYPE: u32 = 7;
    pub const STILL_WAITING: u32 = 8;
    pub const NO_GROUP_LEFT: u32 = 9;
    pub const STEP_NOT_POSSIBLE: u32 = 10;
    pub const OUTGROWN: u32 = 11;
    pub const BODIES_DIFFER: u32 = 12;
    pub const GROUPS_LEFT: u32 = 13;
    pub const BUFFER_TOO_SHORT: u32 = 14;
    pub const TOO_LONG_TO_COUNT: u32 = 15;
    pub const NOT_A_SET: u32 = 16;
}

#[derive(Clone, Copy, Debug, PartialEq, Eq)]
pub struct TermAnswer {
    pub number: u32,
    pub place: usize,
    /// 0 if refused.
    pub degree: usize,
}

#[derive(Clone, Copy, Debug, PartialEq, Eq)]
pub struct FileAnswer<'a> {
    pub number: u32,
    pub place: usize,
    /// The term, a part of the file; empty if refused.
    pub term: &'a [u8],
}

/// Of `write_type`, `apply_step` and `print_term`.
#[derive(Clone, Copy, Debug, PartialEq, Eq)]
pub struct Written {
    pub number: u32,
    pub place: usize,
    /// How many bytes were written to the buffer's start; 0 if refused.
    pub length: usize,
}

/// How many strings `examine_term` accepts, refuses with 3 (malformed: not exactly one term) and refuses with 5 (unbound: a term
/// with an index beyond its scope); 0 if the length is refused.
#[derive(Clone, Copy, Debug, PartialEq, Eq)]
pub struct CountAnswer {
    pub number: u32,
    pub accepted: u64,
    pub malformed: u64,
    pub unbound: u64,
}

#[derive(Clone, Copy, Debug, PartialEq, Eq)]
pub struct CheckAnswer {
    pub number: u32,
    pub place: usize,
    /// Completed.
    pub comparisons: usize,
    /// Of the whole term; 0 for numbers 1 to 6.
    pub degree: usize,
}

/// Of `check_set`. The set's own refusals are `TOO_LONG`, if it has over `LONGEST_SET` bytes, and `NOT_A_SET`, with 0 for the file,
/// the comparisons and the degree; any other is that of the first file that is refused (`TOO_LONG` then says that its term is).
#[derive(Clone, Copy, Debug, PartialEq, Eq)]
pub struct SetAnswer {
    /// How many files, if all are accepted; else the refused file's number, from 0.
    pub file: usize,
    pub number: u32,
    /// As `check` gives it for the refused file; where the set is refused with `NOT_A_SET`, the head of the field in the set.
    pub place: usize,
    /// Completed: in all files if they are accepted, else in the refused one.
    pub comparisons: usize,
    /// Of the refused file's term, as `check` gives it; 0 if all are accepted.
    pub degree: usize,
}

/// Of `explain`.
#[derive(Clone, Copy, Debug, PartialEq, Eq)]
pub struct Explanation {
    /// As `check` gives it; but `BUFFER_TOO_SHORT` at place 0 for `BODIES_DIFFER`, if either buffer is too short.
    pub answer: CheckAnswer,
    pub ground: Ground,
}

/// What stopped a check.
#[derive(Clone, Copy, Debug, PartialEq, Eq)]
pub enum Ground {
    /// At `BODIES_DIFFER`: the lengths of the two bodies, and the place of the first byte at which they differ. Neither body is a
    /// proper beginning of the other.
    Bodies { left: usize, right: usize, difference: usize },
    /// At `STEP_NOT_POSSIBLE`: the step's number in its side's list, from 0, and the condition that failed.
    Step { side: Side, step: usize, condition: Condition },
    /// At `STILL_WAITING`: how many applicators wait.
    Waiting { how_many: usize },
    /// At any other number: the answer says all.
    AnswerAlone,
}

/// Whose steps.
#[derive(Clone, Copy, Debug, PartialEq, Eq)]
pub enum Side {
    /// Those on the type of the applicator's K.
    Left = 0,
    /// Those on the abstractor's U.
    Right = 1,
}

/// Why a step is not possible: the first that fails, in this order.
#[derive(Clone, Copy, Debug, PartialEq, Eq)]
pub enum Condition {
    /// The kind is not 1, 2 or 3.
    Kind = 1,
    /// The place is past the body.
    Place = 2,
    /// Not a variable there (kind 1), or not fe (kinds 2 and 3).
    Byte = 3,
    /// The variable's abstractor has no applicator, or the applicator no abstractor.
    NoPartner = 4,
    /// The couple's variable has a use (kind 2).
    StillUsed = 5,
}

/// The stack that a check needs, whatever the file or set.
pub const CHECK_STACK_BYTES: usize = 4 << 20;

/// No page is longer: a buffer of this length is always enough for `print_term`.
pub const LONGEST_PAGE: usize = 16644;

/// The longest set, heads included. A field's head is 3 bytes.
pub const LONGEST_SET: usize = 65535;

/// No body is longer: two buffers of this length are always enough for `explain`.
pub const LONGEST_BODY: usize = 4096;

/// The longest strings that `count_strings` counts.
pub const LONGEST_COUNTED: usize = 7;

/// Examines a bare term: conditions 3 to 6.
pub fn examine_term(term: &[u8]) -> TermAnswer {
    let mut a = [0; 3];
    // SAFETY: the pointers and lengths are those of live slices.
    unsafe { raw::bijterne_examine_term(term.as_ptr(), term.len(), &mut a) };
    TermAnswer { number: a[0] as u32, place: a[1] as usize, degree: a[2] as usize }
}

/// Examines a file: conditions 1 to 6.
pub fn examine_file(file: &[u8]) -> FileAnswer<'_> {
    let mut a = [0; 3];
    // SAFETY: as above.
    unsafe { raw::bijterne_examine_file(file.as_ptr(), file.len(), &mut a) };
    let term = if a[0] == 0 { &file[3..3 + a[2] as usize] } else { &[] };
    FileAnswer { number: a[0] as u32, place: a[1] as usize, term }
}

/// Writes the type of a bare term to the start of `out`; none for a term of degree 1.
pub fn write_type(term: &[u8], out: &mut [u8]) -> Option<Written> {
    let mut a = [0; 3];
    // SAFETY: as above, and a `&mut` slice overlaps no other.
    let none = unsafe { raw::bijterne_write_type(term.as_ptr(), term.len(), out.as_mut_ptr(), out.len(), &mut a) };
    (none == 0).then(|| written(a))
}

/// Applies one step to a bare term, with an empty frame, and writes the result to the start of `out`. `kind` is 1 (local), 2
/// (removal) or 3 (the whole substitution: every use of a couple's variable is replaced, and the couple removed).
pub fn apply_step(term: &[u8], kind: u8, place: u16, out: &mut [u8]) -> Written {
    let mut a = [0; 3];
    // SAFETY: as above.
    unsafe { raw::bijterne_apply_step(term.as_ptr(), term.len(), kind, place, out.as_mut_ptr(), out.len(), &mut a) };
    written(a)
}

/// Prints a bare term as a page of text, to the start of `out`. Each byte of the term takes four columns, right-aligned: `t`
/// for tau, `A` for fe, `T` for ff, or the index in decimal. A line has 18 of these and a line feed; the last is filled with
/// blanks.
pub fn print_term(term: &[u8], out: &mut [u8]) -> Written {
    let mut a = [0; 3];
    // SAFETY: as above.
    unsafe { raw::bijterne_print_term(term.as_ptr(), term.len(), out.as_mut_ptr(), out.len(), &mut a) };
    written(a)
}

fn written(a: [u64; 3]) -> Written {
    Written { number: a[0] as u32, place: a[1] as usize, length: a[2] as usize }
}

/// Counts all byte strings of a length by what `examine_term` answers to them. The three counts add up to 256 to the power of
/// the length: no other answer occurs.
pub fn count_strings(length: usize) -> CountAnswer {
    let mut a = [0; 4];
    // SAFETY: the pointer is that of a live array.
    unsafe { raw::bijterne_count_strings(length, &mut a) };
    CountAnswer { number: a[0] as u32, accepted: a[1], malformed: a[2], unbound: a[3] }
}

/// Checks a file, on a thread of its own, so that the caller's stack is no matter. For many files a `Checker` starts its thread
/// once.
///
/// # Panics
///
/// If no thread can be started.
pub fn check(file: &[u8]) -> CheckAnswer {
    on_own_stack(|| {
        // SAFETY: this thread's stack is as large as any check needs.
        unsafe { check_here(file) }
    })
}

/// Checks a set: fields with tag 5, each holding a file. All its files are accepted, or the first that is refused is named. On a
/// thread of its own, as `check`.
///
/// # Panics
///
/// If no thread can be started.
pub fn check_set(set: &[u8]) -> SetAnswer {
    on_own_stack(|| {
        // SAFETY: as above.
        unsafe { check_set_here(set) }
    })
}

/// Checks a file, and says what stopped it. Where the two bodies differ, it writes them as the file's steps carried them, the type
/// of K to the start of `left` and U to the start of `right`; if either buffer is too short, neither is written. On a thread of
/// its own, as `check`.
///
/// # Panics
///
/// If no thread can be started.
pub fn explain(file: &[u8], left: &mut [u8], right: &mut [u8]) -> Explanation {
    on_own_stack(|| {
        // SAFETY: as above.
        unsafe { explain_here(file, left, right) }
    })
}

fn on_own_stack<A: Send>(work: impl FnOnce() -> A + Send) -> A {
    thread::scope(|scope| {
        let thread = thread::Builder::new().stack_size(CHECK_STACK_BYTES).spawn_scoped(scope, work);
        thread.expect("a thread can be started").join().expect("a check returns")
    })
}

/// Checks a file on the caller's stack.
///
/// # Safety
///
/// The caller's stack has `CHECK_STACK_BYTES` left, or enough for how deep the term nests.
pub unsafe fn check_here(file: &[u8]) -> CheckAnswer {
    let mut a = [0; 4];
    raw::bijterne_check(file.as_ptr(), file.len(), &mut a);
    checked(a)
}

fn checked(a: [u64; 4]) -> CheckAnswer {
    CheckAnswer { number: a[0] as u32, place: a[1] as usize, comparisons: a[2] as usize, degree: a[3] as usize }
}

/// Checks a set on the caller's stack.
///
/// # Safety
///
/// As for `check_here`, for the deepest of its terms.
pub unsafe fn check_set_here(set: &[u8]) -> SetAnswer {
    let mut a = [0; 5];
    raw::bijterne_check_set(set.as_ptr(), set.len(), &mut a);
    SetAnswer {
        file: a[0] as usize,
        number: a[1] as u32,
        place: a[2] as usize,
        comparisons: a[3] as usize,
        degree: a[4] as usize,
    }
}

/// Explains a file on the caller's stack.
///
/// # Safety
///
/// As for `check_here`.
pub unsafe fn explain_here(file: &[u8], left: &mut [u8], right: &mut [u8]) -> Explanation {
    let mut a = [0; 8];
    let (l, r) = (left.len(), right.len());
    raw::bijterne_explain(file.as_ptr(), file.len(), left.as_mut_ptr(), l, right.as_mut_ptr(), r, &mut a);
    explained(a)
}

fn explained(a: [u64; 8]) -> Explanation {
    let answer = checked([a[0], a[1], a[2], a[3]]);
    let ground = match answer.number {
        number::BODIES_DIFFER => Ground::Bodies { left: a[4] as usize, right: a[5] as usize, difference: a[6] as usize },
        number::STEP_NOT_POSSIBLE => Ground::Step { side: side(a[4]), step: a[5] as usize, condition: condition(a[6]) },
        number::STILL_WAITING => Ground::Waiting { how_many: a[4] as usize },
        _ => Ground::AnswerAlone,
    };
    Explanation { answer, ground }
}

fn side(number: u64) -> Side {
    [Side::Left, Side::Right].into_iter().find(|&side| side as u64 == number).expect("there are two sides")
}

fn condition(number: u64) -> Condition {
    let conditions = [Condition::Kind, Condition::Place, Condition::Byte, Condition::NoPartner, Condition::StillUsed];
    conditions.into_iter().find(|&condition| condition as u64 == number).expect("there are five conditions")
}

/// Checks files and sets and explains files, one after the other, on a thread of its own that lives as long as the `Checker`.
pub struct Checker {
    /// None once it is dropped, which ends the thread.
    calls: Option<SyncSender<Call>>,
    answers: Receiver<Answer>,
    thread: Option<thread::JoinHandle<()>>,
}

/// A file or a set that its owner keeps until the answer has come, and the two buffers lent until then.
enum Call {
    File(*const [u8]),
    Set(*const [u8]),
    Explain(*const [u8], *mut [u8], *mut [u8]),
}

// SAFETY: `Checker` holds the bytes borrowed while the thread reads them, and nobody writes them; it holds the buffers mutably
// borrowed while the thread writes them, and nobody else has them.
unsafe impl Send for Call {}

enum Answer {
    File(CheckAnswer),
    Set(SetAnswer),
    Explained(Explanation),
}

impl Checker {
    /// # Errors
    ///
    /// If no thread can be started.
    pub fn new() -> std::io::Result<Checker> {
        let (call, calls) = sync_channel(1);
        let (answer, answers) = sync_channel(1);
        let work = move || {
            for call in calls {
                // SAFETY: who asks waits for the answer with bytes and buffers borrowed; this thread's stack is as large as any
                // check needs.
                let given = unsafe {
                    match call {
                        Call::File(file) => Answer::File(check_here(&*file)),
                        Call::Set(set) => Answer::Set(check_set_here(&*set)),
                        Call::Explain(file, left, right) => Answer::Explained(explain_here(&*file, &mut *left, &mut *right)),
                    }
                };
                if answer.send(given).is_err() {
                    return;
                }
            }
        };
        let thread = thread::Builder::new().stack_size(CHECK_STACK_BYTES).spawn(work)?;
        Ok(Checker { calls: Some(call), answers, thread: Some(thread) })
    }

    /// Checks a file. The answers are those of `check`.
    pub fn check(&mut self, file: &[u8]) -> CheckAnswer {
        match self.ask(Call::File(file)) {
            Answer::File(answer) => answer,
            _ => unreachable!("a file is answered as a file"),
        }
    }

    /// Checks a set. The answers are those of `check_set`.
    pub fn check_set(&mut self, set: &[u8]) -> SetAnswer {
        match self.ask(Call::Set(set)) {
            Answer::Set(answer) => answer,
            _ => unreachable!("a set is answered as a set"),
        }
    }

    /// Explains a file. The answers, and what is written, are those of `explain`.
    pub fn explain(&mut self, file: &[u8], left: &mut [u8], right: &mut [u8]) -> Explanation {
        match self.ask(Call::Explain(file, left, right)) {
            Answer::Explained(explanation) => explanation,
            _ => unreachable!("an explanation is answered as one"),
        }
    }

    fn ask(&mut self, call: Call) -> Answer {
        let calls = self.calls.as_ref().expect("a Checker has its thread until it is dropped");
        calls.send(call).expect("the thread takes calls until it is told that none comes");
        self.answers.recv().expect("a check returns")
    }
}

impl Drop for Checker {
    fn drop(&mut self) {
        self.calls = None;
        if let Some(thread) = self.thread.take() {
            // A check does not panic, and a panic here could not be answered.
            let _ended = thread.join();
        }
    }
}
