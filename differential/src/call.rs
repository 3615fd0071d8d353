//! One call, and the two answers to it.

use reference::rng::Rng;
use reference::{StepAnswer, TypeAnswer};
use std::fmt;
use std::panic::{catch_unwind, AssertUnwindSafe};

#[derive(Clone, Copy, PartialEq, Eq, Debug)]
pub enum Kind {
    Term,
    File,
    Type,
    Step(u8, u16),
    Check,
    Print,
    /// The strings of this length.
    Count(usize),
    Set,
    Explain,
}

use Kind::*;

extern "C" {
    /// Called as from C, so that the answer can be filled beforehand: a number that is not written shows then.
    fn bijterne_count_strings(length: usize, answer: *mut [u64; 4]);
    fn bijterne_check_set(s: *const u8, n: usize, answer: *mut [u64; 5]);
    fn bijterne_explain(s: *const u8, n: usize, left: *mut u8, l: usize, right: *mut u8, r: usize, answer: *mut [u64; 8]);
}

/// Bytes before and after a lent buffer that no call may touch.
const GUARD: usize = 8;

/// A call: which one, its input (none for Count), and the bytes of the buffers before the call, one for Type, Step and Print, a
/// left and a right one for Explain, each with a guard on each side.
#[derive(Clone, PartialEq, Eq)]
pub struct Call {
    pub kind: Kind,
    pub input: Vec<u8>,
    pub buffers: Vec<Vec<u8>>,
}

/// An answer: for Set the file number, the call's numbers, or none if it is 'none', for Explain its last four numbers, and the
/// buffers and their guards after the call. The numbers of Set and Explain are those of Check.
#[derive(Clone, PartialEq, Eq)]
pub struct Answer {
    pub file: Option<u64>,
    pub numbers: Option<[u64; 4]>,
    pub ground: Option<[u64; 4]>,
    buffers: Vec<Vec<u8>>,
}

impl Answer {
    /// The refusal's number, 0 if accepted.
    pub fn number(&self) -> Option<usize> {
        self.numbers.map(|numbers| numbers[0] as usize)
    }

    /// Whether these bytes stand at the starts of the lent buffers, if any for a buffer, and elsewhere what stood there before.
    pub fn wrote(&self, written: &[Vec<u8>], call: &Call) -> bool {
        let mut expected = call.buffers.clone();
        for (buffer, bytes) in expected.iter_mut().zip(written) {
            lent(buffer)[..bytes.len()].copy_from_slice(bytes);
        }
        self.buffers == expected
    }

    fn of(numbers: [u64; 4], buffers: Vec<Vec<u8>>) -> Answer {
        Answer { file: None, numbers: Some(numbers), ground: None, buffers }
    }

    fn of_written(a: StepAnswer, buffers: Vec<Vec<u8>>) -> Answer {
        Answer::of([a.number.into(), a.place as u64, a.len as u64, 0], buffers)
    }

    fn of_explained([number, place, comparisons, degree, ground @ ..]: [u64; 8], buffers: Vec<Vec<u8>>) -> Answer {
        Answer { ground: Some(ground), ..Answer::of([number, place, comparisons, degree], buffers) }
    }
}

impl Call {
    pub fn new(kind: Kind, input: &[u8]) -> Call {
        Call { kind, input: input.to_vec(), buffers: Vec::new() }
    }

    /// With a buffer of this length, its bytes and those of the guards as they come.
    pub fn lending(kind: Kind, input: &[u8], length: usize, rng: &mut Rng) -> Call {
        Call { kind, input: input.to_vec(), buffers: vec![guarded(length, rng)] }
    }

    /// Explain, with buffers of these lengths in the same way.
    pub fn explaining(input: &[u8], lengths: [usize; 2], rng: &mut Rng) -> Call {
        Call { kind: Explain, input: input.to_vec(), buffers: lengths.map(|length| guarded(length, rng)).to_vec() }
    }

    /// The proved library's answer.
    pub fn proved(&self) -> Answer {
        let s = &self.input[..];
        let mut buffers = self.buffers.clone();
        let mut file = None;
        let numbers = match self.kind {
            Term => {
                let a = bijterne::examine_term(s);
                Some([a.number.into(), a.place as u64, a.degree as u64, 0])
            }
            File => {
                let a = bijterne::examine_file(s);
                let start = if a.term.is_empty() { 0 } else { a.term.as_ptr() as usize - s.as_ptr() as usize };
                Some([a.number.into(), a.place as u64, start as u64, (start + a.term.len()) as u64])
            }
            Type => bijterne::write_type(s, lent(&mut buffers[0])).map(written),
            Step(kind, place) => Some(written(bijterne::apply_step(s, kind, place, lent(&mut buffers[0])))),
            Check => {
                // SAFETY: the program runs its calls on stacks larger than any check needs.
                let a = unsafe { bijterne::check_here(s) };
                Some([a.number.into(), a.place as u64, a.comparisons as u64, a.degree as u64])
            }
            Print => Some(written(bijterne::print_term(s, lent(&mut buffers[0])))),
            Count(length) => {
                let mut numbers = [u64::MAX; 4];
                // SAFETY: the pointer is that of a live array of four numbers.
                unsafe { bijterne_count_strings(length, &mut numbers) };
                Some(numbers)
            }
            Set => {
                let mut numbers = [u64::MAX; 5];
                // SAFETY: the pointers and the length are those of a live slice and a live array; the stack is as for Check.
                unsafe { bijterne_check_set(s.as_ptr(), s.len(), &mut numbers) };
                let [of_file, number, place, comparisons, degree] = numbers;
                file = Some(of_file);
                Some([number, place, comparisons, degree])
            }
            Explain => {
                let mut numbers = [u64::MAX; 8];
                let [left, right] = lent_two(&mut buffers);
                let (l, r) = (left.len(), right.len());
                // SAFETY: as for Set; each buffer is a slice of its own.
                unsafe { bijterne_explain(s.as_ptr(), s.len(), left.as_mut_ptr(), l, right.as_mut_ptr(), r, &mut numbers) };
                return Answer::of_explained(numbers, buffers);
            }
        };
        Answer { file, numbers, ground: None, buffers }
    }

    /// The reference's answer; none if it panics.
    pub fn reference(&self) -> Option<Answer> {
        let mut buffers = self.buffers.clone();
        catch_unwind(AssertUnwindSafe(move || {
            let s = &self.input[..];
            match self.kind {
                Term => {
                    let a = reference::examine_term(s);
                    Answer::of([a.number.into(), a.place as u64, a.degree, 0], buffers)
                }
                File => {
                    let a = reference::examine_file(s);
                    Answer::of([a.number.into(), a.place as u64, a.part.start as u64, a.part.end as u64], buffers)
                }
                Type => match reference::write_type(s, lent(&mut buffers[0])) {
                    TypeAnswer::None_ => Answer { file: None, numbers: None, ground: None, buffers },
                    TypeAnswer::Answer { number, place, len } => Answer::of_written(StepAnswer { number, place, len }, buffers),
                },
                Step(kind, place) => Answer::of_written(reference::apply_step(s, kind, place, lent(&mut buffers[0])), buffers),
                Check => {
                    let a = reference::check(s);
                    Answer::of([a.number.into(), a.place as u64, a.comparisons as u64, a.degree], buffers)
                }
                Print => Answer::of_written(reference::print_term(s, lent(&mut buffers[0])), buffers),
                Count(length) => {
                    let a = reference::count_strings(length);
                    Answer::of([a.number.into(), a.accepted, a.refused_3, a.refused_5], buffers)
                }
                Set => {
                    let a = reference::check_set(s);
                    let answer = Answer::of([a.number.into(), a.place as u64, a.comparisons as u64, a.degree], buffers);
                    Answer { file: Some(a.file as u64), ..answer }
                }
                Explain => {
                    let [left, right] = lent_two(&mut buffers);
                    Answer::of_explained(reference::explain(s, left, right).numbers(), buffers)
                }
            }
        }))
        .ok()
    }

    /// The answer to Explain of a file with this answer to Check, where nothing is added to it.
    pub fn adding_nothing(&self, check: &Answer) -> Answer {
        Answer { ground: Some([0; 4]), buffers: self.buffers.clone(), ..check.clone() }
    }

    /// How long its lent buffers are.
    pub fn lent(&self) -> Vec<usize> {
        self.buffers.iter().map(|buffer| buffer.len() - 2 * GUARD).collect()
    }

    /// The same call with buffers of these lengths and 0 everywhere in them.
    pub fn with_zeros(&self, lengths: &[usize]) -> Call {
        Call { buffers: lengths.iter().map(|length| vec![0; length + 2 * GUARD]).collect(), ..self.clone() }
    }

    /// The one answer of both, or none.
    pub fn agreed(&self) -> Option<Answer> {
        let proved = self.proved();
        (self.reference().as_ref() == Some(&proved)).then_some(proved)
    }
}

/// The proved library's numbers of a call that writes.
fn written(a: bijterne::Written) -> [u64; 4] {
    [a.number.into(), a.place as u64, a.length as u64, 0]
}

/// A buffer of this length with its guards.
fn guarded(length: usize, rng: &mut Rng) -> Vec<u8> {
    rng.bytes(length + 2 * GUARD)
}

fn lent(buffer: &mut [u8]) -> &mut [u8] {
    let end = buffer.len() - GUARD;
    &mut buffer[GUARD..end]
}

/// The left and the right one of Explain.
fn lent_two(buffers: &mut [Vec<u8>]) -> [&mut [u8]; 2] {
    let [left, right] = buffers else { panic!("Explain has two buffers") };
    [lent(left), lent(right)]
}

/// Bytes in hexadecimal.
pub struct Hex<'a>(pub &'a [u8]);

impl fmt::Display for Hex<'_> {
    fn fmt(&self, f: &mut fmt::Formatter) -> fmt::Result {
        self.0.iter().try_for_each(|byte| write!(f, "{byte:02x}"))
    }
}

/// Of each buffer the lent bytes between those of its guards.
fn with_guards(buffers: &[Vec<u8>]) -> String {
    let shown = buffers.iter().map(|buffer| {
        let (before, rest) = buffer.split_at(GUARD);
        let (lent, after) = rest.split_at(rest.len() - GUARD);
        format!(" buffer {}|{}|{}", Hex(before), Hex(lent), Hex(after))
    });
    shown.collect()
}

impl fmt::Display for Call {
    fn fmt(&self, f: &mut fmt::Formatter) -> fmt::Result {
        write!(f, "{:?} of {} bytes {}{}", self.kind, self.input.len(), Hex(&self.input), with_guards(&self.buffers))
    }
}

impl fmt::Display for Answer {
    fn fmt(&self, f: &mut fmt::Formatter) -> fmt::Result {
        if let Some(file) = self.file {
            write!(f, "{file} ")?;
        }
        match self.numbers {
            None => write!(f, "none")?,
            Some([a, b, c, d]) => write!(f, "{a} {b} {c} {d}")?,
        }
        if let Some([a, b, c, d]) = self.ground {
            write!(f, " {a} {b} {c} {d}")?;
        }
        write!(f, "{}", with_guards(&self.buffers))
    }
}
