//! Short forms for the tests.
#![allow(dead_code)]

use reference::frame::apply_to_pairs;
use reference::*;
use std::io::Write;
use std::process::{Command, Output, Stdio};

/// Bytes from hexadecimal; blanks are skipped.
pub fn hex(text: &str) -> Vec<u8> {
    let digits: Vec<u8> = text
        .bytes()
        .filter(|byte| !byte.is_ascii_whitespace())
        .collect();
    digits
        .chunks(2)
        .map(|pair| u8::from_str_radix(std::str::from_utf8(pair).unwrap(), 16).unwrap())
        .collect()
}

/// A file: the term's bytes, then the bytes of the groups' fields.
pub fn file_hex(term: &[u8], groups: &str) -> Vec<u8> {
    let mut bytes = reference::gen::field(1, term);
    bytes.extend(hex(groups));
    bytes
}

pub const EMPTY_GROUP: &str = "02 00 00 03 00 00";

/// Number, place, comparisons, degree.
pub fn checked(file: &[u8]) -> (u8, usize, usize, u64) {
    let a = check(file);
    (a.number, a.place, a.comparisons, a.degree)
}

/// The same with steps that take pairs only.
pub fn checked_with_pairs(file: &[u8]) -> (u8, usize, usize, u64) {
    let a = check_by(apply_to_pairs, file);
    (a.number, a.place, a.comparisons, a.degree)
}

/// The check of a term in hexadecimal with groups in hexadecimal.
pub fn check_hex(term: &str, groups: &str) -> (u8, usize, usize, u64) {
    checked(&file_hex(&hex(term), groups))
}

/// Number, place, degree.
pub fn examined(term: &[u8]) -> (u8, usize, u64) {
    let a = examine_term(term);
    (a.number, a.place, a.degree)
}

/// Number, place, part.
pub fn file_examined(file: &[u8]) -> (u8, usize, std::ops::Range<usize>) {
    let a = examine_file(file);
    (a.number, a.place, a.part)
}

pub fn answer(number: u8, place: usize, len: usize) -> TypeAnswer {
    TypeAnswer::Answer { number, place, len }
}

/// The type call into a buffer of aa, with the buffer after it.
pub fn typed(term: &[u8], length: usize) -> (TypeAnswer, Vec<u8>) {
    let mut buffer = vec![0xaa; length];
    let answer = write_type(term, &mut buffer);
    (answer, buffer)
}

/// The step call into a buffer of aa, with the buffer after it.
pub fn stepped(term: &[u8], kind: u8, place: u16, length: usize) -> ((u8, usize, usize), Vec<u8>) {
    let mut buffer = vec![0xaa; length];
    let a = apply_step(term, kind, place, &mut buffer);
    ((a.number, a.place, a.len), buffer)
}

/// The same with steps that take pairs only.
pub fn stepped_with_pairs(
    term: &[u8],
    kind: u8,
    place: u16,
    length: usize,
) -> ((u8, usize, usize), Vec<u8>) {
    let mut buffer = vec![0xaa; length];
    let a = apply_step_by(apply_to_pairs, term, kind, place, &mut buffer);
    ((a.number, a.place, a.len), buffer)
}

/// The print call into a buffer of aa, with the buffer after it.
pub fn printed(term: &[u8], length: usize) -> ((u8, usize, usize), Vec<u8>) {
    let mut buffer = vec![0xaa; length];
    let a = print_term(term, &mut buffer);
    ((a.number, a.place, a.len), buffer)
}

/// Number, accepted, refused 3, refused 5.
pub fn counted(length: usize) -> (u8, u64, u64, u64) {
    let a = count_strings(length);
    (a.number, a.accepted, a.refused_3, a.refused_5)
}

/// File number, number, place, comparisons, degree.
pub fn set_checked(set: &[u8]) -> (usize, u8, usize, usize, u64) {
    let a = check_set(set);
    (a.file, a.number, a.place, a.comparisons, a.degree)
}

/// The result with aa after it up to the length.
pub fn padded(result: &str, length: usize) -> Vec<u8> {
    let mut bytes = hex(result);
    bytes.resize(length, 0xaa);
    bytes
}

pub fn untouched(length: usize) -> Vec<u8> {
    vec![0xaa; length]
}

/// Runs the program on the input with the arguments.
pub fn program(arguments: &[&str], input: &[u8]) -> Output {
    let mut program = Command::new(env!("CARGO_BIN_EXE_reference"))
        .args(arguments)
        .stdin(Stdio::piped())
        .stdout(Stdio::piped())
        .stderr(Stdio::piped())
        .spawn()
        .unwrap();
    program.stdin.take().unwrap().write_all(input).unwrap();
    program.wait_with_output().unwrap()
}

/// What it prints.
pub fn output(arguments: &[&str], input: &[u8]) -> String {
    String::from_utf8(program(arguments, input).stdout).unwrap()
}
