//! All calls on small inputs, one line for each, and a page. The C example prints the same lines.

use bijterne::{apply_step, check, check_set, count_strings, examine_file, examine_term, explain, print_term, write_type};
use bijterne::{CheckAnswer, Checker, Ground, Side, Written, LONGEST_BODY, LONGEST_PAGE};
use std::thread;

/// [a:tau] [x:a] <x> [y:a] y, and its file: the term, then a group with no steps.
const TERM: &[u8] = &[0xff, 0x00, 0xff, 0x01, 0xfe, 0x01, 0xff, 0x02, 0x01];
const FILE: &[u8] = &[
    0x01, 0x00, 0x09, 0xff, 0x00, 0xff, 0x01, 0xfe, 0x01, 0xff, 0x02, 0x01, // the term
    0x02, 0x00, 0x00, 0x03, 0x00, 0x00, // no steps
];

/// [A:tau] [x:A] <A> [B:tau] <x> [y:B] y (E3 of the paper): an empty group, then a group with one right step.
const E3: &[u8] = &[
    0x01, 0x00, 0x0d, 0xff, 0x00, 0xff, 0x01, 0xfe, 0x02, 0xff, 0x00, 0xfe, 0x02, 0xff, 0x01, 0x01, // the term
    0x02, 0x00, 0x00, 0x03, 0x00, 0x00, // no steps
    0x02, 0x00, 0x00, 0x03, 0x00, 0x03, 0x01, 0x00, 0x00, // one right step
];
const E4: &[u8] = &[
    0x01, 0x00, 0x0d, 0xff, 0x00, 0xff, 0x01, 0xfe, 0x02, 0xff, 0x00, 0xfe, 0x02, 0xff, 0x01, 0x01, // the term
    0x02, 0x00, 0x00, 0x03, 0x00, 0x00, // no steps
    0x02, 0x00, 0x00, 0x03, 0x00, 0x00, // no steps
];

/// [a:tau] [f:[x:a]tau] <f> [g:[x:tau]tau] tau, and a group with no steps: f is of another type than g.
const UNLIKE: &[u8] = &[
    0x01, 0x00, 0x0d, 0xff, 0x00, 0xff, 0xff, 0x01, 0x00, 0xfe, 0x01, 0xff, 0xff, 0x00, 0x00, 0x00, // the term
    0x02, 0x00, 0x00, 0x03, 0x00, 0x00, // no steps
];

/// <tau> <tau> tau.
const TWO_WAIT: &[u8] = &[0x01, 0x00, 0x05, 0xfe, 0x00, 0xfe, 0x00, 0x00];

/// [a:tau] [x:a] x (E1 of the paper), and tau alone.
const E1: &[u8] = &[0xff, 0x00, 0xff, 0x01, 0x01];
const TAU: &[u8] = &[0x00];

/// A field that promises 2 bytes and holds 1.
const CUT_SHORT: &[u8] = &[0x01, 0x00, 0x02, 0x00];

fn bytes(s: &[u8]) -> String {
    s.iter().map(|byte| format!(" {byte:02x}")).collect()
}

fn numbers(a: Written) -> String {
    format!("{} {} {}", a.number, a.place, a.length)
}

fn show_check(what: &str, file: &[u8]) {
    show(what, check(file));
}

fn show(what: &str, a: CheckAnswer) {
    println!("{what}: {}", four(a));
}

fn four(a: CheckAnswer) -> String {
    format!("{} {} {} {}", a.number, a.place, a.comparisons, a.degree)
}

/// The check's answer, and what stopped it.
fn show_ground(what: &str, file: &[u8]) {
    let (mut left, mut right) = ([0; LONGEST_BODY], [0; LONGEST_BODY]);
    let explanation = explain(file, &mut left, &mut right);
    let ground = match explanation.ground {
        Ground::Bodies { left: l, right: r, difference } => {
            format!(", left{}, right{}, difference at {difference}", bytes(&left[..l]), bytes(&right[..r]))
        }
        Ground::Step { side, step, condition } => {
            let side = if side == Side::Left { "left" } else { "right" };
            format!(", {side} step {step}, condition {}", condition as u32)
        }
        Ground::Waiting { how_many } => format!(", waiting {how_many}"),
        Ground::AnswerAlone => String::new(),
    };
    println!("{what}: {}{ground}", four(explanation.answer));
}

fn show_set(what: &str, set: &[u8]) {
    let a = check_set(set);
    println!("{what}: {} {} {} {} {}", a.file, a.number, a.place, a.comparisons, a.degree);
}

/// Adds a file to the set.
fn pack(set: &mut Vec<u8>, file: &[u8]) {
    let length = u16::try_from(file.len()).expect("a set has at most 65,535 bytes");
    set.push(0x05);
    set.extend(length.to_be_bytes());
    set.extend(file);
}

fn show_type(what: &str, term: &[u8], length: usize) {
    let mut out = vec![0xaa; length];
    let answer = write_type(term, &mut out).map_or("none".into(), numbers);
    println!("{what}: {answer},{}", bytes(&out));
}

/// Into this many bytes; then the page.
fn show_page(what: &str, term: &[u8], length: usize) {
    let mut out = vec![0xaa; length];
    let a = print_term(term, &mut out);
    print!("{what}: {}\n{}", numbers(a), String::from_utf8_lossy(&out[..a.length]));
}

fn show_count(what: &str, length: usize) {
    let a = count_strings(length);
    println!("{what}: {} {} {} {}", a.number, a.accepted, a.malformed, a.unbound);
}

/// The file of a term of abstractors, each inside the one before.
fn deep(depth: usize) -> Vec<u8> {
    let n = 2 * depth + 1;
    let mut file = vec![0x01, (n >> 8) as u8, n as u8];
    file.resize(3 + depth, 0xff);
    file.resize(3 + n, 0x00);
    file
}

fn main() {
    let a = examine_term(TERM);
    println!("examine term: {} {} {}", a.number, a.place, a.degree);

    let a = examine_file(FILE);
    println!("examine file: {} {},{}", a.number, a.place, bytes(a.term));

    show_check("check", FILE);

    // y becomes x; then <x> [y:a] has no use and goes, which leaves E1.
    let mut local = [0xaa; 12];
    let a = apply_step(TERM, 1, 8, &mut local);
    println!("local step at 8: {},{}", numbers(a), bytes(&local));
    let mut removed = [0xaa; 12];
    let a = apply_step(&local[..a.length], 2, 4, &mut removed);
    println!("then removal at 4: {},{}", numbers(a), bytes(&removed));

    // Both at once: the whole substitution.
    let mut whole = [0xaa; 12];
    let a = apply_step(TERM, 3, 4, &mut whole);
    println!("whole substitution at 4: {},{}", numbers(a), bytes(&whole));

    show_type("type of E1", E1, 8);
    show_type("type of E1 into 4 bytes", E1, 4);
    show_type("type of tau", TAU, 4);

    show_page("print", TERM, LONGEST_PAGE);
    show_page("print into 72 bytes", TERM, 72);

    show_count("count strings of 3 bytes", 3);
    show_count("count strings of 8 bytes", 8);

    let a = examine_file(CUT_SHORT);
    println!("examine a file cut short: {} {} {}", a.number, a.place, a.term.len());

    show_check("check without a group", &FILE[..FILE.len() - 6]);
    // For many files: one thread for all.
    let mut checker = Checker::new().expect("a thread can be started");
    show("check E3", checker.check(E3));
    show("check E3 without its step", checker.check(E4));

    // Two bodies that differ; a step at 1 of a body of one byte; two that wait; and nothing to explain.
    show_ground("explain a K of another type", UNLIKE);
    let mut past = E3.to_vec();
    past[E3.len() - 1] = 1;
    show_ground("explain E3 with its step at 1", &past);
    show_ground("explain two that wait", TWO_WAIT);
    show_ground("explain E3", E3);

    // Two files on a shelf; the same with a file that is refused after them; and cut short.
    let mut set = Vec::new();
    pack(&mut set, FILE);
    pack(&mut set, E3);
    show_set("check a set of two files", &set);
    pack(&mut set, E4);
    show_set("check a set with a refused file", &set);
    show_set("check a set cut short", &set[..set.len() - 1]);

    // A check does not depend on the caller's stack.
    let small = thread::Builder::new().stack_size(64 << 10).spawn(|| {
        show_check("check 126 deep", &deep(126));
        show_check("check 2047 deep", &deep(2047));
    });
    small.expect("a thread can be started").join().expect("both checks return");
}
