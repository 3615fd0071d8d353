//! Without arguments: checks standard input and prints the four numbers.
//! Otherwise answers another call, all but the last on standard input:
//!
//!   term               number place degree
//!   file               number place start end
//!   type N             number place length BUFFER, or none BUFFER
//!   step KIND PLACE N  number place length BUFFER
//!   print N            number place length BUFFER
//!   explain M N        number place comparisons degree, three more numbers
//!                      and 0, LEFT RIGHT
//!   set                file-number number place comparisons degree
//!   count LENGTH       number accepted refused-3 refused-5
//!
//! N is the buffer's length, M that of the left one; it is filled with aa first
//! and printed whole in hexadecimal.
//!
//! Or shows the rules of 001 at work (src/run.rs says what a line has):
//!
//!   run                the one-pass run of the file on standard input state by
//!                      state, then `answer` and the four numbers of its check;
//!                      only these if the file is refused before the walk
//!   run plain          the run of its term by the plain rules, limits aside,
//!                      with the two terms of each comparison and no verdict,
//!                      then `demanded` and how many comparisons there are; it
//!                      stops, and says so, after 1,000,000 states
//!   rules              for each rule a smallest term that uses it and its run,
//!                      in Markdown
//!
//! Or writes a file:
//!
//!   front LINES        the text on standard input with the lines of the file
//!                      LINES in front: the bytes of the lines but for their
//!                      last τ, then the text's; the groups of the lines, then
//!                      the text's. Both files must be accepted, and the new
//!                      one within the limits: else nothing is written, and the
//!                      exit status is 1
//!   lines SEED         random lines [U] and ⟨K⟩[U] before τ, with their groups

use reference::lines::{front, random_lines};
use reference::rng::Rng;
use reference::rules::rules_page;
use reference::run::{write_plain_run, write_run};
use reference::stack::on_large_stack;
use reference::{
    apply_step, check, check_set, count_strings, examine_file, examine_term, explain, print_term,
    write_type, StepAnswer, TypeAnswer,
};
use std::io::{BufWriter, Read, Write};
use std::process::ExitCode;

fn main() -> ExitCode {
    let arguments: Vec<String> = std::env::args().skip(1).collect();
    let arguments: Vec<&str> = arguments.iter().map(String::as_str).collect();
    let mut input = Vec::new();
    if !matches!(arguments.first(), Some(&"count" | &"rules" | &"lines")) {
        if let Err(error) = std::io::stdin().lock().read_to_end(&mut input) {
            return failed(format!("reference: standard input: {error}"));
        }
    }
    let mut out = BufWriter::new(std::io::stdout());
    let written = match &arguments[..] {
        ["run"] => write_run(&input, &mut out),
        ["run", "plain"] => write_plain_run(&input, &mut out),
        ["rules"] => out.write_all(rules_page().as_bytes()),
        ["front", path] => match in_front(path, &input) {
            Ok(file) => out.write_all(&file),
            Err(error) => return failed(format!("reference: {error}")),
        },
        ["lines", seed] => match seed.parse() {
            Ok(seed) => out.write_all(&lines_of(seed)),
            Err(_) => return failed(USAGE.into()),
        },
        _ => match answer(&arguments, &input) {
            Some(line) => writeln!(out, "{line}"),
            None => return failed(USAGE.into()),
        },
    };
    match written.and_then(|()| out.flush()) {
        Ok(()) => ExitCode::SUCCESS,
        Err(error) => failed(format!("reference: standard output: {error}")),
    }
}

fn failed(why: String) -> ExitCode {
    eprintln!("{why}");
    ExitCode::FAILURE
}

/// The file of the text with the lines of the file at `path` in front.
fn in_front(path: &str, text: &[u8]) -> Result<Vec<u8>, String> {
    let lines = std::fs::read(path).map_err(|error| format!("{path}: {error}"))?;
    front(&lines, text).map_err(|error| error.to_string())
}

fn lines_of(seed: u64) -> Vec<u8> {
    let lines = on_large_stack(|| random_lines(&mut Rng::new(seed)).file());
    lines.expect("there are few lines")
}

const USAGE: &str = "\
usage: reference [term | file | type N | step KIND PLACE N | print N | explain M N | set]
                 < input
       reference run [plain] < input
       reference count LENGTH
       reference rules
       reference front LINES < text
       reference lines SEED";

fn answer(arguments: &[&str], input: &[u8]) -> Option<String> {
    match arguments {
        [] => Some(check(input).to_string()),
        ["term"] => {
            let a = examine_term(input);
            Some(format!("{} {} {}", a.number, a.place, a.degree))
        }
        ["file"] => {
            let a = examine_file(input);
            Some(format!(
                "{} {} {} {}",
                a.number, a.place, a.part.start, a.part.end
            ))
        }
        ["type", length] => {
            let mut buffer = vec![0xaa; length.parse().ok()?];
            let answer = match write_type(input, &mut buffer) {
                TypeAnswer::None_ => "none".to_string(),
                TypeAnswer::Answer { number, place, len } => format!("{number} {place} {len}"),
            };
            Some(with_buffer(answer, &buffer))
        }
        ["step", kind, place, length] => {
            let mut buffer = vec![0xaa; length.parse().ok()?];
            let a = apply_step(input, kind.parse().ok()?, place.parse().ok()?, &mut buffer);
            Some(with_buffer(step_answer(a), &buffer))
        }
        ["print", length] => {
            let mut buffer = vec![0xaa; length.parse().ok()?];
            let a = print_term(input, &mut buffer);
            Some(with_buffer(step_answer(a), &buffer))
        }
        ["explain", of_left, of_right] => {
            let mut left = vec![0xaa; of_left.parse().ok()?];
            let mut right = vec![0xaa; of_right.parse().ok()?];
            let numbers = explain(input, &mut left, &mut right).numbers();
            let answer = numbers.map(|number| number.to_string()).join(" ");
            Some(with_buffer(with_buffer(answer, &left), &right))
        }
        ["set"] => {
            let a = check_set(input);
            Some(format!(
                "{} {} {} {} {}",
                a.file, a.number, a.place, a.comparisons, a.degree
            ))
        }
        ["count", length] => {
            let a = count_strings(length.parse().ok()?);
            Some(format!(
                "{} {} {} {}",
                a.number, a.accepted, a.refused_3, a.refused_5
            ))
        }
        _ => None,
    }
}

fn step_answer(a: StepAnswer) -> String {
    format!("{} {} {}", a.number, a.place, a.len)
}

fn with_buffer(mut answer: String, buffer: &[u8]) -> String {
    if !buffer.is_empty() {
        answer.push(' ');
    }
    for byte in buffer {
        answer.push_str(&format!("{byte:02x}"));
    }
    answer
}
