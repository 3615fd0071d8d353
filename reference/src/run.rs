//! Runs of the rules as text: a state or a comparison in each line, in columns
//! for a page of one width of letters. Terms are in the paper's notation, with
//! indices for names.
//!
//! The first line names the columns. A state's line has the rule's number
//! (`none` if it has no rule), its place, R, W, Y and B; an empty list is ε, and
//! Y is blank where a state has none. A comparison's line has `same`, the
//! applicator's place and the two bodies.

use crate::check_watched;
use crate::frame::{apply, Entry};
use crate::plain;
use crate::read_file;
use crate::refusal::*;
use crate::stack::on_large_stack;
use crate::state::{Rule, State, Text};
use crate::term::{Term, Term::*};
use crate::walk;
use std::io::{Result, Write};

/// `run plain` says so and stops if there are more states.
pub const MOST_PLAIN_STATES: u64 = 1_000_000;

/// Writes the one-pass run of a file, as far as it goes, and then the answer of
/// its check.
pub fn write_run(file: &[u8], out: &mut (impl Write + Send)) -> Result<()> {
    on_large_stack(|| {
        write_in_columns(out, |show| {
            let mut lines = 0;
            let mut watch = |event: walk::Event| {
                if lines == 0 {
                    show(named(&["rule", "place", "R", "W", "Y", "B"]));
                }
                lines += 1;
                show(one_pass_line(event));
            };
            let a = check_watched(apply, file, Some(&mut watch));
            show(vec![format!("answer {a}")]);
        })
    })
}

/// Writes the run of a file's term by the plain rules, limits aside. The groups
/// are not used: a comparison's line has the type of K and U. The last line has
/// the number of comparisons, or says that the run is too long; for a file that
/// is refused before the walk it has the answer of its check.
pub fn write_plain_run(file: &[u8], out: &mut (impl Write + Send)) -> Result<()> {
    on_large_stack(|| {
        let term = match read_file(file) {
            Ok((_, term)) => term,
            Err(_) => return write_run(file, out),
        };
        write_in_columns(out, |show| {
            show(named(&["rule", "place", "R", "W", "B"]));
            let mut watch = |event: plain::Event| show(plain_line(event));
            let end = plain::run(&term, MOST_PLAIN_STATES, &mut watch);
            show(vec![match end {
                Ok(demanded) => format!("demanded {}", demanded.comparisons),
                Err(plain::TooMany) => format!("stopped after {MOST_PLAIN_STATES} states"),
            }]);
        })
    })
}

/// The cells of a line.
type Line = Vec<String>;

/// Takes the next line.
type Show<'a> = dyn FnMut(Line) + 'a;

/// The names of the columns.
fn named(columns: &[&str]) -> Line {
    columns.iter().map(|name| name.to_string()).collect()
}

fn one_pass_line(event: walk::Event) -> Line {
    match event {
        walk::Event::State { rule, state } => {
            let mut line = state_line(rule, state);
            let y = match state.text {
                Text::Own => String::new(),
                Text::Copied => list(state.y.iter().map(applicator)),
            };
            line.insert(line.len() - 1, y);
            line
        }
        walk::Event::Comparison { place, reached, .. } => {
            let bodies = match reached {
                Ok((left, right)) if left == right => two(left, "=", right),
                Ok((left, right)) => two(left, "≠", right),
                Err(stop) => reason(stop.refusal.number).to_string(),
            };
            comparison_line(place, bodies)
        }
    }
}

fn plain_line(event: plain::Event) -> Line {
    match event {
        plain::Event::State { rule, state } => state_line(rule, state),
        plain::Event::Comparison {
            place,
            type_of_k,
            u,
            ..
        } => {
            let bodies = match type_of_k {
                None => reason(NO_TYPE).to_string(),
                Some(type_of_k) => two(type_of_k, "and", u),
            };
            comparison_line(place, bodies)
        }
    }
}

/// Without Y.
fn state_line(rule: Option<Rule>, state: &State) -> Line {
    vec![
        rule.map_or("none".to_string(), |rule| rule.to_string()),
        state.place.to_string(),
        list(state.r.iter().map(entry)),
        list(state.w.iter().map(|waiting| applicator(&waiting.k))),
        notation(&state.b),
    ]
}

fn comparison_line(place: usize, bodies: String) -> Line {
    vec!["same".to_string(), place.to_string(), bodies]
}

/// Why a comparison came to no two bodies.
fn reason(number: u8) -> &'static str {
    match number {
        NO_TYPE => "K has no type",
        NO_GROUP => "no group left",
        BAD_STEP => "a step cannot be applied",
        OUTGROWN => "a body is outgrown",
        _ => unreachable!("a comparison is not refused {number} before its end"),
    }
}

// --------------------------------------------------------------- notation

/// A term: items and terminal with a blank between.
pub fn notation(term: &Term) -> String {
    let mut text = String::new();
    let mut term = term;
    loop {
        let (open, item, close) = match term {
            Tau => return text + "τ",
            Var(index) => return text + &index.to_string(),
            App(item) => ("⟨", item, "⟩ "),
            Abs(item) => ("[", item, "] "),
        };
        let (inner, rest) = item.parts();
        text += &(open.to_string() + &notation(inner) + close);
        term = rest;
    }
}

fn applicator(k: &Term) -> String {
    format!("⟨{}⟩", notation(k))
}

/// An entry of the frame; there is no blank in a pair.
fn entry(entry: &Entry) -> String {
    let abstractor = format!("[{}]", notation(entry.u()));
    entry.k().map_or(String::new(), applicator) + &abstractor
}

fn list(items: impl Iterator<Item = String>) -> String {
    let items: Vec<String> = items.collect();
    match items.is_empty() {
        false => items.join(" "),
        true => "ε".to_string(),
    }
}

fn two(left: &Term, between: &str, right: &Term) -> String {
    format!("{} {between} {}", notation(left), notation(right))
}

// ---------------------------------------------------------------- columns

/// The place's column, which has its blanks on the left.
const PLACE: usize = 1;

/// Writes lines with two blanks between columns. They are made twice, first
/// to measure the columns, so that a long run takes no room.
fn write_in_columns(out: &mut impl Write, make: impl Fn(&mut Show)) -> Result<()> {
    let mut widths = [0; 6];
    make(&mut |line| {
        // A line's last cell is as wide as it likes.
        for (cell, width) in line[..line.len() - 1].iter().zip(&mut widths) {
            *width = cell.chars().count().max(*width);
        }
    });
    let mut written = Ok(());
    make(&mut |mut line| {
        let last = line.pop().expect("a line has cells");
        let mut text = String::new();
        for (column, (cell, &width)) in line.iter().zip(&widths).enumerate() {
            text += &match column {
                PLACE => format!("{cell:>width$}  "),
                _ => format!("{cell:<width$}  "),
            };
        }
        if written.is_ok() {
            written = writeln!(out, "{text}{last}");
        }
    });
    written
}
