//! For each rule a smallest term that uses it, with its run.

use crate::frame::apply;
use crate::gen::{empty_groups, file};
use crate::plain;
use crate::run::{notation, write_plain_run, write_run, MOST_PLAIN_STATES};
use crate::stack::on_large_stack;
use crate::state::{Rule, RULES};
use crate::term::{read_term, Term};
use crate::walk;
use crate::{check_watched, CheckAnswer};

/// The rule that the one-pass rules have not.
const PLAIN_ONLY: Rule = Rule::Ii;

/// No longer terms are tried.
const LONGEST: usize = 9;

/// A term with a run that uses the rule.
#[derive(Clone, PartialEq, Eq, Debug)]
pub struct Example {
    pub rule: Rule,
    pub term: Vec<u8>,
}

impl Example {
    /// The term with as many groups without steps as it has applicators.
    pub fn file(&self) -> Vec<u8> {
        file_without_steps(&self.term)
    }

    /// Its run: by the plain rules if only they have the rule.
    pub fn run(&self) -> String {
        let mut text = Vec::new();
        let written = match self.rule {
            PLAIN_ONLY => write_plain_run(&self.file(), &mut text),
            _ => write_run(&self.file(), &mut text),
        };
        written.expect("there is room");
        String::from_utf8(text).expect("a run is text")
    }
}

/// For each rule the first term, by length and then by bytes, that is accepted
/// with as many groups without steps as it has applicators and whose run uses
/// the rule. No shorter term that is accepted with any steps uses it: this is
/// tried out in tests/rules.rs.
pub fn examples() -> Vec<Example> {
    on_large_stack(|| {
        let mut first: [Option<Vec<u8>>; RULES.len()] = Default::default();
        for length in (1..=LONGEST).step_by(2) {
            each_closed_term(length, &mut |term| {
                for rule in rules_used(term) {
                    first[rule as usize].get_or_insert_with(|| term.to_vec());
                }
            });
            if first.iter().all(Option::is_some) {
                break;
            }
        }
        let example = |(rule, term): (Rule, Option<Vec<u8>>)| Example {
            rule,
            term: term.unwrap_or_else(|| panic!("{rule} has a term of at most {LONGEST} bytes")),
        };
        RULES.into_iter().zip(first).map(example).collect()
    })
}

/// The rules that the runs of a term use, if it is accepted with groups without
/// steps: its one-pass run, and its plain run for the rule that is only there.
fn rules_used(term: &[u8]) -> Vec<Rule> {
    let (answer, mut rules) = one_pass_rules(&file_without_steps(term));
    if answer.number != 0 {
        return Vec::new();
    }
    let term = read_term(term).expect("an accepted term can be read");
    if plain_rules(&term).contains(&PLAIN_ONLY) {
        rules.push(PLAIN_ONLY);
    }
    rules
}

/// The answer of a check, and the rules of its states in order.
pub fn one_pass_rules(file: &[u8]) -> (CheckAnswer, Vec<Rule>) {
    let mut rules = Vec::new();
    let mut watch = |event: walk::Event| {
        if let walk::Event::State { rule, .. } = event {
            rules.extend(rule);
        }
    };
    let answer = check_watched(apply, file, Some(&mut watch));
    (answer, rules)
}

/// The rules of a plain run's states in order.
pub fn plain_rules(term: &Term) -> Vec<Rule> {
    let mut rules = Vec::new();
    let mut watch = |event: plain::Event| {
        if let plain::Event::State { rule, .. } = event {
            rules.extend(rule);
        }
    };
    plain::run(term, MOST_PLAIN_STATES, &mut watch).expect("a small term has a short run");
    rules
}

fn file_without_steps(term: &[u8]) -> Vec<u8> {
    let applicators = term.iter().filter(|&&byte| byte == 0xfe).count();
    file(term, &empty_groups(applicators))
}

/// Shows the closed terms of this length, of at most 505 bytes, in the order of
/// their bytes.
pub fn each_closed_term(length: usize, show: &mut dyn FnMut(&[u8])) {
    extend(&mut Vec::new(), &[0], length, show);
}

/// Shows those that begin with these bytes. `due` has for each term that is
/// still to come, the next one last, how many abstractors are in scope there.
fn extend(bytes: &mut Vec<u8>, due: &[u8], length: usize, show: &mut dyn FnMut(&[u8])) {
    let Some((&scope, later)) = due.split_last() else {
        if bytes.len() == length {
            show(bytes);
        }
        return;
    };
    if bytes.len() + due.len() > length {
        return;
    }
    let applicator = (0xfe, [later, &[scope, scope]].concat());
    let abstractor = (0xff, [later, &[scope + 1, scope]].concat());
    let terminals = (0..=scope).map(|byte| (byte, later.to_vec()));
    for (byte, due) in terminals.chain([applicator, abstractor]) {
        bytes.push(byte);
        extend(bytes, &due, length, show);
        bytes.pop();
    }
}

/// The examples with their runs, in Markdown.
pub fn rules_page() -> String {
    let mut page = String::new();
    for example in examples() {
        let bytes: Vec<String> = example
            .term
            .iter()
            .map(|byte| format!("{byte:02x}"))
            .collect();
        let term = read_term(&example.term).expect("an accepted term can be read");
        if !page.is_empty() {
            page.push('\n');
        }
        page += &format!(
            "### {}\n\n`{}`, {} {}: `{}`{}\n\n",
            example.rule,
            bytes.join(" "),
            bytes.len(),
            if bytes.len() == 1 { "byte" } else { "bytes" },
            notation(&term),
            if example.rule == PLAIN_ONLY {
                ", by the plain rules"
            } else {
                ""
            },
        );
        for line in example.run().lines() {
            page += &format!("    {line}\n");
        }
    }
    page
}
