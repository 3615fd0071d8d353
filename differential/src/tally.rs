//! How many answers of each sort there were.

use crate::call::{Answer, Call, Kind};
use crate::grown::Grown;
use reference::file::read_fields;
use reference::frame::{apply_to_pairs, SUBSTITUTION};
use reference::mistakes::set_aside;
use reference::refusal::BAD_STEP;
use reference::{apply_step_by, check_by};

/// The last column is 'none'.
const NUMBERS: usize = 18;
/// The calls; then again the step calls of kind 3, and the checks of a file with a step of kind 3; the step calls, and every
/// fifth check by the file's length, that would give 10 if steps took pairs only; and the sets that a file after the first
/// refuses. Each with the numbers that some answer in its row must have.
const ROWS: [(&str, &[usize]); 14] = [
    ("term", &[]),
    ("file", &[]),
    ("type", &[]),
    ("step", &[]),
    ("check", &[]),
    ("print", &[0, 3, 4, 5, 6, 14]),
    ("count", &[0, 15]),
    ("set", &[0, 1, 2, 3, 4, 5, 6, 7, 8, 9, 10, 11, 12, 13, 16]),
    ("explain", &[0, 1, 2, 3, 4, 5, 6, 7, 8, 9, 10, 11, 12, 13, 14]),
    ("step 3", &[0, 10, 11, 14]),
    ("with 3", &[0, 9, 10, 11, 12, 13]),
    ("step c", &[0, 11, 14]),
    ("with c", &[0, 9, 11, 12, 13]),
    ("later", &[1, 2, 3, 4, 5, 6, 7, 8, 9, 10, 11, 12, 13]),
];
const CHECK: usize = 4;
const STEP_3: usize = 9;
const WITH_3: usize = 10;
const STEP_COUPLE: usize = 11;
const WITH_COUPLES: usize = 12;
const LATER_FILE: usize = 13;
const BUCKETS: [&str; 5] = ["0", "1", "2-5", "6-20", "more"];
const SIDES: [&str; 2] = ["left", "right"];
const CONDITIONS: [&str; 5] = ["kind", "place", "byte", "no partner", "still used"];

#[derive(Clone, Default)]
pub struct Tally {
    /// As in `ROWS`.
    rows: [[u64; NUMBERS]; ROWS.len()],
    /// Accepted files by comparisons.
    accepted: [u64; 5],
    with_steps: u64,
    /// Accepted sets by files.
    sets: [u64; 5],
    /// Explained 10 by side and condition.
    steps: [[u64; 5]; 2],
    /// Explained 8 by how many wait.
    waiting: [u64; 5],
    pub grown: Grown,
}

/// Which of `BUCKETS` it is.
fn bucket(many: u64) -> usize {
    match many {
        0 => 0,
        1 => 1,
        2..=5 => 2,
        6..=20 => 3,
        _ => 4,
    }
}

pub fn add_each(mine: &mut [u64], others: &[u64]) {
    for (mine, other) in mine.iter_mut().zip(others) {
        *mine += other;
    }
}

pub fn listed(names: &[&str], counts: &[u64]) -> String {
    names.iter().zip(counts).map(|(name, n)| format!("  {name}: {n}")).collect()
}

impl Tally {
    pub fn count(&mut self, call: &Call, answer: &Answer) {
        let row = match call.kind {
            Kind::Term => 0,
            Kind::File => 1,
            Kind::Type => 2,
            Kind::Step(..) => 3,
            Kind::Check => CHECK,
            Kind::Print => 5,
            Kind::Count(_) => 6,
            Kind::Set => 7,
            Kind::Explain => 8,
        };
        let number = answer.number().unwrap_or(NUMBERS - 1);
        self.rows[row][number] += 1;
        let fields = match call.kind {
            Kind::Check => read_fields(&call.input).ok(),
            _ => None,
        };
        let steps = fields.iter().flat_map(|fields| &fields.groups).flat_map(|group| group.left.iter().chain(&group.right));
        match call.kind {
            Kind::Step(SUBSTITUTION, _) => self.rows[STEP_3][number] += 1,
            Kind::Check if steps.clone().any(|step| step.kind == SUBSTITUTION) => self.rows[WITH_3][number] += 1,
            _ => {}
        }
        match call.kind {
            Kind::Step(kind, place) if number != 10 => {
                let pairs = set_aside(|| apply_step_by(apply_to_pairs, &call.input, kind, place, &mut []));
                self.rows[STEP_COUPLE][number] += u64::from(pairs.number == BAD_STEP);
            }
            Kind::Check if number != 10 && call.input.len().is_multiple_of(5) && steps.clone().count() > 0 => {
                let pairs = set_aside(|| check_by(apply_to_pairs, &call.input));
                self.rows[WITH_COUPLES][number] += u64::from(pairs.number == BAD_STEP);
            }
            _ => {}
        }
        if let (Kind::Check, Some([0, _, comparisons, _])) = (call.kind, answer.numbers) {
            self.accepted[bucket(comparisons)] += 1;
            self.with_steps += u64::from(steps.count() > 0);
        }
        match answer.file {
            Some(files) if number == 0 => self.sets[bucket(files)] += 1,
            Some(1..) => self.rows[LATER_FILE][number] += 1,
            _ => {}
        }
        match answer.ground {
            Some([side, _, condition, _]) if number == 10 => self.steps[side as usize][condition as usize - 1] += 1,
            Some([many, ..]) if number == 8 => self.waiting[bucket(many)] += 1,
            _ => {}
        }
    }

    pub fn add(&mut self, other: &Tally) {
        add_each(self.rows.as_flattened_mut(), other.rows.as_flattened());
        add_each(&mut self.accepted, &other.accepted);
        self.with_steps += other.with_steps;
        add_each(&mut self.sets, &other.sets);
        add_each(self.steps.as_flattened_mut(), other.steps.as_flattened());
        add_each(&mut self.waiting, &other.waiting);
        self.grown.add(&other.grown);
    }

    pub fn print(&self) {
        let files: u64 = self.rows[CHECK].iter().sum();
        let calls: u64 = self.rows[..STEP_3].iter().flatten().sum();
        println!("{calls} calls compared, {files} of them checks of a file. By number:");
        print!("       ");
        for number in 0..NUMBERS - 1 {
            print!(" {number:>7}");
        }
        println!(" {:>7}", "none");
        for ((name, _), row) in ROWS.iter().zip(self.rows) {
            print!("{name:<7}");
            for n in row {
                print!(" {n:>7}");
            }
            println!();
        }
        println!("accepted files by comparisons:{}", listed(&BUCKETS, &self.accepted));
        println!("accepted files with steps: {}", self.with_steps);
        println!("accepted sets by files:{}", listed(&BUCKETS[1..], &self.sets[1..]));
        for (side, conditions) in SIDES.iter().zip(&self.steps) {
            println!("explained steps on the {side}:{}", listed(&CONDITIONS, conditions));
        }
        println!("explained by how many wait:{}", listed(&BUCKETS[1..], &self.waiting[1..]));
        self.grown.print();
    }

    /// What no answer had, among the numbers, the comparisons of accepted files, steps, the files of accepted sets, the
    /// conditions of explained steps, how many wait, the numbers of `ROWS`, and grown texts.
    pub fn missing(&self) -> Vec<String> {
        let mut missing = Vec::new();
        for number in 0..NUMBERS - 1 {
            if self.rows.iter().all(|row| row[number] == 0) {
                missing.push(format!("number {number}"));
            }
        }
        if self.with_steps == 0 {
            missing.push("accepted with steps".into());
        }
        let mut none = |what: &str, names: &[&str], counts: &[u64]| {
            let zeros = names.iter().zip(counts).filter(|(_, n)| **n == 0);
            missing.extend(zeros.map(|(name, _)| format!("{what} {name}")));
        };
        none("accepted by comparisons:", &BUCKETS, &self.accepted);
        none("accepted sets by files:", &BUCKETS[1..], &self.sets[1..]);
        none("explained steps on the left:", &CONDITIONS, &self.steps[0]);
        none("explained steps on the right:", &CONDITIONS, &self.steps[1]);
        none("explained by how many wait:", &BUCKETS[1..], &self.waiting[1..]);
        for ((name, numbers), row) in ROWS.iter().zip(self.rows) {
            missing.extend(numbers.iter().filter(|number| row[**number] == 0).map(|number| format!("{name} number {number}")));
        }
        missing.extend(self.grown.missing());
        missing
    }
}
