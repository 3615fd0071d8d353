//! The proved library against a fast implementation in Rust, on the same inputs in one run.
//!
//!     benchmark                            every input: the answers of all three implementations, then the times
//!     benchmark quick                      the same without the reference's answers, which take a minute
//!     benchmark agree SEED COUNT           fast and proved against the reference on generated files, bare terms and sets, and
//!                                          in every count
//!     benchmark wrapper                    the three ways to check a file from Rust
//!     benchmark explain                    the explaining call against the check
//!     benchmark one NAME proved|fast [N]   one input alone, N times, for a profiler

mod chains;
mod fast;
mod inputs;

use bijterne::{CountAnswer, SetAnswer, Written, LONGEST_COUNTED, LONGEST_PAGE};
use fast::{Answer, Space};
use inputs::{Call, Input};
use reference::file::read_fields;
use reference::frame::{apply_to_pairs, SUBSTITUTION};
use reference::gen::{self};
use reference::rng::Rng;
use reference::stack::on_large_stack;
use std::hint::black_box;
use std::process::exit;

fn main() {
    let args: Vec<String> = std::env::args().skip(1).collect();
    let args: Vec<&str> = args.iter().map(String::as_str).collect();
    let number = |text: &str| text.parse().unwrap_or_else(|_| usage());
    on_large_stack(|| match args[..] {
        [] => benchmark(true),
        ["quick"] => benchmark(false),
        ["wrapper"] => wrapper(),
        ["explain"] => explain(),
        ["agree", seed, count] => agree(number(seed), number(count)),
        ["one", name, which] => one(name, which, 1),
        ["one", name, which, count] => one(name, which, number(count)),
        _ => usage(),
    });
}

fn usage() -> ! {
    eprintln!("usage: benchmark [quick | wrapper | explain | agree SEED COUNT | one NAME proved|fast [N]]");
    exit(2)
}

// ---- Answers.

/// The implementations: those that are timed, and the reference.
const PROVED: usize = 0;
const CLEARED: usize = 1;
const KEPT: usize = 2;
const REFERENCE: usize = 3;

/// The numbers of an answer in turn, 0 after the last: of a set five, of a check and of a count four, of printing three.
type Numbers = [usize; 5];

/// Which of them is the number.
fn number_of(call: Call, numbers: Numbers) -> usize {
    match call {
        Call::Set | Call::OneByOne => numbers[1],
        _ => numbers[0],
    }
}

/// One call. Where a page is printed, the buffer is lent for it.
fn answer(call: Call, which: usize, bytes: &[u8], space: &mut Space, buffer: &mut [u8]) -> Numbers {
    match call {
        Call::Check => of_check(match which {
            PROVED => proved_check(bytes),
            CLEARED => fast::check(bytes),
            KEPT => fast::check_in(space, bytes),
            _ => reference_check(bytes),
        }),
        Call::Print => {
            let Written { number, place, length } = match which {
                PROVED => bijterne::print_term(bytes, buffer),
                CLEARED => fast::print(bytes, buffer),
                KEPT => fast::print_in(space, bytes, buffer),
                _ => reference_page(bytes, buffer),
            };
            [number as usize, place, length, 0, 0]
        }
        Call::Count => {
            let CountAnswer { number, accepted, malformed, unbound } = match which {
                PROVED => bijterne::count_strings(bytes.len()),
                REFERENCE => reference_counts(bytes.len()),
                // Without buffers.
                _ => fast::count_strings(bytes.len()),
            };
            [u64::from(number), accepted, malformed, unbound, 0].map(|value| value as usize)
        }
        Call::Set => of_set(match which {
            PROVED => proved_set(bytes),
            CLEARED => fast::check_set(bytes),
            KEPT => fast::check_set_in(space, bytes),
            _ => reference_set(bytes),
        }),
        Call::OneByOne => of_set(match which {
            PROVED => fast::check_files(bytes, proved_check),
            CLEARED => fast::check_files(bytes, fast::check),
            KEPT => fast::check_files(bytes, |file| fast::check_in(space, file)),
            _ => fast::check_files(bytes, reference_check),
        }),
    }
}

fn of_check(a: Answer) -> Numbers {
    [a.number as usize, a.place, a.comparisons, a.degree, 0]
}

fn of_set(a: SetAnswer) -> Numbers {
    [a.file, a.number as usize, a.place, a.comparisons, a.degree]
}

fn reference_check(file: &[u8]) -> Answer {
    let a = reference::check(file);
    Answer { number: a.number.into(), place: a.place, comparisons: a.comparisons, degree: a.degree as usize }
}

fn reference_page(term: &[u8], buffer: &mut [u8]) -> Written {
    let a = reference::print_term(term, buffer);
    Written { number: a.number.into(), place: a.place, length: a.len }
}

fn reference_counts(length: usize) -> CountAnswer {
    let a = reference::count_strings(length);
    CountAnswer { number: a.number.into(), accepted: a.accepted, malformed: a.refused_3, unbound: a.refused_5 }
}

fn reference_set(set: &[u8]) -> SetAnswer {
    let a = reference::check_set(set);
    SetAnswer { file: a.file, number: a.number.into(), place: a.place, comparisons: a.comparisons, degree: a.degree as usize }
}

/// On the caller's stack, which `main` makes large.
fn proved_set(set: &[u8]) -> SetAnswer {
    // SAFETY: the stack is larger than any check needs.
    unsafe { bijterne::check_set_here(set) }
}

/// On the caller's stack, which `main` makes large.
fn proved_check(file: &[u8]) -> Answer {
    // SAFETY: the stack is larger than any check needs.
    let a = unsafe { bijterne::check_here(file) };
    Answer { number: a.number, place: a.place, comparisons: a.comparisons, degree: a.degree }
}

/// The answer that all implementations up to `last` give, each with the same bytes in a buffer of this length after the call.
fn common_answer(what: &str, call: Call, last: usize, bytes: &[u8], length: usize, space: &mut Space) -> Numbers {
    let mut one = |which: usize| {
        let mut buffer = vec![0xaa; length];
        (answer(call, which, bytes, space, &mut buffer), buffer)
    };
    let (given, buffer) = one(PROVED);
    for which in PROVED + 1..=last {
        let (other, other_buffer) = one(which);
        if (other, &other_buffer) != (given, &buffer) {
            let who = ["proved", "cleared", "kept", "reference"][which];
            println!("{what}: proved {given:?}, {who} {other:?}\n{bytes:02x?}\n{buffer:02x?}\n{other_buffer:02x?}");
            exit(1);
        }
    }
    given
}

fn agree(seed: u64, count: u64) {
    let mut rng = Rng::new(seed);
    let mut space = Box::new(Space::new());
    agree_on_files(&mut rng, seed, count, &mut space);
    agree_on_pages(&mut rng, seed, count, &mut space);
    agree_on_counts(&mut space);
    agree_on_sets(&mut rng, seed, count, &mut space);
}

/// Generated files: every tenth with chains of copied text, every tenth at a limit, and of the others one in eight too.
fn agree_on_files(rng: &mut Rng, seed: u64, count: u64, space: &mut Space) {
    let mut numbers = [0; 15];
    // Accepted files with a step of kind 3, and with a step over a couple that is no pair.
    let mut whole = 0;
    let mut coupled = 0;
    for i in 0..count {
        let file = match i % 10 {
            0 => chains::chain_file(rng),
            1 => gen::limit_file(rng),
            _ => gen::random_file(rng),
        };
        let [number, ..] = common_answer(&format!("file {i} of seed {seed}"), Call::Check, REFERENCE, &file, 0, space);
        numbers[number] += 1;
        if let (0, Ok(fields)) = (number, read_fields(&file)) {
            let mut steps = fields.groups.iter().flat_map(|group| group.left.iter().chain(&group.right));
            whole += usize::from(steps.any(|step| step.kind == SUBSTITUTION));
            coupled += usize::from(reference::check_by(apply_to_pairs, &file).number != 0);
        }
    }
    println!(
        "{count} files agreed; answers 0 to 13: {:?}; accepted with kind 3: {whole}, over couples: {coupled}",
        &numbers[..14]
    );
    if count >= 100 && (whole == 0 || coupled == 0) {
        println!("MISSING accepted with kind 3, or over couples");
        exit(1);
    }
}

/// Generated bare terms, every fifth near a limit, printed into buffers of about their page's length, or any less.
fn agree_on_pages(rng: &mut Rng, seed: u64, count: u64, space: &mut Space) {
    let mut numbers = [0; 15];
    for i in 0..count {
        let term = match i % 5 {
            0 => term_near_limit(rng),
            _ => gen::bare_term(rng),
        };
        let page = fast::page_length(term.len());
        let length = match rng.below(3) {
            0 => rng.below(page + 1),
            1 => page.saturating_sub(1),
            _ => page + rng.below(3),
        };
        let what = format!("bare term {i} of seed {seed}");
        let [number, ..] = common_answer(&what, Call::Print, REFERENCE, &term, length, space);
        numbers[number] += 1;
    }
    let reached = [0, 3, 4, 5, 6, 14].map(|number: usize| numbers[number]);
    println!("{count} bare terms printed alike; answers 0, 3 to 6 and 14: {reached:?}");
    if count >= 300 && reached.contains(&0) {
        println!("MISSING an answer of printing");
        exit(1);
    }
}

/// The strings of every length that is counted, and of the next.
fn agree_on_counts(space: &mut Space) {
    let last = LONGEST_COUNTED + 1;
    for length in 0..=last {
        common_answer(&format!("strings of {length} bytes"), Call::Count, REFERENCE, &vec![0; length], 0, space);
    }
    println!("strings of 0 to {last} bytes counted alike");
}

/// Generated sets.
fn agree_on_sets(rng: &mut Rng, seed: u64, count: u64, space: &mut Space) {
    let mut numbers = [0; 17];
    for i in 0..count {
        let file = gen::random_file(rng);
        let set = gen::random_set(rng, &file);
        let given = common_answer(&format!("set {i} of seed {seed}"), Call::Set, REFERENCE, &set, 0, space);
        numbers[number_of(Call::Set, given)] += 1;
    }
    println!("{count} sets agreed; answers 0 to 13 and 16: {:?} {}", &numbers[..14], numbers[16]);
    if count >= 300 && (numbers[0] == 0 || numbers[16] == 0 || numbers[1..14].iter().all(|many| *many == 0)) {
        println!("MISSING accepted sets, sets with a refused file, or 16");
        exit(1);
    }
}

/// About 4,096 bytes, or index 253 with about 253 abstractors in scope.
fn term_near_limit(rng: &mut Rng) -> Vec<u8> {
    if rng.below(2) == 0 {
        let mut term = gen::nested(2047);
        term.resize(rng.between(4093, 4099), 0);
        term
    } else {
        [gen::times(rng.between(252, 255), &[0xff, 0]), vec![253]].concat()
    }
}

// ---- Times.

/// An input with the best time of a call, in nanoseconds, of each implementation.
struct Line {
    input: Input,
    bytes: Vec<u8>,
    best: [f64; 3],
}

/// A measurement calls as often as this time allows. Each round measures every input once with each implementation, and the
/// best of all rounds counts, so that a busy while of the machine falls on all alike.
const MEASUREMENT: f64 = 2e6;
const ROUNDS: usize = 100;

fn benchmark(with_reference: bool) {
    println!(
        "Release builds. proved: clears its own buffers in every call. cleared: fast, clears its buffers in every call, {} bytes\n\
         for a check or a set, up to {} for a page, none for a count. kept: fast, keeps its buffers and clears nothing. The\n\
         best of {ROUNDS} interleaved measurements counts.\n",
        std::mem::size_of::<Space>(),
        fast::MAX_TERM
    );
    println!("{:56} {:>6} {:>6} {:>5} {:>6} {:>7}  answer of all", "input", "file", "term", "comp.", "steps", "states");
    let mut space = Box::new(Space::new());
    let mut lines = Vec::new();
    for input in inputs::ALL {
        let bytes = (input.make)();
        verify(&input, &bytes, if with_reference { REFERENCE } else { KEPT }, &mut space);
        lines.push(Line { input, bytes, best: [f64::MAX; 3] });
    }
    for _ in 0..ROUNDS {
        lines.iter_mut().for_each(|line| measure(line, &mut space));
    }
    println!("\n{:56} {:>14} {:>14}   this machine, us:", "", "proved/cleared", "proved/kept");
    println!("{:56} {:>14} {:>14} {:>10} {:>9} {:>9}", "input", "", "", "proved", "cleared", "kept");
    for line in &lines {
        let [proved, cleared, kept] = line.best;
        println!(
            "{:56} {:>14.2} {:>14.2} {:>10.2} {:>9.2} {:>9.2}",
            line.input.what,
            proved / cleared,
            proved / kept,
            proved / 1e3,
            cleared / 1e3,
            kept / 1e3
        );
    }
    println!("\nGrowth of a book's cost:");
    let line = |name: &str| lines.iter().find(|line| line.input.name == name).expect("there are books");
    let best = |name: &str| line(name).best;
    for (from, to, what) in [("book1", "book2", "1 to 2 KB"), ("book2", "book4", "2 to 4 KB")] {
        let growth = |which: usize| best(to)[which] / best(from)[which];
        println!("from {what}: proved {:.2}, cleared {:.2}, kept {:.2}", growth(PROVED), growth(CLEARED), growth(KEPT));
    }
    let (whole, parts) = (line("whole"), line("parts"));
    let of = |which: usize| whole.best[which] / parts.best[which];
    let bytes = whole.bytes.len() as f64 / parts.bytes.len() as f64;
    println!("\nA book with kind 3 against the same with kinds 1 and 2:");
    println!("bytes {bytes:.2}; time: proved {:.2}, cleared {:.2}, kept {:.2}", of(PROVED), of(CLEARED), of(KEPT));
    let of = |which: usize| best("shelf")[which] / best("files")[which];
    println!("\nA shelf as a set against its files one by one:");
    println!("time: proved {:.2}, cleared {:.2}, kept {:.2}", of(PROVED), of(CLEARED), of(KEPT));
}

/// All implementations up to `last` give one answer, with the number that the input is made for.
fn verify(input: &Input, bytes: &[u8], last: usize, space: &mut Space) {
    let given = common_answer(input.what, input.call, last, bytes, LONGEST_PAGE, space);
    let (counted, columns, shown) = match input.call {
        Call::Check => {
            let (answer, counts) = fast::count(bytes);
            let term = usize::from(bytes[1]) << 8 | usize::from(bytes[2]);
            let columns = [bytes.len(), term, answer.comparisons, counts.steps, counts.own + counts.copied];
            (of_check(answer), columns.map(|column| column.to_string()), &given[..4])
        }
        Call::Print => (given, ["", &bytes.len().to_string(), "", "", ""].map(String::from), &given[..3]),
        Call::Count => (given, [""; 5].map(String::from), &given[..4]),
        Call::Set | Call::OneByOne => (given, [&bytes.len().to_string(), "", "", "", ""].map(String::from), &given[..]),
    };
    let [file, term, comparisons, steps, states] = columns;
    let shown: Vec<String> = shown.iter().map(usize::to_string).collect();
    println!("{:56} {file:>6} {term:>6} {comparisons:>5} {steps:>6} {states:>7}  {}", input.what, shown.join(" "));
    if number_of(input.call, given) != input.number || counted != given {
        println!("the number should be {}, and counting gives {counted:?}", input.number);
        exit(1);
    }
}

fn measure(line: &mut Line, space: &mut Space) {
    let mut buffer = vec![0; LONGEST_PAGE];
    for which in [PROVED, CLEARED, KEPT] {
        let calls = (MEASUREMENT / line.best[which]).max(1.0) as u64;
        let from = now();
        for _ in 0..calls {
            black_box(answer(line.input.call, which, black_box(&line.bytes), space, black_box(&mut buffer)));
        }
        line.best[which] = line.best[which].min((now() - from) as f64 / calls as f64);
    }
}

/// What a call costs its caller from Rust, in time that passes: the best of 100 measurements of 100 calls.
fn wrapper() {
    let mut checker = bijterne::Checker::new().expect("a thread can be started");
    println!("{:44} {:>10} {:>10} {:>10}   us a call", "input", "check", "Checker", "check_here");
    for input in inputs::ALL.into_iter().filter(|input| ["small", "book1", "book4"].contains(&input.name)) {
        let file = (input.make)();
        let mut best = [f64::MAX; 3];
        for round in 0..300 {
            let from = std::time::Instant::now();
            for _ in 0..100 {
                let file = black_box(&file[..]);
                match round % 3 {
                    0 => drop(black_box(bijterne::check(file))),
                    1 => drop(black_box(checker.check(file))),
                    _ => drop(black_box(proved_check(file))),
                }
            }
            best[round % 3] = best[round % 3].min(from.elapsed().as_secs_f64() * 1e4);
        }
        println!("{:44} {:>10.1} {:>10.1} {:>10.1}", input.what, best[0], best[1], best[2]);
    }
}

/// [a:U] <a> [x:V] tau with an empty group, where U and V have so many abstractors and differ in their last byte.
fn differing(abstractors: usize) -> Vec<u8> {
    let long = |last| [[0xff, 0].repeat(abstractors), vec![last]].concat();
    gen::file(&[&[0xff], &long(0)[..], &[0xfe, 1, 0xff], &long(1), &[0]].concat(), &gen::empty_groups(1))
}

fn explain() {
    println!("{:44} {:>10} {:>10} {:>8}", "input, us a call", "check", "explain", "ratio");
    let named = inputs::ALL.into_iter().filter(|input| ["small", "book4", "nestK"].contains(&input.name));
    let files = named.map(|input| (input.what, (input.make)())).chain([("12, two bodies of 501 bytes", differing(250))]);
    let (mut left, mut right) = ([0; bijterne::LONGEST_BODY], [0; bijterne::LONGEST_BODY]);
    for (what, file) in files {
        let mut best = [u64::MAX; 2];
        for round in 0..600 {
            let from = now();
            for _ in 0..20 {
                let file = black_box(&file[..]);
                match round % 2 {
                    0 => drop(black_box(proved_check(file))),
                    // SAFETY: the stack is as for the check.
                    _ => drop(black_box(unsafe { bijterne::explain_here(file, &mut left, &mut right) })),
                }
            }
            best[round % 2] = best[round % 2].min(now() - from);
        }
        let [check, explain] = best.map(|time| time as f64 / 20e3);
        println!("{what:44} {check:>10.2} {explain:>10.2} {:>8.2}", explain / check);
    }
}

/// The processor time of this thread, in nanoseconds: other work on the machine is not counted.
fn now() -> u64 {
    #[repr(C)]
    struct Time {
        seconds: i64,
        nanoseconds: i64,
    }
    extern "C" {
        fn clock_gettime(clock: i32, time: *mut Time) -> i32;
    }
    const THREAD_CPU_TIME: i32 = 3;
    let mut time = Time { seconds: 0, nanoseconds: 0 };
    // SAFETY: the time is as the C library of 64-bit Linux has it.
    unsafe { clock_gettime(THREAD_CPU_TIME, &mut time) };
    time.seconds as u64 * 1_000_000_000 + time.nanoseconds as u64
}

fn one(name: &str, which: &str, count: u64) {
    let Some(input) = inputs::ALL.into_iter().find(|input| input.name == name) else {
        let names: Vec<&str> = inputs::ALL.iter().map(|input| input.name).collect();
        eprintln!("the inputs are {names:?}");
        exit(2);
    };
    let which = match which {
        "proved" => PROVED,
        "fast" => KEPT,
        _ => usage(),
    };
    let bytes = (input.make)();
    let mut space = Box::new(Space::new());
    let mut buffer = vec![0; LONGEST_PAGE];
    for _ in 0..count {
        black_box(answer(input.call, which, black_box(&bytes), &mut space, black_box(&mut buffer)));
    }
}
