//! Sets: document 02's readings, and one answer whichever way a set is checked.

use bijterne::{check, check_set, check_set_here, Checker, SetAnswer, CHECK_STACK_BYTES, LONGEST_SET};
use std::thread;

/// Document 01's E2: one comparison, degree 3.
const E2: [u8; 18] = [0x01, 0, 9, 0xff, 0, 0xff, 1, 0xfe, 1, 0xff, 2, 1, 0x02, 0, 0, 0x03, 0, 0];
/// Tau: no comparison, degree 1.
const TAU: [u8; 4] = [0x01, 0, 1, 0];

fn set(files: &[&[u8]]) -> Vec<u8> {
    files.iter().flat_map(|file| [&[0x05, (file.len() >> 8) as u8, file.len() as u8], *file].concat()).collect()
}

/// The file of a term of abstractors, each inside the one before.
fn deep(depth: usize) -> Vec<u8> {
    let n = 2 * depth + 1;
    [vec![0x01, (n >> 8) as u8, n as u8], vec![0xff; depth], vec![0x00; depth + 1]].concat()
}

/// E2 with one group more, which is refused.
fn group_left() -> Vec<u8> {
    [&E2[..], &E2[12..]].concat()
}

fn accepted(file: usize, comparisons: usize) -> SetAnswer {
    SetAnswer { file, number: 0, place: 0, comparisons, degree: 0 }
}

/// The set itself is refused.
fn refused(number: u32, place: usize) -> SetAnswer {
    SetAnswer { file: 0, number, place, comparisons: 0, degree: 0 }
}

/// Sets from nothing to the longest and beyond, with the deepest terms among them, each with its answer.
fn sets() -> Vec<(Vec<u8>, SetAnswer)> {
    // Fields of 4,101 bytes, then 7 and 4,013: 65,535 in all.
    let mut longest = [vec![deep(2_047); 15], vec![TAU.to_vec(), deep(2_003)]].concat();
    let in_field = |files: &[Vec<u8>]| set(&files.iter().map(Vec::as_slice).collect::<Vec<_>>());
    let exact = in_field(&longest);
    assert_eq!(exact.len(), LONGEST_SET);
    longest.pop();
    longest.push(deep(2_004));
    let beyond = in_field(&longest);
    let waiting = [vec![0x01, 0x0f, 0xff], vec![0xfe; 2_047], vec![0x00; 2_048]].concat();
    vec![
        (set(&[&E2, &E2]), accepted(2, 2)),
        (set(&[&TAU]), accepted(1, 0)),
        (vec![0x05, 0, 4, 0x01, 0, 1, 0, 0x06], refused(16, 7)),
        (vec![], refused(16, 0)),
        (vec![0x05, 0], refused(16, 0)),
        (vec![0x05, 0, 5, 0x01, 0, 1, 0], refused(16, 0)),
        (vec![0x05, 0, 0, 0x06, 0, 0], refused(16, 3)),
        (set(&[&TAU, &[]]), SetAnswer { file: 1, number: 1, place: 0, comparisons: 0, degree: 0 }),
        (set(&[&E2, &group_left()]), SetAnswer { file: 1, number: 13, place: 18, comparisons: 1, degree: 3 }),
        (set(&[&E2, &group_left(), &[], &E2]), SetAnswer { file: 1, number: 13, place: 18, comparisons: 1, degree: 3 }),
        (exact, accepted(17, 0)),
        (beyond, refused(4, 0)),
        ([0x05, 0, 0].repeat(21_845), refused(1, 0)),
        (vec![0x00; LONGEST_SET], refused(16, 0)),
        (vec![0x00; LONGEST_SET + 1], refused(4, 0)),
        (set(&[&deep(2_047), &E2, &waiting]), SetAnswer { file: 2, number: 8, place: 2_046, comparisons: 0, degree: 1 }),
    ]
}

#[test]
fn readings() {
    for (set, answer) in sets() {
        assert_eq!(check_set(&set), answer);
    }
}

#[test]
fn one_answer() {
    let mut checker = Checker::new().expect("a thread can be started");
    for (set, answer) in sets() {
        assert_eq!(checker.check_set(&set), answer);
        let own = thread::Builder::new().stack_size(CHECK_STACK_BYTES).spawn(move || {
            // SAFETY: this thread's stack is as large as any check needs.
            unsafe { check_set_here(&set) }
        });
        assert_eq!(own.expect("a thread can be started").join().expect("a check returns"), answer);
    }
}

/// One thread answers to sets and files in turn, each as if it were alone.
#[test]
fn sets_and_files_in_turn() {
    let mut checker = Checker::new().expect("a thread can be started");
    for (set, answer) in sets() {
        assert_eq!(checker.check(&E2), check(&E2));
        assert_eq!(checker.check_set(&set), answer);
        assert_eq!(checker.check(&set), check(&set));
    }
}

/// The deepest terms in a set, asked for from a thread whose own stack would not do.
#[test]
fn small_stack() {
    let small = thread::Builder::new().stack_size(64 << 10).spawn(|| {
        let mut checker = Checker::new().expect("a thread can be started");
        let deepest = set(&[&deep(2_047), &E2, &deep(2_047)]);
        (checker.check_set(&deepest), check_set(&deepest))
    });
    let answers = small.expect("a thread can be started").join().expect("both checks return");
    assert_eq!(answers, (accepted(3, 1), accepted(3, 1)));
}

/// A refused file anywhere in a set has the answer that it has alone, and its number.
#[test]
fn a_refused_file_anywhere() {
    let refused: [&[u8]; 5] = [&[], &[0x02, 0, 0], &[0x01, 0, 1, 5], &E2[..12], &group_left()];
    for file in refused {
        let alone = check(file);
        assert_ne!(alone.number, 0);
        for at in 0..6 {
            let mut files: Vec<&[u8]> = vec![&E2; 6];
            files[at] = file;
            let answer = check_set(&set(&files));
            assert_eq!(answer.file, at);
            assert_eq!((answer.number, answer.place), (alone.number, alone.place));
            assert_eq!((answer.comparisons, answer.degree), (alone.comparisons, alone.degree));
        }
    }
}
