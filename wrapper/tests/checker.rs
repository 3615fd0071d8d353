//! The three ways to check a file from Rust give one answer.

use bijterne::{check, check_here, Checker, CHECK_STACK_BYTES};
use std::thread;

/// The file of a term of abstractors, each inside the one before.
fn deep(depth: usize) -> Vec<u8> {
    let n = 2 * depth + 1;
    let mut file = vec![0x01, (n >> 8) as u8, n as u8];
    file.resize(3 + depth, 0xff);
    file.resize(3 + n, 0x00);
    file
}

/// Accepted and refused files, from nothing to the deepest.
fn files() -> Vec<Vec<u8>> {
    let accepted = [&[0x01, 0x00, 0x09, 0xff, 0x00, 0xff, 0x01, 0xfe, 0x01, 0xff, 0x02, 0x01][..], &[0x02, 0x00, 0x00, 0x03, 0x00, 0x00]].concat();
    let cuts = (0..accepted.len()).map(|length| accepted[..length].to_vec()).collect::<Vec<_>>();
    [cuts, vec![accepted, deep(126), deep(2_047), deep(2_048), vec![0; 70_000]]].concat()
}

#[test]
fn one_answer() {
    let mut checker = Checker::new().expect("a thread can be started");
    for file in files() {
        let answer = check(&file);
        assert_eq!(checker.check(&file), answer);
        let own = thread::Builder::new().stack_size(CHECK_STACK_BYTES).spawn(move || {
            // SAFETY: this thread's stack is as large as any check needs.
            unsafe { check_here(&file) }
        });
        assert_eq!(own.expect("a thread can be started").join().expect("a check returns"), answer);
    }
}

#[test]
fn small_stack() {
    let small = thread::Builder::new().stack_size(64 << 10).spawn(|| {
        let mut checker = Checker::new().expect("a thread can be started");
        (checker.check(&deep(2_047)).number, checker.check(&[]).number)
    });
    assert_eq!(small.expect("a thread can be started").join().expect("both checks return"), (0, 1));
}

#[test]
fn moved_to_another_thread() {
    let mut checker = Checker::new().expect("a thread can be started");
    let moved = thread::spawn(move || checker.check(&deep(3)).degree);
    assert_eq!(moved.join().expect("the check returns"), 1);
}
