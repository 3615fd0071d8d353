//! Hostile inputs: every call answers, and answers as expected.

mod common;
use common::*;
use reference::gen::{empty_groups, field, long_unfolding, nested, times};
use reference::rng::Rng;
use reference::stack::on_large_stack;
use reference::*;

#[test]
fn empty_input() {
    assert_eq!(examined(&[]), (3, 0, 0));
    assert_eq!(file_examined(&[]), (1, 0, 0..0));
    assert_eq!(checked(&[]), (1, 0, 0, 0));
    assert_eq!(typed(&[], 3), (answer(3, 0, 0), untouched(3)));
    assert_eq!(stepped(&[], 1, 0, 3), ((3, 0, 0), untouched(3)));
    assert_eq!(printed(&[], 3), ((3, 0, 0), untouched(3)));
}

#[test]
fn one_byte() {
    for byte in 0..=255u8 {
        let bytes = [byte];
        let refused = match byte {
            0 => None,
            0xfe | 0xff => Some((3, 1)),
            _ => Some((5, 0)),
        };
        assert_eq!(checked(&bytes), (1, 0, 0, 0));
        assert_eq!(file_examined(&bytes), (1, 0, 0..0));
        match refused {
            None => {
                assert_eq!(examined(&bytes), (0, 0, 1));
                assert_eq!(typed(&bytes, 1), (TypeAnswer::None_, untouched(1)));
                assert_eq!(stepped(&bytes, 1, 0, 1), ((10, 0, 0), untouched(1)));
                assert_eq!(printed(&bytes, 1), ((14, 0, 0), untouched(1)));
                assert_eq!(checked(&field(1, &bytes)), (0, 0, 0, 1));
            }
            Some((number, place)) => {
                assert_eq!(examined(&bytes), (number, place, 0));
                assert_eq!(typed(&bytes, 1), (answer(number, place, 0), untouched(1)));
                assert_eq!(stepped(&bytes, 1, 0, 1), ((number, place, 0), untouched(1)));
                assert_eq!(printed(&bytes, 1), ((number, place, 0), untouched(1)));
                assert_eq!(checked(&field(1, &bytes)), (number, place, 0, 0));
                assert_eq!(file_examined(&field(1, &bytes)), (number, place, 0..0));
            }
        }
    }
}

/// All strings of up to 5 of the telling bytes: the calls agree on refusals.
#[test]
fn short_strings() {
    on_large_stack(|| {
        let bytes = [0, 1, 2, 0xfd, 0xfe, 0xff];
        let mut all: Vec<Vec<u8>> = vec![vec![]];
        let mut last = all.clone();
        for _ in 0..5 {
            last = last
                .iter()
                .flat_map(|head| bytes.map(|byte| [&head[..], &[byte]].concat()))
                .collect();
            all.extend(last.clone());
        }
        for string in all {
            checked(&string);
            let (number, place, degree) = examined(&string);
            let (_, _, comparisons, of_check) = checked(&field(1, &string));
            assert_eq!((comparisons, of_check), (0, degree));
            let (type_answer, _) = typed(&string, 16);
            let (step_answer, _) = stepped(&string, 1, 0, 16);
            let (print_answer, _) = printed(&string, 73);
            if number != 0 {
                assert_eq!(degree, 0);
                assert_eq!(type_answer, answer(number, place, 0));
                assert_eq!(step_answer, (number, place, 0));
                assert_eq!(print_answer, (number, place, 0));
            } else {
                assert_eq!(type_answer == TypeAnswer::None_, degree == 1);
                assert_eq!(print_answer, (0, 0, 73));
            }
        }
    });
}

#[test]
fn lengths_that_lie() {
    // Longer than the file, in the term's field and in a group's.
    assert_eq!(checked(&hex("01 ff ff 00")), (1, 0, 0, 0));
    assert_eq!(checked(&hex("01 00 02 00")), (1, 0, 0, 0));
    assert_eq!(checked(&hex("01 00 01 00 02 ff ff 03 00 00")), (1, 4, 0, 0));
    assert_eq!(checked(&hex("01 00 01 00 02 00 00 03 00 03")), (1, 7, 0, 0));
    // Shorter than the term: its end is taken for a field.
    assert_eq!(checked(&hex("01 00 02 ff 00 00")), (1, 5, 0, 0));
    assert_eq!(checked(&hex("01 00 02 ff 00 00 00 00")), (2, 5, 0, 0));
    // A term that takes the groups for itself.
    assert_eq!(checked(&hex("01 00 07 00 02 00 00 03 00 00")), (3, 1, 0, 0));
    // Steps of 1 and 2 bytes.
    assert_eq!(
        checked(&hex("01 00 01 00 02 00 01 01 03 00 00")),
        (2, 4, 0, 0)
    );
    assert_eq!(
        checked(&hex("01 00 01 00 02 00 00 03 00 04 01 00 00 01")),
        (2, 7, 0, 0)
    );
}

#[test]
fn longest_files() {
    for byte in [0, 1, 2, 3, 0xfe, 0xff] {
        let bytes = vec![byte; 65_535];
        // 01 01 01 is a whole head for 257 bytes; then 01 is not 02.
        let place = if byte == 1 { 260 } else { 0 };
        assert_eq!(checked(&bytes), (2, place, 0, 0));
        assert_eq!(checked(&vec![byte; 65_536]), (4, 0, 0, 0));
        assert_eq!(examined(&bytes), (4, 0, 0));
    }
    // One field of the largest length that the file can hold.
    assert_eq!(checked(&field(1, &vec![0; 65_532])), (4, 0, 0, 0));
    // A file of exactly 65,535 bytes that is good up to its spare group:
    // 12 for the head and the term, 6 for the heads, the rest steps.
    let term = hex("ff 00 ff 01 fe 01 ff 02 01");
    let mut bytes = field(1, &term);
    bytes.extend(hex(EMPTY_GROUP));
    bytes.extend(field(2, &[]));
    let rest = 65_535 - bytes.len() - 3;
    assert_eq!(rest % 3, 0);
    bytes.extend(field(3, &times(rest / 3, &[1, 0, 0])));
    assert_eq!(bytes.len(), 65_535);
    assert_eq!(checked(&bytes), (13, 18, 1, 3));
    bytes.push(0);
    assert_eq!(checked(&bytes), (4, 0, 0, 0));
}

#[test]
fn most_groups() {
    let bytes = gen::file(&[0], &empty_groups(10_921));
    assert_eq!(bytes.len(), 65_530);
    assert_eq!(checked(&bytes), (13, 4, 0, 1));
    assert_eq!(file_examined(&bytes), (0, 0, 3..4));
    let bytes = gen::file(&[0], &empty_groups(10_922));
    assert_eq!(checked(&bytes), (4, 0, 0, 0));
}

#[test]
fn deepest_nesting() {
    // 2,047 applicators inside each other: the innermost waits at its τ.
    let term = [vec![0xfe; 2047], vec![0; 2048]].concat();
    assert_eq!(examined(&term), (0, 0, 1));
    assert_eq!(checked(&file_hex(&term, "")), (8, 2046, 0, 1));
    assert_eq!(typed(&term, 4).0, TypeAnswer::None_);
    assert_eq!(stepped(&term, 2, 2046, 4).0, (10, 0, 0));
    // 2,047 abstractors inside each other's U: correct.
    let term = nested(2047);
    assert_eq!(term.len(), 4095);
    assert_eq!(examined(&term), (0, 0, 1));
    assert_eq!(checked(&file_hex(&term, "")), (0, 0, 0, 1));
    // With variables for τ: the highest degree, and a state outgrown early.
    let term = [vec![0xff; 2047], vec![0], vec![1; 2047]].concat();
    assert_eq!(examined(&term), (0, 0, 2048));
    assert_eq!(typed(&term, 4096).0, answer(11, 0, 0));
    assert_eq!(checked(&file_hex(&term, "")).0, 11);
    // A pair inside each other: the innermost removal is possible.
    let term = [vec![0xfe; 2045], hex("fe 00 ff 00 00"), vec![0; 2045]].concat();
    assert_eq!(term.len(), 4095);
    assert_eq!(stepped(&term, 2, 2045, 4096).0, (0, 0, 4091));
    assert_eq!(stepped(&term, 3, 2045, 4096).0, (0, 0, 4091));
    // As many uses as fit, and a K as large as fits: to two million bytes.
    let term = [hex("fe 00 ff 00"), times(2045, &hex("fe 01")), hex("01")].concat();
    let result = [times(2045, &hex("fe 00")), hex("00")].concat();
    assert_eq!(stepped(&term, 3, 0, 4091), ((0, 0, 4091), result));
    let term = [vec![0xfe], nested(1000), hex("ff 00"), times(1000, &hex("fe 01")), hex("01")].concat();
    assert_eq!(stepped(&term, 3, 0, 5000), ((11, 0, 0), untouched(5000)));
    // Half a term: it does not end.
    assert_eq!(examined(&[0xff; 4096]), (3, 4096, 0));
    assert_eq!(examined(&[0xfe; 4095]), (3, 4095, 0));
}

#[test]
fn outermost_step_place() {
    let term = hex("fe 00 ff 00 00");
    for kind in [0, 1, 2, 3, 255] {
        assert_eq!(stepped(&term, kind, 65_535, 8), ((10, 0, 0), untouched(8)));
    }
    let groups = "02 00 03 01 ff ff 03 00 00";
    assert_eq!(check_hex("ff 00 ff 01 fe 01 ff 02 01", groups).0, 10);
    let groups = "02 00 00 03 00 03 02 ff ff";
    assert_eq!(check_hex("ff 00 ff 01 fe 01 ff 02 01", groups).0, 10);
}

/// Every start of a good file: what is missing is found at the right head.
#[test]
fn cut_at_every_byte() {
    let term = hex("ff 00 ff 01 fe 02 ff 00 fe 02 ff 01 01");
    let bytes = file_hex(&term, "02 00 00 03 00 00 02 00 00 03 00 03 01 00 00");
    assert_eq!(checked(&bytes), (0, 0, 2, 3));
    let heads = [0, 16, 19, 22, 25];
    for length in 0..bytes.len() {
        let expected = match length {
            16 => (9, 4, 0, 3),
            22 => (9, 8, 1, 3),
            _ => {
                let due = heads.iter().rev().find(|&&head| head <= length).unwrap();
                (1, *due, 0, 0)
            }
        };
        assert_eq!(checked(&bytes[..length]), expected, "cut to {length}");
    }
    // Every start of a term is no term; its length is the place.
    for length in 0..term.len() {
        assert_eq!(examined(&term[..length]), (3, length, 0));
    }
}

/// Every byte of a good file put to every value: each check answers.
#[test]
fn every_byte_changed() {
    on_large_stack(|| {
        let term = hex("ff 00 ff 01 fe 02 ff 00 fe 02 ff 01 01");
        let bytes = file_hex(&term, "02 00 00 03 00 00 02 00 00 03 00 03 01 00 00");
        let mut seen = [0; 15];
        for at in 0..bytes.len() {
            for value in 0..=255 {
                let mut changed = bytes.clone();
                changed[at] = value;
                let a = check(&changed);
                assert!(a.comparisons <= 2);
                assert_eq!(a.degree == 0, (1..=6).contains(&a.number));
                seen[usize::from(a.number)] += 1;
            }
        }
        for number in [0, 1, 2, 3, 5, 8, 10, 12] {
            assert!(seen[number] > 0, "{number}: {seen:?}");
        }
    });
}

/// More than 20,000 steps that can all be applied.
#[test]
fn longest_group() {
    let (term, groups) = long_unfolding(230, 90);
    let bytes = gen::file(&term, &groups);
    assert!(bytes.len() > 60_000 && bytes.len() <= 65_535);
    assert_eq!(checked(&bytes), (0, 0, 231, 3));
}

#[test]
fn random_bytes() {
    on_large_stack(|| {
        let mut rng = Rng::new(99);
        for _ in 0..3000 {
            let length = rng.below(60);
            let bytes: Vec<u8> = (0..length).map(|_| rng.byte()).collect();
            let a = check(&bytes);
            assert!((1..=3).contains(&a.number) || a.number == 5);
            assert!(a.place <= length);
            examined(&bytes);
            typed(&bytes, 8);
            stepped(&bytes, rng.byte(), rng.next_u64() as u16, 8);
            printed(&bytes, 80);
        }
    });
}
