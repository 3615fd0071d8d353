//! Sets of files: the readings E1 to E6, hostile sets, and what holds of every
//! set.

mod common;
use common::*;
use reference::file::read_fields;
use reference::gen::{
    field, fields_of, files_for, nested, random_file, random_set, set, shelf, times,
};
use reference::rng::Rng;
use reference::stack::on_large_stack;

/// Document 01's E2.
fn e2() -> Vec<u8> {
    file_hex(&hex("ff 00 ff 01 fe 01 ff 02 01"), EMPTY_GROUP)
}

/// τ alone: no comparison, degree 1.
fn tau() -> Vec<u8> {
    hex("01 00 01 00")
}

#[test]
fn reading_e1_accepted() {
    assert_eq!(set_checked(&set(&[e2(), e2()])), (2, 0, 0, 2, 0));
    assert_eq!(set_checked(&set(&[e2()])), (1, 0, 0, 1, 0));
    assert_eq!(set_checked(&set(&[tau(), e2(), tau()])), (3, 0, 0, 1, 0));
}

#[test]
fn reading_e2_condition_16() {
    assert_eq!(
        set_checked(&hex("05 00 04 01 00 01 00 06")),
        (0, 16, 7, 0, 0)
    );
    assert_eq!(set_checked(&[]), (0, 16, 0, 0, 0));
    assert_eq!(set_checked(&hex("05 00")), (0, 16, 0, 0, 0));
    assert_eq!(set_checked(&hex("05 00 05 01 00 01 00")), (0, 16, 0, 0, 0));
}

#[test]
fn reading_e3_heads_first() {
    assert_eq!(set_checked(&hex("05 00 00 06 00 00")), (0, 16, 3, 0, 0));
    assert_eq!(set_checked(&hex("05 00 00 05 00 01")), (0, 16, 3, 0, 0));
}

#[test]
fn reading_e4_empty_file() {
    let bytes = hex("05 00 04 01 00 01 00 05 00 00");
    assert_eq!(set_checked(&bytes), (1, 1, 0, 0, 0));
    assert_eq!(set_checked(&hex("05 00 00")), (0, 1, 0, 0, 0));
}

#[test]
fn reading_e5_own_answer() {
    let more = [e2(), hex(EMPTY_GROUP)].concat();
    assert_eq!(set_checked(&set(&[e2(), more])), (1, 13, 18, 1, 3));
}

#[test]
fn reading_e6_length() {
    let empty = times(21_845, &hex("05 00 00"));
    assert_eq!(empty.len(), 65_535);
    assert_eq!(set_checked(&empty), (0, 1, 0, 0, 0));
    let longer = [empty, hex("05")].concat();
    assert_eq!(set_checked(&longer), (0, 4, 0, 0, 0));
    // 4 comes before 16, whatever the heads.
    for byte in [0, 5, 6] {
        assert_eq!(set_checked(&vec![byte; 65_536]), (0, 4, 0, 0, 0));
    }
    // 05 05 05 is a whole head for 1,285 bytes, so fields are 1,288 bytes long;
    // 50 of them and 1,135 bytes.
    assert_eq!(set_checked(&vec![5; 65_535]), (0, 16, 64_400, 0, 0));
    // One file as long as there is room for; its term is over 4,096 bytes.
    let one = set(&[field(1, &vec![0; 65_529])]);
    assert_eq!(one.len(), 65_535);
    assert_eq!(set_checked(&one), (0, 4, 0, 0, 0));
    for bytes in [65_533, 65_534, 65_535] {
        let files = files_for(bytes);
        let full = set(&files);
        assert_eq!(full.len(), bytes);
        assert_eq!(set_checked(&full), (files.len(), 0, 0, 0, 0));
    }
    assert_eq!(set_checked(&set(&files_for(65_536))), (0, 4, 0, 0, 0));
}

/// As many accepted files as there is room for.
#[test]
fn most_files() {
    let field = set(&[tau()]);
    assert_eq!(set_checked(&times(9_362, &field)), (9_362, 0, 0, 0, 0));
    let refused = [times(9_361, &field), hex("05 00 03 01 00 00")].concat();
    assert_eq!(refused.len(), 65_533);
    assert_eq!(set_checked(&refused), (9_361, 3, 0, 0, 0));
}

#[test]
fn a_set_in_a_set() {
    let inner = set(&[tau()]);
    assert_eq!(set_checked(&set(&[inner])), (0, 2, 0, 0, 0));
    assert_eq!(set_checked(&tau()), (0, 16, 0, 0, 0));
    assert_eq!(checked(&set(&[tau()])), (2, 0, 0, 0));
}

/// A field longer than its file takes the next head for a part of it.
#[test]
fn lengths_that_lie() {
    // One byte of the next head; then 00 is no tag.
    let longer = hex("05 00 05 01 00 01 00 05 00 04 01 00 01 00");
    assert_eq!(set_checked(&longer), (0, 16, 8, 0, 0));
    // All of the next field.
    let longer = hex("05 00 0b 01 00 01 00 05 00 04 01 00 01 00");
    assert_eq!(set_checked(&longer), (0, 2, 4, 0, 0));
    // The file's last byte stands for a head.
    let shorter = hex("05 00 03 01 00 01 00 05 00 04 01 00 01 00");
    assert_eq!(set_checked(&shorter), (0, 16, 6, 0, 0));
    assert_eq!(set_checked(&hex("05 ff ff 01 00 01 00")), (0, 16, 0, 0, 0));
}

#[test]
fn every_tag() {
    for tag in 0..=255 {
        let first = [field(tag, &tau()), field(5, &tau())].concat();
        let second = [field(5, &e2()), field(tag, &tau())].concat();
        if tag == 5 {
            assert_eq!(set_checked(&first), (2, 0, 0, 0, 0));
            assert_eq!(set_checked(&second), (2, 0, 0, 1, 0));
        } else {
            assert_eq!(set_checked(&first), (0, 16, 0, 0, 0));
            assert_eq!(set_checked(&second), (0, 16, 21, 0, 0));
        }
    }
}

/// Every start of a set: accepted at the end of a field, 16 elsewhere.
#[test]
fn cut_at_every_byte() {
    let bytes = set(&[e2(), tau(), e2()]);
    let ends = [(21, 1), (28, 1), (49, 2)];
    for length in 0..=bytes.len() {
        let whole = ends.iter().filter(|(end, _)| *end <= length).count();
        let (end, comparisons) = match whole {
            0 => (0, 0),
            _ => ends[whole - 1],
        };
        let expected = match length {
            0 => (0, 16, 0, 0, 0),
            _ if length == end => (whole, 0, 0, comparisons, 0),
            _ => (0, 16, end, 0, 0),
        };
        assert_eq!(set_checked(&bytes[..length]), expected, "cut to {length}");
    }
}

/// The shelf's files are what it says.
#[test]
fn files_on_the_shelf() {
    let accepted: Vec<_> = shelf().accepted.iter().map(|file| checked(file)).collect();
    assert!(accepted.iter().all(|a| (a.0, a.1) == (0, 0)));
    for comparisons in [0, 1, 2, 5] {
        assert!(accepted.iter().any(|a| a.2 == comparisons));
    }
    for degree in [1, 2, 3] {
        assert!(accepted.iter().any(|a| a.3 == degree));
    }
    let refused: Vec<_> = shelf().refused.iter().map(|file| checked(file)).collect();
    assert!(refused.is_sorted_by_key(|a| a.0));
    for number in 1..=13 {
        assert!(refused.iter().any(|a| a.0 == number));
        let compared = refused.iter().any(|a| a.0 == number && a.2 > 0);
        assert_eq!(compared, number >= 7, "{number}");
    }
}

/// A refused file at each place of a set, alone and before another: the answer
/// is that of checking it, whatever stands before and after.
#[test]
fn refused_at_each_place() {
    on_large_stack(|| {
        let shelf = shelf();
        for refused in &shelf.refused {
            let (number, place, comparisons, degree) = checked(refused);
            for many in 1..=shelf.accepted.len() {
                for at in 0..many {
                    let mut files = shelf.accepted[..many].to_vec();
                    files[at] = refused.clone();
                    let expected = (at, number, place, comparisons, degree);
                    assert_eq!(set_checked(&set(&files)), expected);
                    for later in &shelf.refused {
                        files.push(later.clone());
                        assert_eq!(set_checked(&set(&files)), expected);
                        files.pop();
                    }
                }
            }
        }
    });
}

#[test]
fn deepest_terms() {
    let deep = field(1, &nested(2047));
    let waiting = field(1, &[vec![0xfe; 2047], vec![0; 2048]].concat());
    assert_eq!(set_checked(&set(&vec![deep.clone(); 15])), (15, 0, 0, 0, 0));
    let bytes = set(&[deep.clone(), e2(), deep, waiting]);
    assert_eq!(set_checked(&bytes), (3, 8, 2046, 0, 1));
}

/// Every set by its fields and the check of each file. In an accepted set the
/// comparisons are the applicators of all its terms.
#[test]
fn generated_sets() {
    on_large_stack(|| {
        let mut rng = Rng::new(16);
        let mut seen = [0; 17];
        for _ in 0..6000 {
            let own = random_file(&mut rng);
            let bytes = random_set(&mut rng, &own);
            let fields = fields_of(&bytes);
            let whole = fields.last().map_or(0, |last| last.end);
            let other_tag = fields.iter().find(|field| bytes[field.start] != 5);
            let files = fields
                .iter()
                .map(|field| &bytes[field.start + 3..field.end]);
            let answers = files.clone().map(checked);
            let expected = match (bytes.len() > 65_535, other_tag) {
                (true, _) => (0, 4, 0, 0, 0),
                (_, Some(field)) => (0, 16, field.start, 0, 0),
                _ if fields.is_empty() || whole < bytes.len() => (0, 16, whole, 0, 0),
                _ => match answers.clone().enumerate().find(|(_, a)| a.0 != 0) {
                    Some((file, a)) => (file, a.0, a.1, a.2, a.3),
                    None => (fields.len(), 0, 0, answers.map(|a| a.2).sum(), 0),
                },
            };
            assert_eq!(set_checked(&bytes), expected, "{bytes:02x?}");
            seen[usize::from(expected.1)] += 1;
            if expected.1 == 0 {
                let terms = files.map(|file| &file[read_fields(file).unwrap().term]);
                let applicators = terms.flatten().filter(|byte| **byte == 0xfe).count();
                assert_eq!(expected.3, applicators);
            }
        }
        assert!((0..=13).chain([16]).all(|n| seen[n] > 0), "{seen:?}");
    });
}
