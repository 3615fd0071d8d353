//! The counts of strings, against written ones and against strings examined one by one.

use bijterne::{count_strings, examine_term, CountAnswer, LONGEST_COUNTED};

fn counted(accepted: u64, malformed: u64, unbound: u64) -> CountAnswer {
    CountAnswer { number: 0, accepted, malformed, unbound }
}

#[test]
fn written_counts() {
    assert_eq!(count_strings(0), counted(0, 1, 0));
    assert_eq!(count_strings(1), counted(1, 2, 253));
    assert_eq!(count_strings(3), counted(3, 16_648_184, 129_029));
}

#[test]
fn every_string_is_counted() {
    for length in 0..=LONGEST_COUNTED {
        let CountAnswer { number, accepted, malformed, unbound } = count_strings(length);
        assert_eq!((number, accepted + malformed + unbound), (0, 256_u64.pow(length as u32)));
    }
}

#[test]
fn a_length_over_the_longest_is_refused() {
    for length in [8, 9, 256, 1 << 32, usize::MAX] {
        assert_eq!(count_strings(length), CountAnswer { number: 15, accepted: 0, malformed: 0, unbound: 0 });
    }
}

/// The strings of this length made of these bytes, examined one by one. Each byte stands for so many.
fn examined(length: usize, bytes: &[(u8, u64)]) -> CountAnswer {
    let mut counts = counted(0, 0, 0);
    for i in 0..bytes.len().pow(length as u32) {
        let chosen = (0..length as u32).map(|place| bytes[i / bytes.len().pow(place) % bytes.len()]);
        let (string, many): (Vec<u8>, Vec<u64>) = chosen.unzip();
        let strings = many.iter().product::<u64>();
        match examine_term(&string).number {
            0 => counts.accepted += strings,
            3 => counts.malformed += strings,
            5 => counts.unbound += strings,
            other => panic!("{string:02x?} is refused with {other}"),
        }
    }
    counts
}

#[test]
fn short_strings_one_by_one() {
    let bytes: Vec<(u8, u64)> = (0..=0xff).map(|byte| (byte, 1)).collect();
    for length in 0..=2 {
        assert_eq!(count_strings(length), examined(length, &bytes));
    }
}

/// Seven bytes have at most three abstractors in scope, so that index 4 stands for all 250 from 4 to 253.
#[test]
fn strings_of_every_length_by_kinds_of_bytes() {
    let bytes = [(0, 1), (1, 1), (2, 1), (3, 1), (4, 250), (0xfe, 1), (0xff, 1)];
    for length in 0..=LONGEST_COUNTED {
        assert_eq!(count_strings(length), examined(length, &bytes));
    }
}
