//! Counts of strings: the reading C1, and what holds of every count.

mod common;
use common::*;
use reference::rng::Rng;
use reference::stack::on_large_stack;

#[test]
fn reading_c1_values() {
    assert_eq!(counted(0), (0, 0, 1, 0));
    assert_eq!(counted(1), (0, 1, 2, 253));
    assert_eq!(counted(3), (0, 3, 16_648_184, 129_029));
    assert_eq!(counted(8), (15, 0, 0, 0));
}

/// One bit over the lowest three is enough.
#[test]
fn condition_15_length_over_7() {
    let one_bit = (3..usize::BITS).flat_map(|bit| (0..=7).map(move |low| (1 << bit) + low));
    for length in one_bit.chain([255, 4_095, 65_535, 0xffff_ffff, usize::MAX]) {
        assert_eq!(counted(length), (15, 0, 0, 0));
    }
}

/// Every string of at most 3 bytes is examined.
#[test]
fn short_strings() {
    on_large_stack(|| {
        for length in 0..=3 {
            let mut seen = [0; 6];
            for string in 0..1u32 << (8 * length) {
                let (number, _, _) = examined(&string.to_le_bytes()[..length]);
                seen[usize::from(number)] += 1;
            }
            assert_eq!(counted(length), (0, seen[0], seen[3], seen[5]));
        }
    });
}

#[test]
fn all_strings_are_counted() {
    for length in 0..=7 {
        let (number, accepted, refused_3, refused_5) = counted(length);
        assert_eq!(number, 0);
        assert_eq!(accepted + refused_3 + refused_5, 1 << (8 * length));
    }
}

/// Terms, closed or not: so many but for their terminals, each of which may be
/// any of 254 bytes.
#[test]
fn terms_of_each_length() {
    for (length, terms) in [0, 1, 0, 2, 0, 8, 0, 40].into_iter().enumerate() {
        let (_, accepted, _, refused_5) = counted(length);
        assert_eq!(
            accepted + refused_5,
            terms * 254u64.pow(length as u32 / 2 + 1)
        );
    }
}

/// In a string that is counted, an index over 3 may be any other such index.
#[test]
fn indices_over_3_are_alike() {
    on_large_stack(|| {
        let mut rng = Rng::new(7);
        let mut seen = [0; 6];
        for _ in 0..200_000 {
            let mut string = vec![0; rng.below(8)];
            for byte in &mut string {
                *byte = match rng.below(4) {
                    0 => rng.byte(),
                    1 => rng.below(4) as u8,
                    _ => *rng.pick(&[0xfe, 0xff]),
                };
            }
            let number = examined(&string).0;
            seen[usize::from(number)] += 1;
            for byte in string
                .iter_mut()
                .filter(|byte| (0x04..=0xfd).contains(*byte))
            {
                *byte = rng.between(0x04, 0xfd) as u8;
            }
            assert_eq!(examined(&string).0, number);
        }
        assert!([0, 3, 5].iter().all(|&n| seen[n] > 0), "{seen:?}");
    });
}
