//! Every example of document 01.

mod common;
use common::*;
use reference::gen::{times};
use reference::rng::Rng;
use reference::*;

// ------------------------------------------------- the table of conditions

#[test]
fn condition_1_cut_short() {
    assert_eq!(checked(&hex("01 00 02 00")), (1, 0, 0, 0));
    assert_eq!(checked(&[]), (1, 0, 0, 0));
    assert_eq!(file_examined(&hex("01 00 02 00")), (1, 0, 0..0));
}

#[test]
fn condition_2_wrong_field() {
    assert_eq!(checked(&hex("02 00 00")), (2, 0, 0, 0));
    assert_eq!(checked(&hex("01 00 01 00 02 00 02 01 00")), (2, 4, 0, 0));
}

#[test]
fn condition_3_not_one_term() {
    assert_eq!(check_hex("ff 00", ""), (3, 2, 0, 0));
    assert_eq!(examined(&hex("ff 00")), (3, 2, 0));
    assert_eq!(examined(&hex("00 00 00")), (3, 1, 0));
}

#[test]
fn condition_4_too_long() {
    let mut bytes = hex("01 10 01");
    bytes.extend(vec![0; 4097]);
    assert_eq!(checked(&bytes), (4, 0, 0, 0));
    assert_eq!(checked(&vec![1; 65_536]), (4, 0, 0, 0));
}

#[test]
fn condition_5_beyond_scope() {
    assert_eq!(check_hex("01", ""), (5, 0, 0, 0));
    assert_eq!(examined(&hex("01")), (5, 0, 0));
}

#[test]
fn condition_6_too_deep() {
    let term = [times(254, &[0xff, 0]), vec![0]].concat();
    assert_eq!(examined(&term), (6, 506, 0));
    assert_eq!(checked(&file_hex(&term, "")), (6, 506, 0, 0));
    let term = [times(253, &[0xff, 0]), vec![0]].concat();
    assert_eq!(checked(&file_hex(&term, "")), (0, 0, 0, 1));
}

#[test]
fn condition_7_no_type() {
    assert_eq!(check_hex("fe 00 ff 00 00", ""), (7, 0, 0, 1));
    assert_eq!(check_hex("fe 00 ff 00 00", EMPTY_GROUP), (7, 0, 0, 1));
}

#[test]
fn condition_8_still_waiting() {
    assert_eq!(check_hex("fe 00 00", ""), (8, 0, 0, 1));
    assert_eq!(check_hex("fe 00 fe 00 00", ""), (8, 2, 0, 1));
}

const TERM_9: &str = "ff 00 ff 01 fe 01 ff 02 01";

#[test]
fn condition_9_no_group() {
    assert_eq!(check_hex(TERM_9, ""), (9, 4, 0, 3));
}

#[test]
fn condition_10_bad_step() {
    assert_eq!(
        check_hex(TERM_9, "02 00 03 09 00 00 03 00 00"),
        (10, 4, 0, 3)
    );
}

#[test]
fn condition_11_outgrown() {
    let term = [hex("ff ff 00 00"), times(252, &[0xff, 0]), vec![0xfd]].concat();
    assert_eq!(examined(&term), (0, 0, 2));
    assert_eq!(checked(&file_hex(&term, "")), (11, 508, 0, 2));
}

#[test]
fn condition_12_bodies_differ() {
    assert_eq!(
        check_hex("ff 00 ff 01 fe 01 ff 00 01", EMPTY_GROUP),
        (12, 4, 0, 2)
    );
}

#[test]
fn condition_13_groups_left() {
    let bytes = hex("01 00 01 00 02 00 00 03 00 00");
    assert_eq!(checked(&bytes), (13, 4, 0, 1));
    assert_eq!(file_examined(&bytes), (0, 0, 3..4));
}

#[test]
fn condition_14_short_buffer() {
    assert_eq!(typed(&hex("ff 00 01"), 2), (answer(14, 0, 0), untouched(2)));
    assert_eq!(
        typed(&hex("ff 00 01"), 3),
        (answer(0, 0, 3), hex("ff 00 00"))
    );
}

// ------------------------------------------------------------- E1 to E9

#[test]
fn e1() {
    let term = hex("ff 00 ff 01 01");
    assert_eq!(examined(&term), (0, 0, 3));
    assert_eq!(
        typed(&term, 9),
        (answer(0, 0, 5), padded("ff 00 ff 01 02", 9))
    );
    assert_eq!(checked(&file_hex(&term, "")), (0, 0, 0, 3));
}

#[test]
fn e2_the_programs_input() {
    let bytes = hex("01 00 09 ff 00 ff 01 fe 01 ff 02 01 02 00 00 03 00 00");
    assert_eq!(checked(&bytes), (0, 0, 1, 3));
}

const TERM_3: &str = "ff 00 ff 01 fe 02 ff 00 fe 02 ff 01 01";

#[test]
fn e3() {
    assert_eq!(
        check_hex(TERM_3, "02 00 00 03 00 00 02 00 00 03 00 03 01 00 00"),
        (0, 0, 2, 3)
    );
}

#[test]
fn e4() {
    assert_eq!(
        check_hex(TERM_3, "02 00 00 03 00 00 02 00 00 03 00 00"),
        (12, 8, 1, 3)
    );
}

#[test]
fn e5() {
    assert_eq!(
        check_hex("ff 00 ff ff 01 02 ff 02 fe 01 02", EMPTY_GROUP),
        (0, 0, 1, 3)
    );
}

#[test]
fn e6_to_e9() {
    assert_eq!(check_hex("fe 00 ff 00 00", "").0, 7);
    assert_eq!(check_hex("fe 00 00", "").0, 8);
    assert_eq!(check_hex(TERM_9, "").0, 9);
    assert_eq!(checked(&hex("01 00 01 00 02 00 00 03 00 00")).0, 13);
}

/// E3's body with its definition gone is wrong.
#[test]
fn ruled_out_body_correct_alone() {
    let (number, _, _, _) = check_hex("ff 00 ff 01 ff 00 fe 02 ff 01 01", EMPTY_GROUP);
    assert_eq!(number, 12);
}

// ------------------------------------------------------------------ edges

#[test]
fn edge_4095_4096_4097() {
    let flat = [times(2047, &[0xfe, 0]), vec![0]].concat();
    assert_eq!(flat.len(), 4095);
    assert_eq!(examined(&flat), (0, 0, 1));
    for length in [4096, 4097] {
        for byte in [0, 1, 0xfe, 0xff] {
            let term = vec![byte; length];
            let number = if length == 4096 { 3 } else { 4 };
            assert_eq!(examined(&term).0, number);
            assert_eq!(checked(&file_hex(&term, "")).0, number);
        }
        let mut term = flat.clone();
        term.resize(length, 0);
        let expected = if length == 4096 {
            (3, 4095, 0)
        } else {
            (4, 0, 0)
        };
        assert_eq!(examined(&term), expected);
    }
    // Sizes are odd: no 4,096 bytes are one term.
    let mut rng = Rng::new(4096);
    for _ in 0..200 {
        let term: Vec<u8> = (0..4096)
            .map(|_| {
                if rng.below(2) == 0 {
                    0
                } else {
                    0xfe + rng.below(2) as u8
                }
            })
            .collect();
        assert_eq!(examined(&term).0, 3);
    }
}

// -------------------------------------------------------------- the program

#[test]
fn the_program() {
    let input = hex("01 00 09 ff 00 ff 01 fe 01 ff 02 01 02 00 00 03 00 00");
    assert_eq!(output(&[], &input), "0 0 1 3\n");
    assert_eq!(output(&[], &[]), "1 0 0 0\n");
    assert_eq!(output(&[], &vec![0; 70_000]), "4 0 0 0\n");
    assert_eq!(output(&["file"], &input), "0 0 3 12\n");
    assert_eq!(output(&["term"], &hex("ff 00 ff 01 01")), "0 0 3\n");
    assert_eq!(
        output(&["type", "7"], &hex("ff 00 ff 01 01")),
        "0 0 5 ff00ff0102aaaa\n"
    );
    assert_eq!(output(&["type", "2"], &hex("00")), "none aaaa\n");
    assert_eq!(output(&["type", "2"], &hex("ff 00 01")), "14 0 0 aaaa\n");
    assert_eq!(
        output(&["step", "2", "0", "3"], &hex("fe 00 ff 00 00")),
        "0 0 1 00aaaa\n"
    );
    assert_eq!(
        output(&["step", "1", "0", "0"], &hex("fe 00 ff 00 00")),
        "10 0 0\n"
    );
    assert_eq!(output(&["print", "2"], &hex("00")), "14 0 0 aaaa\n");
    assert_eq!(
        output(&["print", "74"], &hex("00")),
        format!("0 0 73 20202074{}0aaa\n", "20".repeat(68))
    );
    assert_eq!(output(&["count", "1"], &[]), "0 1 2 253\n");
    assert_eq!(output(&["count", "8"], &[]), "15 0 0 0\n");
}

// ----------------------------------------------- the calls' own descriptions

#[test]
fn local_step_lifts_by_the_scopes_between() {
    // [τ]⟨1⟩[τ][τ]2: the variable 2 becomes 1 lifted by 2.
    let term = hex("ff 00 fe 01 ff 00 ff 00 02");
    assert_eq!(stepped(&term, 1, 8, 10).0, (0, 0, 9));
    assert_eq!(
        stepped(&term, 1, 8, 10).1,
        padded("ff 00 fe 01 ff 00 ff 00 03", 10)
    );
    // An index bound inside the moved term stays: ⟨[τ]1⟩[τ]1.
    let term = hex("fe ff 00 01 ff 00 01");
    assert_eq!(
        stepped(&term, 1, 6, 9),
        ((0, 0, 9), hex("fe ff 00 01 ff 00 ff 00 01"))
    );
    // No couple: the applicator is another abstractor's.
    assert_eq!(
        stepped(&hex("fe 00 ff 00 ff 00 01"), 1, 6, 9),
        ((10, 0, 0), untouched(9))
    );
    assert_eq!(
        stepped(&hex("ff 00 01"), 1, 2, 9),
        ((10, 0, 0), untouched(9))
    );
    // The applicator is not in the same train: ⟨τ⟩ before, [U] inside K.
    assert_eq!(
        stepped(&hex("fe ff 00 01 00"), 1, 3, 9),
        ((10, 0, 0), untouched(9))
    );
    assert_eq!(
        stepped(&hex("fe 00 ff ff 00 01 00"), 1, 5, 9),
        ((10, 0, 0), untouched(9))
    );
    // The place is an item or τ.
    for place in [0, 1, 2, 3] {
        assert_eq!(
            stepped(&hex("fe 00 ff 00 01"), 1, place, 9),
            ((10, 0, 0), untouched(9))
        );
    }
    assert_eq!(stepped(&hex("fe 00 ff 00 01"), 1, 4, 9).0, (0, 0, 5));
}

#[test]
fn removal_lowers_the_indices_that_passed() {
    // [τ]⟨1⟩[τ][2]⟨1⟩3: the pair's variable has no use outside; 2 would use it.
    assert_eq!(
        stepped(&hex("ff 00 fe 01 ff 00 ff 01 fe 01 03"), 2, 2, 9).0,
        (10, 0, 0)
    );
    let term = hex("ff 00 fe 01 ff 00 ff 02 fe 01 03");
    assert_eq!(
        stepped(&term, 2, 2, 9),
        ((0, 0, 7), padded("ff 00 ff 01 fe 01 02", 9))
    );
    // K and U may use what they like; they go.
    let term = hex("ff 00 fe ff 01 01 ff ff 01 01 02");
    assert_eq!(stepped(&term, 2, 2, 9), ((0, 0, 3), padded("ff 00 01", 9)));
    // Inside a K and inside a U.
    assert_eq!(
        stepped(&hex("fe fe 00 ff 00 00 00"), 2, 1, 9),
        ((0, 0, 3), padded("fe 00 00", 9))
    );
    assert_eq!(
        stepped(&hex("ff fe 00 ff 00 00 00"), 2, 1, 9),
        ((0, 0, 3), padded("ff 00 00", 9))
    );
    // The place must be the fe.
    for place in [1, 2, 3, 4, 5, 65_535] {
        assert_eq!(
            stepped(&hex("fe 00 ff 00 00"), 2, place, 9),
            ((10, 0, 0), untouched(9))
        );
    }
}

#[test]
fn type_of_a_train() {
    // 001, 3.8: only the last terminal is typed; K and U of the train stay.
    assert_eq!(
        typed(&hex("ff 00 ff 01 fe 01 ff 02 01"), 16),
        (answer(0, 0, 9), padded("ff 00 ff 01 fe 01 ff 02 03", 16))
    );
    // An index bound inside U stays: [[τ]1][τ]2 has type [[τ]1][τ][τ]1.
    assert_eq!(
        typed(&hex("ff ff 00 01 ff 00 02"), 16),
        (answer(0, 0, 9), padded("ff ff 00 01 ff 00 ff 00 01", 16))
    );
    assert_eq!(
        typed(&hex("ff 00 00"), 3),
        (TypeAnswer::None_, untouched(3))
    );
    assert_eq!(typed(&hex("01"), 3), (answer(5, 0, 0), untouched(3)));
}
