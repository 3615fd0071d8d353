//! The readings of points that documents 01 and 02 leave open, by their number.

mod common;
use common::*;
use reference::gen::{empty_groups, nested, stepped_copies, times};
use reference::*;

fn with_empty_groups(term: &[u8], n: usize) -> Vec<u8> {
    gen::file(term, &empty_groups(n))
}

#[test]
fn reading_1_all_tests_of_a_field_first() {
    assert_eq!(checked(&hex("07 00")), (1, 0, 0, 0));
    assert_eq!(checked(&hex("02 00 ff")), (2, 0, 0, 0));
    // Body whole comes before the multiple of 3.
    assert_eq!(checked(&hex("01 00 01 00 02 00 02 01")), (1, 4, 0, 0));
    // The second field's fault is found before the third's.
    assert_eq!(
        checked(&hex("01 00 01 00 02 00 01 00 07 00 00")),
        (2, 4, 0, 0)
    );
}

#[test]
fn reading_2_fields_due() {
    assert_eq!(checked(&hex("01 00 01 00 02 00 00")), (1, 7, 0, 0));
    assert_eq!(checked(&hex("01 00 01 00 02 00 00 02 00 00")), (2, 7, 0, 0));
    assert_eq!(checked(&hex("01 00 01 00 03 00 00")), (2, 4, 0, 0));
    assert_eq!(checked(&hex("01 00 01 00 02")), (1, 4, 0, 0));
    assert_eq!(
        checked(&hex("01 00 01 00 02 00 00 03 00 00 01 00 00")),
        (2, 10, 0, 0)
    );
}

#[test]
fn reading_3_too_long_when() {
    let mut bytes = gen::field(1, &vec![0; 4097]);
    bytes.extend(hex("05 00 00"));
    assert_eq!(checked(&bytes), (2, 4100, 0, 0));
    assert_eq!(file_examined(&bytes), (2, 4100, 0..0));
    // The file's length before its empty head.
    assert_eq!(checked(&vec![9; 65_536]), (4, 0, 0, 0));
    assert_eq!(checked(&vec![9; 65_535]), (2, 0, 0, 0));
}

#[test]
fn reading_4_place_of_3() {
    assert_eq!(examined(&[]), (3, 0, 0));
    assert_eq!(checked(&hex("01 00 00")), (3, 0, 0, 0));
    assert_eq!(examined(&hex("fe 00")), (3, 2, 0));
    assert_eq!(examined(&hex("fe 00 00 00 00")), (3, 3, 0));
    // 3 comes before 5.
    assert_eq!(examined(&hex("05 00")), (3, 1, 0));
}

#[test]
fn reading_5_leftmost_of_5_and_6() {
    let deep = times(253, &[0xff, 0]);
    // ff with 253 scopes around it, its U beyond scope: the ff is further left.
    let term = [deep.clone(), hex("ff fe 00 00 00")].concat();
    assert_eq!(examined(&term), (6, 506, 0));
    let term = [hex("ff 01"), times(253, &[0xff, 0]), hex("00")].concat();
    assert_eq!(examined(&term), (5, 1, 0));
    // A U is not in its own abstractor's scope.
    assert_eq!(examined(&hex("ff 01 00")), (5, 1, 0));
    // 253 scopes at the end, and inside a U at the end.
    let term = [times(252, &[0xff, 0]), hex("ff ff 00 00 fd")].concat();
    assert_eq!(examined(&term), (0, 0, 2));
    let term = [times(252, &[0xff, 0]), hex("ff ff 00 fd 00")].concat();
    assert_eq!(examined(&term), (0, 0, 1));
    let term = [times(253, &[0xff, 0]), hex("fe ff 00 00 00")].concat();
    assert_eq!(examined(&term), (6, 507, 0));
}

#[test]
fn reading_6_suspended_lists() {
    // A waiting ⟨K⟩ of 200 scopes, then the check inside a K with 100 more.
    let term = [
        vec![0xfe],
        times(200, &[0xff, 0]),
        vec![0, 0xfe],
        times(100, &[0xff, 0]),
        vec![0, 0],
    ]
    .concat();
    assert_eq!(checked(&file_hex(&term, "")), (8, 402, 0, 1));
    // The same in bytes: about 1,500 wait while the K needs about 7,500.
    let term = [
        vec![0xfe],
        nested(750),
        hex("fe ff ff"),
        nested(1250),
        hex("01 01 00"),
    ]
    .concat();
    assert_eq!(term.len(), 1 + 1501 + 1 + 2505 + 1);
    assert_eq!(checked(&file_hex(&term, "")), (8, 1502, 0, 1));
}

/// [τ] ⟨m abstractors, 1⟩ and n pairs ⟨1⟩[τ], then the end.
fn deep_waiting(m: usize, n: usize, end: &[u8]) -> Vec<u8> {
    [
        hex("ff 00 fe"),
        times(m, &[0xff, 0]),
        vec![1],
        times(n, &hex("fe 01 ff 00")),
        end.to_vec(),
    ]
    .concat()
}

#[test]
fn reading_7_state_after_an_abstractor() {
    // After 3 pairs the K waits at depth 4 with 250 of its own: 254.
    let term = deep_waiting(250, 3, &[0]);
    let after_third = 2 + 2 + 500 + 12;
    assert_eq!(
        checked(&with_empty_groups(&term, 3)),
        (11, after_third, 3, 1)
    );
    // The comparison comes before that state.
    assert_eq!(
        checked(&with_empty_groups(&term, 2)),
        (9, after_third - 4, 2, 1)
    );
    let mut other = term.clone();
    other[after_third - 1] = 1;
    assert_eq!(
        checked(&with_empty_groups(&other, 3)),
        (12, after_third - 4, 2, 1)
    );
    // So does the check of U.
    let mut other = term.clone();
    other.splice(after_third - 1..after_third, hex("fe 00 00"));
    assert_eq!(
        checked(&with_empty_groups(&other, 3)),
        (8, after_third - 1, 2, 1)
    );
    // One pair fewer and the state stands.
    assert_eq!(
        checked(&with_empty_groups(&deep_waiting(250, 2, &[0]), 2)),
        (8, 2, 2, 1)
    );
}

#[test]
fn reading_8_outgrown_before_the_rule() {
    // The state is at τ with something waiting: 11 before 8.
    let term = deep_waiting(250, 3, &[0]);
    assert_eq!(checked(&with_empty_groups(&term, 3)).0, 11);
    // Before 9 of the next comparison too, and before the typing of a variable.
    let term = deep_waiting(250, 3, &hex("ff 00 01"));
    assert_eq!(checked(&with_empty_groups(&term, 3)), (11, 516, 3, 2));
}

/// The terms of the frame are measured where they stand: a deep U declared
/// first is in no more scopes because others are declared after it.
#[test]
fn reading_8_terms_of_the_frame() {
    let term = [
        vec![0xff],
        times(100, &[0xff, 0]),
        vec![0],
        times(252, &[0xff, 0]),
        vec![0],
    ]
    .concat();
    assert_eq!(checked(&file_hex(&term, "")), (0, 0, 0, 1));
}

#[test]
fn reading_9_place_in_copied_text() {
    // [[V]1]1: the copied 1 is typed too; the place is the own variable's.
    // Its last state has 3 |V| + 4 bytes.
    let term = |n: usize| [hex("ff ff"), nested(n), hex("01 01")].concat();
    assert_eq!(3 * nested(1364).len() + 4, 8191);
    assert_eq!(checked(&file_hex(&term(1364), "")), (0, 0, 0, 3));
    let outgrown = term(1365);
    assert_eq!(
        checked(&file_hex(&outgrown, "")),
        (11, outgrown.len() - 1, 0, 3)
    );
    // Two bytes more by a declaration before: 8,193.
    let outgrown = [hex("ff 00"), term(1364)].concat();
    assert_eq!(
        checked(&file_hex(&outgrown, "")),
        (11, outgrown.len() - 1, 0, 3)
    );
}

#[test]
fn reading_10_limits_of_a_compared_body() {
    let copies = |n: usize, size: usize| {
        let (term, groups) = stepped_copies(n, size);
        checked(&gen::file(&term, &groups))
    };
    // 23 copies of 177 bytes: the body reaches 4,095 bytes, the frame not counted.
    assert_eq!(copies(23, 177), (0, 0, 2, 2));
    // 16 of 255: 4,097 bytes at the last left step. The applicator follows
    // [τ], ⟨D⟩[E] and the declaration.
    let place = 2 + (1 + 255) + (1 + 255) + (1 + 33);
    assert_eq!(copies(16, 255), (11, place, 1, 2));
    // Scopes count the frame: 50 in R, m in the U that the type ends in, K with
    // 60 of its own waits while 40 pairs are passed.
    let term = |m: usize| {
        [
            vec![0xff],
            times(m, &[0xff, 0]),
            vec![0],
            times(49, &[0xff, 0]),
            vec![0xfe],
            times(60, &[0xff, 0]),
            vec![110],
            times(40, &hex("fe 01 ff 00")),
            hex("ff 00 00"),
        ]
        .concat()
    };
    let at = |m: usize| 1 + 2 * m + 1 + 98;
    assert_eq!(
        checked(&with_empty_groups(&term(103), 41)),
        (12, at(103), 40, 1)
    );
    assert_eq!(
        checked(&with_empty_groups(&term(104), 41)),
        (11, at(104), 40, 1)
    );
    assert_eq!(
        checked(&with_empty_groups(&term(104), 40)),
        (9, at(104), 40, 1)
    );
    // The frame is R without the entry about to be made: 252 of R and one of
    // U are within the limit.
    let term = [
        times(251, &[0xff, 0]),
        hex("ff ff 00 00"),
        hex("fe 01 ff ff 00 00 00"),
    ]
    .concat();
    assert_eq!(checked(&with_empty_groups(&term, 1)), (0, 0, 1, 1));
}

#[test]
fn reading_11_order_in_a_comparison() {
    assert_eq!(check_hex("fe 00 ff 00 00", ""), (7, 0, 0, 1));
    // Type of [V]1 over 4,096 bytes: 9 without a group, 11 with one, 11 before
    // a bad step, 12 if it just fits.
    let term = |n: usize| [hex("fe ff"), nested(n), hex("01 ff 00 00")].concat();
    assert_eq!(checked(&file_hex(&term(1024), "")), (9, 0, 0, 1));
    assert_eq!(checked(&file_hex(&term(1024), EMPTY_GROUP)), (11, 0, 0, 1));
    assert_eq!(
        checked(&file_hex(&term(1024), "02 00 03 09 00 00 03 00 00")),
        (11, 0, 0, 1)
    );
    assert_eq!(checked(&file_hex(&term(1023), EMPTY_GROUP)), (12, 0, 0, 1));
    assert_eq!(
        checked(&file_hex(&term(1023), "02 00 03 09 00 00 03 00 00")),
        (10, 0, 0, 1)
    );
    // A bad right step comes before the difference.
    let term = "ff 00 ff 01 fe 01 ff 00 01";
    assert_eq!(check_hex(term, "02 00 00 03 00 03 02 00 00"), (10, 4, 0, 2));
}

#[test]
fn reading_12_place_past_the_body() {
    let term = hex("fe 00 ff 00 00");
    assert_eq!(stepped(&term, 2, 0, 5).0, (0, 0, 1));
    assert_eq!(stepped(&term, 3, 0, 5).0, (0, 0, 1));
    for kind in 0..=255 {
        assert_eq!(stepped(&term, kind, 5, 5), ((10, 0, 0), untouched(5)));
        if kind != 2 && kind != 3 {
            assert_eq!(stepped(&term, kind, 0, 5), ((10, 0, 0), untouched(5)));
        }
    }
}

#[test]
fn reading_13_degree_of_a_refused_check() {
    // Numbers 7 to 13 have the whole term's degree.
    assert_eq!(check_hex("ff 00 ff 01 fe 01 ff 02 01", ""), (9, 4, 0, 3));
    assert_eq!(check_hex("ff 00 ff 01 01", EMPTY_GROUP), (13, 8, 0, 3));
    assert_eq!(check_hex("ff 00 fe 00 ff 01 01", ""), (7, 2, 0, 3));
}

#[test]
fn reading_14_groups_left() {
    // A walk that ends badly is not refused by 13.
    assert_eq!(check_hex("fe 00 00", EMPTY_GROUP), (8, 0, 0, 1));
    let two = format!("{EMPTY_GROUP} {EMPTY_GROUP}");
    assert_eq!(
        check_hex("ff 00 ff 01 fe 01 ff 02 01", &two),
        (13, 18, 1, 3)
    );
    // An unused group's steps are not looked at.
    let bad = format!("{EMPTY_GROUP} 02 00 03 09 09 09 03 00 00 02 00 00 03 00 00");
    assert_eq!(
        check_hex("ff 00 ff 01 fe 01 ff 02 01", &bad),
        (13, 18, 1, 3)
    );
}

#[test]
fn reading_15_short_buffer() {
    let term = hex("ff 00 ff 01 01");
    for length in 0..5 {
        assert_eq!(typed(&term, length), (answer(14, 0, 0), untouched(length)));
    }
    assert_eq!(typed(&term, 5), (answer(0, 0, 5), hex("ff 00 ff 01 02")));
    assert_eq!(typed(&hex("00"), 0), (TypeAnswer::None_, vec![]));
    // 11 before 14.
    let wide = [vec![0xff], nested(1024), vec![1]].concat();
    assert_eq!(typed(&wide, 0), (answer(11, 0, 0), vec![]));
    let wide = [vec![0xff], nested(1023), vec![1]].concat();
    assert_eq!(typed(&wide, 4094), (answer(14, 0, 0), untouched(4094)));
    assert_eq!(typed(&wide, 4095).0, answer(0, 0, 4095));
    // The step call: 10, 11, 14.
    let term = |n: usize| [vec![0xfe], nested(n), hex("ff 00 ff 01 01")].concat();
    let place = |n: usize| (1 + 2 * n + 1 + 3) as u16;
    assert_eq!(stepped(&term(1023), 1, 0, 0), ((10, 0, 0), vec![]));
    assert_eq!(
        stepped(&term(1023), 1, place(1023), 0),
        ((11, 0, 0), vec![])
    );
    assert_eq!(
        stepped(&term(1023), 1, place(1023), 4200),
        ((11, 0, 0), untouched(4200))
    );
    assert_eq!(
        stepped(&term(1022), 1, place(1022), 4094),
        ((14, 0, 0), untouched(4094))
    );
    assert_eq!(stepped(&term(1022), 1, place(1022), 4096).0, (0, 0, 4095));
    // A step into too many scopes: K of 153 used under 101.
    let term = |n: usize| {
        [
            vec![0xfe],
            times(n, &[0xff, 0]),
            hex("00 ff 00"),
            times(100, &[0xff, 0]),
            vec![101],
        ]
        .concat()
    };
    let place = |n: usize| (1 + 2 * n + 1 + 2 + 200) as u16;
    assert_eq!(
        stepped(&term(153), 1, place(153), 4096),
        ((11, 0, 0), untouched(4096))
    );
    assert_eq!(stepped(&term(152), 1, place(152), 4096).0 .0, 0);
}

#[test]
fn reading_16_accepted_place_and_refused_part() {
    assert_eq!(file_examined(&file_hex(&hex("ff 00 01"), "")), (0, 0, 3..6));
    assert_eq!(file_examined(&file_hex(&hex("ff 00 02"), "")), (5, 2, 0..0));
    // Examining a file does not walk.
    assert_eq!(
        file_examined(&file_hex(&hex("fe 00 00"), EMPTY_GROUP)),
        (0, 0, 3..6)
    );
}

// ---------------------------------------------------------------- kind 3

/// The step call of kind 3 into a buffer longer than any result.
fn substituted(term: &[u8], place: u16) -> ((u8, usize, usize), Vec<u8>) {
    let (a, mut buffer) = stepped(term, 3, place, 5000);
    assert!(buffer.drain(a.2..).all(|byte| byte == 0xaa));
    (a, buffer)
}

fn substituted_hex(term: &str, place: u16) -> ((u8, usize, usize), Vec<u8>) {
    substituted(&hex(term), place)
}

#[test]
fn reading_a1_size_on_the_way() {
    // K of 63 bytes, 63 uses.
    let k = [vec![0xfe; 31], vec![0; 32]].concat();
    let term = [vec![0xfe], k.clone(), hex("ff 00"), times(62, &hex("fe 01")), vec![1]].concat();
    let result = [times(62, &[vec![0xfe], k.clone()].concat()), k.clone()].concat();
    assert_eq!(result.len(), 4031);
    assert_eq!(substituted(&term, 0), ((0, 0, 4031), result));
    // Kind 1 at each use: at the last there would be 4,097 bytes.
    let mut body = term;
    for i in 0..62 {
        let place = (66 + 64 * i + 1) as u16;
        let (a, buffer) = stepped(&body, 1, place, 5000);
        assert_eq!(a, (0, 0, body.len() + 62));
        body = buffer[..a.2].to_vec();
    }
    let last = body.len() as u16 - 1;
    assert_eq!(stepped(&body, 1, last, 5000), ((11, 0, 0), untouched(5000)));
}

#[test]
fn reading_a2_scopes_on_the_way() {
    let deep = times(252, &[0xff, 0]);
    let term = [deep.clone(), hex("fe ff 00 fd ff 00 01")].concat();
    let result = [deep, hex("ff 00 fd")].concat();
    assert_eq!(substituted(&term, 504), ((0, 0, 507), result));
    assert_eq!(stepped(&term, 1, 510, 5000).0, (11, 0, 0));
    let k = [times(253, &[0xff, 0]), vec![0]].concat();
    let term = [vec![0xfe], k.clone(), hex("ff 00 01")].concat();
    assert_eq!(substituted(&term, 0), ((0, 0, 507), k));
    // One scope more in the final form.
    let term = [hex("fe"), times(253, &[0xff, 0]), hex("00 ff 00 ff 00 02")].concat();
    assert_eq!(substituted(&term, 0).0, (11, 0, 0));
}

#[test]
fn reading_a3_pairs_of_the_body_only() {
    let term = "ff 00 ff 01 fe 02 ff 00 fe 02 ff 01 01";
    let groups = |kind: &str| format!("{EMPTY_GROUP} 02 00 00 03 00 03 {kind} 00 00");
    assert_eq!(check_hex(term, &groups("01")), (0, 0, 2, 3));
    assert_eq!(check_hex(term, &groups("03")), (10, 8, 1, 3));
}

#[test]
fn reading_a4_uses() {
    assert_eq!(substituted_hex("fe 00 ff 00 00", 0), ((0, 0, 1), hex("00")));
    assert_eq!(
        substituted_hex("ff 00 fe 01 ff 01 01", 2),
        ((0, 0, 3), hex("ff 00 01"))
    );
    assert_eq!(
        substituted_hex("ff 00 fe 01 ff 01 fe 01 01", 2),
        ((0, 0, 5), hex("ff 00 fe 01 01"))
    );
    // Inside later K and U, each under its own abstractors:
    // [τ]⟨1⟩[1] [1] ⟨[3]3⟩ [⟨2⟩3] 3 is [τ] [1] ⟨[2]3⟩ [⟨2⟩2] 3.
    assert_eq!(
        substituted_hex("ff 00 fe 01 ff 01 ff 01 fe ff 02 03 ff fe 02 03 03", 2),
        ((0, 0, 13), hex("ff 00 ff 01 fe ff 02 03 ff fe 02 02 03"))
    );
}

#[test]
fn reading_a5_refused() {
    let term = hex("ff 00 fe 01 fe 01 ff 01 01");
    assert_eq!(substituted(&term, 4).0, (0, 0, 5));
    // Byte: ff, variables. No partner: fe before fe. Place: at the length.
    for place in [0, 1, 3, 5, 6, 7, 8, 2, 9, 10, 65_535] {
        assert_eq!(substituted(&term, place).0, (10, 0, 0));
    }
    // fe before a terminal.
    assert_eq!(substituted_hex("fe 00 00", 0).0, (10, 0, 0));
    assert_eq!(stepped(&term, 4, 4, 5), ((10, 0, 0), untouched(5)));
    // Still used: for kind 2 alone.
    assert_eq!(stepped(&hex("fe 00 ff 00 01"), 2, 0, 5).0, (10, 0, 0));
    assert_eq!(substituted_hex("fe 00 ff 00 01", 0), ((0, 0, 1), hex("00")));
}

#[test]
fn reading_a7_in_files() {
    // [p:τ][a:p]⟨a⟩[⟨p⟩[q:τ]q]1: the type of a is p, and so is the U by one step.
    let term = "ff 00 ff 01 fe 01 ff fe 02 ff 00 01 01";
    let with = |steps: &str| format!("{EMPTY_GROUP} 02 00 00 {steps}");
    assert_eq!(check_hex(term, &with("03 00 03 03 00 00")), (0, 0, 2, 3));
    assert_eq!(check_hex(term, &with("03 00 06 01 00 04 02 00 00")), (0, 0, 2, 3));
    assert_eq!(check_hex(term, &with("03 00 00")), (12, 4, 1, 3));
    // The body is then one byte, a variable.
    assert_eq!(check_hex(term, &with("03 00 06 03 00 00 03 00 00")), (10, 4, 1, 3));
    assert_eq!(check_hex(term, &with("03 00 06 03 00 00 03 00 01")), (10, 4, 1, 3));
}

/// A body of 4,095 bytes, and one of 4,097; 253 scopes, and 254.
#[test]
fn kind_3_limits_of_a_compared_body() {
    let copies = |n: usize, size: usize| {
        let (term, groups) = gen::substituted_copies(n, size);
        checked(&gen::file(&term, &groups))
    };
    assert_eq!(copies(23, 177), (0, 0, 3, 1));
    let declared = 2 * 255 + 3 + 32;
    assert_eq!(copies(16, 255), (11, 3 + declared, 2, 1));
    let scopes = |m: usize, n: usize| {
        let (term, groups) = gen::substituted_scopes(m, n);
        checked(&gen::file(&term, &groups))
    };
    assert_eq!(scopes(50, 201), (0, 0, 5, 1));
    let declared = 2 + 101 + 1 + 101 + 1 + 2 + 2 * 202 + 1;
    assert_eq!(scopes(50, 202), (11, 3 + declared, 4, 1));
}

// --------------------------------------------------------------- couples

/// The step call into a buffer longer than any result here: what it writes, or
/// the number of the refusal.
fn by_step(term: &str, kind: u8, place: u16) -> Result<Vec<u8>, u8> {
    let (a, buffer) = stepped(&hex(term), kind, place, 64);
    assert!(buffer[a.2..].iter().all(|&byte| byte == 0xaa));
    match a {
        (0, 0, length) => Ok(buffer[..length].to_vec()),
        (number, 0, 0) => Err(number),
        _ => panic!("{a:?}"),
    }
}

#[test]
fn reading_d1_matched_between_to_any_depth() {
    let term = hex("fe 00 fe 00 ff 00 ff 00 01");
    assert_eq!(
        stepped_with_pairs(&term, 1, 8, 9),
        ((10, 0, 0), untouched(9))
    );
    assert_eq!(
        stepped(&term, 1, 8, 9),
        ((0, 0, 9), hex("fe 00 fe 00 ff 00 ff 00 00"))
    );
    let term = hex("fe 00 fe 00 fe 00 ff 00 ff 00 ff 00 01");
    assert_eq!(
        stepped(&term, 1, 12, 13),
        ((0, 0, 13), hex("fe 00 fe 00 fe 00 ff 00 ff 00 ff 00 00"))
    );
}

#[test]
fn reading_d2_lift_over_the_abstractors_between() {
    assert_eq!(
        by_step("ff 00 fe 01 fe 00 ff 00 ff 00 01", 1, 10),
        Ok(hex("ff 00 fe 01 fe 00 ff 00 ff 00 03"))
    );
}

#[test]
fn reading_d3_what_stands_between_stays() {
    assert_eq!(
        by_step("fe 00 fe 00 ff 00 ff 00 02", 2, 0),
        Ok(hex("fe 00 ff 00 01"))
    );
    assert_eq!(
        by_step("ff 00 fe 01 fe 01 ff 01 ff 00 ff 00 04", 2, 2),
        Ok(hex("ff 00 fe 01 ff 01 ff 00 03"))
    );
    // Kind 3 on D2's term.
    assert_eq!(
        by_step("ff 00 fe 01 fe 00 ff 00 ff 00 01", 3, 2),
        Ok(hex("ff 00 fe 00 ff 00 02"))
    );
}

#[test]
fn reading_d4_inside_the_body_alone() {
    let term = hex("ff 00 ff ff 00 01 fe 02 fe 01 ff ff 00 01 01");
    let groups = "02 00 03 01 00 02 03 00 03 01 00 02 02 00 00 03 00 00";
    assert_eq!(checked(&file_hex(&term, groups)), (10, 8, 0, 3));
    // A pair of the frame that stems from wagons far apart.
    let term = hex("ff 00 ff 01 fe 02 fe 02 ff 00 ff 00 fe 03 ff 01 01");
    let groups = format!("{EMPTY_GROUP} {EMPTY_GROUP} 02 00 00 03 00 03 01 00 00");
    let file = file_hex(&term, &groups);
    assert_eq!(checked_with_pairs(&file), (0, 0, 3, 3));
    assert_eq!(checked(&file), (0, 0, 3, 3));
}

#[test]
fn reading_d5_nothing_left_to_match_and_uses_in_the_outer_u() {
    assert_eq!(by_step("fe 00 fe 00 ff 00 00", 2, 0), Err(10));
    let term = "fe 00 fe 00 ff 00 ff 01 00";
    assert_eq!(by_step(term, 2, 2), Err(10));
    assert_eq!(by_step(term, 3, 2), Ok(hex("fe 00 ff 00 00")));
    assert_eq!(by_step(term, 2, 0), Ok(hex("fe 00 ff 00 00")));
}

/// [p:τ][a:p][f:[p][p]p]: the type of ⟨a⟩⟨a⟩f is ⟨a⟩⟨a⟩[p][p]p, where the first
/// ⟨a⟩ goes with the second [p] of the copied U.
#[test]
fn reading_d6_a_wagon_of_k_and_one_of_the_copied_u() {
    let term = hex("ff 00 ff 01 ff ff 02 ff 03 04 fe fe 02 fe 02 01 ff 03 00");
    let groups = |steps: &str| {
        let two = format!("{EMPTY_GROUP} {EMPTY_GROUP}");
        file_hex(&term, &format!("{two} 02 00 06 {steps} 03 00 00"))
    };
    // The outer couple, then the pair that is left.
    for kind in ["02", "03"] {
        let file = groups(&format!("{kind} 00 00 {kind} 00 00"));
        assert_eq!(checked_with_pairs(&file), (10, 10, 2, 1));
        assert_eq!(checked(&file), (0, 0, 3, 1));
    }
    // Pair by pair.
    let file = groups("02 00 02 02 00 00");
    assert_eq!(checked_with_pairs(&file), (0, 0, 3, 1));
    assert_eq!(checked(&file), (0, 0, 3, 1));
}

#[test]
fn reading_d7_other_answers_stay() {
    let term = hex("01 00 11 ff 00 ff 01 fe 01 ff fe 02 fe 02 ff 00 ff 00 01 00");
    let groups = format!("{EMPTY_GROUP} {EMPTY_GROUP} 02 00 00 03 00 06 03 00 00 03 00 00");
    let file = [term, hex(&groups)].concat();
    assert_eq!(checked_with_pairs(&file), (10, 4, 2, 1));
    assert_eq!(checked(&file), (0, 0, 3, 1));
}
