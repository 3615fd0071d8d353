//! The ground of a refusal: the readings G1 to G5, every condition of a step on
//! both sides, short buffers, and what holds of every file.

mod common;
use common::*;
use reference::file::Group;
use reference::frame::{apply, Frame, Step, Unmet, UNMET};
use reference::gen::*;
use reference::ground::Side;
use reference::refusal::*;
use reference::rng::Rng;
use reference::stack::on_large_stack;
use reference::term::{read_term, Term};
use reference::walk::{walk_by, Event};
use reference::*;

const TERM_OF_E2: &str = "ff 00 ff 01 fe 01 ff 02 01";
/// [p:τ][a:p]⟨a⟩[⟨p⟩[q:τ]q]1: a group for the pair inside U, then one for a.
const PAIR_IN_U: &str = "ff 00 ff 01 fe 01 ff fe 02 ff 00 01 01";
const SIDES: [Side; 2] = [Side::Left, Side::Right];

/// The call with buffers of aa of these lengths, and the buffers after it.
fn explained(file: &[u8], lengths: [usize; 2]) -> (ExplainAnswer, [Vec<u8>; 2]) {
    let [mut left, mut right] = lengths.map(untouched);
    let answer = explain(file, &mut left, &mut right);
    (answer, [left, right])
}

/// The eight numbers; the buffers must be left alone.
fn without_bodies(file: &[u8]) -> [u64; 8] {
    let (answer, buffers) = explained(file, [20, 30]);
    assert_eq!(buffers, [20, 30].map(untouched), "{file:02x?}");
    answer.numbers()
}

/// A group's fields, by its steps in hexadecimal.
fn group(left: &str, right: &str) -> String {
    let [m, n] = [left, right].map(|steps| hex(steps).len());
    format!("02 00 {m:02x} {left} 03 00 {n:02x} {right}")
}

/// The same with steps on one side alone.
fn group_on(side: Side, steps: &str) -> String {
    match side {
        Side::Left => group(steps, ""),
        Side::Right => group("", steps),
    }
}

/// Explaining must give 12 with this place, comparisons and degree, these
/// bodies and this difference where there is room for both bodies, else 14.
fn assert_bodies(
    file: &[u8],
    [place, comparisons, degree]: [u64; 3],
    bodies: [&[u8]; 2],
    difference: usize,
) {
    let lengths = bodies.map(<[u8]>::len);
    let about = |length: usize| [0, length - 1, length, length + 1];
    for of_left in about(lengths[0]) {
        for of_right in about(lengths[1]) {
            let (answer, buffers) = explained(file, [of_left, of_right]);
            let short = of_left < lengths[0] || of_right < lengths[1];
            if short {
                assert_eq!(
                    answer.numbers(),
                    [14, 0, comparisons, degree, 0, 0, 0, 0],
                    "{of_left} {of_right}"
                );
                assert_eq!(buffers, [of_left, of_right].map(untouched));
                continue;
            }
            let [m, n, difference] = [lengths[0], lengths[1], difference].map(|n| n as u64);
            let numbers = [12, place, comparisons, degree, m, n, difference, 0];
            assert_eq!(answer.numbers(), numbers, "{of_left} {of_right}");
            for (buffer, body) in buffers.iter().zip(bodies) {
                assert_eq!(buffer[..body.len()], *body);
                assert_eq!(buffer[body.len()..], untouched(buffer.len() - body.len()));
            }
        }
    }
}

/// The same of a term and groups in hexadecimal.
fn assert_bodies_hex(
    term: &str,
    groups: &str,
    check: [u64; 3],
    bodies: [&str; 2],
    difference: usize,
) {
    let bodies = bodies.map(hex);
    assert_bodies(
        &file_hex(&hex(term), groups),
        check,
        [&bodies[0], &bodies[1]],
        difference,
    );
}

#[test]
fn readings_g1_and_g2_bodies() {
    // Condition 12's example.
    assert_bodies_hex(
        "ff 00 ff 01 fe 01 ff 00 01",
        EMPTY_GROUP,
        [4, 0, 2],
        ["02", "00"],
        0,
    );
    assert_bodies_hex(
        "ff 00 ff ff 01 00 fe 01 ff ff 00 00 00",
        EMPTY_GROUP,
        [6, 0, 1],
        ["ff 02 00", "ff 00 00"],
        1,
    );
    // E4.
    assert_bodies_hex(
        "ff 00 ff 01 fe 02 ff 00 fe 02 ff 01 01",
        &EMPTY_GROUP.repeat(2),
        [8, 1, 3],
        ["03", "01"],
        0,
    );
}

/// The bodies are those after the steps, of different lengths, with the first
/// of several differences anywhere.
#[test]
fn bodies_as_reached() {
    for (steps, right) in [("", "fe 02 ff 00 01"), ("01 00 04", "fe 02 ff 00 03")] {
        assert_bodies_hex(
            PAIR_IN_U,
            &[EMPTY_GROUP, &group("", steps)].concat(),
            [4, 1, 3],
            ["02", right],
            0,
        );
    }
    // [p:τ][z:T]⟨z⟩[T]τ, where T is ⟨p⟩[q:τ][q]q: the two begin alike.
    for (left, right, bodies, difference) in [
        (
            "01 00 05",
            "",
            ["fe 02 ff 00 ff 03 02", "fe 02 ff 00 ff 01 02"],
            5,
        ),
        (
            "01 00 06",
            "01 00 05",
            ["fe 02 ff 00 ff 01 04", "fe 02 ff 00 ff 03 02"],
            5,
        ),
        (
            "",
            "01 00 06",
            ["fe 02 ff 00 ff 01 02", "fe 02 ff 00 ff 01 04"],
            6,
        ),
        ("03 00 00", "", ["ff 02 03", "fe 02 ff 00 ff 01 02"], 0),
        (
            "01 00 05",
            "01 00 06 01 00 05 02 00 00",
            ["fe 02 ff 00 ff 03 02", "ff 02 03"],
            0,
        ),
    ] {
        assert_bodies_hex(
            &declared_twice("", ["fe 01 ff 00 ff 01 02", "fe 02 ff 00 ff 01 02"]),
            &[EMPTY_GROUP, EMPTY_GROUP, &group(left, right)].concat(),
            [10, 2, 1],
            bodies,
            difference,
        );
    }
}

/// The longest bodies, with a difference near the end.
#[test]
fn long_bodies() {
    // 23 copies of 177 bytes, one fewer replaced on the right.
    let (term, mut groups) = stepped_copies(23, 177);
    groups[1].right.pop();
    let copy = [vec![0xff], vec![0xff], nested(87)].concat();
    let before = |index: u8| [copy.clone(), vec![index]].concat();
    let all: Vec<u8> = (0..23).flat_map(|under| before(4 + under)).collect();
    let but_one = &all[..22 * 178];
    assert_bodies(
        &file(&term, &groups),
        [406, 1, 2],
        [
            &[&all[..], &[0]].concat(),
            &[but_one, &[0xff, 24, 0]].concat(),
        ],
        22 * 178 + 1,
    );
    // A type of K of 4,095 bytes: ⟨[V]1⟩[τ]τ.
    let term = [hex("fe ff"), nested(1023), hex("01 ff 00 00")].concat();
    assert_bodies(
        &file(&term, &empty_groups(1)),
        [0, 0, 1],
        [&[&[0xff], &nested(1023)[..], &nested(1023)].concat(), &[0]],
        0,
    );
}

#[test]
fn reading_g3_steps() {
    let of_e2 = |left: &str| without_bodies(&file_hex(&hex(TERM_OF_E2), &group(left, "")));
    assert_eq!(of_e2("09 ff ff"), [10, 4, 0, 3, 0, 0, 1, 0]);
    assert_eq!(of_e2("01 00 01"), [10, 4, 0, 3, 0, 0, 2, 0]);
    assert_eq!(of_e2("02 00 00"), [10, 4, 0, 3, 0, 0, 3, 0]);
    assert_eq!(of_e2("01 00 00"), [10, 4, 0, 3, 0, 0, 4, 0]);
    let of_pair = |right: &str| {
        let groups = [EMPTY_GROUP, &group("", right)].concat();
        without_bodies(&file_hex(&hex(PAIR_IN_U), &groups))
    };
    assert_eq!(of_pair("02 00 00"), [10, 4, 1, 3, 1, 0, 5, 0]);
    assert_eq!(of_pair("01 00 03"), [10, 4, 1, 3, 1, 0, 3, 0]);
    assert_eq!(
        of_pair("01 00 04 02 00 00 02 00 00"),
        [10, 4, 1, 3, 1, 2, 3, 0]
    );
    // The left steps come first.
    let groups = [EMPTY_GROUP, &group("01 00 01", "02 00 00")].concat();
    let both = file_hex(&hex(PAIR_IN_U), &groups);
    assert_eq!(without_bodies(&both), [10, 4, 1, 3, 0, 0, 2, 0]);
}

/// Reading D4: what waits is no partner.
#[test]
fn reading_d4_no_partner() {
    let term = hex("ff 00 ff ff 00 01 fe 02 fe 01 ff ff 00 01 01");
    let with = |first: &str| file_hex(&term, &[first, EMPTY_GROUP].concat());
    let (left, right) = (group("01 00 02", "01 00 02"), group("", "01 00 02"));
    assert_eq!(without_bodies(&with(&left)), [10, 8, 0, 3, 0, 0, 4, 0]);
    assert_eq!(without_bodies(&with(&right)), [10, 8, 0, 3, 1, 0, 4, 0]);
}

/// [p:τ][z:T]⟨z⟩[T]τ, with these items before [z:T]. T is given as it stands
/// there and as it stands after z: so both bodies of the last comparison have it.
fn declared_twice(items: &str, t: [&str; 2]) -> String {
    format!("ff 00 {items} ff {} fe 01 ff {} 00", t[0], t[1])
}

/// A T, the steps of a side, and the number and the condition of the one that
/// cannot be applied.
type Row<'a> = ([&'a str; 2], &'a str, u64, Unmet);

#[test]
fn every_condition_on_both_sides() {
    use Unmet::*;
    let pair = ["fe 01 ff 00 01", "fe 02 ff 00 01"];
    let nested = ["fe 01 fe 01 ff 00 ff 00 01", "fe 02 fe 02 ff 00 ff 00 01"];
    let used_in_u = ["fe 01 ff 00 ff 01 00", "fe 02 ff 00 ff 01 00"];
    let alone = ["ff 01 01", "ff 02 01"];
    let rows: [Row; 39] = [
        (pair, "00 00 00", 0, Kind),
        (pair, "04 00 04", 0, Kind),
        (pair, "ff ff ff", 0, Kind),
        (pair, "01 00 04 09 00 05", 1, Kind),
        (pair, "03 00 00 00 00 00", 1, Kind),
        (pair, "01 00 05", 0, Place),
        (pair, "02 00 05", 0, Place),
        (pair, "03 00 05", 0, Place),
        (pair, "01 ff ff", 0, Place),
        (pair, "01 04 00", 0, Place),
        (pair, "01 00 04 02 00 00 01 00 01", 2, Place),
        (pair, "03 00 00 03 00 01", 1, Place),
        // At fe, ff and 00, and kinds 2 and 3 at a variable.
        (pair, "01 00 00", 0, Byte),
        (pair, "01 00 02", 0, Byte),
        (pair, "01 00 03", 0, Byte),
        (pair, "02 00 01", 0, Byte),
        (pair, "02 00 02", 0, Byte),
        (pair, "02 00 03", 0, Byte),
        (pair, "02 00 04", 0, Byte),
        (pair, "03 00 01", 0, Byte),
        (pair, "03 00 02", 0, Byte),
        (pair, "03 00 03", 0, Byte),
        (pair, "03 00 04", 0, Byte),
        (pair, "01 00 04 02 00 00 02 00 00", 2, Byte),
        (pair, "03 00 00 03 00 00", 1, Byte),
        // p is single, in the frame; so is [2] in the body.
        (pair, "01 00 01", 0, NoPartner),
        (pair, "01 00 04 01 00 04", 1, NoPartner),
        (pair, "03 00 00 01 00 00", 1, NoPartner),
        (alone, "01 00 02", 0, NoPartner),
        (alone, "01 00 01", 0, NoPartner),
        (nested, "02 00 02 02 00 02", 1, Byte),
        (nested, "01 00 01", 0, NoPartner),
        (pair, "02 00 00", 0, StillUsed),
        (nested, "02 00 00", 0, StillUsed),
        (nested, "02 00 02 02 00 00", 1, StillUsed),
        (nested, "03 00 02 02 00 00", 1, StillUsed),
        (used_in_u, "02 00 00", 0, StillUsed),
        (used_in_u, "01 00 05 01 00 06", 1, Byte),
        (used_in_u, "01 00 05 02 00 00 02 00 00", 2, Byte),
    ];
    for row in rows {
        assert_unmet("", row);
    }
    // An applicator without an abstractor: T is ⟨a⟩f, with a and f before it.
    for steps in ["02 00 00", "03 00 00", "01 00 01"] {
        let row = (["fe 02 01", "fe 03 02"], steps, 0, NoPartner);
        assert_unmet("ff 01 ff ff 02 00", row);
    }
    for unmet in UNMET {
        assert!(rows.iter().any(|row| row.3 == unmet && row.2 == 0));
        assert!(rows.iter().any(|row| row.3 == unmet && row.2 > 0));
    }
}

/// With these items before [z:T], the steps of the last comparison stop on
/// either side.
fn assert_unmet(items: &str, (t, steps, number, unmet): Row) {
    let term = hex(&declared_twice(items, t));
    let comparisons = 2 * hex(t[0]).iter().filter(|&&byte| byte == 0xfe).count();
    let place = 2 + hex(items).len() + 1 + hex(t[0]).len();
    let check = [10, place, comparisons, 1].map(|number| number as u64);
    for side in SIDES {
        let groups = [EMPTY_GROUP.repeat(comparisons), group_on(side, steps)].concat();
        let numbers = without_bodies(&file_hex(&term, &groups));
        assert_eq!(numbers[..4], check, "{t:?} {groups}");
        let ground = [side as u64, number, unmet as u64, 0];
        assert_eq!(numbers[4..], ground, "{t:?} {groups}");
    }
}

/// Reading D5 in files: [p:τ][a:p] and a T that is correct.
#[test]
fn reading_d5_couples() {
    // With [f:[p]τ] before it, T = ⟨a⟩⟨a⟩[p]f: nothing is left for the first ⟨a⟩.
    for steps in ["02 00 00", "03 00 00"] {
        let t = ["fe 02 fe 02 ff 03 02", "fe 03 fe 03 ff 04 03"];
        assert_unmet("ff 01 ff ff 02 00", (t, steps, 0, Unmet::NoPartner));
    }
    // T = ⟨a⟩⟨p⟩[b:τ][b]τ, where the U of ⟨a⟩ is p by a step.
    let t = ["fe 01 fe 02 ff 00 ff 01 00", "fe 02 fe 03 ff 00 ff 01 00"];
    let of_t = [EMPTY_GROUP, &group("", "01 00 00")].concat().repeat(2);
    let term = hex(&declared_twice("ff 01", t));
    for side in SIDES {
        let with = |steps: &str| file_hex(&term, &[&of_t[..], &group_on(side, steps)].concat());
        let used = [10, 14, 4, 1, side as u64, 0, 5, 0];
        assert_eq!(without_bodies(&with("02 00 02")), used);
        for steps in ["03 00 02", "02 00 00"] {
            assert_eq!(check(&with(steps)).number, BODIES_DIFFER);
        }
    }
}

/// Readings D5 and A5: the conditions in their order, on bodies by themselves.
#[test]
fn conditions_of_bodies() {
    use Unmet::*;
    let unmet = |body: &str, kind: u8, place: usize| {
        let body = read_term(&hex(body)).unwrap();
        apply(&Frame::new(), &body, Step { kind, place }).err()
    };
    for kind in [2, 3] {
        assert_eq!(unmet("fe 00 fe 00 ff 00 00", kind, 0), Some(NoPartner));
        assert_eq!(unmet("fe 00 00", kind, 0), Some(NoPartner));
        assert_eq!(unmet("fe 00 fe 00 ff 00 00", kind, 4), Some(Byte));
        assert_eq!(unmet("fe 00 fe 00 ff 00 00", kind, 1), Some(Byte));
        assert_eq!(unmet("fe 00 fe 00 ff 00 00", kind, 7), Some(Place));
    }
    let used = "fe 00 fe 00 ff 00 ff 01 00";
    assert_eq!(unmet(used, 2, 2), Some(StillUsed));
    assert_eq!(unmet(used, 3, 2), None);
    assert_eq!(unmet(used, 2, 0), None);
    assert_eq!(unmet(used, 3, 0), None);
    // A place past the body is not looked at if the kind is unknown.
    for kind in [0, 4, 5, 255] {
        for place in [0, 8, 9, 65_535] {
            assert_eq!(unmet(used, kind, place), Some(Kind));
        }
    }
    // The single abstractor of a variable, and 00, which is none.
    assert_eq!(unmet("ff 00 01", 1, 2), Some(NoPartner));
    assert_eq!(unmet("ff 00 01", 1, 1), Some(Byte));
    assert_eq!(unmet("ff 00 01", 1, 0), Some(Byte));
}

#[test]
fn reading_g4_waiting() {
    let plain = |term: &str| without_bodies(&file_hex(&hex(term), ""));
    assert_eq!(plain("fe 00 fe 00 00"), [8, 2, 0, 1, 2, 0, 0, 0]);
    assert_eq!(plain("fe 00 00"), [8, 0, 0, 1, 1, 0, 0, 0]);
    // In copied text.
    assert_eq!(
        plain("ff 00 fe 00 fe 00 fe 00 01"),
        [8, 6, 0, 2, 3, 0, 0, 0]
    );
    // Those that wait around a K or a U are not in W there.
    assert_eq!(plain("fe 00 fe fe 00 00 00"), [8, 3, 0, 1, 1, 0, 0, 0]);
    assert_eq!(
        plain("fe 00 fe 00 ff fe 00 00 00"),
        [8, 5, 0, 1, 1, 0, 0, 0]
    );
    // One of two is taken, in the term's own text and in copied text.
    let taken = |term: &str| without_bodies(&file_hex(&hex(term), EMPTY_GROUP));
    assert_eq!(
        taken("ff 00 fe 01 fe 01 ff 00 00"),
        [8, 2, 1, 1, 1, 0, 0, 0]
    );
    assert_eq!(
        taken("ff 00 ff ff 00 00 fe 02 fe 02 fe 02 01"),
        [8, 8, 1, 2, 2, 0, 0, 0]
    );
    let many = [times(2047, &hex("fe 00")), hex("00")].concat();
    assert_eq!(
        without_bodies(&file(&many, &[])),
        [8, 4092, 0, 1, 2047, 0, 0, 0]
    );
}

/// Every other number, at buffers with room and without.
#[test]
fn reading_g5_the_check_alone() {
    let deep = |n: usize, end: u8| [times(n, &[0xff, 0]), vec![end]].concat();
    let plain = |term: &[u8], groups: usize| file(term, &empty_groups(groups));
    let typed = [hex("ff ff 00 00"), deep(252, 0xfd)].concat();
    let files = [
        (plain(&hex(TERM_OF_E2), 1), [0, 0, 1, 3]),
        (vec![], [1, 0, 0, 0]),
        (hex("01 00 02 00"), [1, 0, 0, 0]),
        (hex("02 00 00"), [2, 0, 0, 0]),
        (plain(&hex("ff 00"), 0), [3, 2, 0, 0]),
        (plain(&[0; 4097], 0), [4, 0, 0, 0]),
        (plain(&hex("01"), 0), [5, 0, 0, 0]),
        (plain(&deep(254, 0), 0), [6, 506, 0, 0]),
        (plain(&hex("fe 00 ff 00 00"), 0), [7, 0, 0, 1]),
        (plain(&hex(TERM_OF_E2), 0), [9, 4, 0, 3]),
        (plain(&typed, 0), [11, 508, 0, 2]),
        (plain(&[0], 1), [13, 4, 0, 1]),
    ];
    for (file, [number, place, comparisons, degree]) in files {
        for lengths in [[0, 0], [0, 9], [9, 0], [4096, 4096]] {
            let (answer, buffers) = explained(&file, lengths);
            let numbers = [number, place, comparisons, degree, 0, 0, 0, 0];
            assert_eq!(answer.numbers(), numbers);
            assert_eq!(answer.report, Report::Nothing);
            assert_eq!(buffers, lengths.map(untouched));
        }
    }
    // 8 and 10 need no buffer.
    let waiting = explained(&plain(&hex("fe 00 00"), 0), [0, 0]).0;
    assert_eq!(waiting.report, Report::Waiting { many: 1 });
    let step = explained(&file_hex(&hex(TERM_OF_E2), &group("", "01 00 00")), [0, 0]);
    let report = Report::Step {
        side: Side::Right,
        number: 0,
        unmet: Unmet::NoPartner,
    };
    assert_eq!(step.0.report, report);
}

/// Where a check stops, as the test itself finds it: by the state shown last, or
/// by its own replay of the last group asked for.
fn found(file: &[u8]) -> (Report, [Vec<u8>; 2]) {
    let nothing = (Report::Nothing, Default::default());
    let Ok(fields) = file::read_fields(file) else {
        return nothing;
    };
    let Ok(term) = read_term(&file[fields.term]) else {
        return nothing;
    };
    let mut unused = fields.groups.iter();
    let mut last: Option<(Frame, [Term; 2], Group)> = None;
    let mut waiting = 0;
    let (_, end) = walk_by(
        apply,
        &term,
        &mut |frame, type_of_k, u| {
            let group = unused.next()?;
            let bodies = [type_of_k.clone(), u.clone()];
            last = Some((frame.clone(), bodies, group.clone()));
            Some(group.clone())
        },
        Some(&mut |event| {
            if let Event::State { state, .. } = event {
                waiting = state.w.len();
            }
        }),
    );
    match end.map_err(|stop| stop.refusal.number) {
        Err(STILL_WAITING) => (Report::Waiting { many: waiting }, Default::default()),
        Err(BAD_STEP | BODIES_DIFFER) => replayed(last.expect("there was a group")),
        _ => nothing,
    }
}

/// The first step of the group that cannot be applied, or the bodies reached.
fn replayed((frame, bodies, group): (Frame, [Term; 2], Group)) -> (Report, [Vec<u8>; 2]) {
    let mut reached = Vec::new();
    for ((side, mut body), steps) in SIDES.into_iter().zip(bodies).zip([group.left, group.right]) {
        for (number, &step) in steps.iter().enumerate() {
            match apply(&frame, &body, step) {
                Ok(next) => body = next,
                Err(unmet) => {
                    let report = Report::Step {
                        side,
                        number,
                        unmet,
                    };
                    return (report, Default::default());
                }
            }
        }
        reached.push(body.bytes());
    }
    let [left, right] = [&reached[0], &reached[1]];
    let difference = left.iter().zip(right).position(|(a, b)| a != b);
    let report = Report::Bodies {
        left: left.len(),
        right: right.len(),
        difference: difference.expect("neither is a beginning of the other"),
    };
    (report, [left.clone(), right.clone()])
}

#[test]
fn generated_files() {
    on_large_stack(|| {
        let mut rng = Rng::new(8_10_12);
        let mut numbers = [0; 14];
        // By side, condition, and whether other steps came before.
        let mut steps = [[[0; 2]; 6]; 2];
        let (mut alike, mut longer, mut short, mut late) = (0, [0; 2], [0; 2], 0);
        let mut most_waiting = 0;
        for i in 0..6000 {
            let file = match i % 3 {
                0 => random_file(&mut rng),
                _ => stopped_file(&mut rng),
            };
            let (report, bodies) = found(&file);
            let check = check(&file);
            let (answer, buffers) = explained(&file, [4096; 2]);
            let expected = ExplainAnswer {
                number: check.number,
                place: check.place,
                comparisons: check.comparisons,
                degree: check.degree,
                report,
            };
            assert_eq!(answer, expected, "{file:02x?}");
            for (buffer, body) in buffers.iter().zip(&bodies) {
                assert_eq!(buffer[..body.len()], *body);
                assert_eq!(buffer[body.len()..], untouched(4096 - body.len()));
            }
            numbers[usize::from(check.number)] += 1;
            match report {
                Report::Nothing => {}
                Report::Waiting { many } => most_waiting = many.max(most_waiting),
                Report::Step {
                    side,
                    number,
                    unmet,
                } => steps[side as usize][unmet as usize][number.min(1)] += 1,
                Report::Bodies {
                    left,
                    right,
                    difference,
                } => {
                    alike += usize::from(left == right);
                    longer[0] += usize::from(left > right);
                    longer[1] += usize::from(left < right);
                    late += usize::from(difference > 0);
                    let side = rng.below(2);
                    let mut lengths = [left, right];
                    lengths[side] = rng.below(lengths[side]);
                    short[side] += 1;
                    let refused = ExplainAnswer {
                        number: SHORT_BUFFER,
                        place: 0,
                        report: Report::Nothing,
                        ..expected
                    };
                    let exact = explained(&file, [left, right]);
                    assert_eq!(exact, (expected, bodies));
                    let too_short = explained(&file, lengths);
                    assert_eq!(too_short, (refused, lengths.map(untouched)));
                }
            }
        }
        assert!(numbers.iter().all(|&n| n > 0), "{numbers:?}");
        for side in steps {
            assert!(side[1..].iter().flatten().all(|&n| n > 0), "{steps:?}");
        }
        assert!(most_waiting > 20, "{most_waiting}");
        assert!(alike > 50 && late > 50, "{alike} {late}");
        assert!(longer.iter().chain(&short).all(|&n| n > 50), "{longer:?}");
    });
}

/// The eight numbers, then both buffers.
#[test]
fn the_program() {
    let file = file_hex(&hex(PAIR_IN_U), &EMPTY_GROUP.repeat(2));
    assert_eq!(
        output(&["explain", "2", "7"], &file),
        "12 4 1 3 1 5 0 0 02aa fe02ff0001aaaa\n"
    );
    assert_eq!(
        output(&["explain", "1", "4"], &file),
        "14 0 1 3 0 0 0 0 aa aaaaaaaa\n"
    );
}
