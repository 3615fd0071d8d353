//! Pages of terms, and lent buffers kept.

use bijterne::{print_term, Written, LONGEST_PAGE};

/// What a buffer holds before the call.
const KEPT: u8 = 0xaa;

/// The answer, and a buffer of this length as the call leaves it.
fn printed(term: &[u8], length: usize) -> (Written, Vec<u8>) {
    let mut out = vec![KEPT; length];
    (print_term(term, &mut out), out)
}

fn accepted(length: usize) -> Written {
    Written { number: 0, place: 0, length }
}

fn refused(number: u32, place: usize) -> Written {
    Written { number, place, length: 0 }
}

/// The page of these lines, each filled with blanks.
fn page(lines: &[&str]) -> Vec<u8> {
    lines.iter().map(|line| format!("{line:72}\n")).collect::<String>().into_bytes()
}

/// 19 bytes: one cell stands on the second line.
const TWO_LINES: [u8; 19] = [0xff, 0, 0xff, 1, 0xfe, 1, 0xff, 2, 0xff, 0, 0xff, 0, 0xff, 0, 0xff, 0, 0xff, 0, 7];

fn its_page() -> Vec<u8> {
    page(&["   T   t   T   1   A   1   T   2   T   t   T   t   T   t   T   t   T   t", "   7"])
}

#[test]
fn pages() {
    assert_eq!(printed(&[0], 73), (accepted(73), page(&["   t"])));
    assert_eq!(printed(&TWO_LINES, 146), (accepted(146), its_page()));
}

#[test]
fn every_index() {
    let term = [[0xff, 0].repeat(253), (1..=253).flat_map(|index| [0xfe, index]).collect(), vec![0]].concat();
    let applicators = (1..=253).map(|index| format!("   A{index:4}")).collect::<String>();
    let cells = ["   T   t".repeat(253), applicators, "   t".into()].concat();
    let lines: Vec<&str> = (0..cells.len()).step_by(72).map(|at| &cells[at..cells.len().min(at + 72)]).collect();
    assert_eq!(printed(&term, 57 * 73), (accepted(57 * 73), page(&lines)));
}

#[test]
fn bytes_past_the_page_are_kept() {
    assert_eq!(printed(&TWO_LINES, 150), (accepted(146), [its_page(), vec![KEPT; 4]].concat()));
}

#[test]
fn a_refusal_keeps_the_buffer() {
    for (term, length, answer) in [
        (vec![0], 72, refused(14, 0)),
        (TWO_LINES.to_vec(), 145, refused(14, 0)),
        (vec![0xff, 0], 100, refused(3, 2)),
        (vec![0; 4_097], 100, refused(4, 0)),
        (vec![1], 0, refused(5, 0)),
        ([[0xff, 0].repeat(254), vec![0]].concat(), 100, refused(6, 506)),
    ] {
        assert_eq!(printed(&term, length), (answer, vec![KEPT; length]));
    }
}

#[test]
fn the_longest_page() {
    let deepest = [vec![0xff; 2_047], vec![0; 2_048]].concat();
    let (answer, out) = printed(&deepest, LONGEST_PAGE);
    assert_eq!(answer, accepted(16_644));
    assert!(out.chunks(73).all(|line| line.len() == 73 && line[72] == b'\n'));
    assert_eq!(printed(&deepest, LONGEST_PAGE - 1), (refused(14, 0), vec![KEPT; LONGEST_PAGE - 1]));
}
