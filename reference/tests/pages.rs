//! Printed pages: the readings B1 and B2, and what holds of every page.

mod common;
use common::*;
use reference::gen::{bare_term, closed_term, nested, times};
use reference::page::page_length;
use reference::rng::Rng;
use reference::stack::on_large_stack;
use std::collections::HashSet;

/// The page of a closed term, printed into a buffer that is longer.
fn page_of(term: &[u8]) -> String {
    let (a, mut buffer) = printed(term, 17_000);
    assert_eq!((a.0, a.1), (0, 0));
    assert!(buffer.drain(a.2..).all(|byte| byte == 0xaa));
    String::from_utf8(buffer).unwrap()
}

/// The line with these cells' columns; the rest is blank.
fn line(columns: &str) -> String {
    format!("{columns:72}\n")
}

/// The bytes of the term that a page shows. Every line must have 72 columns
/// and a line feed, and the cells must fill them up to the last one.
fn read_page(page: &str) -> Vec<u8> {
    let mut cells = Vec::new();
    for line in page.split_inclusive('\n') {
        let (columns, feed) = line.split_at(72);
        assert_eq!(feed, "\n");
        cells.extend((0..72).step_by(4).map(|column| &columns[column..column + 4]));
    }
    let last = cells.iter().rposition(|cell| *cell != "    ").unwrap();
    assert!(cells.len() - last <= 18);
    cells[..=last]
        .iter()
        .map(|cell| match *cell {
            "   t" => 0,
            "   A" => 0xfe,
            "   T" => 0xff,
            index => {
                let read = index.trim_start().parse().unwrap();
                assert_eq!(format!("{read:>4}"), *index);
                assert!((1..=253).contains(&read));
                read
            }
        })
        .collect()
}

#[test]
fn reading_b1_filled_lines() {
    let page = [hex("20 20 20 74"), vec![0x20; 68], hex("0a")].concat();
    let longer = [page.clone(), untouched(27)].concat();
    assert_eq!(printed(&hex("00"), 100), ((0, 0, 73), longer));
    assert_eq!(printed(&hex("00"), 73), ((0, 0, 73), page));
    assert_eq!(printed(&hex("00"), 72), ((14, 0, 0), untouched(72)));
}

#[test]
fn reading_b2_order() {
    // 4, 3, 5 and 6 before 14, whatever the buffer.
    let deep = times(254, &[0xff, 0]);
    for (term, number, place) in [
        (vec![0; 4097], 4, 0),
        (hex("01 00"), 3, 1),
        (hex("ff 00"), 3, 2),
        (hex("01"), 5, 0),
        ([deep.clone(), hex("01")].concat(), 6, 506),
        ([hex("fe 01"), deep.clone(), hex("00")].concat(), 5, 1),
        ([hex("fe"), deep, hex("00 01")].concat(), 6, 507),
    ] {
        for length in [0, 1, 73, 17_000] {
            assert_eq!(printed(&term, length), ((number, place, 0), untouched(length)));
        }
    }
    // No 11, however long the page.
    let page = [
        line(&"   T".repeat(18)).repeat(113),
        line(&["   T".repeat(13), "   t".repeat(5)].concat()),
        line(&"   t".repeat(18)).repeat(113),
        line(&"   t".repeat(9)),
    ]
    .concat();
    assert_eq!(printed(&nested(2047), 16_644), ((0, 0, 16_644), page.into_bytes()));
    assert_eq!(printed(&nested(2047), 16_643), ((14, 0, 0), untouched(16_643)));
}

#[test]
fn two_lines() {
    let term = hex("ff 00 ff 01 ff 01 ff 02 ff 04 ff 00 ff 06 ff 03 ff 08 ff 09 fe ff 0a 0b 0a");
    let page = [
        "   T   t   T   1   T   1   T   2   T   4   T   t   T   6   T   3   T   8\n",
        "   T   9   A   T  10  11  10                                            \n",
    ]
    .concat();
    assert_eq!(page_of(&term), page);
    assert_eq!(printed(&term, 146).0, (0, 0, 146));
    assert_eq!(printed(&term, 145), ((14, 0, 0), untouched(145)));
}

/// Under 253 abstractors; the index is in the third cell of its line.
#[test]
fn every_index() {
    for index in 0..=253 {
        let term = [times(253, &[0xff, 0]), vec![index]].concat();
        let cell = match index {
            0 => "   t".to_string(),
            1..=9 => format!("   {index}"),
            10..=99 => format!("  {index}"),
            _ => format!(" {index}"),
        };
        let page = [
            line(&"   T   t".repeat(9)).repeat(28),
            line(&["   T   t", &cell].concat()),
        ]
        .concat();
        assert_eq!(page_of(&term), page);
    }
}

#[test]
fn every_length() {
    on_large_stack(|| {
        for size in (1..=4095usize).step_by(2) {
            let length = 73 * size.div_ceil(18);
            assert_eq!(page_length(size), length);
            let applicators = [times(size / 2, &[0xfe, 0]), vec![0]].concat();
            assert_eq!(printed(&applicators, 17_000).0, (0, 0, length));
            assert_eq!(printed(&nested(size / 2), length).0, (0, 0, length));
            assert_eq!(printed(&nested(size / 2), length - 1).0, (14, 0, 0));
        }
    });
}

#[test]
fn every_buffer() {
    on_large_stack(|| {
        let mut rng = Rng::new(18);
        for size in [1, 3, 17, 19, 35, 37, 53, 55] {
            let term = closed_term(&mut rng, size).bytes();
            let page = page_of(&term).into_bytes();
            for length in 0..page.len() {
                assert_eq!(printed(&term, length), ((14, 0, 0), untouched(length)));
            }
            for more in 0..=2 {
                let buffer = [page.clone(), untouched(more)].concat();
                assert_eq!(printed(&term, buffer.len()), ((0, 0, page.len()), buffer));
            }
        }
    });
}

/// A page gives its term back; what is no term within the limits is refused
/// as by the examining call.
#[test]
fn pages_are_read_back() {
    on_large_stack(|| {
        let mut rng = Rng::new(72);
        let mut seen = [0; 7];
        for _ in 0..4000 {
            let term = bare_term(&mut rng);
            let (number, place, _) = examined(&term);
            seen[usize::from(number)] += 1;
            if number == 0 {
                assert_eq!(read_page(&page_of(&term)), term);
            } else {
                let length = rng.below(200);
                assert_eq!(printed(&term, length), ((number, place, 0), untouched(length)));
            }
        }
        assert!([0, 3, 4, 5, 6].iter().all(|&n| seen[n] > 0), "{seen:?}");
    });
}

/// All terms of this odd size in the scope of `depth` abstractors.
fn terms(size: usize, depth: u8) -> Vec<Vec<u8>> {
    if size == 1 {
        return (0..=depth).map(|index| vec![index]).collect();
    }
    let mut all = Vec::new();
    for inner in (1..size - 1).step_by(2) {
        for (tag, under) in [(0xfe, depth), (0xff, depth + 1)] {
            for first in terms(inner, depth) {
                for rest in terms(size - 1 - inner, under) {
                    all.push([&[tag], &first[..], &rest[..]].concat());
                }
            }
        }
    }
    all
}

/// Two closed terms print alike only if they are equal.
#[test]
fn small_terms_print_differently() {
    on_large_stack(|| {
        let all: Vec<_> = [1, 3, 5, 7].iter().flat_map(|size| terms(*size, 0)).collect();
        assert_eq!(terms(3, 0).len(), 3);
        assert!(all.iter().all(|term| examined(term).0 == 0));
        let pages: HashSet<String> = all.iter().map(|term| page_of(term)).collect();
        assert_eq!(pages.len(), all.len());
    });
}
