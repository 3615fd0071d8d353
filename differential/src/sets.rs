//! The sets that are compared whatever the seed.

use reference::gen::{fields_of, files_for, set, shelf, times};

/// All sources, one after the other.
pub fn all() -> impl Iterator<Item = Vec<u8>> {
    let sources: [fn() -> Vec<Vec<u8>>; 6] = [numbers_of_files, cuts, heads, refused_at_each_place, two_refused, about_the_limit];
    sources.into_iter().flat_map(|source| source())
}

/// So many files of the shelf that are accepted, in turn.
fn accepted(many: usize) -> Vec<&'static [u8]> {
    shelf().accepted.iter().map(Vec::as_slice).cycle().take(many).collect()
}

/// 0 to 60 files, and up to 300.
fn numbers_of_files() -> Vec<Vec<u8>> {
    (0..60).chain((60..=300).step_by(40)).map(|many| set(&accepted(many))).collect()
}

/// The starts of sets: every one of a set of each file alone and before another, and of 11 files; of 300 files those that end
/// about a head.
fn cuts() -> Vec<Vec<u8>> {
    let shelf = shelf();
    let small = shelf.accepted.iter().chain(&shelf.refused).filter(|file| file.len() < 100);
    let mut sets: Vec<_> = small.flat_map(|file| [set(&[file]), set(&[file, &shelf.accepted[2]])]).collect();
    sets.push(set(&accepted(11)));
    let long = set(&accepted(300));
    let ends = fields_of(&long).into_iter().step_by(23).flat_map(|field| (0..=4).map(move |more| field.start + more));
    let about_heads = ends.map(|end| long[..end].to_vec());
    let every = sets.iter().flat_map(|set| (0..set.len()).map(|end| set[..end].to_vec()));
    every.chain(about_heads).collect()
}

/// Sets with a head changed: of 11 files each tag to every value, each byte of a length to the next values and to the ends; of
/// 300 files each tag. A file before the head is accepted, or refused.
fn heads() -> Vec<Vec<u8>> {
    let with = |set: &[u8], at: usize, value: u8| {
        let mut changed = set.to_vec();
        changed[at] = value;
        changed
    };
    let mut all = Vec::new();
    for first in [&shelf().accepted[0], &shelf().refused[0]] {
        let mut files = accepted(11);
        files[0] = first;
        let small = set(&files);
        for head in fields_of(&small).into_iter().map(|field| field.start) {
            all.extend((0..=255).map(|tag| with(&small, head, tag)));
            for at in [head + 1, head + 2] {
                let value = small[at];
                all.extend([0, 1, value.wrapping_sub(1), value + 1, 255].map(|value| with(&small, at, value)));
            }
        }
    }
    let long = set(&accepted(300));
    all.extend(fields_of(&long).into_iter().map(|field| with(&long, field.start, 6)));
    all
}

/// Each refused file of the shelf at each place of sets of 1 to 8 files; and one at each place of 300, the refused files in turn.
fn refused_at_each_place() -> Vec<Vec<u8>> {
    let refused = &shelf().refused;
    let with = |many: usize, at: usize, file: &'static [u8]| {
        let mut files = accepted(many);
        files[at] = file;
        set(&files)
    };
    let places = || (1..=8).flat_map(|many| (0..many).map(move |at| (many, at)));
    let each = refused.iter().flat_map(|file| places().map(move |(many, at)| with(many, at, file)));
    let in_turn = refused.iter().cycle().take(300).enumerate().map(|(at, file)| with(300, at, file));
    each.chain(in_turn).collect()
}

/// Every two refused files of the shelf, in both orders, with accepted files before, between and after.
fn two_refused() -> Vec<Vec<u8>> {
    let shelf = shelf();
    let [before, between, after] = [&shelf.accepted[3], &shelf.accepted[2], &shelf.accepted[5]];
    let refused = &shelf.refused;
    let pairs = refused.iter().flat_map(|first| refused.iter().map(move |second| (first, second)));
    pairs.map(|(first, second)| set(&[before, first, between, second, after])).collect()
}

/// Sets of 65,533 to 65,538 bytes: of nested terms, of small files and one refused, of empty files, and with a head that is none
/// at the start and at the end.
fn about_the_limit() -> Vec<Vec<u8>> {
    let mut all = Vec::new();
    for length in 65_533..=65_538 {
        let shelf = shelf();
        let nested = set(&files_for(length));
        let small = set(&[accepted(300), vec![&shelf.refused[19]], accepted(40)].concat());
        let filled = [small.clone(), set(&files_for(length - small.len()))].concat();
        let empty = times(21_850, &[5, 0, 0])[..length].to_vec();
        let no_first = [vec![6], nested[1..].to_vec()].concat();
        let no_last = [nested[..length - 1].to_vec(), vec![5]].concat();
        let cut = nested[..length - 1].to_vec();
        all.extend([nested, filled, empty, no_first, no_last, cut]);
    }
    all
}
