//! The rows of the station's own names.

use crate::inputs::Random;
use crate::measure::{repeated, Effort, Row};
use crate::proved::Proved;
use crate::sides::{Reference, Side};
use std::hint::black_box;

/// Where the text of an area begins, and the most names.
const TEXT: usize = 4_100;
pub const MOST: usize = 512;
/// Bytes of a name.
const NAME: usize = 40;
/// The Infinity of tables.
const INFINITY: u8 = 7;

/// So many different names, each of five keywords.
fn names(count: usize) -> Vec<Vec<u8>> {
    let mut random = Random(21);
    let word = |random: &mut Random, index: usize| [random.word(4), format!("{index:03}").into_bytes()].concat();
    let mut name = |index: usize| {
        let words: Vec<Vec<u8>> = (0..5).map(|_| word(&mut random, index)).collect();
        words.join(&b' ')[..NAME - 1].iter().copied().chain([b'x']).collect()
    };
    (0..count).map(&mut name).collect()
}

/// An area of these names: text after text in this order, with a gap of so many bytes before each, and as many bytes of room behind the last.
fn area(names: &[Vec<u8>], order: impl Iterator<Item = usize>, gap: usize, room: usize) -> Vec<u8> {
    let mut area = vec![0; TEXT + names.len() * (gap + NAME) + room];
    area[..4].copy_from_slice(&(names.len() as u32).to_le_bytes());
    let mut at = TEXT;
    for place in order {
        at += gap;
        area[at..at + NAME].copy_from_slice(&names[place]);
        let pair = 4 + 8 * place;
        area[pair..pair + 4].copy_from_slice(&(at as u32).to_le_bytes());
        area[pair + 4..pair + 8].copy_from_slice(&(NAME as u32).to_le_bytes());
        at += NAME;
    }
    area
}

/// An area of so many names, text after text.
pub fn area_of(count: usize) -> Vec<u8> {
    area(&names(count), 0..count, 0, 0)
}

/// The names of an area, by its pairs.
fn listed(area: &[u8]) -> Vec<&[u8]> {
    let number = |at: usize| u32::from_le_bytes([area[at], area[at + 1], area[at + 2], area[at + 3]]) as usize;
    (0..number(0)).map(|place| &area[number(4 + 8 * place)..][..number(8 + 8 * place)]).collect()
}

/// A find of the name at a place, in so many; where there is none, of a name that is not there.
fn find(name: &str, effort: Effort, count: usize, place: Option<usize>) -> Row {
    let names = names(MOST + 1);
    let area = area(&names[..count], 0..count, 0, 0);
    find_in(name, effort, &area, &names[place.unwrap_or(MOST)], place)
}

fn find_in(name: &str, effort: Effort, area: &[u8], wanted: &[u8], place: Option<usize>) -> Row {
    let expected = place.map_or((10, 0), |place| (0, place));
    assert_eq!((Proved::name_find(area, wanted), Reference::name_find(area, wanted)), (expected, expected), "{name}");
    let proved = |_: &mut ()| Proved::name_find(black_box(area), black_box(wanted));
    repeated(name, effort, &mut (), proved, |_| Reference::name_find(black_box(area), black_box(wanted)))
}

/// The same in 512 names whose texts lie in the list's order backwards.
fn find_falling(name: &str, effort: Effort) -> Row {
    let names = names(MOST);
    find_in(name, effort, &area(&names, (0..MOST).rev(), 0, 0), &names[MOST / 2], Some(MOST / 2))
}

/// Both calls of a pair, which leave the list as it was.
fn pair<S: Side>(area: &mut [u8], name: &[u8]) -> (u8, u8) {
    (S::name_add(area, name), S::name_remove(area, name))
}

/// The last of 512 names added and removed again.
fn add_remove(name: &str, effort: Effort) -> Row {
    let names = names(MOST);
    let given = area(&names[..MOST - 1], 0..MOST - 1, 0, NAME);
    added_and_removed(name, effort, given, &names)
}

fn added_and_removed(name: &str, effort: Effort, given: Vec<u8>, names: &[Vec<u8>]) -> Row {
    let last = &names[MOST - 1];
    let (mut one, mut two) = (given.clone(), given);
    assert_eq!((pair::<Proved>(&mut one, last), pair::<Reference>(&mut two, last)), ((0, 0), (0, 0)), "{name}");
    assert!(listed(&one) == listed(&two) && listed(&one) == names[..MOST - 1], "{name}: the names are equal");
    let proved = |areas: &mut (Vec<u8>, Vec<u8>)| pair::<Proved>(&mut areas.0, black_box(last));
    repeated(name, effort, &mut (one, two), proved, |areas| pair::<Reference>(&mut areas.1, black_box(last)))
}

/// An add that has to close the gaps of 511 names, from an area that is copied before each turn, which is timed with it.
fn close(name: &str, effort: Effort, order: impl Iterator<Item = usize>) -> Row {
    let names = names(MOST);
    let (given, last) = (area(&names[..MOST - 1], order, 4, 0), &names[MOST - 1]);
    let (mut one, mut two) = (given.clone(), given.clone());
    assert_eq!((Proved::name_add(&mut one, last), Reference::name_add(&mut two, last)), (0, 0), "{name}");
    assert!(listed(&one) == listed(&two) && listed(&one) == names, "{name}: the names are equal");
    let proved = |area: &mut Vec<u8>| {
        area.copy_from_slice(&given);
        Proved::name_add(area, black_box(last))
    };
    repeated(name, effort, &mut one, proved, |area| {
        area.copy_from_slice(&given);
        Reference::name_add(area, black_box(last))
    })
}

/// The own table of 512 names.
fn table(name: &str, effort: Effort, entries: usize) -> Row {
    let area = area_of(MOST);
    let (mut one, mut two) = (vec![0; entries], vec![0; entries]);
    let terms = entries as u32;
    let answers = (Proved::name_table(&area, terms, INFINITY, &mut one), Reference::name_table(&area, terms, INFINITY, &mut two));
    assert!(answers == (0, 0) && one == two && one.contains(&1), "{name}: the tables are equal");
    let proved = |out: &mut Vec<u8>| Proved::name_table(black_box(&area), terms, INFINITY, out);
    repeated(name, effort, &mut one, proved, |out| Reference::name_table(black_box(&area), terms, INFINITY, out))
}

type Function = fn(&str, Effort) -> Row;

pub const ROWS: [(&str, Function); 10] = [
    ("name found, the first of 512 of 40 bytes", |name, effort| find(name, effort, MOST, Some(0))),
    ("name found, the last of 512 of 40 bytes", |name, effort| find(name, effort, MOST, Some(MOST - 1))),
    ("name absent (10), 512 of 40 bytes", |name, effort| find(name, effort, MOST, None)),
    ("name absent (10), an empty list", |name, effort| find(name, effort, 0, None)),
    ("name found, 512 of 40 bytes, offsets that fall", find_falling),
    ("name added and removed, the last of 512 of 40 bytes", add_remove),
    ("name added, gaps of 511 closed", |name, effort| close(name, effort, 0..MOST - 1)),
    ("name added, gaps of 511 closed, offsets that fall", |name, effort| close(name, effort, (0..MOST - 1).rev())),
    ("own table of 1,024 entries, 512 names", |name, effort| table(name, effort, 1_024)),
    ("own table of 65,536 entries, 512 names", |name, effort| table(name, effort, 65_536)),
];
