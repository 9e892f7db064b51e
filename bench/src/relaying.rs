//! The rows of tables that are passed on.

use crate::measure::{repeated, Effort, Row};
use crate::names::{area_of, MOST};
use crate::rows::{warm_pair, world, Function};
use crate::sides::{Areas, Side};
use std::hint::black_box;

/// The Infinity that comes back.
const INFINITY: u8 = 8;

/// The table for line 0 of a warm station, of `into` entries, from seven tables of `from` entries and a list of so many names.
fn table(name: &str, effort: Effort, areas: &mut Areas, from: usize, into: usize, names: usize) -> Row {
    let (proved, reference) = warm_pair(name, &mut world(15, from), areas);
    let (names, route, length) = (area_of(names), &areas.route, into as u32);
    let (mut one, mut two) = (vec![0; into], vec![0; into]);
    let answers = (proved.table_for(0, &names, length, &mut one, route), reference.table_for(0, &names, length, &mut two, route));
    assert!(answers == ((0, INFINITY), (0, INFINITY)) && one == two, "{name}: the tables are equal");
    assert!((2..=4).all(|entry| one.contains(&entry)), "{name}: the table tells of some distances");
    let proved = |out: &mut Vec<u8>| black_box(&proved).table_for(0, black_box(&names), length, out, route);
    repeated(name, effort, &mut one, proved, |out| black_box(&reference).table_for(0, black_box(&names), length, out, route))
}

pub const ROWS: [(&str, Function); 6] = [
    ("table passed on, seven tables of 65,536 into 65,536", |name, effort, areas| table(name, effort, areas, 65_536, 65_536, 0)),
    ("table passed on, seven tables of 65,536 into 32,768", |name, effort, areas| table(name, effort, areas, 65_536, 32_768, 0)),
    ("table passed on, seven tables of 65,536 into 4,096", |name, effort, areas| table(name, effort, areas, 65_536, 4_096, 0)),
    ("table passed on, seven tables of 4,096 into 65,536", |name, effort, areas| table(name, effort, areas, 4_096, 65_536, 0)),
    ("table passed on, seven tables of 1,024 into 1,024", |name, effort, areas| table(name, effort, areas, 1_024, 1_024, 0)),
    ("table passed on, seven tables of 1,024 into 1,024, 512 names", |name, effort, areas| table(name, effort, areas, 1_024, 1_024, MOST)),
];
