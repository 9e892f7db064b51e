//! Tables written for a neighbour stand in its station as they were written.

use crate::{own, station, UPDATE};
use lunozhar::table::{self, Table};
use lunozhar::{raw, Refusal, Station};

/// Hands the updates to line 0 message by message, and says how many there were.
fn feed(station: &mut Station, updates: &[u8]) -> usize {
    let mut count = 0;
    let mut rest = updates;
    while !rest.is_empty() {
        rest = &rest[station.message(0, 0, &own(), rest).unwrap().used..];
        count += 1;
    }
    count
}

fn assert_settled(station: &Station, entries: &[u8], infinity: u8) {
    let table = station.state().lines[0].table;
    assert_eq!((table.mark, table.length as usize, table.infinity), (raw::MARK_SETTLED, entries.len(), infinity));
    assert_eq!(&station.route()[..entries.len()], entries);
}

#[test]
fn a_table_goes_over_at_four_and_at_eight_bits() {
    for (infinity, data_size, messages) in [(8, table::MOST_DATA, 2), (8, 100, 1 + 6), (100, 4_000, 2), (100, 100, 1 + 11)] {
        let mut station = station(&[0]);
        let first: Vec<u8> = (0..1024).map(|place| 1 + (place * 7 % u32::from(infinity)) as u8).collect();
        let new = Table { entries: &first, infinity };
        assert_eq!(feed(&mut station, &table::write([1; 16], None, new, data_size).unwrap()), messages);
        assert_settled(&station, &first, infinity);

        let second: Vec<u8> = first.iter().rev().copied().collect();
        let newer = Table { entries: &second, infinity };
        assert_eq!(feed(&mut station, &table::write([2; 16], Some(new), newer, data_size).unwrap()), messages - 1);
        assert_settled(&station, &second, infinity);
    }
}

#[test]
fn the_longest_table_goes_over_in_the_longest_run() {
    let entries = vec![1; table::LONGEST];
    let new = Table { entries: &entries, infinity: 127 };
    assert_eq!(table::write([1; 16], None, new, 257), Err(Refusal::BadUpdate));
    let updates = table::write([1; 16], None, new, 258).unwrap();
    assert_eq!(updates.len(), 29 + 255 * 28 + table::LONGEST);
    let mut station = Station::new(8 * table::LONGEST).unwrap();
    station.open(0).unwrap();
    assert_eq!(feed(&mut station, &updates), 256);
    assert_settled(&station, &entries, 127);
}

#[test]
fn the_smallest_table_byte_by_byte() {
    let new = Table { entries: &[8, 1, 8, 1], infinity: 8 };
    let reset = crate::message(3, UPDATE, 1, 0, &[0, 4, 0, 0, 0, 8]);
    let patch = crate::message(3, UPDATE, 1, 0, &[1, 1, 1, 0, 4, 0x09, 0x09]);
    assert_eq!(table::write([3; 16], None, new, 2).unwrap(), [reset, patch].concat());
}
