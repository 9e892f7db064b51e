//! The rows of the station's own names.

use crate::words::Line;
use crate::{hex, joined, runs};
use lunozhar_reference::names::{add, find, list, remove, table, MOST};

/// Bytes at a place of the area, as far as it has them.
pub fn put(area: &mut [u8], at: usize, bytes: &[u8]) {
    area.iter_mut().skip(at).zip(bytes).for_each(|(place, byte)| *place = *byte);
}

fn put_number(area: &mut [u8], at: usize, number: u32) {
    put(area, at, &number.to_le_bytes());
}

fn put_pair(area: &mut [u8], place: usize, offset: u32, length: u32) {
    put_number(area, 4 + 8 * place, offset);
    put_number(area, 8 + 8 * place, length);
}

/// A pair, and the text that it tells of.
fn put_name(area: &mut [u8], place: usize, offset: u32, bytes: &[u8]) {
    put_pair(area, place, offset, bytes.len() as u32);
    put(area, offset as usize, bytes);
}

/// So many names of two bytes each, one text behind the other, 512 at most; the count is that number all the same.
fn fill(area: &mut [u8], count: u32, offset: u32) {
    put_number(area, 0, count);
    for place in 0..MOST.min(count as usize) {
        put_name(area, place, offset + 2 * place as u32, &[1 + (place % 128) as u8, 1 + (place / 128) as u8]);
    }
}

/// The answer of a call that may change the area, with `=` behind it where it did not.
fn changed(area: &mut [u8], call: fn(&mut [u8], &[u8]) -> u8, name: &[u8]) -> String {
    let before = area.to_vec();
    let answer = call(area, name);
    format!(" {answer}{}", if *area == before { "=" } else { "" })
}

/// The answer of a table, and its output by runs of equal bytes.
fn tabled(area: &[u8], length: u32, infinity: u8, room: usize) -> String {
    let mut out = vec![0; room];
    let answer = table(area, length, infinity, &mut out);
    format!(" {answer}:{}", runs(&out))
}

/// What is printed of the event whose name is this word, which is done on the area, and how many words it takes.
fn event(line: &Line, n: usize, area: &mut [u8]) -> (String, usize) {
    let (number, bytes) = (|k| line.number(n + k), |k| line.bytes(n + k));
    match line.word(n) {
        "add" => (changed(area, add, &bytes(1)), 2),
        "remove" => (changed(area, remove, &bytes(1)), 2),
        "find" => {
            let (answer, place) = find(area, &bytes(1));
            (format!(" {answer}@{place}"), 2)
        }
        "table" => (tabled(area, number(1), line.byte(n + 2), line.size(n + 3)), 4),
        "count" => {
            put_number(area, 0, number(1));
            (String::new(), 2)
        }
        "pair" => {
            put_pair(area, line.size(n + 1), number(2), number(3));
            (String::new(), 4)
        }
        "name" => {
            put_name(area, line.size(n + 1), number(2), &bytes(3));
            (String::new(), 4)
        }
        "fill" => {
            fill(area, number(1), number(2));
            (String::new(), 3)
        }
        other => panic!("no event: {other:?}"),
    }
}

/// The area of a line after its events from this word on, and what is printed of them. Its length is the word before.
pub fn area(line: &Line, mut n: usize) -> (Vec<u8>, String) {
    let (mut area, mut told) = (vec![0; line.size(n - 1)], String::new());
    while n < line.count() {
        let (word, width) = event(line, n, &mut area);
        told += &word;
        n += width;
    }
    (area, told)
}

pub fn names(line: &Line) -> String {
    let (area, told) = area(line, 3);
    let (answer, listed) = match list(&area) {
        Ok(names) => (0, joined(names.into_iter().map(hex))),
        Err(answer) => (answer, joined::<u8>([])),
    };
    format!("names {}{told} {answer} {listed}\n", line.shown(1))
}
