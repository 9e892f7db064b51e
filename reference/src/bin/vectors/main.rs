//! Prints a row for each line of standard input, as `docs/VECTORS.md` says.

mod calls;
mod handshake;
mod names;
mod words;

use lunozhar_reference::hash::place;
use lunozhar_reference::keywords::keywords;
use lunozhar_reference::table::Table;
use lunozhar_reference::writer::{write_table, Entries};
use std::fmt::Display;
use std::io::{self, Read, Write};
use words::Line;

fn main() -> io::Result<()> {
    let mut input = String::new();
    io::stdin().read_to_string(&mut input)?;
    let mut out = String::new();
    for line in input.lines() {
        out.push_str(&row(line));
    }
    io::stdout().write_all(out.as_bytes())
}

/// The rows of a line, each with its line end.
fn row(text: &str) -> String {
    if text.is_empty() || text.starts_with('#') {
        return String::new();
    }
    let line = &Line::new(text);
    let label = line.shown(1);
    match line.word(0) {
        "place" => format!("place {label} {} {}\n", line.shown(2), place(&line.bytes(2), line.number(1))),
        "keywords" => cuts(line),
        "update" => update(line),
        "withheld" => withheld(line),
        "table" => table(line),
        "run" => run(line),
        "group" => handshake::group(line),
        "field" => handshake::asked(line),
        "try" => handshake::tried(line),
        "written" => handshake::written(line),
        "case" => calls::case(line),
        "casehash" => format!("case {label} {}\n", place(&line.bytes(2), 13)),
        "session" => calls::session(line),
        "file" => calls::text(label, &line.bytes(2)),
        "calls" => calls::calls(line),
        "look" => calls::look(line),
        "order" => calls::order(line),
        "relay" => calls::relay(line),
        "names" => names::names(line),
        _ => format!("unread {text}\n"),
    }
}

fn joined<T: Display>(items: impl IntoIterator<Item = T>) -> String {
    let words: Vec<String> = items.into_iter().map(|item| item.to_string()).collect();
    if words.is_empty() {
        "-".to_string()
    } else {
        words.join(",")
    }
}

/// Bytes as a word of a row.
fn hex(bytes: &[u8]) -> String {
    if bytes.is_empty() {
        "-".to_string()
    } else {
        bytes.iter().map(|byte| format!("{byte:02x}")).collect()
    }
}

/// Bytes by runs of equal ones, each the byte and how many; nothing for no byte.
fn runs(bytes: &[u8]) -> String {
    let mut runs: Vec<(u8, usize)> = Vec::new();
    for &byte in bytes {
        match runs.last_mut() {
            Some((last, times)) if *last == byte => *times += 1,
            _ => runs.push((byte, 1)),
        }
    }
    let runs: Vec<String> = runs.iter().map(|(byte, times)| format!("{byte}*{times}")).collect();
    runs.join(",")
}

fn cuts(line: &Line) -> String {
    let text = line.bytes(1);
    let starts: Vec<usize> = keywords(&text).map(|keyword| keyword.start).collect();
    format!("keywords {} {} {}\n", line.shown(1), starts.len(), joined(&starts))
}

/// The last answer, the table and the part after the updates of a line, its words from the fifth on. The last has this TTL and these
/// Hops.
fn updated(line: &Line, ttl: u8, hops: u8) -> (u8, Table, [u8; 8]) {
    let (mut answer, mut table, mut part) = (0, Table::EMPTY, [7; 8]);
    for n in 4..line.count() {
        let (ttl, hops) = if n + 1 == line.count() { (ttl, hops) } else { (1, 0) };
        answer = table.update(&mut part, ttl, hops, &line.bytes(n));
    }
    (answer, table, part)
}

fn update(line: &Line) -> String {
    let (answer, table, part) = updated(line, line.byte(2), line.byte(3));
    let Table { mark, length, infinity, place, size, bits, at } = table;
    format!("update {} {answer} {mark} {length} {infinity} {place} {size} {bits} {at} {}\n", line.shown(1), joined(part))
}

fn withheld(line: &Line) -> String {
    let (_, table, part) = updated(line, 1, 0);
    let answer = u8::from(table.withholds(&part, line.byte(2), &line.bytes(3)));
    format!("withheld {} {} {} {answer}\n", line.shown(1), line.shown(2), line.shown(3))
}

/// The message number 00 01 02 .. 0F.
const NUMBER: [u8; 16] = [0, 1, 2, 3, 4, 5, 6, 7, 8, 9, 10, 11, 12, 13, 14, 15];

/// The update that the words from this one on ask for, and its bytes.
fn written(line: &Line, n: usize) -> (u8, Vec<u8>) {
    let (old, new) = (line.bytes(n + 1), line.bytes(n + 3));
    let old = (line.number(n) != 0).then(|| Entries { entries: &old, infinity: line.byte(n + 2) });
    let new = Entries { entries: &new, infinity: line.byte(n + 4) };
    let mut area = vec![0; line.size(n + 6)];
    let done = write_table(old, new, &NUMBER, line.size(n + 5), &mut area);
    area.truncate(done.written);
    (done.answer, area)
}

fn table(line: &Line) -> String {
    let (answer, bytes) = written(line, 2);
    format!("table {} {answer} {} {}\n", line.shown(1), bytes.len(), hex(&bytes))
}

fn run(line: &Line) -> String {
    let (answer, bytes) = written(line, 4);
    format!("run {} {} {} {answer} {}\n", line.shown(1), line.shown(2), line.shown(3), bytes.len())
}
