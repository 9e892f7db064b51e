//! The session program: the text that a session file gives.

use crate::station::{Handled, OwnPong, State, LINES, OUTPUT};
use std::io::Write;

/// The longest session file.
pub const FILE: usize = 32_768;
/// The route area of a session.
pub const ROUTE: usize = 16_384;

const OWN: OwnPong = OwnPong { port: 6346, address: [127, 0, 0, 1], files: 0, kilobytes: 0, takes_calls: true };

/// Bytes of an event before its message: kind, line, clock.
const EVENT: usize = 6;

fn number(bytes: &[u8], at: usize) -> Option<usize> {
    let four = bytes.get(at..at.checked_add(4)?)?;
    usize::try_from(u32::from_le_bytes(four.try_into().ok()?)).ok()
}

/// The events of a file, or none if the file is not a session file.
fn events(file: &[u8]) -> Option<Vec<&[u8]>> {
    if file.len() > FILE {
        return None;
    }
    let count = number(file, 0)?;
    let head = count.checked_mul(4)?.checked_add(8)?;
    if head > file.len() || number(file, 4)? != head {
        return None;
    }
    let mut events = Vec::with_capacity(count);
    let mut from = head;
    for offset in 1..=count {
        let to = number(file, 4 + 4 * offset)?;
        if to < from.checked_add(EVENT)? {
            return None;
        }
        let event = file.get(from..to)?;
        if event[0] > 2 {
            return None;
        }
        events.push(event);
        from = to;
    }
    (from == file.len()).then_some(events)
}

/// An event, of which only a message is read past its clock.
pub fn event(kind: u8, line: u8, clock: u32, message: &[u8]) -> Vec<u8> {
    let mut event = vec![kind, line];
    event.extend(clock.to_le_bytes());
    event.extend(message);
    event
}

/// The session file of these events.
pub fn file(events: &[Vec<u8>]) -> Vec<u8> {
    let mut offset = 8 + 4 * events.len();
    let mut bytes = (events.len() as u32).to_le_bytes().to_vec();
    bytes.extend((offset as u32).to_le_bytes());
    for event in events {
        offset += event.len();
        bytes.extend((offset as u32).to_le_bytes());
    }
    bytes.extend(events.concat());
    bytes
}

/// The text of a session: a heading, and a row for each event with its answer, the lines sent to and the age handed up.
pub fn text(file: &[u8]) -> Vec<u8> {
    let mut text = Vec::new();
    match events(file) {
        Some(events) => run(&events, &mut text),
        None => text.extend(b"bad file\n"),
    }
    text
}

fn run(events: &[&[u8]], text: &mut Vec<u8>) {
    let mut route = vec![0; ROUTE];
    let mut out = vec![0; OUTPUT];
    let (_, mut state) = State::fresh(&route);
    text.extend(b"event answer to after\n");
    for (row, event) in events.iter().enumerate() {
        let line = usize::from(event[1]);
        let clock = u32::from_le_bytes([event[2], event[3], event[4], event[5]]);
        let changed = |answer| Handled { answer, ..Handled::default() };
        let Handled { answer, to, after, .. } = match event[0] {
            0 => changed(state.open(line)),
            1 => changed(state.close(line)),
            _ => state.message(line, clock, &OWN, &event[EVENT..], &mut out, &mut route),
        };
        let lines: Vec<String> = (0..LINES).filter(|line| to & (1 << line) != 0).map(|line| line.to_string()).collect();
        let to = if lines.is_empty() { "-".to_string() } else { lines.join(",") };
        let after = after.map_or("-".to_string(), |after| after.to_string());
        writeln!(text, "{row} {answer} {to} {after}").expect("a vector takes every byte");
    }
}

#[cfg(test)]
mod tests {
    use super::*;
    use crate::header;

    fn message(number: u8, kind: u8, ttl: u8, hops: u8, payload: &[u8]) -> Vec<u8> {
        header::message(&[number; 16], kind, ttl, hops, payload)
    }

    fn shown(file: &[u8]) -> String {
        String::from_utf8(text(file)).unwrap()
    }

    fn six_events() -> Vec<Vec<u8>> {
        let query = message(7, 0x80, 3, 1, b"\0\0eb ebckl\0");
        vec![
            event(0, 0, 0, b""),
            event(0, 1, 0, b""),
            event(2, 1, 0, &message(1, 0x30, 1, 0, &[0, 4, 0, 0, 0, 8])),
            event(2, 1, 0, &message(2, 0x30, 1, 0, &[1, 1, 1, 0, 4, 9, 9])),
            event(2, 0, 0, &query),
            event(2, 0, 0, &query),
        ]
    }

    #[test]
    fn the_six_events() {
        let rows = "0 0 - -\n1 0 - -\n2 0 - -\n3 0 - -\n4 0 1 -\n5 9 - 0\n";
        assert_eq!(shown(&file(&six_events())), format!("event answer to after\n{rows}"));
    }

    /// The last column: the age of a query that was found, of hits and repeats; 0 is one.
    #[test]
    fn ages() {
        let query = |number, ttl| event(2, 0, 0, &message(number, 0x80, ttl, 0, b"\0\0x\0"));
        let hit = |number, ttl, payload: &[u8]| event(2, 1, 0, &message(number, 0x81, ttl, 0, payload));
        let mut events = vec![event(0, 0, 0, b""), event(0, 1, 0, b""), query(1, 3), query(2, 3), query(3, 3)];
        let hits = [(1, 2), (2, 2), (3, 2), (4, 2), (1, 1), (1, 0)].map(|(number, ttl)| hit(number, ttl, &[0; 27]));
        events.extend(hits);
        events.extend([hit(1, 2, &[0; 26]), query(2, 3), query(2, 16), event(1, 0, 0, b""), hit(1, 2, &[0; 27])]);
        let taken = "0 0 - -\n1 0 - -\n2 0 1 -\n3 0 1 -\n4 0 1 -\n";
        let hits = "5 0 0 2\n6 0 0 1\n7 0 0 0\n8 10 - -\n9 8 - 2\n10 8 - -\n";
        let others = "11 6 - -\n12 9 - 1\n13 8 - -\n14 0 - -\n15 11 - 2\n";
        assert_eq!(shown(&file(&events)), format!("event answer to after\n{taken}{hits}{others}"));
    }

    /// The last of 512 queries is there with 511 behind it, and is gone with one more.
    #[test]
    fn the_oldest_age() {
        let query = |number: u16| {
            let mut number_bytes = [0; 16];
            number_bytes[..2].copy_from_slice(&number.to_le_bytes());
            event(2, 0, 0, &header::message(&number_bytes, 0x80, 3, 0, b"\0\0x\0"))
        };
        let mut events: Vec<_> = [event(0, 0, 0, b"")].into_iter().chain((0..512).map(query)).collect();
        events.extend([query(0), query(512), query(1), query(0), query(1)]);
        let text = shown(&file(&events));
        assert!(text.ends_with("\n513 9 - 511\n514 0 - -\n515 9 - 511\n516 0 - -\n517 0 - -\n"), "{text}");
    }

    /// 200 hits of one query go back, and the next is 21, with its age; 11 once the asker's line has closed.
    #[test]
    fn hits_of_one_query() {
        let hit = event(2, 1, 0, &message(7, 0x81, 3, 0, &[0; 27]));
        let mut events = vec![event(0, 0, 0, b""), event(0, 1, 0, b"")];
        events.push(event(2, 0, 0, &message(7, 0x80, 3, 1, b"\0\0log\0")));
        events.extend(vec![hit.clone(); 201]);
        let mut rows = "event answer to after\n0 0 - -\n1 0 - -\n2 0 1 -\n".to_string();
        rows.extend((3..203).map(|row| format!("{row} 0 0 0\n")));
        rows.push_str("203 21 - 0\n");
        assert_eq!(shown(&file(&events)), rows);
        events.push(event(2, 1, 0, &message(8, 0x80, 3, 1, b"\0\0log\0")));
        events.extend([hit.clone(), event(1, 0, 0, b""), hit]);
        rows.push_str("204 0 0 -\n205 21 - 1\n206 0 - -\n207 11 - 1\n");
        assert_eq!(shown(&file(&events)), rows);
    }

    #[test]
    fn several_lines_and_a_ping() {
        let mut events: Vec<_> = [5, 2, 7].map(|line| event(0, line, 9, b"trailing bytes")).into();
        events.push(event(2, 5, 0, &message(1, 0x80, 7, 0, b"\0\0x\0")));
        events.push(event(2, 2, 0, &message(1, 0x00, 7, 0, b"")));
        events.push(event(1, 7, 0, b"more"));
        events.push(event(1, 200, 0, b""));
        events.push(event(2, 5, 0, &message(2, 0x80, 7, 0, b"\0\0x\0")));
        let rows = "0 0 - -\n1 0 - -\n2 0 - -\n3 0 2,7 -\n4 0 2 -\n5 0 - -\n6 3 - -\n7 0 2 -\n";
        assert_eq!(shown(&file(&events)), format!("event answer to after\n{rows}"));
    }

    /// C87: a bad file gives one line, whatever is good in it.
    #[test]
    fn bad_files() {
        let bad = "bad file\n";
        let good = file(&six_events());
        assert_eq!(shown(&file(&[])), "event answer to after\n");
        for length in 0..good.len() {
            assert_eq!(shown(&good[..length]), bad);
        }
        assert_eq!(shown(&[&good[..], &[0]].concat()), bad);
        let mut events = six_events();
        events.push(event(3, 0, 0, b""));
        assert_eq!(shown(&file(&events)), bad);
        events.pop();
        events.push(vec![0, 0, 0, 0, 0]);
        assert_eq!(shown(&file(&events)), bad);
        assert_eq!(shown(&[0, 0, 0, 0x40, 8, 0, 0, 0]), bad);
        assert_eq!(shown(&[0, 0, 0, 0, 8, 0, 0, 0, 0]), bad);
        assert_eq!(shown(&[0, 0, 0, 0, 9, 0, 0, 0, 0]), bad);
        assert_eq!(shown(&[0xFF; 100]), bad);
        let longest = |length: usize| file(&[event(0, 0, 0, &vec![0; length - 18])]);
        assert_eq!(shown(&longest(FILE)), "event answer to after\n0 0 - -\n");
        assert_eq!(shown(&longest(FILE + 1)), bad);
        let mut falling = good.clone();
        falling.copy_within(8..12, 12);
        assert_eq!(shown(&falling), bad);
    }
}
