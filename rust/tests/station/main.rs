//! The crate as a program uses it.

mod ages;
mod any_bytes;
mod feeding;
mod handshakes;
mod held_areas;
mod hits;
mod late_hit;
mod messages;
mod names;
mod readme;
mod refusals;
mod relaying;
mod session;
mod tables;

use lunozhar::{Own, Station};

const PING: u8 = 0x00;
const PONG: u8 = 0x01;
const UPDATE: u8 = 0x30;
const QUERY: u8 = 0x80;
const HIT: u8 = 0x81;

/// A message whose number is 16 times the same byte.
fn message(number: u8, kind: u8, ttl: u8, hops: u8, payload: &[u8]) -> Vec<u8> {
    let mut bytes = vec![number; 16];
    bytes.extend([kind, ttl, hops]);
    bytes.extend((payload.len() as u32).to_le_bytes());
    bytes.extend(payload);
    bytes
}

/// A query: speed, text, a zero byte.
fn query(number: u8, text: &str) -> Vec<u8> {
    message(number, QUERY, 3, 1, &[b"\0\0", text.as_bytes(), b"\0"].concat())
}

/// A hit with the shortest payload.
fn hit(number: u8) -> Vec<u8> {
    message(number, HIT, 4, 0, &[0; 27])
}

/// What the station says of itself in these tests.
fn own() -> Own {
    Own { files: 3, kilobytes: 70_000, ..Own::new("192.0.2.1:6346".parse().unwrap()) }
}

/// A station with these lines open and room for 1,024 entries a table.
fn station(lines: &[u32]) -> Station {
    let mut station = Station::new(8 * 1024).unwrap();
    for &line in lines {
        station.open(line).unwrap();
    }
    station
}
