//! The inputs: seeded random numbers, messages, route tables and a handshake group. The same in every run.

use crate::sides::{Call, Writing};
use lunozhar_reference::hash;
use lunozhar_reference::header::{self, HIT, PING, PONG, QUERY, UPDATE};
use lunozhar_reference::writer::{write_table, Entries};

/// Numbers from a seed (splitmix64).
pub struct Random(pub u64);

impl Random {
    pub fn next(&mut self) -> u64 {
        self.0 = self.0.wrapping_add(0x9E37_79B9_7F4A_7C15);
        let mut mixed = self.0;
        mixed = (mixed ^ (mixed >> 30)).wrapping_mul(0xBF58_476D_1CE4_E5B9);
        mixed = (mixed ^ (mixed >> 27)).wrapping_mul(0x94D0_49BB_1331_11EB);
        mixed ^ (mixed >> 31)
    }

    /// A number below `limit`.
    pub fn below(&mut self, limit: usize) -> usize {
        (self.next() % limit as u64) as usize
    }

    /// A message number.
    pub fn number(&mut self) -> [u8; 16] {
        let mut number = [0; 16];
        number[..8].copy_from_slice(&self.next().to_le_bytes());
        number[8..].copy_from_slice(&self.next().to_le_bytes());
        number
    }

    /// A keyword of lower-case letters.
    pub fn word(&mut self, length: usize) -> Vec<u8> {
        (0..length).map(|_| b'a' + self.below(26) as u8).collect()
    }
}

/// A message: its header and payload.
pub fn message(number: [u8; 16], kind: u8, ttl: u8, hops: u8, payload: &[u8]) -> Vec<u8> {
    let mut bytes = vec![0; header::BYTES];
    header::write(&mut bytes, &number, kind, ttl, hops, payload.len());
    bytes.extend(payload);
    bytes
}

pub fn query(number: [u8; 16], ttl: u8, hops: u8, text: &[u8]) -> Vec<u8> {
    message(number, QUERY, ttl, hops, &[b"\0\0", text, b"\0"].concat())
}

/// A hit with one result, `length` bytes of payload.
pub fn hit(number: [u8; 16], ttl: u8, hops: u8, length: usize) -> Vec<u8> {
    message(number, HIT, ttl, hops, &vec![b'x'; length])
}

pub fn ping(number: [u8; 16], ttl: u8, hops: u8) -> Vec<u8> {
    message(number, PING, ttl, hops, b"")
}

pub fn pong(number: [u8; 16], ttl: u8, hops: u8, payload: [u8; 14]) -> Vec<u8> {
    message(number, PONG, ttl, hops, &payload)
}

pub fn reset(number: [u8; 16], length: usize, infinity: u8) -> Vec<u8> {
    let length = (length as u32).to_le_bytes();
    message(number, UPDATE, 1, 0, &[0, length[0], length[1], length[2], length[3], infinity])
}

/// Data bytes in a PATCH: as many as fit.
pub const DATA: usize = 4_091;

/// The messages of a run from `old`, or of a RESET and a run where there is none.
pub fn updates(number: [u8; 16], old: Option<&[u8]>, new: &[u8], infinity: u8) -> Vec<Vec<u8>> {
    let mut out = vec![0; 2 * new.len() + 4_096];
    let entries = |entries| Entries { entries, infinity };
    let written = write_table(old.map(entries), entries(new), &number, DATA, &mut out);
    assert_eq!(written.answer, 0, "a table that may be written");
    let mut messages = Vec::new();
    let mut rest = &out[..written.written];
    while let Some(header) = header::read(rest) {
        let (one, after) = rest.split_at(header::BYTES + header.payload as usize);
        messages.push(one.to_vec());
        rest = after;
    }
    messages
}

/// A table in which one entry of eight is near, and in which the keywords are near.
pub fn table(random: &mut Random, entries: usize, infinity: u8, near: &[Vec<u8>]) -> Vec<u8> {
    let far = usize::from(infinity);
    let mut table: Vec<u8> = (0..entries).map(|_| if random.below(8) == 0 { 1 + random.below(far) as u8 } else { infinity }).collect();
    let bits = entries.trailing_zeros();
    for keyword in near {
        table[hash::place(keyword, bits) as usize] = 1;
    }
    table
}

/// A table of entries that all differ at random.
pub fn scattered(random: &mut Random, entries: usize, infinity: u8) -> Vec<u8> {
    (0..entries).map(|_| 1 + random.below(usize::from(infinity)) as u8).collect()
}

/// Two tables whose difference takes 4 bits where Infinity is below 9, else 8.
pub fn writing(random: &mut Random, entries: usize, infinity: u8) -> Writing {
    let number = random.number();
    let (old, new) = (scattered(random, entries, infinity), scattered(random, entries, infinity));
    Writing { old, new, infinity, number, size: DATA }
}

pub fn calls(line: u32, clock: u32, messages: Vec<Vec<u8>>) -> Vec<Call> {
    messages.into_iter().map(|bytes| Call { line, clock, bytes }).collect()
}

/// A greeting with ten fields, as a neighbour sends it.
pub fn group() -> Vec<u8> {
    let fields = [
        "User-Agent: Example/1.2.3 (a servent of the examples; x86-64; en)",
        "Listen-IP: 203.0.113.7:6346",
        "Remote-IP: 198.51.100.24",
        "X-Ultrapeer: True",
        "X-Query-Routing: 0.1",
        "X-Ultrapeer-Query-Routing: 0.1",
        "X-Max-TTL: 3",
        "Pong-Caching: 0.1",
        "X-Try: 203.0.113.9:6346,198.51.100.77:6347, 192.0.2.15:6346, 192.0.2.201:27015, 192.0.2.9:63460",
        "Accept-Language: en, de;q=0.8, fr;q=0.5, es;q=0.3",
    ];
    format!("GNUTELLA CONNECT/0.6\r\n{}\r\n\r\n", fields.join("\r\n")).into_bytes()
}
