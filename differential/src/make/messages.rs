//! Random messages, own queries and look-ups.

use super::start::{lengths, near, number, number_at};
use super::{Maker, HALF, LONGEST, NO_LINES};
use crate::call::{Call, HEADER};
use crate::field::Area;
use lunozhar::raw::{Station, Table};

/// Bytes that part keywords: spaces and hyphens more often than others, those beside the digits and the letters, and some above 127.
const PARTING: &[u8] = b"      ----._/:@[`{\t\x0B\x1F\r\x7F\x80\xA0\xC3\xFF";

const PING: u8 = 0x00;
const PONG: u8 = 0x01;
const UPDATE: u8 = 0x30;
const QUERY: u8 = 0x80;
const HIT: u8 = 0x81;

/// The longest payload, and the longest data of a PATCH.
const PAYLOAD: usize = 4096;
const DATA: usize = 4091;

/// A message before its bytes are joined.
struct Framed {
    number: [u8; 16],
    kind: u8,
    ttl: u8,
    hops: u8,
    payload: Vec<u8>,
}

impl Maker {
    pub(super) fn message(&mut self, station: &Station, route: &[u8]) -> Call {
        let line = self.line(station, true);
        let at = line as usize % 8;
        let bytes = self.message_bytes(station, at, route);
        let kind = bytes.get(16..19).filter(|_| bytes.len() >= HEADER);
        let ping = kind.map_or(false, |kind| kind[0] == PING);
        let clock = if ping && !self.random.one_in(3) { self.ping_clock(station, at) } else { self.tick() };
        let probe = kind.map_or(false, |kind| kind[0] == PING && kind[1] == 1 && kind[2] <= 1);
        let hit = kind.map_or(false, |kind| kind[0] == HIT);
        let (own, out, route) = (self.own(), self.output(), self.lent_route(route));
        let mut made = Call::Message { line, clock, own, bytes, out, route };
        if probe && self.random.one_in(2) {
            self.next = Some(after_probe(&made));
        }
        // The same hit again, which may be the one that is too many.
        if hit && self.random.one_in(4) {
            self.next = Some(made.clone());
        }
        if self.random.one_in(80) {
            self.refuse_twice(&mut made);
        }
        made
    }

    /// A message of a line, one in eight cut, lengthened or with another length.
    pub(super) fn message_bytes(&mut self, station: &Station, at: usize, route: &[u8]) -> Vec<u8> {
        let framed = match self.random.below(29) {
            0..=4 => self.query(station),
            5..=12 => self.hit(station),
            13..=19 => self.ping(),
            20 | 21 => self.pong(),
            22..=27 => self.update(station, at, route),
            _ => self.other(),
        };
        let mut bytes = framed.number.to_vec();
        bytes.extend([framed.kind, framed.ttl, framed.hops]);
        bytes.extend((framed.payload.len() as u32).to_le_bytes());
        bytes.extend(&framed.payload);
        if self.random.one_in(8) {
            self.spoil(&mut bytes);
        }
        bytes
    }

    /// A clock around the time when the next ping of a line is taken, or when a stored pong gets too old; also half of the round later.
    pub(super) fn ping_clock(&mut self, station: &Station, line: usize) -> u32 {
        let round = if self.random.one_in(4) { HALF } else { 0 };
        if station.lines[line].pinged && self.random.one_in(2) {
            let step = self.random.pick(&[0, 1, 998, 999, 999, 1_000, 1_001, u32::MAX]);
            return station.lines[line].pingtime.wrapping_add(round).wrapping_add(step);
        }
        let pong = station.lines[self.random.below(8)].pongs[self.random.below(10)];
        let step = self.random.pick(&[0, 14_998, 14_999, 15_000, 15_001, u32::MAX]);
        pong.clock.wrapping_add(round).wrapping_add(step)
    }

    /// Makes a call that has two reasons to be refused: an area that is too short and a line that no station has.
    fn refuse_twice(&mut self, call: &mut Call) {
        if let Call::Message { line, out, route, .. } = call {
            *line = self.random.pick(&NO_LINES);
            if self.random.one_in(2) {
                out.length = 4118;
            } else {
                *route = Some(Area { length: 31, seed: 1, top: 8 });
            }
        }
    }

    /// Cuts a message, lengthens it, or changes its length field.
    fn spoil(&mut self, bytes: &mut Vec<u8>) {
        let whole = bytes.len();
        let payload = (whole - HEADER) as u32;
        match self.random.below(6) {
            0 => bytes.truncate(self.random.pick(&[0, 1, 16, 22, 23, whole - 1])),
            1 => {
                let keep = self.random.below(whole + 1);
                bytes.truncate(keep);
            }
            2 => {
                let more = self.random.pick(&[1, 5, 30]);
                bytes.extend(self.random.bytes(more));
            }
            3 => {
                let length = self.random.pick(&[4096u32, 4097, 4098, 65_536, 0x8000_0000, u32::MAX, u32::MAX - 22]);
                bytes.splice(19..HEADER, length.to_le_bytes());
            }
            4 => {
                let length = self.random.pick(&[4096u32, 4097]);
                bytes.splice(19..HEADER, length.to_le_bytes());
                bytes.resize(HEADER + 4097, 0x41);
            }
            _ => {
                let length = self.random.pick(&[payload.wrapping_add(1), payload.saturating_sub(1), 0, 1]);
                bytes.splice(19..HEADER, length.to_le_bytes());
            }
        }
    }

    /// A number: of sixteen, so many are remembered or stand in a place that is not kept, and two are near to such a number.
    fn number(&mut self, station: &Station, known: usize) -> [u8; 16] {
        let (kept, any) = (self.random.below(station.count.clamp(1, 512)), self.random.below(512));
        let there = number_at(station, if self.random.one_in(8) { any } else { kept });
        match self.random.below(16) {
            turn if turn < known => there,
            turn if turn < known + 2 => near(&mut self.random, there),
            _ => number(&mut self.random),
        }
    }

    /// A text of keywords and what parts them, also of any bytes. Keywords may be long, and what parts them too.
    fn text(&mut self) -> Vec<u8> {
        if self.random.one_in(60) {
            let length = self.random.pick(&[500, 4_000, 4_092, 4_093]);
            let bytes = self.random.pick(&[&b"  abcdefgh"[..], b"0123456789abcdefghijklmnopqrstuvwxyzABCDEFGHIJ-", b"----  ..__//~~a"]);
            return (0..length).map(|_| self.random.pick(bytes)).collect();
        }
        let mut text = Vec::new();
        if self.random.one_in(6) {
            text.push(self.random.pick(PARTING));
        }
        for _ in 0..self.random.pick(&[0, 1, 1, 1, 2, 2, 3]) {
            let longest = if self.random.one_in(12) { LONGEST } else { 9 };
            text.extend(if self.random.one_in(2) { self.keyword(longest) } else { self.word(longest) });
            let parts = self.random.pick(&[0, 1, 1, 1, 2, 2, 15, 16, 17, 40]);
            text.extend((0..parts).map(|_| self.random.pick(PARTING)));
        }
        text
    }

    /// Digits and letters, of which the ends of their ranges are many.
    fn word(&mut self, longest: usize) -> Vec<u8> {
        (0..=self.random.below(longest)).map(|_| self.random.pick(b"abcxyzABCXYZ0599")).collect()
    }

    fn query(&mut self, station: &Station) -> Framed {
        let number = self.number(station, 5);
        let mut payload = self.random.bytes(2);
        payload.extend(self.text().iter().filter(|&&byte| byte != 0));
        payload.truncate(PAYLOAD - 1);
        payload.push(0);
        if self.random.one_in(6) {
            let rest = self.random.pick(&[1, 9, PAYLOAD - payload.len()]).min(PAYLOAD - payload.len());
            payload.extend(self.random.bytes(rest));
        }
        if self.random.one_in(16) {
            payload.iter_mut().filter(|byte| **byte == 0).for_each(|byte| *byte = b'z');
            payload.truncate(self.random.pick(&[0, 1, 2, 3, PAYLOAD]));
        }
        let (mut ttl, mut hops) = (1 + self.random.below(15) as u8, self.random.below(7) as u8);
        if self.random.one_in(3) {
            (ttl, hops) = (self.random.pick(&[2, 3, 4, 7, 15]), self.random.pick(&[0, 1, 2, 5]));
        }
        if self.random.one_in(10) {
            (ttl, hops) = (self.random.pick(&[0, 1, 15, 16, 255]), self.random.pick(&[0, 6, 7, 8, 254, 255]));
        }
        Framed { number, kind: QUERY, ttl, hops, payload }
    }

    fn hit(&mut self, station: &Station) -> Framed {
        let number = self.number(station, 12);
        let length = self.random.pick(&[27, 27, 27, 28, 40, 300, 26, 0, PAYLOAD]);
        let ttl = self.random.pick(&[0, 1, 2, 2, 3, 7, 7, 255]);
        let hops = self.random.pick(&[0, 1, 7, 254, 255, 255, 255]);
        Framed { number, kind: HIT, ttl, hops, payload: self.random.bytes(length) }
    }

    fn ping(&mut self) -> Framed {
        let (ttl, hops) = (self.random.pick(&[0, 1, 1, 2, 2, 3, 7, 7, 255]), self.random.pick(&[0, 0, 1, 1, 2, 3, 7, 254, 255]));
        let length = self.random.pick(&[0, 0, 0, 0, 1, 14, PAYLOAD]);
        Framed { number: number(&mut self.random), kind: PING, ttl, hops, payload: self.random.bytes(length) }
    }

    fn pong(&mut self) -> Framed {
        let (ttl, hops) = (self.random.pick(&[0, 1, 1, 1, 2, 7, 255]), self.random.pick(&[0, 1, 2, 6, 7, 7, 8, 255]));
        let length = self.random.pick(&[14, 14, 14, 14, 15, 40, 13, 0, PAYLOAD]);
        Framed { number: number(&mut self.random), kind: PONG, ttl, hops, payload: self.random.bytes(length) }
    }

    /// A message of a type that the station does not know.
    fn other(&mut self) -> Framed {
        let kind = self.random.byte();
        let kind = self.random.pick(&[0x02, 0x20, 0x2F, 0x31, 0x40, 0x7F, 0x82, 0xFF, kind]);
        let (ttl, hops, length) = (self.random.byte(), self.random.byte(), self.random.pick(&[0, 6, 27]));
        Framed { number: number(&mut self.random), kind, ttl, hops, payload: self.random.bytes(length) }
    }

    fn update(&mut self, station: &Station, line: usize, route: &[u8]) -> Framed {
        let table = station.lines[line].table;
        let ready = (1..=3).contains(&table.mark);
        let mut payload = if self.random.one_in(if ready { 5 } else { 2 }) {
            self.reset(station.room)
        } else {
            let part = route.get(line.saturating_mul(station.room)..).unwrap_or(&[]);
            self.patch(&table, part)
        };
        let (mut ttl, mut hops) = (1, 0);
        match self.random.below(26) {
            0 => (ttl, hops) = self.random.pick(&[(0, 0), (2, 0), (255, 0), (1, 1), (1, 1), (1, 255), (2, 1)]),
            1 => payload.truncate(self.random.pick(&[0, 1, 2, 4, 5, 6])),
            2 => payload.push(self.random.byte()),
            3 | 9 => {
                let at = self.random.below(payload.len().min(7));
                payload[at] = payload[at].wrapping_add(self.random.pick(&[1, 2, 4, 255]));
            }
            // The size or the bits are other than those of the run's first message.
            10 if payload.len() > 5 => payload[2] = payload[2].wrapping_add(1),
            11 if payload.len() > 5 => payload[4] ^= 4 ^ 8,
            4..=8 if payload.len() > 5 => {
                let (at, any) = (5 + self.random.below(payload.len() - 5), self.random.byte());
                payload[at] = self.random.pick(&[0x7F, 0x80, 0x81, 0x88, 0x77, any, any, any]);
            }
            _ => {}
        }
        payload.truncate(PAYLOAD);
        Framed { number: number(&mut self.random), kind: UPDATE, ttl, hops, payload }
    }

    fn reset(&mut self, room: usize) -> Vec<u8> {
        let lengths = lengths(room);
        let mut length = if lengths.is_empty() { 4 } else { self.random.pick(lengths) };
        let mut infinity = self.random.pick(&[2, 7, 8, 8, 8, 127]);
        if self.random.one_in(10) {
            length = self.random.pick(&[0, 1, 2, 2, 2, 3, 5, 6, length + 1, 2 * length, 65_536, 131_072, 0x0100_0004, 0x8000_0000]);
        }
        if self.random.one_in(10) {
            infinity = self.random.pick(&[0, 1, 2, 127, 128, 255]);
        }
        [&[0][..], &length.to_le_bytes(), &[infinity]].concat()
    }

    /// The next PATCH for a table whose entries are at the front of `part`: in turn, and its numbers lead to entries within Infinity.
    fn patch(&mut self, table: &Table, part: &[u8]) -> Vec<u8> {
        let running = table.mark == 2;
        let (mut place, mut size, mut bits) = (table.place, table.size, table.bits);
        if !running {
            (place, size, bits) = (1, self.random.pick(&[1, 1, 1, 2, 3, 4, 255]), self.random.pick(&[4, 8]));
            if self.random.one_in(25) {
                (place, size) = (2, size.max(2));
            }
        }
        let (length, at) = (table.length as usize, if running { table.at as usize } else { 0 });
        let per_byte = if bits == 4 { 2 } else { 1 };
        let left = length.saturating_sub(at).min(part.len().saturating_sub(at)) / per_byte;
        let rest = left.min(DATA);
        let data = if place == size { rest } else { self.random.pick(&[0, 1, left / 2, left / 2, rest]).min(rest) };
        let mut payload = vec![1, place, size, 0, bits];
        for byte in 0..data {
            let from = at + byte * per_byte;
            let numbers =
                [self.step(part[from], table.infinity, bits), part.get(from + 1).map_or(0, |&e| self.step(e, table.infinity, bits))];
            payload.push(if bits == 4 { numbers[0] << 4 | (numbers[1] & 15) } else { numbers[0] });
        }
        payload
    }

    /// A number that leads an entry to 1..Infinity; where none does, the one that leads nearest, or the least or the greatest.
    fn step(&mut self, entry: u8, infinity: u8, bits: u8) -> u8 {
        let goal = 1 + self.random.below(usize::from(infinity.max(1))) as u8;
        let step = i16::from(goal) - i16::from(entry);
        let (least, most) = if bits == 4 { (-8, 7) } else { (-128, 127) };
        if (least..=most).contains(&step) {
            step as u8
        } else if (1..=infinity).contains(&entry) {
            0
        } else {
            self.random.pick(&[step.clamp(least, most), least, most]) as u8
        }
    }

    /// A number to be looked up: mostly one that is remembered, now and then the newest or the oldest.
    pub(super) fn look_up(&mut self, station: &Station) -> Call {
        let ends = [0, station.count.clamp(1, 512) - 1];
        let end = number_at(station, self.random.pick(&ends));
        let number = if self.random.one_in(6) { end } else { self.number(station, 9) };
        Call::LookUp { number }
    }

    /// An own query.
    pub(super) fn ask(&mut self, station: &Station, route: &[u8]) -> Call {
        let number = self.number(station, 3);
        let mut text: Vec<u8> = self.text().into_iter().filter(|&byte| byte != 0).collect();
        match self.random.below(16) {
            0 => text.insert(self.random.below(text.len() + 1), 0),
            1 => {
                text.resize(self.random.pick(&[4_091, 4_092, 4_093, 5_000]), b'a');
                text.push(self.random.pick(b"aa\0"));
            }
            2 => text = vec![0; self.random.pick(&[1, 4_093, 4_094])],
            _ => {}
        }
        Call::Ask { number, text, out: self.output(), route: self.lent_route(route) }
    }
}

/// A ping that comes by the same line at the same time as a ping that asked for this station alone.
fn after_probe(probe: &Call) -> Call {
    let mut call = probe.clone();
    if let Call::Message { bytes, .. } = &mut call {
        bytes.truncate(HEADER);
        bytes.resize(HEADER, 0);
        bytes[16..].copy_from_slice(&[PING, 7, 0, 0, 0, 0, 0]);
    }
    call
}
