//! The station: its state, opening and closing a line, an arriving message, bytes as they arrive, an own query, a
//! number looked up, a table to be passed on.
//!
//! A line is the connection to one neighbour. Every call tests first that the state is in order, in one pass over what the state keeps.

mod feeding;
mod memory;
mod relaying;
#[cfg(test)]
mod tests;

use crate::hash;
use crate::header::{self, Header, HIT, PING, PONG, QUERY, UPDATE};
use crate::keywords::keywords;
use crate::table::{self, Table};
pub use feeding::{Fed, HELD, SHUT, WAITING};
use memory::Index;
pub use relaying::{Made, INFINITY};
use std::ops::Range;

/// Lines of a station.
pub const LINES: usize = 8;
/// Queries that are remembered.
pub const MEMORY: usize = 512;
/// Pongs that are stored for each line.
pub const PONGS: usize = 10;
/// Bytes of output area that a message or an own query needs.
pub const OUTPUT: usize = header::BYTES + header::PAYLOAD;
/// Bytes of route area that a message or an own query needs.
pub const ROUTE: usize = 32;
/// The longest text of an own query.
pub const OWN_TEXT: usize = header::PAYLOAD - 3;

/// Bytes of a pong's payload that are stored and sent.
pub const PONG_BYTES: usize = 14;
/// The shortest payload of a hit.
pub const HIT_BYTES: usize = 27;
/// Most hits of one query that are sent back or delivered.
pub const HITS: u8 = 200;
/// Most hops of a query.
pub const REACH: u8 = 7;
/// The largest TTL of an arriving query.
pub const QUERY_TTL: u8 = 15;
/// Milliseconds between two pings of a line.
pub const PING_SPACE: u32 = 1_000;
/// Milliseconds after which a stored pong is no longer sent.
pub const PONG_AGE: u32 = 15_000;

/// The asker of an own query. A number below 8 is a line.
pub const HERE: u8 = 8;
/// The asker's line has been closed since.
pub const GONE: u8 = 9;
/// What stands for the asker of a number that is not remembered.
pub const NOBODY: u8 = 10;

/// A stored pong: the first 14 payload bytes, the Hops it came with, the clock when it came.
#[derive(Clone, Copy, Debug, PartialEq, Eq)]
pub struct Pong {
    pub data: [u8; PONG_BYTES],
    pub hops: u8,
    pub clock: u32,
}

/// A line. Its pongs are a ring; the kept ones are the `pong_count` places just before `pong_next`, going round.
#[derive(Clone, Copy, Debug, PartialEq, Eq)]
pub struct Line {
    pub open: bool,
    /// Whether a ping was accepted, at `ping_clock`.
    pub pinged: bool,
    pub ping_clock: u32,
    pub pong_count: u8,
    pub pong_next: u8,
    pub pongs: [Pong; PONGS],
    pub table: Table,
    /// How many bytes of a message that is not whole stand in the line's held area.
    pub held: u16,
    /// Whether the line brings nothing more until it is closed and opened.
    pub shut: bool,
}

/// The whole state. The remembered queries are a ring as well: the `count` places just before `next`, going round.
#[derive(Clone, Debug, PartialEq, Eq)]
pub struct State {
    /// Bytes of the route area for each line.
    pub room: usize,
    pub count: u16,
    pub next: u16,
    pub numbers: [[u8; 16]; MEMORY],
    /// A line, [`HERE`] or [`GONE`].
    pub askers: [u8; MEMORY],
    /// How many hits of the query were sent back or delivered since it was remembered, at most [`HITS`].
    pub hits: [u8; MEMORY],
    pub lines: [Line; LINES],
}

/// What the station's own pong says, and whether it takes calls.
#[derive(Clone, Copy, Debug, PartialEq, Eq)]
pub struct OwnPong {
    pub port: u16,
    pub address: [u8; 4],
    pub files: u32,
    pub kilobytes: u32,
    pub takes_calls: bool,
}

/// What a call did.
#[derive(Clone, Copy, Debug, Default, PartialEq, Eq)]
pub struct Handled {
    pub answer: u8,
    /// Consumed bytes of the message; 0 for an own query.
    pub used: usize,
    /// Bytes written from the output area's first.
    pub written: usize,
    /// The lines to send them to: bit `l` for line `l`.
    pub to: u8,
    /// Whether the query is offered to the local search; its text is `text_length` bytes of the message from `text_start`.
    pub search: bool,
    pub text_start: usize,
    pub text_length: usize,
    /// Whether the message is a hit for an own query.
    pub delivered: bool,
    /// Where a query's number was looked up and found: how many were remembered after it.
    pub after: Option<usize>,
}

/// A query that was found: a line, [`HERE`] or [`GONE`], and how many were remembered after it.
#[derive(Clone, Copy, Debug, PartialEq, Eq)]
pub struct Remembered {
    pub asker: u8,
    pub after: usize,
}

/// Nothing sent, nothing handed up.
const QUIET: Handled =
    Handled { answer: 0, used: 0, written: 0, to: 0, search: false, text_start: 0, text_length: 0, delivered: false, after: None };

/// The same, refused.
fn refused(answer: u8) -> Handled {
    Handled { answer, ..QUIET }
}

/// The same with this answer, once the number was found.
fn found(answer: u8, known: Remembered) -> Handled {
    Handled { answer, after: Some(known.after), ..QUIET }
}

impl Line {
    /// A closed line.
    pub const CLOSED: Line = Line {
        open: false,
        pinged: false,
        ping_clock: 0,
        pong_count: 0,
        pong_next: 0,
        pongs: [Pong { data: [0; PONG_BYTES], hops: 0, clock: 0 }; PONGS],
        table: Table::EMPTY,
        held: 0,
        shut: false,
    };
    /// A line just opened.
    pub const OPENED: Line = Line { open: true, ..Line::CLOSED };

    /// The stored pong of a rank, 0 for the newest.
    #[inline]
    fn pong(&self, rank: usize) -> Option<&Pong> {
        let kept = rank < usize::from(self.pong_count);
        kept.then(|| &self.pongs[(usize::from(self.pong_next) + PONGS - 1 - rank) % PONGS])
    }

    fn store(&mut self, pong: Pong) {
        self.pongs[usize::from(self.pong_next)] = pong;
        self.pong_next = (self.pong_next + 1) % PONGS as u8;
        self.pong_count = (self.pong_count + 1).min(PONGS as u8);
    }

    fn in_order(&self, room: usize) -> bool {
        let (count, next) = (usize::from(self.pong_count), usize::from(self.pong_next));
        let ring = count <= PONGS && next < PONGS;
        ring && kept(count, next, PONGS).into_iter().all(|places| self.pongs[places].iter().all(|pong| pong.hops <= REACH))
            && (self.open || (self.table.mark == table::NONE && count == 0 && !self.pinged))
            && table_in_order(&self.table, room)
    }
}

/// The kept places of a ring: those at its end, if any are kept there, and those before `next`. The ring is in order.
#[inline]
fn kept(count: usize, next: usize, capacity: usize) -> [Range<usize>; 2] {
    let before = count.min(next);
    [capacity - (count - before)..capacity, next - before..next]
}

fn table_in_order(table: &Table, room: usize) -> bool {
    let sized = table::length_allowed(table.length) && table.length as usize <= room && table::infinity_allowed(table.infinity);
    match table.mark {
        table::NONE | table::BROKEN => true,
        table::WAITING | table::SETTLED => sized && table.place == 1 && table.at == 0,
        table::RUNNING => {
            let place = 2 <= table.place && table.place <= table.size;
            sized && place && (table.bits == 4 || table.bits == 8) && table.at <= table.length
        }
        _ => false,
    }
}

/// The header and the payload of the message at the front of some bytes: 4 where they end before it does, 5 where its
/// payload is too long.
#[inline]
pub(crate) fn framed(bytes: &[u8]) -> Result<(Header, &[u8]), u8> {
    let header = header::read(bytes).ok_or(4)?;
    if header.payload > header::PAYLOAD as u32 {
        return Err(5);
    }
    let payload = bytes[header::BYTES..].get(..header.payload as usize).ok_or(4)?;
    Ok((header, payload))
}

/// Where a query's text ends: at the first zero byte after the two of the speed.
fn query_text(payload: &[u8]) -> Option<&[u8]> {
    let after = payload.get(2..)?;
    let length = after.iter().position(|&byte| byte == 0)?;
    Some(&after[..length])
}

/// The text of a query that has one and may have come this far: 6 for a payload without one, 8 for TTL or Hops.
#[inline]
pub(crate) fn asked<'a>(header: &Header, payload: &'a [u8]) -> Result<&'a [u8], u8> {
    let text = query_text(payload).ok_or(6)?;
    if header.ttl == 0 || header.ttl > QUERY_TTL || header.hops >= REACH {
        return Err(8);
    }
    Ok(text)
}

/// Milliseconds from `then` to `now`, modulo 2^32.
#[inline]
fn elapsed(now: u32, then: u32) -> u32 {
    now.wrapping_sub(then)
}

/// Writes pongs one after the other, all with the number and TTL that answer one ping.
struct Pongs<'a> {
    out: &'a mut [u8],
    written: usize,
    number: &'a [u8; 16],
    ttl: u8,
}

impl Pongs<'_> {
    fn send(&mut self, hops: u8, data: &[u8; PONG_BYTES]) {
        let out = &mut self.out[self.written..self.written + header::BYTES + PONG_BYTES];
        header::write(out, self.number, PONG, self.ttl, hops, PONG_BYTES);
        out[header::BYTES..].copy_from_slice(data);
        self.written += out.len();
    }
}

impl OwnPong {
    fn data(&self) -> [u8; PONG_BYTES] {
        let mut data = [0; PONG_BYTES];
        data[..2].copy_from_slice(&self.port.to_le_bytes());
        data[2..6].copy_from_slice(&self.address);
        data[6..10].copy_from_slice(&self.files.to_le_bytes());
        data[10..].copy_from_slice(&self.kilobytes.to_le_bytes());
        data
    }
}

impl State {
    /// A fresh state over this route area: 0, or 2 with room 0 if it is too short.
    pub fn fresh(route: &[u8]) -> (u8, State) {
        let (answer, room) = if route.len() < ROUTE { (2, 0) } else { (0, route.len() / LINES) };
        let (numbers, askers, hits) = ([[0; 16]; MEMORY], [0; MEMORY], [0; MEMORY]);
        (answer, State { room, count: 0, next: 0, numbers, askers, hits, lines: [Line::CLOSED; LINES] })
    }

    /// Opens a line: 0, 1 or 3.
    pub fn open(&mut self, line: usize) -> u8 {
        if !self.in_order() {
            return 1;
        }
        match self.lines.get_mut(line) {
            Some(closed) if !closed.open => *closed = Line::OPENED,
            _ => return 3,
        }
        0
    }

    /// Closes a line: 0, 1 or 3. The queries that came by it are gone from now on; their hits stay counted.
    pub fn close(&mut self, line: usize) -> u8 {
        if !self.in_order() {
            return 1;
        }
        match self.lines.get_mut(line) {
            Some(opened) if opened.open => *opened = Line::CLOSED,
            _ => return 3,
        }
        for asker in &mut self.askers {
            if usize::from(*asker) == line {
                *asker = GONE;
            }
        }
        0
    }

    /// Handles a message that arrived on a line.
    pub fn message(&mut self, line: usize, clock: u32, own: &OwnPong, bytes: &[u8], out: &mut [u8], route: &mut [u8]) -> Handled {
        let mut index = Index::new();
        if !self.in_order_filed(&mut index) {
            return refused(1);
        }
        if !self.areas_fit(out, route) {
            return refused(2);
        }
        if line >= LINES || !self.lines[line].open {
            return refused(3);
        }
        match framed(bytes) {
            Ok((header, payload)) => self.handled(&index, line, clock, own, &header, payload, out, route),
            Err(answer) => refused(answer),
        }
    }

    /// What a whole message on an open line does, by its type. The kept places are filed.
    ///
    /// Each type has a function; its error is the number of a refusal that hands nothing up.
    #[inline]
    #[allow(clippy::too_many_arguments)]
    fn handled(
        &mut self,
        index: &Index,
        line: usize,
        clock: u32,
        own: &OwnPong,
        header: &Header,
        payload: &[u8],
        out: &mut [u8],
        route: &mut [u8],
    ) -> Handled {
        let used = header::BYTES + payload.len();
        let done = match header.kind {
            PING => self.ping(line, clock, own, header, out),
            PONG => self.pong(line, clock, header, payload),
            QUERY => self.query(index, line, header, payload, out, route),
            HIT => self.hit(index, header, payload, out),
            UPDATE => self.update(line, header, payload, route),
            _ => Err(7),
        };
        match done {
            Ok(handled) => Handled { used, ..handled },
            Err(answer) => Handled { answer, used, ..QUIET },
        }
    }

    /// Sends a query of the station's own.
    pub fn own_query(&mut self, number: &[u8; 16], text: &[u8], out: &mut [u8], route: &[u8]) -> Handled {
        let mut index = Index::new();
        if !self.in_order_filed(&mut index) {
            return refused(1);
        }
        if !self.areas_fit(out, route) {
            return refused(2);
        }
        if text.len() > OWN_TEXT {
            return refused(5);
        }
        if text.contains(&0) {
            return refused(6);
        }
        if let Some(known) = self.find(&index, number) {
            return found(9, known);
        }
        self.remember(number, HERE);
        let to = self.let_through(0xFF, REACH, text, route);
        if to == 0 {
            return QUIET;
        }
        let written = header::BYTES + text.len() + 3;
        header::write(out, number, QUERY, REACH, 0, text.len() + 3);
        let payload = &mut out[header::BYTES..written];
        payload[..2].fill(0);
        payload[2..2 + text.len()].copy_from_slice(text);
        payload[2 + text.len()] = 0;
        Handled { to, written, ..QUIET }
    }

    /// Looks a query's number up: who asked, and how many queries were remembered after it; else 1 or 10.
    pub fn look_up(&self, number: &[u8; 16]) -> Result<Remembered, u8> {
        let mut index = Index::new();
        if !self.in_order_filed(&mut index) {
            return Err(1);
        }
        self.find(&index, number).ok_or(10)
    }

    fn areas_fit(&self, out: &[u8], route: &[u8]) -> bool {
        out.len() >= OUTPUT && self.route_fits(route)
    }

    fn route_fits(&self, route: &[u8]) -> bool {
        route.len() >= ROUTE && route.len() / LINES == self.room
    }

    fn ping(&mut self, line: usize, clock: u32, own: &OwnPong, header: &Header, out: &mut [u8]) -> Result<Handled, u8> {
        let Header { ref number, ttl, hops, .. } = *header;
        if ttl == 0 {
            return Err(8);
        }
        let mut pongs = Pongs { out, written: 0, number, ttl: hops.max(1) };
        if ttl == 1 && hops <= 1 {
            pongs.send(0, &own.data());
        } else {
            let asking = &mut self.lines[line];
            if asking.pinged && elapsed(clock, asking.ping_clock) < PING_SPACE {
                return Err(13);
            }
            asking.pinged = true;
            asking.ping_clock = clock;
            if own.takes_calls {
                pongs.send(0, &own.data());
            }
            let others = || self.lines.iter().enumerate().filter(|(other, _)| *other != line).map(|(_, other)| other);
            let newest_first = (0..PONGS).flat_map(|rank| others().filter_map(move |other| other.pong(rank)));
            for pong in newest_first.filter(|pong| elapsed(clock, pong.clock) < PONG_AGE).take(PONGS) {
                pongs.send(pong.hops + 1, &pong.data);
            }
        }
        let written = pongs.written;
        let to = if written > 0 { 1 << line } else { 0 };
        Ok(Handled { to, written, ..QUIET })
    }

    fn pong(&mut self, line: usize, clock: u32, header: &Header, payload: &[u8]) -> Result<Handled, u8> {
        let data = payload.get(..PONG_BYTES).and_then(|data| data.try_into().ok()).ok_or(6)?;
        if header.ttl == 0 || header.hops > REACH {
            return Err(8);
        }
        self.lines[line].store(Pong { data, hops: header.hops, clock });
        Ok(QUIET)
    }

    fn query(&mut self, index: &Index, line: usize, header: &Header, payload: &[u8], out: &mut [u8], route: &[u8]) -> Result<Handled, u8> {
        let Header { ref number, ttl, hops, .. } = *header;
        let text = asked(header, payload)?;
        if let Some(known) = self.find(index, number) {
            return Ok(found(9, known));
        }
        self.remember(number, line as u8);
        let taken = Handled { search: true, text_start: header::BYTES + 2, text_length: text.len(), ..QUIET };
        let life = ttl.min(REACH - hops);
        if life < 2 {
            return Ok(taken);
        }
        let to = self.let_through(!(1 << line), life - 1, text, route);
        if to == 0 {
            return Ok(taken);
        }
        let written = forward(header, life - 1, payload, out);
        Ok(Handled { to, written, ..taken })
    }

    fn hit(&mut self, index: &Index, header: &Header, payload: &[u8], out: &mut [u8]) -> Result<Handled, u8> {
        if payload.len() < HIT_BYTES {
            return Err(6);
        }
        if header.ttl == 0 {
            return Err(8);
        }
        let place = self.place_of(index, &header.number).ok_or(10)?;
        let known = self.remembered(place);
        let handled = match known.asker {
            GONE => found(11, known),
            _ if self.hits[place] == HITS => found(21, known),
            HERE => Handled { delivered: true, ..found(0, known) },
            _ if header.ttl == 1 => found(8, known),
            _ if header.hops == 255 => found(12, known),
            line => {
                let written = forward(header, header.ttl - 1, payload, out);
                Handled { to: 1 << line, written, ..found(0, known) }
            }
        };
        if handled.answer == 0 {
            self.hits[place] += 1;
        }
        Ok(handled)
    }

    fn update(&mut self, line: usize, header: &Header, payload: &[u8], route: &mut [u8]) -> Result<Handled, u8> {
        let part = &mut route[line * self.room..(line + 1) * self.room];
        match self.lines[line].table.update(part, header.ttl, header.hops, payload) {
            0 => Ok(QUIET),
            answer => Err(answer),
        }
    }

    /// The open lines among `candidates` whose table does not withhold a query with this text, to be sent with this TTL.
    fn let_through(&self, candidates: u8, ttl: u8, text: &[u8], route: &[u8]) -> u8 {
        let (mut through, mut settled) = (0u8, 0u8);
        for (line, Line { open, table, .. }) in self.lines.iter().enumerate() {
            let bit = 1 << line;
            if *open && candidates & bit != 0 {
                through |= bit;
                if table.mark == table::SETTLED {
                    settled |= bit;
                }
            }
        }
        for keyword in keywords(text) {
            if settled == 0 {
                break;
            }
            let product = hash::product(keyword.bytes);
            for (line, Line { table, .. }) in self.lines.iter().enumerate() {
                let bit = 1 << line;
                if settled & bit != 0 && table.stops(&route[line * self.room..], ttl, product) {
                    settled &= !bit;
                    through &= !bit;
                }
            }
        }
        through
    }
}

/// Writes a message again, with another TTL and one hop more, and gives its length.
fn forward(header: &Header, ttl: u8, payload: &[u8], out: &mut [u8]) -> usize {
    let written = header::BYTES + payload.len();
    header::write(out, &header.number, header.kind, ttl, header.hops + 1, payload.len());
    out[header::BYTES..written].copy_from_slice(payload);
    written
}
