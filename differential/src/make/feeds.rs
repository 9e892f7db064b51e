//! Random scraps of messages, as lines bring them.

use super::{Maker, NO_LINES};
use crate::call::{Call, HEADER};
use crate::field::Area;
use lunozhar::raw::{Station, HELD};

impl Maker {
    /// The next scrap of a line. What a line brings is kept from the first byte of its message on, so that the count
    /// of held bytes says where the scrap begins; a line of which nothing is held begins a new message.
    pub(super) fn feed(&mut self, station: &Station, route: &[u8]) -> Call {
        let line = self.feeding_line(station);
        let at = line as usize % 8;
        let mut from = usize::from(station.lines[at].pending.count);
        if from == 0 || self.streams[at].len() < from {
            self.streams[at] = self.message_bytes(station, at, route);
            self.add_behind(at);
            from = 0;
        }
        let bytes = self.scrap(at, from);
        let ping = self.streams[at].get(16) == Some(&0);
        let clock = if ping && self.random.one_in(2) { self.ping_clock(station, at) } else { self.tick() };
        let (own, held, out, route) = (self.own(), self.lent_held(), self.output(), self.lent_route(route));
        Call::Feed { line, clock, own, bytes, held, out, route }
    }

    /// A line: mostly one that is open and in the midst of a message, so that messages get whole.
    fn feeding_line(&mut self, station: &Station) -> u32 {
        let any = self.random.below(8);
        let mut lines = (0..8).map(|step| (any + step) % 8);
        let begun = lines.find(|&line| {
            let count = usize::from(station.lines[line].pending.count);
            station.lines[line].live && (1..self.streams[line].len()).contains(&count)
        });
        match begun {
            Some(line) if !self.random.one_in(3) => line as u32,
            _ if self.random.one_in(40) => self.random.pick(&NO_LINES),
            _ => self.line(station, true),
        }
    }

    /// Bytes behind a line's message: none, the beginning of another one, or anything.
    fn add_behind(&mut self, at: usize) {
        let more = match self.random.below(4) {
            0 | 1 => 0,
            2 => self.random.pick(&[1, 5, 23, 30]),
            _ => self.random.below(100),
        };
        let behind = if self.random.one_in(2) {
            self.random.bytes(more)
        } else {
            self.streams[at].iter().copied().cycle().take(if self.streams[at].is_empty() { 0 } else { more }).collect()
        };
        self.streams[at].extend(behind);
    }

    /// Some bytes of a line's stream from a place on: up to a place in the message, to its end, or past it.
    fn scrap(&mut self, at: usize, from: usize) -> Vec<u8> {
        let stream = &self.streams[at][from..];
        let size = |field: &[u8]| u32::from_le_bytes([field[0], field[1], field[2], field[3]]);
        let size = self.streams[at].get(19..HEADER).map_or(0, size);
        let left = (HEADER + size.min(5_000) as usize).saturating_sub(from).min(stream.len());
        let (header, any) = (HEADER.saturating_sub(from), self.random.below(stream.len() + 1));
        let end = match self.random.below(40) {
            0 => 0,
            1..=9 => stream.len(),
            10..=24 => left,
            25..=27 => left + 1,
            28..=30 => left.max(1) - 1,
            31 | 32 => header.max(1),
            33 | 34 => header.max(2) - 1,
            35..=37 => self.random.pick(&[1, 2, 7, 16]),
            _ => any,
        };
        stream.iter().copied().take(end).collect()
    }

    /// Mostly the line's own held area, else one that is too short, or has other bytes.
    fn lent_held(&mut self) -> Option<Area> {
        if !self.random.one_in(25) {
            return None;
        }
        let length = self.random.pick(&[0, 22, 23, HELD - 1, HELD - 1, HELD - 1, HELD, HELD + 1]);
        Some(Area { length, seed: self.random.pick(&[0, 1, 2, 3]), top: self.random.pick(&[0, 0, 8]) })
    }

    /// Now and then, the closing of a line whose bytes are refused, or seldom of one that is in the midst of a
    /// message, and its opening.
    pub(super) fn reopening(&mut self, station: &Station) -> Option<Call> {
        let any = self.random.below(8);
        let mut lines = (0..8).map(|step| (any + step) % 8).map(|line| (line, &station.lines[line]));
        let (line, found) = lines.find(|(_, line)| line.live && (line.pending.shut || line.pending.count > 0))?;
        let unheard = found.pending.shut || self.streams[line].len() < found.pending.count.into();
        if !self.random.one_in(if unheard { 6 } else { 60 }) {
            return None;
        }
        let line = line as u32;
        if self.random.one_in(2) {
            self.next = Some(Call::Open { line });
        }
        Some(Call::Close { line })
    }
}
