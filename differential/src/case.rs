//! A case: a start and a list of calls, and its text in a file.

use crate::call::Call;
use crate::convert::{number_of, station_from_raw};
use crate::field::{attempt, drop_runs, part, plain_runs, Area, Field};
use crate::listing::Listing;
use lunozhar::raw::{Line, Pending, Pong, Station, Table, Tally, ANSWERS, HELD, LINES};
use std::array;
use std::fmt::Write;

const ZERO_PONG: Pong = Pong { bytes: [0; 14], hops: 0, clock: 0 };
const ZERO_TABLE: Table = Table { mark: 0, length: 0, infinity: 0, place: 0, size: 0, bits: 0, at: 0 };
const ZERO_PENDING: Pending = Pending { count: 0, shut: false };
const ZERO_LINE: Line = Line {
    live: false,
    pinged: false,
    pingtime: 0,
    pongcount: 0,
    pongnext: 0,
    pongs: [ZERO_PONG; 10],
    table: ZERO_TABLE,
    pending: ZERO_PENDING,
};

/// A state that is zero everywhere.
pub const ZERO: Station =
    Station { room: 0, lines: [ZERO_LINE; 8], lo: [0; 512], hi: [0; 512], asker: [0; 512], hits: [0; 512], count: 0, next: 0 };

/// The held area of a line: an area, and bytes that stand at its front.
#[derive(Clone, Debug, PartialEq, Eq)]
pub struct Held {
    pub area: Area,
    pub front: Vec<u8>,
}

/// A held area as long as it has to be, zero everywhere.
const ZERO_HELD: Held = Held { area: Area { length: HELD, seed: 0, top: 0 }, front: Vec::new() };

impl Held {
    pub fn bytes(&self) -> Vec<u8> {
        let mut bytes = self.area.bytes();
        bytes.iter_mut().zip(&self.front).for_each(|(byte, front)| *byte = *front);
        bytes
    }

    fn simplify(&mut self, still: &mut dyn FnMut(&Held) -> bool) {
        attempt(self, ZERO_HELD, still);
        let plain = Held { front: self.front.clone(), ..ZERO_HELD };
        attempt(self, plain, still);
        part(self, |held| &mut held.front, |front, still| front.simplify(still), still);
    }
}

/// What a list of calls starts from.
#[derive(Clone, Debug, PartialEq, Eq)]
pub struct Start {
    pub station: Box<Station>,
    pub tally: Tally,
    pub route: Area,
    pub held: [Held; LINES],
    pub names: Listing,
}

impl Start {
    /// A state that is zero everywhere but its room, over this route area.
    pub fn zero(route: Area) -> Start {
        let room = if route.length < 32 { 0 } else { route.length / 8 };
        let held = array::from_fn(|_| ZERO_HELD);
        Start { station: Box::new(Station { room, ..ZERO }), tally: Tally { counts: [0; ANSWERS] }, route, held, names: Listing::EMPTY }
    }
}

#[derive(Clone, Debug, PartialEq, Eq)]
pub struct Case {
    pub start: Start,
    pub calls: Vec<Call>,
}

impl Start {
    /// A line for each thing that is not zero.
    fn text(&self) -> String {
        let Station { room, lines, count, next, .. } = &*self.station;
        let mut text = format!("start route={} room={room} count={count} next={next}\n", self.route.text());
        for (at, line) in lines.iter().enumerate().filter(|(_, line)| **line != ZERO_LINE) {
            let Line { live, pinged, pingtime, pongcount, pongnext, .. } = line;
            let _ = writeln!(text, "line {at} open={live} pinged={pinged} time={pingtime} pongs={pongcount} next={pongnext}");
            for (place, pong) in line.pongs.iter().enumerate().filter(|(_, pong)| **pong != ZERO_PONG) {
                let _ = writeln!(text, "pong {at} {place} bytes={} hops={} clock={}", pong.bytes.text(), pong.hops, pong.clock);
            }
            if line.table != ZERO_TABLE {
                let Table { mark, length, infinity, place, size, bits, at: entry } = line.table;
                let run = format!("place={place} size={size} bits={bits} at={entry}");
                let _ = writeln!(text, "table {at} mark={mark} length={length} infinity={infinity} {run}");
            }
            if line.pending != ZERO_PENDING {
                let _ = writeln!(text, "pending {at} count={} shut={}", line.pending.count, line.pending.shut);
            }
        }
        for (at, held) in self.held.iter().enumerate().filter(|(_, held)| **held != ZERO_HELD) {
            let _ = writeln!(text, "held {at} area={} front={}", held.area.text(), held.front.text());
        }
        if self.names != Listing::EMPTY {
            let _ = writeln!(text, "names area={}", self.names.text());
        }
        for place in 0..512 {
            let query @ (lo, hi, asker, hits) = query_at(&self.station, place);
            if query != NO_QUERY {
                let _ = writeln!(text, "query {place} number={} asker={asker} hits={hits}", number_of(lo, hi).text());
            }
        }
        for (answer, count) in self.tally.counts.iter().enumerate().filter(|(_, count)| **count != 0) {
            let _ = writeln!(text, "tally {answer} {count}");
        }
        text
    }

    /// Reads the first line of a start.
    fn read(line: &str) -> Option<Start> {
        match values(line)[..] {
            ["start", route, room, count, next] => {
                let mut start = Start::zero(Field::read(route)?);
                start.station.room = Field::read(room)?;
                start.station.count = Field::read(count)?;
                start.station.next = Field::read(next)?;
                Some(start)
            }
            _ => None,
        }
    }

    /// Reads a further line of a start; nothing if it is none.
    fn read_more(&mut self, line: &str) -> Option<()> {
        let station = &mut *self.station;
        match values(line)[..] {
            ["line", at, live, pinged, pingtime, pongcount, pongnext] => {
                let line = station.lines.get_mut(usize::read(at)?)?;
                line.live = Field::read(live)?;
                line.pinged = Field::read(pinged)?;
                line.pingtime = Field::read(pingtime)?;
                line.pongcount = Field::read(pongcount)?;
                line.pongnext = Field::read(pongnext)?;
            }
            ["pong", at, place, bytes, hops, clock] => {
                let pong = station.lines.get_mut(usize::read(at)?)?.pongs.get_mut(usize::read(place)?)?;
                *pong = Pong { bytes: Field::read(bytes)?, hops: Field::read(hops)?, clock: Field::read(clock)? };
            }
            ["table", at, mark, length, infinity, place, size, bits, entry] => {
                let table = &mut station.lines.get_mut(usize::read(at)?)?.table;
                (table.mark, table.length, table.infinity) = (Field::read(mark)?, Field::read(length)?, Field::read(infinity)?);
                (table.place, table.size, table.bits) = (Field::read(place)?, Field::read(size)?, Field::read(bits)?);
                table.at = Field::read(entry)?;
            }
            ["pending", at, count, shut] => {
                let pending = &mut station.lines.get_mut(usize::read(at)?)?.pending;
                *pending = Pending { count: Field::read(count)?, shut: Field::read(shut)? };
            }
            ["held", at, area, front] => {
                *self.held.get_mut(usize::read(at)?)? = Held { area: Field::read(area)?, front: Field::read(front)? };
            }
            ["names", area] => self.names = Field::read(area)?,
            ["query", place, number, asker, hits] => {
                let place = usize::read(place).filter(|&place| place < station.asker.len())?;
                let number = u128::from_le_bytes(Field::read(number)?);
                station.lo[place] = number as u64;
                station.hi[place] = (number >> 64) as u64;
                station.asker[place] = Field::read(asker)?;
                station.hits[place] = Field::read(hits)?;
            }
            ["tally", answer, count] => *self.tally.counts.get_mut(usize::read(answer)?)? = Field::read(count)?,
            _ => return None,
        }
        Some(())
    }

    /// Takes simpler starts one after the other, each if `still` holds of it.
    fn simplify(&mut self, still: &mut dyn FnMut(&Start) -> bool) {
        let zero = Start::zero(self.route);
        attempt(self, zero, still);
        for room in [512, 64, 8, 4] {
            let mut smaller = self.clone();
            (smaller.route.length, smaller.station.room) = (8 * room, room);
            if room < self.station.room {
                attempt(self, smaller, still);
            }
        }
        part(self, |start| &mut start.route, |route, still| route.simplify(still), still);
        for line in 0..self.held.len() {
            part(self, |start| &mut start.held[line], Held::simplify, still);
        }
        part(self, |start| &mut start.names, Field::simplify, still);
        part(self, |start| &mut start.tally.counts, |counts, still| plain_array(counts, &0, still), still);
        part(self, |start| &mut start.station.lines, |lines, still| plain_array(lines, &ZERO_LINE, still), still);
        for at in 0..self.station.lines.len() {
            part(self, |start| &mut start.station.lines[at], simplify_line, still);
        }
        part(self, |start| &mut *start.station, simplify_memory, still);
        part(self, |start| &mut start.station.hits, |hits, still| plain_array(hits, &0, still), still);
        part(self, |start| &mut start.station.count, |count, still| count.simplify(still), still);
        part(self, |start| &mut start.station.next, |next, still| next.simplify(still), still);
        part(self, |start| &mut start.station.room, |room, still| room.simplify(still), still);
    }
}

/// The words of a line, of `name=value` the value.
fn values(line: &str) -> Vec<&str> {
    line.split(' ').map(|word| word.split_once('=').map_or(word, |(_, value)| value)).collect()
}

fn plain_array<T: Copy + PartialEq + std::fmt::Debug, const N: usize>(
    items: &mut [T; N],
    plain: &T,
    still: &mut dyn FnMut(&[T; N]) -> bool,
) {
    plain_runs(items, plain, &mut |items| still(&items.try_into().expect("as many as before")));
}

fn simplify_line(line: &mut Line, still: &mut dyn FnMut(&Line) -> bool) {
    part(line, |line| &mut line.pongs, |pongs, still| plain_array(pongs, &ZERO_PONG, still), still);
    for place in 0..line.pongs.len() {
        part(line, |line| &mut line.pongs[place].bytes, |bytes, still| bytes.simplify(still), still);
        part(line, |line| &mut line.pongs[place].clock, |clock, still| clock.simplify(still), still);
        part(line, |line| &mut line.pongs[place].hops, |hops, still| hops.simplify(still), still);
    }
    part(line, |line| &mut line.pongcount, |count, still| count.simplify(still), still);
    part(line, |line| &mut line.pongnext, |next, still| next.simplify(still), still);
    part(line, |line| &mut line.pinged, |pinged, still| pinged.simplify(still), still);
    part(line, |line| &mut line.pingtime, |time, still| time.simplify(still), still);
    part(line, |line| &mut line.pending.shut, |shut, still| shut.simplify(still), still);
    part(line, |line| &mut line.pending.count, |count, still| count.simplify(still), still);
    let plain = Line { table: ZERO_TABLE, ..*line };
    attempt(line, plain, still);
    let plain = Line { table: Table { place: 0, size: 0, bits: 0, at: 0, ..line.table }, ..*line };
    attempt(line, plain, still);
}

/// A remembered query: the two halves of its number, its asker, and its count of hits.
type Query = (u64, u64, u8, u8);

const NO_QUERY: Query = (0, 0, 0, 0);

fn query_at(station: &Station, place: usize) -> Query {
    (station.lo[place], station.hi[place], station.asker[place], station.hits[place])
}

/// The station with these queries at the first places of its memory, and zero behind them.
fn with_queries(station: &Station, queries: &[Query]) -> Station {
    let mut other = Station { lo: [0; 512], hi: [0; 512], asker: [0; 512], hits: [0; 512], ..station.clone() };
    for (place, query) in queries.iter().enumerate() {
        (other.lo[place], other.hi[place], other.asker[place], other.hits[place]) = *query;
    }
    other
}

/// Drops queries from the ring and turns it to the memory's first places; then sets places to zero.
fn simplify_memory(station: &mut Station, still: &mut dyn FnMut(&Station) -> bool) {
    if station.count <= 512 && station.next < 512 {
        let base = station.clone();
        let oldest_first = (0..base.count).map(|age| (base.next + 512 - base.count + age) % 512);
        let mut kept: Vec<Query> = oldest_first.map(|place| query_at(&base, place)).collect();
        let turned = |kept: &Vec<Query>| Station { count: kept.len(), next: kept.len() % 512, ..with_queries(&base, kept) };
        let plain = turned(&kept);
        if plain == *station || still(&plain) {
            drop_runs(&mut kept, &mut |kept| still(&turned(kept)));
            *station = turned(&kept);
        }
    }
    let base = station.clone();
    let mut queries: Vec<Query> = (0..512).map(|place| query_at(&base, place)).collect();
    plain_runs(&mut queries, &NO_QUERY, &mut |queries| still(&with_queries(&base, queries)));
    *station = with_queries(&base, &queries);
}

impl Case {
    /// The start and the calls, each in a line.
    pub fn text(&self) -> String {
        let calls: String = self.calls.iter().map(|call| call.text() + "\n").collect();
        self.start.text() + &calls
    }

    /// The case of a text that [`Case::text`] wrote; lines that begin with `#` are left out. The error names the line.
    pub fn read(text: &str) -> Result<Case, String> {
        let mut lines = text.lines().filter(|line| !line.starts_with('#') && !line.is_empty());
        let first = lines.next().ok_or("no start")?;
        let mut case = Case { start: Start::read(first).ok_or(first)?, calls: Vec::new() };
        for line in lines {
            match Call::read(line) {
                Some(call) => case.calls.push(call),
                None => case.start.read_more(line).ok_or(line)?,
            }
        }
        station_from_raw(&case.start.station).ok_or("a count or next place that the reference cannot hold")?;
        Ok(case)
    }

    /// The case with every clock turned back by so much.
    fn turned_back(&self, by: u32) -> Case {
        let mut case = self.clone();
        for line in &mut case.start.station.lines {
            line.pingtime = line.pingtime.wrapping_sub(by);
            line.pongs.iter_mut().for_each(|pong| pong.clock = pong.clock.wrapping_sub(by));
        }
        for clock in case.calls.iter_mut().filter_map(Call::clock) {
            *clock = clock.wrapping_sub(by);
        }
        case
    }

    /// Takes simpler cases, one after the other, each if `still` holds of it: fewer calls, simpler messages, a simpler
    /// start, simpler calls.
    pub fn simplify(&mut self, still: &mut dyn FnMut(&Case) -> bool) {
        part(self, |case| &mut case.calls, drop_runs, still);
        let first = self.calls.iter_mut().find_map(|call| call.clock().copied());
        if let Some(first) = first {
            let early = self.turned_back(first);
            attempt(self, early, still);
        }
        self.simplify_scraps(still);
        part(self, |case| &mut case.start, |start, still| start.simplify(still), still);
        for at in 0..self.calls.len() {
            part(self, |case| &mut case.calls[at], |call, still| call.simplify(still), still);
        }
    }
}

#[cfg(test)]
mod tests {
    use super::*;
    use crate::make::Maker;

    #[test]
    fn texts_are_read_again() {
        for case in 0..100 {
            let mut maker = Maker::of_case(3, case);
            let start = maker.start();
            let (route, names) = (start.route.bytes(), start.names.bytes());
            let calls = (0..20).map(|_| maker.call(&start.station, &route, &names)).collect();
            let case = Case { start, calls };
            assert_eq!(Case::read(&format!("# about\n{}", case.text())), Ok(case));
        }
        assert_eq!(Case::read("start route=32:0:0 room=4 count=0 next=0\nnothing 1\n"), Err("nothing 1".to_string()));
    }

    #[test]
    fn a_start_comes_down_to_what_counts() {
        let given = (0..100).map(|case| Maker::of_case(8, case).start()).find(|start| start.station.count > 300).unwrap();
        let (number, calls) = (given.station.lo[400], vec![Call::InOrder {}; 9]);
        let mut case = Case { start: given, calls };
        case.simplify(&mut |case| case.start.station.lo[400] == number && case.start.station.count >= 5 && case.calls.len() >= 2);
        let mut least = Start::zero(Area { length: 0, seed: 0, top: 0 });
        (least.station.lo[400], least.station.hi[400], least.station.asker[400]) =
            (number, case.start.station.hi[400], case.start.station.asker[400]);
        least.station.count = 5;
        assert_eq!(case, Case { start: least, calls: vec![Call::InOrder {}; 2] });
    }
}
