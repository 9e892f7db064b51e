//! The reference's structs as those of the boundary and back, field by field, places that are not kept too.
//!
//! The reference counts its rings in 16 and 8 bits, so a start has counts and next places of at most 65,535 and 255.

use lunozhar::raw;
use lunozhar_reference::handshake::{Field, Group, Kind, Pair, Pairs};
use lunozhar_reference::station::{Fed, Handled, Line, Made, OwnPong, Pong, Remembered, State, LINES, MEMORY, NOBODY, PONGS};
use lunozhar_reference::table::Table;
use lunozhar_reference::writer::Written;
use std::array;

pub fn table_to_raw(table: &Table) -> raw::Table {
    let Table { mark, length, infinity, place, size, bits, at } = *table;
    raw::Table { mark, length, infinity, place, size, bits, at }
}

pub fn table_from_raw(table: &raw::Table) -> Table {
    let raw::Table { mark, length, infinity, place, size, bits, at } = *table;
    Table { mark, length, infinity, place, size, bits, at }
}

fn line_to_raw(line: &Line) -> raw::Line {
    raw::Line {
        live: line.open,
        pinged: line.pinged,
        pingtime: line.ping_clock,
        pongcount: usize::from(line.pong_count),
        pongnext: usize::from(line.pong_next),
        pongs: line.pongs.map(|Pong { data, hops, clock }| raw::Pong { bytes: data, hops, clock }),
        table: table_to_raw(&line.table),
        pending: raw::Pending { count: line.held, shut: line.shut },
    }
}

fn line_from_raw(line: &raw::Line) -> Option<Line> {
    let pongs: [Pong; PONGS] = line.pongs.map(|raw::Pong { bytes, hops, clock }| Pong { data: bytes, hops, clock });
    Some(Line {
        open: line.live,
        pinged: line.pinged,
        ping_clock: line.pingtime,
        pong_count: line.pongcount.try_into().ok()?,
        pong_next: line.pongnext.try_into().ok()?,
        pongs,
        table: table_from_raw(&line.table),
        held: line.pending.count,
        shut: line.pending.shut,
    })
}

/// A number as its two halves, each little-endian.
fn halves(number: &[u8; 16]) -> (u64, u64) {
    let number = u128::from_le_bytes(*number);
    (number as u64, (number >> 64) as u64)
}

/// The number of two halves.
pub fn number_of(lo: u64, hi: u64) -> [u8; 16] {
    (u128::from(hi) << 64 | u128::from(lo)).to_le_bytes()
}

pub fn station_to_raw(state: &State) -> raw::Station {
    raw::Station {
        room: state.room,
        lines: array::from_fn(|line| line_to_raw(&state.lines[line])),
        lo: array::from_fn(|place| halves(&state.numbers[place]).0),
        hi: array::from_fn(|place| halves(&state.numbers[place]).1),
        asker: state.askers,
        hits: state.hits,
        count: usize::from(state.count),
        next: usize::from(state.next),
    }
}

/// The reference's state, if it can hold the counts.
pub fn station_from_raw(station: &raw::Station) -> Option<State> {
    let mut lines = [Line::CLOSED; LINES];
    for (line, given) in lines.iter_mut().zip(&station.lines) {
        *line = line_from_raw(given)?;
    }
    let numbers: [[u8; 16]; MEMORY] = array::from_fn(|place| number_of(station.lo[place], station.hi[place]));
    let (count, next) = (station.count.try_into().ok()?, station.next.try_into().ok()?);
    Some(State { room: station.room, count, next, numbers, askers: station.asker, hits: station.hits, lines })
}

pub fn own_from_raw(own: &raw::Own) -> OwnPong {
    OwnPong { port: own.port, address: own.address, files: own.files, kilobytes: own.kilobytes, takes_calls: own.calls }
}

pub fn told(handled: &Handled) -> raw::Told {
    raw::Told {
        answer: handled.answer,
        used: handled.used,
        written: handled.written,
        to: array::from_fn(|line| handled.to >> line & 1 == 1),
        search: handled.search,
        delivered: handled.delivered,
        textat: handled.text_start,
        textlen: handled.text_length,
        age: age(handled.after),
    }
}

/// The number is 0 where there is no age.
fn age(after: Option<usize>) -> raw::Age {
    raw::Age { known: after.is_some(), after: after.unwrap_or(0) }
}

/// Refused, nobody and 0.
pub fn finding(looked_up: Result<Remembered, u8>) -> raw::Finding {
    match looked_up {
        Ok(Remembered { asker, after }) => raw::Finding { answer: 0, asker, after },
        Err(answer) => raw::Finding { answer, asker: NOBODY, after: 0 },
    }
}

pub fn fed(fed: &Fed) -> raw::Fed {
    raw::Fed { told: told(&fed.handled), within: fed.within, waits: fed.waits }
}

pub fn made(made: Made) -> raw::Made {
    raw::Made { answer: made.answer, infinity: made.infinity }
}

pub fn written(written: Written) -> raw::Written {
    raw::Written { answer: written.answer, written: written.written }
}

pub fn group(read: Result<Group, u8>) -> raw::Group {
    match read {
        Ok(Group { kind, major, minor, code, used }) => {
            let kind = if kind == Kind::Greeting { 1 } else { 2 };
            raw::Group { answer: 0, used, kind, major: major.into(), minor: minor.into(), code: code.into() }
        }
        Err(answer) => raw::Group { answer, used: 0, kind: 0, major: 0, minor: 0, code: 0 },
    }
}

pub fn asked(field: Field) -> raw::Asked {
    raw::Asked { answer: field.answer, used: field.used, written: field.written }
}

pub fn hosts(pairs: &Pairs) -> raw::Hosts {
    let listed = pairs.pairs.map(|Pair { address, port }| raw::Pair { address, port });
    raw::Hosts { answer: pairs.answer, used: pairs.used, pairs: raw::Pairs { count: pairs.count, pairs: listed } }
}

pub fn pair_from_raw(pair: &raw::Pair) -> Pair {
    Pair { address: pair.address, port: pair.port }
}

#[cfg(test)]
mod tests {
    use super::*;
    use crate::make::Maker;

    #[test]
    fn states_there_and_back() {
        for case in 0..300 {
            let start = Maker::of_case(5, case).start();
            let state = station_from_raw(&start.station).expect("a start that both can hold");
            assert_eq!(station_to_raw(&state), *start.station);
        }
    }

    #[test]
    fn halves_are_little_endian() {
        let number: [u8; 16] = array::from_fn(|at| at as u8);
        assert_eq!(halves(&number), (0x0706_0504_0302_0100, 0x0F0E_0D0C_0B0A_0908));
        assert_eq!(number_of(0x0706_0504_0302_0100, 0x0F0E_0D0C_0B0A_0908), number);
    }

    #[test]
    fn counts_that_do_not_fit() {
        let (_, state) = State::fresh(&[0; 32]);
        let station = station_to_raw(&state);
        assert!(station_from_raw(&raw::Station { count: 65_536, ..station.clone() }).is_none());
        assert!(station_from_raw(&raw::Station { next: 65_535, ..station }).is_some());
    }
}
