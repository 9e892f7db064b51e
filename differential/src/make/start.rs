//! Random states, in order and not, and their route areas.

use super::{names, HALF};
use crate::call::HEADER;
use crate::case::{Held, Start, ZERO};
use crate::convert::number_of;
use crate::field::Area;
use crate::random::Random;
use lunozhar::raw::{Line, Pending, Pong, Station, Table, Tally, ANSWERS, HELD, HITS};
use std::array;

/// The lengths that a table may have.
const LENGTHS: [u32; 15] = [4, 8, 16, 32, 64, 128, 256, 512, 1024, 2048, 4096, 8192, 16384, 32768, 65536];

/// A route area: mostly small, also too short, seldom the largest that tables can use.
pub fn route(random: &mut Random) -> Area {
    let length = match random.below(200) {
        0 => 8 * 65_536,
        1 => 8 * 65_536 + 5,
        2..=12 => 16_384,
        13..=16 => random.pick(&[0, 7, 31, 31]),
        _ => random.pick(&[32, 33, 39, 40, 64, 71, 128, 300, 512, 1024, 2048]),
    };
    Area { length, seed: random.number() | 1, top: random.pick(&[0, 2, 7, 8, 8, 8, 127]) }
}

/// A route area for a fresh state, one in five too short.
pub fn fresh_route(random: &mut Random) -> Area {
    let given = route(random);
    let length = if random.one_in(5) { random.pick(&[0, 7, 8, 24, 31]) } else { given.length };
    Area { length, ..given }
}

/// Those of them that fit a room.
pub fn lengths(room: usize) -> &'static [u32] {
    let fit = LENGTHS.iter().take_while(|&&length| length as usize <= room).count();
    &LENGTHS[..fit]
}

/// A start, in order, and for each line the message of which its held area has the beginning, if it has one.
pub fn start(random: &mut Random, clock: u32) -> (Start, [Vec<u8>; 8]) {
    let route = route(random);
    let held = array::from_fn(|_| Held { area: held_area(random), front: Vec::new() });
    let names = names::area(random);
    let mut start = Start { station: Box::new(ZERO), tally: tally(random), route, held, names };
    let station = &mut *start.station;
    station.room = room(random, route.length);
    for line in &mut station.lines {
        *line = some_line(random, station.room, clock, route.top);
    }
    memory(random, station);
    let begun = array::from_fn(|line| {
        let message = begun_message(random);
        let pending = &mut start.station.lines[line].pending;
        *pending = some_pending(random, message.len());
        start.held[line].front = message[..message.len().min(pending.count.into())].to_vec();
        message
    });
    (start, begun)
}

/// A held area that is long enough.
fn held_area(random: &mut Random) -> Area {
    Area { length: random.pick(&[HELD, HELD, HELD, HELD + 1, 5_000]), seed: random.number(), top: 0 }
}

/// A message that a line may have begun, seldom one with too long a payload.
fn begun_message(random: &mut Random) -> Vec<u8> {
    let payload = random.pick(&[0, 3, 14, 27, 27, 40, 300, 4_096]);
    let mut bytes = random.bytes(HEADER + payload);
    let kind = random.pick(&[0x00, 0x01, 0x30, 0x80, 0x81, 0x02]);
    bytes[16..19].copy_from_slice(&[kind, 1 + random.below(7) as u8, random.below(3) as u8]);
    let length = if random.one_in(12) { random.pick(&[4_097, u32::MAX]) } else { payload as u32 };
    bytes[19..HEADER].copy_from_slice(&length.to_le_bytes());
    bytes
}

/// What is held of a message of so many bytes: mostly nothing or a beginning of it, also any count.
fn some_pending(random: &mut Random, message: usize) -> Pending {
    let beginning = 1 + random.below(message - 1);
    let any = random.number() as u16;
    let count = match random.below(16) {
        0..=7 => 0,
        8..=11 => beginning as u16,
        12 => message as u16 - 1,
        13 => message as u16,
        14 => random.pick(&[22, 23, 4_118, 4_119, 4_120, 65_535]),
        _ => any,
    };
    Pending { count, shut: random.one_in(10) }
}

fn room(random: &mut Random, length: usize) -> usize {
    let right = if length < 32 { random.pick(&[0, length / 8]) } else { length / 8 };
    if random.one_in(40) {
        random.pick(&[0, 3, 4, right + 1, right.saturating_sub(1), 65_536, usize::MAX])
    } else {
        right
    }
}

fn tally(random: &mut Random) -> Tally {
    let mut counts = [0; ANSWERS];
    if random.one_in(2) {
        counts.iter_mut().for_each(|count| *count = random.pick(&[0, 1, 77, u32::MAX - 1, u32::MAX]));
    }
    Tally { counts }
}

/// A line in order. Places that are not kept, and what a closed line may have besides, are anything. The entries of tables are up to `top`.
fn some_line(random: &mut Random, room: usize, clock: u32, top: u8) -> Line {
    let live = !random.one_in(3);
    if random.one_in(8) {
        return Line { live, ..ZERO.lines[0] };
    }
    let (pongcount, pongnext) = (if live { random.pick(&[0, 1, 3, 9, 10]) } else { 0 }, random.below(10));
    let mut pongs = [Pong { bytes: [0; 14], hops: 0, clock: 0 }; 10];
    for (place, pong) in pongs.iter_mut().enumerate() {
        let kept = (pongnext + 9 - place) % 10 < pongcount;
        random.fill(&mut pong.bytes);
        pong.hops = if kept { random.pick(&[0, 1, 3, 6, 7]) } else { random.byte() };
        pong.clock = clock.wrapping_sub(random.pick(&[0, 1, 1_000, 13_000, 14_999, 15_000, 15_001, HALF + 14_999, u32::MAX]));
    }
    let pingtime = clock.wrapping_sub(random.pick(&[0, 1, 500, 999, 1_000, 1_001, 20_000, HALF, HALF + 999, u32::MAX]));
    let pinged = live && random.one_in(2);
    let (table, pending) = (some_table(random, room, live, top), ZERO.lines[0].pending);
    Line { live, pinged, pingtime, pongcount, pongnext, pongs, table, pending }
}

/// A table in order; the Infinity of half of them is the greatest of the entries.
fn some_table(random: &mut Random, room: usize, live: bool, top: u8) -> Table {
    let byte = random.byte();
    let junk = Table {
        mark: if live { random.pick(&[0, 0, 4]) } else { 0 },
        length: random.number() as u32,
        infinity: byte,
        place: byte,
        size: byte,
        bits: byte,
        at: random.number() as u32,
    };
    let lengths = lengths(room);
    if !live || lengths.is_empty() || random.one_in(4) {
        return junk;
    }
    let any = random.pick(&[2, 3, 7, 8, 8, 8, 9, 127]);
    let infinity = if top > 1 && random.one_in(2) { top } else { any };
    let length = random.pick(lengths);
    let mark = random.pick(&[1, 2, 2, 3, 3, 3]);
    if mark != 2 {
        return Table { mark, length, infinity, place: 1, at: 0, ..junk };
    }
    let size = random.pick(&[2, 2, 3, 4, 255]);
    let place = if size == 2 { 2 } else { 2 + random.below(usize::from(size) - 1) as u8 };
    let at = random.pick(&[0, 1, length / 2, length - 2, length]);
    Table { mark, length, infinity, place, size, bits: random.pick(&[4, 8]), at }
}

/// A number of a query: random, small, or like others in many bits.
pub fn number(random: &mut Random) -> [u8; 16] {
    let any = u128::from(random.number()) << 64 | u128::from(random.number());
    let number = match random.below(8) {
        0 => any & 0xFFFF,
        1 => any << 64,
        2 => (any & 0xFFFF_FFF0_0000_0000) | 5,
        _ => any,
    };
    number.to_le_bytes()
}

/// The number with one of its bytes changed, in one bit or anyhow.
pub fn near(random: &mut Random, mut number: [u8; 16]) -> [u8; 16] {
    let any = 1 + random.below(255) as u8;
    number[random.below(16)] ^= random.pick(&[1, 0x10, 0x80, any]);
    number
}

pub fn put_number(station: &mut Station, place: usize, number: [u8; 16]) {
    let number = u128::from_le_bytes(number);
    station.lo[place] = number as u64;
    station.hi[place] = (number >> 64) as u64;
}

/// A place of the memory by its age, 0 for the newest.
pub fn place_of(station: &Station, age: usize) -> usize {
    (station.next + 2 * 512 - 1 - age) % 512
}

/// The number at the place of an age.
pub fn number_at(station: &Station, age: usize) -> [u8; 16] {
    let place = place_of(station, age);
    number_of(station.lo[place], station.hi[place])
}

/// A count of hits: mostly a few, or around the most there may be.
fn some_hits(random: &mut Random) -> u8 {
    let any = random.byte();
    random.pick(&[0, 0, 1, 2, 3, HITS - 2, HITS - 1, HITS - 1, HITS, HITS, HITS + 1, any])
}

/// The ring of remembered queries, turned anywhere. Kept places have numbers of their own, some near to another's, and
/// counts that are in order; the others have copies of these numbers or anything.
fn memory(random: &mut Random, station: &mut Station) {
    let some = random.below(513);
    station.count = random.pick(&[0, 1, 2, 5, 40, some, 511, 512]);
    station.next = random.pick(&[0, 1, 511, some % 512]);
    let open: Vec<u8> = (0..8).filter(|&line| station.lines[usize::from(line)].live).collect();
    let mut seen = std::collections::HashSet::new();
    for age in 0..512 {
        let place = place_of(station, age);
        let mut made = number(random);
        if age < station.count {
            if age > 0 && random.one_in(6) {
                let other = number_at(station, random.below(age));
                made = near(random, other);
            }
            while !seen.insert(made) {
                random.fill(&mut made);
            }
            station.asker[place] = match random.below(4) {
                0 => 8,
                1 => 9,
                _ if open.is_empty() => 8,
                _ => random.pick(&open),
            };
            station.hits[place] = some_hits(random).min(HITS);
        } else {
            if station.count > 0 && random.one_in(4) {
                made = number_at(station, random.below(station.count));
            }
            station.asker[place] = random.byte();
            station.hits[place] = some_hits(random);
        }
        put_number(station, place, made);
    }
}

/// Puts one thing out of order, or just inside of what is in order.
pub fn damage(random: &mut Random, station: &mut Station) {
    let age = random.below(station.count.clamp(1, 512));
    let place = place_of(station, age);
    let byte = random.byte();
    match random.below(14) {
        0 => station.count = random.pick(&[512, 513, 600, 65_535]),
        1 => station.next = random.pick(&[511, 512, 1_000, 65_535]),
        2 | 3 => {
            let other = number_at(station, random.below(512));
            let made = if random.one_in(3) { near(random, other) } else { other };
            put_number(station, place, made);
        }
        4 | 5 => station.asker[place] = random.pick(&[0, 3, 7, 8, 9, 10, 255, byte]),
        6 | 7 => {
            let line = random.below(8);
            damage_pongs(random, &mut station.lines[line]);
        }
        8 | 9 => {
            let any = random.below(512);
            station.hits[if random.one_in(4) { any } else { place }] = random.pick(&[HITS, HITS + 1, HITS + 1, 255, byte]);
        }
        10 => {
            let line = random.below(8);
            close_badly(random, &mut station.lines[line]);
        }
        _ => {
            let (any, room) = (random.below(8), station.room);
            let with_table = (0..8).map(|step| (any + step) % 8).find(|&line| (1..=3).contains(&station.lines[line].table.mark));
            damage_table(random, &mut station.lines[with_table.unwrap_or(any)].table, room);
        }
    }
}

fn damage_pongs(random: &mut Random, line: &mut Line) {
    let (any, newest) = (random.below(10), (line.pongnext + 9) % 10);
    match random.below(4) {
        0 => line.pongcount = random.pick(&[10, 11, 11, 255]),
        1 => line.pongnext = random.pick(&[9, 10, 10, 255]),
        2 => line.pongs[any].hops = random.pick(&[7, 8, 255]),
        _ => line.pongs[newest].hops = random.pick(&[7, 8, 255]),
    }
}

/// A closed line that may have kept something.
fn close_badly(random: &mut Random, line: &mut Line) {
    line.live = false;
    (line.pinged, line.pongcount, line.table.mark) = (false, 0, 0);
    match random.below(4) {
        0 => line.pinged = true,
        1 => line.pongcount = 1,
        2 => line.table.mark = random.pick(&[1, 2, 3, 4]),
        _ => {}
    }
}

fn damage_table(random: &mut Random, table: &mut Table, room: usize) {
    let beyond = room.saturating_mul(2).clamp(4, 65_536).next_power_of_two() as u32;
    match random.below(8) {
        0 => table.mark = random.pick(&[1, 2, 3, 4, 5, 255]),
        1 => table.length = random.pick(&[0, 2, 3, 4, 6, 12, 131_072, 0x8000_0000]),
        2 => table.length = beyond,
        3 => table.infinity = random.pick(&[0, 1, 2, 127, 128, 255]),
        4 => table.place = random.pick(&[0, 1, 2, table.size, table.size.wrapping_add(1)]),
        5 => table.size = random.pick(&[0, 1, table.place, table.place.wrapping_sub(1)]),
        6 => table.bits = random.pick(&[0, 3, 4, 5, 8, 9]),
        _ => table.at = random.pick(&[0, 1, table.length, table.length.wrapping_add(1), u32::MAX]),
    }
}
