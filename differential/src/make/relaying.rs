//! Random calls for the table to send a neighbour.

use super::{names, Maker};
use crate::call::Call;
use crate::field::Area;
use crate::random::Random;
use lunozhar::raw::Station;

/// A length around that of a table that is settled, if there is one, else mostly short.
fn length(random: &mut Random, station: &Station) -> u32 {
    let lines = station.lines.iter().filter(|line| line.table.mark == 3);
    let settled: Vec<u32> = lines.map(|line| line.table.length).collect();
    if !settled.is_empty() && !random.one_in(3) {
        let there = random.pick(&settled).clamp(4, 65_536);
        return random.pick(&[there, there, there / 2, there / 4, 2 * there, 8 * there]).clamp(4, 65_536);
    }
    match random.below(60) {
        0 => 65_536,
        1..=4 => random.pick(&[1_024, 4_096, 16_384]),
        _ => random.pick(&[4, 8, 16, 32, 64, 128, 256]),
    }
}

impl Maker {
    /// A table for a line that is mostly open, with the case's area of names or another, of a length that is mostly good, into an area around it.
    pub(super) fn table_for(&mut self, station: &Station, route: &[u8]) -> Call {
        let (line, mut lent) = (self.line(station, true), self.lent_route(route));
        let random = &mut self.random;
        if random.one_in(3) {
            // Other bytes in an area of the same room, mostly with some that no update leaves.
            let seed = random.number() & !15 | random.pick(&[1, 3, 5, 15, 15]);
            lent = Some(Area { length: route.len(), seed, top: random.pick(&[0, 2, 7, 8, 8]) });
        }
        let names = if random.one_in(2) { Some(names::area(random)) } else { None };
        let mut length = length(random, station);
        let near = [length, length, length, length + 1, length + 50, length - 1, 0];
        let out = Area { length: random.pick(&near) as usize, seed: random.number(), top: 0 };
        if random.one_in(8) {
            length = random.pick(&[0, 1, 2, 3, 6, length + 1, length - 1, 131_072, 1 << 31, u32::MAX]);
        }
        Call::TableFor { line, names, length, out, route: lent }
    }
}
