//! The table that is passed on to a neighbour: what the other neighbours' tables say, and the station's own names
//! (document 02, R-6).
//!
//! Distances stand in lists of bytes, as they are heard, and none is above [`REACH`]. One more than that is the
//! Infinity that is written, so [`REACH`] says "nothing" as well, and so does every entry from there on.
//!
//! Tables of one length are joined first, entry by entry. From one length to the next the joined list goes as a whole:
//! down from the longest table, where of two distances side by side the lesser stays, and up from the shortest, where
//! each becomes two, until both are at the length that is asked for. Each quarter of all hashes is done by itself,
//! which keeps the lists short: no table has less than four entries, so a quarter is a whole number of them.

use super::{State, LINES, REACH};
use crate::hash;
use crate::names;
use crate::table::{length_allowed, SETTLED};
use std::mem::swap;

/// The Infinity of a table that is passed on: the usual life of a query, and one more.
pub const INFINITY: u8 = REACH + 1;

/// The parts that all hashes are cut into.
const QUARTERS: usize = 4;
/// The most entries of a table in a quarter.
const MOST: usize = 65_536 / QUARTERS;

/// What a call that makes a table did.
#[derive(Clone, Copy, Debug, Default, PartialEq, Eq)]
pub struct Made {
    pub answer: u8,
    /// The Infinity to write the table with; 0 where the call was refused.
    pub infinity: u8,
}

/// A settled table of another line.
#[derive(Clone, Copy)]
struct Heard<'a> {
    entries: &'a [u8],
    infinity: u8,
}

impl Heard<'_> {
    /// Lowers each distance of a list, one quarter at the table's own length, to the entry at its place if that counts.
    fn lower(&self, list: &mut [u8], quarter: usize) {
        let entries = self.entries[quarter * list.len()..].iter();
        let places = list.iter_mut().zip(entries);
        if self.infinity >= REACH {
            // Then Infinity lowers nothing, and no entry has to be held to it.
            places.for_each(|(distance, &entry)| *distance = entry.min(*distance));
        } else {
            places.for_each(|(distance, &entry)| {
                let counted = if entry == self.infinity { u8::MAX } else { entry };
                *distance = counted.min(*distance);
            });
        }
    }
}

/// Makes a list of what the tables of its length say: the least of their entries that count.
fn join(tables: &[Heard], quarter: usize, list: &mut [u8]) {
    list.fill(REACH);
    let length = QUARTERS * list.len();
    for table in tables.iter().filter(|table| table.entries.len() == length) {
        table.lower(list, quarter);
    }
}

/// Lowers a list to one of twice its length: each distance covers two.
fn halve(longer: &[u8], list: &mut [u8]) {
    let (mut blocks, mut longer) = (list.chunks_exact_mut(16), longer.chunks_exact(32));
    for (block, longer) in (&mut blocks).zip(&mut longer) {
        // First all of the even places, then all of the odd ones: so the compiler makes vectors of them.
        let (mut even, mut odd) = ([0; 16], [0; 16]);
        for place in 0..16 {
            even[place] = longer[2 * place];
        }
        for place in 0..16 {
            odd[place] = longer[2 * place + 1];
        }
        for (distance, (even, odd)) in block.iter_mut().zip(even.into_iter().zip(odd)) {
            *distance = even.min(odd).min(*distance);
        }
    }
    for (distance, two) in blocks.into_remainder().iter_mut().zip(longer.remainder().chunks_exact(2)) {
        *distance = two[0].min(two[1]).min(*distance);
    }
}

/// Lowers a list to one of half its length: two distances are covered by each.
fn double(shorter: &[u8], list: &mut [u8]) {
    let (mut blocks, mut shorter) = (list.chunks_exact_mut(32), shorter.chunks_exact(16));
    for (block, shorter) in (&mut blocks).zip(&mut shorter) {
        let mut twice = [0; 32];
        for place in 0..16 {
            twice[2 * place] = shorter[place];
            twice[2 * place + 1] = shorter[place];
        }
        for (distance, covering) in block.iter_mut().zip(twice) {
            *distance = covering.min(*distance);
        }
    }
    for (two, covering) in blocks.into_remainder().chunks_exact_mut(2).zip(shorter.remainder()) {
        for distance in two {
            *distance = (*covering).min(*distance);
        }
    }
}

/// Two lists to go from one length to the next by.
struct Steps {
    one: [u8; MOST],
    other: [u8; MOST / 2],
}

impl Steps {
    fn new() -> Steps {
        Steps { one: [0; MOST], other: [0; MOST / 2] }
    }

    /// Lowers a list to what the longer tables say, of which the longest has so many entries in a quarter.
    fn down(&mut self, tables: &[Heard], quarter: usize, mut length: usize, list: &mut [u8]) {
        let (mut here, mut next) = (&mut self.one[..], &mut self.other[..]);
        join(tables, quarter, &mut here[..length]);
        while length / 2 > list.len() {
            join(tables, quarter, &mut next[..length / 2]);
            halve(&here[..length], &mut next[..length / 2]);
            swap(&mut here, &mut next);
            length /= 2;
        }
        halve(&here[..length], list);
    }

    /// Lowers a list to what the shorter tables say, of which the shortest has so many entries in a quarter.
    fn up(&mut self, tables: &[Heard], quarter: usize, mut length: usize, list: &mut [u8]) {
        let (mut here, mut next) = (&mut self.one[..], &mut self.other[..]);
        join(tables, quarter, &mut here[..length]);
        while 2 * length < list.len() {
            join(tables, quarter, &mut next[..2 * length]);
            double(&here[..length], &mut next[..2 * length]);
            swap(&mut here, &mut next);
            length *= 2;
        }
        double(&here[..length], list);
    }
}

/// Makes the entries that are passed on for what these tables say, of as many places as there is output.
fn relay(tables: &[Heard], out: &mut [u8]) {
    let length = out.len();
    let longest = tables.iter().fold(length, |most, table| most.max(table.entries.len()));
    let shortest = tables.iter().fold(length, |least, table| least.min(table.entries.len()));
    let mut steps = if shortest < longest { Some(Steps::new()) } else { None };
    for (quarter, list) in out.chunks_exact_mut(length / QUARTERS).enumerate() {
        join(tables, quarter, list);
        if let Some(steps) = &mut steps {
            if longest > length {
                steps.down(tables, quarter, longest / QUARTERS, list);
            }
            if shortest < length {
                steps.up(tables, quarter, shortest / QUARTERS, list);
            }
        }
        list.iter_mut().for_each(|distance| *distance += 1);
    }
}

impl State {
    /// Makes the table to be sent by a line, of so many entries, at the front of the output: 1 where a keyword of the
    /// names falls; else one more than the least entry that counts among the settled tables of the other lines, at most
    /// [`INFINITY`], which also stands where none counts. Gives 0, or 1 to 3; 2 or 1 of the area of names; 14 for a
    /// length that no RESET may carry; or 2 for a short output. A refusal writes nothing.
    pub fn table_for(&self, line: u32, names: &[u8], length: u32, out: &mut [u8], route: &[u8]) -> Made {
        match self.make_table(line as usize, names, length, out, route) {
            Ok(()) => Made { answer: 0, infinity: INFINITY },
            Err(answer) => Made { answer, infinity: 0 },
        }
    }

    fn make_table(&self, line: usize, names: &[u8], length: u32, out: &mut [u8], route: &[u8]) -> Result<(), u8> {
        if !self.in_order() {
            return Err(1);
        }
        if !self.route_fits(route) {
            return Err(2);
        }
        if line >= LINES || !self.lines[line].open {
            return Err(3);
        }
        let products = names::products(names)?;
        if !length_allowed(length) {
            return Err(14);
        }
        let entries = out.get_mut(..length as usize).ok_or(2)?;
        let mut tables = [Heard { entries: &[], infinity: 0 }; LINES];
        let mut count = 0;
        for (other, table) in self.lines.iter().map(|line| &line.table).enumerate() {
            if other != line && table.mark == SETTLED {
                let entries = &route[other * self.room..][..table.length as usize];
                tables[count] = Heard { entries, infinity: table.infinity };
                count += 1;
            }
        }
        relay(&tables[..count], entries);
        let bits = length.trailing_zeros();
        products.for_each(|product| entries[hash::top(product, bits) as usize] = 1);
        Ok(())
    }
}
