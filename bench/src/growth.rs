//! How cost grows: one thing doubled from row to row.

use crate::inputs::{self, calls, Random};
use crate::rows;
use crate::sessions::{Session, Way, World, CLOCK, INFINITY, MEMORY};
use crate::sides::{Outcome, ROOM};

/// Calls in a list of like messages.
const LIST: usize = 32;

/// Queries with this text, whose keywords are near, to a warm station.
fn queries(name: String, keywords: Vec<Vec<u8>>) -> Session {
    let text = keywords.join(&b' ');
    let mut world = World::new(11, ROOM, keywords);
    let setup = world.warm();
    let list = (0..LIST).map(|_| inputs::query(world.numbers.number(), 5, 1, &text)).collect();
    let passed = |outcome: &Outcome| outcome.to.count_ones() >= 5;
    Session { name, setup, calls: calls(0, CLOCK, list), way: Way::Message, expected: passed, units: LIST }
}

/// A query of one keyword that gets longer.
pub fn payloads() -> Vec<Session> {
    let lengths = (3..12).map(|power| 1 << power).chain([4_000]);
    lengths.map(|length| queries(format!("query, text of {length} bytes"), vec![Random(12).word(length)])).collect()
}

/// A query of more keywords, seven letters each.
pub fn keywords() -> Vec<Session> {
    let mut random = Random(13);
    let mut more = |count: usize| queries(format!("query, {count} keywords"), (0..count).map(|_| random.word(7)).collect());
    (0..7).map(|power| more(1 << power)).collect()
}

/// Queries of 4,000 bytes or a few less, of keywords of so many letters, with a space between; of no letters: spaces alone.
pub fn texts() -> Vec<Session> {
    let mut random = Random(14);
    let mut of = |letters: usize| {
        let keywords = (0..4_000 / (letters + 1)).map(|_| random.word(letters)).collect();
        queries(format!("query, 4000 bytes, keywords of {letters} letters"), keywords)
    };
    [0, 1, 3, 7, 15, 31, 63].map(&mut of).into()
}

/// A run for a longer table.
pub fn entries() -> Vec<Session> {
    (10..17).map(|power| rows::run(&format!("PATCH run, {} entries, 4 bits", 1 << power), 1 << power, INFINITY)).collect()
}

/// A hit for no remembered query, with more queries remembered.
pub fn remembered() -> Vec<Session> {
    let unknown = |kept: usize| {
        let mut world = rows::world(14, 1_024);
        let setup = world.remembered(kept);
        let list = (0..LIST).map(|_| inputs::hit(world.random.number(), 5, 1, 100)).collect();
        let name = format!("hit of no query (10), {kept} remembered");
        let unknown = |outcome: &Outcome| outcome.answer == 10;
        Session { name, setup, calls: calls(0, CLOCK, list), way: Way::Message, expected: unknown, units: LIST }
    };
    [0, MEMORY / 8, MEMORY / 4, MEMORY / 2, MEMORY].map(unknown).into()
}
