//! Random tables for the writer.

use super::start::number;
use crate::call::Call;
use crate::field::Area;
use crate::random::Random;
use lunozhar_reference::writer::{self, Entries};

/// A length of a table: mostly small.
fn length(random: &mut Random) -> usize {
    match random.below(300) {
        0 => random.pick(&[16_384, 32_768, 65_536]),
        1..=10 => random.pick(&[1024, 2048, 4096, 8192]),
        _ => random.pick(&[4, 4, 8, 16, 32, 64, 128, 256, 512]),
    }
}

fn entries(random: &mut Random, length: usize, infinity: u8) -> Vec<u8> {
    (0..length).map(|_| 1 + random.below(usize::from(infinity.max(1))) as u8).collect()
}

/// Entries near to others, so that 4 bits do, or anywhere.
fn next_entries(random: &mut Random, old: &[u8], infinity: u8) -> Vec<u8> {
    if random.one_in(3) {
        return entries(random, old.len(), infinity);
    }
    let reach = random.pick(&[1, 7, 8, 9]);
    let near = |random: &mut Random, entry: u8| {
        let moved = if random.one_in(2) { entry.saturating_add(reach) } else { entry.saturating_sub(reach) };
        moved.clamp(1, infinity.max(1))
    };
    old.iter().map(|&entry| if random.one_in(3) { near(random, entry) } else { entry }).collect()
}

/// A data size that makes few messages or many, up to the limit of 255 and just above.
fn size(random: &mut Random, length: usize) -> usize {
    let least = (length + 254) / 255;
    random.pick(&[1, 2, 3, least, least + 1, length / 256, length / 512, length / 2 + 1, 64, 4091, 4091]).clamp(1, 4091)
}

fn infinity(random: &mut Random) -> u8 {
    random.pick(&[2, 3, 7, 8, 8, 8, 9, 20, 127])
}

/// Makes one entry wrong.
fn change(random: &mut Random, entries: &mut [u8], infinity: u8) {
    let at = random.below(entries.len());
    entries[at] = random.pick(&[0, infinity.wrapping_add(1), 255]);
}

/// The writer with arguments that are good, or bad in one or two things, and an area around the length that it needs.
pub fn write_table(random: &mut Random) -> Call {
    let length = length(random);
    let (mut infinity, mut size, had) = (infinity(random), size(random, length), random.one_in(2));
    let mut old = entries(random, length, infinity);
    let mut new = next_entries(random, &old, infinity);
    let mut oldinfinity = infinity;
    if random.one_in(3) {
        for _ in 0..1 + random.below(2) {
            match random.below(7) {
                0 => change(random, &mut new, infinity),
                1 => change(random, &mut old, oldinfinity),
                2 => infinity = random.pick(&[0, 1, 2, 127, 128, 255]),
                3 => oldinfinity = random.pick(&[0, 1, 2, 127, 128, 255, oldinfinity + 1, oldinfinity + 1]),
                4 => size = random.pick(&[0, 1, 4091, 4092, 1 << 40, usize::MAX]),
                5 => new.resize(random.pick(&[length - 1, length + 1, 2 * length, length / 2]).max(1), 1),
                _ => old.resize(random.pick(&[length - 1, length + 1, 2 * length, length / 2]).max(1), 1),
            }
        }
        if random.one_in(12) {
            new.resize(random.pick(&[0, 1, 2, 131_072]), 1);
        }
    }
    let number = number(random);
    let mut area = vec![0; 29 + 255 * 28 + 2 * new.len()];
    let before = had.then(|| Entries { entries: &old, infinity: oldinfinity });
    let need = writer::write_table(before, Entries { entries: &new, infinity }, &number, size, &mut area).written;
    let room = random.pick(&[need, need, need + 1, need + 50, need.saturating_sub(1), 0]);
    Call::WriteTable { number, had, old, oldinfinity, new, infinity, size, out: Area { length: room, seed: random.number(), top: 0 } }
}

/// Tables written and read, mostly with room for them.
pub fn round_trip(random: &mut Random) -> Call {
    let (length, infinity) = (length(random), infinity(random));
    let old = entries(random, length, infinity);
    let new = next_entries(random, &old, infinity);
    let room = random.pick(&[length, length, length + 1, 2 * length, length - 1]);
    let route = Area { length: 8 * room + random.below(8), seed: random.number(), top: 0 };
    Call::RoundTrip { line: random.below(8) as u32, old, both: !random.one_in(4), new, infinity, size: size(random, length), route }
}
