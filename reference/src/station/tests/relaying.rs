//! The table that is passed on (document 02, R-6), held to worked tables, to a reading place by place of what a hash
//! falls on, and to the writer of updates.

use super::*;
use crate::names::{add, TEXT};
use crate::writer::{write_table, Entries};

/// An empty list of names, with some room.
fn no_names() -> Vec<u8> {
    vec![0; TEXT + 100]
}

fn names(list: &[&str]) -> Vec<u8> {
    let mut area = no_names();
    for name in list {
        assert_eq!(add(&mut area, name.as_bytes()), 0);
    }
    area
}

/// A state with its route area, tables set by hand.
struct Tables {
    state: State,
    route: Vec<u8>,
}

impl Tables {
    /// All lines of `open` open, without a table.
    fn new(room: usize, open: &[usize]) -> Tables {
        let Setting { state, route, .. } = Setting::new(LINES * room, open);
        Tables { state, route }
    }

    fn set(&mut self, line: usize, mark: u8, infinity: u8, entries: &[u8]) {
        self.state.lines[line].table = Table { mark, length: entries.len() as u32, infinity, place: 1, size: 0, bits: 0, at: 0 };
        self.route[line * self.state.room..][..entries.len()].copy_from_slice(entries);
    }

    /// Line 0 asks; line 1 has four entries and Infinity 3, line 2 eight and Infinity 8.
    fn worked() -> Tables {
        let mut tables = Tables::new(8, &[0, 1, 2]);
        tables.set(1, SETTLED, 3, &[3, 1, 3, 3]);
        tables.set(2, SETTLED, 8, &[8, 8, 5, 8, 8, 8, 8, 7]);
        tables
    }

    /// The answer, and the output of so many bytes. What holds of every call is checked here.
    fn call(&self, line: u32, names: &[u8], length: u32, output: usize) -> (u8, Vec<u8>) {
        let mut out = vec![0xDD; output];
        let Made { answer, infinity } = self.state.table_for(line, names, length, &mut out, &self.route);
        let written = if answer == 0 { length as usize } else { 0 };
        assert_eq!(infinity, if answer == 0 { 8 } else { 0 });
        assert!(out[..written].iter().all(|entry| (1..=infinity).contains(entry)));
        assert!(out[written..].iter().all(|&byte| byte == 0xDD), "answered {answer}, and wrote too far");
        (answer, out)
    }

    fn answer(&self, line: u32, names: &[u8], length: u32, output: usize) -> u8 {
        self.call(line, names, length, output).0
    }

    /// The table for a line.
    fn made(&self, line: u32, names: &[u8], length: u32) -> Vec<u8> {
        let (answer, mut out) = self.call(line, names, length, length as usize + 9);
        assert_eq!(answer, 0);
        out.truncate(length as usize);
        out
    }

    /// The entries that count of a line's table, with their places: none unless it is another line's and settled.
    fn counted(&self, asking: usize, line: usize) -> Vec<(usize, u8)> {
        let Table { mark, length, infinity, .. } = self.state.lines[line].table;
        if line == asking || mark != SETTLED {
            return Vec::new();
        }
        let entries = self.route[line * self.state.room..][..length as usize].iter().copied().enumerate();
        entries.filter(|&(_, entry)| entry != infinity).collect()
    }

    /// The table read place by place: every entry that counts is held to every place, and both have a hash in common
    /// or have not.
    fn by_places(&self, asking: usize, names: &[&str], length: u32) -> Vec<u8> {
        let mut out = vec![8; length as usize];
        for line in 0..LINES {
            for (other, entry) in self.counted(asking, line) {
                for (place, out) in out.iter_mut().enumerate() {
                    if meet((place, length), (other, self.state.lines[line].table.length)) {
                        *out = (*out).min(entry.saturating_add(1));
                    }
                }
            }
        }
        own_names(out, names)
    }

    /// The table read hash by hash: no table has more than 2^16 entries, so the first 16 bits say where a hash falls.
    fn by_hashes(&self, asking: usize, names: &[&str], length: u32) -> Vec<u8> {
        let place = |first: usize, length: usize| first * length / 65_536;
        let mut out = vec![8; length as usize];
        for line in 0..LINES {
            let table = self.state.lines[line].table;
            let mut near = vec![7; table.length as usize];
            for (place, entry) in self.counted(asking, line) {
                near[place] = entry.min(7);
            }
            if !near.is_empty() {
                for first in 0..65_536 {
                    let entry = &mut out[place(first, length as usize)];
                    *entry = (*entry).min(near[place(first, near.len())] + 1);
                }
            }
        }
        own_names(out, names)
    }
}

/// Whether some hash of 32 bits falls on both of two places, each of a table's length.
fn meet(one: (usize, u32), other: (usize, u32)) -> bool {
    let hashes = |(place, length): (usize, u32)| {
        let each = (1u64 << 32) / u64::from(length);
        place as u64 * each..(place as u64 + 1) * each
    };
    let (one, other) = (hashes(one), hashes(other));
    one.start.max(other.start) < one.end.min(other.end)
}

/// A table with 1 at the place of each keyword of these names.
fn own_names(mut table: Vec<u8>, names: &[&str]) -> Vec<u8> {
    let bits = table.len().trailing_zeros();
    for keyword in names.iter().flat_map(|name| keywords(name.as_bytes())) {
        table[hash::place(keyword.bytes, bits) as usize] = 1;
    }
    table
}

fn generator(mut seed: u64) -> impl FnMut(u32) -> u32 {
    move |below| {
        seed = seed.wrapping_mul(6_364_136_223_846_793_005).wrapping_add(1_442_695_040_888_963_407);
        (seed >> 33) as u32 % below
    }
}

/// Entries as updates leave them, most of them Infinity.
fn random_entries(random: &mut impl FnMut(u32) -> u32, length: u32, infinity: u8) -> Vec<u8> {
    let entry = |_| if random(5) == 0 { 1 + random(infinity.into()) as u8 } else { infinity };
    (0..length).map(entry).collect()
}

#[test]
fn worked_tables() {
    let tables = Tables::worked();
    assert_eq!(tables.made(0, &no_names(), 4), [8, 2, 8, 8]);
    assert_eq!(tables.made(0, &no_names(), 8), [8, 8, 2, 2, 8, 8, 8, 8]);
    assert_eq!(tables.made(0, &no_names(), 16), [8, 8, 8, 8, 2, 2, 2, 2, 8, 8, 8, 8, 8, 8, 8, 8]);
    for length in [4, 8, 16, 64] {
        assert_eq!(tables.made(0, &no_names(), length), tables.by_places(0, &[], length));
    }
}

/// The table of the line that asks plays no part, and no other line is left out.
#[test]
fn all_other_lines() {
    let tables = Tables::worked();
    assert_eq!(tables.made(1, &no_names(), 4), [8, 6, 8, 8]);
    assert_eq!(tables.made(2, &no_names(), 8), [8, 8, 2, 2, 8, 8, 8, 8]);
    let mut all = Tables::new(4, &[0, 1, 2, 3, 4, 5, 6, 7]);
    for line in 0..LINES {
        all.set(line, SETTLED, 8, &[1, 8, 8, line as u8 + 1]);
    }
    let least = [0, 1, 2].map(|line| all.made(line, &no_names(), 4)[3]);
    assert_eq!(least, [3, 2, 2]);
    for other in 0..LINES {
        let mut one = Tables::new(4, &[0, 1, 2, 3, 4, 5, 6, 7]);
        one.set(other, SETTLED, 8, &[8, 8, 3, 8]);
        for line in 0..LINES as u32 {
            let heard = line as usize != other;
            assert_eq!(one.made(line, &no_names(), 4), [8, 8, if heard { 4 } else { 8 }, 8], "{other} to {line}");
        }
    }
}

/// Only a settled table counts.
#[test]
fn marks() {
    for mark in [NONE, WAITING, RUNNING, SETTLED, BROKEN] {
        let mut tables = Tables::worked();
        tables.set(1, mark, 3, &[3, 1, 3, 3]);
        if mark == RUNNING {
            let table = &mut tables.state.lines[1].table;
            (table.place, table.size, table.bits, table.at) = (2, 2, 4, 4);
        }
        let least = if mark == SETTLED { 2 } else { 6 };
        assert_eq!(tables.made(0, &no_names(), 4), [8, least, 8, 8], "mark {mark}");
    }
    let mut tables = Tables::worked();
    assert_eq!(tables.state.close(1), 0);
    assert_eq!(tables.made(0, &no_names(), 4), [8, 6, 8, 8]);
}

/// Tables that updates made, and one that they broke.
#[test]
fn updates() {
    let mut setting = Setting::settled();
    let made = |setting: &Setting, line| {
        let mut out = [0xDD; 5];
        assert_eq!(setting.state.table_for(line, &no_names(), 4, &mut out, &setting.route).answer, 0);
        out
    };
    assert_eq!(made(&setting, 0), [8, 2, 8, 2, 0xDD]);
    assert_eq!(made(&setting, 1), [8, 8, 8, 8, 0xDD]);
    assert_eq!(setting.answer(1, &update(&[1, 1, 2, 0, 4, 0xF0])), 0);
    assert_eq!((setting.mark(1), made(&setting, 0)), (RUNNING, [8, 8, 8, 8, 0xDD]));
    assert_eq!(setting.answer(1, &update(&[1, 2, 2, 0, 4, 0x01])), 0);
    assert_eq!(made(&setting, 0), [8, 2, 8, 3, 0xDD]);
    assert_eq!(setting.answer(1, &update(&[1, 1, 1, 0, 4, 0x20, 0])), 16);
    assert_eq!((setting.mark(1), made(&setting, 0)), (BROKEN, [8, 8, 8, 8, 0xDD]));
}

/// An entry that is its own table's Infinity hides no other; every other counts as it stands.
#[test]
fn infinities() {
    let mut tables = Tables::worked();
    tables.set(1, SETTLED, 3, &[3, 3, 3, 3]);
    assert_eq!(tables.made(0, &no_names(), 4), [8, 6, 8, 8]);
    tables.set(1, SETTLED, 3, &[4, 0, 200, 3]);
    assert_eq!(tables.made(0, &no_names(), 4), [5, 1, 8, 8]);
    tables.set(1, SETTLED, 127, &[99, 6, 7, 126]);
    assert_eq!(tables.made(0, &no_names(), 4), [8, 6, 8, 8]);
    tables.set(2, SETTLED, 127, &[127; 8]);
    assert_eq!(tables.made(0, &no_names(), 4), [8, 7, 8, 8]);
    // One table's Infinity is an entry like others in the next.
    tables.set(1, SETTLED, 5, &[5, 2, 5, 5]);
    tables.set(2, SETTLED, 2, &[2, 5, 2, 2, 5, 2, 2, 2]);
    assert_eq!(tables.made(0, &no_names(), 4), [6, 3, 6, 8]);
}

/// Every entry under every Infinity, alone at its place and side by side with one that is Infinity.
#[test]
fn every_entry_under_every_infinity() {
    let mut tables = Tables::new(512, &[0, 5]);
    for infinity in 2..=127 {
        let entries: Vec<u8> = (0..=255).collect();
        let expected = |entry: &u8| if *entry == infinity { 8 } else { (u16::from(*entry) + 1).min(8) as u8 };
        let expected: Vec<u8> = entries.iter().map(expected).collect();
        tables.set(5, SETTLED, infinity, &entries);
        assert_eq!(tables.made(0, &no_names(), 256), expected, "Infinity {infinity}");
        let twice: Vec<u8> = entries.iter().flat_map(|&entry| [entry, infinity]).collect();
        tables.set(5, SETTLED, infinity, &twice);
        assert_eq!(tables.made(0, &no_names(), 256), expected, "Infinity {infinity}");
    }
}

/// An own keyword is 1 at its place of the made table, and nowhere else, whatever tables say.
#[test]
fn own_keywords() {
    let mut tables = Tables::worked();
    // At two bits eb is 3, ebckl 1 and ebcklmen 0.
    assert_eq!(tables.made(0, &names(&["eb"]), 4), [8, 2, 8, 1]);
    assert_eq!(tables.made(0, &names(&["ebckl"]), 4), [8, 1, 8, 8]);
    assert_eq!(tables.made(0, &names(&["ebcklmen-EB"]), 4), [1, 2, 8, 1]);
    assert_eq!(tables.made(0, &names(&["---", "..."]), 4), [8, 2, 8, 8]);
    for value in [0, 1, 200] {
        tables.set(2, SETTLED, 8, &[8, 8, 5, 8, 8, 8, value, value]);
        assert_eq!(tables.made(0, &names(&["eb"]), 4)[3], 1);
    }
    let tables = Tables::new(4, &[3]);
    for bits in 2..=16 {
        let made = tables.made(3, &names(&["eb"]), 1 << bits);
        let place = hash::place(b"eb", bits) as usize;
        assert!(made.iter().enumerate().all(|(at, &entry)| entry == if at == place { 1 } else { 8 }));
    }
}

/// Each of two refusals that a call deserves, the first in order answered.
#[test]
fn order_of_refusals() {
    let mut tables = Tables::worked();
    let (good, mut bad) = (no_names(), no_names());
    bad[1] = 3;
    let short = &good[..TEXT - 1];
    assert_eq!(tables.answer(0, &good, 4, 4), 0);
    // 2 for the output, 14, the area of names, 3.
    assert_eq!(tables.answer(0, &good, 4, 3), 2);
    assert_eq!(tables.answer(0, &good, 65_536, 65_535), 2);
    assert_eq!(tables.answer(0, &good, 5, 0), 14);
    assert_eq!(tables.answer(0, &bad, 5, 0), 1);
    assert_eq!(tables.answer(0, &bad, 4, 4), 1);
    assert_eq!(tables.answer(0, short, 5, 0), 2);
    assert_eq!(tables.answer(0, &bad[..TEXT - 1], 4, 4), 2);
    assert_eq!(tables.answer(0, &[], 4, 4), 2);
    assert_eq!(tables.answer(3, short, 4, 4), 3);
    for line in [3, 8, 255, 256, u32::MAX] {
        assert_eq!(tables.answer(line, &bad, 5, 0), 3, "line {line}");
    }
    // 2 for the route area, 1.
    let route = tables.route.clone();
    for (length, answer) in [(0, 2), (31, 2), (63, 2), (64, 0), (71, 0), (72, 2)] {
        tables.route = route.clone();
        tables.route.resize(length, 1);
        assert_eq!(tables.answer(0, &good, 4, 4), answer, "{length} bytes of route area");
        assert_eq!(tables.answer(3, &bad, 5, 0), if answer == 0 { 3 } else { 2 });
    }
    tables.state.next = 512;
    assert_eq!(tables.answer(3, &bad, 5, 0), 1);
    tables.route = route;
    assert_eq!(tables.answer(0, &good, 4, 4), 1);
    // A route area of less than 32 bytes has no state of its own room.
    let (_, state) = State::fresh(&[0; 31]);
    let tables = Tables { state, route: Vec::new() };
    assert_eq!(tables.answer(0, &good, 4, 4), 2);
}

/// 14 for every length that no RESET carries; the room plays no part.
#[test]
fn lengths() {
    let tables = Tables::new(4, &[0]);
    let powers = (0..32).map(|bits| 1 << bits);
    for length in powers.flat_map(|power: u32| [power - 1, power, power + 1]).chain([u32::MAX, 6, 48, 65_540]) {
        let allowed = length.count_ones() == 1 && (4..=65_536).contains(&length);
        assert_eq!(tables.answer(0, &no_names(), length, 65_536), if allowed { 0 } else { 14 }, "length {length}");
    }
    assert_eq!(tables.made(0, &no_names(), 65_536), [8; 65_536]);
}

/// The room of each line is its own: with a room that is no power of two, and bytes behind the last.
#[test]
fn places_of_the_tables() {
    let mut tables = Tables::new(9, &[0, 1, 6, 7]);
    tables.route.extend([1; 5]);
    tables.route.fill(1);
    tables.set(1, SETTLED, 8, &[8; 8]);
    tables.set(6, SETTLED, 8, &[8, 8, 8, 4]);
    tables.set(7, SETTLED, 8, &[8, 8, 8, 8, 8, 8, 3, 8]);
    assert_eq!(tables.made(0, &no_names(), 8), [8, 8, 8, 8, 8, 8, 4, 5]);
    assert_eq!(tables.made(7, &no_names(), 8), [8, 8, 8, 8, 8, 8, 5, 5]);
}

/// One entry, and what it covers or is covered by in every other length.
#[test]
fn one_entry_in_every_length() {
    let mut tables = Tables::new(65_536, &[0, 4]);
    for at in [16_383, 40_001, 65_535] {
        for from in 2..=16 {
            let mut entries = vec![8; 1 << from];
            let place = at >> (16 - from);
            entries[place] = 3;
            tables.set(4, SETTLED, 8, &entries);
            for to in 2..=16 {
                let made = tables.made(0, &no_names(), 1 << to);
                let (first, count) = if to <= from { (place >> (from - to), 1) } else { (place << (to - from), 1 << (to - from)) };
                assert!(made[first..first + count].iter().all(|&entry| entry == 4), "{at}: {from} bits into {to}");
                assert_eq!(made.iter().filter(|&&entry| entry != 8).count(), count, "{at}: {from} bits into {to}");
            }
        }
    }
}

/// 65,536 entries into 4: the least of each quarter.
#[test]
fn longest_into_shortest() {
    let mut tables = Tables::new(65_536, &[0, 1, 2]);
    let mut entries = vec![127; 65_536];
    (entries[0], entries[16_383], entries[16_384], entries[49_151], entries[65_535]) = (6, 4, 99, 1, 5);
    tables.set(1, SETTLED, 127, &entries);
    assert_eq!(tables.made(0, &no_names(), 4), [5, 8, 2, 6]);
    assert_eq!(tables.made(1, &no_names(), 4), [8; 4]);
    tables.set(2, SETTLED, 3, &[2, 3, 3, 3]);
    assert_eq!(tables.made(0, &names(&["ebckl"]), 4), [3, 1, 2, 6]);
}

/// Random tables of small lengths, read place by place.
#[test]
fn random_tables_by_places() {
    let mut random = generator(77);
    let lists: [&[&str]; 3] = [&[], &["eb", "LX-04417.jpg"], &["ebckl.ebcklmen"]];
    for _ in 0..400 {
        let mut tables = Tables::new(64, &[0, 1, 2, 3, 4, 5, 6, 7]);
        for line in 0..random(9) as usize {
            let (length, infinity) = (4 << random(5), [2, 3, 6, 7, 8, 9, 127][random(7) as usize]);
            let mut entries = random_entries(&mut random, length, infinity);
            if random(4) == 0 {
                entries[random(length) as usize] = random(256) as u8;
            }
            let mark = [SETTLED, SETTLED, SETTLED, NONE, WAITING, BROKEN][random(6) as usize];
            tables.set(line, mark, infinity, &entries);
        }
        let (line, list, length) = (random(8), lists[random(3) as usize], 4 << random(6));
        assert_eq!(tables.made(line, &names(list), length), tables.by_places(line as usize, list, length));
        assert_eq!(tables.by_hashes(line as usize, list, length), tables.by_places(line as usize, list, length));
    }
}

/// Random tables of any lengths, read hash by hash: each pair of lengths, then several lengths at once.
#[test]
fn random_tables_by_hashes() {
    let mut random = generator(78);
    let mut tables = Tables::new(65_536, &[0, 1, 2, 3, 4, 5, 6, 7]);
    let held = |tables: &Tables, length| {
        let list = ["eb", "LX-04417.jpg"];
        assert_eq!(tables.made(0, &names(&list), length), tables.by_hashes(0, &list, length));
    };
    for from in 2..=16 {
        let infinity = if from % 2 == 0 { 8 } else { 5 };
        tables.set(7, SETTLED, infinity, &random_entries(&mut random, 1 << from, infinity));
        (2..=16).for_each(|to| held(&tables, 1 << to));
    }
    for _ in 0..20 {
        for line in 1..LINES {
            let (length, infinity) = (4 << random(15), [2, 5, 7, 8, 8, 127][random(6) as usize]);
            tables.set(line, SETTLED, infinity, &random_entries(&mut random, length, infinity));
        }
        held(&tables, 4 << random(15));
    }
}

/// The writer takes what was made, with the Infinity that is handed up, and the neighbour's table is that.
#[test]
fn written_and_read() {
    let mut random = generator(79);
    for bits in [2, 5, 11, 16] {
        let mut tables = Tables::new(65_536, &[0, 3]);
        tables.set(3, SETTLED, 8, &random_entries(&mut random, 4096, 8));
        let area = names(&["eb", "LX-04417.jpg"]);
        let mut entries = vec![0; 1 << bits];
        let made = tables.state.table_for(0, &area, 1 << bits, &mut entries, &tables.route);
        let mut out = vec![0; 70_000];
        let written = write_table(None, Entries { entries: &entries, infinity: made.infinity }, &numbered(1), 4091, &mut out);
        assert_eq!((made.answer, written.answer), (0, 0));
        let mut neighbour = Setting::new(LINES * 65_536, &[6]);
        let mut bytes = &out[..written.written];
        while !bytes.is_empty() {
            let handled = neighbour.send(6, bytes);
            assert_eq!(handled.answer, 0);
            bytes = &bytes[handled.used..];
        }
        let table = neighbour.state.lines[6].table;
        assert_eq!((table.mark, table.length, table.infinity), (SETTLED, 1 << bits, 8));
        assert_eq!(neighbour.route[6 * 65_536..][..1 << bits], entries);
    }
}
