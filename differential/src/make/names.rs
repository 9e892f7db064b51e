//! Random areas of names, good, nearly good and of any bytes, and calls on them.

use super::Maker;
use crate::call::Call;
use crate::field::Area;
use crate::listing::{names_in, Listing, Text, MOST, TEXT};
use crate::random::Random;

/// The letters of names: few, so that names meet again, are alike but for the case of a letter, or have no keyword.
const LETTERS: &[u8] = b"aaabbAB  c0-_\t\xFF";

/// A name that may be listed: mostly short, also around the ends of eights of bytes and of the longest.
fn good_name(random: &mut Random) -> Vec<u8> {
    let length = match random.below(30) {
        0 => random.pick(&[253, 254, 255, 255]),
        1..=3 => random.pick(&[7, 8, 9, 15, 16, 17, 40]),
        4..=9 => 3 + random.below(3),
        _ => 1 + random.below(2),
    };
    (0..length).map(|_| random.pick(LETTERS)).collect()
}

/// A name that no list has.
fn bad_name(random: &mut Random) -> Vec<u8> {
    let length = random.pick(&[0, 0, 256, 257, 300, 1, 2, 9, 255]);
    let mut name = vec![b'a'; length];
    if (1..256).contains(&length) {
        name[random.below(length)] = 0;
    }
    name
}

/// A name that another becomes by one byte, the case of a letter, or one byte more or less.
fn near(random: &mut Random, name: &[u8]) -> Vec<u8> {
    let (mut near, at) = (name.to_vec(), random.below(name.len()));
    match random.below(4) {
        0 => near[at] ^= 0x20,
        1 => near[at] = random.pick(b"abc"),
        2 => near.push(random.pick(LETTERS)),
        _ => drop(near.pop()),
    }
    near
}

/// Names that are all different; many are numbered.
fn different_names(random: &mut Random, count: usize) -> Vec<Vec<u8>> {
    if count > 20 {
        let (front, behind) = (random.pick(&[&b""[..], b"a", b"12345678"]), random.pick(&[&b""[..], b" b"]));
        let numbered = |at: usize| [front, &[1 + (at % 128) as u8, 1 + (at / 128) as u8], behind].concat();
        return (0..count).map(numbered).collect();
    }
    let mut names: Vec<Vec<u8>> = Vec::new();
    while names.len() < count {
        let made = good_name(random);
        if !names.contains(&made) {
            names.push(made);
        }
    }
    names
}

/// The texts of names from an offset on, with gaps or without, in the order of the list or in another, and where the last ends.
fn laid_out(random: &mut Random, names: &[Vec<u8>], from: usize) -> (Vec<Text>, usize) {
    let mut order: Vec<usize> = (0..names.len()).collect();
    if random.one_in(2) {
        for at in 1..names.len() {
            order.swap(at, random.below(at + 1));
        }
    }
    let gaps = random.pick(&[&[0][..], &[0, 0, 0, 1], &[0, 1, 2, 9], &[0, 0, 40]]);
    let (mut offset, mut texts) = (from, vec![Text { offset: 0, size: 0, bytes: Vec::new() }; names.len()]);
    for place in order {
        offset += random.pick(gaps);
        let bytes = names[place].clone();
        texts[place] = Text { offset: offset as u32, size: bytes.len() as u32, bytes };
        offset += names[place].len();
    }
    (texts, offset)
}

/// A good area, with some room behind the texts.
fn good(random: &mut Random) -> Listing {
    let count = match random.below(40) {
        0 => random.pick(&[MOST - 1, MOST, MOST]),
        1 => random.below(60),
        _ => random.below(9),
    };
    let names = different_names(random, count);
    let (listed, end) = laid_out(random, &names, TEXT);
    let length = end + random.pick(&[0, 0, 0, 1, 2, 3, 6, 12, 30, 300]);
    let mut behind = Vec::new();
    if (1..MOST).contains(&count) && random.one_in(4) {
        // A pair past the count, which says what one of the list does.
        behind.push(Text { bytes: Vec::new(), ..listed[random.below(count)].clone() });
    }
    Listing { area: Area { length, seed: random.pick(&[0, 1, 2, 3]), top: 0 }, listed, behind, more: 0 }
}

/// 512 names, and behind their pairs, where the text begins, bytes that would be a good pair; the count is 512 or 513.
fn one_pair_more(random: &mut Random) -> Listing {
    let names = different_names(random, MOST);
    let (listed, end) = laid_out(random, &names, TEXT + 8);
    let behind = vec![Text { offset: end as u32, size: 3, bytes: b"zzz".to_vec() }];
    Listing { area: Area { length: end + 3, seed: 0, top: 0 }, listed, behind, more: random.below(2) as u32 }
}

/// Spoils one thing of an area, or nearly so.
fn spoil(random: &mut Random, listing: &mut Listing) {
    let (count, length) = (listing.listed.len(), listing.area.length);
    if count == 0 || random.one_in(5) {
        let less = |by: usize| (by as u32).wrapping_sub(count as u32);
        listing.more = random.pick(&[1, u32::MAX, less(MOST), less(MOST + 1), 65_536, 1 << 24, 1 << 31]);
        return;
    }
    let (at, other) = (random.below(count), random.below(count));
    let (there, any) = (listing.listed[other].clone(), random.number() as u32);
    let text = &mut listing.listed[at];
    let end = text.offset + text.size;
    match random.below(11) {
        0 => text.offset = random.pick(&[0, 4, 4_096, 4_099, length as u32, u32::MAX, u32::MAX - text.size, any]),
        1 => text.offset = text.offset.wrapping_add(random.pick(&[1, u32::MAX, 1 << 16])),
        2 => text.offset = random.pick(&[there.offset, there.offset + there.size - 1, there.offset + there.size, there.offset + 1]),
        3 => text.size = random.pick(&[0, 1, 255, 256, u32::MAX, u32::MAX - text.offset + 1, any]),
        4 => text.size = text.size.wrapping_add(random.pick(&[1, 1, u32::MAX])),
        5 => text.size = (length as u32 - text.offset).wrapping_add(random.pick(&[0, 1])),
        6 => drop(text.bytes.get_mut(at % 3).map(|byte| *byte = 0)),
        7 => drop(text.bytes.last_mut().map(|byte| *byte = 0)),
        8 | 9 => {
            // The bytes of another name, or nearly these, behind all texts.
            let bytes = if random.one_in(4) { near(random, &there.bytes) } else { there.bytes };
            *text = Text { offset: length as u32, size: bytes.len() as u32, bytes };
            listing.area.length = length + text.bytes.len();
        }
        _ => listing.area.length = random.pick(&[end as usize - 1, end as usize, TEXT - 1, TEXT]),
    }
}

/// An area: empty, good, nearly good, too short, or any bytes.
pub fn area(random: &mut Random) -> Listing {
    if random.one_in(50) {
        return one_pair_more(random);
    }
    let mut listing = good(random);
    let plain = Listing { area: Area { length: TEXT + random.pick(&[0, 1, 2, 5, 12, 40, 600]), ..listing.area }, ..Listing::EMPTY };
    match random.below(20) {
        0..=4 => plain,
        5..=12 => listing,
        13..=17 => {
            spoil(random, &mut listing);
            listing
        }
        18 => Listing { area: Area { length: random.pick(&[0, 1, 3, 4, 8, 12, 100, TEXT - 1, TEXT - 1]), ..listing.area }, ..listing },
        _ => {
            let any = random.number();
            Listing { area: Area { seed: any | 1, ..plain.area }, more: random.pick(&[0, 1, 2, 5, any as u32]), ..plain }
        }
    }
}

impl Maker {
    /// A call on this area of names, or another area.
    pub(super) fn name_call(&mut self, area: &[u8]) -> Call {
        let names = names_in(area);
        if names.is_none() && self.random.one_in(3) {
            return self.name_area();
        }
        let names = names.unwrap_or_default();
        let with = self.random.pick(&[0, 0, 1, 2]);
        match self.random.below(24) {
            0..=9 => Call::NameAdd { name: self.name(&names, 8), with },
            10..=14 => Call::NameRemove { name: self.name(&names, 2), with },
            15..=18 => Call::NameFind { name: self.name(&names, 2) },
            19..=21 => self.name_table(),
            _ => self.name_area(),
        }
    }

    fn name_area(&mut self) -> Call {
        Call::NameArea { area: area(&mut self.random) }
    }

    /// A name, one in so many one that is listed.
    fn name(&mut self, names: &[&[u8]], listed: usize) -> Vec<u8> {
        let random = &mut self.random;
        if random.one_in(16) {
            return bad_name(random);
        }
        if names.is_empty() {
            return good_name(random);
        }
        let there = random.pick(names);
        if random.one_in(listed) {
            return there.to_vec();
        }
        if random.one_in(6) {
            return near(random, there);
        }
        good_name(random)
    }

    /// A table, mostly short and of good terms, into an area around its length.
    fn name_table(&mut self) -> Call {
        let random = &mut self.random;
        let mut length = match random.below(60) {
            0 => 65_536,
            1..=3 => random.pick(&[1_024, 4_096, 16_384]),
            _ => random.pick(&[4, 8, 16, 32, 64, 256]),
        };
        let mut infinity = random.pick(&[2, 7, 8, 8, 127]);
        let near = [length, length, length + 1, length + 50, length - 1, 0];
        let out = Area { length: random.pick(&near) as usize, seed: random.number(), top: 0 };
        match random.below(10) {
            0 => length = random.pick(&[0, 1, 2, 3, 6, length + 1, length - 1, 131_072, 1 << 31, u32::MAX]),
            1 => infinity = random.pick(&[0, 1, 128, 255]),
            _ => {}
        }
        Call::NameTable { length, infinity, out }
    }
}
