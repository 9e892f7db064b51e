//! Areas of the station's own names: how one is laid out, written in a file and made simpler, and how its names are read.

use crate::field::{attempt, drop_runs, part, Area, Field};
use std::collections::HashSet;

/// Where the text of an area begins, and how many pairs stand before it.
pub const TEXT: usize = 4_100;
pub const MOST: usize = 512;

/// A pair, and bytes that stand at its offset.
#[derive(Clone, Debug, PartialEq, Eq)]
pub struct Text {
    pub offset: u32,
    pub size: u32,
    pub bytes: Vec<u8>,
}

/// An area of names: its length and the bytes where nothing else is put, the pairs that are listed, pairs behind these, of which one behind 512
/// stands in the text, and by how much the count is more than there are listed, modulo 2 to the power 32.
#[derive(Clone, Debug, PartialEq, Eq)]
pub struct Listing {
    pub area: Area,
    pub listed: Vec<Text>,
    pub behind: Vec<Text>,
    pub more: u32,
}

fn put(area: &mut [u8], at: usize, bytes: &[u8]) {
    area.iter_mut().skip(at).zip(bytes).for_each(|(place, byte)| *place = *byte);
}

impl Listing {
    /// An empty list without room for text.
    pub const EMPTY: Listing = Listing { area: Area { length: TEXT, seed: 0, top: 0 }, listed: Vec::new(), behind: Vec::new(), more: 0 };

    pub fn fill(&self, area: &mut Vec<u8>) {
        self.area.fill(area);
        let texts = || self.listed.iter().chain(&self.behind);
        for text in texts() {
            put(area, text.offset as usize, &text.bytes);
        }
        for (place, text) in texts().enumerate() {
            put(area, 4 + 8 * place, &text.offset.to_le_bytes());
            put(area, 8 + 8 * place, &text.size.to_le_bytes());
        }
        put(area, 0, &(self.listed.len() as u32).wrapping_add(self.more).to_le_bytes());
    }

    pub fn bytes(&self) -> Vec<u8> {
        let mut area = Vec::new();
        self.fill(&mut area);
        area
    }
}

fn texts_text(texts: &[Text]) -> String {
    if texts.is_empty() {
        return "-".to_string();
    }
    let words: Vec<String> = texts.iter().map(|text| format!("{}:{}:{}", text.offset, text.size, text.bytes.text())).collect();
    words.join(",")
}

fn read_texts(word: &str) -> Option<Vec<Text>> {
    let text = |word: &str| match word.split(':').collect::<Vec<_>>()[..] {
        [offset, size, bytes] => Some(Text { offset: Field::read(offset)?, size: Field::read(size)?, bytes: Field::read(bytes)? }),
        _ => None,
    };
    if word == "-" {
        return Some(Vec::new());
    }
    word.split(',').map(text).collect()
}

/// Takes a shorter name, whose size goes with it if it did, at a smaller offset.
fn simplify_text(text: &mut Text, still: &mut dyn FnMut(&Text) -> bool) {
    let base = text.clone();
    let sized = |bytes: &Vec<u8>| {
        let size = if base.size as usize == base.bytes.len() { bytes.len() as u32 } else { base.size };
        Text { offset: base.offset, size, bytes: bytes.clone() }
    };
    let mut bytes = base.bytes.clone();
    bytes.simplify(&mut |bytes| still(&sized(bytes)));
    *text = sized(&bytes);
    part(text, |text| &mut text.size, Field::simplify, still);
    part(text, |text| &mut text.offset, Field::simplify, still);
}

/// The area, by how much the count is more, the pairs that are listed and those behind, with semicolons.
impl Field for Listing {
    fn text(&self) -> String {
        format!("{};{};{};{}", self.area.text(), self.more, texts_text(&self.listed), texts_text(&self.behind))
    }

    fn read(word: &str) -> Option<Self> {
        match word.split(';').collect::<Vec<_>>()[..] {
            [area, more, listed, behind] => Some(Listing {
                area: Field::read(area)?,
                more: Field::read(more)?,
                listed: read_texts(listed)?,
                behind: read_texts(behind)?,
            }),
            _ => None,
        }
    }

    fn simplify(&mut self, still: &mut dyn FnMut(&Self) -> bool) {
        attempt(self, Listing::EMPTY, still);
        if *self == Listing::EMPTY {
            return;
        }
        part(self, |listing| &mut listing.behind, drop_runs, still);
        part(self, |listing| &mut listing.listed, drop_runs, still);
        part(self, |listing| &mut listing.more, Field::simplify, still);
        for at in 0..self.listed.len() {
            part(self, |listing| &mut listing.listed[at], simplify_text, still);
        }
        part(self, |listing| &mut listing.area, Field::simplify, still);
    }
}

/// The names of an area in their order; nothing if the area is not good. A plain reading of document 02, apart from both sides.
pub fn names_in(area: &[u8]) -> Option<Vec<&[u8]>> {
    let number = |at: usize| area.get(at..at + 4).map(|four| u32::from_le_bytes([four[0], four[1], four[2], four[3]]) as usize);
    let count = number(0).filter(|&count| area.len() >= TEXT && count <= MOST)?;
    let mut taken = vec![false; area.len()];
    let (mut names, mut seen) = (Vec::new(), HashSet::new());
    for place in 0..count {
        let (offset, size) = (number(4 + 8 * place)?, number(8 + 8 * place)?);
        let name = area.get(offset..offset + size)?;
        if offset < TEXT || !(1..=255).contains(&size) || name.contains(&0) || !seen.insert(name) {
            return None;
        }
        if taken[offset..offset + size].iter().any(|&taken| taken) {
            return None;
        }
        taken[offset..offset + size].fill(true);
        names.push(name);
    }
    Some(names)
}

#[cfg(test)]
mod tests {
    use super::*;

    fn text(offset: u32, bytes: &[u8]) -> Text {
        Text { offset, size: bytes.len() as u32, bytes: bytes.to_vec() }
    }

    fn listing(listed: Vec<Text>, more: u32) -> Listing {
        Listing { area: Area { length: TEXT + 20, seed: 3, top: 0 }, listed, behind: vec![text(4_102, b"\0\0")], more }
    }

    #[test]
    fn areas_are_read_again() {
        let given = listing(vec![text(4_110, b"one"), text(4_100, b"b")], 0);
        assert_eq!(Listing::read(&given.text()), Some(given.clone()));
        assert_eq!(names_in(&given.bytes()), Some(vec![&b"one"[..], b"b"]));
        assert_eq!(given.bytes().len(), 4_120);
        assert_eq!(Listing::EMPTY.bytes(), [0; 4_100]);
        for bad in ["", "4100:0:0;0;-", "4100:0:0;0;-;1:2", "4100:0:0;x;-;-"] {
            assert_eq!(Listing::read(bad), None, "{bad}");
        }
    }

    #[test]
    fn what_makes_an_area_bad() {
        let bad = [
            listing(vec![text(4_099, b"ab")], 0),
            listing(vec![text(4_119, b"ab")], 0),
            listing(vec![text(4_110, b"ab"), text(4_111, b"b")], 0),
            listing(vec![text(4_110, b"ab"), text(4_100, b"ab")], 0),
            listing(vec![text(4_110, b"a\0")], 0),
            listing(vec![Text { size: 0, ..text(4_110, b"a") }], 0),
            listing(vec![Text { offset: u32::MAX, ..text(4_110, b"ab") }], 0),
            listing(vec![text(4_110, b"ab")], 512),
        ];
        assert!(bad.iter().all(|listing| names_in(&listing.bytes()).is_none()));
        assert_eq!(names_in(&[0; 4_099]), None);
    }

    #[test]
    fn an_area_comes_down_to_what_counts() {
        let mut given = listing(vec![text(4_110, b"one"), text(4_100, b"bcd"), text(4_104, b"x")], u32::MAX);
        for _ in 0..2 {
            given.simplify(&mut |listing| names_in(&listing.bytes()).map_or(false, |names| names.iter().any(|name| name.contains(&b'c'))));
        }
        let area = Area { length: TEXT + 1, seed: 0, top: 0 };
        assert_eq!(given, Listing { area, listed: vec![text(4_100, b"c")], behind: vec![], more: 0 });
    }
}
