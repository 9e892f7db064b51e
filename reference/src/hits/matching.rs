//! Which names have every keyword of a query among their own.
//!
//! The query is read once, and its keywords are filed, each once, in an index by their first eight bytes. A name has
//! at most 255 bytes, so a query whose different keywords, parted by a byte each, take more than that matches none and
//! is not read to its end; of any other there are at most 128 keywords, and one bit stands for each.
//!
//! The longest keyword is searched for in a name, eight bytes at a time. Most names have not got it, and are done
//! with. One that has is cut into its keywords; each is looked up in the index and its bit set, and the name matches
//! when all bits are.

use super::{zeros, ALL};
use crate::keywords::{keywords, Keyword};
use crate::names::LONGEST;

/// The most different keywords that a name can have.
const MOST: usize = (LONGEST + 1) / 2;
/// Slots of the index: twice as many as there can be keywords.
const SLOTS: usize = 2 * MOST;

/// The bit that tells small letters from capitals. All digits have it.
const SMALL: u64 = 0x20 * ALL;

/// The keywords that a name must have, each once.
pub(super) struct Wanted<'a> {
    count: usize,
    /// Bytes of the shortest name that has room for all: one byte stands between each two.
    least: usize,
    /// The place of the longest.
    longest: usize,
    keywords: [&'a [u8]; MOST],
    /// The first eight bytes of each, in lower case.
    firsts: [u64; MOST],
    /// The index: the number of a keyword, counted from 1, at its own slot or behind it; 0 is a free slot.
    slots: [u8; SLOTS],
}

/// The eight bytes of a text from a place in it on, as a number, with zeros behind its end.
#[inline]
fn eight(text: &[u8], at: usize) -> u64 {
    if text.len() < 8 {
        let mut short = [0; 8];
        short[..text.len()].copy_from_slice(text);
        return u64::from_le_bytes(short) >> (8 * at);
    }
    let from = at.min(text.len() - 8);
    let eight = u64::from_le_bytes(text[from..from + 8].try_into().expect("eight bytes"));
    eight >> (8 * (at - from))
}

/// The first eight bytes of a keyword of this length at a place of a text, in lower case, with zeros behind its end.
#[inline]
fn first_eight(text: &[u8], at: usize, length: usize) -> u64 {
    (eight(text, at) | SMALL) & (u64::MAX >> (64 - 8 * length.min(8)))
}

/// The slot where a keyword is looked for first.
#[inline]
fn slot(first: u64) -> usize {
    (first.wrapping_mul(0x9E37_79B9_7F4A_7C15) >> 56) as usize
}

impl<'a> Wanted<'a> {
    /// The keywords of a query's text; nothing if it has none, or more than a name can have.
    pub(super) fn read(text: &'a [u8]) -> Option<Wanted<'a>> {
        let (none, firsts, slots): ([&[u8]; MOST], _, _) = ([&[]; MOST], [0; MOST], [0; SLOTS]);
        let mut wanted = Wanted { count: 0, least: 0, longest: 0, keywords: none, firsts, slots };
        for keyword in keywords(text) {
            if let Err(slot) = wanted.seek(text, keyword) {
                wanted.add(slot, text, keyword)?;
            }
        }
        (wanted.count > 0).then_some(wanted)
    }

    /// Files a keyword of a text, unless no name has room for it besides the others.
    fn add(&mut self, slot: usize, text: &[u8], Keyword { start, bytes }: Keyword<'a>) -> Option<()> {
        self.least += usize::from(self.count > 0) + bytes.len();
        if self.least > LONGEST {
            return None;
        }
        if bytes.len() > self.keywords[self.longest].len() {
            self.longest = self.count;
        }
        self.keywords[self.count] = bytes;
        self.firsts[self.count] = first_eight(text, start, bytes.len());
        self.count += 1;
        self.slots[slot] = self.count as u8;
        Some(())
    }

    /// The place of a keyword of a text, or the slot where it would stand.
    #[inline]
    fn seek(&self, text: &[u8], Keyword { start, bytes }: Keyword) -> Result<usize, usize> {
        let first = first_eight(text, start, bytes.len());
        let mut at = slot(first);
        loop {
            let number = usize::from(self.slots[at]);
            if number == 0 {
                return Err(at);
            }
            let (place, keyword) = (number - 1, self.keywords[number - 1]);
            let rest = || keyword.len() == bytes.len() && keyword[8..].eq_ignore_ascii_case(&bytes[8..]);
            if self.firsts[place] == first && (bytes.len() < 8 || rest()) {
                return Ok(place);
            }
            at = (at + 1) % SLOTS;
        }
    }

    /// Whether a name has them all.
    #[inline]
    pub(super) fn all_in(&self, name: &[u8]) -> bool {
        name.len() >= self.least
            && has(name, self.keywords[self.longest], self.firsts[self.longest])
            && (self.count == 1 || self.all_found(name))
    }

    /// Whether each is one of a name's keywords.
    fn all_found(&self, name: &[u8]) -> bool {
        let all = u128::MAX >> (MOST - self.count);
        let mut found = 0u128;
        keywords(name).any(|keyword| {
            if let Ok(place) = self.seek(name, keyword) {
                found |= 1 << place;
            }
            found == all
        })
    }
}

/// Whether a name has a keyword, whose first eight bytes are these, among its own.
#[inline]
fn has(name: &[u8], keyword: &[u8], first: u64) -> bool {
    let initial = (first & 0xFF) * ALL;
    (0..name.len()).step_by(8).any(|from| {
        let mut places = zeros((eight(name, from) | SMALL) ^ initial);
        while places != 0 {
            let at = from + places.trailing_zeros() as usize / 8;
            if first_eight(name, at, keyword.len()) == first && stands(name, at, keyword) {
                return true;
            }
            places &= places - 1;
        }
        false
    })
}

/// Whether the keyword that begins at a place of a name, if one begins there, is this one. Whether one begins is asked
/// first, so that no byte of a name is compared twice.
#[inline]
fn stands(name: &[u8], at: usize, keyword: &[u8]) -> bool {
    let parts = |byte: Option<&u8>| !byte.map_or(false, u8::is_ascii_alphanumeric);
    let (before, from) = name.split_at(at);
    parts(before.last())
        && from.get(..keyword.len()).map_or(false, |piece| piece.eq_ignore_ascii_case(keyword))
        && parts(from.get(keyword.len()))
}
