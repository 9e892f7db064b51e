//! The station's own names: a list of file names in one area of bytes (document 02, R-3).
//!
//! The area starts with a count, 4 bytes; behind it are 512 pairs of an offset and a length, 4 bytes each; from byte 4,100 on comes the text.
//! All numbers are little-endian, and offsets count from the area's start. An area of at least 4,100 bytes whose count is 0 is an empty list.
//!
//! Every call reads the whole list first. It files each name in an index on the stack, where a second name of the same bytes meets the first;
//! the same index then finds the name that the call is about. Texts can overlap only where offsets do not rise along the list: then the pairs
//! are sorted by offset, and each is held to the next.

use crate::hash;
use crate::keywords::keywords;
use crate::table::{infinity_allowed, length_allowed};

#[cfg(test)]
mod tests;

/// The most names of a list.
pub const MOST: usize = 512;
/// Where the text begins, and the shortest area.
pub const TEXT: usize = 4 + 8 * MOST;
/// The longest name.
pub const LONGEST: usize = 255;
/// The answer to a name that there is no room for.
pub const FULL: u8 = 20;

/// Slots of the index: twice as many as there can be names.
const SLOTS: usize = 2 * MOST;
/// The bits of a slot that hold a place, counted from 1. The bits above are some of the name's mix.
const PLACE: u32 = 1_023;

/// A list that was read: all its names are good, apart and different.
struct List<'a> {
    area: &'a [u8],
    count: usize,
    /// The lengths of all names together.
    total: usize,
    /// Where the text is free from, up to the area's end.
    end: usize,
    /// The index. A name stands at the slot that its mix says, or behind it; 0 is a free slot.
    slots: [u32; SLOTS],
}

/// The number of 4 bytes from there on.
#[inline]
fn number(area: &[u8], at: usize) -> u32 {
    u32::from_le_bytes([area[at], area[at + 1], area[at + 2], area[at + 3]])
}

#[inline]
fn set_number(area: &mut [u8], at: usize, number: usize) {
    area[at..at + 4].copy_from_slice(&(number as u32).to_le_bytes());
}

/// Where the pair of a place stands.
#[inline]
fn pair(place: usize) -> usize {
    4 + 8 * place
}

/// Offset and length of the name at a place.
#[inline]
fn span(area: &[u8], place: usize) -> (u32, u32) {
    (number(area, pair(place)), number(area, pair(place) + 4))
}

/// The bytes of a good name at a place.
#[inline]
fn name_at(area: &[u8], place: usize) -> &[u8] {
    let (offset, length) = span(area, place);
    &area[offset as usize..][..length as usize]
}

/// Eight bytes of a name mixed into what was mixed before, or nothing if one of them is zero.
#[inline]
fn mix(before: u64, eight: [u8; 8]) -> Option<u64> {
    const ALL: u64 = 0x0101_0101_0101_0101;
    let bytes = u64::from_le_bytes(eight);
    if bytes.wrapping_sub(ALL) & !bytes & (0x80 * ALL) != 0 {
        return None;
    }
    let mixed = (before ^ bytes).wrapping_mul(0x9E37_79B9_7F4A_7C15);
    Some(mixed ^ (mixed >> 29))
}

/// What a name's place in the index comes from, or nothing for a name that is empty, over 255 bytes or has a zero byte.
#[inline]
fn mixed(name: &[u8]) -> Option<u64> {
    if !(1..=LONGEST).contains(&name.len()) {
        return None;
    }
    let mut sum = name.len() as u64;
    let mut chunks = name.chunks_exact(8);
    for chunk in &mut chunks {
        sum = mix(sum, eight(chunk))?;
    }
    match chunks.remainder() {
        [] => Some(sum),
        // The last eight bytes, some of them once more.
        _ if name.len() > 8 => mix(sum, eight(&name[name.len() - 8..])),
        rest => {
            let mut last = [1; 8];
            last[..rest.len()].copy_from_slice(rest);
            mix(sum, last)
        }
    }
}

#[inline]
fn eight(bytes: &[u8]) -> [u8; 8] {
    [bytes[0], bytes[1], bytes[2], bytes[3], bytes[4], bytes[5], bytes[6], bytes[7]]
}

impl<'a> List<'a> {
    /// Reads a list, or gives 2 or 1.
    fn read(area: &'a [u8]) -> Result<List<'a>, u8> {
        if area.len() < TEXT {
            return Err(2);
        }
        let count = number(area, 0) as usize;
        if count > MOST {
            return Err(1);
        }
        let mut list = List { area, count, total: 0, end: TEXT, slots: [0; SLOTS] };
        let mut rising = true;
        for place in 0..count {
            let (offset, length) = span(area, place);
            let end = u64::from(offset) + u64::from(length);
            if (offset as usize) < TEXT || end > area.len() as u64 {
                return Err(1);
            }
            rising &= offset as usize >= list.end;
            list.end = list.end.max(end as usize);
            list.total += length as usize;
            let name = &area[offset as usize..end as usize];
            let mixed = mixed(name).ok_or(1)?;
            match list.seek(mixed, name) {
                Ok(_) => return Err(1),
                Err(slot) => list.slots[slot] = kept(mixed) | (place as u32 + 1),
            }
        }
        if rising || apart(area, count) {
            Ok(list)
        } else {
            Err(1)
        }
    }

    /// The place of a name with this mix, or the slot where it would stand.
    #[inline]
    fn seek(&self, mixed: u64, name: &[u8]) -> Result<usize, usize> {
        let mut at = (mixed >> 54) as usize;
        loop {
            let slot = self.slots[at];
            if slot == 0 {
                return Err(at);
            }
            if slot & !PLACE == kept(mixed) {
                let place = (slot & PLACE) as usize - 1;
                if name_at(self.area, place) == name {
                    return Ok(place);
                }
            }
            at = (at + 1) % SLOTS;
        }
    }

    /// The place of a name, or 6 or 10.
    fn find(&self, name: &[u8]) -> Result<usize, u8> {
        let mixed = mixed(name).ok_or(6)?;
        self.seek(mixed, name).map_err(|_| 10)
    }

    /// The names, in order.
    fn names(&self) -> impl ExactSizeIterator<Item = &'a [u8]> {
        let area = self.area;
        (0..self.count).map(move |place| name_at(area, place))
    }
}

/// The bits of a mix that a slot keeps.
#[inline]
fn kept(mixed: u64) -> u32 {
    (mixed >> 22) as u32 & !PLACE
}

/// Whether no two names share a byte, however the offsets stand.
fn apart(area: &[u8], count: usize) -> bool {
    let mut spans: Vec<(u32, u32)> = (0..count).map(|place| span(area, place)).collect();
    spans.sort_unstable();
    spans.windows(2).all(|two| u64::from(two[0].0) + u64::from(two[0].1) <= u64::from(two[1].0))
}

/// Whether a name of this length may stand at `end`: within the area, and at an offset of 4 bytes.
fn fits(end: usize, length: usize, area: usize) -> bool {
    u32::try_from(end).is_ok() && length <= area - end
}

/// Writes the texts anew, without gaps and in the list's order, and gives the end of the last.
fn close(area: &mut [u8], count: usize, total: usize) -> usize {
    let mut text = Vec::with_capacity(total);
    for place in 0..count {
        let offset = TEXT + text.len();
        text.extend_from_slice(name_at(area, place));
        set_number(area, pair(place), offset);
    }
    let end = TEXT + text.len();
    area[TEXT..end].copy_from_slice(&text);
    end
}

/// Adds a name as the last. Gives 0, or 2 or 1 of the area, 6 for a name that no list has, 9 for one that is there, or [`FULL`].
pub fn add(area: &mut [u8], name: &[u8]) -> u8 {
    let list = match List::read(area) {
        Ok(list) => list,
        Err(answer) => return answer,
    };
    match list.find(name) {
        Ok(_) => return 9,
        Err(6) => return 6,
        Err(_) => {}
    }
    let List { count, total, mut end, .. } = list;
    if count == MOST || total + name.len() > area.len() - TEXT {
        return FULL;
    }
    if !fits(end, name.len(), area.len()) {
        end = close(area, count, total);
    }
    area[end..end + name.len()].copy_from_slice(name);
    set_number(area, pair(count), end);
    set_number(area, pair(count) + 4, name.len());
    set_number(area, 0, count + 1);
    0
}

/// Removes a name; those behind it move up by one place. Gives 0, or 2 or 1 of the area, 6 for a name that no list has, or 10.
pub fn remove(area: &mut [u8], name: &[u8]) -> u8 {
    let (place, count) = match List::read(area).and_then(|list| Ok((list.find(name)?, list.count))) {
        Ok(found) => found,
        Err(answer) => return answer,
    };
    area.copy_within(pair(place + 1)..pair(count), pair(place));
    set_number(area, 0, count - 1);
    0
}

/// Finds the place of a name, from 0. Gives the answer, as [`remove`] does, and the place, 0 where it is refused.
pub fn find(area: &[u8], name: &[u8]) -> (u8, usize) {
    match List::read(area).and_then(|list| list.find(name)) {
        Ok(place) => (0, place),
        Err(answer) => (answer, 0),
    }
}

/// Makes the table of the names: 1 where a keyword of one of them falls, Infinity elsewhere. Gives 0, or 2 or 1 of the area, 14 for a length or
/// an Infinity that no RESET may carry, or 2 for a short output.
pub fn table(area: &[u8], length: u32, infinity: u8, out: &mut [u8]) -> u8 {
    let products = match products(area) {
        Ok(products) => products,
        Err(answer) => return answer,
    };
    if !length_allowed(length) || !infinity_allowed(infinity) {
        return 14;
    }
    let entries = match out.get_mut(..length as usize) {
        Some(entries) => entries,
        None => return 2,
    };
    entries.fill(infinity);
    let bits = length.trailing_zeros();
    products.for_each(|product| entries[hash::top(product, bits) as usize] = 1);
    0
}

/// The products of all keywords of the names, or 2 or 1.
pub(crate) fn products(area: &[u8]) -> Result<impl Iterator<Item = u32> + '_, u8> {
    let names = in_order(area)?;
    Ok(names.flat_map(keywords).map(|keyword| hash::product(keyword.bytes)))
}

/// The names in order, or 2 or 1.
pub(crate) fn in_order(area: &[u8]) -> Result<impl ExactSizeIterator<Item = &[u8]>, u8> {
    List::read(area).map(|list| list.names())
}

/// The names in order, as a vector, or 2 or 1.
pub fn list(area: &[u8]) -> Result<Vec<&[u8]>, u8> {
    in_order(area).map(|names| names.collect())
}
