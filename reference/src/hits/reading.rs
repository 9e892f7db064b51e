//! A hit's payload read, one result after the other.
//!
//! The two zero bytes of a result are looked for eight bytes at a time. A load that begins before the mark ends inside
//! it, so none needs a look at how much is left; a zero byte that stands in the mark ends no result.

use super::{zeros, HEAD, MARK};
use crate::station::HIT_BYTES;

/// What stands in front of the results, and where the mark is.
#[derive(Clone, Copy, Debug, Default, PartialEq, Eq)]
pub struct Head {
    pub answer: u8,
    /// How many results there are by the payload's own word.
    pub results: u8,
    pub port: u16,
    pub address: [u8; 4],
    pub speed: u32,
    /// Where the 16 bytes of the mark begin.
    pub mark_at: usize,
    /// In front of the first result.
    pub cursor: Cursor,
}

/// Where the next result begins, and how many are left. Any cursor may be brought to any payload.
#[derive(Clone, Copy, Debug, Default, PartialEq, Eq)]
pub struct Cursor {
    pub at: usize,
    pub left: u8,
}

/// A result. Places are counted from the payload's first byte.
#[derive(Clone, Copy, Debug, Default, PartialEq, Eq)]
pub struct Record {
    pub index: u32,
    pub size: u32,
    pub name_at: usize,
    pub name_length: usize,
    pub extension_at: usize,
    pub extension_length: usize,
}

/// What a cursor came to.
#[derive(Clone, Copy, Debug, Default, PartialEq, Eq)]
pub struct Next {
    pub answer: u8,
    /// Whether there is a record; if not and the answer is 0, the results are at their end.
    pub found: bool,
    pub record: Record,
    /// Behind the record; as it was where there is none.
    pub cursor: Cursor,
}

/// Begins with a hit's payload: 0, or 6 and nothing else if it is too short for a head and a mark.
pub fn begin(payload: &[u8]) -> Head {
    if payload.len() < HIT_BYTES {
        return Head { answer: 6, ..Head::default() };
    }
    Head {
        answer: 0,
        results: payload[0],
        port: u16::from_le_bytes([payload[1], payload[2]]),
        address: [payload[3], payload[4], payload[5], payload[6]],
        speed: u32::from_le_bytes([payload[7], payload[8], payload[9], payload[10]]),
        mark_at: payload.len() - MARK,
        cursor: Cursor { at: HEAD, left: payload[0] },
    }
}

impl Cursor {
    /// Goes on by one result: the record with answer 0, or none at the end; 6 for a payload that is too short, or for
    /// a result that does not end before the mark.
    #[inline]
    pub fn next(self, payload: &[u8]) -> Next {
        let none = Next { answer: 0, found: false, record: Record::default(), cursor: self };
        if payload.len() < HIT_BYTES {
            return Next { answer: 6, ..none };
        }
        if self.left == 0 {
            return none;
        }
        match record(payload, self.at) {
            Some(record) => {
                let at = record.extension_at + record.extension_length + 1;
                Next { answer: 0, found: true, record, cursor: Cursor { at, left: self.left - 1 } }
            }
            None => Next { answer: 6, ..none },
        }
    }
}

/// The result that begins there, if it ends before the mark. The payload has a mark.
#[inline]
fn record(payload: &[u8], at: usize) -> Option<Record> {
    let mark_at = payload.len() - MARK;
    if at >= mark_at {
        return None;
    }
    let name_at = at + 8;
    let (name_end, end) = two_zeros(payload, name_at, mark_at)?;
    let numbers = eight(payload, at);
    Some(Record {
        index: numbers as u32,
        size: (numbers >> 32) as u32,
        name_at,
        name_length: name_end - name_at,
        extension_at: name_end + 1,
        extension_length: end - name_end - 1,
    })
}

/// The eight bytes from there on, as a number.
#[inline]
fn eight(payload: &[u8], at: usize) -> u64 {
    u64::from_le_bytes(payload[at..at + 8].try_into().expect("eight bytes"))
}

/// Where the first two zero bytes from a place on stand, if both stand before the mark.
#[inline]
fn two_zeros(payload: &[u8], mut at: usize, mark_at: usize) -> Option<(usize, usize)> {
    let mut first = None;
    while at < mark_at {
        let mut here = zeros(eight(payload, at));
        while here != 0 {
            let zero = at + here.trailing_zeros() as usize / 8;
            match first {
                None => first = Some(zero),
                Some(first) => return (zero < mark_at).then_some((first, zero)),
            }
            here &= here - 1;
        }
        at += 8;
    }
    None
}
