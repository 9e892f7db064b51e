//! Route tables: the updates RESET and PATCH, and whether a table withholds a query.
//!
//! A table's entries stand in a part of bytes that the caller lends, one byte an entry, from the part's first byte. The part's length is the
//! room for the table. [`Table`] holds all the rest: mark, length, Infinity and the position in a run of PATCH messages.

use crate::hash;
use crate::keywords::keywords;

/// No RESET has come since the line was opened.
pub const NONE: u8 = 0;
/// A RESET has come and no PATCH since.
pub const WAITING: u8 = 1;
/// A run of PATCH messages has begun and is not at its end.
pub const RUNNING: u8 = 2;
/// A run is at its end; only such a table withholds anything.
pub const SETTLED: u8 = 3;
/// An update was refused; only a RESET helps.
pub const BROKEN: u8 = 4;

/// Payload bytes of a RESET.
pub const RESET_BYTES: usize = 6;
/// Payload bytes of a PATCH before its data.
pub const PATCH_BYTES: usize = 5;

/// What is known of a table besides its entries.
#[derive(Clone, Copy, Debug, PartialEq, Eq)]
pub struct Table {
    /// One of [`NONE`], [`WAITING`], [`RUNNING`], [`SETTLED`], [`BROKEN`].
    pub mark: u8,
    /// Entries in the table.
    pub length: u32,
    /// The entry that means "nothing to be reached".
    pub infinity: u8,
    /// The place in the run that the next PATCH must have.
    pub place: u8,
    /// The size of the run, 0 outside a run.
    pub size: u8,
    /// The bits of each number in the run, 0 outside a run.
    pub bits: u8,
    /// The entry that the next number is added to.
    pub at: u32,
}

/// Whether a RESET may carry this length: a power of two from 4 to 65,536.
pub fn length_allowed(length: u32) -> bool {
    (4..=65_536).contains(&length) && length.is_power_of_two()
}

/// Whether a RESET may carry this Infinity: 2 to 127.
pub fn infinity_allowed(infinity: u8) -> bool {
    (2..=127).contains(&infinity)
}

impl Table {
    /// No table: what a line starts with.
    pub const EMPTY: Table = Table { mark: NONE, length: 0, infinity: 0, place: 0, size: 0, bits: 0, at: 0 };

    /// Takes one update that arrived with this TTL, these Hops and this payload. Gives 0, 14, 15 or 16. On 0 the update is done; otherwise
    /// the mark becomes broken and nothing else changes. A table that is waiting, running or settled has a length within the part's.
    pub fn update(&mut self, part: &mut [u8], ttl: u8, hops: u8, payload: &[u8]) -> u8 {
        let answer = self.try_update(part, ttl, hops, payload);
        if answer != 0 {
            self.mark = BROKEN;
        }
        answer
    }

    fn try_update(&mut self, part: &mut [u8], ttl: u8, hops: u8, payload: &[u8]) -> u8 {
        if ttl != 1 || hops != 0 {
            return 14;
        }
        match payload.first() {
            Some(0) => self.reset(part, payload),
            Some(1) => self.patch(part, payload),
            _ => 14,
        }
    }

    fn reset(&mut self, part: &mut [u8], payload: &[u8]) -> u8 {
        if payload.len() != RESET_BYTES {
            return 14;
        }
        let length = u32::from_le_bytes([payload[1], payload[2], payload[3], payload[4]]);
        let infinity = payload[5];
        if !length_allowed(length) || length as usize > part.len() || !infinity_allowed(infinity) {
            return 14;
        }
        part[..length as usize].fill(infinity);
        *self = Table { mark: WAITING, length, infinity, place: 1, size: 0, bits: 0, at: 0 };
        0
    }

    fn patch(&mut self, part: &mut [u8], payload: &[u8]) -> u8 {
        if payload.len() < PATCH_BYTES {
            return 14;
        }
        let (place, size, compressor, bits) = (payload[1], payload[2], payload[3], payload[4]);
        let data = &payload[PATCH_BYTES..];
        if place == 0 || place > size || compressor != 0 || (bits != 4 && bits != 8) {
            return 14;
        }
        let numbers = if bits == 4 { data.len() * 2 } else { data.len() };
        let (at, length) = (self.at as usize, self.length as usize);
        let end = at + numbers;
        let out_of_turn = match self.mark {
            WAITING | SETTLED => place != 1,
            RUNNING => place != self.place || size != self.size || bits != self.bits,
            _ => true,
        };
        if out_of_turn || end > length || (place == size && end < length) {
            return 15;
        }
        let entries = &mut part[at..end];
        let within = if bits == 4 { apply4(entries, data, self.infinity) } else { apply8(entries, data, self.infinity) };
        if !within {
            if bits == 4 {
                undo4(entries, data);
            } else {
                undo8(entries, data);
            }
            return 16;
        }
        if place == size {
            *self = Table { mark: SETTLED, place: 1, size: 0, bits: 0, at: 0, ..*self };
        } else {
            *self = Table { mark: RUNNING, place: place + 1, size, bits, at: end as u32, ..*self };
        }
        0
    }

    /// Whether the table withholds a query with this text that would be sent with this TTL: it is settled, and the entry of some keyword
    /// is Infinity or more than the TTL.
    pub fn withholds(&self, part: &[u8], ttl: u8, text: &[u8]) -> bool {
        self.mark == SETTLED && self.length != 0 && keywords(text).any(|keyword| self.stops(part, ttl, hash::product(keyword.bytes)))
    }

    /// Whether a keyword with this product is stopped: its entry is Infinity or more than the TTL. The table is not empty.
    #[inline]
    pub fn stops(&self, part: &[u8], ttl: u8, product: u32) -> bool {
        let entry = part[hash::top(product, 31 - self.length.leading_zeros()) as usize];
        entry == self.infinity || entry > ttl
    }
}

// A PATCH is applied at once, each sum modulo 256, while the least and the greatest sum are noted. If one of these is outside of 1..Infinity
// it is undone: what was added modulo 256 can be taken away again, whatever the entries were.

/// The two numbers of a byte at 4 bits, each 8 too high, which makes them 0 to 15. The first four bits come first.
#[inline]
fn raised(byte: u8) -> [u8; 2] {
    [byte >> 4 ^ 8, byte & 15 ^ 8]
}

/// Adds numbers of 4 bits, two to a byte, and says whether all sums are within 1..Infinity. The sums are noted 8 too high, as the numbers are; one
/// that is over 255 is noted as that, which is outside as well.
fn apply4(entries: &mut [u8], data: &[u8], infinity: u8) -> bool {
    let (mut least, mut greatest) = (u8::MAX, 0);
    for (pair, &byte) in entries.chunks_exact_mut(2).zip(data) {
        for (entry, number) in pair.iter_mut().zip(raised(byte)) {
            let sum = entry.saturating_add(number);
            least = least.min(sum);
            greatest = greatest.max(sum);
            *entry = entry.wrapping_add(number).wrapping_sub(8);
        }
    }
    data.is_empty() || (least >= 8 + 1 && greatest <= 8 + infinity)
}

fn undo4(entries: &mut [u8], data: &[u8]) {
    for (entry, number) in entries.iter_mut().zip(data.iter().flat_map(|&byte| raised(byte))) {
        *entry = entry.wrapping_sub(number).wrapping_add(8);
    }
}

/// Adds numbers of 8 bits, each a byte, and says whether all sums are within 1..Infinity.
fn apply8(entries: &mut [u8], data: &[u8], infinity: u8) -> bool {
    let (mut least, mut greatest) = (i16::MAX, i16::MIN);
    for (entry, &byte) in entries.iter_mut().zip(data) {
        let sum = i16::from(*entry) + i16::from(byte as i8);
        least = least.min(sum);
        greatest = greatest.max(sum);
        *entry = sum as u8;
    }
    least >= 1 && greatest <= i16::from(infinity)
}

fn undo8(entries: &mut [u8], data: &[u8]) {
    for (entry, &byte) in entries.iter_mut().zip(data) {
        *entry = entry.wrapping_sub(byte);
    }
}

#[cfg(test)]
mod tests {
    use super::*;

    const P1: &[u8] = &[0, 4, 0, 0, 0, 8];
    const P2: &[u8] = &[1, 1, 1, 0, 4, 9, 9];
    const P3: &[u8] = &[1, 1, 1, 0, 8, 0, 0xF9, 0, 0xF9];
    const P4: &[u8] = &[1, 1, 1, 0, 4, 0x10, 0];

    /// A table after these payloads on a part of eight sevens, and what each was answered.
    fn after(payloads: &[&[u8]]) -> (Table, [u8; 8], Vec<u8>) {
        let (mut table, mut part) = (Table::EMPTY, [7u8; 8]);
        let answers = payloads.iter().map(|payload| table.update(&mut part, 1, 0, payload)).collect();
        (table, part, answers)
    }

    fn waiting(length: u32, infinity: u8) -> Table {
        Table { mark: WAITING, length, infinity, place: 1, size: 0, bits: 0, at: 0 }
    }

    #[test]
    fn p1_to_p4() {
        let (table, part, answers) = after(&[P1]);
        assert_eq!((table, part, answers), (waiting(4, 8), [8, 8, 8, 8, 7, 7, 7, 7], vec![0]));
        for patch in [P2, P3] {
            let (table, part, answers) = after(&[P1, patch]);
            assert_eq!(table, Table { mark: SETTLED, ..waiting(4, 8) });
            assert_eq!((part, answers), ([8, 1, 8, 1, 7, 7, 7, 7], vec![0, 0]));
        }
        let (table, part, answers) = after(&[P1, P4]);
        assert_eq!(table, Table { mark: BROKEN, ..waiting(4, 8) });
        assert_eq!((part, answers), ([8, 8, 8, 8, 7, 7, 7, 7], vec![0, 16]));
    }

    /// C58: a refused PATCH leaves every entry, those before the bad number too.
    #[test]
    fn refused_patch_is_not_half_applied() {
        let (table, part, answers) = after(&[P1, &[1, 1, 1, 0, 4, 0x91, 0]]);
        assert_eq!((table.mark, part, answers), (BROKEN, [8, 8, 8, 8, 7, 7, 7, 7], vec![0, 16]));
        let (_, part, answers) = after(&[P1, &[1, 1, 1, 0, 8, 0xF9, 0xF8, 0, 0]]);
        assert_eq!((part, answers), ([8, 8, 8, 8, 7, 7, 7, 7], vec![0, 16]));
    }

    /// C59: entries left over are 15, and come before 16.
    #[test]
    fn left_over_before_outside() {
        assert_eq!(after(&[P1, &[1, 1, 1, 0, 4, 0x10]]).2, [0, 15]);
        assert_eq!(after(&[P1, &[1, 1, 1, 0, 4, 0x10, 0, 0]]).2, [0, 15]);
    }

    /// C60: high four bits first, numbers with a sign.
    #[test]
    fn numbers_of_a_byte() {
        let numbers = |byte| raised(byte).map(|number| number as i8 - 8);
        assert_eq!([0x09, 0x78, 0x8F].map(numbers), [[0, -7], [7, -8], [-8, -1]]);
        let (_, part, answers) = after(&[&[0, 4, 0, 0, 0, 127], &[1, 1, 1, 0, 8, 0x82, 0xFF, 0, 0xFF]]);
        assert_eq!((part, answers), ([1, 126, 127, 126, 7, 7, 7, 7], vec![0, 0]));
    }

    /// Every number on every entry, at 4 and at 8 bits: the sum if it is within 1..Infinity, else 16 and every entry as it was.
    #[test]
    fn every_number_on_every_entry() {
        for (bits, numbers) in [(4, -8..=7i16), (8, -128..=127)] {
            for infinity in [2, 8, 127] {
                for (entry, number) in (0..=255u8).flat_map(|entry| numbers.clone().map(move |number| (entry, number))) {
                    for place in 0..4 {
                        let mut part = [1; 4];
                        part[place] = entry;
                        let mut data = [0; 4];
                        data[place] = number as u8;
                        let mut payload = vec![1, 1, 1, 0, bits];
                        match bits {
                            4 => payload.extend(data.chunks(2).map(|two| two[0] << 4 | (two[1] & 15))),
                            _ => payload.extend(data),
                        }
                        let (mut table, mut patched) = (waiting(4, infinity), part);
                        let sum = i16::from(entry) + number;
                        let answer = table.update(&mut patched, 1, 0, &payload);
                        if (1..=i16::from(infinity)).contains(&sum) {
                            part[place] = sum as u8;
                            assert_eq!((answer, patched), (0, part), "{number} on {entry}");
                        } else {
                            assert_eq!((answer, patched), (16, part), "{number} on {entry}");
                        }
                    }
                }
            }
        }
    }

    /// A long PATCH that leads outside at its first, a middle or its last number leaves every entry.
    #[test]
    fn a_long_patch_is_undone() {
        for bits in [4u8, 8] {
            for bad in [0, 1, 500, 1022, 1023] {
                let entries: Vec<u8> = (0..1024).map(|entry| 2 + (entry * 37 % 90) as u8).collect();
                let mut data = vec![if bits == 4 { 0x1F } else { 0xFF }; 1024 * usize::from(bits) / 8];
                let mut part = entries.clone();
                part[bad] = if bad % 2 == 0 { 100 } else { 1 };
                if bits == 8 && bad % 2 == 0 {
                    data[bad] = 1;
                }
                let before = part.clone();
                let mut table = waiting(1024, 100);
                let payload = [&[1, 1, 1, 0, bits][..], &data].concat();
                assert_eq!((table.update(&mut part, 1, 0, &payload), table.mark), (16, BROKEN), "{bits} bits, entry {bad}");
                assert_eq!(part, before);
            }
        }
    }

    /// C61: TTL and Hops of an update.
    #[test]
    fn ttl_1_and_hops_0() {
        for (ttl, hops) in [(0, 0), (2, 0), (1, 1), (7, 255)] {
            for payload in [P1, P2] {
                let (mut table, mut part, _) = after(&[P1]);
                assert_eq!(table.update(&mut part, ttl, hops, payload), 14);
                assert_eq!(table, Table { mark: BROKEN, ..waiting(4, 8) });
                assert_eq!(part, [8, 8, 8, 8, 7, 7, 7, 7]);
            }
        }
    }

    /// C62: the limits of a RESET; no clipping to the room.
    #[test]
    fn reset_limits() {
        let cases: [(&[u8], u8); 13] = [
            (&[0, 8, 0, 0, 0, 8], 0),
            (&[0, 16, 0, 0, 0, 8], 14),
            (&[0, 2, 0, 0, 0, 8], 14),
            (&[0, 3, 0, 0, 0, 8], 14),
            (&[0, 6, 0, 0, 0, 8], 14),
            (&[0, 0, 0, 0, 0, 8], 14),
            (&[0, 4, 0, 0, 1, 8], 14),
            (&[0, 4, 0, 0, 0, 1], 14),
            (&[0, 4, 0, 0, 0, 2], 0),
            (&[0, 4, 0, 0, 0, 127], 0),
            (&[0, 4, 0, 0, 0, 128], 14),
            (&[0, 4, 0, 0, 0], 14),
            (&[0, 4, 0, 0, 0, 8, 0], 14),
        ];
        for (payload, expected) in cases {
            let (table, part, answers) = after(&[payload]);
            assert_eq!(answers, [expected], "{payload:?}");
            if expected != 0 {
                assert_eq!((table, part), (Table { mark: BROKEN, ..Table::EMPTY }, [7; 8]));
            }
        }
        let mut part = vec![0; 131_072];
        assert_eq!(Table::EMPTY.clone().update(&mut part, 1, 0, &[0, 0, 0, 1, 0, 8]), 0);
        assert_eq!(Table::EMPTY.clone().update(&mut part, 1, 0, &[0, 0, 0, 2, 0, 8]), 14);
    }

    /// C63, C65: fields of a PATCH before its turn.
    #[test]
    fn fields_before_turn() {
        assert_eq!(after(&[P2]).2, [15]);
        let bad: [&[u8]; 8] = [
            &[1, 1, 1, 1, 4, 9, 9],
            &[1, 2, 1, 0, 4, 9, 9],
            &[1, 0, 1, 0, 4, 9, 9],
            &[1, 1, 0, 0, 4],
            &[1, 1, 1, 0, 5, 9, 9],
            &[1, 1, 1, 0],
            &[2],
            &[],
        ];
        for payload in bad {
            assert_eq!(after(&[payload]).2, [14], "{payload:?}");
            assert_eq!(after(&[P1, payload]).2, [0, 14], "{payload:?}");
        }
    }

    /// C64: a PATCH without data.
    #[test]
    fn empty_data() {
        let first: &[u8] = &[1, 1, 2, 0, 4, 9, 9];
        let (table, _, _) = after(&[P1, first]);
        assert_eq!(table, Table { mark: RUNNING, length: 4, infinity: 8, place: 2, size: 2, bits: 4, at: 4 });
        let (table, part, answers) = after(&[P1, first, &[1, 2, 2, 0, 4]]);
        assert_eq!(table, Table { mark: SETTLED, ..waiting(4, 8) });
        assert_eq!((part, answers), ([8, 1, 8, 1, 7, 7, 7, 7], vec![0, 0, 0]));
        assert_eq!(after(&[P1, &[1, 1, 2, 0, 4], &[1, 2, 2, 0, 4, 9, 9]]).2, [0, 0, 0]);
    }

    /// C66: inside a run, place 1 again is out of turn, a RESET is taken. Size and bits stay those of the run's first.
    #[test]
    fn inside_a_run() {
        let first: &[u8] = &[1, 1, 2, 0, 4, 9, 9];
        let bad: [&[u8]; 4] = [&[1, 1, 2, 0, 4], &[1, 1, 1, 0, 4, 9, 9], &[1, 2, 3, 0, 4], &[1, 2, 2, 0, 8]];
        for payload in bad {
            let (table, part, answers) = after(&[P1, first, payload]);
            assert_eq!(table, Table { mark: BROKEN, length: 4, infinity: 8, place: 2, size: 2, bits: 4, at: 4 });
            assert_eq!((part, answers), ([8, 1, 8, 1, 7, 7, 7, 7], vec![0, 0, 15]));
        }
        let (table, part, answers) = after(&[P1, first, &[0, 4, 0, 0, 0, 2]]);
        assert_eq!((table, part, answers), (waiting(4, 2), [2, 2, 2, 2, 7, 7, 7, 7], vec![0, 0, 0]));
    }

    /// C67, C68: a broken table waits for a RESET; a later run adds to what stands.
    #[test]
    fn broken_and_second_run() {
        assert_eq!(after(&[P1, P4, &[1, 1, 1, 0, 4, 0, 0]]).2, [0, 16, 15]);
        assert_eq!(after(&[P1, P4, P1, P2]).2, [0, 16, 0, 0]);
        let (_, part, answers) = after(&[P1, P2, &[1, 1, 1, 0, 4, 0x07, 0]]);
        assert_eq!((part, answers), ([8, 8, 8, 1, 7, 7, 7, 7], vec![0, 0, 0]));
        assert_eq!(after(&[P1, P2, P2]).2, [0, 0, 16]);
    }

    /// C35, C36: the entry against the TTL to be sent; Infinity means none.
    #[test]
    fn withholding() {
        let (table, part, _) = after(&[P1, P2]);
        assert!(!table.withholds(&part, 2, b"eb ebckl"));
        assert!(!table.withholds(&part, 1, b"eb"));
        assert!(table.withholds(&part, 0, b"eb"));
        assert!(table.withholds(&part, 2, b"ebcklmen"));
        assert!(table.withholds(&part, 2, b"eb ebcklmen"));
        assert!(!table.withholds(&part, 0, b""));
        assert!(!table.withholds(&part, 0, b"   "));
        let (table, part, answers) = after(&[&[0, 4, 0, 0, 0, 2], &[1, 1, 1, 0, 8, 0, 0, 0, 0]]);
        assert_eq!(answers, [0, 0]);
        assert!(table.withholds(&part, 6, b"eb"));
        let (table, part, _) = after(&[P1, &[1, 1, 1, 0, 8, 0xFB, 0xFB, 0xFB, 0xFB]]);
        assert!(table.withholds(&part, 2, b"eb"));
        assert!(!table.withholds(&part, 3, b"eb"));
        let quiet: [&[&[u8]]; 4] = [&[], &[P1], &[P1, &[1, 1, 2, 0, 4]], &[P1, P2, P4]];
        for payloads in quiet {
            let (table, part, _) = after(payloads);
            assert!(!table.withholds(&part, 0, b"eb ebckl ebcklmen"));
        }
    }
}
