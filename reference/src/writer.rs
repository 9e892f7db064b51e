//! The table writer: the updates that bring a neighbour from an old table, or from none, to a new one.

use crate::header;
use crate::table::{infinity_allowed, length_allowed, PATCH_BYTES, RESET_BYTES};

/// The largest data size of a PATCH.
pub const DATA: usize = header::PAYLOAD - PATCH_BYTES;

/// A table to be written, or that was written before: its entries and its Infinity.
#[derive(Clone, Copy, Debug)]
pub struct Entries<'a> {
    pub entries: &'a [u8],
    pub infinity: u8,
}

impl Entries<'_> {
    fn allowed(&self) -> bool {
        u32::try_from(self.entries.len()).map_or(false, length_allowed)
            && infinity_allowed(self.infinity)
            && self.entries.iter().fold(true, |all, &entry| all & (entry >= 1) & (entry <= self.infinity))
    }
}

/// What a writer did: the answer, and how many bytes it wrote from the area's first.
#[derive(Clone, Copy, Debug, PartialEq, Eq)]
pub struct Written {
    pub answer: u8,
    pub written: usize,
}

/// Writes the messages: a RESET if there is no old table, then a run of PATCH messages with `size` bytes of data in all but the last.
/// Answers 0, 14 or 2; a refusal writes nothing.
pub fn write_table(old: Option<Entries>, new: Entries, number: &[u8; 16], size: usize, out: &mut [u8]) -> Written {
    let refused = |answer| Written { answer, written: 0 };
    if !new.allowed() || !(1..=DATA).contains(&size) {
        return refused(14);
    }
    if let Some(old) = old {
        if !old.allowed() || old.entries.len() != new.entries.len() || old.infinity != new.infinity {
            return refused(14);
        }
    }
    let bits = if narrow(old, new) { 4 } else { 8 };
    let data = new.entries.len() * bits / 8;
    let run = (data + size - 1) / size;
    if run > 255 {
        return refused(14);
    }
    let reset = if old.is_none() { header::BYTES + RESET_BYTES } else { 0 };
    let total = reset + run * (header::BYTES + PATCH_BYTES) + data;
    if out.len() < total {
        return refused(2);
    }
    if old.is_none() {
        header::write(out, number, header::UPDATE, 1, 0, RESET_BYTES);
        let payload = &mut out[header::BYTES..reset];
        payload[0] = 0;
        payload[1..5].copy_from_slice(&(new.entries.len() as u32).to_le_bytes());
        payload[5] = new.infinity;
    }
    let mut rest = &mut out[reset..total];
    let mut from = 0;
    for place in 1..=run {
        let bytes = size.min(data - from * bits / 8);
        let (message, after) = rest.split_at_mut(header::BYTES + PATCH_BYTES + bytes);
        header::write(message, number, header::UPDATE, 1, 0, PATCH_BYTES + bytes);
        let payload = &mut message[header::BYTES..];
        payload[..PATCH_BYTES].copy_from_slice(&[1, place as u8, run as u8, 0, bits as u8]);
        let to = from + bytes * 8 / bits;
        let base = old.map(|old| &old.entries[from..to]);
        differences(base, &new.entries[from..to], new.infinity, bits, &mut payload[PATCH_BYTES..]);
        from = to;
        rest = after;
    }
    Written { answer: 0, written: total }
}

/// Whether every difference is within -8 to 7.
fn narrow(old: Option<Entries>, new: Entries) -> bool {
    let within = |new: u8, old: u8| {
        let difference = i16::from(new) - i16::from(old);
        (-8..=7).contains(&difference)
    };
    match old {
        Some(old) => new.entries.iter().zip(old.entries).fold(true, |all, (&new, &old)| all & within(new, old)),
        None => new.entries.iter().fold(true, |all, &entry| all & within(entry, new.infinity)),
    }
}

/// Writes the differences of `new` to `old`, or to Infinity where there is no old table, as the data of one PATCH.
fn differences(old: Option<&[u8]>, new: &[u8], infinity: u8, bits: usize, data: &mut [u8]) {
    let pack = |high: u8, low: u8| high << 4 | (low & 15);
    match (old, bits) {
        (Some(old), 4) => {
            for (byte, (new, old)) in data.iter_mut().zip(new.chunks_exact(2).zip(old.chunks_exact(2))) {
                *byte = pack(new[0].wrapping_sub(old[0]), new[1].wrapping_sub(old[1]));
            }
        }
        (None, 4) => {
            for (byte, new) in data.iter_mut().zip(new.chunks_exact(2)) {
                *byte = pack(new[0].wrapping_sub(infinity), new[1].wrapping_sub(infinity));
            }
        }
        (Some(old), _) => {
            for (byte, (new, old)) in data.iter_mut().zip(new.iter().zip(old)) {
                *byte = new.wrapping_sub(*old);
            }
        }
        (None, _) => {
            for (byte, new) in data.iter_mut().zip(new) {
                *byte = new.wrapping_sub(infinity);
            }
        }
    }
}

#[cfg(test)]
mod tests {
    use super::*;
    use crate::table::{Table, SETTLED};

    const NUMBER: [u8; 16] = [9; 16];

    fn entries(entries: &[u8], infinity: u8) -> Entries<'_> {
        Entries { entries, infinity }
    }

    /// Writes, reads the bytes back from the old table, and compares.
    fn round_trip(old: Option<Entries>, new: Entries, size: usize) -> Vec<u8> {
        let mut out = vec![0xAA; 200_000];
        let done = write_table(old, new, &NUMBER, size, &mut out);
        assert_eq!(done.answer, 0);
        assert!(out[done.written..].iter().all(|&byte| byte == 0xAA));
        let mut part = vec![0; new.entries.len()];
        let mut table = Table::EMPTY;
        if let Some(old) = old {
            part.copy_from_slice(old.entries);
            let length = old.entries.len() as u32;
            table = Table { mark: SETTLED, length, infinity: old.infinity, place: 1, size: 0, bits: 0, at: 0 };
        }
        let mut bytes = &out[..done.written];
        while !bytes.is_empty() {
            assert_eq!((&bytes[..16], bytes[16]), (&NUMBER[..], header::UPDATE));
            let length = u32::from_le_bytes([bytes[19], bytes[20], bytes[21], bytes[22]]) as usize;
            assert_eq!(table.update(&mut part, bytes[17], bytes[18], &bytes[23..23 + length]), 0);
            bytes = &bytes[23 + length..];
        }
        assert_eq!((table.mark, part.as_slice(), table.infinity), (SETTLED, new.entries, new.infinity));
        out.truncate(done.written);
        out
    }

    #[test]
    fn fresh_table() {
        let mut expected = NUMBER.to_vec();
        expected.extend([0x30, 1, 0, 6, 0, 0, 0, 0, 4, 0, 0, 0, 8]);
        expected.extend(NUMBER);
        expected.extend([0x30, 1, 0, 7, 0, 0, 0, 1, 1, 1, 0, 4, 0x09, 0x09]);
        assert_eq!(round_trip(None, entries(&[8, 1, 8, 1], 8), 4091), expected);
    }

    #[test]
    fn round_trips() {
        let mut seed = 1u32;
        let mut random = |infinity: u8| {
            seed = seed.wrapping_mul(1_664_525).wrapping_add(1_013_904_223);
            (seed >> 16) as u8 % infinity + 1
        };
        for (length, infinity) in [(4, 2), (8, 8), (64, 9), (256, 127), (1024, 8)] {
            let one: Vec<u8> = (0..length).map(|_| random(infinity)).collect();
            let two: Vec<u8> = (0..length).map(|_| random(infinity)).collect();
            for size in [5, 7, 64, 4091] {
                round_trip(None, entries(&one, infinity), size);
                round_trip(Some(entries(&one, infinity)), entries(&two, infinity), size);
                round_trip(Some(entries(&one, infinity)), entries(&one, infinity), size);
            }
        }
    }

    #[test]
    fn bits() {
        let old = entries(&[1, 9, 1, 1], 20);
        assert_eq!(round_trip(Some(old), entries(&[8, 1, 1, 1], 20), 2)[23..28], [1, 1, 1, 0, 4]);
        assert_eq!(round_trip(Some(old), entries(&[9, 1, 1, 1], 20), 2)[23..28], [1, 1, 2, 0, 8]);
    }

    /// C78: 14 before 2, and no run of 256.
    #[test]
    fn limits() {
        let answer = |old, new, size, room: usize| {
            let mut out = vec![3; room];
            let done = write_table(old, new, &NUMBER, size, &mut out);
            assert!(done.answer == 0 || (done.written == 0 && out.iter().all(|&byte| byte == 3)));
            done.answer
        };
        let good = entries(&[8, 1, 8, 1], 8);
        assert_eq!(answer(None, good, 4091, 59), 0);
        assert_eq!(answer(None, good, 4091, 58), 2);
        assert_eq!(answer(None, entries(&[0, 1, 8, 1], 8), 4091, 0), 14);
        assert_eq!(answer(None, good, 0, 0), 14);
        assert_eq!(answer(None, good, 4092, 0), 14);
        assert_eq!(answer(Some(entries(&[9, 1, 1, 1], 8)), good, 9, 0), 14);
        assert_eq!(answer(Some(entries(&[8, 1, 8, 1], 9)), good, 9, 400), 14);
        assert_eq!(answer(Some(entries(&[8; 8], 8)), good, 9, 400), 14);
        assert_eq!(answer(None, entries(&[1; 6], 8), 9, 400), 14);
        assert_eq!(answer(None, entries(&[], 8), 9, 400), 14);
        let long = vec![1; 65_536];
        assert_eq!(answer(None, entries(&long, 127), 257, 131_072), 14);
        assert_eq!(answer(None, entries(&long, 127), 258, 131_072), 0);
        assert_eq!(round_trip(None, entries(&long, 127), 258)[29 + 23..][..5], [1, 1, 255, 0, 8]);
    }
}
