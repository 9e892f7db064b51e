//! The remembered queries, and the test that a state is in order.
//!
//! Every call files the kept places in an index, by the numbers that are kept at them: a table of chains, made anew on the stack from the state's
//! fields alone. A number is then held against those of its own chain only, both to see that none is kept twice and to look one up.

use super::{kept, Line, Remembered, State, GONE, HITS, LINES, MEMORY};
use std::ops::Range;

/// Chains of an index: eight for each place, so that of random numbers nearly all are alone in theirs.
const CHAINS: usize = 8 * MEMORY;
/// A link with this bit leads to the place that its lower bits say; the last link of a chain is 0.
const LINK: u16 = 0x8000;

/// The kept places in chains, each from its newest place to its oldest.
pub(super) struct Index {
    /// For each chain the link to its newest place.
    newest: [u16; CHAINS],
    /// For each place the link to the next older one of its chain.
    older: [u16; MEMORY],
}

impl Index {
    #[inline]
    pub(super) fn new() -> Index {
        Index { newest: [0; CHAINS], older: [0; MEMORY] }
    }
}

/// The chain of a number: the upper bits of a product in which all sixteen bytes have a part.
#[inline]
pub(super) fn chain(number: &[u8; 16]) -> usize {
    let number = u128::from_le_bytes(*number);
    let halves = number as u64 ^ (number >> 64) as u64;
    (halves.wrapping_mul(0x9E37_79B9_7F4A_7C15) >> (64 - CHAINS.trailing_zeros())) as usize
}

/// How many bytes are of this range. They are summed up in bytes, few enough at a time for a byte.
#[inline(never)]
fn count_within(bytes: &[u8], range: Range<u8>) -> usize {
    let count = |some: &[u8]| some.iter().fold(0, |count: u8, byte| count + u8::from(range.contains(byte)));
    bytes.chunks(128).map(|some| usize::from(count(some))).sum()
}

/// Whether each asker is an open line, here or gone: the marks from one closed line to the next are counted, and these must be all.
fn all_known(askers: &[u8], lines: &[Line; LINES]) -> bool {
    let (mut known, mut from) = (0, 0);
    for (line, mark) in lines.iter().zip(0..) {
        if !line.open {
            known += count_within(askers, from..mark);
            from = mark + 1;
        }
    }
    known + count_within(askers, from..GONE + 1) == askers.len()
}

/// Whether no query has more than [`HITS`] hits: those that have not are counted, and these must be all.
fn all_within(hits: &[u8]) -> bool {
    count_within(hits, 0..HITS + 1) == hits.len()
}

impl State {
    /// Whether the state is in order.
    pub fn in_order(&self) -> bool {
        self.in_order_filed(&mut Index::new())
    }

    /// Whether the state is in order; if so, the kept places are filed in the index, which is handed in empty.
    pub(super) fn in_order_filed(&self, index: &mut Index) -> bool {
        let (count, next) = (usize::from(self.count), usize::from(self.next));
        let ring = count <= MEMORY && next < MEMORY;
        if !ring || !self.lines.iter().all(|line| line.in_order(self.room)) {
            return false;
        }
        let places = kept(count, next, MEMORY);
        places.iter().all(|places| all_known(&self.askers[places.clone()], &self.lines))
            && places.iter().all(|places| all_within(&self.hits[places.clone()]))
            && self.file(places, index)
    }

    /// Files the kept places, the oldest first, and says whether no number is kept twice.
    ///
    /// A place is put at the head of its chain whatever is there. Only then are those that found a place there, 30 of 512 if the numbers are
    /// random, held against the rest of their chains. If numbers were chosen to have the same chain it takes longer, but there are fewer
    /// comparisons than half the square of the kept places.
    fn file(&self, places: [Range<usize>; 2], index: &mut Index) -> bool {
        let (mut behind, mut count) = ([0u16; MEMORY], 0);
        for places in places {
            for from in places.clone().step_by(64) {
                let end = places.end.min(from + 64);
                let mut found = self.file_some(from..end, index);
                while found != 0 {
                    behind[count] = end as u16 - 1 - found.trailing_zeros() as u16;
                    count += 1;
                    found &= found - 1;
                }
            }
        }
        behind[..count]
            .iter()
            .map(|&place| usize::from(place) % MEMORY)
            .all(|place| self.in_chain(index, index.older[place], &self.numbers[place]).is_none())
    }

    /// Files at most 64 places. The bits of the outcome, the lowest for the last place, say which of them found a place in their chain.
    #[inline]
    fn file_some(&self, places: Range<usize>, index: &mut Index) -> u64 {
        let (mut found, mut link) = (0, LINK + places.start as u16);
        for (number, older) in self.numbers[places.clone()].iter().zip(&mut index.older[places]) {
            let newest = &mut index.newest[chain(number)];
            *older = *newest;
            found = found << 1 | u64::from(*newest / LINK);
            *newest = link;
            link += 1;
        }
        found
    }

    /// The place of a number in a chain, from a link on.
    #[inline]
    fn in_chain(&self, index: &Index, link: u16, number: &[u8; 16]) -> Option<usize> {
        let mut link = link;
        while link != 0 {
            let place = usize::from(link) % MEMORY;
            if self.numbers[place] == *number {
                return Some(place);
            }
            link = index.older[place];
        }
        None
    }

    /// The kept place of a number. The kept places are filed.
    #[inline]
    pub(super) fn place_of(&self, index: &Index, number: &[u8; 16]) -> Option<usize> {
        self.in_chain(index, index.newest[chain(number)], number)
    }

    /// The query that is remembered at a kept place.
    ///
    /// Its age is how far its place is behind the newest one's, going round.
    #[inline]
    pub(super) fn remembered(&self, place: usize) -> Remembered {
        let after = (usize::from(self.next) + MEMORY - 1 - place) % MEMORY;
        Remembered { asker: self.askers[place], after }
    }

    /// The remembered query of a number. The kept places are filed.
    #[inline]
    pub(super) fn find(&self, index: &Index, number: &[u8; 16]) -> Option<Remembered> {
        self.place_of(index, number).map(|place| self.remembered(place))
    }

    /// Remembers a query, of which no hit has come; the oldest of 512 makes way.
    pub(super) fn remember(&mut self, number: &[u8; 16], asker: u8) {
        let place = usize::from(self.next);
        self.numbers[place] = *number;
        self.askers[place] = asker;
        self.hits[place] = 0;
        self.next = (self.next + 1) % MEMORY as u16;
        self.count = (self.count + 1).min(MEMORY as u16);
    }
}
