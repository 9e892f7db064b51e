//! What a call brings, one field at a time: how it is written in a file, read again, and made simpler.

use crate::random::Random;
use lunozhar::raw::{Own, Pair};

/// A field of a call.
pub trait Field: Clone {
    /// One word without a space.
    fn text(&self) -> String;
    /// The field of a word that [`Field::text`] wrote.
    fn read(word: &str) -> Option<Self>;
    /// Takes simpler values one after the other, each if `still` holds of it.
    fn simplify(&mut self, still: &mut dyn FnMut(&Self) -> bool);
}

/// Takes `simpler` if it is another value and `still` holds of it.
pub fn attempt<T: PartialEq>(value: &mut T, simpler: T, still: &mut dyn FnMut(&T) -> bool) -> bool {
    let taken = simpler != *value && still(&simpler);
    if taken {
        *value = simpler;
    }
    taken
}

/// Simplifies the part of a whole that `get` gives.
pub fn part<W: Clone, P: Clone>(
    whole: &mut W,
    get: impl Fn(&mut W) -> &mut P,
    simplify: impl Fn(&mut P, &mut dyn FnMut(&P) -> bool),
    still: &mut dyn FnMut(&W) -> bool,
) {
    let mut other = whole.clone();
    simplify(get(whole), &mut |value| {
        get(&mut other).clone_from(value);
        still(&other)
    });
}

macro_rules! numbers {
    ($($kind:ty)*) => {$(
        impl Field for $kind {
            fn text(&self) -> String {
                self.to_string()
            }

            fn read(word: &str) -> Option<Self> {
                word.parse().ok()
            }

            fn simplify(&mut self, still: &mut dyn FnMut(&Self) -> bool) {
                let mut step = *self;
                while step > 0 {
                    let less = self.checked_sub(step);
                    if !less.map_or(false, |less| attempt(self, less, still)) {
                        step /= 2;
                    }
                }
            }
        }
    )*};
}

numbers!(u8 u16 u32 u64 usize);

impl Field for bool {
    fn text(&self) -> String {
        self.to_string()
    }

    fn read(word: &str) -> Option<Self> {
        word.parse().ok()
    }

    fn simplify(&mut self, still: &mut dyn FnMut(&Self) -> bool) {
        attempt(self, false, still);
    }
}

/// Sizes from `length` down to 1, or to a thousandth of it so that a long list takes no longer.
fn halves(length: usize) -> impl Iterator<Item = usize> {
    let least = (length / 1024).max(1);
    std::iter::successors(Some(length.max(1)), move |size| Some(size / 2).filter(|&half| half >= least))
}

/// Drops runs of items, long runs first and from the end.
pub fn drop_runs<T: Clone>(items: &mut Vec<T>, still: &mut dyn FnMut(&Vec<T>) -> bool) {
    for size in halves(items.len()) {
        let mut end = items.len();
        while end > 0 {
            let start = end.saturating_sub(size);
            let mut fewer = items.clone();
            fewer.drain(start..end);
            if still(&fewer) {
                *items = fewer;
            }
            end = start;
        }
    }
}

/// Sets runs of items to `plain`, long runs first.
pub fn plain_runs<T: Clone + PartialEq>(items: &mut [T], plain: &T, still: &mut dyn FnMut(&[T]) -> bool) {
    for size in halves(items.len()) {
        for start in (0..items.len()).step_by(size) {
            let end = items.len().min(start + size);
            if items[start..end].iter().any(|item| item != plain) {
                let mut plainer = items.to_vec();
                plainer[start..end].fill(plain.clone());
                if still(&plainer) {
                    items.clone_from_slice(&plainer);
                }
            }
        }
    }
}

fn hex(bytes: &[u8]) -> String {
    bytes.iter().map(|byte| format!("{byte:02x}")).collect()
}

fn unhex(word: &str) -> Option<Vec<u8>> {
    let digits: Vec<u8> = word.chars().map(|digit| digit.to_digit(16).map(|digit| digit as u8)).collect::<Option<_>>()?;
    (digits.len() % 2 == 0).then(|| digits.chunks(2).map(|pair| pair[0] << 4 | pair[1]).collect())
}

/// Bytes in hexadecimal, `-` for none.
impl Field for Vec<u8> {
    fn text(&self) -> String {
        if self.is_empty() {
            "-".to_string()
        } else {
            hex(self)
        }
    }

    fn read(word: &str) -> Option<Self> {
        if word == "-" {
            Some(Vec::new())
        } else {
            unhex(word)
        }
    }

    fn simplify(&mut self, still: &mut dyn FnMut(&Self) -> bool) {
        drop_runs(self, still);
        plain_runs(self, &0, &mut |bytes| still(&bytes.to_vec()));
    }
}

impl<const N: usize> Field for [u8; N] {
    fn text(&self) -> String {
        hex(self)
    }

    fn read(word: &str) -> Option<Self> {
        unhex(word)?.try_into().ok()
    }

    fn simplify(&mut self, still: &mut dyn FnMut(&Self) -> bool) {
        plain_runs(self, &0, &mut |bytes| bytes.try_into().map_or(false, |bytes| still(&bytes)));
    }
}

/// A lent area before a call: so many bytes, all zero for seed 0 and random for any other; within 1 to `top` where `top` is not 0, but for a few of
/// some seeds', and many of some others', that are far outside. Of others again most are `top`.
#[derive(Clone, Copy, Debug, PartialEq, Eq)]
pub struct Area {
    pub length: usize,
    pub seed: u64,
    pub top: u8,
}

impl Area {
    pub fn fill(&self, bytes: &mut Vec<u8>) {
        bytes.clear();
        bytes.resize(self.length, 0);
        if self.seed != 0 {
            Random::new(self.seed).fill(bytes);
            if self.top != 0 {
                let stray = [0, self.top + 1, 128, 135, 136, 250, 254, 255];
                let entry = |byte: u8| match self.seed % 16 {
                    3 | 11 if byte >= 0xF8 => stray[usize::from(byte & 7)],
                    15 if byte >= 0xC0 => stray[usize::from(byte & 7)],
                    5 | 13 if byte < 0xF0 => self.top,
                    _ => byte % self.top + 1,
                };
                bytes.iter_mut().for_each(|byte| *byte = entry(*byte));
            }
        }
    }

    pub fn bytes(&self) -> Vec<u8> {
        let mut bytes = Vec::new();
        self.fill(&mut bytes);
        bytes
    }
}

/// Length, seed and top with colons.
impl Field for Area {
    fn text(&self) -> String {
        format!("{}:{}:{}", self.length, self.seed, self.top)
    }

    fn read(word: &str) -> Option<Self> {
        let mut parts = word.split(':');
        let area = Area { length: Field::read(parts.next()?)?, seed: Field::read(parts.next()?)?, top: Field::read(parts.next()?)? };
        parts.next().is_none().then_some(area)
    }

    fn simplify(&mut self, still: &mut dyn FnMut(&Self) -> bool) {
        let given = *self;
        attempt(self, Area { seed: 0, top: 0, ..given }, still);
        attempt(self, Area { top: 0, ..*self }, still);
        let rest = *self;
        self.length.simplify(&mut |&length| still(&Area { length, ..rest }));
    }
}

/// Another area, or `own` for the case's own route area, held area or area of names.
impl<T: Field + PartialEq> Field for Option<T> {
    fn text(&self) -> String {
        self.as_ref().map_or("own".to_string(), Field::text)
    }

    fn read(word: &str) -> Option<Self> {
        if word == "own" {
            Some(None)
        } else {
            T::read(word).map(Some)
        }
    }

    fn simplify(&mut self, still: &mut dyn FnMut(&Self) -> bool) {
        attempt(self, None, still);
        if let Some(area) = self {
            area.simplify(&mut |area| still(&Some(area.clone())));
        }
    }
}

/// Port, address, files, kilobytes and whether calls are taken, with colons.
impl Field for Own {
    fn text(&self) -> String {
        format!("{}:{}:{}:{}:{}", self.port, hex(&self.address), self.files, self.kilobytes, self.calls)
    }

    fn read(word: &str) -> Option<Self> {
        let parts: Vec<&str> = word.split(':').collect();
        match parts[..] {
            [port, address, files, kilobytes, calls] => Some(Own {
                port: port.parse().ok()?,
                address: Field::read(address)?,
                files: files.parse().ok()?,
                kilobytes: kilobytes.parse().ok()?,
                calls: calls.parse().ok()?,
            }),
            _ => None,
        }
    }

    fn simplify(&mut self, still: &mut dyn FnMut(&Self) -> bool) {
        let calls = self.calls;
        attempt(self, Own { port: 0, address: [0; 4], files: 0, kilobytes: 0, calls }, still);
        attempt(self, Own { calls: false, ..*self }, still);
    }
}

/// Pairs as address and port in hexadecimal, with commas; `-` for none.
impl Field for Vec<Pair> {
    fn text(&self) -> String {
        if self.is_empty() {
            return "-".to_string();
        }
        let words: Vec<String> = self.iter().map(|pair| format!("{}:{}", hex(&pair.address), pair.port)).collect();
        words.join(",")
    }

    fn read(word: &str) -> Option<Self> {
        if word == "-" {
            return Some(Vec::new());
        }
        let pair = |word: &str| {
            let (address, port) = word.split_once(':')?;
            Some(Pair { address: Field::read(address)?, port: port.parse().ok()? })
        };
        word.split(',').map(pair).collect()
    }

    fn simplify(&mut self, still: &mut dyn FnMut(&Self) -> bool) {
        drop_runs(self, still);
        plain_runs(self, &Pair { address: [0; 4], port: 1 }, &mut |pairs| still(&pairs.to_vec()));
    }
}

#[cfg(test)]
mod tests {
    use super::*;

    #[test]
    fn numbers_come_down_to_the_limit() {
        let mut number = 1_000_000u32;
        let mut tries = 0;
        number.simplify(&mut |&number| {
            tries += 1;
            number >= 777
        });
        assert_eq!(number, 777);
        assert!(tries < 100);
    }

    #[test]
    fn bytes_come_down_to_what_counts() {
        let mut bytes: Vec<u8> = (0..=255).collect();
        bytes.simplify(&mut |bytes| bytes.contains(&77) && bytes.len() >= 5);
        assert_eq!(bytes.len(), 5);
        assert_eq!(bytes.iter().filter(|&&byte| byte != 0).collect::<Vec<_>>(), [&77]);
    }

    #[test]
    fn words_are_read_again() {
        let area = Area { length: 33, seed: 5, top: 8 };
        assert_eq!(Area::read(&area.text()), Some(area));
        assert!(area.bytes().iter().all(|byte| (1..=8).contains(byte)));
        assert_eq!(Option::<Area>::read("own"), Some(None));
        let own = Own { port: 6346, address: [127, 0, 0, 1], files: 3, kilobytes: 4, calls: true };
        assert_eq!(Own::read(&own.text()), Some(own));
        let pairs = vec![Pair { address: [1, 2, 3, 4], port: 5 }, Pair { address: [0; 4], port: 0 }];
        assert_eq!(Vec::<Pair>::read(&pairs.text()), Some(pairs));
        assert_eq!(Vec::<u8>::read("0g"), None);
        assert_eq!(Vec::<u8>::read("012"), None);
        assert_eq!(Vec::<u8>::read("-"), Some(Vec::new()));
        assert_eq!(<[u8; 2]>::read("0aff"), Some([10, 255]));
    }
}
