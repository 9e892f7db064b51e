//! What calls on an area of names leave: the same names on both sides, wherever their texts lie, and what the call says.

use crate::call::Call;
use crate::compare::{self, Difference};
use crate::listing::names_in;
use crate::side::Outcome;

fn hex(names: &Option<Vec<&[u8]>>) -> String {
    let word = |name: &&[u8]| name.iter().map(|byte| format!("{byte:02x}")).collect::<String>();
    names.as_ref().map_or("bad".to_string(), |names| names.iter().map(word).collect::<Vec<_>>().join(","))
}

fn differing(what: &str, first: &Option<Vec<&[u8]>>, second: &Option<Vec<&[u8]>>) -> Option<Difference> {
    (first != second).then(|| Difference { what: what.to_string(), first: hex(first), second: hex(second) })
}

/// Compares the names of two areas; areas that are not good byte by byte.
pub fn lists(first: &[u8], second: &[u8]) -> Option<Difference> {
    let (one, two) = (names_in(first), names_in(second));
    if one.is_none() && two.is_none() {
        return compare::areas("area of names", first, second);
    }
    differing("names", &one, &two)
}

/// Whether one side left what its answer says: every byte where the call is refused or only reads, else the names with one more or without one,
/// in an area as long as before.
pub fn left(call: &Call, outcome: &Outcome, before: &[u8], after: &[u8]) -> Option<Difference> {
    let mut names = names_in(before);
    match (call, outcome, &mut names) {
        (Call::NameAdd { name, .. }, Outcome::Answer(0), Some(names)) => names.push(name),
        (Call::NameRemove { name, .. }, Outcome::Answer(0), Some(names)) => names.retain(|other| other != name),
        _ => return compare::areas("area that is to stay", before, after),
    }
    if before.len() != after.len() {
        let (first, second) = (before.len().to_string(), after.len().to_string());
        return Some(Difference { what: "length of the area of names".to_string(), first, second });
    }
    differing("names that are to be left", &names, &names_in(after))
}

#[cfg(test)]
mod tests {
    use super::*;
    use crate::listing::{Listing, Text};

    fn area(texts: &[(u32, &[u8])]) -> Vec<u8> {
        let text = |&(offset, bytes): &(u32, &[u8])| Text { offset, size: bytes.len() as u32, bytes: bytes.to_vec() };
        let mut listing = Listing { listed: texts.iter().map(text).collect(), ..Listing::EMPTY };
        listing.area.length += 20;
        listing.bytes()
    }

    fn what(difference: Option<Difference>) -> Option<String> {
        difference.map(|difference| difference.what)
    }

    #[test]
    fn where_texts_lie_does_not_count() {
        let one = area(&[(4_100, b"one"), (4_110, b"b")]);
        assert_eq!(lists(&one, &area(&[(4_111, b"one"), (4_100, b"b")])), None);
        assert_eq!(what(lists(&one, &area(&[(4_110, b"b"), (4_100, b"one")]))), Some("names".to_string()));
        assert_eq!(what(lists(&one, &one[..4_099])), Some("names".to_string()));
        assert_eq!(what(lists(&one[..9], &one[1..10])), Some("area of names byte 0".to_string()));
    }

    #[test]
    fn a_call_leaves_what_it_says() {
        let (one, two) = (area(&[(4_100, b"one")]), area(&[(4_110, b"one"), (4_100, b"b")]));
        let (add, remove) = (Call::NameAdd { name: b"b".to_vec(), with: 0 }, Call::NameRemove { name: b"b".to_vec(), with: 0 });
        assert_eq!(left(&add, &Outcome::Answer(0), &one, &two), None);
        assert_eq!(left(&remove, &Outcome::Answer(0), &two, &one), None);
        assert_eq!(left(&add, &Outcome::Answer(20), &one, &one), None);
        assert_eq!(what(left(&add, &Outcome::Answer(20), &one, &two)), Some("area that is to stay byte 0".to_string()));
        assert_eq!(what(left(&remove, &Outcome::Answer(0), &two, &two)), Some("names that are to be left".to_string()));
        assert_eq!(what(left(&add, &Outcome::Answer(0), &one, &two[..4_119])), Some("length of the area of names".to_string()));
    }
}
