//! The first thing in which two implementations differ after a call.

use crate::side::Outcome;
use lunozhar::raw::{Station, Table, Tally};

/// The first thing in which the two differ.
#[derive(Clone, Debug, PartialEq, Eq)]
pub struct Difference {
    pub what: String,
    pub first: String,
    pub second: String,
}

fn differing(what: String, first: impl std::fmt::Debug, second: impl std::fmt::Debug) -> Difference {
    Difference { what, first: format!("{first:?}"), second: format!("{second:?}") }
}

pub fn outcomes(first: &Outcome, second: &Outcome) -> Option<Difference> {
    if first == second {
        return None;
    }
    let pairs = first.fields().into_iter().zip(second.fields()).find(|(first, second)| first != second);
    Some(match pairs {
        Some(((name, first), (other, second))) if name == other => Difference { what: name.to_string(), first, second },
        _ => differing("result".to_string(), first, second),
    })
}

/// Compares bytes of an area.
pub fn areas(name: &str, first: &[u8], second: &[u8]) -> Option<Difference> {
    if first == second {
        return None;
    }
    let place = first.iter().zip(second).position(|(first, second)| first != second);
    Some(match place {
        Some(place) => differing(format!("{name} byte {place}"), first[place], second[place]),
        None => differing(format!("{name} length"), first.len(), second.len()),
    })
}

macro_rules! first_field {
    ($name:expr, $first:expr, $second:expr; $($field:ident)*) => {
        $(if $first.$field != $second.$field {
            return Some(differing(format!("{}{}", $name, stringify!($field)), &$first.$field, &$second.$field));
        })*
    };
}

fn tables(line: usize, first: &Table, second: &Table) -> Option<Difference> {
    first_field!(format!("state: line {line} table "), first, second; mark length infinity place size bits at);
    None
}

pub fn stations(first: &Station, second: &Station) -> Option<Difference> {
    if first == second {
        return None;
    }
    first_field!("state: ", first, second; room count next);
    for (line, (one, two)) in first.lines.iter().zip(&second.lines).enumerate() {
        first_field!(format!("state: line {line} "), one, two; live pinged pingtime pongcount pongnext);
        for (place, (one, two)) in one.pongs.iter().zip(&two.pongs).enumerate() {
            first_field!(format!("state: line {line} pong {place} "), one, two; bytes hops clock);
        }
        if let Some(difference) = tables(line, &one.table, &two.table) {
            return Some(difference);
        }
        first_field!(format!("state: line {line} pending "), one.pending, two.pending; count shut);
    }
    (0..first.asker.len()).find_map(|place| {
        let query = |of: &Station| (of.lo[place], of.hi[place], of.asker[place], of.hits[place]);
        let (one, two) = (query(first), query(second));
        (one != two).then(|| differing(format!("state: remembered query {place} (low, high, asker, hits)"), one, two))
    })
}

pub fn tallies(first: &Tally, second: &Tally) -> Option<Difference> {
    let place = (0..first.counts.len()).find(|&place| first.counts[place] != second.counts[place])?;
    Some(differing(format!("tally: count {place}"), first.counts[place], second.counts[place]))
}

#[cfg(test)]
mod tests {
    use super::*;
    use crate::make::Maker;
    use lunozhar::raw::Asked;

    type Change = (&'static str, fn(&mut Station));

    #[test]
    fn every_part_of_a_station_is_compared() {
        let station = Maker::of_case(1, 1).start().station;
        assert_eq!(stations(&station, &station.clone()), None);
        let changes: [Change; 12] = [
            ("state: room", |station| station.room ^= 1),
            ("state: count", |station| station.count ^= 1),
            ("state: line 3 pinged", |station| station.lines[3].pinged ^= true),
            ("state: line 7 pong 9 bytes", |station| station.lines[7].pongs[9].bytes[13] ^= 1),
            ("state: line 0 pong 0 clock", |station| station.lines[0].pongs[0].clock ^= 1),
            ("state: line 2 table at", |station| station.lines[2].table.at ^= 1),
            ("state: line 6 pending count", |station| station.lines[6].pending.count ^= 1),
            ("state: line 1 pending shut", |station| station.lines[1].pending.shut ^= true),
            ("state: remembered query 511 (low, high, asker, hits)", |station| station.hi[511] ^= 1),
            ("state: remembered query 0 (low, high, asker, hits)", |station| station.lo[0] ^= 1),
            ("state: remembered query 5 (low, high, asker, hits)", |station| station.asker[5] ^= 1),
            ("state: remembered query 300 (low, high, asker, hits)", |station| station.hits[300] ^= 1),
        ];
        for (what, change) in changes {
            let mut other = station.clone();
            change(&mut other);
            assert_eq!(stations(&station, &other).map(|difference| difference.what), Some(what.to_string()));
        }
    }

    #[test]
    fn outcomes_are_named_by_field() {
        let asked = Asked { answer: 0, used: 9, written: 2 };
        let (first, second) = (Outcome::Asked(asked), Outcome::Asked(Asked { written: 3, ..asked }));
        let difference = outcomes(&first, &second).unwrap();
        assert_eq!((&difference.what[..], &difference.first[..], &difference.second[..]), ("written", "2", "3"));
        assert_eq!(outcomes(&first, &first), None);
        assert_eq!(outcomes(&first, &Outcome::Nothing).unwrap().what, "result");
    }

    #[test]
    fn areas_to_the_last_byte() {
        assert_eq!(areas("output", &[1, 2], &[1, 2]), None);
        assert_eq!(areas("output", &[1, 2], &[1, 3]).unwrap().what, "output byte 1");
        assert_eq!(areas("output", &[1], &[1, 3]).unwrap().what, "output length");
    }
}
