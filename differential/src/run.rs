//! A list of calls on both implementations, compared after every call.

use crate::call::Call;
use crate::case::{Case, Start};
use crate::compare::{self, Difference};
use crate::field::Area;
use crate::names;
use crate::side::{Lent, Outcome, Side};
use lunozhar::raw::{Own, Station, ANSWERS, LINES, WAITING};
use std::collections::BTreeMap;

const NO_AREA: Area = Area { length: 0, seed: 0, top: 0 };
/// The number of the messages of a round trip.
const NUMBER: [u8; 16] = [0x5A; 16];
/// Enough for a RESET, 255 PATCHes and 65,536 bytes of data.
const WRITER_OUT: Area = Area { length: 29 + 255 * 28 + 65_536, seed: 1, top: 0 };

/// How many calls were made, how often each number was answered, how many calls only waited, and how many of each
/// number handed up an age.
#[derive(Clone, Debug, Default, PartialEq, Eq)]
pub struct Count {
    pub calls: u64,
    pub answers: [u64; ANSWERS],
    pub waits: u64,
    pub ages: [u64; ANSWERS],
}

impl Count {
    fn count(&mut self, outcome: &Outcome) {
        self.calls += 1;
        match outcome.answer() {
            Some(WAITING) => self.waits += 1,
            Some(answer) if usize::from(answer) < ANSWERS => {
                self.answers[usize::from(answer)] += 1;
                self.ages[usize::from(answer)] += u64::from(outcome.has_age());
            }
            _ => {}
        }
    }
}

/// The count of all calls, and of each kind.
#[derive(Clone, Debug, Default, PartialEq, Eq)]
pub struct Counts {
    pub all: Count,
    pub kinds: BTreeMap<&'static str, Count>,
}

impl Counts {
    fn count(&mut self, call: &Call, outcome: &Outcome) {
        self.all.count(outcome);
        self.kinds.entry(call.kind()).or_default().count(outcome);
    }
}

/// The areas that only one call is lent: for output, and those in place of the case's own.
#[derive(Default)]
struct Passing {
    out: Vec<u8>,
    route: Vec<u8>,
    held: Vec<u8>,
    names: Vec<u8>,
}

impl Passing {
    fn fill(&mut self, call: &Call) {
        call.output().unwrap_or(&NO_AREA).fill(&mut self.out);
        call.other_route().unwrap_or(&NO_AREA).fill(&mut self.route);
        call.other_held().unwrap_or(&NO_AREA).fill(&mut self.held);
        match call.other_names() {
            Some(listing) => listing.fill(&mut self.names),
            None => self.names.clear(),
        }
    }

    fn copy(&mut self, other: &Passing) {
        self.out.clone_from(&other.out);
        self.route.clone_from(&other.route);
        self.held.clone_from(&other.held);
        self.names.clone_from(&other.names);
    }
}

/// One implementation with the areas that are lent to it.
struct Half<S> {
    side: S,
    route: Vec<u8>,
    held: [Vec<u8>; LINES],
    /// The area of names, and what it was before the call.
    names: Vec<u8>,
    before: Vec<u8>,
    passing: Passing,
    outcome: Outcome,
    station: Box<Station>,
}

impl<S: Side> Half<S> {
    fn begin(start: &Start) -> Half<S> {
        let (route, held) = (start.route.bytes(), std::array::from_fn(|line| start.held[line].bytes()));
        let (passing, station) = (Passing::default(), start.station.clone());
        let (side, names, before, outcome) = (S::begin(start), start.names.bytes(), Vec::new(), Outcome::Nothing);
        Half { side, route, held, names, before, passing, outcome, station }
    }

    fn run(&mut self, call: &Call, passing: &Passing) {
        self.passing.copy(passing);
        if let Call::Fresh { route } = call {
            route.fill(&mut self.route);
        }
        if let Call::NameArea { area } = call {
            area.fill(&mut self.names);
        }
        if call.on_names() {
            self.before.clone_from(&self.names);
        }
        let Passing { out, route, held, names } = &mut self.passing;
        let route = if call.other_route().is_some() { route } else { &mut self.route };
        let held = if call.other_held().is_some() { held } else { &mut self.held[call.held_line()] };
        let names = if call.other_names().is_some() { names } else { &mut self.names };
        self.outcome = self.side.run(call, Lent { out, route, held, names });
        *self.station = self.side.station();
    }

    /// What is wrong with the area of names that the call left.
    fn left(&self, call: &Call) -> Option<Difference> {
        names::left(call, &self.outcome, &self.before, &self.names)
    }
}

/// Two implementations in the midst of a list of calls.
pub struct Runner<A, B> {
    first: Half<A>,
    second: Half<B>,
    passing: Passing,
}

impl<A: Side, B: Side> Runner<A, B> {
    pub fn begin(start: &Start) -> Runner<A, B> {
        Runner { first: Half::begin(start), second: Half::begin(start), passing: Passing::default() }
    }

    pub fn station(&self) -> &Station {
        &self.first.station
    }

    pub fn route(&self) -> &[u8] {
        &self.first.route
    }

    pub fn names(&self) -> &[u8] {
        &self.first.names
    }

    /// What the last call came to, and its output area.
    #[cfg(test)]
    pub fn last(&self) -> (&Outcome, &[u8]) {
        (&self.first.outcome, &self.first.passing.out)
    }

    /// Does the next call on both and compares everything.
    pub fn step(&mut self, call: &Call, counts: &mut Counts) -> Result<(), Difference> {
        if let Call::RoundTrip { .. } = call {
            counts.count(call, &Outcome::Nothing);
            return round_trip::<A, B>(call, counts);
        }
        self.passing.fill(call);
        self.first.run(call, &self.passing);
        self.second.run(call, &self.passing);
        counts.count(call, &self.first.outcome);
        self.compare(call).map_or(Ok(()), Err)?;
        match call.goes_on_with() {
            1 => self.second.names.clone_from(&self.first.names),
            2 => self.first.names.clone_from(&self.second.names),
            _ => {}
        }
        Ok(())
    }

    /// Compares everything but the held areas of other lines, which no call is lent.
    fn compare(&self, call: &Call) -> Option<Difference> {
        let (first, second, line) = (&self.first, &self.second, call.held_line());
        compare::outcomes(&first.outcome, &second.outcome)
            .or_else(|| compare::areas("output", &first.passing.out, &second.passing.out))
            .or_else(|| self.compare_names(call))
            .or_else(|| compare::areas("other names", &first.passing.names, &second.passing.names))
            .or_else(|| compare::areas("held", &first.held[line], &second.held[line]))
            .or_else(|| compare::areas("other held", &first.passing.held, &second.passing.held))
            .or_else(|| compare::stations(&first.station, &second.station))
            .or_else(|| compare::areas("route", &first.route, &second.route))
            .or_else(|| compare::areas("other route", &first.passing.route, &second.passing.route))
            .or_else(|| compare::tallies(&first.side.tally(), &second.side.tally()))
    }

    /// Compares the names that a call on them left, and sees that each side left what the call says.
    fn compare_names(&self, call: &Call) -> Option<Difference> {
        if !call.on_names() {
            return None;
        }
        let (first, second) = (&self.first, &self.second);
        let wrong = |of: &Difference| format!("{}, where {} is right", of.second, of.first);
        let (one, two, none) = (first.left(call), second.left(call), "-".to_string());
        names::lists(&first.names, &second.names)
            .or_else(|| one.map(|of| Difference { first: wrong(&of), second: none.clone(), what: of.what }))
            .or_else(|| two.map(|of| Difference { first: none.clone(), second: wrong(&of), what: of.what }))
    }

    /// Hands over messages that stand one behind the other, up to the first that is refused.
    fn read(&mut self, line: u32, mut bytes: &[u8], counts: &mut Counts) -> Result<(), Difference> {
        let own = Own { port: 0, address: [0; 4], files: 0, kilobytes: 0, calls: false };
        let out = Area { length: 4119, seed: 2, top: 0 };
        while !bytes.is_empty() {
            self.step(&Call::Message { line, clock: 0, own, bytes: bytes.to_vec(), out, route: None }, counts)?;
            match &self.first.outcome {
                Outcome::Told(told) if told.answer == 0 => bytes = &bytes[told.used..],
                _ => break,
            }
        }
        Ok(())
    }

    /// Holds the line's table to this one, settled.
    fn stands(&self, line: u32, entries: &[u8], infinity: u8) -> Result<(), Difference> {
        let (station, line) = (self.station(), line as usize);
        let table = station.lines[line].table;
        let held = &self.route()[line * station.room..][..entries.len()];
        if (table.mark, table.length as usize, table.infinity) == (3, entries.len(), infinity) && held == entries {
            return Ok(());
        }
        let what = "the table that was written does not stand (both alike)".to_string();
        Err(Difference { what, first: format!("{table:?}"), second: format!("length {} infinity {infinity}", entries.len()) })
    }
}

/// Writes the call's tables one after the other and reads them on a station of its own.
fn round_trip<A: Side, B: Side>(trip: &Call, counts: &mut Counts) -> Result<(), Difference> {
    let (line, old, both, new, infinity, size, route) = match trip {
        Call::RoundTrip { line, old, both, new, infinity, size, route } => (*line, old, *both, new, *infinity, *size, route),
        _ => return Ok(()),
    };
    let mut runner = Runner::<A, B>::begin(&Start::zero(*route));
    runner.step(&Call::Open { line }, counts)?;
    for (had, old, new) in [(false, old, old), (true, old, new)].iter().take(if both { 2 } else { 1 }) {
        let write = Call::WriteTable {
            number: NUMBER,
            had: *had,
            old: old.to_vec(),
            oldinfinity: infinity,
            new: new.to_vec(),
            infinity,
            size,
            out: WRITER_OUT,
        };
        runner.step(&write, counts)?;
        let written = match &runner.first.outcome {
            Outcome::Written(written) if written.answer == 0 => written.written,
            _ => return Ok(()),
        };
        let bytes = runner.first.passing.out[..written].to_vec();
        runner.read(line, &bytes, counts)?;
        if line > 7 || runner.station().room < new.len() {
            return Ok(());
        }
        runner.stands(line, new, infinity)?;
    }
    Ok(())
}

/// Runs a whole case: the first difference and the number of the call it is at, from 0.
pub fn run<A: Side, B: Side>(case: &Case) -> Option<(usize, Difference)> {
    let mut runner = Runner::<A, B>::begin(&case.start);
    let mut counts = Counts::default();
    case.calls.iter().enumerate().find_map(|(at, call)| runner.step(call, &mut counts).err().map(|difference| (at, difference)))
}

#[cfg(test)]
mod tests {
    use super::*;
    use crate::broken::{Broken, BAD_WRITER};
    use crate::second::Reference;

    fn trip(room: usize) -> Case {
        let route = Area { length: 8 * room, seed: 3, top: 0 };
        let call = Call::RoundTrip { line: 5, old: vec![3, 1, 4, 1], both: true, new: vec![5, 1, 5, 2], infinity: 20, size: 1, route };
        Case { start: Start::zero(route), calls: vec![call] }
    }

    #[test]
    fn tables_are_written_and_read() {
        let mut counts = Counts::default();
        let Case { start, calls } = trip(4);
        assert_eq!(Runner::<Reference, Reference>::begin(&start).step(&calls[0], &mut counts), Ok(()));
        // The trip, an opening, two calls of the writer, and the messages: a RESET, four PATCHes of 8 bits, two of 4 bits.
        assert_eq!((counts.all.calls, counts.all.answers[0]), (11, 10));
        assert_eq!(run::<Reference, Reference>(&trip(3)), None);
    }

    #[test]
    fn a_table_that_does_not_stand_is_a_difference() {
        let (at, difference) = run::<Broken<BAD_WRITER>, Broken<BAD_WRITER>>(&trip(4)).unwrap();
        assert_eq!((at, &difference.what[..]), (0, "the table that was written does not stand (both alike)"));
    }
}
