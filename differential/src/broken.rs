//! For tests: the reference with one fault, to see that it is found, named and made small.

use crate::call::Call;
use crate::case::Start;
use crate::second::Reference;
use crate::side::{Lent, Outcome, Side};
use lunozhar::raw::{Age, Station, Tally};

pub struct Broken<const FAULT: usize>(Reference);

/// How each fault is named: an answer, a line sent to, a byte past what is written, a place of the state that is not
/// kept, a route byte, a writer's byte, the tally, and a panic; of bytes as they come those used, where the message
/// stands, what is held and a shut mark; an age that is handed up, and one that is looked up; of names a place, their order after a remove,
/// a byte that a refused add does not leave, and a table's entry; of a table for a neighbour its Infinity, an entry, and a byte of names that
/// are only to be read; of hits a count, and the answer to one too many.
pub const FAULTS: [&str; 23] = [
    "answer",
    "to",
    "output byte 4118",
    "state: line 2 pong 0 clock",
    "route byte 3",
    "output byte 30",
    "tally: count 9",
    "result",
    "used",
    "within",
    "held byte 25",
    "state: line 1 pending shut",
    "age",
    "after",
    "place",
    "names",
    "area that is to stay byte 4099",
    "output byte 5",
    "infinity",
    "output byte 3",
    "other names byte 4099",
    "state: remembered query 0 (low, high, asker, hits)",
    "answer",
];

/// A writer whose tables do not stand when they are read.
pub const BAD_WRITER: usize = FAULTS.len();

impl<const FAULT: usize> Side for Broken<FAULT> {
    fn begin(start: &Start) -> Self {
        Broken(Reference::begin(start))
    }

    fn run(&mut self, call: &Call, lent: Lent<'_>) -> Outcome {
        let Lent { out, route, held, names } = lent;
        let mut outcome = self.0.run(call, Lent { out: &mut *out, route: &mut *route, held: &mut *held, names: &mut *names });
        match (FAULT, &mut outcome) {
            (0, Outcome::Told(told)) if told.answer == 9 => told.answer = 10,
            (1, Outcome::Told(told)) if told.to[5] && told.written > 60 => told.to[5] = false,
            (2, Outcome::Told(told)) if told.written > 40 => out[4118] ^= 1,
            (4, Outcome::Told(told)) if told.answer == 14 && route.len() > 3 => route[3] = 77,
            (5, Outcome::Written(written)) if written.written > 100 => out[30] ^= 1,
            (7, Outcome::Group(group)) if group.answer == 17 => return Outcome::Panicked("on purpose".to_string()),
            (8, Outcome::Fed(fed)) if fed.told.answer == 5 => fed.told.used = 23,
            (9, Outcome::Fed(fed)) if fed.told.search => fed.within = false,
            (10, Outcome::Fed(fed)) if fed.waits && fed.told.used > 20 => held[25] ^= 1,
            (12, Outcome::Told(told)) if told.answer == 8 && told.age.known => told.age = Age::default(),
            (13, Outcome::Finding(finding)) if finding.after > 3 => finding.after -= 1,
            (14, Outcome::Place(found)) if found.place > 1 => found.place -= 1,
            (15, Outcome::Answer(0)) if matches!(call, Call::NameRemove { .. }) && names[0] > 1 => names[4..20].rotate_left(8),
            (16, Outcome::Answer(20)) if names[1] < 2 => names[4_099] ^= 1,
            (17, Outcome::Answer(0)) if matches!(call, Call::NameTable { .. }) && out.len() > 5 => out[5] ^= 1,
            (18, Outcome::Made(made)) if made.answer == 3 => made.infinity = 8,
            (19, Outcome::Made(made)) if made.answer == 0 && (2..8).contains(&out[3]) => out[3] += 1,
            (20, Outcome::Made(made)) if made.answer == 2 && call.other_names().is_some() && names.len() > 4_099 => names[4_099] ^= 1,
            (22, Outcome::Told(told)) if told.answer == 21 => told.answer = 11,
            (BAD_WRITER, Outcome::Written(written)) if written.written > 0 => out[written.written - 1] ^= 1,
            _ => {}
        }
        outcome
    }

    fn station(&self) -> Station {
        let mut station = self.0.station();
        if FAULT == 3 && station.lines[4].live {
            station.lines[2].pongs[0].clock |= 1;
        }
        if FAULT == 11 && station.count > 0 {
            station.lines[1].pending.shut = false;
        }
        if FAULT == 21 && station.count > 0 && station.hits[0] == 200 {
            station.hits[0] = 199;
        }
        station
    }

    fn tally(&self) -> Tally {
        let mut tally = self.0.tally();
        if FAULT == 6 && tally.counts[9] >= 3 {
            tally.counts[9] -= 1;
        }
        tally
    }
}
