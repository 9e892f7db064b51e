//! The independent implementation, its results in the boundary's structs.

use crate::call::Call;
use crate::case::Start;
use crate::convert;
use crate::side::{Lent, Outcome, Side};
use lunozhar::raw::{NameFound, Station, Tally};
use lunozhar_reference::handshake::{self, Pair};
use lunozhar_reference::station::State;
use lunozhar_reference::writer::{self, Entries};
use lunozhar_reference::{hash, names, tally};
use std::panic::{self, AssertUnwindSafe};

pub struct Reference {
    state: Box<State>,
    tally: tally::Tally,
}

impl Side for Reference {
    fn begin(start: &Start) -> Reference {
        let state = convert::station_from_raw(&start.station).expect("a start has counts that both sides hold");
        Reference { state: Box::new(state), tally: tally::Tally { counts: start.tally.counts } }
    }

    fn run(&mut self, call: &Call, lent: Lent<'_>) -> Outcome {
        let done = panic::catch_unwind(AssertUnwindSafe(|| self.done(call, lent)));
        done.unwrap_or_else(|cause| {
            let text = cause.downcast_ref::<String>().cloned();
            Outcome::Panicked(text.or_else(|| cause.downcast_ref::<&str>().map(|text| text.to_string())).unwrap_or_default())
        })
    }

    fn station(&self) -> Station {
        convert::station_to_raw(&self.state)
    }

    fn tally(&self) -> Tally {
        Tally { counts: self.tally.counts }
    }
}

impl Reference {
    fn done(&mut self, call: &Call, lent: Lent<'_>) -> Outcome {
        let Lent { out, route, held, names } = lent;
        match call {
            Call::Fresh { .. } => {
                let (answer, state) = State::fresh(route);
                *self.state = state;
                Outcome::Answer(answer)
            }
            Call::Open { line } => Outcome::Answer(self.state.open(*line as usize)),
            Call::Close { line } => Outcome::Answer(self.state.close(*line as usize)),
            Call::Message { line, clock, own, bytes, .. } => {
                let own = convert::own_from_raw(own);
                Outcome::Told(convert::told(&self.state.message(*line as usize, *clock, &own, bytes, out, route)))
            }
            Call::Feed { line, clock, own, bytes, .. } => {
                let own = convert::own_from_raw(own);
                Outcome::Fed(convert::fed(&self.state.feed(*line as usize, *clock, &own, bytes, held, out, route)))
            }
            Call::Ask { number, text, .. } => Outcome::Told(convert::told(&self.state.own_query(number, text, out, route))),
            Call::LookUp { number } => Outcome::Finding(convert::finding(self.state.look_up(number))),
            Call::TableFor { line, length, .. } => Outcome::Made(convert::made(self.state.table_for(*line, names, *length, out, route))),
            Call::InOrder {} => Outcome::Flag(self.state.in_order()),
            Call::Count { answer } => {
                self.tally.count(*answer);
                Outcome::Nothing
            }
            _ if call.on_names() => on_names(call, names, out),
            _ => pure(call, out),
        }
    }
}

/// The calls on an area of names.
fn on_names(call: &Call, area: &mut [u8], out: &mut [u8]) -> Outcome {
    match call {
        Call::NameAdd { name, .. } => Outcome::Answer(names::add(area, name)),
        Call::NameRemove { name, .. } => Outcome::Answer(names::remove(area, name)),
        Call::NameFind { name } => {
            let (answer, place) = names::find(area, name);
            Outcome::Place(NameFound { answer, place })
        }
        Call::NameTable { length, infinity, .. } => Outcome::Answer(names::table(area, *length, *infinity, out)),
        _ => Outcome::Nothing,
    }
}

/// The calls without a state.
fn pure(call: &Call, out: &mut [u8]) -> Outcome {
    match call {
        Call::WriteTable { number, had, old, oldinfinity, new, infinity, size, .. } => {
            let old = had.then(|| Entries { entries: old, infinity: *oldinfinity });
            let new = Entries { entries: new, infinity: *infinity };
            Outcome::Written(convert::written(writer::write_table(old, new, number, *size, out)))
        }
        Call::ReadGroup { bytes } => Outcome::Group(convert::group(handshake::read_group(bytes))),
        Call::ReadField { bytes, name, .. } => Outcome::Asked(convert::asked(handshake::field(bytes, name, out))),
        Call::ReadHosts { bytes } => Outcome::Hosts(Box::new(convert::hosts(&handshake::try_pairs(bytes)))),
        Call::WriteGreeting { .. } => Outcome::Written(convert::written(handshake::write_greeting(out))),
        Call::WriteOk { .. } => Outcome::Written(convert::written(handshake::write_ok(out))),
        Call::WriteBusy { count, pairs, .. } => {
            let mut listed: Vec<Pair> = pairs.iter().map(convert::pair_from_raw).collect();
            // The boundary has 32 places whatever the count; the reference takes a slice, for which 33 stands for every count above 32.
            listed.resize(32, Pair::default());
            listed.push(Pair { address: [0; 4], port: 1 });
            listed.truncate(*count);
            Outcome::Written(convert::written(handshake::write_busy(&listed, out)))
        }
        Call::Hash { keyword } => Outcome::Number(hash::product(keyword)),
        Call::Place { keyword, bits } => Outcome::Number(hash::place(keyword, *bits)),
        _ => Outcome::Nothing,
    }
}
