//! The proved library, called as C calls it. Only this module has unsafe code: it lends each function the areas of one call.

use crate::call::Call;
use crate::case::Start;
use crate::side::{Lent, Outcome, Side};
use lunozhar::raw::{self, Number, Pair, Pairs, Station, Tally};

pub struct Proved {
    station: Box<Station>,
    tally: Tally,
}

impl Side for Proved {
    fn begin(start: &Start) -> Proved {
        Proved { station: start.station.clone(), tally: start.tally }
    }

    fn run(&mut self, call: &Call, lent: Lent<'_>) -> Outcome {
        match call {
            Call::Fresh { .. } | Call::Open { .. } | Call::Close { .. } | Call::Count { .. } => self.change(call, lent.route),
            Call::LookUp { .. } | Call::InOrder {} => self.read(call),
            Call::Message { .. } | Call::Ask { .. } => self.handle(call, lent.out, lent.route),
            Call::Feed { .. } => self.feed(call, lent),
            Call::TableFor { line, length, .. } => self.table_for(*line, *length, lent),
            _ if call.on_names() => on_names(call, lent.names, lent.out),
            _ => pure(call, lent.out),
        }
    }

    fn station(&self) -> Station {
        (*self.station).clone()
    }

    fn tally(&self) -> Tally {
        self.tally
    }
}

impl Proved {
    /// The calls that only read the state.
    fn read(&self, call: &Call) -> Outcome {
        // SAFETY: the station is whole, and is not written.
        unsafe {
            match call {
                Call::LookUp { number } => Outcome::Finding(raw::lunozhar_look_up(&*self.station, Number { bytes: *number })),
                _ => Outcome::Flag(raw::lunozhar_in_order(&*self.station)),
            }
        }
    }

    /// The calls that take nothing but the state or the tally, and change it.
    fn change(&mut self, call: &Call, route: &[u8]) -> Outcome {
        let station: *mut Station = &mut *self.station;
        // SAFETY: the station and the tally are whole and lent to nobody else.
        unsafe {
            match call {
                Call::Fresh { .. } => Outcome::Answer(raw::lunozhar_fresh(station, route.len())),
                Call::Open { line } => Outcome::Answer(raw::lunozhar_open(station, *line)),
                Call::Close { line } => Outcome::Answer(raw::lunozhar_close(station, *line)),
                Call::Count { answer } => {
                    raw::lunozhar_count(&mut self.tally, *answer);
                    Outcome::Nothing
                }
                _ => Outcome::Nothing,
            }
        }
    }

    /// An arriving message or an own query.
    fn handle(&mut self, call: &Call, out: &mut [u8], route: &mut [u8]) -> Outcome {
        let station: *mut Station = &mut *self.station;
        let (out_at, route_at) = (out.as_mut_ptr(), route.as_mut_ptr());
        // SAFETY: each pointer goes with the length of its own slice, and the areas do not overlap.
        Outcome::Told(unsafe {
            match call {
                Call::Message { line, clock, own, bytes, .. } => {
                    let (at, length) = (bytes.as_ptr(), bytes.len());
                    raw::lunozhar_message(station, *line, *clock, *own, at, length, out_at, out.len(), route_at, route.len())
                }
                Call::Ask { number, text, .. } => {
                    let number = Number { bytes: *number };
                    raw::lunozhar_ask(station, number, text.as_ptr(), text.len(), out_at, out.len(), route_at, route.len())
                }
                _ => return Outcome::Nothing,
            }
        })
    }
}

impl Proved {
    /// Bytes as they come.
    fn feed(&mut self, call: &Call, Lent { out, route, held, .. }: Lent<'_>) -> Outcome {
        let (line, clock, own, bytes) = match call {
            Call::Feed { line, clock, own, bytes, .. } => (*line, *clock, *own, bytes),
            _ => return Outcome::Nothing,
        };
        let station: *mut Station = &mut *self.station;
        let (out_at, route_at, held_at) = (out.as_mut_ptr(), route.as_mut_ptr(), held.as_mut_ptr());
        // SAFETY: each pointer goes with the length of its own slice, and the areas do not overlap.
        Outcome::Fed(unsafe {
            raw::lunozhar_feed(
                station,
                line,
                clock,
                own,
                bytes.as_ptr(),
                bytes.len(),
                held_at,
                held.len(),
                out_at,
                out.len(),
                route_at,
                route.len(),
            )
        })
    }
}

impl Proved {
    /// A table for the neighbour of a line.
    fn table_for(&self, line: u32, length: u32, Lent { out, route, names, .. }: Lent<'_>) -> Outcome {
        let (names_at, out_at, route_at) = (names.as_ptr(), out.as_mut_ptr(), route.as_ptr());
        // SAFETY: each pointer goes with the length of its own slice, the areas do not overlap, and the station is only read.
        Outcome::Made(unsafe {
            raw::lunozhar_table_for(&*self.station, line, names_at, names.len(), length, out_at, out.len(), route_at, route.len())
        })
    }
}

/// The calls on an area of names.
fn on_names(call: &Call, area: &mut [u8], out: &mut [u8]) -> Outcome {
    let (at, length) = (area.as_mut_ptr(), area.len());
    // SAFETY: each pointer goes with the length of its own slice, and the areas do not overlap.
    unsafe {
        match call {
            Call::NameAdd { name, .. } => Outcome::Answer(raw::lunozhar_name_add(at, length, name.as_ptr(), name.len())),
            Call::NameRemove { name, .. } => Outcome::Answer(raw::lunozhar_name_remove(at, length, name.as_ptr(), name.len())),
            Call::NameFind { name } => Outcome::Place(raw::lunozhar_name_find(at, length, name.as_ptr(), name.len())),
            Call::NameTable { length: entries, infinity, .. } => {
                Outcome::Answer(raw::lunozhar_name_table(at, length, *entries, *infinity, out.as_mut_ptr(), out.len()))
            }
            _ => Outcome::Nothing,
        }
    }
}

/// The calls without a state.
fn pure(call: &Call, out: &mut [u8]) -> Outcome {
    let (at, length) = (out.as_mut_ptr(), out.len());
    // SAFETY: each pointer goes with the length of its own slice, and the areas do not overlap.
    unsafe {
        match call {
            Call::WriteTable { number, had, old, oldinfinity, new, infinity, size, .. } => {
                let number = Number { bytes: *number };
                let (old_at, new_at) = (old.as_ptr(), new.as_ptr());
                Outcome::Written(raw::lunozhar_write_table(
                    number,
                    *had,
                    old_at,
                    old.len(),
                    *oldinfinity,
                    new_at,
                    new.len(),
                    *infinity,
                    *size,
                    at,
                    length,
                ))
            }
            Call::ReadGroup { bytes } => Outcome::Group(raw::lunozhar_read_group(bytes.as_ptr(), bytes.len())),
            Call::ReadField { bytes, name, .. } => {
                Outcome::Asked(raw::lunozhar_read_field(bytes.as_ptr(), bytes.len(), name.as_ptr(), name.len(), at, length))
            }
            Call::ReadHosts { bytes } => Outcome::Hosts(Box::new(raw::lunozhar_read_hosts(bytes.as_ptr(), bytes.len()))),
            Call::WriteGreeting { .. } => Outcome::Written(raw::lunozhar_write_greeting(at, length)),
            Call::WriteOk { .. } => Outcome::Written(raw::lunozhar_write_ok(at, length)),
            Call::WriteBusy { count, pairs, .. } => Outcome::Written(raw::lunozhar_write_busy(listed(*count, pairs), at, length)),
            Call::Hash { keyword } => Outcome::Number(raw::lunozhar_hash(keyword.as_ptr(), keyword.len())),
            Call::Place { keyword, bits } => Outcome::Number(raw::lunozhar_place(keyword.as_ptr(), keyword.len(), *bits)),
            _ => Outcome::Nothing,
        }
    }
}

/// The pairs as the boundary takes them: 32 places, those that are not given with port 0.
fn listed(count: usize, pairs: &[Pair]) -> Pairs {
    let mut listed = Pairs { count, pairs: [Pair { address: [0; 4], port: 0 }; 32] };
    for (place, pair) in listed.pairs.iter_mut().zip(pairs) {
        *place = *pair;
    }
    listed
}
