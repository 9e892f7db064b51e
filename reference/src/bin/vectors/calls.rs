//! The rows of calls on a station, and of whole sessions.

use crate::names::put;
use crate::words::Line;
use crate::{hex, joined, runs};
use lunozhar_reference::session::{self, file};
use lunozhar_reference::station::{Handled, Line as Record, Made, OwnPong, Remembered, State, HELD, LINES, NOBODY, OUTPUT, WAITING};
use lunozhar_reference::table::Table;

/// Bytes of the route area, all of which `terms` may lend.
const ROUTE_BYTES: usize = 8_192;

/// An event of a line.
enum Event {
    Open(u32),
    Close(u32),
    Message {
        line: u32,
        clock: u32,
        bytes: Vec<u8>,
    },
    /// Bytes as they come.
    Feed {
        line: u32,
        clock: u32,
        bytes: Vec<u8>,
    },
    Ask {
        number: [u8; 16],
        text: Vec<u8>,
    },
    Terms {
        output: usize,
        route: usize,
        calls: bool,
    },
    /// How many bytes of each held area are lent from now on.
    Held(usize),
    /// Something of the state set by hand.
    Set(Set),
}

enum Set {
    Kept {
        place: usize,
        number: u32,
        asker: u8,
        count: u16,
        next: u16,
    },
    /// The count of hits at a place of the memory.
    Hits {
        place: usize,
        hits: u8,
    },
    Line(Box<Record>),
    /// How many bytes a line holds, and whether it is shut.
    Pending {
        line: u32,
        count: u16,
        shut: bool,
    },
    /// A full memory, whose oldest number is 0 and whose newest is 511.
    Fill {
        asker: u8,
    },
    Room(usize),
    /// A line's table, with the first bytes of its part of the route area.
    Table {
        line: u32,
        table: Table,
        bytes: Vec<u8>,
    },
}

fn small(number: u32) -> u16 {
    u16::try_from(number).expect("a number of two bytes")
}

/// The message number that a word stands for.
fn sixteen(line: &Line, n: usize) -> [u8; 16] {
    line.bytes(n).try_into().expect("a message's number")
}

/// The event whose name is this word, and how many words it takes.
fn event_at(line: &Line, n: usize) -> (Event, usize) {
    let (number, byte, size) = (|k| line.number(n + k), |k| line.byte(n + k), |k| line.size(n + k));
    let flag = |k| line.number(n + k) != 0;
    match line.word(n) {
        "open" => (Event::Open(number(1)), 2),
        "close" => (Event::Close(number(1)), 2),
        "message" => (Event::Message { line: number(1), clock: number(2), bytes: line.bytes(n + 3) }, 4),
        "feed" => (Event::Feed { line: number(1), clock: number(2), bytes: line.bytes(n + 3) }, 4),
        "ask" => (Event::Ask { number: sixteen(line, n + 1), text: line.bytes(n + 2) }, 3),
        "terms" => (Event::Terms { output: size(1), route: size(2), calls: flag(3) }, 4),
        "held" => (Event::Held(size(1).min(HELD)), 2),
        "pending" => (Event::Set(Set::Pending { line: number(1), count: number(2) as u16, shut: flag(3) }), 4),
        "kept" => {
            let (count, next) = (small(number(4)), small(number(5)));
            (Event::Set(Set::Kept { place: size(1), number: number(2), asker: byte(3), count, next }), 6)
        }
        "hits" => (Event::Set(Set::Hits { place: size(1), hits: byte(2) }), 3),
        "line" => {
            let mut record = Record { open: flag(1), pinged: flag(2), pong_count: byte(3), pong_next: byte(4), ..Record::CLOSED };
            record.pongs[size(5)].hops = byte(6);
            let (mark, length, infinity) = (byte(7), number(8), byte(9));
            record.table = Table { mark, length, infinity, place: byte(10), size: byte(11), bits: byte(12), at: number(13) };
            (Event::Set(Set::Line(Box::new(record))), 14)
        }
        "fill" => (Event::Set(Set::Fill { asker: byte(1) }), 2),
        "room" => (Event::Set(Set::Room(size(1))), 2),
        "table" => {
            let table = Table { mark: byte(2), length: number(3), infinity: byte(4), place: 1, size: 0, bits: 0, at: 0 };
            (Event::Set(Set::Table { line: number(1), table, bytes: line.bytes(n + 5) }), 6)
        }
        other => panic!("no event: {other:?}"),
    }
}

/// The events from this word on.
fn events(line: &Line, mut n: usize) -> Vec<Event> {
    let mut events = Vec::new();
    while n < line.count() {
        let (event, width) = event_at(line, n);
        events.push(event);
        n += width;
    }
    events
}

/// A station that the events of a line were brought to, and what its last call did.
struct World {
    state: State,
    own: OwnPong,
    output: Vec<u8>,
    /// The route area, of which so many bytes are lent.
    route: Vec<u8>,
    lent: usize,
    /// The held areas of the lines, of each of which so many bytes are lent.
    held: Vec<Vec<u8>>,
    held_lent: usize,
    answers: Vec<u8>,
    last: Handled,
    /// If the last event brought bytes: the line, and whether the message stands in its held area.
    fed: Option<(usize, bool)>,
}

impl World {
    fn new() -> World {
        let own = OwnPong { port: 6346, address: [127, 0, 0, 1], files: 0, kilobytes: 0, takes_calls: true };
        let (_, state) = State::fresh(&[0; 32]);
        World {
            state,
            own,
            output: vec![0; OUTPUT],
            route: vec![0; ROUTE_BYTES],
            lent: 32,
            held: vec![vec![0; HELD]; LINES],
            held_lent: HELD,
            answers: Vec::new(),
            last: Handled::default(),
            fed: None,
        }
    }

    /// The station after the events from this word on.
    fn after(line: &Line, n: usize) -> World {
        let mut world = World::new();
        for event in events(line, n) {
            world.bring(event);
        }
        world
    }

    fn bring(&mut self, event: Event) {
        let answered = |answer| Handled { answer, ..Handled::default() };
        if !matches!(event, Event::Terms { .. } | Event::Held(_) | Event::Set(_)) {
            self.fed = None;
        }
        self.last = match event {
            Event::Open(line) => answered(self.state.open(line as usize)),
            Event::Close(line) => answered(self.state.close(line as usize)),
            Event::Message { line, clock, bytes } => {
                let route = &mut self.route[..self.lent];
                self.state.message(line as usize, clock, &self.own, &bytes, &mut self.output, route)
            }
            Event::Feed { line, clock, bytes } => self.feed(line as usize, clock, &bytes),
            Event::Ask { number, text } => self.state.own_query(&number, &text, &mut self.output, &self.route[..self.lent]),
            Event::Terms { output, route, calls } => {
                self.output.resize(output, 0);
                self.lent = route;
                self.own.takes_calls = calls;
                return;
            }
            Event::Held(length) => {
                self.held_lent = length;
                return;
            }
            Event::Set(set) => return self.set(set),
        };
        self.answers.push(self.last.answer);
    }

    fn feed(&mut self, line: usize, clock: u32, bytes: &[u8]) -> Handled {
        let held = &mut self.held[line % LINES][..self.held_lent];
        let route = &mut self.route[..self.lent];
        let fed = self.state.feed(line, clock, &self.own, bytes, held, &mut self.output, route);
        self.fed = Some((line % LINES, fed.within));
        fed.handled
    }

    fn set(&mut self, set: Set) {
        let state = &mut self.state;
        match set {
            Set::Kept { place, number, asker, count, next } => {
                state.numbers[place] = u128::from(number).to_le_bytes();
                state.askers[place] = asker;
                (state.count, state.next) = (count, next);
            }
            Set::Hits { place, hits } => state.hits[place] = hits,
            Set::Line(record) => state.lines[2] = *record,
            Set::Pending { line, count, shut } => {
                let line = &mut state.lines[line as usize % LINES];
                (line.held, line.shut) = (count, shut);
            }
            Set::Fill { asker } => {
                for (number, kept) in state.numbers.iter_mut().enumerate() {
                    *kept = (number as u128).to_le_bytes();
                }
                state.askers.fill(asker);
                state.hits.fill(0);
                (state.count, state.next) = (512, 0);
            }
            Set::Room(room) => state.room = room,
            Set::Table { line, table, bytes } => {
                let line = line as usize % LINES;
                state.lines[line].table = table;
                put(&mut self.route[..self.lent], line * state.room, &bytes);
            }
        }
    }

    fn to(&self) -> String {
        joined((0..LINES).filter(|line| self.last.to & (1 << line) != 0))
    }

    fn written(&self) -> String {
        hex(&self.output[..self.last.written])
    }

    /// What more is printed if the last event brought bytes.
    fn pending(&self) -> String {
        match self.fed {
            Some((line, within)) => {
                let Record { held, shut, .. } = self.state.lines[line];
                format!(" {held} {} {}", u8::from(shut), u8::from(within))
            }
            None => String::new(),
        }
    }
}

/// An answer as it is printed.
fn answer(number: u8) -> String {
    if number == WAITING {
        "waits".to_string()
    } else {
        number.to_string()
    }
}

pub fn case(line: &Line) -> String {
    let world = World::after(line, 2);
    let Handled { used, search, .. } = world.last;
    let answer = answer(world.last.answer);
    let (mark, entries) = (world.state.lines[1].table.mark, joined(&world.route[4..8]));
    let search = u8::from(search);
    format!("case {} {answer} {used} {} {search} {mark} {entries} {}\n", line.shown(1), world.to(), world.written())
}

pub fn calls(line: &Line) -> String {
    let world = World::after(line, 2);
    let Handled { used, search, delivered, after, .. } = world.last;
    let answers = joined(world.answers.iter().map(|&number| answer(number)));
    let (search, delivered, age) = (u8::from(search), u8::from(delivered), joined(after));
    let (label, to, written, pending) = (line.shown(1), world.to(), world.written(), world.pending());
    format!("calls {label} {answers} {used} {to} {search} {delivered} {age} {written}{pending}\n")
}

/// The number of the third word, looked up after the events from the fourth on.
pub fn look(line: &Line) -> String {
    let (answer, Remembered { asker, after }) = match World::after(line, 3).state.look_up(&sixteen(line, 2)) {
        Ok(known) => (0, known),
        Err(answer) => (answer, Remembered { asker: NOBODY, after: 0 }),
    };
    format!("look {} {answer} {asker} {after}\n", line.shown(1))
}

pub fn order(line: &Line) -> String {
    format!("order {} {}\n", line.shown(1), answer(World::after(line, 2).last.answer))
}

/// The table that is passed on by a line, after the events from the eighth word on.
pub fn relay(line: &Line) -> String {
    let World { state, route, lent, .. } = World::after(line, 7);
    let (mut out, mut area) = (vec![0; line.size(4)], vec![0; line.size(5)]);
    put(&mut area, 0, &line.bytes(6));
    let Made { answer, infinity } = state.table_for(line.number(2), &area, line.number(3), &mut out, &route[..lent]);
    let entries = if out.is_empty() { "-".to_string() } else { runs(&out) };
    format!("relay {} {answer} {infinity} {entries}\n", line.shown(1))
}

/// The text of a session file, a row for each of its lines.
pub fn text(label: &str, file: &[u8]) -> String {
    let text = String::from_utf8_lossy(&session::text(file)).into_owned();
    text.lines().map(|row| format!("session {label} {row}\n")).collect()
}

/// The file of a line's words from the third on, each an event.
pub fn session(line: &Line) -> String {
    let events: Vec<Vec<u8>> = (2..line.count()).map(|n| line.bytes(n)).collect();
    text(line.shown(1), &file(&events))
}
