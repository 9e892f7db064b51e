//! What both implementations are asked to do, in one form.

use lunozhar_reference::handshake::{self, Kind};
use lunozhar_reference::hash;
use lunozhar_reference::names;
use lunozhar_reference::station::{Fed, Handled, OwnPong, State, HELD, NOBODY, OUTPUT};
use lunozhar_reference::writer::{write_table, Entries};

/// Bytes of the route area for each of the eight lines.
pub const ROOM: usize = 65_536;
const LINES: usize = 8;

pub const PORT: u16 = 6346;
pub const ADDRESS: [u8; 4] = [127, 0, 0, 1];

/// An arriving message, or bytes as they come.
#[derive(Clone)]
pub struct Call {
    pub line: u32,
    pub clock: u32,
    pub bytes: Vec<u8>,
}

/// The areas that are lent to a call. Both implementations are lent the very same ones.
pub struct Areas {
    pub out: Vec<u8>,
    pub route: Vec<u8>,
    /// The held area of each line.
    pub held: Vec<Vec<u8>>,
}

impl Areas {
    pub fn new() -> Areas {
        Areas { out: vec![0; OUTPUT], route: vec![0; LINES * ROOM], held: vec![vec![0; HELD]; LINES] }
    }
}

/// What a message or bytes came to. The last two are of bytes as they come.
#[derive(Clone, Copy, Debug, PartialEq, Eq)]
pub struct Outcome {
    pub answer: u8,
    pub used: usize,
    pub written: usize,
    /// Bit `l` for line `l`.
    pub to: u8,
    pub search: bool,
    pub delivered: bool,
    pub text: (usize, usize),
    /// How many queries were remembered after the one that was found.
    pub after: Option<usize>,
    pub within: bool,
    pub waits: bool,
}

/// What a look-up came to: the answer, the asker, and how many queries were remembered after it.
#[derive(Clone, Copy, Debug, PartialEq, Eq)]
pub struct Found {
    pub answer: u8,
    pub asker: u8,
    pub after: usize,
}

/// A group's answer, length, kind, version and code.
#[derive(Clone, Copy, Debug, PartialEq, Eq)]
pub struct Greeted {
    pub answer: u8,
    pub used: usize,
    pub kind: u8,
    pub major: u32,
    pub minor: u32,
    pub code: u32,
}

/// One table to be written after another.
pub struct Writing {
    pub old: Vec<u8>,
    pub new: Vec<u8>,
    pub infinity: u8,
    pub number: [u8; 16],
    pub size: usize,
}

/// One of the two implementations, with a station.
pub trait Side: Clone {
    /// What its message call hands back, and its call with bytes.
    type Told;
    type Fed;

    fn fresh(route: &[u8]) -> Self;
    fn open(&mut self, line: u32) -> u8;
    fn message(&mut self, call: &Call, areas: &mut Areas) -> Self::Told;
    fn outcome(told: &Self::Told) -> Outcome;
    /// Bytes of the call from this place on.
    fn feed(&mut self, call: &Call, from: usize, areas: &mut Areas) -> Self::Fed;
    fn used(fed: &Self::Fed) -> usize;
    fn fed_outcome(fed: &Self::Fed) -> Outcome;
    fn look_up(&self, number: &[u8; 16]) -> Found;
    fn in_order(&self) -> bool;
    /// The answer and the Infinity.
    fn table_for(&self, line: u32, names: &[u8], length: u32, out: &mut [u8], route: &[u8]) -> (u8, u8);
    fn hash(keyword: &[u8]) -> u32;
    fn name_add(area: &mut [u8], name: &[u8]) -> u8;
    fn name_remove(area: &mut [u8], name: &[u8]) -> u8;
    /// The answer and the place.
    fn name_find(area: &[u8], name: &[u8]) -> (u8, usize);
    fn name_table(area: &[u8], length: u32, infinity: u8, out: &mut [u8]) -> u8;
    /// The answer and how many bytes were written.
    fn write_table(writing: &Writing, out: &mut [u8]) -> (u8, usize);
    fn read_group(bytes: &[u8]) -> Greeted;
    /// The answer, the group's length and how many bytes were written.
    fn read_field(bytes: &[u8], name: &[u8], out: &mut [u8]) -> (u8, usize, usize);
}

/// The reference, its state on the heap.
#[derive(Clone)]
pub struct Reference(Box<State>);

const OWN: OwnPong = OwnPong { port: PORT, address: ADDRESS, files: 0, kilobytes: 0, takes_calls: true };

impl Side for Reference {
    type Told = Handled;
    type Fed = Fed;

    fn fresh(route: &[u8]) -> Reference {
        Reference(Box::new(State::fresh(route).1))
    }

    fn open(&mut self, line: u32) -> u8 {
        self.0.open(line as usize)
    }

    #[inline]
    fn message(&mut self, call: &Call, areas: &mut Areas) -> Handled {
        self.0.message(call.line as usize, call.clock, &OWN, &call.bytes, &mut areas.out, &mut areas.route)
    }

    fn outcome(told: &Handled) -> Outcome {
        let Handled { answer, used, written, to, search, delivered, text_start, text_length, after } = *told;
        let text = (text_start, text_length);
        Outcome { answer, used, written, to, search, delivered, text, after, within: false, waits: false }
    }

    #[inline]
    fn feed(&mut self, call: &Call, from: usize, areas: &mut Areas) -> Fed {
        let (line, held) = (call.line as usize, &mut areas.held[call.line as usize]);
        self.0.feed(line, call.clock, &OWN, &call.bytes[from..], held, &mut areas.out, &mut areas.route)
    }

    #[inline]
    fn used(fed: &Fed) -> usize {
        fed.handled.used
    }

    fn fed_outcome(fed: &Fed) -> Outcome {
        Outcome { within: fed.within, waits: fed.waits, ..Self::outcome(&fed.handled) }
    }

    #[inline]
    fn look_up(&self, number: &[u8; 16]) -> Found {
        match self.0.look_up(number) {
            Ok(known) => Found { answer: 0, asker: known.asker, after: known.after },
            Err(answer) => Found { answer, asker: NOBODY, after: 0 },
        }
    }

    #[inline]
    fn in_order(&self) -> bool {
        self.0.in_order()
    }

    #[inline]
    fn table_for(&self, line: u32, names: &[u8], length: u32, out: &mut [u8], route: &[u8]) -> (u8, u8) {
        let made = self.0.table_for(line, names, length, out, route);
        (made.answer, made.infinity)
    }

    #[inline]
    fn hash(keyword: &[u8]) -> u32 {
        hash::product(keyword)
    }

    #[inline]
    fn name_add(area: &mut [u8], name: &[u8]) -> u8 {
        names::add(area, name)
    }

    #[inline]
    fn name_remove(area: &mut [u8], name: &[u8]) -> u8 {
        names::remove(area, name)
    }

    #[inline]
    fn name_find(area: &[u8], name: &[u8]) -> (u8, usize) {
        names::find(area, name)
    }

    #[inline]
    fn name_table(area: &[u8], length: u32, infinity: u8, out: &mut [u8]) -> u8 {
        names::table(area, length, infinity, out)
    }

    #[inline]
    fn write_table(writing: &Writing, out: &mut [u8]) -> (u8, usize) {
        let Writing { old, new, infinity, number, size } = writing;
        let old = Entries { entries: old, infinity: *infinity };
        let new = Entries { entries: new, infinity: *infinity };
        let written = write_table(Some(old), new, number, *size, out);
        (written.answer, written.written)
    }

    #[inline]
    fn read_group(bytes: &[u8]) -> Greeted {
        match handshake::read_group(bytes) {
            Ok(group) => Greeted {
                answer: 0,
                used: group.used,
                kind: if group.kind == Kind::Greeting { 1 } else { 2 },
                major: group.major.into(),
                minor: group.minor.into(),
                code: group.code.into(),
            },
            Err(answer) => Greeted { answer, used: 0, kind: 0, major: 0, minor: 0, code: 0 },
        }
    }

    #[inline]
    fn read_field(bytes: &[u8], name: &[u8], out: &mut [u8]) -> (u8, usize, usize) {
        let field = handshake::field(bytes, name, out);
        (field.answer, field.used, field.written)
    }
}
