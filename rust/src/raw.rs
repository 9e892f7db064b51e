//! The library as C sees it: the constants, structs and functions of `include/lunozhar.h`, which says more of each. The functions that end in
//! `_lent` are lent the parts of a station; those of the same name without it take a station, and do no more than pass its parts and store what
//! comes back.
//!
//! Most users want [`crate::Station`] and the functions beside it. A slice is a pointer and a length here, and every function is `unsafe` to call:
//! pointers are not null and point to as much as their length or type says, and what a call is lent to write overlaps nothing else of it.
//!
//! ```
//! use lunozhar::raw;
//!
//! let keyword = b"ebckl";
//! // SAFETY: the pointer goes with the length of its slice.
//! let place = unsafe { raw::lunozhar_place(keyword.as_ptr(), keyword.len(), 13) };
//! assert_eq!(place, 3179);
//! ```

pub use crate::boundary::{
    lunozhar_ask, lunozhar_close, lunozhar_feed, lunozhar_fresh, lunozhar_in_order, lunozhar_look_up, lunozhar_message, lunozhar_open,
    lunozhar_table_for,
};
use core::mem::{offset_of, size_of};

#[cfg(test)]
mod header;

/// Lines of a station.
pub const LINES: usize = 8;
/// Queries that a station remembers.
pub const MEMORY: usize = 512;
/// Hits of one query that are passed back or delivered.
pub const HITS: u8 = 200;
/// Pongs that a station keeps of each line.
pub const PONGS: usize = 10;
/// Hosts of an X-Try field that are read, and that can be written.
pub const PAIRS: usize = 32;
/// Answer numbers: 0 for done, and 21 refusals.
pub const ANSWERS: usize = 22;
/// The shortest output area of a message or an own query.
pub const OUTPUT: usize = 4_119;
/// The shortest held area of a line.
pub const HELD: usize = 4_119;
/// The shortest route area.
pub const ROUTE: usize = 32;
/// The shortest area of a list of names.
pub const NAMES: usize = 4_100;

/// What stands where the answer would be while a message is not whole. It is no answer number.
pub const WAITING: u8 = 255;

/// The mark of a table: no RESET since the line opened.
pub const MARK_NONE: u8 = 0;
/// The mark of a table: RESET, and no PATCH yet.
pub const MARK_WAITING: u8 = 1;
/// The mark of a table: inside a run of PATCHes.
pub const MARK_RUNNING: u8 = 2;
/// The mark of a table: a run is complete. Only such a table withholds queries.
pub const MARK_SETTLED: u8 = 3;
/// The mark of a table: an update was refused; the next RESET mends it.
pub const MARK_BROKEN: u8 = 4;

/// The asker of a remembered query that is this station. A line is 0 to 7.
pub const ASKER_HERE: u8 = 8;
/// The asker of a remembered query whose line has closed since.
pub const ASKER_GONE: u8 = 9;
/// The asker that a look-up gives which found no query.
pub const ASKER_NOBODY: u8 = 10;

/// The kind of a handshake group that was refused.
pub const KIND_NONE: u8 = 0;
/// The kind of a handshake group that greets.
pub const KIND_GREETING: u8 = 1;
/// The kind of a handshake group that replies.
pub const KIND_REPLY: u8 = 2;

/// A neighbour's route table but for its entries, which are in the route area from byte `line * room` on, one byte each.
#[repr(C)]
#[derive(Clone, Copy, Debug, Default, PartialEq, Eq)]
pub struct Table {
    /// One of the `MARK` constants.
    pub mark: u8,
    /// How many entries.
    pub length: u32,
    /// The entry of a keyword that is not there.
    pub infinity: u8,
    /// The place of the run's next PATCH.
    pub place: u8,
    /// How many PATCHes the run has.
    pub size: u8,
    /// The bits of a number in the run.
    pub bits: u8,
    /// The next entry of the run.
    pub at: u32,
}

/// A stored pong.
#[repr(C)]
#[derive(Clone, Copy, Debug, Default, PartialEq, Eq)]
pub struct Pong {
    /// The first 14 bytes of its payload.
    pub bytes: [u8; 14],
    /// Its Hops.
    pub hops: u8,
    /// The clock of the call that brought it.
    pub clock: u32,
}

/// What a line has brought of a message that is not whole.
#[repr(C)]
#[derive(Clone, Copy, Debug, Default, PartialEq, Eq)]
pub struct Pending {
    /// How many bytes: they stand at the front of the line's held area.
    pub count: u16,
    /// Whether nothing more is taken of the line until it is closed and opened.
    pub shut: bool,
}

/// One line of a station.
#[repr(C)]
#[derive(Clone, Copy, Debug, Default, PartialEq, Eq)]
pub struct Line {
    /// Whether it is open.
    pub live: bool,
    /// Whether a ping was accepted.
    pub pinged: bool,
    /// The clock of the last accepted ping.
    pub pingtime: u32,
    /// How many pongs are kept: the places just before `pongnext`, going round.
    pub pongcount: usize,
    /// Where the next pong goes.
    pub pongnext: usize,
    /// The ring of stored pongs.
    pub pongs: [Pong; PONGS],
    /// Its neighbour's table.
    pub table: Table,
    /// The message that it has begun.
    pub pending: Pending,
}

/// The eight lines of a station, as they are handed to a call.
#[repr(C)]
#[derive(Clone, Copy, Debug, Default, PartialEq, Eq)]
pub struct Lines {
    /// Line 0, 1, .. 7.
    pub at: [Line; LINES],
}

/// A station's state.
#[repr(C)]
#[derive(Clone, Debug, PartialEq, Eq)]
pub struct Station {
    /// Entries that there is room for in each neighbour's table: the route area's length / 8.
    pub room: usize,
    /// The lines.
    pub lines: [Line; LINES],
    /// Remembered queries: bytes 0 to 7 of the number, little-endian.
    pub lo: [u64; MEMORY],
    /// Remembered queries: bytes 8 to 15 of the number, little-endian.
    pub hi: [u64; MEMORY],
    /// Remembered queries: a line, [`ASKER_HERE`] or [`ASKER_GONE`].
    pub asker: [u8; MEMORY],
    /// Remembered queries: how many hits were passed back or delivered, at most [`HITS`].
    pub hits: [u8; MEMORY],
    /// How many queries are kept: the places just before `next`, going round.
    pub count: usize,
    /// Where the next query goes.
    pub next: usize,
}

impl Default for Station {
    /// All zero, which is a fresh state with room for no table.
    fn default() -> Station {
        let (lo, hi, asker, hits) = ([0; MEMORY], [0; MEMORY], [0; MEMORY], [0; MEMORY]);
        Station { room: 0, lines: [Line::default(); LINES], lo, hi, asker, hits, count: 0, next: 0 }
    }
}

/// What a station says of itself in a pong.
#[repr(C)]
#[derive(Clone, Copy, Debug, PartialEq, Eq)]
pub struct Own {
    /// Its port.
    pub port: u16,
    /// Its IPv4 address, in network order.
    pub address: [u8; 4],
    /// How many files it shares.
    pub files: u32,
    /// How many kilobytes they have.
    pub kilobytes: u32,
    /// Whether it takes connections.
    pub calls: bool,
}

/// A message's number.
#[repr(C)]
#[derive(Clone, Copy, Debug, PartialEq, Eq)]
pub struct Number {
    /// Bytes 0 to 15 of the header.
    pub bytes: [u8; 16],
}

/// The age of a remembered query. 0 is the newest's, so whether there is an age is said beside it.
#[repr(C)]
#[derive(Clone, Copy, Debug, Default, PartialEq, Eq)]
pub struct Age {
    /// Whether a number was looked up, and found.
    pub known: bool,
    /// How many queries were remembered after it; 0 where none was found.
    pub after: usize,
}

/// What a message or an own query came to.
#[repr(C)]
#[derive(Clone, Copy, Debug, PartialEq, Eq)]
pub struct Told {
    /// 0, or the number of a [`crate::Refusal`]; of [`lunozhar_feed`] also [`WAITING`].
    pub answer: u8,
    /// Bytes used of the message; of [`lunozhar_feed`]: of the bytes of that call.
    pub used: usize,
    /// Bytes written to the output area.
    pub written: usize,
    /// The lines to send them to.
    pub to: [bool; LINES],
    /// Whether a query is for the local search.
    pub search: bool,
    /// Whether the message is a hit for a query of this station's own.
    pub delivered: bool,
    /// Where the query's text starts in the message.
    pub textat: usize,
    /// How long the query's text is.
    pub textlen: usize,
    /// The age of the query that a hit answers, or that a query repeats.
    pub age: Age,
}

/// What bytes of a line came to.
#[repr(C)]
#[derive(Clone, Copy, Debug, PartialEq, Eq)]
pub struct Fed {
    /// What the message came to that was taken.
    pub told: Told,
    /// Whether it stands at the front of the held area, else at the front of the bytes.
    pub within: bool,
    /// Whether it is not whole yet.
    pub waits: bool,
}

/// What a look-up came to.
#[repr(C)]
#[derive(Clone, Copy, Debug, PartialEq, Eq)]
pub struct Finding {
    /// 0, or the number of a [`crate::Refusal`]: 1 or 10.
    pub answer: u8,
    /// A line, [`ASKER_HERE`] or [`ASKER_GONE`]; [`ASKER_NOBODY`] where the answer is not 0.
    pub asker: u8,
    /// How many queries were remembered after it; 0 where the answer is not 0.
    pub after: usize,
}

/// What [`lunozhar_message_lent`] hands back.
#[repr(C)]
#[derive(Clone, Copy, Debug, PartialEq, Eq)]
pub struct Arrival {
    /// The record of the message's line after it.
    pub line: Line,
    /// What the message came to.
    pub told: Told,
}

/// What [`lunozhar_feed_lent`] hands back.
#[repr(C)]
#[derive(Clone, Copy, Debug, PartialEq, Eq)]
pub struct Feeding {
    /// The record of the line after the call.
    pub line: Line,
    /// What the bytes came to.
    pub fed: Fed,
}

/// What [`lunozhar_open_lent`] and [`lunozhar_close_lent`] hand back.
#[repr(C)]
#[derive(Clone, Copy, Debug, PartialEq, Eq)]
pub struct LineChange {
    /// 0, or the number of a [`crate::Refusal`].
    pub answer: u8,
    /// The record of the line after the call.
    pub line: Line,
}

/// What [`lunozhar_fresh_lent`] hands back.
#[repr(C)]
#[derive(Clone, Copy, Debug, PartialEq, Eq)]
pub struct Beginning {
    /// 0, or the number of a [`crate::Refusal`].
    pub answer: u8,
    /// The room of the new station.
    pub room: usize,
    /// Its lines.
    pub lines: [Line; LINES],
}

/// How many messages had each answer.
#[repr(C)]
#[derive(Clone, Copy, Debug, Default, PartialEq, Eq)]
pub struct Tally {
    /// One count for each answer number. A full count stays.
    pub counts: [u32; ANSWERS],
}

/// What a writer came to.
#[repr(C)]
#[derive(Clone, Copy, Debug, PartialEq, Eq)]
pub struct Written {
    /// 0, or the number of a [`crate::Refusal`].
    pub answer: u8,
    /// Bytes written, 0 when refused.
    pub written: usize,
}

/// What the search for a name came to.
#[repr(C)]
#[derive(Clone, Copy, Debug, PartialEq, Eq)]
pub struct NameFound {
    /// 0, or the number of a [`crate::Refusal`].
    pub answer: u8,
    /// The name's place in the list, from 0; 0 where the answer is not 0.
    pub place: usize,
}

/// What the making of a table for a neighbour came to.
#[repr(C)]
#[derive(Clone, Copy, Debug, PartialEq, Eq)]
pub struct Made {
    /// 0, or the number of a [`crate::Refusal`]: 1, 2, 3 or 14.
    pub answer: u8,
    /// The Infinity to write the table with; 0 where the answer is not 0.
    pub infinity: u8,
}

/// A handshake group that was read. When refused, all but the answer is 0.
#[repr(C)]
#[derive(Clone, Copy, Debug, PartialEq, Eq)]
pub struct Group {
    /// 0, or the number of a [`crate::Refusal`].
    pub answer: u8,
    /// The group's length.
    pub used: usize,
    /// One of the `KIND` constants.
    pub kind: u8,
    /// The version before the dot.
    pub major: u32,
    /// The version behind the dot.
    pub minor: u32,
    /// The status code of a reply, 0 for a greeting.
    pub code: u32,
}

/// A handshake field that was asked for.
#[repr(C)]
#[derive(Clone, Copy, Debug, PartialEq, Eq)]
pub struct Asked {
    /// 0, or the number of a [`crate::Refusal`].
    pub answer: u8,
    /// The group's length for 0 and 10, else 0.
    pub used: usize,
    /// The value's length for 0, else 0.
    pub written: usize,
}

/// A host.
#[repr(C)]
#[derive(Clone, Copy, Debug, Default, PartialEq, Eq)]
pub struct Pair {
    /// Its IPv4 address, in network order.
    pub address: [u8; 4],
    /// Its port.
    pub port: u16,
}

/// Hosts.
#[repr(C)]
#[derive(Clone, Copy, Debug, Default, PartialEq, Eq)]
pub struct Pairs {
    /// How many places are in use.
    pub count: usize,
    /// The places. Those not in use are zero when read, and are not looked at when written.
    pub pairs: [Pair; PAIRS],
}

/// The hosts of a handshake group.
#[repr(C)]
#[derive(Clone, Copy, Debug, PartialEq, Eq)]
pub struct Hosts {
    /// 0, or the number of a [`crate::Refusal`].
    pub answer: u8,
    /// The group's length for 0 and 6, else 0.
    pub used: usize,
    /// The hosts.
    pub pairs: Pairs,
}

extern "C" {
    /// [`lunozhar_fresh`] on the parts of a station.
    pub fn lunozhar_fresh_lent(
        lo: *mut u64,
        hi: *mut u64,
        asker: *mut u8,
        hits: *mut u8,
        count: *mut usize,
        next: *mut usize,
        route_len: usize,
    ) -> Beginning;
    /// [`lunozhar_open`] on the parts of a station.
    pub fn lunozhar_open_lent(
        lo: *const u64,
        hi: *const u64,
        asker: *const u8,
        hits: *const u8,
        count: usize,
        next: usize,
        room: usize,
        lines: Lines,
        line: u32,
    ) -> LineChange;
    /// [`lunozhar_close`] on the parts of a station.
    pub fn lunozhar_close_lent(
        lo: *mut u64,
        hi: *mut u64,
        asker: *mut u8,
        hits: *mut u8,
        count: usize,
        next: usize,
        room: usize,
        lines: Lines,
        line: u32,
    ) -> LineChange;
    /// [`lunozhar_message`] on the parts of a station.
    pub fn lunozhar_message_lent(
        lo: *mut u64,
        hi: *mut u64,
        asker: *mut u8,
        hits: *mut u8,
        count: *mut usize,
        next: *mut usize,
        room: usize,
        lines: Lines,
        line: u32,
        clock: u32,
        own: Own,
        message: *const u8,
        message_len: usize,
        out: *mut u8,
        out_len: usize,
        route: *mut u8,
        route_len: usize,
    ) -> Arrival;
    /// [`lunozhar_feed`] on the parts of a station.
    pub fn lunozhar_feed_lent(
        lo: *mut u64,
        hi: *mut u64,
        asker: *mut u8,
        hits: *mut u8,
        count: *mut usize,
        next: *mut usize,
        room: usize,
        lines: Lines,
        line: u32,
        clock: u32,
        own: Own,
        bytes: *const u8,
        len: usize,
        held: *mut u8,
        held_len: usize,
        out: *mut u8,
        out_len: usize,
        route: *mut u8,
        route_len: usize,
    ) -> Feeding;
    /// [`lunozhar_ask`] on the parts of a station.
    pub fn lunozhar_ask_lent(
        lo: *mut u64,
        hi: *mut u64,
        asker: *mut u8,
        hits: *mut u8,
        count: *mut usize,
        next: *mut usize,
        room: usize,
        lines: Lines,
        number: Number,
        text: *const u8,
        text_len: usize,
        out: *mut u8,
        out_len: usize,
        route: *const u8,
        route_len: usize,
    ) -> Told;
    /// [`lunozhar_look_up`] on the parts of a station.
    pub fn lunozhar_look_up_lent(
        lo: *const u64,
        hi: *const u64,
        asker: *const u8,
        hits: *const u8,
        count: usize,
        next: usize,
        room: usize,
        lines: Lines,
        number: Number,
    ) -> Finding;
    /// [`lunozhar_table_for`] on the parts of a station.
    pub fn lunozhar_table_for_lent(
        lo: *const u64,
        hi: *const u64,
        asker: *const u8,
        hits: *const u8,
        count: usize,
        next: usize,
        room: usize,
        lines: Lines,
        line: u32,
        names: *const u8,
        names_len: usize,
        size: u32,
        out: *mut u8,
        out_len: usize,
        route: *const u8,
        route_len: usize,
    ) -> Made;
    /// [`lunozhar_in_order`] on the parts of a station.
    pub fn lunozhar_in_order_lent(
        lo: *const u64,
        hi: *const u64,
        asker: *const u8,
        hits: *const u8,
        count: usize,
        next: usize,
        room: usize,
        lines: Lines,
    ) -> bool;
    /// Counts one more message with this answer.
    pub fn lunozhar_count(tally: *mut Tally, answer: u8);
    /// Writes the updates that turn the old table into the new one.
    pub fn lunozhar_write_table(
        number: Number,
        had: bool,
        old_entries: *const u8,
        old_len: usize,
        old_infinity: u8,
        new_entries: *const u8,
        new_len: usize,
        infinity: u8,
        size: usize,
        out: *mut u8,
        out_len: usize,
    ) -> Written;
    /// Adds a name to a list as the last.
    pub fn lunozhar_name_add(area: *mut u8, area_len: usize, name: *const u8, name_len: usize) -> u8;
    /// Removes a name from a list.
    pub fn lunozhar_name_remove(area: *mut u8, area_len: usize, name: *const u8, name_len: usize) -> u8;
    /// Finds the place of a name in a list.
    pub fn lunozhar_name_find(area: *const u8, area_len: usize, name: *const u8, name_len: usize) -> NameFound;
    /// Makes the table of a list of names.
    pub fn lunozhar_name_table(area: *const u8, area_len: usize, length: u32, infinity: u8, out: *mut u8, out_len: usize) -> u8;
    /// Reads a handshake group.
    pub fn lunozhar_read_group(bytes: *const u8, len: usize) -> Group;
    /// Writes the value of a handshake group's field to an area.
    pub fn lunozhar_read_field(bytes: *const u8, len: usize, name: *const u8, name_len: usize, value: *mut u8, value_len: usize) -> Asked;
    /// Reads the hosts of a handshake group's X-Try field.
    pub fn lunozhar_read_hosts(bytes: *const u8, len: usize) -> Hosts;
    /// Writes the greeting.
    pub fn lunozhar_write_greeting(out: *mut u8, out_len: usize) -> Written;
    /// Writes the reply that takes a connection.
    pub fn lunozhar_write_ok(out: *mut u8, out_len: usize) -> Written;
    /// Writes the reply that turns a connection away and names other hosts.
    pub fn lunozhar_write_busy(pairs: Pairs, out: *mut u8, out_len: usize) -> Written;
    /// The hash of a keyword.
    pub fn lunozhar_hash(keyword: *const u8, len: usize) -> u32;
    /// A keyword's place in a table of `2^bits` entries.
    pub fn lunozhar_place(keyword: *const u8, len: usize, bits: u32) -> u32;
}

/// Asserts the size of each struct and the offset of each field, all of which are to be listed; the tests hold the list to the header's.
macro_rules! layout {
    ($($name:ident $size:literal { $($field:ident $at:literal),+ })+) => {
        $(const _: () = {
            assert!(size_of::<$name>() == $size);
            $(assert!(offset_of!($name, $field) == $at);)+
            const fn _all_fields($name { $($field: _),+ }: &$name) {}
        };)+

        #[cfg(test)]
        const LAYOUT: &[(&str, usize, &[(&str, usize)])] = &[$((stringify!($name), $size, &[$((stringify!($field), $at)),+])),+];
    };
}

layout! {
    Table 16 { mark 0, length 4, infinity 8, place 9, size 10, bits 11, at 12 }
    Pong 20 { bytes 0, hops 14, clock 16 }
    Pending 4 { count 0, shut 2 }
    Line 248 { live 0, pinged 1, pingtime 4, pongcount 8, pongnext 16, pongs 24, table 224, pending 240 }
    Lines 1984 { at 0 }
    Station 11224 { room 0, lines 8, lo 1992, hi 6088, asker 10184, hits 10696, count 11208, next 11216 }
    Own 20 { port 0, address 2, files 8, kilobytes 12, calls 16 }
    Number 16 { bytes 0 }
    Age 16 { known 0, after 8 }
    Told 72 { answer 0, used 8, written 16, to 24, search 32, delivered 33, textat 40, textlen 48, age 56 }
    Fed 80 { told 0, within 72, waits 73 }
    Finding 16 { answer 0, asker 1, after 8 }
    Arrival 320 { line 0, told 248 }
    Feeding 328 { line 0, fed 248 }
    LineChange 256 { answer 0, line 8 }
    Beginning 2000 { answer 0, room 8, lines 16 }
    Tally 88 { counts 0 }
    Written 16 { answer 0, written 8 }
    NameFound 16 { answer 0, place 8 }
    Made 2 { answer 0, infinity 1 }
    Group 32 { answer 0, used 8, kind 16, major 20, minor 24, code 28 }
    Asked 24 { answer 0, used 8, written 16 }
    Pair 6 { address 0, port 4 }
    Pairs 200 { count 0, pairs 8 }
    Hosts 216 { answer 0, used 8, pairs 16 }
}
