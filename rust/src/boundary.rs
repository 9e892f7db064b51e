//! The calls of the library: the one module with `unsafe` code. First the calls on a station, under the names and with the parameters that the header
//! has for them; then safe functions over slices and references, a function of [`raw`] each.
//!
//! The library asks of a caller that pointers are not null and point to as much as their length or type says, and that what it is lent to
//! write overlaps nothing else. Slices and references are so, empty ones too, and `&mut` borrows of one call are apart. It keeps no pointer.
#![allow(unsafe_code)]

use crate::raw::{
    self, Asked, Fed, Finding, Group, Hosts, Lines, Made, NameFound, Number, Own, Pairs, Station, Tally, Told, Written, LINES,
};

/// Makes a station over a route area of so many bytes.
///
/// # Safety
///
/// The pointer points to a whole station.
#[inline]
pub unsafe fn lunozhar_fresh(station: *mut Station, route_len: usize) -> u8 {
    let Station { room, lines, lo, hi, asker, hits, count, next } = &mut *station;
    let (lo, hi, asker, hits) = (lo.as_mut_ptr(), hi.as_mut_ptr(), asker.as_mut_ptr(), hits.as_mut_ptr());
    let made = raw::lunozhar_fresh_lent(lo, hi, asker, hits, count, next, route_len);
    *room = made.room;
    *lines = made.lines;
    made.answer
}

/// Opens a line.
///
/// # Safety
///
/// The pointer points to a whole station.
#[inline]
pub unsafe fn lunozhar_open(station: *mut Station, line: u32) -> u8 {
    let Station { room, lines, lo, hi, asker, hits, count, next } = &mut *station;
    let (lo, hi, asker, hits, at) = (lo.as_ptr(), hi.as_ptr(), asker.as_ptr(), hits.as_ptr(), *lines);
    let change = raw::lunozhar_open_lent(lo, hi, asker, hits, *count, *next, *room, Lines { at }, line);
    lines[line as usize % LINES] = change.line;
    change.answer
}

/// Closes a line.
///
/// # Safety
///
/// The pointer points to a whole station.
#[inline]
pub unsafe fn lunozhar_close(station: *mut Station, line: u32) -> u8 {
    let Station { room, lines, lo, hi, asker, hits, count, next } = &mut *station;
    let (lo, hi, asker, hits, at) = (lo.as_mut_ptr(), hi.as_mut_ptr(), asker.as_mut_ptr(), hits.as_mut_ptr(), *lines);
    let change = raw::lunozhar_close_lent(lo, hi, asker, hits, *count, *next, *room, Lines { at }, line);
    lines[line as usize % LINES] = change.line;
    change.answer
}

/// Takes a message that arrived.
///
/// # Safety
///
/// The first pointer points to a whole station, each other to as many bytes as the length behind it says; station, output and route area overlap
/// neither each other nor the message.
#[inline]
#[allow(clippy::too_many_arguments)]
pub unsafe fn lunozhar_message(
    station: *mut Station,
    line: u32,
    clock: u32,
    own: Own,
    message: *const u8,
    message_len: usize,
    out: *mut u8,
    out_len: usize,
    route: *mut u8,
    route_len: usize,
) -> Told {
    let Station { room, lines, lo, hi, asker, hits, count, next } = &mut *station;
    let (lo, hi, asker, hits, at) = (lo.as_mut_ptr(), hi.as_mut_ptr(), asker.as_mut_ptr(), hits.as_mut_ptr(), *lines);
    let arrival = raw::lunozhar_message_lent(
        lo,
        hi,
        asker,
        hits,
        count,
        next,
        *room,
        Lines { at },
        line,
        clock,
        own,
        message,
        message_len,
        out,
        out_len,
        route,
        route_len,
    );
    lines[line as usize % LINES] = arrival.line;
    arrival.told
}

/// Takes bytes as a line brings them, with the held area of that line.
///
/// # Safety
///
/// The first pointer points to a whole station, each other to as many bytes as the length behind it says; station,
/// held area, output and route area overlap neither each other nor the bytes.
#[inline]
#[allow(clippy::too_many_arguments)]
pub unsafe fn lunozhar_feed(
    station: *mut Station,
    line: u32,
    clock: u32,
    own: Own,
    bytes: *const u8,
    len: usize,
    held: *mut u8,
    held_len: usize,
    out: *mut u8,
    out_len: usize,
    route: *mut u8,
    route_len: usize,
) -> Fed {
    let Station { room, lines, lo, hi, asker, hits, count, next } = &mut *station;
    let (lo, hi, asker, hits, at) = (lo.as_mut_ptr(), hi.as_mut_ptr(), asker.as_mut_ptr(), hits.as_mut_ptr(), *lines);
    let feeding = raw::lunozhar_feed_lent(
        lo,
        hi,
        asker,
        hits,
        count,
        next,
        *room,
        Lines { at },
        line,
        clock,
        own,
        bytes,
        len,
        held,
        held_len,
        out,
        out_len,
        route,
        route_len,
    );
    lines[line as usize % LINES] = feeding.line;
    feeding.fed
}

/// Asks a query of the station's own.
///
/// # Safety
///
/// The first pointer points to a whole station, each other to as many bytes as the length behind it says; station and output overlap neither each
/// other nor the text and the route area.
#[inline]
#[allow(clippy::too_many_arguments)]
pub unsafe fn lunozhar_ask(
    station: *mut Station,
    number: Number,
    text: *const u8,
    text_len: usize,
    out: *mut u8,
    out_len: usize,
    route: *const u8,
    route_len: usize,
) -> Told {
    let Station { room, lines, lo, hi, asker, hits, count, next } = &mut *station;
    let (lo, hi, asker, hits, at) = (lo.as_mut_ptr(), hi.as_mut_ptr(), asker.as_mut_ptr(), hits.as_mut_ptr(), *lines);
    raw::lunozhar_ask_lent(lo, hi, asker, hits, count, next, *room, Lines { at }, number, text, text_len, out, out_len, route, route_len)
}

/// Looks a query's number up.
///
/// # Safety
///
/// The pointer points to a whole station.
#[inline]
pub unsafe fn lunozhar_look_up(station: *const Station, number: Number) -> Finding {
    let Station { room, lines, lo, hi, asker, hits, count, next } = &*station;
    let (lo, hi, asker, hits, at) = (lo.as_ptr(), hi.as_ptr(), asker.as_ptr(), hits.as_ptr(), *lines);
    raw::lunozhar_look_up_lent(lo, hi, asker, hits, *count, *next, *room, Lines { at }, number)
}

/// Makes the table to send the neighbour of a line.
///
/// # Safety
///
/// The first pointer points to a whole station, each other to as many bytes as the length behind it says; the output overlaps neither the station
/// nor the names and the route area.
#[inline]
#[allow(clippy::too_many_arguments)]
pub unsafe fn lunozhar_table_for(
    station: *const Station,
    line: u32,
    names: *const u8,
    names_len: usize,
    size: u32,
    out: *mut u8,
    out_len: usize,
    route: *const u8,
    route_len: usize,
) -> Made {
    let Station { room, lines, lo, hi, asker, hits, count, next } = &*station;
    let (lo, hi, asker, hits, at) = (lo.as_ptr(), hi.as_ptr(), asker.as_ptr(), hits.as_ptr(), *lines);
    raw::lunozhar_table_for_lent(
        lo,
        hi,
        asker,
        hits,
        *count,
        *next,
        *room,
        Lines { at },
        line,
        names,
        names_len,
        size,
        out,
        out_len,
        route,
        route_len,
    )
}

/// Whether a state is in order.
///
/// # Safety
///
/// The pointer points to a whole station.
#[inline]
pub unsafe fn lunozhar_in_order(station: *const Station) -> bool {
    let Station { room, lines, lo, hi, asker, hits, count, next } = &*station;
    let (lo, hi, asker, hits, at) = (lo.as_ptr(), hi.as_ptr(), asker.as_ptr(), hits.as_ptr(), *lines);
    raw::lunozhar_in_order_lent(lo, hi, asker, hits, *count, *next, *room, Lines { at })
}

pub(crate) fn fresh(station: &mut Station, route_len: usize) -> u8 {
    // SAFETY: the reference points to a whole station.
    unsafe { raw::lunozhar_fresh(station, route_len) }
}

pub(crate) fn open(station: &mut Station, line: u32) -> u8 {
    // SAFETY: the reference points to a whole station.
    unsafe { raw::lunozhar_open(station, line) }
}

pub(crate) fn close(station: &mut Station, line: u32) -> u8 {
    // SAFETY: the reference points to a whole station.
    unsafe { raw::lunozhar_close(station, line) }
}

pub(crate) fn message(station: &mut Station, line: u32, clock: u32, own: Own, message: &[u8], out: &mut [u8], route: &mut [u8]) -> Told {
    let (out_len, route_len) = (out.len(), route.len());
    // SAFETY: each pointer goes with the length of its slice; station, output and route are borrowed apart, and apart from the message.
    unsafe {
        raw::lunozhar_message(
            station,
            line,
            clock,
            own,
            message.as_ptr(),
            message.len(),
            out.as_mut_ptr(),
            out_len,
            route.as_mut_ptr(),
            route_len,
        )
    }
}

/// The areas that a call which brings bytes is lent to write.
pub(crate) struct Areas<'a> {
    pub held: &'a mut [u8],
    pub out: &'a mut [u8],
    pub route: &'a mut [u8],
}

pub(crate) fn feed(station: &mut Station, line: u32, clock: u32, own: Own, bytes: &[u8], areas: Areas<'_>) -> Fed {
    let Areas { held, out, route } = areas;
    let (held_len, out_len, route_len) = (held.len(), out.len(), route.len());
    // SAFETY: each pointer goes with the length of its slice; station and areas are borrowed apart, and apart from the
    // bytes.
    unsafe {
        raw::lunozhar_feed(
            station,
            line,
            clock,
            own,
            bytes.as_ptr(),
            bytes.len(),
            held.as_mut_ptr(),
            held_len,
            out.as_mut_ptr(),
            out_len,
            route.as_mut_ptr(),
            route_len,
        )
    }
}

pub(crate) fn ask(station: &mut Station, number: Number, text: &[u8], out: &mut [u8], route: &[u8]) -> Told {
    let out_len = out.len();
    // SAFETY: each pointer goes with the length of its slice; station and output are borrowed apart, and apart from what is read.
    unsafe { raw::lunozhar_ask(station, number, text.as_ptr(), text.len(), out.as_mut_ptr(), out_len, route.as_ptr(), route.len()) }
}

pub(crate) fn look_up(station: &Station, number: Number) -> Finding {
    // SAFETY: the reference points to a whole station, which is only read.
    unsafe { raw::lunozhar_look_up(station, number) }
}

pub(crate) fn table_for(station: &Station, line: u32, names: &[u8], size: u32, out: &mut [u8], route: &[u8]) -> Made {
    let out_len = out.len();
    // SAFETY: each pointer goes with the length of its slice; the output is borrowed apart from all that is read.
    unsafe {
        raw::lunozhar_table_for(station, line, names.as_ptr(), names.len(), size, out.as_mut_ptr(), out_len, route.as_ptr(), route.len())
    }
}

pub(crate) fn in_order(station: &Station) -> bool {
    // SAFETY: the reference points to a whole station, which is only read.
    unsafe { raw::lunozhar_in_order(station) }
}

pub(crate) fn count(tally: &mut Tally, answer: u8) {
    // SAFETY: the reference points to a whole tally.
    unsafe { raw::lunozhar_count(tally, answer) }
}

pub(crate) fn write_table(number: Number, old: Option<(&[u8], u8)>, new: (&[u8], u8), size: usize, out: &mut [u8]) -> Written {
    let had = old.is_some();
    let (old, old_infinity) = old.unwrap_or_default();
    let (new, infinity) = new;
    let out_len = out.len();
    // SAFETY: each pointer goes with the length of its slice; the output is borrowed apart from the tables.
    unsafe {
        raw::lunozhar_write_table(
            number,
            had,
            old.as_ptr(),
            old.len(),
            old_infinity,
            new.as_ptr(),
            new.len(),
            infinity,
            size,
            out.as_mut_ptr(),
            out_len,
        )
    }
}

pub(crate) fn name_add(area: &mut [u8], name: &[u8]) -> u8 {
    let area_len = area.len();
    // SAFETY: each pointer goes with the length of its slice; the area is borrowed apart from the name.
    unsafe { raw::lunozhar_name_add(area.as_mut_ptr(), area_len, name.as_ptr(), name.len()) }
}

pub(crate) fn name_remove(area: &mut [u8], name: &[u8]) -> u8 {
    let area_len = area.len();
    // SAFETY: each pointer goes with the length of its slice; the area is borrowed apart from the name.
    unsafe { raw::lunozhar_name_remove(area.as_mut_ptr(), area_len, name.as_ptr(), name.len()) }
}

pub(crate) fn name_find(area: &[u8], name: &[u8]) -> NameFound {
    // SAFETY: each pointer goes with the length of its slice, which is only read.
    unsafe { raw::lunozhar_name_find(area.as_ptr(), area.len(), name.as_ptr(), name.len()) }
}

pub(crate) fn name_table(area: &[u8], length: u32, infinity: u8, out: &mut [u8]) -> u8 {
    let out_len = out.len();
    // SAFETY: each pointer goes with the length of its slice; the output is borrowed apart from the area.
    unsafe { raw::lunozhar_name_table(area.as_ptr(), area.len(), length, infinity, out.as_mut_ptr(), out_len) }
}

pub(crate) fn read_group(bytes: &[u8]) -> Group {
    // SAFETY: the pointer goes with the length of its slice, which is only read.
    unsafe { raw::lunozhar_read_group(bytes.as_ptr(), bytes.len()) }
}

pub(crate) fn read_field(bytes: &[u8], name: &[u8], value: &mut [u8]) -> Asked {
    let value_len = value.len();
    // SAFETY: each pointer goes with the length of its slice; the value's area is borrowed apart from what is read.
    unsafe { raw::lunozhar_read_field(bytes.as_ptr(), bytes.len(), name.as_ptr(), name.len(), value.as_mut_ptr(), value_len) }
}

pub(crate) fn read_hosts(bytes: &[u8]) -> Hosts {
    // SAFETY: the pointer goes with the length of its slice, which is only read.
    unsafe { raw::lunozhar_read_hosts(bytes.as_ptr(), bytes.len()) }
}

pub(crate) fn write_greeting(out: &mut [u8]) -> Written {
    let out_len = out.len();
    // SAFETY: the pointer goes with the length of its slice.
    unsafe { raw::lunozhar_write_greeting(out.as_mut_ptr(), out_len) }
}

pub(crate) fn write_ok(out: &mut [u8]) -> Written {
    let out_len = out.len();
    // SAFETY: the pointer goes with the length of its slice.
    unsafe { raw::lunozhar_write_ok(out.as_mut_ptr(), out_len) }
}

pub(crate) fn write_busy(pairs: Pairs, out: &mut [u8]) -> Written {
    let out_len = out.len();
    // SAFETY: the pointer goes with the length of its slice.
    unsafe { raw::lunozhar_write_busy(pairs, out.as_mut_ptr(), out_len) }
}

pub(crate) fn hash(keyword: &[u8]) -> u32 {
    // SAFETY: the pointer goes with the length of its slice, which is only read.
    unsafe { raw::lunozhar_hash(keyword.as_ptr(), keyword.len()) }
}

pub(crate) fn place(keyword: &[u8], bits: u32) -> u32 {
    // SAFETY: the pointer goes with the length of its slice, which is only read.
    unsafe { raw::lunozhar_place(keyword.as_ptr(), keyword.len(), bits) }
}
