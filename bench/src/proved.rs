//! The proved core, called through its boundary. All calls of the library are in this module.

use crate::sides::{Areas, Call, Found, Greeted, Outcome, Side, Writing, ADDRESS, PORT};
use lunozhar::raw::{self, Fed, Number, Own, Station, Told};
use std::mem::MaybeUninit;

/// The proved core, its state on the heap.
#[derive(Clone)]
pub struct Proved(Box<Station>);

const OWN: Own = Own { port: PORT, address: ADDRESS, files: 0, kilobytes: 0, calls: true };

impl Side for Proved {
    type Told = Told;
    type Fed = Fed;

    fn fresh(route: &[u8]) -> Proved {
        let mut station = Box::new(MaybeUninit::<Station>::zeroed());
        // SAFETY: zeros are a station (numbers and bools), and the call writes all of it.
        unsafe {
            raw::lunozhar_fresh(station.as_mut_ptr(), route.len());
            Proved(Box::new(station.assume_init_read()))
        }
    }

    fn open(&mut self, line: u32) -> u8 {
        // SAFETY: the station is this one's own.
        unsafe { raw::lunozhar_open(&mut *self.0, line) }
    }

    #[inline]
    fn message(&mut self, call: &Call, areas: &mut Areas) -> Told {
        let (bytes, out, route) = (&call.bytes, &mut areas.out, &mut areas.route);
        // SAFETY: three areas apart from each other, each with its length.
        unsafe {
            raw::lunozhar_message(
                &mut *self.0,
                call.line,
                call.clock,
                OWN,
                bytes.as_ptr(),
                bytes.len(),
                out.as_mut_ptr(),
                out.len(),
                route.as_mut_ptr(),
                route.len(),
            )
        }
    }

    fn outcome(told: &Told) -> Outcome {
        let Told { answer, used, written, to, search, delivered, textat, textlen, age } = *told;
        let to = to.iter().rev().fold(0, |mask, &sent| mask << 1 | u8::from(sent));
        let (text, after) = ((textat, textlen), age.known.then_some(age.after));
        Outcome { answer, used, written, to, search, delivered, text, after, within: false, waits: false }
    }

    #[inline]
    fn feed(&mut self, call: &Call, from: usize, areas: &mut Areas) -> Fed {
        let (bytes, held) = (&call.bytes[from..], &mut areas.held[call.line as usize]);
        let (out, route) = (&mut areas.out, &mut areas.route);
        // SAFETY: four areas apart from each other, each with its length.
        unsafe {
            raw::lunozhar_feed(
                &mut *self.0,
                call.line,
                call.clock,
                OWN,
                bytes.as_ptr(),
                bytes.len(),
                held.as_mut_ptr(),
                held.len(),
                out.as_mut_ptr(),
                out.len(),
                route.as_mut_ptr(),
                route.len(),
            )
        }
    }

    #[inline]
    fn used(fed: &Fed) -> usize {
        fed.told.used
    }

    fn fed_outcome(fed: &Fed) -> Outcome {
        Outcome { within: fed.within, waits: fed.waits, ..Self::outcome(&fed.told) }
    }

    #[inline]
    fn look_up(&self, number: &[u8; 16]) -> Found {
        // SAFETY: the station is only read.
        let found = unsafe { raw::lunozhar_look_up(&*self.0, Number { bytes: *number }) };
        Found { answer: found.answer, asker: found.asker, after: found.after }
    }

    #[inline]
    fn in_order(&self) -> bool {
        // SAFETY: the station is only read.
        unsafe { raw::lunozhar_in_order(&*self.0) }
    }

    #[inline]
    fn table_for(&self, line: u32, names: &[u8], length: u32, out: &mut [u8], route: &[u8]) -> (u8, u8) {
        let (names_at, out_at, route_at) = (names.as_ptr(), out.as_mut_ptr(), route.as_ptr());
        // SAFETY: three areas, the output apart from the others, each with its length; the station is only read.
        let made =
            unsafe { raw::lunozhar_table_for(&*self.0, line, names_at, names.len(), length, out_at, out.len(), route_at, route.len()) };
        (made.answer, made.infinity)
    }

    #[inline]
    fn hash(keyword: &[u8]) -> u32 {
        // SAFETY: a slice with its length.
        unsafe { raw::lunozhar_hash(keyword.as_ptr(), keyword.len()) }
    }

    #[inline]
    fn name_add(area: &mut [u8], name: &[u8]) -> u8 {
        // SAFETY: two areas apart from each other, each with its length.
        unsafe { raw::lunozhar_name_add(area.as_mut_ptr(), area.len(), name.as_ptr(), name.len()) }
    }

    #[inline]
    fn name_remove(area: &mut [u8], name: &[u8]) -> u8 {
        // SAFETY: two areas apart from each other, each with its length.
        unsafe { raw::lunozhar_name_remove(area.as_mut_ptr(), area.len(), name.as_ptr(), name.len()) }
    }

    #[inline]
    fn name_find(area: &[u8], name: &[u8]) -> (u8, usize) {
        // SAFETY: slices with their lengths, which are only read.
        let found = unsafe { raw::lunozhar_name_find(area.as_ptr(), area.len(), name.as_ptr(), name.len()) };
        (found.answer, found.place)
    }

    #[inline]
    fn name_table(area: &[u8], length: u32, infinity: u8, out: &mut [u8]) -> u8 {
        // SAFETY: two areas apart from each other, each with its length.
        unsafe { raw::lunozhar_name_table(area.as_ptr(), area.len(), length, infinity, out.as_mut_ptr(), out.len()) }
    }

    #[inline]
    fn write_table(writing: &Writing, out: &mut [u8]) -> (u8, usize) {
        let Writing { old, new, infinity, number, size } = writing;
        // SAFETY: three areas apart from each other, each with its length.
        let written = unsafe {
            raw::lunozhar_write_table(
                Number { bytes: *number },
                true,
                old.as_ptr(),
                old.len(),
                *infinity,
                new.as_ptr(),
                new.len(),
                *infinity,
                *size,
                out.as_mut_ptr(),
                out.len(),
            )
        };
        (written.answer, written.written)
    }

    #[inline]
    fn read_group(bytes: &[u8]) -> Greeted {
        // SAFETY: a slice with its length.
        let group = unsafe { raw::lunozhar_read_group(bytes.as_ptr(), bytes.len()) };
        Greeted { answer: group.answer, used: group.used, kind: group.kind, major: group.major, minor: group.minor, code: group.code }
    }

    #[inline]
    fn read_field(bytes: &[u8], name: &[u8], out: &mut [u8]) -> (u8, usize, usize) {
        // SAFETY: three areas apart from each other, each with its length.
        let asked =
            unsafe { raw::lunozhar_read_field(bytes.as_ptr(), bytes.len(), name.as_ptr(), name.len(), out.as_mut_ptr(), out.len()) };
        (asked.answer, asked.used, asked.written)
    }
}
