mod ages;
mod feeding;
mod hits;
mod relaying;

use super::*;
use crate::table::{BROKEN, NONE, RUNNING, SETTLED, WAITING};
use std::collections::HashMap;

const OWN: OwnPong = OwnPong { port: 6346, address: [127, 0, 0, 1], files: 3, kilobytes: 0x0102_0304, takes_calls: true };
const OWN_DATA: [u8; 14] = [0xCA, 0x18, 127, 0, 0, 1, 3, 0, 0, 0, 4, 3, 2, 1];
/// What stands for the answer of a call that only waits for more bytes.
const WAITS: u8 = crate::station::WAITING;
const P1: &[u8] = &[0, 4, 0, 0, 0, 8];
const P2: &[u8] = &[1, 1, 1, 0, 4, 9, 9];
const P3: &[u8] = &[1, 1, 1, 0, 8, 0, 0xF9, 0, 0xF9];
const P4: &[u8] = &[1, 1, 1, 0, 4, 0x10, 0];

fn numbered(index: u32) -> [u8; 16] {
    let mut number = [0x55; 16];
    number[3..7].copy_from_slice(&index.to_be_bytes());
    number
}

fn message(number: u32, kind: u8, ttl: u8, hops: u8, payload: &[u8]) -> Vec<u8> {
    let mut bytes = numbered(number).to_vec();
    bytes.extend([kind, ttl, hops]);
    bytes.extend((payload.len() as u32).to_le_bytes());
    bytes.extend(payload);
    bytes
}

fn query(number: u32, ttl: u8, hops: u8, text: &str) -> Vec<u8> {
    message(number, QUERY, ttl, hops, &[b"\0\0", text.as_bytes(), b"\0"].concat())
}

fn hit(number: u32, ttl: u8, hops: u8) -> Vec<u8> {
    message(number, HIT, ttl, hops, &[b'h'; 27])
}

fn update(payload: &[u8]) -> Vec<u8> {
    message(0xFFFF_FFFF, UPDATE, 1, 0, payload)
}

fn ping(number: u32, ttl: u8, hops: u8) -> Vec<u8> {
    message(number, PING, ttl, hops, b"")
}

/// A pong whose fourteen bytes are all `mark`.
fn pong(mark: u8, hops: u8) -> Vec<u8> {
    message(0, PONG, 1, hops, &[mark; 14])
}

/// The numbers that a state in order remembers, the newest first.
fn newest_first(state: &State) -> Vec<[u8; 16]> {
    let (before, behind) = state.numbers.split_at(state.next.into());
    [behind, before].concat().into_iter().rev().take(state.count.into()).collect()
}

/// How many were remembered after the query of this number.
fn age(state: &State, number: &[u8]) -> Option<usize> {
    newest_first(state).iter().position(|other| other == number)
}

/// The age that a message hands up which such a state answers so (document 02, R-2).
fn age_of_message(state: &State, bytes: &[u8], answer: u8) -> Option<usize> {
    let found = match (answer, bytes.get(16)) {
        (9, Some(&QUERY)) | (0 | 11 | 12 | 21, Some(&HIT)) => true,
        (8, Some(&HIT)) => bytes[17] != 0,
        _ => false,
    };
    found.then(|| age(state, &bytes[..16]).expect("it is remembered"))
}

/// The place of the newest query but `after`.
fn place_of_age(state: &State, after: usize) -> usize {
    (usize::from(state.next) + 511 - after) % 512
}

/// The counts of hits after a message that such a state answers so (document 02, R-8): one more for a hit that was
/// taken, which has less than 200 before it; none for a query that was taken; all others as they were.
fn counts_after_message(state: &State, bytes: &[u8], answer: u8) -> [u8; 512] {
    let mut counts = state.hits;
    match (answer, bytes.get(16)) {
        (0, Some(&QUERY)) => counts[usize::from(state.next)] = 0,
        (0 | 8 | 12 | 21, Some(&HIT)) => {
            if let Some(after) = age_of_message(state, bytes, answer) {
                let count = &mut counts[place_of_age(state, after)];
                assert_eq!(*count == 200, answer == 21);
                *count += u8::from(answer == 0);
            }
        }
        _ => {}
    }
    counts
}

/// A state with its areas. Each call checks what holds of every call.
struct Setting {
    state: State,
    out: Vec<u8>,
    route: Vec<u8>,
    own: OwnPong,
    clock: u32,
}

impl Setting {
    fn new(route: usize, lines: &[usize]) -> Setting {
        let route = vec![0xEE; route];
        let (answer, state) = State::fresh(&route);
        assert_eq!(answer, 0);
        let mut setting = Setting { state, out: vec![0xDD; OUTPUT], route, own: OWN, clock: 0 };
        for &line in lines {
            assert_eq!(setting.state.open(line), 0);
        }
        setting
    }

    /// Lines 0 and 1 open, and the table of line 1 after P1 and P2.
    fn settled() -> Setting {
        let mut setting = Setting::new(32, &[0, 1]);
        assert_eq!(setting.answer(1, &update(P1)), 0);
        assert_eq!(setting.answer(1, &update(P2)), 0);
        setting
    }

    fn send(&mut self, line: usize, bytes: &[u8]) -> Handled {
        self.out.fill(0xDD);
        let (before, route) = (self.state.clone(), self.route.clone());
        let handled = self.state.message(line, self.clock, &self.own, bytes, &mut self.out, &mut self.route);
        self.check(&handled);
        assert_eq!(handled.after, age_of_message(&before, bytes, handled.answer));
        assert!(self.state.hits == counts_after_message(&before, bytes, handled.answer), "other counts of hits");
        if handled.answer == 0 && bytes[16] == HIT {
            assert!(self.state == State { hits: self.state.hits, ..before.clone() }, "a hit changed more than that");
        }
        if handled.answer != 0 {
            let used = if handled.answer <= 5 { 0 } else { header::BYTES + header::read(bytes).unwrap().payload as usize };
            assert_eq!(handled, Handled { answer: handled.answer, used, after: handled.after, ..QUIET });
            let mut expected = before;
            if (14..=16).contains(&handled.answer) {
                expected.lines[line].table.mark = BROKEN;
            }
            assert!(self.state == expected && self.route == route, "a refusal changed the state or the route area");
        }
        handled
    }

    fn ask(&mut self, number: u32, text: &[u8]) -> Handled {
        self.out.fill(0xDD);
        let before = self.state.clone();
        let handled = self.state.own_query(&numbered(number), text, &mut self.out, &self.route);
        self.check(&handled);
        assert_eq!(handled.after, if handled.answer == 9 { age(&before, &numbered(number)) } else { None });
        assert!(handled.answer == 0 || self.state == before);
        let mut counts = before.hits;
        if handled.answer == 0 {
            counts[usize::from(before.next)] = 0;
        }
        assert!(self.state.hits == counts, "other counts of hits");
        handled
    }

    fn check(&self, handled: &Handled) {
        assert!(self.state.in_order());
        assert!(self.out[handled.written..].iter().all(|&byte| byte == 0xDD));
        assert_eq!(handled.to == 0, handled.written == 0);
    }

    fn answer(&mut self, line: usize, bytes: &[u8]) -> u8 {
        self.send(line, bytes).answer
    }

    /// The answer and the age.
    fn aged(&mut self, line: usize, bytes: &[u8]) -> (u8, Option<usize>) {
        let handled = self.send(line, bytes);
        (handled.answer, handled.after)
    }

    /// The answer and the lines sent to.
    fn sent(&mut self, line: usize, bytes: &[u8]) -> (u8, u8) {
        let handled = self.send(line, bytes);
        (handled.answer, handled.to)
    }

    /// The pongs that a ping is answered with: Hops and first byte of each. All else in them is checked here.
    fn pongs(&mut self, line: usize, bytes: &[u8]) -> Vec<(u8, u8)> {
        let handled = self.send(line, bytes);
        assert_eq!((handled.answer, handled.written % 37), (0, 0));
        assert!(handled.to == 0 || handled.to == 1 << line);
        self.out[..handled.written]
            .chunks(37)
            .map(|pong| {
                assert_eq!(pong[..16], bytes[..16]);
                assert_eq!((pong[16], pong[17], &pong[19..23]), (PONG, bytes[18].max(1), &[14, 0, 0, 0][..]));
                assert!(pong[23..] == OWN_DATA || pong[23..].iter().all(|&byte| byte == pong[23]));
                (pong[18], pong[23])
            })
            .collect()
    }

    fn mark(&self, line: usize) -> u8 {
        self.state.lines[line].table.mark
    }
}

// Document 01's cases.

#[test]
fn p1_to_p4() {
    let mut setting = Setting::new(32, &[1]);
    assert_eq!(setting.sent(1, &update(P1)), (0, 0));
    assert_eq!((setting.mark(1), &setting.route[4..8]), (WAITING, &[8, 8, 8, 8][..]));
    let waiting = (setting.state.clone(), setting.route.clone());
    for patch in [P2, P3] {
        (setting.state, setting.route) = waiting.clone();
        assert_eq!(setting.sent(1, &update(patch)), (0, 0));
        assert_eq!((setting.mark(1), &setting.route[4..8]), (SETTLED, &[8, 1, 8, 1][..]));
    }
    (setting.state, setting.route) = waiting;
    assert_eq!(setting.sent(1, &update(P4)), (16, 0));
    assert_eq!((setting.mark(1), &setting.route[4..8]), (BROKEN, &[8, 8, 8, 8][..]));
    assert!(setting.route[..4].iter().chain(&setting.route[8..]).all(|&byte| byte == 0xEE));
}

#[test]
fn q1() {
    let mut setting = Setting::settled();
    let bytes = query(7, 3, 1, "eb ebckl");
    let handled = setting.send(0, &[&bytes[..], b"next"].concat());
    let expected = Handled { used: 34, written: 34, to: 2, search: true, text_start: 25, text_length: 8, ..QUIET };
    assert_eq!(handled, expected);
    assert_eq!(setting.out[16..23], [0x80, 2, 2, 0x0B, 0, 0, 0]);
    assert_eq!((&setting.out[..16], &setting.out[23..34]), (&bytes[..16], &bytes[23..]));
    assert_eq!(setting.answer(0, &bytes), 9);
    assert_eq!(setting.answer(1, &bytes), 9);
}

#[test]
fn q2_withheld() {
    let mut setting = Setting::settled();
    let handled = setting.send(0, &query(7, 3, 1, "ebcklmen"));
    assert_eq!((handled.answer, handled.to, handled.search, handled.text_length), (0, 0, true, 8));
    assert_eq!(setting.answer(0, &query(7, 3, 1, "ebcklmen")), 9);
}

#[test]
fn q3_no_keyword() {
    let mut setting = Setting::settled();
    for (number, text) in [(1, ""), (2, " "), (3, "    ")] {
        assert_eq!(setting.sent(0, &query(number, 3, 1, text)), (0, 2));
    }
}

#[test]
fn q4_and_q5() {
    let mut setting = Setting::settled();
    let handled = setting.send(0, &query(7, 15, 6, "eb"));
    assert_eq!((handled.answer, handled.to, handled.search), (0, 0, true));
    assert_eq!(setting.answer(0, &query(7, 15, 6, "eb")), 9);
    assert_eq!(setting.answer(0, &query(8, 16, 0, "eb")), 8);
    assert_eq!(setting.answer(0, &query(8, 0, 0, "eb")), 8);
    assert_eq!(setting.answer(0, &query(8, 1, 7, "eb")), 8);
    assert_eq!(setting.answer(0, &query(8, 1, 255, "eb")), 8);
    assert_eq!(setting.answer(0, &query(7, 16, 0, "eb")), 8);
    assert_eq!(setting.sent(0, &query(8, 15, 0, "eb")), (0, 2));
    assert_eq!(setting.out[17..19], [6, 1]);
}

/// Document 02, R-7: a query is refused by 6, 8 or 9, in this order, whatever its Hops; never by 12.
#[test]
fn never_twelve() {
    let mut setting = Setting::settled();
    setting.send(0, &query(7, 3, 0, "eb"));
    for (hops, ttl) in (0..=255).flat_map(|hops| [0, 1, 2, 15, 16, 255].map(|ttl| (hops, ttl))) {
        let allowed = (1..=15).contains(&ttl) && hops <= 6;
        for number in [7, 1_000 + u32::from(hops) * 256 + u32::from(ttl)] {
            assert_eq!(setting.answer(0, &message(number, QUERY, ttl, hops, b"\0\0eb")), 6);
            let answer = match (allowed, number) {
                (false, _) => 8,
                (true, 7) => 9,
                (true, _) => 0,
            };
            assert_eq!(setting.answer(0, &query(number, ttl, hops, "eb")), answer);
        }
    }
    // The same Hops of a hit that would go on.
    assert_eq!(setting.answer(1, &hit(7, 2, 255)), 12);
}

// State and order.

/// C24: the kept places are those just before the next one, going round.
#[test]
fn turned_ring() {
    let mut setting = Setting::new(32, &[2, 3]);
    setting.state.count = 1;
    setting.state.next = 0;
    setting.state.numbers[511] = numbered(9);
    setting.state.askers[511] = 3;
    setting.state.numbers[0] = numbered(10);
    setting.state.askers[0] = 200;
    assert_eq!(setting.sent(2, &hit(9, 2, 0)), (0, 8));
    assert_eq!(setting.answer(2, &hit(10, 2, 0)), 10);
    assert_eq!(setting.state.close(3), 0);
    assert_eq!(setting.state.askers[511], GONE);
    assert_eq!(setting.answer(2, &hit(9, 2, 0)), 11);
    assert_eq!(setting.answer(2, &query(10, 2, 0, "x")), 0);
    assert_eq!((setting.state.count, setting.state.next, setting.state.askers[0]), (2, 1, 2));
}

/// C25, C27, C28: what is not kept is free; each clause of order on its own.
#[test]
fn order() {
    let mut setting = Setting::new(32, &[1]);
    for number in 0..3 {
        assert_eq!(setting.answer(1, &query(number, 2, 0, "x")), 0);
    }
    for _ in 0..2 {
        assert_eq!(setting.answer(1, &pong(1, 7)), 0);
    }
    let good = setting.state.clone();
    let check = |expected: bool, edit: &dyn Fn(&mut State)| {
        let mut state = good.clone();
        edit(&mut state);
        let (mut out, mut route) = (vec![1; OUTPUT], vec![2; 32]);
        let before = state.clone();
        assert_eq!(state.in_order(), expected);
        if !expected {
            assert_eq!((state.open(1), state.open(9), state.close(1), state.close(9)), (1, 1, 1, 1));
            let refused = Handled { answer: 1, ..QUIET };
            assert_eq!(state.message(9, 0, &OWN, b"", &mut out[..0], &mut route[..0]), refused);
            assert_eq!(state.own_query(&numbered(0), &[0; 9999], &mut out[..0], &route[..0]), refused);
            assert_eq!((state.look_up(&numbered(0)), state.look_up(&numbered(99))), (Err(1), Err(1)));
        }
        assert!(state == before);
    };
    let table = Table { mark: WAITING, length: 4, infinity: 8, place: 1, size: 0, bits: 0, at: 0 };
    let running = Table { mark: RUNNING, place: 2, size: 2, bits: 4, at: 4, ..table };
    let with = |table: Table| move |state: &mut State| state.lines[1].table = table;
    check(true, &|_| {});
    check(false, &|state| state.count = 513);
    check(false, &|state| state.next = 512);
    check(false, &|state| state.next = 2);
    check(true, &|state| (state.next, state.askers[511]) = (2, GONE));
    check(false, &|state| state.numbers[0] = state.numbers[2]);
    check(true, &|state| state.numbers[3] = state.numbers[2]);
    check(true, &|state| (state.askers[0], state.askers[1], state.askers[3]) = (HERE, GONE, 77));
    check(false, &|state| state.askers[0] = 0);
    check(false, &|state| state.askers[2] = 10);
    check(true, &|state| (state.hits[0], state.hits[1], state.hits[2]) = (200, 0, 199));
    check(false, &|state| state.hits[0] = 201);
    check(false, &|state| state.hits[2] = 255);
    check(true, &|state| state.hits[3..].fill(255));
    check(true, &|state| (state.next, state.askers[511], state.hits[511], state.hits[2]) = (2, GONE, 200, 255));
    check(false, &|state| (state.next, state.askers[511], state.hits[511]) = (2, GONE, 201));
    check(false, &|state| state.lines[1] = Line::CLOSED);
    check(true, &|state| state.lines[0].pong_next = 9);
    check(false, &|state| state.lines[0].pong_next = 10);
    check(false, &|state| state.lines[0].pong_count = 1);
    check(false, &|state| state.lines[0].pinged = true);
    check(true, &|state| state.lines[0].ping_clock = 1);
    check(false, &|state| state.lines[0].table = table);
    check(false, &|state| state.lines[0].table.mark = BROKEN);
    check(true, &|state| state.lines[0].table = Table { mark: NONE, ..table });
    check(false, &|state| state.lines[1].pong_count = 11);
    check(false, &|state| state.lines[1].pongs[1].hops = 8);
    check(true, &|state| state.lines[1].pongs[2].hops = 8);
    check(true, &with(table));
    check(true, &with(Table { size: 9, bits: 9, ..table }));
    check(false, &with(Table { mark: 5, ..table }));
    check(false, &with(Table { length: 8, ..table }));
    check(false, &with(Table { length: 3, ..table }));
    check(false, &with(Table { infinity: 1, ..table }));
    check(false, &with(Table { infinity: 128, ..table }));
    check(false, &with(Table { place: 2, ..table }));
    check(false, &with(Table { mark: SETTLED, at: 1, ..table }));
    check(true, &with(Table { mark: BROKEN, length: 3, infinity: 0, place: 0, size: 7, bits: 1, at: 99 }));
    check(true, &with(running));
    check(true, &with(Table { at: 3, ..running }));
    check(false, &with(Table { place: 1, ..running }));
    check(false, &with(Table { place: 3, ..running }));
    check(false, &with(Table { bits: 5, ..running }));
    check(false, &with(Table { at: 5, ..running }));
    check(true, &with(Table { place: 255, size: 255, bits: 8, at: 0, ..running }));
}

/// A state with everything that can be kept: eight open lines, 512 queries, the ring turned to `next`, ten pongs of each line, its ring turned
/// too, and of the tables three settled, two waiting, two running and one broken.
fn full(next: u16) -> State {
    let mut state = Setting::new(8 * 16, &[0, 1, 2, 3, 4, 5, 6, 7]).state;
    (state.count, state.next) = (512, next);
    for (place, number) in (0..).zip(&mut state.numbers) {
        *number = numbered(place * 7 % 512);
    }
    for (place, asker) in (0u16..).zip(&mut state.askers) {
        *asker = (place % 10) as u8;
    }
    for (place, hits) in (0u16..).zip(&mut state.hits) {
        *hits = (place % 201) as u8;
    }
    let table = Table { mark: SETTLED, length: 16, infinity: 8, place: 1, size: 0, bits: 0, at: 0 };
    for (line, turn) in state.lines.iter_mut().zip(0..) {
        (line.pinged, line.ping_clock, line.pong_count, line.pong_next) = (true, 5, 10, turn);
        line.pongs = [Pong { data: [turn; 14], hops: 7, clock: 3 }; PONGS];
        line.table = match turn {
            0 | 4 => Table { mark: WAITING, ..table },
            1 | 5 => Table { mark: RUNNING, place: 2, size: 3, bits: 4, at: 16, ..table },
            2 => Table { mark: BROKEN, ..table },
            _ => table,
        };
    }
    state
}

/// Each clause of order, broken alone in a full state; and what stands just inside of it.
#[test]
fn order_of_a_full_state() {
    let close = |state: &mut State| {
        state.lines[6] = Line::CLOSED;
        state.askers.iter_mut().filter(|asker| **asker == 6).for_each(|asker| *asker = GONE);
    };
    for next in [0, 1, 200, 511] {
        let good = full(next);
        let check = |expected: bool, what: &str, edit: &dyn Fn(&mut State)| {
            let mut state = good.clone();
            edit(&mut state);
            assert_eq!(state.in_order(), expected, "{what}, next {next}");
            let before = state.clone();
            let mut called = state.clone();
            assert_eq!(called.open(8), if expected { 3 } else { 1 }, "{what}, next {next}");
            assert_eq!(called.look_up(&numbered(1_000)), Err(if expected { 10 } else { 1 }), "{what}, next {next}");
            assert!(called == before, "{what}, next {next}");
        };
        check(true, "nothing", &|_| {});
        check(false, "count 513", &|state| state.count = 513);
        check(false, "count 65,535", &|state| state.count = 65_535);
        check(true, "count 511", &|state| state.count = 511);
        check(true, "count 0", &|state| state.count = 0);
        check(false, "next 512", &|state| state.next = 512);
        check(false, "next 65,535", &|state| state.next = 65_535);
        for (one, two) in [(0, 511), (511, 0), (199, 200), (200, 199), (0, 1), (37, 400)] {
            check(false, "a number twice", &|state| state.numbers[one] = state.numbers[two]);
        }
        check(false, "an asker over 9", &|state| state.askers[300] = 10);
        check(false, "an asker of 255", &|state| state.askers[0] = 255);
        for place in [0, 127, 128, 199, 200, 201, 511] {
            check(true, "200 hits", &|state| state.hits[place] = 200);
            check(false, "201 hits", &|state| state.hits[place] = 201);
            check(false, "255 hits", &|state| state.hits[place] = 255);
        }
        check(true, "200 hits of each", &|state| state.hits.fill(200));
        let free = usize::from(next);
        check(true, "255 hits at the place that is free", &|state| (state.count, state.hits[free]) = (511, 255));
        check(true, "255 hits, and none kept", &|state| (state.count, state.hits) = (0, [255; 512]));
        check(true, "a line closed", &close);
        for (place, mark) in [(0, 6), (511, 6), (200, 6)] {
            check(false, "a closed line as asker", &|state| (close(state), state.askers[place] = mark).1);
        }
        check(false, "closed with a table", &|state| (close(state), state.lines[6].table = good.lines[3].table).1);
        check(false, "closed with a broken table", &|state| (close(state), state.lines[6].table.mark = BROKEN).1);
        check(false, "closed with a pong", &|state| (close(state), state.lines[6].pong_count = 1).1);
        check(false, "closed with a ping time", &|state| (close(state), state.lines[6].pinged = true).1);
        check(false, "eleven pongs", &|state| state.lines[7].pong_count = 11);
        check(true, "nine pongs", &|state| state.lines[7].pong_count = 9);
        check(false, "pong next 10", &|state| state.lines[0].pong_next = 10);
        for place in 0..10 {
            check(false, "a pong's Hops", &|state| state.lines[place % 8].pongs[place].hops = 8);
        }
        check(false, "mark 5", &|state| state.lines[2].table.mark = 5);
        check(false, "mark 255", &|state| state.lines[2].table.mark = 255);
        for (line, rule) in [(0, "waiting"), (1, "running"), (3, "settled")] {
            let check = |expected: bool, what: &str, edit: &dyn Fn(&mut Table)| {
                check(expected, &format!("{rule}: {what}"), &|state| edit(&mut state.lines[line].table));
            };
            check(false, "length 12", &|table| (table.length, table.at) = (12, table.at.min(12)));
            check(false, "length 2", &|table| (table.length, table.at) = (2, table.at.min(2)));
            check(false, "length over the room", &|table| table.length = 32);
            check(true, "length 4", &|table| (table.length, table.at) = (4, table.at.min(4)));
            check(false, "Infinity 1", &|table| table.infinity = 1);
            check(true, "Infinity 2", &|table| table.infinity = 2);
            check(true, "Infinity 127", &|table| table.infinity = 127);
            check(false, "Infinity 128", &|table| table.infinity = 128);
            check(line == 1, "place 3", &|table| table.place = 3);
            check(line != 1, "place 1", &|table| table.place = 1);
            check(false, "place 0", &|table| table.place = 0);
            check(false, "place 4", &|table| table.place = 4);
            check(line == 1, "entry 1", &|table| table.at = 1);
            check(false, "entry past the table", &|table| table.at = 17);
            check(line != 1, "bits 5", &|table| table.bits = 5);
            check(line != 1, "size 1", &|table| table.size = 1);
        }
    }
}

/// All sixteen bytes of a number count: in a state that is in order, for a query, an own query and a hit.
#[test]
fn numbers_unlike_in_one_byte() {
    let kept = numbered(77);
    for place in 0..16 {
        for change in [1, 0x80, 0xFF] {
            let mut other = kept;
            other[place] ^= change;
            let carrying = |mut bytes: Vec<u8>| {
                bytes[..16].copy_from_slice(&other);
                bytes
            };
            let mut setting = Setting::new(32, &[0, 1]);
            assert_eq!(setting.answer(0, &query(77, 2, 0, "x")), 0);
            assert_eq!(setting.answer(1, &carrying(hit(77, 2, 0))), 10, "byte {place}");
            assert_eq!(setting.sent(1, &hit(77, 2, 0)), (0, 1), "byte {place}");
            let state = setting.state.clone();
            assert_eq!(setting.answer(1, &carrying(query(77, 2, 0, "x"))), 0, "byte {place}");
            assert_eq!(setting.sent(1, &carrying(hit(77, 2, 0))), (0, 2), "byte {place}");
            assert_eq!(setting.sent(1, &hit(77, 2, 0)), (0, 1), "byte {place}");
            setting.state = state;
            assert_eq!(setting.state.own_query(&other, b"", &mut setting.out, &setting.route).answer, 0, "byte {place}");
            assert_eq!(setting.state.own_query(&other, b"", &mut setting.out, &setting.route).answer, 9, "byte {place}");
            for next in [0, 1, 300] {
                let mut state = full(next);
                let (one, two) = (usize::from(next), (usize::from(next) + 511) % 512);
                state.numbers[one] = numbered(1000);
                state.numbers[two] = numbered(1000);
                assert!(!state.in_order());
                state.numbers[two][place] ^= change;
                assert!(state.in_order(), "byte {place}");
            }
        }
    }
}

/// A state that keeps these numbers, the oldest at the place `from`, going round.
fn keeping(numbers: &[[u8; 16]], from: usize) -> State {
    let mut state = full(((from + numbers.len()) % 512) as u16);
    state.count = numbers.len() as u16;
    for (number, place) in numbers.iter().zip(from..) {
        state.numbers[place % 512] = *number;
    }
    state
}

/// The state is in order, each of its kept numbers is found at its own place, and none of the others is found.
fn check_found(state: &State, others: &[[u8; 16]]) {
    for (after, number) in newest_first(state).iter().enumerate() {
        let place = place_of_age(state, after);
        assert_eq!(state.look_up(number), Ok(Remembered { asker: state.askers[place], after }));
    }
    assert!(others.iter().all(|number| state.look_up(number) == Err(10)));
}

/// Numbers that are unlike in one byte, in any of the sixteen, and a ring that goes round.
#[test]
fn near_numbers_are_found() {
    let near = |change: u8| {
        (0..16).map(move |byte| {
            let mut number = numbered(5_000);
            number[byte] ^= change;
            number
        })
    };
    let kept: Vec<[u8; 16]> = near(1).chain(near(0x80)).chain([numbered(5_000)]).collect();
    let others: Vec<[u8; 16]> = near(2).chain(near(0x81)).collect();
    for from in [0, 1, 300, 479, 480, 495, 511] {
        check_found(&keeping(&kept, from), &others);
    }
}

/// 500 kept, with two alike at any two of the 512 places: out of order if both places are kept.
#[test]
fn two_alike_at_any_places() {
    let numbers: Vec<[u8; 16]> = (0..500).map(|index: u32| numbered(index.wrapping_mul(0x9E37_79B9))).collect();
    let mut state = keeping(&numbers, 212);
    check_found(&state, &[numbered(1)]);
    for one in 0..512 {
        for two in 0..one {
            let before = state.numbers[one];
            state.numbers[one] = state.numbers[two];
            let kept = |place| !(200..212).contains(&place);
            assert_eq!(state.in_order(), !(kept(one) && kept(two)), "{one}, {two}");
            state.numbers[one] = before;
        }
    }
}

/// 512 numbers of one chain: some found by search, and some whose products are alike, since their halves differ in the same bits.
#[test]
fn numbers_of_one_chain() {
    let searched = (0..).map(numbered).filter(|number| memory::chain(number) == memory::chain(&numbered(0)));
    let halves = |low: u64| (u128::from(low ^ 0x1234_5678_9ABC_DEF0) << 64 | u128::from(low)).to_le_bytes();
    let alike = (0..).map(|low: u64| halves(low.wrapping_mul(0x0123_4567_89AB_CDEF)));
    for numbers in [searched.take(513).collect::<Vec<_>>(), alike.take(513).collect()] {
        assert!(numbers.iter().all(|number| memory::chain(number) == memory::chain(&numbers[0])));
        for from in [0, 1, 300, 511] {
            let state = keeping(&numbers[..512], from);
            check_found(&state, &numbers[512..]);
            for (one, two) in [(0, 1), (0, 511), (255, 256), (299, 300), (10, 400), (510, 511)] {
                let mut state = state.clone();
                state.numbers[one] = state.numbers[two];
                assert!(!state.in_order());
            }
        }
    }
}

/// Numbers are found while queries come and go, and after the ring was turned from outside.
#[test]
fn queries_come_and_go() {
    let mut setting = Setting::new(32, &[0, 1]);
    let (mut numbers, mut counts) = (Vec::new(), HashMap::new());
    for step in 0..1_700u32 {
        let number = step.wrapping_mul(0x9E37_79B9);
        let there = numbers.iter().rev().take(512).any(|&other| other == number);
        assert_eq!(setting.state.own_query(&numbered(number), b"", &mut setting.out, &setting.route).answer, if there { 9 } else { 0 });
        numbers.push(number);
        let kept: Vec<u32> = numbers.iter().rev().take(512).copied().collect();
        let known = [kept[0], kept[kept.len() / 2], kept[kept.len() - 1]];
        for number in known {
            let handled = setting.state.message(1, 0, &OWN, &hit(number, 2, 0), &mut setting.out, &mut setting.route);
            let count = counts.entry(number).or_insert(0);
            let expected = if *count < 200 { (0, true) } else { (21, false) };
            assert_eq!((handled.answer, handled.delivered), expected, "{number}");
            *count += u32::from(handled.delivered);
        }
        if let Some(&gone) = numbers.iter().rev().nth(512) {
            assert_eq!(setting.answer(1, &hit(gone, 2, 0)), 10);
        }
        if step % 100 == 99 {
            // The same queries, the ring turned otherwise.
            let state = &mut setting.state;
            state.numbers.rotate_left(7);
            state.askers.rotate_left(7);
            state.hits.rotate_left(7);
            state.next = (state.next + 505) % 512;
            assert!(state.in_order());
        }
    }
}

/// C29, C33: 2 before 3; the room is the route area's length divided by eight.
#[test]
fn areas() {
    let mut setting = Setting::new(39, &[0]);
    let bytes = query(1, 1, 0, "");
    let (mut out, mut route) = (vec![0; OUTPUT], vec![0; 40]);
    let mut state = setting.state.clone();
    assert_eq!(state.message(5, 0, &OWN, &bytes, &mut out[..OUTPUT - 1], &mut route[..32]).answer, 2);
    assert_eq!(state.message(5, 0, &OWN, &bytes, &mut out, &mut route[..32]).answer, 3);
    assert_eq!(state.message(8, 0, &OWN, &bytes, &mut out, &mut route[..32]).answer, 3);
    assert_eq!(state.message(usize::MAX, 0, &OWN, &bytes, &mut out, &mut route[..32]).answer, 3);
    for (length, expected) in [(0, 2), (31, 2), (32, 0), (35, 0), (39, 0), (40, 2)] {
        let mut state = setting.state.clone();
        assert_eq!(state.message(0, 0, &OWN, &bytes, &mut out, &mut route[..length]).answer, expected);
        let mut state = setting.state.clone();
        assert_eq!(state.own_query(&numbered(1), b"x", &mut out, &route[..length]).answer, expected);
    }
    assert_eq!(setting.state.own_query(&numbered(1), &[0; 9999], &mut out[..OUTPUT - 1], &route[..32]).answer, 2);
}

/// C30: 4, 5, 4, 7 in that order.
#[test]
fn whole_messages() {
    let mut setting = Setting::new(32, &[0]);
    let mut long = message(1, QUERY, 1, 0, b"");
    long[19..23].copy_from_slice(&4097u32.to_le_bytes());
    assert_eq!(setting.answer(0, &long[..22]), 4);
    assert_eq!(setting.answer(0, &long), 5);
    long[16] = 0x02;
    assert_eq!(setting.answer(0, &long), 5);
    long[19..23].copy_from_slice(&u32::MAX.to_le_bytes());
    assert_eq!(setting.answer(0, &long), 5);
    let bye = message(1, 0x02, 1, 0, &[0; 10]);
    assert_eq!(setting.answer(0, &bye[..30]), 4);
    assert_eq!(setting.send(0, &bye), Handled { answer: 7, used: 33, ..QUIET });
    for kind in (0..=255).filter(|kind| ![PING, PONG, QUERY, HIT, UPDATE].contains(kind)) {
        assert_eq!(setting.answer(0, &message(1, kind, 1, 0, b"")), 7);
    }
    assert_eq!(setting.answer(0, &message(1, PING, 1, 0, &[7; 4096])), 0);
    assert_eq!(setting.answer(0, &message(1, QUERY, 1, 0, &[0; 4096])), 0);
}

/// C34: a fresh state over a short area.
#[test]
fn fresh() {
    for (length, answer, room) in [(0, 2, 0), (31, 2, 0), (32, 0, 4), (39, 0, 4), (40, 0, 5), (16_384, 0, 2048)] {
        let (given, state) = State::fresh(&vec![0; length]);
        assert_eq!((given, state.room), (answer, room));
        assert!(state.in_order() && state.lines.iter().all(|line| *line == Line::CLOSED));
        assert_eq!((state.count, state.hits), (0, [0; 512]));
    }
}

#[test]
fn opening_and_closing() {
    let mut setting = Setting::new(32, &[0, 3]);
    let state = &mut setting.state;
    assert_eq!((state.open(3), state.open(8), state.close(4), state.close(8)), (3, 3, 3, 3));
    setting.send(3, &update(P1));
    setting.send(3, &pong(1, 0));
    setting.send(3, &ping(1, 7, 0));
    assert_eq!(setting.state.close(3), 0);
    assert_eq!(setting.state.lines[3], Line::CLOSED);
    assert_eq!(setting.state.open(3), 0);
    assert_eq!(setting.state.lines[3], Line::OPENED);
    assert_eq!(setting.answer(3, &update(P2)), 15);
}

// Queries and hits.

/// C35: the TTL to be sent is compared, not the one that came.
#[test]
fn ttl_to_be_sent() {
    let mut setting = Setting::new(32, &[0, 1]);
    setting.send(1, &update(P1));
    assert_eq!(setting.answer(1, &update(&[1, 1, 1, 0, 4, 0xBB, 0xBB])), 0);
    assert_eq!(setting.route[4..8], [3; 4]);
    assert_eq!(setting.sent(0, &query(1, 3, 1, "eb")), (0, 0));
    assert_eq!(setting.sent(0, &query(2, 4, 1, "eb")), (0, 2));
    assert_eq!(setting.out[17], 3);
    setting.send(1, &update(P1));
    assert_eq!(setting.answer(1, &update(&[1, 1, 1, 0, 4, 0xAA, 0xAA])), 0);
    assert_eq!(setting.route[4..8], [2; 4]);
    assert_eq!(setting.sent(0, &query(3, 15, 5, "eb")), (0, 0));
    assert_eq!(setting.sent(0, &query(4, 15, 4, "eb")), (0, 2));
}

/// C36: an entry of Infinity means none.
#[test]
fn infinity_is_none() {
    let mut setting = Setting::new(32, &[0, 1]);
    setting.send(1, &update(&[0, 4, 0, 0, 0, 2]));
    assert_eq!(setting.answer(1, &update(&[1, 1, 1, 0, 4, 0, 0])), 0);
    assert_eq!(setting.sent(0, &query(1, 7, 0, "eb")), (0, 0));
    assert_eq!(setting.ask(2, b"eb").to, 1);
}

/// C40: 512 are remembered, no fewer and no more.
#[test]
fn the_last_512() {
    for (others, expected) in [(511, 0), (512, 10)] {
        let mut setting = Setting::new(32, &[0, 1]);
        assert_eq!(setting.answer(0, &query(0, 1, 0, "")), 0);
        for number in 1..=others {
            let handled = setting.state.own_query(&numbered(number), b"", &mut setting.out, &setting.route);
            assert_eq!(handled.answer, 0);
        }
        assert_eq!(setting.answer(1, &hit(0, 2, 0)), expected);
        assert_eq!(setting.answer(0, &query(0, 1, 0, "")), if expected == 0 { 9 } else { 0 });
    }
}

/// C43: the order of a hit's checks.
#[test]
fn hits() {
    let mut setting = Setting::new(32, &[0, 1, 2]);
    setting.send(0, &query(1, 1, 0, ""));
    setting.send(2, &query(2, 1, 0, ""));
    setting.ask(3, b"");
    assert_eq!(setting.state.close(2), 0);
    assert_eq!(setting.answer(1, &message(9, HIT, 0, 0, &[0; 26])), 6);
    assert_eq!(setting.answer(1, &hit(9, 0, 0)), 8);
    assert_eq!(setting.answer(1, &hit(3, 0, 0)), 8);
    assert_eq!(setting.answer(1, &hit(9, 1, 0)), 10);
    assert_eq!(setting.answer(1, &hit(2, 1, 255)), 11);
    let before = setting.state.clone();
    assert_eq!(setting.send(1, &hit(3, 1, 255)), Handled { used: 50, delivered: true, after: Some(0), ..QUIET });
    assert_eq!(setting.answer(1, &hit(1, 1, 255)), 8);
    assert_eq!(setting.answer(1, &hit(1, 2, 255)), 12);
    let bytes = hit(1, 200, 254);
    assert_eq!(setting.send(1, &bytes), Handled { used: 50, written: 50, to: 1, after: Some(2), ..QUIET });
    assert_eq!(setting.out[16..23], [0x81, 199, 255, 27, 0, 0, 0]);
    assert_eq!((&setting.out[..16], &setting.out[23..50]), (&bytes[..16], &bytes[23..]));
    // C44: back over the line that it came by.
    assert_eq!(setting.sent(0, &hit(1, 2, 0)), (0, 1));
    // two of number 1 and one of number 3, and nothing else.
    assert_eq!(setting.state.hits[..4], [2, 0, 1, 0]);
    assert!(setting.state == State { hits: setting.state.hits, ..before });
}

/// C45, C46: the next neighbour on a line does not inherit.
#[test]
fn no_inheritance() {
    let mut setting = Setting::new(32, &[0, 3]);
    setting.send(3, &query(1, 7, 0, ""));
    assert_eq!((setting.state.close(3), setting.state.open(3)), (0, 0));
    assert_eq!(setting.sent(0, &hit(1, 7, 0)), (11, 0));
    assert_eq!(setting.answer(3, &query(1, 7, 0, "")), 9);
}

/// C47, C48: where the text ends.
#[test]
fn query_payloads() {
    let mut setting = Setting::settled();
    assert_eq!(setting.sent(0, &message(1, QUERY, 3, 1, &[0, 0, 0])), (0, 2));
    for (number, payload) in [&b""[..], b"\0", b"\0\0", b"\0\0abc"].into_iter().enumerate() {
        assert_eq!(setting.answer(0, &message(10 + number as u32, QUERY, 0, 9, payload)), 6);
    }
    let handled = setting.send(0, &message(2, QUERY, 3, 1, b"\0\0eb\0ebcklmen\0"));
    assert_eq!((handled.answer, handled.to, handled.text_length, handled.written), (0, 2, 2, 23 + 14));
    assert_eq!(&setting.out[23..37], b"\0\0eb\0ebcklmen\0");
    assert_eq!(setting.answer(0, &message(3, QUERY, 3, 1, b"xyeb\0")), 0);
}

/// C41, C42: own queries.
#[test]
fn own_queries() {
    let mut setting = Setting::settled();
    let handled = setting.ask(1, b"eb");
    assert_eq!(handled, Handled { written: 28, to: 3, ..QUIET });
    assert_eq!(setting.out[..28], query(1, 7, 0, "eb"));
    assert_eq!(setting.ask(2, b"ebcklmen").to, 1);
    assert_eq!(setting.ask(1, b"x").answer, 9);
    assert_eq!(setting.answer(0, &query(1, 7, 0, "x")), 9);
    assert_eq!(setting.ask(1, &[0; 4093]).answer, 6);
    assert_eq!(setting.ask(1, &[0; 4094]).answer, 5);
    let handled = setting.ask(4, &[b'x'; 4093]);
    assert_eq!((handled.answer, handled.to, handled.written), (0, 1, OUTPUT));
    let mut setting = Setting::new(32, &[]);
    assert_eq!(setting.ask(5, b""), QUIET);
    assert_eq!((setting.state.count, setting.state.askers[0], setting.state.numbers[0]), (1, HERE, numbered(5)));
    // The entry is compared with TTL 7.
    let mut setting = Setting::new(32, &[0]);
    setting.send(0, &update(&[0, 4, 0, 0, 0, 9]));
    setting.send(0, &update(&[1, 1, 1, 0, 4, 0xEE, 0xEE]));
    assert_eq!(setting.ask(6, b"eb").to, 1);
    setting.send(0, &update(&[1, 1, 1, 0, 4, 0x11, 0x11]));
    assert_eq!(setting.ask(7, b"eb").to, 0);
}

// Pings and pongs.

/// C49, C50, C52: spacing, with clock 0 and with a clock that goes round.
#[test]
fn ping_spacing() {
    for start in [0, 5, 4_294_967_200u32] {
        let mut setting = Setting::new(32, &[0]);
        for (after, expected) in [(0, 0), (0, 13), (196, 13), (999, 13), (1000, 0), (1999, 13), (2000, 0), (1999, 0)] {
            setting.clock = start.wrapping_add(after);
            assert_eq!(setting.answer(0, &ping(1, 7, 0)), expected, "{start} + {after}");
        }
    }
}

/// C51, C56: the ping that asks for this station alone.
#[test]
fn neighbour_ping() {
    for takes_calls in [true, false] {
        let mut setting = Setting::new(32, &[0, 1]);
        setting.own.takes_calls = takes_calls;
        setting.send(1, &pong(9, 0));
        for hops in [0, 1, 0] {
            let before = setting.state.clone();
            assert_eq!(setting.pongs(0, &ping(1, 1, hops)), [(0, 0xCA)]);
            assert!(setting.state == before);
        }
        let own: &[(u8, u8)] = if takes_calls { &[(0, 0xCA), (1, 9)] } else { &[(1, 9)] };
        assert_eq!(setting.pongs(0, &ping(1, 1, 2)), own);
        assert_eq!(setting.answer(0, &ping(1, 1, 255)), 13);
        assert_eq!(setting.pongs(0, &ping(1, 1, 1)), [(0, 0xCA)]);
        assert_eq!(setting.answer(0, &ping(1, 2, 0)), 13);
        assert_eq!(setting.answer(0, &ping(1, 0, 0)), 8);
        setting.clock = 1000;
        assert_eq!(setting.pongs(0, &ping(1, 255, 255)), own);
    }
}

#[test]
fn ping_with_nothing_to_send() {
    let mut setting = Setting::new(32, &[0]);
    setting.own.takes_calls = false;
    assert_eq!(setting.send(0, &ping(1, 7, 0)), Handled { used: 23, ..QUIET });
    assert_eq!(setting.answer(0, &ping(1, 7, 0)), 13);
}

/// C53, C54: own pong besides ten stored ones, rank by rank.
#[test]
fn ranks() {
    let mut setting = Setting::new(32, &[0, 2, 5, 7]);
    for (line, marks) in [(0, 1..=3), (2, 21..=32), (5, 51..=52), (7, 71..=81)] {
        for mark in marks {
            assert_eq!(setting.sent(line, &pong(mark, mark % 8)), (0, 0));
        }
    }
    let expected: Vec<(u8, u8)> = [3, 32, 52, 2, 31, 51, 1, 30, 29, 28].into_iter().map(|mark| (mark % 8 + 1, mark)).collect();
    let own = vec![(0, 0xCA)];
    assert_eq!(setting.pongs(7, &ping(1, 7, 3)), [own, expected].concat());
    assert_eq!(setting.send(5, &ping(1, 7, 0)).written, 11 * 37);
    // The eleventh and twelfth took the places of the two oldest.
    let line = &setting.state.lines[2];
    assert_eq!((line.pong_count, line.pong_next), (10, 2));
    assert_eq!(line.pongs.map(|pong| pong.data[0]), [31, 32, 23, 24, 25, 26, 27, 28, 29, 30]);
}

/// C54: newest is by arrival, whatever the clock said.
#[test]
fn newest_by_arrival() {
    let mut setting = Setting::new(32, &[0, 1]);
    setting.own.takes_calls = false;
    for (mark, clock) in [(1, 900), (2, 300), (3, 600)] {
        setting.clock = clock;
        setting.send(1, &pong(mark, 0));
    }
    setting.clock = 1000;
    assert_eq!(setting.pongs(0, &ping(1, 7, 0)), [(1, 3), (1, 2), (1, 1)]);
}

/// C55: old pongs are skipped and do not count.
#[test]
fn old_pongs() {
    let mut setting = Setting::new(32, &[0, 1, 2]);
    setting.own.takes_calls = false;
    let start = 4_294_960_000u32;
    for mark in 1..=10 {
        setting.clock = start.wrapping_add(u32::from(mark % 2));
        setting.send(1, &pong(mark, 0));
        setting.clock = start.wrapping_add(1);
        setting.send(2, &pong(mark + 100, 0));
    }
    setting.clock = start.wrapping_add(15_000);
    let expected = [9, 7].map(|mark| [(1, mark + 101), (1, mark), (1, mark + 100)]).concat();
    let sent = setting.pongs(0, &ping(1, 7, 0));
    assert_eq!((&sent[..6], sent.len()), (&expected[..], 10));
    setting.clock = start.wrapping_add(15_001);
    assert_eq!(setting.pongs(2, &ping(1, 7, 0)), []);
}

/// C57: 6 before 8.
#[test]
fn arriving_pongs() {
    let mut setting = Setting::new(32, &[0]);
    assert_eq!(setting.answer(0, &message(1, PONG, 0, 9, &[1; 13])), 6);
    assert_eq!(setting.answer(0, &message(1, PONG, 0, 0, &[1; 14])), 8);
    assert_eq!(setting.answer(0, &message(1, PONG, 1, 8, &[1; 14])), 8);
    assert_eq!(setting.answer(0, &message(1, PONG, 255, 7, &[1; 99])), 0);
    assert_eq!(setting.state.lines[0].pong(0), Some(&Pong { data: [1; 14], hops: 7, clock: 0 }));
    assert_eq!(setting.state.lines[0].pong(1), None);
}

// Tables.

/// C61, C62, C70 to C72: refused updates break the table and change nothing else; other refusals don't.
#[test]
fn broken_tables() {
    let bad: [(Vec<u8>, u8); 5] = [
        (message(1, UPDATE, 2, 0, P1), 14),
        (message(1, UPDATE, 1, 1, P1), 14),
        (update(&[0, 8, 0, 0, 0, 8]), 14),
        (update(&[1, 2, 2, 0, 4]), 15),
        (update(P4), 16),
    ];
    for (bytes, expected) in bad {
        let mut setting = Setting::settled();
        assert_eq!(setting.answer(1, &bytes), expected);
        assert_eq!(setting.mark(1), BROKEN);
        assert_eq!(setting.sent(0, &query(7, 3, 1, "ebcklmen")), (0, 2));
        assert_eq!(setting.answer(1, &update(P2)), 15);
        assert_eq!(setting.answer(1, &update(P1)), 0);
        assert_eq!(setting.answer(1, &update(P2)), 0);
        assert_eq!(setting.sent(0, &query(8, 3, 1, "ebcklmen")), (0, 0));
    }
    let mut setting = Setting::settled();
    let mut long = update(P1);
    long[21] = 1;
    assert_eq!(setting.answer(1, &update(P1)[..25]), 4);
    assert_eq!(setting.answer(1, &long), 5);
    assert_eq!(setting.answer(2, &update(P4)), 3);
    assert_eq!(setting.answer(1, &message(1, 0x20, 1, 0, P4)), 7);
    assert_eq!(setting.mark(1), SETTLED);
}

/// C69: no table but a settled one withholds.
#[test]
fn running_withholds_nothing() {
    let mut setting = Setting::settled();
    assert_eq!(setting.answer(1, &update(&[1, 1, 2, 0, 4, 0])), 0);
    assert_eq!(setting.sent(0, &query(1, 3, 1, "ebcklmen")), (0, 2));
    assert_eq!(setting.answer(1, &update(&[1, 2, 2, 0, 4, 0])), 0);
    assert_eq!(setting.sent(0, &query(2, 3, 1, "ebcklmen")), (0, 0));
    assert_eq!(setting.answer(1, &update(P1)), 0);
    assert_eq!(setting.sent(0, &query(3, 3, 1, "ebcklmen")), (0, 2));
}

/// Each line's table has its own place in the route area, and only its own length of it is written.
#[test]
fn places_in_the_route_area() {
    let mut setting = Setting::new(8 * 9 + 5, &[0, 7]);
    assert_eq!(setting.answer(7, &update(&[0, 8, 0, 0, 0, 8])), 0);
    assert_eq!(setting.answer(7, &update(&[1, 1, 2, 0, 8, 0xFF, 0xFE])), 0);
    assert_eq!(setting.answer(0, &update(P1)), 0);
    let mut expected = vec![0xEE; 77];
    expected[..4].fill(8);
    expected[63..71].copy_from_slice(&[7, 6, 8, 8, 8, 8, 8, 8]);
    assert_eq!(setting.route, expected);
    assert_eq!(setting.answer(7, &update(&[0, 16, 0, 0, 0, 8])), 14);
}

/// Random calls: order is kept, and `Setting` checks refusals and output of each.
#[test]
fn random_calls() {
    let mut seed = 12_345u64;
    let mut random = move |below: u32| {
        seed = seed.wrapping_mul(6_364_136_223_846_793_005).wrapping_add(1_442_695_040_888_963_407);
        (seed >> 33) as u32 % below
    };
    let mut setting = Setting::new(64, &[0, 1, 2]);
    let mut counts = [0; 22];
    let payloads: [&[u8]; 9] = [
        P1,
        P2,
        P3,
        P4,
        &[1, 1, 2, 0, 4, 9, 9],
        &[1, 2, 2, 0, 4],
        &[0, 8, 0, 0, 0, 5],
        b"\0\0x",
        b"\0\0eb ebcklmen\0with a hit's twenty-seven bytes",
    ];
    for _ in 0..6000 {
        setting.clock = setting.clock.wrapping_add(random(700));
        let line = random(5) as usize;
        let answer = match random(30) {
            0..=2 => setting.state.open(line),
            3 => setting.state.close(line),
            4 => setting.ask(random(25), [&b"eb"[..], b"ebcklmen x", b"\0"][random(3) as usize]).answer,
            _ => {
                let kind = [PING, PONG, QUERY, HIT, UPDATE, UPDATE, 0x02][random(7) as usize];
                let (ttl, hops) = if kind == UPDATE { (1, 0) } else { (random(17) as u8, random(9) as u8) };
                let payload = match kind {
                    UPDATE => random(7),
                    _ if random(8) == 0 => 7,
                    _ => 8,
                };
                let hops = if random(5) == 0 { 255 } else { hops };
                let mut bytes = message(random(25), kind, ttl, hops, payloads[payload as usize]);
                match random(40) {
                    0 => bytes.truncate(random(40) as usize),
                    1 => bytes[21] = 0x20,
                    _ => {}
                }
                setting.answer(line, &bytes)
            }
        };
        assert!(setting.state.in_order());
        counts[usize::from(answer)] += 1;
        if random(60) == 0 {
            setting.state.hits.fill(199);
        }
        if random(1000) == 0 {
            let lines: Vec<usize> = (0..8).filter(|&line| setting.state.lines[line].open).collect();
            setting = Setting { clock: setting.clock, ..Setting::new(64, &lines) };
        }
    }
    for answer in [0, 3, 4, 5, 6, 7, 8, 9, 10, 11, 12, 13, 14, 15, 16, 21] {
        assert!(counts[answer] > 0, "no call was answered {answer}: {counts:?}");
    }
}
