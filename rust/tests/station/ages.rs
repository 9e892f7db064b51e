//! The age of a query, how many were remembered after it: looked up, and handed up by hits and repeats.

use crate::{hit, message, own, query, station, HIT, PING, PONG, QUERY, UPDATE};
use lunozhar::{raw, Asker, Fed, Local, Remembered, Station};

const A: u8 = 1;
const B: u8 = 2;
const C: u8 = 3;

/// Lines 0 and 1 are open, and line 0 has asked A, B and C, in this order.
fn asked_three() -> Station {
    let mut station = station(&[0, 1]);
    for number in [A, B, C] {
        assert_eq!(aged(&mut station, 0, &query(number, "eb")), (0, None));
    }
    station
}

/// The answer number and the age.
type Aged = (u8, Option<usize>);

/// What a message at clock 0 came to.
fn aged(station: &mut Station, line: u32, bytes: &[u8]) -> Aged {
    match station.message(line, 0, &own(), bytes) {
        Ok(outcome) => (0, outcome.after),
        Err(refused) => (refused.refusal.number(), refused.after),
    }
}

/// The same of bytes of a line; 255 for a message that is not whole.
fn fed(station: &mut Station, line: u32, bytes: &[u8]) -> Aged {
    match station.feed(line, 0, &own(), bytes) {
        Ok(Fed::Waiting) => (raw::WAITING, None),
        Ok(Fed::Message(outcome)) => (0, outcome.after),
        Err(refused) => (refused.refusal.number(), refused.after),
    }
}

/// The same of an own query.
fn asked(station: &mut Station, number: u8, text: &[u8]) -> Aged {
    station.ask([number; 16], text).map_or_else(|refused| (refused.refusal.number(), refused.after), |_| (0, None))
}

fn known(asker: Asker, after: usize) -> Option<Remembered> {
    Some(Remembered { asker, after })
}

/// A hit with this TTL and these Hops.
fn hit_of(number: u8, ttl: u8, hops: u8) -> Vec<u8> {
    message(number, HIT, ttl, hops, &[0; 27])
}

/// Messages to a station whose line 0 asked A, B and C, with what each comes to.
fn messages() -> Vec<(Vec<u8>, Aged)> {
    let query_of = |number, ttl| message(number, QUERY, ttl, 1, b"\0\0eb\0");
    vec![
        (hit(A), (0, Some(2))),
        (hit(B), (0, Some(1))),
        (hit(C), (0, Some(0))),
        (hit_of(A, 0, 0), (8, None)),
        (hit_of(A, 1, 0), (8, Some(2))),
        (hit_of(A, 2, 255), (12, Some(2))),
        (message(A, HIT, 2, 0, &[0; 26]), (6, None)),
        (hit(9), (10, None)),
        (query_of(B, 3), (9, Some(1))),
        (query_of(B, 16), (8, None)),
        (message(B, QUERY, 3, 1, b"\0\0eb"), (6, None)),
        (message(C, PING, 1, 0, b""), (0, None)),
        (message(C, PONG, 1, 0, &[0; 14]), (0, None)),
        (message(C, UPDATE, 1, 0, &[0, 4, 0, 0, 0, 8]), (0, None)),
        (message(C, 0x02, 1, 0, b""), (7, None)),
        (hit(A), (0, Some(2))),
    ]
}

#[test]
fn a_number_is_looked_up() {
    let mut station = asked_three();
    station.ask([4; 16], b"lake").unwrap();
    let before = (station.state().clone(), *station.tally());
    assert_eq!(station.look_up([A; 16]), known(Asker::Line(0), 3));
    assert_eq!(station.look_up([C; 16]), known(Asker::Line(0), 1));
    assert_eq!(station.look_up([4; 16]), known(Asker::Here, 0));
    assert_eq!(station.look_up([5; 16]), None);
    assert!((station.state().clone(), *station.tally()) == before);
    station.close(0).unwrap();
    assert_eq!(station.look_up([B; 16]), known(Asker::Gone, 2));
    station.open(0).unwrap();
    assert_eq!(station.look_up([B; 16]), known(Asker::Gone, 2));
    assert_eq!(Station::new(32).unwrap().look_up([0; 16]), None);
}

#[test]
fn a_message_hands_the_age_up_of_a_query_that_it_found() {
    let mut station = asked_three();
    for (bytes, expected) in messages() {
        assert_eq!(aged(&mut station, 1, &bytes), expected, "{bytes:?}");
    }
    station.close(0).unwrap();
    assert_eq!(aged(&mut station, 1, &hit(A)), (11, Some(2)));
    assert_eq!(aged(&mut station, 0, &hit(A)), (3, None));
    assert_eq!(aged(&mut station, 1, &hit(A)[..49]), (4, None));
}

#[test]
fn scraps_hand_it_up_with_their_last_byte() {
    let mut station = asked_three();
    for (bytes, expected) in messages() {
        assert_eq!(fed(&mut station, 1, &bytes[..20]), (raw::WAITING, None));
        assert_eq!(fed(&mut station, 1, &bytes[20..]), expected, "{bytes:?}");
    }
    let too_long = [&hit(A)[..19], &4_097u32.to_le_bytes()].concat();
    assert_eq!((fed(&mut station, 1, &too_long), fed(&mut station, 1, &hit(A))), ((5, None), (19, None)));
}

#[test]
fn own_queries_hand_it_up_where_they_repeat_one() {
    let mut station = asked_three();
    assert_eq!(asked(&mut station, C, b"lake"), (9, Some(0)));
    assert_eq!(asked(&mut station, A, b"lake"), (9, Some(2)));
    assert_eq!(asked(&mut station, A, b"la\0ke"), (6, None));
    assert_eq!(asked(&mut station, A, &[b'x'; 4_094]), (5, None));
    assert_eq!(asked(&mut station, 4, b"lake"), (0, None));
    assert_eq!(asked(&mut station, A, b"lake"), (9, Some(3)));
    let delivered = hit(4);
    let outcome = station.message(1, 0, &own(), &delivered).unwrap();
    assert_eq!((outcome.local, outcome.after), (Local::Hit(&[0; 27]), Some(0)));
}

#[test]
fn the_oldest_of_512_has_511_behind_it() {
    let mut station = asked_three();
    for number in 0..509u16 {
        let mut bytes = [0xFF; 16];
        bytes[..2].copy_from_slice(&number.to_le_bytes());
        station.ask(bytes, b"").unwrap();
        assert_eq!(station.look_up([C; 16]), known(Asker::Line(0), usize::from(number) + 1));
    }
    assert_eq!((station.look_up([A; 16]), aged(&mut station, 1, &hit(A))), (known(Asker::Line(0), 511), (0, Some(511))));
    station.ask([0xEE; 16], b"").unwrap();
    assert_eq!((station.look_up([A; 16]), aged(&mut station, 1, &hit(A))), (None, (10, None)));
    assert_eq!((station.look_up([B; 16]), aged(&mut station, 1, &hit(B))), (known(Asker::Line(0), 511), (0, Some(511))));
}

/// The look-up as C has it.
fn found(station: &raw::Station, number: u8) -> (u8, u8, usize) {
    // SAFETY: the reference points to a whole station.
    let raw::Finding { answer, asker, after } = unsafe { raw::lunozhar_look_up(station, raw::Number { bytes: [number; 16] }) };
    (answer, asker, after)
}

#[test]
fn a_state_out_of_order_is_1_and_a_place_that_is_not_kept_counts_for_nothing() {
    let state = asked_three().state().clone();
    assert_eq!((found(&state, A), found(&state, 9)), ((0, 0, 2), (10, raw::ASKER_NOBODY, 0)));
    for broken in [raw::Station { next: 512, ..state.clone() }, raw::Station { count: 513, ..state.clone() }] {
        assert_eq!((found(&broken, A), found(&broken, 9)), ((1, raw::ASKER_NOBODY, 0), (1, raw::ASKER_NOBODY, 0)));
    }
    // Two kept of three: A's place is kept no more.
    let fewer = raw::Station { count: 2, ..state.clone() };
    assert_eq!((found(&fewer, A), found(&fewer, B)), ((10, raw::ASKER_NOBODY, 0), (0, 0, 1)));
    // The newest stands at the ring's last place.
    let mut turned = raw::Station { count: 1, next: 0, ..state };
    (turned.lo[511], turned.hi[511], turned.asker[511]) = (turned.lo[1], turned.hi[1], raw::ASKER_HERE);
    assert_eq!((found(&turned, B), found(&turned, A)), ((0, raw::ASKER_HERE, 0), (10, raw::ASKER_NOBODY, 0)));
}
