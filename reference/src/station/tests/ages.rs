//! The age of a query: how many were remembered after it (document 02, R-2). `Setting` holds the age of every call to
//! the list of what the state remembers.

use super::*;

const A: u32 = 1;
const B: u32 = 2;
const C: u32 = 3;

/// Lines 0 and 1 open, and the queries A, B and C taken of line 0, in this order.
fn three() -> Setting {
    let mut setting = Setting::new(32, &[0, 1]);
    for number in [A, B, C] {
        assert_eq!(setting.aged(0, &query(number, 3, 1, "x")), (0, None));
    }
    setting
}

/// What a look-up gives: asker and age, or the answer.
fn looked(state: &State, number: u32) -> Result<(u8, usize), u8> {
    state.look_up(&numbered(number)).map(|Remembered { asker, after }| (asker, after))
}

#[test]
fn looking_up() {
    let mut setting = three();
    assert_eq!(setting.ask(4, b"").after, None);
    let before = setting.state.clone();
    assert_eq!([A, B, C, 4].map(|number| looked(&setting.state, number)), [Ok((0, 3)), Ok((0, 2)), Ok((0, 1)), Ok((HERE, 0))]);
    assert_eq!(looked(&setting.state, 5), Err(10));
    assert!(setting.state == before);
    assert_eq!(setting.state.close(0), 0);
    assert_eq!((looked(&setting.state, A), looked(&setting.state, 4)), (Ok((GONE, 3)), Ok((HERE, 0))));
    assert_eq!(setting.state.open(0), 0);
    assert_eq!(looked(&setting.state, B), Ok((GONE, 2)));
    assert_eq!(looked(&Setting::new(32, &[]).state, 0), Err(10));
}

/// A hit hands the age up once its number was looked up and found, refused or not.
#[test]
fn hits_hand_it_up() {
    let mut setting = three();
    assert_eq!(setting.aged(1, &message(A, HIT, 3, 0, &[0; 26])), (6, None));
    assert_eq!(setting.aged(1, &hit(A, 0, 0)), (8, None));
    assert_eq!(setting.aged(1, &hit(A, 1, 0)), (8, Some(2)));
    assert_eq!(setting.aged(1, &hit(A, 2, 255)), (12, Some(2)));
    assert_eq!(setting.aged(1, &hit(A, 2, 0)), (0, Some(2)));
    assert_eq!(setting.aged(1, &hit(C, 2, 0)), (0, Some(0)));
    assert_eq!(setting.aged(1, &hit(4, 2, 0)), (10, None));
    setting.ask(4, b"");
    assert_eq!(setting.send(1, &hit(4, 1, 255)), Handled { used: 50, delivered: true, after: Some(0), ..QUIET });
    assert_eq!(setting.aged(1, &hit(B, 2, 0)), (0, Some(2)));
    assert_eq!(setting.state.close(0), 0);
    assert_eq!(setting.aged(1, &hit(A, 2, 0)), (11, Some(3)));
    assert_eq!(setting.aged(1, &hit(C, 1, 255)), (11, Some(1)));
    assert_eq!(setting.aged(1, &hit(C, 0, 0)), (8, None));
}

/// The repeat check hands it up; a query that is taken has none, and one that is refused before has none.
#[test]
fn repeated_queries_hand_it_up() {
    let mut setting = three();
    assert_eq!(setting.aged(0, &query(B, 16, 0, "x")), (8, None));
    assert_eq!(setting.aged(0, &query(B, 3, 7, "x")), (8, None));
    assert_eq!(setting.aged(0, &message(B, QUERY, 3, 0, b"\0\0x")), (6, None));
    assert_eq!(setting.aged(1, &query(B, 3, 0, "x")), (9, Some(1)));
    // A repeat makes nothing younger.
    assert_eq!(setting.aged(1, &hit(A, 2, 0)), (0, Some(2)));
    assert_eq!((looked(&setting.state, A), looked(&setting.state, B)), (Ok((0, 2)), Ok((0, 1))));
    let asked = |setting: &mut Setting, number, text: &[u8]| {
        let handled = setting.ask(number, text);
        (handled.answer, handled.after)
    };
    assert_eq!(asked(&mut setting, C, b"x"), (9, Some(0)));
    assert_eq!(asked(&mut setting, A, b"x"), (9, Some(2)));
    assert_eq!(asked(&mut setting, C, b"x\0"), (6, None));
    assert_eq!(asked(&mut setting, C, &[b'x'; 4_094]), (5, None));
    setting.out.pop();
    assert_eq!(asked(&mut setting, C, b"x"), (2, None));
    assert_eq!(setting.aged(1, &hit(C, 2, 0)), (2, None));
    setting.out.push(0);
    assert_eq!(asked(&mut setting, 4, b"x"), (0, None));
}

/// Nothing else looks a number up, even one that is remembered.
#[test]
fn other_messages_have_none() {
    let mut setting = three();
    for (kind, payload) in [(PING, &b""[..]), (PONG, &[0; 14]), (UPDATE, P1), (0x02, b"bye")] {
        assert_eq!(setting.aged(0, &message(C, kind, 1, 0, payload)).1, None);
    }
    assert_eq!(setting.aged(3, &hit(C, 2, 0)), (3, None));
    assert_eq!(setting.aged(1, &hit(C, 2, 0)[..49]), (4, None));
    let mut long = hit(C, 2, 0);
    long[20] = 0x11;
    assert_eq!(setting.aged(1, &long), (5, None));
    setting.state.next = 512;
    let Setting { state, out, route, .. } = &mut setting;
    assert_eq!(state.message(1, 0, &OWN, &hit(C, 2, 0), out, route), refused(1));
    assert_eq!(state.own_query(&numbered(C), b"x", out, route), refused(1));
    assert_eq!([A, C, 4].map(|number| looked(state, number)), [Err(1); 3]);
}

/// The age is counted from the newest, wherever the ring is turned to; a place that is not kept has none.
#[test]
fn turned_ring() {
    let mut setting = Setting::new(32, &[2, 3]);
    (setting.state.count, setting.state.next) = (1, 0);
    (setting.state.numbers[511], setting.state.askers[511]) = (numbered(9), 3);
    setting.state.numbers[510] = numbered(8);
    assert_eq!(setting.aged(2, &hit(9, 2, 0)), (0, Some(0)));
    assert_eq!((looked(&setting.state, 9), looked(&setting.state, 8)), (Ok((3, 0)), Err(10)));
    assert_eq!(setting.aged(2, &hit(8, 2, 0)), (10, None));
    assert_eq!(setting.aged(2, &query(10, 2, 0, "x")), (0, None));
    assert_eq!((looked(&setting.state, 9), looked(&setting.state, 10)), (Ok((3, 1)), Ok((2, 0))));
}

/// The oldest of 512 has 511 behind it, and is gone with one more.
#[test]
fn ages_of_512() {
    let mut setting = three();
    for number in 10..519 {
        assert_eq!(setting.ask(number, b"").answer, 0);
        assert_eq!(looked(&setting.state, C), Ok((0, number as usize - 9)));
    }
    assert_eq!(setting.aged(1, &hit(A, 2, 0)), (0, Some(511)));
    assert_eq!((looked(&setting.state, A), looked(&setting.state, 518)), (Ok((0, 511)), Ok((HERE, 0))));
    assert_eq!(setting.ask(600, b"").answer, 0);
    assert_eq!((looked(&setting.state, A), looked(&setting.state, B)), (Err(10), Ok((0, 511))));
    assert_eq!(setting.aged(1, &hit(A, 2, 0)), (10, None));
    assert_eq!(setting.aged(1, &hit(B, 2, 0)), (0, Some(511)));
}

/// Bytes as they come: the call that brings the last byte hands it up.
#[test]
fn scraps_hand_it_up() {
    let mut setting = three();
    let mut held = vec![0; HELD];
    let mut fed = |setting: &mut Setting, bytes: &[u8]| {
        let Setting { state, out, route, own, clock } = setting;
        let Handled { answer, after, .. } = state.feed(1, *clock, own, bytes, &mut held, out, route).handled;
        (answer, after)
    };
    for (bytes, expected) in [
        (hit(A, 2, 0), (0, Some(2))),
        (hit(C, 1, 0), (8, Some(0))),
        (hit(C, 0, 0), (8, None)),
        (hit(B, 2, 255), (12, Some(1))),
        (query(B, 3, 1, "x"), (9, Some(1))),
        (hit(7, 2, 0), (10, None)),
        (query(4, 3, 1, "x"), (0, None)),
        (query(4, 3, 1, "x"), (9, Some(0))),
        (hit(A, 2, 0), (0, Some(3))),
    ] {
        assert_eq!(fed(&mut setting, &bytes[..20]), (WAITS, None));
        assert_eq!(fed(&mut setting, b""), (WAITS, None));
        assert_eq!(fed(&mut setting, &bytes[20..]), expected);
    }
    let mut long = hit(A, 2, 0);
    long[20] = 0x11;
    assert_eq!((fed(&mut setting, &long), fed(&mut setting, &hit(A, 2, 0))), ((5, None), (SHUT, None)));
}
