//! How many hits of one query are sent back or delivered: document 02, R-8. `Setting` holds the counts after each call
//! to what was answered.

use super::*;

const A: u32 = 1;
const B: u32 = 2;
const C: u32 = 3;

/// Lines 0 and 1 open; A was asked by line 0, B here and C by line 1. They are at the places 0, 1 and 2.
fn three() -> Setting {
    let mut setting = Setting::new(32, &[0, 1]);
    assert_eq!(setting.answer(0, &query(A, 3, 1, "log")), 0);
    assert_eq!(setting.ask(B, b"log").answer, 0);
    assert_eq!(setting.answer(1, &query(C, 3, 1, "log")), 0);
    setting
}

/// The counts of A, B and C.
fn counts(setting: &Setting) -> [u8; 3] {
    [0, 1, 2].map(|place| setting.state.hits[place])
}

/// Takes 200 hits of a number.
fn fill(setting: &mut Setting, number: u32) {
    for _ in 0..200 {
        assert_eq!(setting.answer(1, &hit(number, 3, 0)), 0);
    }
}

#[test]
fn two_hundred_sent_back() {
    let mut setting = three();
    let taken = Handled { used: 50, written: 50, to: 1, after: Some(2), ..QUIET };
    for count in 1..=200 {
        assert_eq!(setting.send(1, &hit(A, 3, 0)), taken);
        assert_eq!(counts(&setting), [count, 0, 0]);
    }
    for _ in 0..60 {
        assert_eq!(setting.send(1, &hit(A, 3, 0)), Handled { answer: 21, used: 50, after: Some(2), ..QUIET });
        assert!(setting.out.iter().all(|&byte| byte == 0xDD));
    }
    assert_eq!(counts(&setting), [200, 0, 0]);
    // By whatever line it comes, and with whatever stands behind it.
    assert_eq!(setting.aged(0, &[&hit(A, 3, 0)[..], b"next"].concat()), (21, Some(2)));
    // Each query has a count of its own.
    assert_eq!(setting.sent(0, &hit(C, 3, 0)), (0, 2));
    assert!(setting.send(0, &hit(B, 3, 0)).delivered);
    assert_eq!(counts(&setting), [200, 1, 1]);
}

#[test]
fn two_hundred_delivered() {
    let mut setting = three();
    for count in 1..=200 {
        // TTL 1 and Hops 255 are no hindrance here.
        let bytes = if count % 2 == 0 { hit(B, 1, 255) } else { hit(B, 3, 0) };
        assert_eq!(setting.send(1, &bytes), Handled { used: 50, delivered: true, after: Some(1), ..QUIET });
        assert_eq!(counts(&setting), [0, count, 0]);
    }
    for bytes in [hit(B, 3, 0), hit(B, 1, 255), hit(B, 1, 0)] {
        assert_eq!(setting.send(1, &bytes), Handled { answer: 21, used: 50, after: Some(1), ..QUIET });
    }
    assert_eq!(setting.answer(0, &hit(A, 3, 0)), 0);
}

/// A hit with 255 results, or with none, is one hit.
#[test]
fn results_do_not_count() {
    let mut setting = three();
    for (results, count) in [(255, 1), (0, 2), (1, 3)] {
        let mut payload = [7; 60];
        payload[0] = results;
        assert_eq!(setting.answer(1, &message(A, HIT, 3, 0, &payload)), 0);
        assert_eq!(counts(&setting), [count, 0, 0]);
    }
}

/// 6, 8, 10, 11, 21, and only then 8 and 12 or the delivery.
#[test]
fn order_of_refusals() {
    let mut setting = three();
    [A, B, C].into_iter().for_each(|number| fill(&mut setting, number));
    for number in [A, B, C] {
        assert_eq!(setting.aged(1, &message(number, HIT, 0, 255, &[0; 26])), (6, None));
        assert_eq!(setting.aged(1, &hit(number, 0, 255)), (8, None));
    }
    assert_eq!(setting.aged(1, &hit(9, 1, 255)), (10, None));
    for (ttl, hops) in [(1, 0), (1, 255), (2, 255), (2, 254), (255, 0)] {
        let ages = [A, B, C].map(|number| setting.aged(1, &hit(number, ttl, hops)));
        assert_eq!(ages, [(21, Some(2)), (21, Some(1)), (21, Some(0))]);
    }
    assert_eq!(setting.state.close(0), 0);
    for (ttl, hops) in [(3, 0), (1, 0), (2, 255)] {
        assert_eq!(setting.aged(1, &hit(A, ttl, hops)), (11, Some(2)));
        assert_eq!(setting.aged(1, &hit(C, ttl, hops)), (21, Some(0)));
    }
    assert_eq!(counts(&setting), [200; 3]);
    // What comes before the type is known comes before 21 too.
    assert_eq!(setting.aged(0, &hit(C, 3, 0)), (3, None));
    assert_eq!(setting.aged(1, &hit(C, 3, 0)[..49]), (4, None));
}

/// No refusal is counted, however many there are.
#[test]
fn refusals_do_not_count() {
    let short = message(A, HIT, 3, 0, &[0; 26]);
    let refused = [(hit(A, 1, 0), 8), (hit(A, 2, 255), 12), (hit(A, 0, 0), 8), (short, 6), (hit(9, 3, 0), 10)];
    for (bytes, answer) in refused {
        let mut setting = three();
        let before = setting.state.clone();
        for _ in 0..200 {
            assert_eq!(setting.answer(1, &bytes), answer);
        }
        assert!(setting.state == before);
        assert_eq!((setting.answer(1, &hit(A, 3, 0)), counts(&setting)), (0, [1, 0, 0]));
    }
    // Between two that are taken as well.
    let mut setting = three();
    for count in 1..=200 {
        assert_eq!([hit(A, 1, 0), hit(A, 2, 255), hit(A, 2, 0)].map(|bytes| setting.answer(1, &bytes)), [8, 12, 0]);
        assert_eq!(counts(&setting), [count, 0, 0]);
    }
    assert_eq!([hit(A, 1, 0), hit(A, 2, 255), hit(A, 2, 0)].map(|bytes| setting.answer(1, &bytes)), [21; 3]);
}

/// A query that comes again leaves the count, whoever asks, and so does a look-up, which tells nothing of it.
#[test]
fn repeats_leave_the_count() {
    let mut setting = three();
    fill(&mut setting, A);
    assert_eq!(setting.answer(1, &hit(B, 3, 0)), 0);
    let before = setting.state.clone();
    for number in [A, B, C] {
        assert_eq!(setting.answer(0, &query(number, 3, 1, "log")), 9);
        assert_eq!(setting.answer(1, &query(number, 7, 0, "")), 9);
        assert_eq!(setting.ask(number, b"log").answer, 9);
    }
    assert_eq!(setting.state.look_up(&numbered(A)), Ok(Remembered { asker: 0, after: 2 }));
    assert!(setting.state == before);
    assert_eq!((setting.answer(1, &hit(A, 3, 0)), setting.answer(1, &hit(B, 3, 0))), (21, 0));
}

/// A closed line's queries keep their counts, and are 11; those of others go on from where they were.
#[test]
fn closing_keeps_the_count() {
    let mut setting = three();
    fill(&mut setting, A);
    fill(&mut setting, C);
    assert_eq!(setting.answer(1, &hit(B, 3, 0)), 0);
    for (line, answers) in [(0, [11, 0, 21]), (1, [11, 0, 11])] {
        let count = counts(&setting)[1];
        assert_eq!(setting.state.close(line), 0);
        assert_eq!(counts(&setting), [200, count, 200]);
        assert_eq!(setting.state.open(line), 0);
        assert_eq!(counts(&setting), [200, count, 200]);
        assert_eq!([A, B, C].map(|number| setting.answer(1, &hit(number, 3, 0))), answers);
    }
    assert_eq!((counts(&setting), &setting.state.askers[..3]), ([200, 3, 200], &[GONE, HERE, GONE][..]));
}

/// A place that is taken by another query starts at 0, and so does a number that is remembered anew.
#[test]
fn remembered_anew() {
    for own in [false, true] {
        let mut setting = three();
        [A, B, C].into_iter().for_each(|number| fill(&mut setting, number));
        for number in 10..519 {
            assert_eq!(setting.ask(number, b"").answer, 0);
        }
        // 512 are remembered, and A is the oldest.
        assert_eq!((setting.aged(1, &hit(A, 3, 0)), setting.state.hits[0]), ((21, Some(511)), 200));
        for (place, number) in (0..).zip([600, 601, 602]) {
            let other = query(number, 3, 1, "");
            assert_eq!(if own { setting.ask(number, b"").answer } else { setting.answer(0, &other) }, 0);
            assert_eq!(setting.state.hits[place], 0);
            assert_eq!(setting.answer(1, &hit(number, 3, 0)), 0);
            assert_eq!(setting.state.hits[place], 1);
        }
        assert_eq!([A, B, C].map(|number| setting.answer(1, &hit(number, 3, 0))), [10; 3]);
        // A again: at another place, with 200 hits to come.
        let again = query(A, 3, 1, "");
        assert_eq!(if own { setting.ask(A, b"").answer } else { setting.answer(0, &again) }, 0);
        assert_eq!(setting.state.hits[3], 0);
        fill(&mut setting, A);
        assert_eq!((setting.aged(1, &hit(A, 3, 0)), setting.state.hits[3]), ((21, Some(0)), 200));
        // The query at A's first place has had one.
        for answer in [vec![0; 199], vec![21]].concat() {
            assert_eq!(setting.answer(1, &hit(600, 3, 0)), answer);
        }
    }
}

/// The same number comes back to the very place that it had, once 512 were remembered from there on.
#[test]
fn anew_at_the_same_place() {
    let mut setting = Setting::new(32, &[0, 1]);
    assert_eq!(setting.answer(0, &query(A, 3, 1, "")), 0);
    fill(&mut setting, A);
    for number in 10..522 {
        assert_eq!(setting.ask(number, b"").answer, 0);
    }
    // The place is another query's now; 511 more, and it is A's turn.
    for number in 1_010..1_521 {
        assert_eq!(setting.ask(number, b"").answer, 0);
    }
    assert_eq!((setting.state.next, setting.answer(1, &hit(A, 3, 0))), (0, 10));
    assert_eq!((setting.answer(0, &query(A, 3, 1, "")), setting.state.hits[0]), (0, 0));
    fill(&mut setting, A);
    assert_eq!(setting.answer(1, &hit(A, 3, 0)), 21);
}

/// The count is that of the query's own place, wherever the ring is turned to. What stands at places that are not kept
/// plays no part until they are taken.
#[test]
fn turned_ring() {
    let mut setting = Setting::new(32, &[2, 3]);
    setting.state.hits.fill(255);
    (setting.state.count, setting.state.next) = (1, 0);
    (setting.state.numbers[511], setting.state.askers[511], setting.state.hits[511]) = (numbered(9), 3, 198);
    assert!(setting.state.in_order());
    assert_eq!([(); 3].map(|_| setting.sent(2, &hit(9, 2, 0))), [(0, 8), (0, 8), (21, 0)]);
    assert_eq!((setting.state.hits[511], setting.state.hits[0], setting.state.hits[510]), (200, 255, 255));
    assert_eq!(setting.answer(2, &query(10, 2, 0, "x")), 0);
    assert_eq!((setting.state.hits[511], setting.state.hits[0], setting.state.hits[1]), (200, 0, 255));
    assert_eq!((setting.sent(3, &hit(10, 2, 0)), setting.state.hits[0]), ((0, 4), 1));
    assert_eq!(setting.aged(2, &hit(9, 2, 0)), (21, Some(1)));
    assert_eq!(setting.state.close(3), 0);
    assert_eq!((setting.aged(2, &hit(9, 2, 0)), setting.state.hits[511]), ((11, Some(1)), 200));
}

/// In order, each of the 512 places by itself: a kept one has at most 200, any other whatever it is.
#[test]
fn order_at_every_place() {
    for (count, next) in [(0, 0), (1, 0), (1, 200), (3, 1), (130, 129), (300, 100), (511, 511), (512, 0), (512, 77)] {
        let mut state = full(next);
        state.count = count;
        for place in 0..512 {
            let kept = (usize::from(next) + 511 - place) % 512 < usize::from(count);
            let before = state.hits[place];
            for (hits, fits) in [(0, true), (199, true), (200, true), (201, !kept), (255, !kept)] {
                state.hits[place] = hits;
                assert_eq!(state.in_order(), fits, "{count} before {next}: {hits} at {place}");
            }
            state.hits[place] = before;
        }
    }
}

/// Every call with a state answers 1 where a kept query has 201 hits, even a gone one, and leaves all as it was.
#[test]
fn more_than_200() {
    for (place, hits, fits) in [(0, 200, true), (0, 201, false), (1, 201, false), (2, 255, false), (3, 255, true)] {
        let Setting { mut state, mut out, mut route, .. } = three();
        assert_eq!((state.close(0), state.open(2)), (0, 0));
        state.hits[place] = hits;
        let before = state.clone();
        let or_1 = |answer| if fits { answer } else { 1 };
        assert_eq!((state.open(2), state.close(3), state.in_order()), (or_1(3), or_1(3), fits));
        assert_eq!(state.look_up(&numbered(9)), Err(or_1(10)));
        let mut held = [0; HELD];
        let bytes = hit(A, 3, 0);
        assert_eq!(state.message(1, 0, &OWN, &bytes, &mut out, &mut route).answer, or_1(11));
        assert_eq!(state.feed(1, 0, &OWN, &bytes, &mut held, &mut out, &mut route).handled.answer, or_1(11));
        assert_eq!(state.own_query(&numbered(A), b"", &mut out, &route).answer, or_1(9));
        assert_eq!(state.table_for(3, &[], 4, &mut out, &route).answer, or_1(3));
        assert!(state == before);
        if !fits {
            // Before everything else.
            assert_eq!(state.message(9, 0, &OWN, b"", &mut out[..0], &mut route[..0]), refused(1));
            assert_eq!(state.feed(9, 0, &OWN, b"", &mut [], &mut [], &mut []).handled, refused(1));
            assert_eq!((state.open(1), state.close(1), state.open(8)), (1, 1, 1));
            assert!(state == before);
        }
    }
}

/// Of a hit that comes in scraps the call with its last byte counts it, and no other.
#[test]
fn scraps() {
    let mut setting = three();
    let mut held = vec![0; HELD];
    let mut fed = |setting: &mut Setting, bytes: &[u8]| {
        let Setting { state, out, route, own, clock } = setting;
        state.feed(1, *clock, own, bytes, &mut held, out, route).handled
    };
    for count in 0..=205u8 {
        let bytes = [hit(A, 3, 0), hit(B, 3, 0)].concat();
        for scrap in [&bytes[..7], &bytes[7..7], &bytes[7..23], &bytes[23..49]] {
            assert_eq!(fed(&mut setting, scrap).answer, WAITS);
            assert_eq!(counts(&setting), [count.min(200), 0, 0]);
        }
        // What stands behind the message is the next one, and does not count with it.
        let handled = fed(&mut setting, &bytes[49..]);
        let answer = if count < 200 { 0 } else { 21 };
        assert_eq!((handled.answer, handled.used, handled.after), (answer, 1, Some(2)));
        assert_eq!((handled.to, handled.written), if count < 200 { (1, 50) } else { (0, 0) });
        assert_eq!(counts(&setting), [(count + 1).min(200), 0, 0]);
    }
    // Whole, with nothing held; and one that was begun when there was one to come, which another line took.
    assert_eq!(fed(&mut setting, &hit(A, 3, 0)), Handled { answer: 21, used: 50, after: Some(2), ..QUIET });
    setting.state.hits[1] = 199;
    assert_eq!(fed(&mut setting, &hit(B, 3, 0)[..30]).answer, WAITS);
    assert!(setting.send(0, &hit(B, 3, 0)).delivered);
    assert_eq!(fed(&mut setting, &hit(B, 3, 0)[30..]), Handled { answer: 21, used: 20, after: Some(1), ..QUIET });
    assert_eq!((counts(&setting), setting.state.lines[1].held), ([200, 200, 0], 0));
}

/// Other messages and calls leave the counts.
#[test]
fn nothing_else_counts() {
    let mut setting = three();
    assert_eq!(setting.answer(1, &hit(A, 3, 0)), 0);
    setting.clock = 5_000;
    let others = [(PING, &b""[..], 0), (PONG, &[0; 27], 0), (UPDATE, P1, 0), (UPDATE, P4, 16), (0x40, &[0; 27], 7)];
    for (kind, payload, answer) in others {
        assert_eq!(setting.answer(0, &message(A, kind, 1, 0, payload)), answer);
        assert_eq!(counts(&setting), [1, 0, 0]);
    }
    assert_eq!((setting.state.open(5), setting.state.close(5), counts(&setting)), (0, 0, [1, 0, 0]));
    assert_eq!((setting.ask(9, b"x").answer, counts(&setting), setting.state.hits[3]), (0, [1, 0, 0], 0));
}
