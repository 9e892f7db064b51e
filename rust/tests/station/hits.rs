//! Of one query 200 hits are passed back or delivered: the count beside each remembered query.

use crate::{hit, message, own, query, station, HIT};
use lunozhar::{raw, Fed, Local, Outcome, Refusal, Refused, Station};

/// Asked by line 0, by this station, and by line 1.
const A: u8 = 1;
const B: u8 = 2;
const C: u8 = 3;

/// Lines 0 and 1 are open, and A, B and C were asked in this order; they stand at the first three places of the ring.
fn asked_three() -> Station {
    let mut station = station(&[0, 1]);
    station.message(0, 0, &own(), &query(A, "eb")).unwrap();
    station.ask([B; 16], b"eb").unwrap();
    station.message(1, 0, &own(), &query(C, "eb")).unwrap();
    station
}

/// The counts of A, B and C.
fn counts(station: &Station) -> [u8; 3] {
    [0, 1, 2].map(|place| station.state().hits[place])
}

/// The answer number and the age of a message that came by line 1.
fn aged(station: &mut Station, bytes: &[u8]) -> (u8, Option<usize>) {
    match station.message(1, 0, &own(), bytes) {
        Ok(outcome) => (0, outcome.after),
        Err(refused) => (refused.refusal.number(), refused.after),
    }
}

/// Takes 200 hits of a number.
fn fill(station: &mut Station, number: u8) {
    for _ in 0..raw::HITS {
        assert_eq!(aged(station, &hit(number)).0, 0);
    }
}

/// Asks so many queries that the numbers of these tests are none of.
fn ask_others(station: &mut Station, count: u16) {
    for number in 0..count {
        let mut bytes = [0xFF; 16];
        bytes[..2].copy_from_slice(&number.to_le_bytes());
        station.ask(bytes, b"").unwrap();
    }
}

#[test]
fn the_201st_hit_is_not_passed_back() {
    let mut station = asked_three();
    for count in 1..=raw::HITS {
        let hit = hit(A);
        let Outcome { used, sent, local, after } = station.message(1, 0, &own(), &hit).unwrap();
        assert_eq!((used, sent.bytes, local, after), (50, &message(A, HIT, 3, 1, &[0; 27])[..], Local::Nothing, Some(2)));
        assert!(sent.lines().eq([0]));
        assert_eq!(counts(&station), [count, 0, 0]);
    }
    let before = station.state().clone();
    let refused = station.message(1, 0, &own(), &hit(A)).unwrap_err();
    assert_eq!(refused, Refused { refusal: Refusal::AnsweredEnough, used: 50, after: Some(2) });
    assert_eq!(refused.to_string(), "refused with 21: the query has had 200 hits (50 bytes used)");
    assert_eq!(*station.state(), before);
    let told = "202 done\n1 refused with 21: the query has had 200 hits\n";
    assert_eq!((station.tally().refused(Refusal::AnsweredEnough), station.tally().to_string()), (1, told.to_string()));
    // Each query has a count of its own.
    assert_eq!((aged(&mut station, &hit(B)), aged(&mut station, &hit(C))), ((0, Some(1)), (0, Some(0))));
    assert_eq!(counts(&station), [200, 1, 1]);
}

#[test]
fn the_201st_hit_of_an_own_query_is_not_delivered() {
    let mut station = asked_three();
    for count in 1..=raw::HITS {
        // TTL 1 and Hops 255 are no hindrance here.
        let bytes = message(B, HIT, 1, 255, &[count; 27]);
        let outcome = station.message(1, 0, &own(), &bytes).unwrap();
        assert_eq!((outcome.local, outcome.after), (Local::Hit(&[count; 27]), Some(1)));
        assert_eq!((outcome.sent.bytes.len(), outcome.sent.lines().count()), (0, 0));
        assert_eq!(counts(&station), [0, count, 0]);
    }
    for bytes in [hit(B), message(B, HIT, 1, 255, &[0; 27])] {
        let refused = station.message(1, 0, &own(), &bytes).unwrap_err();
        assert_eq!(refused, Refused { refusal: Refusal::AnsweredEnough, used: 50, after: Some(1) });
    }
    assert_eq!(counts(&station), [0, 200, 0]);
}

#[test]
fn refusals_come_in_their_order() {
    let hit_of = |ttl, hops, length| message(A, HIT, ttl, hops, &vec![0; length]);
    let mut station = asked_three();
    // None of these counts, and neither does the query that comes again.
    assert_eq!(aged(&mut station, &hit_of(1, 0, 26)), (6, None));
    assert_eq!(aged(&mut station, &hit_of(0, 0, 27)), (8, None));
    assert_eq!(aged(&mut station, &hit_of(1, 255, 27)), (8, Some(2)));
    assert_eq!(aged(&mut station, &hit_of(2, 255, 27)), (12, Some(2)));
    assert_eq!(aged(&mut station, &query(A, "eb")), (9, Some(2)));
    assert_eq!(counts(&station), [0, 0, 0]);
    fill(&mut station, A);
    assert_eq!(aged(&mut station, &hit_of(1, 0, 26)), (6, None));
    assert_eq!(aged(&mut station, &hit_of(0, 0, 27)), (8, None));
    assert_eq!(aged(&mut station, &hit_of(1, 255, 27)), (21, Some(2)));
    assert_eq!(aged(&mut station, &hit_of(2, 255, 27)), (21, Some(2)));
    assert_eq!(aged(&mut station, &query(A, "eb")), (9, Some(2)));
    station.close(0).unwrap();
    assert_eq!(aged(&mut station, &hit(A)), (11, Some(2)));
    station.open(0).unwrap();
    assert_eq!((aged(&mut station, &hit(A)), counts(&station)), ((11, Some(2)), [200, 0, 0]));
}

#[test]
fn a_number_that_is_remembered_anew_starts_at_0() {
    let mut station = asked_three();
    fill(&mut station, A);
    ask_others(&mut station, 509);
    assert_eq!(aged(&mut station, &hit(A)), (21, Some(511)));
    // The next query takes the place of A, and A is asked again after it.
    station.ask([0xEE; 16], b"").unwrap();
    assert_eq!((aged(&mut station, &hit(A)), station.state().hits[0]), ((10, None), 0));
    station.message(0, 0, &own(), &query(A, "eb")).unwrap();
    fill(&mut station, A);
    assert_eq!((aged(&mut station, &hit(A)), counts(&station)), ((21, Some(0)), [0, 200, 0]));
}

#[test]
fn scraps_count_with_their_last_byte() {
    let mut station = asked_three();
    for count in 0..raw::HITS {
        assert_eq!(station.feed(1, 0, &own(), &hit(A)[..30]), Ok(Fed::Waiting));
        assert_eq!(counts(&station), [count, 0, 0]);
        assert!(matches!(station.feed(1, 0, &own(), &hit(A)[30..]), Ok(Fed::Message(Outcome { used: 20, after: Some(2), .. }))));
    }
    assert_eq!(station.feed(1, 0, &own(), &hit(A)[..30]), Ok(Fed::Waiting));
    let refused = Refused { refusal: Refusal::AnsweredEnough, used: 20, after: Some(2) };
    assert_eq!(station.feed(1, 0, &own(), &hit(A)[30..]), Err(refused));
    assert_eq!((counts(&station), station.state().lines[1].pending.count), ([200, 0, 0], 0));
    // In a buffer it is one refusal of many messages, and the next message is the next.
    let mut answers = Vec::new();
    let ended = station.feed_all(1, 0, &own(), &[hit(A), hit(B)].concat(), |met| answers.push(met.map(|outcome| outcome.after)));
    assert_eq!((ended, answers), (Ok(()), vec![Err(Refused { used: 50, ..refused }), Ok(Some(1))]));
}

#[test]
fn a_kept_count_over_200_is_out_of_order() {
    let (before, held) = (asked_three(), vec![0; raw::LINES * raw::HELD]);
    let with = |place: usize, hits: u8| {
        let mut state = before.state().clone();
        state.hits[place] = hits;
        Station::from_parts(state, before.route().to_vec(), held.clone())
    };
    for place in [0, 1, 2] {
        assert!(with(place, 200).is_ok());
        assert_eq!(with(place, 201).err(), Some(Refusal::NotInOrder));
        assert_eq!(with(place, 255).err(), Some(Refusal::NotInOrder));
    }
    // A place that is not kept counts for nothing, and the query that is remembered there has 0.
    let mut station = with(3, 255).unwrap();
    station.ask([4; 16], b"eb").unwrap();
    assert_eq!(station.state().hits[3], 0);
    let mut station = with(0, 199).unwrap();
    assert_eq!((aged(&mut station, &hit(A)), aged(&mut station, &hit(A))), ((0, Some(2)), (21, Some(2))));
    assert_eq!(counts(&station), [200, 0, 0]);
}
