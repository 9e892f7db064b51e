//! Bytes as lines bring them: cut anywhere, interleaved, refused, and a line that is shut.

use crate::{hit, message, own, query, station, HIT, PING, QUERY, UPDATE};
use lunozhar::{raw, Fed, Local, Refusal, Refused, Station};

/// A ping for this station alone, which is always answered.
fn probe() -> Vec<u8> {
    message(1, PING, 1, 0, b"")
}

/// A header of this type, whose payload would have so many bytes.
fn over(kind: u8, payload: u32) -> Vec<u8> {
    [&message(2, kind, 3, 1, b"")[..19], &payload.to_le_bytes()].concat()
}

/// What a feed at clock 0 came to: 0 for a message that was done, 255 for one that is not whole, or the refusal's
/// number; and the bytes used.
fn fed(station: &mut Station, line: u32, bytes: &[u8]) -> (u8, usize) {
    match station.feed(line, 0, &own(), bytes) {
        Ok(Fed::Waiting) => (raw::WAITING, bytes.len()),
        Ok(Fed::Message(outcome)) => (0, outcome.used),
        Err(Refused { refusal, used, .. }) => (refusal.number(), used),
    }
}

/// How many bytes are held of a line, and whether it is shut.
fn pending(station: &Station, line: usize) -> (u16, bool) {
    let raw::Pending { count, shut } = station.state().lines[line].pending;
    (count, shut)
}

/// The station with this pending record on a line, and these bytes at the front of the line's held area.
fn with_pending(station: &Station, line: usize, pending: (u16, bool), bytes: &[u8]) -> Result<Station, Refusal> {
    let (mut state, mut held) = (station.state().clone(), station.held().to_vec());
    state.lines[line].pending = raw::Pending { count: pending.0, shut: pending.1 };
    held[line * raw::HELD..][..bytes.len()].copy_from_slice(bytes);
    Station::from_parts(state, station.route().to_vec(), held)
}

#[test]
fn a_call_takes_at_most_one_message() {
    let mut station = station(&[0, 1]);
    let stream = [probe(), query(7, "eb"), probe()].concat();
    assert_eq!(fed(&mut station, 0, &stream[..10]), (255, 10));
    assert_eq!((pending(&station, 0), &station.held()[..10]), ((10, false), &stream[..10]));
    assert_eq!(fed(&mut station, 0, &stream[10..]), (0, 13));
    assert_eq!((pending(&station, 0), &station.held()[..23]), ((0, false), &stream[..23]));
    assert_eq!(fed(&mut station, 0, &stream[23..]), (0, 28));
    assert_eq!(fed(&mut station, 0, &stream[51..]), (0, 23));
    assert_eq!(fed(&mut station, 0, b""), (255, 0));
}

#[test]
fn a_text_stands_where_its_message_does() {
    let mut station = station(&[2, 5]);
    let bytes = query(7, "mountain lake");
    for (whole, number) in [(true, 7), (false, 8)] {
        let bytes = [&[number; 16], &bytes[16..]].concat();
        if !whole {
            assert_eq!(station.feed(5, 0, &own(), &bytes[..30]), Ok(Fed::Waiting));
        }
        let rest = if whole { &bytes[..] } else { &bytes[30..] };
        match station.feed(5, 0, &own(), rest) {
            Ok(Fed::Message(outcome)) => {
                assert_eq!((outcome.used, outcome.local), (rest.len(), Local::Query(b"mountain lake")));
                assert!(outcome.sent.lines().eq([2]));
                assert_eq!(outcome.sent.bytes, message(number, QUERY, 2, 2, &bytes[23..]));
            }
            other => panic!("{other:?}"),
        }
    }
}

#[test]
fn a_hit_in_scraps_is_delivered_whole() {
    let mut station = station(&[4]);
    station.ask([9; 16], b"eb").unwrap();
    let payload: Vec<u8> = (0..40).collect();
    let bytes = message(9, HIT, 1, 255, &payload);
    for cut in [1, 22, 23, 24, 62] {
        assert_eq!(station.feed(4, 0, &own(), &bytes[..cut]), Ok(Fed::Waiting));
        let rest = [&bytes[cut..], b"and more"].concat();
        match station.feed(4, 0, &own(), &rest).unwrap() {
            Fed::Message(outcome) => assert_eq!((outcome.used, outcome.local), (63 - cut, Local::Hit(&payload))),
            Fed::Waiting => panic!("the hit is whole"),
        }
    }
}

#[test]
fn too_long_a_payload_shuts_the_line() {
    for (kind, payload, cut) in [(QUERY, 4_097, 20), (0x02, 5_000, 22), (PING, u32::MAX, 1)] {
        let mut station = station(&[0, 1]);
        let bytes = [over(kind, payload), vec![0; 100]].concat();
        assert_eq!(fed(&mut station, 0, &bytes[..cut]), (255, cut));
        assert_eq!(fed(&mut station, 0, &bytes[cut..]), (5, 23 - cut));
        assert_eq!(pending(&station, 0), (0, true));
        for scrap in [&bytes[23..], &probe(), b""] {
            assert_eq!(fed(&mut station, 0, scrap), (19, 0));
        }
        assert_eq!(station.open(0), Err(Refusal::BadLine));
        assert_eq!(fed(&mut station, 0, &probe()), (19, 0));
        assert_eq!(fed(&mut station, 8, &probe()), (3, 0));
        // It still is a neighbour, and the others go on.
        match station.feed(1, 0, &own(), &query(7, "eb")).unwrap() {
            Fed::Message(outcome) => assert!(outcome.sent.lines().eq([0])),
            Fed::Waiting => panic!("the query is whole"),
        }
        station.close(0).unwrap();
        assert_eq!(fed(&mut station, 0, &probe()), (3, 0));
        station.open(0).unwrap();
        assert_eq!(fed(&mut station, 0, &probe()), (0, 23));
        assert_eq!(station.tally().refused(Refusal::Shut), 4);
        assert_eq!(station.tally().refused(Refusal::TooLong), 1);
    }
}

#[test]
fn whole_messages_and_own_queries_are_blind_to_scraps() {
    let mut station = station(&[0, 1]);
    assert_eq!(fed(&mut station, 0, &over(QUERY, 4_097)), (5, 23));
    assert!(station.message(0, 0, &own(), &probe()).is_ok());
    assert_eq!(station.message(1, 0, &own(), &over(QUERY, 4_097)).unwrap_err().refusal, Refusal::TooLong);
    assert_eq!((pending(&station, 0), pending(&station, 1)), ((0, true), (0, false)));
    let mut odd = with_pending(&station, 5, (65_535, true), b"").unwrap();
    assert!(odd.in_order());
    for station in [&mut station, &mut odd] {
        assert!(station.message(0, 0, &own(), &query(7, "eb")).unwrap().sent.lines().eq([1]));
        assert!(station.ask([8; 16], b"lake").unwrap().lines().eq([0, 1]));
    }
    assert_eq!(pending(&odd, 5), (65_535, true));
    // A whole message between two scraps of its line: the scrap waits on.
    assert_eq!(fed(&mut odd, 1, &hit(8)[..30]), (255, 30));
    assert!(odd.message(1, 0, &own(), &probe()).is_ok());
    assert_eq!(fed(&mut odd, 1, &hit(8)[30..]), (0, 20));
}

#[test]
fn a_new_neighbour_does_not_inherit_a_scrap() {
    let mut station = station(&[0]);
    assert_eq!(fed(&mut station, 0, &query(7, "eb")[..20]), (255, 20));
    assert_eq!((station.open(0), station.close(1)), (Err(Refusal::BadLine), Err(Refusal::BadLine)));
    assert_eq!(pending(&station, 0), (20, false));
    station.close(0).unwrap();
    assert_eq!(pending(&station, 0), (0, false));
    station.open(0).unwrap();
    assert_eq!(fed(&mut station, 0, &probe()), (0, 23));
}

#[test]
fn a_refused_message_is_dropped() {
    let mut station = station(&[0, 1]);
    for answer in [0, 9] {
        assert_eq!(fed(&mut station, 0, &query(7, "eb")[..25]), (255, 25));
        assert_eq!(fed(&mut station, 0, &query(7, "eb")[25..]), (answer, 3));
        assert_eq!(pending(&station, 0), (0, false));
    }
    assert_eq!(fed(&mut station, 0, &probe()), (0, 23));
    // A type that is not known is no reason until the message is whole.
    let bye = message(1, 0x02, 1, 0, &[0; 10]);
    assert_eq!(fed(&mut station, 1, &bye[..32]), (255, 32));
    assert_eq!(fed(&mut station, 1, &bye[32..]), (7, 1));
    // A spoiled update in two scraps breaks the table.
    let update = |payload: &[u8]| message(1, UPDATE, 1, 0, payload);
    assert_eq!(fed(&mut station, 1, &update(&[0, 4, 0, 0, 0, 8])), (0, 29));
    let bad = update(&[1, 1, 1, 0, 4, 0x10, 0]);
    assert_eq!((fed(&mut station, 1, &bad[..9]), fed(&mut station, 1, &bad[9..])), ((255, 9), (16, 21)));
    assert_eq!(station.state().lines[1].table.mark, raw::MARK_BROKEN);
}

#[test]
fn the_last_byte_has_the_clock_and_the_turn() {
    let mut station = station(&[0, 1]);
    let ping = message(1, PING, 7, 0, b"");
    assert_eq!(station.feed(0, 0, &own(), &ping[..9]), Ok(Fed::Waiting));
    assert!(station.feed(0, 5_000, &own(), &ping[9..]).is_ok());
    assert_eq!(station.feed(0, 5_999, &own(), &ping).unwrap_err().refusal, Refusal::PingTooSoon);
    assert!(station.feed(0, 6_000, &own(), &ping).is_ok());
    assert_eq!(fed(&mut station, 0, &query(7, "eb")[..25]), (255, 25));
    assert_eq!(fed(&mut station, 1, &query(7, "eb")), (0, 28));
    assert_eq!(fed(&mut station, 0, &query(7, "eb")[25..]), (9, 3));
}

#[test]
fn held_bytes_that_start_no_message_are_refused() {
    let station = station(&[0]);
    let zeros = [(0, 255), (22, 255), (23, 1), (4_118, 1), (4_119, 1), (65_535, 1)];
    let longest = [(23, 255), (4_118, 255), (4_119, 1), (4_120, 1), (65_535, 1)];
    let too_long = [(22, 255), (23, 1), (4_118, 1)];
    let cases = [(over(0, 0), &zeros[..]), (over(QUERY, 4_096), &longest[..]), (over(QUERY, 4_097), &too_long[..])];
    for (bytes, counts) in cases {
        for &(count, answer) in counts {
            match with_pending(&station, 0, (count, false), &bytes) {
                Ok(mut begun) => {
                    assert_eq!((fed(&mut begun, 0, b""), answer), ((255, 0), 255), "{count} bytes held");
                    assert_eq!((pending(&begun, 0), begun.tally().messages()), ((count, false), 0));
                }
                Err(refusal) => assert_eq!(refusal.number(), answer, "{count} bytes held"),
            }
            // A line that is shut is told so first; closing and opening it mends both.
            let mut shut = with_pending(&station, 0, (count, true), &bytes).unwrap();
            assert_eq!(fed(&mut shut, 0, &probe()), (19, 0));
            shut.close(0).unwrap();
            assert_eq!(fed(&mut shut, 0, &probe()), (3, 0));
            shut.open(0).unwrap();
            assert_eq!(fed(&mut shut, 0, &probe()), (0, 23));
        }
    }
}

#[test]
fn the_longest_message_is_completed_by_its_last_byte() {
    let mut station = station(&[0, 1]);
    let bytes = message(3, QUERY, 3, 1, &[vec![0, 0], vec![b'x'; 4_093], vec![0]].concat());
    assert_eq!(fed(&mut station, 0, &bytes[..4_118]), (255, 4_118));
    match station.feed(0, 0, &own(), &bytes[4_118..]).unwrap() {
        Fed::Message(outcome) => {
            assert_eq!((outcome.used, outcome.local), (1, Local::Query(&[b'x'; 4_093])));
            assert_eq!(outcome.sent.bytes[23..], bytes[23..]);
        }
        Fed::Waiting => panic!("the query is whole"),
    }
}

#[test]
fn waiting_is_not_counted() {
    let mut station = station(&[0]);
    for byte in probe() {
        station.feed(0, 0, &own(), &[byte]).unwrap();
    }
    assert_eq!((station.tally().done(), station.tally().messages()), (1, 1));
    assert_eq!(fed(&mut station, 3, b""), (3, 0));
    let refused = "1 refused with 3: no such line, or it is not open, or open already\n";
    assert_eq!(station.tally().to_string(), format!("1 done\n{refused}"));
}

/// The messages that a buffer brings, and how it ends.
fn fed_all(station: &mut Station, line: u32, bytes: &[u8]) -> (Vec<u8>, Result<(), Refused>) {
    let mut answers = Vec::new();
    let ended = station.feed_all(line, 0, &own(), bytes, |message| {
        answers.push(message.map_or_else(|refused| refused.refusal.number(), |_| 0));
    });
    (answers, ended)
}

#[test]
fn a_buffer_is_taken_to_its_end() {
    let mut station = station(&[0, 1]);
    let stream = [query(7, "eb"), probe(), query(7, "eb"), hit(6), probe(), query(8, "lake")].concat();
    assert_eq!(fed_all(&mut station, 0, &stream[..stream.len() - 5]), (vec![0, 0, 9, 10, 0], Ok(())));
    assert_eq!(pending(&station, 0), (25, false));
    let rest = [&stream[stream.len() - 5..], &over(QUERY, 4_097), &probe()].concat();
    let ended = |refusal, used| Err(Refused { refusal, used, after: None });
    assert_eq!(fed_all(&mut station, 0, &rest), (vec![0], ended(Refusal::TooLong, 28)));
    assert_eq!(fed_all(&mut station, 0, &rest[28..]), (vec![], ended(Refusal::Shut, 0)));
    assert_eq!(fed_all(&mut station, 9, &rest), (vec![], ended(Refusal::BadLine, 0)));
    assert_eq!(fed_all(&mut station, 0, b""), (vec![], Ok(())));
}

/// However a stream is cut, the messages come to what they come to as whole ones.
#[test]
fn cutting_changes_nothing() {
    let ping = message(2, PING, 7, 0, b"");
    let stream = [query(7, "eb"), probe(), query(7, "eb"), ping, hit(7), hit(6), query(8, "lake")].concat();
    let mut whole = station(&[0, 1]);
    let (answers, _) = fed_all(&mut whole, 0, &stream);
    for size in 1..stream.len() {
        let mut cut = station(&[0, 1]);
        let mut met = Vec::new();
        for scrap in stream.chunks(size) {
            let (some, ended) = fed_all(&mut cut, 0, scrap);
            assert_eq!(ended, Ok(()));
            met.extend(some);
        }
        assert_eq!((&met, cut.state()), (&answers, whole.state()), "scraps of {size}");
        assert_eq!(cut.tally(), whole.tally());
    }
}
