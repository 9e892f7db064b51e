//! Every refusal is met, with the bytes that it says to skip, and changes nothing.

use crate::{hit, message, own, query, station, HIT, PING, PONG, QUERY, UPDATE};
use lunozhar::table::{self, Table};
use lunozhar::{handshake, raw, Names, Refusal, Refused, Station};

/// A station in the middle of its work: lines 0 and 1 are open, line 0 has asked query 10, of which 200 hits have come,
/// and query 7, and pinged at 0, line 2 has asked query 9 and closed, query 8 is an own one, and the table of line 1 has
/// four entries of 8.
fn busy_station() -> Station {
    let mut station = station(&[0, 1, 2]);
    station.message(0, 0, &own(), &query(10, "sea")).unwrap();
    for _ in 0..raw::HITS {
        station.message(1, 0, &own(), &hit(10)).unwrap();
    }
    station.message(0, 0, &own(), &query(7, "river")).unwrap();
    station.message(0, 0, &own(), &message(1, PING, 2, 0, b"")).unwrap();
    station.message(2, 0, &own(), &query(9, "lake")).unwrap();
    station.close(2).unwrap();
    station.ask([8; 16], b"hill").unwrap();
    station.message(1, 0, &own(), &message(1, UPDATE, 1, 0, &[0, 4, 0, 0, 0, 8])).unwrap();
    station
}

/// Messages that such a station refuses at 999 ms: the line, the message, and the refusal.
fn refused_messages() -> Vec<(u32, Vec<u8>, Refusal)> {
    let long = |bytes: &[u8]| [&message(1, QUERY, 3, 1, b"")[..19], bytes].concat();
    let update = |payload: &[u8]| message(1, UPDATE, 1, 0, payload);
    vec![
        (5, query(1, "eb"), Refusal::BadLine),
        (u32::MAX, query(1, "eb"), Refusal::BadLine),
        (0, Vec::new(), Refusal::NotWhole),
        (0, query(1, "eb")[..27].to_vec(), Refusal::NotWhole),
        (0, long(&4_097u32.to_le_bytes()), Refusal::TooLong),
        (0, long(&u32::MAX.to_le_bytes()), Refusal::TooLong),
        (0, message(1, PONG, 1, 0, &[0; 13]), Refusal::BadPayload),
        (0, message(1, QUERY, 3, 1, b"\0\0eb"), Refusal::BadPayload),
        (0, message(1, 0x40, 3, 1, &[0; 26]), Refusal::UnknownType),
        (0, message(1, QUERY, 0, 1, b"\0\0eb\0"), Refusal::BadTtlOrHops),
        (0, message(1, QUERY, 3, 255, b"\0\0eb\0"), Refusal::BadTtlOrHops),
        (1, message(7, QUERY, 3, 255, b"\0\0river\0"), Refusal::BadTtlOrHops),
        (1, query(7, "river"), Refusal::Repeated),
        (1, query(8, "hill"), Refusal::Repeated),
        (1, hit(6), Refusal::NotFound),
        (1, hit(9), Refusal::AskerClosed),
        (1, message(7, HIT, 5, 255, &[0; 27]), Refusal::HopsFull),
        (1, hit(10), Refusal::AnsweredEnough),
        (1, message(10, HIT, 1, 255, &[0; 27]), Refusal::AnsweredEnough),
        (0, message(1, PING, 2, 0, b""), Refusal::PingTooSoon),
        (1, update(&[0, 3, 0, 0, 0, 8]), Refusal::BadUpdate),
        (1, update(&[1, 2, 2, 0, 4, 0x99, 0x99]), Refusal::OutOfTurn),
        (1, update(&[1, 1, 1, 0, 4, 0x10, 0]), Refusal::EntryOutOfRange),
    ]
}

/// Ways to meet the refusals that no message gets.
fn refused_otherwise() -> Vec<Refused> {
    let state = raw::Station { count: 513, ..raw::Station::default() };
    let unused = |refusal| Refused { refusal, used: 0, after: None };
    vec![
        unused(Station::from_parts(state, vec![0; 32], vec![0; raw::LINES * raw::HELD]).unwrap_err()),
        unused(Station::new(31).unwrap_err()),
        handshake::read_group(b"GNUTELLA CONNECT/0.5\r\n\r\n").unwrap_err(),
        handshake::read_group(&[b'x'; 4_096]).unwrap_err(),
        shut_station().feed(1, 0, &own(), &query(1, "eb")).unwrap_err(),
        unused(Names::new(1).add(b"eb").unwrap_err()),
    ]
}

/// A station whose line 1 brought a header with too long a payload.
fn shut_station() -> Station {
    let mut station = station(&[0, 1]);
    let header = [&message(1, QUERY, 3, 1, b"")[..19], &4_097u32.to_le_bytes()].concat();
    let too_long = Refused { refusal: Refusal::TooLong, used: 23, after: None };
    assert_eq!(station.feed(1, 0, &own(), &header), Err(too_long));
    station
}

/// How many bytes a refusal uses: all of the message or group, or none.
fn used(refusal: Refusal, length: usize) -> usize {
    if matches!(refusal.number(), 1..=5 | 17 | 18) {
        0
    } else {
        length
    }
}

#[test]
fn every_refusal_is_met() {
    let mut met = refused_otherwise();
    for (line, bytes, refusal) in refused_messages() {
        let mut station = busy_station();
        let refused = station.message(line, 999, &own(), &bytes).unwrap_err();
        assert_eq!(refused.refusal, refusal, "{bytes:?}");
        assert_eq!(station.tally().refused(refusal), 1);
        assert_eq!(refused.used, used(refusal, bytes.len()));
        met.push(refused);
    }
    for refusal in Refusal::ALL {
        assert!(met.iter().any(|refused| refused.refusal == refusal), "{refusal} is not met");
    }
}

#[test]
fn a_refusal_changes_at_most_the_mark_of_the_table() {
    for (line, bytes, refusal) in refused_messages() {
        let mut station = busy_station();
        let mut state = station.state().clone();
        let route = station.route().to_vec();
        assert!(station.message(line, 999, &own(), &bytes).is_err());
        if matches!(refusal.number(), 14..=16) {
            state.lines[line as usize].table.mark = raw::MARK_BROKEN;
        }
        assert_eq!(*station.state(), state, "{refusal}");
        assert_eq!(station.route(), route, "{refusal}");
    }
}

#[test]
fn own_queries_are_refused() {
    let mut station = busy_station();
    let refused = |refusal, after| Err(Refused { refusal, used: 0, after });
    assert_eq!(station.ask([1; 16], &[b'x'; 4_094]), refused(Refusal::TooLong, None));
    assert_eq!(station.ask([1; 16], b"e\0b"), refused(Refusal::BadPayload, None));
    assert_eq!(station.ask([7; 16], b"eb"), refused(Refusal::Repeated, Some(2)));
    assert_eq!(station.ask([1; 16], &[b'x'; 4_093]).unwrap().bytes.len(), 4_119);
}

#[test]
fn parts_of_another_room_are_refused() {
    let state = station(&[0]).state().clone();
    for (length, refusal) in [(8 * 1024 - 1, Some(Refusal::BadArea)), (8 * 1024 + 7, None), (8 * 1024 + 8, Some(Refusal::BadArea))] {
        assert_eq!(Station::from_parts(state.clone(), vec![0; length], vec![0; 8 * raw::HELD]).err(), refusal);
    }
    for length in [0, 8 * raw::HELD - 1, 8 * raw::HELD + 1] {
        let made = Station::from_parts(state.clone(), vec![0; 8 * 1024], vec![0; length]);
        assert_eq!(made.err(), Some(Refusal::BadArea));
    }
}

#[test]
fn handshakes_and_tables_are_refused() {
    let bad = |refusal, used| Refused { refusal, used, after: None };
    assert_eq!(handshake::read_group(b"GNUTELLA CONNECT/0.6\r\n"), Err(bad(Refusal::NotWhole, 0)));
    assert_eq!(handshake::field(b"GNUTELLA/0.6 200\r\n\r\n", "X-Try"), Err(bad(Refusal::NotFound, 20)));
    assert_eq!(handshake::hosts(b"GNUTELLA/0.6 503\r\nX-Try: 1.2.3.4:0\r\n\r\n"), Err(bad(Refusal::BadPayload, 38)));
    let host = "192.0.2.1:6346".parse().unwrap();
    assert_eq!(handshake::busy(&[host; 33]), Err(Refusal::BadPayload));
    assert_eq!(handshake::busy(&["192.0.2.1:0".parse().unwrap()]), Err(Refusal::BadPayload));
    let entries = |entries| Table { entries, infinity: 8 };
    assert_eq!(table::write([0; 16], None, entries(&[8; 5]), 9), Err(Refusal::BadUpdate));
    assert_eq!(table::write([0; 16], Some(entries(&[8; 8])), entries(&[8; 4]), 9), Err(Refusal::BadUpdate));
    assert_eq!(table::write([0; 16], None, entries(&[8; 4]), 0), Err(Refusal::BadUpdate));
}

#[test]
fn a_refusal_goes_with_the_question_mark() {
    fn opened_and_fed() -> Result<(), Refusal> {
        let mut station = Station::new(1024)?;
        station.open(0)?;
        station.message(0, 0, &own(), b"")?;
        Ok(())
    }
    assert_eq!(opened_and_fed(), Err(Refusal::NotWhole));
}
