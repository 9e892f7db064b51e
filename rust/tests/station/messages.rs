//! What messages come to: bytes, lines, text, hits delivered here.

use crate::{hit, message, own, query, station, HIT, PING, PONG, QUERY};
use lunozhar::{Local, Outcome, Refusal, Station};

#[test]
fn a_query_is_searched_and_goes_to_every_other_line() {
    let mut station = station(&[0, 2, 7]);
    let bytes = [query(7, "mountain lake"), vec![1, 2, 3]].concat();
    let Outcome { used, sent, local, after } = station.message(2, 0, &own(), &bytes).unwrap();
    assert_eq!((used, after), (bytes.len() - 3, None));
    assert!(sent.lines().eq([0, 7]));
    assert_eq!(sent.to, [true, false, false, false, false, false, false, true]);
    assert_eq!(sent.bytes, message(7, QUERY, 2, 2, &bytes[23..used]));
    // The text is a part of the bytes that came: it stays when the station goes on.
    station.close(2).unwrap();
    assert_eq!(local, Local::Query(b"mountain lake"));
}

#[test]
fn a_hit_for_an_own_query_is_delivered() {
    let mut station = station(&[4]);
    let asked = station.ask([9; 16], b"eb").unwrap();
    assert_eq!(asked.bytes, message(9, QUERY, 7, 0, b"\0\0eb\0"));
    let payload: Vec<u8> = (0..40).collect();
    let bytes = message(9, HIT, 1, 255, &payload);
    let outcome = station.message(4, 0, &own(), &bytes).unwrap();
    assert_eq!(outcome.local, Local::Hit(&payload));
    assert_eq!(outcome.sent.lines().count(), 0);
    assert!(outcome.sent.bytes.is_empty());
}

#[test]
fn a_query_with_no_line_to_go_to_is_taken() {
    let mut station = station(&[]);
    let asked = station.ask([9; 16], b"eb").unwrap();
    assert_eq!((asked.bytes.len(), asked.lines().count()), (0, 0));
    assert_eq!(station.ask([9; 16], b"eb").unwrap_err().refusal, Refusal::Repeated);
}

#[test]
fn a_ping_gets_the_own_pong_and_a_stored_one() {
    let mut station = station(&[0, 1]);
    let stored: Vec<u8> = (1..15).collect();
    let (pong, ping) = (message(5, PONG, 1, 2, &stored), message(6, PING, 4, 3, b""));
    let outcome = station.message(1, 0, &own(), &pong).unwrap();
    assert_eq!((outcome.sent.bytes.len(), outcome.local), (0, Local::Nothing));
    let outcome = station.message(0, 14_999, &own(), &ping).unwrap();
    assert!(outcome.sent.lines().eq([0]));
    let mine = [0xCA, 0x18, 192, 0, 2, 1, 3, 0, 0, 0, 0x70, 0x11, 1, 0];
    assert_eq!(outcome.sent.bytes, [message(6, PONG, 3, 0, &mine), message(6, PONG, 3, 3, &stored)].concat());
}

#[test]
fn a_clone_goes_its_own_way() {
    let mut first = station(&[0, 1]);
    first.message(0, 0, &own(), &query(7, "river")).unwrap();
    let mut second = first.clone();
    second.close(0).unwrap();
    assert!(first.message(1, 0, &own(), &hit(7)).is_ok());
    assert_eq!(second.message(1, 0, &own(), &hit(7)).unwrap_err().refusal, Refusal::AskerClosed);
    assert_eq!((first.tally().messages(), second.tally().messages()), (2, 2));
    assert_eq!(format!("{second:?}"), "Station { room: 1024, open: [1], remembered: 1, .. }");
}

#[test]
fn a_station_may_go_to_another_thread() {
    fn goes<T: Send + Sync + Clone + 'static>(_: &T) {}
    let mut station: Station = station(&[0]);
    goes(&station);
    let joined = std::thread::spawn(move || station.message(0, 0, &own(), &query(7, "river")).map(|outcome| outcome.used));
    assert_eq!(joined.join().unwrap(), Ok(31));
}
