//! Any bytes, any clock and any line get an answer, and leave the station in order.

use crate::{own, station, HIT, PING, PONG, QUERY, UPDATE};
use lunozhar::{handshake, Fed, Station};

/// Seeded random numbers, by xorshift.
pub(crate) struct Random(pub(crate) u64);

impl Random {
    pub(crate) fn below(&mut self, end: u64) -> u64 {
        self.0 ^= self.0 << 13;
        self.0 ^= self.0 >> 7;
        self.0 ^= self.0 << 17;
        (self.0 >> 11) % end
    }

    pub(crate) fn bytes(&mut self, most: u64) -> Vec<u8> {
        let bound = [3, 16, 256][self.below(3) as usize];
        (0..self.below(most + 1)).map(|_| self.below(bound) as u8).collect()
    }

    /// A message with few numbers, so that queries repeat and hits find theirs, now and then with its end cut or its length wrong.
    fn message(&mut self) -> Vec<u8> {
        let kind = [PING, PONG, UPDATE, QUERY, HIT, 0x40][self.below(6) as usize];
        let (number, payload) = (self.below(40) as u8, self.bytes(40));
        let mut bytes = crate::message(number, kind, self.below(4) as u8, self.below(3) as u8, &payload);
        match self.below(12) {
            0 => bytes.truncate(self.below(24) as usize),
            1 => bytes[19..23].copy_from_slice(&(self.below(1 << 32) as u32).to_le_bytes()),
            _ => {}
        }
        bytes
    }
}

/// Bytes of a line: a message and a part of the next, or the rest of one, or anything.
fn scrap(random: &mut Random) -> Vec<u8> {
    let mut bytes = [random.message(), random.message()].concat();
    bytes.drain(..random.below(bytes.len() as u64 / 2 + 1) as usize);
    bytes.truncate(random.below(60) as usize);
    bytes
}

/// One call: mostly a message or bytes, sometimes an opening, a closing or an own query.
fn call(station: &mut Station, random: &mut Random, clock: u32) {
    let line = random.below(9) as u32;
    match random.below(30) {
        0 => drop(station.open(line)),
        1 => drop(station.close(line)),
        2 => drop(station.ask([random.below(40) as u8; 16], &random.bytes(9)).is_ok()),
        3..=12 => {
            let bytes = scrap(random);
            match station.feed(line, clock, &own(), &bytes) {
                Ok(Fed::Message(outcome)) => assert!((1..=bytes.len()).contains(&outcome.used)),
                Ok(Fed::Waiting) => assert!(station.state().lines[line as usize].pending.count < 4_119),
                Err(refused) => assert!(refused.used <= bytes.len()),
            }
        }
        _ => {
            let bytes = random.message();
            match station.message(line, clock, &own(), &bytes) {
                Ok(outcome) => assert_eq!(outcome.sent.bytes.is_empty(), outcome.sent.lines().next().is_none()),
                Err(refused) => assert!(refused.used <= bytes.len()),
            }
        }
    }
}

#[test]
fn a_station_stays_in_order() {
    let mut station = station(&[0, 1, 2, 3]);
    let mut random = Random(1);
    for round in 0..20_000u32 {
        call(&mut station, &mut random, round.wrapping_mul(0x0400_0000));
        assert!(station.in_order());
        let known = station.look_up([(round % 40) as u8; 16]);
        assert!(known.map_or(true, |known| known.after < station.state().count));
    }
    assert!(station.tally().done() > 1_000, "{}", station.tally());
}

#[test]
fn a_handshake_gets_an_answer() {
    let mut random = Random(2);
    for _ in 0..2_000 {
        let mut bytes = b"GNUTELLA/0.6 503 Busy\r\nX-Try: 192.0.2.1:6346, 192.0.2.2:6347\r\n  ,\r\nx-try: 192.0.2.3:80\r\n\r\n".to_vec();
        for _ in 0..random.below(4) {
            let at = random.below(bytes.len() as u64) as usize;
            bytes[at] = b"\r\n :,.019A\0"[random.below(11) as usize];
        }
        if let Ok(group) = handshake::read_group(&bytes) {
            assert!(group.used <= bytes.len());
            assert!(handshake::field(&bytes, "X-Try").map_or(true, |value| value.len() < group.used));
            assert!(handshake::hosts(&bytes).map_or(true, |hosts| hosts.len() <= 3));
        }
    }
}
