//! The six events of the session sample, each through the call that it stands for.

use lunozhar::{Own, Refusal, Station};

const FILE: &[u8] = include_bytes!("../../../samples/six-events");
const TEXT: &str = "event answer to after\n0 0 - -\n1 0 - -\n2 0 - -\n3 0 - -\n4 0 1 -\n5 9 - 0\n";

fn number_at(at: usize) -> u32 {
    u32::from_le_bytes(FILE[at..at + 4].try_into().unwrap())
}

/// The answer number, the lines sent to, and the age.
fn row(station: &mut Station, event: &[u8]) -> (u8, Vec<String>, Option<usize>) {
    let own = Own::new("127.0.0.1:6346".parse().unwrap());
    let (line, clock) = (event[1].into(), u32::from_le_bytes(event[2..6].try_into().unwrap()));
    let changed = |result: Result<(), Refusal>| (result.err().map_or(0, Refusal::number), Vec::new(), None);
    match event[0] {
        0 => changed(station.open(line)),
        1 => changed(station.close(line)),
        _ => match station.message(line, clock, &own, &event[6..]) {
            Ok(outcome) => (0, outcome.sent.lines().map(|line| line.to_string()).collect(), outcome.after),
            Err(refused) => (refused.refusal.number(), Vec::new(), refused.after),
        },
    }
}

#[test]
fn the_six_events_are_answered_as_in_the_sample() {
    let mut station = Station::new(16_384).unwrap();
    let mut text = String::from("event answer to after\n");
    for event in 0..number_at(0) as usize {
        let (from, to) = (number_at(4 + 4 * event) as usize, number_at(8 + 4 * event) as usize);
        let (answer, lines, after) = row(&mut station, &FILE[from..to]);
        let to = if lines.is_empty() { "-".to_string() } else { lines.join(",") };
        let after = after.map_or("-".to_string(), |after| after.to_string());
        text.push_str(&format!("{event} {answer} {to} {after}\n"));
    }
    assert_eq!(text, TEXT);
    assert_eq!(station.route()[2048..2052], [8, 1, 8, 1]);
    assert_eq!((station.tally().done(), station.tally().refused(Refusal::Repeated)), (3, 1));
}
