//! Tables that are passed on: the own names, and what the tables of the other lines tell of, one hop farther.

use crate::any_bytes::Random;
use crate::{message, own, query, station, UPDATE};
use lunozhar::table::{self, Table};
use lunozhar::{keyword, raw, Local, Made, Names, Refusal, Station};

/// A list of these names.
fn listed(names: &[&str]) -> Names {
    let mut list = Names::new(100);
    for name in names {
        list.add(name.as_bytes()).unwrap();
    }
    list
}

/// Hands updates to a line, message by message.
fn tell(station: &mut Station, line: u32, mut updates: &[u8]) {
    while !updates.is_empty() {
        updates = &updates[station.message(line, 0, &own(), updates).unwrap().used..];
    }
}

/// The updates that bring a whole table, with so many bytes of data in each.
fn updates(entries: &[u8], infinity: u8, data_size: usize) -> Vec<u8> {
    table::write([1; 16], None, Table { entries, infinity }, data_size).unwrap()
}

const FIRST: [u8; 4] = [3, 1, 3, 3];
const SECOND: [u8; 8] = [8, 8, 5, 8, 8, 8, 8, 7];

/// Lines 0, 1 and 2 are open. Line 1 has told of four entries, with Infinity 3, and line 2, in scraps, of eight, with Infinity 8.
fn told_by_two() -> Station {
    let mut station = station(&[0, 1, 2]);
    tell(&mut station, 1, &updates(&FIRST, 3, table::MOST_DATA));
    for scrap in updates(&SECOND, 8, 1).chunks(3) {
        station.feed_all(2, 0, &own(), scrap, |message| assert!(message.is_ok())).unwrap();
    }
    station
}

/// The entries of the table that is made for a line.
fn made(station: &Station, line: u32, names: &[&str], length: u32) -> Vec<u8> {
    let Made { entries, infinity } = station.table_for(line, &listed(names), length).unwrap();
    assert_eq!((entries.len(), infinity), (length as usize, 8));
    entries
}

#[test]
fn an_entry_is_one_more_than_the_least_of_the_other_lines() {
    let station = told_by_two();
    assert_eq!(made(&station, 0, &[], 4), [8, 2, 8, 8]);
    assert_eq!(made(&station, 0, &[], 8), [8, 8, 2, 2, 8, 8, 8, 8]);
    assert_eq!(made(&station, 0, &[], 16), [8, 8, 8, 8, 2, 2, 2, 2, 8, 8, 8, 8, 8, 8, 8, 8]);
    // The table of the line itself plays no part.
    assert_eq!(made(&station, 1, &[], 4), [8, 6, 8, 8]);
    assert_eq!(made(&station, 1, &[], 16), [8, 8, 8, 8, 6, 6, 8, 8, 8, 8, 8, 8, 8, 8, 8, 8]);
    assert_eq!(made(&station, 2, &[], 8), [8, 8, 2, 2, 8, 8, 8, 8]);
}

/// The keyword "eb" falls on the last of four places, and on the seventh of eight; "ebckl" on the second and the fourth.
#[test]
fn an_entry_is_1_for_an_own_name() {
    let station = told_by_two();
    assert_eq!(made(&station, 0, &["eb"], 4), [8, 2, 8, 1]);
    assert_eq!(made(&station, 0, &["Eb ebckl"], 4), [8, 1, 8, 1]);
    assert_eq!(made(&station, 0, &["eb", "-ebckl."], 8), [8, 8, 2, 1, 8, 8, 1, 8]);
    assert_eq!(made(&station, 1, &["ebckl", "..."], 4), [8, 1, 8, 8]);
}

#[test]
fn without_other_tables_it_is_the_table_of_the_names() {
    let (station, names) = (station(&[0, 1]), listed(&["mountain lake.jpg", "river boat.jpg"]));
    for bits in 2..=16 {
        let made = station.table_for(1, &names, 1 << bits).unwrap();
        assert_eq!((made.entries, made.infinity), (names.table(1 << bits, 8).unwrap(), 8));
    }
}

/// Line 2 is told of its table message by message, then of what it refuses, then of a RESET, and then it closes.
#[test]
fn a_table_that_is_not_settled_plays_no_part() {
    let mut station = station(&[0, 1, 2]);
    let mut rest = &updates(&SECOND, 8, 2)[..];
    let reset = &rest[..29];
    let mut marks = Vec::new();
    let none = [8; 4];
    loop {
        let mark = station.state().lines[2].table.mark;
        marks.push(mark);
        assert_eq!(made(&station, 1, &[], 4), if mark == raw::MARK_SETTLED { [8, 6, 8, 8] } else { none });
        if rest.is_empty() {
            break;
        }
        rest = &rest[station.message(2, 0, &own(), rest).unwrap().used..];
    }
    assert_eq!(marks, [raw::MARK_NONE, raw::MARK_WAITING, raw::MARK_RUNNING, raw::MARK_SETTLED]);

    let refused = station.message(2, 0, &own(), &message(1, UPDATE, 1, 0, &[0, 3, 0, 0, 0, 8])).unwrap_err();
    assert_eq!((refused.refusal, station.state().lines[2].table.mark), (Refusal::BadUpdate, raw::MARK_BROKEN));
    assert_eq!(made(&station, 1, &[], 4), none);
    tell(&mut station, 2, reset);
    assert_eq!(made(&station, 1, &[], 4), none);

    let mut station = told_by_two();
    station.close(2).unwrap();
    assert_eq!(made(&station, 1, &[], 4), none);
    station.open(2).unwrap();
    assert_eq!(made(&station, 1, &[], 4), none);
}

#[test]
fn lines_and_lengths_are_refused() {
    let (mut station, names) = (told_by_two(), listed(&["eb"]));
    for line in [3, 7, 8, 9, 256, u32::MAX] {
        assert_eq!(station.table_for(line, &names, 4), Err(Refusal::BadLine));
        assert_eq!(station.table_for(line, &names, 5), Err(Refusal::BadLine));
    }
    for length in [0, 1, 2, 3, 5, 6, 1_000, 65_535, 65_537, 131_072, 1 << 31, u32::MAX] {
        assert_eq!(station.table_for(0, &names, length), Err(Refusal::BadUpdate));
    }
    station.close(0).unwrap();
    assert_eq!(station.table_for(0, &names, 4), Err(Refusal::BadLine));
}

/// Room for four entries a table says nothing of the one that is made.
#[test]
fn a_table_may_be_longer_than_the_room() {
    let mut station = Station::new(32).unwrap();
    station.open(0).unwrap();
    station.open(7).unwrap();
    tell(&mut station, 7, &updates(&[9, 4, 9, 1], 9, 2));
    let made = made(&station, 0, &["eb"], 65_536);
    let place = keyword::place(b"eb", 16) as usize;
    for (at, entry) in made.into_iter().enumerate() {
        assert_eq!(entry, if at == place { 1 } else { [8, 5, 8, 2][at / 16_384] });
    }
}

#[test]
fn nothing_of_the_station_changes() {
    let mut station = told_by_two();
    station.feed(0, 0, &own(), &query(7, "river")[..20]).unwrap();
    station.ask([8; 16], b"lake").unwrap();
    let parts = |station: &Station| (station.state().clone(), station.route().to_vec(), station.held().to_vec(), *station.tally());
    let before = parts(&station);
    let names = listed(&["eb", "ebckl"]);
    let bytes = names.as_bytes().to_vec();
    for (line, length) in [(0, 4), (1, 1024), (2, 65_536), (3, 4), (0, 6)] {
        assert_eq!(station.table_for(line, &names, length), station.table_for(line, &names, length));
    }
    assert!(parts(&station) == before && names.as_bytes() == bytes);
}

/// The call as C has it, into an area of so many bytes of 77: answer, Infinity and the area after it.
fn lent(state: &raw::Station, line: u32, names: &[u8], size: u32, out: usize, route: &[u8]) -> (u8, u8, Vec<u8>) {
    let mut out = vec![77; out];
    let (at, len) = (out.as_mut_ptr(), out.len());
    // SAFETY: the reference points to a whole station, each pointer goes with the length of its slice, and the output is apart from the others.
    let told = unsafe { raw::lunozhar_table_for(state, line, names.as_ptr(), names.len(), size, at, len, route.as_ptr(), route.len()) };
    (told.answer, told.infinity, out)
}

#[test]
fn the_first_reason_is_the_answer() {
    let station = told_by_two();
    let (state, route) = (station.state(), station.route());
    let broken = raw::Station { count: 513, ..state.clone() };
    let (good, short, bad) = ([0; raw::NAMES], [0; raw::NAMES - 1], [0xFF; raw::NAMES]);
    let (longer, other) = ([route, &[1; 7]].concat(), [route, &[1; 8]].concat());
    for (state, route, line, names, size, out, answer) in [
        (&broken, &route[..31], 9, &short[..], 5, 3, 1),
        (state, &route[..31], 9, &short, 5, 3, 2),
        (state, &other, 9, &short, 5, 3, 2),
        (state, &route[1..], 9, &short, 5, 3, 2),
        (state, route, 9, &short, 5, 3, 3),
        (state, route, 3, &bad, 5, 3, 3),
        (state, route, 0, &short, 5, 3, 2),
        (state, route, 0, &bad, 5, 3, 1),
        (state, route, 0, &good, 5, 3, 14),
        (state, route, 0, &good, 8, 7, 2),
        (state, &longer, 0, &good, 4, 3, 2),
    ] {
        assert_eq!(lent(state, line, names, size, out, route), (answer, 0, vec![77; out]));
    }
    assert_eq!(lent(state, 0, &good, 8, 8, route), (0, 8, vec![8, 8, 2, 2, 8, 8, 8, 8]));
    assert_eq!(lent(state, 0, &good, 4, 10, &longer), (0, 8, vec![8, 2, 8, 8, 77, 77, 77, 77, 77, 77]));
}

/// So many stations in a row, each with the one before by line 0 and the one behind by line 1.
fn row(count: usize) -> Vec<Station> {
    let lines = |at: usize| [(0, at > 0), (1, at + 1 < count)];
    (0..count).map(|at| station(&lines(at).iter().filter(|line| line.1).map(|line| line.0).collect::<Vec<_>>())).collect()
}

/// The table that a station makes for the one before it, which is brought it in scraps, from an older one that it has, if it has one.
fn tell_before(row: &mut [Station], at: usize, names: &Names, old: Option<&Made>) -> Made {
    let made = row[at].table_for(0, names, 1024).unwrap();
    let updates = table::write([1; 16], old.map(Made::table), made.table(), 100).unwrap();
    for scrap in updates.chunks(11) {
        row[at - 1].feed_all(1, 0, &own(), scrap, |message| assert!(message.is_ok())).unwrap();
    }
    let held = &row[at - 1].route()[1024..][..1024];
    assert_eq!((row[at - 1].state().lines[1].table.mark, held), (raw::MARK_SETTLED, &made.entries[..]));
    made
}

/// The entry of a keyword in the table that a station has of the one behind it.
fn entry(station: &Station, word: &str) -> u8 {
    station.route()[1024 + keyword::place(word.as_bytes(), 10) as usize]
}

/// Which stations get a query of one of them. Where it goes on, it goes to the one behind alone.
fn reached(row: &mut [Station], from: usize, number: u8, text: &str) -> Vec<usize> {
    let sent = row[from].ask([number; 16], text.as_bytes()).unwrap();
    let mut next = sent.to[1].then(|| sent.bytes.to_vec());
    let mut reached = Vec::new();
    while let Some(bytes) = next {
        let at = from + 1 + reached.len();
        let outcome = row[at].message(0, 0, &own(), &bytes).unwrap();
        assert_eq!(outcome.local, Local::Query(text.as_bytes()));
        assert_eq!((bytes[17], bytes[18]), (7 - reached.len() as u8, reached.len() as u8), "TTL and Hops");
        next = outcome.sent.to[1].then(|| outcome.sent.bytes.to_vec());
        reached.push(at);
    }
    reached
}

/// A file at the last of nine stations: each of the seven before it has its keyword one farther than the one behind, and a query with the
/// usual TTL of 7 comes to it. The first of all is too far away.
#[test]
fn the_distance_rises_by_one_with_each_hop_up_to_the_limit() {
    let mut row = row(9);
    let (none, files) = (listed(&[]), listed(&["mountain lake.jpg"]));
    for at in (1..9).rev() {
        tell_before(&mut row, at, if at == 8 { &files } else { &none }, None);
    }
    let distances: Vec<u8> = row[..8].iter().map(|station| entry(station, "lake")).collect();
    assert_eq!(distances, [8, 7, 6, 5, 4, 3, 2, 1]);
    assert!(row[..8].iter().all(|station| entry(station, "river") == 8));
    for from in 1..8 {
        assert_eq!(reached(&mut row, from, from as u8, "Lake"), (from + 1..9).collect::<Vec<_>>());
        assert_eq!(reached(&mut row, from, 20 + from as u8, "river"), []);
        assert_eq!(reached(&mut row, from, 40 + from as u8, "lake river"), []);
    }
    assert_eq!(reached(&mut row, 0, 60, "lake"), []);
}

/// A file more, and then a file less, at the last of three: each table is told from the one before it.
#[test]
fn newer_tables_are_told_from_older_ones() {
    let mut row = row(3);
    let (none, mut files) = (listed(&[]), listed(&["lake.jpg"]));
    let mut told: Option<(Made, Made)> = None;
    let mut number = 0;
    let mut tell_all = |row: &mut Vec<Station>, files: &Names| {
        let last = tell_before(row, 2, files, told.as_ref().map(|told| &told.0));
        let next = tell_before(row, 1, &none, told.as_ref().map(|told| &told.1));
        told = Some((last, next));
        ["lake", "boat", "jpg"].map(|word| {
            number += 1;
            (entry(&row[1], word), entry(&row[0], word), reached(row, 0, number, word).len())
        })
    };
    assert_eq!(tell_all(&mut row, &files), [(1, 2, 2), (8, 8, 0), (1, 2, 2)]);
    files.add(b"boat.jpg").unwrap();
    assert_eq!(tell_all(&mut row, &files), [(1, 2, 2), (1, 2, 2), (1, 2, 2)]);
    files.remove(b"lake.jpg").unwrap();
    assert_eq!(tell_all(&mut row, &files), [(8, 8, 0), (1, 2, 2), (1, 2, 2)]);
    assert_eq!(tell_all(&mut row, &files), [(8, 8, 0), (1, 2, 2), (1, 2, 2)]);
}

/// A station whose tables have any lengths, Infinities and marks, over a route area of any bytes.
fn any_station(random: &mut Random) -> Station {
    let made = station(&[0, 1, 2, 4, 5, 6, 7]);
    let mut state = made.state().clone();
    for line in state.lines.iter_mut().filter(|line| line.live) {
        let pick = |random: &mut Random, from: &[u8]| from[random.below(from.len() as u64) as usize];
        line.table.length = 4 << random.below(7);
        line.table.infinity = pick(random, &[2, 3, 7, 8, 8, 9, 127]);
        line.table.mark = pick(random, &[raw::MARK_NONE, raw::MARK_WAITING, raw::MARK_SETTLED, raw::MARK_SETTLED, raw::MARK_BROKEN]);
        line.table.place = 1;
    }
    let bound = [3, 9, 10, 128, 256][random.below(5) as usize];
    let sparse = random.below(2) == 0;
    let mut byte = || if sparse && random.below(16) > 0 { 8 } else { random.below(bound) as u8 };
    let route = (0..made.route().len()).map(|_| byte()).collect();
    Station::from_parts(state, route, made.held().to_vec()).unwrap()
}

/// The table for a line once more, place by place: two places of unlike tables share an entry where a hash falls on both.
fn by_places(station: &Station, line: usize, names: &Names, length: usize) -> Vec<u8> {
    let (state, own) = (station.state(), names.table(length as u32, 8).unwrap());
    let least = |place: usize| {
        let others = (0..raw::LINES).filter(|&other| other != line && state.lines[other].table.mark == raw::MARK_SETTLED);
        let heard = others.flat_map(|other| {
            let table = state.lines[other].table;
            let entries = &station.route()[other * state.room..][..table.length as usize];
            let share = |at: usize| at * length < (place + 1) * entries.len() && place * entries.len() < (at + 1) * length;
            let shared = entries.iter().enumerate().filter(move |(at, _)| share(*at)).map(|(_, entry)| *entry);
            shared.filter(move |entry| *entry != table.infinity)
        });
        heard.min().map_or(8, |least| least.saturating_add(1).min(8))
    };
    (0..length).map(|place| if own[place] == 1 { 1 } else { least(place) }).collect()
}

/// Whatever stands in the route area, the table is that of its places, the writer takes it, and it stands at the neighbour as it was made.
#[test]
fn any_tables_are_told() {
    let mut random = Random(5);
    let names = listed(&["eb", "ebckl boat"]);
    let mut met = [0; 9];
    for _ in 0..200 {
        let any = any_station(&mut random);
        let line = [0, 1, 2, 4, 5, 6, 7][random.below(7) as usize];
        let made = any.table_for(line, &names, 4 << random.below(8)).unwrap();
        assert_eq!(made.entries, by_places(&any, line as usize, &names, made.entries.len()));
        made.entries.iter().for_each(|&entry| met[usize::from(entry)] += 1);

        let mut neighbour = station(&[3]);
        tell(&mut neighbour, 3, &table::write([1; 16], None, made.table(), 64).unwrap());
        let told = neighbour.state().lines[3].table;
        assert_eq!((told.mark, told.length as usize, told.infinity), (raw::MARK_SETTLED, made.entries.len(), made.infinity));
        assert_eq!(&neighbour.route()[3 * 1024..][..made.entries.len()], made.entries);
    }
    assert!(met[0] == 0 && met[1..].iter().all(|&times| times > 100), "{met:?}");
}
