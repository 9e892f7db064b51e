//! The rows of the first table.

use crate::inputs::{self, calls, Random};
use crate::measure::{repeated, Effort, Row};
use crate::proved::Proved;
use crate::sessions::{Session, Way, World, CLOCK, INFINITY, MEMORY};
use crate::sides::{Areas, Call, Outcome, Reference, Side, ROOM};
use std::hint::black_box;

/// Calls in a list of like messages.
const LIST: usize = 64;
/// Bytes of a hit's payload.
const HIT: usize = 150;
/// Hits of one query that are passed back.
const HITS: usize = 200;

/// The keywords that are near in most tables.
fn words(random: &mut Random) -> Vec<Vec<u8>> {
    (0..64).map(|_| random.word(7)).collect()
}

pub fn world(seed: u64, entries: usize) -> World {
    World::new(seed, entries, words(&mut Random(seed)))
}

/// Texts of one to four near keywords; one of five has a keyword that is far from everywhere.
fn text(random: &mut Random, words: &[Vec<u8>]) -> Vec<u8> {
    let mut text: Vec<Vec<u8>> = (0..1 + random.below(4)).map(|_| words[random.below(words.len())].clone()).collect();
    if random.below(5) == 0 {
        text.push(random.word(9));
    }
    text.join(&b' ')
}

/// 40% queries, 20% hits, 15% pings, 15% pongs, 10% updates: two times a RESET and a run of nine PATCHes for a table of 65,536 entries.
pub fn mixed() -> Session {
    let mut world = world(1, ROOM);
    let setup = world.warm();
    let World { mut random, mut numbers, words, kept, tables } = world;
    let mut asked: Vec<[u8; 16]> = kept[MEMORY / 2..].to_vec();
    let update =
        |line: u32| inputs::updates([line as u8; 16], None, &tables[line as usize], INFINITY).into_iter().map(move |bytes| (line, bytes));
    let mut updates = update(4).chain(update(5)).collect::<Vec<_>>().into_iter();
    let mut list = Vec::new();
    for index in 0..200 {
        let (line, hops) = (random.below(8) as u32, random.below(4) as u8);
        // Kinds in each twenty messages: eight queries, four hits, three pings, three pongs, two updates.
        let (line, bytes) = match index * 7 % 20 {
            0..=7 => {
                let number = numbers.number();
                asked.push(number);
                (line, inputs::query(number, 7 - hops, hops, &text(&mut random, &words)))
            }
            8..=11 => (line, inputs::hit(asked[random.below(asked.len())], 5, hops, HIT)),
            12 => (line, inputs::ping(random.number(), 1, 0)),
            13 | 14 => (line, inputs::ping(random.number(), 7 - hops, hops)),
            15..=17 => (line, inputs::pong(random.number(), 3, hops, [index as u8; 14])),
            _ => updates.next().expect("twenty updates"),
        };
        list.push(Call { line, clock: CLOCK + 60 * index as u32, bytes });
    }
    let (name, units) = ("message, mixed list".into(), list.len());
    Session { name, setup, units, calls: list, way: Way::Message, expected: |_| true }
}

/// A list of messages of line 0 to a warm station.
fn warm(name: &str, expected: fn(&Outcome) -> bool, make: impl Fn(&mut World, usize) -> Vec<u8>) -> Session {
    let mut world = world(2, ROOM);
    let setup = world.warm();
    let list = (0..LIST).map(|index| make(&mut world, index)).collect();
    Session { name: name.into(), setup, calls: calls(0, CLOCK, list), way: Way::Message, expected, units: LIST }
}

fn passing() -> Session {
    let five = |outcome: &Outcome| outcome.answer == 0 && outcome.to.count_ones() == 5;
    warm("query to eight lines, passed to five", five, |world, _| {
        inputs::query(world.numbers.number(), 5, 1, &world.words[..3].join(&b' '))
    })
}

fn repeat() -> Session {
    let remembered = |outcome: &Outcome| outcome.answer == 9;
    warm("query remembered (9)", remembered, |world, index| inputs::query(world.kept[index * 8], 5, 1, &world.words[..3].join(&b' ')))
}

fn passed_back() -> Session {
    let sent = |outcome: &Outcome| outcome.answer == 0 && outcome.to.count_ones() == 1;
    warm("hit passed back", sent, |world, index| inputs::hit(world.kept[index * 8], 5, 1, HIT))
}

/// Hits of queries that have each had as many as are passed back.
fn one_too_many() -> Session {
    let refused = |outcome: &Outcome| outcome.answer == 21;
    let hit = |world: &mut World, index: usize| inputs::hit(world.kept[index * 8], 5, 1, HIT);
    let mut session = warm("hit of a query that has had 200 (21)", refused, hit);
    let before = session.calls.iter().flat_map(|call| vec![call.clone(); HITS]);
    session.setup.extend(before);
    session
}

/// Fourteen pings of each line, a second apart, while the stored pongs are fresh.
fn pings() -> Session {
    let mut world = world(3, ROOM);
    let setup = world.warm();
    let ping = |index: u32| Call { line: index % 8, clock: CLOCK + 1_000 * (index / 8), bytes: inputs::ping([index as u8; 16], 7, 2) };
    let eleven = |outcome: &Outcome| outcome.answer == 0 && outcome.written == 11 * 37;
    let calls = (0..112).map(ping).collect();
    Session { name: "ping, 80 pongs stored".into(), setup, calls, way: Way::Message, expected: eleven, units: 112 }
}

fn resets() -> Session {
    warm("RESET of 65,536 entries", |outcome| outcome.answer == 0, |_, _| inputs::reset([7; 16], ROOM, INFINITY))
}

/// Two whole runs, from one table to another and back.
pub fn run(name: &str, entries: usize, infinity: u8) -> Session {
    let mut world = world(4, ROOM);
    let mut setup = world.remembered(MEMORY);
    let tables = inputs::writing(&mut world.random, entries, infinity);
    setup.extend(calls(0, CLOCK, inputs::updates(tables.number, None, &tables.old, infinity)));
    let mut list = inputs::updates(tables.number, Some(&tables.old), &tables.new, infinity);
    list.extend(inputs::updates(tables.number, Some(&tables.new), &tables.old, infinity));
    let taken = |outcome: &Outcome| outcome.answer == 0;
    Session { name: name.into(), setup, calls: calls(0, CLOCK, list), way: Way::Message, expected: taken, units: 2 }
}

/// The same messages, each by the call that takes bytes, with nothing held.
fn whole(name: &str, session: Session) -> Session {
    Session { name: name.into(), way: Way::Feed, ..session }
}

/// Queries, each in two scraps, the second from the midst of its header on.
fn two_scraps() -> Session {
    let session = passing();
    let cut = |call: Call| {
        let (first, second) = call.bytes.split_at(20);
        [first.to_vec(), second.to_vec()].map(|bytes| Call { bytes, ..call })
    };
    let expected = |outcome: &Outcome| outcome.waits || (outcome.within && outcome.to.count_ones() == 5);
    let calls = session.calls.into_iter().flat_map(cut).collect();
    let name = "feed of a query in two scraps, passed to five".into();
    Session { name, calls, way: Way::Feed, expected, ..session }
}

/// A stream of queries, hits, pongs and pings of line 0, cut into scraps of this size. A unit is a byte.
fn stream(size: usize) -> Session {
    let mut world = world(8, ROOM);
    let setup = world.warm();
    let World { mut random, mut numbers, words, kept, .. } = world;
    let mut message = |index: usize| match index % 8 {
        0..=3 => inputs::query(numbers.number(), 5, 1, &text(&mut random, &words)),
        4 | 5 => inputs::hit(kept[MEMORY / 2 + index], 5, 1, HIT),
        6 => inputs::pong(random.number(), 3, 1, [index as u8; 14]),
        _ => inputs::ping(random.number(), 1, 0),
    };
    let bytes = (0..LIST).map(&mut message).collect::<Vec<_>>().concat();
    let list = bytes.chunks(size).map(<[u8]>::to_vec).collect();
    let name = format!("stream in scraps of {size} byte{}, each byte", if size == 1 { "" } else { "s" });
    let expected = |outcome: &Outcome| outcome.waits || outcome.answer == 0;
    Session { name, setup, calls: calls(0, CLOCK, list), way: Way::Feed, expected, units: bytes.len() }
}

/// Rows of message calls, and of calls with bytes as they come.
pub fn sessions() -> Vec<Session> {
    let four = run("PATCH run, 65,536 entries, 4 bits", ROOM, INFINITY);
    let eight = run("PATCH run, 65,536 entries, 8 bits", ROOM, 100);
    let messages = [mixed(), passing(), repeat(), passed_back(), one_too_many(), pings(), resets(), four, eight];
    let mixed_whole = whole("feed of whole messages, mixed list", mixed());
    let passing_whole = whole("feed of a whole query, passed to five", passing());
    let feeds = [mixed_whole, passing_whole, two_scraps(), stream(1), stream(16), stream(64)];
    messages.into_iter().chain(feeds).collect()
}

/// Both with a warm station.
pub fn warm_pair(name: &str, world: &mut World, areas: &mut Areas) -> (Proved, Reference) {
    let (setup, calls, way) = (world.warm(), Vec::new(), Way::Message);
    let session = Session { name: name.into(), setup, calls, way, expected: |_| true, units: 1 };
    (session.started(areas), session.started(areas))
}

fn in_order(name: &str, effort: Effort, areas: &mut Areas) -> Row {
    let (proved, reference) = warm_pair(name, &mut world(5, ROOM), areas);
    assert!(proved.in_order() && reference.in_order());
    repeated(name, effort, &mut (), |_| black_box(&proved).in_order(), |_| black_box(&reference).in_order())
}

/// The look-up of the query with this age, or of a number that is not remembered.
fn look_up(name: &str, effort: Effort, areas: &mut Areas, age: Option<usize>) -> Row {
    let mut world = world(9, ROOM);
    let (proved, reference) = warm_pair(name, &mut world, areas);
    let number = age.map_or(world.numbers.number(), |age| world.kept[MEMORY - 1 - age]);
    let found = proved.look_up(&number);
    assert_eq!(found, reference.look_up(&number), "{name}: what is found is equal");
    assert_eq!((found.answer, found.after), age.map_or((10, 0), |age| (0, age)), "{name}: it is what the row says");
    let one = |_: &mut ()| black_box(&proved).look_up(black_box(&number));
    repeated(name, effort, &mut (), one, |_| black_box(&reference).look_up(black_box(&number)))
}

fn hash(name: &str, effort: Effort, length: usize) -> Row {
    let word = Random(6).word(length);
    assert_eq!(Proved::hash(&word), Reference::hash(&word));
    repeated(name, effort, &mut (), |_| Proved::hash(black_box(&word)), |_| Reference::hash(black_box(&word)))
}

fn writer(name: &str, effort: Effort, bits: u8, infinity: u8) -> Row {
    let tables = inputs::writing(&mut Random(7), ROOM, infinity);
    let mut out = vec![0; 2 * ROOM];
    let one = Proved::write_table(&tables, &mut out);
    let bytes = std::mem::replace(&mut out, vec![0; 2 * ROOM]);
    let two = Reference::write_table(&tables, &mut out);
    assert!(one == two && bytes == out && one.0 == 0 && bytes[27] == bits, "the bytes written are equal");
    let proved = |out: &mut Vec<u8>| Proved::write_table(black_box(&tables), out);
    repeated(name, effort, &mut out, proved, |out| Reference::write_table(black_box(&tables), out))
}

fn group(name: &str, effort: Effort) -> Row {
    let group = inputs::group();
    assert_eq!(group.len(), 400);
    assert_eq!(Proved::read_group(&group), Reference::read_group(&group));
    assert_eq!(Proved::read_group(&group).answer, 0);
    repeated(name, effort, &mut (), |_| Proved::read_group(black_box(&group)), |_| Reference::read_group(black_box(&group)))
}

fn field(name: &str, effort: Effort) -> Row {
    let (group, asked) = (inputs::group(), b"x-try");
    let mut out = vec![0; 256];
    let one = Proved::read_field(&group, asked, &mut out);
    let bytes = std::mem::replace(&mut out, vec![0; 256]);
    let two = Reference::read_field(&group, asked, &mut out);
    assert!(one == two && bytes == out && one.0 == 0, "the values are equal");
    let proved = |out: &mut Vec<u8>| Proved::read_field(black_box(&group), black_box(asked), out);
    repeated(name, effort, &mut out, proved, |out| Reference::read_field(black_box(&group), black_box(asked), out))
}

pub type Function = fn(&str, Effort, &mut Areas) -> Row;

/// Rows of the other functions, with what measures each.
pub const FUNCTIONS: [(&str, Function); 11] = [
    ("in order, 512 remembered", in_order),
    ("look-up, the newest of 512", |name, effort, areas| look_up(name, effort, areas, Some(0))),
    ("look-up, the oldest of 512", |name, effort, areas| look_up(name, effort, areas, Some(MEMORY - 1))),
    ("look-up, none of 512 (10)", |name, effort, areas| look_up(name, effort, areas, None)),
    ("table writer, 65,536 entries, 4 bits", |name, effort, _| writer(name, effort, 4, INFINITY)),
    ("table writer, 65,536 entries, 8 bits", |name, effort, _| writer(name, effort, 8, 100)),
    ("hash of 3 bytes", |name, effort, _| hash(name, effort, 3)),
    ("hash of 8 bytes", |name, effort, _| hash(name, effort, 8)),
    ("hash of 200 bytes", |name, effort, _| hash(name, effort, 200)),
    ("handshake group of 400 bytes read", |name, effort, _| group(name, effort)),
    ("handshake field asked for", |name, effort, _| field(name, effort)),
];
