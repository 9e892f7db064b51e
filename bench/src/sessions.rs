//! Rows of message calls, and of calls with bytes as they come: a station is set up, then a list of messages or scraps
//! is timed. Before each round the state is what it was after the set-up.

use crate::inputs::{self, calls, Random};
use crate::measure::{by_turns, row, Effort, Row};
use crate::proved::Proved;
use crate::sides::{Areas, Call, Outcome, Reference, Side};
use std::hint::black_box;
use std::time::{Duration, Instant};

const LINES: u32 = 8;
/// Queries that a station remembers.
pub const MEMORY: usize = 512;
/// The Infinity of tables.
pub const INFINITY: u8 = 7;
/// The clock when the set-up is done.
pub const CLOCK: u32 = 100_000;

/// How a list is handed over: each message by the message call, or each scrap by the call that takes bytes, until it
/// is used up.
#[derive(Clone, Copy)]
pub enum Way {
    Message,
    Feed,
}

/// What is timed: a set-up, a list of messages or scraps, what each call is to come to, and how many units of work the
/// list is.
pub struct Session {
    pub name: String,
    pub setup: Vec<Call>,
    pub calls: Vec<Call>,
    pub way: Way,
    pub expected: fn(&Outcome) -> bool,
    pub units: usize,
}

/// Hands over a scrap until it is used up, and what each call came to.
#[inline]
fn feed_all<S: Side>(side: &mut S, call: &Call, areas: &mut Areas, mut each: impl FnMut(S::Fed, &Areas)) {
    let mut from = 0;
    while from < call.bytes.len() {
        let fed = side.feed(call, from, areas);
        from += S::used(&fed);
        each(fed, areas);
    }
}

/// The outcomes of the list, with the bytes that each call wrote.
fn outcomes<S: Side>(side: &S, session: &Session, areas: &mut Areas) -> Vec<(Outcome, Vec<u8>)> {
    let mut side = side.clone();
    let mut met = Vec::new();
    areas.held.iter_mut().for_each(|held| held.fill(0));
    for call in &session.calls {
        let mut note = |outcome: Outcome, areas: &Areas| {
            assert!(outcome.used > 0, "{}: every call uses bytes", session.name);
            met.push((outcome, areas.out[..outcome.written].to_vec()));
        };
        match session.way {
            Way::Message => {
                let told = side.message(call, areas);
                note(S::outcome(&told), areas);
            }
            Way::Feed => feed_all(&mut side, call, areas, |fed, areas| note(S::fed_outcome(&fed), areas)),
        }
    }
    met
}

fn round<S: Side>(side: &mut S, from: &S, session: &Session, areas: &mut Areas) -> Duration {
    side.clone_from(from);
    let begin = Instant::now();
    match session.way {
        Way::Message => {
            for call in &session.calls {
                black_box(side.message(black_box(call), areas));
            }
        }
        Way::Feed => {
            for call in &session.calls {
                feed_all(side, black_box(call), areas, |fed, _| drop(black_box(fed)));
            }
        }
    }
    begin.elapsed()
}

impl Session {
    /// A station that has been set up.
    pub fn started<S: Side>(&self, areas: &mut Areas) -> S {
        let mut side = S::fresh(&areas.route);
        for line in 0..LINES {
            assert_eq!(side.open(line), 0);
        }
        for call in &self.setup {
            let told = S::outcome(&side.message(call, areas));
            assert_eq!(told.answer, 0, "{}: the set-up is taken", self.name);
        }
        side
    }

    /// The row of this session, once both implementations have been found to agree on it.
    pub fn row(&self, effort: Effort, areas: &mut Areas) -> Row {
        let proved: Proved = self.started(areas);
        let route = areas.route.clone();
        let reference: Reference = self.started(areas);
        assert!(route == areas.route, "{}: the tables set up are equal", self.name);
        let one = outcomes(&proved, self, areas);
        let (route, held) = (areas.route.clone(), areas.held.clone());
        let two = outcomes(&reference, self, areas);
        assert_eq!(one, two, "{}: the outcomes are equal", self.name);
        assert!(one.iter().all(|(outcome, _)| (self.expected)(outcome)), "{}: the outcomes are what the row says", self.name);
        assert!(route == areas.route && held == areas.held, "{}: the tables and the held areas are equal", self.name);
        let (mut first, mut second) = (proved.clone(), reference.clone());
        let times =
            by_turns(effort, areas, |areas| round(&mut first, &proved, self, areas), |areas| round(&mut second, &reference, self, areas));
        row(&self.name, times, self.units as f64)
    }
}

/// What set-ups have in common: the numbers of new queries, the keywords that are near, the numbers remembered, the tables of the lines.
pub struct World {
    pub random: Random,
    pub numbers: Random,
    pub words: Vec<Vec<u8>>,
    pub kept: Vec<[u8; 16]>,
    pub tables: Vec<Vec<u8>>,
}

/// The seed of the numbers of queries, remembered and new.
const NUMBERS: u64 = 157;
/// Lines whose tables know none of the keywords, so that they withhold most queries.
const STRANGERS: [usize; 2] = [3, 6];

impl World {
    /// Tables of so many entries in which these keywords are near, but for two lines.
    pub fn new(seed: u64, entries: usize, words: Vec<Vec<u8>>) -> World {
        let (mut random, mut numbers) = (Random(seed), Random(NUMBERS));
        let kept = (0..MEMORY).map(|_| numbers.number()).collect();
        let mut table = |line| inputs::table(&mut random, entries, INFINITY, if STRANGERS.contains(&line) { &[] } else { &words });
        let tables = (0..LINES as usize).map(&mut table).collect();
        World { random, numbers, words, kept, tables }
    }

    /// The first `kept` numbers are remembered. They were asked by all lines but line 0 by turns.
    pub fn remembered(&mut self, kept: usize) -> Vec<Call> {
        let asked = |(index, number): (usize, &[u8; 16])| Call {
            line: 1 + index as u32 % (LINES - 1),
            clock: CLOCK,
            bytes: inputs::query(*number, 1, 0, b"set up"),
        };
        self.kept[..kept].iter().enumerate().map(asked).collect()
    }

    /// Every line has ten pongs.
    pub fn pongs(&mut self) -> Vec<Call> {
        let pong = |index: u32| {
            let payload = [0xCA, 0x18, 203, 0, 113, index as u8, 1, 0, 0, 0, 2, 0, 0, 0];
            let bytes = inputs::pong([index as u8; 16], 1, (index / LINES % 3) as u8, payload);
            Call { line: index % LINES, clock: CLOCK - 80 + index, bytes }
        };
        (0..80).map(pong).collect()
    }

    /// Every line has a settled table.
    pub fn settled(&mut self) -> Vec<Call> {
        let tables = self.tables.iter().zip(0..);
        tables.flat_map(|(table, line)| calls(line, CLOCK, inputs::updates([line as u8; 16], None, table, INFINITY))).collect()
    }

    /// All of these, with all 512 queries remembered.
    pub fn warm(&mut self) -> Vec<Call> {
        let mut setup = self.remembered(MEMORY);
        setup.extend(self.pongs());
        setup.extend(self.settled());
        setup
    }
}
