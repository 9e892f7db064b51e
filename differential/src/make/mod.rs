//! Random cases. A call is made for the state it meets, so that it goes far: the next PATCH of a run, a hit for a query that is remembered.

mod feeds;
mod groups;
mod messages;
mod names;
mod relaying;
mod start;
mod tables;

use crate::call::Call;
use crate::case::Start;
use crate::field::Area;
use crate::random::Random;
use lunozhar::raw::{Own, Station};

/// The longest keyword that is made on its own.
pub const LONGEST: usize = 300;

/// Half of the clock's round.
const HALF: u32 = 0x8000_0000;

/// Line numbers that no station has.
const NO_LINES: [u32; 8] = [8, 9, 10, 15, 16, 255, 0x8000_0000, u32::MAX];

pub struct Maker {
    random: Random,
    clock: u32,
    /// Whether the start is damaged; then few calls will do.
    damaged: bool,
    /// Whether most calls are on the area of names.
    listing: bool,
    /// A call that is to follow at once.
    next: Option<Call>,
    /// For each line the message that it is in the midst of, with what it brings behind it.
    streams: [Vec<u8>; 8],
}

impl Maker {
    /// The maker of one case.
    pub fn of_case(seed: u64, case: u64) -> Maker {
        let mut random = Random::of_case(seed, case);
        let before = 1 + random.below(20_000) as u32;
        let clock = random.number() as u32;
        let clock = random.pick(&[0, 1_000_000, 0u32.wrapping_sub(before), HALF - before, clock]);
        let (damaged, listing) = (random.one_in(2), random.one_in(10));
        Maker { clock, damaged, listing, next: None, streams: Default::default(), random }
    }

    /// How many calls the case has.
    pub fn length(&mut self) -> usize {
        let most = if self.damaged && !self.listing { 3 } else { self.random.pick(&[4, 10, 40, 80]) };
        1 + self.random.below(most)
    }

    /// A state; one in two is put out of order, or nearly so.
    pub fn start(&mut self) -> Start {
        let (mut start, begun) = start::start(&mut self.random, self.clock);
        self.streams = begun;
        if self.damaged {
            start::damage(&mut self.random, &mut start.station);
            if self.random.one_in(4) {
                start::damage(&mut self.random, &mut start.station);
            }
        }
        start
    }

    /// A call for this state, route area and area of names.
    pub fn call(&mut self, station: &Station, route: &[u8], names: &[u8]) -> Call {
        if let Some(call) = self.next.take() {
            return call;
        }
        if self.listing && !self.random.one_in(8) {
            return self.name_call(names);
        }
        if self.damaged && self.random.one_in(2) {
            return match self.random.below(8) {
                0 | 1 => self.look_up(station),
                2 => self.table_for(station, route),
                _ => Call::InOrder {},
            };
        }
        if route.len() < 32 && self.random.one_in(4) {
            return Call::Fresh { route: start::fresh_route(&mut self.random) };
        }
        if station.lines.iter().all(|line| !line.live) && self.random.one_in(3) {
            return Call::Open { line: self.line(station, false) };
        }
        if let Some(call) = self.reopening(station) {
            return call;
        }
        match self.random.below(272) {
            0 | 1 => Call::Fresh { route: start::fresh_route(&mut self.random) },
            2..=12 => Call::Open { line: self.line(station, false) },
            13..=17 => Call::Close { line: self.line(station, true) },
            18..=23 => Call::InOrder {},
            24..=28 => Call::Count { answer: self.some_answer() },
            29..=38 => self.ask(station, route),
            39..=43 => tables::write_table(&mut self.random),
            44 => tables::round_trip(&mut self.random),
            45..=67 => groups::call(&mut self.random),
            68..=71 => Call::Hash { keyword: self.keyword(LONGEST) },
            72..=75 => Call::Place { keyword: self.keyword(LONGEST), bits: self.bits() },
            76..=130 => self.feed(station, route),
            131..=138 => self.look_up(station),
            139..=148 => self.name_call(names),
            149..=162 => self.table_for(station, route),
            _ => self.message(station, route),
        }
    }

    fn bits(&mut self) -> u32 {
        if self.random.one_in(20) {
            self.random.pick(&[64, 255, 256, u32::MAX])
        } else {
            self.random.below(41) as u32
        }
    }

    fn some_answer(&mut self) -> u8 {
        let any = self.random.byte();
        self.random.pick(&[0, 1, 9, 17, 18, 19, 20, 21, 22, 255, any])
    }

    /// A line, mostly one that is open or not as asked for.
    fn line(&mut self, station: &Station, open: bool) -> u32 {
        if self.random.one_in(20) {
            return self.random.pick(&NO_LINES);
        }
        let any = self.random.below(8);
        let wanted = (0..8).map(|step| (any + step) % 8).find(|&line| station.lines[line].live == open);
        if self.random.one_in(20) {
            any as u32
        } else {
            wanted.unwrap_or(any) as u32
        }
    }

    /// The next clock: mostly a little later, also back, by half of the round, or anywhere.
    fn tick(&mut self) -> u32 {
        let step = self.random.pick(&[0, 0, 0, 1, 300, 700, 998, 999, 1_000, 1_001, 5_000, 14_999, 15_000]);
        self.clock = match self.random.below(40) {
            0 => self.random.number() as u32,
            1 => self.clock.wrapping_sub(step),
            2 => self.clock.wrapping_add(HALF + step),
            _ => self.clock.wrapping_add(step),
        };
        self.clock
    }

    fn own(&mut self) -> Own {
        let address = (self.random.number() as u32).to_le_bytes();
        let (port, files, kilobytes) = (self.random.number() as u16, self.random.number() as u32, self.random.number() as u32);
        Own { port, address, files, kilobytes, calls: self.random.one_in(2) }
    }

    /// An output area, mostly long enough.
    fn output(&mut self) -> Area {
        let length = if self.random.one_in(30) { self.random.pick(&[0, 4118]) } else { self.random.pick(&[4119, 4119, 4119, 5000]) };
        Area { length, seed: self.random.number(), top: 0 }
    }

    /// Mostly the case's own route area, else one that may give another room.
    fn lent_route(&mut self, route: &[u8]) -> Option<Area> {
        if !self.random.one_in(30) {
            return None;
        }
        let length = route.len();
        let near = [length, length + 1, length + 7, length + 8, length.saturating_sub(1), length.saturating_sub(8)];
        let length = if self.random.one_in(2) { self.random.pick(&near) } else { self.random.pick(&[0, 31, 32, 33, 64]) };
        Some(Area { length, seed: self.random.number(), top: self.random.pick(&[0, 8]) })
    }

    /// A keyword of up to so many bytes, nine or more; half of them are short.
    fn keyword(&mut self, longest: usize) -> Vec<u8> {
        let short = self.random.pick(&[0, 1, 2, 3, 4, 5, 7, 8, 9]);
        let length = if self.random.one_in(2) { self.random.below(longest + 1) } else { short };
        if self.random.one_in(2) {
            self.random.bytes(length)
        } else {
            (0..length).map(|_| self.random.pick(b"abcxyzABCXYZ059-@[`{")).collect()
        }
    }
}

#[cfg(test)]
mod tests {
    use super::*;
    use crate::case::Case;
    use crate::listing::{names_in, MOST, TEXT};
    use crate::run::{Counts, Runner};
    use crate::second::Reference;
    use crate::side::Outcome;
    use lunozhar::raw::{Made, Table, ANSWERS, HELD, HITS};
    use std::array;

    /// Runs cases and hands each call to `each`, with the state it meets and the call before it.
    fn counted(cases: u64, mut each: impl FnMut(&Station, Option<&Call>, &Call)) -> Counts {
        counted_with(cases, |station, _, before, call| each(station, before, call))
    }

    /// The same, with the area of names besides.
    fn counted_with(cases: u64, mut each: impl FnMut(&Station, &[u8], Option<&Call>, &Call)) -> Counts {
        let mut counts = Counts::default();
        for case in 0..cases {
            let mut maker = Maker::of_case(2, case);
            let mut runner = Runner::<Reference, Reference>::begin(&maker.start());
            let mut before = None;
            for _ in 0..maker.length() {
                let call = maker.call(runner.station(), runner.route(), runner.names());
                each(runner.station(), runner.names(), before.as_ref(), &call);
                runner.step(&call, &mut counts).expect("one implementation agrees with itself");
                before = Some(call);
            }
        }
        counts
    }

    /// The byte in which a number differs from a kept one, if it is the only one.
    fn near_byte(station: &Station, number: &[u8]) -> Option<usize> {
        (0..station.count.min(512)).find_map(|age| {
            let kept = start::number_at(station, age);
            let mut unlike = (0..16).filter(|&byte| kept[byte] != number[byte]);
            unlike.next().filter(|_| unlike.next().is_none())
        })
    }

    /// What is seldom met and told of no answer, by name.
    fn rare_things(station: &Station, before: Option<&Call>, call: &Call) -> Vec<String> {
        let mut met = Vec::new();
        let mut note = |is: bool, what: &str| is.then(|| met.push(what.to_string()));
        match call {
            Call::Open { line } => drop(note(*line > 7, "line over 7 opened")),
            Call::Ask { number, .. } => drop(near_byte(station, number).map(|byte| note(true, &format!("own query near in byte {byte}")))),
            Call::Message { line, clock, bytes, out, route, .. } if bytes.len() > 22 => {
                let (kind, ttl, hops) = (bytes[16], bytes[17], bytes[18]);
                note(*line > 7 && (out.length < 4119 || route.map_or(false, |area| area.length < 32)), "2 and 3 at once");
                if kind >= 0x80 {
                    let name = if kind == 0x80 { "query" } else { "hit" };
                    near_byte(station, bytes).map(|byte| note(true, &format!("{name} near in byte {byte}")));
                }
                note(kind == 0x80 && bytes.iter().skip(25).any(|&byte| byte == b'\t'), "tab in a text");
                note(kind == 0x30 && bytes[23..].starts_with(&[0, 2, 0, 0, 0]), "RESET of 2 entries");
                note(kind == 0x30 && (ttl, hops) == (1, 1), "Hops 1 of an update");
                let asking = station.lines.get(*line as usize).filter(|line| line.pinged && kind == 0 && ttl > 1);
                let elapsed = asking.map_or(0, |line| clock.wrapping_sub(line.pingtime));
                note((HALF..HALF + 1_000).contains(&elapsed), "half of the round since a ping");
                note(elapsed > u32::MAX - 1_000, "a clock before the last ping's");
                if let Some(Call::Message { line: other, clock: then, bytes: last, .. }) = before {
                    let probe = last.len() > 22 && last[16..19] == [0, 1, last[18] & 1];
                    note(probe && kind == 0 && ttl > 1 && (line, clock) == (other, then), "a ping at once after a probe");
                    note(*then < HALF && HALF <= *clock && clock - then < 20_000, "a clock over 2^31");
                    note(clock < then && clock.wrapping_sub(*then) < 20_000, "a clock over 2^32");
                }
            }
            _ => {}
        }
        met
    }

    /// The same of bytes as they come.
    fn rare_scraps(station: &Station, call: &Call) -> Vec<&'static str> {
        let (line, bytes, held) = match call {
            Call::Feed { line, bytes, held, .. } => (*line, bytes, held),
            _ => return Vec::new(),
        };
        let record = station.lines[line as usize % 8];
        let (count, shut) = (record.pending.count, record.pending.shut);
        let short = held.map_or(false, |area| area.length < HELD);
        let begun = station.lines.iter().filter(|line| line.pending.count > 0).count();
        let things = [
            (line > 7 && shut, "line over 7, whose number modulo 8 is shut"),
            (shut && short, "a shut line with a short held area"),
            (shut && !record.live, "a closed line that is shut"),
            (shut && count > 4_118, "a shut line with too large a count"),
            (record.live && !shut && count > 4_118, "too large a count"),
            (count == 0 && short && bytes.len() >= 23, "a short held area that nothing is held in"),
            (count > 0 && bytes.is_empty(), "no bytes in the midst of a message"),
            (bytes.len() == 1, "one byte"),
            ((20..23).contains(&count), "a cut in the length of the payload"),
            ((1..16).contains(&count), "a cut in the number"),
            (count == 23, "a cut behind the header"),
            (count > 4_000 && count < 4_119 && record.live, "nearly a longest message"),
            (begun > 3, "four lines in the midst of messages"),
        ];
        things.into_iter().filter_map(|(is, what)| is.then_some(what)).collect()
    }

    /// Scraps meet every answer of a message but 4, and what is odd about them is met as well.
    #[test]
    fn scraps_meet_everything() {
        let mut times = std::collections::BTreeMap::new();
        // Answer 16 is the rarest: some seven times in a thousand lists.
        let counts = counted(5_000, |station, _, call| {
            rare_scraps(station, call).into_iter().for_each(|what| *times.entry(what).or_insert(0) += 1);
        });
        assert_eq!(times.len(), 13, "{times:?}");
        assert!(times.values().all(|&times| times >= 3), "{times:?}");
        let kinds = counts.kinds.iter().filter(|(kind, _)| kind.starts_with("feed"));
        let scraps: Vec<_> = kinds.map(|(_, count)| count).collect();
        let met = |answer: usize| scraps.iter().map(|count| count.answers[answer]).sum::<u64>();
        for answer in (0..17).filter(|&answer| answer != 4).chain([19, 21]) {
            assert!(met(answer) > 20, "answer {answer}: {}", met(answer));
        }
        assert_eq!((met(4), met(17), met(18)), (0, 0, 0));
        assert!(scraps.iter().map(|count| count.waits).sum::<u64>() > 500);
    }

    /// What is odd about a call on an area of names, or about the area.
    fn rare_names(area: &[u8], call: &Call) -> Vec<&'static str> {
        let number = |at: usize| u32::from_le_bytes([area[at], area[at + 1], area[at + 2], area[at + 3]]) as usize;
        if !call.on_names() || area.len() < TEXT {
            return Vec::new();
        }
        let (count, room) = (number(0), area.len() - TEXT);
        let pairs: Vec<(usize, usize)> = (0..count.min(MOST)).map(|place| (number(4 + 8 * place), number(8 + 8 * place))).collect();
        let good = names_in(area).is_some();
        let (adds, added) = match call {
            Call::NameAdd { name, .. } => (good, name.len()),
            _ => (false, 0),
        };
        let pair_513 = room > 8 && number(TEXT) >= TEXT && number(TEXT) + number(TEXT + 4) <= area.len();
        let rises = pairs.windows(2).all(|two| two[0].0 < two[1].0);
        let end = pairs.iter().map(|(offset, size)| offset + size).max().unwrap_or(TEXT);
        let total = pairs.iter().map(|pair| pair.1).sum::<usize>();
        let closes = adds && (1..=255).contains(&added) && count < MOST && total + added <= room && area.len() < end + added;
        let things = [
            (closes && rises, "gaps are closed"),
            (closes && !rises, "gaps are closed, offsets do not rise"),
            (closes && total + added == room, "a name that fills all room"),
            (adds && total + added == room + 1, "a name one byte too long for the room"),
            (adds && count == MOST, "a name more than 512"),
            (adds && count == MOST - 1, "the 512th name"),
            (adds && room == 0, "no room at all"),
            (good && added == 255, "a name of 255 bytes"),
            (good && added == 256, "a name of 256 bytes"),
            (count == MOST + 1, "a count of 513"),
            (count == MOST + 1 && pair_513, "a count of 513 and so many pairs"),
            (!good && pairs.iter().any(|pair| pair.1 == 256), "256 bytes listed"),
            (!good && pairs.iter().any(|pair| pair.1 == 0), "no bytes listed"),
            (!good && pairs.iter().any(|pair| pair.0 + pair.1 > u32::MAX as usize), "an end over 2^32"),
            (!good && pairs.iter().any(|pair| pair.0 < TEXT && pair.0 + pair.1 > TEXT), "an offset before the text"),
            (!good && pairs.iter().any(|pair| pair.0 + pair.1 == area.len() + 1), "one byte past the area"),
            (!good && (1..pairs.len()).any(|at| pairs[at].0 == pairs[at - 1].0), "an offset twice"),
            (good && !rises && pairs.iter().any(|pair| pairs.iter().any(|other| other.0 == pair.0 + pair.1)), "texts that touch"),
            (room > 0 && area.len() == TEXT + 1, "room for one byte"),
        ];
        things.into_iter().filter_map(|(is, what)| is.then_some(what)).collect()
    }

    /// Each call on names meets each of its answers, and what is odd about areas is met as well.
    #[test]
    fn names_meet_everything() {
        let mut times = std::collections::BTreeMap::new();
        let counts = counted_with(4_000, |_, names, _, call| {
            rare_names(names, call).into_iter().for_each(|what| *times.entry(what).or_insert(0) += 1);
        });
        assert_eq!(times.len(), 19, "{times:?}");
        assert!(times.values().all(|&times| times >= 3), "{times:?}");
        let search = [0, 1, 2, 6, 10];
        let all =
            [("name-add", &[0, 1, 2, 6, 9, 20][..]), ("name-remove", &search), ("name-find", &search), ("name-table", &[0, 1, 2, 14])];
        for (name, answers) in all {
            for (answer, &times) in counts.kinds[name].answers.iter().enumerate() {
                assert!(if answers.contains(&answer) { times > 5 } else { times == 0 }, "{name} {answer}: {times}");
            }
        }
    }

    /// A generator that never meets what faults would be seen by is a poor one too.
    #[test]
    fn rare_things_are_met() {
        let mut times = std::collections::BTreeMap::new();
        let calls = counted(5_000, |station, before, call| {
            rare_things(station, before, call).into_iter().for_each(|what| *times.entry(what).or_insert(0) += 1);
        });
        // Three kinds of calls with numbers that are near in any of sixteen bytes, and ten things besides.
        assert_eq!(times.len(), 3 * 16 + 10, "{times:?}");
        assert!(times.values().all(|&times| times >= 3), "{times:?} in {} calls", calls.all.calls);
    }

    /// A generator that never meets an answer is a poor one.
    #[test]
    fn every_answer_is_met() {
        let Counts { all, kinds } = counted(4_000, |_, _, _| ());
        for (answer, times) in all.answers.iter().enumerate() {
            assert!(times * 20_000 > 70 * all.calls, "answer {answer}: {times} of {}", all.calls);
        }
        assert!(kinds.len() >= 30, "{kinds:?}");
    }

    /// Each call that looks a number up finds it with each of the answers that hand an age up, and look-ups meet all of
    /// theirs, among them the newest of a ring and the oldest of a full one, and a number whose place is not kept.
    #[test]
    fn ages_are_met() {
        let mut looked = std::collections::BTreeMap::new();
        let counts = counted(4_000, |station, _, call| {
            if let Call::LookUp { number } = call {
                let kept = |age: &usize| start::number_at(station, *age) == *number;
                let what = match (0..512).find(kept) {
                    Some(0) if station.count > 0 => "the newest",
                    Some(511) if station.count == 512 => "the oldest of 512",
                    Some(age) if age < station.count => "another that is kept",
                    Some(_) => "a place that is not kept",
                    None => "none",
                };
                *looked.entry(what).or_insert(0) += 1;
            }
        });
        assert_eq!(looked.len(), 5, "{looked:?}");
        assert!(looked.values().all(|&times| times >= 3), "{looked:?}");
        let met = |name: &str| {
            let kinds = counts.kinds.iter().filter(|(kind, _)| kind.starts_with(name));
            kinds.fold([0; ANSWERS], |sum, (_, count)| array::from_fn(|answer| sum[answer] + count.ages[answer]))
        };
        let hit = [0, 8, 11, 12, 21];
        for (name, answers) in [("message: hit", &hit[..]), ("message: query", &[9]), ("ask", &[9]), ("feed", &[0, 8, 9, 11, 12, 21])] {
            for (answer, times) in met(name).into_iter().enumerate() {
                assert!(if answers.contains(&answer) { times > 10 } else { times == 0 }, "{name} {answer}: {times}");
            }
        }
        // Of a hit's two reasons for 8 only one is met behind the look-up.
        let hits = &counts.kinds["message: hit"];
        assert!(hits.ages[8] < hits.answers[8]);
        let look_ups = &counts.kinds["look-up"];
        assert!([0, 1, 10].iter().all(|&answer| look_ups.answers[answer] > 50), "{look_ups:?}");
    }

    /// What is seldom met of the counts of hits, by name.
    fn rare_hits(station: &Station, before: Option<&Call>, call: &Call) -> Vec<&'static str> {
        if station.count > 512 || station.next > 511 {
            return Vec::new();
        }
        let over = |age: &usize| station.hits[start::place_of(station, *age)] > HITS;
        let mut things = vec![
            ((0..station.count).any(|age| over(&age)), "a kept count over 200"),
            (station.count > 1 && over(&(station.count - 1)), "the oldest's count over 200"),
            ((station.count..512).any(|age| over(&age)), "a count over 200 that is not kept"),
        ];
        let (kind, bytes) = match call {
            Call::Message { bytes, .. } if bytes.len() > 22 => (bytes[16], &bytes[..]),
            Call::Ask { number, .. } => (0x80, &number[..]),
            _ => (0, &[][..]),
        };
        let known = (0..station.count).find(|&age| bytes.len() > 15 && start::number_at(station, age) == bytes[..16]);
        let counted = station.hits[station.next] > 0;
        things.push((kind == 0x80 && known.is_none() && counted, "a query at a place that has a count"));
        if let (0x81, Some(age), true) = (kind, known, bytes.len() > 49) {
            let place = start::place_of(station, age);
            let (asker, hits, ttl, hops) = (station.asker[place], station.hits[place], bytes[17], bytes[18]);
            let (line, sent) = (asker < 8, ttl > 1 && hops < 255);
            things.extend([
                (hits == HITS - 1 && line && sent, "the 200th hit of a line's query"),
                (hits == HITS - 1 && asker == 8 && ttl > 0, "the 200th hit of an own query"),
                (hits == HITS && line && sent, "the 201st hit of a line's query"),
                (hits == HITS && asker == 8 && ttl > 0, "the 201st hit of an own query"),
                (hits == HITS && line && ttl == 1, "21 and 8 at once"),
                (hits == HITS && line && ttl > 1 && hops == 255, "21 and 12 at once"),
                (hits == HITS && asker == 9 && ttl > 0, "21 and 11 at once"),
                (hits == HITS && ttl == 0, "21 and 8 by TTL 0 at once"),
                (hits == HITS && line && sent && before == Some(call), "the same hit after the 200th, or after 21"),
                (hits == HITS && place > station.next, "the 201st hit in a ring that is turned"),
            ]);
        }
        things.into_iter().filter_map(|(is, what)| is.then_some(what)).collect()
    }

    /// Counts of hits are met where they tell: at 199 and 200, with each reason beside 21, kept and not.
    #[test]
    fn counts_of_hits_are_met() {
        let mut times = std::collections::BTreeMap::new();
        counted(4_000, |station, before, call| {
            rare_hits(station, before, call).into_iter().for_each(|what| *times.entry(what).or_insert(0) += 1);
        });
        assert_eq!(times.len(), 14, "{times:?}");
        assert!(times.values().all(|&times| times >= 10), "{times:?}");
    }

    /// What is there when a table is made for a line.
    fn made_of(station: &Station, route: &[u8], line: usize, length: usize) -> Vec<&'static str> {
        let others: Vec<usize> = (0..8).filter(|&at| at != line).collect();
        let table = |at: usize| &station.lines[at].table;
        let entries = |at: usize| &route[at * station.room..][..table(at).length as usize];
        let settled: Vec<(&Table, &[u8])> = others.iter().filter(|&&at| table(at).mark == 3).map(|&at| (table(at), entries(at))).collect();
        let has = |is: &dyn Fn(&Table, u8) -> bool| {
            let counts = |table: &Table, entry: u8| entry != table.infinity && is(table, entry);
            settled.iter().any(|(table, entries)| entries.iter().any(|&entry| counts(table, entry)))
        };
        let unlike = |of: &dyn Fn(&Table) -> u32| settled.windows(2).any(|two| of(two[0].0) != of(two[1].0));
        let things = [
            (settled.is_empty(), "no table"),
            (settled.len() > 2, "three tables or more"),
            (has(&|table, _| table.length as usize > length), "a longer table"),
            (has(&|table, _| table.length as usize == length), "a table as long"),
            (has(&|table, _| (table.length as usize) < length), "a shorter table"),
            (unlike(&|table| table.length), "tables of unlike lengths"),
            (unlike(&|table| table.infinity.into()), "tables of unlike Infinities"),
            (has(&|_, entry| entry == 0), "an entry of 0"),
            (has(&|_, entry| entry == 7), "an entry that comes to Infinity"),
            (has(&|_, entry| entry == 255), "an entry of 255"),
            (has(&|table, entry| entry > table.infinity), "an entry above its Infinity"),
            (table(line).mark == 3, "a table of the line itself"),
            (others.iter().any(|&at| [1, 2, 4].contains(&table(at).mark)), "a table that is not settled"),
            (length > station.room, "a table longer than the room"),
        ];
        things.into_iter().filter_map(|(is, what)| is.then_some(what)).collect()
    }

    /// Tables for neighbours meet each of their answers, are made of tables of every kind, and have all distances.
    #[test]
    fn made_tables_are_not_trivial() {
        let (mut counts, mut entries, mut times) = (Counts::default(), [0; 256], std::collections::BTreeMap::new());
        for case in 0..4_000 {
            let mut maker = Maker::of_case(2, case);
            let mut runner = Runner::<Reference, Reference>::begin(&maker.start());
            for _ in 0..maker.length() {
                let call = maker.call(runner.station(), runner.route(), runner.names());
                runner.step(&call, &mut counts).expect("one implementation agrees with itself");
                if let (Call::TableFor { line, length, route, .. }, (Outcome::Made(Made { answer: 0, infinity: 8 }), out)) =
                    (&call, runner.last())
                {
                    let (line, length) = (*line as usize, *length as usize);
                    let route = route.map_or(runner.route().to_vec(), |area| area.bytes());
                    out[..length].iter().for_each(|&entry| entries[usize::from(entry)] += 1);
                    made_of(runner.station(), &route, line, length).into_iter().for_each(|what| *times.entry(what).or_insert(0) += 1);
                }
            }
        }
        assert_eq!(times.len(), 14, "{times:?}");
        assert!(times.values().all(|&times| times >= 20), "{times:?}");
        assert!((0..256).all(|entry| if (1..9).contains(&entry) { entries[entry] > 500 } else { entries[entry] == 0 }), "{entries:?}");
        for (answer, &times) in counts.kinds["table-for"].answers.iter().enumerate() {
            assert!(if [0, 1, 2, 3, 14].contains(&answer) { times > 100 } else { times == 0 }, "{answer}: {times}");
        }
    }

    #[test]
    fn a_seed_gives_the_same_case() {
        let made = |case| {
            let mut maker = Maker::of_case(4, case);
            let start = maker.start();
            let (route, names) = (start.route.bytes(), start.names.bytes());
            let calls = (0..maker.length()).map(|_| maker.call(&start.station, &route, &names)).collect();
            Case { start, calls }
        };
        assert_eq!(made(9), made(9));
        assert_ne!(made(9), made(10));
    }

    #[test]
    fn starts_in_order_and_not() {
        let orders: Vec<bool> =
            (0..400).map(|case| crate::convert::station_from_raw(&Maker::of_case(6, case).start().station).unwrap().in_order()).collect();
        let good = orders.iter().filter(|&&order| order).count();
        assert!((200..350).contains(&good), "{good} of 400");
    }
}
