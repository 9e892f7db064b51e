//! Makes seeded random session files, and shows a session file as a readable list of events.
//!
//!     sessions make DIR COUNT SEED     writes DIR/0000, DIR/0001, ..
//!     sessions show FILE               one line for each event

use lunozhar_reference::header::message;
use lunozhar_reference::session::{self, file, FILE};
use std::env;
use std::fs;
use std::path::Path;
use std::process::ExitCode;

/// A small generator (xorshift), so that a seed gives the same files everywhere.
struct Random(u64);

impl Random {
    fn next(&mut self) -> u64 {
        self.0 ^= self.0 << 13;
        self.0 ^= self.0 >> 7;
        self.0 ^= self.0 << 17;
        self.0
    }

    fn below(&mut self, n: u64) -> u64 {
        self.next() % n
    }

    fn one_in(&mut self, n: u64) -> bool {
        self.below(n) == 0
    }

    fn pick<T: Copy>(&mut self, items: &[T]) -> T {
        items[self.below(items.len() as u64) as usize]
    }

    fn bytes(&mut self, n: usize) -> Vec<u8> {
        (0..n).map(|_| self.next() as u8).collect()
    }
}

/// Half of the clock's round.
const HALF: u32 = 0x8000_0000;

/// What a file is made with: its random numbers, the clock, and the numbers of queries it has sent.
struct Maker {
    random: Random,
    clock: u32,
    asked: Vec<[u8; 16]>,
    /// How far the run of each line is: place, size and bits of its next PATCH, and the table's length.
    runs: [(u8, u8, u8, usize); 8],
}

impl Maker {
    fn new(seed: u64) -> Maker {
        let mut random = Random(seed.wrapping_mul(0x9E37_79B9_7F4A_7C15) | 1);
        for _ in 0..8 {
            random.next();
        }
        let clock = random.pick(&[0, 1_000_000, HALF - 20_000, HALF - 500, u32::MAX - 20_000, u32::MAX - 500]);
        Maker { random, clock, asked: Vec::new(), runs: [(1, 1, 4, 4); 8] }
    }

    fn number(&mut self) -> [u8; 16] {
        let mut number = [0; 16];
        number.copy_from_slice(&self.random.bytes(16));
        number
    }

    fn ttl(&mut self) -> u8 {
        self.random.pick(&[0, 1, 1, 2, 3, 3, 4, 7, 7, 8, 15, 16, 255])
    }

    fn hops(&mut self) -> u8 {
        self.random.pick(&[0, 0, 0, 1, 1, 2, 3, 5, 6, 7, 8, 254, 255])
    }

    fn query(&mut self, plain: bool) -> Vec<u8> {
        let number = if !plain && !self.asked.is_empty() && self.random.one_in(4) {
            let at = self.random.below(self.asked.len() as u64) as usize;
            self.asked[at]
        } else {
            let number = self.number();
            self.asked.push(number);
            number
        };
        let texts =
            ["eb", "eb ebckl", "ebcklmen", "", " ", "EB  EBCKL ", "log", "a b c d", "---", "eb-EBCKL.jpg", "_ebcklmen/", "\u{c9}eb"];
        let text = self.random.pick(&texts);
        let mut payload = vec![0, 0];
        payload.extend(text.bytes());
        if plain || !self.random.one_in(12) {
            payload.push(0);
        }
        if self.random.one_in(6) {
            let rest = self.random.below(9) as usize;
            payload.extend(self.random.bytes(rest));
        }
        let (ttl, hops) = if plain { (7, 0) } else { (self.ttl(), self.hops()) };
        message(&number, 0x80, ttl, hops, &payload)
    }

    fn hit(&mut self) -> Vec<u8> {
        let number = if self.asked.is_empty() || self.random.one_in(5) {
            self.number()
        } else {
            let at = self.random.below(self.asked.len() as u64) as usize;
            self.asked[at]
        };
        let size = self.random.pick(&[27, 27, 30, 40, 26, 0]);
        let payload = self.random.bytes(size);
        let (ttl, hops) = (self.ttl(), self.hops());
        message(&number, 0x81, ttl, hops, &payload)
    }

    fn ping(&mut self) -> Vec<u8> {
        let (number, ttl, hops) = (self.number(), self.ttl(), self.hops());
        let size = self.random.below(4) as usize;
        let payload = self.random.bytes(size);
        message(&number, 0x00, ttl, hops, &payload)
    }

    fn pong(&mut self) -> Vec<u8> {
        let (number, ttl, hops) = (self.number(), self.ttl(), self.hops());
        let size = self.random.pick(&[14, 14, 14, 17, 13, 0]);
        let payload = self.random.bytes(size);
        message(&number, 0x01, ttl, hops, &payload)
    }

    fn reset(&mut self, line: usize) -> Vec<u8> {
        let length: u32 = self.random.pick(&[4, 4, 4, 8, 64, 2048, 2049, 4096, 3]);
        let infinity = self.random.pick(&[8, 8, 8, 2, 127, 1, 128]);
        let mut payload = vec![0];
        payload.extend(length.to_le_bytes());
        payload.push(infinity);
        self.runs[line] = (1, self.random.below(3) as u8 + 1, self.random.pick(&[4, 8]), length as usize);
        message(&[1; 16], 0x30, 1, 0, &payload)
    }

    /// A PATCH of the line's run, right in most cases: its share of the entries, with small numbers.
    fn patch(&mut self, line: usize) -> Vec<u8> {
        let (place, size, bits, length) = self.runs[line];
        let all = length * bits as usize / 8;
        let share = if place == size { all - all / size as usize * (size as usize - 1) } else { all / size as usize };
        let mut data = vec![0; share.min(4091)];
        for byte in data.iter_mut() {
            *byte = if bits == 4 { self.random.pick(&[0x00, 0x99, 0x09, 0xFF, 0x0F]) } else { self.random.pick(&[0, 0xF9, 0xFF, 0xFE]) };
        }
        let mut payload = vec![1, place, size, 0, bits];
        payload.extend(data);
        self.runs[line].0 = if place >= size { 1 } else { place + 1 };
        if self.random.one_in(8) {
            let at = self.random.below(payload.len() as u64) as usize;
            payload[at] = payload[at].wrapping_add(1 + self.random.below(3) as u8);
        }
        let (ttl, hops) = if self.random.one_in(30) { (2, 1) } else { (1, 0) };
        message(&[2; 16], 0x30, ttl, hops, &payload)
    }

    fn event(&mut self, kind: u8, line: u8, message: &[u8]) -> Vec<u8> {
        let step = self.random.pick(&[0, 1, 300, 700, 999, 1000, 5000, 14_999, 15_000, 16_000]);
        self.clock = match self.random.below(24) {
            0 => self.clock.wrapping_sub(step),
            1 => self.clock.wrapping_add(HALF + step),
            _ => self.clock.wrapping_add(step),
        };
        session::event(kind, line, self.clock, message)
    }

    fn any_event(&mut self) -> Vec<u8> {
        let line = if self.random.one_in(40) { self.random.pick(&[8, 200, 255]) } else { self.random.below(4) as u8 };
        let at = line as usize % 8;
        let mut message = match self.random.below(22) {
            0 | 1 => return self.event(0, line, &[]),
            2 if self.random.one_in(2) => return self.event(1, line, &[]),
            2 => return self.event(0, line, b"ignored"),
            3..=8 => self.query(false),
            9..=11 => self.hit(),
            12 | 13 => self.ping(),
            14 | 15 => self.pong(),
            16 | 17 => self.reset(at),
            18..=20 => self.patch(at),
            _ => {
                let kind = self.random.pick(&[0x02, 0x20, 0x40, 0x7F, 0xFF]);
                let number = self.number();
                message(&number, kind, 3, 0, &[1, 2, 3])
            }
        };
        match self.random.below(30) {
            0 => {
                let keep = self.random.below(message.len() as u64 + 1) as usize;
                message.truncate(keep);
            }
            1 => message.extend(self.random.bytes(5)),
            2 => {
                let size: u32 = self.random.pick(&[4096, 4097, u32::MAX]);
                message.splice(19..23, size.to_le_bytes());
            }
            _ => {}
        }
        self.event(2, line, &message)
    }

    /// Two pings of a line, the second around a second later, around half of the clock's round, or before the first.
    fn two_pings(&mut self) -> [Vec<u8>; 2] {
        let line = self.random.below(2) as u8;
        let first = self.event(2, line, &message(&[3; 16], 0x00, 7, 0, &[]));
        let later = self.random.pick(&[0, 999, 1000, HALF, HALF, HALF + 999, HALF + 1000, u32::MAX]);
        self.clock = self.clock.wrapping_add(later);
        [first, session::event(2, line, self.clock, &message(&[4; 16], 0x00, 7, 0, &[]))]
    }

    fn events(&mut self) -> Vec<Vec<u8>> {
        let mut events = vec![self.event(0, 0, &[]), self.event(0, 1, &[])];
        let mut size = 8;
        let many = self.random.one_in(4);
        let limit = self.random.pick(&[1_000, 8_000, 32_000]);
        while size < limit {
            let event = if many && !self.random.one_in(6) {
                let query = self.query(true);
                let line = self.random.below(2) as u8;
                self.event(2, line, &query)
            } else {
                self.any_event()
            };
            size += event.len() + 4;
            events.push(event);
            if self.random.one_in(20) {
                let two = self.two_pings();
                size += two.iter().map(|event| event.len() + 4).sum::<usize>();
                events.extend(two);
            }
        }
        shorten(&mut events, FILE);
        events
    }

    /// A query and some more hits of it than are sent back, with other events between; then its line closes and opens.
    fn hits_of_one(&mut self) -> Vec<Vec<u8>> {
        let mut events = vec![self.event(0, 0, &[]), self.event(0, 1, &[])];
        let (query, asker) = (self.query(true), self.random.below(2) as u8);
        let number = self.asked[0];
        events.push(self.event(2, asker, &query));
        for _ in 0..230 {
            let (ttl, hops) = if self.random.one_in(12) { (self.ttl(), self.hops()) } else { (3, 1) };
            let size = if self.random.one_in(30) { 26 } else { 27 };
            let line = self.random.below(2) as u8;
            events.push(self.event(2, line, &message(&number, 0x81, ttl, hops, &[7; 27][..size])));
            if self.random.one_in(20) {
                events.push(self.any_event());
            }
        }
        let hit = message(&number, 0x81, 3, 1, &[7; 27]);
        events.extend([self.event(1, asker, &[]), self.event(2, 1 - asker, &hit)]);
        events.extend([self.event(0, asker, &[]), self.event(2, 1 - asker, &hit)]);
        shorten(&mut events, FILE);
        events
    }

    /// Makes the file of these events so many bytes long, by a last event with bytes behind it that are not read.
    fn fill(&mut self, events: &mut Vec<Vec<u8>>, length: usize) {
        shorten(events, length - 10);
        let more = self.random.bytes(length - 10 - size(events));
        let kind = self.random.below(2) as u8;
        events.push(self.event(kind, 3, &more));
    }
}

/// The length of the file of these events.
fn size(events: &[Vec<u8>]) -> usize {
    8 + events.iter().map(|event| event.len() + 4).sum::<usize>()
}

/// Drops events until their file has at most so many bytes.
fn shorten(events: &mut Vec<Vec<u8>>, length: usize) {
    while size(events) > length {
        events.pop();
    }
}

/// A file that is spoiled in one of ten ways.
fn spoiled(way: u64, maker: &mut Maker, mut events: Vec<Vec<u8>>) -> Vec<u8> {
    // An event of five bytes, and a file of one byte too many that is right otherwise.
    match way {
        0 => {
            let at = maker.random.below(events.len() as u64) as usize;
            events[at].truncate(5);
        }
        1 => maker.fill(&mut events, FILE + 1),
        _ => {}
    }
    let (mut bytes, random) = (file(&events), &mut maker.random);
    match way {
        0 | 1 => {}
        2 => {
            let keep = random.below(bytes.len() as u64) as usize;
            bytes.truncate(keep);
        }
        3 => bytes.push(0),
        4 => {
            let at = random.below(12.min(bytes.len() as u64)) as usize;
            bytes[at] = bytes[at].wrapping_add(1);
        }
        5 => bytes.splice(0..4, 0x4000_0000u32.to_le_bytes()).for_each(drop),
        6 => {
            // A kind that there is not, of the last event.
            let last = bytes.len() - events[events.len() - 1].len();
            bytes[last] = 3;
        }
        7 => bytes.resize(FILE + 1, 0),
        _ => {
            // An offset that falls below the one before it, or below the file's first event.
            let at = 1 + random.below(events.len() as u64 - 1) as usize;
            let before = 8 + 4 * events.len() + events[..at - 1].iter().map(Vec::len).sum::<usize>();
            let offset = if way == 8 { before - 1 } else { random.below(8) as usize };
            bytes.splice(4 + 4 * at..8 + 4 * at, (offset as u32).to_le_bytes()).for_each(drop);
        }
    }
    bytes
}

fn make(dir: &Path, count: u64, seed: u64) -> std::io::Result<()> {
    fs::create_dir_all(dir)?;
    for i in 0..count {
        let mut maker = Maker::new(seed.wrapping_mul(1_000_003).wrapping_add(i).wrapping_add(1));
        // Of ten files one has more hits of one query than are sent back, one is spoiled, and one as long as a file may
        // be, or a byte shorter.
        let mut events = if i % 10 == 6 { maker.hits_of_one() } else { maker.events() };
        if i % 10 == 4 {
            maker.fill(&mut events, FILE - (i / 10 % 2) as usize);
        }
        let bytes = if i % 10 == 9 { spoiled(i / 10 % 10, &mut maker, events) } else { file(&events) };
        fs::write(dir.join(format!("{i:04}")), bytes)?;
    }
    Ok(())
}

fn show(bytes: &[u8]) {
    let word = |at: usize| bytes.get(at..at + 4).map(|b| u32::from_le_bytes([b[0], b[1], b[2], b[3]]) as usize);
    let count = match word(0) {
        Some(count) => count,
        None => {
            println!("no count");
            return;
        }
    };
    println!("{count} events in {} bytes", bytes.len());
    for i in 0..count.min(10_000) {
        let (from, to) = match (word(4 + 4 * i), word(8 + 4 * i)) {
            (Some(from), Some(to)) => (from, to),
            _ => {
                println!("{i}: no offset");
                return;
            }
        };
        match bytes.get(from..to) {
            Some(e) if e.len() >= 6 => {
                let kind = ["open", "close", "message"].get(e[0] as usize).copied().unwrap_or("unknown");
                let clock = u32::from_le_bytes([e[2], e[3], e[4], e[5]]);
                let hex: String = e[6..].iter().map(|byte| format!("{byte:02x}")).collect();
                println!("{i}: {kind} line {} clock {clock} {hex}", e[1]);
            }
            _ => println!("{i}: bad offsets {from} {to}"),
        }
    }
}

fn main() -> ExitCode {
    let args: Vec<String> = env::args().skip(1).collect();
    let words: Vec<&str> = args.iter().map(String::as_str).collect();
    let done = match words[..] {
        ["make", dir, count, seed] => match (count.parse(), seed.parse()) {
            (Ok(count), Ok(seed)) => make(Path::new(dir), count, seed),
            _ => {
                eprintln!("sessions: COUNT and SEED are numbers");
                return ExitCode::from(2);
            }
        },
        ["show", path] => fs::read(path).map(|bytes| show(&bytes)),
        _ => {
            eprintln!("usage: sessions make DIR COUNT SEED | sessions show FILE");
            return ExitCode::from(2);
        }
    };
    match done {
        Ok(()) => ExitCode::SUCCESS,
        Err(error) => {
            eprintln!("sessions: {error}");
            ExitCode::FAILURE
        }
    }
}
