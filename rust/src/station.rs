//! The station: its lines, the messages that arrive by them, its own queries, those that it remembers, and the tables that it passes on.

mod feeding;
mod looking;
mod relaying;

pub use feeding::Fed;
pub use looking::{Asker, Remembered};
pub use relaying::Made;

use crate::raw::{self, Told};
use crate::refusal::{after, checked, checked_told};
use crate::{boundary, Refusal, Refused, Tally};
use std::fmt;
use std::net::SocketAddrV4;

/// The header of a message; its payload begins behind it.
const HEADER: usize = 23;

/// What a station says of itself in a pong.
#[derive(Clone, Copy, Debug, PartialEq, Eq)]
pub struct Own {
    /// Where it can be called.
    pub host: SocketAddrV4,
    /// How many files it shares.
    pub files: u32,
    /// How many kilobytes they have.
    pub kilobytes: u32,
    /// Whether it takes connections. If not, only a ping to this station alone (TTL 1, Hops 0 or 1) gets its own pong.
    pub calls: bool,
}

impl Own {
    /// A station at this host that takes connections and shares no files.
    ///
    /// ```
    /// use lunozhar::Own;
    ///
    /// let own = Own { files: 120, kilobytes: 48_000, ..Own::new("192.0.2.1:6346".parse().unwrap()) };
    /// assert!(own.calls);
    /// ```
    pub fn new(host: SocketAddrV4) -> Own {
        Own { host, files: 0, kilobytes: 0, calls: true }
    }

    fn raw(&self) -> raw::Own {
        let Own { host, files, kilobytes, calls } = *self;
        raw::Own { port: host.port(), address: host.ip().octets(), files, kilobytes, calls }
    }
}

/// Bytes to be sent by some lines. Where there is nothing to send there are no lines.
#[derive(Clone, Copy, Debug, PartialEq, Eq)]
pub struct Sent<'s> {
    /// One message or, for a ping, some pongs: to be sent as they are by each of the lines.
    pub bytes: &'s [u8],
    /// Whether they are to be sent by line 0, 1, .. 7.
    pub to: [bool; raw::LINES],
}

impl<'s> Sent<'s> {
    fn new(output: &'s [u8], told: &Told) -> Sent<'s> {
        Sent { bytes: &output[..told.written], to: told.to }
    }

    /// The lines to send by, rising.
    ///
    /// ```
    /// let mut station = lunozhar::Station::new(1024)?;
    /// station.open(2)?;
    /// station.open(5)?;
    /// let sent = station.ask([1; 16], b"lake")?;
    /// for line in sent.lines() {
    ///     println!("{} bytes for line {line}", sent.bytes.len());
    /// }
    /// assert!(sent.lines().eq([2, 5]));
    /// # Ok::<(), lunozhar::Refusal>(())
    /// ```
    pub fn lines(&self) -> impl Iterator<Item = u32> {
        (0..).zip(self.to).filter_map(|(line, sent)| sent.then_some(line))
    }
}

/// What a message has for this station itself.
#[derive(Clone, Copy, Debug, PartialEq, Eq)]
pub enum Local<'m> {
    /// Nothing.
    Nothing,
    /// A query for the local search: its text, without the zero byte at its end.
    Query(&'m [u8]),
    /// A hit for a query of this station's own: its payload.
    Hit(&'m [u8]),
}

/// What a message came to.
#[derive(Clone, Copy, Debug, PartialEq, Eq)]
pub struct Outcome<'s, 'm> {
    /// How many of the bytes of this call the message has: the next one begins behind them.
    pub used: usize,
    /// What to send, and by which lines. It borrows the station, whose next message writes over it.
    pub sent: Sent<'s>,
    /// What is for this station itself, as a part of the bytes that came, or, of a message that [`feed`](Station::feed)
    /// put together, of the station.
    pub local: Local<'m>,
    /// Of a hit: how many queries were remembered after the one that it answers, 0 for the newest. Of other messages
    /// there is none.
    pub after: Option<usize>,
}

impl<'s, 'm> Outcome<'s, 'm> {
    /// What a message came to that was done.
    fn new(output: &'s [u8], told: &Told, message: &'m [u8]) -> Outcome<'s, 'm> {
        Outcome { used: told.used, sent: Sent::new(output, told), local: local(told, message), after: after(told.age) }
    }
}

/// What a message has for this station itself: a part of its bytes.
fn local<'m>(told: &Told, message: &'m [u8]) -> Local<'m> {
    if told.search {
        Local::Query(&message[told.textat..][..told.textlen])
    } else if told.delivered {
        Local::Hit(&message[HEADER..])
    } else {
        Local::Nothing
    }
}

/// A station with eight lines, 0 to 7, to its neighbours. It remembers the last 512 queries, with how many hits each
/// has had, and keeps ten pongs and a route table of each line.
///
/// It owns what the core works on: its state of about 11 KB, the route area with the entries of the tables, an output
/// area of 4 KB, and for each line a held area of 4 KB, in which the bytes of a message wait for its last.
#[derive(Clone)]
pub struct Station {
    state: Box<raw::Station>,
    route: Box<[u8]>,
    output: Box<[u8]>,
    /// The held areas of the lines, one behind the other.
    held: Box<[u8]>,
    tally: Tally,
}

/// The bytes of all held areas.
const HELD_AREAS: usize = raw::LINES * raw::HELD;

impl Station {
    /// A station with every line closed, and a route area of so many bytes: an eighth of them is the most entries that a neighbour's table may have.
    ///
    /// The longest table there is has 65,536 entries, so `8 * 65_536` has room for any. A table that has no room is refused, and withholds nothing.
    ///
    /// # Errors
    ///
    /// [`Refusal::BadArea`] below 32 bytes.
    ///
    /// # Panics
    ///
    /// Where there is no memory for so many bytes, as for any vector.
    ///
    /// ```
    /// use lunozhar::{Refusal, Station};
    ///
    /// assert!(Station::new(8 * 65_536).is_ok());
    /// assert_eq!(Station::new(31).unwrap_err(), Refusal::BadArea);
    /// ```
    pub fn new(route_len: usize) -> Result<Station, Refusal> {
        let mut state = Box::<raw::Station>::default();
        checked(boundary::fresh(&mut state, route_len))?;
        Ok(Station::over(state, vec![0; route_len], vec![0; HELD_AREAS]))
    }

    fn over(state: Box<raw::Station>, route: Vec<u8>, held: Vec<u8>) -> Station {
        let (route, held) = (route.into_boxed_slice(), held.into_boxed_slice());
        Station { state, route, output: vec![0; raw::OUTPUT].into_boxed_slice(), held, tally: Tally::default() }
    }

    /// A station from what [`state`](Station::state), [`route`](Station::route) and [`held`](Station::held) gave. Its
    /// tally is zero. The held areas go with the state, which has how many bytes of each are held, so that a line goes
    /// on in the midst of a message.
    ///
    /// # Errors
    ///
    /// [`Refusal::NotInOrder`], also where what is held of an open line starts no message; or [`Refusal::BadArea`]
    /// where the route area is below 32 bytes or an eighth of it is not the state's room, or the held areas are not
    /// eight of 4,119 bytes.
    ///
    /// ```
    /// use lunozhar::{Refusal, Station};
    ///
    /// let mut station = Station::new(1024)?;
    /// station.open(3)?;
    /// let (state, route, held) = (station.state().clone(), station.route().to_vec(), station.held().to_vec());
    /// let mut again = Station::from_parts(state, route, held)?;
    /// assert_eq!(again.open(3), Err(Refusal::BadLine));
    ///
    /// let state = lunozhar::raw::Station { next: 512, ..station.state().clone() };
    /// let refused = Station::from_parts(state, vec![0; 1024], station.held().to_vec()).unwrap_err();
    /// assert_eq!(refused, Refusal::NotInOrder);
    /// # Ok::<(), Refusal>(())
    /// ```
    pub fn from_parts(state: raw::Station, route: Vec<u8>, held: Vec<u8>) -> Result<Station, Refusal> {
        if !boundary::in_order(&state) {
            return Err(Refusal::NotInOrder);
        }
        if route.len() < raw::ROUTE || route.len() / raw::LINES != state.room || held.len() != HELD_AREAS {
            return Err(Refusal::BadArea);
        }
        let mut station = Station::over(Box::new(state), route, held);
        if (0..raw::LINES).all(|line| station.starts(line)) {
            Ok(station)
        } else {
            Err(Refusal::NotInOrder)
        }
    }

    /// Opens a line: a neighbour has come.
    ///
    /// # Errors
    ///
    /// [`Refusal::BadLine`] for a line over 7, or one that is open.
    ///
    /// ```
    /// use lunozhar::{Refusal, Station};
    ///
    /// let mut station = Station::new(1024)?;
    /// station.open(0)?;
    /// assert_eq!(station.open(0), Err(Refusal::BadLine));
    /// assert_eq!(station.open(8), Err(Refusal::BadLine));
    /// # Ok::<(), Refusal>(())
    /// ```
    pub fn open(&mut self, line: u32) -> Result<(), Refusal> {
        checked(boundary::open(&mut self.state, line))
    }

    /// Closes a line: its neighbour has gone. Its table, its pongs and what it brought of an unfinished message are
    /// dropped, and hits for queries that came by it are refused from now on with [`Refusal::AskerClosed`], whoever
    /// the line is opened for next.
    ///
    /// # Errors
    ///
    /// [`Refusal::BadLine`] for a line over 7, or one that is not open.
    ///
    /// ```
    /// use lunozhar::{Refusal, Station};
    ///
    /// let mut station = Station::new(1024)?;
    /// station.open(0)?;
    /// station.close(0)?;
    /// assert_eq!(station.close(0), Err(Refusal::BadLine));
    /// # Ok::<(), Refusal>(())
    /// ```
    pub fn close(&mut self, line: u32) -> Result<(), Refusal> {
        checked(boundary::close(&mut self.state, line))
    }

    /// Takes the message at the front of the bytes, which came by a line; bytes behind the message are not looked at. The clock counts milliseconds
    /// from anywhere, and may go round.
    ///
    /// This is for a program that has whole messages. For what a line brings in scraps there is
    /// [`feed`](Station::feed), whose held bytes and shut lines don't count here: they are neither looked at nor
    /// changed.
    ///
    /// Of one query 200 hits are passed back or delivered; those behind them are refused with
    /// [`Refusal::AnsweredEnough`].
    ///
    /// # Errors
    ///
    /// A [`Refused`] with any of the numbers 3 to 16, or 21. [`Refusal::NotWhole`] asks for more bytes; after
    /// [`Refusal::TooLong`] the line is of no more use; after any other that has `used` bytes the next message begins
    /// behind them.
    ///
    /// ```
    /// use lunozhar::{Local, Own, Refusal, Station};
    ///
    /// let mut asker = Station::new(1024)?;
    /// asker.open(0)?;
    /// let query = asker.ask([7; 16], b"lake")?.bytes;
    ///
    /// let mut station = Station::new(1024)?;
    /// station.open(0)?;
    /// let own = Own::new("192.0.2.1:6346".parse().unwrap());
    /// let bytes = [query, query].concat();
    /// let outcome = station.message(0, 1_000, &own, &bytes)?;
    /// assert_eq!((outcome.used, outcome.local), (query.len(), Local::Query(b"lake")));
    /// let refused = station.message(0, 1_000, &own, &bytes[query.len()..]).unwrap_err();
    /// assert_eq!((refused.refusal, refused.used), (Refusal::Repeated, query.len()));
    /// assert_eq!(refused.after, Some(0), "none was remembered after it");
    /// # Ok::<(), Refusal>(())
    /// ```
    pub fn message<'m>(&mut self, line: u32, clock: u32, own: &Own, bytes: &'m [u8]) -> Result<Outcome<'_, 'm>, Refused> {
        let told = boundary::message(&mut self.state, line, clock, own.raw(), bytes, &mut self.output, &mut self.route);
        self.tally.count(told.answer);
        checked_told(&told)?;
        Ok(Outcome::new(&self.output, &told, &bytes[..told.used]))
    }

    /// Asks a query of this station's own, under a number that no query had yet, such as 16 random bytes. The message is for each open line whose
    /// table does not withhold it; its hits, 200 at most, come back as [`Local::Hit`] of later messages.
    ///
    /// # Errors
    ///
    /// A [`Refused`] with [`Refusal::TooLong`] for a text over 4,093 bytes, [`Refusal::BadPayload`] for a zero byte in
    /// it, or [`Refusal::Repeated`] for a number that is remembered, then with how many were remembered after it.
    ///
    /// ```
    /// use lunozhar::{Refusal, Station};
    ///
    /// let mut station = Station::new(1024)?;
    /// station.open(1)?;
    /// let sent = station.ask([7; 16], b"mountain lake")?;
    /// assert!(sent.lines().eq([1]));
    /// assert_eq!(sent.bytes.len(), 23 + 2 + 13 + 1);
    ///
    /// let refused = station.ask([7; 16], b"river").unwrap_err();
    /// assert_eq!((refused.refusal, refused.after), (Refusal::Repeated, Some(0)));
    /// # Ok::<(), Refusal>(())
    /// ```
    pub fn ask(&mut self, number: [u8; 16], text: &[u8]) -> Result<Sent<'_>, Refused> {
        let told = boundary::ask(&mut self.state, raw::Number { bytes: number }, text, &mut self.output, &self.route);
        checked_told(&told)?;
        Ok(Sent::new(&self.output, &told))
    }

    /// How many messages had each answer. Each call of [`message`](Station::message) counts as one, also where it was
    /// refused for want of bytes, and each of [`feed`](Station::feed) but one that only waits; openings, closings, own
    /// queries, look-ups and tables that are made are not counted.
    ///
    /// ```
    /// use lunozhar::{Own, Refusal, Station};
    ///
    /// let mut station = Station::new(1024)?;
    /// let own = Own::new("192.0.2.1:6346".parse().unwrap());
    /// assert!(station.message(0, 0, &own, b"").is_err());
    /// assert_eq!(station.tally().refused(Refusal::BadLine), 1);
    /// # Ok::<(), Refusal>(())
    /// ```
    pub fn tally(&self) -> &Tally {
        &self.tally
    }

    /// Whether the state is in order. Every call tests that first, and keeps it so: the answer here is always yes.
    ///
    /// ```
    /// assert!(lunozhar::Station::new(1024)?.in_order());
    /// # Ok::<(), lunozhar::Refusal>(())
    /// ```
    pub fn in_order(&self) -> bool {
        boundary::in_order(&self.state)
    }

    /// The state, to look at or to keep: lines, their pongs and tables, remembered queries.
    ///
    /// ```
    /// let mut station = lunozhar::Station::new(1024)?;
    /// station.open(3)?;
    /// assert!(station.state().lines[3].live);
    /// assert_eq!(station.state().room, 128);
    /// # Ok::<(), lunozhar::Refusal>(())
    /// ```
    pub fn state(&self) -> &raw::Station {
        &self.state
    }

    /// The route area: the entries of a line's table begin at byte `line * room`, one byte each.
    ///
    /// ```
    /// assert_eq!(lunozhar::Station::new(1024)?.route().len(), 1024);
    /// # Ok::<(), lunozhar::Refusal>(())
    /// ```
    pub fn route(&self) -> &[u8] {
        &self.route
    }

    /// The held areas of the eight lines, 4,119 bytes each: what line `l` has brought of a message that is not whole
    /// begins at byte `l * 4_119`, and `state().lines[l].pending.count` says how many bytes that are.
    ///
    /// ```
    /// use lunozhar::{raw, Own, Station};
    ///
    /// let mut station = Station::new(1024)?;
    /// station.open(1)?;
    /// station.feed(1, 0, &Own::new("192.0.2.1:6346".parse().unwrap()), b"seven b")?;
    /// assert_eq!(station.state().lines[1].pending.count, 7);
    /// assert_eq!(station.held()[raw::HELD..][..7], *b"seven b");
    /// # Ok::<(), lunozhar::Refusal>(())
    /// ```
    pub fn held(&self) -> &[u8] {
        &self.held
    }
}

impl fmt::Debug for Station {
    fn fmt(&self, f: &mut fmt::Formatter<'_>) -> fmt::Result {
        let open: Vec<usize> = (0..raw::LINES).filter(|&line| self.state.lines[line].live).collect();
        f.debug_struct("Station")
            .field("room", &self.state.room)
            .field("open", &open)
            .field("remembered", &self.state.count)
            .finish_non_exhaustive()
    }
}
