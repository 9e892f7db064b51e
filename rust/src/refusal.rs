//! Why a call was refused.

use crate::raw::{Age, Told};
use std::error::Error;
use std::fmt;

/// Why a call was refused: one variant for each of the core's answer numbers 1 to 21.
///
/// A refusal sends nothing and changes nothing, but that a route update refused by [`BadUpdate`](Refusal::BadUpdate),
/// [`OutOfTurn`](Refusal::OutOfTurn) or [`EntryOutOfRange`](Refusal::EntryOutOfRange) marks its line's table as broken
/// until the next RESET. A broken table withholds no query. Bytes that [`Station::feed`](crate::Station::feed) was
/// brought of a message that is refused are dropped, and by [`TooLong`](Refusal::TooLong) it shuts the line.
#[derive(Clone, Copy, Debug, PartialEq, Eq, Hash, PartialOrd, Ord)]
#[non_exhaustive]
#[repr(u8)]
pub enum Refusal {
    /// 1: the station's state or a list of names is not in order; of bytes that a line brings: what is held of the line
    /// starts no message.
    NotInOrder = 1,
    /// 2: an area is too short, or the route area gives another room than the state's.
    BadArea = 2,
    /// 3: the line is over 7, or not open; for opening: already open.
    BadLine = 3,
    /// 4: the message or handshake group does not end in the bytes that are there.
    NotWhole = 4,
    /// 5: the payload is over 4,096 bytes, or an own query's text over 4,093.
    TooLong = 5,
    /// 6: the payload is wrong for its type; an own query's text, a host or a file name is wrong.
    BadPayload = 6,
    /// 7: the message is no ping, pong, query, query hit or route update.
    UnknownType = 7,
    /// 8: TTL or Hops is not allowed.
    BadTtlOrHops = 8,
    /// 9: the query's number is remembered; the file name is in the list.
    Repeated = 9,
    /// 10: a hit or a look-up for no remembered query; the handshake field or the file name is absent.
    NotFound = 10,
    /// 11: a hit for a query whose line has closed since, even if it is open again.
    AskerClosed = 11,
    /// 12: a hit whose Hops is 255 and would have to rise; no query is answered so.
    HopsFull = 12,
    /// 13: less than 1,000 ms since the line's last accepted ping.
    PingTooSoon = 13,
    /// 14: a field of a route update is not allowed; the table writer's arguments are wrong; no table has this length or
    /// Infinity.
    BadUpdate = 14,
    /// 15: a PATCH that is not the next of its run, or does not fit the table.
    OutOfTurn = 15,
    /// 16: a PATCH leads an entry outside 1 to Infinity.
    EntryOutOfRange = 16,
    /// 17: the handshake group is not understood.
    BadHandshake = 17,
    /// 18: no handshake group ends in the first 4,096 bytes.
    NoGroupEnd = 18,
    /// 19: the line brought a payload that was too long, and is to be closed.
    Shut = 19,
    /// 20: the list has 512 names, or its text has no room for the new one.
    ListFull = 20,
    /// 21: a hit for a query of which 200 hits were passed back or delivered since it was remembered.
    ///
    /// ```
    /// use lunozhar::{Own, Refusal, Station};
    ///
    /// let mut station = Station::new(1024)?;
    /// station.open(0)?;
    /// station.ask([7; 16], b"lake")?;
    /// let own = Own::new("192.0.2.1:6346".parse().unwrap());
    /// let hit = [&[7; 16][..], &[0x81, 3, 0, 27, 0, 0, 0], &[0; 27]].concat();
    /// for _ in 0..200 {
    ///     station.message(0, 1_000, &own, &hit)?;
    /// }
    /// let refused = station.message(0, 1_000, &own, &hit).unwrap_err();
    /// assert_eq!((refused.refusal, refused.used, refused.after), (Refusal::AnsweredEnough, 50, Some(0)));
    /// # Ok::<(), Refusal>(())
    /// ```
    AnsweredEnough = 21,
}

impl Refusal {
    /// Every refusal, in the order of the numbers.
    ///
    /// ```
    /// use lunozhar::Refusal;
    /// assert!(Refusal::ALL.iter().map(|refusal| refusal.number()).eq(1..=21));
    /// ```
    pub const ALL: [Refusal; 21] = [
        Refusal::NotInOrder,
        Refusal::BadArea,
        Refusal::BadLine,
        Refusal::NotWhole,
        Refusal::TooLong,
        Refusal::BadPayload,
        Refusal::UnknownType,
        Refusal::BadTtlOrHops,
        Refusal::Repeated,
        Refusal::NotFound,
        Refusal::AskerClosed,
        Refusal::HopsFull,
        Refusal::PingTooSoon,
        Refusal::BadUpdate,
        Refusal::OutOfTurn,
        Refusal::EntryOutOfRange,
        Refusal::BadHandshake,
        Refusal::NoGroupEnd,
        Refusal::Shut,
        Refusal::ListFull,
        Refusal::AnsweredEnough,
    ];

    /// The answer number, 1 to 21.
    ///
    /// ```
    /// assert_eq!(lunozhar::Refusal::AskerClosed.number(), 11);
    /// ```
    pub fn number(self) -> u8 {
        self as u8
    }

    /// The refusal with this number; `None` for 0, which is no refusal, and for numbers that the core does not give.
    ///
    /// ```
    /// use lunozhar::Refusal;
    /// assert_eq!(Refusal::from_number(9), Some(Refusal::Repeated));
    /// assert_eq!(Refusal::from_number(0), None);
    /// ```
    pub fn from_number(number: u8) -> Option<Refusal> {
        Refusal::ALL.get(usize::from(number).checked_sub(1)?).copied()
    }

    /// What it means, in a few words.
    ///
    /// ```
    /// assert_eq!(lunozhar::Refusal::PingTooSoon.meaning(), "ping too soon after the last one");
    /// ```
    pub fn meaning(self) -> &'static str {
        match self {
            Refusal::NotInOrder => "the station's state, a line's held area or a list of names is not in order",
            Refusal::BadArea => "an area is too short, or the route area gives another room",
            Refusal::BadLine => "no such line, or it is not open, or open already",
            Refusal::NotWhole => "the message or handshake group is not whole",
            Refusal::TooLong => "the payload or the query's text is too long",
            Refusal::BadPayload => "the payload, the query's text, a host or a file name is wrong",
            Refusal::UnknownType => "unknown type of message",
            Refusal::BadTtlOrHops => "TTL or Hops is not allowed",
            Refusal::Repeated => "the query's number is remembered, or the file name is listed",
            Refusal::NotFound => "no remembered query has the number, or no such handshake field or file name",
            Refusal::AskerClosed => "the asker's line has closed",
            Refusal::HopsFull => "a hit whose Hops is 255 and would have to rise",
            Refusal::PingTooSoon => "ping too soon after the last one",
            Refusal::BadUpdate => "a field of the route update or table is not allowed",
            Refusal::OutOfTurn => "route update out of turn",
            Refusal::EntryOutOfRange => "a patch leads an entry outside 1 to Infinity",
            Refusal::BadHandshake => "handshake not understood",
            Refusal::NoGroupEnd => "no handshake group ends in 4,096 bytes",
            Refusal::Shut => "the line is shut until it is closed and opened",
            Refusal::ListFull => "the list of names is full, or has no room for the name",
            Refusal::AnsweredEnough => "the query has had 200 hits",
        }
    }
}

impl fmt::Display for Refusal {
    fn fmt(&self, f: &mut fmt::Formatter<'_>) -> fmt::Result {
        write!(f, "refused with {}: {}", self.number(), self.meaning())
    }
}

impl Error for Refusal {}

/// A refusal of bytes that arrived, with how many of them to skip, or of an own query. Where a query's number was looked
/// up and found, it has the age of that query.
///
/// ```
/// use lunozhar::handshake;
///
/// let refused = handshake::field(b"GNUTELLA/0.6 200 OK\r\n\r\n", "X-Try").unwrap_err();
/// assert_eq!(refused.to_string(), "refused with 10: no remembered query has the number, or no such handshake field or file name (23 bytes used)");
/// ```
#[derive(Clone, Copy, Debug, PartialEq, Eq, Hash)]
pub struct Refused {
    /// Why.
    pub refusal: Refusal,
    /// How many bytes the message or handshake group took, which is what to skip before the next one. It is 0 where
    /// the bytes don't tell that (numbers 1 to 5, 17 and 18), for a line that is shut (19) and for an own query. Of
    /// [`Station::feed`](crate::Station::feed) it counts the bytes of that call, and for 5 has those of the header.
    pub used: usize,
    /// How many queries were remembered after the one that a hit answers or that a query repeats, 0 for the newest;
    /// `None` where no number was looked up, or none was found. It is there for 9, 11, 12 and 21, and for the 8 of a
    /// hit with TTL 1; one with TTL 0 is refused before its number is looked up.
    pub after: Option<usize>,
}

impl fmt::Display for Refused {
    fn fmt(&self, f: &mut fmt::Formatter<'_>) -> fmt::Result {
        match self.used {
            0 => self.refusal.fmt(f),
            used => write!(f, "{} ({used} bytes used)", self.refusal),
        }
    }
}

impl Error for Refused {}

impl From<Refused> for Refusal {
    fn from(refused: Refused) -> Refusal {
        refused.refusal
    }
}

/// A refusal of bytes that were to be a list of names, with the bytes.
///
/// ```
/// use lunozhar::{Names, Refusal};
///
/// let refused = Names::from_bytes(vec![7; 4_099]).unwrap_err();
/// assert_eq!(refused.refusal, Refusal::BadArea);
/// assert_eq!(refused.bytes, [7; 4_099]);
/// ```
#[derive(Clone, Debug, PartialEq, Eq)]
pub struct RefusedBytes {
    /// Why: [`Refusal::BadArea`] or [`Refusal::NotInOrder`].
    pub refusal: Refusal,
    /// The bytes, as they were handed over.
    pub bytes: Vec<u8>,
}

impl fmt::Display for RefusedBytes {
    fn fmt(&self, f: &mut fmt::Formatter<'_>) -> fmt::Result {
        self.refusal.fmt(f)
    }
}

impl Error for RefusedBytes {}

impl From<RefusedBytes> for Refusal {
    fn from(refused: RefusedBytes) -> Refusal {
        refused.refusal
    }
}

/// An answer of the core as a result.
pub(crate) fn checked(answer: u8) -> Result<(), Refusal> {
    match answer {
        0 => Ok(()),
        number => Err(Refusal::from_number(number).expect("the core's answers are 0 to 21")),
    }
}

/// The same, with the bytes used.
pub(crate) fn checked_using(answer: u8, used: usize) -> Result<(), Refused> {
    checked(answer).map_err(|refusal| Refused { refusal, used, after: None })
}

/// The same of a message or an own query, with the age besides.
pub(crate) fn checked_told(told: &Told) -> Result<(), Refused> {
    checked_using(told.answer, told.used).map_err(|refused| Refused { after: after(told.age), ..refused })
}

/// An age that is known.
pub(crate) fn after(age: Age) -> Option<usize> {
    age.known.then_some(age.after)
}
