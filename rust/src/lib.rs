//! The proved core of a Gnutella 0.6 station: what a station answers, remembers, forwards and writes, for any bytes, any clock and any line.
//!
//! The core is a library that is proved to keep its contracts. It does no input or output: the program has the connections, hands over what
//! arrived by a line, and sends what it is told to. Here a query of one station goes on through another:
//!
//! ```
//! use lunozhar::{Local, Own, Station};
//!
//! // Two stations, each with room for a table of 1,024 entries from each of its eight neighbours.
//! let mut first = Station::new(8 * 1024)?;
//! first.open(0)?;
//! let mut second = Station::new(8 * 1024)?;
//! second.open(0)?;
//! second.open(1)?;
//!
//! // The first asks. What it sends by its line 0 arrives at the second by that one's line 0.
//! let asked = first.ask([7; 16], b"mountain lake")?;
//! assert!(asked.lines().eq([0]));
//! let own = Own::new("192.0.2.2:6346".parse()?);
//! let outcome = second.message(0, 1_000, &own, asked.bytes)?;
//!
//! // The second is to search its files, and to pass the query on by line 1.
//! assert_eq!(outcome.local, Local::Query(b"mountain lake"));
//! assert!(outcome.sent.lines().eq([1]));
//!
//! // The same query once more is refused. None was remembered after it.
//! let refused = second.message(0, 1_100, &own, asked.bytes).unwrap_err();
//! assert_eq!(refused.to_string(), "refused with 9: the query's number is remembered, or the file name is listed (39 bytes used)");
//! assert_eq!(refused.after, Some(0));
//! # Ok::<(), Box<dyn std::error::Error>>(())
//! ```
//!
//! [`Station`] has the calls; what a line brings in scraps goes to [`Station::feed`] or [`Station::feed_all`];
//! [`Station::look_up`] tells who asked a query, and how many were remembered after it.
//! [`Names`] are the station's own file names; [`Station::table_for`] makes the table that tells a neighbour what can be
//! reached through the station, the own names and what its other neighbours tell of, and [`table`] writes its updates;
//! [`keyword`] has a keyword's hash and place. [`handshake`] reads and writes the groups of lines that open a connection.
//! A refusal is a [`Refusal`], with its number. [`raw`] is what C sees.
//!
//! The core is linked from `target/staticlib/liblunozhar.a` of the repository, which `./library` proves and writes for x86-64; the
//! variable `LUNOZHAR_LIB` names another folder that holds it.
#![deny(missing_docs, unsafe_code)]

mod boundary;
pub mod handshake;
pub mod keyword;
mod names;
pub mod raw;
mod refusal;
mod station;
pub mod table;
mod tally;

pub use names::Names;
pub use refusal::{Refusal, Refused, RefusedBytes};
pub use station::{Asker, Fed, Local, Made, Outcome, Own, Remembered, Sent, Station};
pub use tally::Tally;
