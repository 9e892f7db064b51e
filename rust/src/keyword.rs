//! Keywords: their hash, and their place in a route table.
//!
//! The keywords of a text, of a query or a name, are its runs of digits and letters A to Z and a to z, whatever their case; all other bytes, those
//! above 127 too, only stand between them. A route table of `2^bits` entries has the distance of a keyword at the keyword's place.
//!
//! ```
//! use lunozhar::table::{self, Table};
//! use lunozhar::{Names, Own, Station};
//!
//! // A neighbour that has one file sends the table of its names.
//! let mut names = Names::new(100);
//! names.add(b"LX-04417.jpg")?;
//! let entries = names.table(1024, 8)?;
//! let updates = table::write([3; 16], None, Table { entries: &entries, infinity: 8 }, table::MOST_DATA)?;
//!
//! let mut station = Station::new(8 * 1024)?;
//! let own = Own::new("192.0.2.1:6346".parse().unwrap());
//! station.open(0)?;
//! let mut rest = &updates[..];
//! while !rest.is_empty() {
//!     let used = station.message(0, 0, &own, rest)?.used;
//!     rest = &rest[used..];
//! }
//! // It is asked for the name's keywords, for what has no keyword, and not for what falls on another place.
//! assert!(station.ask([4; 16], b"04417")?.lines().eq([0]));
//! assert!(station.ask([5; 16], b"JPG/lx")?.lines().eq([0]));
//! assert!(station.ask([6; 16], b"04418")?.lines().eq([]));
//! assert!(station.ask([7; 16], b"---")?.lines().eq([0]));
//! # Ok::<(), lunozhar::Refusal>(())
//! ```

use crate::boundary;

/// The 32-bit hash of a keyword of any length and any bytes. Letters A to Z count as a to z; every other byte counts as it is.
///
/// ```
/// use lunozhar::keyword;
/// assert_eq!(keyword::hash(b"Lake"), keyword::hash(b"lake"));
/// assert_eq!(keyword::hash(b""), 0);
///
/// let long = format!("LX04417{}", "Spruce".repeat(30));
/// assert_eq!(keyword::hash(long.as_bytes()), keyword::hash(long.to_lowercase().as_bytes()));
/// assert_ne!(keyword::hash(b"\xC1"), keyword::hash(b"\xE1"));
/// ```
pub fn hash(keyword: &[u8]) -> u32 {
    boundary::hash(keyword)
}

/// The place of a keyword in a table of `2^bits` entries: the top bits of its hash. It is 0 for no bits, and the whole hash for 32 or more.
///
/// ```
/// use lunozhar::keyword;
/// assert_eq!(keyword::place(b"ebckl", 13), 3179);
/// assert_eq!(keyword::place(b"ebckl", 32), keyword::hash(b"ebckl"));
/// ```
pub fn place(keyword: &[u8], bits: u32) -> u32 {
    boundary::place(keyword, bits)
}
