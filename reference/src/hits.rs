//! Query Hits: the results of one read, and one written for the station's own names (document 02, R-9).
//!
//! A hit's payload has the number of results, port, address and speed in 11 bytes, then the results, and as its last
//! 16 bytes the mark of the station that sends it. A result is a file index and a size of 4 bytes each, a name and an
//! extension, each ended by a zero byte. Numbers are little-endian; the address keeps its order.

mod matching;
mod reading;
#[cfg(test)]
mod tests;
mod writing;

pub use reading::{begin, Cursor, Head, Next, Record};
pub use writing::{write, Sender, Written, RESULTS};

/// Bytes before the first result.
pub const HEAD: usize = 11;
/// Bytes of the mark.
pub const MARK: usize = 16;

/// One in each of eight bytes.
const ALL: u64 = 0x0101_0101_0101_0101;

/// The high bit of each of eight bytes that is zero.
#[inline]
fn zeros(bytes: u64) -> u64 {
    const LOW: u64 = 0x7F * ALL;
    !(((bytes & LOW) + LOW) | bytes) & !LOW
}
