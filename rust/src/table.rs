//! Route tables for a neighbour: the updates that bring its copy to the present state.

use crate::refusal::checked;
use crate::{boundary, raw, Refusal};

/// The most entries that a table can have.
pub const LONGEST: usize = 65_536;

/// The most bytes of data that a PATCH can carry.
pub const MOST_DATA: usize = 4_091;

/// The most PATCHes of a run.
const RUN: usize = 255;

/// The bytes of a RESET, and those of a PATCH before its data.
const RESET: usize = 23 + 6;
const PATCH: usize = 23 + 5;

/// A table: an entry for each place, 1 to Infinity, where Infinity says that no keyword falls there.
#[derive(Clone, Copy, Debug, PartialEq, Eq)]
pub struct Table<'a> {
    /// The entries: a power of two of them, 4 to [`LONGEST`].
    pub entries: &'a [u8],
    /// Infinity, 2 to 127.
    pub infinity: u8,
}

/// The messages that turn a neighbour's copy of the old table into the new one, to be sent to it as they are.
///
/// Where there was no old table they start with a RESET. Then comes a run of PATCHes with `data_size` bytes of data each (1 to [`MOST_DATA`]), the
/// last with the rest: 4 bits an entry if every difference fits, else 8. All have the same message number.
///
/// # Errors
///
/// [`Refusal::BadUpdate`] for a length, an Infinity, an entry or a data size that is not allowed, for two tables of unlike length or Infinity, and
/// for a run of more than 255 messages.
///
/// ```
/// use lunozhar::table::{self, Table};
/// use lunozhar::{keyword, Own, Station};
///
/// // A neighbour that has "lake" next to it, and nothing else.
/// let mut entries = vec![8; 1024];
/// entries[keyword::place(b"lake", 10) as usize] = 1;
/// let updates = table::write([3; 16], None, Table { entries: &entries, infinity: 8 }, table::MOST_DATA)?;
///
/// let mut station = Station::new(8 * 1024)?;
/// let own = Own::new("192.0.2.1:6346".parse().unwrap());
/// station.open(0)?;
/// let mut rest = &updates[..];
/// while !rest.is_empty() {
///     let used = station.message(0, 0, &own, rest)?.used;
///     rest = &rest[used..];
/// }
/// assert!(station.ask([4; 16], b"Lake")?.lines().eq([0]));
/// assert!(station.ask([5; 16], b"river")?.lines().eq([]));
/// # Ok::<(), lunozhar::Refusal>(())
/// ```
pub fn write(number: [u8; 16], old: Option<Table<'_>>, new: Table<'_>, data_size: usize) -> Result<Vec<u8>, Refusal> {
    // Enough for the longest run of a table that is allowed: the data has a byte an entry at most.
    let data = new.entries.len().min(LONGEST);
    let run = data.div_ceil(data_size.max(1)).min(RUN);
    let mut out = vec![0; RESET + PATCH * run + data];
    let old = old.map(|old| (old.entries, old.infinity));
    let told = boundary::write_table(raw::Number { bytes: number }, old, (new.entries, new.infinity), data_size, &mut out);
    checked(told.answer)?;
    out.truncate(told.written);
    Ok(out)
}
