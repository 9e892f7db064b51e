//! Tables that are passed on.

use super::Station;
use crate::refusal::checked;
use crate::table::{Table, LONGEST};
use crate::{boundary, Names, Refusal};

/// A table that was made to be sent to the neighbour of a line.
#[derive(Clone, Debug, PartialEq, Eq)]
pub struct Made {
    /// The entries, 1 to Infinity.
    pub entries: Vec<u8>,
    /// The Infinity to write them with.
    pub infinity: u8,
}

impl Made {
    /// The table as [`table::write`](crate::table::write) takes it, as the new one or as the old.
    ///
    /// ```
    /// use lunozhar::{table, Names, Station};
    ///
    /// let mut station = Station::new(8 * 1024)?;
    /// station.open(0)?;
    /// let mut names = Names::new(100);
    /// let first = station.table_for(0, &names, 1024)?;
    /// let updates = table::write([3; 16], None, first.table(), table::MOST_DATA)?;
    ///
    /// // A name more: one update, from the table before to this one.
    /// names.add(b"mountain lake.jpg")?;
    /// let second = station.table_for(0, &names, 1024)?;
    /// let update = table::write([4; 16], Some(first.table()), second.table(), table::MOST_DATA)?;
    /// # assert_eq!(updates.len(), 23 + 6 + 23 + 5 + 512);
    /// # assert_eq!(update.len(), 23 + 5 + 512);
    /// # Ok::<(), lunozhar::Refusal>(())
    /// ```
    pub fn table(&self) -> Table<'_> {
        Table { entries: &self.entries, infinity: self.infinity }
    }
}

impl Station {
    /// Makes the table to send the neighbour of a line, of so many entries: it tells that neighbour what can be reached
    /// through this station. Every line gets a table of its own, and the station is only read.
    ///
    /// An entry is 1 where a [`keyword`](crate::keyword) of one of these names falls, which are the station's own. Else it
    /// is one more than the least distance that the tables of the other lines have there, and at most Infinity, which
    /// stands where they have none. Only settled tables count, and never the one of this very line; an entry that is the
    /// Infinity of its own table is no distance. Tables may have other lengths than the one that is made: into a shorter
    /// one, a place takes the least of the entries that fall together there; into a longer one, the entry that its place
    /// is a part of. The length may be more than the station itself has room for.
    ///
    /// So what one station has is told from neighbour to neighbour, and is a hop farther each time.
    ///
    /// # Errors
    ///
    /// [`Refusal::BadLine`] for a line over 7, or one that is not open; [`Refusal::BadUpdate`] for a length that is no
    /// power of two from 4 to 65,536.
    ///
    /// ```
    /// use lunozhar::{keyword, table, Local, Names, Own, Refusal, Station};
    ///
    /// /// The updates that tell the neighbour of a line what can be reached through a station with these names.
    /// fn updates(station: &Station, line: u32, names: &Names) -> Result<Vec<u8>, Refusal> {
    ///     let made = station.table_for(line, names, 1024)?;
    ///     table::write([3; 16], None, made.table(), table::MOST_DATA)
    /// }
    ///
    /// // Three stations in a row. Line 0 joins a and b, line 1 joins b and c.
    /// let (mut a, mut b, mut c) = (Station::new(8 * 1024)?, Station::new(8 * 1024)?, Station::new(8 * 1024)?);
    /// let own = Own::new("192.0.2.1:6346".parse().unwrap());
    /// a.open(0)?;
    /// b.open(0)?;
    /// b.open(1)?;
    /// c.open(1)?;
    ///
    /// // Only c has a file. Its updates come to b in scraps of seven bytes, and then b's to a.
    /// let (none, mut files) = (Names::new(0), Names::new(100));
    /// files.add(b"mountain lake.jpg")?;
    /// for scrap in updates(&c, 1, &files)?.chunks(7) {
    ///     b.feed_all(1, 1_000, &own, scrap, |message| assert!(message.is_ok()))?;
    /// }
    /// for scrap in updates(&b, 0, &none)?.chunks(7) {
    ///     a.feed_all(0, 1_000, &own, scrap, |message| assert!(message.is_ok()))?;
    /// }
    /// let lake = keyword::place(b"lake", 10) as usize;
    /// assert_eq!((b.route()[1024 + lake], a.route()[lake]), (1, 2));
    ///
    /// // The query of a goes to b, which passes it on to c, and c is to search its files.
    /// let asked = a.ask([7; 16], b"lake")?;
    /// assert!(asked.lines().eq([0]));
    /// let passed = b.message(0, 2_000, &own, asked.bytes)?.sent;
    /// assert!(passed.lines().eq([1]));
    /// assert_eq!(c.message(1, 2_000, &own, passed.bytes)?.local, Local::Query(b"lake"));
    ///
    /// // A query for what nobody has goes nowhere.
    /// assert!(a.ask([8; 16], b"river")?.lines().eq([]));
    ///
    /// // What c tells of does not come back to it.
    /// assert_eq!(b.table_for(1, &none, 1024)?.entries, [8; 1024]);
    /// assert_eq!(b.table_for(2, &none, 1024), Err(Refusal::BadLine));
    /// assert_eq!(b.table_for(1, &none, 1000), Err(Refusal::BadUpdate));
    /// # Ok::<(), Refusal>(())
    /// ```
    pub fn table_for(&self, line: u32, names: &Names, length: u32) -> Result<Made, Refusal> {
        // No longer than a table can be: a greater length is refused before the output is looked at.
        let mut entries = vec![0; LONGEST.min(length as usize)];
        let told = boundary::table_for(&self.state, line, names.as_bytes(), length, &mut entries, &self.route);
        checked(told.answer)?;
        Ok(Made { entries, infinity: told.infinity })
    }
}
