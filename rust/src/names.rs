//! The station's own file names: a list of them, and the table that it makes.

use crate::refusal::checked;
use crate::table::LONGEST;
use crate::{boundary, raw, Refusal, RefusedBytes};
use std::fmt;

/// The file names that a station can answer for: at most 512, each different from the others, in the order in which they were added.
///
/// A name has 1 to 255 bytes, none of them zero. The same bytes are the same name, so that the case of letters counts. The keywords of the
/// names, whatever their case, make the [`table`](Names::table) that tells a neighbour which queries to send here:
///
/// ```
/// use lunozhar::table::{self, Table};
/// use lunozhar::Names;
///
/// // A list with room for 20,000 bytes of names.
/// let mut names = Names::new(20_000);
/// names.add(b"mountain lake.jpg")?;
/// names.add(b"river boat.jpg")?;
/// names.add(b"lake in winter.jpg")?;
/// names.remove(b"river boat.jpg")?;
/// assert_eq!(names.find(b"lake in winter.jpg"), Ok(1));
///
/// // Their table, of 1,024 entries with Infinity 8, and the updates that bring it to a neighbour which had none.
/// let entries = names.table(1024, 8)?;
/// let updates = table::write([3; 16], None, Table { entries: &entries, infinity: 8 }, table::MOST_DATA)?;
///
/// // A name more: one update, from the table before to this one.
/// names.add(b"boat house.jpg")?;
/// let newer = names.table(1024, 8)?;
/// let (old, new) = (Table { entries: &entries, infinity: 8 }, Table { entries: &newer, infinity: 8 });
/// let update = table::write([4; 16], Some(old), new, table::MOST_DATA)?;
/// # assert_eq!(updates.len(), 23 + 6 + 23 + 5 + 512);
/// # assert_eq!(update.len(), 23 + 5 + 512);
/// # Ok::<(), lunozhar::Refusal>(())
/// ```
///
/// It owns the area of bytes that the core works on: a count, 512 pairs of offset and length, then the text.
#[derive(Clone)]
pub struct Names {
    /// A list in order, as every call leaves it.
    area: Box<[u8]>,
}

impl Names {
    /// An empty list, with room for so many bytes of names. The longest there can be have 512 × 255 bytes together.
    ///
    /// # Panics
    ///
    /// Where there is no memory for so many bytes, as for any vector.
    ///
    /// ```
    /// use lunozhar::{Names, Refusal};
    ///
    /// let mut names = Names::new(10);
    /// names.add(b"lake.jpg")?;
    /// assert_eq!(names.add(b"sea.jpg"), Err(Refusal::ListFull));
    /// names.add(b"a2")?;
    /// # Ok::<(), Refusal>(())
    /// ```
    pub fn new(text_room: usize) -> Names {
        Names { area: vec![0; raw::NAMES.saturating_add(text_room)].into_boxed_slice() }
    }

    /// A list from what [`as_bytes`](Names::as_bytes) or [`into_bytes`](Names::into_bytes) gave, or from any bytes that are one: a count, 512
    /// pairs of offset and length, 4 bytes each and little-endian, and from byte 4,100 on the text.
    ///
    /// # Errors
    ///
    /// A [`RefusedBytes`], which has the bytes again: with [`Refusal::BadArea`] for fewer than 4,100 bytes; with [`Refusal::NotInOrder`] for a
    /// count over 512, and for a name that is empty, over 255 bytes or has a zero byte, does not lie in the text, shares a byte with another or
    /// is the same as another.
    ///
    /// ```
    /// use lunozhar::{Names, Refusal};
    ///
    /// let mut names = Names::new(100);
    /// names.add(b"lake.jpg")?;
    /// let mut bytes = names.into_bytes();
    /// let again = Names::from_bytes(bytes.clone())?;
    /// assert!(again.iter().eq([b"lake.jpg"]));
    ///
    /// bytes[4] = 0; // The name's offset is 4,096 now, which is not in the text.
    /// let refused = Names::from_bytes(bytes).unwrap_err();
    /// assert_eq!((refused.refusal, refused.bytes.len()), (Refusal::NotInOrder, 4_200));
    /// # Ok::<(), Refusal>(())
    /// ```
    pub fn from_bytes(bytes: Vec<u8>) -> Result<Names, RefusedBytes> {
        // No list has an empty name: a search for one is refused as such if nothing is wrong with the area.
        match checked(boundary::name_find(&bytes, b"").answer) {
            Err(refusal @ (Refusal::BadArea | Refusal::NotInOrder)) => Err(RefusedBytes { refusal, bytes }),
            _ => Ok(Names { area: bytes.into_boxed_slice() }),
        }
    }

    /// Adds a name as the last. The room of names that were removed is used again.
    ///
    /// # Errors
    ///
    /// [`Refusal::BadPayload`] for a name that is empty, over 255 bytes or has a zero byte; [`Refusal::Repeated`] for one that is in the list;
    /// [`Refusal::ListFull`] where 512 are in it, or where all lengths together are more than the list has room for.
    ///
    /// ```
    /// use lunozhar::{Names, Refusal};
    ///
    /// let mut names = Names::new(100);
    /// names.add(b"lake.jpg")?;
    /// names.add(b"Lake.jpg")?;
    /// assert_eq!(names.add(b"lake.jpg"), Err(Refusal::Repeated));
    /// assert_eq!(names.add(b""), Err(Refusal::BadPayload));
    /// # Ok::<(), Refusal>(())
    /// ```
    pub fn add(&mut self, name: &[u8]) -> Result<(), Refusal> {
        checked(boundary::name_add(&mut self.area, name))
    }

    /// Removes a name: the place of each behind it becomes one less.
    ///
    /// # Errors
    ///
    /// [`Refusal::BadPayload`] for a name that is empty, over 255 bytes or has a zero byte; [`Refusal::NotFound`] for one that is not in the
    /// list.
    ///
    /// ```
    /// use lunozhar::{Names, Refusal};
    ///
    /// let mut names = Names::new(100);
    /// for name in ["lake.jpg", "boat.jpg", "hill.jpg"] {
    ///     names.add(name.as_bytes())?;
    /// }
    /// names.remove(b"lake.jpg")?;
    /// assert!(names.iter().eq([b"boat.jpg", b"hill.jpg"]));
    /// assert_eq!(names.remove(b"lake.jpg"), Err(Refusal::NotFound));
    /// # Ok::<(), Refusal>(())
    /// ```
    pub fn remove(&mut self, name: &[u8]) -> Result<(), Refusal> {
        checked(boundary::name_remove(&mut self.area, name))
    }

    /// The place of a name in the list, from 0.
    ///
    /// # Errors
    ///
    /// As for [`remove`](Names::remove).
    ///
    /// ```
    /// use lunozhar::{Names, Refusal};
    ///
    /// let mut names = Names::new(100);
    /// names.add(b"lake.jpg")?;
    /// names.add(b"boat.jpg")?;
    /// assert_eq!(names.find(b"boat.jpg"), Ok(1));
    /// assert_eq!(names.find(b"Boat.jpg"), Err(Refusal::NotFound));
    /// # Ok::<(), Refusal>(())
    /// ```
    pub fn find(&self, name: &[u8]) -> Result<usize, Refusal> {
        let found = boundary::name_find(&self.area, name);
        checked(found.answer).map(|()| found.place)
    }

    /// The station's own table: 1 where a [`keyword`](crate::keyword) of some name falls, Infinity elsewhere. It is what
    /// [`table::write`](crate::table::write) takes. The table that also has what the neighbours tell of is made by
    /// [`Station::table_for`](crate::Station::table_for).
    ///
    /// # Errors
    ///
    /// [`Refusal::BadUpdate`] for a length that is no power of two from 4 to 65,536, or an Infinity outside 2 to 127.
    ///
    /// ```
    /// use lunozhar::{keyword, Names, Refusal};
    ///
    /// let mut names = Names::new(100);
    /// names.add(b"LX-04417.jpg")?;
    /// let entries = names.table(1024, 8)?;
    /// for word in ["lx", "04417", "JPG"] {
    ///     assert_eq!(entries[keyword::place(word.as_bytes(), 10) as usize], 1);
    /// }
    /// assert_eq!(entries.iter().filter(|&&entry| entry == 8).count(), 1021);
    /// assert_eq!(names.table(1000, 8), Err(Refusal::BadUpdate));
    /// # Ok::<(), Refusal>(())
    /// ```
    pub fn table(&self, length: u32, infinity: u8) -> Result<Vec<u8>, Refusal> {
        // No longer than a table can be: a greater length is refused before the output is looked at.
        let mut entries = vec![0; LONGEST.min(length as usize)];
        checked(boundary::name_table(&self.area, length, infinity, &mut entries))?;
        Ok(entries)
    }

    /// The names, in the order of their places.
    ///
    /// ```
    /// let mut names = lunozhar::Names::new(100);
    /// names.add(b"lake.jpg")?;
    /// names.add(b"boat.jpg")?;
    /// for (place, name) in names.iter().enumerate() {
    ///     println!("{place}: {}", String::from_utf8_lossy(name));
    /// }
    /// assert!(names.iter().eq([b"lake.jpg", b"boat.jpg"]));
    /// # Ok::<(), lunozhar::Refusal>(())
    /// ```
    pub fn iter(&self) -> impl DoubleEndedIterator<Item = &[u8]> + ExactSizeIterator + '_ {
        (0..self.len()).map(|place| {
            let (offset, length) = (self.number(4 + 8 * place), self.number(8 + 8 * place));
            &self.area[offset..][..length]
        })
    }

    /// How many names there are.
    ///
    /// ```
    /// let mut names = lunozhar::Names::new(100);
    /// names.add(b"lake.jpg")?;
    /// assert_eq!(names.len(), 1);
    /// # Ok::<(), lunozhar::Refusal>(())
    /// ```
    pub fn len(&self) -> usize {
        self.number(0)
    }

    /// Whether there is no name.
    ///
    /// ```
    /// assert!(lunozhar::Names::new(100).is_empty());
    /// ```
    pub fn is_empty(&self) -> bool {
        self.len() == 0
    }

    /// The area that the list stands in: for [`from_bytes`](Names::from_bytes), or for a call of [`raw`].
    ///
    /// ```
    /// assert_eq!(lunozhar::Names::new(100).as_bytes(), [0; 4_200]);
    /// ```
    pub fn as_bytes(&self) -> &[u8] {
        &self.area
    }

    /// The same, without a copy.
    ///
    /// ```
    /// assert_eq!(lunozhar::Names::new(100).into_bytes().len(), 4_200);
    /// ```
    pub fn into_bytes(self) -> Vec<u8> {
        self.area.into_vec()
    }

    /// The number of 4 bytes from there on.
    fn number(&self, at: usize) -> usize {
        let area = &self.area;
        u32::from_le_bytes([area[at], area[at + 1], area[at + 2], area[at + 3]]) as usize
    }
}

/// The names, with whatever is no UTF-8 replaced.
impl fmt::Debug for Names {
    fn fmt(&self, f: &mut fmt::Formatter<'_>) -> fmt::Result {
        f.debug_list().entries(self.iter().map(String::from_utf8_lossy)).finish()
    }
}
