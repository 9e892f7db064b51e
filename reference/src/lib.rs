//! An independent second implementation of the station core.
//!
//! It is written from the project's statement of the core (document 01) and its sources: document 002 for messages,
//! 001 for route tables and their hash, 004 for the stored pongs. It is there to be compared with the proved crates of
//! `crates/`: both print the table of `docs/VECTORS.md` and the text of a session file, and both are called with the
//! same random lists of calls (`differential/`); all must be equal. It also is the bar that the proved crates are
//! timed against, so it allocates nothing while a whole message is handled.
//!
//! It shares neither code nor definitions nor tests with those crates, so that a fault in one of the two shows. Where there is more than one way
//! it goes another than they do:
//!
//! - A number that is remembered twice: every call files the kept places in an index, a table of chains on the stack, and holds a number against
//!   those of its own chain only; a message's number is looked up in its chain too. There a filter of words is filled in passing, and the ring is
//!   gone through where it does not decide.
//! - The age of a query: reckoned from the place where its chain has it, back from the ring's next place. There the ring
//!   is gone through from the newest on, and those that are passed are counted.
//! - Askers: those that are known are counted. There each is held against every closed line.
//! - Hits of a query: the kept places whose count is at most 200 are counted, and must be all of them; a hit finds its
//!   place in its chain, and raises the count there. There each count is held to 200, and the place is reckoned from the
//!   age.
//! - PATCH: added at once, with a note of the least and the greatest sum, and undone if one is outside. There every number is tried, in blocks at
//!   4 bits, before any is added.
//! - Bytes as they come: those that are held and those that are brought now are joined in a vector, the message at its
//!   front is read, and what is to stay is put back into the held area whole. There nothing is joined: the header is
//!   read from where its bytes stand, and what is brought is copied behind what is held.
//! - Hash: each chunk of four bytes is put into lower case by itself, letters told by sums that do not carry, and then
//!   joined. There chunks are joined as they are, and beside them what marks their capitals, told by differences that do
//!   not borrow; both are put together once, after the loop.
//! - Keywords: byte by byte, each asked whether it is a letter or a digit of ASCII. There it is held to three ranges, and
//!   what goes on behind the first 32 bytes of a text is taken in blocks of sixteen.
//! - A handshake field: one pass over the group. There it takes three: for its end, over its lines, and up to the last
//!   byte of the value.
//! - Own names: names stand in one table of slots, each at its own slot or the next that was free; where offsets do not
//!   rise the pairs are sorted; gaps are closed by writing all texts anew from a vector, in the list's order. There names
//!   of one bucket are chained, every pair is held to every other, and texts are moved down in place, the lowest first.
//!   A zero byte is met where a name's bytes are mixed. There one pass over the text looks for zeros.
//! - A table that is passed on: tables of one length are joined, and the joined list goes from length to length as a
//!   whole, halved on its way down from the longest table and doubled on its way up from the shortest, a quarter of all
//!   hashes at a time. There each table is merged into the entries by itself, or two of the entries' own length at once:
//!   of a longer one the blocks, of a shorter one each entry into its block.
//! - Results of a hit: the two zero bytes that end one are looked for eight bytes at a time, into the mark if need be,
//!   where no result ends. There they are looked for byte by byte, in the part before the mark.
//! - Names that match a query: its different keywords are filed by their first eight bytes, unless they are more than
//!   a name can hold; the longest is searched for in a name without cutting it, and only a name that has it is cut,
//!   each of its keywords looked up and noted by a bit. There the keywords are kept in their order, however many, and a
//!   name's are found among them by bisection; what spares most names the cutting is a pass over the name that holds
//!   three bytes at their distances to those of the longest keyword, sixteen places at once. That a name without the
//!   longest keyword need not be cut is common to both.
//!
//! Both go the same way, the plain one, in this: the kept places of a ring are taken as two straight stretches; a
//! query's keywords are cut and hashed once for all lines, four bytes at a time, with letters told by the highest bit of
//! their bytes (`differential/` holds both to the appendix's way, byte by byte); a place is the top bits of the hash,
//! moved down; a list's names are told apart by mixing words of eight bytes, the last of which may overlap, and by some
//! more bits of the mix before their bytes are compared; a table's state has the same seven fields; every update is
//! tested in the order 14, 15, 16; and of a table that is passed on, an entry is held to its own table's Infinity only
//! where that could lower anything, which it cannot from the usual life on.
//!
//! No promise of this crate is proved. It has unit tests for document 01's own examples and for errors that are easily made.
//!
//! - [`hash`]: a keyword's place in a route table.
//! - [`keywords`]: the keywords of a query's text or of a name.
//! - [`table`]: route tables, RESET and PATCH, withholding.
//! - [`writer`]: the updates from one table to the next.
//! - [`handshake`]: the groups that are exchanged before the first message.
//! - [`header`]: the message header.
//! - [`station`]: the state of a station and the calls on it.
//! - [`names`]: the station's own file names and their table.
//! - [`hits`]: the results of a hit read, and the hit for a query written from the own names.
//! - [`tally`]: counts of the answers given.
//! - [`session`]: the text of a session file.
//!
//! Answers are document 01's numbers, 0 to 18, 19 for a line that is shut (document 02, R-1), 20 for a list of names
//! that is full, and 21 for a hit whose query has had 200. A call that looks a query's number up and finds
//! it hands its age up: how many were remembered after it. One that makes a table to be passed on hands its
//! Infinity up.

#![forbid(unsafe_code)]

pub mod handshake;
pub mod hash;
pub mod header;
pub mod hits;
pub mod keywords;
pub mod names;
pub mod session;
pub mod station;
pub mod table;
pub mod tally;
pub mod writer;
