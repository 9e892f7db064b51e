//! Bytes as a line brings them.

use super::{Outcome, Own, Station};
use crate::boundary::{self, Areas};
use crate::raw;
use crate::refusal::checked_told;
use crate::{Refusal, Refused};

/// What bytes of a line came to.
#[derive(Clone, Copy, Debug, PartialEq, Eq)]
pub enum Fed<'a> {
    /// The message is not whole yet. All bytes were used, and the station keeps them until the line brings the rest.
    Waiting,
    /// A message is whole, and was taken. What [`Outcome::used`] leaves of the bytes is for the next call.
    Message(Outcome<'a, 'a>),
}

impl Station {
    /// Takes bytes as a line brings them, in scraps of any size: at most to the end of one message. What was brought
    /// of a message before is held by the station; the clock that counts is that of the call with its last byte.
    ///
    /// The text of a query or the payload of a hit stands in the bytes of this call, or, where a part of its message
    /// came before, in the station. A call that only waits is not counted by the [`tally`](Station::tally).
    /// [`feed_all`](Station::feed_all) takes all that a line has brought, message by message.
    ///
    /// # Errors
    ///
    /// A [`Refused`] with 3, with any of the numbers 5 to 16, with 19 or with 21; never [`Refusal::NotWhole`]. With 5 to
    /// 16 and 21 what was held of the message is dropped, and behind its `used` bytes begins the next. After
    /// [`Refusal::TooLong`] there is no telling where the next one begins: the line is shut, and each further call for it
    /// is refused with [`Refusal::Shut`] until it is closed and opened. [`Refusal::BadLine`] and [`Refusal::Shut`] use no
    /// byte.
    ///
    /// ```
    /// use lunozhar::{Fed, Local, Own, Station};
    ///
    /// let mut asker = Station::new(1024)?;
    /// asker.open(0)?;
    /// let query = asker.ask([7; 16], b"lake")?.bytes;
    ///
    /// let mut station = Station::new(1024)?;
    /// station.open(2)?;
    /// let own = Own::new("192.0.2.1:6346".parse().unwrap());
    /// assert_eq!(station.feed(2, 1_000, &own, &query[..11])?, Fed::Waiting);
    /// assert_eq!(station.feed(2, 1_020, &own, &query[11..28])?, Fed::Waiting);
    /// match station.feed(2, 1_040, &own, &query[28..])? {
    ///     Fed::Message(outcome) => {
    ///         assert_eq!(outcome.used, query.len() - 28);
    ///         assert_eq!(outcome.local, Local::Query(b"lake"));
    ///     }
    ///     Fed::Waiting => unreachable!("the query is whole"),
    /// }
    /// # Ok::<(), lunozhar::Refusal>(())
    /// ```
    pub fn feed<'a>(&'a mut self, line: u32, clock: u32, own: &Own, bytes: &'a [u8]) -> Result<Fed<'a>, Refused> {
        let at = line as usize % raw::LINES;
        let before = usize::from(self.state.lines[at].pending.count);
        let raw::Fed { told, within, waits } = self.fed(line, clock, own.raw(), bytes);
        if waits {
            return Ok(Fed::Waiting);
        }
        self.tally.count(told.answer);
        checked_told(&told)?;
        let message = if within { &self.held[at * raw::HELD..][..before + told.used] } else { &bytes[..told.used] };
        Ok(Fed::Message(Outcome::new(&self.output, &told, message)))
    }

    /// The call with the station's own areas.
    fn fed(&mut self, line: u32, clock: u32, own: raw::Own, bytes: &[u8]) -> raw::Fed {
        let held = &mut self.held[line as usize % raw::LINES * raw::HELD..][..raw::HELD];
        let areas = Areas { held, out: &mut self.output, route: &mut self.route };
        boundary::feed(&mut self.state, line, clock, own, bytes, areas)
    }

    /// Whether what is held of a line starts a message, as a call without bytes tells, which changes nothing. Of a line
    /// that is closed or shut it does not count.
    pub(super) fn starts(&mut self, line: usize) -> bool {
        let nobody = raw::Own { port: 0, address: [0; 4], files: 0, kilobytes: 0, calls: false };
        self.fed(line as u32, 0, nobody, b"").told.answer != Refusal::NotInOrder.number()
    }

    /// Takes all that a line has brought: hands the bytes to [`feed`](Station::feed) until they are used up, and what
    /// each whole message came to, done or refused, to `each`. A message that is not whole at their end is held.
    ///
    /// # Errors
    ///
    /// What ends it, with `used` for all bytes up to there: [`Refusal::TooLong`] or [`Refusal::Shut`], after which the
    /// line is to be closed, or [`Refusal::BadLine`]. Without bytes nothing is asked, and nothing refused.
    ///
    /// ```
    /// use lunozhar::{Local, Own, Refusal, Station};
    ///
    /// /// Hands the station what a line has brought. False: the line is to be closed.
    /// fn arrive(station: &mut Station, line: u32, clock: u32, own: &Own, bytes: &[u8]) -> bool {
    ///     let whole = station.feed_all(line, clock, own, bytes, |message| match message {
    ///         Ok(outcome) => {
    ///             for line in outcome.sent.lines() { /* send outcome.sent.bytes by that line */ }
    ///             match outcome.local {
    ///                 Local::Query(text) => { /* search, and send hits by this line */ }
    ///                 Local::Hit(payload) => { /* show the results */ }
    ///                 Local::Nothing => {}
    ///             }
    ///         }
    ///         Err(refused) => { /* this message was refused, and the next is the next */ }
    ///     });
    ///     whole.is_ok()
    /// }
    ///
    /// let mut asker = Station::new(1024)?;
    /// asker.open(0)?;
    /// let query = asker.ask([7; 16], b"lake")?.bytes;
    ///
    /// let mut station = Station::new(1024)?;
    /// station.open(0)?;
    /// let own = Own::new("192.0.2.1:6346".parse().unwrap());
    /// for scrap in [query, query, &query[..20]].concat().chunks(7) {
    ///     assert!(arrive(&mut station, 0, 1_000, &own, scrap));
    /// }
    /// assert_eq!(station.tally().done(), 1);
    /// assert_eq!(station.tally().refused(Refusal::Repeated), 1);
    /// assert_eq!(station.state().lines[0].pending.count, 20);
    /// # Ok::<(), Refusal>(())
    /// ```
    pub fn feed_all(
        &mut self,
        line: u32,
        clock: u32,
        own: &Own,
        bytes: &[u8],
        mut each: impl FnMut(Result<Outcome<'_, '_>, Refused>),
    ) -> Result<(), Refused> {
        let mut used = 0;
        while used < bytes.len() {
            let refused = match self.feed(line, clock, own, &bytes[used..]) {
                Ok(Fed::Waiting) => break,
                Ok(Fed::Message(outcome)) => {
                    used += outcome.used;
                    each(Ok(outcome));
                    continue;
                }
                Err(refused) => refused,
            };
            used += refused.used;
            if refused.used == 0 || refused.refusal == Refusal::TooLong {
                return Err(Refused { used, ..refused });
            }
            each(Err(refused));
        }
        Ok(())
    }
}
