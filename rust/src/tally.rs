//! How many messages had each answer.

use crate::{boundary, raw, Refusal};
use std::fmt;

/// How many messages had each answer: done, or one of the refusals. A count that is full, at 4,294,967,295, stays.
///
/// ```
/// use lunozhar::{Own, Refusal, Station};
///
/// let mut station = Station::new(1024)?;
/// let own = Own::new("192.0.2.1:6346".parse().unwrap());
/// station.open(0)?;
/// let ping = [0, 0, 0, 0, 0, 0, 0, 0, 0, 0, 0, 0, 0, 0, 0, 0, 0x00, 7, 0, 0, 0, 0, 0];
/// for clock in [0, 999, 1_000] {
///     let _ = station.message(0, clock, &own, &ping);
/// }
/// assert_eq!(station.tally().done(), 2);
/// assert_eq!(station.tally().refused(Refusal::PingTooSoon), 1);
/// assert_eq!(station.tally().messages(), 3);
/// assert_eq!(station.tally().to_string(), "2 done\n1 refused with 13: ping too soon after the last one\n");
/// # Ok::<(), Refusal>(())
/// ```
#[derive(Clone, Copy, Debug, Default, PartialEq, Eq)]
pub struct Tally(raw::Tally);

impl Tally {
    pub(crate) fn count(&mut self, answer: u8) {
        boundary::count(&mut self.0, answer);
    }

    /// How many messages were done, that is, not refused.
    pub fn done(&self) -> u32 {
        self.0.counts[0]
    }

    /// How many messages were refused so.
    pub fn refused(&self, refusal: Refusal) -> u32 {
        self.0.counts[usize::from(refusal.number())]
    }

    /// How many messages there were, as long as no count is full.
    pub fn messages(&self) -> u64 {
        self.0.counts.iter().copied().map(u64::from).sum()
    }
}

/// A line for each answer that was given.
impl fmt::Display for Tally {
    fn fmt(&self, f: &mut fmt::Formatter<'_>) -> fmt::Result {
        if self.done() > 0 {
            writeln!(f, "{} done", self.done())?;
        }
        for refusal in Refusal::ALL {
            if self.refused(refusal) > 0 {
                writeln!(f, "{} {refusal}", self.refused(refusal))?;
            }
        }
        Ok(())
    }
}
