//! Remembered queries, looked up by their numbers.

use super::Station;
use crate::boundary;
use crate::raw::{self, ASKER_GONE, ASKER_HERE};

/// Who asked a remembered query.
#[derive(Clone, Copy, Debug, PartialEq, Eq, Hash)]
pub enum Asker {
    /// The neighbour of this line, 0 to 7, which has not closed since.
    Line(u32),
    /// This station itself.
    Here,
    /// A neighbour whose line has closed since, even if it is open again.
    Gone,
}

/// A remembered query.
#[derive(Clone, Copy, Debug, PartialEq, Eq, Hash)]
pub struct Remembered {
    /// Who asked it.
    pub asker: Asker,
    /// How many queries were remembered after it: 0 for the newest, 511 at most.
    pub after: usize,
}

impl Station {
    /// Looks up a query by its number, among the last 512: who asked it, and how many were remembered after it. `None`
    /// where no query of this number is remembered.
    ///
    /// Messages and own queries tell the same age of the query that a hit answers or that a query repeats:
    /// [`Outcome::after`](crate::Outcome::after), [`Refused::after`](crate::Refused::after).
    ///
    /// ```
    /// use lunozhar::{Asker, Own, Remembered, Station};
    ///
    /// let mut neighbour = Station::new(1024)?;
    /// neighbour.open(0)?;
    /// let query = neighbour.ask([7; 16], b"lake")?.bytes;
    ///
    /// let mut station = Station::new(1024)?;
    /// station.open(3)?;
    /// let own = Own::new("192.0.2.1:6346".parse().unwrap());
    /// station.message(3, 1_000, &own, query)?;
    /// station.ask([8; 16], b"river")?;
    /// assert_eq!(station.look_up([7; 16]), Some(Remembered { asker: Asker::Line(3), after: 1 }));
    /// assert_eq!(station.look_up([8; 16]), Some(Remembered { asker: Asker::Here, after: 0 }));
    /// assert_eq!(station.look_up([9; 16]), None);
    ///
    /// station.close(3)?;
    /// assert_eq!(station.look_up([7; 16]), Some(Remembered { asker: Asker::Gone, after: 1 }));
    /// # Ok::<(), lunozhar::Refusal>(())
    /// ```
    pub fn look_up(&self, number: [u8; 16]) -> Option<Remembered> {
        let found = boundary::look_up(&self.state, raw::Number { bytes: number });
        // 10, or 1 of a state out of order, which a `Station` never has.
        (found.answer == 0).then(|| Remembered { asker: asker(found.asker), after: found.after })
    }
}

/// The asker that stands beside a kept number.
fn asker(number: u8) -> Asker {
    match number {
        ASKER_HERE => Asker::Here,
        ASKER_GONE => Asker::Gone,
        line => Asker::Line(line.into()),
    }
}
