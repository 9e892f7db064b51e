//! A call that brings bytes of a line as they come.
//!
//! What the line brought before and what it brings now are joined, in a vector where there is something of both, and
//! the message at the front of that is read and handled as any other. What is to stay for a later call is put back
//! into the line's held area.

use super::{framed, Handled, Index, OwnPong, State, LINES, QUIET};
use crate::header;
use std::borrow::Cow;

/// Bytes of held area that a call needs: the longest message.
pub const HELD: usize = header::BYTES + header::PAYLOAD;
/// What stands for the answer of a call that only waits for more bytes.
pub const WAITING: u8 = 255;
/// The answer to every call of a line that is shut.
pub const SHUT: u8 = 19;

/// What a call with bytes did.
#[derive(Clone, Copy, Debug, Default, PartialEq, Eq)]
pub struct Fed {
    /// The answer, or [`WAITING`]. `used` counts the bytes of this call only.
    pub handled: Handled,
    /// Whether the message that was handled stands at the front of the held area, else at the front of the bytes.
    pub within: bool,
    /// Whether the message is not whole yet.
    pub waits: bool,
}

impl Fed {
    /// Nothing sent, so many bytes used.
    fn quiet(answer: u8, used: usize) -> Fed {
        Fed { handled: Handled { answer, used, ..QUIET }, within: false, waits: answer == WAITING }
    }
}

/// The bytes that were brought before with those that are brought now, as far as one message can reach.
fn join<'a>(before: &[u8], now: &'a [u8]) -> Cow<'a, [u8]> {
    let now = &now[..now.len().min(HELD)];
    if before.is_empty() {
        Cow::Borrowed(now)
    } else {
        Cow::Owned([before, now].concat())
    }
}

impl State {
    /// Handles bytes that arrived on a line, at most to the end of one message. `held` is the line's held area.
    #[allow(clippy::too_many_arguments)]
    pub fn feed(&mut self, line: usize, clock: u32, own: &OwnPong, bytes: &[u8], held: &mut [u8], out: &mut [u8], route: &mut [u8]) -> Fed {
        let mut index = Index::new();
        let refusal = self.feed_refusal(line, held, out, route, &mut index);
        if refusal != 0 {
            return Fed::quiet(refusal, 0);
        }
        let before = usize::from(self.lines[line].held);
        let joined = join(&held[..before], bytes);
        let (header, payload) = match framed(&joined) {
            Ok(message) => message,
            Err(4) => {
                held[..joined.len()].copy_from_slice(&joined);
                self.lines[line].held = joined.len() as u16;
                return Fed::quiet(WAITING, bytes.len());
            }
            Err(answer) => {
                (self.lines[line].held, self.lines[line].shut) = (0, true);
                return Fed::quiet(answer, header::BYTES - before);
            }
        };
        let length = header::BYTES + payload.len();
        if before > 0 {
            held[..length].copy_from_slice(&joined[..length]);
        }
        let handled = self.handled(&index, line, clock, own, &header, payload, out, route);
        self.lines[line].held = 0;
        Fed { handled: Handled { used: length - before, ..handled }, within: before > 0, waits: false }
    }

    /// The first reason to refuse a call whatever it brings: 1, 2, 3, 19 or 1, else 0.
    fn feed_refusal(&self, line: usize, held: &[u8], out: &[u8], route: &[u8], index: &mut Index) -> u8 {
        if !self.in_order_filed(index) {
            return 1;
        }
        if held.len() < HELD || !self.areas_fit(out, route) {
            return 2;
        }
        if line >= LINES || !self.lines[line].open {
            return 3;
        }
        if self.lines[line].shut {
            return SHUT;
        }
        let begun = &held[..held.len().min(self.lines[line].held.into())];
        match framed(begun) {
            Err(4) => 0,
            _ => 1,
        }
    }
}
