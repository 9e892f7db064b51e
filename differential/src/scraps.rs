//! Scraps of a message, made simpler together: a scrap alone seldom can be, since its message would no longer be
//! whole.

use crate::call::{reframed, Call};
use crate::case::Case;
use crate::field::{attempt, drop_runs};

/// The line and the bytes of a call that brings bytes.
fn scrap(call: &Call) -> Option<(u32, &Vec<u8>)> {
    match call {
        Call::Feed { line, bytes, .. } => Some((*line, bytes)),
        _ => None,
    }
}

impl Case {
    /// Joins scraps of a line that follow each other, and shortens the message that two of them bring.
    pub fn simplify_scraps(&mut self, still: &mut dyn FnMut(&Case) -> bool) {
        let mut at = 0;
        while at < self.calls.len() {
            let joined = match self.next_scrap(at) {
                Some(next) => self.join(at, next, still) || self.shorten(at, next, still),
                None => false,
            };
            if !joined {
                at += 1;
            }
        }
    }

    /// The next scrap of the line that brings the one at this place.
    fn next_scrap(&self, at: usize) -> Option<usize> {
        let (line, _) = scrap(&self.calls[at])?;
        (at + 1..self.calls.len()).find(|&next| scrap(&self.calls[next]).map_or(false, |(other, _)| other == line))
    }

    /// The bytes of two scraps, and where the second begins.
    fn both(&self, at: usize, next: usize) -> (Vec<u8>, usize) {
        let bytes = |at: usize| scrap(&self.calls[at]).map_or(&[][..], |(_, bytes)| bytes);
        ([bytes(at), bytes(next)].concat(), bytes(at).len())
    }

    fn set_scrap(&mut self, at: usize, scrap: &[u8]) {
        if let Call::Feed { bytes, .. } = &mut self.calls[at] {
            *bytes = scrap.to_vec();
        }
    }

    /// Brings both scraps with the second call; says whether it did.
    fn join(&mut self, at: usize, next: usize, still: &mut dyn FnMut(&Case) -> bool) -> bool {
        let mut fewer = self.clone();
        fewer.set_scrap(next, &self.both(at, next).0);
        fewer.calls.remove(at);
        attempt(self, fewer, still)
    }

    /// Drops bytes of the payload, and what is behind it, with the cut where it was or one byte before the end. Says
    /// that nothing was joined.
    fn shorten(&mut self, at: usize, next: usize, still: &mut dyn FnMut(&Case) -> bool) -> bool {
        let (both, cut) = self.both(at, next);
        let (head, mut payload) = match reframed(&both) {
            Some(parts) => parts,
            None => return false,
        };
        let base = self.clone();
        let made = |payload: &Vec<u8>| {
            let whole = [&head[..19], &(payload.len() as u32).to_le_bytes(), payload].concat();
            let (first, second) = whole.split_at(cut.min(whole.len() - 1));
            let mut case = base.clone();
            case.set_scrap(at, first);
            case.set_scrap(next, second);
            case
        };
        if made(&payload) == *self || still(&made(&payload)) {
            drop_runs(&mut payload, &mut |payload| still(&made(payload)));
            *self = made(&payload);
        }
        false
    }
}

#[cfg(test)]
mod tests {
    use super::*;
    use crate::case::Start;
    use crate::field::Area;
    use lunozhar::raw::Own;

    fn feed(line: u32, bytes: &[u8]) -> Call {
        let own = Own { port: 0, address: [0; 4], files: 0, kilobytes: 0, calls: false };
        let out = Area { length: 4119, seed: 0, top: 0 };
        Call::Feed { line, clock: 0, own, bytes: bytes.to_vec(), held: None, out, route: None }
    }

    #[test]
    fn scraps_are_joined_and_their_message_gets_shorter() {
        let payload = [vec![7; 300], vec![9], vec![7; 300]].concat();
        let bytes = [&[5; 16][..], &[0x80, 3, 1], &601u32.to_le_bytes(), &payload].concat();
        let calls = vec![feed(2, &bytes[..9]), feed(2, &bytes[9..100]), feed(3, b"other"), feed(2, &bytes[100..])];
        let mut case = Case { start: Start::zero(Area { length: 32, seed: 0, top: 0 }), calls };
        let brought = |case: &Case| -> Vec<Vec<u8>> {
            let scraps = case.calls.iter().filter_map(scrap);
            scraps.filter(|(line, _)| *line == 2).map(|(_, bytes)| bytes.clone()).collect()
        };
        case.simplify_scraps(&mut |case| {
            let bytes = brought(case).concat();
            let length = bytes.get(19..23).map_or(0, |size| size[0] as usize + 256 * size[1] as usize);
            brought(case).len() > 1 && bytes.len() == 23 + length && bytes[23..].contains(&9)
        });
        let least = [&bytes[..19], &[1, 0, 0, 0, 9]].concat();
        assert_eq!(case.calls, [feed(2, &least[..23]), feed(3, b"other"), feed(2, &least[23..])][..]);
    }
}
