//! The calls that are compared.

use crate::field::{attempt, drop_runs, part, Area, Field};
use crate::listing::Listing;
use lunozhar::raw::{Own, Pair};

/// Bytes of a message's header; the last four are the payload's length.
pub const HEADER: usize = 23;

macro_rules! calls {
    ($($(#[$about:meta])* $name:ident $word:literal { $($field:ident: $kind:ty),* })*) => {
        /// A call with all that it brings but the state.
        #[derive(Clone, Debug, PartialEq, Eq)]
        pub enum Call {
            $($(#[$about])* $name { $($field: $kind),* },)*
        }

        impl Call {
            pub fn name(&self) -> &'static str {
                match self {
                    $(Call::$name { .. } => $word,)*
                }
            }

            /// The call's name and its fields as `name=value`.
            pub fn text(&self) -> String {
                match self {
                    $(Call::$name { $($field),* } => {
                        let fields: Vec<String> = vec![$(format!(" {}={}", stringify!($field), $field.text())),*];
                        $word.to_string() + &fields.concat()
                    })*
                }
            }

            /// The call of a line that [`Call::text`] wrote.
            pub fn read(line: &str) -> Option<Call> {
                let mut words = line.split(' ');
                let call = match words.next()? {
                    $($word => Call::$name { $($field: {
                        let (name, value) = words.next()?.split_once('=')?;
                        if name != stringify!($field) {
                            return None;
                        }
                        <$kind>::read(value)?
                    }),* },)*
                    _ => return None,
                };
                words.next().is_none().then_some(call)
            }

            /// Makes one field after the other simpler.
            fn simplify_fields(&mut self, still: &mut dyn FnMut(&Call) -> bool) {
                $($(if matches!(self, Call::$name { .. }) {
                    fn field(call: &mut Call) -> &mut $kind {
                        match call {
                            Call::$name { $field, .. } => $field,
                            _ => unreachable!("the call stays of its kind"),
                        }
                    }
                    part(self, field, Field::simplify, still);
                })*)*
            }
        }
    };
}

calls! {
    /// A fresh state; its route area is the case's own from then on.
    Fresh "fresh" { route: Area }
    Open "open" { line: u32 }
    Close "close" { line: u32 }
    Message "message" { line: u32, clock: u32, own: Own, bytes: Vec<u8>, out: Area, route: Option<Area> }
    /// Bytes as they come, with the line's held area of the case, or another in its place.
    Feed "feed" { line: u32, clock: u32, own: Own, bytes: Vec<u8>, held: Option<Area>, out: Area, route: Option<Area> }
    Ask "ask" { number: [u8; 16], text: Vec<u8>, out: Area, route: Option<Area> }
    LookUp "look-up" { number: [u8; 16] }
    /// With the case's area of names, or another in its place. It writes to the output alone; the reference can do no other, so that anything
    /// else which the library wrote would show.
    TableFor "table-for" { line: u32, names: Option<Listing>, length: u32, out: Area, route: Option<Area> }
    InOrder "in-order" {}
    Count "count" { answer: u8 }
    /// The old table is lent also where `had` is false.
    WriteTable "write-table" {
        number: [u8; 16], had: bool, old: Vec<u8>, oldinfinity: u8, new: Vec<u8>, infinity: u8, size: usize, out: Area
    }
    /// On a station of its own: the table `old` written from none and read, and if `both`, the table `new` written from that and read.
    RoundTrip "round-trip" { line: u32, old: Vec<u8>, both: bool, new: Vec<u8>, infinity: u8, size: usize, route: Area }
    ReadGroup "read-group" { bytes: Vec<u8> }
    ReadField "read-field" { bytes: Vec<u8>, name: Vec<u8>, value: Area }
    ReadHosts "read-hosts" { bytes: Vec<u8> }
    WriteGreeting "write-greeting" { out: Area }
    WriteOk "write-ok" { out: Area }
    /// At most 32 pairs, of which the first `count` are to be written.
    WriteBusy "write-busy" { count: usize, pairs: Vec<Pair>, out: Area }
    /// Another area of names, which is the case's own from then on.
    NameArea "name-area" { area: Listing }
    /// On the case's area of names. Where texts lie may differ then: each side goes on with its own bytes, or both with those of the side
    /// `with`, 1 or 2.
    NameAdd "name-add" { name: Vec<u8>, with: u8 }
    NameRemove "name-remove" { name: Vec<u8>, with: u8 }
    NameFind "name-find" { name: Vec<u8> }
    NameTable "name-table" { length: u32, infinity: u8, out: Area }
    Hash "hash" { keyword: Vec<u8> }
    Place "place" { keyword: Vec<u8>, bits: u32 }
}

impl Call {
    /// The kind of call, and of message, for counting.
    pub fn kind(&self) -> &'static str {
        let bytes = match self {
            Call::Message { bytes, .. } => bytes,
            Call::Feed { bytes, .. } if bytes.is_empty() => return "feed: no bytes",
            Call::Feed { bytes, .. } if bytes.len() < HEADER => return "feed: under 23 bytes",
            Call::Feed { .. } => return "feed: 23 bytes or more",
            other => return other.name(),
        };
        match (bytes.get(16), bytes.get(HEADER)) {
            _ if bytes.len() < HEADER => "message: under 23 bytes",
            (Some(0x00), _) => "message: ping",
            (Some(0x01), _) => "message: pong",
            (Some(0x80), _) => "message: query",
            (Some(0x81), _) => "message: hit",
            (Some(0x30), Some(0)) => "message: RESET",
            (Some(0x30), Some(1)) => "message: PATCH",
            (Some(0x30), _) => "message: other update",
            _ => "message: other type",
        }
    }

    /// The area that is lent for output.
    pub fn output(&self) -> Option<&Area> {
        match self {
            Call::Message { out, .. } | Call::Feed { out, .. } | Call::Ask { out, .. } => Some(out),
            Call::WriteTable { out, .. } | Call::WriteBusy { out, .. } | Call::NameTable { out, .. } => Some(out),
            Call::WriteGreeting { out } | Call::WriteOk { out } | Call::TableFor { out, .. } => Some(out),
            Call::ReadField { value, .. } => Some(value),
            _ => None,
        }
    }

    /// The route area that is lent in place of the case's own.
    pub fn other_route(&self) -> Option<&Area> {
        match self {
            Call::Message { route, .. } | Call::Feed { route, .. } | Call::Ask { route, .. } => route.as_ref(),
            Call::TableFor { route, .. } => route.as_ref(),
            _ => None,
        }
    }

    /// The area of names that is lent in place of the case's own.
    pub fn other_names(&self) -> Option<&Listing> {
        match self {
            Call::TableFor { names, .. } => names.as_ref(),
            _ => None,
        }
    }

    /// The held area that is lent in place of the line's own.
    pub fn other_held(&self) -> Option<&Area> {
        match self {
            Call::Feed { held, .. } => held.as_ref(),
            _ => None,
        }
    }

    /// The line whose held area is lent, counted modulo eight.
    pub fn held_line(&self) -> usize {
        match self {
            Call::Feed { line, .. } => *line as usize % 8,
            _ => 0,
        }
    }

    /// Whether the case's area of names is lent to the call.
    pub fn on_names(&self) -> bool {
        match self {
            Call::NameAdd { .. } | Call::NameRemove { .. } | Call::NameFind { .. } | Call::NameTable { .. } => true,
            Call::TableFor { names, .. } => names.is_none(),
            _ => false,
        }
    }

    /// The side whose area of names both go on with, 1 or 2.
    pub fn goes_on_with(&self) -> u8 {
        match self {
            Call::NameAdd { with, .. } | Call::NameRemove { with, .. } => *with,
            _ => 0,
        }
    }

    /// The clock, of a call that brings one.
    pub fn clock(&mut self) -> Option<&mut u32> {
        match self {
            Call::Message { clock, .. } | Call::Feed { clock, .. } => Some(clock),
            _ => None,
        }
    }

    /// Takes simpler calls one after the other, each if `still` holds of it.
    pub fn simplify(&mut self, still: &mut dyn FnMut(&Call) -> bool) {
        while self.halve_tables(still) {}
        self.shorten_message(still);
        self.simplify_fields(still);
    }

    /// Takes the first halves of both tables; says whether it did.
    fn halve_tables(&mut self, still: &mut dyn FnMut(&Call) -> bool) -> bool {
        let mut call = self.clone();
        if let Call::WriteTable { old, new, .. } | Call::RoundTrip { old, new, .. } = &mut call {
            old.truncate(old.len() / 2);
            new.truncate(new.len() / 2);
        }
        attempt(self, call, still)
    }

    /// Drops what is behind a message, then bytes of its payload, and sets its length to what is left; takes the shortest output area that is
    /// long enough.
    fn shorten_message(&mut self, still: &mut dyn FnMut(&Call) -> bool) {
        let given = match self {
            Call::Message { bytes, .. } | Call::Feed { bytes, .. } => reframed(bytes),
            _ => None,
        };
        let (head, mut payload) = match given {
            Some(parts) => parts,
            None => return,
        };
        let base = self.clone();
        let framed = |payload: &Vec<u8>| {
            let mut call = base.clone();
            if let Call::Message { bytes, out, .. } | Call::Feed { bytes, out, .. } = &mut call {
                *bytes = [&head[..19], &(payload.len() as u32).to_le_bytes(), payload].concat();
                *out = Area { length: 4119, seed: 0, top: 0 };
            }
            call
        };
        if still(&framed(&payload)) {
            drop_runs(&mut payload, &mut |payload| still(&framed(payload)));
            *self = framed(&payload);
        }
    }
}

/// The header at the front of some bytes, and its payload as far as it is there.
pub fn reframed(bytes: &[u8]) -> Option<(Vec<u8>, Vec<u8>)> {
    let head = bytes.get(..HEADER)?;
    let length = u32::from_le_bytes([head[19], head[20], head[21], head[22]]) as usize;
    Some((head.to_vec(), bytes[HEADER..].iter().copied().take(length).collect()))
}

#[cfg(test)]
mod tests {
    use super::*;

    #[test]
    fn a_line_is_read_again() {
        let call = Call::Place { keyword: vec![1, 255], bits: 13 };
        assert_eq!(call.text(), "place keyword=01ff bits=13");
        assert_eq!(Call::read(&call.text()), Some(call));
        assert_eq!(Call::read("in-order"), Some(Call::InOrder {}));
        for bad in ["", "in-order x=1", "place keyword=01", "place bits=13 keyword=01", "place keyword=01 bits=x", "nothing"] {
            assert_eq!(Call::read(bad), None, "{bad}");
        }
    }

    #[test]
    fn a_message_stays_whole_while_it_gets_shorter() {
        let payload = [vec![7; 300], vec![9], vec![7; 300]].concat();
        let bytes = [&[5; 16][..], &[0x80, 3, 1], &601u32.to_le_bytes(), &payload].concat();
        let own = Own { port: 9, address: [1; 4], files: 2, kilobytes: 3, calls: true };
        let area = Area { length: 5000, seed: 9, top: 0 };
        let mut call = Call::Message { line: 7, clock: 99, own, bytes, out: area, route: Some(area) };
        call.simplify(&mut |call| match call {
            Call::Message { bytes, .. } => {
                bytes.len() > 23 && bytes.len() == 23 + bytes[19] as usize + 256 * bytes[20] as usize && bytes[23..].contains(&9)
            }
            _ => false,
        });
        let shortest = [&[0; 19][..], &[1, 0, 0, 0, 9]].concat();
        let own = Own { port: 0, address: [0; 4], files: 0, kilobytes: 0, calls: false };
        let out = Area { length: 0, seed: 0, top: 0 };
        assert_eq!(call, Call::Message { line: 0, clock: 0, own, bytes: shortest, out, route: None });
    }
}
