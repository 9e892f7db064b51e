//! A hit written: the names of a list that have every keyword of a query.

use super::matching::Wanted;
use super::{HEAD, MARK};
use crate::header::{self, HIT, QUERY};
use crate::names;
use crate::station::{asked, framed, HIT_BYTES, OUTPUT};

/// The most results of a hit.
pub const RESULTS: usize = 255;
/// Bytes of a result besides its name: index, size and two zero bytes.
const BESIDES: usize = 10;
/// Where the results begin in a message, and the most bytes of all of them.
const FROM: usize = header::BYTES + HEAD;
const ROOM: usize = header::PAYLOAD - HIT_BYTES;

/// What a hit says of the station that sends it.
#[derive(Clone, Copy, Debug, Default, PartialEq, Eq)]
pub struct Sender {
    pub port: u16,
    pub address: [u8; 4],
    pub speed: u32,
    pub mark: [u8; MARK],
}

/// What was written.
#[derive(Clone, Copy, Debug, Default, PartialEq, Eq)]
pub struct Written {
    pub answer: u8,
    pub results: u8,
    /// Bytes of the message, from the output's first.
    pub written: usize,
}

/// Writes the hit for a query, a message's bytes: the names that have all its keywords, in the list's order, until one
/// does not fit, at most 255. The number at a name's place of `sizes` is its size.
///
/// Gives 0; or 2 or 1 of the list; 2 for fewer sizes than names or a short output; the query's own 4, 5, 4, 7, 6 or 8,
/// 7 for every other type; or 10 if no name matches.
pub fn write(query: &[u8], names: &[u8], sizes: &[u32], from: &Sender, out: &mut [u8]) -> Written {
    match written(query, names, sizes, from, out) {
        Ok(written) => written,
        Err(answer) => Written { answer, results: 0, written: 0 },
    }
}

fn written(query: &[u8], names: &[u8], sizes: &[u32], from: &Sender, out: &mut [u8]) -> Result<Written, u8> {
    let names = names::in_order(names)?;
    if sizes.len() < names.len() || out.len() < OUTPUT {
        return Err(2);
    }
    let (header, payload) = framed(query)?;
    if header.kind != QUERY {
        return Err(7);
    }
    let wanted = Wanted::read(asked(&header, payload)?).ok_or(10)?;
    let (mut results, mut used) = (0, 0);
    let room = &mut out[FROM..FROM + ROOM];
    for (index, (name, size)) in names.zip(sizes).enumerate() {
        if !wanted.all_in(name) {
            continue;
        }
        let record = match room.get_mut(used..used + BESIDES + name.len()) {
            Some(record) if results < RESULTS => record,
            _ => break,
        };
        record[..4].copy_from_slice(&(index as u32).to_le_bytes());
        record[4..8].copy_from_slice(&size.to_le_bytes());
        record[8..8 + name.len()].copy_from_slice(name);
        record[8 + name.len()..].fill(0);
        used += record.len();
        results += 1;
    }
    if results == 0 {
        return Err(10);
    }
    header::write(out, &header.number, HIT, header.hops + 1, 0, HIT_BYTES + used);
    let head = &mut out[header::BYTES..FROM];
    head[0] = results as u8;
    head[1..3].copy_from_slice(&from.port.to_le_bytes());
    head[3..7].copy_from_slice(&from.address);
    head[7..].copy_from_slice(&from.speed.to_le_bytes());
    out[FROM + used..][..MARK].copy_from_slice(&from.mark);
    Ok(Written { answer: 0, results: results as u8, written: FROM + used + MARK })
}
