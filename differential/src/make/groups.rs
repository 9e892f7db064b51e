//! Random handshake groups: well-formed, then damaged.

use crate::call::Call;
use crate::field::Area;
use crate::random::Random;
use lunozhar::raw::Pair;
use lunozhar_reference::handshake;

/// Among them names that only a letter's case makes unlike, and names that it does not: `[` and `{`, and letters that are no ASCII.
const NAMES: [&[u8]; 12] =
    [b"X-Try", b"x-try", b"X-TRY", b"A", b"a", b"User-Agent", b"Pong-Caching", b"\xC4b", b"\xE4b", b"[b", b"{b", b"B"];

/// One of the handshake's calls.
pub fn call(random: &mut Random) -> Call {
    match random.below(12) {
        0 | 1 => Call::ReadGroup { bytes: group(random) },
        2..=5 => read_field(random),
        6..=8 => Call::ReadHosts { bytes: group(random) },
        9 => Call::WriteGreeting { out: around(random, 24) },
        10 => Call::WriteOk { out: around(random, 23) },
        _ => write_busy(random),
    }
}

/// An area about as long as what is needed.
fn around(random: &mut Random, need: usize) -> Area {
    let length = random.pick(&[need, need, need + 1, need + 40, need.saturating_sub(1), 0]);
    Area { length, seed: random.number(), top: 0 }
}

fn read_field(random: &mut Random) -> Call {
    let bytes = group(random);
    let name = match random.below(12) {
        0 => Vec::new(),
        1 => b"A:".to_vec(),
        2 => b"absent".to_vec(),
        3..=5 => random.pick(&NAMES).to_vec(),
        _ => {
            let any = random.below(NAMES.len());
            let there = |name: &&&[u8]| handshake::field(&bytes, name, &mut [0; 4096]).answer == 0;
            NAMES[any..].iter().chain(&NAMES[..any]).find(there).unwrap_or(&NAMES[any]).to_vec()
        }
    };
    let need = handshake::field(&bytes, &name, &mut [0; 4096]).written;
    Call::ReadField { bytes, name, value: around(random, need) }
}

fn write_busy(random: &mut Random) -> Call {
    let count = random.pick(&[0, 1, 2, 5, 31, 32, 33, 34, usize::MAX]);
    let mut pairs = Vec::new();
    for _ in 0..random.pick(&[count.min(32), 32]) {
        let address = (random.number() as u32).to_le_bytes();
        let port = random.number() as u16;
        let port = if random.one_in(60) { 0 } else { random.pick(&[1, 9, 10, 80, 65_535, port]) };
        pairs.push(Pair { address, port });
    }
    let written: Vec<_> = pairs.iter().take(count).map(crate::convert::pair_from_raw).collect();
    let need = handshake::write_busy(&written, &mut [0; 1024]).written;
    Call::WriteBusy { count, pairs, out: around(random, need) }
}

fn digits(random: &mut Random, most: usize) -> Vec<u8> {
    (0..1 + random.below(most)).map(|_| random.pick(b"0012569")).collect()
}

fn first_line(random: &mut Random) -> Vec<u8> {
    let mut version = b"0.6".to_vec();
    if random.one_in(4) {
        let most = random.pick(&[1, 3, 4]);
        version = [digits(random, most), b".".to_vec(), digits(random, most)].concat();
    }
    if random.one_in(2) {
        return [b"GNUTELLA CONNECT/", &version[..]].concat();
    }
    let code = if random.one_in(5) { digits(random, 4) } else { random.pick(&[b"200", b"503"]).to_vec() };
    let text: &[u8] = random.pick(&[b"", b" ", b" OK", b" Busy now", b"x", b"\tOK"]);
    [b"GNUTELLA/", &version[..], b" ", &code, text].concat()
}

/// An address and a port, each octet below `octets` and the port below `ports`.
fn pair(random: &mut Random, octets: usize, ports: usize) -> Vec<u8> {
    let mut octet = || random.below(octets);
    let address = format!("{}.{}.{}.{}", octet(), octet(), octet(), octet());
    format!("{address}:{}", 1 + random.below(ports - 1)).into_bytes()
}

/// A pair that is not allowed, or nearly so.
fn odd_pair(random: &mut Random) -> Vec<u8> {
    let other: &[u8] = random.pick(&[
        b"1.2.3:4",
        b"1.2.3.4.5:6",
        b"1.2.3.4",
        b"1.2.3.4:",
        b".1.2.3:4",
        b"1.2.3.4:5x",
        b"1.2.3.4 :5",
        b"1.2.3.4:0",
        b"1.2.3.4:000",
    ]);
    match random.below(6) {
        0 | 5 => other.to_vec(),
        1 => pair(random, 300, 65_536),
        2 => pair(random, 256, 80_000),
        _ => {
            let mut zeros = pair(random, 256, 65_536);
            let starts: Vec<usize> = (0..zeros.len()).filter(|&at| at == 0 || !zeros[at - 1].is_ascii_digit()).collect();
            let at = random.pick(&starts);
            let digits = zeros[at..].iter().take_while(|digit| digit.is_ascii_digit()).count();
            let most = if Some(&at) == starts.last() { 5 } else { 3 };
            zeros.splice(at..at, vec![b'0'; most - digits + random.below(2)]);
            zeros
        }
    }
}

fn value(random: &mut Random, pairs: bool) -> Vec<u8> {
    if !pairs {
        let text: &[u8] = random.pick(&[b"", b"x", b"a, b", b"BearShare/1.0 ", b"\xFF:\x00\t"]);
        return text.to_vec();
    }
    let mut value = Vec::new();
    let count = random.pick(&[0, 1, 2, 3, 31, 32, 33, 40]);
    let odd = random.below(5 * count + 1);
    for item in 0..count {
        if item > 0 {
            let comma: &[u8] = random.pick(&[b",", b",", b",", b", "]);
            value.extend(comma);
            if random.one_in(200) {
                let odd: &[u8] = random.pick(&[b",", b", ", b"\t", b" "]);
                value.extend(odd);
            }
        }
        value.extend(if item == odd { odd_pair(random) } else { pair(random, 256, 65_536) });
    }
    value
}

/// A name, blanks and a value; sometimes with a line that goes on.
fn field(random: &mut Random, bytes: &mut Vec<u8>) {
    let odd: &[u8] = random.pick(&[b"", b"A b", b"A\tb"]);
    let name = if random.one_in(60) { odd } else { random.pick(&NAMES) };
    let pairs = name.eq_ignore_ascii_case(b"X-Try");
    let blanks: &[u8] = random.pick(&[b"", b" ", b" ", b"\t ", b"   ", b"\x0B"]);
    bytes.extend([name, b":", blanks, &value(random, pairs)].concat());
    if random.one_in(5) {
        let more: &[u8] = random.pick(&[b"\r\n ", b"\r\n\t \t", b",\r\n "]);
        bytes.extend(more);
        bytes.extend(value(random, pairs));
    }
    bytes.extend(b"\r\n");
}

pub fn group(random: &mut Random) -> Vec<u8> {
    let mut bytes = if random.one_in(60) { Vec::new() } else { first_line(random) };
    bytes.extend(b"\r\n");
    if random.one_in(20) {
        bytes.extend(b" goes on\r\n");
    }
    for _ in 0..random.below(6) {
        field(random, &mut bytes);
    }
    if random.one_in(5) && bytes.len() < 4_000 {
        // The group's end stands around its 4,096th byte.
        let end = random.pick(&[4_095, 4_096, 4_097, 4_098, 5_000, 5_000]);
        bytes.extend(b"Long: ");
        bytes.resize(end - 4, b'x');
        bytes.extend(b"\r\n");
    }
    bytes.extend(b"\r\n");
    if random.one_in(4) {
        let more = random.pick(&[1, 2, 20, 100, 4_100]);
        bytes.extend(random.bytes(more));
    }
    if random.one_in(8) {
        bytes.truncate(random.pick(&[4_095, 4_096, 4_097]));
    }
    if random.one_in(3) {
        for _ in 0..1 + random.below(3) {
            damage(random, &mut bytes);
        }
    }
    bytes
}

fn damage(random: &mut Random, bytes: &mut Vec<u8>) {
    if bytes.is_empty() {
        return;
    }
    let at = random.below(bytes.len());
    let end = random.pick(b"\r\n");
    let ends: Vec<usize> = (0..bytes.len().min(4_200)).filter(|&at| bytes[at] == end).collect();
    match random.below(8) {
        0 => bytes[at] ^= 1 << random.below(8),
        1 => bytes[at] = random.pick(b"\r\n: \t,.0Gg"),
        2 => drop(bytes.remove(at)),
        3 => bytes.insert(at, bytes[at]),
        4 => bytes.truncate(at),
        5 => bytes.insert(at, end),
        _ if ends.is_empty() => {}
        6 => drop(bytes.remove(random.pick(&ends))),
        _ => bytes.truncate(random.pick(&ends)),
    }
}
