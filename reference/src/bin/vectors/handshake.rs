//! The rows of the handshake.

use crate::words::Line;
use crate::{hex, joined};
use lunozhar_reference::handshake::{field, read_group, try_pairs, write_busy, write_greeting, write_ok, Kind, Pair};

pub fn group(line: &Line) -> String {
    let label = line.shown(1);
    match read_group(&line.bytes(2)) {
        Ok(g) => {
            let kind = if g.kind == Kind::Greeting { 1 } else { 2 };
            format!("group {label} 0 {} {kind} {}.{} {}\n", g.used, g.major, g.minor, g.code)
        }
        Err(answer) => format!("group {label} {answer} 0 0 0.0 0\n"),
    }
}

pub fn asked(line: &Line) -> String {
    let mut area = vec![0; line.size(3)];
    let done = field(&line.bytes(4), &line.bytes(2), &mut area);
    let value = hex(&area[..done.written]);
    format!("field {} {} {} {} {value}\n", line.shown(1), line.shown(2), done.answer, done.used)
}

pub fn tried(line: &Line) -> String {
    let found = try_pairs(&line.bytes(2));
    let pairs = found.pairs[..found.count].iter().map(|pair| {
        let [a, b, c, d] = pair.address;
        format!("{a}.{b}.{c}.{d}:{}", pair.port)
    });
    format!("try {} {} {} {}\n", line.shown(1), found.answer, found.used, joined(pairs))
}

/// Six bytes a pair: the address, and the port with its low byte first.
fn pairs(bytes: &[u8]) -> Vec<Pair> {
    let pair = |six: &[u8]| Pair { address: [six[0], six[1], six[2], six[3]], port: u16::from_le_bytes([six[4], six[5]]) };
    bytes.chunks_exact(6).map(pair).collect()
}

pub fn written(line: &Line) -> String {
    let mut area = vec![0; line.size(3)];
    let done = match line.word(2) {
        "greeting" => write_greeting(&mut area),
        "ok" => write_ok(&mut area),
        _ => write_busy(&pairs(&line.bytes(4)), &mut area),
    };
    format!("written {} {} {}\n", line.shown(1), done.answer, hex(&area[..done.written]))
}
