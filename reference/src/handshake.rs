//! Handshake groups: reading one, asking it for a field, reading its X-Try pairs, and writing the three groups that are sent.
//!
//! A group is a first line and field lines, each ended by CR LF, and an empty line. Its end must come within the first 4,096 bytes.

use std::io::{self, Cursor, Write};

pub use crate::writer::Written;

/// The longest group.
pub const GROUP: usize = 4096;
/// The most pairs that are kept, and that are written.
pub const PAIRS: usize = 32;

/// What the first line of a group says.
#[derive(Clone, Copy, Debug, PartialEq, Eq)]
pub enum Kind {
    /// `GNUTELLA CONNECT/` and a version.
    Greeting,
    /// `GNUTELLA/`, a version and a code.
    Reply,
}

/// A group's first line and its length in bytes, the empty line counted.
#[derive(Clone, Copy, Debug, PartialEq, Eq)]
pub struct Group {
    pub kind: Kind,
    pub major: u16,
    pub minor: u16,
    /// The reply's three digits; 0 for a greeting.
    pub code: u16,
    pub used: usize,
}

/// The answer to asking for a field: the number, the group's length where that is consumed, and how many bytes were written.
#[derive(Clone, Copy, Debug, PartialEq, Eq)]
pub struct Field {
    pub answer: u8,
    pub used: usize,
    pub written: usize,
}

/// An address and a port, from an X-Try field.
#[derive(Clone, Copy, Debug, Default, PartialEq, Eq)]
pub struct Pair {
    pub address: [u8; 4],
    pub port: u16,
}

/// The pairs of a group: the first `count` of `pairs`, the others zero.
#[derive(Clone, Copy, Debug, PartialEq, Eq)]
pub struct Pairs {
    pub answer: u8,
    pub used: usize,
    pub count: usize,
    pub pairs: [Pair; PAIRS],
}

/// Where a group ends: the first CR LF that is a line of its own. 4 or 18 if there is none within the first 4,096 bytes.
fn end(bytes: &[u8]) -> Result<usize, u8> {
    let seen = &bytes[..bytes.len().min(GROUP)];
    let mut at = 0;
    while let Some(length) = seen[at..].iter().position(|&byte| byte == b'\n') {
        at += length + 1;
        if seen[..at] == *b"\r\n" || seen[..at].ends_with(b"\r\n\r\n") {
            return Ok(at);
        }
    }
    Err(if bytes.len() >= GROUP { 18 } else { 4 })
}

/// The lines of a group, the empty one at its end left out. A CR or LF that stands alone ends them with a refusal.
fn lines(group: &[u8]) -> impl Iterator<Item = Result<&[u8], u8>> {
    let mut rest = &group[..group.len() - 2];
    std::iter::from_fn(move || {
        if rest.is_empty() {
            return None;
        }
        let length = rest.iter().position(|&byte| byte == b'\r' || byte == b'\n').unwrap_or(rest.len());
        let (line, after) = rest.split_at(length);
        let next = after.strip_prefix(b"\r\n");
        rest = next.unwrap_or(b"");
        Some(next.map(|_| line).ok_or(17))
    })
}

fn blank(byte: u8) -> bool {
    byte == b' ' || byte == b'\t'
}

fn without_blanks(bytes: &[u8]) -> &[u8] {
    let from = bytes.iter().position(|&byte| !blank(byte)).unwrap_or(bytes.len());
    &bytes[from..]
}

/// A number of `least` to `most` digits at the start, and what follows it.
fn number(bytes: &[u8], least: usize, most: usize) -> Option<(u32, &[u8])> {
    let digits = bytes.iter().take_while(|byte| byte.is_ascii_digit()).count();
    if digits < least || digits > most {
        return None;
    }
    let value = bytes[..digits].iter().fold(0, |value, digit| value * 10 + u32::from(digit - b'0'));
    Some((value, &bytes[digits..]))
}

/// A version of at least 0.6, and what follows it.
fn version(bytes: &[u8]) -> Option<(u16, u16, &[u8])> {
    let (major, rest) = number(bytes, 1, 3)?;
    let (minor, rest) = number(rest.strip_prefix(b".")?, 1, 3)?;
    ((major, minor) >= (0, 6)).then_some((major as u16, minor as u16, rest))
}

fn first_line(line: &[u8], used: usize) -> Option<Group> {
    if let Some(rest) = line.strip_prefix(b"GNUTELLA CONNECT/") {
        let (major, minor, rest) = version(rest)?;
        return rest.is_empty().then_some(Group { kind: Kind::Greeting, major, minor, code: 0, used });
    }
    let (major, minor, rest) = version(line.strip_prefix(b"GNUTELLA/")?)?;
    let (code, rest) = number(rest.strip_prefix(b" ")?, 3, 3)?;
    let text = rest.is_empty() || rest[0] == b' ';
    text.then_some(Group { kind: Kind::Reply, major, minor, code: code as u16, used })
}

/// A line after the first.
enum Line<'a> {
    /// A name and the value after its colon.
    Field(&'a [u8], &'a [u8]),
    /// What is joined to the last value by a space.
    More(&'a [u8]),
}

fn field_line(line: &[u8]) -> Option<Line<'_>> {
    let length = line.iter().position(|&byte| byte == b':' || blank(byte))?;
    match line[length] {
        b':' if length > 0 => Some(Line::Field(&line[..length], without_blanks(&line[length + 1..]))),
        b':' => None,
        _ if length == 0 => Some(Line::More(without_blanks(line))),
        _ => None,
    }
}

/// Reads the group at the start of `bytes` and hands its lines after the first to `each`. The refusals are 4, 18 and 17.
fn read_lines<'a>(bytes: &'a [u8], mut each: impl FnMut(Line<'a>)) -> Result<Group, u8> {
    let used = end(bytes)?;
    let mut lines = lines(&bytes[..used]);
    let first = lines.next().ok_or(17)??;
    let read = first_line(first, used).ok_or(17)?;
    let mut before = false;
    for line in lines {
        match field_line(line?) {
            Some(Line::More(_)) if !before => return Err(17),
            Some(line) => each(line),
            None => return Err(17),
        }
        before = true;
    }
    Ok(read)
}

/// Reads the group at the start of `bytes`. The refusals are 4, 18 and 17.
pub fn read_group(bytes: &[u8]) -> Result<Group, u8> {
    read_lines(bytes, |_| ())
}

/// Reads the group at the start of `bytes`, hands the pieces of a field's joined value to `piece`, in order, and says whether the field is
/// there.
fn value<'a>(bytes: &'a [u8], name: &[u8], mut piece: impl FnMut(&'a [u8])) -> Result<(Group, bool), u8> {
    let (mut found, mut inside) = (false, false);
    let read = read_lines(bytes, |line| match line {
        Line::Field(other, value) => {
            inside = other.eq_ignore_ascii_case(name);
            if inside {
                if found {
                    piece(b",");
                }
                found = true;
                piece(value);
            }
        }
        Line::More(more) if inside => {
            piece(b" ");
            piece(more);
        }
        Line::More(_) => {}
    })?;
    Ok((read, found))
}

/// Writes a field's joined value to `out`. Order: 4 or 18, 17, 10, 2.
pub fn field(bytes: &[u8], name: &[u8], out: &mut [u8]) -> Field {
    let refused = |answer, used| Field { answer, used, written: 0 };
    // A joined value is shorter than its group: a comma or a space in it stands for a line's end.
    let mut joined = [0; GROUP];
    let mut length = 0;
    let read = value(bytes, name, |piece| {
        joined[length..length + piece.len()].copy_from_slice(piece);
        length += piece.len();
    });
    match read {
        Err(answer) => refused(answer, 0),
        Ok((Group { used, .. }, false)) => refused(10, used),
        Ok(_) if length > out.len() => refused(2, 0),
        Ok((Group { used, .. }, true)) => {
            out[..length].copy_from_slice(&joined[..length]);
            Field { answer: 0, used, written: length }
        }
    }
}

/// One address:port item.
fn pair(item: &[u8]) -> Option<Pair> {
    let mut address = [0; 4];
    let mut rest = item;
    for (index, octet) in address.iter_mut().enumerate() {
        if index > 0 {
            rest = rest.strip_prefix(b".")?;
        }
        let (value, after) = number(rest, 1, 3)?;
        *octet = u8::try_from(value).ok()?;
        rest = after;
    }
    let (value, rest) = number(rest.strip_prefix(b":")?, 1, 5)?;
    let port = u16::try_from(value).ok()?;
    (port != 0 && rest.is_empty()).then_some(Pair { address, port })
}

/// Reads the pairs of the group's X-Try field; none if it has no such field. Order: 4 or 18, 17, 6.
pub fn try_pairs(bytes: &[u8]) -> Pairs {
    let mut read = Pairs { answer: 0, used: 0, count: 0, pairs: [Pair::default(); PAIRS] };
    let mut joined = [0; GROUP];
    let asked = field(bytes, b"X-Try", &mut joined);
    read.used = asked.used;
    if asked.answer != 0 {
        read.answer = if asked.answer == 10 { 0 } else { asked.answer };
        return read;
    }
    for (index, item) in joined[..asked.written].split(|&byte| byte == b',').enumerate() {
        let item = if index > 0 { item.strip_prefix(b" ").unwrap_or(item) } else { item };
        if item.is_empty() {
            continue;
        }
        match pair(item) {
            Some(pair) if read.count < PAIRS => {
                read.pairs[read.count] = pair;
                read.count += 1;
            }
            Some(_) => {}
            None => return Pairs { answer: 6, used: read.used, count: 0, pairs: [Pair::default(); PAIRS] },
        }
    }
    read
}

fn write(group: &[u8], out: &mut [u8]) -> Written {
    match out.get_mut(..group.len()) {
        Some(area) => {
            area.copy_from_slice(group);
            Written { answer: 0, written: group.len() }
        }
        None => Written { answer: 2, written: 0 },
    }
}

/// Writes the greeting.
pub fn write_greeting(out: &mut [u8]) -> Written {
    write(b"GNUTELLA CONNECT/0.6\r\n\r\n", out)
}

/// Writes the reply that accepts.
pub fn write_ok(out: &mut [u8]) -> Written {
    write(b"GNUTELLA/0.6 200 OK\r\n\r\n", out)
}

/// Writes the reply that refuses, with pairs to try instead. Order: 6, 2.
pub fn write_busy(pairs: &[Pair], out: &mut [u8]) -> Written {
    if pairs.len() > PAIRS || pairs.iter().any(|pair| pair.port == 0) {
        return Written { answer: 6, written: 0 };
    }
    let mut group = Cursor::new([0u8; 1024]);
    let text = busy_text(pairs, &mut group);
    debug_assert!(text.is_ok(), "32 pairs fit");
    let length = group.position() as usize;
    write(&group.get_ref()[..length], out)
}

fn busy_text(pairs: &[Pair], group: &mut impl Write) -> io::Result<()> {
    group.write_all(b"GNUTELLA/0.6 503 Busy\r\n")?;
    for (index, Pair { address: [a, b, c, d], port }) in pairs.iter().enumerate() {
        let before = if index == 0 { "X-Try: " } else { "," };
        write!(group, "{before}{a}.{b}.{c}.{d}:{port}")?;
    }
    if !pairs.is_empty() {
        group.write_all(b"\r\n")?;
    }
    group.write_all(b"\r\n")
}

#[cfg(test)]
mod tests {
    use super::*;

    /// Text with `|` for CR LF.
    fn group(text: &str) -> Vec<u8> {
        text.replace('|', "\r\n").into_bytes()
    }

    fn answer(text: &str) -> u8 {
        read_group(&group(text)).err().unwrap_or(0)
    }

    fn asked(text: &str, name: &str) -> (u8, String) {
        let mut out = [0; 100];
        let read = field(&group(text), name.as_bytes(), &mut out);
        (read.answer, String::from_utf8(out[..read.written].to_vec()).unwrap())
    }

    fn tried(value: &str) -> (u8, usize) {
        let read = try_pairs(&group(&format!("GNUTELLA/0.6 503 Busy|X-Try:{value}||")));
        (read.answer, read.count)
    }

    /// C80: the end within 4,096 bytes.
    #[test]
    fn end_in_4096() {
        let padded = |length: usize| {
            let mut bytes = group("GNUTELLA CONNECT/0.6|A: ");
            bytes.resize(length - 4, b'x');
            bytes.extend(b"\r\n\r\n");
            bytes
        };
        let mut bytes = padded(4097);
        bytes.resize(5000, 0);
        assert_eq!(read_group(&bytes), Err(18));
        assert_eq!(read_group(&bytes[..4096]), Err(18));
        assert_eq!(read_group(&bytes[..4095]), Err(4));
        let mut bytes = padded(4096);
        assert_eq!(read_group(&bytes[..4095]), Err(4));
        assert_eq!(read_group(&bytes).unwrap().used, 4096);
        bytes.resize(9000, b'\n');
        assert_eq!(read_group(&bytes).unwrap().used, 4096);
    }

    /// C81, C82: 4 and 18 before 17; an empty first line is an end.
    #[test]
    fn not_whole_or_not_understood() {
        assert_eq!(answer("XYZ"), 4);
        assert_eq!(answer(""), 4);
        assert_eq!(answer("XYZ||"), 17);
        assert_eq!(answer("||"), 17);
        assert_eq!(answer("|GNUTELLA CONNECT/0.6||"), 17);
        assert_eq!(end(b"\r\nabc"), Ok(2));
        assert_eq!(answer("GNUTELLA CONNECT/0.6\n\r|"), 4);
        assert_eq!(answer("GNUTELLA CONNECT/0.6|A: x\ny||"), 17);
        assert_eq!(answer("GNUTELLA CONNECT/0.6|A: x\ry||"), 17);
        assert_eq!(answer("GNUTELLA CONNECT/0.6|A: x\r||"), 17);
        assert_eq!(answer("GNUTELLA CONNECT/0.6|\nA: x||"), 17);
    }

    /// C83: the version is two numbers.
    #[test]
    fn versions() {
        for (version, expected) in [
            ("0.6", 0),
            ("0.10", 0),
            ("1.0", 0),
            ("000.006", 0),
            ("999.999", 0),
            ("0.5", 17),
            ("0.4", 17),
            ("0.0006", 17),
            ("0.", 17),
            (".6", 17),
            ("0.6 ", 17),
            ("0.6x", 17),
            ("0,6", 17),
        ] {
            assert_eq!(answer(&format!("GNUTELLA CONNECT/{version}||")), expected, "{version}");
        }
        let read = read_group(&group("GNUTELLA/0.10 503 Try later||rest")).unwrap();
        assert_eq!(read, Group { kind: Kind::Reply, major: 0, minor: 10, code: 503, used: 31 });
    }

    #[test]
    fn first_lines() {
        for (line, expected) in [
            ("GNUTELLA/0.6 200", 0),
            ("GNUTELLA/0.6 200 ", 0),
            ("GNUTELLA/0.6 200 OK", 0),
            ("GNUTELLA/0.6 200OK", 17),
            ("GNUTELLA/0.6 20", 17),
            ("GNUTELLA/0.6 2000", 17),
            ("GNUTELLA/0.6  200", 17),
            ("GNUTELLA/0.6", 17),
            ("gnutella connect/0.6", 17),
            (" GNUTELLA CONNECT/0.6", 17),
        ] {
            assert_eq!(answer(&format!("{line}||")), expected, "{line}");
        }
    }

    #[test]
    fn field_lines() {
        for (line, expected) in
            [("A:", 0), ("A:x", 0), ("A: b:c", 0), ("A", 17), (":x", 17), ("A b: x", 17), ("A\t: x", 17), (" x", 17), ("A:| x|\ty|  ", 0)]
        {
            assert_eq!(answer(&format!("GNUTELLA CONNECT/0.6|{line}||")), expected, "{line}");
        }
    }

    /// C84, D36 to D38: joining.
    #[test]
    fn joined_values() {
        let text = "GNUTELLA CONNECT/0.6|A: x|B: y|a: z| \t w|C: \t q \t|D:| e|F: g|  |H:||";
        assert_eq!(asked(text, "A"), (0, "x,z w".into()));
        assert_eq!(asked(text, "b"), (0, "y".into()));
        assert_eq!(asked(text, "c"), (0, "q \t".into()));
        assert_eq!(asked(text, "D"), (0, " e".into()));
        assert_eq!(asked(text, "F"), (0, "g ".into()));
        assert_eq!(asked(text, "H"), (0, "".into()));
        assert_eq!(asked(text, "G"), (10, "".into()));
        assert_eq!(asked(text, ""), (10, "".into()));
    }

    /// C86: what is consumed.
    #[test]
    fn order_of_a_field() {
        let bytes = group("GNUTELLA CONNECT/0.6|A: four||rest");
        let used = bytes.len() - 4;
        let mut out = [9; 5];
        assert_eq!(field(&bytes, b"B", &mut out[..0]), Field { answer: 10, used, written: 0 });
        assert_eq!(field(&bytes, b"A", &mut out[..3]), Field { answer: 2, used: 0, written: 0 });
        assert_eq!(out, [9; 5]);
        assert_eq!(field(&bytes, b"A", &mut out), Field { answer: 0, used, written: 4 });
        assert_eq!(&out, b"four\x09");
        assert_eq!(field(b"XYZ\r\n\r\n", b"A", &mut out), Field { answer: 17, used: 0, written: 0 });
        assert_eq!(field(b"XYZ", b"A", &mut out), Field { answer: 4, used: 0, written: 0 });
    }

    /// C85: pairs.
    #[test]
    fn pairs() {
        for (value, expected) in [
            ("1.2.3.4:1234,3.4.5.6:3456", (0, 2)),
            ("  1.2.3.4:1234, 3.4.5.6:3456,", (0, 2)),
            ("1.2.3.4:1234,|  3.4.5.6:3456", (0, 2)),
            ("1.2.3.4:1|x-TRY: 3.4.5.6:2", (0, 2)),
            ("", (0, 0)),
            (",, ,", (0, 0)),
            ("000.001.010.255:00001", (0, 1)),
            ("1.2.3.4:65535", (0, 1)),
            ("1.2.3.4:1,  3.4.5.6:2", (6, 0)),
            ("1.2.3.4:1 ,3.4.5.6:2", (6, 0)),
            ("| 1.2.3.4:1", (6, 0)),
            ("1.2.3.4:0", (6, 0)),
            ("1.2.3.4:65536", (6, 0)),
            ("1.2.3.4:000001", (6, 0)),
            ("1.2.3.256:1", (6, 0)),
            ("1.2.3.0004:1", (6, 0)),
            ("1.2.3:1", (6, 0)),
            ("1.2.3.4.5:1", (6, 0)),
            ("1.2.3.4", (6, 0)),
            ("1.2.3.4:", (6, 0)),
            ("1.2.3.4:1x", (6, 0)),
        ] {
            assert_eq!(tried(value), expected, "{value}");
        }
        assert_eq!(tried(&"1.2.3.4:5,".repeat(33)), (0, 32));
        assert_eq!(tried(&format!("{}x", "1.2.3.4:5,".repeat(33))), (6, 0));
        let bytes = group("GNUTELLA CONNECT/0.6|A: x||y");
        let read = try_pairs(&bytes);
        assert_eq!((read.answer, read.used, read.count), (0, bytes.len() - 1, 0));
        let bytes = group("GNUTELLA CONNECT/0.6|X-Try: x||y");
        assert_eq!(try_pairs(&bytes).used, bytes.len() - 1);
    }

    #[test]
    fn written_groups_read_back() {
        let mut out = [7; 1000];
        let done = write_greeting(&mut out);
        assert_eq!(&out[..done.written], b"GNUTELLA CONNECT/0.6\r\n\r\n");
        let expected = Group { kind: Kind::Greeting, major: 0, minor: 6, code: 0, used: done.written };
        assert_eq!(read_group(&out), Ok(expected));
        let done = write_ok(&mut out);
        assert_eq!(&out[..done.written], b"GNUTELLA/0.6 200 OK\r\n\r\n");
        let expected = Group { kind: Kind::Reply, major: 0, minor: 6, code: 200, used: done.written };
        assert_eq!(read_group(&out), Ok(expected));
        let done = write_busy(&[], &mut out);
        assert_eq!(&out[..done.written], b"GNUTELLA/0.6 503 Busy\r\n\r\n");
        let two = [Pair { address: [1, 2, 3, 4], port: 6346 }, Pair { address: [0, 10, 200, 255], port: 65535 }];
        let done = write_busy(&two, &mut out);
        let expected = b"GNUTELLA/0.6 503 Busy\r\nX-Try: 1.2.3.4:6346,0.10.200.255:65535\r\n\r\n";
        assert_eq!((done.answer, &out[..done.written]), (0, &expected[..]));
        let read = try_pairs(&out);
        assert_eq!((read.answer, read.used, read.count, &read.pairs[..2]), (0, done.written, 2, &two[..]));
    }

    #[test]
    fn writing_refused() {
        let many = [Pair { address: [255; 4], port: 65535 }; 33];
        let mut out = [7; 1000];
        assert_eq!(write_busy(&many, &mut out[..0]), Written { answer: 6, written: 0 });
        assert_eq!(write_busy(&[Pair::default()], &mut out[..0]), Written { answer: 6, written: 0 });
        assert_eq!(write_busy(&many[..32], &mut out[..100]), Written { answer: 2, written: 0 });
        assert_eq!(write_greeting(&mut out[..23]), Written { answer: 2, written: 0 });
        assert_eq!(write_ok(&mut out[..22]), Written { answer: 2, written: 0 });
        assert_eq!(out, [7; 1000]);
        assert_eq!(write_busy(&many[..32], &mut out).answer, 0);
        assert_eq!(try_pairs(&out).count, 32);
    }
}
