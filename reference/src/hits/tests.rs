//! Hits read and written, held to document 02's clauses, to a plain reading of both, and to errors easily made.

use super::*;
use crate::header::{message, BYTES, HIT, PAYLOAD, PING, PONG, QUERY, UPDATE};
use crate::keywords::keywords;
use crate::names::{add, TEXT};
use crate::station::OUTPUT;
use std::collections::BTreeSet;

const NUMBER: [u8; 16] = *b"the query number";
const FROM: Sender = Sender { port: 6346, address: [10, 1, 2, 3], speed: 0x0102_0304, mark: *b"a station's mark" };
/// What stands in the output before a call.
const OLD: u8 = 0xDD;

/// A result as it is read: index, size, name, extension.
type Result = (u32, u32, Vec<u8>, Vec<u8>);

/// A payload whose first byte says `stated`, with this behind its head, and a mark of these bytes.
fn payload(stated: u8, behind: &[u8], mark: u8) -> Vec<u8> {
    [&[stated, 0xCA, 0x18, 10, 1, 2, 3, 4, 3, 2, 1][..], behind, &[mark; MARK]].concat()
}

/// The bytes of a result.
fn result(index: u32, size: u32, name: &[u8], extension: &[u8]) -> Vec<u8> {
    [&index.to_le_bytes()[..], &size.to_le_bytes(), name, &[0], extension, &[0]].concat()
}

/// All that is handed out from the start on, and the answer behind it.
fn read(payload: &[u8]) -> (Vec<Result>, u8) {
    let head = begin(payload);
    let (mut results, mut cursor) = (Vec::new(), head.cursor);
    loop {
        let next = cursor.next(payload);
        if !next.found {
            assert_eq!((next.record, next.cursor), (Record::default(), cursor));
            assert!(next.answer == 6 || cursor.left == 0);
            return (results, next.answer);
        }
        let Record { index, size, name_at, name_length, extension_at, extension_length } = next.record;
        assert_eq!((next.answer, next.cursor.left), (0, cursor.left - 1));
        assert_eq!((name_at, extension_at), (cursor.at + 8, name_at + name_length + 1));
        assert_eq!(next.cursor.at, extension_at + extension_length + 1);
        let bytes = |at: usize, length: usize| payload[at..at + length].to_vec();
        results.push((index, size, bytes(name_at, name_length), bytes(extension_at, extension_length)));
        cursor = next.cursor;
    }
}

/// The same by splitting at zero bytes.
fn read_plainly(payload: &[u8]) -> (Vec<Result>, u8) {
    let (mut results, mut body) = (Vec::new(), &payload[HEAD..payload.len() - MARK]);
    for _ in 0..payload[0] {
        let mut pieces = body.get(8..).unwrap_or(&[]).splitn(3, |&byte| byte == 0);
        let (name, extension, rest) = match (pieces.next(), pieces.next(), pieces.next()) {
            (Some(name), Some(extension), Some(rest)) => (name, extension, rest),
            _ => return (results, 6),
        };
        let number = |at: usize| u32::from_le_bytes(body[at..at + 4].try_into().unwrap());
        results.push((number(0), number(4), name.to_vec(), extension.to_vec()));
        body = rest;
    }
    (results, 0)
}

/// A list of these names.
fn list(names: &[&[u8]]) -> Vec<u8> {
    let mut area = vec![0; TEXT + names.iter().map(|name| name.len()).sum::<usize>()];
    for name in names {
        assert_eq!(add(&mut area, name), 0);
    }
    area
}

fn query(text: &[u8]) -> Vec<u8> {
    message(&NUMBER, QUERY, 3, 1, &[&[0, 0], text, &[0]].concat())
}

/// The size at a place.
fn size(place: usize) -> u32 {
    1_000_003u32.wrapping_mul(place as u32 + 1)
}

fn sizes(count: usize) -> Vec<u32> {
    (0..count).map(size).collect()
}

/// The bytes written for a query over a list, or the refusal, which may not have written any.
fn answered(query: &[u8], area: &[u8], sizes: &[u32], room: usize) -> std::result::Result<Vec<u8>, u8> {
    let mut out = vec![OLD; room];
    let Written { answer, results, written } = write(query, area, sizes, &FROM, &mut out);
    assert!(out[written..].iter().all(|&byte| byte == OLD));
    if answer != 0 {
        assert_eq!((results, written), (0, 0));
        return Err(answer);
    }
    out.truncate(written);
    assert_eq!(results, out[BYTES]);
    Ok(out)
}

/// The places of the names that a query with this text finds. All of what is written is looked at.
fn found(text: &[u8], names: &[&[u8]]) -> Vec<usize> {
    let bytes = match answered(&query(text), &list(names), &sizes(names.len()), OUTPUT) {
        Ok(bytes) => bytes,
        Err(answer) => {
            assert_eq!(answer, 10);
            return Vec::new();
        }
    };
    let (top, payload) = bytes.split_at(BYTES);
    assert_eq!(top, &message(&NUMBER, HIT, 2, 0, payload)[..BYTES]);
    let Head { answer, results, port, address, speed, mark_at, cursor } = begin(payload);
    assert_eq!((answer, port, address, speed), (0, FROM.port, FROM.address, FROM.speed));
    assert_eq!((&payload[mark_at..], cursor), (&FROM.mark[..], Cursor { at: HEAD, left: results }));
    let (records, last) = read(payload);
    assert_eq!((records.len(), last), (usize::from(results), 0));
    let written: usize = records.iter().map(|record| record.2.len() + 10).sum();
    assert_eq!(payload.len(), HEAD + written + MARK);
    let places: Vec<usize> = records.iter().map(|record| record.0 as usize).collect();
    let expected = places.iter().map(|&place| (place as u32, size(place), names[place].to_vec(), Vec::new()));
    assert_eq!(records, expected.collect::<Vec<_>>());
    places
}

/// The different keywords of a text, in lower case.
fn folded(text: &[u8]) -> BTreeSet<Vec<u8>> {
    keywords(text).map(|keyword| keyword.bytes.to_ascii_lowercase()).collect()
}

/// The same by sets of keywords.
fn found_plainly(text: &[u8], names: &[&[u8]]) -> Vec<usize> {
    let wanted = folded(text);
    let (mut places, mut used) = (Vec::new(), HEAD + MARK);
    for (place, name) in names.iter().enumerate() {
        if !wanted.is_empty() && wanted.is_subset(&folded(name)) {
            used += name.len() + 10;
            if used > PAYLOAD || places.len() == 255 {
                break;
            }
            places.push(place);
        }
    }
    places
}

#[test]
fn a_head() {
    let bytes = payload(3, b"", 0xAB);
    let head = Head {
        answer: 0,
        results: 3,
        port: 6346,
        address: [10, 1, 2, 3],
        speed: 0x0102_0304,
        mark_at: 11,
        cursor: Cursor { at: 11, left: 3 },
    };
    assert_eq!(begin(&bytes), head);
    assert_eq!(begin(&payload(3, &[0; 30], 7)).mark_at, 41);
    for length in 0..27 {
        assert_eq!(begin(&bytes[..length]), Head { answer: 6, ..Head::default() });
    }
}

#[test]
fn a_payload_under_27_bytes_has_no_next() {
    for (length, left) in [(0, 0), (0, 1), (26, 0), (26, 255)] {
        let cursor = Cursor { at: 11, left };
        let none = Next { answer: 6, cursor, ..Next::default() };
        assert_eq!(cursor.next(&vec![0; length]), none);
    }
}

#[test]
fn results_one_after_the_other() {
    let behind = [result(7, 8, b"one.txt", b""), result(u32::MAX, 0x0403_0201, b"", b"ext"), result(0, 0, b"", b"")];
    let bytes = payload(3, &behind.concat(), 0);
    let read_as = |index, size, name: &[u8], extension: &[u8]| (index, size, name.to_vec(), extension.to_vec());
    let (first, second) = (read_as(7, 8, b"one.txt", b""), read_as(u32::MAX, 0x0403_0201, b"", b"ext"));
    let expected = vec![first, second, read_as(0, 0, b"", b"")];
    assert_eq!(read(&bytes), (expected.clone(), 0));
    // What is behind the last is skipped, a result as well.
    let bytes = payload(2, &[&behind.concat()[..], b"more"].concat(), 0);
    assert_eq!(read(&bytes), (expected[..2].to_vec(), 0));
}

#[test]
fn no_results() {
    assert_eq!(read(&[0; 27]), (vec![], 0));
    assert_eq!(read(&payload(0, b"skipped", 1)), (vec![], 0));
    // Nothing left is the end wherever the cursor stands.
    for at in [0, 11, 27, usize::MAX] {
        let cursor = Cursor { at, left: 0 };
        assert_eq!(cursor.next(&[1; 27]), Next { cursor, ..Next::default() });
    }
}

/// The first result comes although the second ends with the mark's first byte.
#[test]
fn a_result_that_ends_in_the_mark() {
    let (first, second) = (result(1, 2, b"a", b"b"), result(3, 4, b"c", b"d"));
    let both = [&first[..], &second].concat();
    for short in 1..=second.len() {
        let bytes = payload(2, &both[..both.len() - short], 0);
        assert_eq!(begin(&bytes).answer, 0);
        assert_eq!(read(&bytes), (vec![(1, 2, b"a".to_vec(), b"b".to_vec())], 6));
    }
    assert_eq!(read(&payload(2, &both, 0)).0.len(), 2);
    assert_eq!(read(&payload(3, &both, 0)), (read(&payload(2, &both, 0)).0, 6));
}

/// Names and extensions of all lengths, so that the zero bytes stand at each place of eight.
#[test]
fn lengths_of_names_and_extensions() {
    for name in 0..20 {
        for extension in 0..20 {
            let behind = result(5, 6, &vec![1; name], &vec![0x80; extension]);
            for mark in [0, 1, 0xFF] {
                let expected = (vec![(5, 6, vec![1; name], vec![0x80; extension])], 0);
                assert_eq!(read(&payload(1, &behind, mark)), expected);
                assert_eq!(read(&payload(1, &behind[..behind.len() - 1], mark)), (vec![], 6));
            }
        }
    }
}

#[test]
fn cursors_from_elsewhere() {
    let bytes = payload(1, &result(1, 2, b"name", b"ext"), 0);
    for at in 0..bytes.len() + 20 {
        let cursor = Cursor { at, left: 9 };
        let next = cursor.next(&bytes);
        if next.found {
            assert!(at <= 19 && next.cursor.at <= bytes.len() - MARK);
            assert_eq!((next.answer, next.cursor.left), (0, 8));
            assert!(bytes[next.record.extension_at + next.record.extension_length] == 0);
        } else {
            assert_eq!(next, Next { answer: 6, cursor, ..Next::default() });
        }
    }
    for at in [usize::MAX, usize::MAX - 7, usize::MAX - 8, usize::MAX / 2, bytes.len(), bytes.len() - MARK] {
        let cursor = Cursor { at, left: 255 };
        assert_eq!(cursor.next(&bytes), Next { answer: 6, cursor, ..Next::default() });
    }
}

/// Places and sizes are those of the list, not of the matches.
#[test]
fn the_place_in_the_list() {
    let names: [&[u8]; 4] = [b"x", b"a", b"y", b"a b"];
    assert_eq!(found(b"a", &names), [1, 3]);
    assert_eq!(found(b"b a", &names), [3]);
    assert_eq!(found(b"y", &names), [2]);
    assert_eq!(found(b"z", &names), []);
}

#[test]
fn whole_keywords_in_any_case() {
    let names: [&[u8]; 3] = [b"LX-04417.jpg", b"lx 0441", b"Z\xC3\x89CLAIR"];
    assert_eq!(found(b"lx", &names), [0, 1]);
    assert_eq!(found(b"LX JPG", &names), [0]);
    assert_eq!(found(b"0441", &names), [1]);
    assert_eq!(found(b"4417", &names), []);
    assert_eq!(found(b"04417", &names), [0]);
    assert_eq!(found(b"044177", &names), []);
    assert_eq!(found(b"clair", &names), [2]);
    assert_eq!(found(b"\xC3\x89clair z", &names), [2]);
    assert_eq!(found(b"LX-04417.jpg", &names), [0]);
    assert_eq!(found(b"jpg.lx", &names), [0]);
}

/// Each keyword has to be there; one that is asked for twice is there once.
#[test]
fn every_keyword() {
    let names: [&[u8]; 3] = [b"lake", b"boat on lake", b"boat"];
    assert_eq!(found(b"lake boat", &names), [1]);
    assert_eq!(found(b"lake LAKE lake", &names), [0, 1]);
    assert_eq!(found(b"lake boat sea", &names), []);
    assert_eq!(found(b"", &names), []);
    assert_eq!(found(b"--- \xC3\x89", &[b"---", b"\xC3\x89"]), []);
}

/// Bytes that differ from a digit or a letter in the bit that is set for capitals.
#[test]
fn bytes_beside_letters_and_digits() {
    let names: [&[u8]; 4] = [b"\x10\x11", b"a\x10", b"@[`{", b"\x01\x1A"];
    assert_eq!(found(b"01", &names), []);
    assert_eq!(found(b"a0", &names), []);
    assert_eq!(found(b"a", &names), [1]);
    for byte in 1..=255u8 {
        let name = [b'q', byte, b'q'];
        assert_eq!(found(b"q", &[&name]).len(), usize::from(!byte.is_ascii_alphanumeric()), "{byte}");
    }
}

/// Keywords that begin alike, or that have one hash, are not the same.
#[test]
fn keywords_that_are_alike() {
    assert_eq!(crate::hash::product(b"aaaabbbb"), crate::hash::product(b"bbbbaaaa"));
    let names: [&[u8]; 4] = [b"aaaabbbb", b"bbbbaaaa x", b"aaaabbbbc", b"aaaabbbbd aaaabbbbe"];
    assert_eq!(found(b"aaaabbbb", &names), [0]);
    assert_eq!(found(b"bbbbaaaa", &names), [1]);
    assert_eq!(found(b"aaaabbbbc", &names), [2]);
    assert_eq!(found(b"AAAABBBBe AAAABBBBd", &names), [3]);
    assert_eq!(found(b"aaaabbbbe aaaabbbb", &names), []);
    assert_eq!(found(b"aaaabbb", &names), []);
}

/// A query of as many keywords as a name can have, of one more, and of one that is longer than any name.
#[test]
fn as_much_as_a_name_holds() {
    let words: Vec<String> = (0..86).map(|index| format!("{index:02}")).collect();
    let (name, more) = (words[..85].join("-"), words.join("-"));
    assert_eq!((name.len(), found(more.as_bytes(), &[name.as_bytes()])), (254, vec![]));
    assert_eq!(found(name.as_bytes(), &[b"00", name.as_bytes()]), [1]);
    assert_eq!(found(&[name.as_bytes(), b" ", name.as_bytes()].concat(), &[name.as_bytes()]), [0]);
    assert_eq!(found(&[b'a'; 255], &[&[b'A'; 255]]), [0]);
    assert_eq!(found(&[b'a'; 256], &[&[b'a'; 255]]), []);
    assert_eq!(found(&[&[b'a'; 253][..], b" a"].concat(), &[&[b"a ", &[b'A'; 253][..]].concat()]), [0]);
    // The longest text: 2,047 keywords of one letter.
    let many: Vec<u8> = (0..4093).map(|at| if at % 2 == 0 { b'a' + (at / 2 % 26) as u8 } else { b' ' }).collect();
    assert_eq!(keywords(&many).count(), 2047);
    assert_eq!(found(&many, &[&many[..50], &many[..51], &many[1..52], &many[1..53]]), [1, 3]);
}

/// Names of 252 bytes: fifteen take 3,930 bytes of the 4,069 that there are.
fn long(index: u8, length: usize) -> Vec<u8> {
    let mut name = vec![b'b' + index; length];
    name[..2].copy_from_slice(b"a ");
    name
}

fn slices(names: &[Vec<u8>]) -> Vec<&[u8]> {
    names.iter().map(|name| &name[..]).collect()
}

#[test]
fn the_first_that_does_not_fit_ends_the_list() {
    let mut names: Vec<Vec<u8>> = (0..16).map(|index| long(index, 252)).collect();
    names.push(b"a b".to_vec());
    let with_a = |names: &[Vec<u8>]| found(b"a", &slices(names));
    assert_eq!(with_a(&names), (0..15).collect::<Vec<_>>());
    // One that does not match is not in the way.
    names[15] = b"b".to_vec();
    assert_eq!(with_a(&names), (0..15).chain([16]).collect::<Vec<_>>());
    // 139 bytes are left, and 140 are not.
    names[15] = long(15, 129);
    assert_eq!(with_a(&names), (0..16).collect::<Vec<_>>());
    names[15] = long(15, 130);
    assert_eq!(with_a(&names), (0..15).collect::<Vec<_>>());
    names[15] = long(15, 128);
    assert_eq!(with_a(&names), (0..16).collect::<Vec<_>>());
}

#[test]
fn a_payload_of_4096() {
    let mut names: Vec<Vec<u8>> = (0..15).map(|index| long(index, 252)).collect();
    names.push(long(15, 129));
    let names = slices(&names);
    let bytes = answered(&query(b"a"), &list(&names), &sizes(16), OUTPUT).unwrap();
    assert_eq!((bytes.len(), bytes[19..23].to_vec()), (4119, vec![0, 16, 0, 0]));
    assert!(bytes.ends_with(&FROM.mark));
}

#[test]
fn at_most_255() {
    let names: Vec<String> = (0..300).map(|index| format!("a {index:x}")).collect();
    let names: Vec<&[u8]> = names.iter().map(|name| name.as_bytes()).collect();
    for count in [254, 255, 256, 300] {
        assert_eq!(found(b"A", &names[..count]), (0..count.min(255)).collect::<Vec<_>>());
    }
    let bytes = answered(&query(b"a"), &list(&names), &sizes(300), OUTPUT).unwrap();
    assert_eq!(bytes[BYTES], 255);
}

#[test]
fn ttl_is_hops_and_one() {
    let area = list(&[b"a"]);
    for hops in 0..7 {
        for ttl in [1, 15] {
            let query = message(&NUMBER, QUERY, ttl, hops, b"\0\0a\0");
            let bytes = answered(&query, &area, &sizes(1), OUTPUT).unwrap();
            assert_eq!(bytes[16..19], [HIT, hops + 1, 0]);
        }
    }
}

/// What is behind a query's text and behind its message plays no part; nor do sizes past the list or a longer output.
#[test]
fn what_is_not_read() {
    let area = list(&[b"a", b"b"]);
    let expected = answered(&query(b"a"), &area, &sizes(2), OUTPUT).unwrap();
    let carried = message(&NUMBER, QUERY, 3, 1, b"\x07\x09a\0b\0");
    assert_eq!(answered(&carried, &area, &sizes(2), OUTPUT).unwrap(), expected);
    let behind = [&query(b"a")[..], b" b"].concat();
    assert_eq!(answered(&behind, &area, &sizes(3), OUTPUT + 1).unwrap(), expected);
}

/// Each refusal comes before all that stand behind it here: spoiled from the last on, the answer is that of the last.
#[test]
fn the_order_of_refusals() {
    let good = list(&[b"a", b"b", b"c", b"d", b"e"]);
    let (mut spoiled, short) = (good.clone(), &good[..TEXT - 1]);
    spoiled[4] = 0;
    let sent = |kind, ttl, hops, payload: &[u8]| message(&NUMBER, kind, ttl, hops, payload);
    let ask = |bytes: &[u8], area: &[u8], count, room| answered(bytes, area, &sizes(count), room).unwrap_err();
    let none = query(b"z");
    assert_eq!(ask(&none, &good, 5, OUTPUT), 10);
    assert_eq!(ask(&query(b""), &good, 5, OUTPUT), 10);
    assert_eq!(ask(&query(b"a"), &list(&[]), 0, OUTPUT), 10);
    for (ttl, hops) in [(16, 1), (255, 1), (0, 0), (1, 7), (1, 255)] {
        assert_eq!(ask(&sent(QUERY, ttl, hops, b"\0\0z\0"), &good, 5, OUTPUT), 8);
        for payload in [&b""[..], b"\0", b"\0\0", b"\0\0a"] {
            assert_eq!(ask(&sent(QUERY, ttl, hops, payload), &good, 5, OUTPUT), 6);
        }
    }
    for kind in [PING, PONG, UPDATE, HIT, 0x40, 0x7F, 0xFF] {
        assert_eq!(ask(&sent(kind, 3, 1, b"\0\0a\0"), &good, 5, OUTPUT), 7);
        assert_eq!(ask(&sent(kind, 0, 7, b""), &good, 5, OUTPUT), 7);
        let whole = sent(kind, 0, 7, b"\0\0a\0");
        assert_eq!(ask(&whole[..whole.len() - 1], &good, 5, OUTPUT), 4);
    }
    let mut over = sent(PING, 0, 7, b"");
    over[19..].copy_from_slice(&4097u32.to_le_bytes());
    assert_eq!(ask(&over, &good, 5, OUTPUT), 5);
    assert_eq!(ask(&over[..22], &good, 5, OUTPUT), 4);
    over[19..].copy_from_slice(&u32::MAX.to_le_bytes());
    assert_eq!(ask(&over, &good, 5, OUTPUT), 5);
    // Sizes are held to the names, matching or not, and so is the output before a byte of the query is read.
    assert_eq!(ask(&query(b"a"), &good, 4, OUTPUT), 2);
    assert_eq!(ask(&none, &good, 4, OUTPUT), 2);
    assert_eq!(ask(&over[..5], &good, 5, OUTPUT - 1), 2);
    assert_eq!(ask(&query(b"a"), &good, 5, 0), 2);
    assert_eq!(ask(&over[..5], &spoiled, 4, OUTPUT - 1), 1);
    assert_eq!(ask(b"", short, 0, 0), 2);
    assert_eq!(ask(b"", &[], 0, 0), 2);
}

/// A small generator of numbers.
struct Random(u64);

impl Random {
    fn below(&mut self, bound: usize) -> usize {
        self.0 = self.0.wrapping_mul(6_364_136_223_846_793_005).wrapping_add(1_442_695_040_888_963_407);
        (self.0 >> 33) as usize % bound
    }

    fn pick(&mut self, letters: &[u8]) -> u8 {
        letters[self.below(letters.len())]
    }

    fn text(&mut self, letters: &[u8], length: usize) -> Vec<u8> {
        (0..length).map(|_| self.pick(letters)).collect()
    }
}

/// Random lists and queries of few letters, so that many match, with long names among them.
#[test]
fn random_lists() {
    let mut random = Random(9);
    let mut matched = 0;
    for round in 0..3_000 {
        let letters: &[u8] = [&b"aAb0 "[..], b"aB -", b"ab\x10\x110", b"aaaaaaaaaaaaaaaaA ", b"abcdefgh. "][round % 5];
        let longest = [4, 12, 40, 255][random.below(4)];
        let count = random.below(if round % 50 == 0 { 400 } else { 20 });
        let mut names: Vec<Vec<u8>> = Vec::new();
        for _ in 0..count {
            let length = 1 + random.below(longest);
            let name = random.text(letters, length);
            if !names.contains(&name) {
                names.push(name);
            }
        }
        let most = [3, 6, 20, 300][random.below(4)];
        let length = random.below(most);
        let mut text = random.text(letters, length);
        if !names.is_empty() && random.below(3) == 0 {
            text = names[random.below(names.len())].to_ascii_uppercase();
        }
        let names = slices(&names);
        let places = found(&text, &names);
        matched += places.len();
        assert_eq!(places, found_plainly(&text, &names), "{text:?} {names:?}");
    }
    assert!(matched > 3_000, "{matched}");
}

/// Random payloads of few bytes with many zeros.
#[test]
fn random_payloads() {
    let mut random = Random(10);
    let mut results = 0;
    for _ in 0..20_000 {
        let (stated, length) = (random.below(6) as u8, random.below(90));
        let letters: &[u8] = [&b"\0\0a\x01\x80"[..], b"\0abcdef\xFF", b"\0"][random.below(3)];
        let bytes = payload(stated, &random.text(letters, length), random.pick(letters));
        let expected = read_plainly(&bytes);
        results += expected.0.len();
        assert_eq!(read(&bytes), expected, "{bytes:?}");
    }
    assert!(results > 10_000, "{results}");
}
