//! The station's own names: the list, the room that it uses again, what it refuses, and its table.

use crate::any_bytes::Random;
use crate::{own, station};
use lunozhar::table::{self, Table};
use lunozhar::{keyword, raw, Names, Refusal, Station};

/// A list with room for so many bytes and these names.
fn listed(room: usize, names: &[&str]) -> Names {
    let mut list = Names::new(room);
    for name in names {
        list.add(name.as_bytes()).unwrap();
    }
    list
}

/// An area with a text of so many bytes `x` and pairs of offset and length. Pairs past the count are 0xFF.
fn area(room: usize, pairs: &[(u32, u32)]) -> Vec<u8> {
    let mut area = vec![0xFF; raw::NAMES];
    area.resize(raw::NAMES + room, b'x');
    area[..4].copy_from_slice(&(pairs.len() as u32).to_le_bytes());
    for (place, (offset, length)) in pairs.iter().enumerate() {
        area[4 + 8 * place..][..4].copy_from_slice(&offset.to_le_bytes());
        area[8 + 8 * place..][..4].copy_from_slice(&length.to_le_bytes());
    }
    area
}

#[test]
fn names_keep_their_order() {
    let mut names = listed(100, &["a.txt", "b.txt", "c.txt"]);
    assert_eq!([b"a.txt", b"b.txt", b"c.txt"].map(|name| names.find(name)), [Ok(0), Ok(1), Ok(2)]);
    names.remove(b"a.txt").unwrap();
    assert_eq!([b"a.txt", b"b.txt", b"c.txt"].map(|name| names.find(name)), [Err(Refusal::NotFound), Ok(0), Ok(1)]);
    names.add(b"a.txt").unwrap();
    assert!(names.iter().eq([b"b.txt", b"c.txt", b"a.txt"]));
    assert!(names.iter().rev().eq([b"a.txt", b"c.txt", b"b.txt"]));
    assert_eq!((names.len(), names.iter().len(), names.is_empty()), (3, 3, false));
    assert_eq!(format!("{names:?}"), r#"["b.txt", "c.txt", "a.txt"]"#);
    for name in [b"c.txt", b"a.txt", b"b.txt"] {
        names.remove(name).unwrap();
    }
    assert!(names.is_empty() && names.iter().next().is_none());
}

#[test]
fn any_bytes_but_zero_are_a_name() {
    let mut names = Names::new(255 + 255);
    let all: Vec<u8> = (1..=255).collect();
    names.add(&all).unwrap();
    names.add(&[b' '; 255]).unwrap();
    assert_eq!((names.find(&all), names.find(&[b' '; 255])), (Ok(0), Ok(1)));
    assert_eq!(names.iter().collect::<Vec<_>>(), [&all[..], &[b' '; 255]]);
}

/// 30 bytes of room: what a removed name leaves is used again, though it is not in one piece.
#[test]
fn the_room_of_removed_names_is_used_again() {
    let mut names = listed(30, &["aaaaaaaaaa", "bbbbbbbbbb", "cccccccccc"]);
    assert_eq!(names.add(b"d"), Err(Refusal::ListFull));
    names.remove(b"bbbbbbbbbb").unwrap();
    assert_eq!(names.add(b"ddddddddddd"), Err(Refusal::ListFull));
    names.add(b"dddddddddd").unwrap();
    assert!(names.iter().eq([b"aaaaaaaaaa", b"cccccccccc", b"dddddddddd"]));
    names.remove(b"aaaaaaaaaa").unwrap();
    names.remove(b"dddddddddd").unwrap();
    names.add(b"eeeeeeeeeeeeeeeeeeee").unwrap();
    assert!(names.iter().eq([&b"cccccccccc"[..], b"eeeeeeeeeeeeeeeeeeee"]));
}

/// The same of gaps that a list had when it came, and of names that do not stand in the order of the list.
#[test]
fn gaps_that_a_list_came_with_are_used() {
    let mut names = Names::from_bytes(area(20, &[(4_110, 5)])).unwrap();
    assert_eq!(names.add(b"a name of 16 by."), Err(Refusal::ListFull));
    names.add(b"a name of 15 b.").unwrap();
    assert!(names.iter().eq([&b"xxxxx"[..], b"a name of 15 b."]));

    let mut bytes = area(40, &[(4_130, 10), (4_100, 10)]);
    bytes[4_100..4_110].fill(b'y');
    let mut names = Names::from_bytes(bytes).unwrap();
    names.add(b"a name with 20 bytes").unwrap();
    assert!(names.iter().eq([&b"xxxxxxxxxx"[..], b"yyyyyyyyyy", b"a name with 20 bytes"]));
}

#[test]
fn a_list_has_512_names() {
    let mut names = Names::new(10_000);
    for number in 0..512 {
        names.add(format!("{number}").as_bytes()).unwrap();
    }
    assert_eq!((names.add(b"512"), names.add(b"511")), (Err(Refusal::ListFull), Err(Refusal::Repeated)));
    assert_eq!((names.len(), names.find(b"511")), (512, Ok(511)));
    names.remove(b"0").unwrap();
    names.add(b"512").unwrap();
    assert_eq!((names.find(b"1"), names.find(b"512")), (Ok(0), Ok(511)));
}

/// The order of refusals, and that none of them changes a byte.
#[test]
fn a_refusal_changes_nothing() {
    let mut names = listed(20, &["eb", "ebckl", "a name of it"]);
    names.remove(b"eb").unwrap();
    let before = names.as_bytes().to_vec();
    for bad in [&b""[..], b"\0", b"eb\0", &[b'x'; 256]] {
        assert_eq!(names.add(bad), Err(Refusal::BadPayload));
        assert_eq!(names.remove(bad), Err(Refusal::BadPayload));
        assert_eq!(names.find(bad), Err(Refusal::BadPayload));
    }
    assert_eq!(names.add(b"ebckl"), Err(Refusal::Repeated));
    assert_eq!(names.add(b"four"), Err(Refusal::ListFull));
    assert_eq!((names.remove(b"eb"), names.find(b"EBCKL")), (Err(Refusal::NotFound), Err(Refusal::NotFound)));
    for (length, infinity) in [(0, 8), (2, 8), (6, 8), (131_072, 8), (u32::MAX, 8), (4, 1), (4, 128)] {
        assert_eq!(names.table(length, infinity), Err(Refusal::BadUpdate));
    }
    assert_eq!(names.as_bytes(), before);
}

#[test]
fn bytes_that_are_no_list_are_refused() {
    let refused = |bytes: Vec<u8>| {
        let refused = Names::from_bytes(bytes.clone()).err()?;
        assert_eq!(refused.bytes, bytes);
        assert_eq!(refused.to_string(), refused.refusal.to_string());
        Some(Refusal::from(refused))
    };
    assert_eq!(refused(vec![0; raw::NAMES - 1]), Some(Refusal::BadArea));
    assert_eq!(refused(Vec::new()), Some(Refusal::BadArea));
    assert_eq!(refused(vec![0; raw::NAMES]), None);
    assert_eq!(refused(vec![0xFF; raw::NAMES]), Some(Refusal::NotInOrder));
    for pairs in [
        &[(4_100, 0)][..],
        &[(4_100, 256)],
        &[(4_099, 2)],
        &[(0, 4)],
        &[(4_300, 101)],
        &[(4_400, 1)],
        &[(u32::MAX, 2)],
        &[(4_100, u32::MAX)],
        &[(4_100, 10), (4_100, 10)],
        &[(4_100, 10), (4_109, 5)],
        &[(4_109, 5), (4_100, 10)],
        &[(4_100, 10), (4_103, 5)],
        &[(4_100, 5), (4_200, 5)],
    ] {
        assert_eq!(refused(area(300, pairs)), Some(Refusal::NotInOrder), "{pairs:?}");
    }
    for pairs in [&[][..], &[(4_100, 255)], &[(4_399, 1)], &[(4_110, 5), (4_100, 10)], &[(4_100, 10), (4_110, 11)]] {
        assert_eq!(refused(area(300, pairs)), None, "{pairs:?}");
    }
    let mut zero = area(300, &[(4_100, 10)]);
    zero[4_109] = 0;
    assert_eq!(refused(zero), Some(Refusal::NotInOrder));
    let mut many = area(0, &[]);
    many[..4].copy_from_slice(&513u32.to_le_bytes());
    assert_eq!(refused(many), Some(Refusal::NotInOrder));
}

/// Hands updates to line 0, message by message.
fn feed(station: &mut Station, mut updates: &[u8]) {
    while !updates.is_empty() {
        updates = &updates[station.message(0, 0, &own(), updates).unwrap().used..];
    }
}

/// Whether own queries with these texts go out by line 0. Their numbers count up from the first.
fn sent(station: &mut Station, mut number: u8, texts: [&str; 5]) -> [bool; 5] {
    texts.map(|text| {
        number += 1;
        station.ask([number; 16], text.as_bytes()).unwrap().lines().eq([0])
    })
}

#[test]
fn the_table_brings_the_right_queries() {
    let mut names = listed(100, &["mountain lake", "  River   BOAT "]);
    let mut neighbour = station(&[0]);
    let first = names.table(1024, 8).unwrap();
    let old = Table { entries: &first, infinity: 8 };
    feed(&mut neighbour, &table::write([1; 16], None, old, table::MOST_DATA).unwrap());
    assert_eq!(sent(&mut neighbour, 10, ["Lake", "river boat", "lake boat", "hill", "lake hill"]), [true, true, true, false, false]);
    names.remove(b"mountain lake").unwrap();
    names.add(b"hill").unwrap();
    let second = names.table(1024, 8).unwrap();
    let new = Table { entries: &second, infinity: 8 };
    feed(&mut neighbour, &table::write([2; 16], Some(old), new, 100).unwrap());
    assert_eq!(sent(&mut neighbour, 20, ["Lake", "river boat", "lake boat", "hill", "boat hill"]), [false, true, false, true, true]);
}

#[test]
fn a_table_has_a_one_for_every_keyword() {
    let names = listed(100, &["eb", "ebckl EB", "   ", "ebcklmen"]);
    for bits in 2..=16 {
        for infinity in [2, 8, 127] {
            let mut entries = vec![infinity; 1 << bits];
            for word in [&b"eb"[..], b"ebckl", b"ebcklmen"] {
                entries[keyword::place(word, bits) as usize] = 1;
            }
            assert_eq!(names.table(1 << bits, infinity).unwrap(), entries);
        }
    }
    assert_eq!(Names::new(0).table(4, 7).unwrap(), [7; 4]);
}

/// Adds and removes from an empty list on answer as a vector of names does, with a budget of bytes.
#[test]
fn a_list_is_as_a_vector_of_names() {
    let mut random = Random(3);
    for (room, longest) in [(60, 12), (700, 40), (4_000, 255)] {
        let mut names = Names::new(room);
        let mut kept: Vec<Vec<u8>> = Vec::new();
        for _ in 0..2_000 {
            let kind = random.below(40) as usize;
            let name = vec![b'A' + kind as u8; 1 + kind * 7 % longest];
            let place = kept.iter().position(|other| *other == name);
            assert_eq!(names.find(&name), place.ok_or(Refusal::NotFound));
            if random.below(3) > 0 {
                let room_left = room - kept.iter().map(Vec::len).sum::<usize>();
                let expected = match place {
                    Some(_) => Err(Refusal::Repeated),
                    None if name.len() > room_left => Err(Refusal::ListFull),
                    None => Ok(()),
                };
                assert_eq!(names.add(&name), expected);
                if expected.is_ok() {
                    kept.push(name);
                }
            } else {
                let expected = place.map(|place| drop(kept.remove(place))).ok_or(Refusal::NotFound);
                assert_eq!(names.remove(&name), expected);
            }
            assert!(names.iter().eq(kept.iter()));
        }
        let again = Names::from_bytes(names.into_bytes()).unwrap();
        assert!(again.iter().eq(kept.iter()));
    }
}

/// Any bytes are a list or are refused, and a list stays one whatever is added and removed.
#[test]
fn any_bytes_get_an_answer() {
    let mut random = Random(4);
    let mut lists = 0;
    for _ in 0..3_000 {
        let pairs: Vec<_> = (0..random.below(4)).map(|_| (4_098 + random.below(40) as u32, random.below(9) as u32)).collect();
        let mut bytes = area(0, &pairs);
        bytes.extend(random.bytes(40));
        let Ok(mut names) = Names::from_bytes(bytes) else { continue };
        lists += 1;
        for _ in 0..6 {
            let first = names.iter().next().map(<[u8]>::to_vec);
            match first.filter(|_| random.below(2) == 0) {
                Some(first) => names.remove(&first).unwrap(),
                None => drop(names.add(&random.bytes(12))),
            }
        }
        assert!(Names::from_bytes(names.into_bytes()).is_ok());
    }
    assert!(lists > 300, "{lists}");
}

/// The lines that a query for a text goes to at a station whose neighbour by line 0 has sent the table of one name.
fn asked(name: &str, length: u32, text: &[u8]) -> Vec<u32> {
    let entries = listed(300, &[name]).table(length, 8).unwrap();
    let updates = table::write([3; 16], None, Table { entries: &entries, infinity: 8 }, 100).unwrap();
    let mut station = Station::new(8 * length as usize).unwrap();
    station.open(0).unwrap();
    station.feed_all(0, 0, &own(), &updates, |message| assert!(message.is_ok())).unwrap();
    let lines = station.ask([9; 16], text).unwrap().lines().collect();
    lines
}

/// Every byte but digits and letters parts keywords, in names as in queries; at a short and at a long table.
#[test]
fn a_name_is_found_by_the_parts_of_its_tags() {
    for length in [64, 4096] {
        for text in ["04417", "lx", "JPG", "jpg 04417", "LX-04417.jpg", "lx_jpg", "\u{e9}04417", "---", ""] {
            assert_eq!(asked("LX-04417.jpg", length, text.as_bytes()), [0], "{text}");
        }
        for text in ["04418", "lx04417", "0441", "04417x", "lx 04418", "lx-o4417"] {
            assert_eq!(asked("LX-04417.jpg", length, text.as_bytes()), [], "{text}");
        }
    }
}

/// Each of the 255 bytes that a text may have, between the two keywords of a name: 62 make one keyword of it all.
#[test]
fn every_byte_parts_or_does_not() {
    let whole = |byte: &u8| asked("0 8", 4096, &[b'0', *byte, b'8']).is_empty();
    let kept: Vec<u8> = (1..=255).filter(whole).collect();
    assert_eq!(kept, b"0123456789ABCDEFGHIJKLMNOPQRSTUVWXYZabcdefghijklmnopqrstuvwxyz");
}
