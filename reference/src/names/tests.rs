//! The calls on lists, held to document 02's clauses, to a plain reading of what a good list is, and to a vector of names with a budget.

use super::*;

/// An area of so many bytes of text with names at the offsets that are given. What belongs to no name is 0xEE, pairs past the count too.
fn area(room: usize, names: &[(usize, &[u8])]) -> Vec<u8> {
    let mut area = vec![0xEE; TEXT + room];
    set_number(&mut area, 0, names.len());
    for (place, (offset, name)) in names.iter().enumerate() {
        area[*offset..*offset + name.len()].copy_from_slice(name);
        set_pair(&mut area, place, *offset, name.len());
    }
    area
}

fn set_pair(area: &mut [u8], place: usize, offset: usize, length: usize) {
    set_number(area, pair(place), offset);
    set_number(area, pair(place) + 4, length);
}

/// The answer of a call that may not have changed a byte unless it answers 0.
fn answered(area: &mut Vec<u8>, call: impl FnOnce(&mut [u8]) -> u8) -> u8 {
    let before = area.clone();
    let answer = call(area);
    assert!(answer == 0 || *area == before, "refused with {answer}, and changed");
    answer
}

fn added(area: &mut Vec<u8>, name: &[u8]) -> u8 {
    answered(area, |area| add(area, name))
}

fn removed(area: &mut Vec<u8>, name: &[u8]) -> u8 {
    answered(area, |area| remove(area, name))
}

/// The answers of all four calls, and of `list`, to an area that no call takes.
fn spoiled(mut area: Vec<u8>) -> u8 {
    let answer = added(&mut area, b"");
    assert_eq!((removed(&mut area, b""), find(&area, b"")), (answer, (answer, 0)));
    let mut out = [7; 3];
    assert_eq!((table(&area, 6, 0, &mut out), out), (answer, [7; 3]));
    assert_eq!(list(&area).unwrap_err(), answer);
    answer
}

/// Different names of so many bytes, at least 3.
fn numbered(index: usize, length: usize) -> Vec<u8> {
    let mut name = format!("{index:03}").into_bytes();
    name.resize(length, b'.');
    name
}

#[test]
fn adding_removing_and_finding() {
    let mut area = vec![0; TEXT + 100];
    for name in [b"one.txt", b"two.txt", b"six.txt"] {
        assert_eq!(added(&mut area, name), 0);
    }
    assert_eq!(list(&area).unwrap(), [b"one.txt", b"two.txt", b"six.txt"]);
    assert_eq!([find(&area, b"one.txt"), find(&area, b"two.txt"), find(&area, b"six.txt")], [(0, 0), (0, 1), (0, 2)]);
    assert_eq!(removed(&mut area, b"one.txt"), 0);
    assert_eq!([find(&area, b"one.txt"), find(&area, b"two.txt"), find(&area, b"six.txt")], [(10, 0), (0, 0), (0, 1)]);
    assert_eq!(removed(&mut area, b"one.txt"), 10);
    assert_eq!(added(&mut area, b"one.txt"), 0);
    assert_eq!(list(&area).unwrap(), [b"two.txt", b"six.txt", b"one.txt"]);
    for name in [b"six.txt", b"one.txt", b"two.txt"] {
        assert_eq!(removed(&mut area, name), 0);
    }
    assert_eq!(list(&area).unwrap().len(), 0);
    assert_eq!(area[..4], [0; 4]);
}

/// The same bytes are the same name; another case is another name.
#[test]
fn doubles() {
    let mut area = vec![0; TEXT + 50];
    assert_eq!([added(&mut area, b"A"), added(&mut area, b"a"), added(&mut area, b"A")], [0, 0, 9]);
    assert_eq!([find(&area, b"A"), find(&area, b"a"), find(&area, b"AA"), find(&area, b"")], [(0, 0), (0, 1), (10, 0), (6, 0)]);
    set_pair(&mut area, 1, TEXT + 30, 1);
    area[TEXT + 30] = b'A';
    assert_eq!(spoiled(area), 1);
}

/// Two names that stand for the same in the index are still two.
#[test]
fn names_that_mix_alike() {
    let mut seen = std::collections::HashMap::new();
    let alike = (0u32..).find_map(|index| {
        let name = format!("name {index:x}");
        let mixed = mixed(name.as_bytes()).unwrap();
        Some((seen.insert((mixed >> 54, kept(mixed)), name.clone())?, name))
    });
    let (one, other) = alike.unwrap();
    let mut area = vec![0; TEXT + 50];
    assert_eq!((added(&mut area, one.as_bytes()), find(&area, other.as_bytes())), (0, (10, 0)));
    assert_eq!((added(&mut area, other.as_bytes()), added(&mut area, other.as_bytes())), (0, 9));
    assert_eq!((find(&area, one.as_bytes()), find(&area, other.as_bytes())), ((0, 0), (0, 1)));
}

#[test]
fn names_that_no_list_has() {
    let mut area = vec![0; TEXT + 600];
    let longest = [b'x'; 255];
    for name in [&b""[..], &[b'x'; 256], &[b'x'; 70_000], b"\0", b"a\0", b"\0a", b"1234567\0", b"12345678\0", b"12345678\x009"] {
        assert_eq!([added(&mut area, name), removed(&mut area, name), find(&area, name).0], [6; 3]);
    }
    assert_eq!((added(&mut area, &longest), added(&mut area, b"\x01\x80\xFF")), (0, 0));
    assert_eq!((find(&area, &longest), find(&area, b"\x01\x80\xFF")), ((0, 0), (0, 1)));
    // A zero byte anywhere in the longest name.
    for at in 0..255 {
        let mut name = longest;
        name[at] = 0;
        assert_eq!(added(&mut area, &name), 6);
        let mut spoilt = area.clone();
        spoilt[TEXT + at] = 0;
        assert_eq!(spoiled(spoilt), 1);
    }
}

/// Document 02's order: 2 and 1 of the area before all else, 6, 9 before 20.
#[test]
fn order_of_refusals() {
    // 512 names, and room for more.
    let mut full = vec![0; TEXT + 513 * 3];
    for index in 0..512 {
        assert_eq!(added(&mut full, &numbered(index, 3)), 0);
    }
    assert_eq!([added(&mut full, b"007"), added(&mut full, b"new"), added(&mut full, b"\0"), find(&full, b"511").0], [9, 20, 6, 0]);
    set_number(&mut full, 0, 513);
    assert_eq!(spoiled(full), 1);
    assert_eq!([spoiled(vec![0xFF; TEXT - 1]), spoiled(vec![]), spoiled(vec![0xFF; TEXT])], [2, 2, 1]);
    let mut empty = vec![0; TEXT];
    assert_eq!([added(&mut empty, b"a"), removed(&mut empty, b"a"), added(&mut empty, b"")], [20, 10, 6]);
}

/// What stands where the text is: inside, apart, touching.
#[test]
fn spans() {
    let good = |names: &[(usize, &[u8])]| list(&area(40, names)).is_ok();
    assert!(good(&[(TEXT, b"0123456789"), (TEXT + 10, b"abcde")]));
    assert!(good(&[(TEXT + 10, b"abcde"), (TEXT, b"0123456789")]));
    assert!(good(&[(TEXT + 20, b"x"), (TEXT, b"y"), (TEXT + 39, b"z"), (TEXT + 10, b"w")]));
    let with = |pairs: &[(usize, usize)]| {
        let mut area = area(40, &[(TEXT, b"abcdefghijklmnopqrstuvwxyz0123456789ABCD")]);
        set_number(&mut area, 0, pairs.len());
        for (place, (offset, length)) in pairs.iter().enumerate() {
            set_pair(&mut area, place, *offset, *length);
        }
        area
    };
    assert!(list(&with(&[(TEXT, 40)])).is_ok());
    assert!(list(&with(&[(TEXT + 39, 1), (TEXT, 39)])).is_ok());
    for pairs in [
        &[(TEXT, 41)][..],
        &[(TEXT + 40, 1)],
        &[(TEXT + 40, 0)],
        &[(TEXT, 0)],
        &[(TEXT - 1, 2)],
        &[(0, 4)],
        &[(usize::MAX >> 32, 2)],
        &[(usize::MAX >> 32, usize::MAX >> 32)],
        &[(TEXT, usize::MAX >> 32)],
        &[(TEXT, 10), (TEXT, 10)],
        &[(TEXT, 10), (TEXT, 5)],
        &[(TEXT, 10), (TEXT + 9, 5)],
        &[(TEXT + 9, 5), (TEXT, 10)],
        &[(TEXT, 20), (TEXT + 5, 5)],
        &[(TEXT + 5, 5), (TEXT, 20)],
        &[(TEXT + 30, 5), (TEXT, 10), (TEXT + 20, 11)],
    ] {
        assert_eq!(spoiled(with(pairs)), 1, "{pairs:?}");
    }
    // 256 bytes that are there are too many, 255 are not.
    let mut long = area(300, &[(TEXT, &[b'x'; 300])]);
    set_pair(&mut long, 0, TEXT, 256);
    assert_eq!(spoiled(long.clone()), 1);
    set_pair(&mut long, 0, TEXT, 255);
    assert_eq!(find(&long, &[b'x'; 255]), (0, 0));
    // Pairs past the count are not looked at.
    set_pair(&mut long, 1, TEXT, 255);
    assert!(list(&long).is_ok());
}

/// Room that removed names leave is used again, and so are gaps that nobody's call made; the order stays.
#[test]
fn gaps_are_closed() {
    let mut one = vec![0; TEXT + 30];
    for index in 0..3 {
        assert_eq!(added(&mut one, &numbered(index, 10)), 0);
    }
    assert_eq!(added(&mut one, b"x"), 20);
    assert_eq!((removed(&mut one, &numbered(1, 10)), added(&mut one, &numbered(3, 11)), added(&mut one, &numbered(4, 10))), (0, 20, 0));
    assert_eq!(list(&one).unwrap(), [numbered(0, 10), numbered(2, 10), numbered(4, 10)]);

    let mut foreign = area(20, &[(TEXT + 10, b"abcde")]);
    assert_eq!((added(&mut foreign, &numbered(0, 16)), added(&mut foreign, &numbered(0, 15))), (20, 0));
    assert_eq!(list(&foreign).unwrap(), [b"abcde".to_vec(), numbered(0, 15)]);

    let mut falling = area(40, &[(TEXT + 30, b"xxxxxxxxxx"), (TEXT, b"yyyyyyyyyy"), (TEXT + 15, b"zzzzz")]);
    assert_eq!(added(&mut falling, &numbered(0, 15)), 0);
    assert_eq!(list(&falling).unwrap(), [&b"xxxxxxxxxx"[..], b"yyyyyyyyyy", b"zzzzz", &numbered(0, 15)]);
    assert_eq!((added(&mut falling, b"a"), removed(&mut falling, b"yyyyyyyyyy"), find(&falling, b"zzzzz")), (20, 0, (0, 1)));
}

/// Behind the last text there must be room, and an offset of 4 bytes.
#[test]
fn fitting_behind() {
    let most = usize::MAX >> 32;
    assert!(fits(5_000, 255, 5_255) && !fits(5_000, 255, 5_254) && !fits(5_000, 1, 5_000));
    assert!(fits(most, 255, most + 255) && !fits(most, 255, most + 254));
    assert!(!fits(most + 1, 1, most + 1_000));
}

/// An area of more than 4 GiB, with a name across the end of what offsets can say.
#[test]
#[ignore = "takes an area of 4 GiB"]
fn far_offsets() {
    let mut area = vec![0; (1 << 32) + 1_000];
    let far = (1 << 32) - 1;
    area[far..far + 2].copy_from_slice(b"ab");
    set_number(&mut area, 0, 1);
    set_pair(&mut area, 0, far, 2);
    assert_eq!(add(&mut area, b"c"), 0);
    assert_eq!(list(&area).unwrap(), [&b"ab"[..], b"c"]);
    assert_eq!(span(&area, 1), (TEXT as u32 + 2, 1));
}

#[test]
fn tables() {
    let mut area = vec![0; TEXT + 100];
    for name in [&b"  eb"[..], b"ebckl  EB", b"   ", b"ebcklmen"] {
        assert_eq!(added(&mut area, name), 0);
    }
    let mut out = vec![0xAA; 8_200];
    assert_eq!(table(&area, 8_192, 8, &mut out), 0);
    let ones: Vec<usize> = (0..8_192).filter(|&place| out[place] == 1).collect();
    assert_eq!(ones, [1_062, 3_179, 6_791]);
    assert_eq!(out.iter().filter(|&&entry| entry == 8).count(), 8_192 - 3);
    assert_eq!(out[8_192..], [0xAA; 8]);
    // "eb" falls on 3 of 4 entries, "ebckl" on 1, "ebcklmen" on 0.
    assert_eq!((table(&area, 4, 127, &mut out[..4]), &out[..4]), (0, &[1, 1, 127, 1][..]));
    assert_eq!((table(&[0; TEXT], 4, 2, &mut out), &out[..4]), (0, &[2; 4][..]));
    let mut longest = vec![0; 65_536];
    assert_eq!(table(&area, 65_536, 2, &mut longest), 0);
    assert_eq!(longest.iter().filter(|&&entry| entry == 1).count(), 3);
}

/// 14 before the short output's 2, and nothing is written then.
#[test]
fn tables_refused() {
    let area = area(10, &[(TEXT, b"eb")]);
    let answer = |length: u32, infinity: u8, room: usize| {
        let mut out = vec![9; room];
        let answer = table(&area, length, infinity, &mut out);
        assert!(answer == 0 || out.iter().all(|&entry| entry == 9));
        answer
    };
    for length in [0, 1, 2, 3, 5, 6, 12, 1 << 17, (1 << 16) + 1, 1 << 31, u32::MAX] {
        assert_eq!([answer(length, 8, 0), answer(length, 8, 70_000)], [14, 14], "{length}");
    }
    for infinity in [0, 1, 128, 255] {
        assert_eq!([answer(4, infinity, 0), answer(4, infinity, 4)], [14, 14], "{infinity}");
    }
    assert_eq!([answer(4, 2, 3), answer(4, 127, 4), answer(65_536, 8, 65_535), answer(65_536, 8, 65_536)], [2, 0, 2, 0]);
}

/// A seeded generator, for the two tests below.
struct Random(u64);

impl Random {
    fn under(&mut self, limit: usize) -> usize {
        self.0 = self.0.wrapping_mul(6_364_136_223_846_793_005).wrapping_add(1_442_695_040_888_963_407);
        (self.0 >> 33) as usize % limit
    }
}

/// What a good list is, said byte by byte and name by name.
fn plainly(area: &[u8]) -> Result<Vec<&[u8]>, u8> {
    if area.len() < TEXT {
        return Err(2);
    }
    if number(area, 0) > 512 {
        return Err(1);
    }
    let mut owned = vec![false; area.len()];
    let mut names: Vec<&[u8]> = Vec::new();
    for place in 0..number(area, 0) as usize {
        let (offset, length) = (number(area, 4 + 8 * place) as usize, number(area, 8 + 8 * place) as usize);
        let name = area.get(offset..offset + length).ok_or(1)?;
        let bad = offset < TEXT || name.is_empty() || name.len() > 255 || name.contains(&0) || names.contains(&name);
        if bad || owned[offset..offset + length].contains(&true) {
            return Err(1);
        }
        owned[offset..offset + length].fill(true);
        names.push(name);
    }
    Ok(names)
}

/// Areas with few bytes and short names, so that good ones, doubles and overlaps all come often.
#[test]
fn as_a_plain_reading_says() {
    let mut random = Random(1);
    let mut good = 0;
    for _ in 0..40_000 {
        let room = random.under(24);
        let mut area: Vec<u8> = vec![0xEE; TEXT + room];
        for byte in &mut area[TEXT..] {
            *byte = b"abcdefgh"[random.under(8)];
        }
        if random.under(8) == 0 && room > 0 {
            area[TEXT + random.under(room)] = 0;
        }
        let count = random.under(5);
        set_number(&mut area, 0, count);
        for place in 0..count {
            set_pair(&mut area, place, TEXT - 1 + random.under(room + 3), random.under(6));
        }
        assert_eq!(list(&area), plainly(&area));
        good += usize::from(list(&area).is_ok());
    }
    assert!(good > 5_000, "{good}");
}

/// From an empty area, lists of calls answer as a vector of names with a budget does.
#[test]
fn as_a_vector_with_a_budget() {
    let mut random = Random(2);
    for (room, length, names) in [(40, 12, 12), (200, 40, 30), (3_000, 255, 60), (2_000, 4, 700)] {
        let mut area = vec![0; TEXT + room];
        let mut model: Vec<Vec<u8>> = Vec::new();
        let mut seen = [0; 21];
        for step in 0..6_000 {
            let index = random.under(names);
            let name = numbered(index, 3 + (index * 7) % (length - 2));
            let at = model.iter().position(|other| *other == name);
            let sum: usize = model.iter().map(Vec::len).sum();
            let full = model.len() == 512 || sum + name.len() > room;
            let adds = random.under(8) < 5;
            let expected = match (adds, at) {
                (true, Some(_)) => 9,
                (true, None) if full => 20,
                (false, None) => 10,
                _ => 0,
            };
            let answer = if adds { added(&mut area, &name) } else { removed(&mut area, &name) };
            assert_eq!(answer, expected, "step {step}");
            seen[usize::from(answer)] += 1;
            match at {
                Some(at) if !adds => drop(model.remove(at)),
                None if expected == 0 => model.push(name),
                _ => {}
            }
            if step % 16 == 0 {
                assert_eq!(list(&area).unwrap(), model);
                assert_eq!(plainly(&area).unwrap(), model);
            }
        }
        assert!([0, 9, 10].iter().all(|&answer: &usize| seen[answer] > 100) && (names == 700 || seen[20] > 100), "{seen:?}");
    }
}
