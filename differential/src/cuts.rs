//! Texts cut into keywords: every byte at every place of texts of some lengths, runs of every length that a name has room for, and random texts. The
//! reference's keywords are held to the standard library's way to split; the library's, which it does not hand out, by the table of a name that has the text.

use crate::random::Random;
use lunozhar::{keyword, Names};
use lunozhar_reference::keywords::{keywords, Keyword};

/// Pieces between bytes that are no digit and no letter, with where they start.
fn by_pieces(text: &[u8]) -> Vec<(usize, &[u8])> {
    let mut at = 0;
    let pieces = text.split(|byte| !matches!(byte, b'0'..=b'9' | b'A'..=b'Z' | b'a'..=b'z'));
    let placed = pieces.map(|piece| {
        at += piece.len() + 1;
        (at - piece.len() - 1, piece)
    });
    placed.filter(|(_, piece)| !piece.is_empty()).collect()
}

fn agree(text: &[u8]) {
    let expected = by_pieces(text);
    let reference: Vec<_> = keywords(text).map(|Keyword { start, bytes }| (start, bytes)).collect();
    assert_eq!(reference, expected, "the reference's keywords of {text:02x?}");
    if text.is_empty() || text.contains(&0) {
        return;
    }
    let mut names = Names::new(255);
    names.add(text).unwrap();
    let mut places = vec![8; 4096];
    expected.iter().for_each(|(_, piece)| places[keyword::place(piece, 12) as usize] = 1);
    assert_eq!(names.table(4096, 8).unwrap(), places, "the library's table of a name {text:02x?}");
}

#[test]
fn every_byte_at_every_place() {
    for byte in 0..=255 {
        agree(&[byte]);
        for length in [1, 3, 16, 33, 49, 65] {
            for place in 0..length {
                let mut text = vec![b'a'; length];
                text[place] = byte;
                agree(&text);
                text = vec![b'-'; length];
                text[place] = byte;
                agree(&text);
            }
        }
    }
}

/// So many separators, so many letters, and both once more, shorter, as far as a name goes.
#[test]
fn runs_of_every_length() {
    for parts in 0..128 {
        for kept in 0..=255 - parts {
            let mut text = Vec::new();
            for (byte, count) in [(b'.', parts), (b'x', kept), (b' ', 1 + parts / 2), (b'7', kept / 2), (0xC3, parts / 3)] {
                text.extend(vec![byte; count]);
            }
            text.truncate(255);
            agree(&text);
        }
    }
}

#[test]
fn random_texts() {
    let mut random = Random::new(5);
    for _ in 0..20_000 {
        let length = random.below(256);
        agree(&random.bytes(length));
        agree(&(0..length).map(|_| random.pick(b"/09:@AZ[`az{abcABC-- .\x80\xC1\xFF")).collect::<Vec<u8>>());
    }
}
