//! The hash of keywords of every length from 0 to 300, with every byte at every place: the library, the reference, and
//! the appendix of document 001, byte by byte. The first two both take four bytes at a time; the third does not.

use crate::make::LONGEST;
use crate::random::Random;
use lunozhar::keyword;
use lunozhar_reference::hash;

/// The appendix's way.
fn by_bytes(keyword: &[u8]) -> u32 {
    let lowered = keyword.iter().map(|byte| u32::from(byte.to_ascii_lowercase()));
    let word = lowered.zip([0, 8, 16, 24].iter().cycle()).fold(0, |word, (byte, up)| word ^ byte << up);
    word.wrapping_mul(0x4F1B_BCDC)
}

fn agree(word: &[u8]) {
    let expected = by_bytes(word);
    assert_eq!(keyword::hash(word), expected, "the library's hash of {word:02x?}");
    assert_eq!(hash::product(word), expected, "the reference's hash of {word:02x?}");
}

#[test]
fn every_byte_at_every_place_of_every_length() {
    let bytes: Vec<u8> = (0..=255).cycle().take(256 + LONGEST).collect();
    for length in 0..=LONGEST {
        (0..256).for_each(|first| agree(&bytes[first..first + length]));
    }
}

#[test]
fn random_bytes_and_letters_of_every_length() {
    let mut random = Random::new(4);
    for length in 0..=LONGEST {
        for _ in 0..20 {
            agree(&random.bytes(length));
            agree(&(0..length).map(|_| random.pick(b"AZaz@[`{\xC1\xDA\xE1\xFA\xFF\0")).collect::<Vec<u8>>());
        }
    }
}
