//! The hash of a keyword (document 001, appendix).
//!
//! The appendix goes through the keyword one byte at a time and XORs each byte into a rolling 32-bit number. It gives what document 01 says of
//! chunks of four bytes, in little-endian order and the last padded with zeros: these are taken whole here, and a test holds them to the
//! appendix's way.

/// The multiplier, `A_INT` of the appendix.
pub const MULTIPLIER: u32 = 0x4F1B_BCDC;

/// The keyword as one number: its chunks of four bytes, `A` to `Z` as `a` to `z`, joined by XOR.
#[inline]
pub fn word(keyword: &[u8]) -> u32 {
    let chunks = keyword.chunks_exact(4);
    let mut last = [0; 4];
    last[..chunks.remainder().len()].copy_from_slice(chunks.remainder());
    let whole = chunks.fold(0, |xor, chunk| xor ^ lowered([chunk[0], chunk[1], chunk[2], chunk[3]]));
    whole ^ lowered(last)
}

/// Four bytes in lower case, as a number. A byte's high bit is set in `from_a` if its low seven bits are `A` or more, in `past_z` if they are
/// more than `Z`; no byte carries into the next.
#[inline]
fn lowered(four: [u8; 4]) -> u32 {
    const ALL: u32 = 0x0101_0101;
    let bytes = u32::from_le_bytes(four);
    let seven = bytes & (0x7F * ALL);
    let from_a = seven + (0x80 - u32::from(b'A')) * ALL;
    let past_z = seven + (0x7F - u32::from(b'Z')) * ALL;
    let upper = from_a & !past_z & !bytes & (0x80 * ALL);
    bytes | (upper >> 2)
}

/// The keyword's number times the multiplier, modulo 2^32. The top bits of it are the place.
#[inline]
pub fn product(keyword: &[u8]) -> u32 {
    word(keyword).wrapping_mul(MULTIPLIER)
}

/// The top `bits` bits of a product: none for 0 bits, all 32 for 32 bits or more.
#[inline]
pub fn top(product: u32, bits: u32) -> u32 {
    match bits {
        0 => 0,
        1..=31 => product >> (32 - bits),
        _ => product,
    }
}

/// The place of a keyword in a table of 2^`bits` entries.
#[inline]
pub fn place(keyword: &[u8], bits: u32) -> u32 {
    top(product(keyword), bits)
}

#[cfg(test)]
mod tests {
    use super::*;

    fn check(bits: u32, rows: &[(&str, u32)]) {
        for (keyword, expected) in rows {
            assert_eq!(place(keyword.as_bytes(), bits), *expected, "{keyword} at {bits} bits");
        }
    }

    #[test]
    fn nine_places_at_13_bits() {
        check(
            13,
            &[
                ("", 0),
                ("eb", 6791),
                ("ebc", 7082),
                ("ebck", 6698),
                ("ebckl", 3179),
                ("ebcklm", 3235),
                ("ebcklme", 6438),
                ("ebcklmen", 1062),
                ("ebcklmenq", 3527),
            ],
        );
    }

    #[test]
    fn appendix_at_16_bits() {
        check(
            16,
            &[
                ("", 0),
                ("n", 65003),
                ("nd", 54193),
                ("ndf", 4953),
                ("ndfl", 58201),
                ("ndfla", 34830),
                ("ndflal", 36910),
                ("ndflale", 34586),
                ("ndflalem", 37658),
                ("ndflaleme", 45559),
            ],
        );
    }

    #[test]
    fn appendix_at_10_bits() {
        check(
            10,
            &[
                ("ol2j34lj", 318),
                ("asdfas23", 503),
                ("9um3o34fd", 758),
                ("a234d", 281),
                ("a3f", 767),
                ("3nja9", 581),
                ("2459345938032343", 146),
                ("7777a88a8a8a8", 342),
                ("asdfjklkj3k", 861),
                ("adfk32l", 1011),
                ("zzzzzzzzzzz", 944),
                ("3NJA9", 581),
                ("3nJa9", 581),
            ],
        );
    }

    #[test]
    fn two_bit_places() {
        check(2, &[("eb", 3), ("ebckl", 1), ("ebcklmen", 0)]);
    }

    /// The appendix's way: byte by byte, each moved up by eight bits more than the one before, and back to none after the fourth.
    fn rolled(keyword: &[u8]) -> u32 {
        let byte = |(index, byte): (usize, &u8)| u32::from(byte.to_ascii_lowercase()) << (index % 4 * 8);
        keyword.iter().enumerate().map(byte).fold(0, |xor, byte| xor ^ byte)
    }

    #[test]
    fn chunks_are_rolled_bytes() {
        let bytes: Vec<u8> = (0u8..=255).chain((0..=255).rev()).collect();
        for from in 0..256 {
            for length in [0, 1, 2, 3, 4, 5, 7, 8, 13, 200, 256] {
                let keyword = &bytes[from..from + length];
                assert_eq!(word(keyword), rolled(keyword), "{keyword:?}");
            }
        }
    }

    #[test]
    fn only_ascii_letters_are_lowered() {
        assert_eq!(word(b"AZ"), word(b"az"));
        for byte in (0u8..=255).filter(|byte| !byte.is_ascii_uppercase()) {
            assert_eq!(word(&[byte]), u32::from(byte));
        }
    }

    #[test]
    fn one_bit_more_doubles() {
        let mut keyword = Vec::new();
        for step in 0..40u8 {
            keyword.push(step.wrapping_mul(37));
            for bits in 0..32 {
                let (here, more) = (place(&keyword, bits), place(&keyword, bits + 1));
                assert_eq!(more >> 1, here);
            }
            assert_eq!(place(&keyword, 33), place(&keyword, 32));
        }
    }
}
