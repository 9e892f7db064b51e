//! The keywords of a query's text or of a name: the text cut at each byte that is no digit and no letter of ASCII, empty pieces left out.

/// A keyword and where it starts in its text.
#[derive(Clone, Copy, Debug, PartialEq, Eq)]
pub struct Keyword<'a> {
    pub start: usize,
    pub bytes: &'a [u8],
}

/// The keywords of a text, in order.
#[derive(Clone, Debug)]
pub struct Keywords<'a> {
    text: &'a [u8],
    at: usize,
}

/// Cuts a text into its keywords.
pub fn keywords(text: &[u8]) -> Keywords<'_> {
    Keywords { text, at: 0 }
}

impl<'a> Iterator for Keywords<'a> {
    type Item = Keyword<'a>;

    #[inline]
    fn next(&mut self) -> Option<Keyword<'a>> {
        let after = &self.text[self.at..];
        let start = self.at + after.iter().position(u8::is_ascii_alphanumeric)?;
        let after = &self.text[start..];
        let length = after.iter().position(|byte| !byte.is_ascii_alphanumeric()).unwrap_or(after.len());
        self.at = start + length;
        Some(Keyword { start, bytes: &after[..length] })
    }
}

#[cfg(test)]
mod tests {
    use super::*;

    fn starts(text: &str) -> Vec<usize> {
        keywords(text.as_bytes()).map(|keyword| keyword.start).collect()
    }

    #[test]
    fn cutting() {
        assert_eq!(starts(""), []);
        assert_eq!(starts("   "), []);
        assert_eq!(starts("eb"), [0]);
        assert_eq!(starts("eb ebckl"), [0, 3]);
        assert_eq!(starts("  eb   ebckl "), [2, 7]);
        assert_eq!(starts("LX-04417.jpg"), [0, 3, 9]);
        assert_eq!(starts("---"), []);
        assert_eq!(starts("a_b.c"), [0, 2, 4]);
        assert_eq!(starts("\u{c9}"), []);
        let pieces: Vec<_> = keywords(b"  eb\t-x   ebckl ").map(|keyword| keyword.bytes).collect();
        assert_eq!(pieces, [&b"eb"[..], &b"x"[..], &b"ebckl"[..]]);
    }

    /// Each of the 256 bytes between two letters: 62 of them part nothing.
    #[test]
    fn every_byte() {
        let whole = |byte: &u8| keywords(&[b'a', *byte, b'b']).count() == 1;
        let kept: Vec<u8> = (0..=255).filter(whole).collect();
        assert_eq!(kept, b"0123456789ABCDEFGHIJKLMNOPQRSTUVWXYZabcdefghijklmnopqrstuvwxyz");
    }
}
