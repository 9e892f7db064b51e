//! The words of a line, and what they stand for.

/// A line of the table's input, by its words.
pub struct Line<'a> {
    words: Vec<&'a str>,
}

impl<'a> Line<'a> {
    pub fn new(line: &'a str) -> Line<'a> {
        Line { words: line.split(' ').collect() }
    }

    pub fn count(&self) -> usize {
        self.words.len()
    }

    /// A word, or the empty one past the last.
    pub fn word(&self, n: usize) -> &'a str {
        self.words.get(n).copied().unwrap_or("")
    }

    /// A word as it is printed.
    pub fn shown(&self, n: usize) -> &'a str {
        match self.word(n) {
            "" => "-",
            word => word,
        }
    }

    pub fn number(&self, n: usize) -> u32 {
        self.word(n).parse().unwrap_or_else(|_| panic!("no number: {:?}", self.word(n)))
    }

    pub fn byte(&self, n: usize) -> u8 {
        u8::try_from(self.number(n)).expect("a number of one byte")
    }

    pub fn size(&self, n: usize) -> usize {
        self.number(n) as usize
    }

    /// The bytes that a word stands for.
    pub fn bytes(&self, n: usize) -> Vec<u8> {
        match self.word(n) {
            "-" => Vec::new(),
            word => bytes(word),
        }
    }
}

/// Where a `%` stands, the length in four bytes of what follows it.
fn bytes(word: &str) -> Vec<u8> {
    match word.split_once('%') {
        Some((head, body)) => {
            let body = bytes(body);
            [plain(head), (body.len() as u32).to_le_bytes().to_vec(), body].concat()
        }
        None => plain(word),
    }
}

/// Between two `\` the bytes are hexadecimal; elsewhere `*N*` gives the byte before it N times in all, and some letters stand for others.
fn plain(word: &str) -> Vec<u8> {
    let mut bytes = Vec::new();
    for (i, piece) in word.split('\\').enumerate() {
        if i % 2 == 1 {
            bytes.extend((0..piece.len()).step_by(2).map(|at| u8::from_str_radix(&piece[at..at + 2], 16).expect("hexadecimal")));
            continue;
        }
        for (j, piece) in piece.split('*').enumerate() {
            if j % 2 == 1 {
                let last = *bytes.last().expect("a byte before its repetition");
                let times: usize = piece.parse().expect("how many times");
                bytes.resize(bytes.len() + times - 1, last);
            } else {
                piece.bytes().for_each(|letter| text(letter, &mut bytes));
            }
        }
    }
    bytes
}

fn text(letter: u8, bytes: &mut Vec<u8>) {
    match letter {
        b'_' => bytes.push(b' '),
        b'|' => bytes.extend(b"\r\n"),
        b'^' => bytes.push(b'\r'),
        b'~' => bytes.push(b'\n'),
        b'>' => bytes.push(b'\t'),
        other => bytes.push(other),
    }
}
