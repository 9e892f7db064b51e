//! Prints the text of a session file: the file that the first argument names, or standard input.

use lunozhar_reference::session;
use std::env;
use std::fs::File;
use std::io::{self, Read, Write};

/// The file's bytes, at most one more than a session file may have.
fn read() -> io::Result<Vec<u8>> {
    let source: Box<dyn Read> = match env::args_os().nth(1) {
        Some(name) => Box::new(File::open(name)?),
        None => Box::new(io::stdin()),
    };
    let mut bytes = Vec::new();
    source.take(session::FILE as u64 + 1).read_to_end(&mut bytes)?;
    Ok(bytes)
}

fn main() -> io::Result<()> {
    // A file that cannot be read is no session file, and neither is the empty one.
    let bytes = read().unwrap_or_default();
    io::stdout().write_all(&session::text(&bytes))
}
