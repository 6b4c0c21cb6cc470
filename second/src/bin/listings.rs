//! Reads sessions from standard input, each behind its length in four bytes, and prints their
//! listings one after another.

use std::io::{self, Read, Write};

use second::listing::listing;

fn main() -> io::Result<()> {
    let mut input = Vec::new();
    io::stdin().read_to_end(&mut input)?;
    let mut rest = &input[..];
    let mut out = io::BufWriter::new(io::stdout().lock());
    while let Some((length, after)) = rest.split_first_chunk() {
        let length = (u32::from_le_bytes(*length) as usize).min(after.len());
        let (session, after) = after.split_at(length);
        out.write_all(listing(session).as_bytes())?;
        rest = after;
    }
    out.flush()
}
