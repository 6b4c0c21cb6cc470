//! Writes the sample sessions to standard output, each behind its length in four bytes.

use std::io::{self, Write};

fn main() -> io::Result<()> {
    let mut out = io::stdout().lock();
    for session in second::samples::all() {
        out.write_all(&(session.len() as u32).to_le_bytes())?;
        out.write_all(&session)?;
    }
    out.flush()
}
