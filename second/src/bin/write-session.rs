//! Writes the session of a card, records and a title to standard output, or tells its refusal.

use std::io::{self, Write};
use std::process::ExitCode;
use std::{env, fs};

use second::writer::Parts;

fn main() -> io::Result<ExitCode> {
    let arguments: Vec<_> = env::args_os().skip(1).collect();
    let (given, title) = match &arguments[..] {
        [given @ .., title] if given.len() == 3 => (given, title.as_encoded_bytes()),
        given => (given, &[][..]),
    };
    let usage = || io::Error::other("usage: write-session CARD RECORDS COUNT [TITLE]");
    let [card, records, count] = given else {
        return Err(usage());
    };
    let count = count.to_str().and_then(|count| count.parse().ok()).ok_or_else(usage)?;
    let (card, records) = (fs::read(card)?, fs::read(records)?);
    match (Parts { card: &card, title, records: &records, count }).written() {
        Ok(session) => {
            io::stdout().write_all(&session)?;
            Ok(ExitCode::SUCCESS)
        }
        Err(refusal) => {
            eprintln!("refused {}", refusal.number());
            Ok(ExitCode::FAILURE)
        }
    }
}
