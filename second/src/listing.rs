//! The text that the printing program gives for a session.

use std::fmt::Write;
use std::path::Path;
use std::{fs, io};

use crate::card::{counters, tries};
use crate::layout::{FUSES, LOG_SPACE, LONGEST_SESSION};
use crate::log::Log;
use crate::refusal::Refusal;
use crate::session;

/// The most bytes that are worth reading: one more than a session may have.
pub const READ_LIMIT: usize = LONGEST_SESSION + 1;

/// What runs a session into its log.
type Run = fn(&[u8], &mut [u8]) -> Result<usize, Refusal>;

/// The listing of a session as an exam machine runs it.
pub fn listing(session: &[u8]) -> String {
    listing_by(session::run, session)
}

/// The listing of a session as the box runs it.
pub fn box_listing(session: &[u8]) -> String {
    listing_by(session::box_run, session)
}

fn listing_by(run: Run, session: &[u8]) -> String {
    let mut log = vec![0; LOG_SPACE];
    run(session, &mut log)
        .and_then(|length| lines(&log[..length]))
        .unwrap_or_else(|refusal| format!("refused {}\n", refusal.number()))
}

/// Writes each of some named sessions, and its listing beside it, into a directory.
pub fn write_into(directory: &Path, sessions: &[(&str, Vec<u8>)]) -> io::Result<()> {
    fs::create_dir_all(directory)?;
    for (name, session) in sessions {
        let file = directory.join(name);
        fs::write(file.with_extension("session"), session)?;
        fs::write(file.with_extension("txt"), listing(session))?;
    }
    Ok(())
}

/// Writes the listing that the box gives for each of some named sessions beside it.
pub fn write_for_the_box(directory: &Path, sessions: &[(&str, Vec<u8>)]) -> io::Result<()> {
    for (name, session) in sessions {
        fs::write(directory.join(name).with_extension("box.txt"), box_listing(session))?;
    }
    Ok(())
}

fn lines(log: &[u8]) -> Result<String, Refusal> {
    let opened = Log::open(log)?;
    let mut text = String::new();
    for (number, entry) in opened.entries().enumerate() {
        let entry = entry?;
        // Writing to a string does not fail.
        let _ = write!(text, "{number} {:02X}", entry.kind);
        for byte in &log[entry.response] {
            let _ = write!(text, " {byte:02X}");
        }
        text.push('\n');
    }
    let card = opened.card();
    text.push_str("tries");
    for at in counters() {
        let _ = write!(text, " {}", tries(card[at]));
    }
    let _ = writeln!(text, "\nfuses {:02X}", card[FUSES]);
    Ok(text)
}
