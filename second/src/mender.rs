//! The mender of sessions that have lost their trailers.

use crate::card;
use crate::layout::{CARD, LONGEST_SESSION, MOST_RECORDS, SHORTEST_SESSION, TRAILER};
use crate::record::Reader;
use crate::refusal::Refusal;
use crate::session;

/// What a mended trailer says.
#[derive(Clone, Copy, Debug, PartialEq, Eq)]
pub struct Mended {
    pub start: usize,
    pub count: u16,
}

/// Writes the trailer of a session anew, whatever it was: with the smallest start from which the
/// bytes before it are records.
pub fn mend(session: &mut [u8]) -> Result<Mended, Refusal> {
    if !(SHORTEST_SESSION..=LONGEST_SESSION).contains(&session.len()) {
        return Err(Refusal::SessionLength);
    }
    card::check(session::first_card(session)?)?;
    let end = session.len() - TRAILER;
    let mut found = Err(Refusal::NoStart);
    'starts: for start in CARD..end {
        let mut reader = Reader::new(session, start);
        for count in 1..=MOST_RECORDS {
            if reader.next_record().is_err() {
                continue 'starts;
            }
            if reader.at() == end {
                found = Ok(Mended { start, count });
                break 'starts;
            }
        }
    }
    let Mended { start, count } = found?;
    session[end..].copy_from_slice(&session::trailer(start, count));
    found
}
