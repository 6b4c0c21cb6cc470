//! The session writer, and the parts that it writes a session from.

use crate::card::{self, Card};
use crate::layout::{
    CARD, LONGEST_SESSION, LONGEST_TITLE, MOST_RECORDS, SHORTEST_SESSION, TRAILER,
};
use crate::record;
use crate::refusal::Refusal;
use crate::session::{self, Checked};

/// What a session is written from; its free text is the title.
#[derive(Clone, Copy, Debug, PartialEq, Eq)]
pub struct Parts<'a> {
    pub card: &'a [u8],
    pub title: &'a [u8],
    /// One behind the other.
    pub records: &'a [u8],
    pub count: u64,
}

impl Parts<'_> {
    /// Their session, in space of its own.
    pub fn written(self) -> Result<Vec<u8>, Refusal> {
        let mut session = vec![0; LONGEST_SESSION];
        let Parts { card, title, records, count } = self;
        let length = write_session(card, title, records, count, &mut session)?;
        session.truncate(length);
        Ok(session)
    }
}

/// Writes a session to the front of `session` and answers its length.
pub fn write_session(
    card: &[u8],
    title: &[u8],
    records: &[u8],
    count: u64,
    session: &mut [u8],
) -> Result<usize, Refusal> {
    let card: &Card = card.try_into().map_err(|_| Refusal::CardLength)?;
    let length = SHORTEST_SESSION.saturating_add(title.len()).saturating_add(records.len());
    if length > LONGEST_SESSION {
        return Err(Refusal::SessionLength);
    }
    if count > MOST_RECORDS.into() {
        return Err(Refusal::Count);
    }
    card::check(card)?;
    if title.len() > LONGEST_TITLE {
        return Err(Refusal::TitleLength);
    }
    let mut rest = records;
    for _ in 0..count {
        let (_, taken) = record::decode(rest)?;
        rest = &rest[taken..];
    }
    if !rest.is_empty() {
        return Err(Refusal::BytesLeft);
    }
    let session = session.get_mut(..length).ok_or(Refusal::Space)?;
    let trailer = session::trailer(CARD + title.len(), count as u16);
    let mut at = 0;
    for part in [&card[..], title, records, &trailer] {
        session[at..at + part.len()].copy_from_slice(part);
        at += part.len();
    }
    Ok(length)
}

/// Reads a sound session back into its parts.
pub fn parts(session: &[u8]) -> Result<Parts<'_>, Refusal> {
    let Checked { start, count, .. } = session::check(session)?;
    let (card, behind) = session.split_at(CARD);
    let (title, behind) = behind.split_at(start - CARD);
    let (records, _) = behind.split_at(behind.len() - TRAILER);
    Ok(Parts { card, title, records, count: count.into() })
}
