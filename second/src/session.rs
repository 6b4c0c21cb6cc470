//! A whole session: checked first, then run into its log.

use crate::busy;
use crate::card::{self, Card};
use crate::layout::{
    BOX_LONGEST_SESSION, BOX_MOST_RECORDS, CARD, LONGEST_SESSION, MOST_RECORDS, SHORTEST_LOG,
    SHORTEST_SESSION, TRAILER,
};
use crate::log;
use crate::record::Reader;
use crate::refusal::Refusal;
use crate::state::State;

pub const MARK: [u8; 2] = [0x53, 0x45];

/// What the check of a session finds.
#[derive(Clone, Copy, Debug, PartialEq, Eq)]
pub struct Checked {
    pub start: usize,
    pub count: u16,
    /// The length of the log if every record is answered in full.
    pub log_space: usize,
}

/// The bytes that end a session.
pub fn trailer(start: usize, count: u16) -> [u8; TRAILER] {
    let mut bytes = [0; TRAILER];
    bytes[..4].copy_from_slice(&(start as u32).to_le_bytes());
    bytes[4..6].copy_from_slice(&count.to_le_bytes());
    bytes[6..].copy_from_slice(&MARK);
    bytes
}

/// The card that a session begins with.
pub fn first_card(session: &[u8]) -> Result<&Card, Refusal> {
    session.first_chunk().ok_or(Refusal::SessionLength)
}

/// Whether the box takes a session of this length with so many records.
fn fits_box(length: usize, count: u16) -> bool {
    length <= BOX_LONGEST_SESSION && count <= BOX_MOST_RECORDS
}

/// An exam machine takes every session that there may be.
fn fits_exam(_length: usize, _count: u16) -> bool {
    true
}

/// Checks a session whole, its records included, as an exam machine does.
pub fn check(session: &[u8]) -> Result<Checked, Refusal> {
    check_if(session, fits_exam)
}

/// The same of a machine that takes what `fits`.
fn check_if(session: &[u8], fits: impl Fn(usize, u16) -> bool) -> Result<Checked, Refusal> {
    if !(SHORTEST_SESSION..=LONGEST_SESSION).contains(&session.len()) {
        return Err(Refusal::SessionLength);
    }
    let end = session.len() - TRAILER;
    let trailer = &session[end..];
    if trailer[6..] != MARK {
        return Err(Refusal::SessionMark);
    }
    let start = u32::from_le_bytes([trailer[0], trailer[1], trailer[2], trailer[3]]) as usize;
    if start < CARD || start > end {
        return Err(Refusal::Start);
    }
    let count = u16::from_le_bytes([trailer[4], trailer[5]]);
    if count > MOST_RECORDS {
        return Err(Refusal::Count);
    }
    if !fits(session.len(), count) {
        return Err(Refusal::BoxLimits);
    }
    card::check(first_card(session)?)?;
    let mut reader = Reader::new(session, start);
    let mut entries = 0;
    for _ in 0..count {
        let record = reader.next_record()?;
        entries += log::before_response(record.kind()) + record.response_length();
    }
    if reader.at() != end {
        return Err(Refusal::BytesLeft);
    }
    Ok(Checked { start, count, log_space: entries + SHORTEST_LOG })
}

/// Runs a session on an exam machine and answers how many bytes of `log` it wrote.
pub fn run(session: &[u8], log: &mut [u8]) -> Result<usize, Refusal> {
    run_if(session, log, fits_exam)
}

/// The same in the box.
pub fn box_run(session: &[u8], log: &mut [u8]) -> Result<usize, Refusal> {
    run_if(session, log, fits_box)
}

fn run_if(
    session: &[u8],
    log: &mut [u8],
    fits: impl Fn(usize, u16) -> bool,
) -> Result<usize, Refusal> {
    let Checked { start, count, log_space } = check_if(session, fits)?;
    let log = log.get_mut(..log_space).ok_or(Refusal::Space)?;
    // What the card does not heed makes the log shorter, so its final card has no place yet.
    let mut card = *first_card(session)?;
    let mut state = State::POWER_UP;
    let mut reader = Reader::new(session, start);
    let mut at = 0;
    for _ in 0..count {
        let record = reader.next_record()?;
        let answer = busy::answer(&card, &state, &record);
        let before = log::before_response(answer.kind);
        let entry = &mut log[at..at + before + answer.length];
        at += entry.len();
        let (start, response) = entry.split_at_mut(before);
        // The zone is the one that the record finds selected.
        log::write_start(start, answer, state.zone);
        busy::perform(&mut card, &mut state, &record, response);
    }
    let (last_card, trailer) = log[at..at + SHORTEST_LOG].split_at_mut(CARD);
    last_card.copy_from_slice(&card);
    log::write_trailer(trailer, at, count);
    Ok(at + SHORTEST_LOG)
}
