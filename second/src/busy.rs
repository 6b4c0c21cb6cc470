//! What becomes of a record that the card does not heed: it is off, has a write to finish, or is
//! still busy with an earlier record.

use crate::card::{self, Card};
use crate::record::Record;
use crate::staging;
use crate::state::State;

/// What the kind of an ignored record has more when it is answered or logged.
const IGNORED: u8 = 128;

/// As which kind a record is answered, and how long its response is.
#[derive(Clone, Copy, Debug, PartialEq, Eq)]
pub struct Answer {
    pub kind: u8,
    pub length: usize,
}

/// Whether the card does not heed a record.
fn ignores(card: &Card, state: &State, record: &Record) -> bool {
    let torn = state.off || staging::is_ready(card);
    match record {
        Record::PowerCycle | Record::ArmCut(_) => false,
        Record::Wait { .. } | Record::Poll => torn,
        _ => torn || !state.busy.is_ready(),
    }
}

/// How a record is to be answered by this card in this state.
pub fn answer(card: &Card, state: &State, record: &Record) -> Answer {
    if ignores(card, state, record) {
        Answer { kind: record.kind() + IGNORED, length: 0 }
    } else {
        Answer { kind: record.kind(), length: record.response_length() }
    }
}

/// Runs one command if the card heeds it, and tells the tries left; `response` has the length of
/// the answer.
pub fn perform(card: &mut Card, state: &mut State, record: &Record, response: &mut [u8]) -> u8 {
    if ignores(card, state, record) {
        return 0;
    }
    card::execute(card, state, record, response);
    card::tries_after(card, record)
}
