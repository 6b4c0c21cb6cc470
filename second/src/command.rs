//! A single command on a lent card, with all that can be refused.

use crate::busy::{self, Answer};
use crate::card::{self, Card};
use crate::record;
use crate::refusal::Refusal;
use crate::state::State;

/// What an accepted command gives back beside the bytes it was lent.
#[derive(Clone, Copy, Debug, PartialEq, Eq)]
pub struct Reply {
    /// The record's kind; 128 more if the card did not heed it.
    pub kind: u8,
    pub length: usize,
    /// Left to the password or the authentication that was tried, else 0.
    pub tries: u8,
}

/// Runs one record; `state` is the card's state as nine bytes.
pub fn command(
    card: &mut [u8],
    state: &mut [u8],
    record: &[u8],
    response: &mut [u8],
) -> Result<Reply, Refusal> {
    let card: &mut Card = card.try_into().map_err(|_| Refusal::CardLength)?;
    card::check(card)?;
    let mut now = State::from_bytes(state).ok_or(Refusal::State)?;
    let (decoded, taken) = record::decode(record)?;
    if taken != record.len() {
        return Err(Refusal::BytesLeft);
    }
    let Answer { kind, length } = busy::answer(card, &now, &decoded);
    let response = response.get_mut(..length).ok_or(Refusal::Space)?;
    let tries = busy::perform(card, &mut now, &decoded, response);
    state.copy_from_slice(&now.to_bytes());
    Ok(Reply { kind, length, tries })
}
