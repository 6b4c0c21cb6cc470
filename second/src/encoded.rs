//! The public calls with the results of the C interface.

use crate::log::{self, Fetched};
use crate::mender::{self, Mended};
use crate::{command, refusal::Refusal, session, writer};

/// The result of an accepted call, or the refusal's number alone.
fn pack(result: Result<u64, Refusal>) -> u64 {
    result.unwrap_or_else(|refusal| refusal.number().into())
}

/// Refusal + 2^8 · log length.
pub fn at88sc1608_run(session: &[u8], log: &mut [u8]) -> u64 {
    pack(session::run(session, log).map(|length| (length as u64) << 8))
}

/// The same in the box.
pub fn at88sc1608_box_run(session: &[u8], log: &mut [u8]) -> u64 {
    pack(session::box_run(session, log).map(|length| (length as u64) << 8))
}

/// Refusal + 2^8 · response length + 2^24 · tries left + 2^32 · the kind as it is answered.
pub fn at88sc1608_command(
    card: &mut [u8],
    state: &mut [u8],
    record: &[u8],
    response: &mut [u8],
) -> u64 {
    let reply = command::command(card, state, record, response);
    pack(reply.map(|reply| {
        (reply.length as u64) << 8 | u64::from(reply.tries) << 24 | u64::from(reply.kind) << 32
    }))
}

/// Refusal + 2^8 · response length + 2^24 · headers read + 2^40 · the response's offset in the log;
/// where there is no such answer, the headers all the same.
pub fn at88sc1608_answer(log: &[u8], number: u64) -> u64 {
    pack(log::fetch(log, number).map(|Fetched { response, headers }| {
        let found = response
            .map(|response| (response.len() as u64) << 8 | (response.start as u64) << 40)
            .ok_or(Refusal::NoSuchAnswer);
        pack(found) | u64::from(headers) << 24
    }))
}

/// Refusal + 2^8 · session length.
pub fn at88sc1608_write_session(
    card: &[u8],
    title: &[u8],
    records: &[u8],
    count: u64,
    session: &mut [u8],
) -> u64 {
    let written = writer::write_session(card, title, records, count, session);
    pack(written.map(|length| (length as u64) << 8))
}

/// Refusal + 2^8 · count + 2^32 · start.
pub fn at88sc1608_mend(session: &mut [u8]) -> u64 {
    let mended = mender::mend(session);
    pack(mended.map(|Mended { start, count }| u64::from(count) << 8 | (start as u64) << 32))
}
