//! The sixteen kinds of records, and reading them from bytes.

use crate::layout::{MOST_STAGED, PAGE, TRAILER};
use crate::refusal::Refusal;
use crate::state::{Cut, Password, Zone};

#[derive(Clone, Copy, Debug, PartialEq, Eq)]
pub enum Record<'a> {
    PowerCycle,
    Reset,
    Select(Zone),
    ReadZone { address: u8, count: usize },
    WriteZone { address: u8, data: &'a [u8] },
    ReadConfiguration { address: u8, count: usize },
    WriteConfiguration { address: u8, data: &'a [u8] },
    ReadFuses,
    WriteFuses,
    VerifyPassword { password: Password, bytes: [u8; 3] },
    BeginAuthentication,
    VerifyAuthentication { accepted: bool, bytes: [u8; 8] },
    Wait { milliseconds: u8 },
    Poll,
    StagedWrite { address: u8, data: &'a [u8] },
    ArmCut(Cut),
}

impl Record<'_> {
    pub fn kind(&self) -> u8 {
        match self {
            Record::PowerCycle => 1,
            Record::Reset => 2,
            Record::Select(_) => 3,
            Record::ReadZone { .. } => 4,
            Record::WriteZone { .. } => 5,
            Record::ReadConfiguration { .. } => 6,
            Record::WriteConfiguration { .. } => 7,
            Record::ReadFuses => 8,
            Record::WriteFuses => 9,
            Record::VerifyPassword { .. } => 10,
            Record::BeginAuthentication => 11,
            Record::VerifyAuthentication { .. } => 12,
            Record::Wait { .. } => 13,
            Record::Poll => 14,
            Record::StagedWrite { .. } => 15,
            Record::ArmCut(_) => 16,
        }
    }

    /// The length of the response, if the record is answered in full.
    pub fn response_length(&self) -> usize {
        match *self {
            Record::Reset => 4,
            Record::ReadZone { count, .. } | Record::ReadConfiguration { count, .. } => count,
            Record::ReadFuses | Record::Poll => 1,
            _ => 0,
        }
    }
}

/// Takes the next `N` bytes off the front.
fn take<const N: usize>(rest: &mut &[u8]) -> Result<[u8; N], Refusal> {
    let (bytes, after) = rest.split_first_chunk().ok_or(Refusal::CutShort)?;
    *rest = after;
    Ok(*bytes)
}

/// Takes the bytes to be written, at least one of them, off the front.
fn take_data<'a>(rest: &mut &'a [u8], count: u8, most: usize) -> Result<&'a [u8], Refusal> {
    let count = usize::from(count);
    if !(1..=most).contains(&count) {
        return Err(Refusal::Field);
    }
    let (data, after) = rest.split_at_checked(count).ok_or(Refusal::CutShort)?;
    *rest = after;
    Ok(data)
}

/// Reads the record at the front of `bytes` and tells how many bytes it takes.
pub fn decode(bytes: &[u8]) -> Result<(Record<'_>, usize), Refusal> {
    let mut rest = bytes;
    let [kind] = take(&mut rest)?;
    let record = match kind {
        1 => Record::PowerCycle,
        2 => Record::Reset,
        3 => {
            let [zone] = take(&mut rest)?;
            Record::Select(Zone::new(zone).ok_or(Refusal::Field)?)
        }
        4 => {
            let [address, count] = take(&mut rest)?;
            let count = if count == 0 { 256 } else { usize::from(count) };
            Record::ReadZone { address, count }
        }
        5 => {
            let [address, count] = take(&mut rest)?;
            let data = take_data(&mut rest, count, PAGE)?;
            Record::WriteZone { address, data }
        }
        6 => {
            let [address, count] = take(&mut rest)?;
            let count = usize::from(count);
            if address > 127 || count < 1 || usize::from(address) + count > 128 {
                return Err(Refusal::Field);
            }
            Record::ReadConfiguration { address, count }
        }
        7 => {
            let [address, count] = take(&mut rest)?;
            if address > 127 {
                return Err(Refusal::Field);
            }
            let data = take_data(&mut rest, count, PAGE)?;
            Record::WriteConfiguration { address, data }
        }
        8 => Record::ReadFuses,
        9 => Record::WriteFuses,
        10 => {
            let [selector] = take(&mut rest)?;
            let password = Password::from_selector(selector).ok_or(Refusal::Field)?;
            let bytes = take(&mut rest)?;
            Record::VerifyPassword { password, bytes }
        }
        11 => Record::BeginAuthentication,
        12 => {
            let [verdict] = take(&mut rest)?;
            if verdict > 1 {
                return Err(Refusal::Field);
            }
            let accepted = verdict == 1;
            let bytes = take(&mut rest)?;
            Record::VerifyAuthentication { accepted, bytes }
        }
        13 => {
            let [milliseconds] = take(&mut rest)?;
            if milliseconds == 0 {
                return Err(Refusal::Field);
            }
            Record::Wait { milliseconds }
        }
        14 => Record::Poll,
        15 => {
            let [address, count] = take(&mut rest)?;
            let data = take_data(&mut rest, count, MOST_STAGED)?;
            Record::StagedWrite { address, data }
        }
        16 => {
            let [after, junk] = take(&mut rest)?;
            Record::ArmCut(Cut { after, junk })
        }
        _ => return Err(Refusal::Kind),
    };
    Ok((record, bytes.len() - rest.len()))
}

/// Reads the records of a session, one after the other.
#[derive(Clone, Copy, Debug)]
pub struct Reader<'a> {
    session: &'a [u8],
    at: usize,
}

impl<'a> Reader<'a> {
    pub fn new(session: &'a [u8], at: usize) -> Reader<'a> {
        Reader { session, at }
    }

    pub fn at(&self) -> usize {
        self.at
    }

    /// Reads the record at the place and moves behind it; a refusal moves nothing.
    pub fn next_record(&mut self) -> Result<Record<'a>, Refusal> {
        let end = self.session.len().saturating_sub(TRAILER);
        let rest = self.session.get(self.at..end).unwrap_or(&[]);
        let (record, length) = decode(rest)?;
        self.at += length;
        Ok(record)
    }
}
