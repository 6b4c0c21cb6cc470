//! The log: its layout, its check, and finding an answer in it.

use std::ops::Range;

use crate::busy::Answer;
use crate::card::{self, Card};
use crate::layout::{CARD, ENTRY_HEADER, ENTRY_ZONE, MOST_RECORDS, TRAILER};
use crate::refusal::Refusal;
use crate::state::Zone;

const MARK: [u8; 2] = [0x4C, 0x50];

/// Whether an entry of this kind names a zone: those of zone reads and plain zone writes do, also
/// when the card did not heed them.
fn names_zone(kind: u8) -> bool {
    matches!(kind, 4 | 5 | 132 | 133)
}

/// How much of an entry of this kind comes before its response.
pub fn before_response(kind: u8) -> usize {
    if names_zone(kind) {
        ENTRY_HEADER + ENTRY_ZONE
    } else {
        ENTRY_HEADER
    }
}

/// Writes what comes before a response; `start` has its length, by the kind.
pub fn write_start(start: &mut [u8], answer: Answer, zone: Zone) {
    let [low, high] = (answer.length as u16).to_le_bytes();
    let (header, zone_byte) = start.split_at_mut(ENTRY_HEADER);
    header.copy_from_slice(&[answer.kind, low, high]);
    if let [byte] = zone_byte {
        *byte = zone.number() as u8;
    }
}

pub fn write_trailer(trailer: &mut [u8], card_at: usize, count: u16) {
    trailer[..4].copy_from_slice(&(card_at as u32).to_le_bytes());
    trailer[4..6].copy_from_slice(&count.to_le_bytes());
    trailer[6..].copy_from_slice(&MARK);
}

/// The least and the greatest response length of each kind of entry; none fits an unknown kind.
const LENGTHS: [(u16, u16); 256] = {
    let mut lengths = [(1, 0); 256];
    let mut kind = 0;
    while kind < 256 {
        lengths[kind] = match kind {
            1 | 3 | 5 | 7 | 9..=13 | 15 | 16 => (0, 0),
            2 => (4, 4),
            4 => (1, 256),
            6 => (1, 128),
            8 | 14 => (1, 1),
            // Kinds 2 to 15, not heeded.
            130..=143 => (0, 0),
            _ => (1, 0),
        };
        kind += 1;
    }
    lengths
};

/// An entry's kind, the zone that it names, and where its response lies.
pub struct Entry {
    pub kind: u8,
    pub zone: Option<Zone>,
    pub response: Range<usize>,
}

/// Goes through the entries, which must fill `entries` exactly.
pub struct Entries<'a> {
    entries: &'a [u8],
    at: usize,
    left: u16,
}

impl Entries<'_> {
    fn entry(&mut self) -> Option<Entry> {
        let rest = &self.entries[self.at..];
        let &[kind, low, high] = rest.first_chunk::<ENTRY_HEADER>()?;
        let length = u16::from_le_bytes([low, high]);
        let (least, most) = LENGTHS[usize::from(kind)];
        if !(least..=most).contains(&length) {
            return None;
        }
        let mut from = self.at + ENTRY_HEADER;
        let mut zone = None;
        if names_zone(kind) {
            zone = Some(Zone::new(*rest.get(ENTRY_HEADER)?)?);
            from += ENTRY_ZONE;
        }
        let to = from + usize::from(length);
        if to > self.entries.len() {
            return None;
        }
        self.at = to;
        Some(Entry { kind, zone, response: from..to })
    }
}

impl Iterator for Entries<'_> {
    type Item = Result<Entry, Refusal>;

    fn next(&mut self) -> Option<Self::Item> {
        if self.left == 0 {
            let all_read = self.at == self.entries.len();
            self.at = self.entries.len();
            return (!all_read).then_some(Err(Refusal::Log));
        }
        self.left -= 1;
        Some(self.entry().ok_or(Refusal::Log))
    }
}

/// A log whose trailer and final card are in order; its entries are still to be checked.
pub struct Log<'a> {
    entries: &'a [u8],
    card: &'a Card,
    count: u16,
}

impl<'a> Log<'a> {
    pub fn open(bytes: &'a [u8]) -> Result<Log<'a>, Refusal> {
        let (bytes, trailer) = bytes.split_last_chunk::<TRAILER>().ok_or(Refusal::Log)?;
        let (entries, card) = bytes.split_last_chunk::<CARD>().ok_or(Refusal::Log)?;
        let said = u32::from_le_bytes([trailer[0], trailer[1], trailer[2], trailer[3]]);
        let count = u16::from_le_bytes([trailer[4], trailer[5]]);
        let good = trailer[6..] == MARK
            && said as usize == entries.len()
            && count <= MOST_RECORDS
            && card::check(card).is_ok();
        good.then_some(Log { entries, card, count }).ok_or(Refusal::Log)
    }

    /// The final card.
    pub fn card(&self) -> &'a Card {
        self.card
    }

    pub fn entries(&self) -> Entries<'a> {
        Entries { entries: self.entries, at: 0, left: self.count }
    }
}

/// What a walk through a whole log brings back.
#[derive(Clone, Debug, PartialEq, Eq)]
pub struct Fetched {
    /// Where the wanted answer lies, if there is one of that number.
    pub response: Option<Range<usize>>,
    /// How many entry headers were read.
    pub headers: u16,
}

/// Checks the whole log in one walk and keeps answer `number` on the way.
pub fn fetch(log: &[u8], number: u64) -> Result<Fetched, Refusal> {
    let mut response = None;
    let mut headers = 0;
    for entry in Log::open(log)?.entries() {
        let entry = entry?;
        if u64::from(headers) == number {
            response = Some(entry.response);
        }
        headers += 1;
    }
    Ok(Fetched { response, headers })
}

/// Checks the whole log and tells where answer `number` lies in it.
pub fn find(log: &[u8], number: u64) -> Result<Range<usize>, Refusal> {
    fetch(log, number)?.response.ok_or(Refusal::NoSuchAnswer)
}

/// Checks the whole log and hands back answer `number` as a part of it.
pub fn answer(log: &[u8], number: u64) -> Result<&[u8], Refusal> {
    Ok(&log[find(log, number)?])
}
