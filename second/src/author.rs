//! Puts sessions together: a card, free text, records and the trailer; and logs, entry by entry.

use crate::card;
use crate::layout::{
    AAC, CARD, CONFIGURATION, FLAG, FUSES, REGISTERS, STAGED_VALUES, STATE, ZONE, ZONES,
};
use crate::session::trailer;
use crate::staging::READY;
use crate::state::Password;
use crate::writer::Parts;

/// Builds one session; each method adds to it and hands it on.
#[derive(Clone)]
pub struct Author {
    card: Vec<u8>,
    text: Vec<u8>,
    records: Vec<u8>,
    count: u16,
}

/// Where the attempts counter of a selector lies in the card.
pub fn counter(selector: u8) -> usize {
    card::counter(Password::from_selector(selector).expect("a selector is 0-15"))
}

/// The password that a fresh card holds for a selector.
pub fn password(selector: u8) -> [u8; 3] {
    [0xA0 + selector, 0x5A, 0x3C]
}

/// The state of a card that is on, with no cut armed.
pub fn on(first: [u8; 5]) -> [u8; STATE] {
    let mut state = [0; STATE];
    state[..5].copy_from_slice(&first);
    state
}

/// A card with erased zones, all counters full, known passwords, open registers and erased staging
/// bytes, so that there is nothing to finish.
pub fn fresh_card(fuses: u8) -> Vec<u8> {
    let mut card = vec![0xFF; CARD];
    card[CONFIGURATION..CONFIGURATION + 4].copy_from_slice(&[0x2C, 0xAA, 0x55, 0x01]);
    card[CONFIGURATION + 0x30..CONFIGURATION + 0x38].copy_from_slice(b"secretly");
    for selector in 0..16 {
        let at = counter(selector);
        card[at + 1..at + 4].copy_from_slice(&password(selector));
    }
    card[FUSES] = fuses;
    card
}

/// An entry of a log, with or without a byte between the length and the response.
pub fn entry(kind: u8, zone: Option<u8>, response: &[u8]) -> Vec<u8> {
    let length = (response.len() as u16).to_le_bytes();
    [&[kind][..], &length, zone.as_slice(), response].concat()
}

/// A log with these bytes for entries and a fresh card, and a trailer with this count and mark.
pub fn log_of(entries: &[u8], count: u16, mark: [u8; 2]) -> Vec<u8> {
    let card_at = (entries.len() as u32).to_le_bytes();
    [entries, &fresh_card(4), &card_at, &count.to_le_bytes(), &mark].concat()
}

impl Author {
    pub fn new(fuses: u8) -> Author {
        Author::with_card(fresh_card(fuses))
    }

    pub fn with_card(card: Vec<u8>) -> Author {
        Author { card, text: Vec::new(), records: Vec::new(), count: 0 }
    }

    pub fn put(mut self, place: usize, bytes: &[u8]) -> Author {
        self.card[place..place + bytes.len()].copy_from_slice(bytes);
        self
    }

    pub fn put_zone(self, zone: usize, address: usize, bytes: &[u8]) -> Author {
        self.put(ZONE * zone + address, bytes)
    }

    pub fn put_configuration(self, address: usize, bytes: &[u8]) -> Author {
        self.put(CONFIGURATION + address, bytes)
    }

    pub fn put_register(self, zone: usize, register: u8) -> Author {
        self.put(REGISTERS + zone, &[register])
    }

    pub fn put_counter(self, selector: u8, value: u8) -> Author {
        self.put(counter(selector), &[value])
    }

    pub fn put_aac(self, value: u8) -> Author {
        self.put(AAC, &[value])
    }

    /// Stages a write that is to be finished.
    pub fn put_ready(self, zone: u8, address: u8, values: &[u8]) -> Author {
        self.put(FLAG, &[READY, zone, address, values.len() as u8]).put(STAGED_VALUES, values)
    }

    pub fn text(mut self, text: &[u8]) -> Author {
        self.text.extend_from_slice(text);
        self
    }

    /// Adds bytes and counts them as one record, whatever they are.
    pub fn record(mut self, bytes: &[u8]) -> Author {
        self.records.extend_from_slice(bytes);
        self.count += 1;
        self
    }

    fn with_data(self, head: &[u8], data: &[u8]) -> Author {
        self.record(&[head, data].concat())
    }

    pub fn power(self) -> Author {
        self.record(&[1])
    }

    pub fn reset(self) -> Author {
        self.record(&[2])
    }

    pub fn select(self, zone: u8) -> Author {
        self.record(&[3, zone])
    }

    pub fn read(self, address: u8, count: u8) -> Author {
        self.record(&[4, address, count])
    }

    pub fn write(self, address: u8, data: &[u8]) -> Author {
        self.with_data(&[5, address, data.len() as u8], data)
    }

    pub fn read_configuration(self, address: u8, count: u8) -> Author {
        self.record(&[6, address, count])
    }

    pub fn write_configuration(self, address: u8, data: &[u8]) -> Author {
        self.with_data(&[7, address, data.len() as u8], data)
    }

    pub fn read_fuses(self) -> Author {
        self.record(&[8])
    }

    pub fn write_fuses(self) -> Author {
        self.record(&[9])
    }

    pub fn verify(self, selector: u8, password: [u8; 3]) -> Author {
        self.with_data(&[10, selector], &password)
    }

    /// Presents the password that a fresh card holds.
    pub fn right(self, selector: u8) -> Author {
        self.verify(selector, password(selector))
    }

    pub fn wrong(self, selector: u8) -> Author {
        self.verify(selector, [0, 0, 0])
    }

    pub fn begin(self) -> Author {
        self.record(&[11])
    }

    pub fn verdict(self, verdict: u8, bytes: &[u8; 8]) -> Author {
        self.with_data(&[12, verdict], bytes)
    }

    pub fn wait(self, milliseconds: u8) -> Author {
        self.record(&[13, milliseconds])
    }

    /// Waits as long as any write takes.
    pub fn ready(self) -> Author {
        self.wait(10)
    }

    pub fn poll(self) -> Author {
        self.record(&[14])
    }

    pub fn staged_write(self, address: u8, data: &[u8]) -> Author {
        self.with_data(&[15, address, data.len() as u8], data)
    }

    /// Arms a cut after so many cell writes, with the junk that the next cell then holds.
    pub fn cut(self, after: u8, junk: u8) -> Author {
        self.record(&[16, after, junk])
    }

    /// Reads one attempts counter.
    pub fn read_counter(self, selector: u8) -> Author {
        self.read_configuration((counter(selector) - CONFIGURATION) as u8, 1)
    }

    pub fn times(self, times: usize, step: impl Fn(Author) -> Author) -> Author {
        (0..times).fold(self, |author, _| step(author))
    }

    pub fn each_zone(self, step: impl Fn(Author, u8) -> Author) -> Author {
        (0..ZONES as u8).fold(self, step)
    }

    /// What the writer is given for this session; the free text is its title.
    pub fn parts(&self) -> Parts<'_> {
        let Author { card, text, records, count } = self;
        Parts { card, title: text, records, count: (*count).into() }
    }

    pub fn session(self) -> Vec<u8> {
        let start = self.card.len() + self.text.len();
        let end = trailer(start, self.count);
        [&self.card[..], &self.text, &self.records, &end].concat()
    }
}
