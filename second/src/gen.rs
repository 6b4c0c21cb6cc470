//! The seeded generator: cards, states, records, sessions and logs, sound ones and damaged ones.
//!
//! Records are chosen with the current card and state in view, so that right passwords are right
//! and locked doors are opened often enough to reach deep states. For stretches of records the host
//! has the patience to wait for a busy card, or has little of it. Power is cut now and then, and
//! comes back.

use crate::author::{counter, entry};
use crate::command::command;
use crate::layout::{
    AAC, CARD, CONFIGURATION, FLAG, FUSES, LONGEST_SESSION, MOST_RECORDS, MOST_STAGED, REGISTERS,
    SHORTEST_LOG, SHORTEST_SESSION, STAGED_ADDRESS, STAGED_LENGTH, STAGED_ZONE, STATE, TRAILER,
    ZONE, ZONES,
};
use crate::log::{Entry, Log};
use crate::session::trailer;
use crate::staging::{IDLE, READY};

/// Splitmix64.
pub struct Rng(u64);

impl Rng {
    pub fn new(seed: u64) -> Rng {
        Rng(seed.wrapping_mul(0xD1B5_4A32_D192_ED03))
    }

    pub fn draw(&mut self) -> u64 {
        self.0 = self.0.wrapping_add(0x9E37_79B9_7F4A_7C15);
        let mut z = self.0;
        z = (z ^ (z >> 30)).wrapping_mul(0xBF58_476D_1CE4_E5B9);
        z = (z ^ (z >> 27)).wrapping_mul(0x94D0_49BB_1331_11EB);
        z ^ (z >> 31)
    }

    pub fn below(&mut self, limit: usize) -> usize {
        (self.draw() % limit as u64) as usize
    }

    pub fn byte(&mut self) -> u8 {
        self.draw() as u8
    }

    /// True this many times in a hundred.
    pub fn chance(&mut self, percent: usize) -> bool {
        self.below(100) < percent
    }

    pub fn pick<T: Copy>(&mut self, items: &[T]) -> T {
        items[self.below(items.len())]
    }

    pub fn bytes(&mut self, count: usize) -> Vec<u8> {
        (0..count).map(|_| self.byte()).collect()
    }
}

fn counter_value(rng: &mut Rng) -> u8 {
    let any = rng.byte();
    rng.pick(&[0xFF, 0xFF, 0xFF, 0xF0, 0x80, 0x01, 0x00, 0xA5, any, any, any])
}

/// A card with fuses of a stage; registers, counters and passwords of many patterns; and nothing to
/// finish.
pub fn card(rng: &mut Rng) -> Vec<u8> {
    let mut card = rng.bytes(FLAG);
    card.resize(CARD, IDLE);
    card[FUSES] = rng.pick(&[7, 6, 4, 0, 0]);
    let shared_set = rng.chance(30).then(|| rng.byte() & 0x1C);
    for zone in 0..ZONES {
        let any = rng.byte();
        let one_switch = !(1 << rng.pick(&[0, 1, 5, 6, 7]));
        let register = rng.pick(&[any, any, any | 0x20, any | 0x22, 0xFF, one_switch]);
        card[REGISTERS + zone] = match shared_set {
            Some(set) => register & 0xE3 | set,
            None => register,
        };
    }
    let alike = rng.chance(20).then(|| rng.bytes(3));
    let many_locked = rng.chance(10);
    for selector in 0..16 {
        let at = counter(selector);
        card[at] = if many_locked { rng.pick(&[0, 0x40]) } else { counter_value(rng) };
        if let Some(password) = &alike {
            card[at + 1..at + 4].copy_from_slice(password);
        }
    }
    if rng.chance(70) {
        card[counter(7)] |= 0x08;
    }
    card[AAC] = counter_value(rng);
    card
}

/// The same with any staging bytes, sometimes with a write to finish.
pub fn staged_card(rng: &mut Rng) -> Vec<u8> {
    let mut card = card(rng);
    card[STAGED_ZONE..].copy_from_slice(&rng.bytes(CARD - STAGED_ZONE));
    if rng.chance(12) {
        card[FLAG] = READY;
        card[STAGED_ZONE] &= 7;
        card[STAGED_ADDRESS] = address(rng);
        card[STAGED_LENGTH] = rng.below(MOST_STAGED + 1) as u8;
    }
    card
}

/// Gives a card staging bytes that no card has.
pub fn damage_staging(rng: &mut Rng, card: &mut [u8]) {
    card[FLAG] = READY;
    match rng.below(3) {
        0 => card[FLAG] = rng.pick(&[0x00, 0x01, 0x7E, 0x7F, 0xEF, 0xFC, 0xFD]),
        1 => card[STAGED_ZONE] = rng.pick(&[8, 9, 15, 16, 128, 255]),
        _ => card[STAGED_LENGTH] = rng.pick(&[9, 10, 16, 128, 255]),
    }
}

/// What keeps the zone closed in which two sealed cards differ.
#[derive(Clone, Copy, Debug)]
pub enum Closed {
    Password,
    Authentication,
}

/// Two sealed cards that differ only in what is closed: zone 2, and the passwords of its set, 5.
/// They have nothing to finish.
pub fn sealed_pair(rng: &mut Rng, closed: Closed) -> [Vec<u8>; 2] {
    let mut card = staged_card(rng);
    card[FLAG] = IDLE;
    card[FUSES] = 0;
    let any = rng.byte() & 0xE3 | 5 << 2;
    // Half of the zones may be written, if not read.
    let any = if rng.chance(50) { any | 0xA2 } else { any };
    let mut other = card.clone();
    other[2 * ZONE..3 * ZONE].copy_from_slice(&rng.bytes(ZONE));
    let register = match closed {
        Closed::Authentication => any & !0x20,
        Closed::Password => {
            for at in [counter(5) + 1, counter(13) + 1] {
                other[at..at + 3].copy_from_slice(&rng.bytes(3));
            }
            any & !0x40
        }
    };
    [card, other].map(|mut card| {
        card[REGISTERS + 2] = register;
        card
    })
}

/// Whether a record might open that zone: it presents one of the passwords, or accepts.
pub fn opens(closed: Closed, record: &[u8]) -> bool {
    match closed {
        Closed::Password => matches!(record, [10, 5 | 13, ..]),
        Closed::Authentication => matches!(record, [12, 1, ..]),
    }
}

/// A state that stands for something.
pub fn state(rng: &mut Rng) -> [u8; STATE] {
    let mut state = [0; STATE];
    state[0] = rng.byte() & 7;
    if rng.chance(80) {
        let any = rng.byte() & 15;
        (state[1], state[2]) = (1, rng.pick(&[7, any, any]));
    }
    state[3] = rng.pick(&[0, 1, 2, 2]);
    let any = rng.byte() % 11;
    state[4] = rng.pick(&[0, 0, 0, 1, 10, any]);
    state[5] = u8::from(rng.chance(15));
    if rng.chance(30) {
        state[6] = 1;
        state[7..].copy_from_slice(&cut(rng));
    }
    state
}

/// After how many cell writes a cut comes, and its junk.
fn cut(rng: &mut Rng) -> [u8; 2] {
    let any = rng.byte();
    let after = rng.pick(&[any % 5, any % 10, any % 24, any % 24, any]);
    [after, rng.pick(&[0x00, 0x01, 0xFE, 0xFF, any])]
}

/// A state that stands for nothing.
pub fn damaged_state(rng: &mut Rng) -> Vec<u8> {
    let mut state = state(rng).to_vec();
    match rng.below(10) {
        0 => state[0] = rng.pick(&[8, 16, 128, 255]),
        1 => state[1] = rng.pick(&[2, 3, 128, 255]),
        2 => (state[1], state[2]) = (0, rng.pick(&[1, 7, 15, 16, 255])),
        3 => (state[1], state[2]) = (1, rng.pick(&[16, 23, 32, 128, 255])),
        4 => state[3] = rng.pick(&[3, 4, 128, 255]),
        5 => state[4] = rng.pick(&[11, 12, 20, 128, 255]),
        6 => state[5] = rng.pick(&[2, 3, 128, 255]),
        7 => state[6] = rng.pick(&[2, 3, 128, 255]),
        8 => (state[6], state[7 + rng.below(2)]) = (0, rng.pick(&[1, 2, 128, 255])),
        _ => state.resize(rng.pick(&[0, 1, 4, 5, 6, 8, 10, 18]), 0),
    }
    state
}

fn verify(rng: &mut Rng, card: &[u8], selector: u8) -> Vec<u8> {
    let right = |selector| {
        let at = counter(selector);
        [card[at + 1], card[at + 2], card[at + 3]]
    };
    let mut password = right(selector);
    match rng.below(10) {
        0 | 1 => password[rng.below(3)] ^= 1 << rng.below(8),
        2 => password = right(selector ^ 8),
        3 => password = right(selector ^ 1 << rng.below(3)),
        _ => {}
    }
    [&[10, selector][..], &password].concat()
}

fn address(rng: &mut Rng) -> u8 {
    let any = rng.byte();
    let page_end = (any | 0x0F) - rng.pick(&[0, 1, 2]);
    rng.pick(&[any, any, page_end, any & 0xF0, 0, 0xFE, 0xFF])
}

fn configuration_address(rng: &mut Rng, state: &[u8]) -> u8 {
    let any = rng.byte() & 0x7F;
    let counter = (counter(any & 15) - CONFIGURATION) as u8;
    let boundary = rng.pick(&[0x0B, 0x0C, 0x0F, 0x10, 0x20, 0x2F, 0x30, 0x37, 0x38, 0x3F, 0x40]);
    rng.pick(&[any, any, counter, counter + 1, 0x10 + state[0], boundary, 0x7F])
}

/// What a host would do next to get at the selected zone.
fn helpful(rng: &mut Rng, card: &[u8], state: &[u8]) -> Vec<u8> {
    let register = card[REGISTERS + usize::from(state[0])];
    let set = register >> 2 & 7;
    if register & 0x20 == 0 && state[3] == 0 {
        return vec![11];
    }
    if register & 0x20 == 0 && state[3] == 1 {
        return [&[12, u8::from(rng.chance(85))][..], &rng.bytes(8)].concat();
    }
    if state[1] == 1 && state[2] == 7 && rng.chance(25) {
        return vec![9];
    }
    if state[1] == 0 || state[2] & 7 != set {
        let selector = rng.pick(&[set, set, set + 8, 7]);
        return verify(rng, card, selector);
    }
    let kind = rng.pick(&[4, 5]);
    of_kind(rng, card, state, kind)
}

fn of_kind(rng: &mut Rng, card: &[u8], state: &[u8], kind: u8) -> Vec<u8> {
    match kind {
        3 => vec![3, rng.byte() & 7],
        4 => {
            let short = 1 + rng.byte() % 20;
            let any = rng.byte();
            vec![4, address(rng), rng.pick(&[short, short, short, any, 0, 255])]
        }
        5 => {
            let data = write_data(rng);
            [&[5, address(rng), data.len() as u8], &data[..]].concat()
        }
        6 => {
            let from = configuration_address(rng, state);
            let most = 128 - usize::from(from);
            let count = match rng.below(3) {
                0 => most,
                1 => 1 + rng.below(most.min(8)),
                _ => 1 + rng.below(most),
            };
            vec![6, from, count as u8]
        }
        7 => {
            let data = write_data(rng);
            let from = configuration_address(rng, state);
            [&[7, from, data.len() as u8], &data[..]].concat()
        }
        10 => {
            let any = rng.byte() & 15;
            let set = card[REGISTERS + usize::from(state[0])] >> 2 & 7;
            let selector = rng.pick(&[any, set, set + 8, 7]);
            verify(rng, card, selector)
        }
        12 => [&[12, rng.byte() & 1][..], &rng.bytes(8)].concat(),
        13 => vec![13, 1 + rng.byte() % 20],
        15 => {
            let count = 1 + rng.below(MOST_STAGED);
            [&[15, address(rng), count as u8], &rng.bytes(count)[..]].concat()
        }
        16 => [&[16][..], &cut(rng)].concat(),
        kind => vec![kind],
    }
}

fn write_data(rng: &mut Rng) -> Vec<u8> {
    let any = 1 + rng.below(16);
    let count = rng.pick(&[any, any, 1, 2, 4, 16]);
    rng.bytes(count)
}

/// What a host sends while it lets a busy card write: mostly a wait, most often long enough.
fn pastime(rng: &mut Rng, busy: u8) -> Vec<u8> {
    let part = 1 + rng.byte() % busy;
    let any = 1 + rng.byte() % 255;
    match rng.below(40) {
        0 => vec![1],
        1..=4 => vec![14],
        _ => vec![13, rng.pick(&[10, 10, 10, busy, busy, 11, any, part])],
    }
}

/// How many times in a hundred a host minds that the card is busy.
pub fn patience(rng: &mut Rng) -> usize {
    rng.pick(&[100, 100, 90, 50, 10])
}

/// A sound record, chosen for this card and state by a host of this patience.
pub fn record(rng: &mut Rng, card: &[u8], state: &[u8], patience: usize) -> Vec<u8> {
    let record = of_first_fourteen(rng, card, state, patience);
    or_torn(rng, card, state, record)
}

/// The record, or what a host sends instead that expects cuts: power where it is missing, another
/// cut, a staged write.
fn or_torn(rng: &mut Rng, card: &[u8], state: &[u8], record: Vec<u8>) -> Vec<u8> {
    let torn = state[5] == 1 || card[FLAG] == READY;
    let staged = matches!(record[..], [5, _, 1..=8, ..]);
    let armed = state[6] == 1 && state[4] == 0;
    match rng.below(100) {
        0..35 if torn => vec![1],
        35..60 if torn => of_kind(rng, card, state, 16),
        60..65 if torn => of_kind(rng, card, state, 13),
        65..70 if torn => of_kind(rng, card, state, 14),
        0..40 if staged => [&[15][..], &record[1..]].concat(),
        0..30 if armed => of_kind(rng, card, state, 15),
        95.. => of_kind(rng, card, state, 16),
        _ => record,
    }
}

/// A sound record of kinds 1 to 14, chosen for this card and state.
pub fn of_first_fourteen(rng: &mut Rng, card: &[u8], state: &[u8], patience: usize) -> Vec<u8> {
    if state[4] > 0 && rng.chance(patience) {
        return pastime(rng, state[4]);
    }
    if rng.chance(4) {
        let kind = rng.pick(&[13, 14]);
        return of_kind(rng, card, state, kind);
    }
    of_first_twelve(rng, card, state)
}

/// A sound record of kinds 1 to 12, chosen for this card and state; power ends each busy time.
pub fn power_cycled(rng: &mut Rng, card: &[u8], state: &[u8]) -> Vec<u8> {
    if state[4] > 0 {
        vec![1]
    } else {
        of_first_twelve(rng, card, state)
    }
}

fn of_first_twelve(rng: &mut Rng, card: &[u8], state: &[u8]) -> Vec<u8> {
    if rng.chance(35) {
        return helpful(rng, card, state);
    }
    let kind = rng.pick(&[
        1, 2, 3, 3, 3, 4, 4, 4, 4, 4, 5, 5, 5, 5, 5, 6, 6, 6, 7, 7, 7, 7, 8, 9, 9, 10, 10, 10, 10,
        11, 12, 12,
    ]);
    of_kind(rng, card, state, kind)
}

/// A sound record, most often one that selects, reads or writes a zone, with half the patience.
fn zone_record(rng: &mut Rng, card: &[u8], state: &[u8], patience: usize) -> Vec<u8> {
    if state[4] > 0 && rng.chance(patience / 2) {
        return pastime(rng, state[4]);
    }
    let kind = rng.pick(&[1, 2, 3, 3, 3, 3, 4, 4, 4, 4, 5, 5, 5, 6, 7]);
    let record = of_kind(rng, card, state, kind);
    or_torn(rng, card, state, record)
}

/// A record with something wrong: its kind, a field, its length.
pub fn damaged_record(rng: &mut Rng, record: &[u8]) -> Vec<u8> {
    let mut record = record.to_vec();
    match rng.below(6) {
        0 => record[0] = rng.pick(&[0, 17, 18, 0x80, 0x84, 0x8F, 0xFF]),
        1 => record.truncate(rng.below(record.len())),
        2 => {
            let more = 1 + rng.below(3);
            record.extend(rng.bytes(more));
        }
        3 => {
            let at = rng.below(record.len());
            record[at] = rng.byte();
        }
        4 => {
            #[rustfmt::skip]
            let bad: [&[u8]; 15] = [
                &[3, 8], &[5, 0, 0], &[5, 9, 17, 1], &[6, 0x80, 1], &[6, 0x7F, 2], &[6, 0, 0],
                &[6, 1, 0xFF], &[7, 0x80, 1, 1], &[7, 0, 0], &[7, 0, 17], &[10, 16], &[12, 2],
                &[13, 0], &[15, 0, 0], &[15, 9, 9, 1],
            ];
            record = rng.pick(&bad).to_vec();
        }
        _ => {
            #[rustfmt::skip]
            let cut: [&[u8]; 12] = [
                &[3], &[4, 1], &[6, 0xFF], &[7, 0xFF], &[5, 0, 2, 1], &[10, 1, 1, 1], &[12, 1], &[],
                &[13], &[15, 0], &[15, 0, 8, 1], &[16, 0],
            ];
            record = rng.pick(&cut).to_vec();
        }
    }
    record
}

/// A sound session with about this many records, sent with changing patience.
pub fn session(rng: &mut Rng, records: usize) -> Vec<u8> {
    with_patience(rng, records, record)
}

/// The same, most of its records about zones.
pub fn zone_session(rng: &mut Rng, records: usize) -> Vec<u8> {
    with_patience(rng, records, zone_record)
}

fn with_patience(
    rng: &mut Rng,
    records: usize,
    next: fn(&mut Rng, &[u8], &[u8], usize) -> Vec<u8>,
) -> Vec<u8> {
    let mut now = patience(rng);
    let card = staged_card(rng);
    session_of(rng, card, records, |rng, card, state| {
        if rng.chance(3) {
            now = patience(rng);
        }
        next(rng, card, state, now)
    })
}

/// A session on a card, with records that are chosen, one after the other, by `next`.
pub fn session_of(
    rng: &mut Rng,
    mut card: Vec<u8>,
    records: usize,
    mut next: impl FnMut(&mut Rng, &[u8], &[u8]) -> Vec<u8>,
) -> Vec<u8> {
    let mut session = card.clone();
    let text = rng.pick(&[0, 0, 1, 7, 40]);
    session.extend(rng.bytes(text));
    let start = session.len();
    let mut state = [0; STATE];
    let mut count = 0;
    while count < records {
        let record = next(rng, &card, &state);
        if session.len() + record.len() + TRAILER > LONGEST_SESSION {
            break;
        }
        let done = command(&mut card, &mut state, &record, &mut [0; ZONE]);
        debug_assert!(done.is_ok());
        session.extend_from_slice(&record);
        count += 1;
    }
    session.extend_from_slice(&trailer(start, count as u16));
    session
}

/// The start and the count that a trailer tells.
fn told(session: &[u8]) -> (u32, u16) {
    let trailer = &session[session.len() - TRAILER..];
    let start = u32::from_le_bytes([trailer[0], trailer[1], trailer[2], trailer[3]]);
    (start, u16::from_le_bytes([trailer[4], trailer[5]]))
}

fn set_trailer(session: &mut [u8], start: u32, count: u16) {
    let at = session.len() - TRAILER;
    session[at..at + 4].copy_from_slice(&start.to_le_bytes());
    session[at + 4..at + 6].copy_from_slice(&count.to_le_bytes());
}

/// Gives a sound session as much more free text as makes it this long, unless it is longer.
pub fn lengthen(rng: &mut Rng, session: &mut Vec<u8>, length: usize) {
    let (start, count) = told(session);
    let more = length.saturating_sub(session.len());
    session.splice(start as usize..start as usize, rng.bytes(more));
    set_trailer(session, start + more as u32, count);
}

/// Gives a session a trailer that is not its own: other bytes, or one thing in it wrong.
pub fn lose_trailer(rng: &mut Rng, session: &mut [u8]) {
    let end = session.len() - TRAILER;
    let any = rng.bytes(TRAILER);
    match rng.below(6) {
        0 => session[end..].fill(rng.pick(&[0x00, 0x08, 0xFF])),
        1 => session[end..].copy_from_slice(&any),
        2 => session[end + 6 + rng.below(2)] ^= 1 << rng.below(8),
        3 => session[end..end + 4].copy_from_slice(&any[..4]),
        4 => session[end + 4..end + 6].copy_from_slice(&any[4..6]),
        _ => set_trailer(session, rng.pick(&[0, CARD as u32, end as u32, u32::MAX]), u16::MAX),
    }
}

/// A session with one or more things wrong; now and then it is sound all the same.
pub fn damaged_session(rng: &mut Rng, session: &[u8]) -> Vec<u8> {
    let mut bytes = session.to_vec();
    damage(rng, &mut bytes);
    while bytes.len() >= SHORTEST_SESSION && rng.chance(25) {
        damage(rng, &mut bytes);
    }
    bytes
}

fn damage(rng: &mut Rng, bytes: &mut Vec<u8>) {
    let end = bytes.len() - TRAILER;
    let (start, count) = told(bytes);
    let records = end.saturating_sub(start as usize);
    match rng.below(13) {
        0 => bytes.truncate(rng.below(bytes.len())),
        1 => {
            let (short, long) = (SHORTEST_SESSION - 1, LONGEST_SESSION + 1);
            bytes.resize(rng.pick(&[0, TRAILER - 1, TRAILER, short, long, 70_000]), 0);
        }
        2 => bytes[end + 6 + rng.below(2)] ^= 1 << rng.below(8),
        3 => {
            let far = end as u32 + 1;
            let low = CARD as u32 - 1;
            let start = rng.pick(&[0, low, far, far + 7, start ^ 0x1_0000, start | 1 << 31]);
            set_trailer(bytes, start, count);
        }
        4 => {
            let many = rng.pick(&[MOST_RECORDS + 1, MOST_RECORDS + 2, 0x8000, 0xFFFF]);
            set_trailer(bytes, start, many);
        }
        5 => bytes[FUSES] = rng.pick(&[1, 2, 3, 5, 8, 15, 0x87, 0x80, 255]),
        6 => set_trailer(bytes, start, count.wrapping_add(1)),
        7 => set_trailer(bytes, start, count.saturating_sub(1)),
        8 => {
            let moved = start.wrapping_add(rng.below(records + 1) as u32);
            set_trailer(bytes, moved, count);
        }
        9 => damage_staging(rng, bytes),
        10 | 11 if records > 0 => {
            let at = start as usize + rng.below(records);
            bytes[at] = rng.byte();
        }
        _ => {
            let broken = damaged_record(rng, &[4, 0, 1]);
            bytes.splice(end..end, broken);
            set_trailer(bytes, start, count.wrapping_add(1));
        }
    }
}

fn entries(log: &[u8]) -> Vec<Entry> {
    let opened = Log::open(log).expect("the log is sound");
    opened.entries().map(|entry| entry.expect("the entries are sound")).collect()
}

/// What a sound log would be in the layout that no log has any more: no entry names a zone, and the
/// mark is another.
pub fn without_zones(log: &[u8]) -> Vec<u8> {
    let plain = |e: &Entry| entry(e.kind, None, &log[e.response.clone()]);
    let entries = entries(log).iter().map(plain).collect::<Vec<_>>().concat();
    let (card, trailer) = log[log.len() - SHORTEST_LOG..].split_at(CARD);
    let card_at = (entries.len() as u32).to_le_bytes();
    [&entries, card, &card_at, &trailer[4..6], &[0x4C, 0x4F]].concat()
}

/// A zone byte changed, dropped or put in, and the card's place told rightly.
fn damage_zone(rng: &mut Rng, bytes: &mut Vec<u8>) {
    let entries = entries(bytes);
    if entries.is_empty() {
        return;
    }
    let entry = &entries[rng.below(entries.len())];
    let at = entry.response.start;
    match rng.below(3) {
        0 if entry.zone.is_some() => bytes[at - 1] = rng.byte(),
        1 if entry.zone.is_some() => {
            bytes.remove(at - 1);
        }
        _ => bytes.insert(at, rng.byte() & 7),
    }
    let (card_at, end) = (bytes.len() - SHORTEST_LOG, bytes.len() - TRAILER);
    bytes[end..end + 4].copy_from_slice(&(card_at as u32).to_le_bytes());
}

/// A log with something wrong; now and then it is sound all the same.
pub fn damaged_log(rng: &mut Rng, log: &[u8]) -> Vec<u8> {
    let mut bytes = log.to_vec();
    let card_at = bytes.len() - SHORTEST_LOG;
    match rng.below(11) {
        0 => bytes.truncate(rng.below(bytes.len())),
        1 => bytes.extend(rng.bytes(1)),
        2 => bytes[card_at + FUSES] = rng.byte(),
        3 => {
            let at = bytes.len() - 1 - rng.below(TRAILER);
            bytes[at] ^= 1 << rng.below(8);
        }
        4 => {
            // An entry more or fewer than the count says.
            let at = bytes.len() - 4;
            bytes[at] = bytes[at].wrapping_add(rng.pick(&[1, 255]));
        }
        5 => {
            // The mark of the other layout, that no log has any more.
            let at = bytes.len() - 1;
            bytes[at] ^= 0x4F ^ 0x50;
        }
        6 => damage_zone(rng, &mut bytes),
        7 => damage_staging(rng, &mut bytes[card_at..]),
        8 if card_at > 0 => {
            bytes.remove(rng.below(card_at));
        }
        9 if card_at > 0 => bytes[rng.below(card_at)] ^= 0x80,
        _ if card_at > 0 => {
            let at = rng.below(card_at);
            bytes[at] = rng.byte();
        }
        _ => bytes.clear(),
    }
    bytes
}
