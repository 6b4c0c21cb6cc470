//! Staged writes on both: cuts at every cell of every write, and again in the finishing, by single
//! commands and in sessions; every kind on cards that are off, ready or busy; every short list of
//! calls; staging bytes and states of every value.

use second::author::{on, Author};
use second::gen::Rng;
use second::layout::{CONFIGURATION, FLAG, REGISTERS, SHORTEST_LOG, STAGED_VALUES, STATE};
use second::session::trailer;
use second::staging::{IDLE, READY};
use second::writer::Parts;

use crate::busy::{response_length, some_of_each};
use crate::zones::follow;
use crate::{accepted, both, marked_card, Met, FIXED, STAGES};

/// What the cell holds at which power is cut; of the flag bit 0 alone counts.
const JUNK: [u8; 5] = [0x00, 0x01, 0xFE, 0xFF, 0x5A];

/// Addresses at which writes begin: in a page, at its end, at a zone's end.
const ADDRESSES: [u8; 5] = [0x00, 0x0F, 0x3F, 0x7A, 0xFF];

/// The state of a card that was cut off.
const OFF: [u8; STATE] = [0, 0, 0, 0, 0, 1, 0, 0, 0];

/// Whether the staging bytes of a card are good.
pub fn sound(card: &[u8]) -> bool {
    match card[FLAG..STAGED_VALUES] {
        [flag, zone, _, length] => flag == 0xFF || flag == 0xFE && zone <= 7 && length <= 8,
        _ => false,
    }
}

/// A card and its state.
#[derive(Clone)]
struct Torn {
    card: Vec<u8>,
    state: [u8; STATE],
}

impl Torn {
    fn new(fuses: u8, register: u8, state: [u8; 5]) -> Torn {
        let (mut card, state) = (marked_card(fuses), on(state));
        card[REGISTERS + usize::from(state[0])] = register;
        Torn { card, state }
    }

    fn ready(mut self, zone: u8, address: u8, values: &[u8]) -> Torn {
        let head = [READY, zone, address, values.len() as u8];
        self.card[FLAG..STAGED_VALUES].copy_from_slice(&head);
        self.card[STAGED_VALUES..][..values.len()].copy_from_slice(values);
        self
    }

    fn is_off(&self) -> bool {
        self.state[5] == 1
    }

    /// A record on both that is to be answered with its own kind and nothing else.
    fn call(&self, record: &[u8]) -> Torn {
        let mut then = self.clone();
        let result = both::command(FIXED, &mut then.card, &mut then.state, record, 0);
        assert_eq!(result, accepted(record[0], 0, 0), "{record:02X?}");
        then
    }

    fn cut(&self, after: usize, junk: u8) -> Torn {
        self.call(&[16, after as u8, junk])
    }

    fn power(&self) -> Torn {
        self.call(&[1])
    }
}

/// Where the bytes of a write go.
fn places(zone: u8, address: u8, n: usize) -> Vec<usize> {
    let page = 256 * usize::from(zone) + usize::from(address & 0xF0);
    (0..n).map(|i| page + (usize::from(address) + i) % 16).collect()
}

/// A write to a card that may be written, and the zones as it leaves them.
struct Write {
    before: Torn,
    record: Vec<u8>,
    new: Vec<u8>,
    n: usize,
}

impl Write {
    fn new(before: Torn, clears: bool, address: u8, n: usize) -> Write {
        let data: Vec<u8> = (0..n).map(|i| 0x3C ^ (0x1B * i as u8)).collect();
        let mut new = before.card[..FLAG].to_vec();
        for (place, byte) in places(before.state[0], address, n).into_iter().zip(&data) {
            new[place] = if clears { new[place] & byte } else { *byte };
        }
        let record = [&[15, address, n as u8], &data[..]].concat();
        Write { before, record, new, n }
    }

    /// The write, with a cut armed.
    fn torn(&self, after: usize, junk: u8) -> Torn {
        let torn = self.before.cut(after, junk).call(&self.record);
        let mut busy = self.before.state;
        busy[4] = 10;
        assert_eq!(torn.state, if after < 2 * self.n + 5 { OFF } else { busy }, "{after}");
        torn
    }

    /// Expects of a card that is on that all named bytes are old or all are new, and all others old.
    fn survives(&self, then: &Torn) {
        assert!(!then.is_off() && then.card[FLAG] == IDLE);
        let zones = &then.card[..FLAG];
        assert!(zones == &self.before.card[..FLAG] || zones == self.new, "{:02X?}", self.record);
    }
}

/// Every write of every length to every sort of card that may be written.
fn writes() -> Vec<Write> {
    let cards = [
        (Torn::new(7, 0xFF, [0, 0, 0, 0, 0]), false),
        (Torn::new(7, 0x00, [7, 1, 9, 1, 0]), false),
        (Torn::new(0, 0xFF, [3, 0, 0, 0, 0]), false),
        (Torn::new(0, 0xFE, [4, 1, 13, 2, 0]), true),
        (Torn::new(6, 0xF6, [5, 1, 5, 0, 0]), true),
        (Torn::new(4, 0x57, [6, 1, 5, 2, 0]), false),
    ];
    let addressed = |(card, clears): (Torn, bool)| {
        let each = ADDRESSES.into_iter().flat_map(|a| (1..=8).map(move |n| (a, n)));
        each.map(move |(address, n)| Write::new(card.clone(), clears, address, n))
    };
    cards.into_iter().flat_map(addressed).collect()
}

#[test]
fn every_cut_of_every_write() {
    for write in writes() {
        let cells = 2 * write.n + 5;
        for after in (0..=cells + 2).chain([128, 254, 255]) {
            for junk in JUNK {
                let torn = write.torn(after, junk);
                let armed = torn.cut(255, junk).power();
                for then in [torn.power(), armed] {
                    write.survives(&then);
                    // The flag is the cell behind the values; with bit 0 clear it is raised there.
                    let flag = write.n + 3;
                    let raised = after > flag || after == flag && junk & 1 == 0;
                    let zones = if raised { &write.new } else { &write.before.card[..FLAG] };
                    assert!(then.card[..FLAG] == *zones, "{after} of {cells}, {junk:02X}");
                }
            }
        }
        write.survives(&write.before.call(&write.record));
    }
}

/// Cuts the finishing at every cell, over and over, and finishes it after each cut.
fn cut_again(write: &Write, torn: &Torn, more: usize) {
    write.survives(&torn.power());
    if more == 0 || torn.card[FLAG] == IDLE {
        return;
    }
    for (after, junk) in (0..=write.n + 2).flat_map(|k| JUNK.map(|junk| (k, junk))) {
        let then = torn.cut(after, junk).power();
        assert_eq!(then.state, if after < write.n + 1 { OFF } else { [0; STATE] }, "{after}");
        // The third time with two sorts of junk.
        if more > 1 || junk < 2 {
            cut_again(write, &then, more - 1);
        }
    }
}

#[test]
fn every_cut_of_every_finishing() {
    for write in writes() {
        let n = write.n;
        // Once at each of these places, and twice for two of the lengths.
        let more = if [2, 3].contains(&n) { 2 } else { 1 };
        for (after, junk) in [(n + 3, 0xFE), (n + 4, 0x99), (2 * n + 3, 0x99), (2 * n + 4, 0x00)] {
            let torn = write.torn(after, junk);
            assert_eq!(torn.card[FLAG], READY);
            cut_again(&write, &torn, more);
        }
    }
}

#[test]
fn many_cuts_one_after_another() {
    let mut rng = Rng::new(16);
    for write in writes() {
        let mut torn = write.torn(write.n + 4, 0x77);
        for _ in 0..40 {
            // At the flag, which is to stay raised, or before it.
            let after = rng.below(write.n + 1);
            let junk = if after == write.n { rng.byte() & 0xFE } else { rng.byte() };
            torn = torn.cut(after, junk).power();
            assert!(torn.is_off() && torn.card[FLAG] == READY);
        }
        write.survives(&torn.power());
    }
}

#[test]
fn every_cut_in_a_session() {
    let mut met = Met::default();
    for (n, clears) in (1..=8).flat_map(|n| [(n, false), (n, true)]) {
        let data: Vec<u8> = (0..n).map(|i| 0x8F - 3 * i).collect();
        let register = if clears { 0xFE } else { 0xFF };
        let author = Author::new(0).put_register(3, register).put_zone(3, 0x30, &[0x55; 16]);
        for (after, junk) in (0..=2 * n + 6).chain([255]).flat_map(|k| JUNK.map(|junk| (k, junk))) {
            let author = author.clone().select(3).cut(after, junk).staged_write(0x3D, &data);
            let author = author.read(0x3D, 3).poll();
            for again in 0..=n + 2 {
                let author = author.clone().cut(again, !junk).power().read(0x3D, 3);
                let session = author.power().select(3).read(0x30, 16).session();
                let (result, space) = both::run(FIXED, &session, SHORTEST_LOG + 100);
                let log = &space[..(result >> 8) as usize];
                let mut new = [0x55; 16];
                for (i, byte) in data.iter().enumerate() {
                    let new = &mut new[(0x0D + i) % 16];
                    *new = if clears { *new & byte } else { *byte };
                }
                let read = &log[log.len() - SHORTEST_LOG - 16..log.len() - SHORTEST_LOG];
                assert!(read == [0x55; 16] || read == new, "{n}, {after}, {again}, {read:02X?}");
                met.note(if read == new { "new" } else { "old" });
                if junk == 0x5A || again == n {
                    follow(FIXED, &session, &mut met);
                }
            }
        }
    }
    met.require("old", 1000);
    met.require("new", 1000);
}

#[test]
fn every_forbidden_staged_write() {
    let cards = [
        (6, 0xFF, [2, 0, 0, 0, 0]),
        (6, 0xFF, [2, 1, 5, 2, 0]),
        (4, 0xF7, [2, 1, 7, 2, 0]),
        (0, 0x7F, [2, 1, 15, 2, 0]),
        (0, 0xFD, [2, 1, 7, 2, 0]),
        (0, 0xDF, [2, 1, 7, 1, 0]),
    ];
    for (fuses, register, state) in cards {
        for (address, n) in ADDRESSES.into_iter().flat_map(|a| (1..=8).map(move |n| (a, n))) {
            let record = [&[15, address, n][..], &vec![0; n.into()]].concat();
            let plain = Torn::new(fuses, register, state);
            for before in [plain.clone(), plain.cut(0, 0x5A), plain.cut(255, 1)] {
                let then = before.call(&record);
                let mut busy = before.state;
                busy[4] = 10;
                assert!(then.card == before.card);
                assert_eq!(then.state, busy, "the arming is kept");
                // It comes with the next write that is allowed.
                let mut opened = then.call(&[1]);
                opened.card[REGISTERS] = 0xFF;
                if fuses == 0 {
                    let cut = before.state[6] == 1 && before.state[7] == 0;
                    assert_eq!(opened.call(&record).is_off(), cut);
                }
            }
        }
    }
}

#[test]
fn every_kind_while_off_or_ready_or_busy() {
    let armings = [[0, 0, 0], [1, 0, 0x5A], [1, 3, 0xFF], [1, 255, 0x01]];
    for fuses in STAGES {
        let idle = Torn::new(fuses, 0xFF, [1, 1, 7, 1, 0]);
        let ready = |values| idle.clone().ready(6, 0x1E, values);
        for before in [idle.clone(), ready(&[]), ready(b"new"), ready(b"finished")] {
            for (busy, off) in [0, 1, 10].into_iter().flat_map(|busy| [(busy, 0), (busy, 1)]) {
                for arming in armings {
                    let mut before = before.clone();
                    (before.state[4], before.state[5]) = (busy, off);
                    before.state[6..].copy_from_slice(&arming);
                    meet(&before);
                }
            }
        }
    }
}

/// Every kind on one card, with no space and with enough: what is to come of it.
fn meet(before: &Torn) {
    let torn = before.is_off() || before.card[FLAG] == READY;
    for (record, enough) in some_of_each().into_iter().flat_map(|r| [(r.clone(), false), (r, true)])
    {
        let needed = response_length(&record);
        let space = if enough { needed } else { 0 };
        let mut then = before.clone();
        let result = both::command(FIXED, &mut then.card, &mut then.state, &record, space);
        let heeded = match record[0] {
            1 | 16 => true,
            13 | 14 => !torn,
            _ => !torn && before.state[4] == 0,
        };
        if !heeded {
            assert_eq!(result, accepted(record[0] + 128, 0, 0), "{record:02X?}");
            assert!(then.card == before.card && then.state == before.state, "{record:02X?}");
        } else if space < needed {
            assert_eq!(result, 10, "{record:02X?}");
        } else {
            assert_eq!(result >> 32, record[0].into(), "{record:02X?}");
        }
        if let [16, after, junk] = record[..] {
            assert!(then.card == before.card && then.state[..6] == before.state[..6]);
            assert_eq!(then.state[6..], [1, after, junk]);
        }
    }
}

/// Every list of calls of this length over these records.
fn lists(before: &Torn, records: &[&[u8]], length: usize, met: &mut Met) {
    if length == 0 {
        return;
    }
    for record in records {
        let mut then = before.clone();
        let result = both::command(FIXED, &mut then.card, &mut then.state, record, 1);
        assert_eq!(result & 0xFF, 0, "good stays good: {record:02X?}");
        met.note(&format!("kind {}", result >> 32));
        met.note_if("cut", then.is_off() && !before.is_off());
        met.note_if("cut again", record[0] == 1 && then.is_off());
        met.note_if("off and idle", then.is_off() && then.card[FLAG] == IDLE);
        lists(&then, records, length - 1, met);
    }
}

#[test]
fn every_short_list_of_calls() {
    // Nine cells to write and three to finish; zone 1 may not be written.
    let records: [&[u8]; 9] = [
        &[1],
        &[3, 1],
        &[4, 0x1F, 1],
        &[13, 10],
        &[14],
        &[15, 0x1F, 2, 0x3C, 0x5A],
        &[16, 0, 0x99],
        &[16, 2, 0xFF],
        &[16, 7, 0x66],
    ];
    let mut card = Torn::new(0, 0xFE, [0, 0, 0, 0, 0]);
    card.card[REGISTERS + 1] = 0xFD;
    let mut met = Met::default();
    for start in [card.clone(), card.clone().ready(2, 0xFF, b"ready"), card.ready(7, 0, b"")] {
        lists(&start, &records, 5, &mut met);
    }
    for kind in [1, 3, 4, 13, 14, 15, 16, 131, 132, 141, 142, 143] {
        met.require(&format!("kind {kind}"), 500);
    }
    for what in ["cut", "cut again", "off and idle"] {
        met.require(what, 100);
    }
}

#[test]
fn every_ready_write_is_finished() {
    let values = [0x11, 0x22, 0x33, 0x44, 0x55, 0x66, 0x77, 0x88];
    for (zone, address) in (0..8).flat_map(|zone| (0..=255).map(move |address| (zone, address))) {
        // No right is asked for.
        let fuses = STAGES[usize::from(address) % 4];
        for n in 0..=8 {
            let before = Torn::new(fuses, address, [5, 1, 3, 2, 4]);
            let before = before.ready(zone, address, &values[..n]);
            let mut expected = before.card.clone();
            expected[FLAG] = IDLE;
            for (place, value) in places(zone, address, n).into_iter().zip(values) {
                expected[place] = value;
            }
            let then = before.power();
            assert!(then.card == expected && then.state == [0; STATE]);
            let after = (usize::from(address) + n) % (n + 2);
            let torn = before.cut(after, address).power();
            assert_eq!(torn.state, if after < n + 1 { OFF } else { [0; STATE] });
            assert!(torn.power().card == expected);
        }
    }
}

/// The refusals of a card: of a command, a session, the writer, a log.
fn refusals(card: &[u8], whole: bool) -> [u64; 4] {
    let (mut lent, mut state) = (card.to_vec(), [0; STATE]);
    let commanded = both::command(FIXED, &mut lent, &mut state, &[1], 0) & 0xFF;
    let log = [card, &[0, 0, 0, 0, 0, 0, 0x4C, 0x50]].concat();
    let read = both::answer(FIXED, &log, 0);
    if !whole {
        return [commanded, commanded, commanded, read];
    }
    let session = [card, &trailer(card.len(), 0)].concat();
    let (ran, _) = both::run(FIXED, &session, SHORTEST_LOG);
    let input = Parts { card, title: &[], records: &[], count: 0 };
    let (written, _) = both::write_session(FIXED, input, &vec![0; session.len()]);
    [commanded, ran & 0xFF, written & 0xFF, read]
}

#[test]
fn every_value_of_the_staging_bytes() {
    let mut card = marked_card(6);
    let mut judge = |head: [u8; 4], whole: bool| {
        card[FLAG..STAGED_VALUES].copy_from_slice(&head);
        let expected = if sound(&card) { [0, 0, 0, 14] } else { [16, 16, 16, 13] };
        assert_eq!(refusals(&card, whole), expected, "{head:02X?}");
    };
    for flag in 0..=255 {
        for (zone, length) in [(0, 0), (7, 8), (8, 8), (7, 9), (255, 255), (3, 1), (8, 9)] {
            judge([flag, zone, flag, length], true);
        }
    }
    for (zone, length) in (0..=255).flat_map(|zone| (0..=255).map(move |length| (zone, length))) {
        let near = |n: u8| n < 10 || n.is_power_of_two() || n > 253;
        judge([READY, zone, length, length], near(zone) && near(length));
        if near(zone) && near(length) {
            judge([IDLE, zone, zone, length], true);
        }
    }
}

#[test]
fn every_arming_and_power_of_a_state() {
    let some = [0, 1, 2, 3, 16, 127, 128, 254, 255];
    let judge = |bytes: [u8; 4]| {
        let [off, armed, after, junk] = bytes;
        let good = off <= 1 && (armed == 1 || armed == 0 && after == 0 && junk == 0);
        for (record, kind) in [(&[1][..], 1), (&[16, 9, 9], 16), (&[3, 4], 131), (&[0], 6)] {
            let mut state = on([6, 1, 12, 2, 7]);
            state[5..].copy_from_slice(&bytes);
            let before = state;
            let result = both::command(FIXED, &mut marked_card(4), &mut state, record, 0);
            match kind {
                _ if !good => assert_eq!(result, 12, "{before:?}"),
                6 => assert_eq!(result, 6, "{before:?}"),
                _ => assert_eq!(result, accepted(kind, 0, 0), "{before:?}"),
            }
            match record[0] {
                1 if good => assert_eq!(state, [0, 0, 0, 0, 0, 0, armed, after, junk]),
                16 if good => assert_eq!(state[5..], [off, 1, 9, 9]),
                _ => assert_eq!(state, before),
            }
        }
    };
    for (off, armed) in some.into_iter().flat_map(|off| some.map(|armed| (off, armed))) {
        for (after, junk) in some.into_iter().flat_map(|after| some.map(|junk| (after, junk))) {
            judge([off, armed, after, junk]);
        }
    }
    for value in 0..=255 {
        for other in [0, 1, 255] {
            judge([value, other, 0, 0]);
            judge([other, value, 0, 0]);
            judge([0, 1, value, other]);
            judge([1, 1, other, value]);
            judge([0, 0, value, 0]);
            judge([1, 0, 0, value]);
        }
    }
}

#[test]
fn the_order_of_refusals() {
    // 5, 16, 12, the record; 5, 16, the records; 5, 16, 15.
    let heads = [[0xFD, 0, 0, 0], [0x7F, 0, 0, 0], [READY, 8, 0, 8], [READY, 7, 0, 9]];
    for (fuses, head) in [6, 5].into_iter().flat_map(|f| heads.map(|head| (f, head))) {
        let author = Author::new(fuses).put(FLAG, &head);
        let first = if fuses == 5 { 5 } else { 16 };
        let card = author.parts().card.to_vec();
        for record in
            [&[0][..], &[17], &[3, 8], &[15, 0, 9], &[16], &[1, 1], &[8], &[1], &[16, 0, 0]]
        {
            for mut state in [[0; STATE], on([8, 0, 0, 0, 0]), on([0, 0, 0, 0, 11]), OFF] {
                let result = both::command(FIXED, &mut card.clone(), &mut state, record, 0);
                assert_eq!(result, first, "{head:02X?}, {record:02X?}");
            }
            let author = author.clone().record(record);
            for space in [0, 3000] {
                assert_eq!(both::run(FIXED, &author.clone().session(), space).0, first);
            }
            for title in [0, 255, 256] {
                let title = vec![b'.'; title];
                let input = Parts { title: &title, ..author.parts() };
                assert_eq!(both::write_session(FIXED, input, &[0; 3000]).0, first);
            }
            for count in [4097, 1 << 32] {
                let input = Parts { count, ..author.parts() };
                assert_eq!(both::write_session(FIXED, input, &[0; 3000]).0, 4);
            }
        }
        assert_eq!(both::command(FIXED, &mut card[1..].to_vec(), &mut [8; 9], &[0], 0), 11);
    }
}

#[test]
fn what_is_staged_is_read_by_no_record() {
    // Two cards that differ in their staging bytes alone answer alike, and keep those bytes.
    let one = Torn::new(7, 0xFF, [3, 1, 7, 1, 0]);
    let mut other = one.clone();
    other.card[FLAG + 1..].fill(0x5A);
    for record in some_of_each().into_iter().filter(|record| record[0] != 15) {
        let [then, then_too] = [&one, &other].map(|before| {
            let mut t = before.clone();
            let answer = both::answered(FIXED, &mut t.card, &mut t.state, &record, 256);
            assert!(t.card[FLAG..] == before.card[FLAG..], "{record:02X?}");
            (answer, t.state, t.card[..FLAG].to_vec())
        });
        assert!(then == then_too, "{record:02X?}");
    }
    assert!(one.card[..CONFIGURATION] == other.card[..CONFIGURATION]);
}
