//! Writes that survive a pulled card: the staging bytes, the cells in their order, cuts at every one
//! of them, what finishes a write, what arms a cut and what spends it, cards that are off or have a
//! write to finish, and the refusals, logs and sealed cards of all this.

use super::busy::{logged, not_heeded};
use super::*;
use crate::layout::{FLAG, MOST_STAGED, STAGED_ADDRESS, STAGED_LENGTH, STAGED_VALUES, STAGED_ZONE};
use crate::staging::{IDLE, READY};
use crate::writer::Parts;

/// What the cell holds at which power is cut; of the flag bit 0 alone counts.
const JUNK: [u8; 5] = [0x00, 0x01, 0xFE, 0xFF, 0x5A];

/// Addresses at which writes begin: in a page, at its end, at a zone's end.
const ADDRESSES: [u8; 6] = [0x00, 0x0F, 0x1E, 0x7A, 0xF8, 0xFF];

/// A byte to be written, and its place in the card.
type Cell = (usize, u8);

/// The cells that finish a write: the zone's bytes, then the flag.
fn finishing(zone: u8, address: u8, values: &[u8]) -> Vec<Cell> {
    let page = 256 * usize::from(zone) + usize::from(address & 0xF0);
    let in_page = |i: u8| page + usize::from(address.wrapping_add(i) & 0x0F);
    let bytes = (0..).zip(values).map(|(i, &value)| (in_page(i), value));
    bytes.chain([(2177, 0xFF)]).collect()
}

/// All cells of a write: zone, address, length, values, flag, and those that finish it.
fn all_cells(zone: u8, address: u8, values: &[u8]) -> Vec<Cell> {
    let mut cells = vec![(2178, zone), (2179, address), (2180, values.len() as u8)];
    cells.extend((2181..).zip(values.iter().copied()));
    cells.push((2177, 0xFE));
    cells.extend(finishing(zone, address, values));
    assert_eq!(cells.len(), 2 * values.len() + 5);
    cells
}

/// The card that is left when power is cut after so many cells.
fn cut_card(card: &[u8], cells: &[Cell], after: usize, junk: u8) -> Vec<u8> {
    let mut card = card.to_vec();
    for &(place, value) in cells.iter().take(after) {
        card[place] = value;
    }
    if let Some(&(place, _)) = cells.get(after) {
        card[place] = if place == 2177 { 0xFE | junk & 1 } else { junk };
    }
    card
}

/// The state of a card that was cut off.
fn off() -> [u8; STATE] {
    let mut state = NONE;
    state[5] = 1;
    state
}

impl Table {
    /// Zones whose bytes tell their places apart.
    fn marked(mut self) -> Table {
        for (place, byte) in self.card[..CONFIGURATION].iter_mut().enumerate() {
            *byte = (place % 251) as u8 ^ 0xA0;
        }
        self
    }

    fn in_zone(mut self, zone: u8) -> Table {
        self.state[0] = zone;
        let register = self.card[REGISTERS];
        self.set(REGISTERS + usize::from(zone), register)
    }

    fn ready(mut self, zone: u8, address: u8, values: &[u8]) -> Table {
        let head = [READY, zone, address, values.len() as u8];
        self.card[FLAG..STAGED_VALUES].copy_from_slice(&head);
        self.card[STAGED_VALUES..][..values.len()].copy_from_slice(values);
        self
    }

    fn off(mut self) -> Table {
        self.state[5] = 1;
        self
    }

    fn armed(mut self, after: u8, junk: u8) -> Table {
        self.state[6..].copy_from_slice(&[1, after, junk]);
        self
    }

    fn is_off(&self) -> bool {
        self.state[5] == 1
    }

    /// A record that is to be answered with its own kind and nothing else.
    fn plainly(mut self, record: &[u8]) -> Table {
        let (reply, _) = self.at_once(record);
        assert_eq!(reply, Reply { kind: record[0], length: 0, tries: 0 }, "{record:02X?}");
        self
    }

    fn staged(self, address: u8, data: &[u8]) -> Table {
        self.plainly(&[&[15, address, data.len() as u8], data].concat())
    }

    fn power(self) -> Table {
        self.plainly(&[1])
    }

    fn cut(self, after: u8, junk: u8) -> Table {
        self.plainly(&[16, after, junk])
    }
}

/// A card whose selected zone may be written, and whether that only clears bits.
fn open_tables() -> [(Table, bool); 6] {
    let table = |fuses, register| Table::new(fuses).marked().register(register);
    [
        (table(7, 0xFF).in_zone(0), false),
        (table(7, 0x00).in_zone(7).active(9), false),
        (table(0, 0xFF).in_zone(3), false),
        (table(0, 0xFE).in_zone(4), true),
        (table(6, 0xF6).in_zone(5).active(5), true),
        (table(4, 0x57).in_zone(6).active(5).granted(), false),
    ]
}

/// A write to an open card: its data, and what its bytes are to hold in the end.
fn values(t: &Table, clears: bool, address: u8, n: usize) -> (Vec<u8>, Vec<u8>) {
    let data: Vec<u8> = (0..n).map(|i| 0x3C ^ (0x1B * i as u8)).collect();
    let places = finishing(t.state[0], address, &data);
    let merged = |&(place, new): &Cell| if clears { t.card[place] & new } else { new };
    let values = places[..n].iter().map(merged).collect();
    (data, values)
}

/// Every open card with a write of every length at every address: the card, the data, the values.
fn every_write(mut each: impl FnMut(&Table, u8, &[u8], &[u8])) {
    for (t, clears) in open_tables() {
        for (address, n) in ADDRESSES.into_iter().flat_map(|a| (1..=8).map(move |n| (a, n))) {
            let (data, values) = values(&t, clears, address, n);
            each(&t, address, &data, &values);
        }
    }
}

#[test]
fn staging_bytes_are_behind_the_fuses() {
    assert_eq!((CARD, FUSES, FLAG, MOST_STAGED), (2189, 2176, 2177, 8));
    assert_eq!((STAGED_ZONE, STAGED_ADDRESS), (2178, 2179));
    assert_eq!((STAGED_LENGTH, STAGED_VALUES), (2180, 2181));
    assert_eq!((IDLE, READY), (0xFF, 0xFE));
    assert_eq!(fresh_card(7)[FLAG..], [0xFF; 12]);
}

#[test]
fn nine_cells_by_hand() {
    // Two bytes at the end of a page of zone 1; only bits are cleared: F0 by 3C, 0F by AA.
    let t = Table::new(0).register(0xFE).in_zone(1).set(0x12F, 0xF0).set(0x120, 0x0F);
    #[rustfmt::skip]
    let cells = [
        (2178, 1), (2179, 0x2F), (2180, 2), (2181, 0x30), (2182, 0x0A), (2177, 0xFE),
        (0x12F, 0x30), (0x120, 0x0A), (2177, 0xFF),
    ];
    assert_eq!(all_cells(1, 0x2F, &[0x30, 0x0A]), cells);
    for after in 0..9 {
        let mut card = t.card.clone();
        for (place, value) in &cells[..after] {
            card[*place] = *value;
        }
        card[cells[after].0] = if cells[after].0 == 2177 { 0xFE } else { 0x66 };
        let torn = t.clone().cut(after as u8, 0x66).staged(0x2F, &[0x3C, 0xAA]);
        assert_eq!((&torn.card, torn.state), (&card, off()), "{after}");
        // The flag is down before the sixth cell, and at the sixth it is raised.
        let then = torn.power();
        assert_eq!(then.state, NONE);
        let bytes = (then.card[0x12F], then.card[0x120]);
        assert_eq!(bytes, if after < 5 { (0xF0, 0x0F) } else { (0x30, 0x0A) }, "{after}");
        assert_eq!(then.card[FLAG], 0xFF);
    }
    // With bit 0 of the junk set, the flag is not raised, or lowered at last.
    let lost = t.clone().cut(5, 0x67).staged(0x2F, &[0x3C, 0xAA]);
    assert_eq!((lost.card[FLAG], lost.card[0x12F], lost.card[0x120]), (0xFF, 0xF0, 0x0F));
    let done = t.clone().cut(8, 0x67).staged(0x2F, &[0x3C, 0xAA]);
    assert_eq!((done.card[FLAG], done.card[0x12F], done.card[0x120]), (0xFF, 0x30, 0x0A));
    assert!(lost.is_off() && done.is_off());
    let whole = t.cut(9, 0x66).staged(0x2F, &[0x3C, 0xAA]);
    assert_eq!(whole.state, on([1, 0, 0, 0, 10]));
    assert_eq!(whole.card, done.card);
}

#[test]
fn every_cut_of_every_write() {
    every_write(|t, address, data, values| {
        let cells = all_cells(t.state[0], address, values);
        let mut busy = t.state;
        busy[4] = 10;
        for (after, junk) in (0..=255).flat_map(|after| JUNK.map(|junk| (after, junk))) {
            let torn = t.clone().cut(after, junk).staged(address, data);
            assert_eq!(torn.card, cut_card(&t.card, &cells, after.into(), junk));
            let cut = usize::from(after) < cells.len();
            assert_eq!(torn.state, if cut { off() } else { busy });
        }
        let uncut = t.clone().staged(address, data);
        assert_eq!(uncut.card, cut_card(&t.card, &cells, cells.len(), 0));
        assert_eq!(uncut.state, busy);
    });
}

#[test]
fn every_cut_of_every_finishing() {
    every_write(|t, address, _, values| {
        let t = t.clone().ready(t.state[0], address, values);
        let cells = finishing(t.state[0], address, values);
        let mut next = t.clone();
        for (after, junk) in (0..=values.len() as u8 + 3).flat_map(|k| JUNK.map(|junk| (k, junk))) {
            let torn = t.clone().cut(after, junk).power();
            assert_eq!(torn.card, cut_card(&t.card, &cells, after.into(), junk));
            assert_eq!(torn.state, if usize::from(after) < cells.len() { off() } else { NONE });
            // One cut after another, until the flag is lowered.
            next = next.cut(after, junk).power();
            assert!(next.card[FLAG] == READY || next.card == cut_card(&t.card, &cells, 99, 0));
        }
        let uncut = t.clone().power();
        assert_eq!((&uncut.card, uncut.state), (&cut_card(&t.card, &cells, 99, 0), NONE));
    });
}

/// Whether a card that is on has kept or got all bytes of a write, and kept all others.
fn survived(t: &Table, old: &[u8], cells: &[Cell]) -> bool {
    let new = cut_card(old, cells, cells.len(), 0);
    !t.is_off() && [old, &new].iter().any(|card| t.card[..FLAG] == card[..FLAG])
}

/// Finishes a write after cuts of the finishing at every cell, up to so many one after another.
fn finish(t: &Table, more: u32, old: &[u8], cells: &[Cell]) {
    assert!(survived(&t.clone().power(), old, cells));
    if more > 0 && t.is_off() {
        let n = (cells.len() - 5) / 2;
        for (after, junk) in (0..=n as u8 + 2).flat_map(|k| [0x00, 0xFF].map(|junk| (k, junk))) {
            finish(&t.clone().cut(after, junk).power(), more - 1, old, cells);
        }
    }
}

#[test]
fn named_bytes_are_all_old_or_all_new() {
    every_write(|t, address, data, values| {
        let cells = all_cells(t.state[0], address, values);
        // Cut three times at one address, once at the others.
        let more = if address == 0x1E && data.len() % 3 == 0 { 2 } else { 1 };
        for (after, junk) in (0..=cells.len() as u8).flat_map(|k| JUNK.map(|junk| (k, junk))) {
            let torn = t.clone().armed(after, junk).staged(address, data);
            finish(&torn, more, &t.card, &cells);
        }
    });
}

#[test]
fn named_bytes_are_all_old_or_all_new_whatever_is_sent() {
    let mut rng = gen::Rng::new(7);
    let (mut cut, mut again) = (0, 0);
    for _ in 0..40_000 {
        let mut t = Table { card: gen::staged_card(&mut rng), state: gen::state(&mut rng) };
        (t.card[FLAG], t.state[4], t.state[5]) = (IDLE, 0, 0);
        let (address, n) = (rng.byte(), 1 + rng.below(MOST_STAGED));
        let data = rng.bytes(n);
        let before = t.clone();
        t = t.staged(address, &data);
        let register = before.card[REGISTERS + usize::from(before.state[0])];
        let clears = before.card[FUSES] != 7 && register & 1 == 0;
        let places = finishing(before.state[0], address, &data);
        let merged = |&(place, new): &Cell| if clears { before.card[place] & new } else { new };
        let values: Vec<u8> = places[..n].iter().map(merged).collect();
        let cells = all_cells(before.state[0], address, &values);
        cut += usize::from(t.is_off());
        for _ in 0..500 {
            if !t.is_off() {
                break;
            }
            let mut record = gen::record(&mut rng, &t.card, &t.state, 50);
            if rng.chance(10) {
                record = gen::damaged_record(&mut rng, &record);
            }
            let reply = command(&mut t.card, &mut t.state, &record, &mut [0; 8]);
            again += usize::from(reply.is_ok_and(|reply| reply.kind == 1) && t.is_off());
        }
        assert!(survived(&t, &before.card, &cells));
    }
    assert!(cut > 1000 && again > 100, "{cut}, {again}");
}

#[test]
fn named_bytes_are_all_old_or_all_new_in_a_session() {
    for (n, junk) in (1..=8).flat_map(|n| JUNK.map(|junk| (n, junk))) {
        for (after, again) in (0..=2 * n + 5).flat_map(|k| (0..=n + 1).map(move |again| (k, again)))
        {
            let data: Vec<u8> = (0..n).map(|i| 0x81 + i).collect();
            let author = Author::new(0).put_zone(3, 0x30, &[0x55; 16]).select(3);
            let author = author.cut(after, junk).staged_write(0x3D, &data).read(0x3D, 3);
            let author = author.cut(again, junk).power().read(0x3D, 3).power();
            let session = author.select(3).read(0x30, 16).session();
            let mut log = vec![0; 3000];
            let length = run(&session, &mut log).unwrap();
            let read = log::answer(&log[..length], 9).unwrap();
            let mut new = [0x55; 16];
            for (i, &byte) in data.iter().enumerate() {
                new[(0x0D + i) % 16] = byte;
            }
            assert!(read == [0x55; 16] || read == new, "{n}, {after}, {again}: {read:02X?}");
            // The flag is the cell behind the values; with bit 0 clear it is raised there.
            let flag = n + 3;
            let raised = after > flag || after == flag && junk & 1 == 0;
            assert_eq!(read == new, raised, "{n}, {after}, {junk:02X}");
        }
    }
}

#[test]
fn an_uncut_staged_write_stores_what_a_write_stores() {
    let states = (0..17).flat_map(|a| (0..3).map(move |auth| (a, auth)));
    for (active, authentication) in states {
        for (fuses, register) in
            [7, 6, 4, 0].into_iter().flat_map(|f| (0..=255).map(move |r| (f, r)))
        {
            let mut t = Table::new(fuses).marked().register(register);
            t = if active < 16 { t.active(active) } else { t };
            t.state[3] = authentication;
            let plain = t.clone().plainly(&[5, 0x1D, 4, 0x3C, 0x5A, 0x96, 0x0F]);
            let staged = t.clone().staged(0x1D, &[0x3C, 0x5A, 0x96, 0x0F]);
            assert_eq!(plain.card[..FLAG], staged.card[..FLAG], "{register:02X} at {fuses}");
            assert_eq!(plain.state, staged.state);
            if plain.card == t.card {
                assert_eq!(staged.card, t.card, "nothing is staged where nothing may be written");
            } else {
                assert_eq!(staged.card[FLAG..STAGED_VALUES], [0xFF, 0, 0x1D, 4]);
            }
        }
    }
}

#[test]
fn values_beyond_the_length_stay() {
    let t = Table::new(7).ready(0, 0, b"eightfld").power();
    for n in 1..=8 {
        let staged = t.clone().staged(0x20, &[0x11; 8][..n]);
        assert_eq!(staged.card[STAGED_VALUES..][..n], [0x11; 8][..n]);
        assert_eq!(staged.card[STAGED_VALUES + n..], b"eightfld"[n..]);
    }
}

#[test]
fn a_write_is_finished_without_any_right() {
    for (fuses, register) in [7, 6, 4, 0].into_iter().flat_map(|f| (0..=255).map(move |r| (f, r))) {
        let t = Table::new(fuses).marked().register(register).ready(0, 0x4F, &[0xF0, 0x0F]);
        for t in [t.clone(), t.clone().off(), t.active(3)] {
            let then = t.clone().power();
            assert_eq!((then.card[0x4F], then.card[0x40], then.card[FLAG]), (0xF0, 0x0F, 0xFF));
            assert_eq!(then.state, NONE);
            assert_eq!(then.card[..0x40], t.card[..0x40]);
        }
    }
}

#[test]
fn a_ready_write_without_bytes() {
    for address in 0..=255 {
        let t = Table::new(0).marked().ready(7, address, &[]);
        let then = t.clone().power();
        assert_eq!((&then.card, then.state), (&t.clone().set(FLAG, IDLE).card, NONE));
        for (junk, flag) in [(0x00, READY), (0x01, IDLE)] {
            let torn = t.clone().cut(0, junk).power();
            assert_eq!((&torn.card, torn.state), (&t.clone().set(FLAG, flag).card, off()));
        }
        assert_eq!(t.clone().cut(1, 0).power(), then);
    }
}

#[test]
fn a_forbidden_staged_write_keeps_the_arming() {
    for (fuses, register) in [(6, 0xFF), (4, 0xFF), (0, 0x7F), (0, 0xFD), (0, 0xDF), (4, 0xD7)] {
        for (armed, selector) in [(false, 9), (false, 13), (true, 9), (true, 13)] {
            let mut t = Table::new(fuses).register(register).active(selector);
            t = if armed { t.armed(0, 0x12) } else { t };
            let mut busy = t.state;
            busy[4] = 10;
            let then = t.clone().staged(0x10, b"nothing");
            assert_eq!((then.card, then.state), (t.card, busy), "{register:02X} at {fuses}");
        }
    }
}

#[test]
fn what_keeps_the_arming_and_what_spends_it() {
    let t = Table::new(7).active(7).granted().cut(3, 0x77);
    let arming = |t: &Table| t.state[6..].to_vec();
    assert_eq!(arming(&t), [1, 3, 0x77]);
    // A later one replaces it, busy or not.
    for mut t in [t.clone(), t.clone().plainly(&[5, 0, 1, 1]), t.clone().off(), t.clone().power()] {
        t = t.cut(0, 0);
        assert_eq!(arming(&t), [1, 0, 0]);
        t = t.cut(255, 0xAA);
        assert_eq!(arming(&t), [1, 255, 0xAA]);
    }
    for record in not_heeded().into_iter().filter(|record| record[0] != 15) {
        let mut t = t.clone();
        t.at_once(&record);
        assert_eq!(arming(&t), [1, 3, 0x77], "{record:02X?}");
        assert_eq!(arming(&t.power()), [1, 3, 0x77]);
    }
    // 2n + 5 cells to write, or n + 1 to finish: with as many as are armed no cut comes.
    for n in 1..=8 {
        let data = &[0x42; 8][..n];
        for (after, cut) in [(2 * n + 4, true), (2 * n + 5, false), (2 * n + 6, false)] {
            let then = t.clone().cut(after as u8, 1).staged(0, data);
            assert_eq!((then.is_off(), arming(&then)), (cut, vec![0; 3]), "{n}, {after}");
        }
        for (after, cut) in [(n, true), (n + 1, false), (n + 2, false)] {
            let then = t.clone().ready(0, 0, data).cut(after as u8, 1).power();
            assert_eq!((then.is_off(), arming(&then)), (cut, vec![0; 3]), "{n}, {after}");
        }
    }
}

#[test]
fn a_cut_takes_what_power_takes() {
    for (t, _) in open_tables() {
        let torn = t.clone().armed(0, 0).staged(0, &[1]);
        assert_eq!(torn.state, off());
        assert_eq!(torn.clone().power().state, NONE);
        let torn = t.ready(2, 3, b"four").armed(4, 0).power();
        assert_eq!(torn.state, off());
    }
}

/// Records of every kind but 1 and 16.
fn all_but_power_and_cuts() -> Vec<Vec<u8>> {
    let acting_while_busy: [&[u8]; 3] = [&[13, 1], &[13, 255], &[14]];
    not_heeded().into_iter().chain(acting_while_busy.map(<[u8]>::to_vec)).collect()
}

#[test]
fn an_off_card_and_a_ready_one_heed_power_and_cuts_alone() {
    let t = Table::new(7).marked().in_zone(3).active(7).granted();
    let ready = t.clone().ready(2, 0x1F, b"ready");
    let torn = [t.clone().off(), ready.clone(), ready.off()];
    let torn = torn.into_iter().flat_map(|t| [t.clone(), t.armed(2, 9)]);
    for (mut t, busy) in torn.flat_map(|t| [0, 1, 10].map(|busy| (t.clone(), busy))) {
        t.state[4] = busy;
        for record in all_but_power_and_cuts() {
            let mut then = t.clone();
            let result =
                encoded::at88sc1608_command(&mut then.card, &mut then.state, &record, &mut []);
            assert_eq!(result, u64::from(record[0] + 128) << 32, "{record:02X?}");
            assert_eq!(then, t, "{record:02X?}");
        }
        let mut armed = t.state;
        armed[6..].copy_from_slice(&[1, 200, 100]);
        let then = t.clone().cut(200, 100);
        assert_eq!((then.card, then.state), (t.card.clone(), armed));
        let then = t.clone().plainly(&[1]);
        let cut = t.card[FLAG] == READY && t.state[6] == 1;
        assert_eq!(then.is_off(), cut);
        assert_eq!(then.card[FLAG], if cut { READY } else { IDLE });
    }
}

#[test]
fn a_cut_is_armed_while_busy() {
    for busy in 0..=10 {
        let mut t = Table::new(0).active(3);
        t.state[4] = busy;
        let mut armed = t.state;
        armed[6..].copy_from_slice(&[1, 7, 8]);
        assert_eq!(t.clone().cut(7, 8).state, armed);
        // And a staged write is not heeded.
        if busy > 0 {
            let (reply, _) = t.clone().at_once(&[15, 0, 1, 1]);
            assert_eq!(reply, Reply { kind: 143, length: 0, tries: 0 });
        }
    }
}

#[test]
fn power_without_anything_to_finish_keeps_the_card() {
    for t in [Table::new(4), Table::new(4).off(), Table::new(4).set(STAGED_ZONE, 9)] {
        let then = t.clone().power();
        assert_eq!((&then.card, then.state), (&t.card, NONE));
        let then = t.clone().armed(0, 0).power();
        assert_eq!((&then.card, then.state), (&t.card, Table::new(4).armed(0, 0).state));
    }
}

#[test]
fn staging_bytes_are_no_ordinary_records() {
    let mut rng = gen::Rng::new(8);
    for _ in 0..2000 {
        let mut t = Table { card: gen::staged_card(&mut rng), state: gen::state(&mut rng) };
        (t.card[FLAG], t.state[5]) = (IDLE, 0);
        let mut other = t.clone();
        other.card[STAGED_ZONE..].copy_from_slice(&rng.bytes(CARD - STAGED_ZONE));
        for _ in 0..20 {
            let record = gen::of_first_fourteen(&mut rng, &t.card, &t.state, 90);
            let staged = t.card[FLAG..].to_vec();
            assert_eq!(t.at_once(&record), other.at_once(&record), "{record:02X?}");
            assert_eq!(t.card[FLAG..], staged);
            assert_eq!(t.card[..FLAG], other.card[..FLAG]);
            assert_eq!(t.state, other.state);
        }
    }
}

/// Whether a card may have these four bytes behind its fuses.
fn sound([flag, zone, _, length]: [u8; 4]) -> bool {
    flag == 0xFF || flag == 0xFE && zone <= 7 && length <= 8
}

/// The refusals of a card: of a command, a session, the writer, a log.
fn refusals(card: &[u8]) -> [u64; 4] {
    let (mut lent, mut state) = (card.to_vec(), NONE);
    let mut space = vec![0; 3000];
    let commanded = encoded::at88sc1608_command(&mut lent, &mut state, &[14], &mut [0]);
    let session = [card, &trailer(CARD, 0)].concat();
    let ran = encoded::at88sc1608_run(&session, &mut space);
    let written = encoded::at88sc1608_write_session(card, b"T", &[], 0, &mut space);
    let log = [card, &[0, 0, 0, 0, 0, 0, 0x4C, 0x50]].concat();
    [commanded, ran, written, encoded::at88sc1608_answer(&log, 0)].map(|result| result & 0xFF)
}

#[test]
fn staging_bytes_that_no_card_has() {
    let mut card = fresh_card(6);
    let mut judge = |head: [u8; 4]| {
        card[FLAG..STAGED_VALUES].copy_from_slice(&head);
        let expected = if sound(head) { [0, 0, 0, 14] } else { [16, 16, 16, 13] };
        assert_eq!(refusals(&card), expected, "{head:02X?}");
    };
    for flag in 0..=255 {
        for (zone, length) in [(0, 0), (7, 8), (8, 8), (7, 9), (255, 255), (0, 1)] {
            judge([flag, zone, 0x5A, length]);
        }
    }
    for (zone, length) in (0..=255).flat_map(|zone| (0..=255).map(move |length| (zone, length))) {
        if zone < 12 || length < 12 || zone == length {
            judge([READY, zone, 0xFF, length]);
            judge([IDLE, zone, 0x00, length]);
        }
    }
}

#[test]
fn sixteen_stands_between_five_and_the_rest() {
    let bad = |fuses| Author::new(fuses).put(FLAG, &[0xFD]);
    let card = bad(6).parts().card.to_vec();
    let odd = bad(5).parts().card.to_vec();
    let state = on([8, 0, 0, 0, 0]);
    assert_eq!(refused(&odd[1..], &state, &[0], 0), 11);
    assert_eq!(refused(&odd, &state, &[0], 0), 5);
    assert_eq!(refused(&card, &state, &[0], 0), 16);
    assert_eq!(refused(&card, &NONE, &[8], 0), 16);
    assert_eq!(refused(&fresh_card(6), &state, &[0], 0), 12);
    let session = |author: Author, count| {
        let Parts { card, records, .. } = author.parts();
        session_refused(&[card, records, &trailer(CARD, count)].concat())
    };
    assert_eq!(session(bad(5).record(&[0]), MOST_RECORDS + 1), 4);
    assert_eq!(session(bad(5).record(&[0]), 1), 5);
    assert_eq!(session(bad(6).record(&[0]), 1), 16);
    assert_eq!(session(bad(6).read_fuses(), 0), 16);
    assert_eq!(session(Author::new(6).record(&[0]), 1), 6);
    let written = |author: Author, title: usize| {
        let Parts { card, records, count, .. } = author.parts();
        let title = vec![b'.'; title];
        encoded::at88sc1608_write_session(card, &title, records, count, &mut [])
    };
    assert_eq!(written(bad(5).record(&[0]), 256), 5);
    assert_eq!(written(bad(6).record(&[0]), 256), 16);
    assert_eq!(written(bad(6), 0), 16);
    assert_eq!(written(Author::new(6).record(&[0]), 256), 15);
}

#[test]
fn nine_bytes_are_a_state() {
    let good = |[off, armed, after, junk]: [u8; 4]| {
        off <= 1 && (armed == 1 || armed == 0 && after == 0 && junk == 0)
    };
    let some = [0, 1, 2, 3, 10, 127, 128, 254, 255];
    for (a, b) in some.into_iter().flat_map(|a| some.map(|b| (a, b))) {
        for (c, d) in some.into_iter().flat_map(|c| some.map(|d| (c, d))) {
            let mut state = on([2, 1, 9, 1, 3]);
            state[5..].copy_from_slice(&[a, b, c, d]);
            if good([a, b, c, d]) {
                let (mut card, mut then) = (fresh_card(4), state);
                let result = encoded::at88sc1608_command(&mut card, &mut then, &[8], &mut [0; 4]);
                assert_eq!((result, then), (136 << 32, state), "{state:?}");
            } else {
                assert_eq!(refused(&fresh_card(4), &state, &[8], 4), 12, "{state:?}");
                assert_eq!(refused(&fresh_card(4), &state, &[1], 4), 12, "{state:?}");
            }
        }
    }
    for place in 5..STATE {
        for value in 0..=255 {
            let mut state = Table::new(4).armed(3, 4).off().state;
            state[place] = value;
            let sound = match place {
                5 => value <= 1,
                6 => value == 1,
                _ => true,
            };
            let result = command(&mut fresh_card(4), &mut state.to_vec(), &[16, 1, 1], &mut []);
            assert_eq!(result.is_ok(), sound, "{state:?}");
        }
    }
    // An off card may be handed in with any other state.
    let t = Table::new(7).in_zone(5).active(12).granted().off();
    assert_eq!(t.clone().cut(1, 2).state[..6], t.state[..6]);
    assert_eq!(t.power().state, NONE);
}

#[test]
fn a_torn_session_by_hand() {
    let author = Author::new(7).select(3).cut(9, 0xEE).staged_write(0x0F, b"new");
    let author = author.read(0, 2).write(0, b"no").staged_write(0, b"no").poll().wait(5);
    let author = author.cut(2, 0x66).power().read(0, 2).select(4).power().poll();
    let session = author.select(3).read(0x0F, 1).staged_write(0x20, b"!").session();
    #[rustfmt::skip]
    let entries = [
        3, 0, 0,
        16, 0, 0,
        15, 0, 0,
        // Off, in zone 0.
        132, 0, 0, 0,
        133, 0, 0, 0,
        143, 0, 0,
        142, 0, 0,
        141, 0, 0,
        16, 0, 0,
        1, 0, 0,
        132, 0, 0, 0,
        131, 0, 0,
        1, 0, 0,
        14, 1, 0, 0,
        3, 0, 0,
        4, 1, 0, 3, b'n',
        15, 0, 0,
    ];
    assert_eq!(logged(&session), (entries.to_vec(), SHORTEST_LOG + entries.len()));
    let mut log = vec![0; 3000];
    let length = run(&session, &mut log).unwrap();
    let card = log::Log::open(&log[..length]).unwrap().card().to_vec();
    let mut expected = session[..CARD].to_vec();
    expected[0x30F] = b'n';
    expected[0x300..0x302].copy_from_slice(b"ew");
    expected[0x320] = b'!';
    expected[FLAG..STAGED_VALUES + 3].copy_from_slice(&[0xFF, 3, 0x20, 1, b'!', b'e', b'w']);
    assert_eq!(card, expected);
}

#[test]
fn the_start_of_a_session_finishes_nothing() {
    let ready = || Author::new(7).put_ready(2, 0x00, b"ready");
    let final_card = |author: Author| {
        let mut log = vec![0; 3000];
        let length = run(&author.session(), &mut log).unwrap();
        // A log may end with a card that has something to finish.
        let last = u64::from(log[length - 4]) - 1;
        assert_eq!(log::answer(&log[..length], last), Ok(&[][..]));
        log::Log::open(&log[..length]).unwrap().card().to_vec()
    };
    for author in [ready().poll(), ready().reset(), ready().cut(0, 0), ready().wait(255).select(1)]
    {
        let card = author.parts().card.to_vec();
        assert_eq!(final_card(author), card);
    }
    let card = final_card(ready().poll().power());
    assert_eq!((&card[0x200..0x205], card[FLAG]), (&b"ready"[..], IDLE));
    // A cut that is armed before comes in the finishing.
    let card = final_card(ready().cut(3, b'?').power());
    assert_eq!((&card[0x200..0x206], card[FLAG]), (&b"rea?\xFF\xFF"[..], READY));
    let entries = logged(&ready().read(1, 2).write(1, b"x").power().read(1, 2).session()).0;
    assert_eq!(entries, [132, 0, 0, 0, 133, 0, 0, 0, 1, 0, 0, 4, 2, 0, 0, 0xFF, 0xFF]);
}

#[test]
fn log_space_is_judged_in_full_while_off() {
    let author = Author::new(7).cut(0, 0).staged_write(0, b"1").read(0, 9).poll().reset();
    let session = author.session();
    let written = SHORTEST_LOG + 3 + 3 + 4 + 3 + 3;
    let full = written + 9 + 1 + 4;
    assert_eq!(check(&session).map(|c| c.log_space), Ok(full));
    for space in [written, full - 1] {
        assert_eq!(run(&session, &mut vec![0; space]), Err(Refusal::Space));
    }
    assert_eq!(run(&session, &mut vec![0; full]), Ok(written));
}

#[test]
fn two_sealed_cards_are_torn_alike() {
    let mut rng = gen::Rng::new(9);
    let (mut torn, mut written, mut differ) = (0, 0, 0);
    for k in 0..1500 {
        let closed = [gen::Closed::Password, gen::Closed::Authentication][k % 2];
        let mut tables = gen::sealed_pair(&mut rng, closed).map(|card| Table { card, state: NONE });
        let register = tables[0].card[REGISTERS + 2];
        let (writable, clears) = (register & 0x82 == 0x82, register & 1 == 0);
        let mut named = false;
        for _ in 0..80 {
            let mut record = gen::record(&mut rng, &tables[0].card, &tables[0].state, 80);
            if rng.chance(10) {
                record = vec![3, 2];
            }
            if gen::opens(closed, &record) {
                continue;
            }
            let [one, other] = &mut tables;
            let authenticated = register & 0x20 != 0 || one.state[3] == 2;
            let writes = one.state[0] == 2 && writable && authenticated;
            let answer = one.at_once(&record);
            assert_eq!(answer, other.at_once(&record), "{closed:?}: {record:02X?}");
            assert_eq!(one.state, other.state);
            torn += usize::from(answer.0.kind == 15 && one.is_off());
            if answer.0.kind == 15 && writes {
                named = true;
                written += 1;
            }
            for place in (0..CARD).filter(|&place| one.card[place] != other.card[place]) {
                // Zone 2, and the two passwords of set 5.
                let secret = matches!(place, 512..768 | 2153..=2155 | 2157..=2159);
                let staged = place >= STAGED_VALUES && named && clears;
                assert!(secret || staged, "{place}: {record:02X?}");
            }
        }
        let [one, other] = &tables;
        differ += usize::from(one.card[STAGED_VALUES..] != other.card[STAGED_VALUES..]);
    }
    assert!(torn > 500 && written > 100 && differ > 20, "{torn}, {written}, {differ}");
}

#[test]
fn generated_records_are_cut_everywhere() {
    let mut rng = gen::Rng::new(10);
    let (mut writes, mut finishes) = (BTreeSet::new(), BTreeSet::new());
    for _ in 0..8000 {
        let mut t = Table { card: gen::staged_card(&mut rng), state: NONE };
        for _ in 0..80 {
            let record = gen::record(&mut rng, &t.card, &t.state, 90);
            let before = t.clone();
            let (reply, _) = t.at_once(&record);
            if t.is_off() && !before.is_off() && reply.kind == 15 {
                writes.insert((record[2], before.state[7]));
            } else if t.is_off() && reply.kind == 1 {
                finishes.insert((before.card[STAGED_LENGTH], before.state[7]));
            }
        }
    }
    for n in 1..=8 {
        for after in 0..2 * n + 5 {
            assert!(writes.contains(&(n, after)), "{n} bytes, cut after {after}");
        }
    }
    for (n, after) in (1..=8).flat_map(|n| (0..=n).map(move |after| (n, after))) {
        assert!(finishes.contains(&(n, after)), "{n} bytes to finish, cut after {after}");
    }
}

#[test]
fn the_example_survives() {
    let (_, session) = examples::all().into_iter().find(|(name, _)| *name == "torn").unwrap();
    let note = |text: &[u8]| text.iter().map(|byte| format!(" {byte:02X}")).collect::<String>();
    let (old, new, last) = (note(b"old note"), note(b"new note"), note(b"last one"));
    let lines = format!(
        "0 04{old}\n1 10\n2 0F\n3 84\n4 8E\n5 10\n6 01\n7 84\n8 01\n9 04{new}\n10 10\n11 0F\n12 84\n\
         13 01\n14 04{new}\n15 0F\n16 0D\n17 04{last}\n"
    );
    let tries = "tries 8 8 8 8 8 8 8 8 8 8 8 8 8 8 8 8 8";
    assert_eq!(listing(&session), format!("{lines}{tries}\nfuses 00\n"));
}
