//! What the paper says in so many words: cases A–L, the edges, the printed example, each refusal
//! by its number, the tries left, what closed bytes show, and the mistakes that are easily made.
//! What is said of a busy card, of staged writes, of the zones in a log, of the session writer, of
//! the mender and of the box has files of its own.

mod boxed;
mod busy;
mod mender;
mod staging;
mod writer;
mod zones;

use std::collections::{BTreeSet, HashMap};

use crate::author::{counter, entry, fresh_card, log_of, on, password, Author};
use crate::command::{command, Reply};
use crate::layout::{
    AAC, CARD, CONFIGURATION, ENTRY_HEADER, ENTRY_ZONE, FUSES, LOG_SPACE, LONGEST_ENTRY,
    LONGEST_SESSION, MOST_RECORDS, REGISTERS, SHORTEST_LOG, SHORTEST_SESSION, STATE, TRAILER, ZONE,
    ZONES,
};
use crate::listing::listing;
use crate::record::Reader;
use crate::refusal::Refusal;
use crate::session::{check, run, trailer};
use crate::{edges, encoded, examples, gen, log, samples};

const NONE: [u8; STATE] = [0; STATE];

/// What ends a log, and what ended one in which no entry named a zone.
const ZONED: [u8; 2] = [0x4C, 0x50];
const PLAIN: [u8; 2] = [0x4C, 0x4F];

/// The configuration addresses of the seventeen counters, in the order of the listing.
#[rustfmt::skip]
const COUNTERS: [usize; 17] = [
    0x40, 0x48, 0x50, 0x58, 0x60, 0x68, 0x70, 0x78,
    0x44, 0x4C, 0x54, 0x5C, 0x64, 0x6C, 0x74, 0x7C,
    0x20,
];

/// A card on the table: its bytes and its state.
#[derive(Clone, Debug, PartialEq)]
struct Table {
    card: Vec<u8>,
    state: [u8; STATE],
}

impl Table {
    fn new(fuses: u8) -> Table {
        let card = fresh_card(fuses);
        Table { card, state: NONE }
    }

    fn register(mut self, register: u8) -> Table {
        self.card[REGISTERS] = register;
        self
    }

    fn active(mut self, selector: u8) -> Table {
        self.state[1..3].copy_from_slice(&[1, selector]);
        self
    }

    fn granted(mut self) -> Table {
        self.state[3] = 2;
        self
    }

    fn set(mut self, place: usize, byte: u8) -> Table {
        self.card[place] = byte;
        self
    }

    /// The reply and the response; the card may be busy before and afterwards.
    fn at_once(&mut self, record: &[u8]) -> (Reply, Vec<u8>) {
        let mut space = [0xEE; 256];
        let reply = command(&mut self.card, &mut self.state, record, &mut space).unwrap();
        assert!(space[reply.length..].iter().all(|&b| b == 0xEE));
        (reply, space[..reply.length].to_vec())
    }

    /// The response, and the tries left; then the card is ready again.
    fn reply(&mut self, record: &[u8]) -> (Vec<u8>, u8) {
        let (reply, response) = self.at_once(record);
        assert_eq!(reply.kind, record[0]);
        self.at_once(&[13, 10]);
        (response, reply.tries)
    }

    fn run(&mut self, record: &[u8]) -> Vec<u8> {
        self.reply(record).0
    }

    fn tries(&mut self, record: &[u8]) -> u8 {
        self.reply(record).1
    }

    fn verify(&mut self, selector: u8, password: [u8; 3]) -> u8 {
        self.tries(&[&[10, selector], &password[..]].concat())
    }

    /// Whether a write to the selected zone is stored.
    fn stores(mut self) -> bool {
        self.card[0] = 0;
        self.run(&[5, 0, 1, 0xAB]);
        self.card[0] == 0xAB
    }

    /// Whether a read of the selected zone shows its bytes.
    fn shows(mut self) -> bool {
        self.card[0] = 0xAB;
        self.run(&[4, 0, 1]) == [0xAB]
    }
}

/// A refused single command gives its number alone and leaves everything as it was.
fn refused(card: &[u8], state: &[u8], record: &[u8], space: usize) -> u8 {
    let (mut c, mut s, mut r) = (card.to_vec(), state.to_vec(), vec![0xEE; space]);
    let result = encoded::at88sc1608_command(&mut c, &mut s, record, &mut r);
    assert!((1..=16).contains(&result), "{result:#X}");
    assert_eq!((&c[..], &s[..]), (card, state));
    assert!(r.iter().all(|&b| b == 0xEE));
    result as u8
}

fn decoded(record: &[u8]) -> u8 {
    refused(&fresh_card(7), &NONE, record, 300)
}

fn session_refused(session: &[u8]) -> u8 {
    let mut log = vec![0xEE; 70_000];
    let refusal = run(session, &mut log).unwrap_err();
    assert!(log.iter().all(|&b| b == 0xEE));
    refusal.number()
}

fn raw(fuses: u8, records: &[u8], start: usize, count: u16) -> Vec<u8> {
    [&fresh_card(fuses)[..], records, &trailer(start, count)].concat()
}

#[test]
fn case_a_wrong_password() {
    for (before, after) in [(0xFF, 0xFE), (0xF0, 0xE0), (0x80, 0x00), (0xA5, 0xA4)] {
        let mut t = Table::new(0).active(2).set(counter(11), before);
        t.verify(11, [1, 2, 3]);
        assert_eq!(t.card[counter(11)], after);
        assert_eq!(t.state, NONE);
    }
}

#[test]
fn case_b_locked_password() {
    let mut t = Table::new(0).set(counter(4), 0);
    t.verify(4, password(4));
    assert_eq!((t.card[counter(4)], t.state), (0, NONE));
    let mut t = Table::new(0).active(9).set(counter(4), 0);
    t.verify(4, [0, 0, 0]);
    assert_eq!((t.card[counter(4)], t.state), (0, on([0, 1, 9, 0, 0])));
}

#[test]
fn cases_c_d_page_wrap_and_roll_over() {
    let mut t = Table::new(7);
    t.run(&[5, 0x1E, 4, 1, 2, 3, 4]);
    assert_eq!((t.card[0x1E], t.card[0x1F]), (1, 2));
    assert_eq!((t.card[0x10], t.card[0x11]), (3, 4));
    assert_eq!(t.card[0x20], 0xFF);
    t.card[0xFE..0x100].copy_from_slice(&[5, 6]);
    t.card[0] = 7;
    t.card[0x100] = 8;
    assert_eq!(t.run(&[4, 0xFE, 3]), [5, 6, 7]);
    assert_eq!(t.run(&[4, 0xFE, 0])[..4], [5, 6, 7, 0xFF]);
    assert_eq!(t.run(&[4, 0xFE, 0]).len(), 256);
}

#[test]
fn cases_e_f_g_l_zone_writes() {
    let mut t = Table::new(0).register(0xFE).set(0, 0xF0);
    t.run(&[5, 0, 1, 0x3C]);
    assert_eq!(t.card[0], 0x30);
    assert!(Table::new(7).register(0xFE).stores());
    assert!(!Table::new(6).register(0xFF).stores());
    assert!(!Table::new(4).register(0xFF).stores());
    assert!(Table::new(0).register(0xFF).stores());
    assert!(!Table::new(0).register(0xFD).stores());
    assert!(!Table::new(6).register(0xFD).active(7).stores());
    assert!(Table::new(7).register(0xFD).stores());
}

#[test]
fn cases_h_i_access_register() {
    assert!(!Table::new(0).register(0xBF).shows());
    let mut t = Table::new(0).register(0xBF);
    t.verify(15, password(15));
    assert!(t.shows());
    assert!(Table::new(0).register(0xBF).active(7).shows());
    assert!(!Table::new(0).register(0xBF).active(14).shows());
    assert!(!Table::new(0).register(0x7F).active(15).stores());
    assert!(Table::new(0).register(0x7F).active(7).stores());
    let i = || Table::new(0).register(0x57);
    assert!(i().granted().active(5).stores());
    assert!(!i().active(5).stores());
    assert!(!i().granted().active(13).stores());
    assert!(!i().granted().active(4).stores());
    assert!(!i().shows() && i().granted().shows());
    assert!(Table::new(6).register(0xF7).active(5).stores());
    assert!(!Table::new(6).register(0xF7).active(7).stores());
}

#[test]
fn cases_j_k_fuses_and_reset() {
    let mut t = Table::new(7).active(7);
    let fuses = [7, 6, 4, 0, 0].map(|f| {
        assert_eq!(t.run(&[8]), [f]);
        t.run(&[9]);
        f
    });
    assert_eq!((fuses[4], t.card[FUSES], t.state), (0, 0, on([0, 1, 7, 0, 0])));
    for active in [6, 15] {
        let mut t = Table::new(7).active(active);
        t.run(&[9]);
        assert_eq!(t.card[FUSES], 7);
    }
    let mut t = Table::new(0).active(3).granted();
    t.run(&[3, 5]);
    assert_eq!(t.run(&[2]), [0x34, 0x55, 0xAA, 0x80]);
    assert_eq!(t.state, on([5, 0, 0, 0, 0]));
    t.run(&[1]);
    assert_eq!(t.state, NONE);
}

#[test]
fn authentication() {
    let mut t = Table::new(6).set(AAC, 0xA5);
    t.run(&[11]);
    assert_eq!((t.card[AAC], t.state[3]), (0xA4, 1));
    t.run(b"\x0C\x00rejected");
    assert_eq!((t.card[AAC], t.state[3]), (0xA4, 0));
    t.run(b"\x0C\x01too soon");
    assert_eq!((t.card[AAC], t.state[3]), (0xA4, 0));
    t.run(&[11]);
    t.run(b"\x0C\x01accepted");
    assert_eq!((t.card[AAC], t.state[3]), (0xFF, 2));
    t.run(b"\x0C\x00too late");
    assert_eq!(t.state[3], 2);
    let cryptogram = CONFIGURATION + 0x28;
    assert_eq!(&t.card[cryptogram..cryptogram + 8], b"accepted");
    t.card[AAC] = 0;
    t.run(&[11]);
    assert_eq!((t.card[AAC], t.state[3]), (0, 2));
    t.card[AAC] = 0x80;
    t.run(&[11]);
    assert_eq!((t.card[AAC], t.state[3]), (0, 1));
}

/// One counter as given, two tries in all others.
fn one_counter(place: usize, value: u8) -> Table {
    let others = COUNTERS.into_iter().fold(Table::new(0), |t, at| t.set(CONFIGURATION + at, 0x12));
    others.set(CONFIGURATION + COUNTERS[place], value)
}

#[test]
fn tries_after_a_password() {
    #[rustfmt::skip]
    let cases = [
        (0xFF, true, 0xFF, 8), (0xA5, true, 0xFF, 8), (0x01, true, 0xFF, 8), (0x00, true, 0x00, 0),
        (0xFF, false, 0xFE, 7), (0xFE, false, 0xFC, 6), (0xF7, false, 0xF6, 6),
        (0xA5, false, 0xA4, 3), (0xA4, false, 0xA0, 2), (0x81, false, 0x80, 1),
        (0x80, false, 0x00, 0), (0x01, false, 0x00, 0), (0x00, false, 0x00, 0),
    ];
    for selector in 0..16 {
        for (before, right, after, tries) in cases {
            let mut t = one_counter(selector.into(), before);
            let bytes = if right { password(selector) } else { [1, 2, 3] };
            assert_eq!(t.verify(selector, bytes), tries, "{selector}: {before:02X} {right}");
            assert_eq!(t.card[CONFIGURATION + COUNTERS[usize::from(selector)]], after);
        }
    }
}

#[test]
fn a_password_is_right_in_all_three_bytes() {
    #[rustfmt::skip]
    let cases = [
        ([1, 2, 3], [1, 2, 3], true), ([0, 0, 0], [0, 0, 0], true), ([255; 3], [255; 3], true),
        // One byte is wrong.
        ([1, 2, 3], [0, 2, 3], false), ([1, 2, 3], [1, 0, 3], false), ([1, 2, 3], [1, 2, 0], false),
        ([0, 0, 0], [0, 0, 0x80], false), ([255; 3], [255, 255, 0x7F], false),
        // The bytes are right and their order is wrong.
        ([1, 2, 3], [3, 2, 1], false), ([1, 2, 3], [2, 1, 3], false), ([1, 2, 3], [1, 3, 2], false),
        // One byte has more, another less.
        ([1, 2, 3], [1, 0, 5], false), ([1, 2, 3], [1, 1, 4], false), ([0, 1, 0], [255, 0, 0], false),
        ([0, 0, 1], [0, 255, 0], false), ([0, 0, 1], [255, 255, 0], false),
    ];
    for selector in 0..16 {
        for (stored, presented, right) in cases {
            let at = counter(selector);
            let places = [at + 1, at + 2, at + 3].into_iter().zip(stored);
            let mut t = places.fold(Table::new(0), |t, (place, byte)| t.set(place, byte));
            let (tries, active) = if right { (8, [1, selector]) } else { (7, [0, 0]) };
            assert_eq!(t.verify(selector, presented), tries, "{stored:?} {presented:?}");
            assert_eq!(t.state[1..3], active);
        }
    }
}

#[test]
fn tries_after_begun_authentication() {
    #[rustfmt::skip]
    let cases = [
        (0xFF, 0xFE, 7), (0xFE, 0xFC, 6), (0xF7, 0xF6, 6), (0xA5, 0xA4, 3), (0xA4, 0xA0, 2),
        (0x81, 0x80, 1), (0x80, 0x00, 0), (0x01, 0x00, 0), (0x00, 0x00, 0),
    ];
    for (before, after, tries) in cases {
        for authentication in 0..3 {
            for verdict in [b"\x0C\x00rejected", b"\x0C\x01accepted"] {
                let mut t = one_counter(16, before);
                t.state[3] = authentication;
                assert_eq!(t.tries(&[11]), tries, "{before:02X} {authentication}");
                assert_eq!(t.card[CONFIGURATION + 0x20], after);
                assert_eq!(t.tries(verdict), 0);
            }
        }
    }
}

#[test]
fn no_tries_after_other_commands() {
    let records: [&[u8]; 15] = [
        &[1],
        &[2],
        &[3, 5],
        &[4, 0, 0],
        &[5, 0, 1, 0xA5],
        &[6, 0x20, 1],
        &[6, 0x40, 0x40],
        &[7, 0x20, 1, 0xA5],
        &[7, 0x40, 1, 0xA5],
        &[8],
        &[9],
        b"\x0C\x00rejected",
        b"\x0C\x01accepted",
        &[15, 0, 1, 0xA5],
        &[16, 0, 0xA5],
    ];
    for record in records {
        for fuses in [7, 6, 4, 0] {
            for authentication in 0..3 {
                let mut t = Table::new(fuses).active(7);
                t.state[3] = authentication;
                assert_eq!(t.tries(record), 0, "{record:02X?}");
            }
        }
    }
}

#[test]
fn refused_presentations_have_their_number_alone() {
    let card = fresh_card(0);
    for record in [&[10, 4, 0xA4, 0x5A, 0x3C][..], &[10, 12, 1, 2, 3], &[11]] {
        assert_eq!(refused(&card[1..], &NONE, record, 0), 11);
        assert_eq!(refused(&fresh_card(5), &NONE, record, 0), 5);
        assert_eq!(refused(&card, &on([8, 0, 0, 0, 0]), record, 0), 12);
        assert_eq!(refused(&card, &on([0, 1, 16, 0, 0]), record, 0), 12);
        assert_eq!(refused(&card, &NONE, &[record, &[0]].concat(), 0), 9);
    }
    assert_eq!(refused(&card, &NONE, &[10, 16, 1, 2, 3], 0), 7);
    for cut in [&[10][..], &[10, 4], &[10, 4, 0xA4, 0x5A]] {
        assert_eq!(refused(&card, &NONE, cut, 0), 8);
    }
}

#[test]
fn encoded_commands() {
    let result = |record: &[u8]| {
        encoded::at88sc1608_command(&mut fresh_card(7), &mut NONE.clone(), record, &mut [0; 256])
    };
    assert_eq!(result(&[1]), 0x1_0000_0000);
    assert_eq!(result(&[2]), 0x2_0000_0400);
    assert_eq!(result(&[4, 0, 0]), 0x4_0001_0000);
    assert_eq!(result(&[10, 4, 0xA4, 0x5A, 0x3C]), 0xA_0800_0000);
    assert_eq!(result(&[10, 12, 1, 2, 3]), 0xA_0700_0000);
    assert_eq!(result(&[11]), 0xB_0700_0000);
    assert_eq!(result(&[13, 1]), 0xD_0000_0000);
    assert_eq!(result(&[14]), 0xE_0000_0100);
    assert_eq!(result(&[15, 0, 1, 0xA5]), 0xF_0000_0000);
    assert_eq!(result(&[16, 0, 0xA5]), 0x10_0000_0000);
    assert_eq!(result(&[11, 11]), 9);
}

#[test]
fn configuration_rights_go_byte_by_byte() {
    // At F = 0 write password 7 opens set 7 and nothing else; reserved bytes stay.
    let mut t = Table::new(0).active(7);
    let before = t.card.clone();
    t.run(&[&[7, 0x7C, 16][..], &[0x11; 16]].concat());
    assert_eq!(t.card[..CONFIGURATION + 0x78], before[..CONFIGURATION + 0x78]);
    assert_eq!(t.card[CONFIGURATION + 0x78..FUSES], [0x11; 8]);
    // At F = 4 the manufacturer code is closed, the test bytes are free, the rest wants SC.
    let mut t = Table::new(4);
    t.run(&[&[7, 0x38, 16][..], &[0x22; 16]].concat());
    assert_eq!(&t.card[CONFIGURATION + 0x30..CONFIGURATION + 0x38], b"secretly");
    assert_eq!(t.card[CONFIGURATION + 0x38..CONFIGURATION + 0x40], [0x22; 8]);
    assert_eq!(t.run(&[6, 0x30, 8]), [0; 8]);
    assert_eq!(t.run(&[6, 0x40, 8]), [0xFF, 0, 0, 0, 0xFF, 0, 0, 0]);
    let mut t = Table::new(4).active(7);
    assert_eq!(t.run(&[6, 0x30, 8]), b"secretly");
    t.run(&[7, 0x0C, 1, 9]);
    assert_eq!(t.card[CONFIGURATION + 0x0C], 0xFF);
    // Rewriting the active password leaves it active.
    t.run(&[7, 0x78, 4, 0, 1, 2, 3]);
    assert_eq!((t.card[counter(7)], t.state), (0, on([0, 1, 7, 0, 0])));
}

/// Registers of a zone that is closed: without the passwords of set 5, without authentication,
/// without either.
const CLOSED: [u8; 3] = [0xB7, 0xDF, 0x97];

/// Reads of a zone: address, count and the bytes that they answer, whole zones among them.
const READS: [(u8, u8, usize); 6] =
    [(0x00, 1, 1), (0x10, 16, 16), (0xFE, 4, 4), (0xFF, 2, 2), (0x00, 0, 256), (0x80, 0, 256)];

#[test]
fn closed_zone_shows_the_fuses() {
    for (fuses, register) in [6, 4, 0].into_iter().flat_map(|f| CLOSED.map(|r| (f, r))) {
        for (address, count, answered) in READS {
            // The zone's bytes, its register and its neighbour's bytes are none of these.
            let mut t = Table::new(fuses).register(register);
            t.card[..2 * ZONE].fill(0x33);
            assert_eq!(t.run(&[4, address, count]), vec![fuses; answered]);
            let mut t = t.active(4);
            assert_eq!(t.run(&[4, address, count]), vec![fuses; answered]);
            let mut t = t.active(5).granted();
            assert_eq!(t.run(&[4, address, count]), vec![0x33; answered]);
        }
        assert!(Table::new(7).register(register).shows());
    }
}

#[test]
fn closed_zone_shows_the_fuses_as_they_stand() {
    let mut t = Table::new(6).register(CLOSED[0]).active(7);
    for fuses in [6, 4, 0] {
        assert_eq!(t.run(&[4, 0xFF, 3]), [fuses; 3]);
        t.run(&[9]);
    }
    assert_eq!(t.run(&[4, 0xFF, 3]), [0; 3]);
    t.verify(13, password(13));
    assert_eq!(t.run(&[4, 0xFF, 3]), [0xFF; 3]);
}

#[test]
fn closed_configuration_byte_shows_zero() {
    for fuses in [6, 4, 0] {
        for register in CLOSED {
            let mut t = Table::new(fuses).register(register);
            assert_eq!(t.run(&[6, 0x30, 8]), [0; 8]);
            assert_eq!(t.run(&[6, 0x2F, 2]), [0xFF, 0]);
            for set in 0..8 {
                let at = 0x40 + 8 * set;
                assert_eq!(t.run(&[6, at, 8]), [0xFF, 0, 0, 0, 0xFF, 0, 0, 0]);
                assert_eq!(t.run(&[6, at + 1, 1]), [0]);
                assert_eq!(t.run(&[6, at + 7, 1]), [0]);
            }
        }
    }
    // Write password 7 opens them while PER is unblown, and only its own set's afterwards.
    assert_eq!(Table::new(6).active(7).run(&[6, 0x40, 4]), [0xFF, 0xA0, 0x5A, 0x3C]);
    assert_eq!(Table::new(4).active(7).run(&[6, 0x30, 8]), b"secretly");
    assert_eq!(Table::new(0).active(7).run(&[6, 0x40, 4]), [0xFF, 0, 0, 0]);
    assert_eq!(Table::new(0).active(7).run(&[6, 0x78, 4]), [0xFF, 0xA7, 0x5A, 0x3C]);
}

#[test]
fn closed_reads_are_logged_and_listed() {
    let session = Author::new(6)
        .put_register(0, CLOSED[0])
        .read(0xFF, 2)
        .read_configuration(0x60, 2)
        .right(7)
        .ready()
        .write_fuses()
        .ready()
        .read(0xFF, 2)
        .session();
    let mut space = [0; 3000];
    let n = run(&session, &mut space).unwrap();
    let answer = |number| log::answer(&space[..n], number).unwrap();
    assert_eq!((answer(0), answer(1), answer(6)), (&[6, 6][..], &[0xFF, 0][..], &[4, 4][..]));
    let lines = "0 04 06 06\n1 06 FF 00\n2 0A\n3 0D\n4 09\n5 0D\n6 04 04 04\n";
    let tries = "tries 8 8 8 8 8 8 8 8 8 8 8 8 8 8 8 8 8";
    assert_eq!(listing(&session), format!("{lines}{tries}\nfuses 04\n"));
}

#[test]
fn edges() {
    assert_eq!((CARD, FUSES, SHORTEST_SESSION), (2189, 2176, 2197));
    assert_eq!((LONGEST_SESSION, MOST_RECORDS, LOG_SPACE), (65_536, 4096, 65_536));
    let empty = raw(7, &[], CARD, 0);
    assert_eq!(run(&empty, &mut [0; 2197]), Ok(2197));
    assert_eq!(session_refused(&empty[1..]), 1);
    assert_eq!(Table::new(7).run(&[&[5, 0, 16][..], &[0; 16]].concat()), []);
    assert_eq!(decoded(&[&[5, 0, 17][..], &[0; 17]].concat()), 7);
    assert_eq!(Table::new(7).run(&[6, 0x7F, 1]).len(), 1);
    assert_eq!(decoded(&[6, 0x7F, 2]), 7);
}

#[test]
fn records_refused() {
    #[rustfmt::skip]
    let cases = [
        (&[][..], 8), (&[0], 6), (&[17], 6), (&[128], 6), (&[132, 0, 1], 6), (&[255, 1], 6),
        (&[3], 8), (&[3, 8], 7), (&[3, 255], 7), (&[4, 1], 8),
        (&[5], 8), (&[5, 0], 8), (&[5, 0, 0], 7), (&[5, 0, 17], 7), (&[5, 0, 2, 1], 8),
        (&[6, 0xFF], 8), (&[6, 0x80, 1], 7), (&[6, 0, 0], 7), (&[6, 1, 0xFF], 7), (&[6, 0, 129], 7),
        (&[7, 0xFF], 8), (&[7, 0x80, 1], 7), (&[7, 0, 0], 7), (&[7, 0, 17], 7), (&[7, 0, 1], 8),
        (&[10], 8), (&[10, 16], 7), (&[10, 0, 1, 2], 8), (&[12], 8), (&[12, 2], 7),
        (&[12, 1, 1, 2, 3, 4, 5, 6, 7], 8), (&[1, 1], 9), (&[4, 0, 1, 0], 9), (&[8, 0], 9),
        (&[13], 8), (&[13, 0], 7), (&[13, 0, 0], 7), (&[13, 1, 0], 9), (&[14, 0], 9),
        (&[15], 8), (&[15, 0], 8), (&[15, 0, 0], 7), (&[15, 0, 9], 7), (&[15, 0, 255], 7),
        (&[15, 0, 1], 8), (&[15, 0, 8, 1, 2, 3, 4, 5, 6, 7], 8), (&[15, 0, 1, 1, 1], 9),
        (&[15, 0, 9, 1, 2, 3, 4, 5, 6, 7, 8, 9], 7),
        (&[16], 8), (&[16, 0], 8), (&[16, 0, 0, 0], 9),
    ];
    for (record, number) in cases {
        assert_eq!(decoded(record), number, "{record:02X?}");
    }
}

#[test]
fn caller_refused() {
    let card = fresh_card(7);
    let odd = fresh_card(5);
    let bad = on([8, 0, 0, 0, 0]);
    assert_eq!(refused(&odd[1..], &bad, &[0], 0), 11);
    assert_eq!(refused(&[&card[..], &[7]].concat(), &NONE, &[8], 1), 11);
    assert_eq!(refused(&odd, &bad, &[0], 0), 5);
    assert_eq!(refused(&card, &bad, &[0], 0), 12);
    #[rustfmt::skip]
    let states: [&[u8]; 10] = [
        &on([0, 2, 0, 0, 0]), &on([0, 0, 1, 0, 0]), &on([0, 1, 16, 0, 0]), &on([0, 0, 0, 3, 0]),
        &on([0, 0, 0, 0, 11]), &on([255, 0, 0, 0, 0]), &[], &[0; 5], &[0; 8], &[0; 10],
    ];
    for state in states {
        assert_eq!(refused(&card, state, &[8], 1), 12, "{state:?}");
    }
    assert_eq!(refused(&card, &NONE, &[6, 0, 0], 0), 7);
    assert_eq!(refused(&card, &NONE, &[8, 8], 0), 9);
    assert_eq!(refused(&card, &NONE, &[8], 0), 10);
    assert_eq!(refused(&card, &on([1, 1, 3, 2, 0]), &[2], 3), 10);
    assert_eq!(refused(&card, &NONE, &[4, 9, 0], 255), 10);
}

#[test]
fn sessions_refused_in_order() {
    assert_eq!(session_refused(&[]), 1);
    let many = MOST_RECORDS + 1;
    let mut all_wrong = raw(5, &[0, 0], 0, many);
    let end = all_wrong.len() - TRAILER;
    all_wrong[end + 6] = 0;
    assert_eq!(session_refused(&[&all_wrong[..], &[0; LONGEST_SESSION]].concat()), 1);
    assert_eq!(session_refused(&all_wrong), 2);
    all_wrong[end + 6] = 0x53;
    assert_eq!(session_refused(&all_wrong), 3);
    assert_eq!(session_refused(&raw(5, &[0, 0], CARD + 3, many)), 3);
    assert_eq!(session_refused(&raw(5, &[0, 0], CARD + 0x10000, many)), 3);
    assert_eq!(session_refused(&raw(5, &[0, 0], CARD, many)), 4);
    assert_eq!(session_refused(&raw(5, &[0, 0], CARD, 1)), 5);
    assert_eq!(session_refused(&raw(4, &[0, 0], CARD, 1)), 6);
    assert_eq!(session_refused(&raw(4, &[3, 8, 0], CARD, 2)), 7);
    // The trailer's bytes are no record's.
    assert_eq!(session_refused(&raw(4, &[8, 3], CARD, 2)), 8);
    assert_eq!(session_refused(&raw(4, &[8], CARD, 2)), 8);
    assert_eq!(session_refused(&raw(4, &[8, 0], CARD, 1)), 9);
    assert_eq!(session_refused(&raw(4, &[8], CARD, 0)), 9);
    let two = raw(4, &[8, 2], CARD, 2);
    let needed = SHORTEST_LOG + 2 * ENTRY_HEADER + 1 + 4;
    assert_eq!(check(&two).map(|c| c.log_space), Ok(needed));
    assert_eq!(run(&two, &mut vec![0; needed - 1]), Err(Refusal::Space));
    assert_eq!(run(&two, &mut vec![0; needed]), Ok(needed));
    let most = usize::from(MOST_RECORDS);
    let needed = SHORTEST_LOG + most * LONGEST_ENTRY;
    let most = Author::new(7).times(most, |a| a.read(0, 0)).session();
    assert_eq!(run(&most, &mut vec![0; 1_100_000]), Ok(needed));
}

#[test]
fn reader_stops_at_the_trailer() {
    assert_eq!(Reader::new(&[8; TRAILER - 1], 0).next_record(), Err(Refusal::CutShort));
    let mut reader = Reader::new(&[8; TRAILER + 1], 0);
    assert!(reader.next_record().is_ok());
    assert_eq!((reader.next_record(), reader.at()), (Err(Refusal::CutShort), 1));
    let far = Reader::new(&[8; TRAILER + 1], usize::MAX).next_record();
    assert_eq!(far, Err(Refusal::CutShort));
}

#[test]
fn log_answers() {
    let session = raw(6, &[8, 3, 1, 2], CARD, 3);
    let mut space = [0; 3000];
    let n = run(&session, &mut space).unwrap();
    let log = &space[..n];
    assert_eq!(log::answer(log, 0), Ok(&[6][..]));
    assert_eq!(log::answer(log, 1), Ok(&[][..]));
    assert_eq!(log::answer(log, 2), Ok(&[0x34, 0x55, 0xAA, 0x80][..]));
    for number in [3, 1 << 32, u64::MAX] {
        assert_eq!(log::answer(log, number), Err(Refusal::NoSuchAnswer));
    }
    assert_eq!(encoded::at88sc1608_answer(log, 2), 4 << 8 | 3 << 24 | 10 << 40);
    assert_eq!(encoded::at88sc1608_answer(log, 1), 3 << 24 | 7 << 40);
    assert_eq!(encoded::at88sc1608_answer(log, 3), 14 | 3 << 24);
    assert_eq!(log::answer(&log[..n - 1], 9), Err(Refusal::Log));
    // A fault in the last entry counts for answer 0 too.
    let mut damaged = log.to_vec();
    damaged[7] = 8;
    assert_eq!(log::answer(&damaged, 0), Err(Refusal::Log));
}

#[test]
fn session_and_single_commands_agree() {
    let mut rng = gen::Rng::new(1);
    for _ in 0..200 {
        let session = gen::session(&mut rng, 50);
        let mut log = vec![0; 30_000];
        let n = run(&session, &mut log).unwrap();
        let (mut card, mut state) = (session[..CARD].to_vec(), NONE);
        let mut reader = Reader::new(&session, check(&session).unwrap().start);
        let entries = log::Log::open(&log[..n]).unwrap().entries();
        for (k, entry) in entries.enumerate() {
            let (entry, zone) = (entry.unwrap(), state[0]);
            let from = reader.at();
            reader.next_record().unwrap();
            let mut space = [0; 256];
            let record = &session[from..reader.at()];
            let reply = command(&mut card, &mut state, record, &mut space).unwrap();
            assert_eq!(entry.kind, reply.kind);
            assert!(entry.zone.is_none_or(|named| named.number() == zone.into()));
            assert_eq!(log[entry.response.clone()], space[..reply.length]);
            assert_eq!(log::find(&log[..n], k as u64), Ok(entry.response));
        }
        assert_eq!(card, log[n - SHORTEST_LOG..n - TRAILER]);
    }
}

#[test]
fn printed_example_and_listings() {
    let full = "tries 8 8 8 8 8 8 8 8 8 8 8 8 8 8 8 8 8";
    let printed = examples::printed().session();
    assert_eq!(listing(&printed), format!("0 08 06\n1 06 A5 5A\n{full}\nfuses 06\n"));
    assert_eq!(listing(&[]), "refused 1\n");
    assert_eq!(listing(&vec![0; LONGEST_SESSION + 1]), "refused 1\n");
    let power = Author::new(0).power().session();
    assert_eq!(listing(&power), format!("0 01\n{full}\nfuses 00\n"));
    let none = Author::new(4).session();
    assert_eq!(listing(&none), format!("{full}\nfuses 04\n"));
    let late = Author::new(0).wrong(3).record(&[17]).session();
    assert_eq!(listing(&late), "refused 6\n");
}

#[test]
fn listing_tells_the_tries_left() {
    // One counter at a time, so an exchange of any two would show.
    for place in 0..17 {
        let session = Author::new(0).put_configuration(COUNTERS[place], &[0xA5]).session();
        let mut tries = ["8"; 17];
        tries[place] = "4";
        assert_eq!(listing(&session), format!("tries {}\nfuses 00\n", tries.join(" ")));
    }
    let counters = [
        0x00, 0x10, 0x81, 0xA4, 0xA5, 0x7A, 0xDE, 0xBF, 0xFF, 0x24, 0x3E, 0xF7, 0x02, 0xF9, 0x68,
        0x9D, 0x3C,
    ];
    let author = COUNTERS
        .into_iter()
        .zip(counters)
        .fold(Author::new(6), |author, (at, byte)| author.put_configuration(at, &[byte]));
    let session = author.clone().read_fuses().session();
    assert_eq!(listing(&session), "0 08 06\ntries 0 1 2 3 4 5 6 7 8 2 5 7 1 6 3 5 4\nfuses 06\n");
    // The final card counts: locked, right, wrong, begun.
    let session = author.right(0).right(1).ready().wrong(2).ready().wrong(12).ready().begin();
    let lines = "0 0A\n1 0A\n2 0D\n3 0A\n4 0D\n5 0A\n6 0D\n7 0B\n";
    let tries = "tries 0 8 1 3 4 5 6 7 8 2 5 7 0 6 3 5 3";
    assert_eq!(listing(&session.session()), format!("{lines}{tries}\nfuses 06\n"));
}

/// The kinds that the log of a session shows, if it is not refused.
fn kinds(session: &[u8]) -> BTreeSet<u8> {
    let mut log = vec![0; LOG_SPACE];
    let length = run(session, &mut log).unwrap_or(0);
    let entries = log::Log::open(&log[..length]).map(|log| log.entries());
    entries.into_iter().flatten().map(|entry| entry.unwrap().kind).collect()
}

/// All but the sessions about busy and torn cards wait where they must, so their records are carried
/// out.
#[test]
fn sessions_wait_for_the_card() {
    let ignored = |session: &[u8]| kinds(session).into_iter().any(|kind| kind >= 128);
    let examples = examples::all().into_iter().filter(|(_, session)| ignored(session));
    assert!(examples.map(|(name, _)| name).eq(["busy", "zones", "torn"]));
    assert_eq!(samples::all().iter().filter(|session| ignored(session)).count(), 15);
}

#[test]
fn samples_show_every_kind() {
    let shown: BTreeSet<u8> = samples::all().iter().flat_map(|session| kinds(session)).collect();
    assert!(shown.into_iter().eq((1..=16).chain(130..=143)));
}

#[test]
fn samples_tell_the_counters_apart() {
    let listings: Vec<String> = samples::all().iter().map(|s| listing(s)).collect();
    // A refused session has one line.
    let tries = listings.iter().filter_map(|listing| listing.lines().rev().nth(1));
    let tries: Vec<Vec<&str>> = tries.map(|line| line.split(' ').skip(1).collect()).collect();
    for (one, other) in (0..17).flat_map(|one| (0..one).map(move |other| (one, other))) {
        assert!(tries.iter().any(|line| line[one] != line[other]), "{one} and {other}");
    }
}

#[test]
fn samples_meet_every_session_refusal() {
    let listings: Vec<String> = samples::all().iter().map(|s| listing(s)).collect();
    for number in (1..=10).chain([16]) {
        assert!(listings.contains(&format!("refused {number}\n")), "{number}");
    }
    let total: usize = samples::all().iter().map(Vec::len).sum();
    assert!(total < 400_000, "{total}");
}

/// The sessions at the edges, by name.
fn edge_sessions() -> HashMap<&'static str, Vec<u8>> {
    edges::all().into_iter().collect()
}

#[test]
fn edge_sessions_have_their_sizes() {
    let sessions = edge_sessions();
    let sizes = |name| {
        let session: &[u8] = &sessions[name];
        let checked = check(session).map(|c| (c.count, c.log_space));
        (session.len(), checked.map_err(Refusal::number))
    };
    assert_eq!(sizes("empty"), (0, Err(1)));
    assert_eq!(sizes("below-least"), (2196, Err(1)));
    assert_eq!(sizes("least"), (2197, Ok((0, 2197))));
    assert_eq!(sizes("greatest"), (65_536, Ok((4096, 65_536))));
    assert_eq!(sizes("byte-more"), (65_537, Err(1)));
    assert_eq!(sizes("record-more"), (65_536, Err(4)));
    assert_eq!(sizes("log-byte-more"), (65_536, Ok((4096, 65_537))));
    assert_eq!(sizes("busy-greatest"), (65_536, Ok((4096, 65_536))));
    assert_eq!(sizes("busy-log-byte-more"), (65_536, Ok((4096, 65_537))));
    assert_eq!(sizes("ready"), (2198, Ok((1, 2200))));
    for name in ["ready-zone-more", "ready-length-more", "flag-below-ready"] {
        assert_eq!(sizes(name), (2198, Err(16)), "{name}");
    }
    assert_eq!(listing(&sessions["log-byte-more"]), "refused 10\n");
    assert_eq!(listing(&sessions["busy-log-byte-more"]), "refused 10\n");
    let mut log = vec![0; LOG_SPACE];
    // Only where records are not heeded is the log shorter than the space that is asked for.
    assert_eq!(run(&sessions["greatest"], &mut log), Ok(LOG_SPACE));
    assert!(run(&sessions["busy-greatest"], &mut log).unwrap() < LOG_SPACE);
    assert!(kinds(&sessions["greatest"]).into_iter().eq(1..=16));
    let acting = [1, 4, 5, 13, 14, 15, 16];
    assert!(kinds(&sessions["busy-greatest"]).into_iter().eq(acting.into_iter().chain(130..=143)));
}

/// The end of a listing; a counter has at most 8 tries, so each number has one digit.
const ENDING: &str = "tries 8 8 8 8 8 8 8 8 8 8 8 8 8 8 8 8 8\nfuses 07\n";

/// A listing's length depends on how many records there are and how many bytes they answer in all,
/// so every number of records, and of zone reads among them, is tried with the most that it can
/// answer. A busy card answers less in the same space.
#[test]
fn no_listing_is_longer() {
    let (mut digits, mut longest) = (0, 0);
    for count in 0..=usize::from(MOST_RECORDS) {
        for zone_reads in 0..=count {
            let taken = SHORTEST_LOG + ENTRY_HEADER * count + ENTRY_ZONE * zone_reads;
            let most = ZONE * zone_reads + (FUSES - CONFIGURATION) * (count - zone_reads);
            let answered = most.min(LOG_SPACE - taken);
            let lines = digits + " 04\n".len() * count + " FF".len() * answered;
            longest = longest.max(lines + ENDING.len());
        }
        digits += count.to_string().len();
    }
    assert_eq!(listing(&edge_sessions()["longest-listing"]).len(), longest);
}
