//! Logs and their zones on both: every kind under every ending, every zone byte, logs and their
//! changes, log space, and the zone that each entry of a session names.

use second::author::{entry, log_of, Author};
use second::gen::{self, Rng};
use second::layout::{CARD, LOG_SPACE, SHORTEST_LOG, STATE};
use second::record::Reader;
use second::session;

use crate::busy::response_length;
use crate::{both, seeds, Met, FIXED, PLAIN, ZONED};

/// The kinds whose entries name a zone.
const NAMING: [u8; 4] = [4, 5, 132, 133];

/// Whether an entry of this kind is to name a zone, where the ending is a log's.
pub fn named(kind: u8, mark: [u8; 2]) -> bool {
    mark == ZONED && NAMING.contains(&kind)
}

/// Whether an entry of this kind may have a response of this length.
fn fits(kind: u8, length: usize) -> bool {
    match kind {
        2 => length == 4,
        4 => (1..=256).contains(&length),
        6 => (1..=128).contains(&length),
        8 | 14 => length == 1,
        1..=16 | 130..=143 => length == 0,
        _ => false,
    }
}

/// The result of a read of a log of so many entries that finds a response.
fn found(at: usize, length: usize, entries: usize) -> u64 {
    (at as u64) << 40 | (entries as u64) << 24 | (length as u64) << 8
}

/// The result of one that finds none.
fn none(entries: usize) -> u64 {
    (entries as u64) << 24 | 14
}

/// What reading a log gives for each answer, and for the number behind the last.
fn answers(seed: &str, log: &[u8], count: usize) -> Vec<u64> {
    (0..=count as u64).map(|number| both::answer(seed, log, number)).collect()
}

/// A log of three entries, the second as given.
fn second_of_three(kind: u8, length: usize, zone: Option<u8>, mark: [u8; 2]) {
    let one = entry(kind, zone, &vec![0; length]);
    let entries = [entry(8, None, &[7]), one, entry(1, None, &[])].concat();
    let good = mark == ZONED
        && fits(kind, length)
        && zone.is_some() == named(kind, mark)
        && zone.is_none_or(|zone| zone < 8);
    let expected = if good {
        let at = 7 + usize::from(zone.is_some());
        [found(3, 1, 3), found(at, length, 3), found(at + length + 3, 0, 3), none(3)]
    } else {
        [13; 4]
    };
    let result = answers(FIXED, &log_of(&entries, 3, mark), 3);
    assert_eq!(result, expected, "kind {kind}, length {length}, zone {zone:?}, {mark:02X?}");
}

#[test]
fn every_kind_under_every_ending() {
    #[rustfmt::skip]
    let endings = [
        PLAIN, ZONED, [0x4C, 0x4E], [0x4C, 0x51], [0x4B, 0x4F], [0x4D, 0x50], [0x4F, 0x4C],
        [0x50, 0x4C], [0xCC, 0x50], [0x4C, 0xD0], [0x53, 0x45],
    ];
    for (kind, mark) in (0..=255).flat_map(|kind| endings.map(|mark| (kind, mark))) {
        for length in (0..=5).chain([16, 127, 128, 129, 255, 256, 257, 260, 512]) {
            for zone in [None, Some(3)] {
                second_of_three(kind, length, zone, mark);
            }
        }
    }
}

#[test]
fn every_zone_byte() {
    for (kind, zone) in NAMING.into_iter().flat_map(|kind| (0..=255).map(move |z| (kind, z))) {
        let lengths: &[usize] = if kind == 4 { &[1, 2, 3, 255, 256] } else { &[0] };
        for &length in lengths {
            second_of_three(kind, length, Some(zone), ZONED);
            let one = entry(kind, Some(zone), &vec![zone; length]);
            let fuses = entry(8, None, &[7]);
            let lists = [one.clone(), [&one[..], &fuses].concat(), [&fuses[..], &one].concat()];
            for (entries, count) in lists.into_iter().zip([1, 2, 2]) {
                let result = both::answer(FIXED, &log_of(&entries, count, ZONED), 0) & 0xFF;
                assert_eq!(result, if zone < 8 { 0 } else { 13 }, "kind {kind}, zone {zone}");
                assert_eq!(both::answer(FIXED, &log_of(&entries, count, PLAIN), 0), 13);
            }
        }
    }
}

#[test]
fn every_ending() {
    // The first would be good without zones, the second is with them, the third in either case.
    let cases: [(&[u8], u16); 3] =
        [(&[4, 1, 0, 9], 1), (&[4, 1, 0, 5, 9], 1), (&[5, 0, 0, 4, 1, 0, 0], 2)];
    for (which, (entries, count)) in cases.into_iter().enumerate() {
        let mut log = log_of(entries, count, PLAIN);
        let at = log.len() - 2;
        for ending in 0..=0xFFFFu16 {
            log[at..].copy_from_slice(&ending.to_be_bytes());
            let expected = match (ending, which) {
                (0x4C50, 1) => found(4, 1, 1),
                (0x4C50, 2) => found(7, 0, 2),
                _ => 13,
            };
            let result = both::answer(FIXED, &log, u64::from(count) - 1);
            assert_eq!(result, expected, "case {which}, {ending:04X}");
        }
    }
}

#[test]
fn the_zone_is_cut_off_at_the_card() {
    for kind in NAMING {
        let response: &[u8] = if kind == 4 { &[1; 3] } else { &[] };
        let whole = [entry(8, None, &[7]), entry(kind, Some(1), response)].concat();
        for (length, byte) in (0..=whole.len()).flat_map(|n| (0..=255).map(move |b| (n, b))) {
            for mark in [PLAIN, ZONED] {
                let mut log = log_of(&whole[..length], 2, mark);
                log[length..length + 4].fill(byte);
                let result = both::answer(FIXED, &log, 1) & 0xFF;
                let good = mark == ZONED && length == whole.len();
                assert_eq!(result, if good { 0 } else { 13 }, "kind {kind}, {length}, {mark:02X?}");
            }
        }
    }
}

/// What some session may have logged: the kind, the zone that was selected, the response.
type Logged = (u8, u8, Vec<u8>);

fn some_entries(rng: &mut Rng) -> Vec<Logged> {
    let kinds: Vec<u8> = (1..=16).chain(130..=143).collect();
    let count = rng.below(14);
    let mut entries = Vec::new();
    for _ in 0..count {
        let any = rng.pick(&kinds);
        let kind = rng.pick(&[4, 4, 5, 132, 133, any, any, any]);
        let short = 1 + rng.below(4);
        let length = match kind {
            2 => 4,
            4 => rng.pick(&[short, short, short, short, 256]),
            6 => rng.pick(&[short, short, short, 128]),
            8 | 14 => 1,
            _ => 0,
        };
        // Responses with bytes that look like headers and zones.
        let looks = [0, 0, 0, 1, 2, 4, 5, 7, 8, 132, 133, 255];
        entries.push((kind, rng.byte() & 7, (0..length).map(|_| rng.pick(&looks)).collect()));
    }
    entries
}

/// Those entries with or without their zones, and what reading their log is to give.
fn laid_out(entries: &[Logged], mark: [u8; 2]) -> (Vec<u8>, Vec<u64>) {
    let (mut bytes, mut expected) = (Vec::new(), Vec::new());
    for (kind, zone, response) in entries {
        bytes.extend(entry(*kind, named(*kind, mark).then_some(*zone), response));
        expected.push(found(bytes.len() - response.len(), response.len(), entries.len()));
    }
    expected.push(none(entries.len()));
    if mark == PLAIN {
        expected.fill(13);
    }
    (bytes, expected)
}

/// Reads a changed log under both endings.
fn read_changed(seed: &str, entries: &[u8], count: usize, met: &mut Met) {
    for (mark, name) in [(PLAIN, "plain"), (ZONED, "zoned")] {
        let log = log_of(entries, count as u16, mark);
        for number in [0, count.saturating_sub(1), count] {
            let refusal = both::answer(seed, &log, number as u64) & 0xFF;
            met.note(&format!("changed, {name}: refusal {refusal}"));
        }
    }
}

/// Every byte dropped, one put in everywhere, every byte changed.
fn change(rng: &mut Rng, seed: &str, entries: &[u8], count: usize, met: &mut Met) {
    read_changed(seed, entries, count, met);
    let bytes = [0, 1, 3, 4, 5, 7, 8, 14, 132, 133, 255];
    for at in 0..entries.len() {
        let (before, after) = entries.split_at(at);
        let any = rng.byte();
        read_changed(seed, &[before, &after[1..]].concat(), count, met);
        read_changed(seed, &[before, &[rng.pick(&bytes)], after].concat(), count, met);
        for byte in [rng.pick(&bytes), after[0] ^ 1 << (any & 7), any] {
            read_changed(seed, &[before, &[byte], &after[1..]].concat(), count, met);
        }
    }
}

#[test]
fn logs_with_and_without_zones_and_their_changes() {
    let mut met = Met::default();
    for seed in seeds(400) {
        let mut rng = Rng::new(seed);
        let name = seed.to_string();
        let entries = some_entries(&mut rng);
        for mark in [PLAIN, ZONED] {
            let (bytes, expected) = laid_out(&entries, mark);
            let log = log_of(&bytes, entries.len() as u16, mark);
            assert_eq!(answers(&name, &log, entries.len()), expected, "{name}, {mark:02X?}");
            for count in [entries.len() + 1, entries.len().wrapping_sub(1)] {
                let log = log_of(&bytes, count as u16, mark);
                assert_eq!(both::answer(&name, &log, 0), 13, "{name}, count {count}");
            }
            if bytes.len() < 300 {
                change(&mut rng, &name, &bytes, entries.len(), &mut met);
            }
        }
    }
    for refusal in [0, 13, 14] {
        met.require(&format!("changed, zoned: refusal {refusal}"), 10_000);
    }
    met.require("changed, plain: refusal 13", 100_000);
    assert!(!met.0.contains_key("changed, plain: refusal 0"));
}

/// The records of a sound session, as bytes.
fn records(session: &[u8]) -> Vec<&[u8]> {
    let checked = session::check(session).expect("the session is sound");
    let mut reader = Reader::new(session, checked.start);
    let mut next = |_| {
        let from = reader.at();
        reader.next_record().expect("the record is sound");
        &session[from..reader.at()]
    };
    (0..checked.count).map(&mut next).collect()
}

/// Runs a session with the space that its log wants and with less, down to what it would want
/// without zones.
fn spaces(seed: &str, session: &[u8], met: &mut Met) {
    let records = records(session);
    let zones = records.iter().filter(|record| matches!(record[0], 4 | 5)).count();
    let rest: usize = records.iter().map(|record| 3 + response_length(record)).sum();
    let full = SHORTEST_LOG + rest + zones;
    for space in [full, full + 1, full + 300] {
        assert_eq!(both::run(seed, session, space).0 & 0xFF, 0, "{seed}: {space} of {full}");
    }
    for less in [1, zones, zones + 1, zones / 2, rest + zones].into_iter().filter(|&less| less > 0)
    {
        assert_eq!(both::run(seed, session, full - less).0, 10, "{seed}: {less} less than {full}");
    }
    met.note_if("log space with zones", zones > 1);
}

#[test]
fn log_space_with_zones() {
    let mut met = Met::default();
    for seed in seeds(1000) {
        let mut rng = Rng::new(seed);
        let count = 1 + rng.below(40);
        spaces(&seed.to_string(), &gen::zone_session(&mut rng, count), &mut met);
    }
    met.require("log space with zones", 800);
    // Ready, met while busy, and the most that a session can have.
    for author in [Author::new(7).select(6), Author::new(7).select(6).begin()] {
        for count in 1..=9 {
            spaces(FIXED, &author.clone().times(count, |a| a.read(1, 2)).session(), &mut met);
            spaces(FIXED, &author.clone().times(count, |a| a.write(1, &[2])).session(), &mut met);
        }
        spaces(FIXED, &author.clone().times(4094, |a| a.write(1, &[2])).session(), &mut met);
        spaces(FIXED, &author.times(4094, |a| a.read(1, 0)).session(), &mut met);
    }
    let session = Author::new(7).select(4).read(0, 3).write(0, &[1]).read(0, 2).session();
    let (full, written) = (SHORTEST_LOG + 3 + 7 + 4 + 6, SHORTEST_LOG + 3 + 7 + 4 + 4);
    for space in 0..full + 20 {
        let (result, _) = both::run(FIXED, &session, space);
        assert_eq!(result, if space < full { 10 } else { (written as u64) << 8 }, "{space}");
    }
}

/// Notes what an entry with or without a zone came from.
fn note(met: &mut Met, kind: u8, zone: u8) {
    if NAMING.contains(&kind) {
        met.note(&format!("kind {kind} in zone {zone}"));
    }
    met.note_if("power cycle in another zone", kind == 1 && zone > 0);
    met.note_if("reset in another zone", kind == 2 && zone > 0);
    met.note_if("select met while busy", kind == 131);
    met.note_if("staged write in another zone", kind == 15 && zone > 0);
}

/// Follows a session call by call and expects what each record adds to its log; reads every answer
/// of that log, and none of one without zones.
pub fn follow(seed: &str, session: &[u8], met: &mut Met) {
    let (result, space) = both::run(seed, session, 70_000);
    assert_eq!(result & 0xFF, 0, "{seed}");
    let log = &space[..(result >> 8) as usize];
    let plain = gen::without_zones(log);
    let (mut card, mut state) = (session[..CARD].to_vec(), [0; STATE]);
    let (mut zone, mut at) = (0, 0);
    let records = records(session);
    for (number, record) in (0..).zip(&records) {
        assert_eq!(state[0], zone, "{seed}, record {number}");
        let (answered, response) = both::answered(seed, &mut card, &mut state, record, 256);
        let (kind, length) = ((answered >> 32) as u8, (answered >> 8) as u16 as usize);
        let naming = named(kind, ZONED);
        let expected = entry(kind, naming.then_some(zone), &response[..length]);
        at += expected.len();
        assert_eq!(log[at - expected.len()..at], expected, "{seed}, record {number}");
        assert_eq!(both::answer(seed, log, number), found(at - length, length, records.len()));
        assert_eq!(both::answer(seed, &plain, number), 13);
        note(met, kind, zone);
        zone = match kind {
            1 => 0,
            15 if state[5] == 1 => 0,
            3 => record[1],
            _ => zone,
        };
    }
    let count = records.len() as u16;
    let end = [&(at as u32).to_le_bytes()[..], &count.to_le_bytes(), &ZONED].concat();
    assert!(log[at..] == [card, end].concat(), "{seed}: the log's end");
    let behind = [log, &plain].map(|log| both::answer(seed, log, count.into()));
    assert_eq!(behind, [none(records.len()), 13]);
}

#[test]
fn every_entry_names_the_zone_that_was_selected() {
    let mut met = Met::default();
    for seed in seeds(1200) {
        let mut rng = Rng::new(seed);
        let count = 1 + rng.below(80);
        follow(&seed.to_string(), &gen::zone_session(&mut rng, count), &mut met);
        follow(&seed.to_string(), &gen::session(&mut rng, count), &mut met);
    }
    for (kind, zone) in NAMING.into_iter().flat_map(|kind| (0..8).map(move |zone| (kind, zone))) {
        met.require(&format!("kind {kind} in zone {zone}"), 100);
    }
    #[rustfmt::skip]
    let met_often = [
        "power cycle in another zone", "reset in another zone", "select met while busy",
        "staged write in another zone",
    ];
    for what in met_often {
        met.require(what, 500);
    }
}

#[test]
fn every_pair_of_zones() {
    let mut met = Met::default();
    for (one, other) in (0..8).flat_map(|one| (0..8).map(move |other| (one, other))) {
        let touched = |a: Author| a.read(0, 2).read_configuration(0, 1).write(0, &[1]).read(0, 1);
        let author = touched(touched(Author::new(7)).ready().select(one)).select(other);
        let author = touched(touched(author).ready().reset()).ready().select(other);
        let author = touched(author).write(0, &[2]).power();
        follow(FIXED, &touched(author).session(), &mut met);
    }
    let sessions = second::samples::all().into_iter().filter(|s| {
        session::check(s).is_ok_and(|checked| checked.log_space <= LOG_SPACE && checked.count < 500)
    });
    for session in sessions {
        follow(FIXED, &session, &mut met);
    }
    met.require("select met while busy", 64);
}
