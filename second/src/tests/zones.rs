//! The zone in a log: which entries name it, which zone that is, log space with it, and that a log
//! without zones is none.

use super::busy::{logged, not_heeded};
use super::*;

/// The kinds whose entries name a zone.
const NAMING: [u8; 4] = [4, 5, 132, 133];

/// The zones that the log of a session names, with the kinds of their entries.
fn named(session: &[u8]) -> Vec<(u8, usize)> {
    let mut log = vec![0; LOG_SPACE];
    let length = run(session, &mut log).unwrap_or(0);
    let entries = log::Log::open(&log[..length]).map(|log| log.entries());
    let entries = entries.into_iter().flatten().map(Result::unwrap);
    entries.filter_map(|entry| Some((entry.kind, entry.zone?.number()))).collect()
}

/// A session whose log is known.
fn by_hand() -> Vec<u8> {
    let author = Author::new(7).put_zone(0, 0, b"zero").put_zone(5, 0, b"five");
    let session = author.read(0, 2).select(5).read(0, 4).reset().write(4, b"!").poll();
    let session = session.select(2).read(0, 4).write(0, b"no").read_configuration(0, 1);
    let session = session.write_configuration(0x38, b"no").wait(10).read_configuration(0, 1);
    let session = session.write_configuration(0x38, b"yes").power().read(1, 1).select(7);
    session.write(0x1F, b"ab").power().write(0, b"Z").session()
}

/// The entries of its log.
#[rustfmt::skip]
const ENTRIES: [u8; 81] = [
    4, 2, 0, 0, b'z', b'e',
    3, 0, 0,
    4, 4, 0, 5, b'f', b'i', b'v', b'e',
    2, 4, 0, 0x34, 0x55, 0xAA, 0x80,
    5, 0, 0, 5,
    14, 1, 0, 1,
    131, 0, 0,
    132, 0, 0, 5,
    133, 0, 0, 5,
    134, 0, 0,
    135, 0, 0,
    13, 0, 0,
    6, 1, 0, 0x2C,
    7, 0, 0,
    1, 0, 0,
    4, 1, 0, 0, b'e',
    3, 0, 0,
    5, 0, 0, 7,
    1, 0, 0,
    5, 0, 0, 0,
];

#[test]
fn a_log_by_hand() {
    let session = by_hand();
    let mut card = session[..CARD].to_vec();
    card[CONFIGURATION + 0x38..CONFIGURATION + 0x3B].copy_from_slice(b"yes");
    (card[5 * ZONE + 4], card[7 * ZONE + 0x1F], card[7 * ZONE + 0x10]) = (b'!', b'a', b'b');
    card[0] = b'Z';
    let expected = [&ENTRIES[..], &card, &[81, 0, 0, 0, 20, 0, 0x4C, 0x50]].concat();
    let mut log = vec![0xEE; 3000];
    assert_eq!(run(&session, &mut log), Ok(expected.len()));
    assert!(log[..expected.len()] == expected && log[expected.len()..].iter().all(|&b| b == 0xEE));
    let found = |number| log::find(&log[..expected.len()], number);
    assert_eq!([0, 2, 4, 8].map(found), [Ok(4..6), Ok(13..17), Ok(28..28), Ok(43..43)]);
    assert_eq!((found(12), found(15), found(19)), (Ok(55..56), Ok(66..67), Ok(81..81)));
    assert_eq!(found(20), Err(Refusal::NoSuchAnswer));
}

/// What the last record of a list adds to the log.
fn last_entry(author: &Author, record: &[u8]) -> Vec<u8> {
    let before = logged(&author.clone().session()).0.len();
    logged(&author.clone().record(record).session()).0.split_off(before)
}

#[test]
fn only_zone_reads_and_writes_name_a_zone() {
    let acting = [vec![1], vec![13, 1], vec![14], vec![16, 0, 0]];
    for (record, zone) in not_heeded()
        .into_iter()
        .chain(acting)
        .flat_map(|r| (0..8).map(move |zone| (r.clone(), zone)))
    {
        let ready = Author::new(7).select(zone);
        let busy = ready.clone().begin();
        let names_zone = record[0] == 4 || record[0] == 5;
        for author in [ready, busy] {
            let written = last_entry(&author, &record);
            let length = usize::from(written[1]) + 256 * usize::from(written[2]);
            assert_eq!(written[0] & 0x7F, record[0]);
            assert_eq!(written.len(), 3 + usize::from(names_zone) + length, "{record:02X?}");
            assert!(!names_zone || written[3] == zone, "{record:02X?}");
        }
        if names_zone {
            let busy = Author::new(7).select(zone).begin();
            assert_eq!(last_entry(&busy, &record), [record[0] + 128, 0, 0, zone]);
        }
    }
}

#[test]
fn the_zone_is_that_before_the_record() {
    let five = || Author::new(7).select(5);
    let busy = || five().write(0, b"busy");
    let cases = [
        (Author::new(7), 0),
        (five(), 5),
        (five().select(0), 0),
        (five().select(7).select(3), 3),
        (five().power(), 0),
        (five().power().select(6), 6),
        (five().reset(), 5),
        (busy().ready(), 5),
        (busy(), 5),
        (busy().select(2), 5),
        (busy().select(2).ready(), 5),
        (busy().wait(9).select(2).wait(1), 5),
        (busy().ready().select(2), 2),
        (busy().reset().poll(), 5),
        (busy().power(), 0),
        (busy().power().select(1).begin().select(4), 1),
    ];
    for (author, zone) in cases {
        for record in [&[4, 0, 1][..], &[4, 0xFF, 0], &[5, 0, 1, 9], &[5, 0xFF, 2, 7, 8]] {
            let written = last_entry(&author, record);
            assert_eq!((written[0] & 0x7F, written[3]), (record[0], zone));
            // What comes afterwards does not change it.
            let later = author.clone().record(record).select(3).power().select(1).session();
            assert_eq!(named(&later).last(), Some(&(written[0], zone.into())));
        }
    }
}

#[test]
fn one_ending_alone_is_a_log() {
    // Without zones a write and a read that answers 0; with them a write of zone 4 and a power
    // cycle.
    let entries = [5, 0, 0, 4, 1, 0, 0];
    let mut log = log_of(&entries, 2, ZONED);
    assert_eq!([0, 1].map(|number| log::find(&log, number)), [Ok(4..4), Ok(7..7)]);
    assert_eq!(encoded::at88sc1608_answer(&log, 1), 2 << 24 | 7 << 40);
    assert_eq!(log::find(&log, 2), Err(Refusal::NoSuchAnswer));
    let at = log.len() - 2;
    for ending in 0..=0xFFFFu16 {
        log[at..].copy_from_slice(&ending.to_be_bytes());
        let expected = if ending == 0x4C50 { Ok(()) } else { Err(Refusal::Log) };
        assert_eq!(log::find(&log, 1).map(|_| ()), expected, "{ending:04X}");
    }
}

#[test]
fn zone_bytes_up_to_seven() {
    for (kind, zone) in NAMING.into_iter().flat_map(|kind| (0..=255).map(move |z| (kind, z))) {
        let response: &[u8] = if kind == 4 { &[0xAB, 0xCD] } else { &[] };
        let one = entry(kind, Some(zone), response);
        // Alone, and as the first, the second and the last of three.
        let (fuses, power) = (entry(8, None, &[4]), entry(1, None, &[]));
        let cases = [
            (one.clone(), 1, 0),
            ([&one[..], &fuses, &power].concat(), 3, 0),
            ([&fuses[..], &one, &power].concat(), 3, 1),
            ([&fuses[..], &power, &one].concat(), 3, 2),
        ];
        for (entries, count, number) in cases {
            let log = log_of(&entries, count, ZONED);
            let expected = if zone < 8 { Ok(response) } else { Err(Refusal::Log) };
            assert_eq!(log::answer(&log, number), expected, "kind {kind}, zone {zone}");
        }
    }
}

#[test]
fn zones_stand_where_they_belong() {
    for kind in (1..=16).chain(130..=143) {
        let response = vec![0; [0, 0, 4, 0, 3, 0, 2, 0, 1].get(kind).copied().unwrap_or(0)];
        let response = if kind == 14 { vec![1] } else { response };
        let naming = NAMING.contains(&(kind as u8));
        for (zone, mark) in [None, Some(5)].into_iter().flat_map(|z| [(z, PLAIN), (z, ZONED)]) {
            let log = log_of(&entry(kind as u8, zone, &response), 1, mark);
            let good = mark == ZONED && zone.is_some() == naming;
            let expected = if good { Ok(&response[..]) } else { Err(Refusal::Log) };
            assert_eq!(log::answer(&log, 0), expected, "kind {kind}, {zone:?}, {mark:02X?}");
        }
    }
}

#[test]
fn the_zone_is_cut_off_at_the_card() {
    for kind in NAMING {
        let response: &[u8] = if kind == 4 { &[9] } else { &[] };
        let whole = entry(kind, Some(1), response);
        for length in 0..whole.len() {
            let mut log = log_of(&whole[..length], 1, ZONED);
            // A card that begins with a zone's number, and with what might be a response.
            log[length..length + 2].fill(1);
            assert_eq!(log::find(&log, 0), Err(Refusal::Log), "kind {kind}, {length} bytes");
        }
        assert_eq!(log::answer(&log_of(&whole, 1, ZONED), 0), Ok(response));
        for count in [0, 2] {
            assert_eq!(log::find(&log_of(&whole, count, ZONED), 0), Err(Refusal::Log));
        }
    }
}

#[test]
fn the_length_does_not_count_the_zone() {
    let judged = |entries: &[u8]| log::find(&log_of(entries, 1, ZONED), 0).ok();
    assert_eq!(judged(&[4, 2, 0, 7, 1, 2]), Some(4..6));
    assert_eq!(judged(&[4, 1, 0, 7, 1, 2]), None);
    assert_eq!(judged(&[4, 3, 0, 7, 1, 2]), None);
    assert_eq!(judged(&[4, 0, 0, 7]), None);
    for kind in [5, 132, 133] {
        assert_eq!(judged(&[kind, 0, 0, 7]), Some(4..4));
        assert_eq!(judged(&[kind, 1, 0, 7]), None);
        assert_eq!(judged(&[kind, 1, 0, 7, 7]), None);
    }
    assert_eq!(LONGEST_ENTRY, 260);
    assert_eq!(judged(&entry(4, Some(7), &[7; 256])), Some(4..260));
    assert_eq!(judged(&entry(4, Some(7), &[7; 257])), None);
}

#[test]
fn log_space_has_room_for_zones() {
    let busy = || Author::new(7).begin();
    // The bytes that the entries would take in full, and how many of them are zones.
    let cases = [
        (Author::new(7).read(0, 5), 9, 1),
        (Author::new(7).read(0, 0), 260, 1),
        (Author::new(7).write(0, &[1]), 4, 1),
        (Author::new(7).select(3).reset().read_configuration(0, 9), 22, 0),
        (Author::new(7).select(3).write(0, &[1]).ready().read(0, 2).power(), 19, 2),
        (busy().read(0, 5), 12, 1),
        (busy().write(0, &[1]), 7, 1),
        (busy().select(3).read(0, 0).write(0, &[1]).read_configuration(0, 2), 275, 2),
    ];
    for (author, full, zones) in cases {
        let session = author.session();
        let full = SHORTEST_LOG + full;
        assert_eq!(check(&session).map(|c| c.log_space), Ok(full));
        let result = |space| run(&session, &mut vec![0; space]).map_err(Refusal::number);
        let written = result(full + 400).unwrap();
        assert_eq!((result(full), result(full + 1)), (Ok(written), Ok(written)));
        assert_eq!(result(full - 1), Err(10));
        if zones > 0 {
            assert_eq!([full - zones, full - zones - 1].map(result), [Err(10); 2]);
        }
    }
    let most = usize::from(MOST_RECORDS);
    let writes = Author::new(7).times(most, |a| a.write(0, &[1])).session();
    assert_eq!(check(&writes).map(|c| c.log_space), Ok(SHORTEST_LOG + 4 * most));
}

#[test]
fn the_listing_shows_no_zone() {
    let records = |a: Author| a.read(0, 2).write(0, b"12").read(0, 2).write(0, b"34").ready();
    let lines = "1 04 FF FF\n2 05\n3 84\n4 85\n5 0D\n";
    for zone in 0..8 {
        let session = records(Author::new(7).select(zone)).session();
        assert_eq!(listing(&session), format!("0 03\n{lines}{ENDING}"));
    }
}

#[test]
fn the_example_names_the_zones_that_it_says() {
    let (_, session) = examples::all().into_iter().find(|(name, _)| *name == "zones").unwrap();
    let zones: Vec<usize> = named(&session).into_iter().map(|(_, zone)| zone).collect();
    assert_eq!(zones, [0, 5, 5, 5, 5, 2, 2, 0]);
    let answers = listing(&session).lines().filter(|line| line.contains(" 04 ")).count();
    assert_eq!(answers, 6);
}

#[test]
fn samples_name_every_zone() {
    let shown: BTreeSet<(u8, usize)> = samples::all().iter().flat_map(|s| named(s)).collect();
    let all = NAMING.into_iter().flat_map(|kind| (0..ZONES).map(move |zone| (kind, zone)));
    assert!(shown.into_iter().eq(all));
}

#[test]
fn generated_sessions_name_every_zone() {
    let mut rng = gen::Rng::new(5);
    let mut met = HashMap::new();
    for _ in 0..500 {
        for named in named(&gen::zone_session(&mut rng, 60)) {
            *met.entry(named).or_insert(0) += 1;
        }
    }
    for named in NAMING.into_iter().flat_map(|kind| (0..ZONES).map(move |zone| (kind, zone))) {
        assert!(met[&named] >= 50, "{named:?}: {}", met[&named]);
    }
}

#[test]
fn logs_without_zones_are_none() {
    let mut rng = gen::Rng::new(6);
    for _ in 0..300 {
        let session = gen::zone_session(&mut rng, 20);
        let mut log = vec![0; 10_000];
        let length = run(&session, &mut log).unwrap();
        log.truncate(length);
        let plain = gen::without_zones(&log);
        assert_eq!(log.len() - plain.len(), named(&session).len());
        log[length - 1] = 0x4F;
        for number in 0..=20 {
            assert_eq!(log::answer(&plain, number), Err(Refusal::Log));
            assert_eq!(log::answer(&log, number), Err(Refusal::Log));
        }
    }
}
