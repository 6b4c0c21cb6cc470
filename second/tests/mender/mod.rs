//! The mender on both: every edge, every set of faults, every byte of a trailer, every change of a
//! record, titles that might be records, sessions from the generator, the longest searches. What is
//! to be found is told by a table that is filled from the end; what is mended is mended again and
//! run.

use second::author::{fresh_card, Author};
use second::gen::{self, Rng};
use second::layout::{
    CARD, FLAG, FUSES, LONGEST_SESSION, MOST_RECORDS, SHORTEST_SESSION, STAGED_VALUES, TRAILER,
};
use second::session;
use second::staging::READY;
use second::writer::parts;
use second::{edges, examples, samples};

use crate::writer::every_kind;
use crate::{both, seeds, staging, Met, FIXED, STAGES};

/// Trailers that no session has: other bytes, the marks exchanged, a start in the card and one
/// behind the end, too many records.
const WRONG: [[u8; TRAILER]; 7] = [
    [0x00; TRAILER],
    [0xFF; TRAILER],
    [0x08; TRAILER],
    [0x8D, 0x08, 0, 0, 1, 0, 0x45, 0x53],
    [0x8C, 0x08, 0, 0, 1, 0, 0x53, 0x45],
    [0xFF, 0xFF, 0xFF, 0xFF, 1, 0, 0x53, 0x45],
    [0x8D, 0x08, 0, 0, 0xFF, 0xFF, 0x53, 0x45],
];

/// Bytes that are records of their own, bytes that begin longer ones, and bytes that begin none.
const WHOLE: [u8; 6] = [1, 2, 8, 9, 11, 14];
const HEADS: [u8; 10] = [3, 4, 5, 6, 7, 10, 12, 13, 15, 16];
const NONE: [u8; 6] = [0, 17, b' ', 0x7F, 0x80, 0xFF];

/// How many bytes the record at the front takes, if there is one.
fn record_length(bytes: &[u8]) -> Option<usize> {
    let length = match *bytes {
        [1 | 2 | 8 | 9 | 11 | 14, ..] => 1,
        [3, 0..=7, ..] | [13, 1..=255, ..] => 2,
        [4 | 16, _, _, ..] => 3,
        [6, address, count @ 1..=255, ..] if u16::from(address) + u16::from(count) <= 128 => 3,
        [5, _, count @ 1..=16, ..] => 3 + usize::from(count),
        [7, 0..=127, count @ 1..=16, ..] => 3 + usize::from(count),
        [15, _, count @ 1..=8, ..] => 3 + usize::from(count),
        [10, 0..=15, ..] => 5,
        [12, 0 | 1, ..] => 10,
        _ => return None,
    };
    (length <= bytes.len()).then_some(length)
}

/// The result of a session that is mended.
fn mended(start: usize, count: u16) -> u64 {
    (start as u64) << 32 | u64::from(count) << 8
}

/// The start and the count of a result, unless it is a refusal.
fn told(result: u64) -> Option<(usize, u16)> {
    (result & 0xFF == 0).then_some(((result >> 32) as usize, (result >> 8) as u16))
}

/// The result that a session is to have.
fn judged(session: &[u8]) -> u64 {
    if !(2197..=65_536).contains(&session.len()) {
        return 1;
    }
    if !STAGES.contains(&session[FUSES]) {
        return 5;
    }
    if !staging::sound(&session[..CARD]) {
        return 16;
    }
    let bytes = &session[CARD..session.len() - TRAILER];
    // How many records there are from each place to the end, if they end there.
    let mut counts = vec![None; bytes.len()];
    counts.push(Some(0));
    for at in (0..bytes.len()).rev() {
        let behind = record_length(&bytes[at..]).and_then(|length| counts[at + length]);
        counts[at] = behind.map(|count| count + 1);
    }
    let few = |(at, count): (usize, &Option<u16>)| {
        count.filter(|count| (1..=4096).contains(count)).map(|count| mended(CARD + at, count))
    };
    counts.iter().enumerate().find_map(few).unwrap_or(17)
}

/// Mends on both, and expects what is judged; answers the result and the session.
fn mend(seed: &str, session: &[u8]) -> (u64, Vec<u8>) {
    let (result, after) = both::mend(seed, session);
    let what = || format!("{seed}: {:02X?}", session.get(CARD..).unwrap_or(&[]));
    assert_eq!(result, judged(session), "{}", what());
    if let Some((start, count)) = told(result) {
        let start_and_count = [&(start as u32).to_le_bytes()[..], &count.to_le_bytes()].concat();
        let trailer = [&start_and_count[..], &[0x53, 0x45]].concat();
        assert_eq!(after[after.len() - TRAILER..], trailer, "{}", what());
        let checked = session::check(&after).map(|checked| (checked.start, checked.count));
        assert_eq!(checked, Ok((start, count)), "{}", what());
    }
    (result, after)
}

/// Mends on both, mends what is mended, and runs it; only its log space may be too short.
fn settle(seed: &str, session: &[u8]) -> u64 {
    let (result, after) = mend(seed, session);
    if result & 0xFF == 0 {
        let (again, same) = mend(seed, &after);
        assert!(again == result && same == after, "{seed}: mended again");
        let needed = session::check(&after).expect("a mended session is sound").log_space;
        assert_eq!(both::run(seed, &after, needed).0 & 0xFF, 0, "{seed}: {needed}");
        assert_eq!(both::run(seed, &after, needed - 1).0, 10, "{seed}: {needed}");
    }
    result
}

/// A card, these bytes, and one of the wrong trailers.
fn copy_of(card: &[u8], bytes: &[u8]) -> Vec<u8> {
    [card, bytes, &WRONG[bytes.len() % WRONG.len()]].concat()
}

/// The same on a fresh card.
fn copy(bytes: &[u8]) -> Vec<u8> {
    copy_of(&fresh_card(6), bytes)
}

/// What is found in these bytes behind a card, its place counted from there.
fn found(bytes: &[u8]) -> Option<(usize, u16)> {
    let result = settle(FIXED, &copy(bytes));
    assert!(matches!(result & 0xFF, 0 | 17));
    told(result).map(|(start, count)| (start - CARD, count))
}

/// Overwrites a trailer.
fn with_trailer(session: &[u8], trailer: [u8; TRAILER]) -> Vec<u8> {
    let end = session.len().saturating_sub(TRAILER);
    [&session[..end], &trailer[..session.len() - end]].concat()
}

/// Cards that are good, and cards with bad fuses, bad staging bytes or both, with their refusals.
fn cards() -> Vec<(Vec<u8>, Option<u64>)> {
    let heads: [[u8; 4]; 4] = [[0xFD, 0, 0, 0], [READY, 8, 0, 0], [READY, 0, 0, 9], [0; 4]];
    let mut cards: Vec<_> = STAGES.iter().map(|&fuses| (fresh_card(fuses), None)).collect();
    cards.extend([5, 1, 3, 8, 255].map(|fuses| (fresh_card(fuses), Some(5))));
    for (fuses, refusal) in [(6, 16), (0, 16), (5, 5), (0x86, 5)] {
        cards.extend(heads.map(|head| {
            let mut card = fresh_card(fuses);
            card[FLAG..STAGED_VALUES].copy_from_slice(&head);
            (card, Some(refusal))
        }));
    }
    let mut ready = fresh_card(7);
    ready[FLAG..STAGED_VALUES].copy_from_slice(&[READY, 7, 0xFF, 8]);
    cards.push((ready, None));
    cards
}

#[test]
fn every_length_with_every_card() {
    let lengths = (0..=16).chain(FUSES - 2..2215).chain(65_530..=65_541).chain([131_072, 131_080]);
    for (length, (card, refusal)) in lengths.flat_map(|n| cards().into_iter().map(move |c| (n, c)))
    {
        for (fill, last) in [(b' ', b' '), (b' ', 8), (0, 0), (0, 14), (0xFF, 1), (0xFF, 3)] {
            let mut session = card.clone();
            session.resize(length, fill);
            if length > CARD + TRAILER {
                session[length - TRAILER - 1] = last;
            }
            let expected = match refusal {
                _ if !(2197..=65_536).contains(&length) => 1,
                Some(refusal) => refusal,
                None if length > 2197 && [8, 14, 1].contains(&last) => mended(length - 9, 1),
                None => 17,
            };
            for trailer in WRONG {
                let (result, _) = mend(FIXED, &with_trailer(&session, trailer));
                assert_eq!(result, expected, "{length}");
            }
        }
    }
}

#[test]
fn every_fuse_byte_and_flag() {
    for byte in 0..=255 {
        for records in [&[8][..], &[0], &[]] {
            let mut card = fresh_card(byte);
            settle(FIXED, &copy_of(&card, records));
            for fuses in [6, 5] {
                card[FUSES] = fuses;
                for (zone, length) in [(0, 0), (7, 8), (8, 8), (7, 9), (byte, 0), (0, byte)] {
                    card[FLAG..STAGED_VALUES].copy_from_slice(&[byte, zone, 0xFF, length]);
                    settle(FIXED, &copy_of(&card, records));
                    card[FLAG] = READY;
                    settle(FIXED, &copy_of(&card, records));
                }
            }
        }
    }
}

/// Sets of the four refusals, each with wrong trailers.
#[test]
fn every_set_of_faults_in_a_copy() {
    const FAULTS: [u64; 4] = [1, 5, 16, 17];
    for (set, variant) in (0..1 << FAULTS.len()).flat_map(|set| (0..6).map(move |v| (set, v))) {
        let has = |number| (0..).zip(FAULTS).any(|(bit, n)| n == number && set >> bit & 1 == 1);
        let mut card = fresh_card(if has(5) { [5, 1, 255][variant % 3] } else { 6 });
        if has(16) {
            let head = [[0xFD, 0, 0, 0], [READY, 8, 0, 0], [READY, 0, 0, 9]][variant % 3];
            card[FLAG..STAGED_VALUES].copy_from_slice(&head);
        }
        let good: [&[u8]; 6] = [&[8], &[8, 8], &[3, 5], b"..\x0E", b"\x0A\x0E", b"text\x02\x08"];
        let bad: [&[u8]; 6] = [&[], &[8, 0], &[17], b"text", &[8, 3], &[15, 0, 0]];
        let mut bytes = if has(17) { bad } else { good }[variant].to_vec();
        if has(1) && variant != 0 {
            let length = LONGEST_SESSION + variant - SHORTEST_SESSION;
            bytes.splice(..0, vec![b' '; length - bytes.len()]);
        }
        let mut session = card.to_vec();
        session.extend(bytes);
        session.extend([0; TRAILER]);
        if has(1) && variant == 0 {
            session.truncate(SHORTEST_SESSION - 1);
        }
        let first = FAULTS.into_iter().find(|&number| has(number));
        for trailer in WRONG {
            let result = settle(FIXED, &with_trailer(&session, trailer));
            assert_eq!(result & 0xFF, first.unwrap_or(0), "{set}, {variant}");
        }
    }
}

#[test]
fn every_value_of_a_trailer_byte() {
    let model = every_kind();
    let five = every_kind().put(FUSES, &[5]);
    let sixteen = every_kind().put(FLAG, &[0xFD]);
    let none = Author::new(7).text(b"Text alone");
    // A title that is a record, and one that takes the first record's bytes.
    let record = Author::new(0).text(&[b'.', 8]).poll().select(3);
    let takes = Author::new(0).text(b"Text\n").select(3).write(0, &[8]).poll();
    for author in [model, five, sixteen, none, record, takes] {
        let session = author.session();
        let (result, mended) = mend(FIXED, &session);
        let end = session.len() - TRAILER;
        for (at, value) in (end..end + TRAILER).flat_map(|at| (0..=255).map(move |v| (at, v))) {
            for mut changed in [session.clone(), with_trailer(&session, WRONG[1])] {
                changed[at] = value;
                let (same, after) = mend(FIXED, &changed);
                assert_eq!(same, result);
                assert!(after == if result & 0xFF == 0 { mended.clone() } else { changed });
            }
        }
    }
}

/// A record of every kind, and of those at the edges of their fields.
fn one_of_each() -> Vec<Vec<u8>> {
    #[rustfmt::skip]
    let heads: [&[u8]; 18] = [
        &[1], &[2], &[3, 7], &[4, 0, 0], &[4, 8, 14], &[6, 0, 128], &[6, 127, 1], &[8], &[9],
        &[10, 15, 1, 2, 3], &[10, 0, 8, 8, 8], &[11], &[12, 0, 1, 2, 3, 4, 5, 6, 7, 8],
        &[12, 1, 8, 8, 8, 8, 8, 8, 8, 8], &[13, 1], &[13, 255], &[14], &[16, 8, 8],
    ];
    let writes = [(5, 16), (7, 16), (15, 8)].into_iter().flat_map(|(kind, most)| {
        [(0, 1), (127, 2), (127, most), (8, most)].map(|(address, count)| {
            [&[kind, address, count][..], &vec![address; count.into()]].concat()
        })
    });
    heads.iter().map(|head| head.to_vec()).chain(writes).collect()
}

/// Each alone, with every value of each of its first bytes, whole, a byte shorter and a byte longer.
#[test]
fn every_change_of_the_one_record() {
    let mut met = Met::default();
    for record in one_of_each() {
        assert_eq!(found(&record), Some((0, 1)), "{record:02X?}");
        for at in 0..record.len().min(3) {
            let mut changed = record.clone();
            for value in 0..=255 {
                changed[at] = value;
                let (_, shorter) = changed.split_last().expect("a record has a byte");
                for bytes in [&changed[..], shorter] {
                    let (result, _) = mend(FIXED, &copy(bytes));
                    met.note(if result == 17 { "not found" } else { "found" });
                    for more in [0, 1, 3, 8, value] {
                        mend(FIXED, &copy(&[bytes, &[more]].concat()));
                        mend(FIXED, &copy(&[&[more], bytes].concat()));
                    }
                }
            }
        }
    }
    met.require("found", 5000);
    met.require("not found", 5000);
}

/// Records with every value of their fields, cut at every length.
#[test]
fn every_field_and_length_of_the_one_record() {
    let judge = |record: &[u8]| mend(FIXED, &copy(record));
    for (kind, field) in (0..=18).flat_map(|kind| (0..=255).map(move |field| (kind, field))) {
        for length in 0..=13 {
            judge(&[kind, field, 9, 1, 2, 3, 4, 5, 6, 7, 8, 9, 10][..length]);
        }
        // With zeros, which begin no record, so that there is hardly another start.
        for length in 2..=13 {
            judge(&[kind, field, 2, 0, 0, 0, 0, 0, 0, 0, 0, 0, 0][..length]);
        }
    }
    for kind in 0..=255 {
        judge(&[kind]);
        judge(&[kind, 8]);
        judge(&[8, kind]);
    }
    for (kind, count) in
        [4, 5, 6, 7, 15].into_iter().flat_map(|kind| (0..=255).map(move |n| (kind, n)))
    {
        for address in [0, 1, 0x7F, 0x80, 0xFF] {
            for data in [0, 1, 7, 8, 9, 15, 16, 17] {
                judge(&[&[kind, address, count][..], &vec![0; data]].concat());
                judge(&[&[kind, address, count][..], &vec![kind; data]].concat());
            }
        }
    }
    for (address, count) in (0..=255).flat_map(|address| (0..=255).map(move |n| (address, n))) {
        judge(&[6, address, count]);
    }
}

/// Records of every kind behind a title: every byte of them changed, taken out and put in, and all
/// cut there.
#[test]
fn every_change_of_the_records() {
    let author = every_kind();
    let sound = author.parts();
    let judge = |records: &[u8]| {
        let bytes = [sound.title, records].concat();
        mend(FIXED, &copy_of(sound.card, &bytes)).0
    };
    assert_eq!(judge(sound.records), mended(CARD + sound.title.len(), sound.count as u16));
    let mut met = Met::default();
    for at in 0..sound.records.len() {
        let (before, after) = sound.records.split_at(at);
        let mut records = sound.records.to_vec();
        for value in 0..=255 {
            records[at] = value;
            let result = judge(&records);
            met.note_if("not found", result == 17);
            let found = told(result).map(|(start, _)| start);
            met.note_if("found later", found > Some(CARD + sound.title.len()));
            judge(&[before, &[value], after].concat());
            judge(&[before, &[value]].concat());
        }
        judge(before);
        judge(after);
        judge(&[before, &after[1..]].concat());
    }
    met.require("found later", 500);
    met.require("not found", 20);
}

/// A title of bytes that are records, begin records, begin none, are text, or are any of them.
fn title(rng: &mut Rng, length: usize, style: usize) -> Vec<u8> {
    let any: Vec<u8> = (0..=18).chain(NONE).collect();
    let bytes = [&WHOLE[..], &HEADS, &NONE, b"A title\nof text", &any][style];
    (0..length).map(|_| rng.pick(bytes)).collect()
}

/// Titles of every length up to 40 before one to six records. The start that is found is the lost
/// one, or lies before it.
#[test]
fn every_length_of_a_title() {
    let mut met = Met::default();
    for (length, count) in (0..=40).flat_map(|length| (1..=6).map(move |count| (length, count))) {
        for (style, seed) in (0..5).flat_map(|style| (0..60).map(move |seed| (style, seed))) {
            let mut rng = Rng::new(length * 1000 + count * 100 + seed);
            let session = gen::session(&mut rng, count as usize);
            let sound = parts(&session).expect("the session is sound");
            let title = title(&mut rng, length as usize, style);
            let lost = copy_of(sound.card, &[&title[..], sound.records].concat());
            let (result, _) = mend(FIXED, &lost);
            let (start, found) = told(result).expect("there are records");
            let was = CARD + title.len();
            assert!(start <= was && (start < was || u64::from(found) == sound.count));
            met.note(if start == was { "the lost start" } else { "a start in the title" });
        }
    }
    met.require("the lost start", 10_000);
    met.require("a start in the title", 10_000);
}

#[test]
fn every_count_about_the_most() {
    let titles: [&[u8]; 8] = [&[], &[8], &[0], &[3], &[8, 0], &[0, 8], b"A title.", b"Newline\n"];
    for (title, count) in titles
        .into_iter()
        .flat_map(|title| [1, 2, 4094, 4095, 4096, 4097, 4098, 4100].map(|count| (title, count)))
    {
        for byte in [8, 1] {
            found(&[title, &vec![byte; count]].concat());
        }
        // Some that are not read from a place within, and some that are.
        let records: [&[u8]; 9] = [
            &[3, 0],
            &[3, 3],
            &[3, 7],
            &[13, 255],
            &[4, 0, 0],
            &[4, 8, 14],
            &[16, 8, 8],
            &[10, 8, 0, 0, 8],
            &[5, 0, 2, 14, 14],
        ];
        for record in records {
            found(&[title, &record.repeat(count)].concat());
        }
    }
    let many = |count| vec![14; count];
    assert_eq!(found(&many(4095)), Some((0, 4095)));
    assert_eq!(found(&many(4096)), Some((0, 4096)));
    assert_eq!(found(&many(4097)), Some((1, 4096)));
    assert_eq!(found(&many(4100)), Some((4, 4096)));
    assert_eq!(found(&[&[0][..], &many(4096)].concat()), Some((1, 4096)));
    assert_eq!(found(&[&[0][..], &many(4097)].concat()), Some((2, 4096)));
    assert_eq!(found(&[&[14, 0][..], &many(4097)].concat()), Some((3, 4096)));
    assert_eq!(found(&[3, 0].repeat(4096)), Some((0, 4096)));
    assert_eq!(found(&[3, 0].repeat(4097)), Some((2, 4096)));
    // The count is of records, not of bytes.
    assert_eq!(found(&[13, 14].repeat(2049)), Some((0, 2049)));
    assert_eq!(found(&[&many(4096)[..], &[0]].concat()), None);
}

/// The smallest start at which the check takes a trailer, of all starts and counts.
fn by_check(session: &[u8]) -> Option<(usize, u16)> {
    let end = session.len() - TRAILER;
    let mut tried = session.to_vec();
    tried[end + 6..].copy_from_slice(&[0x53, 0x45]);
    let counts = |start| (1..=(end - start) as u16).map(move |count| (start, count));
    (CARD..end).flat_map(counts).find(|&(start, count)| {
        tried[end..end + 4].copy_from_slice(&(start as u32).to_le_bytes());
        tried[end + 4..end + 6].copy_from_slice(&count.to_le_bytes());
        session::check(&tried).is_ok()
    })
}

#[test]
fn every_short_string() {
    const BYTES: [u8; 6] = [0, 1, 2, 3, 5, 16];
    let card = fresh_card(0);
    let mut met = Met::default();
    for length in 0..=7 {
        for n in 0..BYTES.len().pow(length) {
            let digit = |k| BYTES[n / BYTES.len().pow(k) % BYTES.len()];
            let bytes: Vec<u8> = (0..length).map(digit).collect();
            let lost = copy_of(&card, &bytes);
            let (result, _) = mend(FIXED, &lost);
            assert_eq!(told(result), by_check(&lost), "{bytes:02X?}");
            met.note(if result == 17 { "not found" } else { "found" });
        }
    }
    met.require("found", 10_000);
    met.require("not found", 10_000);
}

#[test]
fn stored_sessions_with_lost_trailers() {
    let named = edges::all().into_iter().chain(examples::all()).map(|(_, session)| session);
    let mut met = Met::default();
    for session in samples::all().into_iter().chain(named) {
        let whole = session::check(&session).map(|checked| (checked.start, checked.count)).ok();
        for trailer in WRONG {
            let result = settle(FIXED, &with_trailer(&session, trailer));
            match told(result) {
                None => met.note(&format!("refusal {result}")),
                found if found == whole => met.note("as it was"),
                _ => met.note("mended in another way"),
            }
        }
        mend(FIXED, &session);
    }
    met.require("as it was", 300);
    met.require("mended in another way", 30);
    for refusal in [1, 5, 16, 17] {
        met.require(&format!("refusal {refusal}"), 14);
    }
}

#[test]
fn lost_trailers_from_the_generator() {
    let mut met = Met::default();
    for seed in seeds(60_000) {
        let mut rng = Rng::new(seed);
        let name = seed.to_string();
        let few = rng.below(12);
        let some = rng.below(60);
        let mut records = rng.pick(&[0, 1, few, few, few, some]);
        if rng.below(500) == 0 {
            records = MOST_RECORDS.into();
        }
        let session = if rng.chance(30) {
            gen::zone_session(&mut rng, records)
        } else {
            gen::session(&mut rng, records)
        };
        let whole = session::check(&session).expect("the session is sound");
        let (length, style) = (rng.pick(&[0, 0, 1, 3, 20]), rng.below(5));
        let title = title(&mut rng, length, style);
        let mut lost = session.clone();
        lost.splice(whole.start..whole.start, title);
        gen::lose_trailer(&mut rng, &mut lost);
        let result = settle(&name, &lost);
        match told(result) {
            None => met.note(&format!("refusal {result}")),
            Some(found) if found == (whole.start + length, whole.count) => {
                met.note("the lost trailer")
            }
            _ => met.note("another trailer"),
        }
        met.note_if("most records", told(result).is_some_and(|(_, count)| count == MOST_RECORDS));
        if records == MOST_RECORDS.into() {
            continue;
        }
        // A session with other faults; those of its trailer are none.
        let damaged = gen::damaged_session(&mut rng, &session);
        let result = settle(&name, &damaged);
        met.note(&format!("refusal {} of a damaged one", result & 0xFF));
    }
    met.require("the lost trailer", 20_000);
    met.require("another trailer", 5000);
    met.require("refusal 17", 1000);
    met.require("most records", 50);
    for refusal in [0, 1, 5, 16, 17] {
        met.require(&format!("refusal {refusal} of a damaged one"), 1000);
    }
}

/// Bytes of few values, so that from many starts most of them are records.
#[test]
fn bytes_that_nearly_are_records() {
    let mut met = Met::default();
    let card = fresh_card(6);
    for seed in seeds(300_000) {
        let mut rng = Rng::new(seed);
        let name = seed.to_string();
        let values: Vec<u8> = match rng.below(5) {
            0 => vec![0, 1, 2, 3, 8, 9, 14],
            1 => WHOLE.into_iter().chain(HEADS).collect(),
            2 => (0..1 + rng.below(5)).map(|_| rng.byte() % 17).collect(),
            3 => (1..=16).chain([0, 17, 127, 128]).collect(),
            _ => HEADS.into_iter().chain([1, 8, 0]).collect(),
        };
        let length = rng.below(60);
        let mut bytes: Vec<u8> = (0..length).map(|_| rng.pick(&values)).collect();
        if rng.chance(30) {
            bytes.push(rng.pick(&NONE));
        }
        let (result, _) = mend(&name, &copy_of(&card, &bytes));
        met.note(match told(result) {
            None => "refusal 17",
            Some((CARD, _)) => "the first start",
            _ => "a later one",
        });
    }
    met.require("the first start", 20_000);
    met.require("a later one", 20_000);
    met.require("refusal 17", 20_000);
}

/// About as many records as there may be, behind titles, and some of them before a byte that is
/// none.
#[test]
fn lists_about_the_most_records() {
    let mut met = Met::default();
    let (card, others) = (fresh_card(4), one_of_each());
    for seed in seeds(60) {
        let mut rng = Rng::new(seed);
        let name = seed.to_string();
        let style = rng.below(5);
        let length = rng.below(20);
        let mut bytes = title(&mut rng, length, style);
        let count = usize::from(MOST_RECORDS) - 60 + rng.below(120);
        let longer = rng.pick(&[0, 1, 5, 50]);
        for _ in 0..count {
            if rng.chance(longer) {
                bytes.extend(&others[rng.below(others.len())]);
            } else {
                bytes.push(rng.pick(&WHOLE));
            }
        }
        if rng.chance(15) {
            bytes.push(rng.pick(&NONE));
        }
        let (result, _) = mend(&name, &copy_of(&card, &bytes));
        met.note(match told(result) {
            None => "refusal 17",
            Some((_, MOST_RECORDS)) => "most records",
            _ => "fewer records",
        });
    }
    met.require("refusal 17", 3);
    met.require("most records", 10);
    met.require("fewer records", 10);
}

/// As long a session as there may be, of these bytes and at last those.
fn longest(bytes: impl FnMut() -> u8, last: &[u8]) -> Vec<u8> {
    let room = LONGEST_SESSION - SHORTEST_SESSION - last.len();
    let bytes: Vec<u8> = std::iter::repeat_with(bytes).take(room).collect();
    copy(&[&bytes[..], last].concat())
}

#[test]
fn the_longest_search_finds_the_most_records() {
    let (result, _) = mend(FIXED, &longest(|| 8, &[]));
    assert_eq!(result, mended(65_528 - 4096, 4096));
}

#[test]
fn the_longest_search_finds_nothing() {
    let (result, _) = mend(FIXED, &longest(|| 8, &[0xFF]));
    assert_eq!(result, 17);
}

#[test]
fn the_longest_search_finds_the_last_byte() {
    let mut rng = Rng::new(3);
    let (result, _) = mend(FIXED, &longest(|| rng.pick(&WHOLE), &[0xFF, 8]));
    assert_eq!(result, mended(65_527, 1));
}

#[test]
fn the_longest_search_of_longer_records() {
    let (result, _) = mend(FIXED, &longest(|| 3, &[]));
    assert_eq!(result, mended(65_528 - 2 * 4096, 4096));
}
