//! The mender: which start it takes, what it refuses and in which order, that the old trailer plays
//! no part, and that a mended session passes the check.

use super::*;
use crate::layout::FLAG;
use crate::mender::{mend, Mended};
use crate::record;
use crate::session::Checked;
use crate::staging::READY;

/// The refusals in the order in which they are judged.
const ORDER: [u8; 4] = [1, 5, 16, 17];

/// Trailers that no session has: other bytes, no mark, half of it, the marks exchanged and that of
/// a log; starts in the card and behind the end; counts of too many records.
const WRONG: [[u8; TRAILER]; 12] = [
    [0x00; TRAILER],
    [0xFF; TRAILER],
    [0x08; TRAILER],
    *b"SESESESE",
    [0x8D, 0x08, 0, 0, 1, 0, 0x00, 0x45],
    [0x8D, 0x08, 0, 0, 1, 0, 0x53, 0x00],
    [0x8D, 0x08, 0, 0, 1, 0, 0x45, 0x53],
    [0x8D, 0x08, 0, 0, 1, 0, 0x4C, 0x50],
    [0x00, 0x00, 0, 0, 1, 0, 0x53, 0x45],
    [0xFF, 0xFF, 0xFF, 0xFF, 1, 0, 0x53, 0x45],
    [0x8D, 0x08, 0, 0, 0x01, 0x10, 0x53, 0x45],
    [0x8D, 0x08, 0, 0, 0xFF, 0xFF, 0x53, 0x45],
];

/// A fresh card, these bytes and a trailer that is none.
fn copy(fuses: u8, bytes: &[u8]) -> Vec<u8> {
    [&fresh_card(fuses)[..], bytes, &WRONG[0]].concat()
}

/// A copy in which the last bytes are these.
fn with_trailer(session: &[u8], trailer: &[u8]) -> Vec<u8> {
    let end = session.len().saturating_sub(TRAILER);
    [&session[..end], &trailer[..session.len() - end]].concat()
}

/// Mends a copy. A refusal changes nothing. What is mended ends in the start, the count and the
/// mark, and is otherwise the same; it passes the check, and is left as it is when mended again.
fn once(session: &[u8]) -> Result<Mended, u8> {
    let mut after = session.to_vec();
    let result = mend(&mut after);
    if let Ok(Mended { start, count }) = result {
        let ([s0, s1, s2, s3], [c0, c1]) = ((start as u32).to_le_bytes(), count.to_le_bytes());
        let trailer = [s0, s1, s2, s3, c0, c1, 0x53, 0x45];
        assert!(after == with_trailer(session, &trailer), "only the trailer changes");
        assert_eq!(check(&after).map(|c| (c.start, c.count)), Ok((start, count)));
        let mut again = after.clone();
        assert_eq!(mend(&mut again), result);
        assert!(again == after, "mended twice is mended once");
    } else {
        assert!(after == session, "a refusal changes nothing");
    }
    result.map_err(Refusal::number)
}

/// The same whatever the trailer was.
fn mended(session: &[u8]) -> Result<Mended, u8> {
    let result = once(session);
    for trailer in WRONG {
        assert_eq!(once(&with_trailer(session, &trailer)), result, "{trailer:02X?}");
    }
    result
}

/// How far behind the card the records of a mended copy of these bytes start, and their count.
fn found(bytes: &[u8]) -> Option<(usize, u16)> {
    match mended(&copy(6, bytes)) {
        Ok(Mended { start, count }) => Some((start - CARD, count)),
        Err(number) => {
            assert_eq!(number, 17);
            None
        }
    }
}

/// What a session is after mending.
fn bytes_mended(session: &[u8]) -> Vec<u8> {
    let mut after = session.to_vec();
    assert!(mended(session).is_ok() && mend(&mut after).is_ok());
    after
}

/// How many records some bytes are, if they are records and nothing else.
fn records(mut bytes: &[u8]) -> Option<u16> {
    let mut count = 0;
    while !bytes.is_empty() {
        let (_, length) = record::decode(bytes).ok()?;
        bytes = &bytes[length..];
        count += 1;
    }
    Some(count)
}

/// The smallest start of a session from which its bytes are records, and not too many.
fn smallest(session: &[u8]) -> Option<Mended> {
    let end = session.len() - TRAILER;
    let at = |start| records(&session[start..end]).map(|count| Mended { start, count });
    (CARD..end).filter_map(at).find(|mended| mended.count <= 4096)
}

#[test]
fn trailers_by_hand() {
    let card = fresh_card(4);
    let lost = |title: &[u8]| [&card[..], title, &[8, 14, 3, 5], &[0; 8]].concat();
    let whole = |title: &[u8], trailer: &[u8]| [&card, title, &[8, 14, 3, 5], trailer].concat();
    let mut session = lost(b"");
    assert_eq!(mend(&mut session), Ok(Mended { start: 2189, count: 3 }));
    assert!(session == whole(b"", &[0x8D, 0x08, 0, 0, 3, 0, 0x53, 0x45]));
    let mut session = lost(b"Fuses");
    assert_eq!(mend(&mut session), Ok(Mended { start: 2194, count: 3 }));
    assert!(session == whole(b"Fuses", &[0x92, 0x08, 0, 0, 3, 0, 0x53, 0x45]));
    let mut session = [&card[..], &[b'.'; 60_000], &[3; 2 * 500], &[0xFF; 8]].concat();
    assert_eq!(mend(&mut session), Ok(Mended { start: 62_189, count: 500 }));
    assert!(session.ends_with(&[3, 0xED, 0xF2, 0, 0, 0xF4, 0x01, 0x53, 0x45]));
}

#[test]
fn a_lost_trailer_is_restored() {
    let model = |title: &[u8]| {
        let author = Author::new(7).text(title).select(3).write(0x1E, b"note").poll();
        author.ready().read(0x1E, 2).read_configuration(0, 4).right(7).begin().read_fuses()
    };
    for title in [&b""[..], b"A", b"A title.", b"With a newline\n in it", &[b'.'; 255]] {
        let session = model(title).session();
        assert_eq!(mended(&session), Ok(Mended { start: CARD + title.len(), count: 9 }));
        assert!(bytes_mended(&session) == session);
    }
    for fuses in [7, 6, 4, 0] {
        let ready = Author::new(fuses).put_ready(7, 0xFF, &[1; 8]).power().session();
        assert!(bytes_mended(&ready) == ready);
    }
}

#[test]
fn the_smallest_start_may_lie_in_the_title() {
    // A read of the fuses, then a record of its own.
    assert_eq!(found(&[8, 14]), Some((0, 2)));
    // What was a title of one byte and two records is two records: the first took a byte.
    let author = Author::new(7).text(&[3]).power().read_fuses();
    let lost = author.session();
    assert_eq!(check(&lost).map(|c| (c.start, c.count)), Ok((CARD + 1, 2)));
    assert_eq!(mended(&lost), Ok(Mended { start: CARD, count: 2 }));
    assert!(bytes_mended(&lost) != lost);
    // A title of text that ends in a newline: a password's kind, and both records are its bytes.
    let lost = examples::printed().text(b"The example printed in the paper.\n").session();
    let Ok(checked) = check(&lost) else { panic!("the example is sound") };
    assert_eq!(mended(&lost), Ok(Mended { start: checked.start - 1, count: 1 }));
    assert!(bytes_mended(&lost) != lost);
    // A title that begins with records and does not end with them, and one that ends with them.
    assert_eq!(found(&[8, 8, b'.', 14]), Some((3, 1)));
    assert_eq!(found(&[b'.', 8, 8, 14]), Some((1, 3)));
    // The title's last byte is a wait, but there is none of 0 ms, nor a zone 13.
    assert_eq!(found(&[13, 0, 14]), Some((2, 1)));
    assert_eq!(found(&[3, 13, 14]), Some((1, 1)));
}

#[test]
fn starts_are_tried_upward() {
    for length in 1..=40 {
        assert_eq!(found(&vec![14; length]), Some((0, length as u16)));
        for at in 0..length {
            let mut bytes = vec![14; length];
            bytes[at] = 0;
            let behind = length - at - 1;
            let expected = (behind > 0).then_some((at + 1, behind as u16));
            assert_eq!(found(&bytes), expected, "{at} of {length}");
        }
    }
    // Later starts parse too, as 14 and as 8, 14.
    assert_eq!(found(&[5, 0, 2, 8, 14]), Some((0, 1)));
    assert_eq!(found(&[5, 0, 3, 8, 14]), Some((3, 2)));
    assert_eq!(found(&[5, 0, 1, 8, 14]), Some((0, 2)));
    assert_eq!(found(&[4, 4, 4, 4, 4]), Some((2, 1)));
    assert_eq!(found(&[4, 4, 4, 4, 4, 4]), Some((0, 2)));
}

/// Each kind alone, at the edges of its fields; a byte less and a byte more are not the same record.
#[test]
fn every_kind() {
    #[rustfmt::skip]
    let good: [&[u8]; 24] = [
        &[1], &[2], &[3, 0], &[3, 7], &[4, 0, 0], &[4, 255, 255], &[5, 255, 1, 0],
        &[5, 0, 16, 0, 0, 0, 0, 0, 0, 0, 0, 0, 0, 0, 0, 0, 0, 0, 0], &[6, 0, 128], &[6, 127, 1],
        &[7, 127, 1, 0], &[7, 0, 16, 0, 0, 0, 0, 0, 0, 0, 0, 0, 0, 0, 0, 0, 0, 0, 0],
        &[8], &[9], &[10, 15, 0, 0, 0], &[10, 0, 255, 255, 255], &[11],
        &[12, 0, 0, 0, 0, 0, 0, 0, 0, 0], &[12, 1, 0, 0, 0, 0, 0, 0, 0, 0], &[13, 17], &[13, 255],
        &[14], &[15, 255, 8, 0, 0, 0, 0, 0, 0, 0, 0], &[16, 255, 255],
    ];
    for record in good {
        assert_eq!(found(record), Some((0, 1)), "{record:02X?}");
        assert_eq!(found(&[record, &[0]].concat()), None, "{record:02X?}");
        assert_eq!(found(&[record, record].concat()), Some((0, 2)), "{record:02X?}");
        let (_, short) = record.split_last().unwrap();
        assert_ne!(found(short), Some((0, 1)), "{record:02X?}");
    }
}

#[test]
fn no_start() {
    #[rustfmt::skip]
    let none: [&[u8]; 24] = [
        &[], &[0], &[17], &[255], &[0; 300], &[17; 300], &[255; 300], b"Text without records.",
        &[8, 0], &[8, 17], &[8, 8, 8, 8, 255], &[3], &[3, 18], &[4], &[4, 0], &[5, 0, 2, 0],
        &[6, 0x80, 0x80], &[6, 0x7F, 0], &[7, 0x80, 0x80], &[10, 0, 0, 0],
        &[12, 0, 0, 0, 0, 0, 0, 0, 0], &[13, 0], &[15, 0, 0, 0], &[16, 0],
    ];
    for bytes in none {
        assert_eq!(found(bytes), None, "{bytes:02X?}");
    }
    for length in [LONGEST_SESSION - 1, LONGEST_SESSION] {
        let text = vec![b'.'; length - SHORTEST_SESSION];
        assert_eq!(mended(&copy(6, &text)), Err(17));
    }
}

#[test]
fn nothing_before_the_trailer() {
    for fuses in [7, 6, 4, 0] {
        let least = copy(fuses, &[]);
        assert_eq!((least.len(), mended(&least)), (2197, Err(17)));
        // It is a good session all the same, of no records.
        let empty = Author::new(fuses).session();
        assert_eq!(check(&empty).map(|c| c.count), Ok(0));
        assert_eq!(mended(&empty), Err(17));
        assert_eq!(mended(&Author::new(fuses).text(b"No records").session()), Err(17));
    }
}

#[test]
fn lengths_of_a_session() {
    for length in (0..=SHORTEST_SESSION).chain([65_537, 65_538, 70_000, 2 * 65_536]) {
        for (fuses, byte) in [(7, 8), (7, 0), (5, 8)] {
            let mut session = fresh_card(fuses);
            session.resize(length, byte);
            let number = if length != 2197 {
                1
            } else if fuses == 5 {
                5
            } else {
                17
            };
            assert_eq!(mended(&session), Err(number), "{length}");
        }
    }
    for length in [2198, 2199, 65_535, 65_536] {
        let text = vec![b' '; length - SHORTEST_SESSION - 1];
        let session = copy(7, &[&text[..], &[8]].concat());
        assert_eq!(session.len(), length);
        assert_eq!(mended(&session), Ok(Mended { start: length - 9, count: 1 }));
    }
}

#[test]
fn fuse_and_staging_bytes() {
    for fuses in 0..=255 {
        let result = mended(&copy(fuses, &[8]));
        let expected = Mended { start: CARD, count: 1 };
        let expected = if [7, 6, 4, 0].contains(&fuses) { Ok(expected) } else { Err(5) };
        assert_eq!(result, expected, "{fuses}");
    }
    for flag in 0..=255 {
        for (zone, length) in [(0, 0), (7, 8), (8, 0), (0, 9), (255, 255)] {
            let session = Author::new(0).put(FLAG, &[flag, zone, 0xFF, length]).power().session();
            let good = flag == 0xFF || flag == 0xFE && zone < 8 && length < 9;
            assert_eq!(mended(&session).err(), (!good).then_some(16), "{flag}, {zone}, {length}");
        }
    }
}

/// A copy with all the faults that these numbers name, and with no other.
fn with_faults(numbers: &[u8], variant: usize) -> Vec<u8> {
    let has = |number| numbers.contains(&number);
    let author = Author::new(if has(5) { [5, 1, 255][variant] } else { 6 });
    let author = if has(16) {
        author.put(FLAG, [&[0xFD][..], &[READY, 8], &[READY, 0, 0, 9]][variant])
    } else {
        author
    };
    let author = author.text(b"Faults").reset().read_fuses();
    let author = if has(17) { author.record([&[0][..], &[17], &[3]][variant]) } else { author };
    let mut session = author.session();
    if has(1) {
        let longer = [65_537, 65_538, 131_072][variant] - session.len();
        session.splice(CARD..CARD, vec![b' '; longer]);
    }
    session
}

#[test]
fn every_set_of_refusals() {
    for (set, variant) in (0..1 << ORDER.len()).flat_map(|set| [0, 1, 2].map(|v| (set, v))) {
        let numbers: Vec<u8> =
            (0..ORDER.len()).filter(|n| set >> n & 1 == 1).map(|n| ORDER[n]).collect();
        let result = mended(&with_faults(&numbers, variant));
        assert_eq!(result.err(), numbers.first().copied(), "{numbers:?}");
    }
    // A session too short has no room for a fault behind its card.
    for fuses in [6, 5] {
        for flag in [0xFF, 0xFD] {
            let short = Author::new(fuses).put(FLAG, &[flag]).session();
            assert_eq!(mended(&short[..SHORTEST_SESSION - 1]), Err(1));
        }
    }
}

#[test]
fn the_old_trailer_plays_no_part() {
    let session = Author::new(6).text(b"Title").select(3).read_fuses().session();
    let end = session.len() - TRAILER;
    let expected = Ok(Mended { start: CARD + 5, count: 2 });
    for (at, value) in (end..end + TRAILER).flat_map(|at| (0..=255).map(move |v| (at, v))) {
        let mut changed = session.clone();
        changed[at] = value;
        assert_eq!(once(&changed), expected, "{at}, {value}");
        changed[FUSES] = 5;
        assert_eq!(once(&changed), Err(5), "{at}, {value}");
    }
    // Nor does one that is right, if there is a smaller start; nor are its bytes a record's.
    let session = [&fresh_card(7)[..], &[8, 8], &trailer(CARD + 1, 1)].concat();
    assert!(check(&session).is_ok());
    assert_eq!(mended(&session), Ok(Mended { start: CARD, count: 2 }));
    let session = [&fresh_card(7)[..], &[14, 3], &[1; TRAILER]].concat();
    assert_eq!(mended(&session), Err(17));
}

#[test]
fn counts_up_to_4096() {
    for byte in [8, 1] {
        assert_eq!(found(&[byte; 1]), Some((0, 1)));
        assert_eq!(found(&[byte; 4095]), Some((0, 4095)));
        assert_eq!(found(&[byte; 4096]), Some((0, 4096)));
        assert_eq!(found(&[byte; 4097]), Some((1, 4096)));
        assert_eq!(found(&[byte; 4100]), Some((4, 4096)));
        assert_eq!(found(&[&[0][..], &[byte; 4097]].concat()), Some((2, 4096)));
        assert_eq!(once(&copy(6, &[&[byte; 4097][..], &[0]].concat())), Err(17));
    }
    assert_eq!(mended(&copy(7, &[8; 4097])), Ok(Mended { start: 2190, count: 4096 }));
    // Longer records, that are not read from a place within.
    for record in [&[3, 0][..], &[4, 0, 0], &[13, 255], &[5, 0, 2, 0, 0]] {
        assert_eq!(found(&record.repeat(4096)), Some((0, 4096)));
        assert_eq!(found(&record.repeat(4097)), Some((record.len(), 4096)));
        assert_eq!(found(&record.repeat(4099)), Some((3 * record.len(), 4096)));
    }
    // One that is: from its second byte there are more records, and they are too many too.
    assert_eq!(found(&[16, 8, 8].repeat(4096)), Some((0, 4096)));
    assert_eq!(found(&[16, 8, 8].repeat(4097)), Some((3, 4096)));
    assert_eq!(found(&[&[8][..], &[16, 8, 8].repeat(4095)].concat()), Some((0, 4096)));
    assert_eq!(found(&[&[8][..], &[16, 8, 8].repeat(4096)].concat()), Some((1, 4096)));
}

/// As many bytes as there may be, all of them records.
#[test]
fn the_longest_search() {
    let session = copy(7, &[8; LONGEST_SESSION - SHORTEST_SESSION]);
    let mut after = session.clone();
    let start = LONGEST_SESSION - TRAILER - 4096;
    assert_eq!(mend(&mut after), Ok(Mended { start, count: 4096 }));
    assert!(after == with_trailer(&session, &trailer(start, 4096)));
    assert_eq!(check(&after).map(|c| (c.start, c.count)), Ok((start, 4096)));
}

/// Good sessions whose records cannot be read from an earlier start stay as they are; the others
/// pass the check too.
#[test]
fn stored_sessions() {
    let named = edges::all().into_iter().chain(examples::all()).map(|(_, session)| session);
    let (mut same, mut earlier) = (0, 0);
    for session in samples::all().into_iter().chain(named) {
        let Ok(Checked { start, count, .. }) = check(&session) else {
            continue;
        };
        let expected = smallest(&session);
        assert_eq!(mended(&session), expected.ok_or(17));
        if expected == Some(Mended { start, count }) {
            assert!(bytes_mended(&session) == session);
            same += 1;
        } else if expected.is_some() {
            assert!(bytes_mended(&session) != session);
            earlier += 1;
        }
    }
    assert!(same > 50 && earlier > 3, "{same} and {earlier}");
}

#[test]
fn a_mended_session_runs() {
    let lost = Author::new(7).text(b"Lost").select(3).write(0x1E, b"note").ready().read(0x1E, 2);
    let session = bytes_mended(&with_trailer(&lost.session(), &WRONG[1]));
    assert_eq!(listing(&session), format!("0 03\n1 05\n2 0D\n3 04 6E 6F\n{ENDING}"));
    // Only the log's space may be too short: nothing is said of it.
    let long = Author::new(7).times(4096, |a| a.read(0, 0)).session();
    let session = bytes_mended(&with_trailer(&long, &WRONG[1]));
    let needed = check(&session).unwrap().log_space;
    assert!(needed > LOG_SPACE && listing(&session) == "refused 10\n");
    assert_eq!(run(&session, &mut vec![0; needed]), Ok(needed));
}

#[test]
fn lost_trailers_from_the_generator() {
    let (mut same, mut earlier, mut refused) = (0, 0, 0);
    for seed in 0..3000 {
        let mut rng = gen::Rng::new(seed);
        let mut lost = gen::session(&mut rng, seed as usize % 12);
        let Ok(Checked { start, count, .. }) = check(&lost) else { panic!("{seed} is sound") };
        // A longer title, that might end in records.
        let more = rng.below(9);
        let title: Vec<u8> = (0..more).map(|_| rng.byte() % 20).collect();
        lost.splice(start..start, title);
        gen::lose_trailer(&mut rng, &mut lost);
        let expected = smallest(&lost);
        assert_eq!(once(&lost), expected.ok_or(17), "{seed}");
        match expected {
            Some(mended) if mended == (Mended { start: start + more, count }) => same += 1,
            Some(_) => earlier += 1,
            None => refused += 1,
        }
        if expected.is_some() {
            let session = bytes_mended(&lost);
            let needed = check(&session).unwrap().log_space;
            assert!(run(&session, &mut vec![0; needed]).is_ok());
            assert_eq!(run(&session, &mut vec![0; needed - 1]), Err(Refusal::Space));
        }
    }
    assert!(same > 1000 && earlier > 100 && refused > 50, "{same}, {earlier}, {refused}");
}

#[test]
fn encoded_mends() {
    let result = |mut session: Vec<u8>| encoded::at88sc1608_mend(&mut session);
    assert_eq!(result(copy(7, &[8])), 2189 << 32 | 1 << 8);
    assert_eq!(result(copy(7, &[8; 4097])), 2190 << 32 | 4096 << 8);
    assert_eq!(result(copy(7, &[&[b'.'; 60_000][..], &[3; 6]].concat())), 62_189 << 32 | 3 << 8);
    assert_eq!(result(Vec::new()), 1);
    assert_eq!(result(copy(5, &[8])), 5);
    assert_eq!(result(Author::new(7).put(FLAG, &[0]).power().session()), 16);
    assert_eq!(result(copy(7, &[])), 17);
}

#[test]
fn the_example_is_mended() {
    let sessions: HashMap<&str, Vec<u8>> = examples::all().into_iter().collect();
    let (lost, whole) = (&sessions["lost"], &sessions["mended"]);
    assert!(lost.ends_with(&[0; TRAILER]) && listing(lost) == "refused 2\n");
    assert!(bytes_mended(lost) == *whole && examples::copied().session() == *whole);
    let title = examples::copied().parts().title.to_vec();
    assert_eq!(mended(lost), Ok(Mended { start: CARD + title.len(), count: 5 }));
    assert!(title.iter().all(|&byte| byte == b' ' || byte.is_ascii_graphic()));
    assert_eq!(listing(whole), format!("0 03\n1 05\n2 0D\n3 04 6B 65 70 74\n4 08 07\n{ENDING}"));
}
