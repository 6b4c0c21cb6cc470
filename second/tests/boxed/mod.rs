//! The box on both: every length and count about its limits, every set of faults, every change of a
//! session's end, sessions from the generator. Each is run on an exam machine too, with the same log
//! space, and the box's answer is to follow from that. Then the headers of log reads: of logs of
//! every number of entries about the box's and of the most entries, whole and changed.

use second::author::{entry, log_of, Author};
use second::gen::{self, Rng};
use second::layout::{
    CARD, FLAG, FUSES, LOG_SPACE, LONGEST_SESSION, MOST_RECORDS, SHORTEST_LOG, SHORTEST_SESSION,
    TRAILER,
};
use second::session;
use second::staging::READY;
use second::{edges, examples, samples};

use crate::writer::every_kind;
use crate::{both, read_log, seeds, zones, Met, FIXED, ZONED};

/// Whether a session is more than the box takes, by its length or by the count of its trailer.
fn exceeds(session: &[u8]) -> bool {
    match *session {
        [.., low, high, _, _] => session.len() > 4096 || u16::from_le_bytes([low, high]) > 64,
        _ => false,
    }
}

/// A session in the box and on an exam machine, with the same log space; answers both refusals, 0
/// for none. What the box takes has the same log there, and what it refuses the same number, but
/// for 18: then a limit is exceeded, and an exam machine has nothing up to 4 against it.
fn practise(seed: &str, session: &[u8], space: usize, met: &mut Met) -> (u64, u64) {
    let (boxed, practised) = both::box_run(seed, session, space);
    let (exam, examined) = both::run(seed, session, space);
    let up_to_4 = matches!(exam, 1..=4);
    let what = || format!("seed {seed}, {} bytes, log space {space}", session.len());
    if boxed == 18 {
        assert!(exceeds(session) && !up_to_4, "{}", what());
    } else {
        assert_eq!(boxed, exam, "{}", what());
        assert!(practised == examined, "{}: the log spaces differ", what());
        assert!(up_to_4 || !exceeds(session), "{}", what());
    }
    let (boxed, exam) = (boxed & 0xFF, exam & 0xFF);
    met.note("box runs");
    met.note(&format!("{boxed} in the box, {exam} on an exam machine"));
    (boxed, exam)
}

/// Runs a session with log spaces too short, exact and long, and expects the refusal that the box
/// has with space enough, 0 for none.
fn expect(seed: &str, session: &[u8], refusal: u64, met: &mut Met) {
    let full = session::check(session).map_or(SHORTEST_LOG, |checked| checked.log_space);
    let too_short = if refusal == 0 { 10 } else { refusal };
    let short = [0, SHORTEST_LOG - 1, full - 1].map(|space| (space, too_short));
    let enough = [full, full + 1, full + 300].map(|space| (space, refusal));
    for (space, refusal) in short.into_iter().chain(enough) {
        assert_eq!(practise(seed, session, space, met).0, refusal, "{seed}: {space} of {full}");
    }
}

/// The session with as much free text as makes it this long.
fn padded(author: &Author, length: usize) -> Vec<u8> {
    let text = vec![b'.'; length - author.clone().session().len()];
    author.clone().text(&text).session()
}

fn polls(count: usize) -> Author {
    Author::new(4).times(count, Author::poll)
}

#[test]
fn every_length_and_count_about_the_limits() {
    let mut met = Met::default();
    #[rustfmt::skip]
    let records: [&[u8]; 6] = [
        &[14], &[3, 7], &[4, 0x80, 0], &[5, 0, 2, 1, 2], &[13, 10],
        &[7, 0, 16, 1, 2, 3, 4, 5, 6, 7, 8, 9, 10, 11, 12, 13, 14, 15, 16],
    ];
    for (record, count) in records.into_iter().flat_map(|r| (60..=68).map(move |n| (r, n))) {
        let author = Author::new(7).times(count, |a| a.record(record));
        for length in 4092..=4100 {
            let refusal = if length > 4096 || count > 64 { 18 } else { 0 };
            expect(FIXED, &padded(&author, length), refusal, &mut met);
        }
    }
    // No text; then as long as an exam machine takes it, and a byte longer.
    for count in [0, 1, 63, 64, 65, 1898, 1899, 1900, 4095, 4096, 4097, 5000] {
        let (alone, longest) = match count {
            0..=64 => (0, 18),
            65..=4096 => (18, 18),
            _ => (4, 4),
        };
        let author = polls(count);
        expect(FIXED, &author.clone().session(), alone, &mut met);
        expect(FIXED, &padded(&author, LONGEST_SESSION), longest, &mut met);
        expect(FIXED, &padded(&author, LONGEST_SESSION + 1), 1, &mut met);
    }
    met.require("box runs", 3000);
}

#[test]
fn every_length_of_a_session() {
    let mut met = Met::default();
    let author = Author::new(6).reset().read(0, 2).read_fuses();
    let least = author.clone().session();
    for length in 0..=SHORTEST_SESSION {
        let refusal = if length == SHORTEST_SESSION { 2 } else { 1 };
        assert_eq!(practise(FIXED, &least[..length], 3000, &mut met), (refusal, refusal));
    }
    for length in least.len()..=4300 {
        let refusals = if length > 4096 { (18, 0) } else { (0, 0) };
        let session = padded(&author, length);
        assert_eq!(practise(FIXED, &session, 3000, &mut met), refusals, "{length}");
        let refusals = if length > 4096 { (18, 10) } else { (10, 10) };
        assert_eq!(practise(FIXED, &session, 2000, &mut met), refusals, "{length}");
    }
}

/// What the trailer says decides, before a record is read.
#[test]
fn every_count_of_a_trailer() {
    let mut met = Met::default();
    for (records, fuses) in [(64, 4), (60, 4), (64, 5)] {
        let mut session = polls(records).put(FUSES, &[fuses]).session();
        let at = session.len() - 4;
        for count in 0..=0xFFFFu16 {
            session[at..at + 2].copy_from_slice(&count.to_le_bytes());
            let exam = match usize::from(count) {
                4097.. => 4,
                _ if fuses == 5 => 5,
                count if count > records => 8,
                count if count < records => 9,
                _ => 0,
            };
            let boxed = if (65..=4096).contains(&count) { 18 } else { exam };
            let refusals = practise(FIXED, &session, 2500, &mut met);
            assert_eq!(refusals, (boxed, exam), "{count} of {records}");
        }
    }
    met.require("box runs", 3 * 65_536);
}

/// The faults that are put together: the numbers of refusals, and the box's two limits.
const FAULTS: [&str; 10] = ["1", "2", "3", "4", "bytes", "records", "5", "16", "9", "10"];

/// A session with some faults, and its log space.
fn with_faults(has: &dyn Fn(&str) -> bool, bad: &[u8], variant: usize) -> (Vec<u8>, usize) {
    let fuses = if has("5") { [5, 1, 255][variant] } else { 6 };
    let mut author = polls(if has("records") { [65, 66, 300][variant] } else { 5 });
    author = author.put(FUSES, &[fuses]);
    if has("16") {
        author = author.put(FLAG, [&[0xFD][..], &[READY, 8], &[READY, 7, 0, 9]][variant]);
    }
    if !bad.is_empty() {
        author = author.record(bad);
    }
    if has("9") {
        author = author.record([&[8, 0][..], &[1, 8], &[14, 17]][variant]);
    }
    let longer = if has("bytes") { [4097, 4098, 20_000][variant] } else { 0 };
    let length = if has("1") { [65_537, 65_538, 70_000][variant] } else { longer };
    let mut session = padded(&author, length.max(author.clone().session().len()));
    let full = session::check(&session).map_or(1, |checked| checked.log_space);
    let end = session.len() - TRAILER;
    if has("2") {
        session[end + 6 + variant % 2] ^= 1;
    }
    if has("3") {
        let start = [0, CARD as u32 - 1, end as u32 + 1][variant];
        session[end..end + 4].copy_from_slice(&start.to_le_bytes());
    }
    if has("4") {
        let count: u16 = [4097, 0x8000, 0xFFFF][variant];
        session[end + 4..end + 6].copy_from_slice(&count.to_le_bytes());
    }
    (session, if has("10") { full - 1 } else { 5000 })
}

#[test]
fn every_set_of_faults_in_the_box() {
    let mut met = Met::default();
    #[rustfmt::skip]
    let bad: [(&[u8], u64); 7] = [
        (&[], 0), (&[17], 6), (&[0x53, 0x45], 6), (&[3, 8], 7), (&[15, 0, 9], 7), (&[3], 8),
        (&[16, 0], 8),
    ];
    for (set, variant) in (0..1 << FAULTS.len()).flat_map(|set| [0, 1, 2].map(|v| (set, v))) {
        let has = |name: &str| (0..).zip(FAULTS).any(|(bit, n)| n == name && set >> bit & 1 == 1);
        for (record, number) in bad {
            if number == 8 && has("9") {
                // Nothing is left behind what is cut short.
                continue;
            }
            let (session, space) = with_faults(&has, record, variant);
            let first = |names: &[&str]| {
                names.iter().find(|name| has(name)).map_or(0, |name| name.parse().unwrap_or(18))
            };
            let behind = if number == 0 { first(&["9", "10"]) } else { number };
            let exam = match first(&["1", "2", "3", "4", "5", "16"]) {
                0 => behind,
                refusal => refusal,
            };
            let boxed = match first(&["1", "2", "3", "4", "bytes", "records"]) {
                0 => exam,
                refusal => refusal,
            };
            let refusals = practise(FIXED, &session, space, &mut met);
            assert_eq!(refusals, (boxed, exam), "set {set:b}, {record:02X?}, variant {variant}");
        }
    }
    for refusal in [0, 5, 16, 6, 7, 8, 9, 10] {
        met.require(&format!("18 in the box, {refusal} on an exam machine"), 9);
    }
    for refusal in [0, 1, 2, 3, 4, 5, 16, 6, 7, 8, 9, 10] {
        met.require(&format!("{refusal} in the box, {refusal} on an exam machine"), 3);
    }
}

/// Cuts a session off at each of these places, takes the byte there out, puts one in before it, and
/// gives it every value.
fn changes(session: &[u8], places: impl Iterator<Item = usize>, met: &mut Met) {
    let mut run = |session: &[u8]| practise(FIXED, session, 3000, met);
    for at in places {
        let (before, after) = session.split_at(at);
        run(before);
        run(&[before, &after[1..]].concat());
        for byte in [0, 8, 14, 65] {
            run(&[before, &[byte], after].concat());
        }
        let mut changed = session.to_vec();
        for value in 0..=255 {
            changed[at] = value;
            run(&changed);
        }
    }
}

#[test]
fn every_change_of_a_session_at_the_limits() {
    let mut met = Met::default();
    for more in [44, 45] {
        let author = every_kind().times(more, Author::poll);
        let session = author.clone().session();
        changes(&session, FUSES..session.len(), &mut met);
        for length in [4096, 4097] {
            let session = padded(&author, length);
            changes(&session, [FUSES, FLAG].into_iter().chain(length - TRAILER..length), &mut met);
        }
    }
    for refusal in [0, 2, 3, 4, 5, 6, 7, 8, 9, 16] {
        met.require(&format!("{refusal} in the box, {refusal} on an exam machine"), 200);
    }
    for refusal in [0, 5, 6, 7, 8, 9, 16] {
        met.require(&format!("18 in the box, {refusal} on an exam machine"), 200);
    }
}

/// A session from the generator, with its records and its length at the limits or about them.
fn about_the_limits(rng: &mut Rng) -> Vec<u8> {
    let (few, some) = (rng.below(64), 60 + rng.below(10));
    let records = rng.pick(&[0, few, few, 63, 64, 64, 65, some, some, 200]);
    let mut session =
        if rng.chance(30) { gen::zone_session(rng, records) } else { gen::session(rng, records) };
    let (near, far) = (4090 + rng.below(12), 4096 + rng.below(8000));
    let length = rng.pick(&[0, 0, 0, 4095, 4096, 4096, 4097, near, near, far]);
    gen::lengthen(rng, &mut session, length);
    session
}

/// Runs a sound session with log spaces too short, exact and long, and reads its log and changes of
/// that.
fn one_session(rng: &mut Rng, seed: &str, session: &[u8], met: &mut Met) {
    let checked = session::check(session).expect("the session is sound");
    let full = checked.log_space;
    for (space, refusal) in [(full, 0), (full + 1 + rng.below(300), 0), (full - 1, 10)] {
        let (boxed, exam) = practise(seed, session, space, met);
        assert_eq!(boxed, if exceeds(session) { 18 } else { refusal }, "seed {seed}");
        assert_eq!(exam, refusal, "seed {seed}");
    }
    met.note_if("64 records taken", checked.count == 64 && !exceeds(session));
    met.note_if("4,096 bytes taken", session.len() == 4096 && !exceeds(session));
    met.note_if("65 records", checked.count == 65 && session.len() <= 4096);
    met.note_if("4,097 bytes", checked.count <= 64 && session.len() == 4097);
    let (result, space) = both::run(seed, session, full);
    let log = &space[..(result >> 8) as usize];
    let headers = both::answer(seed, log, 0) >> 24 & 0xFFFF;
    assert_eq!(headers, u64::from(checked.count), "seed {seed}");
    assert!(headers <= 64 || exceeds(session), "seed {seed}");
    read_log(rng, seed, log, met);
    for _ in 0..5 {
        let damaged = gen::damaged_log(rng, log);
        read_log(rng, seed, &damaged, met);
    }
}

#[test]
fn sessions_about_the_limits() {
    let mut met = Met::default();
    for seed in seeds(8000) {
        let mut rng = Rng::new(seed);
        let name = seed.to_string();
        let session = about_the_limits(&mut rng);
        one_session(&mut rng, &name, &session, &mut met);
        for _ in 0..6 {
            let damaged = gen::damaged_session(&mut rng, &session);
            let space = rng.pick(&[0, SHORTEST_LOG, 3000, LOG_SPACE]);
            practise(&name, &damaged, space, &mut met);
        }
    }
    met.require("box runs", 70_000);
    met.require("log reads", 200_000);
    for refusal in (0..=10).chain([16]) {
        met.require(&format!("{refusal} in the box, {refusal} on an exam machine"), 500);
    }
    for refusal in [0, 5, 6, 7, 8, 9, 10, 16] {
        met.require(&format!("18 in the box, {refusal} on an exam machine"), 300);
    }
    for what in ["64 records taken", "4,096 bytes taken", "65 records", "4,097 bytes"] {
        met.require(what, 300);
    }
    for refusal in [0, 13, 14] {
        met.require(&format!("refusal {refusal}"), 10_000);
    }
}

#[test]
fn stored_sessions_in_the_box() {
    let mut met = Met::default();
    let named = [edges::all(), edges::of_the_box(), examples::all()].concat();
    for session in samples::all().into_iter().chain(named.into_iter().map(|(_, session)| session)) {
        let full = session::check(&session).map_or(SHORTEST_LOG, |checked| checked.log_space);
        for space in [0, SHORTEST_LOG, full - 1, full, LOG_SPACE] {
            let (boxed, _) = practise(FIXED, &session, space, &mut met);
            met.note(&format!("refusal {boxed}"));
        }
    }
    for refusal in (0..=10).chain([16, 18]) {
        met.require(&format!("refusal {refusal}"), 5);
    }
}

/// The kinds of entries, each with a length that its response may have.
fn every_entry() -> Vec<Vec<u8>> {
    let length = |kind| match kind {
        2 => 4,
        4 | 6 => 3,
        8 | 14 => 1,
        _ => 0,
    };
    let one = |kind| entry(kind, zones::named(kind, ZONED).then_some(5), &vec![4; length(kind)]);
    (1..=16).chain(130..=143).map(one).collect()
}

/// So many of these entries, one after the other and over again.
fn in_turn(list: &[Vec<u8>], count: usize) -> Vec<u8> {
    list.iter().cycle().take(count).flatten().copied().collect()
}

/// Reads an answer and expects so many headers, and the answer if there is one of that number.
fn expect_headers(log: &[u8], number: u64, entries: u64, met: &mut Met) {
    let result = both::answer(FIXED, log, number);
    assert_eq!(result >> 24 & 0xFFFF, entries, "answer {number}");
    assert_eq!(result & 0xFF, if number < entries { 0 } else { 14 }, "answer {number}");
    met.note("log reads");
}

#[test]
fn every_number_of_entries() {
    let mut met = Met::default();
    let all = every_entry();
    // One kind alone, and then all of them in turn.
    let lists = all.iter().map(std::slice::from_ref).chain([&all[..]]);
    for (list, count) in lists.flat_map(|list| (0..=70).map(move |count| (list, count))) {
        let log = log_of(&in_turn(list, count), count as u16, ZONED);
        for number in (0..=count as u64 + 1).chain([0x1_0000, 1 << 32, u64::MAX]) {
            expect_headers(&log, number, count as u64, &mut met);
        }
    }
    for count in [4094, 4095, 4096] {
        for one in [&all[0], &all[3], &all[4], &all[17]] {
            let log = log_of(&one.repeat(count), count as u16, ZONED);
            for number in [0, 1, 64, 2000, 4093, 4094, 4095, 4096, u64::MAX] {
                expect_headers(&log, number, count as u64, &mut met);
            }
        }
    }
    for one in &all {
        let log = log_of(&one.repeat(4097), MOST_RECORDS + 1, ZONED);
        assert_eq!([0, 4096, 4097].map(|number| both::answer(FIXED, &log, number)), [13; 3]);
    }
    met.require("log reads", 50_000);
}

/// A log's trailer with every count: but for one it is no log, and nothing is told of it.
#[test]
fn every_count_of_a_log() {
    let all = every_entry();
    for entries in [0, 1, 64, 65] {
        let mut log = log_of(&in_turn(&all, entries), 0, ZONED);
        let at = log.len() - 4;
        for count in 0..=0xFFFFu16 {
            log[at..at + 2].copy_from_slice(&count.to_le_bytes());
            let result = both::answer(FIXED, &log, (entries as u64).saturating_sub(1));
            if usize::from(count) == entries {
                assert_eq!(result >> 24 & 0xFFFF, entries as u64);
            } else {
                assert_eq!(result, 13, "{count} of {entries}");
            }
        }
    }
}

/// The logs of 64 and of 65 records with every byte changed, taken out and put in.
#[test]
fn every_change_of_a_log_at_the_limit() {
    let mut met = Met::default();
    for more in [44, 45] {
        let session = every_kind().times(more, Author::poll).session();
        let (result, space) = both::run(FIXED, &session, 3000);
        let log = &space[..(result >> 8) as usize];
        let card_at = log.len() - SHORTEST_LOG;
        let mut read = |log: &[u8]| {
            for number in [0, 20, 19 + more as u64, 20 + more as u64] {
                met.note(&format!("refusal {}", both::answer(FIXED, log, number) & 0xFF));
            }
        };
        for at in (0..card_at).chain(card_at + FUSES..log.len()) {
            let (before, after) = log.split_at(at);
            read(&[before, &after[1..]].concat());
            let mut changed = log.to_vec();
            for value in 0..=255 {
                changed[at] = value;
                read(&changed);
            }
        }
    }
    for (refusal, at_least) in [(0, 20_000), (13, 300_000), (14, 5000)] {
        met.require(&format!("refusal {refusal}"), at_least);
    }
}
