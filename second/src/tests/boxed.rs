//! The box: which sessions it takes, where 18 stands among the refusals, that its logs are an exam
//! machine's; and the headers that are read to fetch an answer.

use super::*;
use crate::layout::{BOX_LONGEST_SESSION, BOX_MOST_RECORDS, FLAG};
use crate::listing::box_listing;
use crate::log::Fetched;
use crate::session::box_run;
use crate::staging::READY;

/// The refusals in the order in which the box judges.
const ORDER: [u8; 12] = [1, 2, 3, 4, 18, 5, 16, 6, 7, 8, 9, 10];

/// Runs a session in the box, or on an exam machine, and answers the log. A refusal changes nothing,
/// and what is behind a log is kept.
fn logged(
    run: fn(&[u8], &mut [u8]) -> Result<usize, Refusal>,
    session: &[u8],
    space: usize,
) -> Result<Vec<u8>, u8> {
    let mut log = vec![0xEE; space];
    let result = run(session, &mut log);
    let written = result.unwrap_or(0);
    assert!(log[written..].iter().all(|&byte| byte == 0xEE));
    log.truncate(written);
    result.map(|_| log).map_err(Refusal::number)
}

/// The refusal that the box has for a session with this much log space, or 0. What it takes an exam
/// machine logs alike; what it refuses with 18 exceeds a limit, and an exam machine has nothing up
/// to 4 against it; all else an exam machine refuses alike.
fn outcome(session: &[u8], space: usize) -> u8 {
    let [boxed, exam] = [box_run, run].map(|run| logged(run, session, space));
    if boxed == Err(18) {
        let count = u16::from_le_bytes([session[session.len() - 4], session[session.len() - 3]]);
        assert!(session.len() > 4096 || count > 64, "{} bytes, {count}", session.len());
        assert!(!matches!(exam, Err(1..=4)), "{exam:?}");
        return 18;
    }
    assert!(boxed == exam);
    boxed.err().unwrap_or(0)
}

/// How much log space is enough for a session, with some bytes behind its log.
fn enough(session: &[u8]) -> usize {
    check(session).map_or(0, |checked| checked.log_space) + 9
}

/// The same with space enough.
fn taken(session: &[u8]) -> u8 {
    outcome(session, enough(session))
}

fn polls(count: usize) -> Author {
    Author::new(6).times(count, Author::poll)
}

/// The session with as much free text as makes it this long.
fn padded(author: &Author, length: usize) -> Vec<u8> {
    let text = vec![b'.'; length - author.clone().session().len()];
    author.clone().text(&text).session()
}

#[test]
fn limits_in_figures() {
    assert_eq!((BOX_LONGEST_SESSION, BOX_MOST_RECORDS), (4096, 64));
    assert_eq!(Refusal::BoxLimits.number(), 18);
}

#[test]
fn sessions_up_to_64_records() {
    for record in [&[14][..], &[1], &[4, 0, 0], &[5, 0, 1, 7], &[13, 255], &[16, 0, 0]] {
        let session = |count| Author::new(7).times(count, |a| a.record(record)).session();
        for count in (0..=70).chain([128, 255, 256, 320, 4095, 4096, 4097, 5000]) {
            let expected = match count {
                0..=64 => 0,
                65..=4096 => 18,
                _ => 4,
            };
            assert_eq!(taken(&session(count)), expected, "{count} of {record:02X?}");
        }
    }
}

#[test]
fn sessions_up_to_4096_bytes() {
    for author in [polls(0), polls(1), polls(64), examples::printed()] {
        let least = author.clone().session().len();
        for length in (least..=4200).chain([65_535, 65_536, 65_537, 65_538, 70_000]) {
            let expected = match length {
                ..=4096 => 0,
                4097..=65_536 => 18,
                _ => 1,
            };
            assert_eq!(taken(&padded(&author, length)), expected, "{length}");
        }
    }
    let least = polls(0).session();
    assert_eq!((least.len(), taken(&least)), (2197, 0));
    for length in 0..least.len() {
        assert_eq!(taken(&least[..length]), 1, "{length}");
    }
}

#[test]
fn both_limits() {
    for (length, count) in (4090..=4100).flat_map(|length| (60..=70).map(move |n| (length, n))) {
        let expected = if length > 4096 || count > 64 { 18 } else { 0 };
        assert_eq!(taken(&padded(&polls(count), length)), expected, "{length} bytes, {count}");
    }
    // Records that take the bytes: each of the two is exceeded by itself, then both are.
    assert_eq!(taken(&polls(1899).session()), 18);
    assert_eq!(polls(1899).session().len(), 4096);
    assert_eq!(taken(&polls(1900).session()), 18);
    assert_eq!(taken(&padded(&polls(64), 4097)), 18);
    // As many and as long as an exam machine takes them.
    assert_eq!(taken(&padded(&polls(4096), 65_536)), 18);
    assert_eq!(taken(&padded(&polls(4096), 65_537)), 1);
    assert_eq!(taken(&padded(&polls(4097), 65_536)), 4);
}

/// The trailer's count is judged before a record is read.
#[test]
fn every_count_of_a_trailer() {
    for records in [64, 60, 0] {
        let mut session = polls(records).session();
        let at = session.len() - 4;
        for count in 0..=0xFFFFu16 {
            session[at..at + 2].copy_from_slice(&count.to_le_bytes());
            let expected = match usize::from(count) {
                4097.. => 4,
                65.. => 18,
                count if count > records => 8,
                count if count < records => 9,
                _ => 0,
            };
            assert_eq!(outcome(&session, 3000), expected, "{count} of {records}");
        }
    }
}

/// A session with all the faults that these numbers name, and with no other, and its log space. The
/// box's limits are exceeded by the count, by the length, by both.
fn with_faults(numbers: &[u8], variant: usize) -> (Vec<u8>, usize) {
    let has = |number| numbers.contains(&number);
    let (more, longer) = [(65, 0), (3, 4097), (65, 4097)][variant];
    let (first, length) = if has(18) { (more, longer) } else { (3, 0) };
    let mut author = polls(first).put(FUSES, &[if has(5) { [5, 1, 255][variant] } else { 6 }]);
    if has(16) {
        author = author.put(FLAG, [&[0xFD][..], &[READY, 8], &[READY, 0, 0, 9]][variant]);
    }
    for (number, record) in [(6, &[17][..]), (7, &[3, 8]), (8, &[3]), (9, &[8, 0])] {
        if has(number) {
            author = author.record(record);
        }
    }
    let length = if has(1) { [65_537, 65_538, 131_072][variant] } else { length };
    let mut session = padded(&author, length.max(author.clone().session().len()));
    let needed = check(&session).map_or(1, |checked| checked.log_space);
    let end = session.len() - TRAILER;
    if has(2) {
        session[end + 6 + variant % 2] ^= 1;
    }
    if has(3) {
        let start = [0, CARD as u32 - 1, end as u32 + 1][variant];
        session[end..end + 4].copy_from_slice(&start.to_le_bytes());
    }
    if has(4) {
        let count: u16 = [4097, 0x8000, 0xFFFF][variant];
        session[end + 4..end + 6].copy_from_slice(&count.to_le_bytes());
    }
    (session, if has(10) { needed - 1 } else { LOG_SPACE })
}

#[test]
fn every_set_of_refusals() {
    for (set, variant) in (0..1 << ORDER.len()).flat_map(|set| [0, 1, 2].map(|v| (set, v))) {
        let numbers: Vec<u8> =
            (0..ORDER.len()).filter(|n| set >> n & 1 == 1).map(|n| ORDER[n]).collect();
        if numbers.contains(&8) && numbers.contains(&9) {
            // Nothing is left behind what is cut short.
            continue;
        }
        let (session, space) = with_faults(&numbers, variant);
        let first = numbers.first().copied().unwrap_or(0);
        assert_eq!(outcome(&session, space), first, "{numbers:?}");
    }
}

#[test]
fn judged_directly_after_4() {
    let judged = |numbers: &[u8], variant| {
        let (session, space) = with_faults(numbers, variant);
        outcome(&session, space)
    };
    for variant in 0..3 {
        assert_eq!(judged(&[18], variant), 18);
        for earlier in [1, 2, 3, 4] {
            assert_eq!(judged(&[earlier, 18], variant), earlier);
        }
        for later in [5, 16, 6, 7, 8, 9, 10] {
            assert_eq!(judged(&[later], variant), later);
            assert_eq!(judged(&[18, later], variant), 18);
        }
    }
}

/// A bad record among as many as the box takes, and among one more.
#[test]
fn bad_records_in_every_place() {
    for (record, number) in [(&[17][..], 6), (&[0], 6), (&[3, 8], 7), (&[13, 0], 7)] {
        for place in 0..64 {
            let spoilt = polls(place).record(record);
            let most = spoilt.clone().times(63 - place, Author::poll);
            assert_eq!(taken(&most.session()), number, "{place}");
            let more = spoilt.times(64 - place, Author::poll);
            assert_eq!(taken(&more.session()), 18, "{place}");
        }
    }
    for (count, number) in [(63, 8), (64, 18)] {
        assert_eq!(taken(&polls(count).record(&[15, 0, 8, 1]).session()), number);
    }
}

#[test]
fn cards_that_there_are_not() {
    for fuses in 0..=255 {
        let judged = |count| taken(&polls(count).put(FUSES, &[fuses]).session());
        let number = if [7, 6, 4, 0].contains(&fuses) { 0 } else { 5 };
        assert_eq!([64, 65].map(judged), [number, 18], "{fuses}");
    }
    for flag in 0..=255 {
        let judged = |count| taken(&polls(count).put(FLAG, &[flag, 0, 0, 0]).session());
        let number = if flag >= READY { 0 } else { 16 };
        assert_eq!([64, 65].map(judged), [number, 18], "{flag}");
    }
}

/// The box's longest log: its space and one byte less.
#[test]
fn log_space() {
    let reads = |count| Author::new(7).times(count, |a| a.read(0x80, 0)).session();
    let needed = SHORTEST_LOG + 64 * LONGEST_ENTRY;
    assert_eq!(needed, 18_837);
    for (space, number) in [(0, 10), (needed - 1, 10), (needed, 0), (needed + 1, 0)] {
        assert_eq!(outcome(&reads(64), space), number, "{space}");
        assert_eq!(outcome(&reads(65), space), 18, "{space}");
    }
    // Records that the card does not heed want their space too.
    let busy = Author::new(7).begin().times(63, |a| a.read(0x80, 0)).session();
    let needed = SHORTEST_LOG + 3 + 63 * LONGEST_ENTRY;
    assert_eq!([needed - 1, needed].map(|space| outcome(&busy, space)), [10, 0]);
    assert_eq!(logged(box_run, &busy, needed).map(|log| log.len()), Ok(SHORTEST_LOG + 3 + 63 * 4));
}

/// A session from the generator, with its records and its length about the box's limits.
fn about_the_limits(rng: &mut gen::Rng) -> Vec<u8> {
    let few = rng.below(64);
    let records = rng.pick(&[0, few, few, 63, 64, 64, 65, 66]);
    let mut session =
        if rng.chance(30) { gen::zone_session(rng, records) } else { gen::session(rng, records) };
    let length = rng.pick(&[0, 0, 4095, 4096, 4096, 4097, 4098]);
    gen::lengthen(rng, &mut session, length);
    session
}

#[test]
fn generated_sessions_have_an_exam_machines_log() {
    let (mut accepted, mut refused) = (0, 0);
    for seed in 0..1500 {
        let session = about_the_limits(&mut gen::Rng::new(seed));
        let checked = check(&session).unwrap();
        let exceeded = session.len() > 4096 || checked.count > 64;
        let needed = checked.log_space;
        for (space, number) in [(needed - 1, 10), (needed, 0), (needed + 300, 0)] {
            let expected = if exceeded { 18 } else { number };
            assert_eq!(outcome(&session, space), expected, "{seed}");
        }
        if exceeded {
            refused += 1;
        } else {
            accepted += 1;
        }
    }
    assert!(accepted > 500 && refused > 500, "{accepted} and {refused}");
}

#[test]
fn damaged_sessions_are_refused_as_on_an_exam_machine() {
    let mut met = BTreeSet::new();
    for seed in 0..6000 {
        let mut rng = gen::Rng::new(seed);
        let session = about_the_limits(&mut rng);
        let damaged = gen::damaged_session(&mut rng, &session);
        let (boxed, exam) = (taken(&damaged), logged(run, &damaged, enough(&damaged)).err());
        met.insert((boxed, exam.unwrap_or(0)));
    }
    for number in [0, 1, 2, 3, 4, 5, 6, 7, 8, 9, 16] {
        assert!(met.contains(&(number, number)), "{number}");
    }
    for number in [0, 5, 6, 7, 8, 9, 16] {
        assert!(met.contains(&(18, number)), "{number} where the box has 18");
    }
}

#[test]
fn encoded_box_runs() {
    let result = |session: &[u8], space| encoded::at88sc1608_box_run(session, &mut vec![0; space]);
    assert_eq!(result(&polls(0).session(), 2197), 2197 << 8);
    assert_eq!(result(&polls(64).session(), 3000), (2197 + 64 * 4) << 8);
    assert_eq!(result(&polls(65).session(), 3000), 18);
    assert_eq!(result(&padded(&polls(64), 4096), 3000), 2453 << 8);
    assert_eq!(result(&padded(&polls(64), 4097), 3000), 18);
    for variant in 0..3 {
        for number in ORDER {
            let (session, space) = with_faults(&[number], variant);
            assert_eq!(result(&session, space), number.into());
        }
    }
}

#[test]
fn listings_of_the_box() {
    let lines: Vec<String> = (0..64).map(|k| format!("{k} 0E 00\n")).collect();
    let ending = ENDING.replace("07", "06");
    assert_eq!(box_listing(&polls(64).session()), lines.concat() + &ending);
    assert_eq!(listing(&polls(64).session()), lines.concat() + &ending);
    assert_eq!(box_listing(&polls(65).session()), "refused 18\n");
    assert_eq!(listing(&polls(65).session()), lines.concat() + "64 0E 00\n" + &ending);
    for variant in 0..3 {
        // The program's log space is longer than any log of the box.
        for number in ORDER.into_iter().filter(|&number| number != 10) {
            let (session, _) = with_faults(&[number], variant);
            assert_eq!(box_listing(&session), format!("refused {number}\n"));
        }
    }
    let named = [edges::all(), edges::of_the_box(), examples::all()].concat();
    for session in samples::all().into_iter().chain(named.into_iter().map(|(_, session)| session)) {
        let (boxed, exam) = (box_listing(&session), listing(&session));
        assert!(boxed == exam || boxed == "refused 18\n");
    }
}

#[test]
fn edge_sessions_of_the_box() {
    let sizes = |session: &[u8]| {
        let count = check(session).map(|checked| checked.count).map_err(Refusal::number);
        (session.len(), count, taken(session))
    };
    let sessions: HashMap<&str, Vec<u8>> = edges::of_the_box().into_iter().collect();
    assert_eq!(sizes(&sessions["box-greatest"]), (4096, Ok(64), 0));
    assert_eq!(sizes(&sessions["box-byte-more"]), (4097, Ok(64), 18));
    assert_eq!(sizes(&sessions["box-byte-more-fuses"]), (4097, Err(5), 18));
    assert_eq!(sizes(&sessions["box-record-more"]), (4096, Ok(65), 18));
    assert_eq!(sizes(&sessions["box-both-more"]), (4097, Ok(65), 18));
    assert_eq!(sizes(&sessions["box-busy-greatest"]), (4096, Ok(64), 0));
    assert_eq!(sizes(&sessions["box-longest-listing"]), (2389, Ok(64), 0));
    assert_eq!(sizes(&sessions["box-4096-records"]), (6293, Ok(4096), 18));
    assert_eq!(sizes(&sessions["box-4097-records"]), (6294, Err(4), 4));
    #[rustfmt::skip]
    let faults = [
        ("mark", 2, 2), ("start", 3, 3), ("fuses", 5, 18), ("flag", 16, 18), ("kind", 6, 18),
        ("field", 7, 18), ("cut-short", 8, 18), ("bytes-left", 9, 18),
    ];
    for (name, most, more) in faults {
        assert_eq!(taken(&sessions[&format!("box-{name}")[..]]), most, "{name}");
        assert_eq!(taken(&sessions[&format!("box-{name}-and-more")[..]]), more, "{name}");
    }
    assert_eq!(sessions.len(), 9 + 2 * faults.len());
    assert!(kinds(&sessions["box-greatest"]).into_iter().eq(1..=16));
    assert!(kinds(&sessions["box-busy-greatest"]).range(128..).count() > 10);
}

#[test]
fn examples_for_the_box() {
    let sessions: HashMap<&str, Vec<u8>> = examples::for_the_box().into_iter().collect();
    let (practice, exam) = (&sessions["practice"], &sessions["exam"]);
    assert_eq!((practice.len(), check(practice).map(|c| c.count)), (2374, Ok(34)));
    assert_eq!(box_listing(practice), listing(practice));
    assert!(listing(practice).contains("27 04 80\n28 05\n29 0D\n30 04 00\n31 05\n32 0D\n33 04 00"));
    assert_eq!((exam.len(), check(exam).map(|c| c.count)), (2478, Ok(65)));
    assert_eq!(box_listing(exam), "refused 18\n");
    assert!(listing(exam).contains("62 04 37 37 37 37\n63 01\n64 04 00 00 00 00\ntries"));
}

/// Entries of every kind, also ignored and with zones, in turn.
fn some_entries(count: usize) -> Vec<Vec<u8>> {
    let all: Vec<Vec<u8>> = (1..=16)
        .chain(130..=143)
        .map(|kind| {
            let response: &[u8] = match kind {
                2 => &[0x34, 0x55, 0xAA, 0x80],
                4 | 6 => &[4, 1, 0, 5, 9],
                8 | 14 => &[1],
                _ => &[],
            };
            entry(kind, [4, 5, 132, 133].contains(&kind).then_some(kind % 8), response)
        })
        .collect();
    all.into_iter().cycle().take(count).collect()
}

/// How many entries a log has; the test reads them by itself.
fn entries_in(log: &[u8]) -> u16 {
    let mut rest = &log[..log.len() - SHORTEST_LOG];
    let mut entries = 0;
    while let [kind, low, high, ..] = *rest {
        let zone = usize::from(matches!(kind, 4 | 5 | 132 | 133));
        rest = &rest[3 + zone + usize::from(low) + 256 * usize::from(high)..];
        entries += 1;
    }
    entries
}

/// Fetches an answer in every form; all tell the same. The headers are those of the whole log.
fn fetched(log: &[u8], number: u64) -> Result<Fetched, Refusal> {
    let result = log::fetch(log, number);
    let response = result.clone().and_then(|f| f.response.ok_or(Refusal::NoSuchAnswer));
    assert_eq!(log::find(log, number), response);
    assert_eq!(log::answer(log, number), response.clone().map(|range| &log[range]));
    let refusal = response.as_ref().map_or_else(|refusal| refusal.number(), |_| 0);
    let (at, length) = response.map_or((0, 0), |range| (range.start, range.len()));
    let headers = result.as_ref().map_or(0, |fetched| fetched.headers);
    let bits = [(refusal.into(), 0), (length, 8), (headers.into(), 24), (at, 40)];
    let expected = bits.map(|(part, bit)| (part as u64) << bit).iter().sum();
    assert_eq!(encoded::at88sc1608_answer(log, number), expected);
    if result.is_ok() {
        assert_eq!(headers, entries_in(log));
    }
    result
}

/// The numbers of some answers that there are, and of some that there are not.
fn numbers(count: usize) -> Vec<u64> {
    let count = count as u64;
    let there = [0, count / 2, count.saturating_sub(1)];
    let not_there = [count, count + 1, 64, 4096, 0xFFFF, 0x1_0000, 1 << 32, u64::MAX];
    there.into_iter().chain(not_there).collect()
}

#[test]
fn headers_with_an_answer_and_with_14() {
    for count in (0..=70).chain([4095, 4096]) {
        let entries = some_entries(count);
        let log = log_of(&entries.concat(), count as u16, ZONED);
        for number in numbers(count) {
            let Fetched { response, headers } = fetched(&log, number).unwrap();
            assert_eq!(usize::from(headers), count, "answer {number}");
            assert_eq!(response.is_some(), number < count as u64, "answer {number} of {count}");
        }
    }
    let entries = some_entries(4097);
    for number in numbers(4097) {
        assert_eq!(fetched(&log_of(&entries.concat(), 4097, ZONED), number), Err(Refusal::Log));
    }
}

/// No number of headers is told of what is no log, however far it was read.
fn no_log(log: &[u8], count: usize) {
    for number in numbers(count) {
        assert_eq!(fetched(log, number), Err(Refusal::Log));
        assert_eq!(encoded::at88sc1608_answer(log, number), 13);
    }
}

#[test]
fn no_headers_with_13_for_a_bad_end() {
    for count in [0, 1, 3, 64, 65, 4096] {
        let log = log_of(&some_entries(count).concat(), count as u16, ZONED);
        let card_at = log.len() - SHORTEST_LOG;
        // Each byte of the trailer, the fuses, the flag.
        for at in (log.len() - TRAILER..log.len()).chain([card_at + FUSES, card_at + FLAG]) {
            let mut bad = log.clone();
            bad[at] ^= 0x88;
            no_log(&bad, count);
        }
        // A byte less and a byte more, on either side and before the card.
        no_log(&log[1..], count);
        no_log(&log[..log.len() - 1], count);
        no_log(&[&log[..], &[0]].concat(), count);
        no_log(&[&[1][..], &log].concat(), count);
        no_log(&[&log[..card_at], &[1], &log[card_at..]].concat(), count);
        no_log(&log_of(&some_entries(count).concat(), count as u16, PLAIN), count);
    }
    for length in 0..SHORTEST_LOG {
        no_log(&log_of(&[], 0, ZONED)[..length], 0);
    }
}

#[test]
fn no_headers_with_13_for_a_bad_entry() {
    #[rustfmt::skip]
    let bad: [&[u8]; 12] = [
        &[0, 0, 0], &[17, 0, 0], &[129, 0, 0], &[144, 0, 0], &[1, 1, 0, 9], &[2, 3, 0, 1, 2, 3],
        &[4, 0, 0, 1], &[4, 1, 0, 8, 1], &[5, 0, 0, 8], &[132, 0, 0, 255], &[8, 0, 0], &[14, 2, 0, 1, 1],
    ];
    for count in [1, 2, 3, 64, 65, 4096] {
        for (place, bad) in [0, count / 2, count - 1].into_iter().flat_map(|p| bad.map(|b| (p, b)))
        {
            let mut entries = some_entries(count);
            entries[place] = bad.to_vec();
            no_log(&log_of(&entries.concat(), count as u16, ZONED), count);
        }
    }
}

#[test]
fn no_headers_with_13_for_bytes_too_many_or_too_few() {
    for count in [0usize, 1, 2, 3, 64, 65, 4095, 4096] {
        let entries = some_entries(count).concat();
        for behind in [&[0][..], &[1], &[1, 0], &[1, 0, 0], &[8, 1, 0, 7], &[0xFF; 100]] {
            no_log(&log_of(&[&entries[..], behind].concat(), count as u16, ZONED), count);
        }
        for said in [count.wrapping_sub(1), count + 1, count + 0x100, count + 0x1000] {
            no_log(&log_of(&entries, said as u16, ZONED), count);
        }
        for cut in 1..=entries.len().min(3) {
            no_log(&log_of(&entries[..entries.len() - cut], count as u16, ZONED), count);
        }
    }
}

#[test]
fn the_bits_of_an_answer() {
    let told = |entries: &[u8], count, number| {
        encoded::at88sc1608_answer(&log_of(entries, count, ZONED), number)
    };
    assert_eq!(told(&[], 0, 0), 14);
    assert_eq!(told(&[], 1, 0), 13);
    assert_eq!(told(&[1, 0, 0], 1, 0), 3 << 40 | 1 << 24);
    assert_eq!(told(&[1, 0, 0], 1, 1), 1 << 24 | 14);
    assert_eq!(told(&[5, 0, 0, 7, 8, 1, 0, 6], 2, 0), 4 << 40 | 2 << 24);
    assert_eq!(told(&[5, 0, 0, 7, 8, 1, 0, 6], 2, 1), 7 << 40 | 2 << 24 | 1 << 8);
    assert_eq!(told(&[5, 0, 0, 7, 8, 1, 0, 6], 2, 2), 2 << 24 | 14);
    assert_eq!(told(&[132, 0, 0, 7], 1, 0), 4 << 40 | 1 << 24);
    let reads = entry(4, Some(3), &[9; 256]).repeat(4096);
    assert_eq!(told(&reads, 4096, 0), 4 << 40 | 4096 << 24 | 256 << 8);
    assert_eq!(told(&reads, 4096, 4095), (4095 * 260 + 4) << 40 | 4096 << 24 | 256 << 8);
    assert_eq!(told(&reads, 4096, 4096), 4096 << 24 | 14);
    assert_eq!(told(&reads, 4095, 0), 13);
}

/// Logs that sessions give, with ignored records and named zones among their entries, and those logs
/// with changes.
#[test]
fn headers_of_generated_logs() {
    let (mut ignored, mut named, mut changed) = (0, 0, 0);
    for seed in 0..1500 {
        let mut rng = gen::Rng::new(seed);
        let session = about_the_limits(&mut rng);
        let count = check(&session).unwrap().count;
        let log = logged(run, &session, enough(&session)).unwrap();
        for number in numbers(count.into()) {
            assert_eq!(fetched(&log, number).map(|f| f.headers), Ok(count), "{seed}");
        }
        if let Ok(boxed) = logged(box_run, &session, enough(&session)) {
            assert!(boxed == log && count <= 64, "{seed}");
        }
        for entry in log::Log::open(&log).unwrap().entries().map(Result::unwrap) {
            ignored += usize::from(entry.kind >= 128);
            named += usize::from(entry.zone.is_some());
        }
        let damaged = gen::damaged_log(&mut rng, &log);
        for number in numbers(count.into()) {
            changed += usize::from(fetched(&damaged, number).is_ok());
        }
    }
    assert!(ignored > 1000 && named > 1000 && changed > 100, "{ignored}, {named}, {changed}");
}
