//! The session writer: what it writes, what it refuses and in which order, that reading gives back
//! what was written, and that two inputs never give one session.

use super::*;
use crate::layout::{FLAG, LONGEST_TITLE, STAGED_ZONE};
use crate::staging::READY;
use crate::writer::{parts, write_session, Parts};

/// Space for any session and more.
const ENOUGH: usize = LONGEST_SESSION + 500;

/// The refusals in the order in which they are judged; 6, 7 and 8 as the records come.
const ORDER: [u8; 11] = [11, 1, 4, 5, 16, 15, 6, 7, 8, 9, 10];

/// Writes into a space of this length. A refusal changes nothing, and the bytes behind a session
/// stay.
fn write(input: Parts, space: usize) -> Result<Vec<u8>, u8> {
    let Parts { card, title, records, count } = input;
    let mut session = vec![0xEE; space];
    let result = write_session(card, title, records, count, &mut session);
    let length = result.unwrap_or(0);
    assert!(session[length..].iter().all(|&b| b == 0xEE));
    session.truncate(length);
    result.map(|_| session).map_err(Refusal::number)
}

/// How long the session is to be.
fn length(input: Parts) -> usize {
    input.card.len() + input.title.len() + input.records.len() + TRAILER
}

/// The number of a refusal that comes with any space.
fn refusal(input: Parts) -> u8 {
    let number = write(input, length(input) + 3).unwrap_err();
    assert_eq!(write(input, 0), Err(number));
    number
}

/// Writes into a space that is just long enough, and reads the parts back.
fn accepted(input: Parts) -> Vec<u8> {
    let session = write(input, length(input)).unwrap();
    assert!(parts(&session) == Ok(input));
    session
}

/// A card, a title and a few records.
fn model() -> Author {
    let author = Author::new(7).text(b"A model").select(3).write(0x1E, b"note").poll();
    author.ready().read(0x1E, 2).read_configuration(0, 4).read_fuses()
}

/// Adds records that take this many bytes together, as few as can be but for the last ones.
fn filling(author: Author, bytes: usize) -> Author {
    author.times(bytes / 19, |a| a.write(0, &[7; 16])).times(bytes % 19, Author::read_fuses)
}

/// Records that make a session of this length, behind a title of this length.
fn session_of_length(length: usize, title: usize) -> Author {
    let author = Author::new(4).text(&vec![b'.'; title]);
    filling(author, length - SHORTEST_SESSION - title)
}

#[test]
fn sessions_by_hand() {
    let card = fresh_card(4);
    let input = Parts { card: &card, title: b"Fuses", records: &[8, 14, 3, 5], count: 3 };
    let end = [0x92, 0x08, 0, 0, 3, 0, 0x53, 0x45];
    let expected = [&card[..], b"Fuses", &[8, 14, 3, 5], &end].concat();
    assert_eq!(write(input, ENOUGH), Ok(expected));
    let nothing = Parts { title: &[], records: &[], count: 0, ..input };
    let end = [0x8D, 0x08, 0, 0, 0, 0, 0x53, 0x45];
    assert_eq!(write(nothing, ENOUGH), Ok([&card[..], &end].concat()));
    let (title, records) = ([b'-'; 255], [8; 4096]);
    let most = Parts { title: &title, records: &records, count: 4096, ..input };
    let end = [0x8C, 0x09, 0, 0, 0x00, 0x10, 0x53, 0x45];
    assert_eq!(write(most, ENOUGH), Ok([&card[..], &title, &records, &end].concat()));
}

#[test]
fn reading_gives_what_was_written() {
    let cards = [7, 6, 4, 0].map(fresh_card);
    let trailer = trailer(CARD, 1);
    let every_byte: Vec<u8> = (0..255).collect();
    // Texts, bytes that might be records, bytes that might be a trailer.
    let titles: [&[u8]; 8] =
        [b"", b"A", b"A model\n", &[0], &[8, 8], &trailer, &every_byte, &[0xFF; 255]];
    let records: [(&[u8], u64); 5] = [
        (&[], 0),
        (&[8], 1),
        (&[1, 1, 1], 3),
        (&[5, 0, 2, 8, 8, 13, 8], 2),
        (&[3, 0x07, 8, 14], 3),
    ];
    for (card, title) in cards.iter().flat_map(|card| titles.map(|title| (card, title))) {
        for (records, count) in records {
            let session = accepted(Parts { card, title, records, count });
            assert!(session[..CARD] == card[..]);
            assert_eq!(session[CARD..CARD + title.len()], *title);
            assert_eq!(session[CARD + title.len()..session.len() - TRAILER], *records);
        }
    }
    let mut rng = gen::Rng::new(9);
    for _ in 0..200 {
        let session = gen::session(&mut rng, 50);
        let title = rng.below(LONGEST_TITLE + 1);
        let title = rng.bytes(title);
        accepted(Parts { title: &title, ..parts(&session).unwrap() });
    }
}

/// Sessions that were put together in another way have the same bytes.
#[test]
fn sessions_are_written_as_they_stand() {
    let named = edges::all().into_iter().chain(examples::all()).map(|(_, session)| session);
    let (mut same, mut long_titles) = (0, 0);
    for session in samples::all().into_iter().chain(named) {
        let Ok(input) = parts(&session) else {
            continue;
        };
        if input.title.len() <= LONGEST_TITLE {
            assert!(accepted(input) == session);
            same += 1;
        } else {
            assert_eq!(refusal(input), 15);
            long_titles += 1;
        }
    }
    assert!(same > 50 && long_titles > 1, "{same} and {long_titles}");
}

#[test]
fn a_written_session_runs() {
    let author = model();
    let session = accepted(author.parts());
    let lines = "0 03\n1 05\n2 0E 01\n3 0D\n4 04 6E 6F\n5 06 2C AA 55 01\n6 08 07\n";
    assert_eq!(listing(&session), format!("{lines}{ENDING}"));
    let mut rng = gen::Rng::new(10);
    for _ in 0..200 {
        let generated = gen::session(&mut rng, 30);
        let title = rng.bytes(20);
        let session = accepted(Parts { title: &title, ..parts(&generated).unwrap() });
        // The title is nothing to the log, and only the log's space may be too short.
        let needed = check(&session).unwrap().log_space;
        let mut logs = [vec![0; needed], vec![0; needed]];
        let length = run(&session, &mut logs[0]);
        assert!(length.is_ok() && length == run(&generated, &mut logs[1]));
        assert!(logs[0] == logs[1]);
        for space in [0, SHORTEST_LOG - 1, needed - 1] {
            assert_eq!(run(&session, &mut vec![0; space]), Err(Refusal::Space));
        }
    }
}

#[test]
fn refusals_alone() {
    let author = model();
    let sound = author.parts();
    accepted(sound);
    let (short, long) = (&sound.card[1..], [sound.card, &[7]].concat());
    assert_eq!(refusal(Parts { card: short, ..sound }), 11);
    assert_eq!(refusal(Parts { card: &long, ..sound }), 11);
    assert_eq!(refusal(session_of_length(LONGEST_SESSION + 1, 20).parts()), 1);
    let many = Author::new(7).times(4097, Author::poll);
    assert_eq!(refusal(many.parts()), 4);
    assert_eq!(refusal(Parts { card: &fresh_card(5), ..sound }), 5);
    assert_eq!(refusal(author.clone().put(FLAG, &[0xFD]).parts()), 16);
    assert_eq!(refusal(Parts { title: &[b'.'; 256], ..sound }), 15);
    for (record, number) in [(&[17][..], 6), (&[3, 8], 7), (&[4, 1], 8)] {
        assert_eq!(refusal(author.clone().record(record).parts()), number);
    }
    let left = [sound.records, &[8]].concat();
    assert_eq!(refusal(Parts { records: &left, ..sound }), 9);
    assert_eq!(write(sound, length(sound) - 1), Err(10));
}

#[test]
fn cards_of_2189_bytes() {
    let author = model();
    for length in (0..2 * CARD).filter(|&length| length != CARD) {
        for fuses in [7, 5] {
            let card = vec![fuses; length];
            assert_eq!(refusal(Parts { card: &card, ..author.parts() }), 11, "{length}");
        }
    }
    let mut card = [7; CARD];
    card[FLAG] = 0xFF;
    accepted(Parts { card: &card, ..author.parts() });
}

#[test]
fn fuse_bytes_of_a_stage() {
    for fuses in 0..=255 {
        let author = model().put(FUSES, &[fuses]);
        if [7, 6, 4, 0].contains(&fuses) {
            accepted(author.parts());
        } else {
            assert_eq!(refusal(author.parts()), 5, "{fuses}");
        }
    }
}

#[test]
fn titles_up_to_255_bytes() {
    for (author, length) in [Author::new(6), model()]
        .into_iter()
        .flat_map(|a| (0..=600).chain([4096, 60_000]).map(move |length| (a.clone(), length)))
    {
        let title = vec![b'T'; length];
        let input = Parts { title: &title, ..author.parts() };
        if length <= 255 {
            assert_eq!(accepted(input).len(), length + SHORTEST_SESSION + input.records.len());
        } else {
            assert_eq!(refusal(input), 15, "{length}");
        }
    }
    // One that is too long for any session.
    let longest = LONGEST_SESSION - SHORTEST_SESSION;
    let author = Author::new(6);
    assert_eq!(refusal(Parts { title: &vec![0; longest], ..author.parts() }), 15);
    for length in [longest + 1, LONGEST_SESSION, 2 * LONGEST_SESSION] {
        assert_eq!(refusal(Parts { title: &vec![0; length], ..author.parts() }), 1);
    }
}

#[test]
fn sessions_up_to_65_536_bytes() {
    for title in [0, 1, 254, 255] {
        for length in [LONGEST_SESSION - 1, LONGEST_SESSION] {
            assert_eq!(accepted(session_of_length(length, title).parts()).len(), length);
        }
        for length in [LONGEST_SESSION + 1, LONGEST_SESSION + 2, LONGEST_SESSION + 20_000] {
            assert_eq!(refusal(session_of_length(length, title).parts()), 1, "{title}, {length}");
        }
    }
    assert_eq!(refusal(session_of_length(LONGEST_SESSION, 256).parts()), 15);
    assert_eq!(refusal(session_of_length(LONGEST_SESSION + 1, 256).parts()), 1);
    // The title is the only part that is longer by one.
    let author = session_of_length(LONGEST_SESSION, 254);
    accepted(author.parts());
    accepted(Parts { title: &[b'.'; 253], ..author.parts() });
    assert_eq!(refusal(Parts { title: &[b'.'; 255], ..author.parts() }), 1);
}

#[test]
fn counts_up_to_4096() {
    for (record, count) in [&[8][..], &[3, 7], &[4, 0, 0]]
        .into_iter()
        .flat_map(|record| [4095, 4096, 4097].map(|count| (record, count)))
    {
        let records = record.repeat(count);
        let author = Author::new(7);
        let input = Parts { records: &records, count: count as u64, ..author.parts() };
        if count <= 4096 {
            let session = accepted(input);
            assert_eq!(check(&session).map(|c| usize::from(c.count)), Ok(count));
        } else {
            assert_eq!(refusal(input), 4);
        }
    }
}

#[test]
fn counts_are_whole_numbers() {
    let author = model();
    let sound = author.parts();
    #[rustfmt::skip]
    let above = [
        4097, 0x7FFF, 0x8000, 0xFFFF, 0x1_0000, 0x1_0001, 0x1_0000 + sound.count, 0x2_0000,
        0x10_0000 + sound.count, 1 << 32, (1 << 32) + sound.count, 1 << 63, (1 << 63) + sound.count,
        u64::MAX - 1, u64::MAX,
    ];
    for count in above {
        assert_eq!(refusal(Parts { count, ..sound }), 4, "{count}");
        let nothing = Parts { title: &[], records: &[], count, ..sound };
        assert_eq!(refusal(nothing), 4, "{count}");
    }
}

#[test]
fn only_one_count_is_right() {
    let author = model();
    let sound = author.parts();
    for count in 0..=4096 {
        let input = Parts { count, ..sound };
        match count {
            0..=6 => assert_eq!(refusal(input), 9, "{count}"),
            7 => assert_eq!(accepted(input).len(), length(input)),
            _ => assert_eq!(refusal(input), 8, "{count}"),
        }
    }
    let nothing = Parts { records: &[], count: 0, ..sound };
    accepted(nothing);
    for count in [1, 2, 4096] {
        assert_eq!(refusal(Parts { count, ..nothing }), 8);
    }
}

/// The writer and the session reader judge the same records and count; there is no log space, so a
/// sound session gets 10 from the reader.
fn judged_alike(records: &[u8], count: u16) -> u8 {
    let card = fresh_card(7);
    let input = Parts { card: &card, title: b"!", records, count: count.into() };
    let session = [&card[..], b"!", records, &trailer(CARD + 1, count)].concat();
    let read = run(&session, &mut []).unwrap_err().number();
    assert_eq!(write(input, 0), Err(read), "{records:02X?}, {count}");
    if read == 10 {
        assert!(accepted(input) == session);
    }
    read
}

#[test]
fn records_are_judged_as_in_a_session() {
    let mut met = BTreeSet::new();
    for (kind, field) in (0..=18).flat_map(|kind| (0..=255).map(move |field| (kind, field))) {
        for length in 0..=13 {
            let record = &[kind, field, 9, 1, 2, 3, 4, 5, 6, 7, 8, 9, 10][..length];
            met.insert(judged_alike(record, 1));
        }
    }
    for kind in 17..=255 {
        assert_eq!(judged_alike(&[kind], 1), 6);
        assert_eq!(judged_alike(&[kind, 0, 1], 1), 6);
    }
    for (kind, count) in
        [4, 5, 6, 7, 15].into_iter().flat_map(|kind| (0..=255).map(move |n| (kind, n)))
    {
        for address in [0, 0x7F, 0x80, 0xFF] {
            for data in [0, 1, 7, 8, 9, 15, 16, 17, usize::from(count)] {
                let record = [&[kind, address, count][..], &vec![8; data]].concat();
                met.insert(judged_alike(&record, 1));
            }
        }
    }
    assert!(met.into_iter().eq(6..=10));
}

#[test]
fn records_are_judged_in_turn() {
    let bad: [(&[u8], u8); 5] =
        [(&[0], 6), (&[17], 6), (&[3, 8], 7), (&[13, 0], 7), (&[15, 0, 9], 7)];
    for ((first, number), (second, _)) in bad.into_iter().flat_map(|a| bad.map(|b| (a, b))) {
        for before in [&[][..], &[8], &[5, 0, 1, 0]] {
            let records = [before, first, second].concat();
            let count = 2 + u16::from(!before.is_empty());
            assert_eq!(judged_alike(&records, count), number);
            // A fault behind the last record is none of a record.
            let sound = [before, &[8], first].concat();
            assert_eq!(judged_alike(&sound, count - 1), 9);
            assert_eq!(judged_alike(&sound, count), number);
        }
    }
}

#[test]
fn a_record_ends_with_the_records() {
    // The trailer's bytes are no record's.
    #[rustfmt::skip]
    let cut: [&[u8]; 15] = [
        &[3], &[4], &[4, 0], &[5, 0], &[5, 0, 1], &[5, 0, 2, 1], &[6, 0], &[7, 0, 4, 1, 2, 3],
        &[10, 0], &[10, 0, 1, 2], &[12, 1, 1, 2, 3, 4, 5, 6, 7], &[13], &[15, 0],
        &[15, 0, 8, 1, 2, 3, 4, 5, 6, 7], &[16, 0],
    ];
    for cut in cut {
        assert_eq!(judged_alike(cut, 1), 8, "{cut:02X?}");
        assert_eq!(judged_alike(&[&[8], cut].concat(), 2), 8, "{cut:02X?}");
    }
}

#[test]
fn space_for_the_session() {
    for author in [Author::new(0), model(), model().text(&[b'.'; 240])] {
        let input = author.parts();
        let length = length(input);
        for space in (0..length).rev().step_by(11).chain([0, CARD, length - TRAILER]) {
            assert_eq!(write(input, space), Err(10), "{space} of {length}");
        }
        let session = accepted(input);
        for space in [length, length + 1, length + 2, length + 1000, ENOUGH] {
            assert!(write(input, space).as_ref() == Ok(&session), "{space} of {length}");
        }
    }
    for length in [LONGEST_SESSION - 1, LONGEST_SESSION] {
        let author = session_of_length(length, 255);
        assert_eq!(write(author.parts(), length - 1), Err(10));
        assert_eq!(write(author.parts(), length).map(|session| session.len()), Ok(length));
    }
}

/// The answer to an input with all the faults that these numbers name, and with no other.
fn with_faults(numbers: &[u8], variant: usize) -> Result<Vec<u8>, u8> {
    let has = |number| numbers.contains(&number);
    let author = Author::new(if has(5) { [5, 1, 255][variant] } else { 6 });
    let author = if has(16) {
        author.put(FLAG, [&[0xFD][..], &[READY, 8], &[READY, 0, 0, 9]][variant])
    } else {
        author
    };
    // More records than there may be, also if the count were not judged.
    let author = author.times(if has(4) { 4097 } else { 2 }, Author::read_fuses);
    let mut author = if has(1) { filling(author, LONGEST_SESSION) } else { author };
    for (number, record) in [(6, &[17][..]), (7, &[3, 8]), (8, &[4, 0])] {
        if has(number) {
            author = author.record(record);
        }
    }
    let mut card = author.parts().card.to_vec();
    let mut records = author.parts().records.to_vec();
    let mut count = author.parts().count;
    if has(11) {
        card.resize([CARD - 1, CARD + 1, 0][variant], 7);
    }
    if has(4) && !has(9) {
        count = [count, 0x1_0000, u64::MAX][variant];
    }
    if has(9) {
        records.push([8, 0, 17][variant]);
    }
    let title = vec![b'.'; if has(15) { [256, 300, 4096][variant] } else { [0, 20, 255][variant] }];
    let input = Parts { card: &card, title: &title, records: &records, count };
    let space = length(input);
    write(input, if has(10) { [space - 1, 0, CARD][variant] } else { space })
}

/// Whether both can hold of one input: only one of 6, 7 and 8 is met first, and behind a record
/// that is cut short nothing is left.
fn together(one: u8, other: u8) -> bool {
    let in_a_record = |number| (6..=8).contains(&number);
    !(in_a_record(one) && in_a_record(other)) && (one, other) != (8, 9)
}

#[test]
fn every_pair_of_refusals() {
    let mut pairs = 0;
    for (place, first) in ORDER.into_iter().enumerate() {
        let later = ORDER[place + 1..].iter().filter(|&&later| together(first, later));
        for (&later, variant) in later.flat_map(|later| [0, 1, 2].map(|v| (later, v))) {
            assert_eq!(with_faults(&[first], variant), Err(first));
            assert_eq!(with_faults(&[later], variant), Err(later));
            assert_eq!(with_faults(&[first, later], variant), Err(first), "{first} and {later}");
            pairs += 1;
        }
    }
    assert_eq!(pairs, 3 * (55 - 4));
}

#[test]
fn every_set_of_refusals() {
    for set in 0..1 << ORDER.len() {
        let numbers: Vec<u8> =
            (0..ORDER.len()).filter(|n| set >> n & 1 == 1).map(|n| ORDER[n]).collect();
        let mut pairs = numbers.iter().flat_map(|&a| numbers.iter().map(move |&b| (a, b)));
        if pairs.all(|(one, other)| one == other || together(one, other)) {
            let result = with_faults(&numbers, set % 3);
            assert_eq!(result.err(), numbers.first().copied(), "{numbers:?}");
        }
    }
}

/// Card, title, records and count.
type Source = (Vec<u8>, Vec<u8>, Vec<u8>, u64);

/// The sessions that were written, and what each was written from.
#[derive(Default)]
struct Written(HashMap<Vec<u8>, Source>);

impl Written {
    /// Whether the input is accepted; then no other input has given its session.
    fn add(&mut self, input: Parts) -> bool {
        let Ok(session) = write(input, length(input)) else {
            return false;
        };
        let Parts { card, title, records, count } = input;
        let from = (card.to_vec(), title.to_vec(), records.to_vec(), count);
        let first = self.0.entry(session).or_insert_with(|| from.clone());
        assert!(*first == from, "{:02X?} and {:02X?}", first.1, from.1);
        true
    }
}

#[test]
fn a_byte_moved_between_title_and_records() {
    let card = fresh_card(7);
    let bytes = [b'A', 14, 8, 8, 1];
    let split = |at| {
        let (title, records) = bytes.split_at(at);
        accepted(Parts { card: &card, title, records, count: records.len() as u64 })
    };
    let sessions: Vec<Vec<u8>> = (1..=bytes.len()).map(split).collect();
    let end = sessions[0].len() - TRAILER;
    for (one, other) in (0..sessions.len()).flat_map(|one| (0..one).map(move |o| (one, o))) {
        // All but the trailers are alike.
        assert!(sessions[one][..end] == sessions[other][..end]);
        assert_ne!(sessions[one][end..], sessions[other][end..]);
    }
    // The records' bytes are the same and belong together in other ways.
    let two = Parts { card: &card, title: &[13], records: &[13, 13], count: 1 };
    accepted(two);
    assert_eq!(refusal(Parts { title: &[], records: &[13, 13, 13], ..two }), 9);
    assert_eq!(refusal(Parts { title: &[13, 13], records: &[13], ..two }), 8);
}

/// Every way to divide some short strings into title and records, with every count.
#[test]
fn no_two_inputs_give_one_session() {
    const BYTES: [u8; 4] = [1, 3, 4, 13];
    let card = fresh_card(0);
    let (mut written, mut accepted) = (Written::default(), 0);
    for length in 0..=5 {
        for n in 0..1 << (2 * length) {
            let bytes: Vec<u8> = (0..length).map(|k| BYTES[n >> (2 * k) & 3]).collect();
            for (at, count) in (0..=length).flat_map(|at| (0..=6).map(move |count| (at, count))) {
                let (title, records) = bytes.split_at(at);
                accepted += usize::from(written.add(Parts { card: &card, title, records, count }));
            }
        }
    }
    assert!(accepted > 2000 && written.0.len() == accepted, "{accepted}");
}

#[test]
fn no_two_cards_give_one_session() {
    let author = model().put(STAGED_ZONE, &[2, 0x1E, 3]);
    let mut written = Written::default();
    for place in 0..CARD {
        let mut card = author.parts().card.to_vec();
        card[place] = match place {
            FUSES => 6,
            FLAG => READY,
            _ => card[place] ^ 0x10,
        };
        assert!(written.add(Parts { card: &card, ..author.parts() }));
    }
    assert!(written.add(author.parts()));
    assert_eq!(written.0.len(), CARD + 1);
}

#[test]
fn encoded_writes() {
    let author = model();
    let result = |input: Parts, space: usize| {
        let Parts { card, title, records, count } = input;
        encoded::at88sc1608_write_session(card, title, records, count, &mut vec![0; space])
    };
    let input = author.parts();
    let length = length(input);
    assert_eq!(result(input, length), (length as u64) << 8);
    assert_eq!(result(input, ENOUGH), (length as u64) << 8);
    assert_eq!(result(input, length - 1), 10);
    assert_eq!(result(Parts { title: &[0; 256], ..input }, ENOUGH), 15);
    assert_eq!(result(Parts { count: 1 << 56, ..input }, ENOUGH), 4);
    let longest = session_of_length(LONGEST_SESSION, 0);
    assert_eq!(result(longest.parts(), ENOUGH), 0x100_0000);
}

#[test]
fn the_example_is_written_from_its_parts() {
    let author = examples::written();
    let (_, session) = examples::all().into_iter().find(|(name, _)| *name == "written").unwrap();
    assert!(accepted(author.parts()) == session && author.parts().written() == Ok(session.clone()));
    let Parts { title, count, .. } = parts(&session).unwrap();
    let plain = |&byte: &u8| byte == b' ' || byte.is_ascii_graphic() && !b"\"'`$\\".contains(&byte);
    assert!(title.iter().all(plain) && (20..100).contains(&title.len()));
    assert!((6..=10).contains(&count));
    let lines = "0 0A\n1 0D\n2 03\n3 05\n4 0E 01\n5 0D\n6 0E 00\n7 04 61 20 6E 6F 74 65\n8 08 06\n";
    let tries = "tries 8 8 8 8 8 8 8 8 8 8 8 8 8 8 8 8 8";
    assert_eq!(listing(&session), format!("{lines}{tries}\nfuses 06\n"));
}
