//! The session writer on both: every edge, every set of faults, every change of a record, parts
//! from the generator. What is written is read back and run, and two inputs never give one session.

use std::collections::HashMap;
use std::sync::OnceLock;

use second::author::{fresh_card, Author};
use second::gen::{self, Rng};
use second::layout::{
    CARD, FLAG, FUSES, LONGEST_SESSION, LONGEST_TITLE, MOST_RECORDS, SHORTEST_LOG,
    SHORTEST_SESSION, STAGED_VALUES, TRAILER,
};
use second::session::{self, trailer};
use second::staging::READY;
use second::writer::{parts, Parts};
use second::{edges, examples, samples};

use crate::{both, seeds, staging, Met, FIXED, STAGES};

/// How much longer than the session a long space is.
const MORE: usize = 300;

/// Noise, for the spaces to hold before a call.
fn noise(from: usize, length: usize) -> &'static [u8] {
    static NOISE: OnceLock<Vec<u8>> = OnceLock::new();
    let noise = NOISE.get_or_init(|| Rng::new(15).bytes(2 * LONGEST_SESSION));
    &noise[from..from + length]
}

/// The bytes that an input is to give, whether it is accepted or not.
fn laid_out(input: Parts) -> Vec<u8> {
    let end = trailer(input.card.len() + input.title.len(), input.count as u16);
    [input.card, input.title, input.records, &end].concat()
}

/// Which refusal an input is to get with space enough, or 0. Its records are those of a session.
fn judged(input: Parts) -> u64 {
    let session = laid_out(input);
    if input.card.len() != CARD {
        11
    } else if session.len() > LONGEST_SESSION {
        1
    } else if input.count > MOST_RECORDS.into() {
        4
    } else if !STAGES.contains(&input.card[FUSES]) {
        5
    } else if !staging::sound(input.card) {
        16
    } else if input.title.len() > LONGEST_TITLE {
        15
    } else {
        session::check(&session).map_or_else(|refusal| refusal.number().into(), |_| 0)
    }
}

/// Writes into one space and expects the refusal that comes with space enough, or 10, or the
/// session.
fn write(seed: &str, input: Parts, refusal: u64, space: &[u8]) -> u64 {
    let session = laid_out(input);
    let expected = match refusal {
        0 if space.len() < session.len() => 10,
        0 => (session.len() as u64) << 8,
        refusal => refusal,
    };
    let (result, after) = both::write_session(seed, input, space);
    let Parts { title, records, count, .. } = input;
    let what = || {
        let (title, records, space) = (title.len(), records.len(), space.len());
        format!("{seed}: title {title}, records {records}, count {count}, space {space}")
    };
    assert_eq!(result, expected, "{}", what());
    if result & 0xFF == 0 {
        assert!(after[..session.len()] == session, "{}", what());
    }
    result
}

/// Reads a session back and runs it on both; only its log space may be too short.
fn read_and_run(seed: &str, session: &[u8], input: Parts) {
    assert!(parts(session) == Ok(input), "{seed}: read back");
    let needed = session::check(session).expect("the session is sound").log_space;
    for space in [needed, needed + 1] {
        assert_eq!(both::run(seed, session, space).0 & 0xFF, 0, "{seed}: {space} of {needed}");
    }
    for space in [0, SHORTEST_LOG - 1, needed - 1] {
        assert_eq!(both::run(seed, session, space).0, 10, "{seed}: {space} of {needed}");
    }
}

/// Writes into spaces too short, exact and long. What is accepted is read back and run; what the
/// session's reader would refuse too, it refuses alike.
fn expect(seed: &str, input: Parts, refusal: u64) {
    assert_eq!(judged(input), refusal, "{seed}");
    let session = laid_out(input);
    let length = session.len().min(LONGEST_SESSION);
    for space in [0, CARD, length - 1, length, length + 1, length + MORE] {
        write(seed, input, refusal, noise(0, space));
    }
    match refusal {
        0 => read_and_run(seed, &session, input),
        1 | 5..=9 | 16 => assert_eq!(both::run(seed, &session, 0).0, refusal, "{seed}"),
        4 if input.count <= 0xFFFF => assert_eq!(both::run(seed, &session, 0).0, 4, "{seed}"),
        _ => {}
    }
}

/// A card, a title and records of every kind.
pub fn every_kind() -> Author {
    Author::new(6)
        .text(b"Every kind")
        .reset()
        .right(7)
        .ready()
        .select(2)
        .write(0x0F, &[1, 2])
        .poll()
        .read(0xFF, 3)
        .wait(9)
        .read_configuration(0x7E, 2)
        .power()
        .write_configuration(0x38, &[1])
        .ready()
        .begin()
        .ready()
        .verdict(1, b"ABCDEFGH")
        .ready()
        .read_fuses()
        .write_fuses()
        .cut(3, 0x5A)
        .staged_write(0x0F, &[3, 4, 5])
}

/// Adds records that take this many bytes together, as few as can be but for the last ones.
fn filling(author: Author, bytes: usize) -> Author {
    author.times(bytes / 19, |a| a.write(0, &[7; 16])).times(bytes % 19, Author::read_fuses)
}

#[test]
fn every_length_of_a_card() {
    let author = every_kind();
    for (length, byte) in (2150..2210)
        .chain([0, 1, 2048, 4353, 4354, LONGEST_SESSION, LONGEST_SESSION + 1])
        .flat_map(|length| [(length, 7), (length, 0), (length, 5)])
    {
        let mut card = vec![byte; length];
        if let Some(flag) = card.get_mut(FLAG) {
            *flag = 0xFF;
        }
        let input = Parts { card: &card, ..author.parts() };
        let refusal = match byte {
            _ if length != CARD => 11,
            5 => 5,
            _ => 0,
        };
        expect(FIXED, input, refusal);
        expect(FIXED, Parts { title: &[], records: &[], count: 0, ..input }, refusal);
    }
}

#[test]
fn every_fuse_byte() {
    for fuses in 0..=255 {
        let refusal = if STAGES.contains(&fuses) { 0 } else { 5 };
        for author in [Author::new(fuses), every_kind().put(FUSES, &[fuses])] {
            expect(FIXED, author.parts(), refusal);
        }
    }
}

#[test]
fn every_length_of_a_title() {
    let most = Author::new(0).times(MOST_RECORDS.into(), Author::poll);
    for length in (0..=300).chain([511, 512, 513, 4096, 57_000]) {
        let title: Vec<u8> = (0..length).map(|k| (k % 256) as u8).collect();
        let refusal = if length <= 255 { 0 } else { 15 };
        for author in [Author::new(4), every_kind()] {
            expect(FIXED, Parts { title: &title, ..author.parts() }, refusal);
        }
        if length % 85 < 2 {
            // With as many records as there may be.
            expect(FIXED, Parts { title: &title, ..most.parts() }, refusal);
        }
    }
    // Titles as long as a session leaves room for, and longer ones.
    let longest = LONGEST_SESSION - SHORTEST_SESSION;
    for (length, refusal) in [(longest - 1, 15), (longest, 15), (longest + 1, 1), (70_000, 1)] {
        expect(FIXED, Author::new(4).text(&vec![8; length]).parts(), refusal);
        let records = every_kind().parts().records.len();
        let text = vec![8; length - records];
        expect(FIXED, Parts { title: &text, ..every_kind().parts() }, refusal);
    }
}

#[test]
fn every_length_about_the_longest_session() {
    for length in LONGEST_SESSION - 3..=LONGEST_SESSION + 3 {
        for title in [0, 1, 100, 254, 255, 256, 257] {
            let text = vec![b'.'; title];
            let author = Author::new(6).text(&text);
            let author = filling(author, length - SHORTEST_SESSION - title);
            let refusal = match (length > LONGEST_SESSION, title > 255) {
                (true, _) => 1,
                (false, true) => 15,
                (false, false) => 0,
            };
            expect(FIXED, author.parts(), refusal);
        }
    }
}

#[test]
fn every_count_about_the_right_one() {
    let author = every_kind();
    let right = author.parts().count;
    let wide = [0, 1, right, right + 1, 4096, 4097, 0xFFFF]
        .into_iter()
        .flat_map(|low| [16, 17, 24, 31, 32, 33, 48, 56, 62, 63].map(|bit| (1 << bit) + low));
    let counts = (0..=40).chain(4090..=4110).chain([0x7FFF, 0x8000, 0xFFFE, 0xFFFF]).chain(wide);
    for count in counts.chain([u64::MAX, u64::MAX - 1, u64::MAX - 0xFFFF + right]) {
        let refusal = match count {
            4097.. => 4,
            _ if count < right => 9,
            _ if count > right => 8,
            _ => 0,
        };
        expect(FIXED, Parts { count, ..author.parts() }, refusal);
        let none = Parts { records: &[], count, ..author.parts() };
        let refusal = match count {
            4097.. => 4,
            0 => 0,
            _ => 8,
        };
        expect(FIXED, none, refusal);
    }
    for (record, records) in [&[8][..], &[3, 7], &[13, 255]]
        .into_iter()
        .flat_map(|record| [4095, 4096, 4097, 4098].map(|records| (record, records)))
    {
        let bytes = record.repeat(records);
        for count in [records - 1, records, records + 1] {
            let input = Parts { records: &bytes, count: count as u64, ..author.parts() };
            let refusal = match count {
                4097.. => 4,
                _ if count < records => 9,
                _ if count > records => 8,
                _ => 0,
            };
            expect(FIXED, input, refusal);
        }
    }
}

#[test]
fn every_length_of_a_space() {
    for author in [Author::new(7), every_kind(), every_kind().text(&[b'.'; 245])] {
        let input = author.parts();
        for space in 0..laid_out(input).len() + 40 {
            write(FIXED, input, 0, noise(space % 17, space));
        }
    }
}

#[test]
fn every_change_of_a_record() {
    let author = every_kind();
    let sound = author.parts();
    let changed = |records: &[u8], count| {
        let input = Parts { records, count, ..sound };
        write(FIXED, input, judged(input), noise(0, laid_out(input).len())) & 0xFF
    };
    let mut met = Met::default();
    for at in 0..sound.records.len() {
        let mut records = sound.records.to_vec();
        for value in 0..=255 {
            records[at] = value;
            met.note(&format!("refusal {}", changed(&records, sound.count)));
        }
        for count in 0..=sound.count + 1 {
            changed(&sound.records[..at], count);
            changed(&sound.records[at..], count);
        }
        let (before, after) = sound.records.split_at(at);
        for byte in [0, 1, 3, 8, 13, 15, 16, 17, 255] {
            for count in [sound.count, sound.count + 1] {
                changed(&[before, &[byte], after].concat(), count);
            }
        }
    }
    for refusal in [0, 6, 7, 8, 9] {
        met.require(&format!("refusal {refusal}"), 20);
    }
}

/// Records with every value of their fields, cut at every length.
#[test]
fn every_field_and_length_of_a_record() {
    let author = Author::new(7).text(b"One");
    let judge = |record: &[u8]| {
        let input = Parts { records: record, count: 1, ..author.parts() };
        write(FIXED, input, judged(input), noise(1, CARD + TRAILER + 24));
    };
    for (kind, field) in (0..=18).flat_map(|kind| (0..=255).map(move |field| (kind, field))) {
        for length in 0..=13 {
            judge(&[kind, field, 9, 1, 2, 3, 4, 5, 6, 7, 8, 9, 10][..length]);
        }
    }
    for kind in 0..=255 {
        judge(&[kind]);
    }
    for (kind, count) in
        [4, 5, 6, 7, 15].into_iter().flat_map(|kind| (0..=255).map(move |n| (kind, n)))
    {
        for address in [0, 1, 0x7F, 0x80, 0xFF] {
            for data in [0, 1, 7, 8, 9, 15, 16, 17] {
                judge(&[&[kind, address, count][..], &vec![kind; data]].concat());
            }
        }
    }
}

/// Sets of these refusals, each alone or with a bad record, in three variants.
#[test]
fn every_set_of_faults_in_an_input() {
    const FAULTS: [u64; 8] = [11, 1, 4, 5, 16, 15, 9, 10];
    #[rustfmt::skip]
    let bad: [(&[u8], u64); 7] = [
        (&[], 0), (&[17], 6), (&[0x53, 0x45], 6), (&[3, 8], 7), (&[15, 0, 9], 7), (&[3], 8),
        (&[16, 0], 8),
    ];
    let filled = filling(Author::new(6), LONGEST_SESSION);
    let sound = Author::new(6).select(5).write(0, b"sound");
    let many = Author::new(6).times(4097, Author::poll);
    for (set, variant) in (0..1 << FAULTS.len()).flat_map(|set| [0, 1, 2].map(|v| (set, v))) {
        let has = |number| (0..).zip(FAULTS).any(|(bit, n)| n == number && set >> bit & 1 == 1);
        for (record, number) in bad {
            if number == 8 && has(9) {
                // Nothing is left behind what is cut short.
                continue;
            }
            let mut card = fresh_card(if has(5) { [5, 1, 255][variant] } else { 6 });
            if has(16) {
                let head = [[0xFD, 0, 0, 0], [READY, 8, 0, 0], [READY, 0, 0, 9]][variant];
                card[FLAG..STAGED_VALUES].copy_from_slice(&head);
            }
            if has(11) {
                card.resize([CARD - 1, CARD + 1, 0][variant], 7);
            }
            // Too long for any session by its records, or by its title.
            let long_title = has(1) && has(15) && variant == 2;
            let title = if has(15) { [256, 300, 4096] } else { [0, 20, 255] }[variant];
            let title = vec![b'.'; if long_title { LONGEST_SESSION } else { title }];
            let mut lists = vec![sound.parts()];
            if has(1) && !long_title {
                lists.push(filled.parts());
            }
            if has(4) {
                lists.push(many.parts());
            }
            let mut count = lists.iter().map(|list| list.count).sum();
            let mut records = lists.iter().map(|list| list.records).collect::<Vec<_>>().concat();
            if number != 0 {
                records.extend(record);
                count += 1;
            }
            if has(9) {
                records.push([8, 0, 17][variant]);
            } else if has(4) {
                count = [count, 0x1_0000, u64::MAX][variant];
            }
            let input = Parts { card: &card, title: &title, records: &records, count };
            let refusal = match [11, 1, 4, 5, 16, 15].into_iter().find(|&number| has(number)) {
                Some(first) => first,
                None if number != 0 => number,
                None if has(9) => 9,
                None => 0,
            };
            assert_eq!(judged(input), refusal);
            let length = laid_out(input).len().min(LONGEST_SESSION);
            let space = if has(10) { [length - 1, 0, length / 2][variant] } else { length };
            let result = write(FIXED, input, refusal, noise(variant, space));
            assert_eq!(result & 0xFF, if refusal == 0 && has(10) { 10 } else { refusal });
        }
    }
}

/// Sessions that were put together in another way have the same bytes.
#[test]
fn sample_and_edge_sessions_written() {
    let named = edges::all().into_iter().chain(examples::all()).map(|(_, session)| session);
    let mut met = Met::default();
    for session in samples::all().into_iter().chain(named) {
        if let Ok(input) = parts(&session) {
            let refusal = if input.title.len() <= LONGEST_TITLE { 0 } else { 15 };
            expect(FIXED, input, refusal);
            assert!(laid_out(input) == session);
            met.note(&format!("refusal {refusal}"));
        }
    }
    met.require("refusal 0", 50);
    met.require("refusal 15", 2);
}

/// What a session is written from, to be changed.
#[derive(Debug)]
struct Source {
    card: Vec<u8>,
    title: Vec<u8>,
    records: Vec<u8>,
    count: u64,
}

impl Source {
    fn of(input: Parts) -> Source {
        let [card, title, records] = [input.card, input.title, input.records].map(<[u8]>::to_vec);
        Source { card, title, records, count: input.count }
    }

    fn parts(&self) -> Parts<'_> {
        let Source { card, title, records, count } = self;
        Parts { card, title, records, count: *count }
    }
}

/// A title of up to 255 bytes: text, any bytes, what might be records or a trailer.
fn title(rng: &mut Rng) -> Vec<u8> {
    let any = rng.below(LONGEST_TITLE + 1);
    let length = rng.pick(&[0, 1, 2, 8, 40, 254, 255, any, any, any]);
    match rng.below(4) {
        0 => b"A title that says what is shown. ".iter().copied().cycle().take(length).collect(),
        1 => (0..length).map(|_| rng.pick(&[1, 2, 3, 8, 13, 14])).collect(),
        2 => trailer(CARD, 1).into_iter().cycle().take(length).collect(),
        _ => rng.bytes(length),
    }
}

/// A card, records and their count as a sound session has them, and a title.
fn source(rng: &mut Rng, records: usize) -> Source {
    let session =
        if rng.chance(30) { gen::zone_session(rng, records) } else { gen::session(rng, records) };
    let mut source = Source::of(parts(&session).expect("the session is sound"));
    let room = LONGEST_SESSION - SHORTEST_SESSION - source.records.len();
    source.title = title(rng);
    source.title.truncate(room);
    if source.count < 500 && rng.chance(2) {
        // As long as a session may be.
        let more = filling(Author::new(7), room - source.title.len());
        source.records.extend(more.parts().records);
        source.count += more.parts().count;
    }
    source
}

/// Changes one thing, most often for the worse.
fn damage(rng: &mut Rng, source: &mut Source) {
    let Source { card, title, records, count } = source;
    match rng.below(14) {
        0 => card.resize(rng.pick(&[0, CARD - 1, CARD + 1, CARD + TRAILER, 2 * CARD]), 7),
        1 => {
            let length = rng.pick(&[LONGEST_SESSION - SHORTEST_SESSION + 1, LONGEST_SESSION]);
            let longer = if rng.chance(50) { title } else { records };
            longer.resize(length, 8);
        }
        2 => {
            let wide = [1 << 16, 1 << 32, 1 << 63].map(|more| count.wrapping_add(more));
            let any = rng.pick(&wide);
            *count = rng.pick(&[4097, 4098, 0xFFFF, 0x1_0000, u64::MAX, any, any]);
        }
        3 => {
            if let Some(fuses) = card.get_mut(FUSES) {
                *fuses = rng.pick(&[1, 2, 3, 5, 8, 15, 0x87, 0x80, 255]);
            }
        }
        4 => title.resize(rng.pick(&[256, 257, 300, 512, 4096]), b'!'),
        5 => *count = count.saturating_add(1),
        6 => *count = count.saturating_sub(1),
        7 => records.truncate(rng.below(records.len() + 1)),
        8 | 9 if !records.is_empty() => {
            let at = rng.below(records.len());
            records[at] = rng.byte();
        }
        10 if card.len() >= CARD => gen::damage_staging(rng, card),
        11 => {
            // The title's last byte goes to the records, or their first to the title.
            if rng.chance(50) {
                records.splice(..0, title.pop());
            } else if !records.is_empty() {
                title.push(records.remove(0));
            }
            *count = count.saturating_add(rng.draw() % 2);
        }
        _ => {
            records.extend(gen::damaged_record(rng, &[4, 0, 1]));
            *count = count.saturating_add(1);
        }
    }
}

/// Writes with spaces too short, exact and long, each with other noise.
fn one_source(rng: &mut Rng, seed: &str, source: &Source, met: &mut Met) {
    let input = source.parts();
    let refusal = judged(input);
    expect(seed, input, refusal);
    met.note(&format!("refusal {refusal}"));
    let length = laid_out(input).len().min(LONGEST_SESSION);
    for space in [length, length + 1 + rng.below(MORE), length - 1, rng.below(length)] {
        let result = write(seed, input, refusal, noise(rng.below(1000), space));
        met.note("spaces of other noise");
        met.note_if("refusal 10", result == 10);
    }
    met.note_if("longest session", refusal == 0 && length == LONGEST_SESSION);
    met.note_if("longest title", refusal == 0 && input.title.len() == LONGEST_TITLE);
    met.note_if("most records", refusal == 0 && input.count == MOST_RECORDS.into());
}

#[test]
fn parts_from_the_generator() {
    let mut met = Met::default();
    for seed in seeds(3000) {
        let mut rng = Rng::new(seed);
        let name = seed.to_string();
        let few = rng.below(12);
        let some = rng.below(80);
        let mut records = rng.pick(&[0, few, few, few, some]);
        if rng.chance(1) {
            records = MOST_RECORDS.into();
        }
        let sound = source(&mut rng, records);
        one_source(&mut rng, &name, &sound, &mut met);
        let mut damaged = sound;
        damage(&mut rng, &mut damaged);
        while rng.chance(30) {
            damage(&mut rng, &mut damaged);
        }
        one_source(&mut rng, &name, &damaged, &mut met);
    }
    for refusal in [0, 1, 4, 5, 6, 7, 8, 9, 10, 11, 15, 16] {
        met.require(&format!("refusal {refusal}"), 50);
    }
    met.require("spaces of other noise", 20_000);
    met.require("longest session", 10);
    met.require("longest title", 200);
    met.require("most records", 3);
}

/// The sessions that were written, and what each was written from.
#[derive(Default)]
struct Written(HashMap<Vec<u8>, Source>);

impl Written {
    /// Writes on both, and notes whether the input is accepted; then no other input has given its
    /// session.
    fn add(&mut self, seed: &str, input: Parts, met: &mut Met) {
        let length = input.card.len() + input.title.len() + input.records.len() + TRAILER;
        let (result, session) = both::write_session(seed, input, noise(2, length));
        if result & 0xFF == 0 {
            met.note("accepted");
            let first = self.0.entry(session).or_insert_with(|| Source::of(input));
            assert!(first.parts() == input, "{seed}: {first:02X?} and {input:02X?}");
        } else {
            met.note("refused");
        }
    }

    /// Adds every way to divide some bytes into title and records, with every count that might be
    /// right and some more.
    fn divide(&mut self, seed: &str, card: &[u8], bytes: &[u8], met: &mut Met) {
        for at in 0..=bytes.len() {
            let (title, records) = bytes.split_at(at);
            for count in 0..=records.len() as u64 + 1 {
                self.add(seed, Parts { card, title, records, count }, met);
            }
        }
    }
}

#[test]
fn every_division_of_a_short_string() {
    const BYTES: [u8; 5] = [1, 3, 4, 16, 17];
    let (mut written, mut met) = (Written::default(), Met::default());
    let card = fresh_card(0);
    for length in 0..=4 {
        for n in 0..BYTES.len().pow(length) {
            let digit = |k| BYTES[n / BYTES.len().pow(k) % BYTES.len()];
            let bytes: Vec<u8> = (0..length).map(digit).collect();
            written.divide(FIXED, &card, &bytes, &mut met);
        }
    }
    met.require("accepted", 1000);
    met.require("refused", 5000);
    assert_eq!(Some(&(written.0.len() as u64)), met.0.get("accepted"));
}

#[test]
fn two_inputs_never_give_one_session() {
    let mut met = Met::default();
    for seed in seeds(300) {
        let mut rng = Rng::new(seed);
        let name = seed.to_string();
        let mut written = Written::default();
        let few = 1 + rng.below(4);
        let near = loop {
            let near = source(&mut rng, few);
            if near.records.len() <= 16 {
                break near;
            }
        };
        let card = &near.card;
        // The end of a title that might be records, and the records.
        let length = 1 + rng.below(8);
        let title: Vec<u8> = (0..length).map(|_| rng.pick(&[1, 2, 8, 14, 3, 7])).collect();
        let bytes = [&title[..], &near.records].concat();
        written.divide(&name, card, &bytes, &mut met);
        // The same a byte longer and shorter, and with two bytes exchanged.
        let mut other = bytes.clone();
        other.swap(0, bytes.len() / 2);
        written.divide(&name, card, &other, &mut met);
        written.divide(&name, card, &bytes[1..], &mut met);
        written.divide(&name, card, &[&bytes[..], &[8]].concat(), &mut met);
        // Its trailer once more, as the end of the title; and other cards.
        let sound = near.parts();
        written.add(&name, sound, &mut met);
        let end = trailer(CARD + sound.title.len(), sound.count as u16);
        let longer = [&sound.title[..sound.title.len().min(200)], &end].concat();
        written.add(&name, Parts { title: &longer, ..sound }, &mut met);
        for place in [0, rng.below(FUSES), FUSES - 1, FUSES, FLAG, FLAG + 1, FLAG + 2, CARD - 1] {
            let mut card = card.clone();
            card[place] = if place == FUSES { card[FUSES] ^ 4 } else { card[place] ^ 1 };
            written.add(&name, Parts { card: &card, ..sound }, &mut met);
        }
    }
    met.require("accepted", 1000);
    met.require("refused", 20_000);
}
