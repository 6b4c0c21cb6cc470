//! Busy cards on both: every kind at every busy time, every wait, what makes a card busy and what
//! does not, refusals meanwhile, sessions and their logs, two sealed cards.

use second::author::{fresh_card, on, password, Author};
use second::gen::{self, Closed, Rng};
use second::layout::{AAC, CONFIGURATION, FLAG, FUSES, SHORTEST_LOG, STATE};
use second::{author, session};

use crate::{accepted, both, busy_if, marked_card, seeds, states, Met, FIXED, STAGES};

/// Records of every kind, some of them in several ways.
pub fn some_of_each() -> Vec<Vec<u8>> {
    let plain: [&[u8]; 26] = [
        &[1],
        &[2],
        &[3, 6],
        &[4, 0xFE, 4],
        &[4, 0, 0],
        &[5, 0x1E, 4, 1, 2, 3, 4],
        &[6, 0, 128],
        &[6, 0x7F, 1],
        &[7, 0x00, 1, 9],
        &[7, 0x3E, 4, 1, 2, 3, 4],
        &[8],
        &[9],
        &[10, 7, 1, 2, 3],
        &[10, 13, 1, 2, 3],
        &[11],
        b"\x0C\x00rejected",
        b"\x0C\x01accepted",
        &[13, 1],
        &[13, 9],
        &[13, 10],
        &[13, 255],
        &[14],
        &[15, 0x1E, 4, 1, 2, 3, 4],
        &[15, 0xFF, 1, 9],
        &[16, 8, 0x5A],
        &[16, 255, 0xFF],
    ];
    let right = [0, 7, 13, 15].map(|selector| [&[10, selector][..], &password(selector)].concat());
    plain.map(<[u8]>::to_vec).into_iter().chain(right).collect()
}

/// How long the response is, if the record is answered in full.
pub fn response_length(record: &[u8]) -> usize {
    match *record {
        [2] => 4,
        [4, _, 0] => 256,
        [4 | 6, _, count] => count.into(),
        [8] | [14] => 1,
        _ => 0,
    }
}

/// Whether a card is to be too busy for a record.
fn too_busy(state: [u8; STATE], record: &[u8]) -> bool {
    state[4] > 0 && !matches!(record[0], 1 | 13 | 14 | 16)
}

/// The busy time that is to follow on a record, if the card is not too busy for it.
fn busy_after(card: &[u8], state: [u8; STATE], record: &[u8]) -> u8 {
    match *record {
        [13, milliseconds] => state[4].saturating_sub(milliseconds),
        [14] | [16, ..] => state[4],
        [5 | 7 | 15, ..] => 10,
        [9] => busy_if(state[1..3] == [1, 7] && card[FUSES] != 0),
        [10, selector, ..] => busy_if(card[author::counter(selector)] != 0),
        [11] => busy_if(card[AAC] != 0),
        [12, ..] => busy_if(state[3] == 1),
        _ => 0,
    }
}

/// One record on a card, with no space and with enough: what is to come of it.
fn meet(card: &[u8], state: [u8; STATE], record: &[u8]) {
    let needed = response_length(record);
    for space in [0, needed] {
        let (mut card_then, mut state_then) = (card.to_vec(), state);
        let result = both::command(FIXED, &mut card_then, &mut state_then, record, space);
        if too_busy(state, record) {
            assert_eq!(result, accepted(record[0] + 128, 0, 0), "{record:02X?}");
            assert!(card_then == card && state_then == state, "{record:02X?}");
        } else if space < needed {
            assert_eq!(result, 10, "{record:02X?}");
        } else {
            let tries = (result >> 24) as u8;
            assert_eq!(result, accepted(record[0], needed, tries.into()), "{record:02X?}");
            assert_eq!(state_then[4], busy_after(card, state, record), "{record:02X?}");
        }
    }
}

#[test]
fn every_kind_at_every_busy_time() {
    for (fuses, counters) in STAGES.into_iter().flat_map(|f| [(f, 0x80), (f, 0x00)]) {
        let mut card = marked_card(fuses);
        for selector in 0..16 {
            card[author::counter(selector)] = counters;
        }
        card[AAC] = counters;
        for (mut state, busy) in states(3).into_iter().flat_map(|s| (0..=10).map(move |b| (s, b))) {
            state[4] = busy;
            for record in some_of_each() {
                meet(&card, state, &record);
            }
        }
    }
}

#[test]
fn every_wait_at_every_busy_time() {
    for busy in 0..=255 {
        for milliseconds in 0..=255 {
            let mut state = on([2, 1, 9, 1, busy]);
            let record = [13, milliseconds];
            let result = both::command(FIXED, &mut marked_card(4), &mut state, &record, 0);
            if busy > 10 {
                assert_eq!(result, 12);
            } else if milliseconds == 0 {
                assert_eq!(result, 7);
            } else {
                assert_eq!(result, accepted(13, 0, 0));
                assert_eq!(state, on([2, 1, 9, 1, busy.saturating_sub(milliseconds)]));
            }
        }
    }
}

#[test]
fn every_length_and_fifth_byte_of_a_state() {
    for record in some_of_each() {
        for (length, byte) in (0..=12).flat_map(|length| (0..=255).map(move |byte| (length, byte)))
        {
            let mut state = on([1, 1, 7, 1, byte]).to_vec();
            state.resize(length, 0);
            let result = both::command(FIXED, &mut marked_card(6), &mut state, &record, 256);
            assert_eq!(result == 12, length != STATE || byte > 10, "{length}, {byte}");
            assert_eq!(result & 0xFF == 0, result != 12);
        }
    }
}

#[test]
fn every_set_of_faults_in_a_call() {
    #[rustfmt::skip]
    let bad: [(&[u8], u64); 7] = [
        (&[17], 6), (&[132], 6), (&[3, 8], 7), (&[5, 0, 17], 7), (&[13, 0], 7), (&[12, 2], 7),
        (&[15, 0, 9], 7),
    ];
    for (faults, busy) in (0..128).flat_map(|faults| [0, 1, 10].map(|busy| (faults, busy))) {
        let has = |bit: u32| faults >> bit & 1 == 1;
        for (bad, number) in bad {
            let mut card = fresh_card(if has(1) { 5 } else { 6 });
            card[FLAG] = if has(6) { 0xFD } else { 0xFF };
            card.truncate(card.len() - usize::from(has(0)));
            let mut state = on([0, 0, 0, 0, if has(2) { 11 + busy } else { busy }]);
            let mut record = if has(3) { bad.to_vec() } else { vec![8] };
            record.resize(record.len() + usize::from(has(4)), 0);
            let space = usize::from(!has(5));
            let result = both::command(FIXED, &mut card, &mut state, &record, space);
            let refusals = [(0, 11), (1, 5), (6, 16), (2, 12), (3, number), (4, 9)];
            let first = refusals.into_iter().find(|&(bit, _)| has(bit));
            let expected = match first {
                Some((_, number)) => number,
                None if busy > 0 => accepted(136, 0, 0),
                None if has(5) => 10,
                None => accepted(8, 1, 0),
            };
            assert_eq!(result, expected, "{record:02X?} while busy for {busy}");
        }
    }
}

#[test]
fn every_cut_of_a_record_while_busy() {
    for record in some_of_each() {
        for (length, busy) in (0..record.len()).flat_map(|length| [(length, 0), (length, 7)]) {
            let mut state = on([0, 0, 0, 0, busy]);
            let cut = &record[..length];
            let result = both::command(FIXED, &mut fresh_card(6), &mut state, cut, 256);
            assert_eq!(result, 8, "{cut:02X?}");
        }
    }
}

/// Runs a session with its log space and one byte less, and reads all answers of its log.
fn run_and_read(session: &[u8]) {
    let checked = session::check(session).expect("the session is sound");
    assert_eq!(both::run(FIXED, session, checked.log_space - 1).0, 10);
    let (result, space) = both::run(FIXED, session, checked.log_space);
    assert_eq!(result & 0xFF, 0);
    let log = &space[..(result >> 8) as usize];
    if log.len() < checked.log_space {
        assert_eq!(both::run(FIXED, session, log.len()).0, 10);
    }
    for number in 0..=u64::from(checked.count) {
        let refusal = both::answer(FIXED, log, number) & 0xFF;
        assert_eq!(refusal, if number < checked.count.into() { 0 } else { 14 });
    }
}

#[test]
fn every_pair_of_records_in_a_session() {
    let between: [&[u8]; 5] = [&[13, 1], &[13, 9], &[13, 10], &[1], &[14]];
    for fuses in STAGES {
        let plain = Author::with_card(marked_card(fuses));
        // Write password 7 is active and authentication begun.
        let begun = plain.clone().right(7).ready().begin().ready();
        for first in some_of_each() {
            for author in [&plain, &begun].map(|author| author.clone().record(&first)) {
                for second in some_of_each() {
                    run_and_read(&author.clone().record(&second).poll().session());
                    for between in between {
                        run_and_read(&author.clone().record(between).record(&second).session());
                    }
                }
            }
        }
    }
}

#[test]
fn log_space_at_every_length() {
    let author = Author::new(7).write(0, &[1]).read(0, 9).reset().read_configuration(0x20, 5);
    let session = author.poll().wait(10).read_fuses().session();
    // Seven headers, two zones, two responses; three responses that are not given.
    let written = SHORTEST_LOG + 7 * 3 + 2 + 1 + 1;
    let full = written + 9 + 4 + 5;
    for space in 0..full + 20 {
        let (result, _) = both::run(FIXED, &session, space);
        assert_eq!(result, if space < full { 10 } else { (written as u64) << 8 }, "{space}");
    }
}

#[test]
fn two_sealed_cards_are_busy_at_the_same_moments() {
    let mut met = Met::default();
    for (seed, closed) in
        seeds(400).flat_map(|s| [(s, Closed::Password), (s, Closed::Authentication)])
    {
        let mut rng = Rng::new(seed);
        let [mut one, mut other] = gen::sealed_pair(&mut rng, closed);
        let mut states = [[0; STATE]; 2];
        for call in 0..60 {
            let record = gen::record(&mut rng, &one, &states[0], 60);
            if gen::opens(closed, &record) {
                continue;
            }
            let name = format!("{seed}, {closed:?}, call {call}");
            let space = rng.pick(&[256, 256, 16, 1, 0]);
            let answer = both::answered(&name, &mut one, &mut states[0], &record, space);
            met.note_if("met while busy", answer.0 >> 32 >= 128);
            let answer_too = both::answered(&name, &mut other, &mut states[1], &record, space);
            assert_eq!(answer, answer_too, "{name}: {record:02X?}");
            assert_eq!(states[0], states[1], "{name}: {record:02X?}");
        }
        let secret = 2 * 256..3 * 256;
        met.note_if("different to the end", one[secret.clone()] != other[secret]);
        assert_eq!(one[CONFIGURATION..CONFIGURATION + 0x40], other[CONFIGURATION..][..0x40]);
    }
    met.require("met while busy", 1000);
    met.require("different to the end", 300);
}
