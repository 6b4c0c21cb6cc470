//! A card that is busy writing: what makes it so, for how long, what acts meanwhile, how the rest
//! is answered and logged, and how log space and logs are judged.

use super::*;

/// Records of every kind but 1, 13, 14 and 16, all of which would do something on a ready card.
pub fn not_heeded() -> Vec<Vec<u8>> {
    let mut records: Vec<Vec<u8>> = vec![
        vec![2],
        vec![3, 5],
        vec![4, 0xFE, 4],
        vec![4, 0, 0],
        vec![5, 0x1E, 4, 1, 2, 3, 4],
        vec![6, 0, 128],
        vec![7, 0x38, 2, 1, 2],
        vec![8],
        vec![9],
        vec![11],
        b"\x0C\x00rejected".to_vec(),
        b"\x0C\x01accepted".to_vec(),
        vec![15, 0x1E, 4, 1, 2, 3, 4],
    ];
    for selector in 0..16 {
        records.push([&[10, selector][..], &password(selector)].concat());
        records.push(vec![10, selector, 1, 2, 3]);
    }
    records
}

/// Every state of a ready card, at zone 3.
fn ready_states() -> impl Iterator<Item = [u8; STATE]> {
    let actives = (0..17).map(|a| if a < 16 { [1, a] } else { [0, 0] });
    actives.flat_map(|[some, selector]| (0..3).map(move |auth| on([3, some, selector, auth, 0])))
}

impl Table {
    fn busy(mut self, milliseconds: u8) -> Table {
        self.state[4] = milliseconds;
        self
    }

    /// The busy time that a record leaves.
    fn busy_after(&mut self, record: &[u8]) -> u8 {
        let (reply, _) = self.at_once(record);
        assert_eq!(reply.kind, record[0]);
        self.state[4]
    }

    /// Whether a record makes this card busy; then it is for 10 ms.
    fn gets_busy(mut self, record: &[u8]) -> bool {
        let busy = self.busy_after(record);
        assert!(busy == 0 || busy == 10, "{record:02X?}: {busy}");
        busy == 10
    }
}

#[test]
fn zone_writes_make_it_busy_forbidden_or_not() {
    let (mut stored, mut kept) = (0, 0);
    for (fuses, register) in [7, 6, 4, 0].into_iter().flat_map(|f| (0..=255).map(move |r| (f, r))) {
        for selector in [0, 5, 7, 13] {
            for kind in [5, 15] {
                let mut t = Table::new(fuses).register(register).active(selector).set(0, 0);
                assert_eq!(t.busy_after(&[kind, 0, 1, 0xAB]), 10);
                match t.card[0] {
                    0 => kept += 1,
                    _ => stored += 1,
                }
            }
        }
    }
    assert!(stored > 1000 && kept > 1000);
    // Bytes that change nothing take their time too.
    assert!(Table::new(7).gets_busy(&[5, 0, 1, 0xFF]));
    assert!(Table::new(7).gets_busy(&[15, 0, 1, 0xFF]));
}

#[test]
fn configuration_writes_make_it_busy_forbidden_or_not() {
    for fuses in [7, 6, 4, 0] {
        for address in 0..128 {
            assert!(Table::new(fuses).gets_busy(&[7, address, 1, 0x5A]));
            assert!(Table::new(fuses).active(7).gets_busy(&[7, address, 2, 0x5A, 0xA5]));
        }
    }
    let mut forbidden = Table::new(0);
    assert_eq!(forbidden.busy_after(&[7, 0x00, 1, 0x5A]), 10);
    assert_eq!(forbidden.card, fresh_card(0));
}

#[test]
fn a_fuse_makes_it_busy_only_if_it_is_blown() {
    for fuses in [7, 6, 4, 0] {
        assert!(!Table::new(fuses).gets_busy(&[9]));
        for selector in 0..16 {
            let mut t = Table::new(fuses).active(selector);
            let blown = selector == 7 && fuses != 0;
            assert_eq!(t.busy_after(&[9]), if blown { 10 } else { 0 }, "{selector} at {fuses}");
            assert_eq!(t.card[FUSES] != fuses, blown);
        }
    }
}

#[test]
fn the_last_fuse_makes_it_busy_too() {
    // What counts is the card before the record: F = 4, then F = 0.
    let mut t = Table::new(4).active(7);
    assert_eq!((t.busy_after(&[9]), t.card[FUSES]), (10, 0));
    t.at_once(&[13, 10]);
    assert_eq!((t.busy_after(&[9]), t.card[FUSES]), (0, 0));
}

#[test]
fn a_password_makes_it_busy_unless_its_counter_is_used_up() {
    for selector in 0..16 {
        for value in 0..=255 {
            for bytes in [password(selector), [1, 2, 3]] {
                let record = [&[10, selector][..], &bytes].concat();
                let t = one_counter(selector.into(), value);
                assert_eq!(t.gets_busy(&record), value != 0, "{selector}: {value:02X}");
            }
        }
        // Of its own counter, whatever the other ones hold.
        let others = (0..17).filter(|&place| place != usize::from(selector));
        let t = others.fold(Table::new(0), |t, place| t.set(CONFIGURATION + COUNTERS[place], 0));
        assert!(t.gets_busy(&[10, selector, 1, 2, 3]));
    }
}

#[test]
fn authentication_makes_it_busy_unless_used_up_or_not_begun() {
    for authentication in 0..3 {
        let with = |mut t: Table| {
            t.state[3] = authentication;
            t
        };
        for value in 0..=255 {
            let t = with(one_counter(16, value));
            assert_eq!(t.gets_busy(&[11]), value != 0, "{value:02X}");
            // The counter is nothing to a verdict.
            for verdict in [b"\x0C\x00rejected", b"\x0C\x01accepted"] {
                let t = with(one_counter(16, value));
                assert_eq!(t.gets_busy(verdict), authentication == 1);
            }
        }
    }
}

#[test]
fn nothing_else_makes_it_busy() {
    let records: [&[u8]; 10] = [
        &[1],
        &[2],
        &[3, 4],
        &[4, 0, 0],
        &[6, 0, 128],
        &[8],
        &[13, 1],
        &[13, 255],
        &[14],
        &[16, 0, 0],
    ];
    for (fuses, state) in [7, 6, 4, 0].into_iter().flat_map(|f| ready_states().map(move |s| (f, s)))
    {
        for record in records {
            let t = Table { card: fresh_card(fuses), state };
            assert!(!t.gets_busy(record), "{record:02X?}");
        }
    }
}

#[test]
fn time_passes() {
    for busy in 0..=10u8 {
        for milliseconds in 1..=255 {
            let mut t = Table::new(6).active(3).granted().busy(busy);
            let expected = t.clone().busy(busy.saturating_sub(milliseconds));
            let (reply, _) = t.at_once(&[13, milliseconds]);
            assert_eq!(reply, Reply { kind: 13, length: 0, tries: 0 });
            assert_eq!(t, expected, "{milliseconds} of {busy}");
        }
        let state = Table::new(6).busy(busy).state;
        assert_eq!(refused(&fresh_card(6), &state, &[13, 0], 1), 7);
        assert_eq!(refused(&fresh_card(6), &state, &[13], 1), 8);
        assert_eq!(refused(&fresh_card(6), &state, &[13, 1, 1], 1), 9);
    }
    for (milliseconds, left) in [(1, 9), (9, 1), (10, 0), (11, 0), (255, 0)] {
        let mut t = Table::new(7);
        assert_eq!(t.busy_after(&[5, 0, 1, 0xAB]), 10);
        assert_eq!(t.busy_after(&[13, milliseconds]), left);
    }
    // Waits add up, and time that a ready card lets pass is not kept.
    let mut t = Table::new(7);
    t.at_once(&[13, 255]);
    assert_eq!(t.busy_after(&[5, 0, 1, 0xAB]), 10);
    assert_eq!([3, 3, 3, 3].map(|n| t.busy_after(&[13, n])), [7, 4, 1, 0]);
}

#[test]
fn polls_tell_busy_from_ready() {
    for busy in 0..=10 {
        let mut t = Table::new(0).active(12).busy(busy);
        let before = t.clone();
        let (reply, response) = t.at_once(&[14]);
        assert_eq!(reply, Reply { kind: 14, length: 1, tries: 0 });
        assert_eq!(response, [u8::from(busy > 0)]);
        assert_eq!(t, before);
        // The answer needs its space in either case.
        assert_eq!(refused(&before.card, &before.state, &[14], 0), 10);
        assert_eq!(refused(&before.card, &before.state, &[14, 0], 0), 9);
    }
}

#[test]
fn power_ends_it() {
    for busy in 0..=10 {
        for state in ready_states() {
            let mut t = Table { card: fresh_card(4), state }.busy(busy);
            let (reply, _) = t.at_once(&[1]);
            assert_eq!(reply, Reply { kind: 1, length: 0, tries: 0 });
            assert_eq!((t.state, t.card), (NONE, fresh_card(4)));
        }
    }
    // A reset does not.
    let mut t = Table::new(4).busy(10);
    assert_eq!((t.at_once(&[2]).0.kind, t.state[4]), (130, 10));
}

#[test]
fn every_other_record_does_nothing_while_busy() {
    for busy in 1..=10 {
        for (fuses, state) in [7, 0].into_iter().flat_map(|f| ready_states().map(move |s| (f, s))) {
            for record in not_heeded() {
                let mut t = Table { card: fresh_card(fuses), state }.busy(busy);
                let before = t.clone();
                let (reply, _) = t.at_once(&record);
                let expected = Reply { kind: record[0] + 128, length: 0, tries: 0 };
                assert_eq!(reply, expected, "{record:02X?}");
                assert_eq!(t, before, "{record:02X?}");
            }
        }
    }
}

#[test]
fn it_acts_again_when_the_time_is_over() {
    for record in not_heeded() {
        let mut waited = Table::new(6).active(7);
        waited.state[3] = 1;
        let mut ready = waited.clone();
        waited.at_once(&[5, 0, 1, 0xAB]);
        ready.reply(&[5, 0, 1, 0xAB]);
        // The busy time is neither lengthened nor shortened by what is met.
        for milliseconds in [9, 1] {
            assert_eq!(waited.at_once(&record).0.kind, record[0] + 128);
            assert_eq!(waited.at_once(&[14]).1, [1]);
            waited.at_once(&[13, milliseconds]);
        }
        assert_eq!(waited, ready);
        assert_eq!(waited.at_once(&record), ready.at_once(&record));
        assert_eq!(waited, ready);
    }
}

#[test]
fn busy_times_up_to_ten_are_states() {
    for state in ready_states() {
        for busy in 0..=255 {
            let t = Table { card: fresh_card(4), state }.busy(busy);
            for record in [&[1][..], &[8], &[13, 1], &[14], &[16, 0, 0], &[17], &[]] {
                if busy > 10 {
                    assert_eq!(refused(&t.card, &t.state, record, 1), 12, "{busy}");
                }
            }
            if busy <= 10 {
                t.clone().at_once(&[13, 1]);
            }
        }
    }
    for length in (0..20).filter(|&length| length != STATE) {
        for byte in [0, 1, 10] {
            let mut state = vec![0; length];
            state.iter_mut().skip(4).for_each(|b| *b = byte);
            assert_eq!(refused(&fresh_card(4), &state, &[14], 1), 12, "{length}");
        }
    }
}

#[test]
fn refusals_while_busy_keep_their_order() {
    let busy = Table::new(6).busy(10).state;
    let above = Table::new(6).busy(11).state;
    let (card, odd) = (fresh_card(6), fresh_card(5));
    #[rustfmt::skip]
    let bad = [
        (&[][..], 8), (&[0], 6), (&[17], 6), (&[132, 0, 1], 6), (&[255], 6),
        (&[3], 8), (&[3, 8], 7), (&[4, 0], 8), (&[5, 0, 0], 7), (&[5, 0, 17], 7),
        (&[5, 0, 2, 1], 8), (&[6, 0x7F, 2], 7), (&[7, 0x80, 1, 1], 7), (&[10, 16, 1, 2, 3], 7),
        (&[10, 0, 1, 2], 8), (&[12, 2], 7), (&[12, 1, 0], 8), (&[13], 8), (&[13, 0], 7),
        (&[1, 0], 9), (&[2, 0], 9), (&[4, 0, 0, 0], 9), (&[8, 8], 9), (&[13, 1, 1], 9),
        (&[14, 0], 9), (&[15, 0, 9], 7), (&[15, 0, 2, 1], 8), (&[15, 0, 1, 1, 1], 9), (&[16, 0], 8),
        (&[16, 0, 0, 0], 9),
    ];
    for (record, number) in bad {
        assert_eq!(refused(&odd[1..], &above, record, 0), 11);
        assert_eq!(refused(&odd, &above, record, 0), 5);
        assert_eq!(refused(&card, &above, record, 0), 12);
        assert_eq!(refused(&card, &busy, record, 0), number, "{record:02X?}");
        assert_eq!(refused(&card, &NONE, record, 0), number, "{record:02X?}");
    }
}

#[test]
fn no_space_is_too_short_for_what_is_ignored() {
    for record in [&[2][..], &[4, 0, 1], &[4, 0, 0], &[6, 0, 128], &[8]] {
        assert_eq!(refused(&fresh_card(6), &NONE, record, 0), 10);
        for space in 0..300 {
            let (mut card, mut response) = (fresh_card(6), vec![0xEE; space]);
            let mut state = on([2, 1, 9, 1, 1]);
            let result = encoded::at88sc1608_command(&mut card, &mut state, record, &mut response);
            assert_eq!(result, u64::from(record[0] + 128) << 32);
            assert_eq!((card, state), (fresh_card(6), on([2, 1, 9, 1, 1])));
            assert!(response.iter().all(|&b| b == 0xEE));
        }
    }
}

#[test]
fn no_tries_are_told_of_what_is_ignored() {
    for record in [&[10, 4, 0xA4, 0x5A, 0x3C][..], &[10, 12, 1, 2, 3], &[11]] {
        let mut t = Table::new(6);
        let told = t.at_once(record).0;
        assert!(told.kind == record[0] && told.tries > 0);
        let not_told = t.at_once(record).0;
        assert_eq!(not_told, Reply { kind: record[0] + 128, length: 0, tries: 0 });
    }
}

/// The entries of a session's log, as bytes, and the whole log's length.
pub fn logged(session: &[u8]) -> (Vec<u8>, usize) {
    let mut log = vec![0xEE; 70_000];
    let length = run(session, &mut log).unwrap();
    assert!(log[length..].iter().all(|&b| b == 0xEE));
    (log[..length - SHORTEST_LOG].to_vec(), length)
}

#[test]
fn what_is_ignored_is_logged_with_its_kind_and_128() {
    let session = Author::new(7)
        .poll()
        .write(0, b"new")
        .poll()
        .read(0, 3)
        .write(0, b"not")
        .reset()
        .wait(9)
        .poll()
        .read_fuses()
        .wait(1)
        .poll()
        .read(0, 3)
        .session();
    #[rustfmt::skip]
    let entries = [
        14, 1, 0, 0,
        5, 0, 0, 0,
        14, 1, 0, 1,
        132, 0, 0, 0,
        133, 0, 0, 0,
        130, 0, 0,
        13, 0, 0,
        14, 1, 0, 1,
        136, 0, 0,
        13, 0, 0,
        14, 1, 0, 0,
        4, 3, 0, 0, b'n', b'e', b'w',
    ];
    assert_eq!(logged(&session), (entries.to_vec(), SHORTEST_LOG + entries.len()));
    let lines = "0 0E 00\n1 05\n2 0E 01\n3 84\n4 85\n5 82\n6 0D\n7 0E 01\n8 88\n9 0D\n10 0E 00\n\
                 11 04 6E 65 77\n";
    assert_eq!(listing(&session), format!("{lines}{ENDING}"));
}

#[test]
fn every_kind_is_logged_as_it_was_met() {
    for record in not_heeded() {
        let ready = Author::new(7).record(&record).session();
        assert_eq!(logged(&ready).0[0], record[0]);
        let busy = Author::new(7).begin().record(&record).session();
        assert_eq!(logged(&busy).0[..6], [11, 0, 0, record[0] + 128, 0, 0]);
    }
    for record in [&[1][..], &[13, 1], &[14], &[16, 0, 0]] {
        let busy = Author::new(7).begin().record(record).session();
        assert_eq!(logged(&busy).0[3], record[0]);
    }
}

#[test]
fn sessions_start_ready_and_power_ends_it() {
    let session = Author::new(0).poll().begin().poll().power().poll().read_fuses().session();
    let entries = [14, 1, 0, 0, 11, 0, 0, 14, 1, 0, 1, 1, 0, 0, 14, 1, 0, 0, 8, 1, 0, 0];
    assert_eq!(logged(&session).0, entries);
    // An ignored record changes no card that the log ends with.
    let ignored = Author::new(7).wrong(3).wrong(3).right(7).write_fuses().session();
    assert_eq!(
        listing(&ignored),
        "0 0A\n1 8A\n2 8A\n3 89\n\
        tries 8 8 8 7 8 8 8 8 8 8 8 8 8 8 8 8 8\nfuses 07\n"
    );
}

#[test]
fn log_space_is_judged_as_if_all_were_answered() {
    // What an entry has without its response, and how long that would be.
    let ignored =
        [(vec![4, 0, 0], 4, 256), (vec![2], 3, 4), (vec![6, 0, 128], 3, 128), (vec![8], 3, 1)];
    for (record, entry, response) in ignored {
        for times in 1..4 {
            let author = Author::new(7).begin();
            let session = author.times(times, |a| a.record(&record)).session();
            let written = SHORTEST_LOG + ENTRY_HEADER + entry * times;
            let full = written + response * times;
            assert_eq!(check(&session).map(|c| c.log_space), Ok(full));
            for space in [0, SHORTEST_LOG, written - 1, written, full - 1] {
                let mut log = vec![0xEE; space];
                assert_eq!(run(&session, &mut log), Err(Refusal::Space), "{space}");
                assert!(log.iter().all(|&b| b == 0xEE));
            }
            for space in [full, full + 1, full + 300] {
                let mut log = vec![0xEE; space];
                assert_eq!(run(&session, &mut log), Ok(written));
                assert!(log[written..].iter().all(|&b| b == 0xEE));
                assert_eq!(log::answer(&log[..written], times as u64), Ok(&[][..]));
            }
        }
    }
}

#[test]
fn a_log_of_a_busy_card_is_read() {
    let session = Author::new(6).right(7).read(0, 0).poll().ready().read_fuses().session();
    let mut log = vec![0; 3000];
    let length = run(&session, &mut log).unwrap();
    let answer = |number| log::answer(&log[..length], number);
    assert_eq!([0, 1, 3].map(answer), [Ok(&[][..]); 3]);
    assert_eq!((answer(2), answer(4)), (Ok(&[1][..]), Ok(&[6][..])));
    assert_eq!(answer(5), Err(Refusal::NoSuchAnswer));
    assert_eq!(encoded::at88sc1608_answer(&log[..length], 1), 5 << 24 | 7 << 40);
    assert_eq!(encoded::at88sc1608_answer(&log[..length], 2), 1 << 8 | 5 << 24 | 10 << 40);
}

#[test]
fn every_kind_of_entry_has_its_lengths() {
    for kind in 0..=255 {
        let zone = [4, 5, 132, 133].contains(&kind).then_some(6);
        for length in (0..=300).chain([512, 0x0400, 0x8000, 0xFFFF]) {
            let fits = match kind {
                2 => length == 4,
                4 => (1..=256).contains(&length),
                6 => (1..=128).contains(&length),
                8 | 14 => length == 1,
                1..=16 => length == 0,
                // Any kind but 1 and 16.
                130..=143 => length == 0,
                _ => false,
            };
            let log = log_of(&entry(kind, zone, &vec![0; length]), 1, ZONED);
            let found = log::answer(&log, 0).map(<[u8]>::len);
            let expected = if fits { Ok(length) } else { Err(Refusal::Log) };
            assert_eq!(found, expected, "kind {kind}, length {length}");
        }
    }
}

#[test]
fn two_sealed_cards_are_busy_at_the_same_moments() {
    let mut rng = gen::Rng::new(4);
    let mut ignored = 0;
    for k in 0..400 {
        let closed = [gen::Closed::Password, gen::Closed::Authentication][k % 2];
        let mut tables = gen::sealed_pair(&mut rng, closed).map(|card| Table { card, state: NONE });
        for _ in 0..100 {
            let record = gen::record(&mut rng, &tables[0].card, &tables[0].state, 60);
            if gen::opens(closed, &record) {
                continue;
            }
            let [one, other] = &mut tables;
            let answer = one.at_once(&record);
            ignored += u32::from(answer.0.kind >= 128);
            assert_eq!(answer, other.at_once(&record), "{closed:?}: {record:02X?}");
            assert_eq!(one.state, other.state);
        }
    }
    assert!(ignored > 1000);
}

#[test]
fn generated_sessions_meet_ready_and_busy_cards() {
    let mut rng = gen::Rng::new(7);
    let mut met = [0; 256];
    for _ in 0..800 {
        let session = gen::session(&mut rng, 60);
        let mut log = vec![0; 30_000];
        let length = run(&session, &mut log).unwrap();
        for entry in log::Log::open(&log[..length]).unwrap().entries() {
            met[usize::from(entry.unwrap().kind)] += 1;
        }
    }
    for kind in (1..=16).chain(130..=143) {
        assert!(met[kind] >= 50, "kind {kind}: {}", met[kind]);
    }
    let ignored: u32 = met[130..=143].iter().sum();
    let all: u32 = met.iter().sum();
    assert!((all / 10..all / 2).contains(&ignored), "{ignored} of {all}");
}
