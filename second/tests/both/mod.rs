//! One call to the proved library and to the second implementation, compared byte for byte.
//!
//! Whatever is lent lies between guard bytes. A difference ends the test and prints the input.

use second::encoded;
use second::layout::{SHORTEST_LOG, TRAILER};
use second::writer::Parts;

use crate::proved;

const GUARD: usize = 24;

/// Bytes to be lent, with guard bytes on both sides.
struct Lent(Vec<u8>);

impl Lent {
    fn new(bytes: &[u8]) -> Lent {
        Lent([&[0x6D; GUARD], bytes, &[0x6D; GUARD]].concat())
    }

    fn bytes(&mut self) -> &mut [u8] {
        let end = self.0.len() - GUARD;
        &mut self.0[GUARD..end]
    }
}

/// What response and log spaces hold before a call.
fn filled(length: usize) -> Vec<u8> {
    (0..length).map(|i| (i as u8).wrapping_mul(29) ^ 0x5B).collect()
}

fn hex(bytes: &[u8]) -> String {
    bytes.iter().map(|byte| format!("{byte:02X}")).collect()
}

/// Fails with the call and its input if the results or any lent bytes differ.
fn agree(
    seed: &str,
    call: &str,
    input: &[(&str, &[u8])],
    results: (u64, u64),
    lent: &[(&Lent, &Lent)],
) {
    let place = lent.iter().position(|(proved, second)| proved.0 != second.0);
    if results.0 == results.1 && place.is_none() {
        return;
    }
    let mut report = format!("{call} differs, seed {seed}\n");
    for (name, bytes) in input {
        report += &format!("{name} ({} bytes): {}\n", bytes.len(), hex(bytes));
    }
    report += &format!("proved {:#X}, second {:#X}\n", results.0, results.1);
    if let Some(which) = place {
        let (proved, second) = lent[which];
        let at = proved.0.iter().zip(&second.0).position(|(a, b)| a != b);
        let at = at.expect("the lengths are the same");
        report += &format!(
            "lent bytes {which}, offset {}: proved {:02X}, second {:02X}\n",
            at as isize - GUARD as isize,
            proved.0[at],
            second.0[at]
        );
    }
    panic!("{report}");
}

/// Fails if a refused call has changed lent bytes or tells more than its number.
fn untouched(result: u64, before: &[&[u8]], after: &mut [&mut Lent]) {
    if result & 0xFF != 0 {
        assert_eq!(result >> 8, 0, "a refusal has its number alone");
        for (before, after) in before.iter().zip(after) {
            assert!(*before == after.bytes(), "a refusal changes nothing");
        }
    }
}

/// A single command on both; `card` and `state` are then as the call leaves them.
pub fn command(seed: &str, card: &mut [u8], state: &mut [u8], record: &[u8], space: usize) -> u64 {
    answered(seed, card, state, record, space).0
}

/// The same; answers the result and the response space.
pub fn answered(
    seed: &str,
    card: &mut [u8],
    state: &mut [u8],
    record: &[u8],
    space: usize,
) -> (u64, Vec<u8>) {
    let response = filled(space);
    let lend = || [&*card, &*state, record, &response].map(Lent::new);
    let (mut p, mut s) = (lend(), lend());
    let [pc, ps, pr, pa] = &mut p;
    let proved = proved::at88sc1608_command(pc.bytes(), ps.bytes(), pr.bytes(), pa.bytes());
    let [sc, ss, sr, sa] = &mut s;
    let second = encoded::at88sc1608_command(sc.bytes(), ss.bytes(), sr.bytes(), sa.bytes());
    let input =
        [("card", &*card), ("state", &*state), ("record", record), ("response space", &response)];
    let pairs: Vec<_> = p.iter().zip(&s).collect();
    agree(seed, "at88sc1608_command", &input, (proved, second), &pairs);
    let [pc, ps, _, pa] = &mut p;
    untouched(proved, &[card, state, &response], &mut [pc, ps, pa]);
    card.copy_from_slice(p[0].bytes());
    state.copy_from_slice(p[1].bytes());
    (proved, p[3].bytes().to_vec())
}

type Run = fn(&[u8], &mut [u8]) -> u64;

/// A session on both; answers the result and the log space.
pub fn run(seed: &str, session: &[u8], space: usize) -> (u64, Vec<u8>) {
    let runs = [proved::at88sc1608_run, encoded::at88sc1608_run];
    run_by(seed, "at88sc1608_run", runs, session, space)
}

/// The same in the box.
pub fn box_run(seed: &str, session: &[u8], space: usize) -> (u64, Vec<u8>) {
    let runs = [proved::at88sc1608_box_run, encoded::at88sc1608_box_run];
    run_by(seed, "at88sc1608_box_run", runs, session, space)
}

fn run_by(
    seed: &str,
    name: &str,
    [proved, second]: [Run; 2],
    session: &[u8],
    space: usize,
) -> (u64, Vec<u8>) {
    let log = filled(space);
    let (mut ps, mut ss) = (Lent::new(session), Lent::new(session));
    let (mut pl, mut sl) = (Lent::new(&log), Lent::new(&log));
    let proved = proved(ps.bytes(), pl.bytes());
    let second = second(ss.bytes(), sl.bytes());
    let call = format!("{name} with log space {space}");
    let lent = [(&ps, &ss), (&pl, &sl)];
    agree(seed, &call, &[("session", session)], (proved, second), &lent);
    untouched(proved, &[&log], &mut [&mut pl]);
    let written = (proved >> 8) as usize;
    assert!(pl.bytes()[written..] == log[written..], "slack is kept");
    (proved, pl.bytes().to_vec())
}

/// How many entries a sound log has, from header to header up to its final card. Its trailer plays
/// no part.
fn entries_in(log: &[u8]) -> u64 {
    let card_at = log.len() - SHORTEST_LOG;
    let (mut at, mut entries) = (0, 0);
    while at < card_at {
        let zone = usize::from([4, 5, 132, 133].contains(&log[at]));
        at += 3 + zone + usize::from(log[at + 1]) + 256 * usize::from(log[at + 2]);
        entries += 1;
    }
    entries
}

/// Fails if the result of a log read tells more than it should: of no log its number alone; where
/// there is no such answer, the number and the headers; and of a log as many headers as it has.
fn headers_told(seed: &str, log: &[u8], result: u64) {
    let (refusal, headers) = (result & 0xFF, result >> 24 & 0xFFFF);
    let alone = refusal | headers << 24;
    match refusal {
        0 | 14 => {
            assert_eq!(headers, entries_in(log), "seed {seed}, log {}", hex(log));
            assert!(refusal == 0 || result == alone, "14 has its number and the headers alone");
        }
        _ => assert_eq!(result, 13, "what is no log has its number alone"),
    }
}

/// A log read on both.
pub fn answer(seed: &str, log: &[u8], number: u64) -> u64 {
    let (mut pl, mut sl) = (Lent::new(log), Lent::new(log));
    let proved = proved::at88sc1608_answer(pl.bytes(), number);
    let second = encoded::at88sc1608_answer(sl.bytes(), number);
    let call = format!("at88sc1608_answer with number {number}");
    agree(seed, &call, &[("log", log)], (proved, second), &[(&pl, &sl)]);
    headers_told(seed, log, proved);
    proved
}

/// A session written by both into a space that holds these bytes; answers the result and the space.
pub fn write_session(seed: &str, input: Parts, space: &[u8]) -> (u64, Vec<u8>) {
    let Parts { card, title, records, count } = input;
    let lend = || [card, title, records, space].map(Lent::new);
    let (mut p, mut s) = (lend(), lend());
    let [pc, pt, pr, pw] = &mut p;
    let (pc, pt, pr) = (pc.bytes(), pt.bytes(), pr.bytes());
    let proved = proved::at88sc1608_write_session(pc, pt, pr, count, pw.bytes());
    let [sc, st, sr, sw] = &mut s;
    let (sc, st, sr) = (sc.bytes(), st.bytes(), sr.bytes());
    let second = encoded::at88sc1608_write_session(sc, st, sr, count, sw.bytes());
    let call = format!("at88sc1608_write_session with count {count}");
    let input = [("card", card), ("title", title), ("records", records), ("space", space)];
    let pairs: Vec<_> = p.iter().zip(&s).collect();
    agree(seed, &call, &input, (proved, second), &pairs);
    for (before, after) in [card, title, records].iter().zip(&mut p) {
        assert!(*before == after.bytes(), "what a session is written from is kept");
    }
    let [_, _, _, written] = &mut p;
    untouched(proved, &[space], &mut [&mut *written]);
    let length = (proved >> 8) as usize;
    assert!(written.bytes()[length..] == space[length..], "slack is kept");
    (proved, written.bytes().to_vec())
}

/// A trailer mended by both, by the proved library in two ways; answers the result and the session.
pub fn mend(seed: &str, session: &[u8]) -> (u64, Vec<u8>) {
    let [mut p, mut b, mut s] = [session; 3].map(Lent::new);
    let proved = proved::at88sc1608_mend(p.bytes());
    let by_search = proved::at88sc1608_mend_by_search(b.bytes());
    let second = encoded::at88sc1608_mend(s.bytes());
    let input = [("session", session)];
    agree(seed, "at88sc1608_mend", &input, (proved, second), &[(&p, &s)]);
    agree(seed, "at88sc1608_mend_by_search", &input, (by_search, second), &[(&b, &s)]);
    untouched(proved, &[session], &mut [&mut p]);
    let before = session.len().saturating_sub(TRAILER);
    assert!(p.bytes()[..before] == session[..before], "what is before the trailer is kept");
    (proved, p.bytes().to_vec())
}
