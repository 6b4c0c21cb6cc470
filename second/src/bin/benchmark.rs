//! Measures the proved library against the second implementation on the same sessions and buffers.
//!
//! The two take turns in several rounds; the best round of each counts. A ratio above 1 means that
//! the proved library is the faster one. A record that makes the card busy is followed by a power
//! cycle, which older libraries know too, or by a wait, unless the row is about busy cards.
//! Rows of calls that take long have fewer rounds and tell milliseconds.

#[path = "../../tests/proved/mod.rs"]
mod proved;

use std::hint::black_box;
use std::time::{Duration, Instant};

use second::author::Author;
use second::encoded;
use second::gen::{self, Rng};
use second::layout::{LONGEST_SESSION, MOST_RECORDS, SHORTEST_SESSION};
use second::writer::{self, Parts};

const ROUNDS: usize = 9;
const ROUND: Duration = Duration::from_millis(40);

/// The rounds of calls that take far longer than a round.
const FEW_ROUNDS: usize = 3;

type Run = fn(&[u8], &mut [u8]) -> u64;
type Answer = fn(&[u8], u64) -> u64;
type Write = fn(&[u8], &[u8], &[u8], u64, &mut [u8]) -> u64;
type Mend = fn(&mut [u8]) -> u64;

const RUNS: [Run; 2] = [proved::at88sc1608_run, encoded::at88sc1608_run];
const BOX_RUNS: [Run; 2] = [proved::at88sc1608_box_run, encoded::at88sc1608_box_run];
const ANSWERS: [Answer; 2] = [proved::at88sc1608_answer, encoded::at88sc1608_answer];
const WRITES: [Write; 2] = [proved::at88sc1608_write_session, encoded::at88sc1608_write_session];

/// The second implementation has one way, the proved library two.
const MENDS: [Mend; 3] =
    [proved::at88sc1608_mend, encoded::at88sc1608_mend, proved::at88sc1608_mend_by_search];

/// Seconds per call of `work`, over some turns.
fn seconds(turns: u32, mut work: impl FnMut()) -> f64 {
    let start = Instant::now();
    for _ in 0..turns {
        work();
    }
    start.elapsed().as_secs_f64() / f64::from(turns)
}

/// Best seconds per call of the two sides of `work`.
fn best(work: impl FnMut(usize)) -> [f64; 2] {
    best_of(ROUNDS, 3, work)
}

/// The same of more sides and of some rounds, after some calls that tell how many make a round.
fn best_of<const SIDES: usize>(
    rounds: usize,
    calls: u32,
    mut work: impl FnMut(usize),
) -> [f64; SIDES] {
    let turns: [u32; SIDES] = std::array::from_fn(|side| {
        let once = seconds(calls, || work(side));
        (ROUND.as_secs_f64() / once).clamp(1.0, 1e7) as u32
    });
    let mut best = [f64::INFINITY; SIDES];
    for _ in 0..rounds {
        for side in 0..SIDES {
            best[side] = best[side].min(seconds(turns[side], || work(side)));
        }
    }
    best
}

fn heading() {
    println!(
        "{:<34} {:<10} {:>14} {:>14} {:>7}",
        "workload", "per second", "proved", "second", "ratio"
    );
}

fn row(name: &str, unit: &str, items: f64, [proved, second]: [f64; 2]) {
    let (proved, second) = (items / proved, items / second);
    let ratio = proved / second;
    println!("{name:<34} {unit:<10} {proved:>14.0} {second:>14.0} {ratio:>7.2}");
}

/// The row of a call that takes long.
fn slow_row(name: &str, [proved, second]: [f64; 2]) {
    let ratio = second / proved;
    let (proved, second) = (1e3 * proved, 1e3 * second);
    println!("{name:<34} {:<10} {proved:>14.3} {second:>14.3} {ratio:>7.1}", "ms a call");
}

fn count(session: &[u8]) -> u64 {
    let at = session.len() - 4;
    u64::from(session[at]) + 256 * u64::from(session[at + 1])
}

/// Tells that a row is left out: an older library refuses the kinds that it does not know.
fn left_out(name: &str) {
    println!("{name:<34} refused by the proved library");
}

fn sessions(name: &str, sessions: &[Vec<u8>], log: &mut [u8]) {
    sessions_by(RUNS, name, sessions, log);
}

fn boxed_sessions(name: &str, sessions: &[Vec<u8>], log: &mut [u8]) {
    sessions_by(BOX_RUNS, name, sessions, log);
}

fn sessions_by(runs: [Run; 2], name: &str, sessions: &[Vec<u8>], log: &mut [u8]) {
    if sessions.iter().any(|session| runs[0](session, log) & 0xFF != 0) {
        return left_out(name);
    }
    let records: u64 = sessions.iter().map(|session| count(session)).sum();
    let time = best(|side| {
        for session in sessions {
            assert_eq!(black_box(runs[side](black_box(session), log)) & 0xFF, 0);
        }
    });
    row(name, "sessions", sessions.len() as f64, time);
    if records > 0 {
        row(name, "records", records as f64, time);
    }
}

/// Reads the log that the proved library writes, since an older one reads no newer log.
fn log_reads(name: &str, session: &[u8], log: &mut [u8]) {
    let result = RUNS[0](session, log);
    if result & 0xFF != 0 {
        return left_out(name);
    }
    let log = &log[..(result >> 8) as usize];
    let last = count(session) - 1;
    let time = best(|side| {
        for number in [0, last] {
            assert_eq!(black_box(ANSWERS[side](black_box(log), number)) & 0xFF, 0);
        }
    });
    row(name, "reads", 2.0, time);
}

/// Writes a session again from its parts.
fn written(name: &str, session: &[u8], space: &mut [u8]) {
    let Parts { card, title, records, count } =
        writer::parts(session).expect("the session is sound");
    let time = best(|side| {
        let result = WRITES[side](card, title, black_box(records), count, space);
        assert_eq!(black_box(result) & 0xFF, 0);
    });
    row(name, "sessions", 1.0, time);
}

/// Mends a session, and what is mended again: its trailer plays no part.
fn mended(name: &str, mut session: Vec<u8>) {
    let time = best(|side| {
        assert_eq!(black_box(MENDS[side](black_box(&mut session))) & 0xFF, 0);
    });
    row(name, "sessions", 1.0, time);
}

/// The same of a session that is searched long, by the proved library in both ways.
fn searched(name: &str, mut session: Vec<u8>) {
    let [proved, second, by_search] = best_of(FEW_ROUNDS, 1, |side| {
        assert_eq!(black_box(MENDS[side](black_box(&mut session))) & 0xFF, 0);
    });
    slow_row(name, [proved, second]);
    slow_row("the same by the two-loop search", [by_search, second]);
}

/// The longest session: all its bytes are records, of any of the shortest kinds, but for one before
/// the last. From every start but the last one as many are read as may be, in vain.
fn longest_search() -> Vec<u8> {
    let mut rng = Rng::new(2024);
    let last = [0xFF, 8];
    let short = |_| rng.pick(&[1, 2, 8, 9, 11, 14]);
    let records: Vec<u8> = (SHORTEST_SESSION + last.len()..LONGEST_SESSION).map(short).collect();
    Author::new(0).text(&records).record(&last).session()
}

/// 200 sessions of 60 records each, chosen one after the other by `next`.
fn mix(next: fn(&mut Rng, &[u8], &[u8]) -> Vec<u8>) -> Vec<Vec<u8>> {
    let mut rng = Rng::new(2024);
    let session = |_| {
        let card = gen::card(&mut rng);
        gen::session_of(&mut rng, card, 60, next)
    };
    (0..200).map(session).collect()
}

/// A session of 4,096 records on a sealed card: so many at a time, over and over.
fn most(at_a_time: u16, step: fn(Author) -> Author) -> Vec<u8> {
    Author::new(0).times(usize::from(MOST_RECORDS / at_a_time), step).session()
}

/// A write, polled until the card is ready: eight records.
fn polled(author: Author) -> Author {
    let author = author.write(0, b"polled").poll();
    author.wait(4).poll().wait(4).poll().wait(2).poll()
}

fn main() {
    let mut log = vec![0; 1_100_000];
    let waiting = mix(|rng, card, state| gen::of_first_fourteen(rng, card, state, 100));
    let power_cycled = mix(gen::power_cycled);
    let empty = Author::new(0).session();
    let short = most(4, |a| a.power().select(3).read_fuses().begin());
    let zone_reads = most(1, |a| a.read(0x80, 0));
    let closed_reads = Author::new(4).put_register(0, 0xBF);
    let closed_reads = closed_reads.times(MOST_RECORDS.into(), |a| a.read(0x80, 0)).session();
    let configuration_reads = most(1, |a| a.read_configuration(0, 128));
    let passwords = most(4, |a| a.right(9).power().wrong(9).power());
    let passwords_and_waits = most(4, |a| a.right(9).ready().wrong(9).ready());
    let writes = most(8, polled);
    let staged = Author::new(0).times(512, |a| a.staged_write(0, b"survives").ready()).session();
    let met_busy = most(16, |a| a.write(0, b"busy").times(14, |a| a.read(0x80, 0)).ready());

    heading();
    sessions("realistic mix, 60 records each", &waiting, &mut log);
    sessions("mix with power cycles for waits", &power_cycled, &mut log);
    sessions("empty session", std::slice::from_ref(&empty), &mut log);
    sessions("4,096 short records", std::slice::from_ref(&short), &mut log);
    sessions("4,096 zone reads of 256", std::slice::from_ref(&zone_reads), &mut log);
    sessions("4,096 closed zone reads of 256", &[closed_reads], &mut log);
    sessions("4,096 configuration reads of 128", &[configuration_reads], &mut log);
    // Half of the records, so two sessions have 4,096.
    sessions("4,096 passwords, every other wrong", &vec![passwords; 2], &mut log);
    sessions("4,096 passwords with waits", &vec![passwords_and_waits; 2], &mut log);
    sessions("512 writes, polled until ready", &[writes], &mut log);
    sessions("512 staged writes of 8, waited for", &[staged], &mut log);
    sessions("4,096 records, most met while busy", std::slice::from_ref(&met_busy), &mut log);
    boxed_sessions("realistic mix, in the box", &waiting, &mut log);
    boxed_sessions("empty session, in the box", &[empty], &mut log);
    log_reads("log reads, 60 records", &power_cycled[0], &mut log);
    log_reads("log reads, 4,096 short records", &short, &mut log);
    log_reads("log reads, 4,096 zone reads", &zone_reads, &mut log);
    log_reads("log reads, most met while busy", &met_busy, &mut log);
    written("4,096 short records, written", &short, &mut log);
    written("60 records of a mix, written", &waiting[0], &mut log);
    mended("60 records of a mix, mended", waiting[0].clone());
    searched("65,536 bytes mended, worst case", longest_search());
}
