//! Sessions at the edges of what is accepted, and one step beyond each edge; and the same for the
//! box.

use crate::author::Author;
use crate::layout::{
    BOX_LONGEST_SESSION, BOX_MOST_RECORDS, CONFIGURATION, ENTRY_HEADER, FLAG, FUSES, LOG_SPACE,
    LONGEST_SESSION, MOST_RECORDS, MOST_STAGED, SHORTEST_LOG, STAGED_LENGTH, STAGED_ZONE, TRAILER,
    ZONE, ZONES,
};
use crate::session;
use crate::staging::READY;

/// A card whose zones hold bytes that tell their places apart.
fn marked() -> Author {
    let zone: Vec<u8> = (0..=255).collect();
    (0..ZONES).fold(Author::new(7), |author, k| {
        let turned = [&zone[32 * k..], &zone[..32 * k]].concat();
        author.put_zone(k, 0, &turned)
    })
}

/// Record `k` of a list that goes through the kinds in turn and waits for the card. The cuts that it
/// arms do not come.
fn kind_in_turn(author: Author, k: u16) -> Author {
    let byte = (k / 21) as u8;
    match k % 21 {
        0 => author.reset(),
        1 => author.select(byte % ZONES as u8),
        2 => author.write(byte, &[byte; 16]),
        4 => author.read(byte, 8),
        5 => author.write_configuration(byte % 128, &[byte; 5]),
        7 => author.read_configuration(byte % 121, 8),
        8 => author.right(byte % 16),
        10 => author.write_fuses(),
        12 => author.read_fuses(),
        13 => author.begin(),
        14 => author.poll(),
        16 => author.verdict(byte % 2, b"verdicts"),
        17 => author.power(),
        18 => author.cut(15, byte),
        19 => author.staged_write(byte, &[byte; 5]),
        _ => author.ready(),
    }
}

/// Record `k` of a list in which the kinds meet a busy card in turn, and some meet one that is off.
fn busy_in_turn(author: Author, k: u16) -> Author {
    let byte = (k / 22) as u8;
    match k % 22 {
        0 => author.power(),
        1 => author.write(byte, &[byte; 16]),
        2 => author.reset(),
        3 => author.select(byte % ZONES as u8),
        4 => author.read(byte, 8),
        5 => author.write_configuration(byte % 128, &[byte; 5]),
        6 => author.read_configuration(byte % 121, 8),
        7 => author.right(byte % 16),
        8 => author.write_fuses(),
        9 => author.read_fuses(),
        10 => author.begin(),
        11 => author.verdict(byte % 2, b"verdicts"),
        12 => author.write(!byte, &[!byte; 16]),
        13 => author.poll(),
        14 => author.wait(9),
        15 => author.staged_write(byte, &[byte; 8]),
        16 => author.cut(byte % 21, byte),
        17 => author.wait(1),
        18 => author.staged_write(!byte, &[!byte; 8]),
        19 => author.poll(),
        20 => author.wait(10),
        _ => author.staged_write(byte, &[byte; 8]),
    }
}

fn log_space(author: Author) -> usize {
    session::check(&author.session()).expect("the session is sound").log_space
}

/// As many records as a session may have, all kinds among them, that want this much log space.
///
/// The list ends in as few zone reads as bring it there, the last one not longer than needed.
fn most_records(in_turn: fn(Author, u16) -> Author, space: usize) -> Author {
    let ending = |reads: u16, last: usize| {
        let first = (0..MOST_RECORDS - 1 - reads).fold(marked(), in_turn).power();
        first.times(usize::from(reads) - 1, |a| a.read(0x80, 0)).read(0x80, last as u8)
    };
    let enough = |reads: &u16| log_space(ending(*reads, ZONE)) >= space;
    let reads = (1..MOST_RECORDS).find(enough).expect("zone reads fill the log");
    let over = log_space(ending(reads, ZONE)) - space;
    ending(reads, ZONE - over)
}

/// The longest text that the program can be asked for.
///
/// A response byte takes one byte of the log and gives three of the text. What an entry has before
/// its response takes three of the log, or four with a zone, and gives at most eight of the text:
/// four digits, a space, the kind, the line's end. The last two lines have one length in every
/// listing. What a busy card ignores takes its space and gives no response. So the text is longest
/// when the log is full, with few entries and few zones among them. Two reads of the whole
/// configuration give more for their space than one of a whole zone.
fn longest_listing() -> Author {
    let entries = LOG_SPACE - SHORTEST_LOG;
    let configuration = FUSES - CONFIGURATION;
    let whole = ENTRY_HEADER + configuration;
    let last = entries % whole - ENTRY_HEADER;
    let reads = marked().times(entries / whole, |a| a.read_configuration(0, configuration as u8));
    reads.read_configuration(0, last as u8)
}

/// The session with as much free text as makes it this long.
fn padded(author: Author, length: usize) -> Vec<u8> {
    let text = vec![b' '; length - author.clone().session().len()];
    author.text(&text).session()
}

/// Names and sessions.
pub fn all() -> Vec<(&'static str, Vec<u8>)> {
    let least = Author::new(7).session();
    let ready = Author::new(7).put_ready(ZONES as u8 - 1, 0xFF, &[0; MOST_STAGED]).power();
    let other = |place, byte| ready.clone().put(place, &[byte]).session();
    let full = most_records(kind_in_turn, LOG_SPACE);
    let busy = |space| padded(most_records(busy_in_turn, space), LONGEST_SESSION);
    vec![
        ("empty", Vec::new()),
        ("below-least", least[1..].to_vec()),
        ("least", least),
        ("greatest", padded(full.clone(), LONGEST_SESSION)),
        ("byte-more", padded(full.clone(), LONGEST_SESSION + 1)),
        ("record-more", padded(full.power(), LONGEST_SESSION)),
        ("log-byte-more", padded(most_records(kind_in_turn, LOG_SPACE + 1), LONGEST_SESSION)),
        ("busy-greatest", busy(LOG_SPACE)),
        ("busy-log-byte-more", busy(LOG_SPACE + 1)),
        ("longest-listing", longest_listing().session()),
        ("ready", ready.clone().session()),
        ("ready-zone-more", other(STAGED_ZONE, ZONES as u8)),
        ("ready-length-more", other(STAGED_LENGTH, MOST_STAGED as u8 + 1)),
        ("flag-below-ready", other(FLAG, READY - 1)),
    ]
}

/// So many records of the kinds in turn.
fn in_turn(count: u16) -> Author {
    (0..count).fold(marked(), kind_in_turn)
}

/// The session with one byte of its trailer changed, counted from the end.
fn changed(author: Author, from_end: usize, byte: u8) -> Vec<u8> {
    let mut session = author.session();
    let at = session.len() - from_end;
    session[at] = byte;
    session
}

/// Adds a last record, and makes a session with one fault.
type Fault = fn(Author) -> Vec<u8>;

/// Names and sessions with a fault each, of as many records as the box takes and of one more.
fn faults_in_the_box() -> impl Iterator<Item = (&'static str, Vec<u8>)> {
    let faults: [(&str, &str, Fault); 8] = [
        ("box-mark", "box-mark-and-more", |a| changed(a.poll(), 1, 0)),
        ("box-start", "box-start-and-more", |a| changed(a.poll(), TRAILER, 0)),
        ("box-fuses", "box-fuses-and-more", |a| a.poll().put(FUSES, &[5]).session()),
        ("box-flag", "box-flag-and-more", |a| a.poll().put(FLAG, &[READY - 1]).session()),
        ("box-kind", "box-kind-and-more", |a| a.record(&[17]).session()),
        ("box-field", "box-field-and-more", |a| a.select(ZONES as u8).session()),
        ("box-cut-short", "box-cut-short-and-more", |a| a.record(&[3]).session()),
        ("box-bytes-left", "box-bytes-left-and-more", |a| a.record(&[8, 0]).session()),
    ];
    faults.into_iter().flat_map(|(most, more, fault)| {
        [(most, fault(in_turn(BOX_MOST_RECORDS - 1))), (more, fault(in_turn(BOX_MOST_RECORDS)))]
    })
}

/// Names and sessions at the edges of what the box takes.
pub fn of_the_box() -> Vec<(&'static str, Vec<u8>)> {
    let [most, more] = [BOX_MOST_RECORDS, BOX_MOST_RECORDS + 1].map(in_turn);
    let busy = (0..BOX_MOST_RECORDS).fold(marked(), busy_in_turn);
    let reads = marked().times(BOX_MOST_RECORDS.into(), |a| a.read(0x80, 0));
    let polls = |count: u16| Author::new(7).times(count.into(), Author::poll).session();
    let sessions = [
        ("box-greatest", padded(most.clone(), BOX_LONGEST_SESSION)),
        ("box-byte-more", padded(most.clone(), BOX_LONGEST_SESSION + 1)),
        ("box-byte-more-fuses", padded(most.put(FUSES, &[5]), BOX_LONGEST_SESSION + 1)),
        ("box-record-more", padded(more.clone(), BOX_LONGEST_SESSION)),
        ("box-both-more", padded(more, BOX_LONGEST_SESSION + 1)),
        ("box-busy-greatest", padded(busy, BOX_LONGEST_SESSION)),
        // No record answers more than a read of a whole zone.
        ("box-longest-listing", reads.session()),
        ("box-4096-records", polls(MOST_RECORDS)),
        ("box-4097-records", polls(MOST_RECORDS + 1)),
    ];
    sessions.into_iter().chain(faults_in_the_box()).collect()
}
