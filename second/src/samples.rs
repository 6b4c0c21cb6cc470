//! The sample sessions: every kind, every refusal a session can get, every fuse stage, every rule
//! of access, busy cards, every zone in the log, cuts at every cell, in a fixed order.

use crate::author::{counter, fresh_card, password, Author};
use crate::examples;
use crate::layout::{
    CARD, CONFIGURATION, FLAG, LOG_SPACE, LONGEST_ENTRY, LONGEST_SESSION, MOST_RECORDS,
    SHORTEST_SESSION, STAGED_LENGTH, ZONE,
};
use crate::session::{self, trailer};

const STAGES: [u8; 4] = [7, 6, 4, 0];

/// A register with the given switches on and the given set.
fn register(on: u8, set: u8) -> u8 {
    (0xE3 & !on) | set << 2
}

const WPE: u8 = 0x80;
const RPE: u8 = 0x40;
const ATE: u8 = 0x20;
const MDF: u8 = 0x02;
const PGO: u8 = 0x01;

/// Every zone with another mix of switches, at one stage, and with its own set.
fn mixed(fuses: u8) -> Author {
    let mixes = [0, WPE, RPE, ATE, MDF, PGO, WPE | RPE, WPE | RPE | ATE | PGO];
    mixes.into_iter().enumerate().fold(Author::new(fuses), |author, (zone, on)| {
        author.put_register(zone, register(on, zone as u8)).put_zone(
            zone,
            0,
            &[0xF0, 0x0F, 0xAA, zone as u8],
        )
    })
}

/// Those zones under several passwords.
fn registers(fuses: u8) -> Author {
    let mut author = mixed(fuses);
    for zone in 0..8 {
        author = author.select(zone).read(0, 4).write(0, &[0x3C]).ready().read(0, 4);
        for selector in [zone, zone + 8, 7] {
            author = author
                .right(selector)
                .ready()
                .read(0, 4)
                .write(1, &[0x3C + selector, 0x55])
                .ready()
                .read(0, 4);
        }
        author = author
            .begin()
            .ready()
            .verdict(1, b"granted!")
            .ready()
            .read(0, 4)
            .right(zone)
            .ready()
            .write(2, &[0x99, 0x66])
            .ready()
            .read(0, 4)
            .reset();
    }
    author
}

/// Zones closed for want of a password, of authentication or of both, read past $FF and whole, and
/// configuration bytes, closed ones among them; the same again with one fuse more blown.
fn closed(fuses: u8) -> Author {
    let wants = [RPE, ATE, RPE | ATE, WPE | RPE, WPE | ATE, RPE | MDF, ATE | PGO, 0];
    let author = wants.into_iter().enumerate().fold(Author::new(fuses), |author, (zone, on)| {
        let set = 7 - zone as u8;
        author.put_zone(zone, 0, &[0x33; ZONE]).put_register(zone, register(on, set))
    });
    let reads = |author: Author| {
        author
            .each_zone(|a, zone| a.select(zone).read(0xFE, 4).read(0x10 + zone, 1))
            .select(2)
            .read(0x80, 0)
            .read_configuration(0x2E, 20)
            .read_configuration(0x7D, 3)
    };
    // Zone 0 opens to write password 7, and zone 7 to all.
    let blown = reads(author).right(7).ready().write_fuses().ready();
    reads(reads(blown).reset())
}

/// Every configuration area read and written, under no password and under several.
fn areas(fuses: u8) -> Author {
    let mut author = Author::new(fuses).read_configuration(0, 128);
    for selector in [6, 10, 7, 15] {
        author = author.right(selector).ready().read_configuration(0, 128);
        for page in 0..8 {
            author = author.write_configuration(16 * page + 10, &[selector; 16]).ready();
        }
        author = author.read_configuration(0, 128).power();
    }
    author
}

fn shared_set(fuses: u8) -> Author {
    Author::new(fuses)
        .each_zone(|a, zone| {
            a.put_register(zone.into(), register(WPE | RPE, 4)).put_zone(
                zone.into(),
                0xFE,
                &[zone, 0x80 + zone],
            )
        })
        .right(12)
        .ready()
        .each_zone(|a, zone| a.select(zone).read(0xFD, 4))
        .right(4)
        .ready()
        .each_zone(|a, zone| {
            let a = a.select(zone).write(0xFF, &[zone, zone + 1]).ready();
            a.read(0xFD, 4)
        })
        .right(3)
        .ready()
        .read(0xFD, 4)
}

/// Right and wrong tries against a counter that starts at each of some values.
fn counters(selector: u8) -> Author {
    let values = [0xFF, 0xF0, 0x80, 0xA5, 0x01, 0x10, 0x00];
    let mut author = Author::new(7);
    let address = (counter(selector) - CONFIGURATION) as u8;
    for value in values {
        author = author
            .write_configuration(address, &[value])
            .ready()
            .wrong(selector)
            .ready()
            .read_configuration(address, 4)
            .right(selector)
            .ready()
            .read_configuration(address, 4);
    }
    author
}

fn aac() -> Author {
    let author = Author::new(6).right(7).ready();
    [0xFF, 0xF0, 0x80, 0xA5, 0x01, 0x00].into_iter().fold(author, |a, value| {
        a.write_configuration(0x20, &[value])
            .ready()
            .begin()
            .ready()
            .read_configuration(0x20, 16)
            .verdict(0, b"refused!")
            .ready()
            .begin()
            .ready()
            .verdict(1, b"accepted")
            .ready()
            .verdict(1, b"not now.")
            .read_configuration(0x20, 16)
    })
}

/// The seventeen counters, of selectors 0 to 15 and AAC, end with the tries that `left` tells of
/// their places.
fn tries(left: fn(u8) -> usize) -> Author {
    // What a counter starts with, by the tries that it ends with.
    let start = [0x20, 0x41, 0x86, 0xA5, 0xA5, 0xD7, 0xF7, 0xFF, 0x12];
    let mut author = Author::new(0).put_aac(start[left(16)]);
    for selector in 0..16 {
        let left = left(selector);
        author = author.put_counter(selector, start[left]);
        author = match left {
            // $A5 has four already.
            4 => author,
            8 => author.right(selector).ready(),
            _ => author.wrong(selector).ready(),
        };
    }
    author.begin()
}

fn lost_authentication() -> Author {
    let granted = |a: Author| a.begin().ready().verdict(1, b"12345678").ready().read(0, 2);
    let author = Author::new(0).put_register(0, register(ATE, 0)).put_zone(0, 0, b"ok");
    granted(granted(granted(author).begin().ready().read(0, 2)).reset().read(0, 2))
        .power()
        .read(0, 2)
        .verdict(1, b"too late")
        .read(0, 2)
}

/// At F = 6 the counter is rewritten while authentication is granted.
fn still_granted() -> Author {
    Author::new(6)
        .put_register(0, register(ATE, 7))
        .begin()
        .ready()
        .verdict(1, b"granted.")
        .ready()
        .right(7)
        .ready()
        .write_configuration(0x20, &[0])
        .ready()
        .begin()
        .read(0, 1)
        .write(0, &[0x42])
        .ready()
        .read(0, 1)
        .write_configuration(0x20, &[0x40])
        .ready()
        .begin()
        .ready()
        .read(0, 1)
        .begin()
        .verdict(1, b"again...")
        .ready()
        .read(0, 1)
}

fn blown_on_the_way() -> Author {
    Author::new(7)
        .put_register(0, register(MDF | WPE, 7))
        .write_fuses()
        .read_fuses()
        .write(0, &[1])
        .ready()
        .right(15)
        .ready()
        .write_fuses()
        .read_fuses()
        .right(7)
        .ready()
        .write_fuses()
        .ready()
        .write(0, &[2])
        .ready()
        .write_configuration(0x0E, &[3, 3, 3])
        .ready()
        .write_fuses()
        .ready()
        .write_configuration(0x0E, &[4, 4, 4])
        .ready()
        .write_configuration(0x1E, &[4, 4, 4])
        .ready()
        .read_configuration(0, 128)
        .write_fuses()
        .ready()
        .write_configuration(0x1E, &[5, 5, 5])
        .ready()
        .write_configuration(0x78, &[6; 16])
        .ready()
        .read_configuration(0, 128)
        .write_fuses()
        .read(0, 1)
        .read_fuses()
}

/// One wrong byte in each place, and the other passwords of the card.
fn nearly_right() -> Author {
    let near = |place: usize| {
        let mut bytes = password(9);
        bytes[place] ^= 1;
        bytes
    };
    let tried = [near(0), near(1), near(2), password(1)];
    tried
        .into_iter()
        .fold(Author::new(6), |author, bytes| author.verify(9, bytes).ready())
        .read_counter(9)
        .read_counter(1)
        .right(9)
        .ready()
        .read_counter(9)
}

/// Passwords presented in another order, without their third byte, or with something moved from one
/// byte to its neighbour; after each the counter is read.
fn traded_bytes() -> Author {
    let wrong: [(u8, [u8; 3], &[[u8; 3]]); 2] = [
        (2, [1, 2, 3], &[[3, 2, 1], [2, 1, 3], [1, 3, 2], [1, 2, 0], [0, 6, 3], [1, 0, 5]]),
        (11, [0, 1, 0], &[[0, 0, 1], [1, 0, 0], [0, 0, 0], [0, 1, 1], [0xFF, 0, 0], [0, 0, 0xFF]]),
    ];
    wrong.into_iter().fold(Author::new(0), |author, (selector, right, wrong)| {
        let at = counter(selector) + 1 - CONFIGURATION;
        let author = author.put_configuration(at, &right);
        let present = |author: Author, &bytes: &[u8; 3]| {
            author.verify(selector, bytes).ready().read_counter(selector)
        };
        present(wrong.iter().fold(author, present), &right)
    })
}

/// What power, reset and an exhausted counter leave of zone and authentication.
fn kept_and_lost() -> Author {
    Author::new(0)
        .each_zone(|a, zone| a.put_zone(zone.into(), 0, &[0x10 + zone; 256]))
        .put_register(3, register(ATE, 0))
        .put_aac(0x80)
        .select(3)
        .begin()
        .ready()
        .read(0xFF, 2)
        .verdict(1, b"granted.")
        .ready()
        .read(0xFF, 2)
        .select(2)
        .select(3)
        .read(0xFF, 2)
        .write_configuration(0x20, &[0])
        .ready()
        .times(9, |a| a.begin().ready().read(0xFF, 2).read_configuration(0x20, 1))
        .select(6)
        .reset()
        .read(0xFE, 3)
        .power()
        .read(0xFE, 3)
}

fn wrong_keeps_none() -> Author {
    Author::new(0)
        .put_register(0, register(WPE | RPE, 5))
        .put_zone(0, 0, b"data")
        .put_counter(6, 0)
        .right(5)
        .ready()
        .read(0, 4)
        .wrong(13)
        .ready()
        .read(0, 4)
        .right(5)
        .ready()
        .right(6)
        .read(0, 4)
        .write(0, b"DATA")
        .ready()
        .read(0, 4)
        .right(13)
        .ready()
        .write(0, b"nope")
        .ready()
        .read(0, 4)
}

/// Records that make the card busy and records that do not, each polled at once.
fn busy_after() -> Author {
    type Step = fn(Author) -> Author;
    let author = Author::new(4).put_register(0, register(MDF, 0)).put_counter(5, 0);
    let plain: [Step; 6] = [
        Author::reset,
        |a| a.select(0),
        |a| a.read(0, 1),
        |a| a.read_configuration(0x20, 1),
        Author::read_fuses,
        Author::power,
    ];
    let writes: [Step; 4] = [
        |a| a.write(0, b"forbidden"),
        |a| a.write_configuration(0x00, b"forbidden"),
        |a| a.write_configuration(0x38, b"allowed"),
        Author::write_fuses,
    ];
    // Write password 5 is locked.
    let passwords: [Step; 7] = [
        |a| a.right(5),
        |a| a.wrong(5),
        |a| a.wrong(3),
        |a| a.right(3),
        Author::write_fuses,
        |a| a.right(15),
        Author::write_fuses,
    ];
    let verdicts: [Step; 8] = [
        |a| a.verdict(0, b"too soon"),
        |a| a.verdict(1, b"too soon"),
        Author::begin,
        |a| a.verdict(0, b"rejected"),
        |a| a.verdict(1, b"too late"),
        Author::begin,
        |a| a.verdict(1, b"accepted"),
        |a| a.verdict(0, b"too late"),
    ];
    // AAC is set to $00, and the last fuse blown.
    let last: [Step; 7] = [
        |a| a.right(7),
        |a| a.write_configuration(0x20, &[0]),
        Author::begin,
        Author::write_fuses,
        Author::write_fuses,
        |a| a.select(1),
        |a| a.write(0, b"allowed"),
    ];
    let steps = [&plain[..], &writes, &passwords, &verdicts, &last].concat();
    steps.into_iter().fold(author, |author, step| step(author).poll().ready())
}

/// Every kind meets a busy card; what is read and done afterwards shows that nothing came of it.
fn met_while_busy() -> Author {
    Author::new(7)
        .right(7)
        .ready()
        .begin()
        .ready()
        .select(1)
        .write(0, b"stored")
        .reset()
        .select(5)
        .read(0, 6)
        .write(0, b"ignored")
        .read_configuration(0x00, 4)
        .write_configuration(0x38, b"ignored")
        .read_fuses()
        .write_fuses()
        .wrong(7)
        .begin()
        .verdict(0, b"ignored.")
        .poll()
        .wait(9)
        .write(0, b"ignored")
        .poll()
        .wait(1)
        .poll()
        .read(0, 8)
        .read_configuration(0x20, 1)
        .read_configuration(0x38, 8)
        .read_counter(7)
        .write_fuses()
        .read_fuses()
        .ready()
        .read_fuses()
        .verdict(1, b"verdicts")
        .ready()
        .read_configuration(0x28, 8)
        .write(0, b"last")
        .power()
        .poll()
        .select(1)
        .read(0, 8)
        .write(0, b"kept out")
}

/// Waits shorter than a write, as long, and longer; the last write is polled every millisecond.
fn waits() -> Author {
    let waited = |a: Author, n| a.write(n, &[n]).wait(n).poll().read(n, 1).ready().poll();
    let author = [1, 2, 9, 10, 11, 255].into_iter().fold(Author::new(7).wait(255).poll(), waited);
    author.write(0, &[0]).poll().times(11, |a| a.wait(1).poll()).read(0, 1)
}

/// Every zone begins with its number.
fn numbered(fuses: u8) -> Author {
    Author::new(fuses).each_zone(|a, zone| a.put_zone(zone.into(), 0, &[zone, 0x10 + zone]))
}

/// Reads and writes of every zone, the configuration beside them; a reset keeps the zone selected,
/// a power cycle does not.
fn selected() -> Author {
    let touched = |a: Author| {
        let a = a.read(0, 2).read_configuration(0x38, 1).write(1, &[0x5A]).ready();
        a.write_configuration(0x38, &[0xA5]).ready().read(0, 2)
    };
    let author = numbered(7).each_zone(|a, zone| touched(touched(a).select(7 - zone)));
    touched(touched(author.select(6).reset()).power())
}

/// Reads and writes of every zone of a busy card. Another zone is not selected meanwhile; power
/// ends the busy time and selects zone 0.
fn selected_while_busy() -> Author {
    let met =
        |a: Author, zone| a.read(0, 2).write(1, &[0xEE]).select(zone).read(0, 2).write(1, &[0xEE]);
    let author = numbered(0).each_zone(|a, zone| {
        let a = met(a.select(zone).write(1, &[0x20 + zone]), 7 - zone).read_configuration(0, 1);
        a.ready().read_configuration(0, 1).read(0, 2)
    });
    met(author.begin(), 3).power().read(0, 2).select(4).write(1, &[0x5A]).power().read(0, 2)
}

/// Every zone read and written under several passwords; some reads are closed, some writes kept
/// out.
fn selected_and_closed() -> Author {
    let author = numbered(4).put_register(5, register(RPE, 5)).put_register(6, register(MDF, 6));
    [5, 13, 6, 7].into_iter().fold(author, |author, selector| {
        author.right(selector).ready().each_zone(|a, zone| {
            a.select(zone).read(0, 2).write(0xFF, &[zone]).ready().read(0xFF, 3)
        })
    })
}

/// Those zones of mixed switches written by staged writes: without a password, with one, and with
/// authentication too; one byte more in each zone than in the last, over a page's end.
fn staged(fuses: u8) -> Author {
    mixed(fuses).each_zone(|author, zone| {
        let data = &[0x3C, 0x5A, 0x96, 0x0F, 0xC3, 0xA5, 0x69, 0xF0][..=usize::from(zone)];
        let written = |a: Author| a.staged_write(0x0F, data).poll().ready().read(0xFE, 18);
        let a = written(author.select(zone)).right(zone).ready();
        let a = written(a).begin().ready().verdict(1, b"granted!").ready();
        written(a).reset()
    })
}

/// Staged writes of `n` bytes cut at every cell, the last one not at all; power then finishes what
/// is ready. Each goes to a page of its own, over its end.
fn cut_everywhere(author: Author, n: u8, junk: u8) -> Author {
    (0..=2 * n + 5).fold(author, |author, after| {
        let address = after << 4 | 0x0E;
        let author =
            author.put_zone(usize::from(after % 8), usize::from(address & 0xF0), &[0x77; 16]);
        let data: Vec<u8> = (0..n).map(|i| (0x39 ^ (0x11 * i)) + after).collect();
        let author = author.select(after % 8).cut(after, junk).staged_write(address, &data);
        author.poll().power().poll().select(after % 8).read(address & 0xF0, 16)
    })
}

/// A write of eight bytes, cut when it has just become ready, is cut again at every cell of the
/// finishing, and once more at the same one; then it is finished.
fn cut_again(junk: u8) -> Author {
    (0..=9).fold(Author::new(7), |author, after| {
        let address = after << 4 | 0x0A;
        let author = author.cut(12, junk).staged_write(address, &[after; 8]).power();
        let author = author.cut(12, junk).staged_write(address, &[0xA0 + after; 8]);
        let author = author.cut(after, junk).power().poll().cut(after, !junk).power().poll();
        author.power().poll().read(address & 0xF0, 16)
    })
}

/// Every kind, in a state in which all but power cycles and cuts come to nothing.
fn met_while_torn(author: Author) -> Author {
    let met = author.reset().select(5).read(0, 6).write(0, b"ignored").staged_write(0, b"ignored");
    let met = met.read_configuration(0, 4).write_configuration(0x38, b"ignored");
    let met = met.read_fuses().write_fuses().right(7).wrong(7).begin().verdict(1, b"ignored.");
    met.wait(1).wait(255).poll()
}

/// Every kind meets a card that is off, and one that has something to finish.
fn off_and_ready() -> Vec<Author> {
    let off = Author::new(7).right(7).ready().select(3).cut(8, 0x99).staged_write(0x2E, b"new");
    let ready = |values: &[u8]| Author::new(0).put_ready(6, 0x3F, values);
    let then = |a: Author, zone, address| {
        let a = met_while_torn(a).cut(0, 0x66).power();
        let a = met_while_torn(a).power().select(zone).read(address, 16);
        a.poll().staged_write(address, b"after").power().select(zone).read(address, 16)
    };
    vec![
        then(off, 3, 0x20),
        then(ready(b""), 6, 0x30),
        then(ready(b"f"), 6, 0x30),
        then(ready(b"finished"), 6, 0x30),
    ]
}

/// What keeps a cut armed, what spends it, and what takes its place.
fn arming() -> Author {
    let staged = |a: Author| a.staged_write(0x10, b"staged").poll().wait(10).poll();
    let author = Author::new(0).put_register(1, register(MDF, 0));
    // Forbidden writes, resets and power cycles keep it; a later one replaces it.
    let author = staged(author.cut(3, 0).select(1)).reset().power().cut(20, 0).power().cut(4, 1);
    let author = staged(author).power().read(0x10, 6);
    // 17 cells are all, so that the cut does not come, and is spent.
    let author = staged(staged(author.cut(17, 0))).read(0x10, 6);
    let author = staged(staged(author.cut(255, 0))).read(0x10, 6);
    // A cut is armed while the card is busy.
    let author = author.write(0, b"busy").cut(16, 0x10).poll().ready();
    staged(staged(author)).cut(7, 0).power().cut(6, 1).power().poll().power().read(0x10, 6)
}

/// A session as its parts say, however wrong they are.
fn raw(fuses: u8, records: &[u8], start: usize, count: u16) -> Vec<u8> {
    [&fresh_card(fuses)[..], records, &trailer(start, count)].concat()
}

fn changed(mut session: Vec<u8>, from_end: usize, byte: u8) -> Vec<u8> {
    let at = session.len() - from_end;
    session[at] = byte;
    session
}

fn accepted() -> Vec<Author> {
    let mut all: Vec<Author> = vec![Author::new(7), examples::printed()];
    all.extend(STAGES.map(registers));
    all.extend(STAGES.map(areas));
    all.extend(STAGES.map(staged));
    all.extend(off_and_ready());
    all.extend([6, 4].map(closed));
    all.extend([7, 0].map(shared_set));
    all.extend([0, 7, 8, 13].map(counters));
    all.extend([
        aac(),
        // Counters that end alike in one of the two differ in the other.
        tries(|place| usize::from(place % 9)),
        tries(|place| usize::from(8 - place / 2)),
        lost_authentication(),
        blown_on_the_way(),
        wrong_keeps_none(),
        nearly_right(),
        traded_bytes(),
        kept_and_lost(),
        still_granted(),
        busy_after(),
        met_while_busy(),
        waits(),
        selected(),
        selected_while_busy(),
        selected_and_closed(),
        cut_everywhere(Author::new(7), 1, 0xFE),
        cut_everywhere(Author::new(7), 8, 0x01),
        cut_everywhere(Author::new(0), 8, 0xFE),
        cut_everywhere(Author::new(0).each_zone(|a, z| a.put_register(z.into(), 0xFE)), 5, 0xFE),
        cut_again(0x5A),
        cut_again(0xA5),
        arming(),
        Author::new(4).times(MOST_RECORDS.into(), Author::power),
        Author::new(0).reset().select(7).reset().read(0, 0),
        Author::new(0).read(0xFF, 0).read(0xFE, 3).read(0, 1),
        Author::new(7).write(0x1E, &[1, 2, 3, 4]).ready().read(0x0F, 18),
        Author::new(7).write(0x07, &[7; 16]).ready().read(0, 0x20),
        Author::new(6).read_configuration(0x7F, 1).write(0, &[9]),
        Author::new(0).right(7).ready().write_configuration(0x7F, &[1, 2]),
    ]);
    all
}

fn refused() -> Vec<Vec<u8>> {
    let empty = raw(7, &[], CARD, 0);
    let one = |bytes: &[u8]| raw(6, bytes, CARD, 1);
    vec![
        Vec::new(),
        empty[..SHORTEST_SESSION - 1].to_vec(),
        Author::new(7).text(&vec![b'.'; LONGEST_SESSION + 1 - SHORTEST_SESSION]).session(),
        changed(empty.clone(), 2, 0x45),
        changed(empty.clone(), 1, 0x53),
        raw(7, &[], CARD - 1, 0),
        raw(7, &[8], CARD + 2, 0),
        changed(empty.clone(), 5, 1),
        raw(5, &[], CARD, MOST_RECORDS + 1),
        raw(5, &[8], CARD, 1),
        raw(8, &[8], CARD, 1),
        Author::new(5).put(FLAG, &[0xFD]).session(),
        Author::new(6).put(FLAG, &[0xFD]).session(),
        Author::new(7).put(FLAG, &[0x7F]).record(&[0]).session(),
        Author::new(0).put_ready(8, 0, b"no zone").session(),
        Author::new(0).put_ready(7, 0, b"too long").put(STAGED_LENGTH, &[9]).session(),
        one(&[0]),
        one(&[17]),
        one(&[3, 8]),
        one(&[3, 0x11]),
        one(&[5, 0, 0]),
        one(&[5, 0, 17]),
        one(&[6, 0x7F, 2]),
        one(&[6, 0x80, 1]),
        one(&[6, 0, 0]),
        one(&[6, 1, 0xFF]),
        one(&[7, 0x80, 1]),
        one(&[10, 16]),
        one(&[12, 2]),
        one(&[13, 0]),
        one(&[15, 0, 0]),
        one(&[15, 0, 9]),
        raw(7, &[], CARD, 1),
        one(&[3]),
        one(&[6, 0xFF]),
        one(&[5, 0, 2, 1]),
        one(&[10, 0, 1, 2]),
        one(&[12, 1, 1, 2, 3, 4, 5, 6, 7]),
        one(&[13]),
        one(&[15, 0]),
        one(&[15, 0, 8, 1]),
        one(&[16, 0]),
        raw(7, &[8, 8], CARD, 1),
        raw(7, &[8], CARD, 0),
        Author::new(7).times(255, |a| a.read(0, 0)).session(),
    ]
}

/// These records, then reads of whole zones and of what is left, so that the session wants this
/// much log space.
fn logging(author: Author, space: usize) -> Vec<u8> {
    let begun = session::check(&author.clone().session()).expect("the session is sound");
    let entries = space - begun.log_space;
    let last = entries % LONGEST_ENTRY - (LONGEST_ENTRY - ZONE);
    author.times(entries / LONGEST_ENTRY, |a| a.read(0, 0)).read(0, last as u8).session()
}

pub fn all() -> Vec<Vec<u8>> {
    let mut all: Vec<Vec<u8>> = accepted().into_iter().map(Author::session).collect();
    // A card that is ready, and one too busy to be read.
    for author in [Author::new(7), Author::new(7).write(0, &[7])] {
        all.push(logging(author.clone(), LOG_SPACE));
        all.push(logging(author, LOG_SPACE + 1));
    }
    all.push(
        Author::new(0)
            .text(&vec![b'-'; LONGEST_SESSION - SHORTEST_SESSION - 8])
            .verify(3, password(3))
            .ready()
            .read_fuses()
            .session(),
    );
    all.extend(refused());
    all
}
