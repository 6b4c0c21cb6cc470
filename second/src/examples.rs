//! The examples a newcomer can run; each says in its free text what it shows.

use crate::author::{password, Author};
use crate::layout::TRAILER;
use crate::mender;

/// The paper's printed example, without free text.
pub fn printed() -> Author {
    Author::new(6).put_configuration(0x38, &[0xA5, 0x5A]).read_fuses().read_configuration(0x38, 2)
}

fn personalised() -> Author {
    Author::new(7)
        .text(
            b"A card is written, personalised and sealed step by step; zone 2 then wants set 3.\n",
        )
        .write_configuration(0x12, &[0b0010_1111])
        .ready()
        .select(2)
        .write(0x00, b"account 00001234")
        .ready()
        .read_fuses()
        .right(7)
        .ready()
        .write_fuses()
        .ready()
        .read_fuses()
        .write_configuration(0x0C, b"MFR1")
        .ready()
        .write_fuses()
        .ready()
        .read_fuses()
        .write_configuration(0x21, b"ID00001")
        .ready()
        .write_configuration(0x59, &[0x11, 0x22, 0x33])
        .ready()
        .write_fuses()
        .ready()
        .read_fuses()
        .write_fuses()
        .power()
        .select(2)
        .read(0x00, 16)
        .verify(3, password(3))
        .ready()
        .verify(3, [0x11, 0x22, 0x33])
        .ready()
        .read(0x00, 16)
        .write(0x08, b"00005678")
        .ready()
        .read(0x00, 16)
        .right(11)
        .ready()
        .read(0x08, 8)
        .write(0x08, b"99999999")
        .ready()
        .read(0x08, 8)
        .read_configuration(0x20, 8)
        .read_configuration(0x30, 8)
}

fn locked() -> Author {
    Author::new(0)
        .text(b"Eight wrong tries lock read password 5; the right one then does not help.\n")
        .put_register(0, 0b1011_0111)
        .put_zone(0, 0, b"guarded")
        .right(13)
        .ready()
        .read(0, 7)
        .times(8, |a| a.wrong(13).ready().read_counter(13))
        .right(13)
        .read_counter(13)
        .read(0, 7)
}

fn authentication() -> Author {
    Author::new(0)
        .text(b"Zone 0 demands authentication: refused once, then granted, then lost by reset.\n")
        .put_register(0, 0b1101_1111)
        .put_zone(0, 0, b"guarded")
        .read(0, 7)
        .begin()
        .ready()
        .read_configuration(0x20, 1)
        .verdict(0, b"badcrypt")
        .ready()
        .read(0, 7)
        .begin()
        .ready()
        .read_configuration(0x20, 1)
        .verdict(1, b"newcrypt")
        .ready()
        .read(0, 7)
        .read_configuration(0x20, 1)
        .read_configuration(0x28, 8)
        .reset()
        .read(0, 7)
}

fn closed() -> Author {
    let reads =
        |a: Author| a.power().read(0, 4).select(1).read(0xFE, 4).read_configuration(0x58, 8);
    let blown = |a: Author| a.right(7).ready().write_fuses();
    let author = Author::new(6)
        .text(b"Closed zones show F: 06, then 04, then 00. Closed configuration bytes show 00.\n")
        .put_register(0, 0b1010_1111)
        .put_zone(0, 0, b"read")
        .put_register(1, 0b1101_1111)
        .put_zone(1, 0, b"auth");
    let sealed = reads(blown(reads(blown(reads(author)))));
    sealed.right(11).ready().read(0, 4).select(0).read(0, 4)
}

fn tries() -> Author {
    Author::new(0)
        .text(b"Tries left: 7 for write password 1, 8 for 2, 0 for read password 5, 6 for AAC.\n")
        .wrong(1)
        .ready()
        .times(3, |a| a.wrong(2).ready())
        .right(2)
        .ready()
        .times(8, |a| a.wrong(13).ready())
        .right(13)
        .times(2, |a| a.begin().ready().verdict(0, b"badcrypt").ready())
}

fn busy() -> Author {
    Author::new(7)
        .text(b"A write is polled until the card is ready; a read that comes too soon shows 84.\n")
        .poll()
        .write(0x00, b"first")
        .poll()
        .times(3, |a| a.wait(4).poll())
        .read(0x00, 5)
        .write(0x00, b"second")
        .read(0x00, 6)
        .ready()
        .read(0x00, 6)
        .write(0x00, b"third")
        .power()
        .read(0x00, 5)
}

fn zones() -> Author {
    Author::new(7)
        .text(b"Each zone holds its number. The log names it too: 0, 5, 5, 5, 5, 2, 2, 0.\n")
        .each_zone(|a, zone| a.put_zone(zone.into(), 0, &[zone; 16]))
        .read(0x00, 1)
        .select(5)
        .read(0x00, 1)
        .write(0x01, b"new")
        .select(2)
        .read(0x00, 1)
        .ready()
        .read(0x00, 4)
        .select(2)
        .read(0x00, 4)
        .reset()
        .read(0x00, 1)
        .power()
        .read(0x00, 1)
}

fn torn() -> Author {
    Author::new(0)
        .text(b"A staged write that is cut is finished by power-up; cut before its flag, it is lost.\n")
        .put_zone(0, 0, b"old note")
        .read(0x00, 8)
        // Twelve cells stage the write and raise its flag, three more are the zone's.
        .cut(15, b'?')
        .staged_write(0x00, b"new note")
        .read(0x00, 8)
        .poll()
        // Power comes back, and is cut again in the finishing.
        .cut(3, b'?')
        .power()
        .read(0x00, 8)
        .power()
        .read(0x00, 8)
        // The flag is the twelfth cell.
        .cut(10, b'?')
        .staged_write(0x00, b"lost one")
        .read(0x00, 8)
        .power()
        .read(0x00, 8)
        .staged_write(0x00, b"last one")
        .ready()
        .read(0x00, 8)
}

fn refused() -> Author {
    Author::new(7)
        .text(b"The second record writes 17 bytes, so the whole session is refused with 7.\n")
        .write(0x00, &[0x11; 16])
        .write(0x00, &[0x22; 17])
        .read(0x00, 16)
}

fn wrap() -> Author {
    Author::new(0)
        .text(b"A write wraps in its page, a read rolls over in its zone, PGO only clears bits.\n")
        .put_zone(0, 0x10, &[0; 16])
        .put_register(2, 0xFE)
        .put_zone(2, 0x20, &[0xF0])
        .write(0x1E, &[1, 2, 3, 4])
        .ready()
        .read(0x10, 16)
        .write(0xFE, b"end")
        .ready()
        .read(0xF0, 16)
        .write(0x00, b"begin")
        .ready()
        .read(0xFE, 8)
        .select(1)
        .read(0x00, 4)
        .select(2)
        .write(0x20, &[0x3C])
        .ready()
        .read(0x20, 1)
}

/// What the writer is given for its example.
pub fn written() -> Author {
    Author::new(6)
        .text(b"At F = 6 write password 7 lets a note into zone 3; it is polled for and read back.")
        .right(7)
        .ready()
        .select(3)
        .write(0x00, b"a note")
        .poll()
        .ready()
        .poll()
        .read(0x00, 6)
        .read_fuses()
}

/// What the mender's example is a copy of.
pub fn copied() -> Author {
    Author::new(7)
        .text(b"A copy that ends in eight wrong bytes is mended: 5 records, and they start here:")
        .select(5)
        .write(0x00, b"kept")
        .ready()
        .read(0x00, 4)
        .read_fuses()
}

/// That copy, with eight wrong bytes for its trailer.
pub fn lost() -> Vec<u8> {
    let mut session = copied().session();
    let end = session.len() - TRAILER;
    session[end..].fill(0);
    session
}

fn practice() -> Author {
    let written = |author: Author, byte| author.write(0x00, &[byte]).ready().read(0x00, 1);
    let author = Author::new(0)
        .text(b"A ticket for eight visits: each clears a bit, and no write sets one again.\n")
        // Write password 3 alone lets a write in, and bits are only cleared.
        .put_register(2, 0b0110_1110)
        .select(2)
        .read(0x00, 1);
    let author = written(author, 0xFE).right(3).ready();
    let visits = [0xFE, 0xFC, 0xF8, 0xF0, 0xE0, 0xC0, 0x80, 0x00];
    written(visits.into_iter().fold(author, written), 0xFF)
}

fn exam() -> Author {
    Author::new(0)
        .text(b"Each zone opens to its own password: 65 records, one more than the box takes.\n")
        .each_zone(|a, zone| a.put_register(zone.into(), 0b0010_0011 | zone << 2))
        .each_zone(|a, zone| {
            let closed = a.select(zone).read(0x00, 4);
            let opened = closed.right(zone).ready().write(0x00, &[b'0' + zone; 4]).ready();
            opened.read(0x00, 4).power()
        })
        .read(0x00, 4)
}

/// Names and sessions of those that are listed for the box too.
pub fn for_the_box() -> [(&'static str, Vec<u8>); 2] {
    [("practice", practice()), ("exam", exam())].map(|(name, author)| (name, author.session()))
}

/// Names and sessions.
pub fn all() -> Vec<(&'static str, Vec<u8>)> {
    let paper = printed().text(b"The example printed in the paper.\n");
    let written = written().parts().written().expect("the writer takes its example");
    let mut mended = lost();
    mender::mend(&mut mended).expect("the mender takes its example");
    [
        ("paper", paper),
        ("personalised", personalised()),
        ("locked", locked()),
        ("authentication", authentication()),
        ("closed", closed()),
        ("tries", tries()),
        ("busy", busy()),
        ("zones", zones()),
        ("torn", torn()),
        ("refused", refused()),
        ("wrap", wrap()),
    ]
    .map(|(name, author)| (name, author.session()))
    .into_iter()
    .chain([("written", written), ("lost", lost()), ("mended", mended)])
    .chain(for_the_box())
    .collect()
}
