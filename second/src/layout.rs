//! Where things lie in a card, and how long cards, sessions and logs are. The other modules have
//! these numbers from here, by name.

pub const ZONES: usize = 8;
pub const ZONE: usize = 256;
pub const PAGE: usize = 16;

/// Where the configuration begins, behind the zones, and what has a place in it.
pub const CONFIGURATION: usize = ZONES * ZONE;
pub const REGISTERS: usize = CONFIGURATION + 0x10;
pub const AAC: usize = CONFIGURATION + 0x20;
pub const CRYPTOGRAM: usize = CONFIGURATION + 0x28;

/// The fuse byte, behind the 128 bytes of the configuration.
pub const FUSES: usize = CONFIGURATION + 0x80;

/// The staging bytes behind it: a flag, where the staged write goes, and its values.
pub const FLAG: usize = FUSES + 1;
pub const STAGED_ZONE: usize = FLAG + 1;
pub const STAGED_ADDRESS: usize = FLAG + 2;
pub const STAGED_LENGTH: usize = FLAG + 3;
pub const STAGED_VALUES: usize = FLAG + 4;

/// The most bytes of a staged write.
pub const MOST_STAGED: usize = 8;

/// The length of a card.
pub const CARD: usize = STAGED_VALUES + MOST_STAGED;

/// The length of a state as bytes.
pub const STATE: usize = 9;

/// What ends a session, and a log: a place, a count, a mark.
pub const TRAILER: usize = 8;

/// The most records of a session, and entries of a log.
pub const MOST_RECORDS: u16 = 4096;

pub const SHORTEST_SESSION: usize = CARD + TRAILER;
pub const LONGEST_SESSION: usize = 65_536;

/// The longest session that the box takes, and the most records of one.
pub const BOX_LONGEST_SESSION: usize = 4096;
pub const BOX_MOST_RECORDS: u16 = 64;

/// The longest title that the writer takes.
pub const LONGEST_TITLE: usize = 255;

/// The kind and the response length, with which each entry of a log begins.
pub const ENTRY_HEADER: usize = 3;

/// The zone behind them, in the entries that name one.
pub const ENTRY_ZONE: usize = 1;

/// The entry of a read of a whole zone.
pub const LONGEST_ENTRY: usize = ENTRY_HEADER + ENTRY_ZONE + ZONE;

/// What a log has beside its entries.
pub const SHORTEST_LOG: usize = CARD + TRAILER;

/// The log space of the printing program.
pub const LOG_SPACE: usize = 65_536;
