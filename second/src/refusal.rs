//! The refusals and their numbers.

#[derive(Clone, Copy, Debug, PartialEq, Eq)]
#[repr(u8)]
pub enum Refusal {
    SessionLength = 1,
    SessionMark = 2,
    Start = 3,
    Count = 4,
    Fuses = 5,
    Kind = 6,
    Field = 7,
    CutShort = 8,
    BytesLeft = 9,
    Space = 10,
    CardLength = 11,
    State = 12,
    Log = 13,
    NoSuchAnswer = 14,
    TitleLength = 15,
    Staging = 16,
    NoStart = 17,
    BoxLimits = 18,
}

impl Refusal {
    pub fn number(self) -> u8 {
        self as u8
    }
}
