//! The state of a card beside its bytes, and the numbers it is made of.

use crate::layout::STATE;

/// A user zone, 0–7.
#[derive(Clone, Copy, Debug, PartialEq, Eq)]
pub struct Zone(u8);

impl Zone {
    pub const FIRST: Zone = Zone(0);

    pub fn new(number: u8) -> Option<Zone> {
        (number < 8).then_some(Zone(number))
    }

    pub fn number(self) -> usize {
        usize::from(self.0 & 7)
    }
}

/// A password set, 0–7.
#[derive(Clone, Copy, Debug, PartialEq, Eq)]
pub struct PwSet(u8);

impl PwSet {
    /// The set named by the low three bits.
    pub const fn low_bits(bits: u8) -> PwSet {
        PwSet(bits & 7)
    }

    pub fn number(self) -> usize {
        usize::from(self.0 & 7)
    }
}

/// One of the sixteen passwords.
#[derive(Clone, Copy, Debug, PartialEq, Eq)]
pub enum Password {
    Write(PwSet),
    Read(PwSet),
}

impl Password {
    /// Write password 7, the security code.
    pub const SECURITY_CODE: Password = Password::Write(PwSet(7));

    pub fn from_selector(selector: u8) -> Option<Password> {
        match selector {
            0..=7 => Some(Password::Write(PwSet(selector))),
            8..=15 => Some(Password::Read(PwSet(selector - 8))),
            _ => None,
        }
    }

    pub fn selector(self) -> u8 {
        match self {
            Password::Write(set) => set.0,
            Password::Read(set) => set.0 + 8,
        }
    }
}

#[derive(Clone, Copy, Debug, PartialEq, Eq)]
pub enum Authentication {
    Idle,
    Begun,
    Granted,
}

/// How many milliseconds a card is still busy, 0–10; it is ready at 0.
#[derive(Clone, Copy, Debug, PartialEq, Eq)]
pub struct Busy(u8);

impl Busy {
    pub const READY: Busy = Busy(0);
    /// A write has just begun.
    pub const WRITING: Busy = Busy(10);

    pub fn new(milliseconds: u8) -> Option<Busy> {
        (milliseconds <= Busy::WRITING.0).then_some(Busy(milliseconds))
    }

    pub fn is_ready(self) -> bool {
        self == Busy::READY
    }

    /// What is left when so many milliseconds have passed.
    pub fn after(self, milliseconds: u8) -> Busy {
        Busy(self.0.saturating_sub(milliseconds))
    }
}

/// A cut of the power in a row of cell writes: after how many of them, and what the next cell then
/// holds.
#[derive(Clone, Copy, Debug, PartialEq, Eq)]
pub struct Cut {
    pub after: u8,
    pub junk: u8,
}

/// The state of a card. All but the armed cut is lost with power.
#[derive(Clone, Copy, Debug, PartialEq, Eq)]
pub struct State {
    pub zone: Zone,
    pub active: Option<Password>,
    pub authentication: Authentication,
    pub busy: Busy,
    /// Power was cut and has not come back.
    pub off: bool,
    /// The cut that is to come.
    pub armed: Option<Cut>,
}

impl State {
    pub const POWER_UP: State = State {
        zone: Zone::FIRST,
        active: None,
        authentication: Authentication::Idle,
        busy: Busy::READY,
        off: false,
        armed: None,
    };

    /// Nine bytes: zone, whether a password is active, its selector, authentication, busy time,
    /// whether the card is off, whether a cut is armed, after how many cell writes, its junk.
    pub fn from_bytes(bytes: &[u8]) -> Option<State> {
        let &[zone, some, selector, authentication, busy, off, armed, after, junk] = bytes else {
            return None;
        };
        Some(State {
            zone: Zone::new(zone)?,
            active: match (some, selector) {
                (0, 0) => None,
                (1, _) => Some(Password::from_selector(selector)?),
                _ => return None,
            },
            authentication: match authentication {
                0 => Authentication::Idle,
                1 => Authentication::Begun,
                2 => Authentication::Granted,
                _ => return None,
            },
            busy: Busy::new(busy)?,
            off: match off {
                0 => false,
                1 => true,
                _ => return None,
            },
            armed: match (armed, after, junk) {
                (0, 0, 0) => None,
                (1, _, _) => Some(Cut { after, junk }),
                _ => return None,
            },
        })
    }

    pub fn to_bytes(self) -> [u8; STATE] {
        let [armed, after, junk] = self.armed.map_or([0; 3], |cut| [1, cut.after, cut.junk]);
        [
            self.zone.0,
            u8::from(self.active.is_some()),
            self.active.map_or(0, Password::selector),
            self.authentication as u8,
            self.busy.0,
            u8::from(self.off),
            armed,
            after,
            junk,
        ]
    }
}
